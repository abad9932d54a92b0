#!/usr/bin/env python3
"""A second reading of the script: what flume-tags has to answer, in plain sets and searches.

    reference/flume_tags.py < SCRIPT
    reference/flume_tags.py --dir DIRECTORY < SCRIPT
    reference/flume_tags.py --workers W [--dir DIRECTORY] < SCRIPT

It is written from docs/SCRIPT.md, docs/FORMATS.md and docs/REFUSALS.md, and where these are silent
from the rows of examples/rows, but not from the sources that are proved. It is what a reader judges
the semantics by, and what reference/compare holds the program against. It takes no care of time,
and has no limit on the bytes of a script. Each line is answered before the next one is read. Memory
is never wanted, and no keeper fails but where there is no directory.

Over a directory it keeps what nodes saved in files of its own, node-<n>.json.

With workers it does all jobs in the order of their lines, as one worker does. What more of them
answer may differ where the documents say so.

A name is a pair of numbers. A capability is a name with the place of its sign in "+-*^". A pid is
a triple. An operation is a tuple: its kind, and what its line in the registry's text has behind it.
So Python's order of tuples is the order of names, of capabilities and of pids.
"""
import argparse
import dataclasses
import hashlib
import io
import json
import pathlib
import re
import sys

MOST = 4_294_967_295
SIGNS = "+-*^"
PLUS, MINUS, USE, GROW = range(4)
POLICIES = ("export", "read", "integrity")
KINDS = ("tag", "group", "put", "login", "open")
LINE_BYTES, LABEL_TAGS, ENDPOINTS, INBOX = 20_000, 256, 64, 256
MESSAGE_CAPS, MESSAGE_BYTES, DELTA, SPANS, ALIASES = 64, 1024, 64, 512, 1024


class BadLine(Exception):
    """The line is none of the script."""


class Refused(Exception):
    """A line is refused: the number of the refusal, and its details as texts."""

    def __init__(self, number, *details):
        super().__init__(number)
        self.text = " ".join([f"F{number}", *map(str, details)])


# Words: each function reads one word, or finds that it is of another form.


def number(word):
    if not re.fullmatch(r"[1-9][0-9]{0,9}", word, re.ASCII) or int(word) > MOST:
        raise BadLine
    return int(word)


def numbers(word, count):
    parts = word.split(".")
    if len(parts) != count:
        raise BadLine
    return tuple(map(number, parts))


def name(word):
    return numbers(word, 2)


def pid(word):
    if not word.startswith("p"):
        raise BadLine
    return numbers(word[1:], 3)


def cap(word):
    if word[:1] not in tuple(SIGNS):
        raise BadLine
    return name(word[1:]), SIGNS.index(word[0])


def listing(word, read):
    """Reads what stands between braces: any order, and a repeated member once."""
    if not re.fullmatch(r"\{.*\}", word, re.DOTALL):
        raise BadLine
    return frozenset(map(read, word[1:-1].split(","))) if word != "{}" else frozenset()


def label(word):
    """May be longer than a label is: that is F13, and no bad line."""
    return listing(word, name)


def caps(word):
    return listing(word, cap)


def few_caps(word):
    found = caps(word)
    if len(found) > MESSAGE_CAPS:
        raise BadLine
    return found


def endpoint(word):
    if not word.startswith("e") or number(word[1:]) > ENDPOINTS:
        raise BadLine
    return int(word[1:])


def data(word):
    if not re.fullmatch(r"none|([0-9a-fA-F]{2})+", word):
        raise BadLine
    return b"" if word == "none" else bytes.fromhex(word)


def few_data(word):
    found = data(word)
    if len(found) > MESSAGE_BYTES:
        raise BadLine
    return found


def secret(word):
    found = data(word)
    if len(found) != 32:
        raise BadLine
    return found


def one_of(*words):
    def read(word):
        if word not in words:
            raise BadLine
        return word
    return read


policy, mode = one_of(*POLICIES), one_of("r", "w", "rw")
side, the_word_kept = one_of("S", "I"), one_of("kept")

# Texts.


def name_text(it):
    return f"{it[0]}.{it[1]}"


def cap_text(it):
    return SIGNS[it[1]] + name_text(it[0])


def pid_text(it):
    return "p" + ".".join(map(str, it))


def caps_text(them):
    return "{" + ",".join(map(cap_text, sorted(them))) + "}"


def data_text(them):
    return them.hex() or "none"


def operation_text(it, operation):
    return " ".join([name_text(it), *operation])


def place(word):
    """A word of an operation is ordered as its bytes are: a capability by its sign first."""
    if word in POLICIES:
        return POLICIES.index(word)
    if word[0] in SIGNS:
        return cap(word)[::-1]
    return name(word) if "." in word else word


def order(named):
    """Where an operation stands: by its name, and then by its bytes."""
    it, (kind, *words) = named
    return it, KINDS.index(kind), list(map(place, words))


def registry_text(named):
    return [operation_text(*one) for one in sorted(named, key=order)]


# The rules of labels. `has` is the set of capabilities that a process has in effect.


def reached(roots, operations):
    """What is reached from these: a group's use reaches what was put into the group."""
    found, waiting = set(roots), list(roots)
    while waiting:
        holder, sign = waiting.pop()
        for operation in operations.values() if sign == USE else ():
            if operation[:2] == ("put", name_text(holder)):
                inner = cap(operation[2])
                if inner not in found:
                    found.add(inner)
                    waiting.append(inner)
    return found


def everybodys(operations):
    """What everybody has at a node that has published these."""
    for it, operation in operations.items():
        if operation == ("tag", "export"):
            yield it, PLUS
        elif operation == ("tag", "integrity"):
            yield it, MINUS
        elif operation[0] == "open":
            yield name(operation[1]), USE


def take(wanted, has):
    """Refuses what takes these where one is wanting: the least is named."""
    wanting = set(wanted) - has
    if wanting:
        raise Refused(3, cap_text(min(wanting)))


def undual(tags, has):
    """The tags of these that may not be both added and removed."""
    return {it for it in tags if not {(it, PLUS), (it, MINUS)} <= has}


def not_too_long(*labels):
    if any(len(it) > LABEL_TAGS for it in labels):
        raise Refused(13)


@dataclasses.dataclass
class Endpoint:
    mode: str
    S: frozenset
    I: frozenset

    def unsafe(self, process_S, process_I, has):
        """The tags that it would let past the labels of its process."""
        tags = set()
        if "r" in self.mode:
            tags |= (self.S - process_S) | (process_I - self.I)
        if "w" in self.mode:
            tags |= (process_S - self.S) | (self.I - process_I)
        return undual(tags, has)


@dataclasses.dataclass
class Process:
    pid: tuple
    owned: frozenset
    S: frozenset = frozenset()
    I: frozenset = frozenset()
    endpoints: dict = dataclasses.field(default_factory=dict)
    inbox: list = dataclasses.field(default_factory=list)

    def find(self, at):
        if at not in self.endpoints:
            raise Refused(2, f"e{at}")
        return self.endpoints[at]


def all_safe(endpoints, process_S, process_I, has):
    """Refuses what would leave an endpoint unsafe: the least one is named, with its least tag."""
    for at in sorted(endpoints):
        tags = endpoints[at].unsafe(process_S, process_I, has)
        if tags:
            raise Refused(4, f"e{at}", name_text(min(tags)))


# Packets: windows, operations and messages.


@dataclasses.dataclass
class Window:
    """What names its sender has saved between two names: spans of one node each."""
    first: tuple
    last: tuple
    spans: list

    def lacks(self, operations):
        """What its sender lacks of these, within the window."""
        def is_told(it):
            return any(it[0] == node and low <= it[1] <= high for node, low, high in self.spans)
        return {it: operations[it] for it in sorted(operations)
                if self.first <= it <= self.last and not is_told(it)}


@dataclasses.dataclass
class Operations:
    operations: dict


@dataclasses.dataclass
class Message:
    sender: tuple
    sender_end: int
    receiver: tuple
    receiver_end: int
    S: frozenset
    I: frozenset
    caps: frozenset
    data: bytes


def windows_of(names):
    """The windows of all names that are saved, which together cover every name once."""
    spans = []
    for node, seq in sorted(names):
        if spans and spans[-1][0] == node and spans[-1][2] == seq - 1:
            spans[-1][2] = seq
        else:
            spans.append([node, seq, seq])
    groups = [spans[at:at + SPANS] for at in range(0, len(spans), SPANS)] or [[]]
    first = (1, 1)
    for group in groups[:-1]:
        last = (group[-1][0], group[-1][2])
        yield Window(first, last, group)
        first = (last[0], last[1] + 1) if last[1] < MOST else (last[0] + 1, 1)
    yield Window(first, (MOST, MOST), groups[-1])


class Reader:
    """Reads the bytes of a packet field by field. A fault is told by where its field begins."""

    def __init__(self, content):
        self.content, self.at, self.field, self.node_bytes = content, 0, 0, 4

    def bytes(self, count):
        self.field, self.at = self.at, self.at + count
        self.hold(self.at <= len(self.content))
        return self.content[self.field:self.at]

    def hold(self, holds):
        """The last field that was read has to be so."""
        if not holds:
            raise Refused(18, self.field)

    def number(self, count, low, high):
        found = int.from_bytes(self.bytes(count), "big")
        self.hold(low <= found <= high)
        return found

    def name(self):
        found = self.bytes(self.node_bytes + 4)
        it = (int.from_bytes(found[:-4], "big"), int.from_bytes(found[-4:], "big"))
        self.hold(all(it))
        return it

    def operation(self, form, before):
        """An operation of a format, whose name is greater than that before."""
        self.number(1, form, form)
        kind = self.number(1, 1, 5 if form == 2 else 4)
        it = self.name()
        self.hold(it > before)
        if kind == 1:
            return it, ("tag", POLICIES[self.number(1, 1, 3) - 1])
        if kind == 2:
            return it, ("group",)
        group = name_text(self.name()) if kind != 4 else None
        if kind == 5:
            return it, ("open", group)
        sign = self.number(1, 1, 4) - 1
        right = cap_text((self.name(), sign))
        return it, ("put", group, right) if kind == 3 else ("login", right, self.bytes(32).hex())

    def operations(self, form):
        found, before = {}, (0, 0)
        for _ in range(self.number(1, 1, DELTA)):
            before, operation = self.operation(form, before)
            found[before] = operation
        return Operations(found)

    def window(self):
        first = self.name()
        last = self.name()
        self.hold(first <= last)
        spans = []
        for _ in range(self.number(2, 0, SPANS)):
            node, low = self.name()
            self.hold(first <= (node, low))
            if spans:
                self.hold(node > spans[-1][0] or node == spans[-1][0] and low >= spans[-1][2] + 2)
            high = self.number(4, low, MOST)
            self.hold((node, high) <= last)
            spans.append([node, low, high])
        return Window(first, last, spans)

    def end(self):
        """A pid, and an endpoint."""
        it = tuple(self.number(size, 1, MOST) for size in (self.node_bytes, 4, 4))
        return it, self.number(1, 1, ENDPOINTS)

    def rising(self, count, read):
        found = []
        for _ in range(count):
            found.append(read())
            self.hold(found[:-1] == [] or found[-2] < found[-1])
        return frozenset(found)

    def cap(self):
        """One field: a kind and a name."""
        found = self.bytes(self.node_bytes + 5)
        it = (int.from_bytes(found[1:-4], "big"), int.from_bytes(found[-4:], "big"))
        self.hold(1 <= found[0] <= 4 and all(it))
        return it, found[0] - 1

    def message(self):
        ends = *self.end(), *self.end()
        S = self.rising(self.number(2, 0, LABEL_TAGS), self.name)
        I = self.rising(self.number(2, 0, LABEL_TAGS), self.name)
        rights = self.rising(self.number(1, 0, MESSAGE_CAPS), self.cap)
        content = self.bytes(self.number(2, 0, MESSAGE_BYTES))
        return Message(*ends, S, I, rights, content)

    def packet(self):
        form = self.number(1, 0xF1, 0xF2) - 0xF0
        self.node_bytes = 2 * form
        kind = self.number(1, 1, 4)
        reads = {1: lambda: self.operations(form), 2: self.window, 4: self.message}
        found = reads.get(kind, reads[1])()
        self.field = self.at
        self.hold(self.at == len(self.content))
        return found


# Nodes.


@dataclasses.dataclass
class Pending:
    """What is on its way: operations, who ordered them if it is an order, and if they are saved."""
    operations: dict
    maker: Process | None
    is_saved: bool = False


class Node:
    """A node: what it saved, what it published, what is on its way, and its processes."""

    def __init__(self, itself, boot, saved):
        self.number, self.saved, self.boot, self.is_stopped = itself, saved, boot, False
        self.open()

    def open(self):
        self.published, self.pending = dict(sorted(self.saved.items())), None
        self.processes, self.serial = {}, 0

    def find(self, it):
        """The process of a pid, where nothing of it is under way."""
        if it not in self.processes:
            raise Refused(1, pid_text(it))
        if self.pending and self.pending.maker is self.processes[it]:
            raise Refused(24)
        return self.processes[it]

    def has(self, owned):
        """What is in effect for who owns these."""
        return reached(owned | set(everybodys(self.published)), self.published)

    def bear(self, owned, S, I):
        if self.serial == MOST:
            raise Refused(12)
        self.serial += 1
        it = (self.number, self.boot, self.serial)
        self.processes[it] = Process(it, owned, S, I)
        return pid_text(it)

    def begin(self, operations, maker):
        if self.pending:
            raise Refused(24)
        self.pending = Pending(operations, maker)

    def order(self, maker, operation):
        """An order gets the next name of its node."""
        if self.pending:
            raise Refused(24)
        last = max((seq for node, seq in self.saved if node == self.number), default=0)
        if last == MOST:
            raise Refused(12)
        self.begin({(self.number, last + 1): operation}, maker)
        return name_text((self.number, last + 1))

    def due(self, is_saved):
        if not self.pending or self.pending.is_saved != is_saved:
            raise Refused(24)
        return self.pending

    def save(self):
        pending = self.due(False)
        self.saved |= pending.operations
        pending.is_saved = True
        return "ok"

    def publish(self):
        pending = self.due(True)
        self.published |= pending.operations
        self.pending = None
        if not pending.maker:
            return f"took {len(pending.operations)}"
        [(it, operation)] = pending.operations.items()
        given = {"tag": {(it, PLUS), (it, MINUS)}, "group": {(it, USE), (it, GROW)}}
        pending.maker.owned |= given.get(operation[0], set())
        return f"ok {name_text(it)}"

    def cancel(self):
        self.due(False)
        self.pending = None
        return "ok"

    def restart(self, keeps):
        if keeps and self.pending and not self.pending.is_saved:
            self.save()
        if self.boot == MOST:
            self.is_stopped = True
            raise Refused(12)
        self.boot, self.is_stopped = self.boot + 1, False
        self.open()
        return f"boot {self.boot}"

    def new(self, operations):
        return {it: operations[it] for it in operations if it not in self.saved}

    def check_neighbour(self, operations):
        """Refuses another operation of a name, or one of this node that it never saved."""
        for it in sorted(operations):
            if it in self.saved and self.saved[it] != operations[it]:
                raise Refused(16, name_text(it))
            if it[0] == self.number and it not in self.saved:
                raise Refused(17, name_text(it))


# What a line does. Each is a function of the session, which is called the world here, of its node
# and of what its words say.


class Session:
    """What is common to the lines of a run: how packets are read, and how much was admitted.

    Where a packet goes is a matter of the kind of session: `send` answers the line that sent a
    message, and `tell` one that told packets.
    """

    def __init__(self):
        self.admitted = 0

    def admit(self, answer):
        self.admitted += 1
        return answer

    def read(self, content):
        """The packet of these bytes."""
        return Reader(content).packet()


class World(Session):
    """All nodes of a script, the packets that were sent, and the aliases."""

    def __init__(self, directory, workers=0):
        super().__init__()
        self.directory, self.workers, self.nodes, self.packets = directory, workers, {}, []
        self.aliases = {}

    def enter(self, it):
        """The node of a number, which is opened where it is not yet."""
        if it not in self.nodes:
            boot, saved = self.load(it)
            if boot == MOST:
                raise Refused(12)
            node = Node(it, boot + 1, saved)
            self.keep(node)
            self.join(node)
            self.nodes[it] = node
        return self.nodes[it]

    def load(self, it):
        """The boot and the operations that are kept of a node."""
        if self.directory is None:
            return 0, {}
        if not self.directory.is_dir():
            raise Refused(15)
        path = self.directory / f"node-{it}.json"
        if not path.exists():
            return 0, {}
        kept = json.loads(path.read_text())
        if kept["node"] != it:
            raise Refused(20)
        return kept["boot"], {name(at): tuple(words) for at, words in kept["ops"].items()}

    def keep(self, node):
        if self.directory is not None:
            ops = {name_text(it): node.saved[it] for it in node.saved}
            kept = {"node": node.number, "boot": node.boot, "ops": ops}
            (self.directory / f"node-{node.number}.json").write_text(json.dumps(kept))

    def join(self, node):
        """Refuses a newcomer that contradicts an open node: first clashes, then impostors."""
        pairs = [pair for other in self.nodes.values() for pair in ((node, other), (other, node))]
        clashes = {it for one, other in pairs for it in one.saved
                   if other.saved.get(it, one.saved[it]) != one.saved[it]}
        strangers = {it for one, other in pairs for it in one.saved
                     if it[0] == other.number and it not in other.saved}
        for refusal, names in ((16, clashes), (17, strangers)):
            if names:
                raise Refused(refusal, name_text(min(names)))

    def tell(self, packets):
        """The numbers of new packets."""
        first = len(self.packets) + 1
        self.packets += packets
        numbers = map(str, range(first, len(self.packets) + 1))
        return " ".join(["sent", *numbers] if packets else ["sent none"])

    def send(self, message):
        return self.tell([message])

    def sent(self, k):
        if k > len(self.packets):
            raise BadLine
        return self.packets[k - 1]


def proc(_world, node):
    return node.bear(frozenset(), frozenset(), frozenset())


def spawn(world, node, it, rights):
    process = node.find(it)
    take(rights, node.has(process.owned))
    return world.admit(node.bear(rights, process.S, process.I))


def exit_process(_world, node, it):
    node.find(it)
    del node.processes[it]
    return "ok"


def change_label(world, node, it, which, wanted):
    process = node.find(it)
    not_too_long(wanted)
    has, now = node.has(process.owned), getattr(process, which)
    take({(tag, PLUS) for tag in wanted - now} | {(tag, MINUS) for tag in now - wanted}, has)
    labels = {"S": process.S, "I": process.I, which: wanted}
    all_safe(process.endpoints, labels["S"], labels["I"], has)
    setattr(process, which, wanted)
    return world.admit("ok")


def drop(_world, node, it, right):
    process = node.find(it)
    if right not in process.owned:
        raise Refused(22, cap_text(right))
    left = process.owned - {right}
    all_safe(process.endpoints, process.S, process.I, node.has(left))
    process.owned = left
    return "ok"


def set_endpoint(node, process, at, wanted):
    """Sets an endpoint where it is safe."""
    all_safe({at: wanted}, process.S, process.I, node.has(process.owned))
    process.endpoints[at] = wanted


def open_endpoint(world, node, it, how, S, I):
    process = node.find(it)
    not_too_long(S, I)
    free = [at for at in range(1, ENDPOINTS + 1) if at not in process.endpoints]
    if not free:
        raise Refused(5)
    set_endpoint(node, process, free[0], Endpoint(how, S, I))
    return world.admit(f"ok e{free[0]}")


def tune(world, node, it, at, S, I):
    process = node.find(it)
    not_too_long(S, I)
    set_endpoint(node, process, at, Endpoint(process.find(at).mode, S, I))
    return world.admit("ok")


def close(_world, node, it, at):
    process = node.find(it)
    process.find(at)
    del process.endpoints[at]
    return "ok"


def send(world, node, it, at, receiver, receiver_end, rights, content):
    process = node.find(it)
    end = process.find(at)
    if end.mode == "r":
        raise Refused(6, f"e{at}")
    take(rights, node.has(process.owned))
    message = Message(it, at, receiver, receiver_end, end.S, end.I, rights, content)
    return world.admit(world.send(message))


def take_message(_world, node, it):
    process = node.find(it)
    if not process.inbox:
        return "empty"
    message = process.inbox.pop(0)
    parts = pid_text(message.sender), caps_text(message.caps), data_text(message.data)
    return " ".join(("message", *parts))


def emit(world, node, it, content):
    process = node.find(it)
    held = undual(process.S, node.has(process.owned))
    if held:
        raise Refused(8, name_text(min(held)))
    return world.admit(f"out {data_text(content)}")


def enter_login(world, node, it, login, shown):
    process = node.find(it)
    operation = node.published.get(login, ("none",))
    if operation[0] != "login":
        raise Refused(10, name_text(login))
    if hashlib.sha256(shown).hexdigest() != operation[2]:
        raise Refused(11)
    process.owned |= {cap(operation[1])}
    return world.admit(f"ok {operation[1]}")


def yes(world, holds):
    return world.admit("yes") if holds else "not-yet"


def ask(world, node, it, right):
    return yes(world, right in node.has(node.find(it).owned))


def member(world, node, root, right):
    return yes(world, right in reached({root}, node.published))


# Orders: each begins its operation, and gives its name.


def order_tag(_world, node, it, protection):
    return node.order(node.find(it), ("tag", protection))


def order_group(_world, node, it):
    return node.order(node.find(it), ("group",))


def grant(world, node, it, taken, operation):
    """An order that hands something on is admitted as it begins."""
    process = node.find(it)
    take(taken, node.has(process.owned))
    return world.admit(node.order(process, operation))


def order_put(world, node, it, group, right):
    operation = ("put", name_text(group), cap_text(right))
    return grant(world, node, it, {right, (group, GROW)}, operation)


def order_open(world, node, it, group):
    return grant(world, node, it, {(group, USE), (group, GROW)}, ("open", name_text(group)))


def order_login(world, node, it, right, shown):
    digest = hashlib.sha256(shown).hexdigest()
    return grant(world, node, it, {right}, ("login", cap_text(right), digest))


ORDERS = {
    "tag": (order_tag, pid, policy),
    "group": (order_group, pid),
    "put": (order_put, pid, name, cap),
    "open-group": (order_open, pid, name),
    "make-login": (order_login, pid, cap, secret),
}


def give_order(world, node, order, *words):
    """An order in one line is begun, saved and published."""
    order(world, node, *words)
    node.save()
    return node.publish()


def begin_order(world, node, order, *words):
    return f"begun {order(world, node, *words)}"


# Gossip.


def tell(world, node):
    return world.tell([*windows_of(node.saved)])


def reply(node, window):
    """The packets with all that the sender of a window lacks."""
    lacked = list(window.lacks(node.saved).items())
    parts = [lacked[at:at + DELTA] for at in range(0, len(lacked), DELTA)]
    return [Operations(dict(part)) for part in parts]


def begin_operations(node, packet):
    """How many operations of a packet are new; they are begun, where there are any."""
    node.check_neighbour(packet.operations)
    new = node.new(packet.operations)
    if new:
        node.begin(new, None)
    return len(new)


def take_operations(node, packet):
    return (node.save(), node.publish())[1] if begin_operations(node, packet) else "took 0"


def arrive(world, node, message):
    """A message comes in."""
    process = node.find(message.receiver)
    end, at = process.find(message.receiver_end), f"e{message.receiver_end}"
    if end.mode == "w":
        raise Refused(7, at)
    for refusal, tags in ((8, message.S - end.S), (9, end.I - message.I)):
        if tags:
            raise Refused(refusal, name_text(min(tags)))
    if len(process.inbox) == INBOX:
        raise Refused(23)
    process.owned |= message.caps
    process.inbox.append(message)
    return world.admit(f"arrived {pid_text(message.receiver)}")


def bring(world, node, packet):
    """A packet comes in."""
    if isinstance(packet, Window):
        return world.tell(reply(node, packet))
    if isinstance(packet, Operations):
        return take_operations(node, packet)
    try:
        return arrive(world, node, packet)
    except Refused as why:
        return f"dropped {why.text}"


def deliver(world, node, k):
    return bring(world, node, world.sent(k))


def begin_to_bring(node, packet):
    """A packet of operations comes in, and what is new stays pending."""
    count = begin_operations(node, packet)
    return f"begun {count}" if count else "took 0"


def begin_deliver(world, node, k):
    return begin_to_bring(node, world.sent(k))


# The other lines of nodes.


def restart(_world, node, keeps=None):
    return node.restart(keeps)


def text(_world, node):
    return "\n".join(registry_text(node.published.items()))


def check(world, node, content):
    packet = world.read(content)
    if node.is_stopped:
        raise Refused(21)
    if isinstance(packet, Window):
        return f"lacks {len(packet.lacks(node.saved))}"
    if isinstance(packet, Message):
        return "data"
    node.check_neighbour(packet.operations)
    return f"new {len(node.new(packet.operations))}"


LINES = {
    "proc": (proc,),
    "spawn": (spawn, pid, caps),
    "exit": (exit_process, pid),
    "enter": (enter_login, pid, name, secret),
    "label": (change_label, pid, side, label),
    "drop": (drop, pid, cap),
    "open": (open_endpoint, pid, mode, label, label),
    "tune": (tune, pid, endpoint, label, label),
    "close": (close, pid, endpoint),
    "send": (send, pid, endpoint, pid, endpoint, few_caps, few_data),
    "take": (take_message, pid),
    "emit": (emit, pid, data),
    "ask": (ask, pid, cap),
    "member": (member, cap, cap),
    "tell": (tell,),
    "deliver": (deliver, number),
    "save": (lambda _world, node: node.save(),),
    "publish": (lambda _world, node: node.publish(),),
    "cancel": (lambda _world, node: node.cancel(),),
    "text": (text,),
    "check": (check, data),
}
MAKING = {"proc", "spawn", "open", *ORDERS}
STEPS = {"begin", "save", "publish", "cancel"}


def read_words(readers, words):
    if len(readers) != len(words):
        raise BadLine
    return [read(word) for read, word in zip(readers, words)]


def read_known(forms, words):
    """What stands in a table for the first of these words, and what the others say."""
    if not words or words[0] not in forms:
        raise BadLine
    does, *readers = forms[words[0]]
    return does, read_words(readers, words[1:])


def read_order(words):
    """An order, and what its words say, in one list."""
    order, found = read_known(ORDERS, words)
    return [order, *found]


def read_line(world, words):
    """What a line of a node does: a function of the world and the node, and what its words say."""
    kind, rest = words[0], words[1:]
    if world.workers and kind in STEPS:
        raise BadLine
    if kind in ORDERS:
        return give_order, read_order(words)
    if kind == "begin" and rest[:1] != ["deliver"]:
        return begin_order, read_order(rest)
    if kind == "begin":
        found = read_words([number], rest[1:])
        if not isinstance(world.sent(*found), Operations):
            raise BadLine
        return begin_deliver, found
    if kind == "restart":
        return restart, read_words([the_word_kept] if rest else [], rest)
    does, found = read_known(LINES, words)
    if kind == "deliver":
        world.sent(*found)
    return does, found


def of_node(world, words):
    """A line that begins with a node."""
    at = number(words[0])
    does, found = read_line(world, words[1:])
    node = world.enter(at)
    if node.is_stopped and does not in (restart, check):
        is_message = does is deliver and isinstance(world.sent(*found), Message)
        if not is_message:
            raise Refused(21)
        return "dropped F21"
    return does(world, node, *found)


def union(world, words):
    one, other = read_words([number, number], words)
    one, other = world.enter(one), world.enter(other)
    if one.is_stopped or other.is_stopped:
        raise Refused(21)
    return "\n".join(registry_text({*one.published.items(), *other.published.items()}))


def answer_words(world, words):
    if words[0] == "union":
        return union(world, words[1:])
    if words == ["audit"] and not world.workers:
        return f"admitted {world.admitted}"
    if words == ["aliases"]:
        return "\n".join(f"${it} {target}" for it, target in world.aliases.items())
    if len(words) < 2:
        raise BadLine
    return of_node(world, words)


def replace_aliases(world, word):
    def target(found):
        if found[1] not in world.aliases:
            raise BadLine
        return world.aliases[found[1]]
    return re.sub(r"\$([a-z0-9_]*)", target, word)


def words_of(line):
    """The words of the bytes of a line."""
    if len(line) > LINE_BYTES:
        raise BadLine
    try:
        return [word for word in line.decode().split(" ") if word]
    except UnicodeDecodeError:
        raise BadLine from None


def answer_line(world, line):
    """The answer to the bytes of a line."""
    words, alias = words_of(line), None
    if words[-2:-1] == ["as"] and re.fullmatch(r"\$[a-z0-9_]{1,32}", words[-1]):
        words, alias = words[:-2], words[-1][1:]
        if words[1:2] == [] or words[1] not in MAKING or len(world.aliases) == ALIASES:
            raise BadLine
    given = answer_words(world, [replace_aliases(world, word) for word in words])
    if alias:
        world.aliases[alias] = given.split(" ")[-1]
    return given


def lines_of(script):
    """The lines of a stream of bytes, as they come.

    One carriage return before a line feed belongs to the line's end.
    """
    for line in script:
        yield line[:-1].removesuffix(b"\r") if line.endswith(b"\n") else line


def respond(world, count, line, answer=answer_line):
    """The text of the answer to a line, which may be none, and its status."""
    front = line.lstrip(b" ")
    if not front or front.startswith(b"#"):
        return "", 0
    try:
        given = answer(world, line)
        return given + "\n" if given else "", 0
    except BadLine:
        return f"refused F19 {count}\n", 1
    except Refused as why:
        return f"refused {why.text}\n", 3 if why.text == "F15" else 0


def play(script, directory, workers=0):
    """The text of the answer to each line of a stream, and its status, as the lines come."""
    world = World(directory, workers)
    for count, line in enumerate(lines_of(script), 1):
        yield respond(world, count, line)
    for node in world.nodes.values():
        world.keep(node)


def run(script, directory, workers=0):
    """The answers to the lines of a script, and the status."""
    answers = [*play(io.BytesIO(script), directory, workers)]
    return [given for given, _ in answers], max((status for _, status in answers), default=0)


def main(words):
    parser = argparse.ArgumentParser()
    parser.add_argument("--workers", type=int, choices=range(17), default=0)
    parser.add_argument("--dir", type=pathlib.Path)
    asked, worst = parser.parse_args(words), 0
    for given, status in play(sys.stdin.buffer, asked.dir, asked.workers):
        sys.stdout.write(given)
        sys.stdout.flush()
        worst = max(worst, status)
    return worst


if __name__ == "__main__":
    sys.exit(main(sys.argv[1:]))
