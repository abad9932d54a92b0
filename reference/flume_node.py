#!/usr/bin/env python3
"""A second reading of one machine's program: what flume-node has to answer.

    reference/flume_node.py --node N --dir DIR [--key FILE].. [--unguarded-orders]
    reference/flume_node.py --node N --dir DIR --new

It has the rules of lines, labels and packets from flume_tags.py, and adds what a machine has of its
own: frames, packets as bytes, their seals, guarded orders, and a node that is kept from one process
to the next. $FLUME_NODE may name it, for .ci/rows_of_machines, .ci/machines and
.ci/hostile_machines.

The node is kept in node-<N>.journal, a file of its own kind: a line of JSON for the node's number,
for each boot and for each batch of operations, each on the disk before anything is said of it. Of a
line that a kill or a full disk broke off nothing counts.
"""
import argparse
import copy
import fcntl
import hmac
import json
import os
import pathlib
import re
import stat
import sys

sys.dont_write_bytecode = True

import flume_tags as reference  # noqa: E402 (no bytes of it are to be left beside it)
import packets  # noqa: E402

FIRST_PACKETS, ECHOED, SEAL_BYTES, MOST_HELD = 64, 256, 32, 1 << 24
MOST_LOGGED = 1000
SEALED_AS = b"flume-packet-1\n"
BAD_WORDS, FAILED, NOT_AS_SAID = 2, 3, 4


class Ended(Exception):
    """The program ends with this status, and says why."""

    def __init__(self, status, why):
        super().__init__(why)
        self.status = status


# Keeping a node.


class Keeper:
    """The journal in which a node is kept, which no other process has open."""

    def __init__(self, number, directory, flags):
        self.number, self.path = number, directory / f"node-{number}.journal"
        try:
            self.file = os.open(self.path, os.O_RDWR | flags, 0o600)
            fcntl.flock(self.file, fcntl.LOCK_EX | fcntl.LOCK_NB)
        except FileExistsError:
            raise
        except (FileNotFoundError, NotADirectoryError):
            raise self.not_as_said("no node is kept there") from None
        except BlockingIOError:
            raise Ended(FAILED, f"{self.path}: the node is in use") from None
        except OSError as why:
            raise Ended(FAILED, f"{self.path}: {why.strerror}") from None
        self.boot, self.saved, self.is_made = 0, {}, False
        self.load()

    def not_as_said(self, why):
        return Ended(NOT_AS_SAID, f"{self.path}: {why}")

    def load(self):
        """Reads all lines, and takes away one that was broken off."""
        content = os.pread(self.file, os.fstat(self.file).st_size, 0)
        *lines, rest = content.split(b"\n")
        if rest and not rest.startswith(b"{"):
            raise self.not_as_said("it is no journal of a node")
        try:
            for line in lines:
                self.learn(json.loads(line))
        except (ValueError, KeyError, TypeError, AttributeError, reference.BadLine):
            raise self.not_as_said("it is no journal of a node") from None
        os.ftruncate(self.file, len(content) - len(rest))
        os.lseek(self.file, 0, os.SEEK_END)

    def learn(self, line):
        if not self.is_made:
            if line["node"] != self.number:
                raise self.not_as_said("it is another node's")
            self.is_made = True
        self.boot = line.get("boot", self.boot)
        for it, words in line.get("ops", {}).items():
            self.saved[reference.name(it)] = tuple(words)

    def write(self, **line):
        """Writes a line through to the disk."""
        left = json.dumps(line).encode() + b"\n"
        try:
            while left:
                left = left[os.write(self.file, left):]
            os.fsync(self.file)
        except OSError as why:
            raise Ended(FAILED, f"{self.path}: {why.strerror}") from None

    def save(self, operations):
        self.write(ops={reference.name_text(it): words for it, words in operations.items()})


def make(number, directory):
    """Makes a node, or finishes one that was never opened."""
    try:
        keeper = Keeper(number, directory, os.O_CREAT | os.O_EXCL)
    except FileExistsError:
        keeper = Keeper(number, directory, 0)
    if keeper.boot:
        raise keeper.not_as_said("a node is kept there already")
    os.fchmod(keeper.file, 0o600)
    if not keeper.is_made:
        keeper.write(node=number)


class KeptNode(reference.Node):
    """A node whose operations are saved by its keeper, opened in the next boot."""

    def __init__(self, keeper):
        if not keeper.is_made:
            raise keeper.not_as_said("no node is kept there")
        if keeper.boot == reference.MOST:
            raise keeper.not_as_said(f"it was opened {reference.MOST} times")
        keeper.write(boot=keeper.boot + 1)
        super().__init__(keeper.number, keeper.boot + 1, keeper.saved)
        self.keeper, self.broke = keeper, None

    def save(self):
        try:
            self.keeper.save(self.due(False).operations)
        except Ended as why:
            self.broke = why
            raise reference.Refused(15) from None
        return super().save()


# The bytes of packets as they are sent, and their seals.


def packet_bytes(packet):
    """The bytes of a packet that flume_tags.py made, in format 2."""
    if isinstance(packet, reference.Window):
        return packets.window(2, packet.first, packet.last, packet.spans)
    if isinstance(packet, reference.Operations):
        return packets.operations(2, sorted(packet.operations.items()))
    ends = (packet.sender, packet.sender_end), (packet.receiver, packet.receiver_end)
    sets = map(sorted, (packet.S, packet.I, packet.caps))
    return packets.message(2, *ends, *sets, packet.data)


def seal(key, content):
    return hmac.digest(key, SEALED_AS + content, "sha256")


def key_of(path):
    """The key that a file holds, to which nobody else has a right."""
    try:
        with open(path, "rb") as file:
            mode, content = os.fstat(file.fileno()).st_mode, file.read(66)
    except OSError as why:
        raise Ended(BAD_WORDS, f"{path}: {why.strerror}") from None
    if not re.fullmatch(rb"[0-9a-fA-F]{64}\n?", content):
        raise Ended(BAD_WORDS, f"{path}: it is not 64 hexadecimal digits")
    if mode & (stat.S_IRWXG | stat.S_IRWXO):
        raise Ended(BAD_WORDS, f"{path}: others may read it")
    return bytes.fromhex(content.decode().strip())


# Lines.


class Machine(reference.Session):
    """A machine's node, how its process was started, and how much that has admitted."""

    def __init__(self, node, keys, guards):
        super().__init__()
        self.node, self.keys, self.guards = node, keys, guards

    def digits(self, packet):
        content = packet_bytes(packet)
        return (content + seal(self.keys[0], content) if self.keys else content).hex()

    def send(self, message):
        return f"sent {self.digits(message)}"

    def tell(self, told):
        return listed(map(self.digits, told))

    def read(self, content):
        """The packet of these bytes, which one of the keys has to open where there are any."""
        if self.keys:
            content, shown = content[:-SEAL_BYTES], content[-SEAL_BYTES:]
            if not any(hmac.compare_digest(seal(key, content), shown) for key in self.keys):
                raise reference.Refused(18, 0)
        return super().read(content)


def listed(lines):
    """An answer of many lines."""
    lines = [*lines]
    return "\n".join([f"lines {len(lines)}", *lines])


def least_not_ours(node, window):
    """The least name of the node's own number that a window has, and the node never saved."""
    names = ((owner, seq) for owner, low, high in window.spans if owner == node.number
             for seq in range(low, high + 1))
    return next((it for it in names if it not in node.saved), None)


def receive(machine, node, content):
    packet = machine.read(content)
    if not isinstance(packet, reference.Window):
        return reference.bring(machine, node, packet)
    stranger = least_not_ours(node, packet)
    if stranger:
        raise reference.Refused(17, reference.name_text(stranger))
    return machine.tell(reference.reply(node, packet)[:FIRST_PACKETS])


def begin_receive(machine, node, content):
    packet = machine.read(content)
    if not isinstance(packet, reference.Operations):
        raise reference.BadLine
    return reference.begin_to_bring(node, packet)


def guarded(gives):
    """What gives an order, once its process has shown that it may let something out."""
    def line(machine, node, order, pid, *words):
        if machine.guards:
            reference.emit(machine, node, pid, b"")
        return gives(machine, node, order, pid, *words)
    return line


give_order, begin_order = guarded(reference.give_order), guarded(reference.begin_order)


def text(_machine, node):
    return listed(reference.registry_text(node.published.items()))


def place(word):
    return 0 if word == "0" else reference.number(word)


def log(_machine, node, at):
    """The published operations from a place of the list on."""
    named = [*node.published.items()][at:at + MOST_LOGGED]
    return listed(reference.operation_text(*it) for it in named)


def whose(word):
    """Whose capability is asked for: a process's, or that of who may use a group."""
    if word.startswith("p"):
        return reference.pid(word)
    found = reference.cap(word)
    if found[1] != reference.USE:
        raise reference.BadLine
    return found


def steps_to(right, operations):
    """From each capability that leads to this one the puts that lead on, nearest level first."""
    away, level = {right: 0}, {right}
    while level:
        yield away, level
        level = {(reference.name(op[1]), reference.USE) for op in operations.values()
                 if op[0] == "put" and reference.cap(op[2]) in level} - away.keys()
        away.update(dict.fromkeys(level, max(away.values()) + 1))


def first_chain(roots, right, operations):
    """The first of the shortest chains: its root, and the puts behind it. None where there is none.
    """
    for away, level in steps_to(right, operations):
        if level & roots:
            at = root = min(level & roots)
            puts = []
            while at != right:
                at, it, op = min((reference.cap(op[2]), it, op) for it, op in operations.items()
                                 if op[:2] == ("put", reference.name_text(at[0]))
                                 and away.get(reference.cap(op[2])) == away[at] - 1)
                puts.append(reference.operation_text(it, op))
            return root, puts
    return None


def giver(right, operations):
    """The least operation that gives a capability to everybody."""
    return min(it for it, op in operations.items()
               if right in reference.everybodys({it: op}))


def why(_machine, node, holder, right):
    owned, first = {holder}, "use"
    if len(holder) == 3:
        if holder not in node.processes:
            raise reference.Refused(1, reference.pid_text(holder))
        owned, first = node.processes[holder].owned, "owns"
    others = set(reference.everybodys(node.published)) if first == "owns" else set()
    found = first_chain(owned | others, right, node.published)
    if not found:
        return "not-yet"
    root, puts = found
    if root in owned:
        return listed([f"{first} {reference.cap_text(root)}", *puts])
    return listed([f"everybody {reference.name_text(giver(root, node.published))}", *puts])


def who_lines(node, right):
    """Who has a capability: everybody, processes, groups and logins."""
    operations, leading = node.published, {right}
    for _away, level in steps_to(right, operations):
        leading |= level
    others = set(reference.everybodys(operations))
    if right in others:
        yield f"everybody {reference.name_text(giver(right, operations))}"
    for it, process in sorted(node.processes.items()):
        if leading & (process.owned | others):
            yield f"process {reference.pid_text(it)}"
    for group in sorted(it for it, sign in leading if sign == reference.USE):
        yield f"group {reference.name_text(group)}"
    logins = sorted((it, reference.cap(op[1])) for it, op in operations.items() if op[0] == "login")
    for it, brought in logins:
        if brought in leading:
            yield f"login {reference.name_text(it)} {reference.cap_text(brought)}"


def who(_machine, node, right):
    return listed(who_lines(node, right))


def label_text(tags):
    return "{" + ",".join(map(reference.name_text, sorted(tags))) + "}"


def process_lines(process):
    """What a process has."""
    yield f"S {label_text(process.S)}"
    yield f"I {label_text(process.I)}"
    yield f"owns {reference.caps_text(process.owned)}"
    for at, end in sorted(process.endpoints.items()):
        yield f"end e{at} {end.mode} {label_text(end.S)} {label_text(end.I)}"
    for it in process.inbox:
        sender = reference.pid_text(it.sender)
        yield f"waits {sender} {reference.caps_text(it.caps)} {len(it.data)}"


def pending_text(pending):
    """What is on its way."""
    if not pending:
        return "none"
    return f"{len(pending.operations)} {'due' if pending.is_saved else 'begun'}"


def node_lines(node):
    """How a node stands, and each of its processes."""
    yield (f"node {node.number} boot {node.boot} published {len(node.published)} "
           f"pending {pending_text(node.pending)} processes {len(node.processes)}")
    for it, process in sorted(node.processes.items()):
        is_busy = node.pending and node.pending.maker is process
        yield (f"{reference.pid_text(it)} S {label_text(process.S)} I {label_text(process.I)} "
               f"owns {len(process.owned)} ends {len(process.endpoints)} "
               f"waits {len(process.inbox)} {'busy' if is_busy else 'idle'}")


def show_node(_machine, node):
    return listed(node_lines(node))


def show(_machine, node, it):
    if it not in node.processes:
        raise reference.Refused(1, reference.pid_text(it))
    return listed(process_lines(node.processes[it]))


# What a job would come to.

JOBS = ("proc", "spawn", "exit", "enter", "label", "drop", "open", "tune", "close", "send", "take",
        "emit", "ask", "member")
QUESTIONS = (reference.ask, reference.member)
MENDED = (3, 8)


def both(tags):
    return {(it, sign) for it in tags for sign in (reference.PLUS, reference.MINUS)}


def of_change(process, which, wanted):
    now = getattr(process, which)
    return ({(it, reference.PLUS) for it in wanted - now}
            | {(it, reference.MINUS) for it in now - wanted})


DEMANDS = {
    reference.change_label: of_change,
    reference.spawn: lambda _process, rights: rights,
    reference.send: lambda _process, *words: words[3],
    reference.emit: lambda process, _content: both(process.S),
    reference.order_put: lambda _process, group, right: {right, (group, reference.GROW)},
    reference.order_login: lambda _process, right, _secret: {right},
    reference.order_open: lambda _process, group: {(group, reference.USE), (group, reference.GROW)},
}


def could(machine, node, does, *words):
    """What a job would be answered, done by a twin of the machine that is thrown away."""
    twin = copy.copy(machine)
    answer = does(twin, copy.deepcopy(node), *words)
    return answer if does in QUESTIONS else "ok"


def wanting(machine, node, does, *words):
    """What a job takes of the capabilities of its process, and this has not in effect."""
    is_guarded = machine.guards and does is begin_order
    if does is begin_order:
        does, *words = words
    if does not in DEMANDS and not is_guarded:
        return set()
    process = node.processes[words[0]]
    demanded = both(process.S) if is_guarded else set()
    if does in DEMANDS:
        demanded |= DEMANDS[does](process, *words[1:])
    return demanded - node.has(process.owned)


def missing(machine, node, does, *words):
    """The capabilities that are wanting for a job, or why none would mend it."""
    try:
        could(machine, node, does, *words)
    except reference.Refused as why:
        if why.args[0] not in MENDED:
            raise
    return listed(map(reference.cap_text, sorted(wanting(machine, node, does, *words))))


LINES = {
    **{verb: form for verb, form in reference.LINES.items() if verb != "deliver"},
    "receive": (receive, reference.data),
    "text": (text,),
    "log": (log, place),
    "why": (why, whose, reference.cap),
    "who": (who, reference.cap),
    "show": (show, reference.pid),
}
FORESEEN = {"could": could, "missing": missing}


def read_job(words):
    """A job, which an order is too: how it is begun, and what its words say, in one list."""
    if words[:1] and words[0] in reference.ORDERS:
        return [begin_order, *reference.read_order(words)]
    does, found = reference.read_known({verb: LINES[verb] for verb in JOBS}, words)
    return [does, *found]


def read_line(words):
    """What a line of the node does, and what its words say."""
    if words[0] in FORESEEN:
        return FORESEEN[words[0]], read_job(words[1:])
    if words[0] in reference.ORDERS:
        return give_order, reference.read_order(words)
    if words[:2] == ["begin", "receive"]:
        return begin_receive, reference.read_words([reference.data], words[2:])
    if words == ["show"]:
        return show_node, []
    if words[0] == "begin":
        return begin_order, reference.read_order(words[1:])
    return reference.read_known(LINES, words)


def answer_line(machine, line):
    """The answer to the bytes of a line."""
    words = reference.words_of(line)
    if b"$" in line or not line.isascii():
        raise reference.BadLine
    if words == ["audit"]:
        return f"admitted {machine.admitted}"
    if words[0] == "echo":
        if len(words) != 2 or len(words[1]) > ECHOED:
            raise reference.BadLine
        return f"echo {words[1]}"
    if len(words) < 2 or reference.number(words[0]) != machine.node.number:
        raise reference.BadLine
    does, found = read_line(words[1:])
    return does(machine, machine.node, *found)


# The program.


def lines_of_input(stream):
    """The lines of standard input. One that grows too long is a fault."""
    while line := stream.readline(MOST_HELD + 1):
        if len(line) > MOST_HELD and not line.endswith(b"\n"):
            raise Ended(FAILED, f"read fault: a line is longer than {MOST_HELD} bytes")
        yield from reference.lines_of([line])


def say(told):
    """Writes it at once."""
    left = told.encode()
    try:
        while left:
            left = left[os.write(1, left):]
    except OSError:
        raise Ended(FAILED, "write fault") from None


def serve(machine):
    """Answers lines to the end of the input, or to the first F15. The status."""
    node, worst = machine.node, 0
    say(f"flume-node 1 node {node.number} boot {node.boot} published {len(node.published)}\n")
    for count, line in enumerate(lines_of_input(sys.stdin.buffer), 1):
        told, status = reference.respond(machine, count, line, answer_line)
        say(told)
        if node.broke:
            raise node.broke
        worst = max(worst, status)
    return worst


class Words(argparse.ArgumentParser):
    """Reads the program's words. What is wrong with them is told in one line."""

    def error(self, message):
        raise Ended(BAD_WORDS, message)


class Once(argparse.Action):
    """An option that may stand once."""

    def __call__(self, parser, found, value, option_string=None):
        if getattr(found, self.dest) is not None:
            parser.error(f"{option_string} stands twice")
        setattr(found, self.dest, value)


def number_word(word):
    found = int(word) if re.fullmatch(r"\+?[0-9]+", word, re.ASCII) else 0
    if not 1 <= found <= reference.MOST:
        raise argparse.ArgumentTypeError("it is no number of a node")
    return found


def path_word(word):
    if not word:
        raise argparse.ArgumentTypeError("it is empty")
    return pathlib.Path(word)


def read_words(words):
    parser = Words(prog="flume-node", allow_abbrev=False)
    parser.add_argument("--version", action="version", version="flume-node (the reference)")
    parser.add_argument("--node", type=number_word, required=True, action=Once)
    parser.add_argument("--dir", type=path_word, required=True, action=Once)
    parser.add_argument("--key", type=path_word, action="append", default=[])
    parser.add_argument("--unguarded-orders", action="store_true")
    parser.add_argument("--new", action="store_true")
    return parser.parse_args(words)


def main(words):
    try:
        asked = read_words(words)
        keys = [*map(key_of, asked.key)]
        if asked.new:
            make(asked.node, asked.dir)
            return 0
        node = KeptNode(Keeper(asked.node, asked.dir, 0))
        return serve(Machine(node, keys, not asked.unguarded_orders))
    except Ended as why:
        print(f"flume-node: {why}", file=sys.stderr)
        return why.status


if __name__ == "__main__":
    sys.exit(main(sys.argv[1:]))
