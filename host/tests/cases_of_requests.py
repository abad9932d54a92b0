"""What a service may ask, what it is answered, and what it is not told."""
import json

from rig import ALICE, SIGNALS, Wrong, case, expect, living, outlet, service

OUT = outlet("out")
BAD = (
    b"", b"x", b"\xff{", b"[]", b"null", b"1", b'"x"', b"{}", b'{"do":1}', b'{"do":["ask"]}',
    b'{"do":"proc"}', b'{"do":"label"}', b'{"do":"label","secrecy":[],"integrity":[]}',
    b'{"do":"label","secrecy":"x"}', b'{"do":"label","secrecy":[1]}', b'{"do":"label","x":[]}',
    b'{"do":"label","secrecy":null}', b'{"do":"tag"}', b'{"do":"tag","policy":"x"}',
    b'{"do":"tag","policy":"read\\n1 proc"}', b'{"do":"send","to":"one"}', b'{"do":"ask"}',
    b'{"do":"send","to":"one","bytes":"6"}', b'{"do":"send","to":"one","bytes":"zz"}',
    b'{"do":"send","to":"one","bytes":[]}', b'{"do":"send","to":1,"bytes":""}',
    b'{"do":"ask","right":"alice/calendar"}', b'{"do":"ask","right":""}',
    b'{"do":"ask","right":"*alice/calendar"}', b'{"do":"receive","wait":1}',
    b'{"do":"receive","wait":false,"x":1}', b'{"do":"exit","x":1}', b'{"do":"spawn"}',
    b"[" * 60_000, b'{"do":' + b"9" * 5000 + b"}", b'{"do":"ask","right":"\\ud800"}',
)
NAMELESS = (
    {"do": "send", "to": "nobody", "bytes": ""}, {"do": "send", "to": "out", "bytes": ""},
    {"do": "emit", "to": "one", "bytes": ""}, {"do": "grant", "to": "p1.1.1", "rights": []},
    {"do": "label", "secrecy": ["1.1"]}, {"do": "label", "secrecy": ["alice/diary"]},
    {"do": "label", "secrecy": ["alice/calendar} {}\n1 proc"]}, {"do": "ask", "right": "-1.1"},
    {"do": "ask", "right": "+bob/calendar"}, {"do": "spawn", "service": "two", "rights": []},
    {"do": "send", "to": "one", "bytes": "", "secrecy": ["t1"]},
)
LONG = (
    ({"do": "send", "to": "one", "bytes": "00" * 1025}, "too long"),
    ({"do": "label", "secrecy": ["alice/calendar"] * 257}, "too many"),
    ({"do": "grant", "to": "one", "rights": ["+alice/calendar"] * 65}, "too many"),
    ({"do": "ask", "right": "x" * 65_536}, "too long"),
)


def answers(room, code, *keys, more=""):
    """Returns what a service tells of itself in JSON, once it has run this code."""
    text = ALICE + OUT + service("one", code + "\nstay()", 'tags = ["alice/calendar"]', *keys)
    room.configure(text + more).init().start()
    return json.loads(room.until(lambda: room.read("out").endswith("\n") and room.read("out"),
                                 "what it tells", 300).splitlines()[-1])


@case
def requests_that_are_none(room):
    """Each is refused, nothing is asked of the node for it, and the service goes on."""
    code = f"tell([answer(it).get('refused') for it in {BAD[1:]!r}])"
    found = answers(room, code)
    wanted = ["no such name" if b"ud800" in it else "bad request" for it in BAD[1:]]
    wanted[-1] = "bad request"
    expect(found == wanted, list(zip(found, BAD[1:])))
    expect(not [it for it, _ in room.lines("label", "ask", "tag")
                if it.startswith(("ask", "tag p1.1.4"))], "lines of it", room.lines("ask"))


@case
def names_that_it_was_not_given(room):
    code = f"tell([answer(it) for it in {NAMELESS!r}])"
    found = answers(room, code)
    expect(found == [{"refused": "no such name"}] * len(NAMELESS), found)


@case
def requests_that_are_too_long(room):
    code = f"tell([answer(it)['refused'] for it in {[it for it, _ in LONG]!r}])"
    expect(answers(room, code) == [it for _, it in LONG], room.read("out"))


@case
def labels(room):
    """A tag that was taken on is not laid down, and the endpoint has it too."""
    code = """
found = [tried(host.label, secrecy=["alice/calendar"]), tried(host.label, secrecy=[]),
         tried(host.label, integrity=["alice/seal"]), tried(host.label, secrecy=["alice/diary"]),
         tried(host.send, "one", b"mine"), host.receive()[0].decode(),
         tried(host.send, "one", b"", secrecy=[]), host.may("+alice/calendar"),
         host.may("-alice/calendar"), tried(host.label, secrecy=["alice/calendar"])]
tell(found, "hers")
"""
    hers = outlet("hers", 'secrecy = ["alice/calendar"]', 'rights = ["-alice/calendar"]')
    tags = 'tags = ["alice/calendar", "alice/seal", "alice/diary"]'
    room.configure(ALICE + hers + service("one", code + "stay()", tags)).init().start()
    room.until(lambda: room.read("hers").endswith("\n"), "what it tells")
    expect(json.loads(room.read("hers")) == [
        "ok", "F3 -alice/calendar", "F3 +alice/seal", "F3 -alice/calendar", "ok", "mine",
        "F4 alice/calendar", True, False, "ok"], room.read("hers"))


@case
def rights_of_a_start(room):
    """They come before the labels: a tag that few may read, and one by which few vouch."""
    code = "tell([host.may('-alice/diary'), host.may('+alice/seal'), tried(host.send, 'one', b'')])"
    keys = ('secrecy = ["alice/diary"]', 'integrity = ["alice/seal"]',
            'rights = ["+alice/diary", "-alice/diary", "+alice/seal"]')
    code = code.replace("tell(", "tell(secrecy=[], what=")
    room.configure(ALICE + OUT + service("one", code + "\nstay()", *keys)).init().start()
    room.tells("out", "[true, true, \"ok\"]")


@case
def tags_of_its_own(room):
    """A tag is a handle: the name in the registry is told to nobody."""
    code = """
tag = host.tag("read")
host.grant("one", ["+" + tag, "-" + tag])
first = host.receive()
tell([tag, tried(host.label, secrecy=[tag]), tried(host.label, secrecy=[]), first[1],
      host.may("-" + tag), tried(host.tag), tried(host.tag)])
"""
    found = answers(room, code, "orders = 2", "orders_an_hour = 5")
    expect(found == ["t2", "ok", "ok", ["+t2", "-t2"], True, "ok", "too many orders"], found)


@case
def orders_an_hour(room):
    found = answers(room, "tell([tried(host.tag) for _ in range(3)])", "orders = 9",
                    "orders_an_hour = 2")
    expect(found == ["ok", "ok", "too many orders"], found)


@case
def orders_of_one_that_has_read(room):
    """An order is a message to everybody, so the node refuses it. It counts all the same."""
    code = "tell([tried(host.tag), tried(host.tag)], 'hers')"
    hers = outlet("hers", 'secrecy = ["alice/calendar"]', 'rights = ["-alice/calendar"]')
    keys = ('secrecy = ["alice/calendar"]', "orders = 1", "orders_an_hour = 1")
    room.configure(ALICE + hers + service("one", code + "\nstay()", *keys)).init().start()
    room.tells("hers", '["F8 alice/calendar", "too many orders"]')


@case
def orders_in_all_outlive_the_host(room):
    text = ALICE + OUT + service("one", "tell(tried(host.tag))\nstay()", "orders = 1",
                                 "orders_an_hour = 9")
    room.configure(text).init().start()
    room.tells("out", "ok")
    # an emission that is not noted as done is done again
    room.until(lambda: room.entries("done"), "that it is done")
    room.end()
    room.start().tells("out", "ok", "too many orders")


@case
def messages_between_services(room):
    """They come in order, with their bytes and rights, and without who sent them."""
    one = """
host.send("two", b"")
for k in range(300):
    host.send("two", bytes([k % 256]) * (k % 5))
host.send("two", bytes(range(256)) * 4)
host.grant("two", ["+alice/calendar"])
stay()
"""
    two = """
wait_for("go")
found = [answer({"do": "receive"}) for _ in range(256)]
rest = []
while (it := answer({"do": "receive", "wait": False}))["is"]:
    rest.append(it)
tell([found[0], [len(it["bytes"]) // 2 for it in found[1:7]], len(rest), host.receive(False)])
stay()
"""
    keys = 'tags = ["alice/calendar"]'
    text = ALICE + OUT + service("one", one, keys)
    text += service("two", two, keys, SIGNALS)
    room.let("")
    room.configure(text).init().start()
    room.until(lambda: len(room.lines("receive")) == 303, "all that it sends")
    room.let("go")
    # 256 messages wait at most: those beyond are dropped, and nobody is told
    wanted = [{"ok": True, "is": True, "bytes": "", "rights": []}, [0, 1, 2, 3, 4, 0], 0, None]
    room.tells("out", json.dumps(wanted))


@case
def what_a_message_brings(room):
    one = "host.send('two', bytes(range(256)) * 4)\nhost.grant('two', ['+alice/calendar'])\nstay()"
    two = "first, second = host.receive(), host.receive()\n" \
          "tell([len(first[0]), first[0] == bytes(range(256)) * 4, first[1], second[1]])\nstay()"
    text = ALICE + OUT + service("one", one, 'tags = ["alice/calendar"]') + service("two", two)
    room.configure(text).init().start()
    room.tells("out", '[1024, true, [], ["+t1"]]')


@case
def what_a_sender_is_told(room):
    """The same whether the message arrived, was dropped, or its receiver has ended; and before
    the packet is delivered."""
    code = """
wait_for("ended")
found = [answer({"do": do, "to": to, "bytes": "6869"}) for do, to in
         (("send", "open"), ("send", "ended"), ("send", "vouched"), ("emit", "hers"),
          ("emit", "vouched_out"), ("send", "open"))]
tell(found)
host.socket.settimeout(1)
try:
    tell(host.socket.recv(65536).decode())
except TimeoutError:
    tell("nothing more")
stay()
"""
    text = ALICE + OUT + service("one", code, SIGNALS) + service("open", "stay()")
    text += service("ended", "", "restarts = false")
    text += service("vouched", "stay()", 'integrity = ["alice/seal"]', 'rights = ["+alice/seal"]')
    text += outlet("hers", 'secrecy = ["alice/calendar"]')
    text += outlet("vouched_out", 'integrity = ["alice/seal"]', 'rights = ["+alice/seal"]')
    room.let("")
    room.configure(text).init().start()
    room.until(lambda: room.entries("ended", service="ended"), "an end")
    room.let("ended")
    room.tells("out", json.dumps([{"ok": True}] * 6), "nothing more")
    came = [answer.split(" ")[0] for line, answer in room.lines("receive") if "6869" in line[-4:]]
    expect(came == ["arrived", "dropped", "dropped", "arrived", "dropped", "arrived"], came)
    expect(room.read("hers") == room.read("vouched_out") == "", "an outlet without rights")


@case
def children_of_a_service(room):
    """A child has its parent's labels and the rights that it was given, and ends with it."""
    parent = """
host.label(secrecy=["alice/calendar"])
child = host.spawn("child", [])
host.send(child, b"hello")
found = [tried(host.spawn, "child", ["-alice/calendar"]), tried(host.spawn, "one", []), child]
tell([*found, host.receive()[0].decode()], "hers")
time.sleep(1)
"""
    child = """
it = host.receive()[0]
tell("not for all")
host.send("parent", it + b" to you: " + tried(host.label, secrecy=[]).encode())
stay()
"""
    hers = outlet("hers", 'secrecy = ["alice/calendar"]', 'rights = ["-alice/calendar"]')
    marker = f"{room.folder}/child"
    text = ALICE + OUT + hers + service("child", child, "starts = false", marker=marker)
    text += service("one", parent, 'tags = ["alice/calendar"]', 'spawns = ["child"]',
                    "restarts = false")
    room.configure(text).init().start()
    room.tells("hers", json.dumps(["F3 -alice/calendar", "no such name", "s1",
                                   "hello to you: F3 -alice/calendar"]))
    room.until(lambda: len(room.entries("ended")) == 2, "both end")
    expect(not living(marker) and room.read("out") == "", "the child", room.read("out"))
    expect(len(room.lines("exit")) == 2, room.lines("exit"))


@case
def at_most_so_many_children(room):
    """Those that have ended count too: else a child that has read tells by its end."""
    code = "tell([(tried(host.spawn, 'child', []), time.sleep(0.5))[0] for _ in range(5)])"
    more = service("child", "", "starts = false")
    found = answers(room, code, 'spawns = ["child"]', "children = 3", more=more)
    expect(found == ["ok"] * 3 + ["too many"] * 2, found)


@case
def who_reads_no_answer_holds_up_nobody(room):
    """It floods, and reads nothing; another one is answered meanwhile."""
    flood = "while True: host.socket.send(b'[]')"
    text = ALICE + OUT + service("flood", flood)
    text += service("one", "time.sleep(2)\nfor k in range(50): host.receive(False)\ntell('done')\n"
                    "stay()")
    room.configure(text).init().start()
    room.tells("out", "done")
    expect(room.end() == 0, room.said())


FUZZER = """
import random
draw, verbs = random.Random(7), %r
forms = ["secrecy", "integrity", "policy", "to rights", "to bytes", "to bytes secrecy", "right",
         "service rights", "to rights integrity"]
keys = ["do", "to", "bytes", "secrecy", "integrity", "rights", "right", "policy", "service", "x"]
words = ["one", "out", "alice/calendar", "t1", "s1", "export", "+alice/calendar", "-t1", "6869",
         "", "p1.1.1", "\\n1 proc", "{}", "none", "\\ud800", "a" * 3000, "parent"]
def value(depth=0):
    kind = draw.randrange(9 if depth < 3 else 5)
    if kind < 4:
        return draw.choice(words)
    if kind == 4:
        return draw.choice([None, True, False, 0, -1, 1e308, 10 ** 30])
    if kind < 8:
        many = 70 if not depth and kind == 5 else draw.randrange(4)
        return [value(depth + 1) for _ in range(many)]
    return {draw.choice(keys): value(depth + 1) for _ in range(draw.randrange(4))}
def datagram():
    kind = draw.random()
    if kind < 0.1:
        return draw.randbytes(draw.choice([1, 2, 30, 3000])) or b"x"
    it = {draw.choice(keys): value() for _ in range(draw.randrange(1, 5))}
    if kind > 0.4:
        it = {key: draw.choice(words) if key[-1] != "s" or key == "bytes" else [draw.choice(words)]
              for key in draw.choice(forms).split()}
    it["do"] = draw.choice(verbs)
    if it["do"] in ("receive", "exit"):
        it = {"do": "receive", "wait": False} if kind < 0.6 else {**it, "x": 1}
    if it["do"] == "spawn":
        it["service"] = "nobody"
    it = json.dumps(it).encode()
    if kind < 0.3:
        at = draw.randrange(len(it))
        it = it[:at] + draw.choice([b"", b"\\0", b'"', b"}", b"\\xff"]) + it[at + 1:]
    return it[:65536]
counts = {}
for _ in range(10000):
    it = datagram()
    if b'"exit"}' in it or b'"wait": t' in it:
        it = b"{}"
    got = answer(it)
    key = "ok" if got.get("ok") is True else got["refused"].split(" ")[0]
    assert set(got) <= {"ok", "is", "bytes", "rights", "tag", "refused", "names"}, got
    counts[key] = counts.get(key, 0) + 1
tell(counts)
"""


@case
def random_datagrams(room):
    """Ten thousand, of a fixed seed: each is answered, and the host lives."""
    code = FUZZER % ("label tag grant send receive emit spawn ask".split(),)
    found = answers(room, code, "orders = 20", "orders_an_hour = 20")
    expect(sum(found.values()) == 10_000, found)
    for kind in ("ok", "bad", "no"):
        expect(found.get(kind, 0) > 20, kind, found)
    bad = [it for it in room.journal() if it["kind"] == "line"
           and it["answer"][0].startswith("refused F19")]
    expect(not bad, "lines that are none", bad[:3])
    if room.end() != 0:
        raise Wrong(room.said())
