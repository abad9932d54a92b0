"""The story of docs/HOST.md, and what a running host says of itself."""
import json
import stat

from cases_of_machines import KEY, Broker, keyed
import rig

STORY = rig.HOST / "tests/story"
ALLOWED = {
    "network": "ConnectionRefusedError", "network outside": "OSError",
    "a socket by name": "ConnectionRefusedError", "a file": "OSError", "the root": "OSError",
    "the system": "OSError", "a new user namespace": "-1", "others' processes": "['1', '2']",
    "others' sockets": "FileNotFoundError", "memory": "MemoryError", "no JSON": "bad request",
    "a line in a name": "no such name", "a deep request": "bad request", "a flood": "bad request",
    "lay the tag down": "F3", "an order": "F8", "a lower label": "F4",
    "a right that it has not": "F3", "a key of the kernel": "1", "a ring of the kernel": "1",
    "a socket of the machine": "PermissionError", "a raw socket": "PermissionError",
    "forks": "BlockingIOError", "a right of Bob's": "False",
    # the sender is not told that these did not arrive
    "to the outside": "None", "to a stranger": "None", "to another machine": "None",
    "to Bob's diary": "None"}


def machine(room, number, name, port, days):
    """Returns the machine of an owner, whose calendar has these days."""
    text = (STORY / f"{name}.toml").read_text().replace(":1883", f":{port}")
    it = room.machine(number)
    (it.folder / "calendar").write_text(days)
    return keyed(it, text.replace('"services"', f'"{room.bench.folder}/host/tests/story/services"'))


def log(room, name):
    """Returns the lines of an outlet that is a log."""
    return [json.loads(line)["text"] for line in room.read(name).splitlines()]


def brought(alice, bob):
    """Returns what became of the messages that came from Alice's machine to Bob's."""
    tag = alice.entries("tags")[-1]["alice/calendar"]
    answers = [it for line, it in bob.lines("receive") if line.startswith("receive f20400000001")]
    return sorted(it.partition(" p")[0].replace(tag, "alice/calendar") for it in answers)


def tell(say, what, lines):
    say("\n    ".join([f"{what}:", *lines]))


def tell_journal(say, room, *names):
    """Says what the journal of a machine has of services."""
    for name in names:
        lines = [it[20:] for it in room.run("explain", "CONFIG", name).stdout.splitlines()]
        tell(say, f"The journal on {name}", [it for it in lines if "_log" not in it])


def tell_all(say, alice, bob):
    """Says what went out of both machines, what did not, and why."""
    tell(say, "What went out at Alice's", alice.read("outside").splitlines())
    tell(say, "What Alice reads in her log, of the hostile plug-in", log(alice, "alice_log"))
    tell_journal(say, alice, "matcher", "hostile", "stranger", "release")
    tell(say, "What went out at Bob's", bob.read("outside").splitlines())
    tell(say, "What Bob reads in his log", log(bob, "bob_log"))
    tell(say, "What became of what Alice's machine sent to Bob's", brought(alice, bob))
    tell_journal(say, bob, "guest", "diary")


def check(alice, bob):
    """Raises rig.Wrong where something else went out than may, or the plug-in found another way."""
    outside = sorted(alice.read("outside").splitlines())
    rig.expect(outside == ["release: fri", "stranger: here"], "something else went out", outside)
    rig.expect(bob.read("outside") == "stranger: here\n", "at Bob's", bob.read("outside"))
    rig.expect(log(bob, "bob_log") == ["fri"], "his log", log(bob, "bob_log"))
    came = brought(alice, bob)
    rig.expect(came == ["arrived", *["dropped F8 alice/calendar"] * 2], "came", came)
    found = dict(line.split(": ", 1) for line in log(alice, "alice_log") if ": " in line)
    wrong = {it: found.get(it) for it in ALLOWED if found.get(it) != ALLOWED[it]}
    rig.expect(not wrong, "the hostile plug-in found", wrong)


def run(room, say):
    """Runs the story in a room, and returns its machines, which have ended. Raises rig.Wrong where
    something else went out than may."""
    port = Broker(room).port
    alice = machine(room, 1, "alice", port, "mon wed fri")
    bob = machine(room, 2, "bob", port, "tue fri")
    bob.start()
    bob.until(lambda: len(bob.entries("started")) == 5, "Bob's machine")
    alice.start()
    alice.until(lambda: "that was all" in log(alice, "alice_log"), "the hostile plug-in's end")
    alice.until(lambda: alice.read("outside").count("\n") > 1, "the day")
    alice.until(lambda: len(alice.entries("ended")) >= 2, "the ends of both plug-ins")
    alice.until(lambda: not alice.status()["peers"]["2"]["waiting"], "all that goes to Bob's")
    bob.until(lambda: bob.read("outside") and log(bob, "bob_log"), "the day in Bob's log")
    tell_all(say, alice, bob)
    for it in (alice, bob):
        rig.expect(it.end() == 0, it.said())
    check(alice, bob)
    return alice, bob


def main():
    """Runs it, and returns the status."""
    lacks = rig.lacking()
    if lacks:
        print(f"the story: NOT RUN, {lacks} lacks")
        return 1
    bench = rig.Bench()
    room = bench.room()
    try:
        run(room, print)
    except rig.Missing as why:
        print(f"the story: NOT RUN, {why} lacks")
        return 1
    except rig.Wrong as why:
        print(f"WRONG: {why}")
        return 1
    finally:
        room.clear()
        bench.end()
    return 0


@rig.case
def the_story(room):
    """What it prints, and that both journals are one script of flume-tags."""
    # an installed host has the story, and not what this needs
    from weave import replay
    said = []
    alice, bob = run(room, said.append)
    told = "\n".join([*said, ""])
    for line in ("refused: bad request (2001 times)", "label S {}: refused F3 -alice/calendar",
                 "the message of 11 bytes to service stranger: dropped F8 alice/calendar",
                 "sent 11 bytes to service guest, with the rights {}",
                 "read 11 bytes of owner alice, with the rights {}",
                 "sent 13 bytes to outlet outside, with the rights {}",
                 "tag export: refused F8 alice/calendar"):
        rig.expect(f"    {line}\n" in told, line, "is not in", told)
    replay([alice, bob], [bytes.fromhex(KEY)])


@rig.case
def what_a_host_says_of_itself(room):
    text = rig.ALICE + rig.outlet("out") + rig.service("one", "tell('hi')\nstay()")
    room.configure(text).init().start()
    room.tells("out", "hi")
    room.until(lambda: room.entries("done"), "that it is done")
    done = room.run("status", "CONFIG")
    told = json.loads(done.stdout)
    pids = {name: pid for pid, name in told.pop("processes").items()}
    rig.expect(pids == {"out": "p1.1.3", "one": "p1.1.4"}, pids)
    rig.expect(told == {"node": 1, "starts": 1, "emissions": {"out": 1}, "undone": 0,
                        "peers": {}}, told)
    mode = stat.S_IMODE((room.folder / "it/control").stat().st_mode)
    rig.expect(mode == 0o600, "the mode of the socket", oct(mode))
    rig.expect(room.run("explain", "CONFIG", "nobody").stdout == "", "explain nobody")


# A node that says what is wanting for a line where the other, which does all else, is too old.
SAYS_WHAT_IS_WANTING = """#!/usr/bin/python3
import subprocess, sys
node = subprocess.Popen(["NODE", *sys.argv[1:]], stdin=subprocess.PIPE, stdout=subprocess.PIPE)
def asked(line):
    node.stdin.write(line)
    node.stdin.flush()
    said = node.stdout.readline()
    for _ in range(int(said[6:]) if said.startswith(b"lines ") else 0):
        said += node.stdout.readline()
    return said
if "--new" in sys.argv:
    sys.exit(node.wait())
said = node.stdout.readline()
while True:
    sys.stdout.buffer.write(said)
    sys.stdout.flush()
    if not (line := sys.stdin.buffer.readline()):
        break
    said = asked(line)
    if line == b"1 missing label p1.1.3 S {}\\n" and said.startswith(b"refused F19"):
        has = asked(b"1 why p1.1.3 -1.1\\n").startswith(b"lines")
        said = b"lines 0\\n" if has else b"lines 1\\n-1.1\\n"
node.stdin.close()
sys.exit(node.wait())
"""


@rig.case
def what_is_wanting(room):
    """Of a line that was refused the node says what is wanting now, and why a right is there, where
    its process lives; an older node says nothing of it."""
    code = """
tried(host.label, secrecy=["alice/calendar"])
tried(host.label, secrecy=[])
tried(host.tag)
stay()
"""
    gives = "wait_for('go')\nhost.grant('one', ['-alice/calendar'])\nstay()"
    keys = ('tags = ["alice/calendar"]', "orders = 1", "orders_an_hour = 1")
    two = rig.service("two", gives, 'rights = ["-alice/calendar"]', keys[0], rig.SIGNALS)
    between = room.folder / "between"
    between.write_text(SAYS_WHAT_IS_WANTING.replace("NODE", room.node_words))
    between.chmod(0o755)
    room.let("")
    room.configure(rig.ALICE + rig.service("one", code, *keys) + two, program=between)
    room.init().start()
    room.until(lambda: [it for _, it in room.lines("tag") if it.startswith("refused F8")], "F8")
    lines = ["label S {}: refused F3 -alice/calendar", "tag export: refused F8 alice/calendar"]

    def explains(first, second=""):
        told = room.run("explain", "CONFIG", "one").stdout.splitlines()
        found = [it[20:] for it in told if "refused" in it]
        rig.expect(found[0] == lines[0] + first, found)
        rig.expect(found[1:] in ([lines[1]], [lines[1] + second]), found)
    explains(*["; wanting now: -alice/calendar"] * 2)
    room.let("go")
    room.until(lambda: [it for _, it in room.lines("receive") if it == "arrived p1.1.3"], "a right")
    explains("; wanting now: nothing; it has -alice/calendar now: owns -alice/calendar",
             "; wanting now: nothing")
    rig.expect(not room.lines("missing", "why"), "what is explained is noted")
    rig.expect(room.end() == 0, room.said())
    explains("")
