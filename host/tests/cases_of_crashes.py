"""Kills of the host, of the node and of services, and what is found again."""
import collections
import hashlib
import os
import random
import signal
import subprocess
import time

from rig import (ALICE, SECONDS, case, check_operations, children, expect, living, name_of, outlet,
                 service)

KILLS = int(os.environ.get("KILLS", "6"))
# A program between the host and the node, which does something at a line, once.
BETWEEN = """#!/usr/bin/python3
import os, signal, subprocess, sys
node = subprocess.Popen(["NODE", *sys.argv[1:]], stdin=subprocess.PIPE, stdout=subprocess.PIPE)
def pass_on(said):
    sys.stdout.buffer.write(said)
    sys.stdout.buffer.flush()
if "--new" in sys.argv:
    sys.exit(node.wait())
pass_on(node.stdout.readline())
at, before = int(open("FOLDER/at").read()), open("FOLDER/before").read() == "1"
for number, line in enumerate(sys.stdin.buffer, 1):
    if number == at:
        open("FOLDER/at", "w").write("0")
        if not before:
            node.stdin.write(line)
            node.stdin.flush()
            node.stdout.readline()
        DEED
        break
    node.stdin.write(line)
    node.stdin.flush()
    said = node.stdout.readline()
    for _ in range(int(said[6:]) if said.startswith(b"lines ") else 0):
        said += node.stdout.readline()
    pass_on(said)
node.stdin.close()
sys.exit(node.wait())
"""


def put_between(room, text, deed):
    """Configures a host with the program between it and its node, and makes it."""
    content = BETWEEN.replace("NODE", room.node_words).replace("FOLDER", str(room.folder))
    for name, it in (("between", content.replace("DEED", deed)), ("at", "0"), ("before", "0")):
        (room.folder / name).write_text(it)
        (room.folder / name).chmod(0o777)
    return room.configure(text, program=room.folder / "between").init()


def tags(room):
    """Returns the tags by name, as the journal has those of the newest start."""
    found = dict(room.entries("tags")[-1])
    return {key: found[key] for key in found if "/" in key}


def check_tags(room):
    """Each name is of the tag whose login has the digest of its secret, and no two are of one."""
    text, known = [it.split(" ") for it in room.registry()], tags(room)
    right = {it[3]: it[2] for it in text if it[1] == "login"}
    inside = {it[2]: it[3][1:] for it in text if it[1] == "put"}
    for name, secret in room.secrets().items():
        it = right.get(hashlib.sha256(bytes.fromhex(secret)).hexdigest())
        expect(it, "no login of", name, text)
        tag = inside[it[1:]] if it[0] == "*" else it[1:]
        expect(known[name] == tag, name, "is", known[name], "and its login is of", tag)
    expect(len(set(known.values())) == len(known) == 4, known)


@case
def tags_are_found_again_by_their_logins(room):
    """The host is killed at some line of its first start, before the node has it or behind."""
    put_between(room, ALICE, "os.kill(os.getppid(), signal.SIGKILL)").start()
    room.until(lambda: room.entries("tags"), "a start")
    expect(room.end() == 0, room.said())
    many = len(room.entries("line"))
    kills = [(at, before) for at in range(1, many + 1) for before in "01"]
    for at, before in random.Random(4).sample(kills, min(len(kills), KILLS)):
        subprocess.run(["rm", "-rf", room.folder / "it"], check=True)
        (room.folder / "before").write_text(before)
        room.init()
        (room.folder / "at").write_text(str(at))
        room.start()
        room.until(lambda: room.host.poll() is not None or room.entries("tags"), "a start")
        expect(room.end(signal.SIGKILL) == -9, "it was not killed at", at, room.said())
        wait_for_node(room)
        room.start()
        room.until(lambda: room.entries("tags") and len(room.entries("greeting")) > 1, "a start")
        expect(room.end() == 0, room.said())
        check_tags(room)


def wait_for_node(room):
    """Waits until no program serves the node of a host that was killed."""
    stop = time.monotonic() + SECONDS
    while living(str(room.folder / "it")):
        expect(time.monotonic() < stop, "a node lives on")
        time.sleep(0.02)


@case
def no_secret_in_the_journal(room):
    """Nor in any other file than the vault: their digests are there."""
    room.configure(ALICE + service("one", "stay()")).init()
    for number in (1, 2):
        room.start()
        room.until(lambda: len(room.entries("started", service="one")) == number, "a start")
        expect(room.end() == 0, room.said())
    found = room.secrets()
    expect(len(found) == 4 and all(len(it) == 64 for it in found.values()), found)
    for path in (room.folder / "it").iterdir():
        if path.is_file() and path.name != "vault":
            content = path.read_bytes()
            for secret in found.values():
                expect(secret.encode() not in content and bytes.fromhex(secret) not in content,
                       "a secret in", path.name)
    lines = [line for line, _ in room.lines("make-login", "enter")]
    expect(len(lines) == 8 and all(" sha256:" in it for it in lines), lines)


@case
def statuses_of_the_node(room):
    """2 and 4 end the host with them; 3, and a kill, start the node again, with growing pauses."""
    said = "echo flume-node 1 node 1 boot 1 published 0; read a; exit"
    for status, first in ((2, ""), (4, ""), (2, said), (4, said)):
        fake = room.folder / "fake"
        fake.write_text(f"#!/bin/sh\n[ $# = 5 ] && exit 0\n{first or 'exit'} {status}\n")
        fake.chmod(0o755)
        room.configure("", program=fake).init().start()
        expect(room.host.wait(SECONDS) == status, status, room.host.returncode, room.said())
    ends = f"[ $# = 5 ] && exit 0\ndate +%s.%N >> {room.folder}/times\nexit 3\n"
    fake.write_text("#!/bin/sh\n" + ends)
    room.start()
    times = room.until(lambda: room.read("times").count("\n") > 3 and room.read("times"), "starts")
    times = [float(it) for it in times.split()]
    gaps = [b - a for a, b in zip(times, times[1:])]
    expect(gaps[0] >= 1 and gaps[1] >= 2 and gaps[2] >= 4, gaps)
    began = time.monotonic()
    room.end()
    expect(time.monotonic() - began < 7, "it waited for the pause of eight seconds")


@case
def a_node_that_can_save_no_more(room):
    """It answers so and ends. All that is real ends with it, and then it is started again."""
    text = outlet("out") + service("one", "tell(tried(host.tag))\nstay()", "orders = 9",
                                   "orders_an_hour = 9", marker=str(room.folder))
    put_between(room, text, "pass_on(b'refused F15\\n'); os._exit(3)").start()
    room.until(lambda: room.entries("done"), "an order, and that it says so")
    at = [it["line"].split(" ")[0] for it in room.entries("line")].index("tag")
    expect(room.end() == 0, room.said())
    (room.folder / "before").write_text("1")
    (room.folder / "at").write_text(str(at + 1))
    room.start().tells("out", "ok", "ok")
    kinds = [it.get("answer", [it["kind"]])[0] for it in room.journal()]
    behind = kinds[kinds.index("refused F15"):]
    expect("ended" in behind[:behind.index("greeting")], "it ended behind", behind)
    expect(len(room.entries("greeting")) == 3, room.entries("greeting"))


@case
def a_directory_that_is_lost(room):
    """The node's file is gone: the host ends with 4, and makes nothing."""
    room.configure(ALICE + service("one", "stay()")).init()
    (room.folder / "it/node-1.db").unlink()
    room.start()
    expect(room.host.wait(SECONDS) == 4, room.host.returncode, room.said())
    expect(not (room.folder / "it/node-1.db").exists(), "a node was made")


STORY = ALICE + outlet("out") + outlet(
    "hers", 'secrecy = ["alice/calendar"]', 'rights = ["-alice/calendar"]') + """
[[owners.alice.gives]]
to = "reader"
tags = ["alice/calendar"]
file = "gift"
""" + service("reader", """
it = host.receive()[0]
for k in itertools.count():
    tell(it.decode())
    host.send("writer", it)
    tell(it.decode() + str(k), "hers")
    time.sleep(0.02)
""", 'secrecy = ["alice/calendar"]', marker="ROOM/reader") + service("writer", """
for k in itertools.count():
    tell(str(k))
    tried(host.tag, "read")
    if it := host.receive(False):
        tell(it[0].decode())
    time.sleep(0.02)
""", "orders = 9999", "orders_an_hour = 9999", marker="ROOM/writer")


def check_story(room):
    """No secret went out, and all that went out was let out by an emission that said so."""
    done = {(it["outlet"], it["number"]) for it in room.entries("done")}
    out, hers = room.read("out"), room.read("hers")
    expect("secret" not in out, "a secret went out")
    for name, content in (("out", out), ("hers", hers)):
        emitted = {it["number"]: bytes.fromhex(it["bytes"]).decode()
                   for it in room.entries("emission") if it["outlet"] == name}
        lines = [f"{it}\n" for it in content.splitlines()]
        expect(set(lines) <= set(emitted.values()), "what went out of", name)
        lost = collections.Counter(emitted[it] for to, it in done if to == name)
        lost -= collections.Counter(lines)
        expect(not lost, "what was done, and is not there", name, lost)
    pids = [it["pid"] for it in room.entries("started")]
    expect(len(pids) == len(set(pids)), "a pid twice")


def kill_and_wait(room, kill, draw):
    """Kills at some moment, and waits until all goes on."""
    time.sleep(draw.random() * 1.5)
    kill()
    # what the killed one let out does not show that the next one lives
    before = len(room.entries("emission"))
    if room.host.poll() is not None or name_of(room.host.pid) == "":
        room.host.wait()
        room.start()
    room.until(lambda: len(room.entries("emission")) > before + 5, "that it goes on")
    check_story(room)


@case
def kills_of_the_node(room):
    (room.folder / "gift").write_text("secret")
    room.configure(STORY.replace("ROOM", str(room.folder))).init().start()
    draw = random.Random(1)
    room.until(lambda: room.entries("emission"), "a beginning")

    def kill():
        os.kill(room.until(room.node_pid, "a node"), signal.SIGKILL)
    for number in range(KILLS):
        kill_and_wait(room, kill, draw)
        if number % 2 and number < KILLS - 1:
            # else the pauses before the node is started again grow to a minute
            expect(room.end() == 0, room.said())
            room.start()
    expect(room.end() == 0, room.said())
    check_tags(room)
    check_operations(room)


@case
def kills_of_the_host(room):
    (room.folder / "gift").write_text("secret")
    room.configure(STORY.replace("ROOM", str(room.folder))).init().start()
    draw = random.Random(2)
    room.until(lambda: room.entries("emission"), "a beginning")

    def kill():
        room.end(signal.SIGKILL)
        room.start()
    for _ in range(KILLS):
        kill_and_wait(room, kill, draw)
    expect(room.end() == 0, room.said())
    check_tags(room)
    check_operations(room)


@case
def kills_of_services(room):
    (room.folder / "gift").write_text("secret")
    room.configure(STORY.replace("ROOM", str(room.folder))).init().start()
    draw = random.Random(3)
    room.until(lambda: room.entries("emission"), "a beginning")

    def kill():
        name = f"{room.folder}/{draw.choice(('reader', 'writer'))}"
        for pid in room.until(lambda: living(name), "a life of it"):
            os.kill(pid, signal.SIGKILL)
    for number in range(KILLS):
        kill_and_wait(room, kill, draw)
        if number % 4 == 3 and number < KILLS - 1:
            # else the pauses before one is started again grow to a minute
            expect(room.end() == 0, room.said())
            room.start()
    expect(room.end() == 0, room.said())
    check_operations(room)
    expect(len(children(os.getpid())) < 50, "processes are left")
