"""Three machines over a broker that loses, repeats, delays and reorders: one is cut off, and one is
away for long. Behind it all have one text, and their journals are one script of flume-tags."""
import ipaddress
import os
import shutil
import subprocess

from cases_of_machines import (CLUSTER, KEY, Broker, end_equal, machine, made, operations,
                               wait_until_equal)
from rig import SIGNALS, Barred, Missing, case, expect, outlet, service
from weave import replay

AWAY = int(os.environ.get("AWAY", "1000"))
# seed, and the chances that a packet is lost, repeated and late
WILD = 11, 0.2, 0.2, 0.4

# Each gives its calendar to a reader at the next machine, which answers what only its own may see.
OWNER = """
[owners.o{0}.tags]
calendar = "export"
[[owners.o{0}.gives]]
to = "reader{1}"
tags = ["o{0}/calendar"]
file = "gift"
"""
KEEPER = 'while True: tell(host.receive()[0].decode(), "hers")'
READER = """
wait_for("go")
while True:
    it = host.receive()[0]
    tell(it.decode() + " " + tried(host.label, secrecy=[]))
    host.send("keeper{}", it + b" came")
"""
ORDERS = {"go": 10, "apart": 20, "away": AWAY // 2}
MAKER = f"""
for name, many in {ORDERS}.items():
    wait_for(name)
    for _ in range(many):
        tried(host.tag, "read")
stay()
"""


def one_of_three(room, number, port, keys=CLUSTER):
    """Returns a machine that knows the next one and the one before it."""
    after, before = number % 3 + 1, (number + 1) % 3 + 1
    mine, theirs = (f'secrecy = ["o{it}/calendar"]' for it in (number, before))
    # the second is started twice, and orders once
    most = sum(ORDERS[it] for it in ORDERS if number != 2 or it != "away")
    text = OWNER.format(number, after)
    text += service("maker", MAKER, SIGNALS, f"orders = {most}", f"orders_an_hour = {most}")
    text += outlet("out") + outlet("hers", mine, f'rights = ["-o{number}/calendar"]')
    text += service(f"keeper{number}", KEEPER, mine)
    text += service(f"reader{number}", READER.format(before), theirs, SIGNALS)
    peers = {after: ([f"reader{after}"], []),
             before: ([f"keeper{before}"], [f"o{before}/calendar"])}
    return machine(room, number, port, peers, text, keys)


def order(rooms, name):
    """Has machines give the orders of this name, and waits until they have."""
    before = {it: made(it) for it in rooms}
    for it in rooms:
        it.let(name)
    for it in rooms:
        it.until(lambda: made(it) == before[it] + ORDERS[name], f"its orders, {name}")


def part_and_leave(rooms, cut, mend):
    """Runs three machines: the third is cut off while all give orders, and then the second is away
    while the others do."""
    one, two, three = rooms
    for it in rooms:
        it.start()
    for it in rooms:
        it.until(lambda: len(it.entries("heard")) == 2, "names of the others")
    order(rooms, "go")
    wait_until_equal(*rooms, sum(map(made, rooms)))
    cut()
    order(rooms, "apart")
    wait_until_equal(one, two, sum(map(made, rooms)) - ORDERS["apart"])
    expect(operations(three) == operations(one) - ORDERS["apart"], "it is not cut off")
    mend()
    wait_until_equal(*rooms, sum(map(made, rooms)))
    for it in rooms:
        it.until(lambda: "gift came\n" in it.read("hers"), "what is only its own")
    expect(two.end() == 0, two.said())
    order([one, three], "away")
    two.start()
    wait_until_equal(*rooms, sum(map(made, rooms)))
    for it in rooms:
        expect(set(it.read("hers").splitlines()) == {"gift came"}, it.read("hers"))
        expect(it.read("out") == "", "what went out", it.read("out"))
    end_equal(*rooms)
    replay(rooms, [bytes.fromhex(KEY)])


@case
def three_machines_and_a_partition(room):
    broker, path = Broker(room, *WILD), room.folder / "apart"
    rooms = [one_of_three(room, it, broker.port) for it in (1, 2, 3)]
    part_and_leave(rooms, lambda: path.write_text("3"), path.unlink)


def ip(*words, space=None):
    """Returns whether the program ip did what was asked, in a network namespace where one is."""
    inner = ["ip", "netns", "exec", space] if space else []
    return subprocess.run([*inner, "ip", *map(str, words)], capture_output=True).returncode == 0


def joined(number, space):
    """Makes a network namespace with a line to this one. Returns the line's name and address."""
    ours, theirs = f"fl{os.getpid()}{number}", f"ft{os.getpid()}{number}"
    # a range that is for tests, in which each run of the tests has sixteen
    here = ipaddress.ip_address("198.18.0.1") + os.getpid() % 8192 * 16 + 4 * number
    if not (os.getuid() == 0 and ip("netns", "add", space)
            and ip("link", "add", ours, "type", "veth", "peer", "name", theirs)):
        raise Barred("the right to make network namespaces")
    ip("link", "set", theirs, "netns", space)
    ip("addr", "add", f"{here}/30", "dev", ours)
    ip("link", "set", ours, "up")
    ip("addr", "add", f"{here + 1}/30", "dev", theirs, space=space)
    ip("link", "set", theirs, "up", space=space)
    return ours, here


@case
def three_machines_in_network_namespaces(room):
    """Each has a line to the broker's, and one line is cut."""
    if not shutil.which("ip"):
        raise Missing("iproute2")
    broker, rooms, spaces = Broker(room, *WILD), [], []
    try:
        for it in (1, 2, 3):
            spaces.append(f"flume-{os.getpid()}-{it}")
            line, here = joined(it, spaces[-1])
            keys = CLUSTER.replace("127.0.0.1", str(here))
            rooms.append(one_of_three(room, it, broker.port, keys))
            rooms[-1].prefix = ["ip", "netns", "exec", spaces[-1]]
        part_and_leave(rooms, lambda: ip("link", "set", line, "down"),
                       lambda: ip("link", "set", line, "up"))
    finally:
        for space in spaces:
            ip("netns", "del", space)
