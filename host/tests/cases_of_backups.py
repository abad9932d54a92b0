"""Copies of what a host keeps, and hosts that are put back from them."""
import json
import os
import shutil
import signal
import stat

from cases_of_machines import KEY, Broker, machine
from rig import ALICE, case, expect, outlet, service

TAGS = "for _ in range(3): host.tag()\ntell('made')\nstay()"
ORDERS = ("orders = 99", "orders_an_hour = 99")


@case
def a_backup_that_is_put_back(room):
    """Tags, orders that count, and emissions that are numbered are those of before."""
    text = ALICE + outlet("out", kind="log") + service("one", TAGS, "orders = 5",
                                                       "orders_an_hour = 5")
    room.configure(text).init().start()
    room.until(lambda: room.entries("done"), "an emission")
    expect(room.end() == 0, room.said())
    done = room.run("backup", "CONFIG", room.folder / "kept")
    expect((done.returncode, done.stderr) == (0, ""), done)
    modes = {stat.S_IMODE(it.stat().st_mode) for it in (room.folder / "kept").rglob("*")}
    expect(modes <= {0o600, 0o700}, "modes", modes)
    tags = dict(room.entries("tags")[-1])
    shutil.rmtree(room.folder / "it")
    done = room.run("restore", "CONFIG", room.folder / "kept")
    expect(done.returncode == 0, done)
    room.start()
    room.until(lambda: len(room.entries("tags")) == 2, "a start")
    expect({**room.entries("tags")[-1], "at": 0} == {**tags, "at": 0}, "the tags")
    room.until(lambda: any(it["why"] == "too many orders" for it in room.entries("refused")),
               "that orders count")
    expect(room.end() == 0, room.said())
    lines = [json.loads(it) for it in room.read("out").splitlines()]
    expect([it["emission"] for it in lines] == [1], lines)


@case
def backups_that_are_refused(room):
    """While a host runs, behind a kill, to a folder that is there; and what is none is put back
    nowhere, and one nowhere where a host is."""
    room.configure(service("one", TAGS, *ORDERS) + outlet("out")).init().start()
    room.tells("out", "made")
    kept, none = room.folder / "kept", room.folder / "none"

    def refused(verb, to, why):
        done = room.run(verb, "CONFIG", to)
        expect(done.returncode == 2 and why in done.stderr, verb, done)
    refused("backup", kept, "another host has it")
    # else it would merge its log as its host ends
    node = room.node_pid()
    os.kill(node, signal.SIGSTOP)
    room.end(signal.SIGKILL)
    os.kill(node, signal.SIGKILL)
    if (room.folder / "it/node-1.db-wal").exists():
        refused("backup", kept, "is not merged")
    expect(not kept.exists(), "a backup was begun")
    room.start()
    room.until(lambda: len(room.entries("greeting")) == 2, "a start")
    expect(room.end() == 0, room.said())
    refused("restore", none, "is no whole backup")
    expect(room.run("backup", "CONFIG", kept).returncode == 0, "a backup")
    refused("backup", kept, "File exists")
    refused("restore", kept, "or something is in it")
    expect((room.folder / "it/vault").exists(), "it was taken away")
    expect(room.run("backup", "CONFIG", "/no/folder").returncode == 2, "a folder in none")
    shutil.rmtree(room.folder / "it")
    (kept / "host.toml").unlink()
    refused("restore", kept, "is no whole backup")


@case
def a_backup_that_a_peer_knows_more_than(room):
    """It is put back where no peer knows more of its number, and nowhere else."""
    broker = Broker(room)
    code = service("one", TAGS, *ORDERS) + outlet("out")
    one = machine(room, 1, broker.port, {2: ([], [])}, code)
    other = machine(room, 2, broker.port, {1: ([], [])}, "")
    other.start()
    for number, (told, lines) in enumerate((("old", 3), ("new", 6))):
        one.start()
        one.tells("out", *["made"] * (number + 1))
        other.until(lambda: sum(int(it[5:]) for _, it in other.lines("receive")
                                if it.startswith("took ")) >= lines, "its orders")
        expect(one.end() == 0, one.said())
        expect(one.run("backup", "CONFIG", one.folder / told).returncode == 0, "a backup")
    shutil.rmtree(one.folder / "it")
    (one.folder / "key").unlink()
    done = one.run("restore", "CONFIG", one.folder / "old")
    expect(done.returncode == 4 and "the number 1 is another's" in done.stderr, done)
    expect(not (one.folder / "it").exists(), "it was left there")
    expect(one.read("key") == KEY, "its key")
    done = one.run("restore", "CONFIG", one.folder / "new")
    expect((done.returncode, done.stdout) == (0, "peers that were heard: 2\n"), done)
    one.start().tells("out", *["made"] * 3)
    for it in (one, other):
        expect(it.end() == 0, it.said())
