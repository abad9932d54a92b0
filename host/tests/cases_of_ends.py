"""How services end: with all their children, before anything else has their place; and limits."""
import contextlib
import json
import os
import pathlib
import signal
import subprocess
import sys
import time

from rig import ALICE, HOST, SECONDS, SIGNALS, USER, Barred, case, expect, living, outlet, service

sys.path.insert(0, str(HOST))

from flume_host.sandbox import GROUPS, delegated  # noqa: E402

FORKS = """
import subprocess
mark = sys.argv[1] + "/child"
code = "import time; time.sleep(1000)"
for _ in range(3):
    subprocess.Popen(["/usr/bin/python3", "-c", code, mark], start_new_session=True)
def is_there(pid):
    try:
        return mark in open(f"/proc/{pid}/cmdline").read().split("\\0")
    except OSError:
        return False
while sum(is_there(it) for it in os.listdir("/proc") if it.isdigit()) < 3:
    time.sleep(0.1)
"""


@case
def a_service_ends_with_all_its_children(room):
    """It leaves some behind, in sessions of their own, and ends."""
    code = FORKS + "tell('here')\nwait_for('go')"
    text = outlet("out") + service("one", code, "restarts = false", SIGNALS,
                                   marker=str(room.folder))
    room.let("")
    room.configure(text).init().start()
    room.tells("out", "here")
    expect(len(living(f"{room.folder}/child")) == 3, "children", living(f"{room.folder}/child"))
    room.let("go")
    room.until(lambda: room.entries("ended", service="one"), "its end")
    expect(not living(f"{room.folder}/child"), "a child that survives")


@case
def all_have_ended_before_the_node_is_started_anew(room):
    code = FORKS + "tell('here')\nstay()"
    text = outlet("out") + service("one", code, marker=str(room.folder))
    room.configure(text).init().start()
    room.tells("out", "here")
    before = living(f"{room.folder}/child")
    expect(len(before) == 3, "children", before)
    os.kill(room.node_pid(), signal.SIGKILL)
    room.until(lambda: len(room.entries("greeting")) == 2, "a second greeting")
    found = room.journal()
    kinds = [(it["kind"], it.get("service")) for it in found]
    at = kinds.index(("greeting", None), 1 + kinds.index(("greeting", None)))
    expect(("ended", "one") in kinds[:at], "the end before the greeting", kinds[at - 5:])
    expect(not set(before) & set(living(f"{room.folder}/child")), "children of before")


@case
def a_host_that_was_killed_leaves_nobody(room):
    """What outlives the host is ended by the next one, before it starts anything."""
    code = FORKS + "tell('here')\nstay()"
    text = outlet("out") + service("one", code, marker=str(room.folder))
    room.configure(text).init().start()
    room.tells("out", "here")
    before = living(f"{room.folder}/child")
    expect(len(before) == 3, "children", before)
    room.end(signal.SIGKILL)
    room.start()
    room.until(lambda: len(room.entries("greeting")) == 2, "a second greeting")
    expect(not set(before) & set(living(f"{room.folder}/child")), "children of before")


@case
def what_a_kill_left_is_ended_by_the_next_host(room):
    """A process that the file of sandboxes names is ended, and another of its number is not."""
    room.configure("").init()
    words = room.bench.words("sleep", "1000")
    left, other = subprocess.Popen(words), subprocess.Popen(words)
    try:
        time.sleep(0.5)
        began = [open(f"/proc/{it.pid}/stat").read().rpartition(")")[2].split()[19]
                 for it in (left, other)]
        path = room.folder / "it/running"
        path.write_text(f"{left.pid} {began[0]}\n{other.pid} {int(began[1]) + 1}\n{1 << 22} 1\n7")
        os.chmod(path, 0o666)
        room.start()
        room.until(lambda: room.entries("greeting"), "a greeting")
        expect(left.wait(SECONDS) == -9 and other.poll() is None, "what was ended")
        expect(path.read_text() == "", path.read_text())
    finally:
        left.kill()
        other.kill()


@case
def a_sandbox_that_was_half_made_is_ended_by_the_next_host(room):
    """bwrap is killed before it lets its child go on, which then waits for ever: here for an
    information that nobody reads."""
    room.configure("").init()
    reads, writes = os.pipe()
    os.set_blocking(writes, False)
    with contextlib.suppress(BlockingIOError):
        while os.write(writes, bytes(4096)):
            pass
    os.set_blocking(writes, True)
    called = f"bwrap of {room.folder}/it/running"
    words = ["bwrap", "--unshare-user", "--unshare-pid", "--die-with-parent", "--ro-bind", "/", "/",
             "--info-fd", str(writes), "true"]
    shell = room.bench.words("bash", "-c", 'exec -a "$0" "$@"', called, *words)
    outer = subprocess.Popen(shell, pass_fds=[writes])
    os.close(writes)
    room.until(lambda: len(called_so(called)) == 2, "bwrap and its child")
    outer.kill()
    outer.wait()
    os.close(reads)
    time.sleep(0.5)
    expect(len(called_so(called)) == 1, "its child does not wait", called_so(called))
    room.start()
    room.until(lambda: room.entries("greeting"), "a greeting")
    expect(not called_so(called), "it waits still")


def called_so(name):
    """Returns the real pids of processes that call themselves so."""
    found = []
    for path in pathlib.Path("/proc").glob("[1-9]*/cmdline"):
        with contextlib.suppress(OSError):
            found += [path.parent.name] * path.read_bytes().startswith(name.encode() + b"\0")
    return found


@case
def a_service_that_is_restarted(room):
    """It has a new pid, no right and no label of before, and a new sandbox; the old pid is gone."""
    code = """
had = os.path.exists("/tmp/had")
open("/tmp/had", "w").close()
tell([had, host.may("+alice/diary"), tried(host.send, "one", b"x"), host.receive(False) and 1])
host.label(secrecy=["alice/calendar"])
host.send("one", b"left")
"""
    keys = 'tags = ["alice/calendar", "alice/diary"]'
    text = ALICE + outlet("out") + service("one", code, keys)
    room.configure(text).init().start()
    room.until(lambda: len(room.entries("started", service="one")) > 2, "three starts")
    pids = [it["pid"] for it in room.entries("started", service="one")][:3]
    expect(len(set(pids)) == 3, "pids", pids)
    told = room.until(lambda: room.read("out").count("\n") > 2 and room.read("out"), "three lines")
    expect(told.splitlines()[:3] == ['[false, false, "ok", 1]'] * 3, told)
    marks = [(it["kind"], it.get("pid") or it.get("line")) for it in room.journal()]
    for old, new in zip(pids, pids[1:]):
        order = [marks.index(it) for it in (("started", old), ("ended", old),
                                            ("line", f"exit {old}"), ("started", new))]
        expect(order == sorted(order), "the order", order)


@case
def pauses_grow(room):
    room.configure(service("one", "", "restarts = true")).init().start()
    room.until(lambda: len(room.entries("started", service="one")) == 4, "four starts")
    times = [it["at"] for it in room.entries("started", service="one")]
    gaps = [b - a for a, b in zip(times, times[1:])]
    expect(gaps[0] >= 1 and gaps[1] >= 2 and gaps[2] >= 4, gaps)


@case
def limits_of_a_service(room):
    code = """
def forks():
    for k in range(40):
        if os.fork() == 0:
            time.sleep(100)
    return "all"
def attempt(call):
    try:
        return call()
    except BaseException as why:
        return type(why).__name__
found = [attempt(lambda: len(bytearray(200 << 20))), attempt(lambda: len(bytearray(1 << 20)))]
found += [attempt(lambda: open("/tmp/x", "wb").write(bytes(32 << 20)))]
found += [attempt(lambda: open(path, "wb")) for path in ("/x", "/srv/x", "/dev/x", "/usr/x")]
found += [attempt(forks), os.getuid(), sorted(os.environ)]
tell(found)
stay()
"""
    keys = ("memory = 134217728", "processes = 12")
    room.configure(outlet("out") + service("one", code, *keys)).init().start()
    room.until(lambda: room.read("out").endswith("\n"), "what it tells")
    found = json.loads(room.read("out"))
    expect(found[:7] == ["MemoryError", 1 << 20, "OSError", "OSError", "OSError", "OSError",
                         "OSError"], found)
    if room.bench.is_root or os.getuid():
        expect(found[7] == "BlockingIOError", "forks", found)
    expect(found[8] == 65_534 and "HOME" not in found[9], found)


def delegated_group(room):
    """Returns a control group that is the user's, as systemd delegates one. Raises Barred."""
    it = GROUPS / f"flume-host-tests-{os.getpid()}"
    try:
        known = (GROUPS / "cgroup.subtree_control").read_text().split()
        if not room.bench.is_root or not {"memory", "pids"} <= {*known}:
            raise Barred("a delegated control group")
        it.mkdir()
    except OSError:
        raise Barred("a delegated control group") from None
    for path in (it, *(it / f"cgroup.{name}" for name in ("procs", "subtree_control", "threads"))):
        os.chown(path, USER, USER)
    with contextlib.suppress(OSError):
        (it / "memory.swap.max").write_text("0")
    return it


@case
def a_control_group_of_a_service(room):
    """Its processes have so much memory together, and are so many: the whole of it ends."""
    group = delegated_group(room)
    code = """
def forks():
    for k in range(40):
        if os.fork() == 0:
            time.sleep(100)
try:
    forks()
except BlockingIOError:
    tell("no more")
had = b"x" * (100 << 20)
tell("too much")
"""
    keys = ("memory = 67108864", "processes = 12", "restarts = false")
    room.configure(outlet("out") + service("one", code, *keys)).init()
    room.prefix = ["sh", "-c", f'echo $$ > {group}/cgroup.procs; exec "$@"', "sh"]
    try:
        room.start()
        room.until(lambda: room.entries("ended"), "its end")
        expect(room.read("out") == "no more\n", room.read("out"))
        left = [it.name for it in group.iterdir() if it.is_dir()]
        expect(left == ["host"], "groups that are left", left)
        expect(room.end() == 0, room.said())
    finally:
        room.clear()
        for it in (group / "host", group):
            it.rmdir()


@case
def which_control_group_is_delegated(room):
    """One that may limit memory and processes; the host is in one within. Written to files here."""
    for controllers, is_so in (("cpu memory pids", True), ("cpu pids", False), (None, False)):
        group = room.folder / str(controllers)
        own = group / pathlib.Path("/proc/self/cgroup").read_text().rpartition("0::/")[2].strip()
        own.mkdir(parents=True)
        if controllers:
            (own / "cgroup.controllers").write_text(controllers)
        expect(delegated(group) == (own if is_so else None), controllers)
        expect((own / "host").exists() == is_so, controllers)
    own = room.folder / "cpu memory pids" / own.relative_to(group)
    expect((own / "host/cgroup.procs").read_text() == str(os.getpid()), "its process")
    expect((own / "cgroup.subtree_control").read_text() == "+memory +pids", "its limits")


@case
def a_service_that_lives_too_long(room):
    room.configure(service("one", "stay()", "seconds = 2", "restarts = false")).init().start()
    room.until(lambda: room.entries("ended", service="one"), "its end")
    [began], [ended] = room.entries("started", service="one"), room.entries("ended", service="one")
    expect(1.9 < ended["at"] - began["at"] < SECONDS, ended["at"] - began["at"])


@case
def a_sandbox_that_cannot_be_made(room):
    """The host goes on, and says so."""
    text = outlet("out") + service("one", "tell('hi')\nstay()")
    text += '[services.two]\ncommand = ["/usr/bin/true"]\nsees = ["gone"]\nrestarts = false\n'
    (room.folder / "gone").mkdir()
    room.configure(text).init()
    room.start()
    room.tells("out", "hi")
    room.until(lambda: room.entries("ended", service="two"), "the end of the other")
    expect(room.end() == 0, room.said())


@case
def a_service_that_asks_to_end(room):
    text = outlet("out") + service("one", "host.exit()\ntime.sleep(1)\ntell('no')",
                                   "restarts = false")
    room.configure(text).init().start()
    room.until(lambda: room.entries("ended", service="one"), "its end")
    time.sleep(1)
    expect(room.read("out") == "", room.read("out"))


@case
def a_signal_ends_a_host(room):
    """Its services end, and the node's input, so that its log is merged."""
    room.configure(service("one", "stay()", marker=str(room.folder))).init()
    for number in (signal.SIGTERM, signal.SIGINT):
        room.start()
        room.until(lambda: living(str(room.folder)), "its process")
        expect(room.end(number) == 0, room.said())
        expect(not living(str(room.folder)), "it lives")
        log = room.folder / "it/node-1.db-wal"
        expect(log.stat().st_size < 100, "the log", log.stat().st_size)
