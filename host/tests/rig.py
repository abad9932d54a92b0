"""What the tests of flume-host stand on: a room with a host of its own, as a user of its own."""
import concurrent.futures
import contextlib
import itertools
import json
import os
import pathlib
import shutil
import signal
import subprocess
import sys
import tempfile
import time
import traceback

HOST = pathlib.Path(__file__).resolve().parent.parent
TOP = HOST.parent
USER = 61_234
SECONDS = int(os.environ.get("SECONDS", "300"))
PARTS = ("bwrap", "setpriv")
AT_ONCE = 3


class Wrong(Exception):
    """What was found that should not be so."""


class Missing(Exception):
    """A part that a case needs, and that is not here, though host/install --tests installs it."""


class Barred(Missing):
    """What the machine does not let a case do, and no package would."""


def expect(it, *what):
    """Raises Wrong where something is not so."""
    if not it:
        raise Wrong(" ".join(["it is not so:", *(str(word)[:1500] for word in what)]))


def node_program():
    """Returns where flume-node stands: at $FLUME_NODE, or where it is built; or nothing."""
    given = os.environ.get("FLUME_NODE")
    path = pathlib.Path(given) if given else TOP / "crates/flume_node/out/flume_node"
    return path.resolve() if path.is_file() else None


def tags_program():
    """Returns the words that start flume-tags: at $FLUME_TAGS, or where it is built; and else those
    that start its reference."""
    given = os.environ.get("FLUME_TAGS")
    path = pathlib.Path(given) if given else TOP / "crates/flume_tags/out/flume_tags"
    return [path.resolve()] if path.is_file() else [sys.executable, TOP / "reference/flume_tags.py"]


def lacking():
    """Returns the first part that lacks, or nothing."""
    for name in PARTS:
        if not shutil.which(name):
            return name
    return "" if node_program() else "flume-node"


class Bench:
    """A folder with copies of the host and of the node, which a user of its own may read."""

    def __init__(self):
        self.folder = pathlib.Path(tempfile.mkdtemp(prefix="flume-host-tests-"))
        self.folder.chmod(0o755)
        shutil.copytree(HOST, self.folder / "host", ignore=shutil.ignore_patterns("__pycache__"))
        shutil.copyfile(node_program(), self.folder / "flume-node")
        subprocess.run(["chmod", "-R", "u+w,a+rX", self.folder], check=True)
        (self.folder / "flume-node").chmod(0o755)
        self.is_root = os.getuid() == 0
        self.rooms = itertools.count(1)

    def words(self, *words):
        """Returns words that are run as the user of the tests."""
        it = ["setpriv", f"--reuid={USER}", f"--regid={USER}", "--clear-groups"]
        return [*(it if self.is_root else []), *map(str, words)]

    def room(self):
        """Returns a folder for a case, which is the user's."""
        folder = self.folder / f"room-{next(self.rooms)}"
        folder.mkdir()
        if self.is_root:
            os.chown(folder, USER, USER)
        return Room(self, folder)

    def end(self):
        """Takes it away."""
        shutil.rmtree(self.folder)


class Room:
    """A folder with a configuration, and the host that runs over it, where one does."""

    def __init__(self, bench, folder, number=1):
        self.bench, self.folder, self.number, self.host = bench, folder, number, None
        self.node_words = str(bench.folder / "flume-node")
        # other machines, and other processes, which end with it; what its host is started by
        self.machines, self.processes, self.prefix = [], [], []
        # of each file of the journal, by its first line: how much was read, and its entries
        self.known = {}

    def machine(self, number):
        """Returns a room within this, for another machine of this number."""
        folder = self.folder / f"machine-{number}"
        folder.mkdir()
        self.own(folder)
        self.machines.append(Room(self.bench, folder, number))
        return self.machines[-1]

    def own(self, path):
        """Gives a file to the user of the tests, and to nobody else."""
        if self.bench.is_root:
            os.chown(path, USER, USER)
        path.chmod(0o700)

    def configure(self, text, program=None, head=""):
        """Writes a configuration: a node, and this."""
        head = f'[node]\nnumber = {self.number}\ndirectory = "it"\n' \
               f'program = "{program or self.node_words}"\n' + head
        (self.folder / "host.toml").write_text(head + text)
        return self

    def let(self, name):
        """Lets a service go on that waits for a signal of this name, and sees the folder signals.
        It is made before the host starts."""
        (self.folder / "signals").mkdir(exist_ok=True)
        if name:
            (self.folder / "signals" / name).touch()

    def run(self, *words, **options):
        """Runs flume-host with these words behind it, and CONFIG for 'CONFIG'."""
        words = [self.folder / "host.toml" if it == "CONFIG" else it for it in words]
        return subprocess.run(self.bench.words(self.bench.folder / "host/flume-host", *words),
                              capture_output=True, text=True, timeout=SECONDS, **options)

    def init(self):
        made = self.run("init", "CONFIG")
        expect(made.returncode == 0, "init", made.stderr)
        return self

    def start(self):
        """Starts the host."""
        words = [*self.prefix, *self.bench.words(self.bench.folder / "host/flume-host",
                                                 self.folder / "host.toml")]
        # two files, so that neither a full pipe nor the tests hold it up
        with open(self.folder / "said", "ab") as said, open(self.folder / "wrote", "ab") as wrote:
            self.host = subprocess.Popen(words, stdin=subprocess.DEVNULL, stdout=wrote, stderr=said)
        return self

    def end(self, signal_number=signal.SIGTERM):
        """Ends the host, and returns its status."""
        host, self.host = self.host, None
        if host.poll() is None:
            host.send_signal(signal_number)
        status = host.wait(SECONDS)
        bad = [it for it in self.entries("line") if it["answer"][0].startswith("refused F19")]
        expect(not bad, "lines that are none", bad[:3])
        return status

    def clear(self):
        """Ends the host at once, and the sandboxes that it leaves so, as a next host would."""
        for it in self.machines:
            it.clear()
        for it in self.processes:
            it.kill()
            it.wait()
        if self.host:
            self.end(signal.SIGKILL)
        for line in self.read("it/running").splitlines():
            with contextlib.suppress(OSError):
                os.kill(int(line.split()[0]), signal.SIGKILL)
        # and one that was half made, which no file names
        called = f"bwrap of {self.folder}/it/running\0".encode()
        for path in pathlib.Path("/proc").glob("[1-9]*/cmdline"):
            with contextlib.suppress(OSError):
                if path.read_bytes().startswith(called):
                    os.kill(int(path.parent.name), signal.SIGKILL)

    def said(self):
        """Returns what the host said on standard error."""
        return (self.folder / "said").read_text(errors="replace")

    def journal(self):
        """Returns the entries of the journal, the oldest first."""
        folder = self.folder / "it"
        paths = sorted(folder.glob("journal.*"), key=lambda it: -int(it.suffix[1:]))
        return [it for path in (*paths, folder / "journal") for it in self.entries_of(path)]

    def entries_of(self, path):
        """Returns the entries of a file of the journal, of which it reads what is new."""
        if not path.exists():
            return []
        with open(path, "rb") as file:
            first = file.readline()
            if not first.endswith(b"\n"):
                return []
            size, found = self.known.get(first, (0, []))
            file.seek(size)
            whole, end, _ = file.read().rpartition(b"\n")
        if end:
            found += map(json.loads, whole.split(b"\n"))
            self.known[first] = size + len(whole) + 1, found
        return found

    def secrets(self):
        """Returns the secrets of the host's logins, by tag."""
        facts = [json.loads(it) for it in self.read("it/vault").splitlines()]
        return {it["tag"]: it["secret"] for it in facts if "tag" in it}

    def entries(self, kind, **what):
        """Returns the entries of a kind that have this."""
        return [it for it in self.journal()
                if it["kind"] == kind and all(it.get(key) == what[key] for key in what)]

    def registry(self, *keys):
        """Returns the lines of the node's text, of a host that has ended."""
        words = self.bench.words(self.bench.folder / "flume-node", "--node", self.number, "--dir",
                                 self.folder / "it", *keys)
        asked = f"{self.number} text\n"
        done = subprocess.run(words, input=asked, capture_output=True, text=True, timeout=SECONDS)
        return done.stdout.splitlines()[2:]

    def status(self):
        """Returns what a running host says of itself."""
        return json.loads(self.run("status", "CONFIG").stdout)

    def lines(self, *verbs):
        """Returns the lines of these verbs, each with its answer."""
        return [(it["line"], it["answer"][0]) for it in self.entries("line")
                if it["line"].split(" ")[0] in verbs]

    def read(self, name):
        """Returns the content of a file of the room, nothing where there is none."""
        path = self.folder / name
        return path.read_text(errors="replace") if path.exists() else ""

    def until(self, holds, what, seconds=SECONDS):
        """Waits until something holds, and returns it."""
        stop = time.monotonic() + seconds
        while True:
            # asked before it looks, since a host may end between the two
            ended = self.host and self.host.poll() is not None
            if found := holds():
                return found
            if ended:
                raise Wrong(f"the host ended before: {what}: {self.said()[-1500:]}")
            if time.monotonic() > stop:
                raise Wrong(f"not in {seconds} s: {what}; {self.said()[-1500:]}")
            time.sleep(0.05)

    def tells(self, name, *lines):
        """Waits until a file of the room has these lines, in order, and no others."""
        wanted = "".join(f"{line}\n" for line in lines)
        self.until(lambda: self.read(name).count("\n") >= len(lines), f"{wanted} in {name}")
        expect(self.read(name) == wanted, name, "has", repr(self.read(name)), "not", repr(wanted))

    def node_pid(self):
        """Returns the real pid of the host's flume-node."""
        found = [int(it) for it in children(self.host.pid) if name_of(it) == "flume-node"]
        return found[0] if found else None


def check_operations(room):
    """Each operation that was answered is there, as it was given."""
    text, orders = room.registry(), room.lines("tag", "group", "put", "make-login")
    for line, answer in orders:
        verb, _, *words = line.replace("make-", "").replace("sha256:", "").split(" ")
        wanted = " ".join([answer.removeprefix("ok "), verb, *words])
        expect(not answer.startswith("ok ") or wanted in text, "an operation is lost:", wanted)


def children(pid):
    """Returns the children of a process, where it lives."""
    with contextlib.suppress(OSError):
        return [it for path in pathlib.Path(f"/proc/{pid}/task").glob("*/children")
                for it in path.read_text().split()]
    return []


def name_of(pid):
    """Returns the name of a process, where it lives."""
    with contextlib.suppress(OSError):
        return pathlib.Path(f"/proc/{pid}/comm").read_text().strip()
    return ""


def living(marker):
    """Returns the real pids of processes that have this among their words, and are no zombies."""
    found = []
    for path in pathlib.Path("/proc").glob("[0-9]*"):
        with contextlib.suppress(OSError):
            words = (path / "cmdline").read_bytes().split(b"\0")
            stat = (path / "stat").read_text().rpartition(")")[2].split()[0]
            if marker.encode() in words and stat not in "ZX" and b"bwrap" not in words[0]:
                found.append(int(path.name))
    return found


def service(name, code, *keys, marker=""):
    """Returns a service of a configuration: its code, behind what each has, and more keys."""
    code = PRELUDE + code
    command = json.dumps(["/usr/bin/python3", "-c", code, *([marker] if marker else [])])
    return "\n".join((f"[services.{name}]", f"command = {command}", *keys, "", ""))


def outlet(name, *keys, kind="file"):
    """Returns an outlet of a configuration that is a file of its name."""
    return "\n".join((f"[outlets.{name}]", f'kind = "{kind}"', f'to = "{name}"', *keys, "", ""))


PRELUDE = """
import itertools, json, os, sys, time
from flume_service import Host, Refused
host = Host()
def answer(content):
    host.socket.send(content if isinstance(content, bytes) else json.dumps(content).encode())
    return json.loads(host.socket.recv(65536))
def tell(what, to="out", **labels):
    host.emit(to, (what if isinstance(what, str) else json.dumps(what)).encode() + b"\\n", **labels)
def tried(call, *words, **keys):
    try:
        call(*words, **keys)
        return "ok"
    except Refused as why:
        return str(why)
def wait_for(name):
    while not os.path.exists(f"/srv/signals/{name}"):
        time.sleep(0.05)
def stay():
    while True:
        time.sleep(100)
"""
SIGNALS = 'sees = ["signals"]'
ALICE = """
[owners.alice.tags]
calendar = "export"
diary = "read"
seal = "integrity"
[owners.bob.tags]
calendar = "export"
"""

cases = {}


def case(function):
    """Takes a function as a case, which is given a room."""
    cases[function.__name__] = function
    return function


def outcome(bench, name):
    """Returns the name of a case, what is wrong with it, or nothing, what it lacks, or none, and
    how long it took."""
    room, began, wrong, lacks = bench.room(), time.monotonic(), "", None
    try:
        cases[name](room)
    except Missing as why:
        lacks = why
    except Wrong as why:
        wrong = str(why)
    except Exception as why:
        wrong = "".join(traceback.format_exception(why))
    room.clear()
    if "KEEP" in os.environ:
        print(name, room.folder)
    return name, wrong, lacks, time.monotonic() - began


def main(words):
    """Runs the cases of these names, or all."""
    lacks = lacking()
    if lacks:
        print(f"the host: NOT RUN, {lacks} lacks")
        return 1
    if any(it not in cases for it in words):
        print("the cases are", *cases, file=sys.stderr)
        return 2
    bench, began, failed, passed = Bench(), time.monotonic(), 0, 0
    names = words or list(cases)
    try:
        # they wait for the most part; more at once would hold up those that look at times
        with concurrent.futures.ThreadPoolExecutor(AT_ONCE) as pool:
            for name, wrong, lacks, took in pool.map(lambda name: outcome(bench, name), names):
                failed += bool(wrong)
                passed += not wrong and not lacks
                # where all was to be installed before, what lacks is a failure
                is_failure = "HOST_NEEDED" in os.environ and not isinstance(lacks, Barred)
                failed += bool(lacks) and is_failure
                print(f"WRONG: {name}: {wrong}\n" * bool(wrong), end="", flush=True)
                print(f"{name}: NOT RUN, {lacks} lacks\n" * bool(lacks), end="", flush=True)
                print(f"{took:6.1f} s {name}\n" * ("TIMES" in os.environ), end="", flush=True)
    finally:
        if "KEEP" not in os.environ:
            bench.end()
    print(f"it took {time.monotonic() - began:.0f} s")
    print(f"{passed} passed, {failed} failed")
    return 1 if failed else 0
