"""What a configuration may say, the words of the command, and its statuses."""
import ast
import json
import os
import shutil
import stat
import subprocess

from rig import ALICE, SECONDS, Barred, Missing, case, expect, outlet, service

HERE = ALICE + service("one", "stay()") + outlet("out")
WRONG = (
    ("[node", "line 1"),
    ('[node]\nnumber = 0\ndirectory = "it"', "node.number: must be from 1 to 4294967295"),
    ("[node]\nnumber = 1", "node.directory: is missing"),
    ('[node]\nnumber = true\ndirectory = "it"', "node.number: must be a whole number"),
    ("", "node: is missing"),
    ("NODE\nfolder = 1", "folder: is no key here"),
    ("NODE[servces.one]", "servces: is no key here"),
    ("NODE[services.One]\ncommand = ['x']", "services.One: is no name"),
    ("NODE[services.one]", "services.one.command: is missing"),
    ("NODE[services.one]\ncommand = []", "services.one.command: must have a program"),
    ("NODE[services.one]\ncommand = 'x'", "services.one.command: must be a list"),
    ("NODE[services.one]\ncommand = [1]", "services.one.command[0]: must be a text"),
    ("NODE[services.one]\ncommand = ['x']\nmemory = 1", "services.one.memory: must be from"),
    ("NODE[services.one]\ncommand = ['x']\nrestart = true", "services.one.restart: is no key"),
    ("NODE[services.one]\ncommand = ['x']\ntags = ['a']", "services.one.tags[0]: 'a' is none"),
    ("NODE[services.one]\ncommand = ['x']\ntags = ['a/b']", "one: no owner has the tag a/b"),
    ("NODE[services.one]\ncommand = ['x']\nrights = ['a/b']", "one.rights[0]: 'a/b' is none"),
    ("NODE[services.one]\ncommand = ['x']\nspawns = ['one']", "services.one.spawns: one is no"),
    ("NODE[services.one]\ncommand = ['x']\nsees = ['no']", "is not there"),
    ("NODE[services.one]\ncommand = ['x']\nsees = ['.']", "shows"),
    ("NODE[services.one]\ncommand = ['x']\nsees = ['/usr/lib', '/var/lib']", "two are called lib"),
    ("NODE[outlets.out]\nkind = 'pipe'", "outlets.out.kind: must be one of file, log"),
    ("NODE[outlets.out]\nkind = 'file'", "outlets.out.to: is missing"),
    ("NODE[outlets.out]\nkind = 'tcp'\nto = 'x'", "outlets.out.to: must be a host"),
    ("NODE[outlets.out]\nkind = 'tcp'", "outlets.out.to: must be a host"),
    ("NODE[owners.a.tags]\nb = 'secret'", "owners.a.tags.b: must be one of export, read"),
    ("NODE[[owners.a.gives]]\nto = 'x'\nfile = 'host.toml'", "no service x is started"),
    ("NODE[cluster]\nname = 'a'\nbroker = 'x:1'", "node.keys: is missing"),
    ("NODE[cluster]\nname = 'a'\nbroker = 'x'", "cluster.broker: 'x' is none of its texts"),
    ("NODE[cluster]\nname = 'A'\nbroker = 'x:1'", "cluster.name: 'A' is none of its texts"),
    ("NODE[cluster]\nname = 'a'\nbroker = 'x:1'\nca = 'no'", "must be files"),
    ("NODE[cluster]\nname = 'a'\nbroker = 'x:1'\nseconds = 0", "cluster.seconds: must be from"),
    ("NODE[peers.two]\nnumber = 2", "cluster: is missing"),
    ("NODE[peers.two]\nnumber = 1", "peers: the number 1 is here"),
    ("NODE[peers.two]", "peers.two.number: is missing"),
    ("NODE[peers.two]\nnumber = 2\nservices = ['one']\n[services.one]\ncommand = ['x']",
     "peers: one is here"),
    ("NODE[peers.two]\nnumber = 2\ntags = ['a/b']\n[peers.three]\nnumber = 3\ntags = ['a/b']",
     "peers: a/b is here, or at two"),
    ("NODE[peers.two]\nnumber = 2\ntags = ['a/b']\n[services.one]\ncommand = ['x']\n"
     "rights = ['-a/b']", "services.one: no owner has the tag a/b"),
    ("NODE[peers.two]\nnumber = 2\ntags = ['a/b']\n[outlets.out]\nkind = 'standard-output'\n"
     "secrecy = ['a/b']", "outlets.out: no owner here has the tag a/b"),
    ("NODE[[owners.a.gives]]\nto = 'x'\nrights = ['-a/b']", "a/b is no tag of its own"),
    ("NODE[[owners.a.gives]]\nto = 'x'\nfile = 'no'", "is no file of at most 65536 bytes"),
)


READS_ALL = """
import json, pathlib, sys
sys.path.insert(0, sys.argv[1])
from flume_host.config import Unfit, read_config
folder, found = pathlib.Path(sys.argv[2]), []
for text in json.loads((folder / "texts").read_text()):
    (folder / "host.toml").write_text(text + "\\n")
    try:
        found.append(f"taken: {read_config(folder / 'host.toml')}")
    except Unfit as why:
        found.append(str(why))
print(json.dumps(found))
"""


@case
def configurations_that_are_wrong(room):
    texts = [text.replace("NODE", '[node]\nnumber = 1\ndirectory = "it"\n') for text, _ in WRONG]
    (room.folder / "texts").write_text(json.dumps(texts))
    words = ["/usr/bin/python3", "-c", READS_ALL, room.bench.folder / "host", room.folder]
    done = subprocess.run(words, capture_output=True, text=True)
    expect(done.returncode == 0, done)
    for text, (_, wanted), found in zip(texts, WRONG, json.loads(done.stdout)):
        expect(wanted in found, repr(text), found)
    done = room.run("check", "CONFIG")
    expect((done.returncode, done.stdout) == (2, ""), done)
    expect(done.stderr.startswith("flume-host: "), done)
    expect("No such file" in room.run("check", "/no").stderr, "a file that is not there")


@case
def a_configuration_that_is_right(room):
    room.configure(HERE)
    done = room.run("check", "CONFIG")
    expect((done.returncode, done.stdout, done.stderr) == (0, "", ""), done)


@case
def words_of_the_command(room):
    room.configure(HERE)
    for words in ((), ("check",), ("explain", "CONFIG"), ("what", "CONFIG"), ("CONFIG", "CONFIG")):
        done = room.run(*words)
        expect(done.returncode == 2 and done.stderr.startswith("usage"), words, done)
    done = room.run("--help")
    expect(done.returncode == 0 and done.stdout.startswith("usage"), done)
    done = room.run("CONFIG")
    expect(done.returncode == 2 and "init makes it" in done.stderr, done)
    done = room.run("status", "CONFIG")
    expect(done.returncode == 2 and "no host runs here" in done.stderr, done)


@case
def the_unit_of_systemd(room):
    """It is one, but for the place of the program, where systemd can say so."""
    if not shutil.which("systemd-analyze"):
        raise Barred("systemd-analyze")
    unit = room.folder / "flume-host.service"
    text = (room.bench.folder / "host/flume-host.service").read_text()
    unit.write_text(text.replace("/usr/local/lib/flume/host/flume-host", "/usr/bin/true"))
    done = subprocess.run(["systemd-analyze", "verify", unit], capture_output=True, text=True)
    expect(done.returncode == 0 and not done.stderr, done)
    for line in ("RestartPreventExitStatus=2 4", "KillMode=control-group", "UMask=0077"):
        expect(f"\n{line}\n" in text, line)


@case
def types_and_style(room):
    """The host is typed, and within its columns, where mypy and flake8 are there."""
    folder = room.bench.folder / "host"
    words = {"mypy": ["--strict", "--cache-dir=/dev/null", "flume_host", "flume_service.py"],
             "flake8": ["--max-line-length", "100", "."]}
    for name, it in words.items():
        if not shutil.which(name):
            raise Missing(name)
        done = subprocess.run([name, *it], cwd=folder, capture_output=True, text=True,
                              env=os.environ | {"MYPYPATH": "tests"})
        expect(done.returncode == 0, name, done.stdout, done.stderr)


@case
def limits_of_the_host(room):
    """It has 1,500 lines at most without its tests, no file over 300, and no function over 40."""
    host = room.bench.folder / "host"
    files = [it for it in host.rglob("*") if it.is_file() and host / "tests" not in it.parents]
    many = sum(it.read_text().count("\n") for it in files)
    expect(many <= 1500, many, "lines")
    for path in host.glob("flume*/*.py"):
        content = path.read_text()
        expect(content.count("\n") <= 300, path.name, "is too long")
        for it in ast.walk(ast.parse(content)):
            if isinstance(it, (ast.FunctionDef, ast.AsyncFunctionDef)):
                expect(it.end_lineno - it.lineno < 40, path.name, it.name, "is too long")


@case
def root_is_refused(room):
    if not room.bench.is_root:
        raise Barred("root")
    room.configure(HERE).init()
    words = [room.bench.folder / "host/flume-host", room.folder / "host.toml"]
    done = subprocess.run(words, capture_output=True, text=True)
    expect(done.returncode == 2 and "root" in done.stderr, done)


@case
def what_init_makes(room):
    room.configure(HERE).init()
    modes = {it.name: stat.S_IMODE(it.stat().st_mode) for it in (room.folder / "it").iterdir()}
    expect(modes == {"node-1.db": 0o600, "node-1.db-wal": 0o600}, modes)
    expect(stat.S_IMODE((room.folder / "it").stat().st_mode) == 0o700)
    room.init().start()
    room.until(lambda: room.entries("started", service="one"), "a start")
    expect(room.end() == 0, room.said())
    again = room.run("init", "CONFIG")
    expect(again.returncode == 4 and "it is there already" in again.stderr, again)


@case
def what_a_host_keeps_is_its_owners(room):
    """Also under a umask that gives all to all."""
    room.configure(HERE + service("two", "tell('hi')", "restarts = false")).init()
    mask = os.umask(0)
    room.start()
    os.umask(mask)
    room.tells("out", "hi")
    modes = {it.name: oct(stat.S_IMODE(it.stat().st_mode)) for it in (room.folder / "it").iterdir()}
    expect(set(modes.values()) == {"0o600"} and "control" in modes and "vault" in modes, modes)
    expect(stat.S_IMODE((room.folder / "out").stat().st_mode) == 0o600, "the file of an outlet")
    expect(room.end() == 0, room.said())


@case
def one_host_a_directory(room):
    room.configure(HERE).init().start()
    room.until(lambda: room.entries("started", service="one"), "a start")
    done = room.run("CONFIG")
    expect(done.returncode == 2 and "another host" in done.stderr, done)
    expect(room.end() == 0, room.said())


@case
def a_start_that_the_node_refuses(room):
    """A tag that few may read, and nobody gave the service its plus."""
    room.configure(ALICE + service("one", "stay()", 'secrecy = ["alice/diary"]')).init().start()
    expect(room.host.wait(SECONDS) == 2, "a status", room.host.returncode)
    expect("services.one: refused F3" in room.said(), room.said())
