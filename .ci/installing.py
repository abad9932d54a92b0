"""What is wrong of man pages, of completion and of ./install, for .ci/guide.

Each page has what the program says of itself: the options and statuses of its help, word for word,
and no other options. Completion has the same words. ./install is run in a temporary folder, over
programs that only stand for the built ones.
"""
import os
import pathlib
import re
import shlex
import shutil
import subprocess
import sys
import tempfile

import read_words

TOP = pathlib.Path(__file__).resolve().parent.parent
PARTS = ["NAME", "SYNOPSIS", "DESCRIPTION", "OPTIONS", "EXIT STATUS", "FILES", "EXAMPLES",
         "SEE ALSO"]
TAGS, NODE, HOST = PROGRAMS = ("flume-tags", "flume-node", "flume-host")
SIGNS = {r"\-": "-", r"\(aq": "'", r"\e": "\\"}


def run(*words, **options):
    """Runs a command, whose outputs are text."""
    options = {"capture_output": True, "text": True, "check": False} | options
    return subprocess.run([*map(str, words)], **options)


def in_one_line(text):
    return " ".join(text.split())


def help_of(name):
    """What a program says for --help."""
    if name == HOST:
        return run(sys.executable, "-B", TOP / "host/flume-host", "--help").stdout
    return read_words.answer(name, ["--help"])[1]


def words_of(name, said):
    """The options and verbs of a help, each with what is said of it."""
    if name != HOST:
        rows = re.findall(r"(?m)^ +(?:-[a-zA-Z], )?(--[a-z-]+)(?: <[A-Z]+>)? +(.*)$", said)
        return dict(rows)
    rows = re.findall(r"(?m)flume-host (.*?)  +(.*)$", said)
    return {(re.findall(r"--[a-z-]+|^[a-z]+", it) or [""])[0]: text for it, text in rows} | {
        "--help": ""}


def statuses_of(name, said):
    """The statuses of a program, each with what is said of it."""
    if name == HOST:
        table = (TOP / "docs/HOST.md").read_text().partition("| Status | When |")[2]
        return dict.fromkeys(re.findall(r"(?m)^\| (\d) \|", table.partition("\n\n")[0]), "")
    text = said.partition("Statuses:\n")[2].partition("\n\n")[0]
    return {it[0]: in_one_line(it[1:]) for it in re.split(r"(?m)^  (?=\d  )", text)[1:]}


def plain(line):
    """A line of a page as it is read, but for type."""
    for sign, letter in SIGNS.items():
        line = line.replace(sign, letter)
    if not line.startswith("."):
        return line
    macro, _, rest = line[1:].partition(" ")
    alternates = len(macro) == 2 and set(macro) <= set("BIR")
    return ("" if alternates else " ").join(shlex.split(rest.replace("'", r"\'")))


def parts_of(page):
    """The parts of a page, each as it is read, in one line."""
    found = re.split(r"(?m)^\.SH (.*)\n", page)
    return {name: in_one_line("\n".join(map(plain, text.splitlines())))
            for name, text in zip(found[1::2], found[2::2])}


def wrong_page(name):
    """What a man page lacks or has too much."""
    path, said = TOP / f"man/{name}.1", help_of(name)
    page, words = path.read_text(), words_of(name, said)
    parts = parts_of(page)
    if [*parts] != PARTS:
        yield f"its parts are not {PARTS}"
        return
    for word, text in words.items():
        if word not in parts["OPTIONS"] or text not in parts["OPTIONS"]:
            yield f"OPTIONS has not {word}: {text}"
    for word in {*re.findall(r"--[a-z-]+", parts["OPTIONS"] + parts["SYNOPSIS"])} - {*words}:
        yield f"{word} is no option"
    statuses = re.findall(r"(?m)^\.B (\d)$", page)
    if statuses != [*statuses_of(name, said)]:
        yield f"its statuses are {statuses}"
    for status, text in statuses_of(name, said).items():
        if f"{status} {text}" not in parts["EXIT STATUS"]:
            yield f"EXIT STATUS has not {status} {text}"
    version = read_words.Program(TAGS).version.split()[1]
    if f'"flume {version}"' not in page.splitlines()[0]:
        yield f"its version is not {version}"
    if shutil.which("groff") and (said := run("groff", "-man", "-ww", "-z", path).stderr):
        yield said


def wrong_completion(name):
    """Which words completion offers too few or too many, of a first word."""
    script = 'compopt() { :; }; COMP_CWORD=1; . "$1"; _flume "$2" "" "$2"; echo "${COMPREPLY[@]}"'
    offered = run("bash", "-c", script, "bash", TOP / "completion/flume.bash", name).stdout.split()
    for word in {*offered} ^ {*words_of(name, help_of(name))}:
        yield f"completion differs from its help at {word}"


def tree(folder):
    """All that is in a folder: of each file its mode, and its content or where it leads."""
    return {it.relative_to(folder): (it.lstat().st_mode, os.readlink(it) if it.is_symlink()
                                     else it.read_bytes() if it.is_file() else b"")
            for it in folder.rglob("*")}


class Checkout:
    """A folder that looks like this one, in which programs stand for the built ones."""

    def __init__(self, room):
        self.top = room / "top"
        self.top.mkdir()
        for name in ("install", ".ci", "man", "completion", "docs", "host", "crates.txt"):
            (self.top / name).symlink_to(TOP / name)
        self.source = self.top / "crates/fl_words/src/words.rt"
        self.source.parent.mkdir(parents=True)
        self.source.write_text("")

    def build(self, crate):
        program = self.top / "crates" / crate / "out" / crate
        program.parent.mkdir(parents=True)
        program.write_text(f"#!/bin/sh\necho {crate}\n")
        program.chmod(0o755)
        later = self.source.stat().st_mtime + 10
        os.utime(program, (later, later))

    def install(self, *words, **more):
        words = [self.top / "install", *words]
        return run(*words, env=os.environ | more, cwd=self.top.parent, umask=0o077)


def wrong_installed(checkout, root):
    """What is not as it should be of what was installed."""
    for name, says in ((TAGS, "flume_tags\n"), (NODE, "flume_node\n")):
        if run(root / "bin" / name, cwd="/").stdout != says:
            yield f"bin/{name} is another program"
    if sys.version_info >= (3, 11):
        said = run(sys.executable, "-B", root / "bin" / HOST, "--help", cwd="/")
        if said.stdout != help_of(HOST):
            yield f"bin/{HOST} does not run from there: {said.stderr}"
    for name in PROGRAMS:
        for path in (f"share/man/man1/{name}.1", f"share/bash-completion/completions/{name}"):
            if not (root / path).is_file():
                yield f"there is no {path}"
    unit = (root / "lib/flume/host/flume-host.service").read_text()
    if not (root / re.search("ExecStart=/usr/local/([^ ]*)", unit)[1]).is_file():
        yield "the unit of systemd starts another path"
    for path, (mode, content) in tree(root).items():
        if mode & 0o044 != 0o044:
            yield f"{path} cannot be read by others: {mode:o}"
        if any(os.fsencode(it) in os.fsencode(content) for it in (TOP, checkout.top)):
            yield f"{path} has the path of the checkout"


def wrong_install():
    """What is not as it should be of ./install."""
    with tempfile.TemporaryDirectory() as room:
        room = pathlib.Path(room)
        checkout, root = Checkout(room), room / "a prefix"
        yield from wrong_refusals(checkout, root, TAGS)
        checkout.build("flume_tags")
        yield from wrong_refusals(checkout, root, NODE)
        checkout.build("flume_node")
        trees = []
        for word in (root, root, root.name):
            if (done := checkout.install(word)).returncode:
                yield f"it ends with {done.returncode}: {done.stderr}"
                return
            trees.append(tree(root))
        if trees[1:] != trees[:-1]:
            yield "twice is not as once"
        yield from wrong_installed(checkout, root)
        checkout.install("/opt/a prefix", DESTDIR=str(room / "package"))
        if tree(room / "package/opt/a prefix") != trees[0]:
            yield "with DESTDIR it installs something else, or elsewhere"
        os.utime(checkout.source, (2**32, 2**32))
        yield from wrong_refusals(checkout, room / "other", TAGS)


def wrong_refusals(checkout, root, lacks):
    """What is not as it should be where a program is not built or is old, and of its words."""
    done = checkout.install(root)
    if done.returncode != 1 or f"./{lacks} " not in done.stderr or root.exists():
        yield f"where {lacks} is not built it ends with {done.returncode}: {done.stderr}"
    for words in ([], ["--help"], ["a", "b"], [""]):
        if checkout.install(*words).returncode != 2:
            yield f"it does not refuse {words}"


def all_wrong():
    """All that is wrong, a line each."""
    if read_words.answer(NODE, ["--help"])[1] != (TOP / "crates/flume_node/stdout").read_text():
        yield "read_words.py: its help of flume-node is not that of crates/flume_node/stdout"
    # the host needs a newer Python than the rest
    for name in PROGRAMS if sys.version_info >= (3, 11) else (TAGS, NODE):
        yield from (f"man/{name}.1: {it}" for it in wrong_page(name))
        yield from (f"completion/flume.bash: {name}: {it}" for it in wrong_completion(name))
    yield from (f"install: {it}" for it in wrong_install())
