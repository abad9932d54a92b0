"""The page that can be read aloud: the definitions of the first hour, as docs/MODEL.md has their
order, and what the runs of a script and of a machine promise, all as the sources have them.
.ci/guide writes it, and says where it is stale.
"""
import pathlib
import re

TOP = pathlib.Path(__file__).resolve().parent.parent
BOOK = TOP / "docs/BOOK.md"
# The runs whose contracts end the page: what each is of, and where it stands.
RUNS = (("a script", "fl_cluster/src/run.rt"), ("one machine's process", "fl_machine/src/run.rt"))
HEAD = """# The definitions, to be read aloud

`.ci/guide --write` makes this page from the sources. It has the files of the first hour, in the
order of [MODEL.md](MODEL.md#the-first-hour), without what they import; then the contracts of the
two runs. A clause says `old` and `new` of what a call changes, and `result` of what it answers.
"""


def rows() -> list[tuple[str, list[str], str]]:
    """Returns of each row of the first hour the crate, its files, and what they say."""
    text = (TOP / "docs/MODEL.md").read_text()
    table = text.partition("### The first hour\n")[2].partition("\n### ")[0]
    found = re.findall(r"(?m)^\| (fl_\w+) \| ([\w, ]+) \| (.+?) \| [0-9,]+ \|$", table)
    return [(crate, files.split(", "), says) for crate, files, says in found]


def definitions(file: pathlib.Path) -> str:
    """Returns what a file says first, and what it defines, without its imports."""
    lines = file.read_text().splitlines()
    says = lines[0].removeprefix("-- ") if lines[0].startswith("-- ") else ""
    rest = [it for it in lines[bool(says):] if not it.startswith("use ")]
    return f"{says}\n\n```text\n" + "\n".join(rest).strip("\n") + "\n```\n"


def contract(file: pathlib.Path) -> str:
    """Returns the comment and the clauses of the function run of a file."""
    before, _, after = file.read_text().partition("\npub fn run<")
    comment = re.search(r"((?:^///.*\n)+)\Z", before + "\n", re.M)[1]
    says = "\n".join(it.removeprefix("///").removeprefix(" ") for it in comment.splitlines())
    return f"{says}\n\n```text\npub fn run<{after.partition(chr(10) + '{' + chr(10))[0]}\n```\n"


def text() -> str:
    """Returns the page."""
    parts = [HEAD]
    for crate, files, says in rows():
        parts.append(f"## {says[0].upper()}{says[1:]}\n")
        for name in files:
            file = TOP / "crates" / crate / "specs" / f"{name}.antt"
            parts += [f"### {name} ({crate})\n", definitions(file)]
    for what, path in RUNS:
        parts += [f"## What the run of {what} promises\n", contract(TOP / "crates" / path)]
    return "\n".join(parts)
