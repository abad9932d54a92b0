"""What a host keeps on its disk, in lines of JSON: the journal, which has each line to the node and
what the host did, and secrets as their SHA-256 alone; and the vault, which it must not lose."""
import asyncio
import contextlib
import functools
import hashlib
import itertools
import json
import os
import pathlib
import re
import socket
import time
from logging.handlers import RotatingFileHandler
from typing import Any, Iterator

from .config import Table, Unfit, unfit

Entry = dict[str, Any]
EMISSION = ("emission", "done")


def digest(secret: str) -> str:
    return hashlib.sha256(bytes.fromhex(secret)).hexdigest()


class Lines:
    """A file that lines are put to, without half a line at its end, which a kill leaves."""
    def __init__(self, path: pathlib.Path) -> None:
        self.path, self.file = path, open(path, "a")
        self.file.truncate(path.read_bytes().rfind(b"\n") + 1)

    def write(self, entry: Entry) -> Entry:
        """Returns an entry, which it writes as a line. Raises OSError where that is not whole."""
        print(json.dumps(entry), file=self.file, flush=True)
        return entry


class Vault(Lines):
    """The secrets of logins by tag, and the time of each order by service, on the disk at once."""
    def __init__(self, path: pathlib.Path) -> None:
        super().__init__(path)
        self.facts: list[Entry] = list(map(json.loads, path.read_bytes().splitlines()))
        os.fsync(os.open(path.parent, os.O_RDONLY))

    def note(self, **fact: object) -> Entry:
        """Returns a fact, which it writes and syncs."""
        self.facts.append(self.write(fact))
        os.fsync(self.file)
        return fact

    def secret_of(self, tag: str) -> str:
        """Returns the secret of a tag's login, which is made and saved where there is none."""
        known = [fact for fact in self.facts if fact.get("tag") == tag]
        return str((known or [self.note(tag=tag, secret=os.urandom(32).hex())])[0]["secret"])


def entries(folder: pathlib.Path) -> Iterator[Entry]:
    """Yields the entries of all files of a journal, the oldest first. It reads all of it."""
    paths = [it for it in folder.glob("journal*") if (it.suffix[1:] or "0").isdigit()]
    for path in sorted(paths, key=lambda it: -int(it.suffix[1:] or 0)):
        with open(path) as file:
            yield from (json.loads(line) for line in file if line.endswith("\n"))


class Journal(Lines):
    """The journal that a host writes, and of each outlet the last emission in it, or that it was
    done. Each has numbers of its own: else one would tell how much goes out by another."""
    def __init__(self, folder: pathlib.Path, config: Table) -> None:
        super().__init__(folder / "journal")
        self.most_bytes, self.files = config.journal_bytes, config.journal_files
        self.last = {it["outlet"]: it for it in entries(folder) if it["kind"] in EMISSION}

    def note(self, kind: str, **what: object) -> None:
        """Writes an entry. Behind a full file a new one begins with the last emissions."""
        if self.file.tell() >= self.most_bytes:
            RotatingFileHandler(self.path, backupCount=self.files - 1, delay=True).doRollover()
            super().__init__(self.path)
            self.note("file")
            for entry in self.last.values():
                self.write(entry)
        entry = self.write({"at": time.time(), "kind": kind, **what})
        self.last |= {entry["outlet"]: entry} if kind in EMISSION else {}

    async def emission(self, outlet: str, content: bytes) -> None:
        """Notes on the disk that these bytes may go out, with their number."""
        number: int = self.last.get(outlet, {"number": 0})["number"] + 1
        self.note("emission", outlet=outlet, number=number, bytes=content.hex())
        await asyncio.to_thread(os.fdatasync, self.file)


@functools.cache
def asked(directory: str, line: str = "") -> Any:
    """Returns what a running host's node explains of a line, or what it does. Raises Unfit."""
    with unfit("no host runs here"), socket.socket(socket.AF_UNIX) as it:
        it.connect(directory + "/control")
        it.sendall(line.encode() + b"\n")
        return json.load(it.makefile())


def explain(config: Table, service: str) -> None:
    """Prints what the journal has of a service, all of which is read, and what its node, where it
    runs, says of what was refused. Equal lines that follow one another are one, and counted."""
    lines = told(config.node.directory, f"service {service}")
    for said, times in itertools.groupby(lines, lambda it: it[1]):
        began, *more = [at for at, _ in times]
        when = time.strftime("%Y-%m-%d %H:%M:%S", time.localtime(began))
        print(when, said, *[f"({len(more) + 1} times)"] * bool(more))


def told(directory: str, mine: str) -> Iterator[tuple[float, str]]:
    """Yields what each entry says of a service, and when."""
    names, sent = dict[str, str](), dict[str, str]()

    def named(*words: str) -> str:
        return "".join(names.get(it, it) for it in re.findall(r"[^{},*+\- ]+|.", " ".join(words)))

    def now(line: str, pid: str, right: str) -> str:
        """What a node that runs says of a refused line as it stands, where its process lives."""
        with contextlib.suppress(Unfit):
            missing, *rights = map(str, asked(directory, f"missing {line}"))
            why, *steps = asked(directory, f"why {pid} {right}") if right[0] in "+-" else [""]
            said = f"; wanting now: {named(', '.join(rights)) or 'nothing'}"
            return (said * missing.startswith("lines ") +
                    f"; it has {named(right)} now: {named(', '.join(steps))}" * bool(steps))
        return ""
    for entry in entries(pathlib.Path(directory)):
        said, pid = "", entry.get("pid", "")
        names |= {pid: f"{it} {entry[it]}" for it in ("service", "outlet", "owner") if it in entry}
        names |= {tag: name for name, tag in entry.items() if "/" in name}
        words: list[str] = entry.get("line", "").split(" ")
        reply: list[str] = entry.get("answer", [""])[0].split(" ")
        is_mine = names.get(pid or words[1 % len(words)]) == mine
        match words:
            case ["receive", packet] if packet in sent and reply[0] != "arrived":
                said = f"the message of {sent[packet]}: {named(*reply)}"
            case [verb, _, *rest] if is_mine and reply[0] == "refused":
                said = f"{verb} {named(*rest)}: {named(*reply)}"
                said += now(entry["line"], words[1], reply[-1])
            case ["take", _] if is_mine and reply[0] == "message":
                size = len(reply[3].removeprefix("none")) // 2
                said = f"read {size} bytes of {named(reply[1])}, with the rights {named(reply[2])}"
            case ["send", _, _, to, _, rights, digits] if is_mine:
                sent[reply[1]] = f"{len(digits.removeprefix('none')) // 2} bytes to {named(to)}"
                said = f"sent {sent[reply[1]]}, with the rights {named(rights)}"
            case [""] if is_mine:
                said = entry["kind"] + (f": {entry['why']}" if "why" in entry else "")
        if said:
            yield entry["at"], said
