"""The command flume-host: its words, and the run of a host."""
import asyncio
import fcntl
import json
import os
import pathlib
import shutil
import signal
import subprocess
import sys
import time
from typing import Callable

from .config import Table, Unfit, read_config, unfit
from .node import Books
from .records import Journal, Vault, asked, explain
from .sandbox import delegated, end_left
from .service import attempts
from .world import World

USAGE = """usage: flume-host [--as-root] CONFIG    runs the host of a machine
       flume-host check CONFIG            says what is wrong with a configuration
       flume-host init CONFIG             makes the directory of the host, its node, and a key
       flume-host status CONFIG           says what a running host does
       flume-host explain CONFIG SERVICE  says what a service read, sent, and was refused
       flume-host backup CONFIG DIR       copies what a host that has ended keeps, and its keys
       flume-host restore CONFIG DIR      puts that back, where no peer knows more
       flume-host story                   runs the story of the documents, and prints it"""
STORY = pathlib.Path(__file__).resolve().parent.parent / "tests/story/run"
CALLED_FROM, LEAST_PAGE = pathlib.Path.cwd(), 512


class Host:
    """A host that runs: its files, and one world after another."""
    def __init__(self, config: Table) -> None:
        """Opens its files, and ends what a kill left. Raises Unfit where another host has them."""
        self.config, self.starts = config, 0
        self.folder = folder = pathlib.Path(config.node.directory).resolve()
        with unfit(f"{folder}: init makes it, and it is unavailable where another host has it"):
            self.running = open(folder / "running", "a+")
            fcntl.flock(self.running, fcntl.LOCK_EX | fcntl.LOCK_NB)
            config.keys = [bytes.fromhex(pathlib.Path(it).read_text()) for it in config.node.keys]
        end_left(self.running)
        self.vault, self.journal = Vault(folder / "vault"), Journal(folder, config.node)

    async def run(self, only_meets: bool = False) -> int:
        """Runs one node after another, each to the end of all that lives, until a signal comes, one
        ends with 2 or 4, or it has met the others, where that is all. Returns the status."""
        stop, node, path = asyncio.Event(), self.config.node, self.folder / "control"
        delegated()
        for number in (signal.SIGTERM, signal.SIGINT):
            asyncio.get_running_loop().add_signal_handler(number, stop.set)
        async with await asyncio.start_unix_server(self.control, path):
            path.chmod(0o600)
            async for self.starts in attempts(stop):
                keys = [f"--key={it}" for it in node.keys]
                books = Books([*node.words, *keys], node.number, self.journal)
                self.world = World(self.config, books, self.vault, self.running)
                try:
                    # a task of its own: a group that fails leaves its task as one to be cancelled
                    await asyncio.create_task(self.world.run(stop, only_meets))
                finally:
                    status = books.end()
                if status in (2, 4):
                    return status
                if not stop.is_set():
                    print("flume-host: the node ended, and starts again", file=sys.stderr)
        return 0

    async def control(self, reader: asyncio.StreamReader, writer: asyncio.StreamWriter) -> None:
        """Answers a line that explains as the node does, and else with what runs, in JSON."""
        line = (await reader.readline()).decode().strip()
        is_explained = line.partition(" ")[0] in ("missing", "why")
        writer.write(json.dumps(self.world.books.answer(line) if is_explained else {
            "node": self.config.node.number, "starts": self.starts,
            "emissions": {name: it["number"] for name, it in self.journal.last.items()},
            "undone": sum(it["kind"] == "emission" for it in self.journal.last.values()),
            "processes": {pid: it.name for pid, it in self.world.living.items()},
            "peers": {number: {"age": round(time.monotonic() - it.heard, 3) if it.heard else None,
                               "lag": it.lag, "waiting": len(it.waiting)}
                      for number, it in self.world.machines.peers.items()}
        }).encode() + b"\n")
        writer.close()


def init(config: Table) -> int:
    """Makes the directory, the first key where none is, and the node: 4 where one is there."""
    os.makedirs(config.node.directory, exist_ok=True)
    for key in (it for it in config.node.keys[:1] if not os.path.exists(it)):
        pathlib.Path(key).write_text(os.urandom(32).hex())
    return subprocess.run([*config.node.words, "--new"], stdin=subprocess.DEVNULL).returncode


def copy(config: Table, place: pathlib.Path, is_back: bool) -> None:
    """Copies what a host keeps to a place, host.toml last, or back, but for keys and configuration
    that are there. Raises Unfit."""
    keys = {f"key-{at}": it for at, it in enumerate(config.node.keys)}
    files = {"directory": config.node.directory, **keys, "host.toml": config.path}
    with unfit(place):
        for name, own in files.items():
            source, to = (place / name, own) if is_back else (own, place / name)
            if name == "directory":
                shutil.copytree(source, to, ignore=shutil.ignore_patterns("control"),
                                dirs_exist_ok=is_back)
            elif not os.path.exists(to):
                shutil.copyfile(source, to)
        os.sync()


def backup(config: Table, to: str) -> None:
    """Copies a host to a new folder. Raises Unfit where it runs, or its node did not end well."""
    host = Host(config)
    if any(log.stat().st_size > LEAST_PAGE for log in host.folder.glob("*.db-wal")):
        raise Unfit(f"{host.folder}: the node's log is not merged: let the host run, and end it")
    copy(config, CALLED_FROM / to, is_back=False)


def restore(config: Table, kept: str) -> int:
    """Puts a backup where nothing is, and meets the peers. Returns the status. Where one knows more
    of this number it takes the directory away again, and raises Unfit."""
    place, folder, status = CALLED_FROM / kept, pathlib.Path(config.node.directory), 4
    if not (place / "host.toml").exists() or folder.exists() and any(folder.iterdir()):
        raise Unfit(f"{place} is no whole backup, or something is in {folder}")
    try:
        copy(config, place, is_back=True)
        host = Host(config)
        status = asyncio.run(host.run(only_meets=True))
        print("peers that were heard:", *host.world.machines.met)
    finally:
        if status:
            shutil.rmtree(folder)
    return status


VERBS: dict[str, Callable[..., int | None]] = {
    "": lambda config: asyncio.run(Host(config).run()), "init": init, "explain": explain,
    "status": lambda config: print(json.dumps(asked(config.node.directory))),
    "check": lambda _: None, "backup": backup, "restore": restore}


def main(words: list[str]) -> int:
    """Does what the words of the command say, and returns its status."""
    if words == ["story"]:
        os.execv(STORY, [str(STORY)])
    as_root = words[:1] == ["--as-root"]
    words = words[as_root:]
    verb = words.pop(0) if words[:1] and words[0] in VERBS else ""
    is_help = words in (["-h"], ["--help"])
    if is_help or len(words) != 1 + (verb in ("explain", "backup", "restore")):
        print(USAGE, file=sys.stdout if is_help else sys.stderr)
        return 0 if is_help else 2
    os.umask(0o077)
    try:
        config = read_config(pathlib.Path(words[0]).absolute())
        if os.getuid() == 0 and not as_root and verb in ("", "init", "backup", "restore"):
            raise Unfit("root's processes are not limited in number: --as-root insists")
        return VERBS[verb](config, *words[1:]) or 0
    except* Unfit as group:
        why: BaseException = group
        while isinstance(why, BaseExceptionGroup):
            why = why.exceptions[0]
    print("flume-host:", why.args[0].replace("\n", "\nflume-host: "), file=sys.stderr)
    return int(why.args[1]) if why.args[1:] else 2
