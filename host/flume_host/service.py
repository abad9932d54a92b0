"""What is real of processes of the books: outlets, by which alone bytes go out, and services, which
are told nothing of others: no pid, no endpoint, and not whether a message arrived."""
import asyncio
import collections
import contextlib
import json
import os
import select
import socket
import sys
import time
from typing import TYPE_CHECKING, Any, AsyncIterator

from .config import Table
from .node import OPERATION, Books, Labels, Process, Refused, set_text
from .sandbox import SECONDS, Sandbox
if TYPE_CHECKING:
    from .world import World

DATAGRAM_BYTES, MESSAGE_BYTES, HOUR = 65_536, 1024, 3600
# how what a request names begins, and how many it names at most
TAGS, RIGHTS = (("",), 256), (("+", "-"), 64)


class Wrong(Exception):
    """A request that the host refuses itself, and why."""


async def attempts(stop: asyncio.Event) -> AsyncIterator[int]:
    """Yields 1, 2, .. until all is to stop, with pauses between, which grow from 1 second to 60."""
    number, pause = 0, 1.0
    while not stop.is_set():
        number, began = number + 1, time.monotonic()
        yield number
        pause = 1.0 if time.monotonic() - began > 60 else pause
        with contextlib.suppress(TimeoutError):
            await asyncio.wait_for(stop.wait(), pause)
        pause = min(2 * pause, 60.0)


class Outlet:
    """An outlet, and where its bytes go."""
    def __init__(self, name: str, config: Table, process: Process, books: Books) -> None:
        self.name, self.config, self.process, self.books = name, config, process, books
        self.journal, self.bell, self.kept = books.journal, asyncio.Event(), list[socket.socket]()

    async def pump(self) -> None:
        """Lets out what was left undone, and what may go: for node lines, a sync, and the deed."""
        while True:
            self.bell.clear()
            last = self.journal.last.get(self.name, {})
            if last.get("kind") == "emission":
                await self.let_out(last["number"], bytes.fromhex(last["bytes"]))
            elif message := self.books.take(self.process.pid):
                # first the verdict, and then, in the next turn, the deed
                with contextlib.suppress(Refused):
                    self.books.do(f"emit {self.process.pid} {message[1].hex() or 'none'}")
                    await self.journal.emission(self.name, message[1])
            else:
                await self.bell.wait()

    async def let_out(self, number: int, content: bytes) -> None:
        """Does an emission, again and again until it is done and raises no OSError."""
        async for _ in attempts(asyncio.Event()):
            try:
                await asyncio.to_thread(self.write, number, content)
                self.journal.note("done", outlet=self.name, number=number)
                return
            except OSError as why:
                print(f"flume-host: outlet {self.name}: {why}", file=sys.stderr, flush=True)

    def write(self, number: int, content: bytes) -> None:
        """Does an emission, with a sync of a file, or by a connection, kept while it is silent."""
        if self.config.kind == "tcp":
            connection = self.kept.pop() if self.kept else None
            if not connection or select.select([connection], [], [], 0)[0]:
                connection = socket.create_connection(self.config.to.rsplit(":", 1), SECONDS)
            connection.sendall(content)
            self.kept.append(connection)
        elif self.config.kind == "standard-output":
            sys.stdout.buffer.write(content + b"\n")
            sys.stdout.buffer.flush()
        else:
            entry = {"at": time.time(), "emission": number, "bytes": content.hex(),
                     "text": content.decode(errors="replace")}
            is_log = self.config.kind == "log"
            with open(self.config.to, "ab") as file:
                file.write(json.dumps(entry).encode() + b"\n" if is_log else content)
                file.flush()
                os.fsync(file)


class Service:
    """One life of a service, which has a process of the books and a sandbox of its own."""
    def __init__(self, world: "World", name: str, process: Process, tags: dict[str, str]) -> None:
        self.world, self.books, self.name, self.process = world, world.books, name, process
        self.config, self.pid = world.config.services[name], process.pid
        # the names by which it calls tags and services: those of the configuration, and handles
        self.tags, self.others = {**tags}, collections.ChainMap[str, Process]({}, world.processes)
        self.children, self.packets = list[asyncio.Task[None]](), list[tuple[str, str]]()
        self.bell, self.is_gone = asyncio.Event(), False

    def named(self, what: str) -> str:
        """Returns a tag or right by its tag's name, a new handle if need be; of else nothing."""
        tag = what.lstrip("+-")
        if not OPERATION.fullmatch(tag):
            return ""
        name = next((it for it in self.tags if self.tags[it] == tag), f"t{len(self.tags) + 1}")
        self.tags[name] = tag
        return what.removesuffix(tag) + name

    async def serve(self) -> None:
        """Runs it. As it returns its real process is gone, and its pid. Raises as Sandbox.end."""
        world, sandbox = self.world, None
        world.living[self.pid] = self
        world.note("started", service=self.name, pid=self.pid)
        try:
            world.give(self.name, self.process)
            async with asyncio.timeout(self.config.seconds or None):
                sandbox = Sandbox(self.config, world.running)
                await self.converse(sandbox)
        except OSError as why:
            world.note("broke", service=self.name, pid=self.pid, why=str(why))
        finally:
            for child in self.children:
                child.cancel()
            if sandbox:
                asyncio.get_running_loop().remove_reader(sandbox.handle)
                sandbox.end()
            world.note("ended", service=self.name, pid=self.pid)
            del world.living[self.pid]
            self.books.do(f"exit {self.pid}")
        await asyncio.gather(*self.children, return_exceptions=True)

    async def converse(self, sandbox: Sandbox) -> None:
        """Answers its requests, until it ends. Packets are delivered behind the answer."""
        loop, its = asyncio.get_running_loop(), sandbox.socket
        loop.add_reader(sandbox.handle, self.leave)
        while not self.is_gone and (asked := await loop.sock_recv(its, DATAGRAM_BYTES + 1)):
            answer = await self.answer(asked)
            try:
                await loop.sock_sendall(its, json.dumps(answer).encode())
            finally:
                for packet in self.packets:
                    self.world.deliver(packet)
            # a service that always has a request more must not hold up the others
            await asyncio.sleep(0)

    async def answer(self, content: bytes) -> dict[str, Any]:
        """Returns the answer to a datagram. Raises NodeEnded. `receive` waits for a message."""
        self.packets.clear()
        try:
            if len(content) > DATAGRAM_BYTES:
                raise Wrong("too long")
            return {"ok": True, **await self.do(json.loads(content))}
        except Refused as refused:
            _, code, *names = str(refused).split(" ")
            return {"refused": code, "names": self.named("".join(names[-1:]))}
        except (Wrong, KeyError, TypeError, ValueError, RecursionError) as wrong:
            why = {Wrong: str(wrong), KeyError: "no such name"}.get(type(wrong), "bad request")
            self.world.note("refused", service=self.name, pid=self.pid, why=why)
            return {"refused": why}

    async def do(self, asked: Any) -> dict[str, Any]:
        """Does what is asked, and returns what it gives. Raises Wrong, KeyError, and ValueError."""
        match asked:
            case {"do": "label", **under} if len(under) == 1:
                self.books.relabel(self.process, self.labels(under))
            case {"do": "send" | "emit" as do, "to": str(to), "bytes": str(digits), **under}:
                of = self.world.outlets if do == "emit" else self.others
                self.post(of[to], digits, [], under)
            case {"do": "grant", "to": str(to), "rights": list(rights), **under}:
                self.post(self.others[to], "", rights, under)
            case {"do": "tag", "policy": "export" | "read" | "integrity" as it, **no} if not no:
                return {"tag": self.tag(it)}
            case {"do": "spawn", "service": str(it), "rights": list(rights), **no} if not no:
                return {"service": self.spawn(it, self.known(rights, *RIGHTS))}
            case {"do": "ask", "right": str(it), **no} if not no:
                [right] = self.known([it], *RIGHTS)
                return {"is": self.books.do(f"ask {self.pid} {right}") == "yes"}
            case {"do": "receive", "wait": bool(), **no} | {"do": "receive", **no} if not no:
                return await self.receive(asked.get("wait", True))
            case {"do": "exit", **no} if not no:
                self.leave()
            case _:
                raise ValueError
        return {}

    def known(self, given: Any, signs: tuple[str, ...], most: int) -> list[str]:
        """Returns the tags that texts name, or rights with their signs, so many at most."""
        if not isinstance(given, list) or not all(
                isinstance(it, str) and it.startswith(signs) for it in given):
            raise ValueError
        if len(given) > most:
            raise Wrong("too many")
        sign = len(signs[0])
        return [it[:sign] + self.tags[it[sign:]] for it in given]

    def labels(self, under: dict[Any, Any]) -> Labels:
        """Returns labels of these names, and where there are none those of the service."""
        return self.process.labels._replace(**{
            kind: frozenset(self.known(names, *TAGS)) for kind, names in under.items()})

    def post(self, to: Process, digits: str, rights: list[Any], under: dict[Any, Any]) -> None:
        given, content = self.known(rights, *RIGHTS), bytes.fromhex(digits)
        if len(content) > MESSAGE_BYTES:
            raise Wrong("too long")
        self.packets = [self.books.send(self.process, self.labels(under), to, given, content)]

    def tag(self, policy: str) -> str:
        """Returns the handle of a new tag, which is counted before it is made. Raises Wrong."""
        facts = [it for it in self.world.vault.facts if it.get("service") == self.name]
        newer = [it for it in facts if it["at"] > time.time() - HOUR]
        if len(facts) >= self.config.orders or len(newer) >= self.config.orders_an_hour:
            raise Wrong("too many orders")
        self.world.vault.note(service=self.name, at=time.time())
        return self.named(self.books.do(f"tag {self.pid} {policy}"))

    def spawn(self, name: str, rights: list[str]) -> str:
        """Returns the handle of a new child, which has the labels of this. Raises Wrong."""
        if name not in self.config.spawns:
            raise Wrong("no such name")
        # those that have ended count too, since that they ended is nothing to tell
        if len(self.children) >= self.config.children:
            raise Wrong("too many")
        process = self.books.proc("rw", f"spawn {self.pid} {set_text(rights)}", self.process.labels)
        child = Service(self.world, name, process, self.tags)
        self.children.append(self.world.group.create_task(child.serve()))
        handle = f"s{len(self.children)}"
        child.others["parent"], self.others[handle] = self.process, process
        return handle

    async def receive(self, wait: bool) -> dict[str, Any]:
        """Returns the next message, or that there is none, where it is not to wait or is gone."""
        while not (message := self.books.take(self.pid)):
            if not wait or self.is_gone:
                return {"is": False}
            self.bell.clear()
            await self.bell.wait()
        return {"is": True, "bytes": message[1].hex(), "rights": list(map(self.named, message[0]))}

    def leave(self) -> None:
        self.is_gone = True
        self.bell.set()
