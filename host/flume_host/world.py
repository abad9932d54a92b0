"""The world of one run of a node: its owners, outlets and services, in the books and for real."""
import asyncio
import pathlib
import re
from typing import Awaitable, Iterable, TextIO

from .config import Table, Unfit
from .machines import Machines
from .node import OPERATION, Books, Labels, NodeEnded, Process, Refused
from .records import Vault, digest
from .service import MESSAGE_BYTES, Outlet, Service, attempts


class World:
    """All that lives while one flume-node runs."""
    def __init__(self, config: Table, books: Books, vault: Vault, running: TextIO) -> None:
        self.config, self.vault, self.running = config, vault, running
        self.books, self.note, self.tags = books, books.journal.note, dict[str, str]()
        self.machines, self.living = Machines(self), dict[str, Service | Outlet]()
        self.owners, self.outlets = dict[str, Process](), dict[str, Process]()
        # one that ended keeps its name, since that is nothing to tell; one not yet heard is nobody
        self.processes = {it: Process(f"p{at}.4294967295.1") for it, at in config.places.items()}

    async def run(self, stop: asyncio.Event, only_meets: bool) -> None:
        """Runs all until it is to stop, its node ends, or machines have met, where that is all. No
        real process is left as it returns. Raises a group of what else ended it, as Unfit."""
        try:
            async with asyncio.TaskGroup() as self.group:
                start = self.group.create_task
                self.books.greet()
                start(self.end_behind(stop.wait()))
                # the node may end also where nobody asks it anything
                start(self.end_behind(asyncio.to_thread(self.books.program.wait)))
                if self.config.cluster.name:
                    start(self.machines.run())
                    start(self.machines.talk())
                    await self.machines.meet()
                if only_meets:
                    stop.set()
                    raise NodeEnded
                self.begin_owners()
                for name, config in self.config.outlets.items():
                    process = self.outlets[name] = self.equipped(config, "r")
                    outlet = self.living[process.pid] = Outlet(name, config, process, self.books)
                    self.note("started", outlet=name, pid=process.pid)
                    start(outlet.pump())
                for name in self.config.started:
                    start(self.keep(name, self.config.services[name]))
        except* NodeEnded:
            self.living.clear()

    async def end_behind(self, what: Awaitable[object]) -> None:
        await what
        raise NodeEnded

    def begin_owners(self) -> None:
        """Makes a process for each owner. A tag of it is found by the digest of its login's secret,
        which is saved before the tag is made: a name that was only given may be given again."""
        logins = self.books.logins()
        for name, owner in self.config.owners.items():
            process = self.owners[name] = self.books.proc("w")
            self.note("started", owner=name, pid=process.pid)
            for short, policy in owner.tags.items():
                secret = self.vault.secret_of(tag := f"{name}/{short}")
                if digest(secret) in logins:
                    login, self.tags[tag] = logins[digest(secret)]
                    self.books.do(f"enter {process.pid} {login}", secret)
                else:
                    self.tags[tag] = self.books.owned_tag(process.pid, policy, secret)
        self.note("tags", **self.tags)

    async def keep(self, name: str, its: Table) -> None:
        """Runs a service, and starts it again where it is to be."""
        named = {*its.secrecy, *its.integrity, *its.tags, *(right[1:] for right in its.rights)}
        async for _ in attempts(asyncio.Event()):
            while not named <= {*self.tags}:
                await asyncio.sleep(1)
            try:
                process = self.processes[name] = self.equipped(its, "rw")
            except Unfit:
                # the node may not know yet of what another machine has told the name
                if named <= self.config.tags:
                    raise
                continue
            await Service(self, name, process, {it: self.tags[it] for it in sorted(named)}).serve()
            if not its.restarts:
                return

    def labelled(self, secrecy: Iterable[str], integrity: Iterable[str] = ()) -> Labels:
        return Labels(*(frozenset(self.tags[it] for it in names) for names in (secrecy, integrity)))

    def hand(self, owner: str, to: Process, gift: Table) -> None:
        """Sends a process what an owner gives it, under its tags, in messages of 1,024 bytes."""
        given, labels = [it[0] + self.tags[it[1:]] for it in gift.rights], self.labelled(gift.tags)
        content = pathlib.Path(gift.file).read_bytes() if gift.file else b""
        for at in range(0, len(content) or bool(given), MESSAGE_BYTES):
            part = content[at:at + MESSAGE_BYTES]
            self.deliver(self.books.send(self.owners[owner], labels, to, given, part))

    def equipped(self, start: Table, mode: str) -> Process:
        """Returns a new process, with the rights that its owners hand it, and then its labels."""
        process = self.books.proc(mode)
        try:
            for it in start.rights:
                self.hand(it[1:].partition("/")[0], process, Table(file="", tags=(), rights=[it]))
                self.books.take(process.pid)
            self.books.relabel(process, self.labelled(start.secrecy, start.integrity), mode)
        except Refused as why:
            self.books.do(f"exit {process.pid}")
            raise Unfit(f"{start.key}: {why}, of the tags {self.tags}") from None
        return process

    def give(self, to: str, process: Process) -> None:
        """Sends a service, as it starts, what its owners give it."""
        for name, owner in self.config.owners.items():
            for gift in (it for it in owner.gives if it.to == to):
                self.hand(name, process, gift)

    def deliver(self, packet: tuple[str, str]) -> None:
        """Brings a packet to its receiver, or to the machine of it."""
        if packet[0].startswith(f"p{self.books.number}."):
            self.arrive(packet[1])
        else:
            self.machines.post(int(packet[0][1:].partition(".")[0]), packet[1])

    def arrive(self, digits: str) -> None:
        """Brings a packet to its receiver here. What became of it stands in the journal alone."""
        kind, _, pid = self.books.ask(f"receive {digits}")[0].partition(" ")
        if kind == "arrived" and pid in self.living:
            self.living[pid].bell.set()

    def hear(self, peer: Table, names: dict[str, str]) -> None:
        """Takes names of another machine, as far as the configuration knows them."""
        heard = {it: names[it] for it in peer.tags if OPERATION.fullmatch(names.get(it, ""))}
        if not heard.items() <= self.tags.items():
            self.tags |= heard
            self.note("tags", **self.tags)
        form = rf"(p{peer.number}(?:\.[1-9]\d*){{2}}) (e[1-9]\d*)"
        for name in (it for it in peer.services if re.fullmatch(form, names.get(it, ""))):
            pid, endpoint = names[name].split(" ")
            before, self.processes[name] = self.processes[name], Process(pid, endpoint=endpoint)
            if pid != before.pid:
                self.note("heard", service=name, pid=pid)
                self.give(name, self.processes[name])
