"""The other machines of a cluster. What goes to them, by a broker of MQTT, is a node's packet in an
envelope, which has a seal of its own: who carries it can lose it, and nothing else."""
import asyncio
import contextlib
import hmac
import itertools
import json
import random
import re
import socket
import time
from typing import TYPE_CHECKING, AsyncIterator, NamedTuple

from .config import Table, Unfit
if TYPE_CHECKING:
    from .world import World

CONTEXT, MOST, TICK, BATCH = b"flume-envelope-1\n", 1000, 1.0, 64
AT_ONCE = socket.IPPROTO_TCP, socket.TCP_NODELAY, 1
# what an envelope brings: a window; one that is to be answered by one, too; a part of what a window
# lacked, and the last; the names of services and tags; a message; and which one was handled
TELL, NEWS, OPERATIONS, LAST, NAMES = "tell", "news", "operations", "last", "names"
MESSAGE, HANDLED, TWICE = "message", "handled", "a number twice"


class Envelope(NamedTuple):
    """What goes from one machine to another, with the sender's boot and a number in it."""
    kind: str
    sender: int
    to: int
    boot: int
    number: int
    packet: str

    def sealed(self, key: bytes) -> bytes:
        """Returns its words, and their seal."""
        text = " ".join(map(str, self)).encode()
        return text + b" " + hmac.digest(key, CONTEXT + text, "sha256").hex().encode()


def opened(content: bytes, keys: list[bytes]) -> Envelope | None:
    """Returns the envelope of these bytes, where one of the keys has sealed it."""
    with contextlib.suppress(ValueError):
        kind, sender, to, boot, number, packet, _ = content.decode("ascii").split(" ")
        it = Envelope(kind, int(sender), int(to), int(boot), int(number), packet)
        if any(hmac.compare_digest(content, it.sealed(key)) for key in keys):
            return it
    return None


class Peer:
    """Another machine: what was heard of it, and what it has not said that it handled."""
    def __init__(self, config: Table) -> None:
        self.config, self.is_met = config, asyncio.Event()
        self.waiting: dict[int, tuple[float, str]] = {}
        self.heard, self.lag, self.sent, self.boot, self.named = 0.0, 0, 0, 0, (0, 0)
        # which numbers of its boot were taken: of messages, and of others
        self.taken = {True: {0}, False: {0}}

    def takes(self, it: Envelope) -> bool:
        """Returns whether a number is taken now: once for each boot, and of the last 1,000."""
        if it.boot > self.boot:
            self.boot, self.taken = it.boot, {True: {0}, False: {0}}
        taken = self.taken[is_message := it.kind == MESSAGE]
        least = max(taken) - MOST
        is_new = it.boot == self.boot and it.number > least and it.number not in taken
        if is_new:
            self.taken[is_message] = {old for old in taken if old > least} | {it.number}
        return is_new


class Machines:
    """The other machines, as one run of the node meets them."""
    def __init__(self, world: "World") -> None:
        self.world, self.books, self.has_met, self.met = world, world.books, False, list[int]()
        self.config, self.keys = world.config.cluster, world.config.keys
        self.peers = {it.number: Peer(it) for it in world.config.peers.values()}
        self.outgoing, self.numbers = asyncio.Queue[tuple[str, bytes]](MOST), itertools.count(1)
        self.topic = f"flume/{self.config.name}/to/{{}}/from/{{}}".format

    async def meet(self) -> None:
        """Waits for peers' windows: a number that was made anew shows before the first order."""
        with contextlib.suppress(TimeoutError):
            async with asyncio.timeout(self.config.patience):
                await asyncio.gather(*(peer.is_met.wait() for peer in self.peers.values()))
        self.has_met = True
        self.met = [number for number, peer in self.peers.items() if peer.is_met.is_set()]
        self.world.note("met", peers=self.met)

    async def run(self) -> None:
        """Meets the others, by one client after another, which a host without peers may lack."""
        async def hear(messages: "AsyncIterator[Message]") -> None:
            async for it in messages:
                self.take(it.topic.value, it.payload)
        from asyncio_mqtt import Client, Message, MqttError, TLSParameters
        host, port = self.config.broker.rsplit(":", 1)
        tls = TLSParameters(self.config.ca, self.config.certificate, self.config.private_key)
        # the client waits by wait_for, which may swallow that this is to end
        while (task := asyncio.current_task()) and not task.cancelling():
            try:
                async with (Client(host, int(port), client_id=str(self.books.number), keepalive=10,
                                   clean_session=True, socket_options=[AT_ONCE],
                                   tls_params=tls if self.config.ca else None) as client,
                            client.messages(queue_maxsize=MOST) as heard,
                            asyncio.TaskGroup() as group):
                    await client.subscribe(self.topic(self.books.number, "+"))
                    group.create_task(hear(heard))
                    while not task.cancelling():
                        await client.publish(*await self.outgoing.get())
                    raise asyncio.CancelledError
            # a broker that dies is an error twice: in the block, and as it is left
            except* (MqttError, OSError) as why:
                self.world.note("broker", why=str(why.exceptions[0]))
            await asyncio.sleep(random.uniform(0.5, 1.5))

    async def talk(self) -> None:
        """Tells all what the node has, again and again, and sends again what was not handled."""
        due = 0.0
        while True:
            now = time.monotonic()
            for to, peer in self.peers.items():
                for number, (at, digits) in [*peer.waiting.items()][:BATCH]:
                    if now - at > TICK:
                        self.send(MESSAGE, to, digits, number)
                        peer.waiting[number] = now, digits
            if self.books.is_news or now > due:
                self.tell(NEWS if self.books.is_news or not self.has_met else TELL, *self.peers)
                seconds = self.config.seconds * random.uniform(0.5, 1.5)
                due, self.books.is_news = now + (seconds if self.has_met else TICK), False
            # orders that come together are told together
            await asyncio.sleep(TICK / 20)

    def tell(self, kind: str, *peers: int) -> None:
        """Tells peers what the node has, and what is called how here."""
        world = self.world
        names = {it: world.tags[it] for it in world.config.tags if it in world.tags} | {
            name: f"{it.pid} {it.endpoint}" for name, it in world.processes.items()
            if it.pid in world.living}
        for packet in self.books.ask("tell")[1:]:
            for to in peers:
                self.send(kind, to, packet)
                self.send(NAMES, to, json.dumps(names).encode().hex())

    def send(self, kind: str, to: int, packet: str, number: int = 0) -> None:
        """Has an envelope on its way. What is over 1,000 is lost."""
        number, here = number or next(self.numbers), self.books.number
        it = Envelope(kind, here, to, self.books.boot, number, packet)
        with contextlib.suppress(asyncio.QueueFull):
            self.outgoing.put_nowait((self.topic(to, here), it.sealed(self.keys[0])))

    def post(self, to: int, digits: str) -> None:
        """Has a message on its way, again and again until it was handled, but for 1,000."""
        peer = self.peers[to]
        if peer.sent - min(peer.waiting, default=peer.sent) < MOST - 1:
            peer.sent += 1
            peer.waiting[peer.sent] = time.monotonic(), digits
            self.send(MESSAGE, to, digits, peer.sent)
        else:
            self.world.note("lost", packet=digits)

    def take(self, topic: str, content: bytes) -> None:
        """Takes an envelope, or notes why it does not. Raises as `handle`."""
        it, here = opened(content, self.keys), self.books.number
        why = ("no seal" if not it else
               "another's topic" if (it.to, topic) != (here, self.topic(here, it.sender)) else
               "no peer" if it.sender not in self.peers else
               "a message of another machine" if it.kind == MESSAGE and
               it.packet[:12] != f"f204{it.sender:08x}" else
               TWICE if not self.peers[it.sender].takes(it) else "")
        if why:
            self.world.note("envelope", topic=topic, why=why)
        elif it:
            self.handle(it, self.peers[it.sender])
        if it and it.kind == MESSAGE and why in ("", TWICE):
            # the same whether it arrived, was dropped, or came before
            self.send(HANDLED, it.sender, f"{it.boot}.{it.number}")

    def handle(self, it: Envelope, peer: Peer) -> None:
        """Does what one is for. Raises NodeEnded, and Unfit at a name that the node never gave."""
        peer.heard = time.monotonic()
        if it.kind == MESSAGE:
            self.world.arrive(it.packet)
        elif it.kind == HANDLED:
            boot, number = map(int, it.packet.split("."))
            peer.waiting.pop(number if boot == self.books.boot else 0, None)
        # before owners are there they give nothing: names come again
        elif it.kind == NAMES and self.has_met and (it.boot, it.number) > peer.named:
            peer.named = it.boot, it.number
            self.world.hear(peer.config, json.loads(bytes.fromhex(it.packet)))
        elif it.kind in (TELL, NEWS, OPERATIONS, LAST):
            took, *lacked = self.books.ask(f"receive {it.packet}")
            if re.match(rf"refused F1[67] {it.to}\.", took):
                raise Unfit(f"{took}: the number {it.to} is another's", 4)
            for place, packet in enumerate(lacked, 1):
                self.send(LAST if place == len(lacked) else OPERATIONS, it.sender, packet)
            if it.kind == NEWS or it.kind == LAST and re.match("took [1-9]", took):
                self.tell(TELL, it.sender)
            if it.kind in (TELL, NEWS):
                peer.lag = len(lacked)
                peer.is_met.set()
