#!/usr/bin/python3
"""A broker of MQTT 3.1.1 for the tests: CONNECT, SUBSCRIBE, PUBLISH with QoS 0, PING. It loses,
repeats, delays and reorders what is published, by a seed, for as long as a file is there.

    broker.py PORT FOLDER [SEED LOSES REPEATS DELAYS]

LOSES, REPEATS and DELAYS are chances from 0 to 1; FOLDER/calm, once it is there, ends them all, and
while FOLDER/apart is there nothing goes to or from the machines that stand in it. What goes by is
written to FOLDER/seen, a topic and the bytes in hexadecimal on each line.
"""
import asyncio
import pathlib
import random
import sys


def text(content, at):
    """Returns the text at a place, and the place behind it."""
    size = int.from_bytes(content[at:at + 2], "big")
    return content[at + 2:at + 2 + size].decode(), at + 2 + size


def packet(kind, content):
    """Returns a packet of a kind."""
    size, digits = len(content), []
    while size or not digits:
        size, digit = divmod(size, 128)
        digits.append(digit | (128 if size else 0))
    return bytes([kind, *digits]) + content


def fits(topic, wanted):
    """Returns whether a topic is one of those that a subscription wants."""
    parts, forms = topic.split("/"), wanted.split("/")
    if forms[-1] == "#":
        return parts[:len(forms) - 1] == forms[:-1]
    return len(parts) == len(forms) and all(a in (b, "+") for a, b in zip(forms, parts))


async def read_packet(reader):
    """Returns the kind and the content of the next packet. Raises IncompleteReadError."""
    [kind], size, shift = await reader.readexactly(1), 0, 0
    while True:
        [digit] = await reader.readexactly(1)
        size |= (digit & 127) << shift
        shift += 7
        if digit < 128:
            return kind, await reader.readexactly(size)


class Broker:
    """A broker, and who is connected to it."""

    def __init__(self, folder, seed=0, loses=0.0, repeats=0.0, delays=0.0):
        self.draw, self.wanted = random.Random(int(seed)), {}
        self.loses, self.repeats, self.delays = map(float, (loses, repeats, delays))
        self.folder = pathlib.Path(folder)
        self.seen = open(self.folder / "seen", "a")

    def apart(self):
        """Returns the machines that nothing goes to or from."""
        path = self.folder / "apart"
        return path.read_text().split() if path.exists() else []

    async def serve(self, reader, writer):
        """Serves a client until it ends."""
        self.wanted[writer] = []
        try:
            while True:
                kind, content = await read_packet(reader)
                if kind >> 4 == 1:
                    writer.write(packet(0x20, b"\0\0"))
                elif kind >> 4 == 3:
                    topic, at = text(content, 0)
                    self.publish(topic, content[at:])
                elif kind >> 4 == 8:
                    topic, at = text(content, 2)
                    self.wanted[writer].append(topic)
                    writer.write(packet(0x90, content[:2] + b"\0"))
                elif kind >> 4 == 12:
                    writer.write(packet(0xd0, b""))
                elif kind >> 4 == 14:
                    break
                await writer.drain()
        except (asyncio.IncompleteReadError, ConnectionError):
            pass
        finally:
            del self.wanted[writer]
            writer.close()

    def publish(self, topic, payload):
        """Passes on what was published, perhaps late, twice, or not at all."""
        self.seen.write(f"{topic} {payload.hex()}\n")
        self.seen.flush()
        wild = not (self.folder / "calm").exists()
        if wild and self.draw.random() < self.loses:
            return
        times = 2 if wild and self.draw.random() < self.repeats else 1
        for _ in range(times):
            late = self.draw.random() if wild and self.draw.random() < self.delays else 0
            asyncio.get_running_loop().call_later(late, self.pass_on, topic, payload)

    def pass_on(self, topic, payload):
        """Passes a message to all that want it, where neither end is apart."""
        _, _, _, to, _, sender = topic.split("/")
        if {to, sender} & set(self.apart()):
            return
        size = len(topic.encode()).to_bytes(2, "big")
        for writer, wanted in list(self.wanted.items()):
            if not writer.is_closing() and any(fits(topic, it) for it in wanted):
                writer.write(packet(0x30, size + topic.encode() + payload))


async def main(port, *words):
    """Serves for ever."""
    broker = Broker(*words)
    async with await asyncio.start_server(broker.serve, "0.0.0.0", int(port)) as server:
        await server.serve_forever()


if __name__ == "__main__":
    asyncio.run(main(*sys.argv[1:]))
