"""Several machines, a host each, over brokers that lose, repeat, and die."""
import importlib.util
import json
import os
import random
import shutil
import signal
import socket
import subprocess
import sys
import time

from broker import packet
from rig import (HOST, SECONDS, SIGNALS, Missing, case, check_operations, expect, outlet,
                 service)

sys.path.insert(0, str(HOST))

from flume_host.machines import (HANDLED, LAST, MESSAGE, OPERATIONS, TELL, Envelope,  # noqa: E402
                                 opened)

KILLS = int(os.environ.get("KILLS", "6"))

KEY = "5a" * 32
CLUSTER = """
[cluster]
name = "home"
broker = "127.0.0.1:{port}"
seconds = 1
"""


def free_port():
    """Returns a port that nobody listens at."""
    with socket.create_server(("127.0.0.1", 0)) as it:
        return it.getsockname()[1]


class Broker:
    """The tests' own broker, as a process."""

    def __init__(self, room, *words):
        self.room, self.port, self.words = room, free_port(), words
        self.start()

    def start(self):
        words = [sys.executable, HOST / "tests/broker.py", self.port, self.room.folder, *self.words]
        self.process = subprocess.Popen(list(map(str, words)))
        self.room.processes.append(self.process)
        self.room.until(lambda: listens(self.port), "a broker")

    def kill(self):
        self.process.kill()
        self.process.wait()

    def envelopes(self, *kinds):
        """Returns the envelopes of these kinds that went by."""
        contents = [bytes.fromhex(it.split(" ")[1]) for it in self.room.read("seen").splitlines()]
        found = [opened(it, [bytes.fromhex(KEY)]) for it in contents]
        return [it for it in found if it and it.kind in kinds]

    def publish(self, to, sender, content):
        """Publishes bytes to a machine, as if they were of another."""
        topic = f"flume/home/to/{to}/from/{sender}".encode()
        with socket.create_connection(("127.0.0.1", self.port)) as it:
            it.sendall(packet(0x10, b"\0\4MQTT\4\2\0\0\0\1x"))
            it.recv(4)
            it.sendall(packet(0x30, len(topic).to_bytes(2, "big") + topic + content))
            it.sendall(packet(0xe0, b""))
            it.recv(1)


def listens(port):
    """Returns whether somebody listens at a port."""
    try:
        socket.create_connection(("127.0.0.1", port)).close()
        return True
    except OSError:
        return False


def keyed(room, text):
    """Returns a room that has the key of the cluster, and is configured and made."""
    if not importlib.util.find_spec("asyncio_mqtt"):
        raise Missing("python3-asyncio-mqtt")
    (room.folder / "key").write_text(KEY)
    room.own(room.folder / "key")
    return room.configure(text, head='keys = ["key"]\n').init()


def machine(room, number, port, peers, text, keys=CLUSTER):
    """Returns a machine with these peers, each a number with names of services and of tags."""
    it = room.machine(number)
    if "certificate" in keys:
        own_certificate(it)
    head = keys.format(port=port)
    for other, (services, tags) in peers.items():
        head += f"[peers.m{other}]\nnumber = {other}\nservices = {json.dumps(services)}\n" \
                f"tags = {json.dumps(tags)}\n"
    (it.folder / "gift").write_text("gift")
    it.let("")
    return keyed(it, head + text)


def end_equal(*rooms):
    """Ends machines, and checks that they have operations, and the same."""
    for room in rooms:
        expect(room.end() == 0, room.said())
    first, *others = [room.registry() for room in rooms]
    differ = sorted({line for it in others for line in {*it} ^ {*first}})
    expect(first and not differ and all(it == first for it in others), "texts", differ)


# One who reads Alice's calendar at another machine, and tells of it what it may.
ALICE = """
[owners.alice.tags]
calendar = "export"
[[owners.alice.gives]]
to = "reader"
tags = ["alice/calendar"]
file = "gift"
"""
HERS = outlet("hers", 'secrecy = ["alice/calendar"]', 'rights = ["-alice/calendar"]')
KEEPER = service("keeper", """
while True:
    tell(host.receive()[0].decode(), "hers")
""", 'secrecy = ["alice/calendar"]')
READER = service("reader", """
while True:
    it = host.receive()[0]
    tell(it.decode() + " " + tried(host.label, secrecy=[]))
    host.send("keeper", it + b" came")
""", 'secrecy = ["alice/calendar"]')


def two(room, port, keys=CLUSTER):
    """Returns two machines: Alice's, and one at which her calendar is read."""
    one = machine(room, 1, port, {2: (["reader"], [])}, ALICE + HERS + KEEPER, keys)
    return one, machine(room, 2, port, {1: (["keeper"], ["alice/calendar"])},
                        outlet("out") + READER, keys)


@case
def two_machines(room):
    """A gift goes to a service of another machine, under a tag that was made here, and does not
    get out there; what that service answers is hers."""
    broker = Broker(room)
    one, other = two(room, broker.port)
    one.start()
    other.start()
    one.tells("hers", "gift came")
    expect(other.read("out") == "", other.read("out"))
    status = one.status()["peers"]["2"]
    expect(status["age"] < 60 and status["lag"] == status["waiting"] == 0, status)
    end_equal(one, other)


TAKER = service("taker", """
while True:
    tell(host.receive()[0].decode())
""")


SENDER = service("sender", """
wait_for("go")
for k in range(15):
    host.send("taker", str(k).encode())
    time.sleep(0.05)
stay()
""", SIGNALS)


@case
def a_broker_that_loses_and_repeats(room):
    """Each message arrives once, and all have the same operations behind it."""
    for seed in range(int(os.environ.get("SEEDS", "1"))):
        inner = room.machine(100 + seed)
        broker = Broker(inner, seed, 0.3, 0.3, 0.5)
        code = "for _ in range(20): tried(host.tag)\n"
        orders = ("orders = 20", "orders_an_hour = 20")
        one = machine(inner, 1, broker.port, {2: (["taker"], [])},
                      "[owners.alice.tags]\nseal = 'integrity'\n" + SENDER
                      + service("maker", code + "stay()", *orders))
        other = machine(inner, 2, broker.port, {1: ([], ["alice/seal"])}, outlet("out") + TAKER
                        + service("maker", code + "stay()", *orders))
        other.start()
        other.until(lambda: other.entries("started", service="taker"), "a start")
        one.start()
        one.until(lambda: one.entries("heard"), "names of another machine")
        one.let("go")
        wanted = set(map(str, range(15)))
        other.until(lambda: set(other.read("out").split()) >= wanted, "all messages")
        found = other.read("out").split()
        expect(len(found) == len(set(found)), "a message twice", sorted(found))
        expect(any(it["why"] == "a number twice" for it in other.entries("envelope")), "no repeat")
        (inner.folder / "calm").touch()
        for it in (one, other):
            it.until(lambda: it.status()["peers"][str(3 - it.number)]["waiting"] == 0, "answers")
        wait_until_equal(one, other, 41)
        end_equal(one, other)


def wait_until_equal(*words):
    """Waits until machines have so many operations: what each made, and what it took."""
    *rooms, many = words
    for room in rooms:
        room.until(lambda: operations(room) >= many, f"{many} operations, not {operations(room)}")


def made(room):
    """Returns how many operations a machine has made by its journal."""
    answers = [it for _, it in room.lines("tag", "group", "put", "make-login")]
    return sum(it.startswith("ok ") for it in answers)


def operations(room):
    """Returns how many operations a machine has by its journal: it has made or taken them."""
    took = [int(it[5:]) for _, it in room.lines("receive") if it.startswith("took ")]
    return made(room) + sum(took)


# It sends and orders until it is to stop. Each message is another one, in each life.
BUSY = service("busy", """
life = os.urandom(4).hex()
while not os.path.exists("/srv/signals/stop"):
    host.send("taker", f"{life} {time.monotonic()}".encode())
    tried(host.tag)
    time.sleep(0.2)
""", SIGNALS, "restarts = false", "orders = 99999", "orders_an_hour = 99999")


def taken(room):
    """Returns the messages of the first machine that the taker has taken, in all its lives."""
    pids = {it["pid"] for it in room.entries("started", service="taker")}
    return [it for line, it in room.lines("take") if it.startswith("message p1.")
            and line.split(" ")[1] in pids]


def more_come(room):
    """Waits until some messages more of the first machine are taken here."""
    before = len(taken(room))
    room.until(lambda: len(taken(room)) > before + 5, "messages of the first machine")


def has_told_all(room, since):
    """Returns whether a window came since then of one who lacks nothing that this machine has."""
    return any(it["at"] > since and it["answer"] == ["lines 0"] for it in room.entries("line")
               if it["line"].startswith("receive f202"))


def end_busy(*rooms):
    """Waits until both are busy no more, and have what the other has. Then each has all orders that
    were answered, and no message was taken twice."""
    for it in rooms:
        it.let("stop")
        it.until(lambda: "busy" not in it.status()["processes"].values(), "its last order")
    since = time.time()
    for it in rooms:
        it.until(lambda: has_told_all(it, since), "that the other has all")
        it.until(lambda: not any(peer["waiting"] for peer in it.status()["peers"].values()),
                 "that none waits")
    end_equal(*rooms)
    for it in rooms:
        check_operations(it)
        expect(len(taken(it)) == len(set(taken(it))), "a message twice", taken(it))


@case
def a_broker_that_dies(room):
    """It is killed in mid-story, and the machines go on: each message comes, and none twice."""
    broker, draw = Broker(room), random.Random(5)
    one = machine(room, 1, broker.port, {2: (["taker"], [])}, BUSY)
    other = machine(room, 2, broker.port, {1: ([], [])}, outlet("out") + TAKER + BUSY)
    for it in (one, other):
        it.start()
    for _ in range(KILLS):
        more_come(other)
        before = {it: len(it.entries("broker")) for it in (one, other)}
        broker.kill()
        # it stays away for a moment, or for long enough that hosts look for it
        room.until(lambda: draw.random() < 0.1, "a moment")
        broker.start()
        for it in before:
            it.until(lambda: len(it.entries("broker")) > before[it], "an end of it")
    more_come(other)
    end_busy(one, other)
    [pid] = [it["pid"] for it in other.entries("started", service="taker")]
    sent = [answer.split(" ")[1] for line, answer in one.lines("send") if f" {pid} " in line]
    came = [line.split(" ")[1] for line, answer in other.lines("receive")
            if line.startswith("receive f20400000001") and answer == f"arrived {pid}"]
    expect(sorted(sent) == sorted(came), "messages", set(sent) ^ set(came))


@case
def kills_of_two_machines(room):
    """The host or the node of either is killed at random moments while both order, and one sends to
    the other: no secret goes out."""
    broker, draw = Broker(room), random.Random(6)
    one = machine(room, 1, broker.port, {2: (["taker", "reader"], [])},
                  ALICE + HERS + KEEPER + BUSY)
    other = machine(room, 2, broker.port, {1: (["keeper"], ["alice/calendar"])},
                    outlet("out") + READER + TAKER + BUSY)
    for it in (one, other):
        it.start()
    for number in range(KILLS):
        more_come(other)
        killed = draw.choice((one, other))
        if number % 2:
            killed.end(signal.SIGKILL)
            killed.start()
        else:
            os.kill(killed.until(killed.node_pid, "a node"), signal.SIGKILL)
    more_come(other)
    end_busy(one, other)
    expect("gift" not in other.read("out"), other.read("out"))


@case
def what_a_sender_to_another_machine_is_told(room):
    """The same whether its message arrives, is dropped, or finds nobody; and the same goes back."""
    code = """
wait_for("go")
tell([answer({"do": "send", "to": to, "bytes": "6869"}) for to in ("taker", "high", "ended")])
host.receive()
"""
    broker = Broker(room)
    names = ["taker", "high", "ended"]
    one = machine(room, 1, broker.port, {2: (names, [])},
                  outlet("out") + service("one", code, SIGNALS))
    high = service("high", "stay()", 'integrity = ["bob/seal"]', 'rights = ["+bob/seal"]')
    other = machine(room, 2, broker.port, {1: ([], [])}, "[owners.bob.tags]\nseal = 'integrity'\n"
                    + outlet("out") + TAKER + high + service("ended", "", "restarts = false"))
    other.start()
    other.until(lambda: other.entries("ended", service="ended"), "an end")
    one.start()
    # the third has ended, and is not heard of
    one.until(lambda: len(one.entries("heard")) == 2, "names of another machine")
    one.let("go")
    one.tells("out", json.dumps([{"ok": True}] * 3))
    one.until(lambda: len(broker.envelopes(HANDLED)) >= 3, "three acknowledgements")
    one.until(lambda: one.status()["peers"]["2"]["waiting"] == 0, "none waits")
    came = [it.split(" ")[0] for line, it in other.lines("receive") if "026869" in line]
    expect(sorted(came) == ["arrived", "dropped", "dropped"], came)
    told = {it.number: it.packet for it in broker.envelopes(HANDLED)}
    expect(sorted(told.values()) == ["1.1", "1.2", "1.3"], told)
    sizes = {len(it.packet) for it in broker.envelopes(HANDLED)}
    expect(len(sizes) == 1, "they differ", told)


@case
def envelopes_that_are_not_taken(room):
    """One of another machine, without a seal, of another key, repeated, of an earlier boot; and
    what is in one: a packet without a seal, a message of another machine. The journal says so."""
    broker, key = Broker(room), bytes.fromhex(KEY)
    other = machine(room, 2, broker.port, {1: ([], []), 3: ([], [])}, outlet("out") + TAKER)
    other.start()
    pid = other.until(lambda: other.entries("started", service="taker"), "a start")[0]["pid"]
    words = [f"f204{1:08x}{1:08x}{1:08x}01", "".join(f"{int(it):08x}" for it in pid[1:].split("."))]
    message = words[0] + words[1] + "01" + "0000" + "0000" + "00" + "0001" + "78"
    window = "f2020000000100000001ffffffffffffffff0000"

    def put(kind, number, content, topic=3, sender=3, boot=5, by=key):
        """Publishes an envelope, which may lie."""
        broker.publish(2, topic, Envelope(kind, sender, 2, boot, number, content).sealed(by))

    def note(why, many=1, came=0):
        """Waits until so many are noted, where no more than this came through."""
        other.until(lambda: len(other.entries("envelope", why=why)) >= many
                    or len(other.lines("receive")) > came, why)
        expect(len(other.lines("receive")) == came, "one came through", other.lines("receive"))
    broker.publish(2, 3, b"")
    broker.publish(2, 3, b"tell 3 2 5 1 " + window.encode())
    broker.publish(2, 3, b"tell 3 2 5 1 " + window.encode() + b" " + b"00" * 32)
    put(TELL, 1, window, by=b"x" * 32)
    note("no seal", 4)
    put(TELL, 1, window, topic=1)
    put(TELL, 1, window, sender=1)
    broker.publish(2, 3, Envelope(TELL, 3, 1, 5, 1, window).sealed(key))
    note("another's topic", 3)
    put(TELL, 1, window, topic=4, sender=4)
    note("no peer")
    put(MESSAGE, 1, message)
    note("a message of another machine")
    put(TELL, 7, window)
    other.until(lambda: other.lines("receive"), "what is in order")
    expect(other.lines("receive") == [("receive " + window, "refused F18 0")], "a bare packet")
    put(TELL, 7, window)
    put(TELL, 8, window, boot=4)
    note("a number twice", 2, came=1)
    put(MESSAGE, 1, message, topic=1, sender=1)
    other.until(lambda: len(other.lines("receive")) == 2, "a message without a seal")
    expect(other.lines("receive")[1][1] == "refused F18 0", other.lines("receive"))
    expect(other.read("out") == "", other.read("out"))
    expect(other.end() == 0, other.said())


@case
def an_answer_goes_to_who_asked(room):
    """One of three asks, by a window of a node that has nothing, and nobody else is answered."""
    broker, key = Broker(room), bytes.fromhex(KEY)
    other = machine(room, 2, broker.port, {1: ([], []), 3: ([], [])},
                    "[owners.bob.tags]\nseal = 'integrity'\n" + service("one", "stay()"))
    other.start()
    other.until(lambda: other.entries("started", service="one"), "a start")
    import hmac
    window = bytes.fromhex("f2020000000100000001ffffffffffffffff0000")
    window += hmac.digest(key, b"flume-packet-1\n" + window, "sha256")
    broker.publish(2, 3, Envelope(TELL, 3, 2, 1, 1, window.hex()).sealed(key))
    other.until(lambda: broker.envelopes(LAST), "an answer")
    expect({it.to for it in broker.envelopes(LAST, OPERATIONS)} == {3}, "to whom")
    topics = {it.split(" ")[0] for it in room.read("seen").splitlines()}
    expect(topics == {"flume/home/to/2/from/3", "flume/home/to/1/from/2",
                      "flume/home/to/3/from/2"}, topics)
    status = other.status()["peers"]
    expect(status["3"]["lag"] == 1 and status["1"] == {"age": None, "lag": 0, "waiting": 0}, status)
    expect(other.end() == 0, other.said())


@case
def a_number_that_was_made_anew(room):
    """The host ends with 4, and gives no order before: a peer's window shows it."""
    broker = Broker(room)
    one, other = two(room, broker.port)
    one.start()
    other.start()
    one.tells("hers", "gift came")
    expect(one.end() == 0, one.said())
    shutil.rmtree(one.folder / "it")
    one.init().start()
    expect(one.host.wait(SECONDS) == 4, one.host.returncode, one.said())
    expect("F17 1.1" in one.said(), one.said())
    expect(not one.lines("tag", "make-login"), "an order before")
    expect(other.end() == 0, other.said())


@case
def at_most_so_many_messages_wait(room):
    """1,000 for each peer: what is over is lost, and the journal says so."""
    gift = "[[owners.alice.gives]]\nto = 'taker'\nfile = 'gift'\n"
    broker = Broker(room)
    one = machine(room, 1, broker.port, {2: (["taker"], [])}, gift * 1100)
    other = machine(room, 2, broker.port, {1: ([], [])}, service("taker", "stay()"))
    other.start()
    one.start()
    one.until(lambda: len(one.entries("lost")) == 100, "those that are lost")
    one.until(lambda: one.status()["peers"]["2"]["waiting"] == 0, "all others are handled")
    came = [it for it, _ in other.lines("receive") if it.startswith("receive f20400000001")]
    expect(len(came) == 1000, "messages that came", len(came))
    expect(one.end() == other.end() == 0, one.said(), other.said())


TLS = CLUSTER.replace("127.0.0.1", "localhost").replace("seconds = 1", """seconds = 1
ca = "ca/ca.crt"
certificate = "ca/mine.crt"
private_key = "ca/mine.key\"""")


def mosquitto(room):
    """Returns the port of a mosquitto with TLS and the rules of host/acl, and a CA for trials."""
    for name in ("mosquitto", "mosquitto_pub", "mosquitto_sub", "openssl"):
        if not shutil.which(name, path=f"{os.environ['PATH']}:/usr/sbin"):
            raise Missing(name)
    folder, port = room.bench.folder / "host", free_port()
    ca = room.folder / "trial-ca"
    subprocess.run([folder / "tests/make-trial-ca", ca, "localhost", "1", "2", "3"], check=True)
    text = (folder / "mosquitto.conf").read_text().replace("8883", f"{port} 127.0.0.1")
    (room.folder / "conf").write_text(text.replace("trial-ca", str(ca)).replace(
        "acl_file acl", f"acl_file {room.folder}/acl"))
    shutil.copy(folder / "acl", room.folder / "acl")
    for it in (ca, *ca.iterdir(), room.folder / "acl"):
        room.own(it)
    words = room.bench.words(shutil.which("mosquitto", path=f"{os.environ['PATH']}:/usr/sbin"),
                             "-c", room.folder / "conf")
    with open(room.folder / "mosquitto", "w") as said:
        room.processes.append(subprocess.Popen(words, stdout=said, stderr=said))
    room.until(lambda: listens(port), "mosquitto")
    return port


def own_certificate(one):
    """Gives a machine its certificate."""
    (one.folder / "ca").mkdir()
    for name, to in (("ca.crt", "ca.crt"), (f"{one.number}.crt", "mine.crt"),
                     (f"{one.number}.key", "mine.key")):
        shutil.copy(one.folder.parent / "trial-ca" / name, one.folder / "ca" / to)
        one.own(one.folder / "ca" / to)
    one.own(one.folder / "ca")


def client(room, port, verb, certificate, *words, seconds=20):
    """Runs a client of mosquitto's with a certificate, or without one."""
    ca, more = room.folder / "trial-ca", []
    if certificate:
        more = ["--cert", ca / f"{certificate}.crt", "--key", ca / f"{certificate}.key"]
    words = [f"mosquitto_{verb}", "-h", "localhost", "-p", port, "--cafile", ca / "ca.crt", *more,
             *words]
    return subprocess.run(list(map(str, words)), capture_output=True, timeout=seconds + 60)


@case
def mosquitto_with_certificates(room):
    """The broker keeps each to its own topics: an impostor, a spy, and one without a certificate.
    The host itself refuses what it does let through, without a seal."""
    port = mosquitto(room)
    one, other = two(room, port, TLS)
    spy = subprocess.Popen(list(map(str, [
        "mosquitto_sub", "-h", "localhost", "-p", port, "--cafile", room.folder / "trial-ca/ca.crt",
        "--cert", room.folder / "trial-ca/3.crt", "--key", room.folder / "trial-ca/3.key", "-v",
        "-t", "#", "-t", "flume/home/to/2/from/+", "-t", "flume/home/to/1/from/2"])),
        stdout=subprocess.PIPE, stderr=subprocess.STDOUT)
    room.processes.append(spy)
    one.start()
    other.start()
    one.tells("hers", "gift came")
    # an impostor writes as another, which does not come; what it writes as itself does, to no avail
    for sender in (1, 3):
        done = client(room, port, "pub", 3, "-t", f"flume/home/to/2/from/{sender}", "-m", "hi")
        expect(done.returncode == 0, done)
    other.until(lambda: other.entries("envelope"), "a word of the impostor's")
    topics = [(it["topic"], it["why"]) for it in other.entries("envelope")]
    expect(topics == [("flume/home/to/2/from/3", "no seal")], topics)
    for certificate in (None, "impostor"):
        if certificate:
            subprocess.run(["openssl", "req", "-x509", "-newkey", "rsa:2048", "-nodes", "-subj",
                            "/CN=1", "-keyout", room.folder / "trial-ca/impostor.key", "-out",
                            room.folder / "trial-ca/impostor.crt"], check=True, capture_output=True)
        done = client(room, port, "pub", certificate, "-t", "flume/home/to/2/from/1", "-m", "hi")
        expect(done.returncode != 0, "a client without a certificate of the CA", done)
    spy.kill()
    heard = spy.communicate()[0]
    expect(b"flume/" not in heard, "a spy heard", heard[:300])
    expect(len(other.entries("envelope")) == 1, other.entries("envelope"))
    end_equal(one, other)


@case
def kills_of_mosquitto(room):
    """It is killed while the machines speak, and they meet again by a new client."""
    port = mosquitto(room)
    one, other = two(room, port, TLS)
    one.start()
    other.start()
    one.tells("hers", "gift came")
    for _ in range(KILLS // 3):
        room.processes[0].kill()
        room.processes[0].wait()
        began = len(one.entries("broker"))
        one.until(lambda: len(one.entries("broker")) > began, "that it is gone")
        words = room.processes[0].args
        room.processes[0] = subprocess.Popen(words, stdout=subprocess.DEVNULL,
                                             stderr=subprocess.DEVNULL)
        heard = one.journal()[-1]["at"]
        one.until(lambda: any(it["at"] > heard for it in one.entries("line")
                              if it["line"].startswith("receive f202")), "a window again")
    end_equal(one, other)
