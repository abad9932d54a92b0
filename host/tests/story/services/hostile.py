"""Tries all ways to let Alice's calendar out, and says in her log what it found."""
import ctypes
import json
import os
import socket

from flume_service import Host, Refused

host = Host()
message = host.receive()
secret = message[0] if message else b""
found = {}


def attempt(name, call):
    """Notes what comes of an attempt."""
    try:
        found[name] = str(call())
    except BaseException as why:
        found[name] = why.why if isinstance(why, Refused) else type(why).__name__


def connect(family, address):
    with socket.socket(family) as it:
        it.settimeout(1)
        it.connect(address)
    return "connected"


def system_call(*words):
    library = ctypes.CDLL(None, use_errno=True)
    return ctypes.get_errno() if library.syscall(*words) < 0 else "done"


def fork_many():
    count = 0
    while count < 1000:
        if os.fork() == 0:
            while True:
                os.read(os.pipe()[0], 1)
        count += 1
    return count


def raw(content):
    host.socket.send(content)
    return json.loads(host.socket.recv(65536)).get("refused", "taken")


def write(path):
    with open(path, "wb") as file:
        file.write(secret * 1000)
    return "written"


attempt("network", lambda: connect(socket.AF_INET, ("127.0.0.1", 22)))
attempt("network outside", lambda: connect(socket.AF_INET, ("192.0.2.1", 80)))
attempt("a socket by name", lambda: connect(socket.AF_UNIX, "\0flume"))
attempt("a socket of the machine", lambda: connect(40, (2, 1234)))
attempt("a raw socket", lambda: socket.socket(socket.AF_PACKET, socket.SOCK_RAW))
attempt("a key of the kernel", lambda: system_call(248, b"user", b"it", secret, len(secret), -3))
attempt("a ring of the kernel", lambda: system_call(425, 1, ctypes.create_string_buffer(120)))
attempt("a file", lambda: write("/srv/services/x"))
attempt("the root", lambda: write("/x"))
attempt("the system", lambda: write("/usr/lib/x"))
attempt("a new user namespace", lambda: ctypes.CDLL(None).unshare(0x10000000))
attempt("others' processes", lambda: [it for it in os.listdir("/proc") if it.isdigit()])
attempt("others' sockets", lambda: os.open("/proc/1/fd/3", os.O_RDWR))
attempt("debug the first process", lambda: ctypes.CDLL(None).ptrace(16, 1, 0, 0))
attempt("kill all", lambda: os.kill(1, 9))
attempt("memory", lambda: len(bytearray(1 << 30)))
attempt("no JSON", lambda: raw(b"\xff{"))
attempt("a line in a name", lambda: host.label(secrecy=["alice/calendar} {}\n1 proc"]))
attempt("a deep request", lambda: raw(b"[" * 60000))
attempt("a flood", lambda: [raw(b"[]") for _ in range(2000)][-1])
attempt("lay the tag down", lambda: host.label(secrecy=[]))
attempt("an order", host.tag)
attempt("a lower label", lambda: host.emit("outside", secret, secrecy=[]))
attempt("a right that it has not", lambda: host.grant("stranger", ["-alice/calendar"]))
attempt("a right of Bob's", lambda: host.may("-bob/calendar"))
attempt("to the outside", lambda: host.emit("outside", b"hostile: " + secret + b"\n"))
attempt("to a stranger", lambda: host.send("stranger", secret))
attempt("to another machine", lambda: host.send("guest", secret))
attempt("to Bob's diary", lambda: host.send("diary", secret))
attempt("forks", fork_many)
for name, what in found.items():
    host.emit("alice_log", f"{name}: {what}".encode()[:1024])
host.emit("alice_log", b"that was all")
host.exit()
