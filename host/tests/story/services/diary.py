"""Writes down for Bob what it is sent, and tries to tell all others, too."""
from flume_service import Host

host = Host()
while message := host.receive():
    host.emit("bob_log", message[0])
    host.emit("outside", b"diary: " + message[0] + b"\n")
