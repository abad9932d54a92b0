"""Has read nothing, and lets out what it is sent."""
from flume_service import Host

host = Host()
host.emit("outside", b"stranger: here\n")
while message := host.receive():
    host.emit("outside", b"stranger got " + message[0] + b"\n")
