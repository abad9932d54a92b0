"""Finds a day that suits both owners. It may not let it out, so it asks the declassifier to."""
from flume_service import Host, Refused

host = Host()
days = []
while len(days) < 2:
    message = host.receive()
    if message and message[0]:
        days.append(set(message[0].decode().split()))
day = sorted(days[0] & days[1])[0].encode()
host.emit("outside", b"matcher: " + day + b"\n")
try:
    host.label(secrecy=[])
except Refused:
    pass
host.spawn("helper", [])
host.receive()
host.send("release", b"not a day: all of both calendars")
host.send("release", day)
