"""The declassifier: it lets a day of the week out, and nothing else, once both let it."""
from flume_service import Host

DAYS = {b"mon", b"tue", b"wed", b"thu", b"fri", b"sat", b"sun"}
host, days = Host(), []
while message := host.receive():
    days += DAYS & {message[0]}
    while days and host.may("-alice/calendar") and host.may("-bob/calendar"):
        host.emit("outside", b"release: " + days[0] + b"\n", secrecy=[])
        host.send("diary", days.pop(0), secrecy=["bob/calendar"])
