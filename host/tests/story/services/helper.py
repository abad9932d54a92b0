"""A child of the matcher: it has its parent's labels."""
from flume_service import Host

host = Host()
host.emit("outside", b"helper: of who has read both\n")
host.send("parent", b"done")
