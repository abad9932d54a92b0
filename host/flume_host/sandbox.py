"""A real process in a sandbox: no network, no capabilities, nothing to write but a small /tmp."""
import contextlib
import errno
import functools
import json
import os
import pathlib
import resource
import select
import signal
import socket
import subprocess
from typing import BinaryIO, TextIO

from .config import Table

LIBRARY = pathlib.Path(__file__).resolve().parent.parent / "flume_service.py"
GROUPS, CALLED = pathlib.Path("/sys/fs/cgroup"), "bwrap of {}"
FAMILIES = {socket.AF_UNIX, socket.AF_INET, socket.AF_INET6}
TEMPORARY_BYTES, FILES, SECONDS = 16 << 20, 256, 10.0
SYSTEM = """
    --unshare-user --unshare-ipc --unshare-pid --unshare-net --unshare-uts --unshare-cgroup
    --disable-userns --die-with-parent --new-session --cap-drop ALL --uid 65534 --gid 65534
    --hostname service --clearenv --setenv PATH /usr/bin --setenv LANG C.UTF-8 --chdir /
    --setenv PYTHONPATH /srv --setenv PYTHONDONTWRITEBYTECODE 1 --setenv FLUME_SOCKET {}
    --info-fd {} --block-fd {} --seccomp {} --ro-bind /usr /usr --symlink usr/lib /lib
    --symlink usr/lib64 /lib64 --symlink usr/bin /bin --symlink usr/sbin /sbin
    --proc /proc --dev /dev --remount-ro /dev --size {} --tmpfs /tmp"""
# bwrap waits for a byte, and the shell for a line: what a killed host had not noted does not run
WAITS = ("/bin/sh", "-c", 'read -r go && exec "$@" < /dev/null', "service")


def begun_at(pid: int) -> str:
    """Returns when a process began, in ticks of the system, or nothing where none lives."""
    with contextlib.suppress(OSError):
        words = pathlib.Path(f"/proc/{pid}/stat").read_text().rpartition(")")[2].split()
        return "" if words[0] in "ZX" else words[19]
    return ""


def end_process(handle: int) -> None:
    """Kills a process by its handle, and waits until it is gone: the first one of a sandbox is gone
    only behind all others in it. Raises RuntimeError after ten seconds."""
    with contextlib.suppress(ProcessLookupError):
        signal.pidfd_send_signal(handle, signal.SIGKILL)
    if not select.select([handle], [], [], SECONDS)[0]:
        # what it read must not get out, so nothing is started beside it
        raise RuntimeError("a sandbox did not end in ten seconds")
    os.close(handle)


def end_left(file: TextIO) -> None:
    """Ends the sandboxes that a kill left: which the file names, and half made ones. Empties it."""
    file.seek(0)
    for pid, _, began in (line.rstrip().partition(" ") for line in file):
        if began and begun_at(int(pid)) == began:
            end_process(os.pidfd_open(int(pid)))
    # bwrap's child waits for a word of bwrap, for ever where that was killed: nothing of a service
    for words in pathlib.Path("/proc").glob("[1-9]*/cmdline"):
        with contextlib.suppress(OSError):
            if words.read_bytes().startswith(CALLED.format(file.name).encode()):
                end_process(os.pidfd_open(int(words.parent.name)))
    file.truncate(0)


@functools.cache
def delegated(groups: pathlib.Path = GROUPS) -> pathlib.Path | None:
    """Returns the control group that is delegated, if any. From here on the host, still without a
    child, is in one within, since a group has either processes or groups with limits."""
    group = groups / pathlib.Path("/proc/self/cgroup").read_text().rpartition("0::/")[2].strip()
    with contextlib.suppress(OSError):
        if {"memory", "pids"} <= {*(group / "cgroup.controllers").read_text().split()}:
            (group / "host").mkdir(exist_ok=True)
            (group / "host/cgroup.procs").write_text(str(os.getpid()))
            (group / "cgroup.subtree_control").write_text("+memory +pids")
            return group
    return None


def write_denied(file: BinaryIO) -> None:
    """Writes which system calls are denied (EPERM): by the kernel's keys, sockets of some families
    and io_uring, which makes its own, a sandbox would reach others without a network."""
    # only Debian's Python has it, and all may ask for help
    import seccomp
    rules, deny = seccomp.SyscallFilter(seccomp.ALLOW), seccomp.ERRNO(errno.EPERM)
    for call in ("add_key", "request_key", "keyctl", "io_uring_setup"):
        rules.add_rule(deny, call)
    rules.add_rule(deny, "socket", seccomp.Arg(0, seccomp.GT, max(FAMILIES)))
    for family in {*range(max(FAMILIES))} - FAMILIES:
        rules.add_rule(deny, "socket", seccomp.Arg(0, seccomp.EQ, family))
    rules.export_bpf(file)
    file.seek(0)


class Sandbox:
    """A service's real process with all its children, and the host's end of its socket."""
    def __init__(self, service: Table, running: TextIO) -> None:
        """Starts it, with its limits first, in 10 to 100 ms. Raises OSError where bwrap fails."""
        self.socket, theirs = socket.socketpair(socket.AF_UNIX, socket.SOCK_SEQPACKET)
        self.socket.setblocking(False)
        (told, tells), (lets, waits) = socket.socketpair(), socket.socketpair()
        told.settimeout(SECONDS)
        rules = open(os.memfd_create("filter"), "r+b")
        write_denied(rules)
        given = [theirs.fileno(), tells.fileno(), waits.fileno(), rules.fileno()]
        words = [CALLED.format(running.name), *SYSTEM.format(*given, TEMPORARY_BYTES).split()]
        for path in (LIBRARY, *map(pathlib.Path, service.sees)):
            words += ["--ro-bind", str(path.resolve()), f"/srv/{path.resolve().name}"]
        words += ["--remount-ro", "/", "--", *WAITS, *service.command]
        with theirs, tells, waits, rules:
            self.outer = subprocess.Popen(words, executable="bwrap", pass_fds=given, stdin=given[2],
                                          stdout=subprocess.DEVNULL, stderr=subprocess.DEVNULL)
        with told, lets:
            try:
                pid = int(json.load(told.makefile())["child-pid"])
                self.handle = os.pidfd_open(pid)
                self.limit(pid, service)
                print(pid, begun_at(pid), file=running, flush=True)
                lets.sendall(b".\n")
            except (OSError, ValueError) as why:
                self.outer.kill()
                self.outer.wait()
                raise OSError(f"bwrap: {why}") from None

    def limit(self, pid: int, service: Table) -> None:
        """Limits all its processes by a control group, or else each of them. Raises OSError."""
        limits = {"NOFILE": FILES, "FSIZE": TEMPORARY_BYTES, "CORE": 0}
        self.group = (delegated() or GROUPS) / f"service-{pid}"
        if delegated():
            self.group.mkdir(exist_ok=True)
            for name, content in (("memory.max", service.memory), ("memory.oom.group", 1),
                                  ("pids.max", service.processes), ("cgroup.procs", pid)):
                (self.group / name).write_text(str(content))
        else:
            limits |= {"AS": service.memory, "NPROC": service.processes}
        for kind, most in limits.items():
            resource.prlimit(pid, getattr(resource, f"RLIMIT_{kind}"), (most, most))

    def end(self) -> None:
        """Ends it with all its children. Raises RuntimeError where it does not end."""
        self.socket.close()
        end_process(self.handle)
        self.outer.kill()
        self.outer.wait()
        # one that is left is taken over by one of its name
        with contextlib.suppress(OSError):
            self.group.rmdir()
