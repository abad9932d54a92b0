"""The program flume-node at the other end of a socket, and the books that it keeps: a line has
nothing in it but what the node answered, bytes in hexadecimal, and sets that are written anew."""
import contextlib
import re
import socket
from dataclasses import dataclass
from subprocess import Popen, TimeoutExpired
from typing import Iterable, NamedTuple

from .records import Journal, digest

ORDERS, SECONDS = ("tag", "group", "put", "open-group", "make-login"), 120
GREETING = r"flume-node 1 node {} boot (\d+) published (\d+)"
OPERATION = re.compile(r"[1-9]\d*\.[1-9]\d*")
MESSAGE = re.compile(r"message p[0-9.]+ \{(.*)\} (none|(?:[0-9a-f]{2})+)")


class NodeEnded(Exception):
    """The program has ended, answers no more, or is to end: first all real processes are ended."""


class Refused(Exception):
    """The node refused a line, and its answer, as 'refused F3 -1.1'."""


class Labels(NamedTuple):
    secrecy: frozenset[str] = frozenset()
    integrity: frozenset[str] = frozenset()


@dataclass
class Process:
    """A process of the books: its pid, its labels, and the one endpoint that it keeps open."""
    pid: str
    labels: Labels = Labels()
    endpoint: str = "e1"


def set_text(members: Iterable[str]) -> str:
    return "{" + ",".join(sorted(members)) + "}"


class Books:
    """A node that is served, line by line. All functions raise Refused and NodeEnded."""
    def __init__(self, words: list[str], number: int, journal: Journal) -> None:
        """Starts the program, which is then to greet."""
        # what is to be told to other machines at once: a start, and each order
        self.number, self.journal, self.is_news = number, journal, True
        self.socket, end = socket.socketpair()
        self.socket.settimeout(SECONDS)
        self.lines = self.socket.makefile("r", encoding="ascii", newline="\n")
        with end:
            self.program = Popen(words, stdin=end.fileno(), stdout=end.fileno(), process_group=0)

    def greet(self) -> None:
        """Notes what the program says first. Raises NodeEnded where it does not greet."""
        if not (found := re.fullmatch(GREETING.format(self.number), self.line())):
            raise NodeEnded
        self.boot = int(found[1])
        self.journal.note("greeting", boot=self.boot, published=int(found[2]))

    def answer(self, line: str) -> list[str]:
        """Returns the lines of the answer to a line, of which nothing is noted."""
        if not line.isprintable():
            raise ValueError("a line has a line feed inside")
        first = self.line(f"{self.number} {line}\n")
        many = int(first[6:]) if first.startswith("lines ") else 0
        return [first, *(self.line() for _ in range(many))]

    def ask(self, line: str, secret: str = "") -> list[str]:
        """Returns the lines of the answer to a line, a secret behind it. An order costs a sync."""
        answer = self.answer(f"{line} {secret}".rstrip(" "))
        told = f"{line} sha256:{digest(secret)}" if secret else line
        # the registry is its own record: a journal that had it at each start would be full of it
        self.journal.note("line", line=told, answer=answer[:1] if line == "text" else answer)
        if answer[0].startswith("refused F15"):
            raise NodeEnded
        self.is_news |= line.partition(" ")[0] in ORDERS
        return answer

    def do(self, line: str, secret: str = "") -> str:
        """Returns the last word of the one line of an answer. Raises Refused where it refuses."""
        answer = self.ask(line, secret)[0]
        if answer.startswith("refused "):
            raise Refused(answer)
        return answer.rpartition(" ")[2]

    def line(self, said: str = "") -> str:
        """Writes a line, if any, and returns the next one that the program writes in time."""
        with contextlib.suppress(OSError):
            self.socket.sendall(said.encode("ascii"))
            if (found := self.lines.readline()).endswith("\n"):
                return found[:-1]
        raise NodeEnded

    def end(self) -> int:
        """Ends its input, and returns its status, once its log is merged, or it is killed."""
        self.socket.shutdown(socket.SHUT_WR)
        with contextlib.suppress(TimeoutExpired):
            self.program.wait(SECONDS)
        self.program.kill()
        return int(self.program.wait())

    def proc(self, mode: str, line: str = "proc", labels: Labels = Labels()) -> Process:
        """Returns the process that a line makes, with an endpoint of its labels and this mode."""
        return Process(pid := self.do(line), labels, self.open(pid, mode, labels))

    def open(self, pid: str, mode: str, labels: Labels) -> str:
        return self.do(f"open {pid} {mode} {' '.join(map(set_text, labels))}")

    def owned_tag(self, pid: str, policy: str, secret: str) -> str:
        """Returns a new tag, with a login for the rights of its maker before there is any data."""
        tag = self.do(f"tag {pid} {policy}")
        right = f"+{tag}" if policy == "integrity" else f"-{tag}"
        if policy == "read":
            right = "*" + self.do(f"group {pid}")
            self.do(f"put {pid} {right[1:]} +{tag}")
            self.do(f"put {pid} {right[1:]} -{tag}")
        self.do(f"make-login {pid} {right}", secret)
        return tag

    def logins(self) -> dict[str, tuple[str, str]]:
        """Returns each login of the registry by its digest: its name, and the tag of its right."""
        text = "\n".join(self.ask("text"))
        tags = dict(re.findall(r"(?m)^\S+ put (\S+) .(\S+)$", text))
        return {secret: (name, tags.get(right, right)) for name, right, secret in
                re.findall(r"(?m)^(\S+) login .(\S+) (\S+)$", text)}

    def relabel(self, process: Process, labels: Labels, mode: str = "rw") -> None:
        """Changes a label of a process, with that of its endpoint, or neither."""
        if labels == process.labels:
            return
        self.do(f"close {process.pid} {process.endpoint}")
        try:
            for kind, members in zip("SI", labels):
                self.do(f"label {process.pid} {kind} {set_text(members)}")
            process.labels = labels
        finally:
            process.endpoint = self.open(process.pid, mode, process.labels)

    def send(self, process: Process, under: Labels, to: Process, rights: Iterable[str],
             content: bytes) -> tuple[str, str]:
        """Returns to which pid a packet goes, and the packet: a message under any labels."""
        end, words = process.endpoint, f"{set_text(rights)} {content.hex() or 'none'}"
        if under != process.labels:
            end = self.open(process.pid, "w", under)
        try:
            return to.pid, self.do(f"send {process.pid} {end} {to.pid} {to.endpoint} {words}")
        finally:
            if end != process.endpoint:
                self.do(f"close {process.pid} {end}")

    def take(self, pid: str) -> tuple[list[str], bytes] | None:
        """Returns the rights and bytes of the oldest message that waits for a process, or none."""
        if not (it := MESSAGE.fullmatch(self.ask(f"take {pid}")[0])):
            return None
        return [*filter(None, it[1].split(","))], bytes.fromhex(it[2].removeprefix("none"))
