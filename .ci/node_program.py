"""Starts the programs flume-node and flume-tags, and speaks with them.

Both are found by their variables, $FLUME_NODE and $FLUME_TAGS, from the folder that the caller is
in, and else beside README.md. One whose name ends with .py is run by the Python that runs this.
"""
import collections
import os
import pathlib
import re
import select
import subprocess
import sys
import tempfile

CALLED_FROM = pathlib.Path.cwd()
TOP = pathlib.Path(__file__).resolve().parent.parent
SECONDS = 60


class Wrong(Exception):
    """What was found that should not be so."""


class Ended(Exception):
    """The program has ended, or answers nothing more."""


def command(variable, name):
    """The words that start a program."""
    given = os.environ.get(variable)
    path = CALLED_FROM / given if given else TOP / name
    return [sys.executable, str(path)] if path.suffix == ".py" else [str(path)]


NODE, TAGS = command("FLUME_NODE", "flume-node"), command("FLUME_TAGS", "flume-tags")


def told(text):
    """A text for a line of output: its front, and what of it is left out."""
    text = str(text)
    return text if len(text) <= 300 else f"{text[:300]}.. ({len(text)} characters)"


class Program:
    """A program that is driven line by line. Its standard error goes to a file."""

    def __init__(self, words, **options):
        self.errors = tempfile.TemporaryFile()
        pipe = subprocess.PIPE
        self.process = subprocess.Popen(words, stdin=pipe, stdout=pipe, stderr=self.errors,
                                        bufsize=0, **options)
        self.input, self.output = self.process.stdin.fileno(), self.process.stdout.fileno()
        os.set_blocking(self.input, False)
        self.lines, self.rest, self.is_closed = collections.deque(), b"", False

    def hear(self):
        """Takes what the program has written."""
        heard = b"" if self.is_closed else os.read(self.output, 1 << 16)
        if not heard:
            raise Ended
        *lines, self.rest = (self.rest + heard).split(b"\n")
        self.lines.extend(lines)

    def write(self, text):
        """Writes to the program, and hears it meanwhile, so that neither waits for the other."""
        left = memoryview(text if isinstance(text, bytes) else text.encode())
        while left:
            heard, free, _ = select.select([self.output], [self.input], [], SECONDS)
            if not heard and not free:
                raise Wrong(f"it took no line in {SECONDS} s")
            if heard:
                self.hear()
            if free:
                try:
                    left = left[os.write(self.input, left):]
                except BrokenPipeError:
                    raise Ended from None

    def line(self):
        """The next line that it writes."""
        while not self.lines:
            if not self.is_closed and not select.select([self.output], [], [], SECONDS)[0]:
                raise Wrong(f"it wrote no line in {SECONDS} s")
            self.hear()
        return self.lines.popleft().decode(errors="replace")

    def frame(self):
        """The lines of the next answer."""
        first = self.line()
        more = re.fullmatch(r"lines (0|[1-9][0-9]*)", first)
        return [first, *(self.line() for _ in range(int(more[1]) if more else 0))]

    def ask(self, line):
        """The lines of the answer to a line that has one."""
        self.write(f"{line}\n")
        return self.frame()

    def hear_all(self):
        """Takes all that it writes to its end."""
        try:
            while True:
                self.hear()
        except Ended:
            pass

    def kill(self):
        """Ends it at once, with no chance to do anything more. What it wrote can still be read."""
        self.process.kill()
        self.hear_all()
        return self.wait()

    def end(self):
        """Ends its input, and waits for its end. Its status, where it wrote nothing more."""
        self.process.stdin.close()
        self.hear_all()
        if self.lines or self.rest:
            raise Wrong(f"it wrote '{told([*self.lines] or self.rest)}' unasked")
        return self.wait()

    def wait(self):
        """Its status, once it has ended."""
        try:
            status = self.process.wait(SECONDS)
        except subprocess.TimeoutExpired:
            self.process.kill()
            raise Wrong(f"it did not end in {SECONDS} s") from None
        for pipe in (self.process.stdin, self.process.stdout):
            pipe.close()
        self.is_closed = True
        return status

    def said(self):
        """What it wrote to standard error."""
        self.errors.seek(0)
        return self.errors.read().decode(errors="replace")
