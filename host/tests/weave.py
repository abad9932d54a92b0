"""The journals of machines, woven in time, are one script of flume-tags: each of its answers is the
one that stands in a journal. Secrets, of which a journal has the digests, are taken from vaults."""
import hashlib
import heapq
import importlib.machinery
import importlib.util
import operator
import re
import sys

from rig import TOP, Wrong, tags_program


def machines_of_nodes():
    """Returns the script that plays what machines answered once more, as one script."""
    sys.path[:0] = map(str, (TOP / ".ci", TOP / "reference"))
    loader = importlib.machinery.SourceFileLoader("machines_of_nodes", str(TOP / ".ci/machines"))
    found = importlib.util.module_from_spec(importlib.util.spec_from_loader(loader.name, loader))
    # where a dataclass looks for its module
    sys.modules[loader.name] = found
    loader.exec_module(found)
    return found


nodes = machines_of_nodes()


class Woven(nodes.Replay):
    """A history that is played by the program of the tests. Of a text a journal has the front."""

    def __init__(self, entries):
        super().__init__(entries, None)
        self.words = tags_program()

    def played(self, number, line, answer):
        got = super().played(number, line, answer)
        return got[:len(answer)] if line == "text" else got


def history(room):
    """Yields what a journal has of the node, each with its time: its starts, and lines with their
    answers, in which secrets stand again."""
    known = {hashlib.sha256(bytes.fromhex(it)).hexdigest(): it for it in room.secrets().values()}
    keys = range(len(nodes.KEYS))
    for entry in room.journal():
        if entry["kind"] == "greeting":
            # no start without a greeting, no line without an answer, and orders are guarded
            start = room.number, entry["boot"], entry["published"], 0, [], keys, True
            yield entry["at"], ("start", *start)
        elif entry["kind"] == "line":
            line = re.sub(r"sha256:(\w+)", lambda it: known[it[1]], entry["line"])
            yield entry["at"], ("line", room.number, line, entry["answer"])


def replay(rooms, keys=()):
    """Plays the journals of machines that have ended, of which no start was killed, and then has
    the text of each of them. Returns how many lines there were. Raises Wrong at the first answer
    that is another one."""
    nodes.KEYS[:] = keys
    entries = [it for _, it in heapq.merge(*map(history, rooms), key=operator.itemgetter(0))]
    for room in rooms:
        text = room.registry()
        entries.append(("line", room.number, "text", [f"lines {len(text)}", *text]))
    try:
        Woven(entries).play()
    except nodes.Wrong as why:
        raise Wrong(f"the journals are not one script: {why}") from None
    return len(entries)
