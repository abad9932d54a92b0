#!/usr/bin/env python3
"""Reads the words of a program that is not built, so that nothing is proved to show its help.

    .ci/read_words.py flume-tags WORD..
    .ci/read_words.py flume-node WORD..

Where the words ask for help or the version, or are refused, it says what the program says, and ends
with its status. Else it says nothing, and the status is 3; so it is of words that it cannot judge.
It reads options and texts from the crate of the program's words, and .ci/program and
.ci/hostile_machines compare it with the programs.
"""
import dataclasses
import pathlib
import re
import sys

TOP = pathlib.Path(__file__).resolve().parent.parent
CRATES = {"flume-tags": "fl_words", "flume-node": "fl_node_words"}
NOT_JUDGED, REFUSED = 3, 2
OPTION = re.compile(r'arg!\(in alloc; --"?([a-z-]+)"?(?: <([A-Z]+)>)?( \.\.\.)? "([^"]*)"\)')
HELP = "\n\nFor more information, try '--help'.\n"


@dataclasses.dataclass(frozen=True)
class Option:
    """An option, or a flag, which has no value."""
    long: str
    value: str
    may_repeat: bool
    help: str
    is_required: bool = False
    is_number: bool = False

    def __str__(self):
        return f"--{self.long} <{self.value}>" if self.value else f"--{self.long}"


class Shown(Exception):
    """Help or the version is asked for."""


class Refused(Exception):
    """Why the words are refused, and the options that stand behind 'Usage:', where that is told."""

    def __init__(self, why, usage=None):
        super().__init__(why)
        self.usage = usage


class Program:
    """A program as the crate of its words declares it."""

    def __init__(self, name):
        self.name = name
        source = (TOP / "crates" / CRATES[name] / "src/words.rt").read_text("utf-8")
        found = [*OPTION.finditer(source)]
        ends = [*(it.start() for it in found[1:]), source.index("fn command")]
        self.options = [self.option(it, source[it.end():end]) for it, end in zip(found, ends)]
        self.requests = [Option("help", "", False, "Print help"),
                         Option("version", "", False, "Print version")]
        self.about = re.search(r'\.about\("([^"]*)"\)', source)[1]
        self.version = f'{name} {re.search(r"[.]version[(].([^)]*).[)]", source)[1]}\n'
        self.after_help = re.search(r'AFTER_HELP: &str =\s*"([^"]*)";', source)[1]

    @staticmethod
    def option(it, behind):
        """An option, by what stands behind its declaration."""
        return Option(it[1], it[2] or "", bool(it[3]), it[4], ".required(true)" in behind,
                      "ValueParser::Unsigned" in behind)

    def usage(self, used=()):
        words = used or ["[OPTIONS]", *(it for it in self.options if it.is_required)]
        return " ".join(["Usage:", self.name, *dict.fromkeys(map(str, words))])

    def help(self):
        wide = max(len(str(it)) for it in self.options) + 8
        rows = [f"      {it}".ljust(wide) + it.help for it in self.options]
        shorts = zip("hV", self.requests)
        rows += [f"  -{short}, {it}".ljust(wide) + it.help for short, it in shorts]
        text = [self.about, self.usage(), "\n".join(["Options:", *rows]), self.after_help]
        return "\n\n".join(text) + "\n"


def jaro(one, other):
    """The Jaro similarity of two texts, from 0 to 1."""
    most = max(0, max(len(one), len(other)) // 2 - 1)
    letters, is_matched = [], [False] * len(other)
    for at, letter in enumerate(one):
        for place in range(max(0, at - most), min(len(other), at + most + 1)):
            if other[place] == letter and not is_matched[place]:
                is_matched[place] = True
                letters.append(letter)
                break
    if not letters:
        return 0.0
    others = [letter for letter, is_one in zip(other, is_matched) if is_one]
    count, moves = len(letters), sum(map(str.__ne__, letters, others)) // 2
    return (count / len(one) + count / len(other) + (count - moves) / count) / 3.0


class Reading:
    """The words up to some place: the options that they use, and one whose value comes next."""

    def __init__(self, program):
        self.program, self.uses, self.pending = program, [], None

    def read(self, words):
        """Raises Shown or Refused, but where the words are right."""
        waits = is_behind = False
        for word in words:
            if is_behind or word == "-" or not word.startswith("-"):
                if is_behind or not waits:
                    self.let_settle()
                    raise Refused(f"unexpected argument '{word}' found", [])
                self.pending[1].append(word)
                waits = False
            elif word == "--":
                is_behind = True
            else:
                waits = self.read_long(word[2:]) if word[1] == "-" else self.read_short(word[1])
        self.settle()
        missing = [it for it in self.program.options if it.is_required and it not in self.uses]
        if missing:
            names = "".join(f"\n  {it}" for it in missing)
            raise Refused(f"the following required arguments were not provided:{names}", [])

    def read_long(self, text):
        """Reads a word that begins with two hyphens. Whether the next word is its value."""
        name, has_value, value = text.partition("=")
        known = [*self.program.options, *self.program.requests]
        option = next((it for it in known if it.long == name), None)
        if option is None:
            raise self.unknown(name, known)
        if option.value and not has_value:
            self.settle()
            self.pending = option, []
            return True
        if not option.value and has_value:
            used = [*self.uses, option]
            self.let_settle()
            why = f"unexpected value '{value}' for '{option}' found; no more were expected"
            raise Refused(why, used)
        self.settle()
        self.use(option, [value])
        return False

    def read_short(self, letter):
        """Reads a word that begins with one hyphen, as far as its first letter."""
        if letter in "hV":
            self.settle()
            self.use(self.program.requests["hV".index(letter)], [])
        self.let_settle()
        raise Refused(f"unexpected argument '-{letter}' found", [])

    def unknown(self, name, known):
        """The refusal of a long option that there is not, perhaps with one that is like it."""
        self.let_settle()
        likely = [(jaro(name, it.long), at) for at, it in enumerate(known)]
        best, at = max(likely)
        why = f"unexpected argument '--{name}' found"
        if best > 0.7:
            self.uses += [] if known[at] in self.uses else [known[at]]
            why += f"\n\n  tip: a similar argument exists: '--{known[at].long}'"
        return Refused(why, self.uses)

    def settle(self):
        """Uses the option that is pending, with its value."""
        pending, self.pending = self.pending, None
        if pending:
            self.use(*pending)

    def let_settle(self):
        """The same, where the words are refused for something else."""
        try:
            self.settle()
        except Refused:
            pass

    def use(self, option, values):
        if option in self.program.requests:
            text = self.program.version if option.long == "version" else self.program.help()
            raise Shown(text)
        if option.value and not values:
            raise Refused(f"a value is required for '{option}' but none was supplied")
        if option in self.uses and not option.may_repeat:
            self.uses.remove(option)
            raise Refused(f"the argument '{option}' cannot be used multiple times", [])
        self.uses += [] if option in self.uses else [option]
        if option.is_number:
            check_number(option, values[0])
        elif option.value and not values[0]:
            raise Refused(f"a value is required for '{option}' but none was supplied")


def check_number(option, value):
    """Raises Refused where a text spells no number of those that the option's help names."""
    why, digits = None, value.removeprefix("+")
    least, most = map(int, re.search(r"([0-9]+) to ([0-9]+)", option.help).groups())
    if not value:
        why = "cannot parse integer from empty string"
    elif not re.fullmatch("[0-9]+", digits):
        why = "invalid digit found in string"
    elif not least <= int(digits) <= most:
        why = f"{int(digits)} is not in {least}..={most}"
    if why:
        raise Refused(f"invalid value '{value}' for '{option}': {why}")


def refusal(program, why):
    """What a program says of refused words: flume-node in one line, by their first paragraph."""
    text = f"error: {why}"
    if program.name == "flume-node":
        return f"flume-node: {' '.join(text.partition(chr(10) * 2)[0].split())}\n"
    return text + ("" if why.usage is None else f"\n\n{program.usage(why.usage)}") + HELP


def answer(name, words):
    """The status for these words, and what is said on both outputs."""
    program = Program(name)
    # long numbers and other letters are left to the program
    if not all(re.fullmatch("[ -~]*", it) and not re.search("[0-9]{19}", it) for it in words):
        return NOT_JUDGED, "", ""
    try:
        Reading(program).read(words)
    except Shown as text:
        return 0 if name == "flume-node" else REFUSED, str(text), ""
    except Refused as why:
        return REFUSED, "", refusal(program, why)
    return NOT_JUDGED, "", ""


def main(name, *words):
    status, output, errors = answer(name, words)
    sys.stdout.write(output)
    sys.stderr.write(errors)
    return status


if __name__ == "__main__":
    sys.exit(main(*sys.argv[1:]))
