"""The scripts of the crate `rows`, and what each line of theirs comes to that shows something. A
command of which this implementation says nothing is passed over, and so are those behind it up
to the next disk, where it left another one."""

import os
import re

from .luks.ciphers import sum_of
from .luks.vectors import value
from .machine import running
from .machine.script import Next, World
from .words import Faulty, NotJudged, asked

ROOT = os.path.normpath(os.path.join(os.path.abspath(__file__), "../../.."))
CRATE = os.path.join(ROOT, "crates/rows")
STDOUT = os.path.join(CRATE, "stdout")


def read(path):
    with open(path, encoding="utf-8") as file:
        return file.read()


def names():
    """The scripts, in the order in which the program shows them."""
    return re.findall(r'^ *"(\w+)\.rows",$', read(os.path.join(CRATE, "src/main.rt")), re.M)


def parts(text):
    """Of each script what is printed, as lines."""
    found, part = {}, []
    for line in text.split("\n")[:-1]:
        name = re.fullmatch(r"(\w+)\.rows", line)
        if name:
            part = found.setdefault(name[1], [])
        part.append(line)
    return found


def shown_in(part):
    """The lines of a script that show something, each with what came of it."""
    found = []
    for line in part[1:]:
        if line.startswith("  "):
            found[-1][1].append(line[2:])
        else:
            found.append((line, []))
    return found


def passed_over(world, word, there):
    """What is known of the disks behind a command that isn't judged."""
    for what, shelf in zip(("disk", "header"), world.disks.values()):
        sums = [line.rsplit(" ", 1)[1] for line in there if re.match(rf"{what}: \d+ calls, ", line)]
        if shelf.bytes is not None and (word == "loose" or sums not in ([], [sum_of(shelf.bytes)])):
            shelf.bytes = None


def told_of(words, there):
    """What a person is told of words: where they are no command's, what is there."""
    try:
        asked(words)
        return ["taken"]
    except Faulty as found:
        if not there:
            raise NotJudged from found
        return ["faulty"] if there == ["taken"] else there


def come_to(world, line, there):
    """What a line comes to."""
    word, _, words = line.partition(" ")
    if word in ("run", "loose"):
        return running.run(world, words, word == "loose", there)
    if word == "words":
        return told_of(words.split(" ") if words else [], there)
    if word == "value":
        what, *words = words.split(" ")
        return [running.spelt(value(what, words, world.spelt))]
    if word == "metadata":
        return world.walk.lines(*world.columns(words))
    return list(getattr(running, word)(world, words))


class Script:
    """What a script comes to, beside what is printed of it; how many of its lines are judged,
    and how many are passed over."""

    def __init__(self, name, part):
        self.lines, self.judged, self.passed = [f"{name}.rows"], 0, 0
        self.there, self.world = shown_in(part), World(os.path.join(CRATE, "data"))
        for line in self.world.read(f"{name}.rows"):
            self.line(line)

    def line(self, line):
        word, _, words = line.partition(" ")
        is_there = self.there and self.there[0][0] == line
        there = self.there.pop(0)[1] if is_there else []
        try:
            found = come_to(self.world, line, there)
            self.judged += 1
        except NotJudged:
            passed_over(self.world, word, there)
            found = there
            self.passed += 1
        self.lines += [line, *(f"  {one}" for one in found)]
        if word in ("run", "loose") and words.startswith(("format", "init")):
            self.world.first = (self.world.first + 32) % 256
        if word not in ("words", "value", "metadata"):
            self.world.next = Next()


class Contents(Script):
    """What the volume of a script's disk holds before each command of this pattern."""

    def __init__(self, name, command):
        self.command, self.found = command, []
        super().__init__(name, parts(read(STDOUT))[name])

    def line(self, line):
        if re.match(self.command, line):
            self.found.append(running.Scene(self.world, line).content)
        super().line(line)
