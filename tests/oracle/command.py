"""The command `run`."""

import importlib.util
import os
import time

from . import scripts
from .machine.bay import Bay
from .machine.commands import ended_by

STORED = os.path.join(scripts.ROOT, "crates/reencd")


def first_difference(found, wanted):
    """The first line that is another one, with the one that is shown before it."""
    shown = ""
    for one, other in zip([*found, ""], [*wanted, ""]):
        if one != other:
            return f"behind {shown[:200]}\n  is      {one[:400]}\n  and not {other[:400]}"
        shown = one if not one.startswith("  ") else shown
    return "more or fewer lines"


def judged(name, part):
    """The lines of a script as they are to be, and what is told of it."""
    begun = time.monotonic()
    script = scripts.Script(name, part)
    told = f"{script.judged} lines judged, {script.passed} passed over"
    return script.lines, f"{told}, in {time.monotonic() - begun:.1f} s"


def is_stored():
    """Whether what is stored as the output of the program's own run is what its words print."""
    words = scripts.read(os.path.join(STORED, "args")).split("\n")[:-1]
    _, _, text = ended_by(Bay({}, {}, b""), " ".join(words))
    is_same = scripts.read(os.path.join(STORED, "stdout")) == text
    print(f"{' '.join(words)}: {'as' if is_same else 'not as'} the oracle has it")
    return is_same


def main(words):
    if importlib.util.find_spec("cryptography") is None:
        print("the rows aren't judged: there is no module cryptography")
        return 77
    writes, all_names = "--write" in words, scripts.names()
    named = [word for word in words if word != "--write"]
    wanted = named or all_names
    if not set(wanted) <= set(all_names):
        print("run [--write] [NAME..], of", *all_names)
        return 2
    parts, is_right = scripts.parts(scripts.read(scripts.STDOUT)), bool(named) or is_stored()
    for name in wanted:
        lines, told = judged(name, parts.get(name, []))
        is_same = lines == parts.get(name)
        print(f"{name}: {'as' if is_same else 'not as'} the oracle has it, {told}", flush=True)
        if not is_same and not writes:
            print(first_difference(parts.get(name, []), lines))
            is_right = False
        parts[name] = lines
    if writes:
        text = "".join(f"{line}\n" for name in all_names for line in parts.get(name, []))
        with open(scripts.STDOUT, "w", encoding="utf-8") as file:
            file.write(text)
    return 0 if is_right else 1
