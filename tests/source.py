"""How the scripts beside this one read the sources of a tree of this repository: the items of a .rt file,
what an `impl` or a trait is for, and what a file imports."""

import os
import re

# Comments and quoted text of a source file; what stands in quotes may have braces.
QUIET = re.compile(r"//[^\n]*|/\*.*?\*/|\"(?:\\.|[^\"\\])*\"|b?'(?:\\.|[^'\\])'", re.DOTALL)
BRACES = str.maketrans({"{": "⦃", "}": "⦄", ";": "；"})
CLAUSE = re.compile(r"\b(?:requires|ensures|decreases)\*?\s*\w*\s*$")


def read(path):
    with open(path) as it:
        return it.read()


def files_below(folder, ending):
    for at, folders, names in os.walk(folder):
        folders.sort()
        yield from (f"{at}/{name}" for name in sorted(names) if name.endswith(ending))


def normal(text):
    """The text without the names of modules and crates, each run of blanks as one."""
    text = re.sub(r"#!?\[[^\]]*\]", " ", text)
    text = re.sub(r"\b(?:[a-z_]\w*::)+", "", text)
    text = re.sub(r"\bRattle(?:\.\w+)*\.", "", text)
    text = re.sub(r"\bpub\s*\([^)]*\)|\bpub\b", " ", text)
    text = re.sub(r"\s+", " ", text)
    return re.sub(r"\s*,?\s*([()\[\]{}<>,;:])\s*", lambda it: it[1], text).strip()


def blank(text):
    """As many blanks, in as many lines."""
    return re.sub(r"[^\n]", " ", text)


def quiet(text):
    """A source text with blanks for its comments, whose quoted parts have no braces. Each place of it is
    where it was."""
    return QUIET.sub(lambda it: blank(it[0]) if it[0].startswith("/") else it[0].translate(BRACES), text)


def group_end(text, at):
    """Where the group in braces ends that begins there."""
    depth = 0
    for place in range(at, len(text)):
        depth += (text[place] == "{") - (text[place] == "}")
        if not depth:
            return place + 1
    raise ValueError("a brace isn't closed: " + text[at : at + 60])


def spans_of(text):
    """The items of a quiet source text, each as where it begins, where its body in braces begins, or None,
    and where it ends."""
    at = begin = 0
    while at < len(text):
        if text[at] == ";":
            yield begin, None, at
            begin = at + 1
        elif text[at] in "([":
            close = {"(": ")", "[": "]"}[text[at]]
            depth, opened = 0, text[at]
            while True:
                depth += (text[at] == opened) - (text[at] == close)
                if not depth:
                    break
                at += 1
        elif text[at] == "{":
            end = group_end(text, at)
            head = text[begin:at]
            if CLAUSE.search(head) or re.search(r"\bghost\b[^{}]*[=:]\s*$", head) or re.search(r"\buse\b[^{}]*$", head):
                at = end
                continue
            yield begin, at, end
            at, begin = end, end
            continue
        at += 1


def items_of(text):
    """The items of a source text, each as what stands before its body, and the body in braces or none."""
    for begin, body, end in spans_of(text):
        yield text[begin : body or end], body and text[body:end]


def owner_of(head):
    """The type or trait that an `impl` or `trait` is for, as it is written."""
    found = re.match(r"\s*(?:pub\s*(?:\([^)]*\))?\s*)?(?:unsafe\s+)?(impl|trait)\b(.*)", head, re.DOTALL)
    return found and (found[1], normal(re.split(r"\bwhere\b", found[2])[0]))


def imports_in(text):
    """The modules from which a file takes names, by the names under which it has them."""
    found = {}
    for path, names in re.findall(r"(?m)^\s*(?:pub\s+|ghost\s+)?use\s+Rattle\.(\w+(?:\.\w+)*)\.\{([^}]*)\}", text):
        for name in names.split(","):
            own, _, other = name.strip().partition(" as ")
            found[other.strip() or own] = path, own
    return found
