"""What the sources of a tree of this repository declare: definitions of specs/, and types, traits and the
contracts of functions of src/."""

import re

from source import imports_in, owner_of, quiet, spans_of

HEAD = re.compile(r"((?:(?:abbrev|pub|unfoldable|opaque|data|record|private|instance)\s+)*)(\S+)")
MODULE = re.compile(r"(?:(?:abbrev|pub|unfoldable)\s+)*(?:module|mutual)\b")
IMPORT = re.compile(r"(?:pub\s+|ghost\s+)?(?:use|mod)\b")
ALIAS = re.compile(r"(?m)^\s*(?:pub\s+|ghost\s+)?use\s+Rattle\.(\w+(?:\.\w+)*)(?:\s+as\s+(\w+))?\s*;?\s*$")
COMMENT = re.compile(r"\s*(?:--|///?!?)(?=\s|$)")


class Definition:
    """A definition, a type, a trait or a contract: its text with comments, the text that cites, and where
    its names are looked up."""

    def __init__(self, name, kind, place, line, text, code, scope):
        self.name, self.kind, self.place, self.line = name, kind, place, line
        self.text, self.code, self.scope = text, code, scope
        self.cases, self.fields = [], {}

    @property
    def crate(self):
        return self.place.split("/")[0]

    def lines(self):
        return sum(1 for line in self.text.split("\n") if line.strip())

    def words(self):
        return sum(len(COMMENT.sub("", line).split()) for line in self.text.split("\n"))


class Scope:
    """What the names of a file, or of a part of it, mean."""

    def __init__(self, crate, module, text):
        self.crate, self.module = crate, module
        self.imports = imports_in(text)
        self.aliases = {alias or path.split(".")[-1]: path for path, alias in ALIAS.findall(text)}
        self.uses = dict(uses_in(text)) if module is not None else {}
        self.dotted = set(re.findall(r"\.(\w+)", text))
        self.own = {}


# ---- definitions of specs/


def indent_of(line):
    return len(line) - len(line.lstrip())


def without_comments(text):
    return re.sub(r"(?m)(?:^|(?<=\s))--(?=\s|$).*$", "", text)


class Block:
    """The lines of a definition of specs/ with the comment in front of it, and the headers of the modules
    that it stands in."""

    def __init__(self, number, lines, headers, modifiers, name):
        self.number, self.lines, self.headers = number, lines, headers
        self.modifiers, self.name = modifiers, name


class Module:
    """A part of a file of specs/ whose definitions stand farther right, by its first line."""

    def __init__(self, indent, header):
        self.indent, self.header, self.level = indent, header, None

    def has_at_level(self, line):
        if self.level is None:
            self.level = indent_of(line)
        return indent_of(line) == self.level


def blocks_of(text):
    """The definitions of a file of specs/. A line that stands as far left as they do begins one, or goes on
    with one whose name it begins with."""
    blocks, modules, comment, header = [], [Module(-1, [])], [], None
    for number, line in enumerate(text.split("\n"), 1):
        bare = line.strip()
        if not bare:
            continue
        if header is None:
            while indent_of(line) <= modules[-1].indent:
                modules.pop()
        at_level = header is not None or modules[-1].has_at_level(line)
        if not at_level or bare[0] in "})":
            blocks[-1].lines.append(line)
        elif bare.startswith("--"):
            comment.append(line)
        elif IMPORT.match(bare):
            comment = []
        elif header is not None or MODULE.match(bare):
            header = [*(header or []), line]
            if re.search(r"\b(?:where|mutual)$", bare):
                modules.append(Module(indent_of(header[0]), header))
                comment, header = [*comment, *header], None
        else:
            take_line(blocks, number, [*comment, line], [it for module in modules for it in module.header])
            comment = []
    return blocks


def take_line(blocks, number, lines, headers):
    """Begins a definition, or goes on with one."""
    modifiers, name = HEAD.match(lines[-1].strip()).groups()
    for block in reversed(blocks):
        if not modifiers and name in (block.name, "unfolding"):
            block.lines.extend(lines)
            return
    blocks.append(Block(number, lines, headers, modifiers, name))


def definitions_of(text, place, scope):
    """The definitions of a file of specs/."""
    for block in blocks_of(text):
        code = without_comments("\n".join([*block.headers, *block.lines]))
        it = Definition(block.name, "definition", place, block.number, "\n".join(block.lines), code, scope)
        if "data " in block.modifiers:
            cases = re.findall(r"(?m)^\s+(?:pub )?([\w' -]+?) : ", code)
            it.cases = [name for names in cases for name in names.split()]
        yield it


# ---- types, traits and contracts of src/


def uses_in(text):
    """What Rust's `use` lines bring: each name with the path that it stands for."""
    for tree in re.findall(r"(?m)^\s*(?:pub(?:\([^)]*\))?\s+)?use\s+((?!Rattle\.)[^;]+);", quiet(text)):
        yield from leaves_of(re.sub(r"\s+", " ", tree).strip(), [])


def leaves_of(tree, path):
    """The names of one tree of a `use`."""
    found = re.match(r"((?:\w+\s*::\s*)*)\{(.*)\}$", tree)
    if found:
        path = [*path, *re.findall(r"\w+", found[1])]
        depth, part = 0, ""
        for letter in found[2] + ",":
            depth += (letter == "{") - (letter == "}")
            if letter == "," and not depth:
                if part.strip():
                    yield from leaves_of(part.strip(), path)
                part = ""
            else:
                part += letter
        return
    tree, _, other = tree.partition(" as ")
    path = [*path, *re.findall(r"\w+", tree)]
    if path and path[-1] == "self":
        path = path[:-1]
    if path:
        yield other.strip() or path[-1], path


def told(raw):
    """The text of an item of a source file, without its attributes and comments that are no doc."""
    raw = re.sub(r"(?ms)^[ \t]*#!?\[.*?\][ \t]*\n", "", raw)
    return re.sub(r"(?m)^[ \t]*//(?!/).*\n", "", raw).strip("\n")


def members_of(raw, body, end):
    """The members of an `impl` or a trait, each as what stands before its body, with its doc."""
    text = quiet(raw)
    for begin, inner, stop in spans_of(text[body + 1 : end - 1]):
        head = slice(body + 1 + begin, body + 1 + (inner or stop))
        yield raw[head], text[head]


def is_ghost(head):
    return re.search(r"\bghost\s+(?!use\b)(\w+)", re.sub(r"\{.*", "", head, flags=re.DOTALL))


def parts_of(code):
    """A struct without its private fields, and these by their names. Facts of its values are private too."""
    found = re.match(r"(?s)(.*?\bstruct\s+\w+[^{(;]*)([{(])(.*)[})]", code)
    if not found:
        return code, {}
    kept, fields, depth, part = [found[1]], {}, 0, ""
    for letter in found[3] + ",":
        depth += (letter in "([{<") - (letter in ")]}>")
        if letter != "," or depth:
            part += letter
            continue
        name = re.match(r"\s*(?:#\[[^\]]*\]\s*)*(pub\s(?!\())?\s*(?:pub\([^)]*\))?\s*(?:ghost\s+)?(\w+)?", part)
        if name[1]:
            kept.append(part)
        elif part.strip():
            fields[name[2] if found[2] == "{" else str(len(fields))] = part
        part = ""
    return ",".join(kept), fields


class Source:
    """What one file of src/ declares."""

    def __init__(self, raw, place, crate, module):
        self.raw, self.place, self.crate, self.module = raw, place, crate, module
        self.text = quiet(raw)
        self.types, self.calls, self.models, self.impls = [], [], {}, {}
        top = re.sub(r"(?m)^\s+ghost use[^;]*;", "", raw)
        self.scope = Scope(crate, module, top)
        for begin, body, end in spans_of(self.text):
            self.take(begin, body, end)

    def scope_of(self, inner):
        """That of an `impl` or a trait, which has imports of its own."""
        scope = Scope(self.crate, self.module, inner)
        scope.imports = {**self.scope.imports, **scope.imports}
        scope.uses = self.scope.uses
        return scope

    def made(self, name, kind, begin, raw, scope):
        raw = told(raw)
        blanks = len(self.text[begin:]) - len(self.text[begin:].lstrip())
        line = self.raw.count("\n", 0, begin + blanks) + 1
        return Definition(name, kind, self.place, line, raw, quiet(raw), scope)

    def take(self, begin, body, end):
        head = re.sub(r"#!?\[[^\]]*\]", " ", self.text[begin : body or end])
        owner = owner_of(head)
        if owner and body:
            self.take_owner(owner, begin, body, end)
            return
        found = re.search(r"\b(fn|struct|enum|const|type|union)\s+(\w+)", head)
        if found and found[1] == "fn":
            self.calls.append(self.made(found[2], "contract", begin, self.raw[begin:body], self.scope))
        elif found:
            it = self.made(found[2], "type", begin, self.raw[begin:end], self.scope)
            it.code, it.fields = parts_of(it.code)
            self.types.append(it)

    def take_owner(self, owner, begin, body, end):
        kind, name = owner
        scope = self.scope_of(self.raw[body:end])
        members = list(members_of(self.raw, body, end))
        ghosts = {is_ghost(text)[1]: raw for raw, text in members if is_ghost(text)}
        if kind == "trait":
            name = re.match(r"\w+", name)[0]
            kept = [raw for raw, text in members if is_ghost(text) or re.match(r"\s*(?:type|const)\b", text)]
            it = self.made(name, "trait", begin, self.raw[begin:body] + "".join(kept), scope)
            clauses = [raw for raw, text in members if re.search(r"\bfn\b", text)]
            it.calls = self.made(f"{name}'s calls", "clauses", begin, "".join(clauses), scope)
            self.types.append(it)
            return
        bare = re.sub(r"^<(?:[^<>]|<[^<>]*>)*>", "", name).strip()
        found = re.match(r"(\w+)(?:<.*>)? for (\w+)", bare)
        if found and found[1] == "Model":
            told_by = [ghosts[it] for it in ("Value", "view", "invariant") if it in ghosts]
            self.models[found[2]] = self.made(found[2], "model", begin, "".join(told_by), scope)
        elif found:
            self.impls[found[2], found[1]] = {
                member: self.made(member, "member", begin, raw, scope) for member, raw in ghosts.items()}
