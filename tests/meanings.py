"""What a name means in a source of a tree of this repository, and which definitions one cites."""

import collections
import re

from declared import Definition, Scope, Source, definitions_of, indent_of
from source import files_below, read


class Tree:
    """All that a tree's crates declare, and what a name means in a file."""

    def __init__(self, root):
        self.root, self.specs, self.sources, self.found = root, {}, {}, {}
        self.types = collections.defaultdict(list)
        self.order = re.findall(r"(?m)^(\w+)[^:\n#]*:", read(f"{root}/crates.txt"))
        for crate in self.order:
            for path in files_below(f"{root}/crates/{crate}/specs", ".antt"):
                self.take_specs(crate, path)
            for path in files_below(f"{root}/crates/{crate}/src", ".rt"):
                self.take_source(crate, path)

    def take_specs(self, crate, path):
        text = read(path)
        scope = Scope(crate, None, text)
        for it in definitions_of(text, path[len(self.root) + 8 :], scope):
            scope.own.update({name: it for name in [*it.cases, it.name]})
        self.specs[crate, path.split("/specs/")[1][: -len(".antt")]] = scope

    def take_source(self, crate, path):
        module = path.split("/src/")[1][: -len(".rt")]
        module = "" if module in ("lib", "main") else module
        source = Source(read(path), path[len(self.root) + 8 :], crate, module)
        self.sources[crate, module] = source
        for it in source.types:
            self.types[crate, it.name].append((module, it))

    def contracts(self, name):
        """Those of the program's functions of this name."""
        return [it for (crate, _), source in self.sources.items() if crate == "reenc_tool"
                for it in source.calls if it.name == name]

    def definitions(self, name):
        """Those of the program's definitions of this name."""
        return [scope.own[name] for (crate, _), scope in self.specs.items()
                if crate == "reenc_tool" and name in scope.own]

    def type_of(self, crate, module, name):
        """The type or trait of this name, by where it is declared or passed on."""
        found = self.types.get((crate, name), [])
        here = [it for at, it in found if at == module or len(found) == 1]
        if here:
            return here[0]
        source = self.sources.get((crate, module)) or self.sources.get((crate, ""))
        path = source and source.scope.uses.get(name)
        if path and source.module == "" and path[0] != "crate":
            inside = "/".join(path[:-1])
            if (crate, inside) in self.sources:
                return self.type_of(crate, inside, path[-1])
            return self.by_path(crate, path)
        return found[0][1] if found else None

    def by_path(self, crate, path):
        """The type of a Rust path that this crate writes."""
        if path[0] in ("crate", "self", "super"):
            return self.type_of(crate, "/".join(it for it in path[1:-1] if it != "super"), path[-1])
        if len(path) > 1 and path[0] in self.order:
            return self.type_of(path[0], "/".join(path[1:-1]), path[-1])
        return None

    def by_module(self, path, name, depth=5):
        """What a module of specs/, or one that tells of src/, has under a name."""
        crate, _, inside = path.partition(".specs")
        parts = inside.split(".")[1:]
        if crate not in self.order or not depth:
            return None
        if parts[:1] == ["declared"]:
            return self.by_declared(crate, parts[1:], name)
        if parts[:1] == ["contracts"]:
            return self.impl_of(crate, parts)
        scope = self.specs.get((crate, "/".join(parts) or "Lib"))
        if scope and name not in scope.own and name in scope.imports:
            return self.by_module(*scope.imports[name], depth - 1)
        return scope and scope.own.get(name)

    def by_declared(self, crate, parts, name):
        """The type that a module tells of, or whose cases it has; or the constant."""
        if parts[-1] in ("TheVariants", "TheInside"):
            parts = parts[:-1]
        if parts[-1] == "TheConstants":
            parts = [*parts[:-1], name]
        return self.type_of(crate, "/".join(parts[:-1]), parts[-1])

    def impl_of(self, crate, parts):
        """The ghost members of an `impl` whose contracts are cited."""
        if parts[-1] != "TheImpl":
            return None
        for (inside, _), source in self.sources.items():
            for (owner, trait), members in source.impls.items():
                if inside == crate and owner + trait == parts[-2]:
                    return members
        return None

    def meaning(self, scope, token):
        """What a name means in a file: a definition, the members of an `impl`, or nothing of ours."""
        head, *rest = token.split(".")
        if head in scope.own:
            return scope.own[head]
        if head in scope.imports:
            return self.by_module(*scope.imports[head])
        if head in scope.aliases:
            return self.by_module(scope.aliases[head], rest[0] if rest else "")
        return None if scope.module is None else self.by_rust(scope, head)

    def by_rust(self, scope, name):
        """The type or trait that a path in a file of src/ means."""
        path = name.split("::")
        source = self.sources[scope.crate, scope.module]
        for it in source.types:
            if path == [it.name]:
                return it
        if path[0] in source.scope.uses:
            return self.by_path(scope.crate, [*source.scope.uses[path[0]], *path[1:]])
        return self.by_path(scope.crate, path) if len(path) > 1 else None

    def is_case(self, scope, name):
        """Whether a name is that of a case, or stands in front of one."""
        found = self.meaning(scope, name)
        return name in scope.aliases or isinstance(found, Definition) and name in found.cases

    def cited(self, it):
        """The definitions that one cites, in the order in which it names them; of a private field what it
        names too, where it is asked for."""
        if it not in self.found:
            self.found[it] = list(dict.fromkeys(self.all_cited(it)))
        return self.found[it]

    def all_cited(self, it):
        bound = {it.name}
        if it.kind == "definition":
            bound |= bound_in(it.code) | patterns_in(it.code, lambda name: self.is_case(it.scope, name))
        found = list(self.named(it, it.code, bound))
        source = self.sources.get((it.scope.crate, it.scope.module))
        if it.kind == "type" and it.name in source.models:
            found.append(source.models[it.name])
        owners = [type for type in source.types if type.name == it.name] if it.kind == "model" else []
        asked = set(re.findall(r"\.(\w+)", it.code))
        for type in [*owners, *(other for other in found if other is not it)]:
            for field in asked & type.fields.keys():
                found += self.named(type, type.fields[field], {type.name})
        return found

    def named(self, it, code, bound):
        """What a part of a definition names."""
        for token in tokens_of(code):
            found = None if token.split(".")[0] in bound else self.meaning(it.scope, token)
            if isinstance(found, dict):
                yield from (member for name, member in found.items() if name in it.scope.dotted)
            elif found:
                yield found


def tokens_of(code):
    """The names of a text with what is asked of them behind a dot."""
    return re.findall(r"(?<![^\s()\[\]{},;<>&'*⟦⟧])[^\W\d][^\s()\[\]{},;\"<>&'*⟦⟧]*", code)


def bound_in(code):
    """The names that a definition binds itself: its arguments, fields, variables."""
    groups = re.findall(r"[({]\s*((?:[^\s(){}:,;=.]+\s+)+):\s", code)
    groups += re.findall(r"λ\s*([^().→]*)\.", code)
    groups += re.findall(r"(?m)^\s+(?:pub )?([\w' -]+?) : ", code)
    groups += re.findall(r"\blet\s+([\w'-]+)", code)
    groups += re.findall(r"(?m)^\s+([\w'-]+) ←", code)
    return {name for group in groups for name in group.split() if name[0].islower() or name[0] == "_"}


def patterns_in(code, is_case):
    """The variables of the patterns of a definition by cases."""
    names = set()
    lines = [line for line in code.split("\n") if line.strip()]
    level = min(map(indent_of, lines), default=0)
    for line in lines:
        found = re.match(r"[a-zA-Z_][^=:]*?\s=(?=\s|$)", line[level:])
        if found:
            names.update(re.findall(r"(?<![\w.])[a-z_][\w'-]*", found[0])[1:])
    return {name for name in names if not is_case(name)}
