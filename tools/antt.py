"""The definitions of the crates and what they lean on, for tools/lint and tools/trusted.py.

A definition of specs/ or proofs/ is a name with its signature and equations; of a type also its fields or constructors; the parameters of
the section (`module _ ..`) that it stands in count as its own. Of src/ a type or constant is a definition, and so is a function's signature
with its contract, a method's too. Names are followed through `use` lines to the file that defines them; what the kit defines ends the way
there. In a contract a name that `ghost use` brings means that definition, also where a function or a type of the file has the same name.
"""
import re
from pathlib import Path

TOP = Path(__file__).resolve().parent.parent
USE = re.compile(r"\s*(?:(?:unfoldable|pub|ghost) )*use (?=\S)")
USED = re.compile(r"([^\s{;]+?)(?:(?:\.|::)\{(.*)\}| as (\S+?))?;?")
HEAD = re.compile(r"(?:abbrev |unfoldable )?(?:pub )?(record |data |ruleset )?([^\s:]+)(?: [^:=]*)? (:|=)(?: |$)")
ALONE = re.compile(r"(?:abbrev |unfoldable )?pub ([^\s:(){}]+)$")  # its signature stands on the next line
ITEM = re.compile(r"(?:pub )?(?:extern \"C\" )?(enum|struct|const|type|fn) (\w+)")
CLAUSE = re.compile(r"\s*(requires|ensures)\b")
LABEL = re.compile(r"^\s*(requires|ensures) \w+ (?=\{)")  # a clause's own name, which names nothing
MODULE = re.compile(r"Rattle\.(\w+)\.(specs|proofs)\.(\S+)")


def tokens(text):
    """The names of a text, and the parts of a path `a.b`."""
    found = set(re.findall(r"[^\s(){}\[\],;@]+", text))
    return found | {p for t in found for p in t.split(".") if p}


def listed(group):
    """The names of a `use` line's group; of a group within it the paths."""
    if inner := re.search(r"([\w:]+::)\{([^{}]*)\}", group):
        paths = ", ".join(inner[1] + n.strip() for n in inner[2].split(",") if n.strip())
        return listed(group[: inner.start()] + paths + group[inner.end() :])
    return [n.strip() for n in group.split(",") if n.strip()]


class Definition:
    """A name of a file: its first line (from 1 on), its lines without comments, and the names in them; of src/ those in clauses apart."""

    def __init__(self, file, name, line):
        self.file, self.name, self.line, self.lines, self.names, self.cited = file, name, line, [], set(), set()

    def add(self, text, clause=False):
        self.lines.append(text)
        if clause:
            self.cited |= tokens(LABEL.sub("", text))
        else:
            self.names |= tokens(text)


class File:
    """A file's imports and definitions. `place` is its path below crates/; `parts` leads from a field or constructor to its type."""

    def __init__(self, path):
        self.place, self.imports, self.ghosts, self.definitions = str(path.relative_to(TOP / "crates")), {}, set(), {}
        self.parts, self.marks, self.names, self.modules = {}, [], set(), {}
        self.crate, self.is_code = self.place.split("/")[0], path.suffix == ".rt"
        comment = r"//.*" if self.is_code else r"(^|\s)--(\s.*)?$"
        self.lines = [re.sub(comment, "", line).rstrip() for line in path.read_text().split("\n")]
        rest = []
        lines = iter(enumerate(self.lines, 1))
        for i, s in lines:
            if use := USE.match(s):
                while s.count("{") > s.count("}"):
                    s += next(lines)[1].strip()
                if not (used := USED.fullmatch(s[use.end() :])):
                    raise SystemExit(f"crates/{self.place}:{i}: a `use` that tools/antt.py does not read")
                self.take(*used.groups(), "ghost use" in s)
            elif s and not re.match(r"\s*(pub )?mod ", s):
                rest.append((i, len(s) - len(s.lstrip()), s))
                self.names |= tokens(s)
        (self.code if self.is_code else self.logic)(rest)

    def take(self, module, names, other, ghost):
        """What a `use` line brings. Of code a path stands for the name; a name that a `ghost use` brings too is the definition's."""
        code = self.is_code and not ghost
        if names is None and not code:
            self.modules[other or module.split(".")[-1]] = module
        for n in listed(names or ""):
            source, *renamed = map(str.strip, n.split(" as "))
            name, means = (renamed or [source])[0], (f"{module}::{source}", "") if code else (module, source)
            self.imports.setdefault(name.split("::")[-1], means) if code else self.imports.update({name: means})
            self.ghosts |= {name} if ghost else set()
        if code and names is None and "::" in module:
            self.imports.setdefault(other or module.split("::")[-1], (module, ""))

    def code(self, lines):
        """The types, constants and contracts of a file of src/."""
        now, clause = None, False
        for i, indent, s in lines:
            item = ITEM.match(s) if indent == 0 else re.match(r"    pub (fn) (\w+)", s)
            if item:
                self.names.add(item[2])
                now, clause, base = self.definitions.setdefault(item[2], Definition(self, item[2], i)), False, indent
                end = {"fn": "{", "enum": "}", "struct": ("}", ";")}.get(item[1], ";")
            if now:
                clause = end == "{" and (clause or CLAUSE.match(s) is not None)
                now.add(s, clause and s.strip() != "{")
                if not clause:
                    now.names |= set(re.findall(r"\w+(?:::\w+)*", s))
                if s.endswith(end) and (indent == base or end in ("{", ";")):
                    now = None

    def logic(self, lines):
        """The definitions of a file of specs/ or proofs/."""
        sections, now, kind = [], None, None
        for i, indent, s in lines:
            text = s.strip()
            if text.startswith("infix"):
                self.marks.append(text)
                continue
            sections = [x for x in sections if x[0] < indent]
            if sections and not sections[-1][1].endswith("where"):
                sections[-1][1] += " " + text
                continue
            if text.startswith("module _"):
                sections.append([indent, text])
                now = None
                continue
            base = 2 + sections[-1][0] if sections else 0
            head = HEAD.match(text) if indent == base and not text.startswith("unfolding ") else None
            alone = ALONE.match(text) if indent == base and not head else None
            if alone or head and (head[1] or head[3] == ":"):
                kind, name = (None, alone[1]) if alone else (head[1], head[2])
                now = self.definitions.setdefault(name, Definition(self, name, i))
                for _, parameters in sections:
                    now.add(parameters)
            elif now and kind and indent == base + 2 and (part := re.match(r"\s+(?:pub )?([^:]+?) : ", s)):
                self.parts.update((p, now) for p in part[1].split())
            if now:
                now.add(s)


class Crates(dict):
    """All files by place."""

    def __init__(self):
        for pattern in ("src/**/*.rt", "specs/**/*.antt", "proofs/**/*.antt"):
            self.update((f.place, f) for f in map(File, sorted((TOP / "crates").glob("*/" + pattern))))
        self.declared = {(f.crate, n): d for f in self.values() if f.is_code for n, d in f.definitions.items()}

    def there(self, module):
        """The file of specs/ or proofs/ that a module's path names, or None."""
        m = MODULE.fullmatch(module)
        return m and self.get(f"{m[1]}/{m[2]}/{m[3].replace('.', '/')}.antt")

    def meant(self, file, name, ghost=False, depth=8):
        """The definition that a name means in a file, in a clause of a contract if `ghost`; or None."""
        if found := not (ghost and name in file.ghosts) and (file.definitions.get(name) or file.parts.get(name)):
            return found
        if "::" in name:  # a path of code, or of a definition in an attribute
            first, *path, last = name.split("::")
            crate = file.crate if first in ("crate", "super", "self") else first
            if path and path[0] in ("specs", "proofs"):
                there = self.get(f"{crate}/{'/'.join(path)}.antt")
                return there and self.meant(there, last, depth=depth - 1)
            return self.declared.get((crate, last)) or self.declared.get((file.crate, last))
        if name in file.imports:
            module, source = file.imports[name]
        else:  # `tie.returns`, under `use .. as tie`
            module, _, source = name.rpartition(".")
            module = file.modules.get(module, module)
        if "::" in module:
            return self.meant(file, module)
        if not source or not depth:
            return None
        if (m := MODULE.fullmatch(module)) and m[3].startswith("declared."):
            return self.declared.get((m[1], m[3].removesuffix(".TheVariants").split(".")[-1]))
        there = self.there(module)
        return there and self.meant(there, source, depth=depth - 1)

    def way(self, file, name):
        """The modules that an imported name comes through, each with the name there, up to the one that defines it."""
        while file and name in file.imports and name not in file.definitions:
            module, name = file.imports[name]
            yield f"{module}.{name}"
            file = self.there(module)

    def closure(self, roots):
        """These definitions and all that they lean on. An operator `◌+◌` is meant by its marks."""
        mixed = {f: [(set(n.split("◌")) - {""}, n) for n in {*f.definitions, *f.parts, *f.imports} if "◌" in n] for f in self.values()}
        seen, work = set(), list(roots)
        while work:
            d = work.pop()
            if d and d not in seen:
                seen.add(d)
                for names, ghost in ((d.names, False), (d.cited, True)):
                    names = names | {n for marks, n in mixed[d.file] if marks and marks <= names}
                    work.extend(self.meant(d.file, n, ghost) for n in names)
        return seen
