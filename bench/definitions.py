#!/usr/bin/env python3
"""Counts what is read to check a promise: all definitions in specs/ that some of them rest on, with their comments.

Usage: bench/definitions.py [NAME of CRATE,..].. ; without words it prints the table of docs/promises.md. A row has the number of
definitions, of their lines without imports and blank lines, and of minutes that they take read aloud: 150 words a minute, each sign and
each part of a name a word, brackets and points silent. Types that the code declares are named in them and not counted."""
import glob
import os
import re
import sys

TOP = os.path.dirname(os.path.dirname(os.path.realpath(__file__)))
TABLE = [
    ("which value an object's bytes encode", "object_of of rio_format"),
    ("the same, with which values fit and what is written for them", "object_of of rio_format, fits of rio_format, written_form of rio_format"),
    ("what a tree's record says", "stored_tree of rio_report"),
    ("what a command does, and why one is refused", "step of rio_step"),
    ("what a file decodes to, by walk and by key list", "ReadsAsState of rio_state, ReadsClosed of rio_state"),
    ("the reading verbs", "EndsListing of rootio"),
    ("the headline", "KeepsHeadline of rootio"),
]
WORD = r"[^\W\d][\w'-]*(?<!-)"
HEAD = re.compile(rf"(?:(?:abbrev|unfoldable|pub|record|data|infixl? \d+) )*(\S*◌\S*|{WORD}) (?=[:({{∷]|.* : )")


class Definition:
    def __init__(self, module, name, kind):
        self.module, self.name, self.kind, self.lines = module, name, kind, []


class Module:
    """A file of specs/: its definitions, the cases of those of data, and what its imports name, each as a module and a name there."""

    def __init__(self, path):
        self.own, self.cases, self.imported = {}, {}, {}
        with open(path, encoding="utf-8") as lines:
            self.read(lines.read().split("\n"))

    def read(self, lines):
        comment, found, indent, k = [], None, "", 0
        while k < len(lines):
            line = lines[k]
            k += 1
            if re.match(r"(pub )?use ", line):
                while line.count("{") > line.count("}"):
                    line += " " + lines[k].strip()
                    k += 1
                self.note_imports(line.partition("use ")[2])
                continue
            if line.startswith("module _"):
                indent, comment, found = "  ", [], None
                continue
            if indent and line and not line.startswith(" ") and not line.startswith("--"):
                indent = ""
            inner = line[len(indent):] if line.startswith(indent) else line
            if not inner.strip():
                comment, found = [], found if inner.startswith(" ") else found
            elif inner.startswith("--"):
                comment = [] if inner.startswith("-- ----") else [*comment, inner]
            elif inner.startswith(" "):
                if found:
                    found.lines += [*comment, inner]
                    case = re.match(rf"  ({WORD}) : ", inner)
                    if case and " data " in f" {found.kind}":
                        self.cases[case[1]] = found
                comment = []
            else:
                head = HEAD.match(inner)
                name = head[1] if head else inner.split()[0]
                if head and name not in self.own and not inner.startswith("infix"):
                    found = self.own[name] = Definition(self, name, head[0])
                if found:
                    found.lines += [*comment, inner]
                comment = []

    def note_imports(self, text):
        for path, local in paths_of(re.sub(r"\s+", " ", text.strip())):
            self.imported[local] = path


def paths_of(text, before=()):
    """Gives of an import each path, as a tuple of names, with its local name."""
    head, brace, rest = text.partition("{")
    parts = tuple(it for it in head.strip().split(".") if it)
    if not brace:
        *path, last = parts
        last, _, local = last.partition(" as ")
        yield (*before, *path, last.strip()), (local or last).strip()
        return
    depth, item = 0, ""
    for sign in rest.rstrip()[: rest.rstrip().rindex("}")] + ",":
        depth += (sign == "{") - (sign == "}")
        if sign == "," and depth == 0:
            yield from paths_of(item.strip(), (*before, *parts))
            item = ""
        else:
            item += sign


def modules():
    found = {}
    for path in glob.glob(f"{TOP}/crates/*/specs/**/*.antt", recursive=True):
        crate, _, inner = path[len(f"{TOP}/crates/"):].partition("/specs/")
        found["Rattle", crate, "specs", *inner[: -len(".antt")].split("/")] = Module(path)
    return found


def resolved(known, module, name):
    """The definition that a name means in a module, or none: it is of std, or a type of the code."""
    if name in module.own or name in module.cases:
        return module.own.get(name) or module.cases[name]
    path = module.imported.get(name)
    other = known.get(path[:-1]) if path else None
    return resolved(known, other, path[-1]) if other and other is not module else None


def cited(known, definition):
    """The definitions that a definition names."""
    code = [it.partition("--")[0] for it in definition.lines]
    text = "\n".join(code)
    words, found = set(re.findall(rf"(?<![\w.'-]){WORD}", text)), []
    left_sides = [it.partition("=")[0] for it in code if re.match(rf"{re.escape(definition.name)} [^:]*=", it)]
    bound = {*re.findall(WORD, " ".join(left_sides)), *re.findall(rf"(?:λ \(?|[({{])({WORD})(?= :|\.|\))", text), *re.findall(rf"({WORD}) ←", text)}
    for name in [*definition.module.own, *definition.module.cases, *definition.module.imported]:
        signs = [it for it in name.split("◌") if it]
        is_sign = all(it in text for it in signs) or name == "◌>>=◌" and "do\n" in text
        is_named = is_sign if "◌" in name else name in words and name not in bound
        it = resolved(known, definition.module, name) if is_named and name != definition.name else None
        if it:
            found.append(it)
    return found


def rests_on(known, starts):
    found, left = set(starts), [*starts]
    while left:
        for it in cited(known, left.pop()):
            if it not in found:
                found.add(it)
                left.append(it)
    return found


def minutes(lines):
    return len(re.findall(r"[^\W_]+|[^\w\s(){}\[\].,;]+", "\n".join(re.sub(r"^\s*--", "", it) for it in lines))) / 150


def row(known, starts):
    definitions = []
    for start in starts.split(", "):
        name, _, crate = start.partition(" of ")
        definitions += [it.own[name] for path, it in known.items() if path[1] == crate and name in it.own]
    if not definitions:
        sys.exit(f"there is no {starts}")
    found = rests_on(known, definitions)
    lines = [line for it in found for line in it.lines]
    return f"{len(found):,} | {len(lines):,} | {minutes(lines):.0f}"


def main(words):
    known = modules()
    if words:
        for it in words:
            print(f"{it}: {row(known, it)}")
        return
    for what, starts in TABLE:
        by_crate = dict.fromkeys(it.partition(" of ")[2] for it in starts.split(", "))
        names = {crate: ", ".join(f"`{it.partition(' of ')[0]}`" for it in starts.split(", ") if it.endswith(f" of {crate}")) for crate in by_crate}
        print(f"| {what} | {'; '.join(f'{them} (`{crate}`)' for crate, them in names.items())} | {row(known, starts)} |")


main(sys.argv[1:])
