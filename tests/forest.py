#!/usr/bin/env python3
"""Makes a closed file of trees, objects and classes that are described by lines, be they right or wrong.

Usage: forest.py FILE <DESCRIPTION

    large                               the large form, with all records but the first past 3,000,000,000 (sparse)
    class NAME VERSION : BASES { .. }   a class of the class list, as `dump` prints it; a base may be NAME#VERSION
    only                                the class list has these alone, without the classes of trees
    padded                              each record's length is a multiple of four, as it is in files that can be written to
    tree NAME ENTRIES [WORD..]          a tree of the branches that follow; cycle=N, version=N of TTree
    branch NAME ENTRIES WORD.. | ..     a branch, with its baskets, each after a bar
    null                                a null pointer in place of a branch
    object NAME CYCLE [CLASS [DATA]]    an object

WORD of a branch: a leaf, which is NAME, [COUNTER] or [LENGTH] or both, and /LETTER (a small one is unsigned) or /CLASS, with #VERSION
where that isn't 101; objects=CLASS; class=CLASS and version=N of the branch itself; `parent` and `embedded`, where fBranches and
fBaskets have an object; more=N, how many more baskets fWriteBasket says. COUNTER is the name of an earlier leaf, or #N for leaf N of
the tree, from 0 on.

A basket is the bytes of each of its entries in hexadecimal: parts with points between, of which BYTE*N is N bytes, or `-` for none.
What the offsets, the basket's key and the header of the tree say follows from that, where it isn't given: first=N, the first entry;
entries=N, size=N and used=N, its entries, their size and the bytes of all; fewer=N, how many bytes fewer its record has by the header;
shrunk=N, how many bytes longer it was before it was compressed, which a tree may have too. Words are quoted as in the shell."""
import functools
import itertools
import os
import re
import shlex
import sys

sys.dont_write_bytecode = True
sys.path.insert(0, f"{os.path.dirname(os.path.realpath(__file__))}/../bench")
import tree_file as made

FAR = 3000000000
# Of each kind: its code, size and name.
KINDS = dict(i8=(1, 1, "char"), i16=(2, 2, "short"), i32=(3, 4, "int"), i64=(16, 8, "Long64_t"), u8=(11, 1, "unsigned char"),
             u16=(12, 2, "unsigned short"), u32=(13, 4, "unsigned int"), u64=(17, 8, "unsigned long"), f32=(5, 4, "float"),
             f64=(8, 8, "double"), bool=(18, 1, "bool"))


def member(name, kind, counted, owner):
    """The element of a member, of a class of this name and version; `counted` has the members that count others."""
    kind, _, dimension = kind.rstrip("]").partition("[")
    if kind == "text":
        return made.element("TStreamerString", 2, name, 65, 24, "TString")
    if kind.endswith("*"):
        return made.element("TStreamerObjectPointer", 2, name, 64, 8, kind)
    if kind not in KINDS:
        return made.element("TStreamerObject", 2, name, 61, 0, kind)
    code, size, type_name = KINDS[kind]
    if dimension.isdigit():
        return made.fixed(name, code, size, type_name, int(dimension))
    if dimension:
        return made.counted(name, code, size, type_name, dimension, *owner)
    return made.basic(name, 6 if name in counted else code, size, type_name)


def class_of(line, classes):
    """The class of a declaration, whose bases are among these. Its checksum is over the declaration's text."""
    name, version, bases, members = re.fullmatch(r"class (\S+) (\d+)(?: : (.*?))? \{ ?(.*?) ?\}", line).groups()
    latest = {"TNamed": 1, **{it[0]: it[1] for it in classes}}
    pairs = [it.partition("#") for it in bases.split(", ")] if bases else []
    elements = [made.base(it, int(number or latest[it])) for it, _, number in pairs]
    counted = re.findall(r"\[([a-z]\w*)\]", members, re.I)
    fields = [it.split(": ") for it in members.split(", ")] if members else []
    checksum = functools.reduce(lambda sum, byte: (sum * 3 + byte) % 2**32, line.encode(), 0)
    return name, int(version), elements + [member(*it, counted, (name, int(version))) for it in fields], checksum


def leaf(word):
    title, _, kind = word.rpartition("/")
    kind, _, version = kind.partition("#")
    name, *dimensions = title.replace("]", "").split("[")
    numbers = [int(it) for it in dimensions if it.isdigit()]
    counters = [it for it in dimensions if not it.isdigit()]
    it = made.Leaf(name, kind if len(kind) == 1 else "", *counters)
    it.length, it.version, it.kind = (numbers or [1])[0], int(version or it.version), it.kind if len(kind) == 1 else kind
    return it


def settings(words):
    """The numbers of words like first=1."""
    return {name: int(number) for name, number in (it.split("=") for it in words)}


def entry(word):
    parts = [it.partition("*") for it in word.strip("-").split(".")]
    return b"".join(bytes.fromhex(digits) * int(count or 1) for digits, _, count in parts)


def baskets_of(words):
    """The baskets of a branch as pairs of entries and what is said of them otherwise."""
    baskets = []
    for it in words:
        if it == "|":
            baskets.append(([], []))
        else:
            baskets[-1]["=" in it].append(it)
    return [([entry(it) for it in entries], settings(said)) for entries, said in baskets]


def one_object(header):
    header.buffer.pointer("TObject", header.buffer.object)


def null(header):
    header.word(0)


class Null:
    """A null pointer, where a branch should be."""


def branch_of(name, entries, *words):
    """A branch, and its baskets."""
    bar = words.index("|") if "|" in words else len(words)
    own, baskets = words[:bar], baskets_of(words[bar:])
    said = dict(it.split("=") for it in own if "=" in it)
    branch = made.Branch(name, class_name=said.get("objects"))
    branch.leaves = [leaf(it) for it in own if "/" in it]
    branch.kind, branch.version = said.get("class", branch.kind), int(said.get("version", branch.version))
    branch.entries, branch.more_baskets = int(entries), int(said.get("more", 0))
    branch.inside = [one_object] if "parent" in own else []
    branch.held = [one_object] if "embedded" in own else [null] if baskets else []
    return branch, baskets


class Header(made.Header):
    def branch(self, branch):
        return self.word(0) if branch is Null else super().branch(branch)


class Forest(made.File):
    def __init__(self, path, lines):
        super().__init__(path, "a.root", "large" in lines)
        self.padded = "padded" in lines
        self.place = FAR if self.large else self.place
        self.classes = made.tree_classes()
        self.first = len(self.classes) if "only" in lines else 0
        for it in lines:
            if it.startswith("class "):
                self.classes.append(class_of(it, self.classes))

    def object(self, name, cycle, kind="TObjString", data=""):
        self.key(kind, name, "", entry(data), int(cycle), listed=True)

    def baskets(self, tree, branch, baskets):
        first = 0
        for entries, said in baskets:
            self.basket(tree, branch, entries, said.get("first", first), said)
            first += len(entries)

    def tree(self, branches, name, entries, *words):
        said, pairs = settings(words), [Null if it == "null" else branch_of(*shlex.split(it)[1:]) for it in branches]
        for branch, baskets in (it for it in pairs if it is not Null):
            self.baskets(name, branch, baskets)
        branches = [it if it is Null else it[0] for it in pairs]

        def header(start):
            return Header(start, self.classes).tree(name, int(entries), branches, said.get("version", 120))
        self.key("TTree", name, "", header, said.get("cycle", 1), listed=True, shrunk=said.get("shrunk", 0))


def main(path):
    lines = [it.strip() for it in sys.stdin]
    lines = [it for it in lines if it and not it.startswith("#")]
    forest = Forest(path, lines)
    for k, it in enumerate(lines, 1):
        what, *words = shlex.split(it) if it.startswith(("tree ", "object ")) else [""]
        if what == "tree":
            forest.tree(itertools.takewhile(lambda it: it == "null" or it.startswith("branch "), lines[k:]), *words)
        elif what == "object":
            forest.object(*words)
    forest.close(forest.classes[forest.first :])


if __name__ == "__main__":
    main(sys.argv[1]) if len(sys.argv) == 2 else sys.exit(__doc__)
