#!/usr/bin/env python3
"""Makes a file of one object, with a class list that no script gives.

Usage: foreign.py FILE <DESCRIPTION  The file has a tree `T` with one branch of objects and one entry.

    class NAME VERSION [@CHECKSUM] [: BASE#VERSION, ..] { [MEMBER: KIND, ..] }
    object NAME#VERSION HEX, or object NAME@CHECKSUM HEX

Classes may be described twice, and members have the same name or none. KIND is one that a script has, `counter`, an i32 that counts, or
other(CODE). HEX is what stands after the header of the object; an entry's bytes begin with that header."""
import os
import re
import sys

sys.dont_write_bytecode = True
sys.path.append(os.path.dirname(os.path.dirname(os.path.realpath(__file__))) + "/bench")
from tree_file import Branch, File, base, basic, counted, element, fixed, tree_classes, tree_header, u16, u32  # noqa: E402

# Of each kind of numbers: its code and size.
KINDS = dict(i8=(1, 1), i16=(2, 2), i32=(3, 4), i64=(16, 8), u8=(11, 1), u16=(12, 2), u32=(13, 4), u64=(17, 8), bool=(18, 1), f32=(5, 4),
             f64=(8, 8), counter=(6, 4))


def member(text, owner):
    """The element of a member, of a class of this name and version."""
    name, kind = text.split(": ")
    kind, _, dimension = kind.rstrip("])").partition("(" if kind.startswith("other") else "[")
    if kind == "text":
        return element("TStreamerString", 2, name, 65, 0, "TString")
    if kind == "other":
        return basic(name, int(dimension), 0, "")
    if kind.endswith("*"):
        return element("TStreamerObjectPointer", 2, name, 64, 0, kind)
    if kind not in KINDS:
        return element("TStreamerObject", 2, name, 61, 0, kind)
    if dimension.isdigit():
        return fixed(name, *KINDS[kind], kind, int(dimension))
    return counted(name, *KINDS[kind], kind, dimension, *owner) if dimension else basic(name, *KINDS[kind], kind)


def class_of(line):
    name, version, checksum, bases, members = re.fullmatch(r"class (\S+) (\d+)(?: @(\d+))?(?: : (.*?))? \{ ?(.*?) ?\}", line).groups()
    elements = [base(of, int(number)) for of, number in re.findall(r"(\w+)#(\d+)", bases or "")]
    elements += [member(it, (name, int(version))) for it in members.split(", ") if it]
    return name, int(version), elements, int(checksum or 0)


def object_of(line):
    """The class of an object, and its bytes."""
    name, mark, number, digits = re.fullmatch(r"object (\w+)([#@])(\d+) ?(.*)", line).groups()
    body = (u16(int(number)) if mark == "#" else u16(0) + u32(int(number))) + bytes.fromhex(digits)
    return name, u32(0x40000000 | len(body)) + body


def main(path):
    lines = [it.strip() for it in sys.stdin]
    classes = tree_classes() + [class_of(it) for it in lines if it.startswith("class ")]
    name, entry = object_of(next(it for it in lines if it.startswith("object ")))
    file, branch = File(path, "a.root"), Branch("p", class_name=name)
    file.basket("T", branch, [entry], 0)
    branch.entries = 1
    file.key("TTree", "T", "", lambda start: tree_header(start, "T", 1, [branch]), listed=True)
    file.close(classes)


main(sys.argv[1])
