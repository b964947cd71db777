#!/usr/bin/env python3
"""Makes files whose one record has bytes made by hand, by the published layouts alone, or prints the data of records.

record.py object FILE CLASS[@PLACE] HEX <CLASSES
                                           a closed file with a key `o;1` of this class, whose data are these bytes. Their first
                                           one has this place in the record, or 100. CLASSES describes a class on each line:
                                           NAME VERSION[/CHECKSUM] [:BASE=VERSION].. [MEMBER=KIND]..
record.py state FILE <CLASSES              a closed file without keys that describes the classes of trees, and these
record.py list FILE HEX [CLASS HEX]        a closed file whose class list has these data, the first byte at 64; without keys, or with
                                           an object as above
record.py data FILE NAME                   prints the data of each record of the name, in hexadecimal digits
record.py places FILE                      prints the place and the length of each record with its name, and of each gap

A KIND is as in a declaration, or `counter`, or `other` and a code, or `class:` and a name; after a `/` it may have a title. A
checksum is hexadecimal, 12345678 if there is none, or `own`, that of the declaration. Words may have quotes as in a shell."""
import os
import re
import shlex
import sys

sys.dont_write_bytecode = True
sys.path.insert(0, f'{os.path.dirname(os.path.dirname(os.path.realpath(__file__)))}/bench')
from tree_file import File, base, basic, counted, element, fixed, i32, text, tree_classes, u16, u32

PRIMS = dict(i8=(1, 1, 'char'), i16=(2, 2, 'short'), i32=(3, 4, 'int'), i64=(16, 8, 'Long64_t'), u8=(11, 1, 'unsigned char'),
             u16=(12, 2, 'unsigned short'), u32=(13, 4, 'unsigned int'), u64=(17, 8, 'ULong64_t'), bool=(18, 1, 'bool'),
             f32=(5, 4, 'float'), f64=(8, 8, 'double'), counter=(6, 4, 'int'))


def member(name, kind, owner, version):
    array = re.fullmatch(r'(\w+)\[(\w+)\]', kind)
    if array and array[2].isdigit():
        return fixed(name, *PRIMS[array[1]], int(array[2]))
    if array:
        return counted(name, *PRIMS[array[1]], array[2], owner, version)
    if kind in PRIMS:
        return basic(name, *PRIMS[kind])
    if kind == 'text':
        return element('TStreamerString', 2, name, 65, 0, 'TString')
    if kind.startswith('other'):
        return element('TStreamerBasicType', 2, name, int(kind[5:]), 0, '?')
    if kind.endswith('*'):
        return element('TStreamerObjectAnyPointer', 1, name, 69, 0, kind)
    return element('TStreamerObjectAny', 2, name, 62, 0, kind.removeprefix('class:'))


def sum_of(line):
    """The checksum of a class that is printed so."""
    total = 0
    for byte in line.encode():
        total = (3 * total + byte) % 2**32
    return total


def described(line):
    """The class of a line, as a class list is made of them."""
    name, stated, *words = shlex.split(line)
    number, _, checksum = stated.partition('/')
    elements, bases, members = [], [], []
    for word in words:
        part, kind = word.split('=', 1)
        kind, _, title = kind.partition('/')
        if part.startswith(':'):
            elements.append(base(part[1:], int(kind)))
            bases.append(part[1:])
        else:
            elements.append(member(part, kind, name, int(number)) | {'title': title})
            members.append(f"{part}: {kind.removeprefix('class:').replace('counter', 'i32')}")
    heirs = ' : ' * bool(bases) + ', '.join(bases)
    printed = f"class {name} {number}{heirs} {{ {', '.join(members)}{' ' * bool(members)}}}"
    return name, int(number), elements, sum_of(printed) if checksum == 'own' else int(checksum or '12345678', 16)


class HandMade(File):
    def record(self, kind, name, title, data, length):
        """A record of these data, which begin that far from its first byte. Nothing follows them."""
        tail = text(kind) + text(name) + text(title)
        head = i32(length + len(data)) + u16(4) + u32(len(data)) + u32(1) + u16(length) + u16(1)
        head += self.wide(self.place) + self.wide(100) + tail
        self.out.seek(self.place)
        self.out.write(head + bytes(length - len(head)) + data)
        found = length + len(data), self.place
        self.place += -(-found[0] // 4) * 4
        return head, found


    def object(self, kind, data):
        kind, _, place = kind.partition('@')
        self.heads.append(self.record(kind, 'o', '', data, int(place or '100'))[0])


class OneList(HandMade):
    def __init__(self, path, data):
        super().__init__(path, 'list.root')
        self.data = data

    def class_list(self, classes):
        return self.record('TList', 'StreamerInfo', 'Doubly linked list', self.data, 64)[1]


def segments(path):
    """The place and the bytes of each record, from the first on, and of each gap."""
    with open(path, 'rb') as file:
        image = file.read()
    place = 100
    while (length := int.from_bytes(image[place:place + 4], 'big', signed=True)) != 0:
        yield place, length > 0, image[place:place + abs(length)]
        place += abs(length)


def name_of(record):
    name = 27 + record[26]
    return record[name + 1:name + 1 + record[name]].decode()


def main(words):
    if len(words) == 4 and words[0] == 'object':
        file = HandMade(words[1], 'object.root')
        file.object(words[2], bytes.fromhex(words[3]))
        file.close([described(it) for it in sys.stdin if it.strip()])
    elif len(words) == 2 and words[0] == 'state':
        File(words[1], 'state.root').close(tree_classes() + [described(it) for it in sys.stdin if it.strip()])
    elif len(words) in (3, 5) and words[0] == 'list':
        file = OneList(words[1], bytes.fromhex(words[2]))
        if len(words) == 5:
            file.object(words[3], bytes.fromhex(words[4]))
        file.close([])
    elif len(words) == 3 and words[0] == 'data':
        for _, is_record, it in segments(words[1]):
            if is_record and name_of(it) == words[2]:
                print(it[int.from_bytes(it[14:16], 'big'):].hex().upper())
    elif len(words) == 2 and words[0] == 'places':
        for place, is_record, it in segments(words[1]):
            print(place, len(it), name_of(it) if is_record else 'gap')
    else:
        sys.exit(__doc__)


if __name__ == '__main__':
    main(sys.argv[1:])
