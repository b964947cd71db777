#!/usr/bin/env python3
"""Writes closed ROOT files with trees, by the published layouts alone: nothing of this project makes them.

tree_file.py FILE wide ENTRIES BRANCHES   a tree `G` with branches `b00`, `b01` .. of one integer each; entry e has the
                                          number e * BRANCHES + j in the j-th of them
tree_file.py FILE counted ENTRIES LINES   a tree `G` with a counter `n`, a branch of a counter and the array that it
                                          counts, and 8 branches of arrays that `n` counts; and into the file LINES what
                                          a scan of it is to say
tree_file.py FILE objects ENTRIES         a tree `G` with a number and an object of `P#1` at each entry; P is described in two
                                          versions
tree_file.py FILE pairs COUNT BRANCHES    a tree `G` of one entry with COUNT counters and as many arrays, each counted by its
                                          own, in 1 branch or in 2, of which the first has the counters
tree_file.py FILE small                   a tree `T` with leaves of several kinds, a branch of objects, and a branch
                                          that has a branch of its own; an object `s`; and three versions of the
                                          class `Hit` of the objects
tree_file.py FILE large                   the tree `T` in a file of the large form whose baskets stand past 2 GB (sparse)
tree_file.py FILE layouts                 a tree `T` with two objects of a class that is described twice in one version, each read by
                                          the description that its checksum names
tree_file.py FILE limit END               no tree: the first record, a basket that nothing refers to, of which only the key
                                          is written (sparse), and a class list of the classes of trees, which ends at END

Sources: ROOT's I/O documentation (io/doc/TFile), and the pages of TTree, TBranch, TLeaf, TBasket and TStreamerInfo.
"""
import struct
import sys

BASKET_BYTES = 32000


def u16(n):
    return struct.pack('>H', n)


def i32(n):
    return struct.pack('>i', n)


def u32(n):
    return struct.pack('>I', n)


def i64(n):
    return struct.pack('>q', n)


def text(word):
    word = word.encode() if isinstance(word, str) else word
    return (bytes([len(word)]) if len(word) < 255 else b'\xff' + u32(len(word))) + word


class Buffer:
    """The data of a key: byte counts, class words and references count from the key's first byte."""

    def __init__(self, start):
        self.start, self.data, self.words = start, bytearray(), {}

    def place(self):
        return self.start + len(self.data)

    def put(self, some):
        self.data += some

    def begin(self, version):
        at = len(self.data)
        self.put(bytes(4) + u16(version))
        return at

    def end(self, at):
        self.data[at:at + 4] = u32(0x40000000 | (len(self.data) - at - 4))

    def pointer(self, name, write):
        """A new object; gives the word by which others refer to it."""
        at, word = len(self.data), self.place() + 2
        self.put(bytes(4))
        if name in self.words:
            self.put(u32(0x80000000 | self.words[name]))
        else:
            self.words[name] = self.place() + 2
            self.put(b'\xff\xff\xff\xff' + name.encode() + b'\0')
        write()
        self.end(at)
        return word

    def object(self):
        self.put(u16(1) + u32(0) + u32(0))

    def named(self, name, title=''):
        at = self.begin(1)
        self.object()
        self.put(text(name) + text(title))
        self.end(at)

    def array(self, items):
        """A TObjArray; each item is a function that writes a pointer. Gives what they give."""
        at = self.begin(3)
        self.object()
        self.put(text('') + i32(len(items)) + i32(0))
        got = [item() for item in items]
        self.end(at)
        return got


# ---- class descriptions

def element(kind, version, name, code, size, type_name, more=b'', count=0):
    return dict(kind=kind, version=version, name=name, code=code, size=size, type_name=type_name, more=more, count=count)


def base(name, version):
    code = 67 if name == 'TNamed' else 0
    return element('TStreamerBase', 3, name, code, 0, 'BASE', i32(version))


def basic(name, code, size, type_name):
    return element('TStreamerBasicType', 2, name, code, size, type_name)


def counted(name, code, size, type_name, by, owner, version):
    return element('TStreamerBasicPointer', 2, name, code + 40, size, type_name + '*',
                   i32(version) + text(by) + text(owner))


def array_member(name):
    return element('TStreamerObject', 2, name, 61, 0, 'TObjArray')


TREE_SUMS = dict(TTree=2390821405, TBranch=3955859836, TBranchElement=1729852984, TLeaf=2244545638, TLeafB=2112258162,
                 TLeafS=2844052419, TLeafI=2413585209, TLeafL=2542725372, TLeafF=2284445046, TLeafD=2198351604,
                 TLeafO=2671865535, TLeafC=2155304883)


def tree_classes():
    branch = [base('TNamed', 1), basic('fEntryOffsetLen', 3, 4, 'int'), basic('fWriteBasket', 3, 4, 'int'),
              basic('fMaxBaskets', 6, 4, 'int'), basic('fEntries', 16, 8, 'Long64_t'), array_member('fBranches'),
              array_member('fLeaves'), array_member('fBaskets'),
              counted('fBasketBytes', 3, 4, 'int', 'fMaxBaskets', 'TBranch', 113),
              counted('fBasketEntry', 16, 8, 'Long64_t', 'fMaxBaskets', 'TBranch', 113),
              counted('fBasketSeek', 16, 8, 'Long64_t', 'fMaxBaskets', 'TBranch', 113)]
    leaf = [base('TNamed', 1), basic('fLen', 3, 4, 'int'), basic('fLenType', 3, 4, 'int'),
            basic('fIsUnsigned', 18, 1, 'bool'),
            element('TStreamerObjectPointer', 2, 'fLeafCount', 64, 0, 'TLeaf*')]
    classes = [('TTree', 120, [base('TNamed', 1), basic('fEntries', 16, 8, 'Long64_t'), array_member('fBranches'),
                               array_member('fLeaves')]),
               ('TBranch', 113, branch),
               ('TBranchElement', 110, [base('TBranch', 113),
                                        element('TStreamerString', 2, 'fClassName', 65, 0, 'TString'),
                                        basic('fClassVersion', 3, 4, 'int')]),
               ('TLeaf', 102, leaf)]
    return classes + [('TLeaf' + k, 101, [base('TLeaf', 102)]) for k in 'BSILFDOC']


def fixed(name, code, size, type_name, count):
    return element('TStreamerBasicType', 2, name, code + 20, size * count, type_name, count=count)


def hit_classes():
    """Objects are of the first version; in the third, `charge` is of another kind."""
    number, charge = basic('id', 2, 2, 'short'), basic('charge', 5, 4, 'float')
    return [('Hit', 1, [basic('id', 3, 4, 'int'), charge]),
            ('Hit', 2, [charge, number, fixed('adc', 12, 2, 'unsigned short', 2)]),
            ('Hit', 3, [number, basic('charge', 3, 4, 'int')])]


def write_element(buffer, e):
    outer = buffer.begin(e['version'])
    inner = buffer.begin(4)
    buffer.named(e['name'], e.get('title', ''))
    count = e['count']
    buffer.put(i32(e['code']) + i32(e['size']) + i32(count) + i32(1 if count else 0) + i32(count) + i32(0) * 4)
    buffer.put(text(e['type_name']))
    buffer.end(inner)
    buffer.put(e['more'])
    buffer.end(outer)


def write_info(buffer, name, version, elements, checksum=0):
    at = buffer.begin(9)
    buffer.named(name)
    buffer.put(u32(TREE_SUMS.get(name, checksum)) + i32(version))
    items = [lambda e=e: buffer.pointer(e['kind'], lambda: write_element(buffer, e)) for e in elements]
    buffer.pointer('TObjArray', lambda: buffer.array(items))
    buffer.end(at)


def class_list(start, classes):
    buffer = Buffer(start)
    at = buffer.begin(5)
    buffer.object()
    buffer.put(text('') + i32(len(classes)))
    for words in classes:
        buffer.pointer('TStreamerInfo', lambda: write_info(buffer, *words))
        buffer.put(text(''))
    buffer.end(at)
    return bytes(buffer.data)


# ---- trees

WIDTHS = dict(B=1, b=1, S=2, s=2, I=4, i=4, L=8, l=8, F=4, D=8, O=1, C=1)
WRITERS = dict(bool='>?', short='>h', int='>i', Long64_t='>q', double='>d')


class Leaf:
    """A leaf. Its dimension is a number, the name of the leaf that counts it, or None."""

    def __init__(self, name, letter, dimension=None):
        self.name, self.letter, self.kind, self.version = name, letter, 'TLeaf' + letter.upper(), 101
        self.counter = dimension if isinstance(dimension, str) else None
        self.length = dimension if isinstance(dimension, int) else 1
        self.title = name if dimension is None else f'{name}[{dimension}]'


class Branch:
    """A branch: its leaves as (name, letter, dimension), or the name of its class; its baskets as (bytes, first entry, place); and
    functions that write what fBranches and fBaskets have."""

    def __init__(self, name, leaves=(), class_name=None, nested=False):
        self.name, self.leaves, self.class_name = name, [Leaf(*it) for it in leaves], class_name
        self.kind, self.version = ('TBranchElement', 110) if class_name else ('TBranch', 113)
        self.baskets, self.entries, self.more_baskets, self.held = [], 0, 0, []
        self.inside = [lambda header: header.branch(Branch('inner'))] if nested else []

    def has_offsets(self):
        return bool(self.class_name) or any(it.letter == 'C' or it.counter is not None for it in self.leaves)

    def title(self):
        return self.class_name or ':'.join(f'{it.title}/{it.letter}' for it in self.leaves)


class Header:
    """Writes the header of a tree, member by member, as the classes describe its objects."""

    def __init__(self, start, classes):
        self.buffer, self.words, self.places = Buffer(start), {}, []
        self.classes = {(name, version): elements for name, version, elements, *_ in classes}

    def members(self, kind, version, values):
        """An object, with a value for each member's name: a number, a list, a text, or a function that writes it. What has no
        value is 0."""
        at = self.buffer.begin(version)
        for it in self.classes[kind, version]:
            value, writer = values.get(it['name'], 0), WRITERS.get(it['type_name'].rstrip('*'))
            if it['name'] == 'TNamed':
                self.buffer.named(values['name'], values.get('title', ''))
            elif it['kind'] == 'TStreamerBase':
                self.members(it['name'], *struct.unpack('>i', it['more']), values)
            elif callable(value):
                value()
            elif isinstance(value, str):
                self.buffer.put(text(value))
            elif isinstance(value, list):
                self.buffer.put(b'\1' + b''.join(struct.pack(writer, n) for n in value))
            else:
                self.buffer.put(struct.pack(writer, value))
        self.buffer.end(at)

    def array(self, write, items):
        """A function that writes an array of these."""
        return lambda: self.buffer.array([lambda it=it: write(it) for it in items])

    def word(self, word):
        self.buffer.put(u32(word))

    def leaf(self, leaf):
        """Other leaves have it as their counter by its name, or as the leaf `#N` of the tree, from 0 on."""
        values = dict(name=leaf.name, title=leaf.title, fLen=leaf.length, fLenType=WIDTHS.get(leaf.letter, 4),
                      fIsUnsigned=leaf.letter.islower(), fLeafCount=lambda: self.word(self.words.get(leaf.counter, 0)))
        word = self.buffer.pointer(leaf.kind, lambda: self.members(leaf.kind, leaf.version, values))
        self.words[leaf.name] = self.words[f'#{len(self.places)}'] = word
        self.places.append(word)

    def branch(self, branch):
        lengths, firsts, places = ([it[k] for it in branch.baskets] for k in range(3))
        values = dict(name=branch.name, title=branch.title(), fEntries=branch.entries,
                      fEntryOffsetLen=1000 if branch.has_offsets() else 0,
                      fWriteBasket=len(lengths) + branch.more_baskets, fMaxBaskets=len(lengths) + 1,
                      fBranches=self.array(lambda it: it(self), branch.inside), fLeaves=self.array(self.leaf, branch.leaves),
                      fBaskets=self.array(lambda it: it(self), branch.held), fBasketBytes=lengths + [0],
                      fBasketEntry=firsts + [branch.entries], fBasketSeek=places + [0],
                      fClassName=branch.class_name or '', fClassVersion=1)
        self.buffer.pointer(branch.kind, lambda: self.members(branch.kind, branch.version, values))

    def tree(self, name, entries, branches, version=120):
        values = dict(name=name, fEntries=entries, fBranches=self.array(self.branch, branches),
                      fLeaves=lambda: self.array(self.word, self.places)())
        self.members('TTree', version, values)
        return bytes(self.buffer.data)


def tree_header(start, name, entries, branches):
    return Header(start, tree_classes()).tree(name, entries, branches)


# ---- the file

class File:
    def __init__(self, path, name, large=False):
        self.out, self.name, self.large, self.heads, self.padded = open(path, 'wb'), name, large, [], True
        self.place = 100
        self.open_directory()

    def wide(self, n):
        return struct.pack('>Q' if self.large else '>I', n)

    def key_length(self, tail):
        return 18 + 2 * len(self.wide(0)) + len(tail)

    def head(self, tail, size, cycle, pdir, shrunk=0):
        """The key of a record with so many bytes of data, which were so many more before they were compressed."""
        version, length = 1004 if self.large else 4, self.key_length(tail)
        head = i32(length + size) + u16(version) + u32(size + shrunk) + u32(1) + u16(length) + u16(cycle)
        return head + self.wide(self.place) + self.wide(pdir) + tail

    def key(self, kind, name, title, data, cycle=1, more=b'', listed=False, pdir=100, shrunk=0):
        """A record at the next place; gives its length and place."""
        tail = text(kind) + text(name) + text(title) + more
        length = self.key_length(tail)
        if callable(data):
            data = data(length)
        data += bytes(-(length + len(data)) % 4 if self.padded else 0)
        head = self.head(tail, len(data), cycle, pdir, shrunk)
        place = self.place
        self.out.seek(place)
        self.out.write(head + data)
        self.place += length + len(data)
        if listed:
            self.heads.append(head)
        return length + len(data), place

    def directory(self, keys, place):
        fields = u16(1005 if self.large else 5) + u32(1) + u32(1) + i32(keys) + i32(self.name_length)
        return fields + self.wide(100) + self.wide(0) + self.wide(place) + u16(1) + bytes(16) + bytes(12)

    def open_directory(self):
        names = text(self.name) + text('')
        self.name_length = 18 + 2 * len(self.wide(0)) + len(text('TFile') + names) + len(names)
        self.key('TFile', self.name, '', names + self.directory(0, 0), pdir=0)

    def basket(self, tree, branch, entries, first, said=None):
        """A basket of these entries, which the branch then has. `said` has what is said of it in place of what is so: how many
        entries it has, their size and the bytes of all, how many bytes the record has less in the header, and more before it was
        compressed."""
        offsets, said = branch.has_offsets(), said or {}

        def data(length):
            got, ends, at = b''.join(entries), [], length
            for entry in entries:
                ends.append(at)
                at += len(entry)
            return got + (u32(len(entries) + 1) + b''.join(map(u32, ends + [at])) if offsets else b'')
        version_to_flag = 19
        length = self.key_length(text('TBasket') + text(branch.name) + text(tree)) + version_to_flag
        count = said.get('entries', len(entries))
        size = said.get('size', count if offsets else len(b''.join(entries[:1])))
        last = length + said.get('used', sum(map(len, entries)))
        more = u16(3) + i32(BASKET_BYTES) + i32(size) + i32(count) + i32(last) + b'\0'
        got = self.key('TBasket', branch.name, tree, data, cycle=0, more=more, shrunk=said.get('shrunk', 0))
        branch.baskets.append((got[0] - said.get('fewer', 0), first, got[1]))

    def basket_key(self, end):
        """The key alone of a basket that ends there."""
        tail = text('TBasket') + text('x') + text('T')
        self.out.seek(self.place)
        self.out.write(self.head(tail, end - self.place - self.key_length(tail), 0, 100))
        self.place = end

    def class_list(self, classes):
        return self.key('TList', 'StreamerInfo', 'Doubly linked list', lambda n: class_list(n, classes))

    def end(self, info, free):
        """The zero word at END, and the header."""
        end = self.place
        self.out.write(bytes(4))
        fields = b'root' + u32(1060000 if self.large else 60000) + u32(100) + self.wide(end) + self.wide(free[1])
        fields += u32(free[0]) + u32(1) + u32(self.name_length) + bytes([8 if self.large else 4]) + u32(0)
        fields += self.wide(info[1]) + u32(info[0]) + u16(1) + bytes(16)
        self.out.seek(0)
        self.out.write(fields + bytes(100 - len(fields)))

    def close(self, classes):
        info = self.class_list(classes)
        keys = self.key('TFile', self.name, '', u32(len(self.heads)) + b''.join(self.heads))
        free = self.key('TFile', self.name, '',
                        u16(1) + u32(0) + u32(2000000000) if not self.large else u16(1001) + bytes(8) + i64(2 ** 62))
        self.end(info, free)
        names = text(self.name) + text('')
        self.out.seek(100 + self.name_length)
        self.out.write(self.directory(keys[0], keys[1]))
        self.out.close()


def wide_file(path, entries, count):
    file = File(path, 'wide.root')
    branches = [Branch(f'b{j:02}', [(f'b{j:02}', 'I', None)]) for j in range(count)]
    each = BASKET_BYTES // 4
    for first in range(0, entries, each):
        upto = min(entries, first + each)
        for j, branch in enumerate(branches):
            numbers = [i32(e * count + j) for e in range(first, upto)]
            file.basket('G', branch, numbers, first)
    for branch in branches:
        branch.entries = entries
    file.key('TTree', 'G', '', lambda n: tree_header(n, 'G', entries, branches), listed=True)
    file.close(tree_classes())


def list_text(words):
    return '[' + ', '.join(words) + ']'


def bits_text(data, width):
    """A list of floating-point numbers, as a scan says it."""
    return list_text('0x' + data[at:at + width].hex() for at in range(0, len(data), width))


def counted_row(e):
    """The entry of each branch of the tree `counted`, and the line that a scan is to say of them."""
    n, k = e * 7 % 10, e * 3 % 6
    x = struct.pack(f'>{k}f', *(e % 1000 / 4 - i for i in range(k)))
    entries, said = [i32(n), i32(k) + x], [str(n), str(k), bits_text(x, 4)]
    for j in range(8):
        numbers = [(e * 8 + j) * 10 + i for i in range(n)]
        if j % 2 == 0:
            entries.append(struct.pack(f'>{n}i', *numbers))
            said.append(list_text(map(str, numbers)))
        else:
            entries.append(struct.pack(f'>{n}d', *(number / 8 - 1000 for number in numbers)))
            said.append(bits_text(entries[-1], 8))
    return entries, f'{e} {list_text(said)}\n'


def counted_file(path, entries, lines):
    file = File(path, 'counted.root')
    branches = [Branch('n', [('n', 'I', None)]), Branch('own', [('k', 'I', None), ('x', 'F', 'k')])]
    branches += [Branch(f'c{j}', [(f'c{j}', 'ID'[j % 2], 'n')]) for j in range(8)]
    block = BASKET_BYTES // 4
    with open(lines, 'w') as said:
        said.write(f'ok scan G {entries}\n')
        for begin in range(0, entries, block):
            rows = [counted_row(e) for e in range(begin, min(entries, begin + block))]
            said.writelines(line for _, line in rows)
            for j, branch in enumerate(branches):
                each = block // 10 if branch.has_offsets() else block
                for k in range(0, len(rows), each):
                    file.basket('G', branch, [row[j] for row, _ in rows[k:k + each]], begin + k)
    for branch in branches:
        branch.entries = entries
    file.key('TTree', 'G', '', lambda n: tree_header(n, 'G', entries, branches), listed=True)
    file.close(tree_classes())


def p_classes():
    f = basic('f', 5, 4, 'float')
    return [('P', 1, [basic('a', 16, 8, 'Long64_t'), basic('b', 3, 4, 'int'), f]),
            ('P', 2, [f, basic('a', 2, 2, 'short'), fixed('c', 12, 2, 'unsigned short', 2)])]


def objects_file(path, entries):
    """Entry e has the number e and P{a: 1000003 e, b: -e, f: e / 4}."""
    file = File(path, 'objects.root')
    number, objects = Branch('id', [('id', 'I', None)]), Branch('p', class_name='P')
    header = u32(0x40000000 | 18) + u16(1)
    for branch, size, entry in ((number, 4, i32), (objects, 22, lambda e: header + struct.pack('>qif', 1000003 * e, -e, e / 4))):
        for first in range(0, entries, BASKET_BYTES // size):
            upto = min(entries, first + BASKET_BYTES // size)
            file.basket('G', branch, [entry(e) for e in range(first, upto)], first)
        branch.entries = entries
    file.key('TTree', 'G', '', lambda n: tree_header(n, 'G', entries, [number, objects]), listed=True)
    file.close(tree_classes() + p_classes())


def pairs_file(path, count, branches):
    file = File(path, 'pairs.root')
    counters = [(f'n{i}', 'I', None) for i in range(count)]
    arrays = [(f'v{i}', 'I', f'n{i}') for i in range(count)]
    ones, numbers = i32(1) * count, b''.join(map(i32, range(count)))
    if branches == 1:
        both = [(Branch('all', counters + arrays), ones + numbers)]
    else:
        both = [(Branch('n', counters), ones), (Branch('v', arrays), numbers)]
    for branch, entry in both:
        file.basket('G', branch, [entry], 0)
        branch.entries = 1
    file.key('TTree', 'G', '', lambda n: tree_header(n, 'G', 1, [branch for branch, _ in both]), listed=True)
    file.close(tree_classes())


def hit(number, bits):
    """An object of the class Hit, as an entry."""
    body = u16(1) + i32(number) + u32(bits)
    return u32(0x40000000 | len(body)) + body


def small_tree(file):
    """The tree `T` with three entries, in baskets of two and of one."""
    branches = [Branch('x', [('x', 'I', None)]), Branch('name', [('name', 'C', None)]),
                Branch('v', [('n', 'I', None), ('v', 'F', 'n')]), Branch('w', [('w', 's', 2), ('o', 'O', None)]),
                Branch('hits', class_name='Hit'), Branch('nested', [('y', 'I', None)], nested=True),
                Branch('u', [('u', 'B', 'n')])]
    rows = [
        [i32(-5), text('a"b'), i32(0), u16(1) + u16(65535) + b'\0', hit(7, 0x3F800000), i32(1), b''],
        [i32(6), text(''), i32(2) + u32(0x3F800000) + u32(0x40000000), u16(2) + u16(3) + b'\1', hit(8, 0), i32(2), b'\1\xff'],
        [i32(2147483647), text('z' * 300), i32(1) + u32(0x40400000), u16(0) + u16(0) + b'\1', hit(-9, 1), i32(3), b'\2'],
    ]
    for first, upto in ((0, 2), (2, 3)):
        for j, branch in enumerate(branches):
            file.basket('T', branch, [row[j] for row in rows[first:upto]], first)
    for branch in branches:
        branch.entries = len(rows)
    file.key('TTree', 'T', '', lambda n: tree_header(n, 'T', len(rows), branches), listed=True)


def small_file(path, large=False):
    file = File(path, 'small.root', large)
    string = u32(0x4000000F) + u16(1) + u16(1) + u32(0) + u32(0) + text('hi')
    file.key('TObjString', 's', '', string, listed=True)
    if large:
        file.place = 3 * 2 ** 30
    small_tree(file)
    file.close(tree_classes() + hit_classes())


def layouts_file(path):
    """A class of two layouts under one version, as headers with a checksum pick them: P{Base{y: 1}, x: 2} and P{x: 3, y: 4}."""
    file = File(path, 'layouts.root')
    x, y = basic('x', 3, 4, 'int'), basic('y', 3, 4, 'int')
    classes = [('Base', 1, [y], 5), ('P', 1, [base('Base', 1), x], 11), ('P', 1, [x, y], 22), ('P', 2, [y, x], 33)]

    def by_checksum(checksum, body):
        data = u16(0) + u32(checksum) + body
        return u32(0x40000000 | len(data)) + data

    branch = Branch('p', class_name='P')
    first = u32(0x40000000 | 6) + u16(1) + i32(1)
    entries = [by_checksum(11, first + i32(2)), by_checksum(22, i32(3) + i32(4))]
    file.basket('T', branch, entries, 0)
    branch.entries = len(entries)
    file.key('TTree', 'T', '', lambda n: tree_header(n, 'T', len(entries), [branch]), listed=True)
    file.close(tree_classes() + classes)


def limit_file(path, end):
    file = File(path, 'limit.root')
    place = file.place
    length, _ = file.class_list(tree_classes())
    file.out.truncate(place)
    file.place = place
    file.basket_key(end - length)
    file.end(file.class_list(tree_classes()), (0, 0))
    file.out.close()


if __name__ == '__main__':
    words = sys.argv[1:]
    if len(words) == 4 and words[1] == 'wide':
        wide_file(words[0], int(words[2]), int(words[3]))
    elif len(words) == 4 and words[1] == 'counted':
        counted_file(words[0], int(words[2]), words[3])
    elif len(words) == 3 and words[1] == 'objects':
        objects_file(words[0], int(words[2]))
    elif len(words) == 4 and words[1] == 'pairs':
        pairs_file(words[0], int(words[2]), int(words[3]))
    elif len(words) == 3 and words[1] == 'limit':
        limit_file(words[0], int(words[2]))
    elif len(words) == 2 and words[1] == 'layouts':
        layouts_file(words[0])
    elif len(words) == 2 and words[1] in ('small', 'large'):
        small_file(words[0], words[1] == 'large')
    else:
        sys.exit(__doc__)
