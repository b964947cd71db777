"""What a script of put, batch, delete, class, tree, fill, save, scan, get and ls makes of a file, and what is printed for it: written from the
rules in docs/commands.md alone, to compare runs with. The scripts beside it import it."""
import random, re

TEXT = 'TObjString{{TObject{{fUniqueID: 0, fBits: 0}}, fString: "{}"}}'
PUT = "put {} " + TEXT
# a put of a batch
ITEM = re.compile(r'(\w+) (TObjString\{TObject\{fUniqueID: 0, fBits: 0\}, fString: "[a-z]*"\}|\w+\{a: -?\d+\})')


def branches_of(name):
    """Returns the branches that a tree of this name has: each name has its own."""
    number = int(name[1:])
    return ["x=x/I", "n=n/I v=v[n]/F", "x=x/I name=name/C", f"o=class:Q{number % 5}"][number % 4]


class Tree:
    def __init__(self, branches, cycle=1, saved=(), pending=()):
        self.branches, self.cycle, self.saved, self.pending = branches, cycle, tuple(saved), tuple(pending)

    def copy(self):
        return Tree(self.branches, self.cycle, self.saved, self.pending)

    def fits(self, row):
        if self.branches == "x=x/I":
            return re.fullmatch(r"\[-?\d+\]", row)
        if self.branches == "x=x/I name=name/C":
            return re.fullmatch(r'\[-?\d+, "[a-z]*"\]', row)
        if self.branches == "n=n/I v=v[n]/F":
            words = re.fullmatch(r"\[(\d+), \[((?:0x[0-9a-f]{8}, )*(?:0x[0-9a-f]{8})?)\]\]", row)
            return words and int(words[1]) == words[2].count("0x")
        return re.fullmatch(r"\[" + self.branches.split(":")[1] + r"\{a: -?\d+\}\]", row)


class Model:
    def __init__(self):
        # name to {cycle: (class, printed value)}, name to tree, and the declared classes as (name, version), in their order
        self.objects, self.trees, self.classes = {}, {}, []

    def copy(self):
        other = Model()
        other.objects = {name: dict(cycles) for name, cycles in self.objects.items()}
        other.trees = {name: tree.copy() for name, tree in self.trees.items()}
        other.classes = list(self.classes)
        return other

    def newest(self, name):
        return max((v for n, v in self.classes if n == name), default=0)

    def names(self):
        return sorted([*self.objects, *self.trees])

    def keys(self):
        """Returns the items as (name, cycle), in the order of a listing."""
        cycles = {**self.objects, **{name: [tree.cycle] for name, tree in self.trees.items()}}
        return [(n, c) for n in self.names() for c in sorted(cycles[n], reverse=True)]

    def listing(self):
        return [f"{n};{c} {self.objects[n][c][0] if n in self.objects else 'TTree'}" for n, c in self.keys()]

    def values(self):
        """Returns the lines of `dump`, less those of the classes of trees, of the file of this model once it is closed."""
        declared = [f"class {n} {v} {{ a: i32 }}" for n, v in self.classes]
        return declared + [f"{n};{c} {self.objects[n][c][1] if n in self.objects else f'TTree {len(self.trees[n].saved)}'}" for n, c in self.keys()]

    def scans(self):
        """Returns for each tree its name and the lines of a scan."""
        return [(name, self.scan(name).split("\n")) for name in sorted(self.trees)]

    def whole(self):
        """Returns all that the file has, to compare."""
        return tuple(self.values()), tuple((name, *tree.saved) for name, tree in sorted(self.trees.items()))

    def saved(self):
        """Returns the model without the rows that are pending, as a crash leaves it."""
        other = self.copy()
        for tree in other.trees.values():
            tree.pending = ()
        return other

    def closing(self):
        """Returns the models after each save of a close, which saves the trees with pending rows in order of names."""
        states = [self.copy()]
        for name in sorted(self.trees):
            if self.trees[name].pending:
                states.append(states[-1].copy())
                states[-1].save(name)
        return states[1:]

    def closed(self):
        return [self.copy(), *self.closing()][-1]

    def do(self, line):
        """Does a command and returns its reply."""
        verb, *rest = line.split(" ", 2)
        if verb == "put":
            return self.put(*rest)
        if verb == "batch":
            return self.put_all(ITEM.findall(line))
        if verb == "class":
            return self.declare(rest[0], int(rest[1].split(" ")[0]))
        if verb == "tree":
            return self.plant(*rest)
        if verb == "ls":
            lines = [f"{it} {len(self.trees[n].saved)} {len(self.trees[n].pending)}" if n in self.trees else it for it, (n, _) in zip(self.listing(), self.keys())]
            return "\n".join([f"ok ls {len(lines)}", *lines])
        name, _, cycle = rest[0].partition(";")
        if name not in self.objects and name not in self.trees:
            return "no 3 NoSuchName"
        if verb in ("fill", "save", "scan"):
            if name not in self.trees:
                return "no 6 NotATree"
            return self.fill(*rest) if verb == "fill" else self.save(name) if verb == "save" else self.scan(name)
        cycles = self.objects[name] if name in self.objects else [self.trees[name].cycle]
        cycle = int(cycle or max(cycles))
        if cycle not in cycles:
            return "no 4 NoSuchCycle"
        if verb == "get":
            return f"ok get {name};{cycle} {cycles[cycle][1]}" if name in self.objects else "no 5 NameIsTree"
        if name in self.trees:
            del self.trees[name]
        else:
            del cycles[cycle]
            if not cycles:
                del self.objects[name]
        return f"ok delete {name};{cycle}"

    def refusal(self, name, value):
        """Returns why a put is refused, or nothing."""
        if name in self.trees:
            return "no 5 NameIsTree"
        kind = value.split("{")[0]
        return "" if kind == "TObjString" or self.newest(kind) else "no 8 NoSuchClass"

    def store(self, name, value):
        """Stores an object and returns its item."""
        kind = value.split("{")[0]
        if kind == "TObjString":
            text = value.split('"')[1]
            shown = f'TObjString#1{{TObject#1{{fUniqueID: 0, fBits: 0}}, fString: "{text}"}}'
        else:
            shown = f"{kind}#{self.newest(kind)}{{a: {value.split('a: ')[1].split('}')[0]}}}"
        cycles = self.objects.setdefault(name, {})
        cycle = max(cycles, default=0) + 1
        cycles[cycle] = (kind, shown)
        return f"{name};{cycle}"

    def put(self, name, value):
        return self.refusal(name, value) or f"ok put {self.store(name, value)}"

    def put_all(self, puts):
        refusals = [it for it in (self.refusal(*put) for put in puts) if it]
        if refusals:
            return min(refusals, key=lambda it: int(it.split()[1]))
        return " ".join(["ok batch", *(self.store(*put) for put in puts)])

    def declare(self, name, version):
        if (name, version) in self.classes:
            return "no 9 SameVersion"
        self.classes.append((name, version))
        return f"ok class {name} {version}"

    def plant(self, name, branches):
        if name in self.objects or name in self.trees:
            return "no 7 NameInUse"
        if "class:" in branches and not self.newest(branches.split(":")[1]):
            return "no 8 NoSuchClass"
        self.trees[name] = Tree(branches)
        return f"ok tree {name};1"

    def fill(self, name, row):
        tree = self.trees[name]
        if not tree.fits(row):
            return "no 12 BadRow"
        shown = re.sub(r"Q\d+", lambda kind: f"{kind[0]}#{self.newest(kind[0])}", row)
        tree.pending += (shown,)
        return f"ok fill {name} {len(tree.saved) + len(tree.pending) - 1}"

    def save(self, name):
        tree = self.trees[name]
        tree.cycle, tree.saved, tree.pending = tree.cycle + 1, tree.saved + tree.pending, ()
        return f"ok save {name};{tree.cycle} {len(tree.saved)}"

    def scan(self, name):
        rows = self.trees[name].saved + self.trees[name].pending
        return "\n".join([f"ok scan {name} {len(rows)}", *(f"{k} {row}" for k, row in enumerate(rows))])


def random_row(name):
    """Returns a row for the tree of this name, now and then one that doesn't fit."""
    if random.random() < 0.05:
        return random.choice(["[]", "[true]", "[1, 2]"])
    branches, number = branches_of(name), random.randrange(-9, 99)
    if branches == "x=x/I":
        return f"[{number}]"
    if branches == "n=n/I v=v[n]/F":
        count = random.randrange(4)
        return f"[{count}, [{', '.join(f'0x{random.getrandbits(32):08x}' for _ in range(count))}]]"
    if branches == "x=x/I name=name/C":
        # two of the longest make a basket full
        return f'[{number}, "{"z" * random.choice([0, 1, 7, 7, 300, 17000])}"]'
    return f"[{branches.split(':')[1]}{{a: {number}}}]"


def random_batch(names, classes, trees):
    """Returns a batch of a few puts on these names, now and then one with a tree's name."""
    puts = []
    for _ in range(random.randint(1, 5)):
        name = f"n{random.randrange(names)}" if random.random() < 0.97 else f"t{random.randrange(trees)}"
        value = TEXT.format("x" * random.randrange(120)) if random.random() < 0.9 else f"Q{random.randrange(classes)}{{a: {random.randrange(-9, 9)}}}"
        puts.append(f"{name} {value}")
    return f"batch {{ {', '.join(puts)} }}"


def random_line(model, names=60, classes=12, trees=8):
    """Returns a command on one of so many names. Most deletes are of what the model has; without a model they are of any cycle below 6."""
    dice, name, tree = random.random(), f"n{random.randrange(names)}", f"t{random.randrange(trees)}"
    if random.random() < 0.02:
        # what is of the other kind
        name, tree = tree, name
    if dice < 0.08:
        return random_batch(names, classes, trees)
    if dice < 0.35:
        return PUT.format(name, "x" * random.randrange(120))
    if dice < 0.42:
        return f"put {name} Q{random.randrange(classes)}{{a: {random.randrange(-9, 9)}}}"
    if dice < 0.44:
        return f"class Q{random.randrange(classes)} {random.randrange(1, 9)} {{ a: i32 }}"
    if dice < 0.48:
        return f"tree {tree} {branches_of(tree)}"
    if dice < 0.64:
        return f"fill {tree} {random_row(tree)}"
    if dice < 0.68:
        return f"save {tree}"
    if dice < 0.92:
        keys = model.keys() if model else []
        if keys and random.random() < 0.9:
            return "delete {};{}".format(*random.choice(keys))
        return f"delete {random.choice([name, name, name, tree])};{random.randrange(1, 6)}"
    if dice < 0.94:
        return f"scan {tree}"
    return f"get {name}" if dice < 0.99 else "ls"


def states_of(model, lines):
    """Returns the replies to these commands, and the model before each of them and after all."""
    states, replies = [model.copy()], []
    for line in lines:
        ahead = states[-1].copy()
        replies.append(ahead.do(line) + "\n")
        states.append(ahead)
    return replies, states


def states_left(states, whole, first=0):
    """Returns what a file may have where a run is stopped after so many whole replies: what there is after them, or with `first` from the
    command after them on; what there is after one command more; and after the last reply what there is after each save of the close."""
    closing = states[-1].closing() if whole == len(states) - 1 else []
    return [it.saved() for it in states[whole + first : whole + 2] + closing]


def whole_replies(replies, text):
    """Returns how many replies the text begins with, or None if what follows them is no part of the next."""
    whole = 0
    for reply in replies:
        if not text.startswith(reply):
            return whole if reply.startswith(text) else None
        text, whole = text[len(reply):], whole + 1
    return None if text else whole


def declared_in(lines):
    """Returns the classes that lines of `dump` declare, less those of trees."""
    words = [line.split() for line in lines if line.startswith("class ") and not line.startswith("class T")]
    return [(it[1], int(it[2])) for it in words]
