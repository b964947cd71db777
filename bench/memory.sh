#!/usr/bin/env bash
# Refuses the allocations of runs, one after the other, and looks at how each ends and at what it leaves.
# Usage: bench/memory.sh [ROW] (of the proved program: `./build` makes it, or PROGRAM names it; a C compiler has to be there). With ROW it
# does the rows alone whose names have it. Each row is a run: the worked run of five lines, on a new file and on an existing one, classes and
# counted arrays, batches, trees with counted leaves, recoveries of files with records that nothing refers to, among them one with two headers of a
# tree, an import, a generated file, and each reading verb. It is done for each number N of an
# allocation that it makes: the Nth fails alone, and then all from the Nth on. The status has to be 5 with its line on standard
# error, or all has to be as without a failure. What is printed has to be whole replies, of a reading verb whole lines. A recovery
# that has all memory then has to find what was there before with exactly the commands whose replies were printed, since a command
# takes all its memory before its first write; what a reading verb was run on is as it was, byte for byte.
set -eu
top=$(cd "$(dirname "$0")/.." && pwd)
base=/dev/shm
[ -d "$base" ] || base=/tmp
folder=$(mktemp -d "$base/memory-XXXXXX")
trap 'rm -rf "$folder"' EXIT
program=${PROGRAM:-$top/crates/rootio/out/rootio}
[ -x "$program" ] || { echo "memory: there is no program $program" >&2; exit 1; }
cc -shared -fPIC -O1 -o "$folder/refuse.so" "$top/bench/refuse.c"
python3 - "$top" "$folder" "$program" "${1:-}" <<'P'
import functools, os, shutil, subprocess, sys, tempfile
top, folder, program, wanted = sys.argv[1:]
path, counted = os.path.join(folder, "a.root"), os.path.join(folder, "count")
REFUSING = {"LD_PRELOAD": os.path.join(folder, "refuse.so"), "ALLOCATIONS": counted}


def stop(why):
    print(f"memory: {why}", file=sys.stderr)
    sys.exit(1)


def do(words, script=b"", refused=None):
    """Does a run, with this allocation refused, and returns its status, what it printed and its line on standard error."""
    more = {**REFUSING, "REFUSED": refused} if refused else {}
    out = subprocess.run([program, *words], input=script, capture_output=True, cwd=folder, env={**os.environ, **more})
    return out.returncode, out.stdout, out.stderr


def image():
    if not os.path.exists(path):
        return None
    with open(path, "rb") as file:
        return file.read()


def put_back(before):
    if os.path.exists(path):
        os.remove(path)
    if before is not None:
        with open(path, "wb") as file:
            file.write(before)


STRING = 'put {} TObjString{{TObject{{fUniqueID: 0, fBits: 0}}, fString: "{}"}}'
FIVE = [STRING.format("s", "hi"), STRING.format("s", "ho"), "delete s;2", STRING.format("s", "hu"), "ls"]
ITEM = 'TObjString{{TObject{{fUniqueID: 0, fBits: 0}}, fString: "{}"}}'
BATCHES = ["class Q 1 { a: i32 }", f"batch {{ b {ITEM.format('x')}, a {ITEM.format('y')}, b {ITEM.format('z')} }}", "get b;1", "delete b;1",
           f"batch {{ c Q{{a: 1}}, d {ITEM.format('w')} }}", f"batch {{ e {ITEM.format('v')}, f 5 }}", f"batch {{ b {ITEM.format('u')} }}", "ls"]
TREES = ["tree V n=n/I v=v[n]/F", "fill V [0, []]", "fill V [3, [0x3f800000, 0x40000000, 0x40400000]]", "fill V [0, []]", "save V", "scan V",
         "class P 1 { a: i32 }", "tree T x=x/C p=class:P", 'fill T ["a", P{a: 1}]', "fill V [1, [0x00000001]]", "fill T [5]", "class P 2 { b: i64 }",
         'fill T ["", P{b: 2}]', "save T", "delete V;2", "scan T as P#2", 'fill T ["c", P{b: 3}]', "ls"]
CLASSES = ["class C 1 { n: i32, w: u8[n] }", "put a C{n: 2, w: [7, 255]}", "get a", "class Node 1 { val: i32, next: Node* }",
           "put L Node{val: 1, next: @0=Node{val: 2, next: @1=Node{val: 3, next: null}}}", "class C 2 : Node { n: i64, t: text }", "get a as 2",
           "frob", "put q Q{}", "put a C{Node{val: 4, next: null}, n: 5, t: \"t\"}", "delete a;1", "get L;1", "ls"]


def made_by(before, lines):
    """The file that these lines make of the one before."""
    put_back(before)
    status, _, fault = do(["run", "a.root"], "".join(line + "\n" for line in lines).encode())
    if status:
        stop(f"a run in which nothing fails ends with status {status}: {fault}")
    return image()


def opened(closed):
    """The file as a run leaves it that was stopped before its close ended: the records of the close are there, and nothing refers to them."""
    return closed[:12] + (2000000000).to_bytes(4, "big") + closed[16:]


@functools.cache
def shown(before):
    """What is listed, dumped and scanned of a file once it is recovered, of one that isn't made nothing."""
    put_back(before)
    if before is None or len(before) < 4 or before[:4] == bytes(4):
        return b"", b""
    status, listing, fault = do(["recover", "a.root"])
    if status:
        return f"recover: status {status}, {fault}", b""
    trees = [line.split(b";")[0] for line in listing.splitlines() if line.endswith(b" TTree")]
    return listing, do(["dump", "a.root"])[1], *(do(["scan", "a.root", name])[1] for name in trees)


def saved(lines):
    """The lines without the fills whose rows are pending after them, which a run that is stopped loses."""
    return [line for k, line in enumerate(lines) if not line.startswith("fill ") or f"save {line.split(' ')[1]}" in lines[k:]]


class Row:
    def __init__(self, name, words, before=None, lines=(), csv=None, allowed=()):
        self.name, self.words, self.before, self.lines, self.csv, self.allowed = name, words, before, list(lines), csv, allowed
        self.writes = words[0] not in ("ls", "dump", "scan", "export")
        # what the file has, and how much is printed, after so many of the lines
        self.states, self.texts = [], []
        put_back(before)
        self.status, self.said, self.told = do(words, self.given())
        self.after = image()
        if self.status:
            stop(f"{name}: status {self.status} where nothing fails: {self.told}")
        for k in range(len(self.lines) + 1):
            put_back(before)
            self.texts.append(do(["run", "a.root"], self.script(self.lines[:k]))[1] if self.lines else b"")
            put_back(before)
            do(["run", "a.root"], self.script(saved(self.lines[:k])))
            self.states.append(shown(image() if self.lines else before))

    def script(self, lines=None):
        return "".join(line + "\n" for line in (self.lines if lines is None else lines)).encode()

    def given(self):
        """What the run reads: the script of the lines, or the CSV text whose import they are."""
        return self.script() if self.csv is None else self.csv

    def wrong(self, status, said, told):
        """What is wrong with how a run ended in which allocations fail, or None."""
        if status == 0:
            return None if (said, told, image()) == (self.said, b"", self.after) else "status 0, but not as without a failure"
        if (status, told) != (5, b"rootio: no memory\n"):
            return f"status {status}, {told}"
        if not self.writes:
            if image() != self.before:
                return "a reading verb has changed the file"
            return None if self.said.startswith(said) and (not said or said.endswith(b"\n")) else "what is printed isn't whole lines"
        if self.allowed:
            left = image()
            return None if not said and shown(left) in self.allowed else f"{len(said)} bytes were printed, and the file has something else"
        if self.lines:
            if said not in self.texts:
                return "what is printed isn't whole replies"
            # A reply is the state's after its command, and of several states with the same text each is the same.
            state = self.states[self.texts.index(said)]
        else:
            if not self.said.startswith(said) or said and not said.endswith(b"\n"):
                return "what is printed isn't whole lines"
            state = self.states[0]
        left = image()
        return None if shown(left) == state else f"{len(said)} bytes were printed, and the file has something else"

    def allocations(self):
        """Returns how many allocations the run makes."""
        put_back(self.before)
        do(self.words, self.given(), "0")
        with open(counted) as file:
            count = int(file.read())
        if not count:
            stop("the program takes its memory elsewhere: is it the proved one?")
        return count

    def try_each(self):
        ended, count = {0: 0, 5: 0}, self.allocations()
        for refused in (f"{number}{more}" for number in range(1, count + 1) for more in ("", "+")):
            put_back(self.before)
            end = do(self.words, self.given(), refused)
            ended[end[0]] = ended.get(end[0], 0) + 1
            left = image()
            why = self.wrong(*end)
            if why:
                kept = tempfile.mkdtemp(prefix="memory-kept-")
                put_back(left)
                shutil.copytree(folder, kept, dirs_exist_ok=True)
                with open(os.path.join(kept, "script"), "wb") as file:
                    file.write(self.given())
                stop(f"{self.name}: REFUSED={refused}: {why}; the files are in {kept}")
        print(f"memory: {self.name}: {count} allocations; {ended[5]} runs end with status 5, {ended[0]} with 0", flush=True)


five = made_by(None, FIVE)
classes = made_by(None, CLASSES)
gaps = made_by(five, [STRING.format("t", "x" * 60), STRING.format("u", "y"), "delete t;1"])
filled = made_by(None, TREES)
subprocess.run([sys.executable, os.path.join(top, "bench/tree_file.py"), path, "small"], check=True)
trees = image()


def with_two_headers():
    """A file as a save leaves it that is stopped before it frees the header of cycle 1, of 344 bytes at 4256: the basket has 64 bytes
    after it, and the header of cycle 2 has 364 after that."""
    planted, whole = made_by(None, ["tree T x=x/I"]), made_by(None, ["tree T x=x/I", "fill T [1]", "save T"])
    both = opened(whole[:4256] + planted[4256:4600] + whole[4600:5028] + bytes(4))
    put_back(both)
    if do(["recover", "a.root"]) != (0, b"T;2 TTree\n", b"") or do(["scan", "a.root", "T"]) != (0, b"ok scan T 1\n0 [1]\n", b""):
        stop("a file with two headers of a tree isn't recovered with the newer")
    return both


IMPORTED = ["tree T id=id/I name=name/C", 'fill T [1, "a,b"]', 'fill T [2, ""]', "save T", "fill T []", 'fill T [4, "say \\"hi\\""]', "save T", 'fill T [5, "e"]']
CSV = b'1,"a,b"\n2,\n3\n4,"say ""hi"""\n5,e\n'
planted, generated = made_by(None, ["tree G " + " ".join(f"b{j:02}=b{j:02}/I" for j in range(20))]), None
put_back(None)
if do(["gen", "a.root", "3"]) == (0, b"gen 3 entries 20 branches 20 baskets sum 1770\n", b""):
    generated = image()
ROWS = [
    ("import", ["import", "a.root", "T", "2", "id=id/I", "name=name/C"], None, IMPORTED, CSV),
    ("gen", ["gen", "a.root", "3"], None, (), b"", (shown(None), shown(planted), shown(generated))),
    ("five lines, new file", ["run", "a.root"], None, FIVE),
    ("five lines, existing file", ["run", "a.root"], gaps, FIVE),
    ("classes, new file", ["run", "a.root"], None, CLASSES),
    ("classes, existing file", ["run", "a.root"], classes, [CLASSES[1].replace("C{n", "C{Node{val: 0, next: null}, n").replace("w: [7, 255]", 't: "u"'), *CLASSES[2:3], "class E 1 { }", "delete L;1", "ls"]),
    ("batches, new file", ["run", "a.root"], None, BATCHES),
    ("batches, existing file", ["run", "a.root"], gaps, BATCHES[1:4] + [f"batch {{ g {ITEM.format('t')}, s {ITEM.format('q')} }}", "ls"]),
    ("trees, new file", ["run", "a.root"], None, TREES),
    ("trees, existing file", ["run", "a.root"], filled, ['fill T ["d", P{b: 4}]', "save T", "tree U y=y/D", "fill U [0x3ff0000000000000]", "scan T", "delete T;4", "ls"]),
    ("recover with two headers of a tree", ["recover", "a.root"], with_two_headers(), ()),
    ("recover with garbage", ["recover", "a.root"], opened(gaps), ()),
    ("recover with classes and garbage", ["recover", "a.root"], opened(classes), ()),
    ("recover, new file", ["recover", "a.root"], None, ()),
    ("ls", ["ls", "a.root"], classes, ()),
    ("dump", ["dump", "a.root"], classes, ()),
    ("dump of an item", ["dump", "a.root", "a;2"], classes, ()),
    ("dump of trees", ["dump", "a.root"], trees, ()),
    ("scan", ["scan", "a.root", "T"], trees, ()),
    ("scan in a version", ["scan", "a.root", "T", "Hit#2"], trees, ()),
    ("export", ["export", "a.root", "T"], trees, ()),
]
ROWS = [row for row in ROWS if wanted in row[0]]
for row in ROWS:
    Row(*row).try_each()
print(f"memory: {len(ROWS)} rows, each allocation refused in turn: as it should be")
P
