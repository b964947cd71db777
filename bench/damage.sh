#!/usr/bin/env bash
# Damages files at random places, and looks at how each verb ends on them.
# Usage: [SEED=1] bench/damage.sh [IMAGES=2000] (of the proved program: `./build` makes it, or PROGRAM names it). Each image is a file of a few
# kilobytes (of the five worked lines, of classes, of trees that a script made, of a tree of another writer) with some bytes or words
# replaced, or cut. Each verb is run on it with 128 MB of memory, so that none may take memory by a number that the file doesn't bear out:
# - a reading verb ends with status 0 and whole lines, or with 2, one line on standard error and nothing printed, and the file is as it was.
#   All of them end by the same fault, but for those of the class list, which `ls` doesn't read;
# - `run` and `recover` end with status 0, or both with the same status 2 or 7 and the same line, and the file is as it was;
# - what `recover` leaves and prints is listed so by `ls`, and a second `recover` leaves the same bytes.
# A tree that claims very many entries may print without an end; then the run is cut short.
set -eu
top=$(cd "$(dirname "$0")/.." && pwd)
base=/dev/shm
[ -d "$base" ] || base=/tmp
folder=$(mktemp -d "$base/damage-XXXXXX")
trap 'rm -rf "$folder"' EXIT
program=${PROGRAM:-$top/crates/rootio/out/rootio}
[ -x "$program" ] || { echo "damage: there is no program $program" >&2; exit 1; }
python3 - "$top" "$folder" "$program" "${1:-2000}" "${SEED:-1}" <<'P'
import collections, os, random, re, resource, shutil, signal, subprocess, sys, tempfile
top, folder, program = sys.argv[1:4]
images, seed = map(int, sys.argv[4:])
random.seed(seed)
path, said_to = os.path.join(folder, "a.root"), os.path.join(folder, "said")
LINES, SECONDS, MEMORY = 4 << 20, 5, 128 << 20
done = collections.Counter()


def stop(why, image):
    kept = tempfile.mkdtemp(prefix="damage-kept-")
    with open(os.path.join(kept, "a.root"), "wb") as file:
        file.write(image)
    print(f"damage: {why}; the image is in {kept}", file=sys.stderr)
    sys.exit(1)


def limit():
    signal.signal(signal.SIGXFSZ, signal.SIG_IGN)
    resource.setrlimit(resource.RLIMIT_AS, (MEMORY, MEMORY))
    resource.setrlimit(resource.RLIMIT_CPU, (SECONDS, SECONDS + 5))
    resource.setrlimit(resource.RLIMIT_FSIZE, (LINES, LINES))


End = collections.namedtuple("End", "status said told after")


def do(image, words, script=b""):
    """Does a run on this image: its status, what it printed, its line on standard error, and the file after it."""
    with open(path, "wb") as file:
        file.write(image)
    with open(said_to, "wb") as said:
        run = subprocess.run([program, *words], input=script, stdout=said, stderr=subprocess.PIPE, cwd=folder, preexec_fn=limit, restore_signals=False)
    with open(said_to, "rb") as said, open(path, "rb") as file:
        return End(run.returncode, said.read(), run.stderr, file.read())


def made(lines):
    if os.path.exists(path):
        os.remove(path)
    run = subprocess.run([program, "run", "a.root"], input="".join(line + "\n" for line in lines).encode(), capture_output=True, cwd=folder)
    with open(path, "rb") as file:
        image = file.read()
    if run.returncode or b"no " in run.stdout:
        stop(f"a file isn't made: {run.stdout} {run.stderr}", image)
    return image


def string(name, text):
    return f'put {name} TObjString{{TObject{{fUniqueID: 0, fBits: 0}}, fString: "{text}"}}'


NODE = "class Node 1 { val: i32, next: Node* }"
FILES = [
    (made([string("s", "hi"), string("s", "ho"), "delete s;2", string("s", "hu")]), [("scan", "s")]),
    (made([NODE, "put L Node{val: 1, next: @0=Node{val: 2, next: @1=Node{val: 3, next: null}}}", "put c Node{val: 1, next: @0=Node{val: 2, next: @0}}",
           "class C 1 { n: i32, w: u8[n], f: f64[3], t: text, b: bool }", 'put a C{n: 2, w: [7, 255], f: [0x0000000000000000, 0x3ff0000000000000, 0x0000000000000001], t: "text", b: true}',
           "put l TList{TObject{fUniqueID: 0, fBits: 0}, fName: \"two\", items: [[@0=TObjString{TObject{fUniqueID: 0, fBits: 0}, fString: \"a\"}, \"\"], [@0, \"x\"]]}",
           "delete c;1"]), [("scan", "a")]),
    (made([NODE, "tree V n=n/I v=v[n]/F x=x[3]/s", "fill V [0, [], [1, 2, 3]]", "fill V [2, [0x3f800000, 0x40000000], [4, 5, 6]]", "save V",
           "tree T x=x/C p=class:Node", 'fill T ["a", Node{val: 1, next: @0=Node{val: 2, next: null}}]', 'fill T ["", Node{val: 2, next: null}]', "save T",
           "class Node 2 { val: i64 }", "fill V [1, [0x00000001], [7, 8, 9]]", string("s", "x")]),
     [("scan", "V"), ("scan", "T"), ("scan", "T", "Node#2"), ("export", "V"), ("export", "T")]),
]
subprocess.run([sys.executable, os.path.join(top, "bench/tree_file.py"), path, "small"], check=True)
with open(path, "rb") as file:
    FILES.append((file.read(), [("scan", "T"), ("scan", "T", "Hit#2"), ("export", "T")]))

WORDS = [0, 1, 2, 3, 4, 0x10, 0x64, 0x1000, 0x7FFFFFFF, 0x80000000, 0xFFFFFFFF, 0xFFFFFFFE, 0xFFFFFFFC, 0x40000000, 0x3FFFFFFF, 0x4FFFFFFF, 0x77359400]


def damaged(whole):
    image = bytearray(whole)
    for _ in range(random.choice([1, 1, 1, 2, 3])):
        at = random.randrange(len(image))
        how = random.random()
        if how < 0.35:
            image[at] = random.choice([0, 1, 0x7F, 0x80, 0xFF, (image[at] + 1) % 256, (image[at] - 1) % 256, random.randrange(256)])
        elif how < 0.85:
            # a word or half of it, in or out of line
            width, word = random.choice([(4, random.choice(WORDS)), (4, random.getrandbits(32)), (2, random.choice(WORDS) % 65536), (4, len(image) - at), (4, len(image))])
            image[at : at + width] = word.to_bytes(width, "big")
        elif how < 0.93:
            source = random.randrange(len(image))
            image[at : at + 8] = image[source : source + 8]
        else:
            del image[max(at, 4):]
    return bytes(image)


FAULT = re.compile(rb"rootio: (bad file|read only) at \d+: [A-Za-z]+\n")
OF_CLASSES = (b": BadInfo\n", b": Compressed\n")


def check_reading(image, words, end):
    what = " ".join(words)
    if end.after != image:
        stop(f"{what}: the file has changed", image)
    if end.status == -signal.SIGXCPU or end.status == 8 and len(end.said) >= LINES - 65536:
        done["cut short"] += 1
        if words[0] not in ("scan", "export"):
            stop(f"{what}: it doesn't end", image)
    elif end.status == 5 and len(words) == 4:
        # the zero of an array is as long as a damaged class says
        done["zeros without memory"] += 1
    elif end.status == 0:
        if end.told or end.said and not end.said.endswith(b"\n"):
            stop(f"{what}: status 0, {end.told}, {end.said[-80:]}", image)
    elif end.status != 2 or end.said or not FAULT.fullmatch(end.told):
        stop(f"{what}: status {end.status}, {end.told}, {end.said[:80]}", image)


def check_image(image, scans):
    ls, dump = do(image, ["ls", "a.root"]), do(image, ["dump", "a.root"])
    check_reading(image, ["ls"], ls)
    check_reading(image, ["dump"], dump)
    if (ls.status, ls.told) != (dump.status, dump.told) and (ls.status or not dump.told.endswith(OF_CLASSES)):
        stop(f"ls and dump: {ls.told} and {dump.told}", image)
    for verb, *more in scans:
        end = do(image, [verb, "a.root", *more])
        check_reading(image, [verb, "a.root", *more], end)
        if end.status in (0, 2) and (end.status, end.told) != (dump.status, dump.told):
            stop(f"{verb} and dump: {end.told} and {dump.told}", image)
    done[f"read with status {dump.status}"] += 1
    run, recover = do(image, ["run", "a.root"], b"ls\n"), do(image, ["recover", "a.root"])
    if (run.status, run.told) != (recover.status, recover.told) or run.after != recover.after:
        stop(f"run and recover: {run.status} {run.told} and {recover.status} {recover.told}", image)
    done[f"written to with status {run.status}"] += 1
    if run.status == 0:
        items = [line.split(b" ")[:2] for line in run.said.splitlines()[1:]]
        if run.told or items != [line.split(b" ")[:2] for line in recover.said.splitlines()]:
            stop(f"run and recover list {run.said} and {recover.said}", image)
        ls, again = do(recover.after, ["ls", "a.root"]), do(recover.after, ["recover", "a.root"])
        if (ls.status, ls.said) != (0, recover.said) or (again.status, again.said, again.after) != (0, recover.said, recover.after):
            stop("what recover leaves isn't as it says", image)
    elif run.status not in (2, 7) or run.said or recover.said or run.after != image or not FAULT.fullmatch(run.told):
        stop(f"run: status {run.status}, {run.told}", image)


for whole, scans in FILES:
    check_image(whole, scans)
for _ in range(images):
    whole, scans = random.choice(FILES)
    check_image(damaged(whole), scans)
print(f"damage: {images} images: {', '.join(f'{count} {name}' for name, count in sorted(done.items()))}")
P
