#!/usr/bin/env bash
# What a declaration costs in a script, in time and bytes, by the number of classes: each writes the whole class list.
# Usage: [CLASSES="10 500 4096"] bench/classes.sh [FOLDER] (builds the program first where it has to). The files stand in FOLDER,
# without one in memory where there is /dev/shm. For each number a script declares so many classes of one member in a new file;
# then values of these are put, printed and deleted. The same with so many versions of one class. Prints the seconds of the run, how many bytes its writes had (from
# /proc/PID/io), the file's length, the milliseconds of opening and closing, the
# microseconds of a put, a get and a delete, over 1,000 of each, and the memory of the largest run.
set -eu
top=$(cd "$(dirname "$0")/.." && pwd)
base=${1:-/dev/shm}
[ -d "$base" ] || base=/tmp
folder=$(mktemp -d "$base/classes-XXXXXX")
trap 'rm -rf "$folder"' EXIT

"$top/rootio" ls "$top/crates/rootio/data/closed.root" >/dev/null
program=$top/crates/rootio/out/rootio
[ "$program" -nt "$top/out/rootio" ] || program=$top/out/rootio

python3 - "$program" "$folder" "${CLASSES:-10 500 4096}" <<'P'
import os, resource, subprocess, sys, time
program, folder, numbers = sys.argv[1:]
path = os.path.join(folder, "a.root")

def run(lines):
    """Runs a script; returns its replies, the seconds, and the bytes that it wrote."""
    said, told = os.path.join(folder, "said"), os.path.join(folder, "script")
    with open(told, "w") as script:
        script.write("".join(x + "\n" for x in lines))
    begun = time.monotonic()
    with open(told) as script, open(said, "w") as text:
        it = subprocess.Popen([program, "run", path], stdin=script, stdout=text)
        # (the figures of a process stay until it is waited for)
        os.waitid(os.P_PID, it.pid, os.WEXITED | os.WNOWAIT)
        with open(f"/proc/{it.pid}/io") as figures:
            written = dict(x.split(": ") for x in figures.read().splitlines())["wchar"]
        assert it.wait() == 0, it.returncode
    return open(said).read().splitlines(), time.monotonic() - begun, int(written) - os.path.getsize(said)

def measure(what, count, name, version):
    """Declares so many classes, whose names and versions are told by their numbers, and measures commands on their objects."""
    if os.path.exists(path):
        os.remove(path)
    replies, seconds, written = run([f"class {name(k)} {version(k)} {{ a: i32 }}" for k in range(count)])
    assert replies == [f"ok class {name(k)} {version(k)}" for k in range(count)], replies[-1:]
    size = os.path.getsize(path)
    opened = min(run([])[1] for _ in range(3))
    last = f"{name(count - 1)}"
    replies, _, _ = run([f"put x {last}{{a: 7}}", "get x"])
    assert replies == ["ok put x;1", f"ok get x;1 {last}#{version(count - 1)}{{a: 7}}"], replies
    # commands on objects of these classes, less what opening and closing takes
    names = [name(k * 7919 % count) for k in range(1000)]
    put = 1000 * (run([f"put n {it}{{a: {k}}}" for k, it in enumerate(names)])[1] - opened)
    get = 1000 * (run([f"get n;{k + 1}" for k in range(1000)])[1] - opened)
    replies, delete, _ = run([f"delete n;{k + 1}" for k in range(1000)])
    assert replies == [f"ok delete n;{k + 1}" for k in range(1000)], replies[-1:]
    delete = 1000 * (delete - opened)
    memory = resource.getrusage(resource.RUSAGE_CHILDREN).ru_maxrss // 1024
    print(f"{count} {what}: {seconds:.2f} s ({1000 * seconds / count:.2f} ms each), {written} bytes written, a file of {size}; "
          f"opened and closed in {1000 * opened:.0f} ms; "
          f"put {put:.0f} us, get {get:.0f}, delete {delete:.0f}; at most {memory} MiB so far", flush=True)

for count in map(int, numbers.split()):
    measure("classes", count, lambda k: f"C{k:05}", lambda k: 1)
for count in map(int, numbers.split()):
    measure("versions of one class", count, lambda k: "C", lambda k: k + 1)
P
