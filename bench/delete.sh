#!/usr/bin/env bash
# What put, delete, put again and get cost by the number of objects.
# Usage: [OBJECTS="100 5000 50000"] bench/delete.sh [FOLDER] (builds the program first where it has to). The files
# stand in FOLDER, without one in memory where there is /dev/shm, since each write waits for the disk. Prints the microseconds of a command,
# over 1,000 of them, in a file of so many objects.
set -eu
top=$(cd "$(dirname "$0")/.." && pwd)
base=${1:-/dev/shm}
[ -d "$base" ] || base=/tmp
folder=$(mktemp -d "$base/delete-XXXXXX")
trap 'rm -rf "$folder"' EXIT

"$top/rootio" ls "$top/crates/rootio/data/closed.root" >/dev/null
program=$top/crates/rootio/out/rootio
[ "$program" -nt "$top/out/rootio" ] || program=$top/out/rootio

python3 - "$program" "$folder" "${OBJECTS:-100 5000 50000}" <<'P'
import os, subprocess, sys, time
program, folder, objects = sys.argv[1:]
path = os.path.join(folder, "a.root")
value = 'TObjString{TObject{fUniqueID: 0, fBits: 0}, fString: "hi"}'

def run(lines):
    begun = time.monotonic()
    out = subprocess.run([program, "run", path], input="".join(x + "\n" for x in lines), capture_output=True, text=True)
    spent = time.monotonic() - begun
    assert out.returncode == 0 and out.stdout.count("ok ") == len(lines), (out.returncode, out.stdout[-300:])
    return spent

for count in map(int, objects.split()):
    if os.path.exists(path):
        os.remove(path)
    names = [f"n{k:06}" for k in range(count)]
    run([f"put {n} {value}" for n in names])
    opened = min(run([]) for _ in range(3))

    def each(lines):
        # less what opening and closing takes by now
        before = min(run([]) for _ in range(2))
        return 1000 * 1000 * (run(lines) - before) / len(lines)

    some = [names[k * 7919 % count] for k in range(1000)] if count >= 1000 else None
    if some is None:
        some = names * 10
        cycles = [k // count + 2 for k in range(1000)]
    else:
        cycles = [2] * 1000
    put = each([f"put {n} {value}" for n in some])
    get = each([f"get {n}" for n in some])
    delete = each([f"delete {n};{c}" for n, c in reversed(list(zip(some, cycles)))])
    again = each([f"put {n} {value}" for n in some])
    print(f"{count} objects: put {put:.0f} us, get {get:.0f}, delete {delete:.0f}, put again {again:.0f}; opened and closed in {1000 * opened:.0f} ms")
P
