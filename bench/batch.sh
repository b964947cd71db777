#!/usr/bin/env bash
# What objects cost as puts and as batches: the same objects, each by a put of its own, and in batches of 1,000.
# Usage: [OBJECTS=20000] bench/batch.sh [FOLDER] (builds the program first where it has to; one that isn't proved on this machine has checks
# in it and takes longer; PROGRAM may name the program). The file stands in FOLDER, without one in memory where there is /dev/shm; on a real
# disk a put takes as long as two waits for it. Prints the milliseconds of each run by the clock and of the processor. Both have to leave the
# same bytes. Last comes a line of ten times as many puts, which is refused.
set -eu
top=$(cd "$(dirname "$0")/.." && pwd)
base=${1:-/dev/shm}
[ -d "$base" ] || base=/tmp
folder=$(mktemp -d "$base/batch-XXXXXX")
trap 'rm -rf "$folder"' EXIT

program=${PROGRAM:-}
if [ -z "$program" ]; then
  "$top/rootio" ls "$top/crates/rootio/data/closed.root" >/dev/null
  program=$top/crates/rootio/out/rootio
  [ "$program" -nt "$top/out/rootio" ] || program=$top/out/rootio
fi

python3 - "$program" "$folder" "${OBJECTS:-20000}" <<'P'
import os, resource, subprocess, sys, time
program, folder, objects = sys.argv[1], sys.argv[2], int(sys.argv[3])
path = os.path.join(folder, "a.root")
BODY = 'TObjString{TObject{fUniqueID: 0, fBits: 0}, fString: "hi"}'
# names in an order that isn't that of the key list
puts = [f"n{k * 7919 % 1000003} {BODY}" for k in range(objects)]


def batch(items):
    return f"batch {{ {', '.join(items)} }}"


def run(name, lines, said):
    """Does a run on a new file, prints what it takes, and returns the bytes that it leaves."""
    if os.path.exists(path):
        os.remove(path)
    script = "".join(line + "\n" for line in lines).encode()
    used = resource.getrusage(resource.RUSAGE_CHILDREN)
    begun = time.monotonic()
    out = subprocess.run([program, "run", path], input=script, capture_output=True)
    clock = time.monotonic() - begun
    then = resource.getrusage(resource.RUSAGE_CHILDREN)
    processor = then.ru_utime + then.ru_stime - used.ru_utime - used.ru_stime
    if out.returncode or not all(line.startswith(said) for line in out.stdout.splitlines()):
        sys.exit(f"batch: {name}: status {out.returncode}, {out.stdout[:60]}")
    print(f"{name}: {1000 * clock:.0f} ms by the clock, {1000 * processor:.0f} of the processor")
    with open(path, "rb") as file:
        return file.read()


one = run(f"{objects} puts", [f"put {it}" for it in puts], b"ok put ")
all_of_them = [batch(puts[k : k + 1000]) for k in range(0, objects, 1000)]
if run(f"{len(all_of_them)} batches", all_of_them, b"ok batch ") != one:
    sys.exit("batch: the batches leave other bytes than the puts")
run(f"a line of {10 * objects} puts", [batch(puts * 10)], b"no 18 TooMany")
P
