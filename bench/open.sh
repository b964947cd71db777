#!/usr/bin/env bash
# What opening a file costs, by the number of its objects, and a put in a file with many gaps.
# Usage: [OBJECTS="100 5000 50000"] [GAPS=49000] bench/open.sh [FOLDER] (builds the program first where it has to; one that isn't proved on
# this machine has checks in it and takes longer). The files stand in FOLDER, without one in memory where there is /dev/shm. Prints the
# milliseconds of a run without commands on files of so many objects: it opens and closes the file. Then the microseconds of a put that
# fits no gap, and of one that takes a gap, in a file with so many gaps, each between two objects.
set -eu
top=$(cd "$(dirname "$0")/.." && pwd)
base=${1:-/dev/shm}
[ -d "$base" ] || base=/tmp
folder=$(mktemp -d "$base/open-XXXXXX")
trap 'rm -rf "$folder"' EXIT

"$top/rootio" ls "$top/crates/rootio/data/closed.root" >/dev/null
program=$top/crates/rootio/out/rootio
[ "$program" -nt "$top/out/rootio" ] || program=$top/out/rootio

# a script of so many puts, each under a name of its own that begins with this letter, of a text of so many bytes
puts() {
  python3 - "$1" "$2" "$3" <<'P'
import sys
letter, count, length = sys.argv[1], int(sys.argv[2]), int(sys.argv[3])
text = "x" * length
for k in range(count):
    print(f'put {letter}{k * 7919 % 1000003:06} TObjString{{TObject{{fUniqueID: 0, fBits: 0}}, fString: "{text}"}}')
P
}

# the nanoseconds of a run of the script on the file
duration() {
  local start end
  start=$(date +%s%N)
  "$program" run "$1" <"$2" >"$folder/said"
  end=$(date +%s%N)
  ! grep -qv '^ok ' "$folder/said" || { echo "open: not every command was done" >&2; exit 1; }
  echo $((end - start))
}

: >"$folder/none"
for objects in ${OBJECTS:-100 5000 50000}; do
  puts n "$objects" 2 >"$folder/script"
  duration "$folder/$objects.root" "$folder/script" >/dev/null
  echo "$objects objects: opened and closed in $(($(duration "$folder/$objects.root" "$folder/none") / 1000000)) ms"
done

# a file of twice as many objects, every second of which becomes a gap, left as a run leaves it that is cut off
gaps=${GAPS:-49000}
puts n $((2 * gaps)) 2 >"$folder/script"
duration "$folder/gaps.root" "$folder/script" >/dev/null
python3 - "$folder/gaps.root" <<'P'
import sys
with open(sys.argv[1], "r+b") as file:
    data = bytearray(file.read())
    place, second = 100 + int.from_bytes(data[100:104], "big"), False
    while data[place + 26 : place + 37] == b"\x0aTObjString":
        length = int.from_bytes(data[place : place + 4], "big")
        if second:
            data[place : place + 4] = (2**32 - length).to_bytes(4, "big")
        place, second = place + length, not second
    data[12:16] = (2000000000).to_bytes(4, "big")
    file.seek(0)
    file.write(data)
P
"$program" recover "$folder/gaps.root" >"$folder/said"
# the microseconds of a put, by runs of few and of many puts of a text of so many bytes
per_put() {
  local few many
  puts p 100 "$1" >"$folder/script"
  cp "$folder/gaps.root" "$folder/more.root"
  few=$(duration "$folder/more.root" "$folder/script")
  puts p 20100 "$1" >"$folder/script"
  cp "$folder/gaps.root" "$folder/more.root"
  many=$(duration "$folder/more.root" "$folder/script")
  echo $(((many - few) / 20000000))
}
echo "$gaps gaps: a put at the end $(per_put 200) us, one into a gap $(per_put 2) us"
