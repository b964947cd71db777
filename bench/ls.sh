#!/usr/bin/env bash
# What listing costs: a file of 2 KB and one of 2 GB with the same keys, and a key list of 100,000 keys.
# Usage: bench/ls.sh (builds the program first where it has to; one that isn't proved on this machine has checks in it and
# takes longer). Prints the time and the bytes read of each.
set -eu
top=$(cd "$(dirname "$0")/.." && pwd)
folder=$(mktemp -d)
trap 'rm -rf "$folder"' EXIT

python3 - "$top/crates/rootio/data/closed.root" "$folder" <<'P'
import struct, sys
closed, folder = open(sys.argv[1], "rb").read(), sys.argv[2]

def word(data, place, value):
    return data[:place] + struct.pack(">I", value) + data[place + 4:]

# the key list moved to `place`, with END behind it
def moved(place, keys):
    head = struct.pack(">iHIIHHII", 40 + 4 + len(keys), 4, 4 + len(keys), 1, 40, 1, place, 100)
    key_list = head + b"\x05TFile\x06a.root\x00" + struct.pack(">I", len(keys) // 40) + keys
    front = word(word(closed, 174, place), 12, place + len(key_list))
    return front[:208], key_list

one = closed[312:352]
for name, place, keys in (("small", 2048, one), ("large", 1900000000, one), ("many", 2048, one * 100000)):
    front, key_list = moved(place, keys)
    with open(f"{folder}/{name}.root", "wb") as file:
        file.write(front)
        file.seek(place)
        file.write(key_list)
P

"$top/rootio" ls "$folder/small.root" >/dev/null
program=$top/crates/rootio/out/rootio
[ "$program" -nt "$top/out/rootio" ] || program=$top/out/rootio
for name in small large many; do
  file=$folder/$name.root
  printf '%s: %s bytes, %s lines, ' "$name" "$(stat -c %s "$file")" "$("$program" ls "$file" | wc -l)"
  read_bytes=$(strace -f -e trace=read,pread64 "$program" ls "$file" 2>&1 >/dev/null | grep -oE '= [0-9]+$' | awk '{s += $2} END {print s + 0}' || true)
  { TIMEFORMAT='%R s'; time "$program" ls "$file" >/dev/null; } 2>&1 | tr '\n' ' '
  printf '%s bytes read\n' "${read_bytes:-?}"
done
