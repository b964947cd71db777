#!/usr/bin/env bash
# What a put costs in a file of 100 objects and in one of 50,000: 2,000 puts more in each, and 2,000 gets.
# Usage: [OBJECTS=50000] bench/put.sh [FOLDER] (builds the program first where it has to; one that isn't proved on this machine has checks
# in it and takes longer). The files stand in FOLDER, without one in memory where there is /dev/shm, since each put waits
# twice for the disk. Prints the microseconds of a put and of a get in each.
set -eu
top=$(cd "$(dirname "$0")/.." && pwd)
base=${1:-/dev/shm}
[ -d "$base" ] || base=/tmp
folder=$(mktemp -d "$base/put-XXXXXX")
trap 'rm -rf "$folder"' EXIT

"$top/rootio" ls "$top/crates/rootio/data/closed.root" >/dev/null
program=$top/crates/rootio/out/rootio
[ "$program" -nt "$top/out/rootio" ] || program=$top/out/rootio

# a script of so many puts, each under a name of its own, and of so many gets behind them
script() {
  python3 - "$1" "$2" <<'P'
import sys
puts, gets = int(sys.argv[1]), int(sys.argv[2])
body = 'TObjString{TObject{fUniqueID: 0, fBits: 0}, fString: "hi"}'
# names in an order that isn't that of the key list
names = [f"n{k * 7919 % 1000003}" for k in range(puts)]
for name in names:
    print("put", name, body)
for k in range(gets):
    print("get", names[k * 31 % puts])
P
}

# the nanoseconds of a run with so many puts and gets
duration() {
  script "$1" "$2" >"$folder/script"
  rm -f "$folder/a.root"
  local start end
  start=$(date +%s%N)
  "$program" run "$folder/a.root" <"$folder/script" >"$folder/said"
  end=$(date +%s%N)
  [ "$(grep -c '^ok ' "$folder/said")" -eq $(($1 + $2)) ] || { echo "put: not every command was done" >&2; exit 1; }
  echo $((end - start))
}

for objects in 100 "${OBJECTS:-50000}"; do
  before=$(duration "$objects" 0)
  puts=$(duration $((objects + 2000)) 0)
  gets=$(duration "$objects" 2000)
  echo "$objects objects: a put $(((puts - before) / 2000000)) us, a get $(((gets - before) / 2000000)) us, all of them $((before / 1000000)) ms"
done
