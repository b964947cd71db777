#!/usr/bin/env bash
# What a scan of one entry costs where many leaves are counted by many: 100, 400 and 1,600 counters, and as many arrays, in
# one branch and in two. The time should grow with the number, not with its square.
# Usage: bench/pairs.sh [PROGRAM]. Without PROGRAM it is the one that ./rootio runs. Prints the processor's seconds of each.
# It needs python3, which makes the files.
set -eu
top=$(cd "$(dirname "$0")/.." && pwd)
program=${1:-$top/rootio}
folder=$(mktemp -d)
trap 'rm -rf "$folder"' EXIT

for branches in 1 2; do
  for count in 100 400 1600; do
    python3 "$top/bench/tree_file.py" "$folder/a.root" pairs "$count" "$branches"
    [ "$branches" = 1 ] && where='one branch' || where='two branches'
    printf '%s pairs in %s: ' "$count" "$where"
    { TIMEFORMAT='%U s'; time "$program" scan "$folder/a.root" G >"$folder/said"; } 2>&1
    [ "$(head -n 1 "$folder/said")" = 'ok scan G 1' ] || { echo 'pairs: the tree was not scanned' >&2; exit 1; }
  done
done
