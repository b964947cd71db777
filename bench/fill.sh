#!/usr/bin/env bash
# What filling and saving a tree costs, on a new file and on one with many objects, against the same rows into SQLite and HDF5.
# Usage: [ROWS=1000000] [BRANCHES=20] [PART=250000] [OBJECTS=50000] bench/fill.sh [PROGRAM]
# Without PROGRAM it is the one that ./rootio runs. A script has at most 64 MiB, so the rows come in parts: each is a run that fills
# PART rows and saves them, and each but the first opens the file with the tree. The commands of a script are all in memory, so the
# peak has them too: that of a run with the same lines but no tree is printed beside it. It needs python3 and gcc; sqlite3 and h5py
# are measured if they are there (one transaction; a data set for each column, in blocks of 8,000).
set -eu
top=$(cd "$(dirname "$0")/.." && pwd)
program=${1:-$top/rootio}
rows=${ROWS:-1000000}
branches=${BRANCHES:-20}
part=${PART:-250000}
objects=${OBJECTS:-50000}
base=/dev/shm
[ -d "$base" ] || base=/tmp
folder=$(mktemp -d "$base/fill-XXXXXX")
trap 'rm -rf "$folder"' EXIT
gcc -O2 -o "$folder/measure" "$top/bench/measure.c"
python3 - "$folder" "$rows" "$branches" "$part" "$objects" <<'P'
import sys
folder, rows, branches, part, objects = sys.argv[1], *map(int, sys.argv[2:])
turns = [[str((e + 7 * j) % 10) for j in range(branches)] for e in range(10)]
tree = 'tree G ' + ' '.join(f'b{j:02}=b{j:02}/I' for j in range(branches)) + '\n'
for number, first in enumerate(range(0, rows, part)):
    with open(f'{folder}/part{number:03}', 'w') as text, open(f'{folder}/idle{number:03}', 'w') as idle:
        for e in range(first, min(first + part, rows)):
            text.write((tree if e == 0 else '') + 'fill G [' + ', '.join(turns[e % 10]) + ']\n')
            idle.write('fill G [' + ', '.join(turns[e % 10]) + ']\n')
        text.write('save G\n')
with open(folder + '/rows.csv', 'w') as text:
    for e in range(rows):
        text.write(','.join(turns[e % 10]) + '\n')
with open(folder + '/objects', 'w') as text:
    for k in range(objects):
        text.write(f'put o{k} TObjString{{TObject{{fUniqueID: 0, fBits: 0}}, fString: "hi"}}\n')
P

# The seconds by the clock and of the processor, and the greatest peak, of a command over each of some inputs.
run() {
    local name=$1 inputs=$2 input from seconds peak total=0 greatest=0
    shift 2
    from=$(date +%s.%N)
    for input in "$folder"/$inputs; do
        read -r seconds peak < <("$folder/measure" "$folder/said" "$@" <"$input")
        total=$(python3 -c "print($total + $seconds)")
        greatest=$(python3 -c "print(max($greatest, $peak))")
    done
    python3 -c "import time; print(f'  $name: {time.time() - $from:.2f} s by the clock, {$total:.2f} s of the processor, peak $greatest MiB')"
}

counted() {
    [ "$("$program" scan "$1" G 2>/dev/null | head -n 1)" = "ok scan G $rows" ] || { echo "fill: not every row is there" >&2; exit 1; }
}

echo "$rows rows of $branches integers, in parts of $part"
run "the lines alone, refused" 'idle*' "$program" run "$folder/none.root"
run "a new file" 'part*' "$program" run "$folder/a.root"
counted "$folder/a.root"
"$program" run "$folder/b.root" <"$folder/objects" >/dev/null
run "a file with $objects objects" 'part*' "$program" run "$folder/b.root"
counted "$folder/b.root"

if command -v sqlite3 >/dev/null; then
    columns=$(python3 -c "print(', '.join(f'b{j:02} integer' for j in range($branches)))")
    printf 'create table G (%s);\nbegin;\n.import --csv %s G\ncommit;\n' "$columns" "$folder/rows.csv" >"$folder/load.sql"
    run "sqlite3 .import" rows.csv sqlite3 "$folder/rows.db" ".read $folder/load.sql"
else
    echo "  no sqlite3 here"
fi

cat >"$folder/columns.py" <<'P'
import os, sys
import h5py, numpy
path, branches = sys.argv[1], int(sys.argv[2])
BLOCK = 8000
with h5py.File(path, 'w') as file:
    columns = [file.create_dataset(f'b{j:02}', (0,), dtype='int32', maxshape=(None,), chunks=(BLOCK,)) for j in range(branches)]
    while lines := sys.stdin.buffer.readlines(BLOCK * 2 * branches):
        rows = numpy.loadtxt(lines, delimiter=',', dtype='int32', ndmin=2)
        for j, column in enumerate(columns):
            at = len(column)
            column.resize((at + len(rows),))
            column[at:] = rows[:, j]
    file.flush()
with open(path, 'rb') as file:
    os.fsync(file.fileno())
P
for python in python3 /usr/bin/python3; do
    if "$python" -c 'import h5py, numpy' 2>/dev/null; then
        run h5py rows.csv "$python" "$folder/columns.py" "$folder/rows.h5" "$branches"
        exit 0
    fi
done
echo "  no h5py here"
