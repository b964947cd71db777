#!/usr/bin/env bash
# What an import and a generated file cost, against the same rows into SQLite and HDF5, and their bytes with one sync.
# Usage: [ENTRIES=1000000] [FOLDER=..] bench/import.sh [PROGRAM]
# Without PROGRAM it is the one that ./rootio runs. The files are in a new folder within FOLDER, /tmp without one; in memory, as in
# /dev/shm, a sync costs nothing. The rows have 20 integers of one digit, so that a million of them stay below the limit of the
# input; those of a generated file are its own. Prints of each the seconds by the clock, those of the processor, and the peak memory,
# of an import and of a generated file also for a tenth of the entries. What is imported must be exported as the same text, and the
# line of a generated file must be the one that its definition gives. It needs python3 and gcc; sqlite3 (`.import` in one
# transaction) and h5py (a data set for each column, in blocks of 8,000, from the text and from numbers) are measured if they are
# there.
set -eu
top=$(cd "$(dirname "$0")/.." && pwd)
program=${1:-$top/rootio}
entries=${ENTRIES:-1000000}
tenth=$((entries / 10))
folder=$(mktemp -d "${FOLDER:-/tmp}/import-XXXXXX")
trap 'rm -rf "$folder"' EXIT
gcc -O2 -o "$folder/measure" "$top/bench/measure.c"
python3 - "$folder" "$entries" <<'P'
import sys
folder, entries = sys.argv[1], int(sys.argv[2])
rows = [[(e + 7 * j) % 10 for j in range(20)] for e in range(10)]
lines = [','.join(map(str, row)) + '\n' for row in rows]
numbers = [b''.join(n.to_bytes(4, 'big') for n in row) for row in rows]
with open(folder + '/rows.csv', 'w') as text, open(folder + '/raw', 'wb') as raw:
    for e in range(entries):
        text.write(lines[e % 10])
        raw.write(numbers[e % 10])
P
head -n "$tenth" "$folder/rows.csv" >"$folder/tenth.csv"
"$program" ls "$top/crates/rootio/data/closed.root" >/dev/null

# The seconds by the clock and of the processor, and the peak memory, of a command over an input.
run() {
    local name=$1 input=$2 from to seconds peak
    shift 2
    sync -f "$folder"
    from=$(date +%s.%N)
    read -r seconds peak < <("$folder/measure" "$folder/said" "$@" <"$input")
    to=$(date +%s.%N)
    [ -n "$seconds" ] || { echo "import: $name failed" >&2; exit 1; }
    python3 -c "print(f'  $name: {$to - $from:.2f} s by the clock, $seconds s of the processor, peak $peak MiB')"
}

# The line of a generated file of so many entries: the sum is that of the numbers from 0 on, 20 for each entry.
is_said() {
    python3 -c "n = $1; print(f'gen {n} entries 20 branches {20 * -(-n // 8000)} baskets sum {sum(range(20 * n))}')" |
        cmp - "$folder/said"
}

echo "$entries rows of 20 integers, $(du -m "$folder/rows.csv" | cut -f1) MB as text, $(du -m "$folder/raw" | cut -f1) MB as numbers"
specs=$(python3 -c "print(' '.join(f'b{j:02}=b{j:02}/I' for j in range(20)))")
run "import" "$folder/rows.csv" "$program" import "$folder/a.root" G 0 $specs
"$program" export "$folder/a.root" G >"$folder/again.csv"
cmp "$folder/rows.csv" "$folder/again.csv"
run "import of a tenth" "$folder/tenth.csv" "$program" import "$folder/b.root" G 0 $specs
run "gen" /dev/null "$program" gen "$folder/c.root" "$entries"
is_said "$entries"
run "gen of a tenth" /dev/null "$program" gen "$folder/d.root" "$tenth"
is_said "$tenth"
run "the bytes with one sync" "$folder/raw" dd of="$folder/copy" bs=1M conv=fsync

if command -v sqlite3 >/dev/null; then
    columns=$(python3 -c "print(', '.join(f'b{j:02} integer' for j in range(20)))")
    printf 'create table G (%s);\nbegin;\n.import --csv %s G\ncommit;\n' "$columns" "$folder/rows.csv" >"$folder/load.sql"
    run "sqlite3 .import" /dev/null sqlite3 "$folder/rows.db" ".read $folder/load.sql"
    [ "$(sqlite3 "$folder/rows.db" 'select count(*) from G')" = "$entries" ] || { echo "import: SQLite hasn't all rows" >&2; exit 1; }
else
    echo "  no sqlite3 here"
fi

cat >"$folder/columns.py" <<'P'
import os, sys
import h5py, numpy
path, entries = sys.argv[1], int(sys.argv[2])
BLOCK = 8000


# Blocks of rows: of the text that is the input, or those of a generated file.
def blocks():
    if entries == 0:
        while lines := sys.stdin.buffer.readlines(BLOCK * 40):
            yield numpy.loadtxt(lines, delimiter=',', dtype='int32', ndmin=2)
    for first in range(0, entries, BLOCK):
        last = min(first + BLOCK, entries)
        yield numpy.arange(20 * first, 20 * last, dtype='int32').reshape(-1, 20)


with h5py.File(path, 'w') as file:
    columns = [file.create_dataset(f'b{j:02}', (0,), dtype='int32', maxshape=(None,), chunks=(BLOCK,)) for j in range(20)]
    for rows in blocks():
        for j, column in enumerate(columns):
            at = len(column)
            column.resize((at + len(rows),))
            column[at:] = rows[:, j]
    file.flush()
with open(path, 'rb') as file:
    os.fsync(file.fileno())
P
for python in python3 /usr/bin/python3; do
    if "$python" -c 'import h5py, numpy' 2>/dev/null; then
        run "h5py from the text" "$folder/rows.csv" "$python" "$folder/columns.py" "$folder/rows.h5" 0
        run "h5py from numbers" /dev/null "$python" "$folder/columns.py" "$folder/numbers.h5" "$entries"
        exit 0
    fi
done
echo "  no h5py here"
