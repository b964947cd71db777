#!/usr/bin/env bash
# What a scan and an export cost, against printing the same lines from numbers in memory by a C program (rows.c), all into files.
# Usage: [ENTRIES=1000000] [BRANCHES=20] bench/scan.sh [PROGRAM]: a tree of branches of one integer each; the same rows are also
#            had as CSV from SQLite (`sqlite3 -csv`) and from HDF5 (h5py, a data set for each branch, in blocks of 8,000), if
#            these are there;
#        [ENTRIES=200000] bench/scan.sh counted [PROGRAM]: a tree of a counter, of a branch that counts an array of its own, and
#            of 8 branches of arrays that the first branch counts; a scan must print what the file's maker says;
#        [ENTRIES=1000000] bench/scan.sh objects [PROGRAM]: a tree of a number and an object at each entry; the objects are
#            scanned in another version of their class too.
# Without PROGRAM it is the one that ./rootio runs. Prints of each the processor's seconds, how many times as long it takes as
# printing its lines, and the peak memory, for a scan also over a tenth of the entries. What is printed must be the lines of
# rows.c, byte for byte. It needs python3, which makes the files (tree_file.py), and gcc.
set -eu
top=$(cd "$(dirname "$0")/.." && pwd)
tree=wide
case ${1-} in counted | objects) tree=$1 && shift ;; esac
program=${1:-$top/rootio}
branches=${BRANCHES:-20}
entries=1000000
[ "$tree" != counted ] || entries=200000
entries=${ENTRIES:-$entries}
[ "$tree" = wide ] || branches=0
folder=$(mktemp -d)
trap 'rm -rf "$folder"' EXIT
gcc -O2 -o "$folder/rows" "$top/bench/rows.c"
gcc -O2 -o "$folder/measure" "$top/bench/measure.c"

# A file with so many entries, and of the tree `counted` the lines that a scan of it is to print.
make_file() {
    case $tree in
    wide) python3 "$top/bench/tree_file.py" "$folder/$1.root" wide "$2" "$branches" ;;
    counted) python3 "$top/bench/tree_file.py" "$folder/$1.root" counted "$2" "$folder/$1.lines" ;;
    objects) python3 "$top/bench/tree_file.py" "$folder/$1.root" objects "$2" ;;
    esac
}

ratio() { python3 -c "print(f'{$1 / max($2, 0.001):.1f}')"; }

# The lines of this form, printed by rows.c: the first word is what they are called below.
print_rows() { read -r printing _ < <("$folder/measure" "$folder/printed" "$folder/rows" "$tree" "$1" "$entries" "$branches"); }

# One command over the whole file, whose lines must be those of rows.c.
compare() {
    local name=$1 seconds peak
    shift
    read -r seconds peak < <("$folder/measure" "$folder/made" "$@")
    cmp "$folder/printed" "$folder/made"
    echo "  $name ${seconds} s, printing ${printing} s, ratio $(ratio "$seconds" "$printing"), peak ${peak} MiB"
}

make_file whole "$entries"
make_file tenth $((entries / 10))
"$program" ls "$folder/whole.root" >/dev/null
echo "$tree: $entries entries, $(du -m "$folder/whole.root" | cut -f1) MB"
print_rows scan
compare scan "$program" scan "$folder/whole.root" G
if [ "$tree" = counted ]; then cmp "$folder/whole.lines" "$folder/made"; fi
read -r _ tenth < <("$folder/measure" "$folder/made.tenth" "$program" scan "$folder/tenth.root" G)
if [ "$tree" = counted ]; then cmp "$folder/tenth.lines" "$folder/made.tenth"; fi
echo "  peak of a scan over a tenth ${tenth} MiB"
if [ "$tree" = objects ]; then
    print_rows as
    compare "scan in another version" "$program" scan "$folder/whole.root" G P#2
fi
print_rows export
compare export "$program" export "$folder/whole.root" G
[ "$tree" = wide ] || exit 0

# The same numbers in a table of SQLite.
if command -v sqlite3 >/dev/null; then
    python3 - "$folder/rows.db" "$entries" "$branches" <<'P'
import sqlite3
import sys
path, entries, branches = sys.argv[1], int(sys.argv[2]), int(sys.argv[3])
table = sqlite3.connect(path)
table.execute('create table G (' + ', '.join(f'b{j:02} integer' for j in range(branches)) + ')')
rows = (tuple(range(e * branches, (e + 1) * branches)) for e in range(entries))
table.executemany('insert into G values (' + ', '.join('?' * branches) + ')', rows)
table.commit()
P
    compare "sqlite3 -csv" sqlite3 -csv -newline $'\n' "$folder/rows.db" 'select * from G'
else
    echo "  no sqlite3 here"
fi

# The same numbers in an HDF5 file.
cat >"$folder/columns.py" <<'P'
import sys
import h5py
verb, path = sys.argv[1], sys.argv[2]
BLOCK = 8000
if verb == 'make':
    import numpy
    entries, branches = int(sys.argv[3]), int(sys.argv[4])
    with h5py.File(path, 'w') as file:
        for j in range(branches):
            numbers = numpy.arange(entries, dtype='int32') * branches + j
            file.create_dataset(f'b{j:02}', data=numbers, chunks=(min(BLOCK, entries),))
else:
    with h5py.File(path, 'r') as file:
        columns = [file[name] for name in sorted(file)]
        for at in range(0, len(columns[0]), BLOCK):
            rows = zip(*(map(str, column[at:at + BLOCK].tolist()) for column in columns))
            sys.stdout.writelines(','.join(row) + '\n' for row in rows)
P
for python in python3 /usr/bin/python3; do
    if "$python" -c 'import h5py' 2>/dev/null; then
        "$python" "$folder/columns.py" make "$folder/rows.h5" "$entries" "$branches"
        compare "h5py" "$python" "$folder/columns.py" read "$folder/rows.h5"
        exit 0
    fi
done
echo "  no h5py here"
