#!/usr/bin/env bash
# Each crate uses only crates of lower floors, as docs/architecture.md lists them, and no floor is above the eighth.
# What sessions and listings stand on leaves a floor between them and the program.
set -u
cd "$(dirname "$0")/.." || exit 1
awk '
    FNR == NR && match($0, /^\| [0-9]+ \| `[a-z_]+`/) { split($0, cell, /[|` ]+/); floor[cell[3]] = cell[2]; next }
    FNR == NR { next }
    /^[a-z_]+:/ {
        name = $1; sub(":", "", name); listed[name] = 1
        if (!(name in floor)) { print name " has no floor in docs/architecture.md"; wrong = 1 }
        else if (floor[name] > 8) { print name " is on floor " floor[name]; wrong = 1 }
        else if (name ~ /^rio_(session|report)$/ && floor[name] > 6) { print name " is above the sixth floor"; wrong = 1 }
        for (i = 2; i <= NF; i++) if ($i in floor && floor[$i] >= floor[name]) {
            print name " (floor " floor[name] ") uses " $i " (floor " floor[$i] ")"; wrong = 1
        }
    }
    END {
        for (name in floor) if (!(name in listed)) { print name " stands in docs/architecture.md and not in crates.txt"; wrong = 1 }
        if (!wrong) print "Every crate uses lower floors only, and none is above the eighth."
        exit wrong
    }' docs/architecture.md crates.txt
