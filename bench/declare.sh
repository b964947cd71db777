#!/usr/bin/env bash
# What declaring costs: 500 and 4,096 classes in a chain, each a base of the next one and pointed to by it. After each
# declaration the class list is measured, as a script does it that asks whether the list is still small enough.
# Usage: [SECONDS_EACH=600] bench/declare.sh (proves nothing: it builds a small program over a copy of the crates, with
# checks, and stops it after so many seconds). Prints the seconds of each, of declaring alone and of declaring and
# measuring, and how many times as long the longer chain takes.
set -eu
top=$(cd "$(dirname "$0")/.." && pwd)
folder=$(mktemp -d)
trap 'rm -rf "$folder"' EXIT

mkdir "$folder/crates"
(cd "$top" && tar cf - --exclude=out crates crates.txt) | (cd "$folder" && tar xf -)
[ ! -e "$top/HANDLES" ] || cp "$top/HANDLES" "$folder/"
echo 'chain_of_classes: rio_num rio_format rio_info rio_registry anyhow' >> "$folder/crates.txt"

crate=$folder/crates/chain_of_classes
mkdir -p "$crate/src"
cat > "$crate/src/main.rt" <<'RT'
//! Declares classes in a chain: `class Ck 1 : Ck-1 { p: Ck-1* }`. The first word is how many, a second one says that the
//! class list is measured after each.
#![tactic(auto)]

use rio_info::info_length;
use rio_num::{Name, NoMemory};
use rio_registry::Registry;
use rio_format::{Base, Bases, ClassDef, Kind, Member, Members};
use std::alloc::Global;
use std::env;
use std::time::Instant;

fn name_of(alloc: Global, k: u32) -> Result<Name, NoMemory> {
    let thousands = [
        b'C',
        b'0' + (k / 1000 % 10) as u8,
        b'0' + (k / 100 % 10) as u8,
        b'0' + (k / 10 % 10) as u8,
        b'0' + (k % 10) as u8,
    ];
    Name::from_slice(alloc, thousands.as_slice())
}

fn class_of(alloc: Global, k: u32) -> Result<ClassDef, NoMemory> {
    let mut bases = Bases::new(alloc);
    let mut members = Members::new(alloc);
    if k > 0 {
        bases.push(Base {
            name: name_of(alloc, k - 1)?,
            version: 0,
        })?;
        members.push(Member {
            name: Name::from_slice(alloc, b"p")?,
            kind: Kind::Pointer {
                class: name_of(alloc, k - 1)?,
            },
            title: Name::new(alloc),
        })?;
    }
    Ok(ClassDef {
        name: name_of(alloc, k)?,
        version: 1,
        sum: k,
        bases,
        members,
    })
}

fn declare_chain(alloc: Global, count: u32, measures: bool) -> Result<u64, NoMemory> {
    let mut registry = Registry::new(alloc);
    let mut total: u64 = 0;
    for k in 0..count {
        if registry.declare(class_of(alloc, k)?).is_err() {
            return Err(NoMemory);
        }
        if measures {
            total = info_length(alloc, registry.classes())?;
        }
    }
    Ok(total)
}

fn main(rt: HostRuntime) -> anyhow::Result<()> {
    let alloc = rt.alloc();
    let mut numbers = env::args(&rt)?.skip(1);
    let count = numbers.next().and_then(|word| word.parse::<u32>().ok());
    let measures = numbers.next().is_some();
    let start = Instant::now(&rt)?;
    let total = declare_chain(alloc, count.unwrap_or(0), measures);
    let taken = start.elapsed(&rt)?;
    match total {
        Ok(_) => println!(rt; "{}", taken.as_millis())?,
        Err(_) => println!(rt; "refused")?,
    }
    Ok(())
}
RT
# seconds for so many classes, or 'none' where the limit comes first
limit=${SECONDS_EACH:-600}
taken() {
  (cd "$crate" && rt try --steps 1 --seconds "$limit" -- "$@" 2>/dev/null | grep -E '^[0-9]+$' || echo none) |
    awk '{ if ($1 == "none") print "none"; else printf "%.2f\n", $1 / 1000 }'
}

for what in "" measured; do
  few=$(taken 500 $what) && [ -n "$few" ] || { echo "declare: no answer for 500 classes" >&2; exit 1; }
  many=$(taken 4096 $what) && [ -n "$many" ] || { echo "declare: no answer for 4,096 classes" >&2; exit 1; }
  awk -v what="${what:-declared alone}" -v few="$few" -v many="$many" -v limit="$limit" 'BEGIN {
    printf "%s: 500 classes %s s, ", what, few == "none" ? "more than " limit : few
    printf "4,096 classes %s s", many == "none" ? "more than " limit : many
    if (few > 0 && many != "none") printf ", %.1f times as long", many / few
    printf "\n"
  }'
done
