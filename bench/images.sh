#!/usr/bin/env bash
# A random walk of commands over one file in memory, cut off at random moments: of the writes in flight then nothing is left, all,
# the first bytes, or other bytes in their range, by chance.
# Usage: [COMMANDS=100000] [RUNS=100] [SEED=1] [SECONDS_ALL=3000] bench/images.sh (proves nothing: it builds a small program over a
# copy of the crates, with checks). RUNS scripts of commands, many of them refused, go over the file one after the other; each begins
# on the crash image that the one before left, and every third is cut off at its end. The replies that were printed have to be those of
# a model in Python, and `recover` has to find what the model has after as many commands, or one more, or after saves of the close.
set -eu
top=$(cd "$(dirname "$0")/.." && pwd)
folder=$(mktemp -d)
trap 'rm -rf "$folder"' EXIT

mkdir "$folder/crates"
(cd "$top" && tar cf - --exclude=out crates crates.txt) | (cd "$folder" && tar xf -)
[ ! -e "$top/HANDLES" ] || cp "$top/HANDLES" "$folder/"
echo 'images: rio_num rio_host rio_key rio_format rio_cmd rio_recover rio_registry rio_report rio_dir rio_session anyhow' >> "$folder/crates.txt"
crate=$folder/crates/images
mkdir -p "$crate/src"
cat > "$crate/src/main.rt" <<'RT'
//! Runs scripts on a file in memory, each cut off, and prints what was printed, what is recovered, and the classes.
#![tactic(auto)]

use rio_cmd::read_script;
use rio_host::{Left, MemHost, Remains, Source, StdSource};
use rio_num::{Bytes, NoMemory, Numbers};
use rio_recover::{Recovered, is_unborn, recover};
use rio_report::key_listing;
use rio_session::Session;
use std::alloc::Global;

fn input_of<S: Source>(alloc: Global, source: &mut S) -> Result<Bytes, NoMemory> {
    let mut piece = vec![in alloc; 0u8; 65536]?;
    let mut taken = Bytes::new(alloc);
    for _ in 0..4096 {
        match source.read(&mut piece) {
            Ok(0) | Err(_) => return Ok(taken),
            Ok(n) => taken.put(&piece[..n])?,
        }
    }
    Ok(taken)
}

// Does the script, and closes the file if it is to be closed.
fn play(alloc: Global, host: &mut MemHost, script: &[u8], closes: bool) -> Result<(), NoMemory> {
    let commands = read_script(alloc, script)?;
    let Ok(mut session) = Session::open(alloc, host, b"a.root", 1) else {
        return Ok(());
    };
    for command in commands.as_slice() {
        if session.apply(host, command).is_err() {
            return Ok(());
        }
    }
    if closes {
        let _ = session.close(host);
    }
    Ok(())
}

fn mixed(seed: u64, k: u64) -> u64 {
    let mut x = seed.wrapping_mul(6364136223846793005).wrapping_add(k.wrapping_mul(1442695040888963407));
    x ^= x >> 29;
    x = x.wrapping_mul(0xBF58476D1CE4E5B9);
    x ^ (x >> 32)
}

fn remains_of(x: u64) -> Remains {
    match x % 4 {
        0 => Remains::Nothing,
        1 => Remains::All,
        2 => Remains::Front(x / 4 % 97),
        _ => Remains::Filled((x / 4 % 256) as u8),
    }
}

// The crash image at a moment by chance, and what was printed.
fn cut(host: &MemHost, seed: u64) -> Result<Left, NoMemory> {
    let end = host.moment();
    let moment = if seed % 3 == 0 { end } else { mixed(seed, 0) % (end + 1) };
    let remains = [remains_of(mixed(seed, 1)), remains_of(mixed(seed, 2)), remains_of(mixed(seed, 3))];
    host.left(moment, &remains, mixed(seed, 4) % 40)
}

fn put_found(text: &mut Bytes, alloc: Global, found: &Recovered) -> Result<(), NoMemory> {
    text.put(key_listing(alloc, found.table.as_slice())?.as_slice())?;
    text.put(b"#CLASSES\n")?;
    for class in found.registry.classes().as_slice() {
        text.put(class.name.as_slice())?;
        text.put(b" ")?;
        text.put_decimal(class.version as u64)?;
        text.put(b"\n")?;
    }
    Ok(())
}

// What is recovered of the image.
fn put_recovered(text: &mut Bytes, alloc: Global, host: &mut MemHost) -> Result<(), NoMemory> {
    match is_unborn(host) {
        Ok(false) => match recover(alloc, host) {
            Ok(found) => put_found(text, alloc, &found),
            Err(_) => text.put(b"#REFUSED\n"),
        },
        _ => text.put(b"#CLASSES\n"),
    }
}

// One run: the bytes of the image that it leaves.
fn run(alloc: Global, text: &mut Bytes, image: Bytes, seed: u64, script: &[u8]) -> Result<Bytes, NoMemory> {
    let mut host = MemHost::new(alloc, image, Numbers::new(alloc));
    play(alloc, &mut host, script, seed % 3 == 0)?;
    let Left { image, said } = cut(&host, seed)?;
    text.put(said.as_slice())?;
    text.put(b"\n#LEFT\n")?;
    let mut host = MemHost::new(alloc, image, Numbers::new(alloc));
    put_recovered(text, alloc, &mut host)?;
    text.put(b"#END\n")?;
    Bytes::from_slice(alloc, host.image())
}

// Where the next run begins: behind a line that begins with a `%`.
fn next_run(script: &[u8]) -> usize {
    for k in 0..script.len() {
        if script[k] == b'%' {
            return k;
        }
    }
    script.len()
}

fn main(rt: HostRuntime) -> anyhow::Result<()> {
    let alloc = rt.alloc();
    let mut source = StdSource::new(&rt);
    let Ok(input) = input_of(alloc, &mut source) else {
        return Ok(());
    };
    let mut rest = input.as_slice();
    let mut image = Bytes::new(alloc);
    for seed in 1..1_000_000u64 {
        if rest.is_empty() {
            return Ok(());
        }
        let n = next_run(rest);
        let mut text = Bytes::new(alloc);
        match run(alloc, &mut text, image, seed, &rest[..n]) {
            Ok(left) => image = left,
            Err(_) => return Ok(()),
        }
        print!(rt; "{}", String::from_utf8_lossy(alloc, text.as_slice())?)?;
        rest = if n < rest.len() { &rest[n + 2..] } else { &[] };
    }
    Ok(())
}
RT

PYTHONPATH=$top/bench PYTHONDONTWRITEBYTECODE=1 python3 - "$crate" "${COMMANDS:-100000}" "${RUNS:-100}" "${SEED:-1}" "${SECONDS_ALL:-3000}" <<'P'
import random, subprocess, sys
from model import Model, random_line, states_left, states_of, whole_replies
crate, commands, runs, seed, seconds = sys.argv[1], *map(int, sys.argv[2:])
random.seed(seed)

scripts = [[random_line(None, 30, 9) for _ in range(commands // runs)] for _ in range(runs)]
with open(f"{crate}/stdin", "w") as file:
    file.write("%\n".join("".join(line + "\n" for line in script) for script in scripts))
with open(f"{crate}/stdin") as file:
    out = subprocess.run(["rt", "try", "--steps", "1", "--seconds", str(seconds)], cwd=crate, stdin=file, capture_output=True, text=True)
parts = out.stdout.split("#END\n")
assert len(parts) > runs, (len(parts) - 1, out.stdout[-600:], out.stderr[-600:])
model, done = Model(), 0
for k, script in enumerate(scripts):
    said, left = parts[k].split("\n#LEFT\n", 1)
    # what the program builds with it may print before the first
    said = said[max(said.find("ok "), 0) if said.find("ok ") >= 0 and (said.find("no ") < 0 or said.find("ok ") < said.find("no ")) else max(said.find("no "), 0):] if k == 0 else said
    listing, classes = left.split("#CLASSES\n")
    there = (listing.splitlines(), [(n, int(v)) for n, v in (line.split() for line in classes.splitlines())])
    replies, states = states_of(model, script)
    whole = whole_replies(replies, said)
    assert whole is not None, (k, said[-100:])
    found = [it for it in states_left(states, whole) if there == (it.listing(), it.classes)]
    assert found, (k, whole, script[whole : whole + 1])
    model, done = found[0], done + whole
print(f"images: {runs} runs, each cut off, {done} commands done, {len(model.listing())} items, {len(model.classes)} classes: as the model says")
P
