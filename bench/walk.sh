#!/usr/bin/env bash
# A random walk of commands over one file, by runs that are killed at random moments, against a model of its own.
# Usage: [COMMANDS=100000] [RUNS=100] [SEED=1] bench/walk.sh [FOLDER] (builds the program first where it has to). RUNS scripts of
# commands, some of them refused by the rules, go over one file, without FOLDER in memory where there is /dev/shm.
# Every third run is let run; each other is killed (SIGKILL) after a random time. The replies that were printed have to be
# those of the model, and `recover` and the classes of `dump` have to be what the model has after as many commands, or after one more,
# or after the last one and some saves of the close.
set -eu
top=$(cd "$(dirname "$0")/.." && pwd)
base=${1:-/dev/shm}
[ -d "$base" ] || base=/tmp
folder=$(mktemp -d "$base/walk-XXXXXX")
trap 'rm -rf "$folder"' EXIT

"$top/rootio" ls "$top/crates/rootio/data/closed.root" >/dev/null
program=$top/crates/rootio/out/rootio
[ "$program" -nt "$top/out/rootio" ] || program=$top/out/rootio

PYTHONPATH=$top/bench PYTHONDONTWRITEBYTECODE=1 python3 - "$program" "$folder" "${COMMANDS:-100000}" "${RUNS:-100}" "${SEED:-1}" <<'P'
import os, random, subprocess, sys, time
from model import Model, declared_in, random_line, whole_replies
program, folder, commands, runs, seed = sys.argv[1], sys.argv[2], *map(int, sys.argv[3:])
path = os.path.join(folder, "a.root")
random.seed(seed)

def declared():
    """Returns the classes that the file declares: those that `dump` lists, but for those of trees."""
    out = subprocess.run([program, "dump", path], capture_output=True, text=True)
    assert out.returncode == 0, (out.returncode, out.stderr)
    return declared_in(out.stdout.splitlines())

model, killed, done, longest = Model(), 0, 0, 0
for k in range(runs):
    # the script is made on a copy, so that its deletes are of what will be there
    ahead, lines, replies = model.copy(), [], []
    for _ in range(commands // runs):
        lines.append(random_line(ahead))
        replies.append(ahead.do(lines[-1]) + "\n")
    said = os.path.join(folder, "said")
    with open(said, "wb") as text:
        run = subprocess.Popen([program, "run", path], stdin=subprocess.PIPE, stdout=text, stderr=subprocess.DEVNULL)
        begun = time.monotonic()
        run.stdin.write(("\n".join(lines) + "\n").encode())
        run.stdin.close()
        try:
            run.wait(random.uniform(0, longest) if k % 3 else None)
        except subprocess.TimeoutExpired:
            run.kill()
            run.wait()
            killed += 1
            is_done = False
        else:
            assert run.returncode == 0, run.returncode
            longest, is_done = max(longest, time.monotonic() - begun), True
    text = open(said).read()
    whole = whole_replies(replies, text)
    assert whole is not None, (k, text[-200:])
    out = subprocess.run([program, "recover", path], capture_output=True, text=True)
    assert out.returncode == 0, (k, out.returncode, out.stderr)
    there = (out.stdout.splitlines(), declared())
    for line in lines[:whole]:
        model.do(line)
    left = [model.copy(), *(model.closing() if whole == len(lines) else [model])]
    if whole < len(lines):
        model.do(lines[whole])
    left = [it.saved() for it in (left[-1:] if is_done else left)]
    model = next((it for it in left if there == (it.listing(), it.classes)), None)
    assert model, (k, whole, lines[whole : whole + 1])
    done += whole
for name in random.sample(sorted(model.objects), min(20, len(model.objects))):
    cycle = max(model.objects[name])
    out = subprocess.run([program, "dump", path, name], capture_output=True, text=True).stdout
    assert out == f"{name};{cycle} {model.objects[name][cycle][1]}\n", out
for name, rows in model.scans():
    out = subprocess.run([program, "scan", path, name], capture_output=True, text=True).stdout
    assert out.splitlines() == rows, (name, len(rows))
size = os.path.getsize(path)
print(f"walk: {runs} runs, {killed} of them killed, {done} commands done, {len(model.listing())} items, {size} bytes: as the model says")
P
