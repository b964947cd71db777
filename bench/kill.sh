#!/usr/bin/env bash
# Kills runs at random moments, recovers their file, and compares it with what was printed.
# Usage: [TIMES=50] [PUTS=200] bench/kill.sh [FOLDER] (builds the program first where it has to). A file in FOLDER, on a real disk,
# is written to by one run after the other, each a script of PUTS puts. The first is let run; each other is killed (SIGKILL)
# after a random time. After each second one `recover` has to list every object whose reply was printed whole, and at most one
# more of each run; and nothing else. After the others the next run opens the file by itself. At the end some objects are
# printed, and have the value that was put.
set -eu
top=$(cd "$(dirname "$0")/.." && pwd)
base=${1:-$PWD}
folder=$(mktemp -d "$base/kill-XXXXXX")
trap 'rm -rf "$folder"' EXIT

"$top/rootio" ls "$top/crates/rootio/data/closed.root" >/dev/null
program=$top/crates/rootio/out/rootio
[ "$program" -nt "$top/out/rootio" ] || program=$top/out/rootio

python3 - "$program" "$folder" "${TIMES:-50}" "${PUTS:-200}" <<'P'
import os, random, subprocess, sys, time
program, folder, times, puts = sys.argv[1], sys.argv[2], int(sys.argv[3]), int(sys.argv[4])
path = os.path.join(folder, "a.root")
value = 'TObjString{{TObject{{fUniqueID: 0, fBits: 0}}, fString: "{}"}}'
sure, open_sets, killed, longest = set(), [], 0, 0

def listed(verb):
    out = subprocess.run([program, verb, path], capture_output=True, text=True)
    assert out.returncode == 0, (verb, out.returncode, out.stderr)
    return [line.split(";")[0] for line in out.stdout.splitlines()]

for k in range(times):
    names = [f"r{k}n{j}" for j in range(puts)]
    script = "".join(f"put {n} {value.format(n)}\n" for n in names)
    said = os.path.join(folder, "said")
    with open(said, "wb") as text:
        run = subprocess.Popen([program, "run", path], stdin=subprocess.PIPE, stdout=text, stderr=subprocess.DEVNULL)
        begun = time.monotonic()
        run.stdin.write(script.encode())
        run.stdin.close()
        try:
            run.wait(random.uniform(0, longest) if k else None)
        except subprocess.TimeoutExpired:
            run.kill()
            run.wait()
            killed += 1
        else:
            assert run.returncode == 0, run.returncode
            longest = max(longest, 1.2 * (time.monotonic() - begun))
    whole = [line for line in open(said).read().split("\n")[:-1]]
    assert whole == [f"ok put {n};1" for n in names[: len(whole)]], "a reply out of order"
    sure.update(names[: len(whole)])
    maybe = set(names[len(whole) : len(whole) + 1])
    if k % 2 == 0:
        # the next run opens the file by itself
        open_sets.append(maybe)
        continue
    there = listed("recover")
    extra = set(there) - sure
    assert len(there) == len(set(there)) and sure <= set(there), "an object is lost"
    assert all(e in maybe or any(e in s for s in open_sets) for e in extra), "an object that was not put"
    sure.update(extra)
    open_sets = []
for name in random.sample(sorted(sure), min(20, len(sure))):
    out = subprocess.run([program, "dump", path, name], capture_output=True, text=True).stdout
    assert out == f'{name};1 TObjString#1{{TObject#1{{fUniqueID: 0, fBits: 0}}, fString: "{name}"}}\n', out
print(f"kill: {times} runs, {killed} of them killed, {len(sure)} objects, none lost")
P
