#!/usr/bin/env bash
# Stops runs on a real file, recovers it, and compares it with what was printed.
# Usage: [COMMANDS=60] [SEED=1] bench/stops.sh [KILLED [CUT [FAILING [FOLDER]]]] (builds the program first where it has to). Without numbers
# it is a quick check of 30, 20 and 30 runs; 1000, 300 and 300 take some minutes. The scripts are of up to COMMANDS random commands each. PROGRAM
# may name the program. A run that ends before it is stopped is done once more.
#   KILLED   runs are killed (SIGKILL), at a random time or after a random number of printed bytes.
#   CUT      runs lose their disk at such a moment, as by a loss of power: the file system is shut down without what it has not yet
#            written, and mounted again.
#   FAILING  runs have a call that fails, alone or with all that follow: a write to the file, a sync, or a print, by `strace`. One in
#            five has a full disk in its place.
# The file is on a file system of its own, 16 MB of ext4 in FOLDER (without one in memory, where there is /dev/shm). If that can't be mounted,
# it is on a tmpfs, and if that can't be either, in FOLDER itself; then no run is cut off from its disk.
# What runs of all kinds leave is opened by the next run, or recovered, by a recovery that may be stopped before. The file has to have
# all that the printed replies say, and of what comes after them at most one command, or after the last reply saves of the close; each
# object has its whole value, and each tree its saved rows. At the first difference the file, the one before the run, the script and
# what was printed are kept, and the status is 1.
set -eu
top=$(cd "$(dirname "$0")/.." && pwd)
base=${4:-/dev/shm}
[ -d "$base" ] || base=/tmp
folder=$(mktemp -d "$base/stops-XXXXXX")
disk=$folder/disk
mkdir "$disk"
trap '! mountpoint -q "$disk" || umount "$disk"; rm -rf "$folder"' EXIT

program=${PROGRAM:-}
if [ -z "$program" ]; then
  "$top/rootio" ls "$top/crates/rootio/data/closed.root" >/dev/null
  program=$top/crates/rootio/out/rootio
  [ "$program" -nt "$top/out/rootio" ] || program=$top/out/rootio
fi

if truncate -s 16M "$folder/image" && mkfs.ext4 -q -F -m 0 "$folder/image" 2>/dev/null && mount -o loop "$folder/image" "$disk" 2>/dev/null; then
  kind=ext4
elif mount -t tmpfs -o size=16m none "$disk" 2>/dev/null; then
  kind=tmpfs
else
  kind=folder
fi

PYTHONPATH=$top/bench PYTHONDONTWRITEBYTECODE=1 python3 - "$program" "$folder" $kind "${1:-30}" "${2:-20}" "${3:-30}" "${COMMANDS:-60}" "${SEED:-1}" <<'P'
import collections, fcntl, os, random, re, shutil, struct, subprocess, sys, tempfile, time
from model import Model, random_line, states_left, states_of, whole_replies

program, folder, kind = sys.argv[1:4]
killed, cut, failing, commands, seed = map(int, sys.argv[4:])
disk, image = os.path.join(folder, "disk"), os.path.join(folder, "image")
path, before, script, said, told, trace = (os.path.join(folder, name) for name in ("disk/a.root", "before.root", "script", "said", "told", "trace"))
random.seed(seed)
done = collections.Counter()
# EXT4_IOC_SHUTDOWN, and its flag by which the journal isn't written out.
SHUTDOWN, AS_IT_IS = 0x8004587D, struct.pack("I", 2)


def fail(why):
    kept = tempfile.mkdtemp(prefix="stops-kept-")
    for name in (path, before, script, said, told, trace):
        try:
            shutil.copy(name, kept)
        except FileNotFoundError:
            pass
        except OSError as error:
            print(f"stops: {name} isn't kept: {error.strerror}", file=sys.stderr)
    print(f"stops: {why}; the files are in {kept}", file=sys.stderr)
    sys.exit(1)


def begin(words, tracer=()):
    """Begins the program with these words and the script; what it prints goes into files outside the file system of its file."""
    with open(script, "rb") as lines, open(said, "wb") as text, open(told, "wb") as fault:
        return subprocess.Popen([*tracer, program, *words], stdin=lines, stdout=text, stderr=fault)


def wait_a_while(run, most):
    """Waits for a random time, or until a random number of bytes is printed. The longest time becomes longer or shorter, so that most runs
    are still there after it."""
    global longest
    if random.random() < 0.5:
        try:
            run.wait(random.uniform(0, longest))
            longest *= 0.9
        except subprocess.TimeoutExpired:
            longest *= 1.03
        return
    wanted = random.randrange(most)
    while run.poll() is None and os.path.getsize(said) < wanted:
        time.sleep(0.0001)


def cut_off():
    """The file system takes nothing more, and loses what isn't on its disk."""
    at = os.open(disk, os.O_RDONLY)
    fcntl.ioctl(at, SHUTDOWN, AS_IT_IS)
    os.close(at)


def mount_again():
    subprocess.run(["umount", disk], check=True)
    subprocess.run(["mount", "-o", "loop", image, disk], check=True)


def sync_names():
    """What was removed stays so, also after a loss of power."""
    at = os.open(disk, os.O_RDONLY)
    os.fsync(at)
    os.close(at)


def stop_somewhere(run, most, cuts):
    """Stops the run, and returns whether it had ended with status 0."""
    wait_a_while(run, most)
    if cuts:
        cut_off()
    run.kill()
    status = run.wait()
    if cuts:
        mount_again()
    if status not in (0, -9) and not (cuts and status == 3):
        fail(f"a run that is stopped ends with status {status}")
    return status == 0


def fill_disk():
    """Fills the file system but for a few blocks, and returns the file that does."""
    ballast = os.path.join(disk, "ballast")
    with open(ballast, "wb", buffering=0) as file:
        for size in (1 << 20, 1 << 12):
            try:
                while file.write(b"x" * size):
                    pass
            except OSError:
                pass
        file.truncate(max(file.tell() - 4096 * random.choice([0, 0, 1]), 0))
        os.fsync(file.fileno())
    return ballast


def with_a_full_disk():
    """A run that may find no room on the disk: how it ended."""
    ballast = fill_disk()
    status = begin(["run", path]).wait()
    os.remove(ballast)
    sync_names()
    done["full disks"] += status == 3
    if status not in (0, 3):
        fail(f"a run on a full disk ends with status {status}")
    return "done" if status == 0 else "stopped"


def with_a_failing_call(lines):
    """A run of which a call fails: how it ended."""
    call, most = random.choice([("write", 2 * lines + 12), ("write", 2 * lines + 12), ("fsync", lines + lines // 2 + 10)])
    number = f"{random.randint(1, most)}{random.choice(['', '', '+'])}"
    fault = f"inject={call}:error={random.choice(['EIO', 'ENOSPC'])}:when={number}"
    status = begin(["run", path], ["strace", "-f", "-qq", "-o", trace, "-e", "trace=write,fsync", "-e", fault]).wait()
    failed = re.search(r"(write|fsync)\((\d+).*\(INJECTED\)", open(trace, errors="replace").read())
    if not failed:
        wanted, ended = 0, "done"
    elif failed[1] == "write" and failed[2] == "1":
        wanted, ended = 8, "unsaid"
    else:
        wanted, ended = 3, "stopped"
    if status != wanted:
        fail(f"status {status}, not {wanted}, where a call fails ({fault})")
    done["failing prints" if ended == "unsaid" else f"failing {failed[1]}s" if failed else "failing calls that didn't come"] += 1
    return ended


def models_after(models, lines, ended):
    """Returns what the file may have, by what it may have had before and what was printed."""
    text, found = open(said).read(), {}
    for model in models:
        replies, states = states_of(model, lines)
        whole = whole_replies(replies, text)
        if whole is None or ended == "done" and whole < len(lines):
            continue
        left = [states[-1].closed()] if ended == "done" else states_left(states, whole, 1 if ended == "unsaid" else 0)
        for state in left:
            found.setdefault(state.whole(), state)
        done["commands printed"] += whole if model is models[0] else 0
    if not found:
        fail("what was printed isn't what the model says")
    return list(found.values())


def printed_by(*words):
    out = subprocess.run([program, *words], stdin=subprocess.DEVNULL, capture_output=True, text=True)
    if out.returncode or out.stderr:
        fail(f"{words[0]}: status {out.returncode}, {out.stderr}")
    return out.stdout.splitlines()


def look(models):
    """Returns the one model that the closed file agrees with, by all that can be printed of it."""
    listing = printed_by("ls", path)
    values = [line for line in printed_by("dump", path) if not line.startswith("class T")]
    models = [it for it in models if (listing, values) == (it.listing(), it.values())]
    scans = [(name, printed_by("scan", path, name)) for name in sorted(models[0].trees)] if models else []
    for model in models:
        if scans == model.scans():
            return model
    fail(f"the file isn't what the model says: {len(listing)} keys, of {len(scans)} trees")


def recover(models):
    """Recovers the file, after recoveries that are stopped, and returns its model."""
    while random.random() < 0.3:
        longest_listing = max(models, key=lambda it: len(it.keys()))
        cuts = cut and random.random() < 0.5
        stop_somewhere(begin(["recover", path]), 1 + len("\n".join(longest_listing.listing())), cuts)
        text = open(said).read()
        if not any("".join(f"{line}\n" for line in it.listing()).startswith(text) for it in models):
            fail("a recovery that is stopped has printed another listing")
        done["recoveries stopped"] += 1
    listing = printed_by("recover", path)
    done["recoveries"] += 1
    models = [it for it in models if it.listing() == listing]
    return look(models) if models else fail("recover lists what no model has")


def run_once(how, models):
    """A run of this kind on the file: what the file may have then, and whether the run ended before it was stopped."""
    if os.path.exists(path):
        shutil.copy(path, before)
    elif os.path.exists(before):
        os.remove(before)
    ahead, lines = random.choice(models).copy(), []
    for _ in range(random.randint(1 + commands // 3, commands)):
        lines.append(random_line(ahead, 20, 5))
        ahead.do(lines[-1])
    with open(script, "w") as file:
        file.write("".join(line + "\n" for line in lines))
    if how == "failing":
        is_full = kind != "folder" and random.random() < 0.2
        ended = with_a_full_disk() if is_full else with_a_failing_call(len(lines))
    else:
        is_done = stop_somewhere(begin(["run", path]), 8 * len(lines), how == "cut")
        ended = "done" if is_done else "stopped"
        done[f"{how}, ended before" if is_done else how] += 1
    models = models_after(models, lines, ended)
    return ([look(models)], True) if ended == "done" else (models, False)


if not shutil.which("strace"):
    failing = 0
if kind != "ext4":
    cut = 0
kinds = ["killed"] * killed + ["cut"] * cut + ["failing"] * failing
random.shuffle(kinds)
most_runs = 4 * len(kinds)

# How long a run takes, on another file.
longest = 0
with open(script, "w") as file:
    file.write("".join(random_line(None, 20, 5) + "\n" for _ in range(commands)))
for _ in range(2):
    begun = time.monotonic()
    if begin(["run", os.path.join(disk, "b.root")]).wait():
        fail("a run that is not stopped fails")
    longest = max(longest, 1.1 * (time.monotonic() - begun))
os.remove(os.path.join(disk, "b.root"))

models, runs = [Model()], 0
while kinds and runs < most_runs:
    how, runs = kinds.pop(), runs + 1
    if runs % 20 == 0 and os.path.exists(path):
        # a new file
        models = [recover(models)]
        os.remove(path)
        sync_names()
        models = [Model()]
    models, is_done = run_once(how, models)
    if is_done:
        # once more, until it is stopped
        kinds.insert(0, how)
    if len(models) > 6 or random.random() < 0.6:
        models = [recover(models)]
models = [recover(models)]
what = {"ext4": "an ext4 image", "tmpfs": "a tmpfs", "folder": "no file system of its own"}[kind]
counts = ", ".join(f"{count} {name}" for name, count in sorted(done.items()))
print(f"stops: {runs} runs on {what}: {counts}; as the model says")
P
