#!/usr/bin/env bash
# Runs `rt ci` at the top with the arguments given, passes on what it prints, and prints after it the wall and processor minutes of
# each crate (its check, its tests, its edits that must be refused), the gigabytes of its largest process, and the minutes of the
# whole. Ends with its status. RT_JOBS is passed on: without it `rt ci` plans otherwise than in .ci/run, which sets it.
cd "$(dirname "$0")/.." || exit 2
exec python3 - "$@" <<'GATE'
import collections, os, re, resource, subprocess, sys, threading, time

PARTS = ("check", "tests", "edits")
TICKS = os.sysconf("SC_CLK_TCK")
SECONDS_BETWEEN = 0.2

def processes():
    """Of each process: its parent, its start, and the processor seconds of itself and of the children that it waited for."""
    found = {}
    for pid in filter(str.isdigit, os.listdir("/proc")):
        try:
            fields = open(f"/proc/{pid}/stat").read().rpartition(")")[2].split()
        except OSError:
            continue
        found[int(pid)] = int(fields[1]), fields[19], sum(map(int, fields[11:15])) / TICKS
    return found

def peak(pid):
    """The gigabytes that a process has had at most."""
    try:
        high = re.search(r"^VmHWM:\s+(\d+) kB", open(f"/proc/{pid}/status").read(), re.M)
    except OSError:
        return 0.0
    return int(high[1]) / 1024**2 if high else 0.0

def label(pid):
    """The crate and the part that a process checks, if it is a check. A tried edit is checked in a copy of its crate."""
    try:
        words = open(f"/proc/{pid}/cmdline").read().split("\0")
        folder = os.readlink(f"/proc/{pid}/cwd")
    except OSError:
        return None
    if "--crate-name" not in words:
        return None
    return words[words.index("--crate-name") + 1], "tests" if "--test" in words else "edits" if "/rt-edit-" in folder else "check"

def top_check(pid, found, root):
    """The check of which a process below `root` is a part: the uppermost one above it, or itself."""
    top = None
    while pid in found and pid != root:
        named = label(pid)
        top = (pid, named) if named else top
        pid = found[pid][0]
    return top if pid == root else None

def watch(root, ended, seconds, walls, peaks):
    """Adds up the processor seconds of each check below `root`, the wall seconds in which each crate had one, and its largest process."""
    before = time.monotonic()
    while not ended.wait(SECONDS_BETWEEN):
        found, sums = processes(), collections.Counter()
        for pid in found:
            top = top_check(pid, found, root)
            if top:
                sums[top[0], found[top[0]][1], top[1]] += found[pid][2]
                peaks[top[1][0]] = max(peaks[top[1][0]], peak(pid))
        now = time.monotonic()
        for crate in {key[2][0] for key in sums}:
            walls[crate] += now - before
        before = now
        for key, sum_now in sums.items():
            seconds[key] = max(seconds[key], sum_now)

begun, ended, edits = time.monotonic(), threading.Event(), collections.Counter()
seconds, walls, peaks = (collections.defaultdict(float) for _ in range(3))
how = {"stdin": subprocess.DEVNULL, "stdout": subprocess.PIPE, "text": True, "errors": "replace"}
gate = subprocess.Popen(["rt", "ci", *sys.argv[1:]], **how)
watcher = threading.Thread(target=watch, args=(gate.pid, ended, seconds, walls, peaks))
watcher.start()
for line in gate.stdout:
    print(line, end="", flush=True)
    edits.update(re.findall(r"^rt: must-fail (\w+)/", line))
status = gate.wait()
ended.set()
watcher.join()
usage = resource.getrusage(resource.RUSAGE_CHILDREN)
whole = usage.ru_utime + usage.ru_stime
print(f"\n{'minutes':16}{'wall':>8}{'processor':>11}" + "".join(f"{part:>8}" for part in PARTS) + f"{'edits tried':>13}{'GB':>7}")
for crate in sorted(walls):
    parts = [sum(it for key, it in seconds.items() if key[2] == (crate, part)) / 60 for part in PARTS]
    print(f"{crate:16}{walls[crate] / 60:8.1f}{sum(parts):11.1f}" + "".join(f"{it:8.1f}" for it in parts) + f"{edits[crate]:13}{peaks[crate]:7.2f}")
print(f"{'the rest':16}{'':8}{(whole - sum(seconds.values())) / 60:11.1f}  linking, programs, tests, rt itself")
print(f"{'whole':16}{(time.monotonic() - begun) / 60:8.1f}{whole / 60:11.1f}{'':24}{sum(edits.values()):13}{max(peaks.values(), default=0):7.2f}")
sys.exit(status)
GATE
