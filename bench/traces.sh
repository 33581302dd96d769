#!/usr/bin/env bash
# Times runs of a loop of one comparison and one call, by its graph and by its source, and prints a row for each number of turns: the events
# of a run, the milliseconds of the shortest, the nanoseconds of a turn and of a step, and a turn over that of the smallest number. A turn
# has 4 events. By the graph it has 5 steps: three instructions and two ends of blocks. By the source it has 15: a step goes down to a part
# of an expression or of a statement, or takes what a part gave to the innermost frame. A time holds what it takes to make the answers, and
# of the graph also what it takes to make that. Much of the growth of long runs is fresh memory: their events lie side by side to the end.
# Builds the program timer, or takes the one at the path given.
set -eu
. "$(dirname "$0")/timer.sh"
python3 - "$program" <<'TABLE'
import subprocess, sys
STEPS = {"graph": 5, "source": 15}
print(f"{'by':8}{'turns':>8}{'events':>9}{'run, ms':>10}{'a turn':>9}{'a step':>8}{'growth':>8}")
smallest = {}
for turns in [100, 10_000, 100_000]:
    runs = max(5, 200_000 // turns)
    ran = subprocess.run([sys.argv[1], "traces", str(turns), str(runs)], capture_output=True, text=True, check=True)
    for by, line in zip(STEPS, ran.stdout.splitlines()):
        events, least = map(int, line.split())
        turn = least / turns
        smallest.setdefault(by, turn)
        print(f"{by:8}{turns:8}{events:9}{least / 1e6:10.3f}{turn:9.0f}{turn / STEPS[by]:8.0f}{turn / smallest[by]:8.2f}")
TABLE
