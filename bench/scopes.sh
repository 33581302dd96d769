#!/usr/bin/env bash
# Builds the program timer, or takes the one at the path given, and prints a table: of each shape of unit and each number of
# nodes, the nanoseconds a node that `read_tree`, `Semantic::of` and `lint` take, the second over the first, the second over that of
# the smallest unit of the shape, the third over the second, and the third over that of the smallest unit. Times are the shortest of
# all calls.
set -eu
. "$(dirname "$0")/timer.sh"
folder=$(mktemp -d)
trap 'rm -rf "$folder"' EXIT
python3 bench/scope_units.py "$folder"
python3 - "$program" "$folder" <<'TABLE'
import pathlib, subprocess, sys
program, folder = sys.argv[1:]
RUNS, NODES_TIMED = 5, 2_000_000

def least_times(path):
    calls = NODES_TIMED // path.read_text().count("(")
    runs = []
    for _ in range(RUNS):
        with open(path) as unit:
            runs.append(subprocess.run([program, "scopes", str(calls)], stdin=unit, capture_output=True, text=True, check=True).stdout.split())
    nodes, *times = zip(*[map(int, run) for run in runs])
    return nodes[0], *(min(it) / nodes[0] for it in times)

print(f"{'shape':10}{'nodes':>8}{'read_tree':>11}{'Semantic::of':>14}{'ratio':>8}{'growth':>8}{'lint':>8}{'ratio':>8}{'growth':>8}")
for path in sorted(pathlib.Path(folder).glob("*.unit"), key=lambda it: (it.stem.split("-")[0], int(it.stem.split("-")[1]))):
    shape, size = path.stem.split("-")
    nodes, reading, tables, linting = least_times(path)
    if size == "1000":
        smallest, smallest_lint = tables, linting
    print(f"{shape:10}{nodes:8}{reading:11.0f}{tables:14.0f}{tables / reading:8.2f}{tables / smallest:8.2f}"
          f"{linting:8.0f}{linting / tables:8.2f}{linting / smallest_lint:8.2f}", flush=True)
TABLE
