#!/usr/bin/env bash
# Builds the program timer, or takes the one at the path given, and prints a row for each shape of graph, each table of blocks
# and each number of blocks: the nanoseconds a block that the ordering, the three removals, the numbering and the predecessors take,
# those of the whole sequence, these over those of the smallest graph of the shape in the table, and the steps of the ordering a block.
# Times are the shortest of all calls. The program runs with a stack of 8 MiB.
set -eu
. "$(dirname "$0")/timer.sh"
ulimit -s 8192
python3 - "$program" <<'TABLE'
import subprocess, sys
program = sys.argv[1]
RUNS, BLOCKS_TIMED = 5, 2_000_000
PARTS = ["ordering", "removals", "numbering", "predecessors", "whole"]

def least_times(table, shape, size):
    calls = BLOCKS_TIMED // size
    runs = []
    for _ in range(RUNS):
        run = subprocess.run([program, "order", table, shape, str(size), str(calls)], capture_output=True, text=True, check=True)
        runs.append([int(it) for it in run.stdout.split()])
    blocks, steps, *times = zip(*runs)
    return blocks[0], steps[0] / blocks[0], [min(it) / blocks[0] for it in times]

print(f"{'shape':8}{'table':7}{'blocks':>8}" + "".join(f"{it:>14}" for it in PARTS) + f"{'growth':>8}{'steps':>7}")
for shape in ["chain", "comb", "loops", "switch", "tries"]:
    for table in ["map", "dense"]:
        smallest = None
        for size in [1_000, 16_000, 131_072]:
            blocks, steps, times = least_times(table, shape, size)
            smallest = smallest or times[-1]
            row = "".join(f"{it:14.0f}" for it in times) + f"{times[-1] / smallest:8.2f}{steps:7.2f}"
            print(f"{shape:8}{table:7}{blocks:8}" + row, flush=True)
TABLE
