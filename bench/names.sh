#!/usr/bin/env bash
# Builds the program timer, or takes the one at the path given, and prints a table: of units with a block with a `let` for each
# symbol, of one name or of distinct names, the nanoseconds in which a builder names all symbols, a symbol and in all, and the first
# over the second. Times are the shortest of all.
set -eu
. "$(dirname "$0")/timer.sh"
python3 - "$program" <<'TABLE'
import subprocess, sys
program = sys.argv[1]
RUNS, SYMBOLS_TIMED = 5, 400_000

def unit(names):
    blocks = " ".join(f'(block [(var "let" [(declarator (bind "{name}" -) -)])])' for name in names)
    return f'(unit [] (program [(expr (arrow y n (params [] -) (body [] [{blocks}])))]))'

def least_time(names):
    calls = str(SYMBOLS_TIMED // len(names))
    runs = [subprocess.run([program, "names", calls], input=unit(names), capture_output=True, text=True, check=True).stdout for _ in range(RUNS)]
    return min(int(run.split()[1]) for run in runs)

print(f"{'symbols':>8}{'one name':>12}{'a symbol':>10}{'distinct':>12}{'a symbol':>10}{'ratio':>8}")
for count in (1000, 4000, 16_000):
    one = least_time(["x"] * count)
    distinct = least_time([f"name{number}" for number in range(count)])
    print(f"{count:8}{one:12}{one / count:10.0f}{distinct:12}{distinct / count:10.0f}{one / distinct:8.2f}", flush=True)
TABLE
