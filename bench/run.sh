#!/usr/bin/env bash
# Builds the program, or takes the one at the path given, times it with hyperfine, and prints one JSON object:
#   per_node   of each sort of unit: its nodes, the nanoseconds of a node, and that of the large unit over that of the small one
#   text       a unit of one long text, of 2^24 bytes: bytes a second
#   refused    2^24 + 1 bytes, status 3: bytes a second
# Times are the least of all runs, less the time of `examples/one.unit`, which is that of starting.
set -eu
program=${1:+$(realpath "$1")}
cd "$(dirname "$0")/.."
if [ -z "$program" ]; then
    (cd crates/react_lower && rt run -- lower < ../../examples/one.unit > /dev/null)
    program=$PWD/crates/react_lower/out/react_lower
fi
command -v hyperfine > /dev/null || { apt-get update && apt-get install -y hyperfine; } >&2
folder=$(mktemp -d)
trap 'rm -rf "$folder"' EXIT
python3 bench/units.py "$folder"
cp examples/one.unit "$folder"

commands=()
for file in "$folder"/*.unit; do
    name=$(basename "$file" .unit)
    wanted=0
    [ "$name" != refused ] || wanted=3
    commands+=(--command-name "$name" "sh -c '\"$program\" lower < \"$file\" > /dev/null; [ \$? -eq $wanted ]'")
done
hyperfine --shell none --style none --warmup 2 --min-runs 10 --export-json "$folder/times.json" "${commands[@]}" >&2

python3 - "$folder" <<'SUMMARY'
import json, os, sys
folder = sys.argv[1]
least = {it["command"]: it["min"] for it in json.load(open(f"{folder}/times.json"))["results"]}
text = lambda name: open(f"{folder}/{name}.unit").read()
taken = lambda name: least[name] - least["one"]

def of_sort(sort):
    nodes = [text(f"{sort}-{size}").count("(") for size in (4096, 65536)]
    each = [taken(f"{sort}-{size}") * 1e9 / count for size, count in zip((4096, 65536), nodes)]
    return {"nodes": nodes, "nanoseconds": [round(it) for it in each], "ratio": round(each[1] / each[0], 2)}

def of_bytes(name):
    size = len(text(name))
    return {"bytes": size, "bytes_per_second": round(size / taken(name))}

sorts = sorted(it.removesuffix("-4096") for it in least if it.endswith("-4096"))
found = {"processors": os.cpu_count(), "start_milliseconds": round(least["one"] * 1e3, 2)}
found |= {"per_node": {it: of_sort(it) for it in sorts}, "text": of_bytes("text"), "refused": of_bytes("refused")}
print(json.dumps(found))
SUMMARY
