# Sourced by the scripts that time: goes to the top, and sets `program` to the path given, or to the program timer, which it builds.
program=${1:+$(realpath "$1")}
cd "$(dirname "${BASH_SOURCE[0]}")/.."
if [ -z "$program" ]; then
    (cd crates/timer && rt run < stdin > /dev/null)
    program=$PWD/crates/timer/out/timer
fi
