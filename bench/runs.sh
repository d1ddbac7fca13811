#!/usr/bin/env bash
# How long a run takes: bench/runs.sh PROGRAM. Scripts of 2,000 to 16,384 calls, with a quarter as many packets that come twice, and four made workloads. The status is that of the run.
set -eu
program=${1:-crates/am2/out/am2}
top=$(cd "$(dirname "$0")/.." && pwd)
input=$(mktemp)
output=$(mktemp)
trap 'rm -f "$input" "$output"' EXIT

timed() { # what, words
    local what=$1 status=0 start end
    shift
    start=$(date +%s%N)
    "$program" "$@" < "$input" > "$output" || status=$?
    end=$(date +%s%N)
    echo "$what, $(grep -a -m 1 '^entries' "$output"): $(((end - start) / 1000000)) ms, status $status"
}

for count in 2000 4000 8000 16384; do
    python3 "$top/bench/inputs.py" calls "$count" $((count / 4)) > "$input"
    timed "$count calls" run
done
for number in 0 1 2 3; do
    timed "make $number" make "$number"
done
