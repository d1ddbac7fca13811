#!/usr/bin/env bash
# How long a step script takes: bench/steps.sh PROGRAM. Scripts of 8,000 to 65,000 lines on each network. The status is that of the run.
set -eu
program=${1:-crates/am2/out/am2}
top=$(cd "$(dirname "$0")/.." && pwd)
input=$(mktemp)
trap 'rm -f "$input"' EXIT

for network in direct packet; do
    for lines in 8000 16000 32000 65000; do
        python3 "$top/bench/inputs.py" "$network" "$lines" > "$input"
        status=0
        start=$(date +%s%N)
        "$program" step < "$input" > /dev/null || status=$?
        end=$(date +%s%N)
        echo "$network, $lines lines: $(((end - start) / 1000000)) ms, status $status"
    done
done
