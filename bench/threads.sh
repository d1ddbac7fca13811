#!/usr/bin/env bash
# What threads bring: bench/threads.sh PROGRAM [TURNS]. The scenarios of bench/inputs.py on 1 to 16 nodes, run by the drain alone (turns 0) and with 10,000 turns. Prints the
# table of docs/PERFORMANCE.md. The slowest of three whole runs counts, reading and printing included. How many entries the workers made at most, check/replay.py reads off the
# report. The status is 1 where a run failed.
set -u
program=${1:-crates/am2/out/am2}
turns=${2:-10000}
top=$(cd "$(dirname "$0")/.." && pwd)
input=$(mktemp)
output=$(mktemp)
slowest=$(mktemp)
trap 'rm -f "$input" "$output" "$slowest"' EXIT

# runs the scenario in $input three times: its milliseconds, where its report stays in $slowest
timed() {
    local most=0 start end
    for _ in 1 2 3; do
        start=$(date +%s%N)
        "$program" run < "$input" > "$output" || return 1
        end=$(((($(date +%s%N) - start)) / 1000000))
        [ "$end" -ge "$most" ] && { most=$end; cp "$output" "$slowest"; }
    done
    milliseconds=$((most > 0 ? most : 1))
}

entries() {
    sed -n '2s/entries //p' "$slowest"
}

echo "| Nodes | Workers | Drain alone: entries | time | entries a second | With $turns turns: entries | of workers | time | entries a second | turns a second |"
echo "|---|---|---|---|---|---|---|---|---|---|"
for nodes in 1 2 4 8 16; do
    python3 "$top/bench/inputs.py" crowd "$nodes" 0 > "$input"
    timed || { echo "a run of $nodes nodes failed"; exit 1; }
    alone="$(entries) | $milliseconds ms | $(($(entries) * 1000 / milliseconds))"
    python3 "$top/bench/inputs.py" crowd "$nodes" "$turns" > "$input"
    timed || { echo "a run of $nodes nodes with turns failed"; exit 1; }
    workers=$((6 * nodes))
    made=$(python3 -B "$top/check/replay.py" "$input" "$slowest") || { echo "the report of $nodes nodes is wrong: $made"; exit 1; }
    echo "| $nodes | $workers | $alone | $(entries) | $made | $milliseconds ms | $(($(entries) * 1000 / milliseconds)) | $((workers * turns * 1000 / milliseconds)) |"
done
