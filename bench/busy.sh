#!/usr/bin/env bash
# How often a worker found its endpoint taken: bench/busy.sh PROGRAM [SCENARIO ..]. Without scenarios it takes those of bench/inputs.py with 10,000 turns on 1 to 16 nodes.
# A worker that wants an endpoint calls `try_enter_at` of am_places, and calls `leave` where it got it; so what entered and didn't leave found it Busy. Both are counted by the
# kernel's probes on the program's functions, which wants Linux, root and perf, and makes the run slower. It needs a build in which both are functions of their own, as clang makes it, optimizing little,
# of the module that rt try leaves: the program that rt builds has them in line. Prints a table.
set -eu
program=$(realpath "${1:-crates/am2/out/am2}")
shift || true
top=$(cd "$(dirname "$0")/.." && pwd)
tracing=/sys/kernel/tracing
work=$(mktemp -d)
trap 'rm -rf "$work"; : > "$tracing/uprobe_events"' EXIT
[ -e "$tracing/uprobe_events" ] || mount -t tracefs nodev "$tracing"

: > "$tracing/uprobe_events"
number=0
for name in try_enter_at leave; do
    for address in $(nm -C "$program" | awk -v name="Places::$name" 'index($0, name) { print $1 }'); do
        number=$((number + 1))
        echo "p:am2/${name}_$number $program:0x$address" >> "$tracing/uprobe_events"
    done
done

[ "$number" -gt 1 ] || { echo "the program has no try_enter_at and leave of its own"; exit 2; }

scenarios=("$@")
if [ ${#scenarios[@]} = 0 ]; then
    for nodes in 1 2 4 8 16; do
        python3 "$top/bench/inputs.py" crowd "$nodes" 10000 > "$work/$nodes nodes"
        scenarios+=("$work/$nodes nodes")
    done
fi
echo "| Scenario | Entered or tried to | Found it taken | Of a hundred |"
echo "|---|---|---|---|"
for scenario in "${scenarios[@]}"; do
    perf stat -x , -o "$work/counts" -e 'am2:*' "$program" run < "$scenario" > /dev/null || true
    awk -F , -v name="$(basename "$scenario")" '
        /try_enter_at/ { tried += $1 }
        /leave/ { left += $1 }
        END { printf "| %s | %d | %d | %.1f |\n", name, tried, tried - left, tried ? 100 * (tried - left) / tried : 0 }' "$work/counts"
done
