#!/usr/bin/env bash
# The scenario of the stored run, cut after every byte: each beginning of it is a scenario whose run ends (0), or is refused (3).
set -u
. .ci/program.sh
text=crates/am2/stdin
size=$(wc -c < "$text")
for ((count = 0; count <= size; count++)); do
    head -c "$count" "$text" | bin/am2 run > /dev/null 2>&1
    status=${PIPESTATUS[1]}
    case $status in
        0 | 3) ;;
        *) echo "status $status after $count bytes of $text"; exit 1 ;;
    esac
done
echo "cuts: $((size + 1)) beginnings run or refused"
