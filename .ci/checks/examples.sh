#!/usr/bin/env bash
# Each example against its stored report: those named run-* by the command run, those named segments* by segments, those named session* by session, those named check-run-*
# by check run, the others by step. A run with turns (turns-*) prints one of several reports: the stored one and one of now are each one that check run says yes to.
set -u
. .ci/program.sh
failed=0
compared=0
is_right() { # scenario, report
    [ "$(cat "$1" "$2" | bin/am2 check run)" = "check ok" ] || { echo "no report of $1: $2"; failed=1; }
}
now=$(mktemp)
trap 'rm -f "$now"' EXIT
for example in examples/*.am2; do
    compared=$((compared + 1))
    case $example in
        examples/run-*) command=run ;;
        examples/segments*) command=segments ;;
        examples/session*) command=session ;;
        examples/check-run-*) command='check run' ;;
        examples/turns-*)
            bin/am2 run < "$example" > "$now"
            is_right "$example" "$now"
            is_right "$example" "${example%.am2}.out"
            continue
            ;;
        *) command=step ;;
    esac
    bin/am2 $command < "$example" | cmp -s - "${example%.am2}.out" || { echo "example differs: $example"; failed=1; }
done
echo "examples: $compared compared"
[ "$compared" -gt 0 ] || failed=1
exit "$failed"
