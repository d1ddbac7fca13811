#!/usr/bin/env bash
# The program against the second reading of the rules in check/: fifty random step scripts, runs, runs with segments and sessions, each also with a line or two
# changed, spoiled reports, and a made run, byte by byte; and the examples' runs are judged by what can be read off a report, and made again entry by entry, as are forty random runs with turns.
set -u
. .ci/program.sh
failed=0
python3 -B check/compare.py bin/am2 1 50 || failed=1
for run in examples/run-*.am2 examples/turns-*.am2; do
    python3 -B check/judge.py "$run" "${run%.am2}.out" >/dev/null || { echo "judged as wrong: $run"; failed=1; }
    python3 -B check/replay.py "$run" "${run%.am2}.out" >/dev/null || { echo "made again in another way: $run"; failed=1; }
done
python3 -B bench/soak.py bin/am2 1 40 2 || failed=1
exit "$failed"
