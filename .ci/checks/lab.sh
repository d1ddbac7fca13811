#!/usr/bin/env bash
# What am2_lab tells of the messages and the faults of the examples' reports, and of scenarios that are refused, against
# a second reading of their texts;
# that am2 makes the same reports of the scenarios and replays that it prints; and the scenarios behind made runs,
# segments and counts.
set -u
. .ci/program.sh
lab=crates/am2_lab/out/am2_lab
[ -x "$lab" ] || { echo "am2_lab isn't built: rt ci builds it, and so does bin/am2_lab"; exit 1; }
failed=0
python3 -B check/lab.py "$lab" crates/am2/out/am2 || failed=1
python3 -B check/refusals.py "$lab" || failed=1
python3 -B check/derived.py "$lab" crates/am2/out/am2 || failed=1
python3 -B check/pictures.py "$lab" || failed=1
python3 -B check/chart.py "$lab" || failed=1
python3 -B check/lab_randoms.py "$lab" 1 120 || failed=1
exit "$failed"
