#!/usr/bin/env bash
# What am2_lab tells of the states behind the lines of the examples' and of random reports, and how they differ, against
# a second reading of the machine.
set -u
. .ci/program.sh
lab=crates/am2_lab/out/am2_lab
[ -x "$lab" ] || { echo "am2_lab isn't built: rt ci builds it, and so does bin/am2_lab"; exit 1; }
exec python3 -B check/state.py "$lab" 1 60
