#!/usr/bin/env bash
# The journal for ShiViz, cut by ShiViz's own expression, against clocks that are counted from what happened before.
set -u
. .ci/program.sh
lab=crates/am2_lab/out/am2_lab
[ -x "$lab" ] || { echo "am2_lab isn't built: rt ci builds it, and so does bin/am2_lab"; exit 1; }
exec python3 -B check/shiviz_clocks.py "$lab"
