#!/usr/bin/env bash
# The journal as JSON to Python's own reader, against a second reading of the report's words.
set -u
. .ci/program.sh
lab=crates/am2_lab/out/am2_lab
[ -x "$lab" ] || { echo "am2_lab isn't built: rt ci builds it, and so does bin/am2_lab"; exit 1; }
exec python3 -B check/json_lines.py "$lab"
