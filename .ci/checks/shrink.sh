#!/usr/bin/env bash
# What `am2_lab shrink` prints of the examples and of ten random step scripts and runs: lines of the text whose report has such a line, and no longer has it when any of them is left out, as am2 says of each.
set -u
. .ci/program.sh
[ -x crates/am2_lab/out/am2_lab ] || { echo "am2_lab isn't built: rt ci builds it, and so does bin/am2_lab"; exit 1; }
exec python3 -B check/shrinks.py crates/am2_lab/out/am2_lab "$am2"
