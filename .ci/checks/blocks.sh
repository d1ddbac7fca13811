#!/usr/bin/env bash
# What README and docs show is what comes of it: whole scenarios with their reports, and commands with what they print.
. .ci/program.sh
[ -x crates/am2_lab/out/am2_lab ] || { echo "am2_lab isn't built: rt ci builds it, and so does bin/am2_lab"; exit 1; }
exec python3 -B check/blocks.py bin/am2
