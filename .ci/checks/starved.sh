#!/usr/bin/env bash
# A run by a seed one of whose allocations is refused, each in turn, those of every worker's turns too: status 8 with `no memory`, and nothing behind it; or its report, where it can do without.
set -u
[ -x crates/am2_lab/out/am2_lab ] || { echo "am2_lab isn't built: rt ci builds it, and so does bin/am2_lab"; exit 1; }
exec python3 -B check/starved.py crates/am2_lab/out/am2_lab
