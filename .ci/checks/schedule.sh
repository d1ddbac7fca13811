#!/usr/bin/env bash
# Two hundred runs by a seed: the program's checker says yes to each, the second reading makes it again entry by entry, and the same seed prints it again.
# And what is told of many seeds is what their reports say, each by itself; the least seed that is found is found by a walk over them; a drawn plan is drawn again.
set -u
. .ci/program.sh
[ -x crates/am2_lab/out/am2_lab ] || { echo "am2_lab isn't built: rt ci builds it, and so does bin/am2_lab"; exit 1; }
failed=0
python3 -B bench/soak.py schedule bin/am2 crates/am2_lab/out/am2_lab 1 200 2 || failed=1
python3 -B check/schedules.py crates/am2_lab/out/am2_lab || failed=1
python3 -B check/finds.py crates/am2_lab/out/am2_lab || failed=1
exit "$failed"
