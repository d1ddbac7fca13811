#!/usr/bin/env bash
# The page of a report: that its texts in the program are those of the crate's folder page, that the one in docs is what is printed, that
# the examples' pages carry the changes of a second reading, and what a browser shows of pages, clicked and typed at, against that.
set -u
python3 -B check/page_texts.py || exit 1
. .ci/program.sh
lab=crates/am2_lab/out/am2_lab
[ -x "$lab" ] || { echo "am2_lab isn't built: rt ci builds it, and so does bin/am2_lab"; exit 1; }
cat examples/turns-clients.am2 examples/turns-clients.out | "$lab" page run | cmp - docs/turns-clients.html || exit 1
exec python3 -B check/page.py "$lab" "$am2"
