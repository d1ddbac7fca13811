#!/usr/bin/env bash
# What bin/am2, bin/am2_lab and bin/install answer to the command lines of commands.txt: words, files, refusals, with and without a build and without the kit. Nothing is built.
set -u
. .ci/program.sh
[ -x crates/am2_lab/out/am2_lab ] || { echo "am2_lab isn't built: rt ci builds it, and so does bin/am2_lab"; exit 1; }
exec python3 -B check/commands.py .ci/checks/commands.txt
