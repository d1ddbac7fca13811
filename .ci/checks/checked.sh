#!/usr/bin/env bash
# The program judges the reports of the examples and of runs of the stored scenario: yes; and one with a byte changed, at each place: no.
. .ci/program.sh
exec python3 -B check/checked.py bin/am2 crates/am2/stdin
