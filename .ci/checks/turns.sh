#!/usr/bin/env bash
# The scenario of the stored run with 0 to 32 turns and with 1,000: each report obeys the laws, and the second reading makes it again.
. .ci/program.sh
exec python3 -B check/turns.py bin/am2 crates/am2/stdin
