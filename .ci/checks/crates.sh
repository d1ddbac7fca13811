#!/usr/bin/env bash
# docs/CRATES.md has the crates of crates.txt in its order, and docs/ARCHITECTURE.md the picture of them and the table of the parts.
set -u
failed=0
python3 -B check/crates.py || failed=1
python3 -B check/map.py || failed=1
exit "$failed"
