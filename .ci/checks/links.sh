#!/usr/bin/env bash
# Each link of README and docs leads somewhere, and each word that docs/TEXTS.md says may be printed stands in the manual.
set -u
failed=0
python3 -B check/links.py || failed=1
python3 -B check/words.py || failed=1
exit "$failed"
