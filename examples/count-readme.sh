#!/usr/bin/env bash
# The ten words that stand most often in this repository's README, as messages between four nodes count them:
#     examples/count-readme.sh
# A line `word RAN LEFT TEXT` says that RAN messages with the word TEXT ran at the node that owns it. Without turns none is left.
cd "$(dirname "$0")/.." || exit 1
counts=$(bin/am2 count 4 0 < README.md) || { echo "examples/count-readme.sh: the words could not be counted" >&2; exit 1; }
awk '$1 == "word" { print $2, $4 }' <<< "$counts" | LC_ALL=C sort -k1,1nr -k2 | sed -n 1,10p
