#!/usr/bin/env bash
# The words of texts, counted over the cluster, against a plain walk over each text; and the example that counts the README.
set -u
. .ci/program.sh
failed=0
python3 -B check/counts.py bin/am2 || failed=1
most=$(examples/count-readme.sh | head -n 1)
the=$(tr '\t\n\r ' '\n\n\n\n' < README.md | grep -c '^the$')
[ "$most" = "$the the" ] || { echo "examples/count-readme.sh: '$most' for '$the the'"; failed=1; }
exit "$failed"
