#!/usr/bin/env bash
# The parts stand alone: in an empty repository that has the two example programs and what they stand on, and nothing else, each
# is compiled and prints what it must.
set -u
folder=$(mktemp -d)
trap 'rm -rf "$folder"' EXIT
failed=0
cp HANDLES "$folder"
for program in am_example_tally am_example_sums; do
    bin/part "$program" "$folder" >> "$folder/crates.txt" || failed=1
done
for program in am_example_tally am_example_sums; do
    text=$(cd "$folder/crates/$program" && rt try 2>"$folder/errors")
    [ "$text" = "$(cat "crates/$program/stdout")" ] || { echo "$program, alone in a repository, prints '$text'"; cat "$folder/errors"; failed=1; }
done
echo "parts: am_example_tally and am_example_sums, alone in a repository"
exit "$failed"
