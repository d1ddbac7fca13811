#!/usr/bin/env bash
# What the repository itself must keep: the handles, every crate listed, no build output committed.
set -u
failed=0
[ "$(cat HANDLES)" = "Handles allowed: Threads, Wait." ] || { echo "HANDLES has changed"; failed=1; }
for folder in crates/*/; do
    name=$(basename "$folder")
    [ -d "$folder/src" ] || continue
    grep -q "^$name:" crates.txt || { echo "crates.txt lacks $name"; failed=1; }
done
if git ls-files | grep -q '^crates/[a-z0-9_]*/out/'; then echo "build output is committed"; failed=1; fi
while read -r file; do
    case $file in */stdin | */stdout | */args | */Lib.antt) ;; *) [ -s "$file" ] || { echo "an empty file is tracked: $file"; failed=1; } ;; esac
done < <(git ls-files)
exit "$failed"
