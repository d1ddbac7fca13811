#!/usr/bin/env bash
# The program gives back the memory that its own code takes for a text: whatever the text, at the end so many blocks are held as with an empty one.
# bench/memory/refuse.c, which is preloaded, counts those that are taken and those that are given back.
set -u
. .ci/program.sh
folder=$(mktemp -d)
trap 'rm -rf "$folder"' EXIT
failed=0
runs=0
cc -shared -fPIC -O -o "$folder/refuse.so" bench/memory/refuse.c || exit 1
held() { # an input, words: how many blocks are held at the end, and how many were taken in all
    REFUSE_TO=$folder/counts LD_PRELOAD=$folder/refuse.so crates/am2/out/am2 "${@:2}" < "$1" > "$folder/text" 2>&1
    status=$?
    od -v -A n -t d8 -w8 "$folder/counts" > "$folder/numbers"
    { read -r taken; read -r _; read -r left; } < "$folder/numbers"
}
tried() { # wanted status, an input, words
    held /dev/null "${@:3}"
    local none=$left before=$taken
    held "$2" "${@:3}"
    runs=$((runs + 1))
    [ "$status" = "$1" ] || { echo "${*:3} < $2: status $status for $1"; failed=1; }
    [ "$taken" -gt "$before" ] || { echo "${*:3} < $2: takes no more memory than for an empty text"; failed=1; }
    [ "$left" = "$none" ] || { echo "${*:3} < $2: $left blocks are held at the end, and $none for an empty text"; failed=1; }
}
for name in first paging bounces full-queue packets loss; do
    tried 0 "examples/$name.am2" step
done
for name in run-clients run-frames run-plan turns-clients; do
    tried 0 "examples/$name.am2" run
done
tried 0 examples/segments.am2 segments
tried 0 examples/session.am2 session
tried 0 README.md count 3 0
tried 0 README.md count 3 100
cat examples/first.am2 examples/first.out > "$folder/report"
tried 0 "$folder/report" check step
echo "freed: $runs texts"
exit "$failed"
