#!/usr/bin/env bash
# Each command over real streams that fail, and over an input that ends in the middle of a line.
set -u
. .ci/program.sh
failed=0
folder=$(mktemp -d)
errors=$folder/errors
trap 'rm -rf "$folder"' EXIT
expect() { # what, wanted status, wanted text, status, text
    [ "$2" = "$4" ] || { echo "$1: status $4 for $2"; failed=1; }
    [ "$3" = "$5" ] || { echo "$1: printed '$5' for '$3'"; failed=1; }
    [ -s "$errors" ] && { echo "$1: wrote to standard error"; failed=1; }
}
bin/am2 step < examples/first.am2 >/dev/null 2>&1 || { echo "the first example failed"; exit 1; }

# a command that reads, its input, its answer; status and text without the newline at the end, and without the last four bytes
tried() {
    local words=$1 input=$2 answer=$3
    text=$($am2 $words < . 2>"$errors"); expect "$words, a folder as input" 4 'read fault' $? "$text"
    text=$($am2 $words <&- 2>"$errors"); expect "$words, a closed input" 4 'read fault' $? "$text"
    $am2 $words < . 2>"$errors" >/dev/full; expect "$words, a folder as input and a full device" 5 '' $? ''
    $am2 $words < "$input" 2>"$errors" >/dev/full; expect "$words, a full device" 5 '' $? ''
    $am2 $words < "$input" 2>"$errors" >&-; expect "$words, a closed output" 5 '' $? ''
    text=$($am2 $words < "$input" 2>"$errors"); expect "$words" 0 "$answer" $? "$text"
    text=$(head -c -1 "$input" | $am2 $words 2>"$errors"); expect "$words, no newline at the end" "$4" "$5" $? "$text"
    text=$(head -c -4 "$input" | $am2 $words 2>"$errors"); expect "$words, an end in the middle of a line" "$6" "$7" $? "$text"
}
whole() { cat "examples/$1.out"; }
last() { echo "refused line $(wc -l < "examples/$1.am2")"; }
tried step examples/first.am2 "$(whole first)" 0 "$(whole first)" 3 "$(last first) unknown-word"
tried run examples/run-clients.am2 "$(whole run-clients)" 0 "$(whole run-clients)" 3 "$(last run-clients) unknown-word"
tried segments examples/segments.am2 "$(whole segments)" 0 "$(whole segments)" 3 "$(last segments) missing"
tried session examples/session.am2 "$(whole session)" 0 "$(whole session)" 3 "$(last session) unknown-word"
# the words of a cut text are those that stand there; the last line of a report has its newline
printf 'b a b cccc\n' > "$folder/words"
counted() { printf 'am2 count 2 0\nword 1 0 a\nword 2 0 b\nword 1 0 %s\nwords 4\nlong 0\nleft 0\n' "$1"; }
tried 'count 2 0' "$folder/words" "$(counted cccc)" 0 "$(counted cccc)" 0 "$(counted c)"
for form in step run; do
    example=$([ "$form" = step ] && echo first || echo run-clients)
    cat "examples/$example.am2" "examples/$example.out" > "$folder/$form"
    tail="check line $(wc -l < "examples/$example.out") tail"
    tried "check $form" "$folder/$form" 'check ok' 10 "$tail" 10 "$tail"
done

# what reads nothing
for words in 'make 1' stop; do
    $am2 $words 2>"$errors" >/dev/full; expect "$words, a full device" 5 '' $? ''
    $am2 $words 2>"$errors" >&-; expect "$words, a closed output" 5 '' $? ''
done

# a reader that has gone
exec 3> >(true)
wait $!
$am2 make 1 2>"$errors" >&3; expect 'a reader that has gone' 5 '' $? ''
exec 3>&-
[ "$failed" = 0 ] && echo "streams: as they should be"
exit "$failed"
