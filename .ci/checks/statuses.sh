#!/usr/bin/env bash
# The program's own edge, which no contract reaches: the words after its name, the real streams, and the exit status.
set -u
. .ci/program.sh
failed=0
first=examples/first.am2
errors=$(mktemp)
expect() { # what, wanted status, wanted text, status, text
    [ "$2" = "$4" ] || { echo "$1: status $4 for $2"; failed=1; }
    [ "$3" = "$5" ] || { echo "$1: printed '$5' for '$3'"; failed=1; }
    [ -s "$errors" ] && { echo "$1: wrote to standard error"; failed=1; }
}
usage='usage: am2 step | am2 run | am2 make N | am2 segments | am2 session | am2 count W U | am2 check step | am2 check run'
bin/am2 step < "$first" >/dev/null 2>&1 || { echo "the first example failed"; exit 1; }
text=$($am2 < "$first" 2>"$errors"); expect 'no words' 2 "$usage" $? "$text"
text=$($am2 step now < "$first" 2>"$errors"); expect 'two words' 2 "$usage" $? "$text"
text=$($am2 make < "$first" 2>"$errors"); expect 'make without a number' 2 "$usage" $? "$text"
text=$($am2 make 01 < "$first" 2>"$errors"); expect 'a leading zero' 2 "$usage" $? "$text"
text=$($am2 make 18446744073709551616 2>"$errors" < "$first"); expect 'a number too large' 2 "$usage" $? "$text"
text=$($am2 $'\xff' < "$first" 2>"$errors"); expect 'a word that is no text' 2 "$usage" $? "$text"
text=$(printf 'speed 3\n' | $am2 step 2>"$errors"); expect 'no scenario' 3 'refused line 1 unknown-word' $? "$text"
text=$(printf 'am2 1\nnetwork packet\nnodes 1\nendpoint 0 0 5\ni0 bind 0\n' | $am2 step 2>"$errors")
expect 'a step that can not happen' 3 'refused line 5 not-enabled not-resident' $? "$text"
text=$(printf 'am2 1\nnetwork packet\nnodes 1\nlog 1\nendpoint 0 0 5\nx poll 0\nx poll 0\n' | $am2 step 2>"$errors")
expect 'a full log' 6 'log full e0' $? "$text"
text=$(printf 'am2 1\nnetwork direct\nnodes 1\n' | $am2 run 2>"$errors")
expect 'a run on the direct network' 3 'refused line 2 out-of-range' $? "$text"
text=$(printf 'am2 1\nnetwork packet\nnodes 1\nlog 1\nendpoint 0 0 5\nthread 0 0\nt0 poll 0\nt0 poll 0\n' | $am2 run 2>"$errors"); status=$?
expect 'a full log in a run' 6 "$(printf 'log full e0\nam2 report 1\nentries 1\nt0 poll 0 -> empty\nendpoint 0 runs 0\nmessages 0\ntotals ran 0 returned 0 unknown 0 unknown-but-ran 0 pending 0')" $status "$text"
text=$($am2 make 0 2>"$errors" < .); status=$?
expect 'a made run, which reads nothing' 0 "$(printf 'am2 make 0\ncalls 1744')" $status "$(head -n 2 <<< "$text")"
text=$($am2 step < . 2>"$errors"); expect 'a folder as input' 4 'read fault' $? "$text"
$am2 step < "$first" 2>"$errors" >/dev/full; expect 'a full device' 5 '' $? ''
text=$(head -c 16777217 /dev/zero | $am2 step 2>"$errors"); expect 'too many bytes' 7 'input too long' $? "$text"
text=$($am2 count 9 0 < "$first" 2>"$errors"); expect 'nine nodes' 2 "$usage" $? "$text"
text=$($am2 count 1 10001 < "$first" 2>"$errors"); expect 'too many turns' 2 "$usage" $? "$text"
text=$(printf 'b a b\n' | $am2 count 2 0 2>"$errors"); status=$?
expect 'counted words' 0 "$(printf 'am2 count 2 0\nword 1 0 a\nword 2 0 b\nwords 3\nlong 0\nleft 0')" $status "$text"
text=$($am2 count 1 0 < . 2>"$errors"); expect 'a folder whose words are counted' 4 'read fault' $? "$text"
text=$(head -c 1048577 /dev/zero | $am2 count 1 0 2>"$errors"); expect 'a text too long to be counted' 11 'text too long' $? "$text"
text=$(head -c 16777217 /dev/zero | $am2 count 1 0 2>"$errors"); expect 'too many bytes to be counted' 7 'input too long' $? "$text"
text=$(cat "$first" examples/first.out | $am2 check step 2>"$errors"); expect 'a right report' 0 'check ok' $? "$text"
text=$(cat "$first" examples/first.out | head -c -1 | $am2 check step 2>"$errors"); expect 'a report without its last newline' 10 'check line 14 tail' $? "$text"
text=$($am2 check step < "$first" 2>"$errors"); expect 'no report' 10 'check line 1 form' $? "$text"
text=$($am2 check run < "$first" 2>"$errors"); expect 'a step script as a run' 3 'refused line 3 out-of-range' $? "$text"
text=$($am2 check < "$first" 2>"$errors"); expect 'check without a form' 2 "$usage" $? "$text"
text=$($am2 check make < "$first" 2>"$errors"); expect 'a form that is none' 2 "$usage" $? "$text"
text=$($am2 check step < . 2>"$errors"); expect 'a folder that is checked' 4 'read fault' $? "$text"
rm -f "$errors"
[ "$failed" = 0 ] && echo "statuses: as they should be"
exit "$failed"
