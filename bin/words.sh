# For bin/asking.sh and bin/install, which read this file: the words of both programs. A row is the program, the words, what is read (a scenario, a session, a text, `both` for a
# scenario and its report, `any` where the report may lack, or nothing), what is done, and the words of an example. Capitals stand for a word of one's own; `asked_range` says which.
word_rows=(
    am2 'step' scenario 'makes the steps that a scenario lists, and prints the report' 'step examples/first.am2'
    am2 'run' scenario 'runs the scripts of its threads, and prints the report' 'run examples/run-plan.am2'
    am2 'make N' nothing 'makes a scenario from a number, runs it and sums it up' 'make 7'
    am2 'segments' scenario 'runs threads that send blocks of bytes to segments' 'segments examples/segments.am2'
    am2 'session' session 'plays two interfaces that restart' 'session examples/session.am2'
    am2 'count W U' text 'has W nodes count the words of a text, in runs with U turns' 'count 4 0 README.md'
    am2 'check step|run' both 'judges a report of such a scenario' 'check run examples/run-plan.am2 examples/run-plan.out'
    am2_lab 'explain step [--front]' any 'tells what is wrong with a step script or its report; with --front also what was made before a refused step' 'explain step examples/first.am2 examples/first.out'
    am2_lab 'explain run' any 'tells what is wrong with a scenario of threads or its report, and what was due there' 'explain run examples/run-plan.am2 examples/run-plan.out'
    am2_lab 'why step|run E.K' both 'tells what became of a message, and why' 'why run 0.2 examples/run-withheld.am2 examples/run-withheld.out'
    am2_lab 'why step|run --front E.K' both 'the same, up to a fault of the report or its full log' 'why run --front 0.2 examples/run-withheld.am2 examples/run-withheld.out'
    am2_lab 'chart step|run [FROM TO]' both 'draws the journal, or some lines of it, as SVG' 'chart run -o plan.svg examples/run-plan.am2 examples/run-plan.out'
    am2_lab 'chart step|run E.K' both 'draws the lines that touch a message, as SVG' 'chart run 0.2 -o message.svg examples/run-withheld.am2 examples/run-withheld.out'
    am2_lab 'chart step|run --front' both 'draws the journal up to a fault of the report or its full log' 'chart run --front -o front.svg examples/run-plan.am2 examples/run-plan.out'
    am2_lab 'replay run' both 'prints the journal of a run as a step script' 'replay run examples/run-plan.am2 examples/run-plan.out'
    am2_lab 'scenario step|run' scenario 'prints a scenario in one form' 'scenario step examples/first.am2'
    am2_lab 'scenario make N' nothing 'prints the scenario that am2 make N runs' 'scenario make 7'
    am2_lab 'scenario segments' scenario 'prints the scenario that am2 segments runs' 'scenario segments examples/segments.am2'
    am2_lab 'scenario count W U ROUND' text 'prints the scenario of a round of am2 count W U' 'scenario count 4 0 1 README.md'
    am2_lab 'schedule SEED[..SEED2]' scenario 'runs threads in an order that a seed draws' 'schedule 0..100 examples/turns-clients.am2'
    am2_lab 'schedule SEED[..SEED2] --faults PERCENT' scenario 'the same, with the plan that the seed draws' 'schedule 0..100 --faults 20 examples/turns-clients.am2'
    am2_lab 'json step|run [--shiviz]' both 'prints the journal as lines of JSON; with --shiviz as ShiViz reads it' 'json step examples/first.am2 examples/first.out'
    am2_lab 'page step|run' both 'prints a page for a browser' 'page step -o first.html examples/first.am2 examples/first.out'
    am2_lab 'state step|run [LINE [LINE2]]' both 'tells the state behind a line, or what changed from one to another' 'state step 9 examples/first.am2 examples/first.out'
    am2_lab 'find [--not] A..B WORDS..' behind 'prints the report of the least seed with such a line' "find 0..100 'fate 1.* request ran' -- examples/turns-clients.am2"
    am2_lab 'find [--not] A..B --faults PERCENT WORDS..' behind 'the same, with the plan that the seed draws, behind the scenario with it' "find 0..1000 --faults 50 'fate 0.* request unknown-but-ran' -- examples/turns-clients.am2"
    am2_lab 'faults SEED PERCENT' scenario 'prints a scenario with a plan that a seed draws' 'faults 7 20 examples/turns-clients.am2'
    am2_lab 'shrink step|run WORDS..' behind 'leaves out what it can, as long as the report has such a line' "shrink step 'fate 0.* request ran' -- examples/first.am2"
    am2_lab 'shrink run --seed N WORDS..' behind 'the same of a run by a seed' "shrink run --seed 7 'fate 1.*' -- examples/turns-clients.am2"
)

# The range of what stands for a word of one's own.
asked_range() {
    case $1 in
        N) echo 'N is a number from 0 to 18446744073709551615, in digits and without a leading zero' ;;
        W) echo 'W, how many nodes count, is 1 to 8' ;;
        U) echo 'U, the turns of each worker, is 0 to 10000' ;;
        ROUND) echo 'ROUND, the number of a round, is 1 to 18446744073709551615' ;;
        E.K) echo 'E.K is a message as the report prints it: an endpoint from 0 to 255, a point, and a count from 1 to 4294967295' ;;
        '[FROM TO]') echo 'FROM and TO are lines of the report, 0 to 4294967295, and come together; its journal begins in line 3' ;;
        '[LINE [LINE2]]') echo 'LINE and LINE2 are lines of the report, 0 to 4294967295; its journal begins in line 3' ;;
        A..B) echo 'A..B are the seeds from A up to B, which is not among them, 1 to 100000 in all' ;;
        SEED) echo 'SEED is a number from 0 to 18446744073709551615' ;;
        PERCENT) echo 'PERCENT is a number from 0 to 100' ;;
        '--faults PERCENT') echo '--faults PERCENT stands behind the seeds' ;;
        WORDS..) echo 'WORDS are those that a line of the report begins with, none of them empty or with -- in front; a file stands behind them and --' ;;
        'SEED[..SEED2]') echo 'SEED is a number from 0 to 18446744073709551615; SEED..SEED2 are the seeds from SEED up to SEED2, which is not among them, 1 to 100000 in all' ;;
    esac
}

# What a command reads, in words.
asked_input() {
    case $1 in
        nothing) echo 'It reads nothing.' ;;
        any) echo 'It reads a scenario, alone or with its report behind it: one file or two, or standard input.' ;;
        both) echo 'It reads a scenario and behind it its report: two files, or one that has both, or standard input.' ;;
        behind) echo 'It reads a scenario from a file or from standard input.' ;;
        scenario | session | text) echo "It reads a $1 from a file or from standard input." ;;
    esac
}

# What a status other than 0 means.
status_meaning() {
    case $1 in
        1) echo "it could not be built" ;;
        2) echo "the words are none of its commands" ;;
        3) echo "refused: the text is no scenario of this form, or a step of it can't happen; the output names the line" ;;
        4) echo "a read failed" ;;
        5) echo "a write failed: the output has a front of the text, or nothing" ;;
        6) echo "a log is full: the output names it" ;;
        7) echo "the input has more than 16777216 bytes" ;;
        8) echo "there is no memory" ;;
        10) echo "the report isn't that of a history which follows the scenario; the output names its first line with a fault" ;;
        11) echo "what was read is too long for this command; the output says what there was too much of" ;;
        12) echo "what was asked for isn't there; the output says what lacks" ;;
        *) echo "the program was ended from outside" ;;
    esac
}
