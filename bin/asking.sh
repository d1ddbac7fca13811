# For bin/am2 and bin/am2_lab, which read this file and set `name`, the program's crate, and `top`, the top of the repository: what the words ask for, help, files and `-o`,
# and what is said beside the program's own text. Nothing is built before the words are known to be right.
# shellcheck source=bin/words.sh
. "$top/bin/words.sh"
. "$top/bin/building.sh"
# How it is called in what is said: as it was, or by its name alone where PATH has it.
called=$0
[ "${called##*/}" = "$name" ] || called=$top/bin/$name
[[ $called != /* ]] || [ "$(type -P "$name")" != "$called" ] || called=$name
usage_line='usage: am2 step | am2 run | am2 make N | am2 segments | am2 session | am2 count W U | am2 check step | am2 check run'

# What is said beside the program's text: where standard error is a terminal. am2_lab tells wrong words there in any case, as its program does.
say() {
    [ -t 2 ] && printf '%s\n' "$1" >&2
    return 0
}
say_wrong() {
    if [ "$name" = am2_lab ]; then printf '%s\n' "$1" >&2; else say "$1"; fi
}

# The end of a row's words in a usage: its files.
files_of() {
    case $1 in
        nothing) ;;
        both | any) echo ' [FILE [REPORT]]' ;;
        behind) echo ' [-- FILE]' ;;
        *) echo ' [FILE]' ;;
    esac
}

# The help for all words, or for the commands that begin with a word.
help_of() {
    local first=$1 i shown
    for ((i = 0; i < ${#word_rows[@]}; i += 5)); do
        [ "${word_rows[i]}" = "$name" ] || continue
        [ -z "$first" ] || [ "${word_rows[i + 1]%% *}" = "$first" ] || continue
        shown="$called ${word_rows[i + 1]}$(files_of "${word_rows[i + 2]}")"
        if [ -z "$first" ]; then
            printf '  %-50s %s\n' "$shown" "${word_rows[i + 3]}"
        else
            help_of_row "$shown" "$i"
        fi
    done
}
help_of_row() {
    local i=$2 token
    printf 'usage: %s\n%s.\n' "$1" "${word_rows[i + 3]^}"
    for token in W U ROUND N E.K '[FROM TO]' 'SEED[..SEED2]' '[LINE [LINE2]]' A..B SEED PERCENT WORDS..; do
        case " ${word_rows[i + 1]} " in *" $token "*) asked_range "$token" ;; esac
    done
    printf '%s\nFor example: %s %s\n' "$(asked_input "${word_rows[i + 2]}")" "$called" "${word_rows[i + 4]}"
}
help_for() {
    local page=docs/MANUAL.md
    [ "$name" = am2_lab ] && page=docs/LAB.md
    [ -e "$top/VERSION" ] && page="man $name"
    if [ -n "$1" ] && [ -n "$(help_of "$1")" ]; then
        help_of "$1"
        return
    fi
    echo "usage:"
    help_of ''
    cat <<TEXT
A FILE that is - is standard input, and so is one that isn't given; -o FILE writes the output into a file. A scenario is read from standard input or from a file.
$called help COMMAND tells more of a command, $called --version the commit and the kit. $page has it all.
TEXT
    [ -e "$top/VERSION" ] || echo "The first call that needs the program builds it, which proves every crate below it and takes long; no word of help does."
}

# The commit and the kit.
identity() {
    local commit kit
    if [ -r "$top/VERSION" ]; then
        cat "$top/VERSION"
        return
    fi
    commit=$(git -C "$top" log -1 --format='commit %h of %cs' 2>/dev/null) || commit='no known commit'
    [ -z "$(git -C "$top" status --porcelain 2>/dev/null | head -n 1)" ] || commit="$commit, with changes"
    kit=$(rt version 2>/dev/null) || kit='no Rattle kit on PATH'
    printf '%s\n%s\n' "$commit" "$kit"
}
version() {
    printf '%s, %s\n' "$name" "$(identity)"
}

# Whether a word is a number from one to another, in digits alone, without a zero in front.
is_number() {
    local word=$1 least=$2 most=$3
    case $word in '' | *[!0-9]*) return 1 ;; esac
    case $word in 0?*) return 1 ;; esac
    [ ${#word} -gt ${#most} ] && return 1
    [ ${#word} -eq ${#most} ] && [[ $word > $most ]] && return 1
    [ "$least" = 0 ] || [ "$word" != 0 ]
}

# What is wrong with a range of seeds, which has two points, if anything.
seeds_fault() {
    local word=$1 from to most=18446744073709551615
    case $word in
        *..=*) echo "SEED..SEED2 ends before SEED2: write ${word%%..=*}..N with N one more than ${word##*..=}"; return ;;
        ..*) echo "a seed lacks in front of the points, as in 0$word"; return ;;
        *..) echo "a seed lacks behind the points, as in 0..100"; return ;;
    esac
    from=${word%%..*} to=${word#*..}
    is_number "$from" 0 $most && is_number "$to" 0 $most || { echo "around the points stand numbers from 0 to $most"; return; }
    case $(printf '%s %s\n' "$to" "$from" | awk '{ if ($1 "" == $2 "") print "none"; else if (length($1) < length($2) || length($1) == length($2) && $1 "" < $2 "") print "back" }') in
        none) echo "there is no seed from $from up to $to, since SEED2 is not among them" ;;
        back) echo "the first seed is the greater one" ;;
        *) is_few "$from" "$to" || echo "these are more than 100000 seeds" ;;
    esac
}
# Whether two numbers, of which the second is greater, lie at most 100,000 apart: by their last 18 digits, and what stands before these.
is_few() {
    local from to
    from=$(printf '%020d' 0)$1 to=$(printf '%020d' 0)$2
    from=${from: -20} to=${to: -20}
    local apart=$(((10#${to:0:2} - 10#${from:0:2})))
    [ $apart -le 1 ] && [ $((apart * 1000000000000000000 + 10#${to:2} - 10#${from:2})) -le 100000 ]
}

# Whether a word may stand for one of one's own.
fits() {
    case $1 in
        N) is_number "$2" 0 18446744073709551615 ;;
        W) is_number "$2" 1 8 ;;
        U) is_number "$2" 0 10000 ;;
        ROUND) is_number "$2" 1 18446744073709551615 ;;
        E.K) [[ $2 == *.* ]] && is_number "${2%%.*}" 0 255 && is_number "${2#*.}" 1 4294967295 ;;
        SEED) is_number "$2" 0 18446744073709551615 ;;
        PERCENT) is_number "$2" 0 100 ;;
        A..B) [[ $2 == *..* ]] && seeds=$(seeds_fault "$2") && [ -z "$seeds" ] ;;
        WORDS..) [[ -n $2 && $2 != --* ]] ;;
        'SEED[..SEED2]') is_number "$2" 0 18446744073709551615 || { [[ $2 == *..* ]] && seeds=$(seeds_fault "$2") && [ -z "$seeds" ]; } ;;
        *) [[ "|$1|" == *"|$2|"* ]] ;;
    esac
}

# The word of some that is nearest to another one, if one is near.
nearest() {
    local word=$1
    shift
    printf '%s\n' "$@" | awk -v word="$word" '
        function least(a, b) { return a < b ? a : b }
        function distance(a, b, i, j, d, n, m, cost) {
            n = length(a); m = length(b)
            for (i = 0; i <= n; i++) d[i, 0] = i
            for (j = 0; j <= m; j++) d[0, j] = j
            for (i = 1; i <= n; i++) for (j = 1; j <= m; j++) {
                cost = substr(a, i, 1) != substr(b, j, 1)
                d[i, j] = least(least(d[i - 1, j] + 1, d[i, j - 1] + 1), d[i - 1, j - 1] + cost)
                if (i > 1 && j > 1 && substr(a, i, 1) == substr(b, j - 1, 1) && substr(a, i - 1, 1) == substr(b, j, 1)) d[i, j] = least(d[i, j], d[i - 2, j - 2] + 1)
            }
            return d[n, m]
        }
        { far = distance(tolower(word), $0); if (best == "" || far < most) { best = $0; most = far } }
        END { if (most <= 2 && most < length(best)) print best }'
}

# The words that may stand where a row's token is wanted: those of all rows that begin alike, as `a, b or c`.
either() {
    local told=
    while [ $# -gt 1 ]; do
        told+=${told:+, }$1
        shift
    done
    echo "${told:+$told or }$1"
}

# Reads the words behind the options by one row: how many of its tokens fit, `taken` of the words, and the `wanted` token that doesn't.
by_row() {
    local -a tokens=()
    local token
    local shown=${1/\[FROM TO\]/[FROM-TO]} first
    read -ra tokens <<<"${shown/\[LINE \[LINE2\]\]/[LINES]}"
    score=0 taken=0 wanted=
    for token in "${tokens[@]}"; do
        if [[ $token == '[--'* ]]; then
            continue
        elif [ "$token" = '[FROM-TO]' ]; then
            if is_number "${words[taken]-}" 0 4294967295 && is_number "${words[taken + 1]-}" 0 4294967295; then
                taken=$((taken + 2))
            elif fits E.K "${words[taken]-}"; then
                wanted=E.K
                return
            elif [[ ${words[taken]-} =~ ^(-?[0-9]+(\.[0-9]+)?|--.*)$ ]]; then
                wanted='[FROM TO]'
                return
            fi
        elif [ "$token" = '[LINES]' ]; then
            first=$taken
            while [ $((taken - first)) -lt 2 ] && is_number "${words[taken]-}" 0 4294967295; do
                taken=$((taken + 1))
            done
            if [[ ${words[taken]-} =~ ^-?[0-9]+$ ]]; then
                wanted='[LINE [LINE2]]'
                return
            fi
        elif [ "$token" = WORDS.. ]; then
            first=$taken
            while [ "$taken" -lt "${#words[@]}" ] && fits WORDS.. "${words[taken]}"; do
                taken=$((taken + 1)) score=$((score + 1))
            done
            if [ "$taken" -eq "$first" ]; then
                wanted=$token
                return
            fi
        elif [ "$taken" -lt "${#words[@]}" ] && fits "$token" "${words[taken]}"; then
            taken=$((taken + 1)) score=$((score + 1))
        else
            wanted=$token
            return
        fi
    done
    [[ ${words[taken]-} != --faults ]] || wanted='--faults PERCENT'
}

# Finds the row of the words: `row`, `taken`, `kind`, and `fault` where there is something wrong with them.
find_row() {
    local i j best=-1 word
    local -a may=()
    row= fault= seeds=
    for ((i = 0; i < ${#word_rows[@]}; i += 5)); do
        [ "${word_rows[i]}" = "$name" ] || continue
        by_row "${word_rows[i + 1]}"
        if [ -z "$wanted" ]; then
            row=${word_rows[i + 1]} kind=${word_rows[i + 2]} fault=
            return
        fi
        [ $score -gt $best ] && { best=$score may=(); }
        [ $score -eq $best ] && may+=("$wanted") && at=$taken
    done
    word=${words[at]-}
    [[ $word =~ ^[[:print:]]*$ ]] || word=$(printf '%q' "$word")
    case ${may[0]} in
        *[A-Z]*)
            fault=$(asked_range "${may[0]}")
            [ "$at" -ge ${#words[@]} ] || fault="$word: ${seeds:-$fault}"
            ;;
        *) word_fault ;;
    esac
}
# What is wrong with a word that names no command, or none behind the words before it.
word_fault() {
    local -a known=() others=()
    local i near
    for i in "${may[@]}"; do
        IFS='|' read -ra others <<<"$i"
        for near in "${others[@]}"; do
            [[ " ${known[*]-} " == *" $near "* ]] || known+=("$near")
        done
    done
    if [ "$at" -ge ${#words[@]} ]; then
        [ "$at" -eq 0 ] && fault="a command is wanted: $(either "${known[@]}")" || fault="behind ${words[*]:0:at} comes $(either "${known[@]}")"
        return
    fi
    others=()
    for ((i = 0; i < ${#word_rows[@]}; i += 5)); do
        [ "${word_rows[i]}" = "$name" ] || others+=("${word_rows[i + 1]%% *}")
    done
    near=$(nearest "$word" "${known[@]}")
    if [ "$at" -eq 0 ] && [[ " ${others[*]} " == *" $word "* ]]; then
        local other=am2_lab
        [ "$name" = am2 ] || other=am2
        fault="$word is a command of $(beside "$other")"
    elif [ "$at" -eq 0 ]; then
        fault="there is no command $word${near:+; the nearest is $near}. A command is $(either "${known[@]}")"
    else
        fault="$word${near:+: the nearest is $near}. Behind ${words[*]:0:at} comes $(either "${known[@]}")"
    fi
}

# How the other program is called from where this one was.
beside() {
    local there=${called%"$name"}$1
    if [ -x "$there" ] || { [ "${there#*/}" = "$there" ] && command -v "$there" >/dev/null; }; then echo "$there"; else echo "$top/bin/$1"; fi
}

# What is wrong with the files, if anything.
files_fault() {
    local most=1 file lines=0 flag
    for flag in ${flags+"${flags[@]}"}; do
        [[ $row == *"[$flag]"* ]] || echo "there is no option $flag"
    done
    case $kind in nothing) most=0 ;; both | any) most=2 ;; esac
    if [ ${#files[@]} -gt $most ]; then
        echo "a word too many: ${files[most]}"
        return
    fi
    for file in ${files+"${files[@]}"}; do
        if [ "$file" = - ]; then
            lines=$((lines + 1))
        elif [ -d "$file" ]; then
            echo "$file is a folder"
        elif [ ! -e "$file" ]; then
            echo "there is no file $file"
        elif [ ! -r "$file" ]; then
            echo "$file can't be read"
        elif [ -n "$out" ] && [ "$out" -ef "$file" ]; then
            echo "$out is read and would be written over"
        fi
    done
    [ $lines -lt 2 ] || echo "standard input can stand for one file alone"
    if [ -n "$out" ] && { [ -d "$out" ] || [ ! -w "$(dirname -- "$out")" ] && [ ! -w "$out" ]; }; then
        echo "$out can't be written"
    fi
}

# Answers words that are wrong: as the program does, and says what is wrong with them.
refuse() {
    if [ "$name" = am2 ]; then
        trap '' PIPE
        printf '%s\n' "$usage_line" 2>/dev/null || exit 5
    fi
    say_wrong "$called: $1"
    [ ${#words[@]} -eq 0 ] || say_usage "${words[0]}"
    say_wrong "A scenario is read from standard input or from a file; $called --help tells all words."
    exit 2
}
say_usage() {
    local i
    for ((i = 0; i < ${#word_rows[@]}; i += 5)); do
        [ "${word_rows[i]}" = "$name" ] && [ "${word_rows[i + 1]%% *}" = "$1" ] || continue
        say_wrong "usage: $called ${word_rows[i + 1]}$(files_of "${word_rows[i + 2]}")"
    done
}

# What gives the program its input: both files behind each other, the newline behind the first one's last line seen to.
joined() {
    local file
    for file in "${files[@]}"; do
        if [ "$file" = - ]; then
            LC_ALL=C sed -e '$a\' <&3
        elif [ "$file" = "${files[0]}" ]; then
            LC_ALL=C sed -e '$a\' -- "$file"
        else
            cat -- "$file"
        fi
    done
}

# The command that does the same without the program, if one does.
meanwhile() {
    local reading=$top/check/reading.py folder=$top/ given='FILE' asked=${words[*]:0:taken} form does
    [ "$top" = "$PWD" ] && reading=check/reading.py folder=
    [ -e "$top/check/reading.py" ] || return
    [ ${#files[@]} -eq 0 ] || given=${files[*]}
    [ "$kind" = nothing ] && given=
    case $name:$asked in
        am2:count*) echo "Nothing else counts words meanwhile." ; return ;;
        am2_lab:replay*) echo "Meanwhile this prints the same script: ${folder}bin/replay ${files[*]:-SCENARIO REPORT}"; return ;;
        am2:*) does='does the same' ;;
        am2_lab:explain*) form=${words[1]} asked="check $form" does='judges the report' ;;
        *) return ;;
    esac
    # (a scenario alone has no report to be judged)
    if [ "$name" = am2_lab ] && [ ${#files[@]} -eq 1 ] && [ -f "${files[0]}" ] && ! grep -qx 'am2 report 1' -- "${files[0]}"; then
        asked=$form does='tells the line that is refused'
    fi
    echo "Meanwhile a second reading of the rules, in Python and with nothing to build, $does: python3 $reading $asked${given:+ $given}"
}

# What a status other than 0 means, and what tells more of a scenario or a report that is refused.
tell_status() {
    local asked=${words[*]:0:taken} form
    [ "$1" -ne 0 ] || return
    { [ -t 1 ] && [ -z "$out" ]; } || say "$called: status $1: $(status_meaning "$1")"
    case $1:$asked in
        3:step | 3:run | 3:check* | 10:check*) form=${asked#check } ;;
        3:why* | 3:chart* | 3:replay* | 3:state* | 3:json* | 3:page* | 3:scenario\ step | 3:scenario\ run | 3:shrink*) form=${words[1]} ;;
        10:why* | 10:chart* | 10:replay* | 10:state* | 10:json* | 10:page*) form=${words[1]} ;;
        3:schedule* | 3:find* | 3:faults*) form=run ;;
        *) return ;;
    esac
    say "$(beside am2_lab) explain $form ${files[*]:-< FILE} tells more"
}

# Looks for a seed by parts of the range, and tells behind each how far it is, where standard error is a terminal. What is printed and the status are those of the program for the
# whole range, since it looks from the least seed on. Where one part has them all, or the shell can't count so far, nothing is done, and the answer is 1.
seeds_a_part=2000
find_by_parts() {
    local place=1 range from to at next given told
    [ "${asked[1]}" != --not ] || place=2
    range=${asked[place]} from=${range%%..*} to=${range#*..}
    [ ${#to} -le 18 ] && [ $((to - from)) -gt $seeds_a_part ] && given=$(mktemp) && told=$(mktemp) || return 1
    # shellcheck disable=SC2064
    trap "rm -f '$given' '$told'" EXIT
    cat >"$given" || exit 4
    for ((at = from; at < to; at = next)); do
        next=$((at + seeds_a_part < to ? at + seeds_a_part : to))
        "$program" "${asked[@]:0:place}" "$at..$next" "${asked[@]:place + 1}" <"$given" >"$told"
        status=$?
        [ $status -eq 12 ] || break
        [ "$next" -eq "$to" ] || say "$called: no such seed in $from..$next"
    done
    [ $status -ne 12 ] || printf 'no such seed in %s\n' "$range" >"$told"
    cat -- "$told" || status=5
}

# Runs the program on the files. Only where something is to be said behind it does this script stay.
run_program() {
    local wait_for=$kind behind= file=FILE
    local -a asked=("${words[@]:0:taken}" ${flags+"${flags[@]}"})
    [ "${words[0]}" = find ] && asked=(find ${flags+"${flags[@]}"} "${words[@]:1:taken-1}")
    case $kind in both) wait_for='scenario and its report' behind=' REPORT' ;; any) wait_for='scenario, or a scenario and its report,' behind=' [REPORT]' ;; behind) wait_for=scenario file='-- FILE' ;; esac
    if [ ${#files[@]} -eq 2 ]; then
        exec 3<&0
        exec < <(joined) 3<&-
    elif [ ${#files[@]} -eq 1 ] && [ "${files[0]}" != - ]; then
        exec <"${files[0]}"
    elif [ "$kind" != nothing ] && [ -t 0 ]; then
        say "$called reads a $wait_for from the keyboard; Ctrl-D in a line of its own ends it. From a file: $called ${asked[*]} $file$behind"
    fi
    [ -z "$out" ] || exec >"$out" || exit 5
    [ -t 2 ] || exec "$program" "${asked[@]}"
    local status=0
    if [ "${words[0]}" != find ] || ! find_by_parts; then
        "$program" "${asked[@]}"
        status=$?
    fi
    tell_status $status
    exit $status
}

# Reads the options: `words` are the others. `help` and `version` are answered at once.
read_options() {
    out=
    words=() flags=()
    while [ $# -gt 0 ]; do
        case $1 in
            -h | --help) asks=help ;;
            --version | -V) asks=version ;;
            -o)
                [ $# -gt 1 ] || { kind= fault="-o wants a file"; return; }
                out=$2
                shift
                ;;
            --?*)
                case ${words[0]-}:$1 in
                    shrink:--seed | schedule:--faults | find:--faults | why:--front | chart:--front) words+=("$1") ;;
                    *) flags+=("$1") ;;
                esac
                ;;
            *) words+=("$1") ;;
        esac
        shift
    done
    [ "$out" != - ] || out=
    [ "${words[0]-}" = help ] && asks=help && words=("${words[@]:1}")
    return 0
}

# Answers the words: the one call of both scripts.
answer() {
    local row='' at=0 score taken wanted seeds
    asks= kind= fault=
    read_options "$@"
    [ "$asks" = help ] && help_for "${words[0]-}" && exit 0
    [ "$asks" = version ] && version && exit 0
    [ -z "$fault" ] || refuse "$fault"
    find_row
    [ -z "$fault" ] || refuse "$fault"
    files=("${words[@]:taken}")
    [ "$kind" != behind ] || [ "${files[0]-}" != -- ] || files=("${files[@]:1}")
    if [ $((${#files[@]} + ${#flags[@]})) -gt 0 ] || [ -n "$out" ]; then
        fault=$(files_fault | head -n 1)
        [ -z "$fault" ] || refuse "$fault"
    fi
    [ -e "$top/VERSION" ] || build_if_due
    run_program
}
