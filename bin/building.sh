# For bin/asking.sh and bin/install, which read this file: builds a program where it isn't built or a source is newer than it, by the gate's own way: `rt ci` over a copy of the
# crates that it stands on, without their must-fail edits. What that proves is kept on this machine crate by crate, for the gate and for every other checkout, and what these proved
# is taken over; so a build that was stopped goes on where it was. Two builds at once share their work in the same way, and wait for each other no longer than a crate takes.
# `name` and `top` are set by who reads it: the program's crate, and the top of the repository.
program=$top/crates/$name/out/$name

# The crates that the program stands on, and itself.
crates_below() {
    awk -v wanted="$name" 'function visit(crate, i, n, parts) {
            if (crate in seen || !(crate in below)) return
            seen[crate] = 1
            n = split(below[crate], parts, " ")
            for (i = 1; i <= n; i++) visit(parts[i])
            print crate
        }
        /^[a-z0-9_]+:/ { crate = $1; sub(":", "", crate); $1 = ""; below[crate] = $0 }
        END { visit(wanted) }' "$top/crates.txt"
}

# Whether the program isn't there, or a file that it is made from is newer than it.
is_stale() {
    local folders=() crate part
    [ -x "$program" ] || return 0
    for crate in $1; do
        for part in src specs proofs; do
            [ -d "$top/crates/$crate/$part" ] && folders+=("$top/crates/$crate/$part")
        done
    done
    [ -n "$(find "$top/crates.txt" ${folders+"${folders[@]}"} -type f -newer "$program" -print -quit)" ]
}

# Writes the lines of the crates, lowest first, and puts the crates into a folder of their own.
list_crates() {
    awk -v wanted="${2//$'\n'/ }" '/^[a-z0-9_]+:/ { name = $1; sub(":", "", name); line[name] = $0 }
        END { n = split(wanted, crates, " "); for (i = 1; i <= n; i++) if (crates[i] in line) print line[crates[i]] }' "$top/crates.txt" >"$1/crates.txt"
}
copy_crates() {
    local -a crates
    mapfile -t crates <<<"$2"
    mkdir "$1/crates" && cp "$top/HANDLES" "$1" || return
    (cd "$top/crates" && tar cf - --anchored --no-wildcards-match-slash --exclude '*/out' --exclude '*/must-fail' "${crates[@]}") | tar xf - -C "$1/crates"
}

# What a build has started and made, so that it ends and goes with the build, however that ends.
build_room= build_rt= build_telling=
end_build() {
    kill $build_rt $build_telling 2>/dev/null
    [ -z "$build_room" ] || rm -rf "$build_room"
    build_room= build_rt= build_telling=
}

# Proves and builds the crates in a copy, while bin/progress.py tells how far it is. The program gets the time at which its sources were read.
build_in() {
    local room=$1 status tell=("$top/bin/progress.py" "$name" "$1" "$top/bench/gate.txt")
    touch "$room/begun"
    : >"$room/log"
    list_crates "$room" "$2" || return
    python3 -B "${tell[@]}" >&2
    python3 -B "${tell[@]}" $$ >&2 &
    build_telling=$!
    copy_crates "$room" "$2" || return
    # (in a process of its own, so that a signal finds this script waiting and not busy)
    (cd "$room" && exec rt ci </dev/null) >"$room/log" 2>&1 &
    build_rt=$!
    wait $build_rt
    status=$?
    build_rt=
    [ $status -eq 0 ] && [ -x "$room/crates/$name/out/$name" ] && tail -n 1 "$room/log" | grep -q ', 0 failed$' || return 1
    cp "$room/crates/$name/out/$name" "$program.$$" && touch -r "$room/begun" "$program.$$" && mv "$program.$$" "$program"
}

# Builds the program where that is due; ends with 1 where it can't be built.
build_if_due() {
    local crates
    crates=$(crates_below)
    is_stale "$crates" || return 0
    if ! command -v rt >/dev/null; then
        echo "$name isn't built, or a source is newer than it, and the Rattle kit, which builds it, is missing: its command rt is not on PATH." >&2
        # (what does the same, where the words are known)
        [ "$(type -t meanwhile)" != function ] || meanwhile >&2
        exit 1
    fi
    trap end_build EXIT
    trap 'echo "$name: the build was stopped; the next call goes on behind the last crate that was done" >&2; exit 130' INT TERM HUP
    mkdir -p "$top/crates/$name/out" && build_room=$(mktemp -d) || exit 1
    if ! build_in "$build_room" "$crates"; then
        grep -E 'NOT PROVED|FAILED|: error' "$build_room/log" 2>/dev/null | head -n 12 >&2
        cp "$build_room/log" "$top/crates/$name/out/build.log" 2>/dev/null
        echo "$name could not be built; crates/$name/out/build.log has what rt ci said" >&2
        exit 1
    fi
    end_build
    trap - EXIT INT TERM HUP
    echo "$name is built" >&2
}
