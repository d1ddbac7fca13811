#!/usr/bin/env python3
"""What `rt ci` spends its processor time on: times.py watch FILE, times.py tell FILE, times.py take FILE

`watch` looks every two seconds at the processes below the one that started it, until it is ended, and writes into FILE a line for each crate and kind
of work (proof, tests, edits): seconds of processor time. What a process did after the last look is not counted.
`tell` prints the sums by kind and the ten dearest crates: of what FILE has, and of what bench/gate.txt has from an earlier run where this run took
the work over. It fails only where bench/gate.txt itself is above the budget, so that no verdict rests on how quick a machine is.
`take` writes bench/gate.txt anew: where FILE has a work its seconds, scaled to the machine of bench/gate.txt by the works that both have, and else the
earlier ones. FILE is of a run that proved all of what it names from nothing."""
import os
import signal
import sys
import time

# The file of what an earlier whole run took, with the same lines.
EARLIER = "bench/gate.txt"
KINDS = ("proof", "tests", "edits")
# The most that a whole run may take, in seconds of processor time: all of it, the edits with their checks, and `am2_lab` with what only it uses.
MOST = {"all": 8_500, "edits": 2_300, "the lab": 1_700}

TICK = os.sysconf("SC_CLK_TCK")


def stat_of(pid):
    """The parent and the processor time of a process."""
    with open(f"/proc/{pid}/stat", "rb") as file:
        fields = file.read().rpartition(b")")[2].split()
    return int(fields[1]), (int(fields[11]) + int(fields[12])) / TICK


def work_of(pid):
    """The crate and the kind of work of a process that checks one, or None."""
    with open(f"/proc/{pid}/cmdline", "rb") as file:
        words = file.read().decode(errors="replace").split("\0")
    if not words[0].endswith("/rattle") or "--crate-name" not in words:
        return None
    crate = words[words.index("--crate-name") + 1]
    if "/rt-edit-" in os.readlink(f"/proc/{pid}/cwd"):
        return crate, "edits"
    return crate, "tests" if "--test" in words else "proof"


def look(top, seen):
    """Notes the time of each process below `top` that checks a crate, or that one which does started."""
    parents, times = {}, {}
    for pid in map(int, filter(str.isdigit, os.listdir("/proc"))):
        try:
            parents[pid], times[pid] = stat_of(pid)
        except (OSError, IndexError, ValueError):
            continue
    for pid in parents:
        line, work = [pid], None
        while line[-1] in parents and line[-1] != top:
            line.append(parents[line[-1]])
        if line[-1] != top:
            continue
        for it in line:
            try:
                work = work or work_of(it)
            except OSError:
                continue
        if work:
            seen[pid, work] = max(seen.get((pid, work), 0), times[pid])


def write(file, seen):
    sums = {}
    for (_, work), seconds in seen.items():
        sums[work] = sums.get(work, 0) + seconds
    with open(f"{file}.new", "w", encoding="utf-8") as out:
        for (crate, kind), seconds in sorted(sums.items()):
            out.write(f"{crate} {kind} {seconds:.0f}\n")
    os.replace(f"{file}.new", file)


def watch(file):
    top, seen = os.getppid(), {}
    signal.signal(signal.SIGTERM, lambda *_: sys.exit())
    try:
        while os.path.isdir(f"/proc/{top}"):
            look(top, seen)
            time.sleep(2)
    finally:
        write(file, seen)


def read(file):
    """The seconds of each crate and kind that a file of such lines has."""
    try:
        with open(file, encoding="utf-8") as lines:
            return {(crate, kind): int(seconds) for crate, kind, seconds in (line.split() for line in lines if not line.startswith("#"))}
    except OSError:
        return {}


def below():
    """The crates of the repository that each crate stands on, itself among them, by crates.txt."""
    lines = {}
    with open("crates.txt", encoding="utf-8") as file:
        for line in file:
            name, colon, names = line.partition(":")
            if colon and not line.startswith("#"):
                lines[name.split()[0]] = names.split()
    sets = {}

    def visit(name):
        if name not in sets:
            sets[name] = {name}.union(*(visit(it) for it in lines[name] if it in lines))
        return sets[name]

    for name in lines:
        visit(name)
    return sets


def lab():
    """The crates that only `am2_lab` uses, neither `am2` nor am_library, and those of tests that stand on them."""
    sets = below()
    own = sets["am2_lab"] - sets["am2"] - sets["am_library"]
    return {name for name, others in sets.items() if others & own}


def sums_of(times):
    """The sums that are told: of all, of the edits with their checks, and of `am2_lab` with what only it uses."""
    own = lab()
    return {
        "all": sum(times.values()),
        "edits": sum(seconds for (_, kind), seconds in times.items() if kind == "edits"),
        "the lab": sum(seconds for (crate, _), seconds in times.items() if crate in own),
    }


def present(times):
    """The times of crates that there are."""
    return {work: seconds for work, seconds in times.items() if os.path.isdir(f"crates/{work[0]}/src")}


def tell(file):
    now, earlier = read(file), present(read(EARLIER))
    both = present({**earlier, **now})
    kinds = ", ".join(f"{kind} {sum(seconds for (_, it), seconds in both.items() if it == kind)}" for kind in KINDS)
    print(f"seconds of processor time: {kinds}; {sum(now.values())} of them in this run, the others as {EARLIER} has them")
    crates = {}
    for (name, _), seconds in both.items():
        crates[name] = crates.get(name, 0) + seconds
    print("dearest:", ", ".join(f"{name} {crates[name]}" for name in sorted(crates, key=lambda name: -crates[name])[:10]))
    took = sums_of(earlier)
    print(f"{EARLIER}:", ", ".join(f"{what} {seconds}" + (f" of at most {MOST[what]}" if what in MOST else "") for what, seconds in took.items()))
    return 1 if any(took[what] > most for what, most in MOST.items()) else 0


def take(file):
    now, earlier = present(read(file)), present(read(EARLIER))
    common = now.keys() & earlier.keys()
    by = sum(earlier[it] for it in common) / sum(now[it] for it in common)
    with open(EARLIER, encoding="utf-8") as lines:
        head = [line for line in lines if line.startswith("#")]
    times = {**earlier, **{work: round(seconds * by) for work, seconds in now.items()}}
    with open(f"{EARLIER}.new", "w", encoding="utf-8") as out:
        out.writelines(head)
        out.writelines(f"{crate} {kind} {seconds}\n" for (crate, kind), seconds in sorted(times.items()))
    os.replace(f"{EARLIER}.new", EARLIER)
    print(f"{len(now)} works taken, each by {by:.3f}")
    return 0


if __name__ == "__main__":
    sys.exit({"watch": watch, "tell": tell, "take": take}[sys.argv[1]](sys.argv[2]))
