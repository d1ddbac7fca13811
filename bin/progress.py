#!/usr/bin/env python3
"""progress.py NAME ROOM GATE PARENT: tells how far a build of bin/building.sh is, every eight seconds, until it is ended or PARENT is gone.
progress.py NAME ROOM GATE: what is said when it begins.

ROOM has the crates that are built, their crates.txt, and the log that rt ci writes. GATE has what each crate took elsewhere, in seconds of processor
time: from that, from how many processors there are, and from how long the crates that are done took here, comes the time that is left."""
import os
import re
import sys
import time

EVERY = 8
# What a crate takes of which GATE says nothing, in seconds.
USUAL = 30
DONE = re.compile(r"^rt: ([a-z0-9_]+) (proved|is kept)\b", re.M)
WAITS = re.compile(r"^rt: ([a-z0-9_]+): (?:its tests: )?another run", re.M)


def graph_of(path):
    """The crates, lowest first, each with the crates of the room that it stands on."""
    with open(path, encoding="utf-8") as text:
        lines = [line.split("#")[0].partition(":") for line in text]
    below = {head.split()[0]: rest.split() for head, colon, rest in lines if colon}
    return {crate: [it for it in those if it in below] for crate, those in below.items()}


def costs_of(path, crates):
    """What each crate's proof and tests took elsewhere."""
    found = {}
    try:
        with open(path, encoding="utf-8") as text:
            for line in text:
                words = line.split()
                if len(words) == 3 and words[1] != "edits":
                    found[words[0]] = found.get(words[0], 0) + float(words[2])
    except OSError:
        pass
    return {crate: found.get(crate, USUAL) for crate in crates}


def foretold(crates, below, costs):
    """How long these crates take where GATE was measured: the longest chain of them, or the whole work shared by the processors."""
    chain = {}
    for crate in crates:
        chain[crate] = costs[crate] + max((chain.get(it, 0) for it in below[crate]), default=0)
    return max([sum(costs[it] for it in crates) / len(os.sched_getaffinity(0)), *chain.values()])


def checked_now(room):
    """The crates that are being checked in the room, as the processes tell."""
    found = set()
    for pid in filter(str.isdigit, os.listdir("/proc")):
        try:
            if not os.readlink(f"/proc/{pid}/cwd").startswith(room):
                continue
            with open(f"/proc/{pid}/cmdline", "rb") as file:
                words = file.read().decode(errors="replace").split("\0")
            if "--crate-name" in words:
                found.add(words[words.index("--crate-name") + 1])
        except (OSError, IndexError):
            continue
    return sorted(found)


def minutes(seconds):
    return "less than a minute" if seconds < 60 else f"some {seconds / 60:.0f} min"


def left_to_come(done, kept, below, costs, elapsed):
    """The time that is left: what was foretold, scaled by how this machine does so far."""
    new = [it for it in below if it not in kept]
    whole, rest = foretold(new, below, costs), foretold([it for it in new if it not in done], below, costs)
    reached = whole - rest
    return rest * elapsed / reached if reached > 30 and elapsed > 30 else rest


def line_of(name, log, below, costs, room, elapsed):
    """What there is to say."""
    found = DONE.findall(log)
    done, kept = {it for it, _ in found}, {it for it, how in found if how == "is kept"}
    now, others = ([it for it in those if it not in done] for those in (checked_now(room), dict.fromkeys(WAITS.findall(log))))
    doing = [f"proving {' '.join(now)}"] if now else []
    doing += [f"waiting for {' '.join(others)}, which another build on this machine proves"] if others else []
    doing = " and ".join(doing) or ("running what is built" if len(done) == len(below) else "reading the sources and what was kept")
    left = f"; {minutes(left_to_come(done, kept, below, costs, elapsed))} left" if len(done) < len(below) else ""
    return f"{name}: {len(done)} of {len(below)} crates done ({len(kept)} of them before); {doing}; {elapsed // 60:.0f} min {elapsed % 60:.0f} s so far{left}"


def begin(name, below, costs):
    """What is said first."""
    whole = minutes(foretold(list(below), below, costs))
    return (
        f"building {name}: the {len(below)} crates that it stands on are proved first, but for those that were proved on this machine before."
        f" From nothing that took {whole} where bench/gate.txt was measured. If it is stopped, the next call goes on behind the last crate that was done."
    )


def main(name, room, gate, parent=None):
    room = os.path.realpath(room)
    below = graph_of(f"{room}/crates.txt")
    costs, begun = costs_of(gate, below), time.monotonic()
    if parent is None:
        print(begin(name, below, costs))
        return
    while os.path.isdir(f"/proc/{parent}"):
        time.sleep(EVERY)
        with open(f"{room}/log", encoding="utf-8", errors="replace") as file:
            log = file.read()
        print(line_of(name, log, below, costs, room, time.monotonic() - begun), flush=True)


if __name__ == "__main__":
    try:
        main(*sys.argv[1:])
    except (KeyboardInterrupt, FileNotFoundError, BrokenPipeError):
        # (the build was stopped, or it has ended)
        pass
