#!/usr/bin/env python3
"""phase.py PROGRAM [TURNS ..]: how quick the workers of a run are in their phase alone, between the opening of the crews and their end.

For the scenarios of bench/inputs.py on 1, 2, 4, 8 and 16 nodes (six workers on each) and each number of turns (100, 300, 1,000, 3,000 and 10,000). The phase's begin and end are told by the
kernel's probes on two functions of the program, `open_crews` and `unite_crews`, which wants Linux, root and tracefs. The median of five
runs counts; how many entries the workers made at most, check/replay.py reads off the report of the last.
Prints a table: the milliseconds of the phase, its entries, and how many entries and turns a second.
"""
import os
import re
import statistics
import subprocess
import sys
import tempfile

HERE = os.path.dirname(os.path.abspath(__file__))
TRACING = "/sys/kernel/tracing"
RUNS = 5


def write(name, text):
    with open(f"{TRACING}/{name}", "w", encoding="ascii") as file:
        file.write(text)


def place_in(program, address):
    """Where in the file the code at an address stands."""
    listed = subprocess.run(["readelf", "-lW", program], capture_output=True, text=True, check=True).stdout
    for offset, start, size in re.findall(r"LOAD\s+(0x\w+) (0x\w+) 0x\w+ 0x\w+ (0x\w+) R E", listed):
        if int(start, 16) <= address < int(start, 16) + int(size, 16):
            return address - int(start, 16) + int(offset, 16)
    raise ValueError(f"{program} has no code at {address:#x}")


def set_probes(program):
    """Probes at the return of `open_crews` and at the start of `unite_crews`."""
    if not os.path.exists(f"{TRACING}/uprobe_events"):
        subprocess.run(["mount", "-t", "tracefs", "nodev", TRACING], check=True)
    listed = subprocess.run(["nm", "-C", program], capture_output=True, text=True, check=True).stdout
    probes = ""
    for kind, name, function in (("r", "begun", "am_cluster_opening::open_crews"), ("p", "ended", "am_cluster_crew::unite_crews")):
        address = int(re.search(rf"^([0-9a-f]+) \w {re.escape(function)}$", listed, re.M)[1], 16)
        probes += f"{kind}:am2/{name} {program}:{place_in(program, address):#x}\n"
    write("uprobe_events", probes)
    write("events/am2/enable", "1")


def phase(program, scenario, report):
    """The seconds of one run's phase."""
    write("trace", "")
    with open(scenario, "rb") as given, open(report, "wb") as out:
        subprocess.run([program, "run"], stdin=given, stdout=out, check=True)
    with open(f"{TRACING}/trace", encoding="ascii") as file:
        times = re.findall(r"\s([\d.]+): (begun|ended)", file.read())
    found = {name: float(time) for time, name in times}
    return found["ended"] - found["begun"]


def measured(program, nodes, turns, folder):
    scenario, report = os.path.join(folder, "scenario"), os.path.join(folder, "report")
    with open(scenario, "wb") as file:
        subprocess.run([sys.executable, f"{HERE}/inputs.py", "crowd", str(nodes), str(turns)], stdout=file, check=True)
    seconds = [phase(program, scenario, report) for _ in range(RUNS)]
    told = subprocess.run([sys.executable, "-B", f"{HERE}/../check/replay.py", scenario, report], capture_output=True, text=True, check=True)
    return statistics.median(seconds), int(told.stdout)


def main(program, *given):
    program = os.path.realpath(program)
    set_probes(program)
    try:
        with tempfile.TemporaryDirectory() as folder:
            print("| Nodes | Workers | Turns of each | The phase | Its entries | Entries a second | Turns a second |")
            print("|---|---|---|---|---|---|---|")
            for nodes in (1, 2, 4, 8, 16):
                for turns in [int(it) for it in given] or [100, 300, 1000, 3000, 10000]:
                    seconds, entries = measured(program, nodes, turns, folder)
                    print(f"| {nodes} | {6 * nodes} | {turns:,} | {seconds * 1000:.1f} ms | {entries:,} | {entries / seconds:,.0f} | {6 * nodes * turns / seconds:,.0f} |", flush=True)
    finally:
        write("events/am2/enable", "0")
        write("uprobe_events", "")


if __name__ == "__main__":
    if len(sys.argv) < 2:
        sys.exit(__doc__)
    main(*sys.argv[1:])
