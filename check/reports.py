"""Whether an answer of the program to the scenario of a run is right, whichever of the possible journals it printed."""
import judge
import replay
from scenario import read


def judged(status, text, printed):
    """What is wrong with an answer, and its numbers of entries: all, and at least how many the drain made."""
    scenario, full = read(text), None
    if status == 6:
        first, printed = printed.split("\n", 1)
        full = first.removeprefix("log full ")
    elif status:
        return [f"status {status}"], (0, 0)
    wrong = judge.faults(scenario, printed) if status == 0 else []
    again, phase = replay.made_again(scenario, printed, full)
    entries = int(printed.split("\n")[1].split()[1])
    return wrong + again, (entries, entries - phase)
