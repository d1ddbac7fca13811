"""The scenario that `am2 make N` makes of the number N, and the plan that `am2_lab faults` draws from a seed, by a generator of random words."""
from scenario import ALL, Declared, Scenario, read


class Words:
    """PCG XSH RR 64/32: 32-bit words from a state and a stream."""

    def __init__(self, state, stream):
        self.step_by = ((stream << 1) | 1) & ALL
        self.state = (state + self.step_by) & ALL
        self.step()

    def step(self):
        self.state = (self.state * 6364136223846793005 + self.step_by) & ALL

    def next(self):
        state = self.state
        self.step()
        turn, word = state >> 59, (((state >> 18) ^ state) >> 27) & 0xFFFFFFFF
        return ((word >> turn) | (word << ((32 - turn) & 31))) & 0xFFFFFFFF


def opening(thread):
    calls = []
    for end in (thread, thread + 4, thread + 8):
        for name in ("1 note", "2 echo 1", "3 add 1"):
            calls.append(["handler", str(end), *name.split()])
        for index, to in ((0, (end + 1) % 12), (1, (end + 5) % 12)):
            calls.append(["map", str(end), str(index), str(to), str(100 + to), "8"])
        calls.append(["poll", str(end)])
    return calls


def drawn(words, thread, number):
    word = words.next()
    end = str(thread % 4 + 4 * ((word // 4) % 3))
    if word % 4 >= 2:
        return ["poll", end]
    return ["request", end, str((word // 16) % 2), str(1 + (word // 32) % 3), str(word), str(thread), str(number), "0"]


def plan_line(words):
    word = words.next()
    kind = ("lose", "repeat", "late")[(word // 8192) % 3]
    return (word % 4, (word // 4) % 4, 1 + (word // 16) % 400), (kind, 1 + (word // 32768) % 16 if kind == "late" else 0)


def make(number):
    words = Words(number, 54)
    made = Scenario(nodes=4, frames=2, channels=2, tries=4, bounces=3, keep=2)
    made.ends = {end: Declared(end % 4, 100 + end, False) for end in range(12)}
    made.threads = list(range(8))
    for thread in made.threads:
        calls = opening(thread) if thread < 4 else [["poll", str(thread - 4)]] * 18
        calls += [drawn(words, thread, it) for it in range(200)]
        made.script += [(thread, call) for call in calls]
    for _ in range(32):
        place, fault = plan_line(words)
        made.plan.setdefault(place, fault)
    return made


def fault_drawn(word):
    kind = ("lose", "repeat", "late")[word // 100 % 3]
    return kind, 1 + word // 300 % 16 if kind == "late" else 0


def drawn_plan(seed, percent, nodes, calls):
    """The plan of the first packets of each link, each with a word of its own."""
    words = Words(seed, 55)
    packets = min(2 * calls, 4096 // (nodes * nodes))
    places = [(sender, receiver, number) for sender in range(nodes) for receiver in range(nodes) for number in range(1, packets + 1)]
    drawn = [(place, words.next()) for place in places]
    return {place: fault_drawn(word) for place, word in drawn if word % 100 < percent}


def with_plan(printed, plan):
    """The printed scenario with this plan in place of its own."""
    lines = [line for line in printed.splitlines() if not line.startswith("plan ")]
    front = next(place for place, line in enumerate(lines + ["t"]) if line.startswith(("swapfault ", "t")) and line.split()[0] not in ("tries", "turns", "thread"))
    drawn = [" ".join(["plan", *map(str, place), kind, *([str(late)] if late else [])]) for place, (kind, late) in plan.items()]
    return "".join(line + "\n" for line in lines[:front] + drawn + lines[front:])


def with_drawn_plan(printed, seed, percent):
    """The printed scenario with the plan that the seed draws."""
    scenario = read(printed)
    return with_plan(printed, drawn_plan(seed, percent, scenario.nodes, len(scenario.script)))
