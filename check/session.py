"""A session of two interfaces that restart, as docs/MANUAL.md tells it under "Interfaces that restart"."""
from faults import SessionReader, fault_for, refused
from machine import NotEnabled

VERDICTS = {"accept": "delivered", "full": "requeued", "bad": "returned"}


class Sender:
    def __init__(self):
        self.incarnation, self.peer, self.bound = 1, None, None
        self.queue, self.packets = [], []
        self.renew()

    def renew(self):
        """A new end of the channel, with nothing bound; what was bound is the answer."""
        left, self.bound = self.bound, None
        self.sequence = self.attempt = 0
        return left

    def emit(self, *packet):
        self.packets.append(packet)
        return len(self.packets)

    def send(self):
        packet = self.emit("parcel", self.incarnation, self.peer, self.sequence, self.attempt, self.bound)
        return f"sent {self.bound} {self.sequence} {self.attempt} {packet}"


class Receiver:
    def __init__(self):
        self.incarnation, self.met = 1, 0
        self.packets = []
        self.renew()

    def renew(self):
        self.sequence, self.attempt, self.verdict = 0, 0, "refused"

    def emit(self, *packet):
        self.packets.append(packet)
        return len(self.packets)

    def welcome(self, sender):
        return f"welcome {self.emit('welcome', sender, self.incarnation)}"

    def meet(self, sender):
        if sender > self.met:
            self.met = sender
            self.renew()


class Session:
    def __init__(self, tries):
        self.tries = tries
        self.a, self.b = Sender(), Receiver()
        self.lines, self.fates, self.put = [], {}, set()

    def apply(self, words):
        outcome = getattr(self, "_".join(words[:2]))(*words[2:])
        self.lines.append(f"{' '.join(words)} -> {outcome}")

    def unknown(self, message):
        self.fates[message] = "unknown"
        return f"unknown {message}"

    def a_offer(self):
        message = len(self.fates) + 1
        self.fates[message] = "pending"
        self.a.queue.append(message)
        return f"ok {message}"

    def a_hello(self):
        return f"sent {self.a.emit('hello', self.a.incarnation)}"

    def a_bind(self):
        a = self.a
        for holds, condition in ((a.peer is None, "unknown-peer"), (a.bound, "bound"), (not a.queue, "no-message")):
            if holds:
                raise NotEnabled(condition)
        a.bound, a.sequence, a.attempt = a.queue.pop(0), a.sequence + 1, 0
        return a.send()

    def a_expire(self):
        a = self.a
        if not a.bound:
            raise NotEnabled("idle")
        if a.attempt + 1 < self.tries:
            a.attempt += 1
            return a.send()
        message, a.bound = a.bound, None
        return self.unknown(message)

    def a_receive(self, number):
        if int(number) > len(self.b.packets):
            raise NotEnabled("no-packet")
        kind, *packet = self.b.packets[int(number) - 1]
        return self.welcomed(*packet) if kind == "welcome" else self.answered(*packet)

    def welcomed(self, to, peer):
        a = self.a
        if to != a.incarnation or (a.peer is not None and peer <= a.peer):
            return "nothing"
        a.peer, left = peer, a.renew()
        return f"peer {peer}" + (f" {self.unknown(left)}" if left else "")

    def answered(self, to, peer, sequence, attempt, verdict):
        a = self.a
        if (to, peer) != (a.incarnation, a.peer) or not a.bound or sequence != a.sequence or (verdict != "accept" and attempt != a.attempt):
            return "nothing"
        message, a.bound = a.bound, None
        if verdict == "full":
            a.queue.append(message)
        if verdict == "bad":
            self.fates[message] = "returned"
        return f"{VERDICTS[verdict]} {message}"

    def a_restart(self):
        self.a.incarnation, self.a.peer, left = self.a.incarnation + 1, None, self.a.renew()
        return self.unknown(left) if left else "ok"

    def b_receive(self, number, verdict):
        if int(number) > len(self.a.packets):
            raise NotEnabled("no-packet")
        kind, sender, *parcel = self.a.packets[int(number) - 1]
        if kind == "parcel":
            return self.judged(verdict, sender, *parcel)
        if sender < self.b.met:
            return "stale"
        self.b.meet(sender)
        return self.b.welcome(sender)

    def judged(self, verdict, sender, to, sequence, attempt, message):
        b = self.b
        if to != b.incarnation:
            return b.welcome(sender)
        if sender < b.met:
            return "stale"
        b.meet(sender)
        if sequence < b.sequence or (sequence == b.sequence and b.verdict != "accept" and attempt < b.attempt):
            return "stale"
        word = "again"
        if sequence > b.sequence or (b.verdict != "accept" and attempt > b.attempt):
            b.sequence, b.attempt, b.verdict = sequence, attempt, verdict
            word = "accepted" if verdict == "accept" else "refused"
        if word == "accepted":
            self.put.add(message)
        return f"{word} {message} answer {b.emit('answer', sender, b.incarnation, sequence, attempt, b.verdict)}"

    def b_restart(self):
        self.b.incarnation, self.b.met = self.b.incarnation + 1, 0
        self.b.renew()
        return "ok"

    def report(self):
        out = ["session report 1", f"entries {len(self.lines)}", *self.lines, f"messages {len(self.fates)}"]
        for message, fate in self.fates.items():
            if message in self.put:
                fate = {"unknown": "unknown-but-put", "pending": "put"}.get(fate, fate)
            out.append(f"fate {message} {fate}")
        return out


def play(text):
    """The status and the lines for a session's text."""
    fault = fault_for(SessionReader(), text)
    if fault:
        return refused(fault)
    lines = [(number, line.split()) for number, line in enumerate(text.split("\n"), 1)]
    said = [(number, [str(int(it)) if it.isdigit() else it for it in words]) for number, words in lines if words and not words[0].startswith("#")]
    session = Session(int(said[1][1][1]))
    for number, words in said[2:]:
        try:
            session.apply(words)
        except NotEnabled as why:
            return 3, [f"refused line {number} not-enabled {why}"]
    return 0, session.report()
