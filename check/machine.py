"""The cluster by the rules of docs/MANUAL.md: what an event does, what keeps it from happening, and the report."""
from dataclasses import dataclass, field

from scenario import ALL, tag_of, tag_word

WORD = ALL
TRANSIENT = ("not-resident", "queue-full")


class NotEnabled(Exception):
    """A condition keeps the event from happening."""


class LogFull(Exception):
    """A log that the entry goes into has as many entries as it may have."""


@dataclass
class Message:
    source: int
    count: int
    kind: str
    dest: int
    tag: int
    reply_tag: int
    handler: int
    words: list
    about: tuple = None

    @property
    def serial(self):
        return (self.source, self.count)

    def __str__(self):
        return f"{self.source}.{self.count}"


@dataclass
class Queued:
    message: Message
    bounces: int = 0
    answered: bool = False
    why: str = None


@dataclass
class Record:
    index: int
    serial: tuple
    arrived: bool = False


@dataclass
class Endpoint:
    id: int
    node: int
    tag: int
    # "host", "disk", "direct", or the number of a frame
    place: object
    wanted: bool = False
    draining: bool = False
    closed: bool = False
    sum: int = 0
    accepted: int = 0
    mapped: dict = field(default_factory=dict)
    handlers: dict = field(default_factory=dict)
    records: list = field(default_factory=list)
    requests: list = field(default_factory=list)
    replies: list = field(default_factory=list)
    in_flight: list = field(default_factory=list)
    notices: list = field(default_factory=list)
    received: list = field(default_factory=list)
    runs: list = field(default_factory=list)
    logged: int = 0

    def is_resident(self):
        return self.place == "direct" or isinstance(self.place, int)

    def front(self):
        queue = self.replies or self.requests
        return queue[0] if queue else None

    def queue_of(self, message):
        return self.requests if message.kind == "request" else self.replies

    def is_pollable(self):
        return bool(self.notices or self.received)

    def slots_held(self, is_request):
        lists = self.requests + self.replies + self.in_flight + self.notices
        return sum(1 for it in lists if (it.message.kind == "request") == is_request)

    def records_at(self, index):
        return sum(1 for it in self.records if it.index == index)


@dataclass
class Sender:
    """The sending end of a channel."""

    sequence: int = 0
    attempt: int = 0
    message: Message = None


@dataclass
class Packet:
    number: int
    channel: int
    sequence: int
    attempt: int
    message: Message = None
    verdict: str = None


class Cluster:
    def __init__(self, scenario):
        self.scenario = scenario
        self.lines = []
        self.ends = {}
        for id, it in sorted(scenario.ends.items()):
            place = "direct" if scenario.network == "direct" else "disk" if it.disk else "host"
            self.ends[id] = Endpoint(id, it.node, it.tag, place)
        self.logged = [0] * scenario.nodes
        self.page_calls = [0] * scenario.nodes
        self.senders = {}
        self.marks = {}
        self.sent = {}
        self.accepted = {}
        self.fates = {}
        self.ran = set()
        # told of each packet that is sent
        self.on_emit = lambda link, packet: None

    # entries

    def room(self, ends, node=None):
        """The first full log of those that an entry goes into: the least endpoint's, then the interface's."""
        for id in sorted(set(ends)):
            if self.ends[id].logged >= self.scenario.log:
                raise LogFull(f"e{id}")
        if node is not None and self.logged[node] >= self.scenario.log:
            raise LogFull(f"i{node}")

    def enter(self, line, ends, node=None):
        for id in set(ends):
            self.ends[id].logged += 1
        if node is not None:
            self.logged[node] += 1
        self.lines.append(line)

    def accept(self, end, message, queue):
        end.accepted += 1
        self.accepted[message.serial] = message.kind
        self.fates[message.serial] = "pending"
        queue.append(Queued(message))
        if end.place == "host":
            end.wanted = True

    # calls

    def call(self, actor, words):
        name, end, rest = words[0], self.ends[int(words[1])], words[2:]
        if end.place == "disk":
            raise NotEnabled("on-disk")
        self.room([end.id])
        printed, outcome = getattr(self, "call_" + name)(end, rest)
        self.enter(" ".join([actor, name, str(end.id), *printed]) + " -> " + outcome, [end.id])

    def call_request(self, end, rest):
        index, handler, words = int(rest[0]), int(rest[1]), [int(it) for it in rest[2:]]
        printed = [str(it) for it in (index, handler, *words)]
        why = self.request_refusal(end, index)
        if why:
            return printed, "refused " + why
        name, tag, _ = end.mapped[index]
        message = Message(end.id, end.accepted + 1, "request", name, tag, end.tag, handler, words)
        end.records.append(Record(index, message.serial))
        self.accept(end, message, end.requests)
        return printed, f"ok {message}"

    def request_refusal(self, end, index):
        if end.closed:
            return "closed"
        if end.tag == 0:
            return "own-tag-none"
        if index >= 16:
            return "bad-index"
        if index not in end.mapped:
            return "not-mapped"
        if self.has_no_credit(end, index):
            return "no-credit"
        if len(end.records) >= 32:
            return "table-full"
        return "send-full" if end.slots_held(True) >= 16 else None

    def has_no_credit(self, end, index):
        share = end.mapped[index][2]
        if self.scenario.pool is None:
            return end.records_at(index) >= share
        above = sum(max(0, end.records_at(it) - end.mapped[it][2]) for it in end.mapped)
        return end.records_at(index) >= share and above == self.scenario.pool

    def call_poll(self, end, _):
        if end.notices:
            notice = end.notices.pop(0)
            told = f"zero {notice.message} {notice.why}"
            end.runs.append(told)
            return [], told
        for message in end.received:
            if message.kind != "request":
                return [], self.run_answer(end, message)
        if not end.received:
            return [], "empty"
        if end.slots_held(False) >= 16:
            return [], "blocked"
        return [], self.run_request(end, end.received.pop(0))

    def run_handler(self, end, message):
        """Runs the message's handler, and gives the words of its reply, if it makes one."""
        self.ran.add(message.serial)
        end.runs.append(f"run {message} {message.handler} " + " ".join(str(it) for it in message.words))
        kind = end.handlers[message.handler]
        if kind[0] == "add":
            end.sum = (end.sum + message.words[0]) & WORD
            return kind[1], [end.sum, *message.words[1:]]
        return (kind[1], list(message.words)) if kind[0] == "echo" else None

    def run_answer(self, end, message):
        end.received.remove(message)
        end.records = [it for it in end.records if it.serial != message.about]
        if message.kind == "reply" and message.handler in end.handlers:
            self.run_handler(end, message)
            return f"ran {message} {message.handler}"
        self.ran.add(message.serial)
        return f"ran {message} -"

    def run_request(self, end, message):
        made = self.run_handler(end, message)
        handler, words = made or (0, [0] * 4)
        reply = Message(end.id, end.accepted + 1, "reply" if made else "empty", message.source, message.reply_tag, 0, handler, words, message.serial)
        self.accept(end, reply, end.replies)
        return f"ran {message} {message.handler} sends {reply}"

    def call_handler(self, end, rest):
        handler, kind = int(rest[0]), (rest[1], *(int(it) for it in rest[2:]))
        printed = [str(handler), *(str(it) for it in kind)]
        if end.closed:
            return printed, "refused closed"
        if handler >= 16:
            return printed, "refused bad-index"
        if handler == 0:
            return printed, "refused reserved"
        end.handlers[handler] = kind
        return printed, "ok"

    def call_map(self, end, rest):
        index, name, tag, share = int(rest[0]), int(rest[1]), tag_of(rest[2]), int(rest[3])
        printed = [str(index), str(name), tag_word(tag), str(share)]
        shares = sum(it[2] for it in end.mapped.values())
        if end.closed:
            return printed, "refused closed"
        if index >= 16:
            return printed, "refused bad-index"
        if index in end.mapped:
            return printed, "refused in-use"
        if self.scenario.pool is not None and shares + share + self.scenario.pool > 32:
            return printed, f"refused over-share {shares}"
        end.mapped[index] = (name, tag, share)
        return printed, "ok"

    def call_unmap(self, end, rest):
        index = int(rest[0])
        if end.closed:
            return [str(index)], "refused closed"
        if index >= 16:
            return [str(index)], "refused bad-index"
        if index not in end.mapped:
            return [str(index)], "refused not-mapped"
        if end.records_at(index):
            return [str(index)], f"refused outstanding {end.records_at(index)}"
        del end.mapped[index]
        return [str(index)], "ok"

    def busy(self, end):
        if end.closed:
            return "refused closed"
        counts = (len(end.received), end.slots_held(True) + end.slots_held(False), len(end.records))
        return "refused in-use {} {} {}".format(*counts) if any(counts) else None

    def call_tag(self, end, rest):
        tag, why = tag_of(rest[0]), self.busy(end)
        if not why:
            end.tag = tag
        return [tag_word(tag)], why or "ok"

    def call_close(self, end, _):
        why = self.busy(end)
        end.closed = end.closed or not why
        return [], why or "ok"

    def call_giveup(self, end, rest):
        serial = tuple(int(it) for it in rest[0].split("."))
        printed = ["{}.{}".format(*serial)]
        waiting = [it for it in end.records if it.serial == serial and not it.arrived]
        if end.closed:
            return printed, "refused closed"
        if not waiting:
            return printed, "refused no-request"
        end.records.remove(waiting[0])
        return printed, "ok"

    def call_event(self, end, rest):
        return rest[:1], "ready" if rest[0] == "notempty" and end.is_pollable() else "quiet"

    def want(self, actor, id):
        if self.ends[id].place != "disk":
            raise NotEnabled("not-on-disk")
        self.room([id])
        self.ends[id].wanted = True
        self.enter(f"{actor} want {id}", [id])

    # delivery

    def verdict(self, end, message):
        is_request = message.kind == "request"
        if end.closed:
            return "no-endpoint"
        if not end.is_resident():
            return "not-resident"
        if end.tag == 0 or (end.tag != ALL and end.tag != message.tag):
            return "bad-tag"
        if is_request and message.handler not in end.handlers:
            return "bad-handler"
        if is_request and sum(1 for it in end.received if it.kind == "request") >= 16:
            return "queue-full"
        if not is_request and not any(it.serial == message.about and not it.arrived for it in end.records):
            return "no-request"
        return "accepted"

    def put(self, end, message):
        end.received.append(message)
        for record in end.records:
            record.arrived = record.arrived or record.serial == message.about
        for flight in end.in_flight:
            flight.answered = flight.answered or flight.message.serial == message.about

    def give_back(self, end, queued, why):
        """What came back, or is unknown, is noticed, and its record goes where it still waits."""
        message = queued.message
        end.notices.append(Queued(message, queued.bounces, why=why))
        end.records = [it for it in end.records if it.serial != message.serial or it.arrived]
        self.fates[message.serial] = "unknown" if why == "unknown" else f"returned {why}"

    def refuse(self, end, queued, cause):
        if cause in TRANSIENT and queued.bounces < self.scenario.bounces:
            end.queue_of(queued.message).append(Queued(queued.message, queued.bounces + 1))
            return "requeued"
        self.give_back(end, queued, cause)
        return "returned"

    def carry(self, id):
        if self.scenario.network != "direct":
            raise NotEnabled("not-direct")
        end = self.ends[id]
        queued = end.front()
        if not queued:
            raise NotEnabled("no-message")
        message = queued.message
        ends = [id, message.dest]
        self.room(ends)
        verdict = self.verdict(self.ends[message.dest], message)
        end.queue_of(message).pop(0)
        if verdict == "accepted":
            self.put(self.ends[message.dest], message)
            outcome = f"accepted {message}"
        else:
            outcome = f"{self.refuse(end, queued, verdict)} {message} {verdict}"
        self.enter(f"x carry {id} -> {outcome}", ends)

    # interfaces

    def packets(self, source, node):
        return self.sent.setdefault((source, node), [])

    def emit(self, node, peer, channel, sequence, attempt, message=None, verdict=None):
        packets = self.packets(node, peer)
        packet = Packet(len(packets) + 1, channel, sequence, attempt, message, verdict)
        packets.append(packet)
        self.on_emit((node, peer), packet)
        return packet.number

    def sender(self, node, peer, channel):
        return self.senders.setdefault((node, peer, channel), Sender())

    def here(self, node, id):
        if self.scenario.network != "packet":
            raise NotEnabled("not-packet")
        if id is not None and self.ends[id].node != node:
            raise NotEnabled("other-node")
        return None if id is None else self.ends[id]

    def bind(self, node, id):
        end = self.here(node, id)
        if not end.is_resident():
            raise NotEnabled("not-resident")
        if end.draining:
            raise NotEnabled("draining")
        queued = end.front()
        if not queued:
            raise NotEnabled("no-message")
        message = queued.message
        peer = self.ends[message.dest].node
        free = [it for it in range(self.scenario.channels) if not self.sender(node, peer, it).message]
        if not free:
            raise NotEnabled("no-channel")
        self.room([id], node)
        end.queue_of(message).pop(0)
        end.in_flight.append(Queued(message, queued.bounces))
        sender = self.sender(node, peer, free[0])
        sender.message, sender.attempt, sender.sequence = message, 0, sender.sequence + 1
        self.enter(f"i{node} bind {id} -> {self.send(node, peer, free[0], sender)}", [id], node)

    def send(self, node, peer, channel, sender):
        number = self.emit(node, peer, channel, sender.sequence, sender.attempt, message=sender.message)
        return f"sent {sender.message} {peer} {channel} {sender.sequence} {sender.attempt} {number}"

    def land(self, sender):
        """Frees the channel, and takes its message out of flight."""
        message, sender.message = sender.message, None
        end = self.ends[message.source]
        flight = next(it for it in end.in_flight if it.message is message)
        end.in_flight.remove(flight)
        return end, flight

    def expire(self, node, peer, channel):
        self.here(node, None)
        sender = self.sender(node, peer, channel)
        if not sender.message:
            raise NotEnabled("idle")
        left, message = f"i{node} expire {peer} {channel} -> ", sender.message
        if sender.attempt + 1 < self.scenario.tries:
            self.room([], node)
            sender.attempt += 1
            self.enter(left + self.send(node, peer, channel, sender), [], node)
            return
        self.room([message.source], node)
        end, flight = self.land(sender)
        if flight.answered:
            outcome = "delivered"
        else:
            outcome = "unknown"
            self.give_back(end, flight, "unknown")
        self.enter(f"{left}{outcome} {message}", [message.source], node)

    def receive(self, node, peer, number):
        self.here(node, None)
        if number > len(self.packets(peer, node)):
            raise NotEnabled("no-packet")
        packet = self.packets(peer, node)[number - 1]
        outcome, ends = (self.judge if packet.message else self.settle)(node, peer, packet)
        self.enter(f"i{node} receive {peer} {number} -> {outcome}", ends, node)

    def judge(self, node, peer, packet):
        message, key = packet.message, (peer, node, packet.channel)
        sequence, attempt, verdict = self.marks.get(key, (0, 0, "refused"))
        answer = lambda it: self.emit(node, peer, packet.channel, packet.sequence, packet.attempt, verdict=it)
        if packet.sequence < sequence or (packet.sequence == sequence and verdict != "accepted" and packet.attempt < attempt):
            self.room([], node)
            return "stale", []
        if packet.sequence == sequence and (verdict == "accepted" or packet.attempt == attempt):
            self.room([], node)
            return f"again {message} {verdict} answer {answer(verdict)}", []
        self.room([message.dest], node)
        end = self.ends[message.dest]
        verdict = self.verdict(end, message)
        self.marks[key] = (packet.sequence, packet.attempt, verdict)
        if verdict == "accepted":
            self.put(end, message)
            return f"accepted {message} answer {answer(verdict)}", [message.dest]
        end.wanted = end.wanted or verdict == "not-resident"
        return f"refused {message} {verdict} answer {answer(verdict)}", [message.dest]

    def settle(self, node, peer, packet):
        sender = self.sender(node, peer, packet.channel)
        counts = sender.message and sender.sequence == packet.sequence
        if not counts or (packet.verdict != "accepted" and packet.attempt != sender.attempt):
            self.room([], node)
            return "nothing", []
        message = sender.message
        self.room([message.source], node)
        end, flight = self.land(sender)
        if packet.verdict == "accepted":
            return f"delivered {message}", [message.source]
        return f"{self.refuse(end, flight, packet.verdict)} {message} {packet.verdict}", [message.source]

    # drivers

    def drain(self, node, id):
        end = self.here(node, id)
        if not end.is_resident():
            raise NotEnabled("not-resident")
        if end.draining:
            raise NotEnabled("draining")
        self.room([id])
        end.draining = True
        self.enter(f"d{node} drain {id}", [id])

    def unload(self, node, id):
        end = self.here(node, id)
        if not end.is_resident():
            raise NotEnabled("not-resident")
        if not end.draining:
            raise NotEnabled("not-draining")
        if end.in_flight:
            raise NotEnabled("in-flight")
        self.room([id])
        end.place = "host"
        end.wanted = end.wanted or bool(end.front())
        self.enter(f"d{node} unload {id}", [id])

    def is_held(self, node, frame):
        return any(it.node == node and it.place == frame for it in self.ends.values())

    def load(self, node, id, frame):
        end = self.here(node, id)
        if end.place != "host":
            raise NotEnabled("not-on-host")
        if end.closed:
            raise NotEnabled("closed")
        if self.is_held(node, frame):
            raise NotEnabled("frame-held")
        self.room([id])
        end.place, end.draining, end.wanted = frame, False, False
        self.enter(f"d{node} load {id} {frame}", [id])

    def page_call(self, node):
        self.page_calls[node] += 1
        return "failed" if (node, self.page_calls[node]) in self.scenario.faults else "ok"

    def pageout(self, node, id):
        end = self.here(node, id)
        if end.place != "host":
            raise NotEnabled("not-on-host")
        if end.closed:
            raise NotEnabled("closed")
        self.room([id])
        outcome = self.page_call(node)
        if outcome == "ok":
            end.place = "disk"
            end.wanted = end.wanted or end.is_pollable()
        self.enter(f"d{node} pageout {id} -> {outcome}", [id])

    def pagein(self, node, id):
        end = self.here(node, id)
        if end.place != "disk":
            raise NotEnabled("not-on-disk")
        self.room([id])
        outcome = self.page_call(node)
        end.place = "host" if outcome == "ok" else "disk"
        self.enter(f"d{node} pagein {id} -> {outcome}", [id])

    # texts

    def apply(self, words):
        """The event of a step's line."""
        first, name, numbers = words[0], words[1], words[2:]
        if first == "x" and name == "carry":
            self.carry(int(numbers[0]))
        elif first == "x" and name == "want":
            self.want("x", int(numbers[0]))
        elif first == "x":
            self.call("x", words[1:])
        else:
            getattr(self, name)(int(first[1:]), *(int(it) for it in numbers))

    def report(self):
        out = ["am2 report 1", f"entries {len(self.lines)}", *self.lines]
        for end in self.ends.values():
            out += [f"endpoint {end.id} runs {len(end.runs)}", *end.runs]
        totals = dict.fromkeys(("ran", "returned", "unknown", "unknown-but-ran", "pending"), 0)
        out.append(f"messages {len(self.accepted)}")
        for serial in sorted(self.accepted):
            fate = self.fates[serial]
            if serial in self.ran:
                fate = "unknown-but-ran" if fate == "unknown" else "ran"
            totals[fate.split()[0]] += 1
            out.append("fate {}.{} {} {}".format(*serial, self.accepted[serial], fate))
        return out + ["totals " + " ".join(f"{name} {count}" for name, count in totals.items())]
