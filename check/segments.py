"""A scenario whose threads send blocks to segments, as docs/MANUAL.md tells it under "Segments"."""
import re

from drain import Run
from faults import Fault, Words, first_fault, lines_of, number_in, refused, words_of
from machine import LogFull
from scenario import read

SIZE = 24


class OwnFault(Exception):
    """The line and the cause of the first fault of the lines that a scenario doesn't have."""


def pieces_of(block, place, number):
    """The words of each piece of a block that goes to this place, as the transfer of this number."""
    for first in range(0, len(block), SIZE):
        piece = block[first : first + SIZE]
        padded = piece.ljust(SIZE, b"\0")
        yield (place + first + 65536 * len(piece) + 4294967296 * number, *(int.from_bytes(padded[at : at + 8], "big") for at in (0, 8, 16)))


def piece_in(words):
    """The place and the bytes of a piece that these words are, if they are one."""
    place, size = words[0] % 65536, words[0] // 65536 % 65536
    padded = b"".join(word.to_bytes(8, "big") for word in words[1:])
    return (place, padded[:size]) if 1 <= size <= SIZE and not any(padded[size:]) else None


class Expanded:
    """The scenario that a text with segments stands for, with the line that each of its lines came from; the segments by endpoint, and the transfers. A fault of one of its own lines is raised with the line."""

    def __init__(self, text):
        self.lines, self.origins, self.segments, self.transfers = [], [], {}, []
        self.ends, self.scripted, self.calls = set(), False, 0
        for number, line in enumerate(lines_of(text), 1):
            try:
                made = self.stands_for(line)
            except Fault as why:
                raise OwnFault(number, str(why)) from why
            self.lines += made
            self.origins += [number] * len(made)

    def stands_for(self, line):
        words = [it for it in line.split(" ") if it]
        first = words[0] if words else "#"
        is_thread = first[0] == "t" and number_in(first[1:]) is not None
        if first != "segment" and not (is_thread and words[1:2] in (["xfer"], ["serve"])):
            self.ordinary(first, words[1:], is_thread)
            return [line]
        words_of(line)
        if first == "segment":
            return self.segment(Words(words[1:]))
        made = {"xfer": self.transfer, "serve": self.serve}[words[1]](first, Words(words[2:]))
        self.scripted = True
        return made

    def ordinary(self, first, words, is_thread):
        """What a line that stays says of what may come."""
        number = number_in(words[0]) if first == "endpoint" and words else None
        self.ends |= {number} if number is not None and number <= 255 else set()
        self.scripted = self.scripted or is_thread or first == "x" or (first[0] in "id" and number_in(first[1:]) is not None)

    def segment(self, words):
        if self.scripted:
            raise Fault("out-of-place")
        end, said = words.declared(self.ends), (words.number(1, 15), words.number(1, 65536))
        words.end()
        if end in self.segments:
            raise Fault("twice")
        if len(self.segments) == 16:
            raise Fault("too-many")
        self.segments[end] = said
        return []

    def counted(self, words, calls):
        words.end()
        if self.calls + calls > 16384:
            raise Fault("too-many")
        self.calls += calls

    def serve(self, thread, words):
        end, polls = words.declared(self.ends), words.number(1, 1024)
        self.counted(words, polls)
        return [f"{thread} poll {end}"] * polls

    def transfer(self, thread, words):
        source, index, end, place, digits = words.declared(self.ends), words.number(0, 15), words.declared(self.segments), words.number(), words.word()
        if not re.fullmatch("(?:[0-9a-f]{2}){1,512}", digits):
            raise Fault("bad-number")
        handler, size = self.segments[end]
        block = bytes.fromhex(digits)
        if place + len(block) > size:
            raise Fault("out-of-range")
        pieces = list(pieces_of(block, place, len(self.transfers) + 1))
        self.counted(words, 2 * len(pieces))
        self.transfers.append((end, pieces))
        return [line for piece in pieces for line in (f"{thread} request {source} {index} {handler} " + " ".join(map(str, piece)), f"{thread} poll {source}")]


def runs_of(end, handler):
    """The words of each run of this handler at an endpoint, in order."""
    for line in end.runs:
        words = line.split()
        if words[0] == "run" and int(words[2]) == handler:
            yield tuple(int(it) for it in words[3:])


def printed(expanded, ends):
    """What stands behind the report."""
    out = []
    for end, (handler, size) in sorted(expanded.segments.items()):
        held = bytearray(size)
        for place, piece in filter(None, map(piece_in, runs_of(ends[end], handler))):
            if place + len(piece) <= size:
                held[place : place + len(piece)] = piece
        out += [f"segment {end} {handler} {size}", *(held[at : at + 32].hex() for at in range(0, size, 32))]
    for number, (end, pieces) in enumerate(expanded.transfers, 1):
        ran = set(runs_of(ends[end], expanded.segments[end][0]))
        out.append(f"transfer {number} ran {sum(piece in ran for piece in pieces)} of {len(pieces)}")
    return out


def run(text):
    """The status and the lines for a text."""
    try:
        expanded = Expanded(text)
    except OwnFault as why:
        return refused(why.args)
    plain = "".join(line + "\n" for line in expanded.lines)
    fault = first_fault("run", plain)
    if fault:
        line, cause = fault
        return refused((expanded.origins[line - 1] if line <= len(expanded.origins) else len(lines_of(text)) + 1, cause))
    made = Run(read(plain))
    try:
        made.finish()
    except LogFull as part:
        return 6, [f"log full {part}", *made.cluster.report()]
    return 0, [*made.cluster.report(), *printed(expanded, made.cluster.ends)]
