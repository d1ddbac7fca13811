#!/usr/bin/env python3
"""inputs.py NAME NUMBERS: prints an input of the measurements here.

direct LINES       a step script on the direct network: requests between two endpoints and their empty replies, each carried in one step
packet LINES       the same between two nodes of the packet network: bound, received, answered and polled, and so is the reply
calls CALLS PLAN   scripts of two clients on node 0 and a server on node 1, with so many packets of the link between them released twice
crowd NODES TURNS ENDS CALLS   four threads of so many calls (256) on each node, which share its ENDS endpoints (4, 8, 12 or 16), all with room in frames, and send in the node and to the next one
comments BYTES     so many bytes of comments of 59 bytes each in front of a scenario
poll               one poll of one endpoint
words BYTES        a text of so many bytes, the same line of ten words again and again
"""
import sys



def direct(lines):
    yield from ("am2 1", "network direct", "nodes 1", "endpoint 0 0 5", "endpoint 1 0 7", "x handler 1 1 note", "x map 0 0 1 7 1")
    for number in range(1, lines // 5 + 1):
        yield from (f"x request 0 0 1 {number} 0 0 0", "x carry 0", "x poll 1", "x carry 1", "x poll 0")


def packet(lines):
    yield from ("am2 1", "network packet", "nodes 2", "endpoint 0 0 5", "endpoint 1 1 7", "x handler 1 1 note", "x map 0 0 1 7 1", "d0 load 0 0", "d1 load 1 0")
    for number in range(1, lines // 9 + 1):
        odd, even = 2 * number - 1, 2 * number
        yield from (f"x request 0 0 1 {number} 0 0 0", "i0 bind 0", f"i1 receive 0 {odd}", f"i0 receive 1 {odd}", "x poll 1")
        yield from ("i1 bind 1", f"i0 receive 1 {even}", f"i1 receive 0 {even}", "x poll 0")


def calls(count, plan):
    yield from ("am2 1", "network packet", "nodes 2", "endpoint 0 0 5", "endpoint 1 1 7", "endpoint 2 0 6", "thread 0 0", "thread 1 0", "thread 2 1")
    yield from (f"plan 0 1 {number} repeat" for number in range(1, plan + 1))
    yield from ("t0 map 0 0 1 7 8", "t1 map 2 0 1 7 8", "t2 handler 1 1 echo 1")
    for number in range(1, (count - 3) // 6 + 1):
        yield from (f"t0 request 0 0 1 {number} 0 0 0", "t0 poll 0", f"t1 request 2 0 1 {number} 0 0 0", "t1 poll 2", "t2 poll 1", "t2 poll 1")


def calls_of(thread, nodes, ends, count):
    node, share = thread // 4, ends // 4
    own = [ends * node + share * (thread % 4) + it for it in range(share)]
    for end in own:
        yield f"handler {end} 1 note"
        yield f"handler {end} 2 echo 1"
        yield f"map {end} 0 {ends * node + (end + share) % ends} 7 8"
        yield f"map {end} 1 {(end + ends) % (ends * nodes)} 7 8"
    for number in range((count - 4 * share) // 2):
        end = own[number % share]
        yield f"request {end} {number // share % 2} {1 + number // (2 * share) % 2} {number} 0 0 0"
        yield f"poll {own[(number + 1) % share]}"


def crowd(nodes, turns, ends=8, count=256):
    yield from ("am2 1", "network packet", f"nodes {nodes}", f"frames {ends}", "channels 4", f"turns {turns}")
    yield from (f"endpoint {end} {end // ends} 7" for end in range(ends * nodes))
    yield from (f"thread {thread} {thread // 4}" for thread in range(4 * nodes))
    for thread in range(4 * nodes):
        yield from (f"t{thread} {call}" for call in calls_of(thread, nodes, ends, count))


def comments(count):
    yield from ("#" + "c" * 58 for _ in range(count // 60))
    yield from poll()


def poll():
    yield from ("am2 1", "network direct", "nodes 1", "endpoint 0 0 5", "x poll 0")


def words(count):
    """A text of so many bytes."""
    line = "to be or not to be that is the question"
    return [line] * (count // (len(line) + 1))


KINDS = {"direct": direct, "packet": packet, "calls": calls, "crowd": crowd, "comments": comments, "poll": poll, "words": words}

if __name__ == "__main__":
    print("\n".join(KINDS[sys.argv[1]](*(int(it) for it in sys.argv[2:]))))
