"""A run of a scenario's scripts by the drain, as docs/MANUAL.md tells it under "A run"."""
from machine import Cluster


class Run:
    def __init__(self, scenario):
        self.scenario = scenario
        self.cluster = Cluster(scenario)
        self.cluster.on_emit = self.release
        self.released, self.late, self.received = {}, {}, {}
        self.calls = {it: [call for thread, call in scenario.script if thread == it] for it in scenario.threads}
        self.made = dict.fromkeys(scenario.threads, 0)

    def release(self, link, packet):
        """What the link releases when this packet is sent."""
        fault, by = self.scenario.plan.get((*link, packet.number), ("", 0))
        released, late = self.released.setdefault(link, []), self.late.setdefault(link, [])
        released += [packet] * {"lose": 0, "late": 0, "repeat": 2}.get(fault, 1)
        released += [it for due, it in late if due == packet.number]
        if fault == "late":
            late.append((packet.number + by, packet))

    def finish(self):
        rules = (self.receive, self.time_out, self.page_in, self.send, self.script, self.poll)
        while any(rule() for rule in rules):
            pass

    def receive(self):
        for node in range(self.scenario.nodes):
            for peer in range(self.scenario.nodes):
                done, released = self.received.get((peer, node), 0), self.released.get((peer, node), [])
                if done < len(released):
                    self.cluster.receive(node, peer, released[done].number)
                    self.received[peer, node] = done + 1
                    return True
        return False

    def time_out(self):
        bound = [link for link, sender in self.cluster.senders.items() if sender.message]
        if bound:
            self.cluster.expire(*min(bound))
        return bool(bound)

    def page_in(self):
        for end in self.cluster.ends.values():
            if end.wanted and end.place == "disk":
                self.cluster.pagein(end.node, end.id)
                return True
        return False

    def send(self):
        end = self.sender()
        if not end:
            return False
        dest = self.cluster.ends[end.front().message.dest]
        pair = (end.id, dest.id)
        self.ready(end, pair)
        if not dest.closed and dest is not end:
            self.ready(dest, pair)
        self.cluster.bind(end.node, end.id)
        return True

    def sender(self):
        ends = self.cluster.ends
        for end in ends.values():
            if end.replies:
                return end
        for end in ends.values():
            if end.requests:
                dest = ends[end.front().message.dest]
                if dest.closed or sum(1 for it in dest.received if it.kind == "request") < 16:
                    return end
        return None

    def ready(self, end, pair):
        """Brings an endpoint into a frame."""
        cluster, node = self.cluster, end.node
        while end.place == "disk":
            cluster.pagein(node, end.id)
        if end.is_resident() and end.draining:
            cluster.unload(node, end.id)
        frames = range(self.scenario.frames)
        if end.place == "host" and all(cluster.is_held(node, it) for it in frames):
            self.make_room(node, pair)
        if end.place == "host":
            cluster.load(node, end.id, next(it for it in frames if not cluster.is_held(node, it)))

    def make_room(self, node, pair):
        others = [it for it in self.cluster.ends.values() if it.node == node and it.id not in pair]
        spare = next(it for it in others if it.is_resident())
        if not spare.draining:
            self.cluster.drain(node, spare.id)
        self.cluster.unload(node, spare.id)
        on_host = [it for it in self.cluster.ends.values() if it.node == node and it.place == "host" and not it.closed]
        away = [it for it in on_host if it.id not in pair]
        if len(on_host) > self.scenario.keep and away:
            self.cluster.pageout(node, away[0].id)

    def script(self):
        left = [it for it in self.scenario.threads if self.made[it] < len(self.calls[it])]
        if not left:
            return False
        thread = min(left, key=lambda it: (self.made[it], it))
        call = self.calls[thread][self.made[thread]]
        end = self.cluster.ends[int(call[1])]
        while end.place == "disk":
            self.cluster.pagein(end.node, end.id)
        self.cluster.call(f"t{thread}", call)
        self.made[thread] += 1
        return True

    def poll(self):
        for end in self.cluster.ends.values():
            if end.is_pollable():
                self.cluster.call("x", ["poll", str(end.id)])
                return True
        return False
