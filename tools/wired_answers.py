#!/usr/bin/env python3
"""Answers a made script by the links as they are, without the program and without a protocol.

    ./spbsim make 24 | tools/wired_answers.py

Each question and each frame of a made script comes while the network is quiet. So each table follows from the best of
all paths through the links that are up, which are tried one by one, and the way of each frame from the tables. From
this stems the output of the program's stored run.

Other scripts are answered where that is so, too, and have no other lines than a made one has and `up`, `metric`,
`whatif`, `proof` and `check`. What a change would do is told by all tables before it and after it, a proof by the best
paths, and entries are checked bridge by bridge. `settle` isn't among these lines: how many rounds it makes doesn't
follow from the links.
"""
import copy
import sys

MASKS = bytes.fromhex("00ff88774433ccbb22116655aa99ddee")


class Wired:
    """What is declared, which links are up, and the frames in the lanes."""

    def __init__(self):
        self.algorithms, self.ids, self.sources = {}, {}, {}
        self.links, self.isids, self.attached = {}, {}, {}
        self.metrics, self.dark = {}, set()
        self.found, self.lanes = {}, {}

    def declare(self, keyword, words):
        if keyword == "vid":
            self.algorithms[int(words[0])] = int(words[1])
        elif keyword == "bridge":
            self.ids[words[0]] = int(words[1]).to_bytes(2, "big") + bytes.fromhex(words[2])
            self.sources[words[0]] = words[3]
        elif keyword == "link":
            self.links[words[0]] = (words[1], int(words[2]), words[3], int(words[4]))
            self.metrics[words[0]] = {"a": int(words[5]), "b": int(words[5])}
        elif keyword == "isid":
            self.isids[int(words[0])] = int(words[1])
        elif keyword == "attach":
            mode = words[3] if len(words) > 3 else "both"
            self.attached[words[0], int(words[1])] = (int(words[2]), mode)
        else:
            sys.exit(f"no line that is answered here begins with {keyword}")

    def change(self, keyword, words):
        """A link fails or comes back, or an end of it has another metric."""
        if keyword == "down":
            self.dark.add(words[0])
        elif keyword == "up":
            self.dark.remove(words[0])
        else:
            self.metrics[words[0]][words[1]] = int(words[2])
        self.found = {}

    def neighbours(self, bridge):
        """The neighbours of a bridge, each with the bridge's port to it and the link's cost."""
        for name, (a, port_a, b, port_b) in self.links.items():
            if bridge in (a, b) and name not in self.dark:
                cost = max(self.metrics[name].values())
                yield (b, port_a, cost) if bridge == a else (a, port_b, cost)

    def paths(self, path, cost):
        """All paths that begin with this one and meet no bridge twice, each with its cost."""
        yield path, cost
        for bridge, _, more in self.neighbours(path[-1]):
            if bridge not in path:
                yield from self.paths(path + (bridge,), cost + more)

    def key(self, path, cost, vid):
        """What the best path has least of: its cost, then its hops, then its masked ids."""
        mask = MASKS[self.algorithms[vid] - 1]
        return cost, len(path) - 1, sorted(bytes(byte ^ mask for byte in self.ids[bridge]) for bridge in path)

    def best_paths(self, source, vid):
        """By its end the best path from a bridge."""
        if (source, vid) not in self.found:
            best = {}
            for path, cost in self.paths((source,), 0):
                found = self.key(path, cost, vid), path
                best[path[-1]] = min(best.get(path[-1], found), found)
            self.found[source, vid] = {end: path for end, (_, path) in best.items()}
        return self.found[source, vid]

    def port_to(self, bridge, other):
        return next(port for neighbour, port, _ in self.neighbours(bridge) if neighbour == other)

    def members(self, isid, but):
        """The bridges that have a port of a service, of another mode than this."""
        return {bridge for (bridge, _), (service, mode) in self.attached.items() if service == isid and mode != but}

    def group_ports(self, bridge, source, isid):
        """The ports to those that come behind a bridge on the best paths from a source to a service's receivers."""
        paths = self.best_paths(source, self.isids[isid])
        ways = [paths[end] for end in self.members(isid, "send") if end in paths]
        return sorted({self.port_to(bridge, way[way.index(bridge) + 1]) for way in ways if bridge in way[:-1]})

    def unicast_rows(self, bridge):
        for vid in self.algorithms:
            for end, path in self.best_paths(bridge, vid).items():
                if end != bridge:
                    yield vid, self.ids[end][2:].hex(), str(self.port_to(bridge, path[1]))

    def group_rows(self, bridge):
        for isid, vid in self.isids.items():
            for source in self.members(isid, "recv"):
                ports = self.group_ports(bridge, source, isid)
                digits = self.sources[source]
                if ports:
                    yield vid, f"{digits[0]}3{digits[1:]}{isid:06x}", ",".join(map(str, ports))

    def rows(self, bridge):
        """The unicast rows of a bridge, and its group rows."""
        tables = (("u", self.unicast_rows(bridge)), ("g", self.group_rows(bridge)))
        return [[f"{word} {vid} {address} {ports}" for vid, address, ports in sorted(rows)] for word, rows in tables]

    def table(self, head, bridge):
        unicast, group = self.rows(bridge)
        return [f"{head} {len(unicast)} {len(group)}", *unicast, *group]

    def what_if(self, change, words):
        """The rows that go by a change, and those that come, bridge by bridge."""
        after, changed = copy.deepcopy(self), []
        after.change(change, words)
        for bridge in self.ids:
            old, new = sum(self.rows(bridge), []), sum(after.rows(bridge), [])
            changed += [f"- {bridge} {row}" for row in old if row not in new]
            changed += [f"+ {bridge} {row}" for row in new if row not in old]
        return [f"whatif {len(changed)}", *changed]

    def proof(self, source, vid):
        """For each bridge the one before it on the best path from a source."""
        paths = self.best_paths(source, vid)
        return ["-" if end == source else paths[end][-2] if end in paths else "." for end in self.ids]

    def cost_to(self, bridge, other):
        """The cost of the link to a neighbour, none to any other bridge."""
        return next((cost for neighbour, _, cost in self.neighbours(bridge) if neighbour == other), None)

    def way(self, entries, source, bridge):
        """What following entries back from a bridge gives, read from the source on; none where it stops elsewhere."""
        way = (bridge,)
        while way[0] != source:
            before = entries[way[0]]
            if before in way or self.cost_to(way[0], before) is None:
                return None
            way = (before, *way)
        return way

    def cost_of(self, way):
        return sum(self.cost_to(one, other) for one, other in zip(way, way[1:]))

    def way_key(self, way, vid):
        return self.key(way, self.cost_of(way), vid)

    def is_reached_better(self, entries, source, bridge, vid):
        """Whether a neighbour has a way that doesn't pass a bridge, and reaches it better than the bridge's own way."""
        own = self.way(entries, source, bridge)
        ways = [self.way(entries, source, neighbour) for neighbour, _, _ in self.neighbours(bridge)]
        longer = [self.way_key((*way, bridge), vid) for way in ways if way and bridge not in way]
        return any(own is None or key < self.way_key(own, vid) for key in longer)

    def is_wrong(self, entries, source, bridge, vid):
        """Whether a bridge shows that entries don't prove the best paths from a source."""
        entry = entries[bridge]
        if bridge == source or entry == "-":
            return (bridge == source) != (entry == "-")
        if entry != "." and self.way(entries, source, bridge) is None:
            return True
        return self.is_reached_better(entries, source, bridge, vid)

    def check(self, source, end, vid, words):
        """Whether entries prove the best paths from a source, and if so the way to an end."""
        entries = dict(zip(self.ids, words))
        wrong = [number for number, bridge in enumerate(self.ids, 1) if self.is_wrong(entries, source, bridge, vid)]
        if wrong:
            return f"check no {wrong[0]}"
        way = self.way(entries, source, end)
        return f"check yes {self.cost_of(way)} {len(way) - 1} {' '.join(way)}" if way else "check yes none"

    def sent_on(self, bridge, port, frame):
        """A frame leaves at a bridge's other ports of the service that receive, and goes on by its group row."""
        source, isid, data = frame
        for (at, other), (service, mode) in sorted(self.attached.items()):
            if at == bridge and service == isid and other != port and mode != "send":
                yield f"out {bridge} {other} {data}"
        ports = self.group_ports(bridge, source, isid)
        for name, (a, port_a, b, port_b) in self.links.items():
            for lane, end, by in (((name, "ab"), a, port_a), ((name, "ba"), b, port_b)):
                if end == bridge and by in ports:
                    self.lanes.setdefault(lane, []).append(frame)

    def drained(self):
        """Frames are delivered, each from the first lane that has one."""
        lanes = [(name, way) for name in self.links for way in ("ab", "ba")]
        while lane := next((lane for lane in lanes if self.lanes.get(lane)), None):
            a, _, b, _ = self.links[lane[0]]
            yield from self.sent_on(b if lane[1] == "ab" else a, None, self.lanes[lane].pop(0))

    def answer(self, keyword, words):
        if keyword == "show":
            yield from self.table(f"show {words[0]} quiet", words[0])
        elif keyword == "wiring":
            yield from self.table(f"wiring {words[0]}", words[0])
        elif keyword == "frame":
            bridge, port = words[0], int(words[1])
            yield from self.sent_on(bridge, port, (bridge, self.attached[bridge, port][0], words[2]))
        elif keyword == "drain":
            yield from self.drained()
        elif keyword in ("down", "up", "metric"):
            self.change(keyword, words)
        elif keyword == "whatif":
            yield from self.what_if(words[0], words[1:])
        elif keyword == "proof":
            yield " ".join((keyword, *words, *self.proof(words[0], int(words[2]))))
        elif keyword == "check":
            yield self.check(words[0], words[1], int(words[2]), words[3:])
        elif keyword not in ("round", "restart"):
            self.declare(keyword, words)


def main():
    wired = Wired()
    for line in sys.stdin:
        if not line.startswith("#"):
            keyword, *words = line.split()
            for text in wired.answer(keyword, words):
                print(text)


if __name__ == "__main__":
    sys.exit(main())
