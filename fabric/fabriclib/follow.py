"""Ways and trees, followed from bridge to bridge by the rows that the program answered.

Nothing here knows a metric, so nothing here can find a path: where a row leads, the next bridge's rows are read, until
a frame arrives or goes no further.
"""
from __future__ import annotations

from dataclasses import dataclass, field
from typing import Dict, FrozenSet, List, Mapping, NamedTuple, Optional, Sequence, Set, Tuple

from fabriclib.script import World

# The rows of a bridge: what stands before the last word of a row, and the last word (its port, or its ports).
Rows = Dict[bytes, bytes]
# A row that was read: the bridge, and what stands before the last word.
Read = Tuple[str, bytes]

# Why a frame goes no further.
NO_ROW, INGRESS, BACK, DARK, CIRCLE = ("no row", "ingress check", "back by its port", "link down", "circle")
# Why a group frame vanishes at a bridge that isn't a member of its service. Nobody counts it.
VANISHED = "no row for the group"


def rows_of(lines: Sequence[bytes]) -> Rows:
    """The rows behind the first line of an answer of `show` or `wiring`."""
    return {key: ports for key, _, ports in (line.rstrip(b"\n").rpartition(b" ") for line in lines)}


class Hop(NamedTuple):
    """A link that is taken, from one bridge to the next, which is entered at a port."""

    link: str
    tail: str
    head: str
    port: int


@dataclass
class Way:
    """The way of a frame from one bridge to another in a base VID."""

    source: str
    target: str
    vid: int
    hops: List[Hop] = field(default_factory=list)
    reads: List[Read] = field(default_factory=list)
    fault: Optional[str] = None
    at: str = ""

    @property
    def between(self) -> List[str]:
        """The bridges that the way passes, without its two ends."""
        return [hop.head for hop in self.hops[:-1]]


class Fault(NamedTuple):
    """Where a frame of a tree went no further, by which link it came, and why."""

    bridge: str
    link: Optional[str]
    reason: str


@dataclass
class Tree:
    """Where a group frame of a service goes from one bridge."""

    source: str
    isid: int
    vid: int
    hops: List[Hop] = field(default_factory=list)
    reads: List[Read] = field(default_factory=list)
    reached: Set[str] = field(default_factory=set)
    missed: Tuple[str, ...] = ()
    faults: List[Fault] = field(default_factory=list)


class Fabric:
    """The bridges, links that are up and rows at one moment."""

    def __init__(self, world: World, tables: Mapping[str, Rows], dark: FrozenSet[str] = frozenset()) -> None:
        self.world = world
        self.tables = tables
        self.dark = dark

    def hop(self, bridge: str, port: bytes) -> Optional[Hop]:
        """The link that leaves a bridge by a port, none where no link is up there."""
        link = self.world.at_port.get((bridge, int(port)))
        if link is None or not link.is_up or link.name in self.dark:
            return None
        head, head_port = link.far(bridge)
        return Hop(link.name, bridge, head, head_port)

    def unicast_key(self, vid: int, bridge: str) -> bytes:
        """What a row to a bridge begins with."""
        return b"u %d %s" % (vid, self.world.bridges[bridge].system.encode())

    def group_key(self, vid: int, bridge: str, isid: int) -> bytes:
        """What a row of a bridge's group address of a service begins with."""
        source = self.world.bridges[bridge].source
        return b"g %d %s3%s%06x" % (vid, source[:1].encode(), source[1:].encode(), isid)

    def is_let_in(self, hop: Hop, source_key: bytes, reads: List[Read]) -> bool:
        """Whether the bridge that is entered leads to the frame's source by the port where it came."""
        reads.append((hop.head, source_key))
        return self.tables[hop.head].get(source_key) == b"%d" % hop.port

    def way(self, source: str, target: str, vid: int) -> Way:
        """The way by the rows from one bridge to another."""
        way = Way(source, target, vid)
        to_target, to_source = self.unicast_key(vid, target), self.unicast_key(vid, source)
        here, came, passed = source, b"", {source}
        while here != target:
            way.reads.append((here, to_target))
            port = self.tables[here].get(to_target)
            hop = self.hop(here, port) if port is not None else None
            way.fault, way.at = _unicast_fault(port, came, hop), here
            if way.fault is not None or hop is None:
                return way
            way.hops.append(hop)
            here, came = hop.head, b"%d" % hop.port
            if here in passed or not self.is_let_in(hop, to_source, way.reads):
                way.fault, way.at = CIRCLE if here in passed else INGRESS, here
                return way
            passed.add(here)
        way.at = ""
        return way

    def tree(self, source: str, isid: int, vid: int) -> Tree:
        """Where a group frame that enters at a bridge goes, row by row."""
        tree = Tree(source, isid, vid)
        key, to_source = self.group_key(vid, source, isid), self.unicast_key(vid, source)
        receivers = self.world.receivers(isid)
        others = [bridge for bridge in receivers if bridge != source]
        waiting: List[Optional[Hop]] = [None]
        met = {source}
        while waiting:
            came = waiting.pop(0)
            here = source if came is None else came.head
            tree.reads.append((here, key))
            out = self._out(tree, here, came, self.tables[here].get(key, b""))
            if not out and (others if came is None else here not in receivers):
                tree.faults.append(Fault(here, came.link if came else None, VANISHED))
            for hop in out:
                tree.hops.append(hop)
                if hop.head in met:
                    tree.faults.append(Fault(hop.head, hop.link, CIRCLE))
                elif not self.is_let_in(hop, to_source, tree.reads):
                    tree.faults.append(Fault(hop.head, hop.link, INGRESS))
                else:
                    met.add(hop.head)
                    waiting.append(hop)
        tree.reached = {bridge for bridge in others if bridge in met}
        tree.missed = tuple(bridge for bridge in others if bridge not in met)
        return tree

    def _out(self, tree: Tree, here: str, came: Optional[Hop], ports: bytes) -> List[Hop]:
        """The links by which a group frame leaves a bridge; those that are down are told in the tree."""
        hops = []
        for port in ports.split(b",") if ports else []:
            hop = self.hop(here, port)
            if hop is None:
                tree.faults.append(Fault(here, None, DARK))
            elif came is None or hop.link != came.link:
                hops.append(hop)
        return hops


def _unicast_fault(port: Optional[bytes], came: bytes, hop: Optional[Hop]) -> Optional[str]:
    """Why a frame to a bridge goes no further from here, none where it does."""
    if port is None:
        return NO_ROW
    if port == came:
        return BACK
    return DARK if hop is None else None
