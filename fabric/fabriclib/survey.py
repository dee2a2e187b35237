"""All ways and trees of a fabric, and what of them changes where rows change.

A way is from one edge bridge to another, in one base VID; there and back are two ways. Edge bridges are those that have
customer ports, or all where none has.
"""
from __future__ import annotations

from collections import Counter
from dataclasses import dataclass, field
from typing import Dict, FrozenSet, Iterable, List, Mapping, Set, Tuple, TypeVar

from fabriclib.follow import Fabric, Read, Rows, Tree, Way
from fabriclib.script import World

# A way's source, target and VID; a tree's source, I-SID and VID.
WayKey = Tuple[str, str, int]
TreeKey = Tuple[str, int, int]

_Name = TypeVar("_Name")
_Key = TypeVar("_Key")


def way_keys(world: World) -> List[WayKey]:
    """Each way that a fabric is asked for."""
    edges = world.edges()
    return [(a, b, vid) for vid in world.vids for a in edges for b in edges if a != b]


def tree_keys(world: World) -> List[TreeKey]:
    """Each tree that a fabric is asked for: of each service from each of its members that sends."""
    return [(bridge, isid, vid) for isid, (vid, _) in world.isids.items() for bridge in world.senders(isid)]


@dataclass
class Survey:
    """What was followed in one fabric."""

    fabric: Fabric
    ways: Dict[WayKey, Way]
    trees: Dict[TreeKey, Tree]
    load: "Counter[str]" = field(default_factory=Counter)
    _ways_by_row: Dict[Read, List[WayKey]] = field(default_factory=dict)
    _trees_by_row: Dict[Read, List[TreeKey]] = field(default_factory=dict)
    _ways_by_link: Dict[str, List[WayKey]] = field(default_factory=dict)
    _trees_by_link: Dict[str, List[TreeKey]] = field(default_factory=dict)

    @staticmethod
    def of(fabric: Fabric) -> "Survey":
        """Follows all ways and trees."""
        ways = {key: fabric.way(*key) for key in way_keys(fabric.world)}
        trees = {key: fabric.tree(*key) for key in tree_keys(fabric.world)}
        survey = Survey(fabric, ways, trees)
        for way in ways.values():
            survey.load.update(hop.link for hop in way.hops)
        return survey

    def index(self) -> None:
        """Remembers which ways and trees read which row and took which link, for `after`."""
        for key, way in self.ways.items():
            _remember(self._ways_by_row, way.reads, key)
            _remember(self._ways_by_link, (hop.link for hop in way.hops), key)
        for name, tree in self.trees.items():
            _remember(self._trees_by_row, tree.reads, name)
            _remember(self._trees_by_link, (hop.link for hop in tree.hops), name)

    def after(self, changed: Mapping[str, Rows], dark: FrozenSet[str]) -> "Change":
        """What is followed anew where some bridges have other rows and some links are down: what read a row that is
        another now, or took one of the links."""
        tables = {**self.fabric.tables, **changed}
        fabric = Fabric(self.fabric.world, tables, dark)
        ways: Set[WayKey] = set()
        trees: Set[TreeKey] = set()
        for bridge, rows in changed.items():
            for row in _changed_rows(self.fabric.tables[bridge], rows):
                ways.update(self._ways_by_row.get((bridge, row), ()))
                trees.update(self._trees_by_row.get((bridge, row), ()))
        for link in dark:
            ways.update(self._ways_by_link.get(link, ()))
            trees.update(self._trees_by_link.get(link, ()))
        return Change(
            {key: fabric.way(*key) for key in sorted(ways)}, {key: fabric.tree(*key) for key in sorted(trees)}
        )

    def passed(self) -> Dict[str, "Counter[int]"]:
        """For each bridge the number of ways that pass it, by VID."""
        passed: Dict[str, "Counter[int]"] = {name: Counter() for name in self.fabric.world.bridges}
        for (_, _, vid), way in self.ways.items():
            for bridge in way.between:
                passed[bridge][vid] += 1
        return passed

    def load_in(self, vid: int) -> "Counter[str]":
        """For each link the number of ways in a VID that take it."""
        load: "Counter[str]" = Counter()
        for (_, _, own), way in self.ways.items():
            if own == vid:
                load.update(hop.link for hop in way.hops)
        return load

    def services_on(self) -> Dict[str, Set[int]]:
        """For each link the services whose trees take it."""
        services: Dict[str, Set[int]] = {name: set() for name in self.fabric.world.links}
        for (_, isid, _), tree in self.trees.items():
            for hop in tree.hops:
                services[hop.link].add(isid)
        return services


@dataclass
class Change:
    """The ways and trees that were followed anew."""

    ways: Dict[WayKey, Way]
    trees: Dict[TreeKey, Tree]

    def load(self, before: Survey) -> "Counter[str]":
        """For each link the number of ways that take it now."""
        load = Counter(before.load)
        for key, way in self.ways.items():
            for hop in before.ways[key].hops:
                load[hop.link] -= 1
            for hop in way.hops:
                load[hop.link] += 1
        return load


def _remember(index: Dict[_Name, List[_Key]], names: Iterable[_Name], key: _Key) -> None:
    for name in names:
        index.setdefault(name, []).append(key)


def _changed_rows(before: Rows, after: Rows) -> Set[bytes]:
    """What the rows begin with that are in one alone, or differ."""
    return {key for key, _ in before.items() ^ after.items()}
