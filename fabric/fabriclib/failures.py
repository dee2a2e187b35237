"""What each failure of one link, or of one bridge, takes: all played in one run, which asks for the tables that the
links call for while it stands."""
from __future__ import annotations

from dataclasses import dataclass, field
from typing import Dict, Iterator, List, Optional, Tuple

from fabriclib.follow import Rows, rows_of
from fabriclib.play import Tape, play
from fabriclib.script import Script, World
from fabriclib.survey import Change, Survey


@dataclass(frozen=True)
class Failure:
    """A link, or a bridge with its links, that fails."""

    kind: str
    name: str
    links: Tuple[str, ...]


@dataclass
class Toll:
    """What a failure takes: the pairs of bridges that lose each other in some VID, and the ways that are cut; the
    members that services lose; how many ways take other links; and the link that then has the most ways."""

    failure: Failure
    pairs: List[Tuple[str, str]] = field(default_factory=list)
    ways: int = 0
    lost: Dict[int, List[Tuple[str, str]]] = field(default_factory=dict)
    fullest: Optional[Tuple[str, int]] = None
    moved: int = 0


def failures_of(world: World) -> List[Failure]:
    """Each link that is up, and each bridge that has one."""
    links = [Failure("link", link.name, (link.name,)) for link in world.links.values() if link.is_up]
    bridges = []
    for name in world.bridges:
        own = tuple(link.name for link in world.links_of(name) if link.is_up)
        if own:
            bridges.append(Failure("bridge", name, own))
    return links + bridges


class Rehearsal:
    """The run: the script, the tables as they are, and then for each failure its lines, questions and repair."""

    def __init__(self, script: Script, line: Optional[int], failures: List[Failure]) -> None:
        self.world = script.world(line)
        self.failures = failures
        self.tape = Tape()
        self.tape.script(script.upto(line))
        self.asked: Dict[int, Tuple[int, str]] = {}
        self._ask(-1, ())
        for number, failure in enumerate(failures):
            self.tape.add(*(f"down {link}" for link in failure.links))
            self._ask(number, (failure.name,) if failure.kind == "bridge" else ())
            self.tape.add(*(f"up {link}" for link in failure.links))

    def _ask(self, number: int, without: Tuple[str, ...]) -> None:
        for bridge in self.world.bridges:
            if bridge not in without:
                self.asked[self.tape.add(f"wiring {bridge}")] = (number, bridge)

    def played(self, program: str) -> Iterator[Tuple[int, Dict[str, Rows]]]:
        """For each failure by its number the tables that are others than before; -1, the first, has all tables."""
        raw: Dict[str, List[bytes]] = {}
        current = -1
        tables: Dict[str, Rows] = {}
        for answer in play(program, self.tape):
            if answer.place not in self.asked:
                continue
            number, bridge = self.asked[answer.place]
            if number != current:
                yield current, tables
                current, tables = number, {}
            if number == -1:
                raw[bridge] = answer.lines
            if number == -1 or raw[bridge] != answer.lines:
                tables[bridge] = rows_of(answer.lines[1:])
        yield current, tables


def toll(failure: Failure, before: Survey, change: Change) -> Toll:
    """What a failure takes, by what was followed anew. Of a bridge that fails its own ways and members don't count."""
    told = Toll(failure)
    gone = failure.name if failure.kind == "bridge" else None
    pairs: Dict[Tuple[str, str], None] = {}
    for key, way in change.ways.items():
        if gone in key[:2]:
            continue
        told.moved += way.hops != before.ways[key].hops
        if way.fault is not None and before.ways[key].fault is None:
            told.ways += 1
            pairs[_in_order(key[0], key[1], before.fabric.world)] = None
    told.pairs = list(pairs)
    for (source, isid, _), tree in sorted(change.trees.items()):
        missed = set(tree.missed) - set(before.trees[source, isid, tree.vid].missed) - {gone}
        if source != gone and missed:
            told.lost.setdefault(isid, []).extend((source, bridge) for bridge in sorted(missed))
    told.fullest = _fullest(before, change, gone)
    return told


def _in_order(a: str, b: str, world: World) -> Tuple[str, str]:
    """Two bridges in the order of their declaration."""
    return (a, b) if world.bridges[a].line < world.bridges[b].line else (b, a)


def _fullest(before: Survey, change: Change, gone: Optional[str]) -> Optional[Tuple[str, int]]:
    """The link with the most ways, and their number. A way to or from a bridge that fails has no link left."""
    if gone is not None:
        change = Change({key: way for key, way in change.ways.items() if gone not in key[:2]}, {})
        load = change.load(before)
        for key, way in before.ways.items():
            if gone in key[:2]:
                load.subtract(hop.link for hop in way.hops)
    else:
        load = change.load(before)
    # of several the one that is declared first
    links = ((name, load[name]) for name in before.fabric.world.links)
    full = max(links, key=lambda item: item[1], default=None)
    return full if full and full[1] > 0 else None
