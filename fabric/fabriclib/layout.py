"""Where bridges stand in a picture: in rows by the stems of their names, on a ring, or as Graphviz puts them."""
from __future__ import annotations

import itertools
import math
import re
import shutil
import subprocess
from collections import Counter
from typing import Dict, List, NamedTuple, Optional, Sequence, Tuple

from fabriclib.script import Unusable, World

# Pixels: the height of a bridge, and what a character of its name takes.
BOX_HEIGHT = 30
CHARACTER = 8.2
_GAP = 22
_ROW = 190
_MOST_IN_A_ROW = 24


class Place(NamedTuple):
    """The middle of a bridge."""

    x: float
    y: float


Places = Dict[str, Place]


def box_width(name: str) -> float:
    """The width of a bridge."""
    return len(name) * CHARACTER + 20


def layout(world: World, kind: str) -> Places:
    """The places of all bridges, the least x and y at 0. The kind is `rows`, `ring`, `neato` or `auto`."""
    if not world.bridges:
        return {}
    if kind == "auto":
        kind = _kind_of(world)
    places = {"rows": _rows, "ring": _ring, "neato": _neato}[kind](world)
    left, top = min(place.x for place in places.values()), min(place.y for place in places.values())
    return {name: Place(place.x - left, place.y - top) for name, place in places.items()}


def _kind_of(world: World) -> str:
    """Rows, where some stem has several bridges, and few links stay within a stem; else a ring."""
    stems = _stems(world)
    of = {name: stem for stem, names in stems.items() for name in names}
    inside = sum(of[link.a] == of[link.b] for link in world.links.values())
    is_rows = 2 <= len(stems) <= 8 and max(map(len, stems.values())) > 1 and inside * 4 <= len(world.links)
    return "rows" if is_rows else "ring"


def _stems(world: World) -> Dict[str, List[str]]:
    """The bridges by the stems of their names, what stands before the last digits, in order of declaration."""
    stems: Dict[str, List[str]] = {}
    for name in world.bridges:
        stems.setdefault(re.sub(r"[-_]?[0-9]+\Z", "", name), []).append(name)
    return stems


def _in_order(world: World, stems: Dict[str, List[str]]) -> List[List[str]]:
    """The stems' bridges, in the order in which as few links as can be pass a row; else in that of declaration."""
    row = {name: number for number, names in enumerate(stems.values()) for name in names}
    between = Counter(tuple(sorted((row[link.a], row[link.b]))) for link in world.links.values())
    orders = itertools.permutations(range(len(stems))) if len(stems) <= 6 else [tuple(range(len(stems)))]

    def passed(order: Tuple[int, ...]) -> int:
        return sum(max(0, abs(order.index(a) - order.index(b)) - 1) * count for (a, b), count in between.items())

    return [list(stems.values())[number] for number in min(orders, key=passed)]


def _rows(world: World) -> Places:
    rows = [
        names[at : at + _MOST_IN_A_ROW]
        for names in _in_order(world, _stems(world))
        for at in range(0, len(names), _MOST_IN_A_ROW)
    ]
    step = max(map(box_width, world.bridges)) + _GAP
    widest = (max(map(len, rows)) - 1) * step
    apart = min(max(_ROW, widest / 4), 420)
    places: Places = {}
    for height, names in enumerate(rows):
        own = step if len(names) == 1 else min(widest / (len(names) - 1), 2.6 * step)
        begin = (widest - own * (len(names) - 1)) / 2
        for index, name in enumerate(names):
            places[name] = Place(begin + own * index, height * apart)
    return places


def _ring(world: World) -> Places:
    ring = _ring_of(world) or list(world.bridges)
    step = max(map(box_width, world.bridges)) + 2 * _GAP
    radius = max(130.0, step * len(ring) / (2 * math.pi))
    angles = {name: 2 * math.pi * index / len(ring) for index, name in enumerate(ring)}
    places = {name: _at(angle, radius) for name, angle in angles.items()}
    others = [name for name in world.bridges if name not in places]
    is_inside = len(others) <= len(ring) // 3 and len(ring) >= 8
    taken: List[float] = []
    for name in others:
        angle = _apart(_angle_of(world, name, angles), taken, 1.2 if is_inside else 0.3)
        taken.append(angle)
        places[name] = _at(angle, 0.45 * radius if is_inside else radius + max(120.0, step))
    return places


def _at(angle: float, radius: float) -> Place:
    """A place on a circle, from the top on and clockwise; a little wider than high, since names are."""
    return Place(1.25 * radius * math.sin(angle), -radius * math.cos(angle))


def _apart(angle: float, taken: Sequence[float], least: float) -> float:
    """An angle that is so far from all that are taken, a given one where that is."""
    for _ in range(64):
        if all(abs(math.remainder(angle - other, 2 * math.pi)) >= least for other in taken):
            break
        angle += least / 4
    return angle


def _angle_of(world: World, name: str, angles: Dict[str, float]) -> float:
    """The middle of the angles of a bridge's neighbours on the ring."""
    near = [angles[link.far(name)[0]] for link in world.links_of(name) if link.far(name)[0] in angles]
    if not near:
        return 0.0
    return math.atan2(sum(map(math.sin, near)), sum(map(math.cos, near)))


def _ring_of(world: World) -> Optional[List[str]]:
    """The longest row of bridges, in order of declaration, of which each is linked to the next and the last to the
    first."""
    names = list(world.bridges)
    linked = {frozenset((link.a, link.b)) for link in world.links.values()}
    best: List[str] = []
    begin = 0
    for end in range(1, len(names) + 1):
        if end == len(names) or frozenset((names[end - 1], names[end])) not in linked:
            own = _closed(names[begin:end], linked)
            best, begin = (own if len(own) > len(best) else best), end
    return best or None


def _closed(names: List[str], linked: "set[frozenset[str]]") -> List[str]:
    """The longest front of a row whose last bridge is linked to its first; empty where none of three is."""
    for count in range(len(names), 2, -1):
        if frozenset((names[0], names[count - 1])) in linked:
            return names[:count]
    return []


def _neato(world: World) -> Places:
    if shutil.which("neato") is None:
        raise Unusable("the layout neato needs Graphviz, which isn't there; --layout ring and rows need nothing")
    lines = ["graph {", "overlap=false", "node [shape=box fixedsize=true height=0.42]"]
    lines += [f'"{name}" [width={box_width(name) / 72 + 0.2:.2f}]' for name in world.bridges]
    lines += [f'"{link.a}" -- "{link.b}" [len=1.9]' for link in world.links.values()]
    told = subprocess.run(
        ["neato", "-Tplain"], input="\n".join([*lines, "}"]), capture_output=True, text=True, check=False
    )
    if told.returncode != 0:
        raise Unusable(f"neato failed: {told.stderr.strip()}")
    return dict(_plain_node(line) for line in told.stdout.splitlines() if line.startswith("node "))


def _plain_node(line: str) -> Tuple[str, Place]:
    words = line.split()
    return words[1].strip('"'), Place(float(words[2]) * 72, -float(words[3]) * 72)
