"""A fabric as a picture: a panel for each moment, and a legend."""
from __future__ import annotations

import math
from dataclasses import dataclass, field
from typing import Dict, List, NamedTuple, Optional, Tuple

from fabriclib import svg
from fabriclib.layout import BOX_HEIGHT, Place, Places, box_width
from fabriclib.script import Link, World


class Look(NamedTuple):
    """How a bridge is shown: the inside, the edge, the text, and what the legend says."""

    fill: str
    stroke: str
    text: str
    legend: str


PLAIN = Look("#f8fafc", "#94a3b8", "#334155", "bridge")
SOURCE = Look("#1d4ed8", "#1e3a8a", "#ffffff", "where the frame enters")
MEMBER = Look("#dcfce7", "#16a34a", "#14532d", "member, reached")
MISSED = Look("#fee2e2", "#dc2626", "#991b1b", "member, not reached")
TRANSIT = Look("#eff6ff", "#60a5fa", "#1e40af", "on the tree, no member")
EDGE = Look("#dcfce7", "#16a34a", "#14532d", "has customer ports")
LOOKS = (SOURCE, MEMBER, MISSED, TRANSIT, EDGE, PLAIN)


class Stroke(NamedTuple):
    """How a link is shown; `head` is the bridge at which its arrow stands, `label` what stands at its middle."""

    colour: str
    width: float
    dash: Optional[str] = None
    head: Optional[str] = None
    label: str = ""
    legend: str = ""


LINK = Stroke("#cbd5e1", 1.4, legend="link")
DOWN = Stroke("#dc2626", 1.4, "5 4", legend="link down")
IDLE = Stroke("#d9b36c", 1.2, "2 4", legend="idle link")
TREE = Stroke("#2563eb", 3.0, legend="the tree")
LOST = Stroke("#dc2626", 3.0, legend="the frame ends behind it")
# The shades of load: up to which share of the fullest link, and what the legend says.
SHADES = (
    (1 / 3, "#93c5fd", "up to a third of the fullest"),
    (2 / 3, "#3b82f6", "a third to two thirds"),
    (1.0, "#1e3a8a", "more than two thirds of the fullest"),
)
STROKES = (TREE.legend, LOST.legend, *(legend for _, _, legend in SHADES), LINK.legend, IDLE.legend, DOWN.legend)


def load_stroke(load: int, most: int, is_small: bool) -> Stroke:
    """How a link is shown that so many ways take, where the fullest has the most; in small pictures with the number."""
    if not load:
        return IDLE
    share = load / most
    colour, legend = next((colour, legend) for bound, colour, legend in SHADES if share <= bound + 1e-9)
    return Stroke(colour, 1.5 + (6.0 if is_small else 3.5) * share, label=str(load) if is_small else "", legend=legend)


@dataclass
class Panel:
    """One moment: what it shows in words, and how its bridges and links look."""

    world: World
    title: str
    notes: List[Tuple[str, str]] = field(default_factory=list)
    bridges: Dict[str, Look] = field(default_factory=dict)
    links: Dict[str, Stroke] = field(default_factory=dict)


_MARGIN = 26
_HEAD = 70
_LEGEND = 46
# Panels wider than this stand one above the other.
_MOST_BESIDE = 700
_MARKERS = {"tree": TREE.colour, "lost": LOST.colour}


def draw(panels: List[Panel], places: List[Places], name: str) -> str:
    """The SVG file of the panels: side by side, or one above the other where they are wide."""
    notes = max(len(panel.notes) for panel in panels)
    sizes = [_size(panel, own, notes) for panel, own in zip(panels, places)]
    wide, high = max(size[0] for size in sizes), max(size[1] for size in sizes)
    is_column = len(panels) > 1 and wide > _MOST_BESIDE
    parts: List[str] = []
    for index, (panel, own) in enumerate(zip(panels, places)):
        left, top = (0.0, high * index) if is_column else (wide * index, 0.0)
        if index:
            end = (wide - _MARGIN, top) if is_column else (left, high - 10)
            parts.append(svg.line((left + _MARGIN * is_column, top + _MARGIN * (not is_column)), end, stroke="#e2e8f0"))
        parts.append(svg.group(_panel(panel, own, wide, notes), left, top))
    width, height = (wide, high * len(panels)) if is_column else (wide * len(panels), high)
    parts.append(svg.group(_legend(panels, width), _MARGIN, height))
    lines = len(_legend_rows(_legend_items(panels), width))
    return svg.document(parts, width, height + _LEGEND + 24 * (lines - 1), name, _markers(panels))


def _markers(panels: List[Panel]) -> Dict[str, str]:
    used = {stroke.colour for panel in panels for stroke in panel.links.values() if stroke.head}
    return {name: colour for name, colour in _MARKERS.items() if colour in used}


def _size(panel: Panel, places: Places, notes: int) -> Tuple[float, float]:
    widest = max(map(box_width, panel.world.bridges), default=100)
    drawn = max((place.x for place in places.values()), default=0) + widest
    words = max(len(panel.title) * 9.3, max((len(note) * 7.0 for note, _ in panel.notes), default=0))
    height = max((place.y for place in places.values()), default=0) + BOX_HEIGHT
    return max(drawn, words) + 2 * _MARGIN, height + _HEAD + 18 * notes + 14


def _panel(panel: Panel, places: Places, width: float, notes: int) -> List[str]:
    parts = [svg.text(_MARGIN, 34, panel.title, 16, font_weight="bold", fill="#0f172a")]
    for index, (note, colour) in enumerate(panel.notes):
        parts.append(svg.text(_MARGIN, 56 + 18 * index, note, 12, fill=colour))
    drawn = max((place.x for place in places.values()), default=0)
    dx, dy = (width - drawn) / 2, _HEAD + 18 * notes + BOX_HEIGHT / 2 - 6
    moved = {name: Place(place.x + dx, place.y + dy) for name, place in places.items()}
    strokes = [(link, panel.links.get(link.name, LINK)) for link in panel.world.links.values()]
    strokes.sort(key=lambda item: (item[1].head is not None, item[1].width))
    for link, stroke in strokes:
        parts.append(_link(link, stroke, moved))
    parts += _labels(strokes, moved)
    for name in panel.world.bridges:
        parts += _bridge(name, panel.bridges.get(name, PLAIN), moved[name])
    return parts


def _link(link: Link, stroke: Stroke, places: Places) -> str:
    begin, end = _anchor(link.a, link.b, places), _anchor(link.b, link.a, places)
    marker = None
    if stroke.head is not None:
        if stroke.head == link.a:
            begin, end = end, begin
        end = _border(begin, end, places[stroke.head], box_width(stroke.head))
        marker = next(f"url(#{name})" for name, colour in _MARKERS.items() if colour == stroke.colour)
    return svg.line(
        begin, end, stroke=stroke.colour, stroke_width=stroke.width, stroke_dasharray=stroke.dash, marker_end=marker
    )


def _anchor(name: str, other: str, places: Places) -> Place:
    """Where a bridge's link to another begins: in its middle, or a little towards the other, so that many lie apart."""
    own, far = places[name], places[other]
    if abs(far.y - own.y) < 2 * BOX_HEIGHT:
        return own
    most = box_width(name) * 0.36
    return Place(own.x + max(-most, min(most, (far.x - own.x) * 0.05)), own.y)


def _border(begin: Place, end: Place, middle: Place, width: float) -> Place:
    """Where a line from outside to a point in a bridge meets the bridge's edge."""
    dx, dy = begin.x - end.x, begin.y - end.y
    side = middle.x + math.copysign(width / 2 + 2, dx)
    edge = middle.y + math.copysign(BOX_HEIGHT / 2 + 2, dy)
    share = min((side - end.x) / dx if dx else math.inf, (edge - end.y) / dy if dy else math.inf, 1)
    return Place(end.x + dx * share, end.y + dy * share)


def _labels(strokes: List[Tuple[Link, Stroke]], places: Places) -> List[str]:
    """The words at links: where no bridge and no other words stand, and as few other links pass as can be."""
    taken = [(place.x, place.y, box_width(name), float(BOX_HEIGHT)) for name, place in places.items()]
    lines = {link.name: (_anchor(link.a, link.b, places), _anchor(link.b, link.a, places)) for link, _ in strokes}
    parts = []
    for link, stroke in strokes:
        begin, end = lines[link.name]
        others = [line for name, line in lines.items() if name != link.name]
        width = len(stroke.label) * 7.0 + 8
        points = [Place(begin.x + (end.x - begin.x) * share, begin.y + (end.y - begin.y) * share) for share in _SHARES]
        free = [at for at in points if not any(_overlap((at.x, at.y, width, 18.0), other) for other in taken)]
        if stroke.label and free:
            x, y = min(free, key=lambda at: sum(_distance(at, line) < 13 for line in others))
            taken.append((x, y, width, 18.0))
            parts.append(_label(stroke.label, x, y, width))
    return parts


# Where on a link its words can stand, the best first.
_SHARES = (0.5, 0.42, 0.58, 0.34, 0.66, 0.26, 0.74, 0.2, 0.8)


def _distance(at: Place, line: Tuple[Place, Place]) -> float:
    """How far a place is from a straight line between two others."""
    (ax, ay), (bx, by) = line
    dx, dy = bx - ax, by - ay
    share = max(0.0, min(1.0, ((at.x - ax) * dx + (at.y - ay) * dy) / (dx * dx + dy * dy or 1.0)))
    return math.hypot(at.x - ax - share * dx, at.y - ay - share * dy)


# The middle of something, its width and its height.
_Area = Tuple[float, float, float, float]


def _overlap(one: _Area, other: _Area) -> bool:
    return abs(one[0] - other[0]) * 2 < one[2] + other[2] and abs(one[1] - other[1]) * 2 < one[3] + other[3]


def _label(words: str, x: float, y: float, width: float) -> str:
    back = svg.element("rect", x=x - width / 2, y=y - 9, width=width, height=18, rx=4, fill="#ffffff", opacity=0.92)
    return back + svg.text(x, y + 4, words, 11, text_anchor="middle", fill="#334155")


def _bridge(name: str, look: Look, place: Place) -> List[str]:
    width = box_width(name)
    return [
        svg.element(
            "rect",
            x=place.x - width / 2,
            y=place.y - BOX_HEIGHT / 2,
            width=width,
            height=BOX_HEIGHT,
            rx=7,
            fill=look.fill,
            stroke=look.stroke,
            stroke_width=1.6,
        ),
        svg.text(place.x, place.y + 4.5, name, 13, text_anchor="middle", fill=look.text),
    ]


# The legend

_ITEM_GAP = 26


def _legend_items(panels: List[Panel]) -> List[Tuple[str, object]]:
    """What the legend tells, each once and in this order: the looks and strokes that the panels have."""
    used = {panel.bridges.get(name, PLAIN) for panel in panels for name in panel.world.bridges}
    items: List[Tuple[str, object]] = [(look.legend, look) for look in LOOKS if look in used]
    strokes: Dict[str, Stroke] = {}
    for panel in panels:
        for stroke in (panel.links.get(name, LINK) for name in panel.world.links):
            strokes.setdefault(stroke.legend, stroke)
    return items + [(legend, strokes[legend]) for legend in STROKES if legend in strokes]


def _legend_rows(items: List[Tuple[str, object]], width: float) -> List[List[Tuple[str, object]]]:
    rows: List[List[Tuple[str, object]]] = [[]]
    used = 0.0
    for item in items:
        own = len(item[0]) * 6.7 + 40 + _ITEM_GAP
        if rows[-1] and used + own > width - 2 * _MARGIN:
            rows.append([])
            used = 0.0
        rows[-1].append(item)
        used += own
    return rows


def _legend(panels: List[Panel], width: float) -> List[str]:
    parts = []
    for index, row in enumerate(_legend_rows(_legend_items(panels), width)):
        x, y = 0.0, 22 + 24 * index
        for words, sample in row:
            parts += [_sample(sample, x, y), svg.text(x + 34, y + 4, words, 12, fill="#475569")]
            x += len(words) * 6.7 + 40 + _ITEM_GAP
    return parts


def _sample(sample: object, x: float, y: float) -> str:
    if isinstance(sample, Look):
        return svg.element(
            "rect",
            x=float(x),
            y=float(y - 7),
            width=26,
            height=14,
            rx=4,
            fill=sample.fill,
            stroke=sample.stroke,
            stroke_width=1.4,
        )
    assert isinstance(sample, Stroke)
    marker = next((f"url(#{name})" for name, colour in _MARKERS.items() if colour == sample.colour), None)
    return svg.line(
        (x, y),
        (x + 26, y),
        stroke=sample.colour,
        stroke_width=sample.width,
        stroke_dasharray=sample.dash,
        marker_end=marker if sample.head else None,
    )
