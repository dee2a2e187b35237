"""The fabric as a picture (SVG): with a service's tree as the rows lead from one member, or with each link as wide as
the ways that take it, or as it is. With --at twice, two moments stand side by side, or one above the other where they
are wide. Members that aren't reached are red. What is drawn is what the program answered."""
from __future__ import annotations

import argparse
import os
import sys
from collections import Counter
from typing import Dict, List, Optional

from fabriclib.follow import Fabric, Tree
from fabriclib.layout import layout
from fabriclib.maintenance import named
from fabriclib.moments import fabrics_at
from fabriclib.picture import (
    DOWN,
    EDGE,
    LINK,
    LOST,
    MEMBER,
    MISSED,
    PLAIN,
    SOURCE,
    TRANSIT,
    TREE,
    Look,
    Panel,
    draw,
    load_stroke,
)
from fabriclib.script import Script, Unusable, World
from fabriclib.survey import Survey
from fabriclib.terminal import counted

_RED, _GREY = "#b91c1c", "#475569"
# Where a picture has no more links than this, words stand at them.
_MOST_LABELS = 24


def add_arguments(parser: argparse.ArgumentParser) -> None:
    """The word's own arguments."""
    parser.add_argument("script", metavar="SCRIPT", help="a script, or - for standard input")
    what = parser.add_mutually_exclusive_group()
    what.add_argument("--isid", type=int, metavar="I", help="the tree of this service")
    what.add_argument("--load", action="store_true", help="links as wide as the ways that take them")
    parser.add_argument(
        "--from",
        dest="source",
        metavar="B",
        help="where the group frame enters: a member of the service (its first where none is given)",
    )
    parser.add_argument("--vid", type=int, metavar="V", help="with --load, the ways in this base VID alone")
    parser.add_argument(
        "--at",
        type=int,
        action="append",
        metavar="LINE",
        help="the network after this line of the "
        "script (its last where none is given); more than one stand together",
    )
    parser.add_argument(
        "--own",
        action="store_true",
        help="by the tables that the bridges have by then, and not by those that the links call for",
    )
    parser.add_argument(
        "--layout",
        choices=("auto", "rows", "ring", "neato"),
        default="auto",
        help="a row for each stem of names, a ring, or as Graphviz puts it",
    )
    parser.add_argument("--title", help="another title")
    parser.add_argument(
        "-o", metavar="FILE", dest="file", default="-", help="the file (standard output where none is given)"
    )


def run(told: argparse.Namespace) -> int:
    """Plays the script, and writes the picture."""
    moments: List[Optional[int]] = list(told.at or [None])
    _look_at(told, moments)
    fabrics = fabrics_at(told.program, told.script, moments, "show" if told.own else "wiring")
    panels = [_panel(told, shown, moment) for shown, moment in zip(_shown(told, fabrics), moments)]
    places = layout(fabrics[-1].world, told.layout)
    own = [{name: places[name] for name in fabric.world.bridges} for fabric in fabrics]
    picture = draw(panels, own, f"{os.path.basename(told.script.name)}: {panels[0].title}")
    if told.file == "-":
        sys.stdout.write(picture)
        return 0
    try:
        with open(told.file, "w", encoding="utf-8") as file:
            file.write(picture)
    except OSError as fault:
        raise Unusable(f"{told.file} can't be written: {fault.strerror}") from fault
    return 0


def _look_at(told: argparse.Namespace, moments: List[Optional[int]]) -> None:
    """Raises Unusable where a moment lacks what is asked for."""
    for moment in moments:
        world = told.script.world(moment)
        if told.isid is not None and told.isid not in world.isids:
            raise Unusable(f"{told.script.name} declares no service {told.isid} up to {_moment_of(told.script, moment)}")
        if told.isid is not None and not world.members(told.isid):
            raise Unusable(f"the service {told.isid} has no member after {_moment_of(told.script, moment)}")
        if told.source is not None:
            named(told.script, world, told.source)
        if told.vid is not None and told.vid not in world.vids:
            raise Unusable(f"{told.script.name} declares no base VID {told.vid}")


def _moment_of(script: Script, moment: Optional[int]) -> str:
    return f"line {moment if moment is not None else len(script.lines)}"


def _shown(told: argparse.Namespace, fabrics: List[Fabric]) -> List[Panel]:
    """The panels, but for what each has of its moment."""
    if told.isid is not None:
        return [_tree_panel(fabric, told.isid, told.source) for fabric in fabrics]
    if told.load:
        return _load_panels(fabrics, told.vid)
    return [_plain_panel(fabric.world) for fabric in fabrics]


def _panel(told: argparse.Namespace, panel: Panel, moment: Optional[int]) -> Panel:
    """A panel, with its title, its moment, and the links that are down."""
    panel.title = told.title or panel.title
    panel.notes.insert(
        0,
        (
            f"{os.path.basename(told.script.name)}, after {_moment_of(told.script, moment)}"
            + (", by the bridges' own tables" if told.own else "")
            + _last_event(told.script, moment),
            _GREY,
        ),
    )
    for link in panel.world.links.values():
        if not link.is_up:
            panel.links[link.name] = DOWN
    return panel


def _last_event(script: Script, moment: Optional[int]) -> str:
    """The line behind which a moment is, where somebody chose it."""
    if moment is None:
        return ""
    line = script.lines[moment - 1]
    return f": {line.shown}" if line.keyword and len(line.shown) <= 40 else ""


# The fabric as it is


def _plain_panel(world: World) -> Panel:
    edges = {bridge for bridge, _ in world.attached}
    panel = Panel(world, f"{counted(len(world.bridges), 'bridge')}, {counted(len(world.links), 'link')}")
    panel.bridges = {name: EDGE if name in edges else PLAIN for name in world.bridges}
    metrics = {metric for link in world.links.values() for metric in link.metric.values()}
    if len(metrics) == 1:
        panel.notes.append((f"each link has the metric {metrics.pop()}", _GREY))
    elif len(world.links) <= _MOST_LABELS:
        panel.links = {link.name: LINK._replace(label=_metrics(link.metric)) for link in world.links.values()}
        panel.notes.append(("at each link its metric (end a/end b where they differ)", _GREY))
    return panel


def _metrics(metric: Dict[str, int]) -> str:
    return str(metric["a"]) if metric["a"] == metric["b"] else f"{metric['a']}/{metric['b']}"


# A service's tree


def _tree_panel(fabric: Fabric, isid: int, source: Optional[str]) -> Panel:
    world = fabric.world
    members = world.members(isid)
    source = source or (world.senders(isid) or members)[0]
    vid = world.isids[isid][0]
    tree = fabric.tree(source, isid, vid)
    panel = Panel(world, f"service {isid} from {source}, in VID {vid}")
    receivers = world.receivers(isid)
    others = [bridge for bridge in receivers if bridge != source]
    kind = "other member" if receivers == members else "other receiving member"
    reached = f"{len(tree.reached)} of {counted(len(others), kind)} reached"
    panel.notes.append((reached, _RED if tree.missed else _GREY))
    if tree.missed:
        panel.notes.append(
            (f"not reached: {', '.join(tree.missed[:6])}" + (" .." if len(tree.missed) > 6 else ""), _RED)
        )
    for fault in tree.faults[:3]:
        panel.notes.append((f"ends at {fault.bridge}: {fault.reason}", _RED))
    panel.bridges = _tree_looks(tree, members)
    lost = {fault.link for fault in tree.faults}
    for hop in tree.hops:
        panel.links[hop.link] = (LOST if hop.link in lost else TREE)._replace(head=hop.head)
    return panel


def _tree_looks(tree: Tree, members: List[str]) -> Dict[str, Look]:
    looks = {hop.head: TRANSIT for hop in tree.hops}
    looks.update({bridge: MEMBER for bridge in members})
    looks.update({bridge: MISSED for bridge in tree.missed})
    looks[tree.source] = SOURCE
    return looks


# Links as wide as what uses them


def _load_panels(fabrics: List[Fabric], vid: Optional[int]) -> List[Panel]:
    """The panels, whose widths have one measure."""
    surveys = [Survey.of(fabric) for fabric in fabrics]
    loads = [survey.load if vid is None else survey.load_in(vid) for survey in surveys]
    most = max((max(load.values(), default=0) for load in loads), default=0)
    return [_load_panel(survey, load, most, vid) for survey, load in zip(surveys, loads)]


def _load_panel(survey: Survey, load: "Counter[str]", most: int, vid: Optional[int]) -> Panel:
    world = survey.fabric.world
    panel = Panel(world, "ways over each link, " + ("all base VIDs" if vid is None else f"VID {vid}"))
    edges = {bridge for bridge, _ in world.attached}
    panel.bridges = {name: EDGE if name in edges else PLAIN for name in world.bridges}
    up = [link.name for link in world.links.values() if link.is_up]
    for name in up:
        panel.links[name] = load_stroke(load[name], most, len(world.links) <= _MOST_LABELS)
    idle = sum(not load[name] for name in up)
    greatest = max(load.values(), default=0)
    full = [name for name in up if load[name] == greatest and greatest]
    panel.notes.append((_fullest(full, greatest) + f"; {idle} of {len(up)} links idle", _GREY))
    cut = [way for way in survey.ways.values() if way.fault and vid in (None, way.vid)]
    if cut:
        panel.notes.append((f"{counted(len(cut), 'way')} of {len(survey.ways)} cut", _RED))
    return panel


def _fullest(full: List[str], most: int) -> str:
    if not full:
        return "no link is used"
    who = full[0] if len(full) == 1 else f"{full[0]} and {len(full) - 1} more"
    return f"fullest: {who} with {counted(most, 'way')}"
