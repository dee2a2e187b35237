"""How base VIDs, links and transit bridges share the load, and which links are idle. With --n-1, what each failure of
a link or of a bridge takes: the pairs that are cut, the services that lose members, and the fullest link then.

A way is from one edge bridge (one with a customer port; any, where none has) to another in one base VID; there and back
are two. It is followed by the rows of `wiring`: the tables that the links as they are call for."""
from __future__ import annotations

import argparse
import json
from typing import Any, Dict, List, Tuple

from fabriclib.failures import Rehearsal, Toll, failures_of, toll
from fabriclib.follow import Fabric
from fabriclib.script import World
from fabriclib.survey import Survey
from fabriclib.terminal import counted, paint, table


def add_arguments(parser: argparse.ArgumentParser) -> None:
    """The word's own arguments."""
    parser.add_argument("script", metavar="SCRIPT", help="a script, or - for standard input")
    parser.add_argument(
        "--at",
        type=int,
        metavar="LINE",
        help="the network after this line of the script (its last where none is given)",
    )
    parser.add_argument("--n-1", action="store_true", dest="n_1", help="each link and each bridge fails in turn")
    parser.add_argument("--all", action="store_true", help="with --n-1 tell of each failure, also where nothing is cut")
    parser.add_argument("--json", action="store_true", help="the tables as a record")


def run(told: argparse.Namespace) -> int:
    """Plays the script and the failures, and tells of them."""
    world = told.script.world(told.at)
    failures = failures_of(world) if told.n_1 else []
    rehearsal = Rehearsal(told.script, told.at, failures)
    played = rehearsal.played(told.program)
    survey = Survey.of(Fabric(world, next(played)[1]))
    if failures:
        survey.index()
    tolls = [
        toll(failures[number], survey, survey.after(changed, frozenset(failures[number].links)))
        for number, changed in played
    ]
    if told.json:
        print(json.dumps(_record(survey, tolls, told.n_1), indent=1))
        return 0
    print("\n".join(_report(survey)))
    if told.n_1:
        print("\n".join([""] + _failures(survey, tolls, told.all)))
    return 0


# The fabric as it is


def _report(survey: Survey) -> List[str]:
    world = survey.fabric.world
    parts = [_heading(world, survey), _by_bridge(survey), _by_link(survey), _services(survey)]
    return [line for part in parts if part for line in part + [""]][:-1]


def _heading(world: World, survey: Survey) -> List[str]:
    up = sum(link.is_up for link in world.links.values())
    down = len(world.links) - up
    lines = [
        f"{counted(len(world.bridges), 'bridge')}, {counted(up, 'link')} up"
        + (f" and {down} down" if down else "")
        + f", {counted(len(world.vids), 'base VID')}, {counted(len(world.isids), 'service')}; "
        + (
            f"{len(world.edges())} of the bridges have customer ports"
            if world.attached
            else "no customer port is attached, so each bridge is an edge"
        )
    ]
    cut = [way for way in survey.ways.values() if way.fault]
    if cut:
        pairs = {frozenset((way.source, way.target)) for way in cut}
        lines.append(paint(f"CUT: {counted(len(pairs), 'pair')} of edge bridges, in {counted(len(cut), 'way')}", "red"))
    return lines


def _by_bridge(survey: Survey) -> List[str]:
    world, passed = survey.fabric.world, survey.passed()
    edges = set(world.edges()) if world.attached else set()
    shown = [
        name
        for name in world.bridges
        if sum(passed[name].values()) or (name not in edges and sum(link.is_up for link in world.links_of(name)) > 1)
    ]
    if not world.vids or not shown:
        return []
    rows = [["ways that pass", *(f"VID {vid}" for vid in world.vids), "all"]]
    for name in shown:
        total = sum(passed[name].values())
        rows.append([name, *(str(passed[name][vid]) for vid in world.vids), str(total)])
    edges_count = len(world.edges())
    lines = table(rows, right=range(1, len(world.vids) + 2))
    lines = [
        line if not line.endswith(" 0") or number == 0 else paint(line + "   carries nothing", "yellow")
        for number, line in enumerate(lines)
    ]
    return lines + [f"each VID has {counted(edges_count * (edges_count - 1), 'way')}"]


def _by_link(survey: Survey) -> List[str]:
    world, services = survey.fabric.world, survey.services_on()
    up = [link.name for link in world.links.values() if link.is_up]
    if not up:
        return []
    by_vid = {vid: survey.load_in(vid) for vid in world.vids}
    full = sorted(up, key=lambda name: -survey.load[name])[:8]
    rows = [["fullest links", "between", *(f"VID {vid}" for vid in world.vids), "all ways", "services"]]
    for name in full:
        link = world.links[name]
        rows.append(
            [
                name,
                f"{link.a} {link.b}",
                *(str(by_vid[vid][name]) for vid in world.vids),
                str(survey.load[name]),
                str(len(services[name])),
            ]
        )
    idle = [name for name in up if not survey.load[name] and not services[name]]
    lines = table(rows, right=range(2, len(world.vids) + 4))
    lines.append(
        f"of {counted(len(up), 'link')} that are up, {len(idle)} idle" + (f": {_some(idle, 12)}" if idle else "")
    )
    return lines


def _some(names: List[str], most: int) -> str:
    return ", ".join(names[:most]) + (f" and {len(names) - most} more" if len(names) > most else "")


def _services(survey: Survey) -> List[str]:
    world = survey.fabric.world
    if not world.isids:
        return []
    rows = [["service", "VID", "members", "lost"]]
    for isid, (vid, _) in world.isids.items():
        lost = _losses(survey, isid)
        rows.append([str(isid), str(vid), str(len(world.members(isid))), _losing(lost) if lost else "-"])
    lines = table(rows)
    return [line if line.endswith(" -") or number == 0 else paint(line, "red") for number, line in enumerate(lines)]


def _losses(survey: Survey, isid: int) -> List[Tuple[str, str]]:
    return [
        (source, bridge) for (source, own, _), tree in survey.trees.items() if own == isid for bridge in tree.missed
    ]


def _losing(lost: List[Tuple[str, str]]) -> str:
    """Who doesn't reach whom, in a few words."""
    by_source: Dict[str, List[str]] = {}
    for source, bridge in lost:
        by_source.setdefault(source, []).append(bridge)
    told = [f"{source} reaches not {_some(bridges, 3)}" for source, bridges in by_source.items()]
    return "; ".join(told[:2]) + (f"; and from {len(told) - 2} more" if len(told) > 2 else "")


# What each failure takes


def _failures(survey: Survey, tolls: List[Toll], all_of_them: bool) -> List[str]:
    lines: List[str] = []
    for kind in ("link", "bridge"):
        own = [each for each in tolls if each.failure.kind == kind]
        bad = [each for each in own if each.pairs or each.lost]
        lines.append(
            f"one {kind} fails: {counted(len(own), 'case')}, "
            + (paint(f"{len(bad)} cut pairs or services", "red") if bad else paint("none cuts anything", "green"))
        )
        shown = own if all_of_them else bad
        if shown:
            lines += _toll_table(shown, kind)
        worst = sorted((each for each in own if each.fullest), key=lambda each: -(each.fullest or ("", 0))[1])[:3]
        if worst and not all_of_them:
            lines.append("fullest then: " + "; ".join(_fullest(each) for each in worst) + f" (now {_now(survey)})")
        lines.append("")
    return lines[:-1]


def _toll_table(tolls: List[Toll], kind: str) -> List[str]:
    rows = [[kind, "pairs cut", "ways moved", "fullest link", "its ways", "services (members lost, each way)"]]
    for each in tolls:
        name, ways = each.fullest or ("-", 0)
        lost = ", ".join(f"{isid} ({len(pairs)})" for isid, pairs in each.lost.items())
        rows.append([each.failure.name, str(len(each.pairs)), str(each.moved), name, str(ways), lost or "-"])
    return table(rows, right=(1, 2, 4))


def _fullest(each: Toll) -> str:
    name, ways = each.fullest or ("", 0)
    return f"{name} with {ways} where {each.failure.name} fails"


def _now(survey: Survey) -> str:
    name, ways = max(survey.load.items(), key=lambda item: item[1], default=("-", 0))
    return f"{name} with {ways}"


# As a record


def _record(survey: Survey, tolls: List[Toll], has_tolls: bool) -> Dict[str, Any]:
    world, passed, services = survey.fabric.world, survey.passed(), survey.services_on()
    by_vid = {vid: survey.load_in(vid) for vid in world.vids}
    record: Dict[str, Any] = {
        "edges": world.edges(),
        "cut": [[way.source, way.target, way.vid, way.fault] for way in survey.ways.values() if way.fault],
        "bridges": [
            {"name": name, "passed": {str(vid): passed[name][vid] for vid in world.vids}} for name in world.bridges
        ],
        "links": [
            {
                "name": link.name,
                "ends": [link.a, link.b],
                "up": link.is_up,
                "ways": {str(vid): by_vid[vid][link.name] for vid in world.vids},
                "services": sorted(services[link.name]),
            }
            for link in world.links.values()
        ],
        "services": [
            {"isid": isid, "vid": vid, "members": world.members(isid), "lost": _losses(survey, isid)}
            for isid, (vid, _) in world.isids.items()
        ],
    }
    if has_tolls:
        record["failures"] = [_toll_record(each) for each in tolls]
    return record


def _toll_record(each: Toll) -> Dict[str, Any]:
    return {
        "kind": each.failure.kind,
        "name": each.failure.name,
        "pairs_cut": each.pairs,
        "ways_cut": each.ways,
        "ways_moved": each.moved,
        "services": {str(isid): pairs for isid, pairs in each.lost.items()},
        "fullest": each.fullest,
    }
