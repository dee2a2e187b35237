"""Declarations from a topology: containerlab YAML, a CSV of links, or GraphML (as the Topology Zoo has it). Standard
error tells what was shortened, left out or past a limit.

A CSV has a line for each link: A,B or A,B,METRIC or A,PORT,B,PORT or A,PORT,B,PORT,METRIC; or a first line with the
names of its columns (a, b, metric; source, target, cost ..). Ports are numbered anew in the order of the links."""
from __future__ import annotations

import argparse
import fnmatch
import re
import sys
import unicodedata
from typing import Dict, FrozenSet, List, Optional, Set

from fabriclib.language import GREATEST_METRIC, LIMITS
from fabriclib.script import Unusable
from fabriclib.terminal import counted, say
from fabriclib.topology import Edge, Topology, read


def add_arguments(parser: argparse.ArgumentParser) -> None:
    """The word's own arguments."""
    parser.add_argument("file", metavar="FILE", help="the topology")
    parser.add_argument(
        "--format",
        choices=("auto", "containerlab", "csv", "graphml"),
        default="auto",
        help="what the file is (by its ending where none is given)",
    )
    parser.add_argument(
        "--vids", default="10", metavar="V,V ..", help="base VIDs, with the ECT algorithms 1, 2 and so on (10)"
    )
    parser.add_argument(
        "--metric", type=int, default=10, metavar="M", help="the metric of a link of which none is told (10)"
    )
    parser.add_argument(
        "--priority", type=int, default=32768, metavar="PRIO", help="the priority of all bridges (32768)"
    )
    parser.add_argument(
        "--isid",
        type=int,
        metavar="I",
        help="declare a service in the first base VID, with customer port 1 of bridges as members",
    )
    parser.add_argument(
        "--members", default="*", metavar="PATTERN", help="which bridges are its members, as 'leaf*' (all)"
    )


def run(told: argparse.Namespace) -> int:
    """Reads the topology, and writes declarations."""
    vids = _vids(told)
    topology = read(told.file, told.format)
    notes = list(topology.notes)
    names = _names(topology, notes)
    edges = _edges(topology, names, notes)
    lines = [f"vid {vid} {ect}" for ect, vid in enumerate(vids, 1)]
    lines += _bridges(names, edges, told.priority)
    lines += _links(names, edges, told.metric, notes)
    lines += _service(told, vids[0], list(names.values()), notes)
    for note in notes:
        say(note)
    sys.stdout.write("".join(line + "\n" for line in lines))
    say(
        f"{counted(len(names), 'bridge')} and {counted(len(edges), 'link')}; put `settle` behind them, and they come up"
    )
    return 0


def _vids(told: argparse.Namespace) -> List[int]:
    try:
        vids = [int(word) for word in told.vids.split(",")]
    except ValueError as fault:
        raise Unusable("--vids has numbers with commas, as 10,20") from fault
    if len(set(vids)) < len(vids) or len(vids) > LIMITS["vids"] or not all(1 <= vid <= 4094 for vid in vids):
        raise Unusable("--vids has at most 16 different numbers of 1 to 4094")
    if not 0 <= told.priority <= 65535:
        raise Unusable("--priority is 0 to 65535")
    if not 1 <= told.metric <= GREATEST_METRIC:
        raise Unusable(f"--metric is 1 to {GREATEST_METRIC}")
    if told.isid is not None and not 1 <= told.isid <= 16777215:
        raise Unusable("--isid is 1 to 16777215")
    return vids


# Names


def _names(topology: Topology, notes: List[str]) -> Dict[str, str]:
    """The bridge's name of each node, for as many nodes as a script may have bridges."""
    nodes = list(topology.nodes.items())
    most = LIMITS["bridges"]
    if len(nodes) > most:
        notes.append(
            f"{len(nodes)} nodes: a script has at most {most} bridges, so {len(nodes) - most} are left out, "
            f"from {nodes[most][1]} on"
        )
    taken: Set[str] = set()
    names = {}
    for node, label in nodes[:most]:
        name = _free(_fitting(label), taken)
        taken.add(name)
        names[node] = name
        if name != label:
            notes.append(f"{label} is called {name}")
    return names


def _fitting(label: str) -> str:
    """A name of letters, digits, _ and -, a letter first, of at most 16 characters, which are near to a label."""
    plain = unicodedata.normalize("NFKD", label).encode("ascii", "ignore").decode()
    name = re.sub(r"[^A-Za-z0-9_-]+", "-", plain).strip("-") or "n"
    name = name if name[0].isalpha() else "n" + name
    return name[:16].rstrip("-")


def _free(name: str, taken: Set[str]) -> str:
    """A name that isn't taken: this one, or its front with a number."""
    number, free = 1, name
    while free in taken:
        number += 1
        free = f"{name[:15 - len(str(number))]}-{number}"
    return free


# Links


def _edges(topology: Topology, names: Dict[str, str], notes: List[str]) -> List[Edge]:
    """The links that can be declared; what is left out is told."""
    kept: List[Edge] = []
    joined: Set[FrozenSet[str]] = set()
    ports: Dict[str, int] = {}
    left: Dict[str, List[str]] = {}
    for edge in topology.edges:
        reason = _hindrance(edge, names, joined, ports, len(kept))
        if reason is not None:
            left.setdefault(reason, []).append(f"{edge.where} ({edge.a} to {edge.b})")
            continue
        kept.append(edge)
        joined.add(frozenset((edge.a, edge.b)))
        for end in (edge.a, edge.b):
            ports[end] = ports.get(end, 0) + 1
    for reason, who in left.items():
        notes.append(
            f"{counted(len(who), 'link')} left out, {reason}: {', '.join(who[:4])}" + (" .." if who[4:] else "")
        )
    return kept


def _hindrance(
    edge: Edge, names: Dict[str, str], joined: Set[FrozenSet[str]], ports: Dict[str, int], count: int
) -> Optional[str]:
    """Why a link can't be declared."""
    if edge.a not in names or edge.b not in names:
        return "of bridges that are left out"
    if edge.a == edge.b:
        return "from a bridge to itself"
    if frozenset((edge.a, edge.b)) in joined:
        return "beside another between the same bridges"
    if max(ports.get(edge.a, 0), ports.get(edge.b, 0)) >= LIMITS["ports"]:
        return f"past the {LIMITS['ports']} ports of a bridge"
    return f"past the {LIMITS['links']} links of a script" if count >= LIMITS["links"] else None


def _bridges(names: Dict[str, str], edges: List[Edge], priority: int) -> List[str]:
    ports = {node: sum(node in (edge.a, edge.b) for edge in edges) for node in names}
    return [
        f"bridge {name} {priority} 02{number:010x} {number:05x} {ports[node]}"
        for number, (node, name) in enumerate(names.items(), 1)
    ]


def _links(names: Dict[str, str], edges: List[Edge], usual: int, notes: List[str]) -> List[str]:
    next_port = dict.fromkeys(names, 0)
    taken: Set[str] = set()
    lines = []
    for number, edge in enumerate(edges, 1):
        a, b = names[edge.a], names[edge.b]
        for end in (edge.a, edge.b):
            next_port[end] += 1
        link = _free(f"{a}-{b}" if len(a) + len(b) < 16 else f"l{number}", taken)
        taken.add(link)
        metric = _metric(edge, usual, notes)
        lines.append(f"link {link} {a} {next_port[edge.a]} {b} {next_port[edge.b]} {metric}")
    return lines


def _metric(edge: Edge, usual: int, notes: List[str]) -> int:
    if edge.metric is None:
        return usual
    metric = min(max(edge.metric, 1), GREATEST_METRIC)
    if metric != edge.metric:
        notes.append(f"{edge.where}: the metric {edge.metric} is out of range, and {metric} is taken")
    return metric


def _service(told: argparse.Namespace, vid: int, names: List[str], notes: List[str]) -> List[str]:
    if told.isid is None:
        return []
    members = fnmatch.filter(names, told.members)
    if not members:
        notes.append(f"no bridge is called {told.members}, so the service {told.isid} has no members")
    return [f"isid {told.isid} {vid}", *(f"attach {name} 1 {told.isid}" for name in members)]
