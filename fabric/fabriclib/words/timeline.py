"""Second by second after an event, a line of the script: how many bridges have other tables than the links call for,
which ways are lost and why, which services are split, and whether the network is quiet. A second is a round, and second
0 is right behind the line. What is lost also by the tables that the links call for is told once, at the end.

A way is from one edge bridge to another in one base VID. It is followed by the rows of `show`, with the ingress check
of each bridge that it enters."""
from __future__ import annotations

import argparse
import json
from collections import Counter
from dataclasses import dataclass, field
from typing import Any, Callable, Dict, Generator, List, Optional, Tuple

from fabriclib import language
from fabriclib.follow import Fabric, Rows, rows_of
from fabriclib.play import Tape, play
from fabriclib.script import Script, World
from fabriclib.survey import Survey, WayKey
from fabriclib.terminal import counted, paint, table


def add_arguments(parser: argparse.ArgumentParser) -> None:
    """The word's own arguments."""
    parser.add_argument("script", metavar="SCRIPT", help="a script, or - for standard input")
    parser.add_argument(
        "--at", type=int, required=True, metavar="LINE", help="the line of the script after which seconds are counted"
    )
    parser.add_argument(
        "--seconds",
        type=int,
        metavar="N",
        help="look at so many at most (4 for each bridge and 16 where "
        "none is told); it ends where the network is quiet",
    )
    parser.add_argument("--json", action="store_true", help="one record for each second")


# The number of a second, the state, and tables.
Frame = Tuple[int, str, Dict[str, Rows]]


@dataclass
class Second:
    """What holds in a second."""

    number: int
    state: str
    lagging: List[str]
    lost: Dict[WayKey, Tuple[str, str]] = field(default_factory=dict)
    split: Dict[int, List[Tuple[str, str]]] = field(default_factory=dict)
    faults: Dict[int, "Counter[Tuple[str, str]]"] = field(default_factory=dict)


def run(told: argparse.Namespace) -> int:
    """Plays the script up to the line, and the seconds behind it."""
    world = told.script.world(told.at)
    seconds = told.seconds if told.seconds is not None else language.most_settling(len(world.bridges))
    wired, shown = _followed(told.program, told.script, told.at, max(seconds, 0))
    if told.json:
        print(json.dumps([_record(second) for second in shown], indent=1))
    else:
        print("\n".join(_lines(told.script, told.at, world, wired, shown)))
    return 0


def _followed(program: str, script: Script, line: int, seconds: int) -> Tuple[Survey, List[Second]]:
    """What the links call for, and the seconds up to the first that is quiet."""
    world = script.world(line)
    tape = Tape()
    tape.script(script.upto(line))
    asked: Dict[int, Tuple[int, str]] = {}
    for bridge in world.bridges:
        asked[tape.add(f"wiring {bridge}")] = (-1, bridge)
    for second in range(seconds + 1):
        if second:
            tape.add("round 1")
        asked[tape.add("state")] = (second, "")
        for bridge in world.bridges:
            asked[tape.add(f"show {bridge}")] = (second, bridge)
    frames = _frames(program, tape, asked)
    wired = Survey.of(Fabric(world, next(frames)[2]))
    wired.index()
    shown = []
    for number, state, tables in frames:
        shown.append(_second(wired, number, state, tables))
        if state == "quiet":
            break
    frames.close()
    return wired, shown


def _frames(program: str, tape: Tape, asked: Dict[int, Tuple[int, str]]) -> Generator[Frame, None, None]:
    """For each second its number, the state, and the tables that aren't those of the wiring; -1 is the wiring."""
    raw: Dict[str, List[bytes]] = {}
    current, state = -1, ""
    tables: Dict[str, Rows] = {}
    for answer in play(program, tape):
        if answer.place not in asked:
            continue
        second, bridge = asked[answer.place]
        if second != current:
            yield current, state, tables
            current, tables = second, {}
        if not bridge:
            state = answer.texts()[0][6:]
            continue
        rows = answer.lines[1:]
        if second == -1:
            raw[bridge] = rows
        if second == -1 or raw[bridge] != rows:
            tables[bridge] = rows_of(rows)
    yield current, state, tables


def _second(wired: Survey, number: int, state: str, tables: Dict[str, Rows]) -> Second:
    change = wired.after(tables, frozenset())
    second = Second(number, state, list(tables))
    for key, way in sorted(change.ways.items()):
        if way.fault is not None and wired.ways[key].fault is None:
            second.lost[key] = (way.fault, way.at)
    for (source, isid, vid), tree in sorted(change.trees.items()):
        missed = set(tree.missed) - set(wired.trees[source, isid, vid].missed)
        if missed:
            second.split.setdefault(isid, []).extend((source, bridge) for bridge in sorted(missed))
            second.faults.setdefault(isid, Counter()).update((fault.reason, fault.bridge) for fault in tree.faults)
    return second


# What is shown


def _lines(script: Script, line: int, world: World, wired: Survey, shown: List[Second]) -> List[str]:
    edges = len(world.edges())
    lines = [
        f"{script.name}:{line}: {script.lines[line - 1].shown}",
        f"{counted(len(wired.ways), 'way')} of {counted(edges, 'edge bridge')} in "
        f"{counted(len(world.vids), 'base VID')}, {counted(len(world.isids), 'service')}",
        "",
    ]
    rows = [["second", "lag", "ways lost", "where", "services split", "state"]]
    rows += [
        [str(own.number), str(len(own.lagging)), str(len(own.lost)), _where(own), _split(own), own.state]
        for own in shown
    ]
    colours = ["bold"] + [_colour(own) for own in shown]
    lines += [paint(text, colour) for text, colour in zip(table(rows, right=(0, 1, 2)), colours)]
    return lines + [""] + _summary(wired, shown)


def _colour(second: Second) -> str:
    if second.lost or second.split:
        return "red"
    return "yellow" if second.lagging else "green"


def _where(second: Second) -> str:
    """Where ways end and why, the most frequent first."""
    counts = Counter(second.lost.values())
    told = [f"{count} at {bridge} ({reason})" for (reason, bridge), count in counts.most_common(2)]
    return ", ".join(told) + (f" and {len(counts) - 2} more" if len(counts) > 2 else "") or "-"


def _split(second: Second) -> str:
    """The services that are split, how many members don't reach each other, and where most of it is lost."""
    told = [f"{isid} ({len(pairs)})" for isid, pairs in second.split.items()]
    faults: "Counter[Tuple[str, str]]" = Counter()
    for counts in second.faults.values():
        faults.update(counts)
    where = "".join(f", most at {bridge} ({reason})" for (reason, bridge), _ in faults.most_common(1))
    return ", ".join(told[:4]) + (f" and {len(told) - 4} more" if len(told) > 4 else "") + where or "-"


def _first(shown: List[Second], holds: Callable[[Second], bool]) -> Optional[int]:
    """The first second from which on something holds to the end."""
    first = None
    for second in shown:
        if not holds(second):
            first = None
        elif first is None:
            first = second.number
    return first


def _summary(wired: Survey, shown: List[Second]) -> List[str]:
    told = []
    for words, holds in (
        ("nothing is lost", lambda own: not own.lost and not own.split),
        ("all tables are those of the wiring", lambda own: not own.lagging),
        ("the network is quiet", lambda own: own.state == "quiet"),
    ):
        first = _first(shown, holds)
        told.append(
            f"{words} from second {first} on"
            if first is not None
            else f"not within {counted(len(shown) - 1, 'second')}: {words}"
        )
    cut = [way for way in wired.ways.values() if way.fault]
    if cut:
        told.append(paint(f"{counted(len(cut), 'way')} cut by the links as they are, and not counted above", "red"))
    missed = sorted({isid for (_, isid, _), tree in wired.trees.items() if tree.missed})
    if missed:
        told.append(paint("services split by the links as they are: " + ", ".join(map(str, missed)), "red"))
    return told


def _record(second: Second) -> Dict[str, Any]:
    return {
        "second": second.number,
        "state": second.state,
        "lag": second.lagging,
        "lost": [[*key, reason, at] for key, (reason, at) in second.lost.items()],
        "split": {str(isid): pairs for isid, pairs in second.split.items()},
        "faults": {
            str(isid): [[*fault, count] for fault, count in counts.items()] for isid, counts in second.faults.items()
        },
    }
