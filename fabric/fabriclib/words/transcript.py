"""A script with each answer under its line: names for addresses and for the neighbours behind ports, and behind each
event the second and whether the network is quiet then. A second is a round of the script."""
from __future__ import annotations

import argparse
import json
from typing import Dict, Iterator, List, NamedTuple, Optional, Tuple

from fabriclib import language
from fabriclib.naming import Names
from fabriclib.play import Refused, Tape, play, settled_rounds
from fabriclib.script import Line, World
from fabriclib.terminal import paint


class Entry(NamedTuple):
    """A line of the script, its answers with what each says, the second, and the state after an event."""

    line: Line
    answers: List[Tuple[str, Optional[str]]]
    second: int
    state: Optional[str]


def add_arguments(parser: argparse.ArgumentParser) -> None:
    """The word's own arguments."""
    parser.add_argument("script", metavar="SCRIPT", help="a script, or - for standard input")
    parser.add_argument("--json", action="store_true", help="one record for each line of the script")


def run(told: argparse.Namespace) -> int:
    """Plays the script, and shows it with its answers."""
    tape, places, states = _tape(told.script.lines)
    answers: Dict[int, List[str]] = {}
    refused: Optional[Refused] = None
    try:
        for answer in play(told.program, tape):
            answers[answer.place] = answer.texts()
    except Refused as fault:
        refused = fault
    last = refused.origin.number if refused and refused.origin else None
    shown = list(_entries(told.script.lines[:last], places, states, answers))
    if told.json:
        print(json.dumps([_record(entry) for entry in shown], indent=1))
    else:
        _show(shown)
    if refused:
        raise refused
    return 0


def _tape(lines: List[Line]) -> Tuple[Tape, Dict[int, int], Dict[int, int]]:
    """The lines, with a question of the state behind each event, which keeps the answers of events apart; and for each
    line's number the index where it is played and that of its question."""
    tape, places, states = Tape(), {}, {}
    for line in lines:
        places[line.number] = len(tape.texts)
        tape.script([line])
        if line.keyword in language.EVENTS:
            states[line.number] = tape.add("state")
    return tape, places, states


def _entries(
    lines: List[Line], places: Dict[int, int], states: Dict[int, int], answers: Dict[int, List[str]]
) -> Iterator[Entry]:
    world = World()
    for line in lines:
        world.apply(line)
        own = answers.get(places[line.number], [])
        if line.keyword == "settle" and own:
            world.seconds += settled_rounds(own)
        state = answers.get(states.get(line.number, -1), [""])[0]
        names = Names(world, line.words[1] if len(line.words) > 1 else "") if own else None
        told = [(text, names.note(text) if names else None) for text in own]
        yield Entry(line, told, world.seconds, state[6:] if state else None)


def _record(entry: Entry) -> Dict[str, object]:
    return {
        "line": entry.line.number,
        "text": entry.line.shown,
        "second": entry.second,
        "state": entry.state,
        "answers": [{"text": text, "says": says} for text, says in entry.answers],
    }


def _show(entries: List[Entry]) -> None:
    width = len(str(len(entries)))
    for entry in entries:
        number = paint(str(entry.line.number).rjust(width), "dim")
        text = entry.line.shown
        print(f"{number}  {paint(text, 'bold') if entry.line.keyword else paint(text, 'dim')}".rstrip())
        indent = " " * (width + 4)
        column = max((len(own) for own, says in entry.answers if says), default=0)
        for own, says in entry.answers:
            print(f"{indent}{own.ljust(column)}  {paint(says, 'blue')}" if says else f"{indent}{own}")
        if entry.state is not None:
            state = paint(entry.state, "green" if entry.state == "quiet" else "yellow")
            print(f"{indent}second {entry.second}: {state}")
