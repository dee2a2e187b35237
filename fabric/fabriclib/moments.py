"""The tables of all bridges, at moments of a script."""
from __future__ import annotations

from typing import Dict, List, Optional, Sequence

from fabriclib.follow import Fabric, Rows, rows_of
from fabriclib.play import Tape, play
from fabriclib.script import Script


def fabrics_at(program: str, script: Script, lines: Sequence[Optional[int]], question: str = "wiring") -> List[Fabric]:
    """Plays a script, and gives the fabric behind each of these lines of it (none is the last), in the order given.

    The question is `wiring`, for the tables that the links as they are call for, or `show`, for those that the bridges
    have by then.
    """
    tape = Tape()
    asked: Dict[int, str] = {}
    tables: Dict[int, Dict[str, Rows]] = {}
    owner: Dict[int, int] = {}
    numbers = [len(script.upto(number)) for number in lines]
    done = 0
    for number in sorted(set(numbers)):
        tape.script(script.lines[done:number])
        done, tables[number] = number, {}
        for bridge in script.world(number).bridges:
            index = tape.add(f"{question} {bridge}")
            asked[index], owner[index] = bridge, number
    for answer in play(program, tape):
        if answer.place in asked:
            tables[owner[answer.place]][asked[answer.place]] = rows_of(answer.lines[1:])
    return [Fabric(script.world(number), tables[number]) for number in numbers]
