"""Why a script is refused: FILE:LINE:COLUMN, the line with a caret, what it clashes with and where that was declared,
and the form of the line. Where every line is accepted, it says so."""
from __future__ import annotations

import argparse
import json

from fabriclib.explaining import explain
from fabriclib.play import Refused, Tape, play
from fabriclib.terminal import counted, paint


def add_arguments(parser: argparse.ArgumentParser) -> None:
    """The word's own arguments."""
    parser.add_argument("script", metavar="SCRIPT", help="a script, or - for standard input")
    parser.add_argument("--json", action="store_true", help="the refusal as a record")


def run(told: argparse.Namespace) -> int:
    """Plays the script, and tells of its refusal."""
    tape = Tape()
    tape.script(told.script.lines)
    try:
        for _ in play(told.program, tape):
            pass
    except Refused as refused:
        lines = explain(refused, told.script)
        if told.json:
            number = refused.origin.number if refused.origin else None
            print(json.dumps({"file": told.script.name, "line": number, "reason": refused.reason, "text": lines}))
        else:
            print("\n".join([paint(lines[0], "red"), *lines[1:]]))
        return 1
    if told.json:
        print(json.dumps({"file": told.script.name, "line": None, "reason": None, "text": []}))
    else:
        print(f"{told.script.name}: all of {counted(len(told.script.lines), 'line')} are accepted")
    return 0
