"""The entry: which word is called, and with which exit status it ends."""
from __future__ import annotations

import argparse
import importlib
import os
import sys
from typing import List

from fabriclib.explaining import explain
from fabriclib.play import NoAnswer, Refused, default_program
from fabriclib.script import Script, Unusable
from fabriclib.terminal import say

# Each word, its module, and what it does.
WORDS = (
    ("transcript", "transcript", "a script with each answer under its line, in names"),
    ("explain", "explain", "why a script is refused: the line, what it clashes with, and its form"),
    ("report", "report", "how VIDs, links and spines share the load; with --n-1, what each failure takes"),
    ("timeline", "timeline", "second by second after an event: who lags, what is lost, when it is quiet"),
    ("draw", "draw", "the fabric as a picture: a service's tree, or links as wide as what uses them"),
    ("import", "importing", "declarations from containerlab YAML, a CSV of links, or GraphML"),
    ("node-down", "node_down", "the lines by which a bridge fails"),
    ("drain", "drain", "the lines by which traffic leaves a bridge"),
    ("undrain", "undrain", "the lines by which it comes back"),
)

OK, REFUSED, USAGE, NO_ANSWER = 0, 1, 2, 3

_ENDING = """exit status: 0 done; 1 the script was refused, as is then said in words; 2 usage; 3 the program gave no
whole answer. No word computes a path: lines are played through the program in one run, and its rows are followed."""


def _parser(called: str) -> argparse.ArgumentParser:
    """The parser of the entry; of the words only that which is called is loaded."""
    parser = argparse.ArgumentParser(
        prog="fabric", description="Answers of spbsim in services, links and names.", epilog=_ENDING
    )
    words = parser.add_subparsers(dest="word", metavar="WORD", required=True)
    for word, module, purpose in WORDS:
        if word != called:
            words.add_parser(word, help=purpose)
            continue
        loaded = importlib.import_module(f"fabriclib.words.{module}")
        own = words.add_parser(
            word,
            help=purpose,
            description=(loaded.__doc__ or "").strip(),
            epilog=_ENDING,
            formatter_class=argparse.RawDescriptionHelpFormatter,
        )
        loaded.add_arguments(own)
        own.add_argument(
            "--program",
            default=None,
            metavar="P",
            help="the program to play lines through (the repository's ./spbsim where none is given)",
        )
        own.set_defaults(run=loaded.run)
    return parser


def main(words: List[str]) -> int:
    """Runs a word; the exit status."""
    told = _parser(words[0] if words else "").parse_args(words)
    told.program = told.program or default_program()
    try:
        if "script" in told:
            told.script = Script.read(told.script)
        status = int(told.run(told))
        sys.stdout.flush()
        return status
    except Refused as refused:
        print("\n".join(explain(refused, told.script)), file=sys.stderr)
        return REFUSED
    except Unusable as fault:
        say(str(fault))
        return USAGE
    except NoAnswer as fault:
        say(str(fault))
        return NO_ANSWER
    except BrokenPipeError:
        os.dup2(os.open(os.devnull, os.O_WRONLY), sys.stdout.fileno())
        return OK
    except KeyboardInterrupt:
        return 130
