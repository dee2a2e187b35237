"""What the words that write lines for one bridge share."""
from __future__ import annotations

import argparse
import difflib
import sys
from typing import List

from fabriclib.script import Script, Unusable, World
from fabriclib.terminal import say


def add_bridge_arguments(parser: argparse.ArgumentParser) -> None:
    """A bridge, the script that declares it, and from which line on the lines are to stand."""
    parser.add_argument("bridge", metavar="B", help="the bridge")
    parser.add_argument("script", metavar="SCRIPT", help="the script that declares it, or - for standard input")
    parser.add_argument(
        "--at",
        type=int,
        metavar="LINE",
        help="as the network stands after this line of the script (its last where none is given)",
    )
    parser.add_argument("--whole", action="store_true", help="write the script's lines up to there before")


def bridge_of(told: argparse.Namespace) -> World:
    """What is declared behind the line that is told; Unusable where the bridge isn't among it."""
    world: World = told.script.world(told.at)
    named(told.script, world, told.bridge)
    return world


def named(script: Script, world: World, bridge: str) -> None:
    """Raises Unusable where no bridge of this name is declared."""
    if bridge not in world.bridges:
        close = difflib.get_close_matches(bridge, world.bridges, 1, 0.5)
        raise Unusable(f"{script.name} declares no bridge {bridge}" + (f"; is {close[0]} meant?" if close else ""))


def write(told: argparse.Namespace, lines: List[str]) -> None:
    """Writes the lines, behind those of the script where that is asked."""
    before = [line.text for line in told.script.upto(told.at)] if told.whole else []
    sys.stdout.buffer.write("".join(text + "\n" for text in before + lines).encode("latin-1"))
    if not lines:
        say(f"there is nothing to do for {told.bridge}")
