"""The lines by which a bridge fails: `down` for each of its links that is up, as the script leaves it. Put them behind
the script, and `settle` behind them."""
from __future__ import annotations

import argparse

from fabriclib.maintenance import add_bridge_arguments, bridge_of, write


def add_arguments(parser: argparse.ArgumentParser) -> None:
    """The word's own arguments."""
    add_bridge_arguments(parser)


def run(told: argparse.Namespace) -> int:
    """Writes the lines."""
    world = bridge_of(told)
    write(told, [f"down {link.name}" for link in world.links_of(told.bridge) if link.is_up])
    return 0
