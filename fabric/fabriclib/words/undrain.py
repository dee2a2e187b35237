"""The lines by which traffic comes back to a bridge: at its ends its links get the metrics that the script gave them
last, but for the greatest, by which `drain` marks them."""
from __future__ import annotations

import argparse

from fabriclib.maintenance import add_bridge_arguments, bridge_of, write


def add_arguments(parser: argparse.ArgumentParser) -> None:
    """The word's own arguments."""
    add_bridge_arguments(parser)


def run(told: argparse.Namespace) -> int:
    """Writes the lines."""
    world = bridge_of(told)
    ends = ((link, link.end_at(told.bridge)) for link in world.links_of(told.bridge))
    write(told, [f"metric {link.name} {end} {world.usual_metric[link.name, end]}" for link, end in ends])
    return 0
