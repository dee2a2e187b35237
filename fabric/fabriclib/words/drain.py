"""The lines by which traffic leaves a bridge, before it restarts: at its ends its links get the greatest metric. The
cost of a link is the greater of its two metrics, so one end is enough. Put `settle` behind them, and restart the
bridge; `undrain` brings the traffic back."""
from __future__ import annotations

import argparse

from fabriclib.language import GREATEST_METRIC
from fabriclib.maintenance import add_bridge_arguments, bridge_of, write


def add_arguments(parser: argparse.ArgumentParser) -> None:
    """The word's own arguments."""
    add_bridge_arguments(parser)


def run(told: argparse.Namespace) -> int:
    """Writes the lines."""
    world = bridge_of(told)
    ends = ((link, link.end_at(told.bridge)) for link in world.links_of(told.bridge))
    write(
        told,
        [f"metric {link.name} {end} {GREATEST_METRIC}" for link, end in ends if link.metric[end] != GREATEST_METRIC],
    )
    return 0
