"""How long `report --n-1` takes on large fabrics."""
from __future__ import annotations

import os
import random
import tempfile
import time
from typing import FrozenSet, Iterator, List, Set

from fabriclib.tests.bench import Bench


def made(bridges: int, links: int) -> str:
    """A fabric by chance, the same each time: a ring, and links across."""
    chance = random.Random(bridges)
    joined: Set[FrozenSet[int]] = set()
    ends: List[List[int]] = []
    ports = [0] * bridges
    for number in range(links):
        a, b = (number, (number + 1) % bridges) if number < bridges else chance.sample(range(bridges), 2)
        while frozenset((a, b)) in joined or max(ports[a], ports[b]) >= 32:
            a, b = chance.sample(range(bridges), 2)
        joined.add(frozenset((a, b)))
        ports[a] += 1
        ports[b] += 1
        ends.append([a, ports[a], b, ports[b], chance.choice((10, 20, 40))])
    lines = ["vid 10 1"]
    lines += [f"bridge b{n} 32768 0200000000{n + 1:02x} {n + 1:05x} {ports[n]}" for n in range(bridges)]
    lines += [f"link l{n} b{a} {pa} b{b} {pb} {cost}" for n, (a, pa, b, pb, cost) in enumerate(ends)]
    for service in range(20):
        lines.append(f"isid {100 + service} 10")
        lines += [f"attach b{n} {service + 1} {100 + service}" for n in chance.sample(range(bridges), 6)]
    return "\n".join(lines) + "\n"


def run(bench: Bench) -> Iterator[str]:
    """What takes too long."""
    with tempfile.TemporaryDirectory() as folder:
        for bridges, links, most in ((48, 200, 5), (96, 400, 30)):
            path = os.path.join(folder, "fabric.spb")
            with open(path, "w", encoding="utf-8") as file:
                file.write(made(bridges, links))
            begun = time.monotonic()
            told = bench.fabric("report", path, "--n-1")
            took = time.monotonic() - begun
            print(f"  report --n-1 of {bridges} bridges and {links} links: {took:.1f} seconds")
            if told.status != 0 or took > most:
                yield f"{bridges} bridges and {links} links: status {told.status}, {took:.1f} seconds, not {most}"
