#!/usr/bin/python3
"""Compares `wiring` of all bridges with igraph's shortest paths from all of them, in processor time.

    bench/igraph_paths.py [PROGRAM]

The graph is one: 96 bridges and 400 links. The program's time is that of a whole run, with its start, the reading of
the script and the writing of all tables. Of igraph, a library in C, only its calls are measured, one for each source
with the costs of all links (python3-igraph of Debian): for all shortest paths, among which a bridge has to choose as
all others do, and for any one of them. All run by turns, and the least and the middle of so many runs are told, in
milliseconds.
"""
import statistics
import sys
import time

from fabrics import mesh, wired
from measuring import BUILT, Script, help_asked, measure, need

try:
    import igraph
except ImportError:
    print("igraph_paths.py: python3-igraph isn't there (Debian's package of that name)", file=sys.stderr)
    sys.exit(2)

BRIDGES, LINKS, RUNS = 96, 400, 40


def script():
    """The declarations, and a question for the wiring's tables of each bridge."""
    return [*wired(BRIDGES, mesh(BRIDGES, LINKS)), *(f"wiring b{k}" for k in range(1, BRIDGES + 1))]


def costs():
    """The cost of each link, as the script tells it."""
    return [int(line.split()[-1]) for line in script() if line.startswith("link ")]


def seconds_by_igraph(paths_from):
    """Processor seconds of the shortest paths from each bridge, by this call of igraph's."""
    start = time.process_time()
    for source in range(BRIDGES):
        paths_from(source, weights="cost")
    return time.process_time() - start


def main():
    if help_asked(__doc__):
        return
    program = sys.argv[1] if len(sys.argv) > 1 else BUILT
    need([program])
    graph = igraph.Graph(n=BRIDGES, edges=[(a - 1, b - 1) for a, b in mesh(BRIDGES, LINKS)])
    graph.es["cost"] = costs()
    ours, every, one = [], [], []
    with Script(script()) as path:
        for _ in range(RUNS):
            ours.append(measure(program, path)[0] * 1000)
            every.append(seconds_by_igraph(graph.get_all_shortest_paths) * 1000)
            one.append(seconds_by_igraph(graph.get_shortest_paths) * 1000)
    print(f"{'':28} {'least':>9} {'middle':>9} {'ratio':>6}")
    for name, found in (("wiring of all, whole run", ours), ("igraph, all shortest paths", every), ("igraph, one of them", one)):
        middle = statistics.median(found)
        print(f"{name:28} {min(found):6.2f} ms {middle:6.2f} ms {statistics.median(ours) / middle:6.2f}")


main()
