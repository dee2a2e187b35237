#!/usr/bin/env python3
"""Shows how cost grows: bridges, links, services and members are doubled, one at a time.

    bench/growth.py [PROGRAM]

Instructions of the built program, or of another that takes the same words, by valgrind: first those of sixty rounds,
after which all bridges hold the LSPs of all, and then those of `show` and `wiring` of each bridge. Beside each stands
its ratio to the row above, in which half as many of one thing stood.
"""
import sys

from fabrics import mesh, services, wired
from measuring import BUILT, Script, help_asked, instructions, need, need_valgrind

# after so many rounds each bridge of these fabrics holds the LSP of every other
FULL = 60
# what is doubled, and each row's bridges, links, services and members of each service
ROWS = (
    ("bridges", [(24, 100, 20, 6), (48, 100, 20, 6), (96, 100, 20, 6)]),
    ("links", [(96, 100, 20, 6), (96, 200, 20, 6), (96, 400, 20, 6)]),
    ("services", [(96, 200, 100, 6), (96, 200, 200, 6), (96, 200, 400, 6)]),
    ("members", [(96, 200, 80, 6), (96, 200, 80, 12), (96, 200, 80, 24), (96, 200, 80, 48)]),
)


def fabric(bridges, links, count, members):
    """A fabric with these numbers, until all bridges hold the LSPs of all."""
    return [*wired(bridges, mesh(bridges, links)), *services(count, bridges, members), f"round {FULL}"]


def tables(bridges):
    """The questions for each bridge's tables, its own and those of the wiring."""
    return [f"{question} b{k}" for question in ("show", "wiring") for k in range(1, bridges + 1)]


def counted(program, numbers):
    """Instructions until all databases are full, and of the tables of all bridges then."""
    lines = fabric(*numbers)
    with Script(lines) as full, Script(lines + tables(numbers[0])) as asked:
        before = instructions(program, full)
        return before, instructions(program, asked) - before


def ratio(now, before):
    return f"{now / before:8.2f}" if before else f"{'':8}"


def main():
    if help_asked(__doc__):
        return
    program = sys.argv[1] if len(sys.argv) > 1 else BUILT
    need([program])
    need_valgrind()
    print(f"{'doubled':9} {'bridges':>7} {'links':>6} {'services':>8} {'members':>7} {'10^6, rounds':>12} {'':8} {'tables':>9}")
    for doubled, rows in ROWS:
        full = asked = None
        for numbers in rows:
            was_full, was_asked = full, asked
            full, asked = counted(program, numbers)
            row = f"{doubled:9} {numbers[0]:7} {numbers[1]:6} {numbers[2]:8} {numbers[3]:7}"
            row += f" {full / 1e6:12.1f} {ratio(full, was_full)} {asked / 1e6:9.1f} {ratio(asked, was_asked)}"
            print(row, flush=True)


main()
