#!/usr/bin/env python3
"""Runs spbsim on made workloads, and prints what each takes in one table.

    bench/bench.py [--count] [PROGRAM ..]
    bench/bench.py --kinds [--count]

Without arguments it measures the program built in this repository (build it first, by ./build).
Each further program that takes the word `run` and a script on standard input is measured beside it. With --kinds it
measures scripts that change links and ask for tables after each change, with bridges of either kind.

Processor time depends on the machine and on what else it does. With --count there is a column of instructions, which
valgrind counts (Debian's package of that name); that takes some fifty times as long, so the longest workload has none.
"""
import os
import random
import sys

from fabrics import bridges, mesh, wired
from measuring import BUILT, Script, help_asked, instructions, measure, need, need_valgrind

# after so many rounds each bridge of these networks holds the LSP of every other, and nothing is to be sent any more
FULL = 10


def workloads():
    """Name, script and number of hellos of each workload."""
    for count, links in ((24, 100), (48, 200), (96, 400)):
        pairs = mesh(count, links)
        fabric = list(wired(count, pairs)) + [f"round {FULL}"]
        yield f"{count} bridges, {links} links, to full databases", fabric, FULL * 2 * links
        yield "  and round 2000 after it", fabric + ["round 2000"], (FULL + 2000) * 2 * links
    yield "  and round 19990 after it", fabric + ["round 19990"], (FULL + 19990) * 2 * links
    yield "  and db of each", fabric + [f"db b{k}" for k in range(1, count + 1)], FULL * 2 * links
    yield "  and wiring of each", fabric + [f"wiring b{k}" for k in range(1, count + 1)], FULL * 2 * links
    chain = [(k, k + 1) for k in range(1, 96)]
    yield "96 bridges in a line, round 1000", list(wired(96, chain)) + ["round 1000"], 1000 * 2 * len(chain)
    # 65,536 bytes of comments of one byte, each with its line feed
    yield "32,768 lines", ["#"] * 32768, 0


def changes(count, links, services, changed):
    """A script that changes one metric after another, and asks one bridge for its tables after each change."""
    yield from ("vid 10 1", "vid 20 2", "vid 30 3", "vid 40 4")
    yield from list(wired(count, mesh(count, links)))[1:]
    pick = random.Random(2)
    for number in range(1, services + 1):
        yield f"isid {1000 + number} {10 * (1 + number % 4)}"
        for bridge in pick.sample(range(1, count + 1), 4):
            yield f"attach b{bridge} {number} {1000 + number}"
    yield f"round {FULL}"
    for number in range(1, changed + 1):
        yield f"metric l{pick.randint(1, links)} a {20 + number % 9}"
        yield "round 8"
        yield "show b1"


def by_kind():
    """Name and script of each workload that is run with bridges of each kind."""
    yield "24 bridges, 100 links, 60 changes", changes(24, 100, 60, 60)
    yield "48 bridges, 200 links, 60 changes", changes(48, 200, 60, 60)
    yield "96 bridges, 400 links, 60 changes", changes(96, 400, 60, 60)
    yield "48 bridges, 60 links, 60 changes", changes(48, 60, 60, 60)


# the processor seconds from which on instructions aren't counted
LONG = 5.0


def compare_kinds(counts):
    """The workloads that change links and ask for tables, with bridges of each kind."""
    print(f"{'workload':44} {'kind':8} {'cpu s':>8} {'peak MB':>8}" + (f" {'10^6 instr.':>12}" if counts else ""))
    for name, lines in by_kind():
        with Script(lines) as script:
            for kind in ("plain", "swift"):
                words = ("run", "--kind", kind)
                seconds, memory, status = measure(BUILT, script, words)
                row = f"{name:44} {kind:8} {seconds:8.2f} {memory:8.1f}"
                if counts:
                    count = instructions(BUILT, script, words)
                    row += f" {count / 1e6:12,.1f}" if count else f" {'-':>12}"
                print(row + ("" if status == 0 else f"  status {status}"), flush=True)


def main():
    if help_asked(__doc__):
        return None
    words = sys.argv[1:]
    counts = "--count" in words
    if counts:
        need_valgrind()
    programs = [BUILT] + [word for word in words if word not in ("--count", "--kinds")]
    need(programs)
    if "--kinds" in words:
        return compare_kinds(counts)
    head = f"{'workload':44} {'program':16} {'cpu s':>8} {'peak MB':>8} {'hellos/s':>13}"
    print(head + (f" {'10^6 instr.':>12}" if counts else ""))
    for name, lines, hellos in workloads():
        with Script(lines) as script:
            for program in programs:
                seconds, memory, status = measure(program, script)
                rate = f"{hellos / seconds:,.0f}" if hellos and seconds else "-"
                row = f"{name:44} {os.path.basename(program):16} {seconds:8.2f} {memory:8.1f} {rate:>13}"
                if counts:
                    count = instructions(program, script) if seconds < LONG else None
                    row += f" {count / 1e6:12,.1f}" if count else f" {'-':>12}"
                print(row + ("" if status == 0 else f"  status {status}"), flush=True)


main()
