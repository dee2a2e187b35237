#!/usr/bin/env python3
"""Shows what each question costs that is answered by the wiring.

    bench/questions.py [PROGRAM]

Instructions of the built program, or of another that takes the same words, by valgrind: of questions to 96 bridges and
400 links, first with one base VID and nothing attached, then with 16 base VIDs and 64 services. Each is what a script
takes more with the question as its last line, so the reading of the line and the writing of the answer are in it. The
first question makes what later ones read; a further one is asked behind others.

Beside each stands its ratio to a share: what `wiring` of each bridge takes, by the number of bridges. With one base VID
a share is little more than one search of the best paths and one table, and a further `proof` or `check` should take
three shares at most; with 16 base VIDs it is 16 searches, and they take less than one.
"""
import random
import subprocess
import sys

from fabrics import mesh, wired
from measuring import BUILT, Script, help_asked, instructions, need, need_valgrind

BRIDGES, LINKS, SERVICES, MEMBERS = 96, 400, 64, 6


def plain():
    """The fabric with one base VID."""
    return list(wired(BRIDGES, mesh(BRIDGES, LINKS)))


def served():
    """The fabric with 16 base VIDs, and services under them by turns."""
    lines = [f"vid {10 * number} {number}" for number in range(1, 17)] + plain()[1:]
    pick = random.Random(3)
    port = {}
    for number in range(1, SERVICES + 1):
        lines.append(f"isid {1000 + number} {10 * (1 + number % 16)}")
        for bridge in pick.sample(range(1, BRIDGES + 1), MEMBERS):
            port[bridge] = port.get(bridge, 0) + 1
            lines.append(f"attach b{bridge} {port[bridge]} {1000 + number}")
    return lines


def right_check(program, lines):
    """The line that checks what the program answers to `proof`."""
    with Script(lines + ["proof b1 b96 10"]) as path, open(path, "rb") as script:
        answer = subprocess.run([program, "run"], stdin=script, stdout=subprocess.PIPE, check=True, text=True).stdout
    return "check" + answer.strip().removeprefix("proof")


def questions(check):
    """Name, the questions before it, and the questions that are counted."""
    all_wired = [f"wiring b{bridge}" for bridge in range(1, BRIDGES + 1)]
    yield "wiring of each bridge", [], all_wired
    yield "wiring of a bridge, the first question", [], ["wiring b1"]
    yield "wiring of the same bridge", ["wiring b1"], ["wiring b1"]
    yield "wiring of another bridge", ["wiring b1"], ["wiring b2"]
    for question in ("proof b1 b96 10", check):
        name = f"{question.split()[0]} of {BRIDGES} entries"
        yield f"{name}, the first question", [], [question]
        yield f"{name}, a further one", ["wiring b1", question], [question]
    for change in ("down l1", "metric l1 a 30"):
        yield f"whatif {change}", ["wiring b1"], [f"whatif {change}"]


def counted(program, before, asked):
    """Instructions of the questions asked, behind these lines."""
    with Script(before) as without, Script(before + asked) as whole:
        return instructions(program, whole) - instructions(program, without)


def table(program, name, lines):
    """Prints what each question costs with this fabric."""
    print(f"{name:44} {'instructions':>14} {'ratio':>8}")
    share = None
    for question, before, asked in questions(right_check(program, lines)):
        count = counted(program, lines + before, asked)
        share = share or count / BRIDGES
        print(f"  {question:42} {count:14,} {count / share:8.2f}", flush=True)


def main():
    if help_asked(__doc__):
        return
    program = sys.argv[1] if len(sys.argv) > 1 else BUILT
    need([program])
    need_valgrind()
    table(program, f"{BRIDGES} bridges, {LINKS} links", plain())
    table(program, f"16 base VIDs, {SERVICES} services", served())


main()
