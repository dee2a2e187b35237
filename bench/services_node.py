#!/usr/bin/env python3
"""Shows what a service costs that comes or goes at a bridge with many.

    bench/services_node.py [PROGRAM]

Instructions of the built program, or of another that takes the same words, by valgrind: of one `detach` or `attach` at
a bridge with so many services, each at a customer port of its own; in the last row 64 of its 1,024 ports are a second
one of their service. Each service that comes or goes changes the LSP in which it is said and those of the services
behind it. Beside each stands its ratio to the row above, in which half as many services stood.
"""
import random
import sys

from measuring import BUILT, Script, help_asked, instructions, need, need_valgrind

# services and customer ports of each row
ROWS = ((60, 60), (120, 120), (240, 240), (480, 480), (960, 960), (960, 1024))
# so many services go and come again
CHANGES = 200


def node(services, ports):
    """A bridge with these services at these ports."""
    lines = ["vid 10 1", "bridge A 32768 020000000001 00001 0"]
    lines += [f"isid {k} 10" for k in range(1, services + 1)]
    return lines + [f"attach A {port} {1 + (port - 1) % services}" for port in range(1, ports + 1)]


def changes(services, ports):
    """Services of one port go and come again."""
    r = random.Random(services)
    alone = range(ports - services + 1, services + 1)
    picked = [r.choice(alone) for _ in range(CHANGES)]
    return [line for port in picked for line in (f"detach A {port}", f"attach A {port} {port}")]


def cost(program, services, ports):
    """Instructions of one change."""
    lines = node(services, ports)
    with Script(lines) as made, Script(lines + changes(services, ports)) as changed:
        return (instructions(program, changed) - instructions(program, made)) / (2 * CHANGES)


def main():
    if help_asked(__doc__):
        return
    program = sys.argv[1] if len(sys.argv) > 1 else BUILT
    need([program])
    need_valgrind()
    print(f"{'services':>8} {'ports':>6} {'instructions':>13}")
    before = None
    for services, ports in ROWS:
        now = cost(program, services, ports)
        print(f"{services:8} {ports:6} {now:13.0f} " + (f"{now / before:8.2f}" if before else ""), flush=True)
        before = now


main()
