"""Scripts of fabrics: bridges, links at random, services and their members."""
import random


def bridges(count, ports):
    """The declarations of so many bridges, b1 and on."""
    for k in range(1, count + 1):
        yield f"bridge b{k} 32768 0200000000{k:02x} {k:05x} {ports}"


def mesh(count, links, seed=1):
    """The pairs of a connected graph: a ring first, then pairs at random; no bridge has more than 32 links."""
    chosen = [(k, k % count + 1) for k in range(1, count + 1)]
    degree = {k: 2 for k in range(1, count + 1)}
    taken = {frozenset(pair) for pair in chosen}
    pick = random.Random(seed)
    while len(chosen) < links:
        a, b = pick.sample(range(1, count + 1), 2)
        if frozenset((a, b)) in taken or degree[a] == 32 or degree[b] == 32:
            continue
        taken.add(frozenset((a, b)))
        chosen.append((a, b))
        degree[a] += 1
        degree[b] += 1
    return chosen


def wired(count, pairs):
    """A script that declares so many bridges and a link for each pair, at the next free ports."""
    yield "vid 10 1"
    yield from bridges(count, 32)
    used = {}
    for number, (a, b) in enumerate(pairs, 1):
        ends = []
        for bridge in (a, b):
            used[bridge] = used.get(bridge, 0) + 1
            ends.append(f"b{bridge} {used[bridge]}")
        yield f"link l{number} {ends[0]} {ends[1]} {10 + number % 7}"


def services(count, bridges_, members, vid=10):
    """So many services under one base VID, each with so many members: customer ports of different bridges at random."""
    pick = random.Random(3)
    port = {}
    for number in range(1, count + 1):
        yield f"isid {1000 + number} {vid}"
        for bridge in pick.sample(range(1, bridges_ + 1), members):
            port[bridge] = port.get(bridge, 0) + 1
            yield f"attach b{bridge} {port[bridge]} {1000 + number}"
