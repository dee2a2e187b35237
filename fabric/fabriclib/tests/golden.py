"""What each word writes, against what it wrote when that was looked at."""
from __future__ import annotations

import glob
import os
import tempfile
from typing import Iterator, List, Tuple

from fabriclib.script import Script
from fabriclib.tests.bench import EXAMPLES, GOLDEN, TOP, Bench

# The lines of our two fabrics behind which pictures and seconds are asked for.
_LEAF_SPINE, _METRO_RING = "fabric/fabrics/leaf-spine.spb", "fabric/fabrics/metro-ring.spb"


def run(bench: Bench, writes: bool) -> Iterator[str]:
    """Each output that differs."""
    wanted = set()
    for name, content in _outputs(bench):
        path = os.path.join(GOLDEN, name)
        wanted.add(path)
        if writes:
            os.makedirs(os.path.dirname(path), exist_ok=True)
            with open(path, "w", encoding="utf-8") as file:
                file.write(content)
        elif not os.path.exists(path):
            yield f"{os.path.relpath(path, TOP)} isn't there"
        else:
            yield from _difference(path, content)
    for path in glob.glob(os.path.join(GOLDEN, "written", "*")):
        if path not in wanted:
            if writes:
                os.remove(path)
            else:
                yield f"{os.path.relpath(path, TOP)} is of no call"


def _difference(path: str, content: str) -> Iterator[str]:
    with open(path, encoding="utf-8") as file:
        before = file.read().splitlines()
    for number, (old, new) in enumerate(zip(before + [""], content.splitlines() + [""]), 1):
        if old != new:
            yield f"{os.path.relpath(path, TOP)}:{number}: {old!r} became {new!r}"
            return
    if len(before) != len(content.splitlines()):
        yield f"{os.path.relpath(path, TOP)}: {len(before)} lines became {len(content.splitlines())}"


def _outputs(bench: Bench) -> Iterator[Tuple[str, str]]:
    """Each golden file, by its path in the folder, and its content now."""
    for path in sorted(glob.glob(os.path.join(EXAMPLES, "*.spb"))):
        name = os.path.basename(path)[:-4]
        yield f"written/{name}.txt", "".join(_calls(bench, _of_example(os.path.relpath(path, TOP))))
    for path, calls in ((_LEAF_SPINE, _of_leaf_spine()), (_METRO_RING, _of_metro_ring())):
        yield f"written/fabric-{os.path.basename(path)[:-4]}.txt", "".join(_calls(bench, calls))
    yield "written/refusals.txt", "".join(_refusals(bench))
    topologies = sorted(glob.glob(os.path.join(GOLDEN, "topologies", "*")))
    calls = [["import", os.path.relpath(path, TOP), "--isid", "100"] for path in topologies]
    yield "written/import.txt", "".join(_calls(bench, calls))
    pictures = _pictures()
    for (name, _), told in zip(pictures, bench.fabrics([["draw", *words] for _, words in pictures])):
        yield f"written/{name}.svg", told.out


def _calls(bench: Bench, calls: List[List[str]]) -> Iterator[str]:
    for words, told in zip(calls, bench.fabrics(calls)):
        yield f"$ fabric/fabric {' '.join(words)}\n{told.out}{told.err}status {told.status}\n\n"


def _of_example(path: str) -> List[List[str]]:
    script = Script.read(os.path.join(TOP, path))
    events = [line.number for line in script.lines if line.keyword in ("down", "up", "metric", "restart")]
    bridge = list(script.world().bridges)[0]
    # A transcript has each line; of a script of thousands nobody would look at it.
    calls = [["transcript", path]] if len(script.lines) <= 1000 else []
    calls += [["explain", path], ["report", path, "--n-1", "--all"]]
    calls += [["timeline", path, "--at", str(events[0])]] if events else []
    return calls + [["node-down", bridge, path], ["drain", bridge, path], ["undrain", bridge, path]]


def _line(path: str, text: str) -> str:
    """The number of the first line of a script that is a text."""
    script = Script.read(os.path.join(TOP, path))
    return str(next(line.number for line in script.lines if line.text == text))


def _of_leaf_spine() -> List[List[str]]:
    up, failed = _line(_LEAF_SPINE, "state"), _line(_LEAF_SPINE, "down s1l12")
    return [
        ["explain", _LEAF_SPINE],
        ["transcript", _LEAF_SPINE],
        ["report", _LEAF_SPINE, "--at", up, "--n-1"],
        ["report", _LEAF_SPINE, "--at", up, "--json"],
        ["report", _LEAF_SPINE],
        ["timeline", _LEAF_SPINE, "--at", failed],
        ["timeline", _LEAF_SPINE, "--at", failed, "--seconds", "1", "--json"],
        ["node-down", "spine1", _LEAF_SPINE, "--at", up],
        ["drain", "spine1", _LEAF_SPINE, "--at", up],
        ["undrain", "spine1", _LEAF_SPINE, "--at", up],
    ]


def _of_metro_ring() -> List[List[str]]:
    up, cut, second = _line(_METRO_RING, "state"), _line(_METRO_RING, "down r3-r4"), _line(_METRO_RING, "down r5-r6")
    return [
        ["explain", _METRO_RING],
        ["transcript", _METRO_RING],
        ["report", _METRO_RING, "--at", up, "--n-1", "--all"],
        ["report", _METRO_RING, "--at", cut, "--n-1"],
        ["report", _METRO_RING, "--at", cut, "--n-1", "--json"],
        ["report", _METRO_RING],
        ["timeline", _METRO_RING, "--at", cut],
        ["timeline", _METRO_RING, "--at", second],
        ["node-down", "r4", _METRO_RING],
        ["drain", "hub1", _METRO_RING],
        ["undrain", "hub1", _METRO_RING],
    ]


def _pictures() -> List[Tuple[str, List[str]]]:
    up, failed = _line(_LEAF_SPINE, "state"), _line(_LEAF_SPINE, "down s1l12")
    ring_up, cut, second = (_line(_METRO_RING, text) for text in ("state", "down r3-r4", "down r5-r6"))
    examples = [
        (f"example-{name}-load", [f"examples/{name}.spb", "--load"])
        for name in ("equal-cost-paths", "link-failure-drill", "metro-ring", "restart-drill", "two-ways")
    ]
    return examples + [
        ("leaf-spine-tree", [_LEAF_SPINE, "--isid", "1005", "--from", "leaf1", "--at", up, "--at", failed]),
        ("leaf-spine-load", [_LEAF_SPINE, "--load", "--at", up]),
        ("leaf-spine-own", [_LEAF_SPINE, "--isid", "1005", "--from", "leaf2", "--at", failed, "--own"]),
        ("metro-ring-plain", [_METRO_RING]),
        ("metro-ring-load", [_METRO_RING, "--load", "--at", ring_up, "--at", cut]),
        ("metro-ring-tree", [_METRO_RING, "--isid", "100", "--from", "r4", "--at", ring_up, "--at", second]),
        ("metro-ring-own", [_METRO_RING, "--isid", "100", "--from", "r9", "--at", cut, "--own"]),
        ("two-tenants-tree", ["examples/two-tenants.spb", "--isid", "1002", "--from", "leaf3"]),
        (
            "share-of-spines-load",
            ["examples/share-of-spines.spb", "--load", "--at", _line("examples/share-of-spines.spb", "state")],
        ),
        (
            "second-cut-tree",
            ["examples/second-cut.spb", "--isid", "100", "--at", _line("examples/second-cut.spb", "down sw")],
        ),
    ]


# Refused scripts: behind these declarations stands the line that is refused.
_BEFORE = [
    "vid 10 1",
    "bridge A 32768 020000000001 00001 2",
    "bridge B 32768 020000000002 00002 2",
    "bridge C 32768 020000000003 00003 1",
    "link L1 A 1 B 1 10",
    "isid 100 10",
    "attach A 1 100",
]
_REFUSED = [
    "lnk L2 A 2 C 1 10",
    "link L2 A 2 C",
    "link L2 A 2 C 1 10 # to C",
    "bridge D 1 02:00:00:00:00:04 00004 2",
    "bridge D 1 020000000004 0.00.04 2",
    "bridge a-name-that-is-too-long 1 020000000004 00004 2",
    "link L2 A 1/2 C 1 10",
    "metric L1 c 5",
    " # a comment",
    "link L2 A 2 Bb 1 10",
    "isid 200 20",
    "attach A 2 200",
    "path A B 20",
    "vid 10 1",
    "vid 20 1",
    "bridge A 1 020000000004 00004 2",
    "bridge D 1 020000000001 00004 2",
    "bridge D 1 020000000004 00002 2",
    "link L2 A 1 C 1 10",
    "link L2 A 3 C 1 10",
    "link L2 A 2 B 2 10",
    "metric L1 a 16777215",
    "round 0",
    "bridge D 1 010000000004 00004 2",
    "bridge D 1 020000000004 00004 33",
    "frame A 1 00",
    "up L1",
    "attach A 1 100",
    "detach A 2",
    "deliver L1 ab",
    "lose L1 ab 0",
    "link L2 A 2 A 2 1",
    "round 20000\nround 1",
    "down L1\ndown L1",
    "attach A 2 100 Send",
    "attach A 2 100 recv\nframe A 2 ffffffffffff0a00000000010800",
    "whatif donw L1",
    "whatif metric L1 a",
    "whatif down L2",
    "whatif up L1",
    "down L1\nwhatif down L1",
    "whatif metric L1 b 0",
    "proof A B 20",
    "check A B 10 - A Cc",
    "check A B 10 - A",
    "check A B 10 - A . .",
    "check A B 10 - 1 .",
    "settle\nround 20000",
    "round 19973\nsettle",
    "settle all",
]


def _refusals(bench: Bench) -> Iterator[str]:
    with tempfile.TemporaryDirectory() as folder:
        calls = []
        for number, text in enumerate(_REFUSED + ["\ufeffvid 20 1"]):
            begin = [] if text.startswith("\ufeff") else _BEFORE
            path = os.path.join(folder, f"refused-{number}.spb")
            with open(path, "w", encoding="utf-8") as file:
                file.write("\n".join([*begin, text]) + "\n")
            calls.append(["explain", path])
        for told in bench.fabrics(calls):
            yield f"{told.out.replace(folder + os.sep, '')}{told.err}status {told.status}\n\n"
