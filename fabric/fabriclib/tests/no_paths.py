"""That no word computes a path: by the source, and by a program that answers altered rows."""
from __future__ import annotations

import ast
import json
import os
import stat
import tempfile
from typing import Any, Dict, Iterator, List

from fabriclib.script import Script
from fabriclib.tests.bench import FABRIC, FABRICS, Bench, Result

# Who may read a metric: what reads and writes declarations, and what writes it at a drawn link. Nothing that follows
# rows is among them, and without metrics nobody finds a least path.
_READ_METRICS = {
    "script.py",
    "topology.py",
    "words/importing.py",
    "words/drain.py",
    "words/undrain.py",
    "words/draw.py",
}
_METRICS = {"metric", "usual_metric", "cost", "weight", "priority"}
# What searches of paths are made with.
_SEARCH = {"heapq", "queue", "networkx", "igraph", "scipy", "numpy"}


def run(bench: Bench) -> Iterator[str]:
    """What is wrong."""
    yield from _by_source()
    with tempfile.TemporaryDirectory() as folder:
        yield from _by_rows(bench, folder)
        yield from _by_own_rows(bench, folder)


def _by_source() -> Iterator[str]:
    top = os.path.join(FABRIC, "fabriclib")
    for folder, _, names in os.walk(top):
        for name in names:
            path = os.path.join(folder, name)
            own = os.path.relpath(path, top)
            if name.endswith(".py") and not own.startswith("tests"):
                with open(path, encoding="utf-8") as file:
                    yield from _of_module(own, ast.parse(file.read()))


def _of_module(own: str, tree: ast.AST) -> Iterator[str]:
    for node in ast.walk(tree):
        if isinstance(node, ast.Attribute) and node.attr in _METRICS and own not in _READ_METRICS:
            yield f"fabriclib/{own}:{node.lineno} reads a {node.attr}"
        names: List[str] = []
        if isinstance(node, ast.Import):
            names = [alias.name for alias in node.names]
        if isinstance(node, ast.ImportFrom):
            names = [node.module or ""]
        for name in names:
            if name.split(".")[0] in _SEARCH:
                yield f"fabriclib/{own}:{node.lineno} imports {name}"


# A program that alters rows: in the answers whose first line has these words in front, each row of the one text becomes
# the other.
_ALTERING = """#!/usr/bin/env python3
import subprocess, sys
RULES = %r
told = subprocess.run([%r, *sys.argv[1:]], stdin=sys.stdin, capture_output=True, text=True)
head = ""
for line in told.stdout.splitlines():
    if line.split()[0] in ("wiring", "show"):
        head = line
    for front, old, new in RULES:
        if head.startswith(front + " ") and line == old:
            line = new
    print(line)
sys.exit(told.returncode)
"""


def _altering(bench: Bench, folder: str, rules: List[List[str]]) -> str:
    path = os.path.join(folder, "altering")
    with open(path, "w", encoding="utf-8") as file:
        file.write(_ALTERING % (rules, bench.program))
    os.chmod(path, os.stat(path).st_mode | stat.S_IXUSR)
    return path


def _by_rows(bench: Bench, folder: str) -> Iterator[str]:
    script = os.path.join(FABRICS, "leaf-spine.spb")
    at = _last_declaration(script)
    there = ["wiring leaf1", "u 10 020000000002 1", "u 10 020000000002 3"]
    back = ["wiring leaf2", "u 10 020000000001 1", "u 10 020000000001 3"]
    tree = ["wiring leaf1", "g 10 0300010003ed 1", "g 10 0300010003ed 3"]

    def report(*rules: List[str]) -> Dict[str, Any]:
        return _record(
            bench.fabric("report", script, "--at", at, "--json", program=_altering(bench, folder, list(rules)))
        )

    true, both, half, other = report(), report(there, back), report(there), report(tree)
    if _passed(true, "spine3") != 0 or true["cut"]:
        yield "unaltered rows: spine3 carries something, or something is cut"
    if _passed(both, "spine3") != 2 or _passed(both, "spine1") != _passed(true, "spine1") - 2 or both["cut"]:
        yield "rows altered there and back: two ways don't pass spine3"
    if ["leaf1", "leaf2", 10, "ingress check"] not in half["cut"] or len(half["cut"]) != 2:
        yield f"a row altered one way: the ingress check doesn't show ({half['cut']})"
    lost = next(service["lost"] for service in other["services"] if service["isid"] == 1005)
    if sorted(lost) != sorted([["leaf1", f"leaf{number}"] for number in range(2, 13)]):
        yield "a group row altered: leaf1's tree isn't lost"
    drawn = bench.fabric(
        "draw", script, "--at", at, "--isid", "1005", "--from", "leaf1", program=_altering(bench, folder, [tree])
    ).out
    if "0 of 11 other members reached" not in drawn or "ends at spine3: no row for the group" not in drawn:
        yield "a group row altered: the picture doesn't show what the row says"


def _by_own_rows(bench: Bench, folder: str) -> Iterator[str]:
    """A row that leaf1 has, and the wiring hasn't."""
    script = os.path.join(FABRICS, "leaf-spine.spb")
    lines = Script.read(script).lines
    quiet = str(next(line.number for line in lines if line.text == "state"))
    own = ["show leaf1", "u 10 020000000002 1", "u 10 020000000002 3"]
    words = ("timeline", script, "--at", quiet, "--json")
    second = json.loads(bench.fabric(*words, program=_altering(bench, folder, [own])).out)[0]
    # Leaf1's frames come to leaf2 by a port that doesn't lead back, and leaf2's to leaf1 likewise.
    wanted = [["leaf1", "leaf2", 10, "ingress check", "leaf2"], ["leaf2", "leaf1", 10, "ingress check", "leaf1"]]
    if second["lag"] != ["leaf1"] or second["lost"] != wanted:
        yield f"a row of show altered: the second has {second['lag']} and {second['lost']}"


def _last_declaration(path: str) -> str:
    with open(path, encoding="utf-8") as file:
        lines = file.read().splitlines()
    return str(max(number for number, line in enumerate(lines, 1) if line.startswith("attach ")))


def _record(told: Result) -> Dict[str, Any]:
    if told.status != 0:
        raise SystemExit(f"fabric/test: the altering program gave no answer: {told.err}")
    record: Dict[str, Any] = json.loads(told.out)
    return record


def _passed(record: Dict[str, Any], name: str) -> int:
    return int(next(bridge["passed"]["10"] for bridge in record["bridges"] if bridge["name"] == name))
