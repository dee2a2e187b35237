"""That the program accepts what `import`, `node-down`, `drain` and `undrain` write, and that it does what they say."""
from __future__ import annotations

import glob
import json
import os
import re
from typing import Any, Dict, Iterator, List

from fabriclib.script import Script
from fabriclib.tests.bench import EXAMPLES, FABRICS, GOLDEN, TOP, Bench


def run(bench: Bench) -> Iterator[str]:
    """What is wrong."""
    for path in sorted(glob.glob(os.path.join(GOLDEN, "topologies", "*"))):
        yield from _of_topology(bench, path)
    paths = sorted(glob.glob(os.path.join(FABRICS, "*.spb")) + glob.glob(os.path.join(EXAMPLES, "*.spb")))
    yield from _of_scripts(bench, [path for path in paths if not _is_refused(path)])
    yield from _of_drained_spine(bench)


def _is_refused(path: str) -> bool:
    """Whether the output that is kept of a script ends with a line that is refused."""
    kept = os.path.splitext(path)[0] + ".out"
    if not os.path.exists(kept):
        return False
    with open(kept, encoding="ascii") as file:
        return file.read().splitlines()[-1].startswith("error ")


def _of_topology(bench: Bench, path: str) -> Iterator[str]:
    told = bench.fabric("import", path, "--isid", "100", "--vids", "10,20")
    played = bench.play(told.out + "settle\n")
    if told.status != 0 or not re.fullmatch("settle [0-9]+ quiet\n", played.out):
        yield f"import {os.path.relpath(path, TOP)}: {played.out.strip() or told.err.strip()}"


def _of_scripts(bench: Bench, paths: List[str]) -> Iterator[str]:
    """Each word for a bridge of each script, and the script with what it writes played."""
    calls = []
    for path in paths:
        bridges = list(Script.read(path).world().bridges)
        calls += [
            [word, bridge, path, "--whole"]
            for word, bridge in (("node-down", bridges[-1]), ("drain", bridges[0]), ("undrain", bridges[-1]))
        ]
    for words, told in zip(calls, bench.fabrics(calls)):
        played = bench.play(told.out)
        if told.status != 0 or played.status != 0:
            yield f"{' '.join(words[:2])} {os.path.relpath(words[2], TOP)}: {told.err}{played.out[-60:]}"


def _of_drained_spine(bench: Bench) -> Iterator[str]:
    """No way passes a spine that is drained, all its ways come back, and nothing is cut meanwhile."""
    declared = os.path.join(FABRICS, "leaf-spine.spb")
    up = next(line.number for line in Script.read(declared).lines if line.text == "state")
    before = "\n".join(line.text for line in Script.read(declared).upto(up)) + "\n"
    drained = bench.fabric("drain", "spine1", "-", "--whole", stdin=before).out
    restored = bench.fabric("undrain", "spine1", "-", "--whole", stdin=drained).out
    loads = [_passed(bench, script) for script in (before, drained, restored)]
    if loads[0] == 0 or loads[1] != 0 or loads[2] != loads[0]:
        yield f"ways that pass spine1 before, drained and undrained: {loads}"
    down = bench.fabric("node-down", "spine1", "-", "--whole", stdin=before).out
    told = bench.play(down + "round 80\nstate\npath spine1 leaf1 10\n")
    if told.out.splitlines()[-2:] != ["state quiet", "path spine1 leaf1 10 none"]:
        yield "node-down spine1 leaves it a way"


def _passed(bench: Bench, script: str) -> int:
    record: Dict[str, Any] = json.loads(bench.fabric("report", "-", "--json", stdin=script).out)
    if record["cut"]:
        return -1
    return int(next(sum(bridge["passed"].values()) for bridge in record["bridges"] if bridge["name"] == "spine1"))
