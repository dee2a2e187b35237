"""Statuses, help, colours, and what is said where something isn't there."""
from __future__ import annotations

import os
import pty
import subprocess
import sys
import tempfile
from typing import Iterator, List, Tuple

from fabriclib.cli import WORDS
from fabriclib.tests.bench import FABRIC, GOLDEN, TOP, Bench

_SCRIPT = "examples/two-ways.spb"


def run(bench: Bench) -> Iterator[str]:
    """What is wrong."""
    for word, _, _ in WORDS:
        told = bench.fabric(word, "--help")
        if told.status != 0 or not told.out.startswith("usage: "):
            yield f"{word} --help: status {told.status}"
    calls: List[Tuple[List[str], int]] = [
        ([], 2),
        (["nothing"], 2),
        (["explain"], 2),
        (["explain", "nowhere.spb"], 2),
        (["report", _SCRIPT, "--at", "99"], 2),
        (["drain", "spine9", _SCRIPT], 2),
        (["draw", _SCRIPT, "--isid", "5"], 2),
        (["explain", "examples/undeclared-bridge.spb"], 1),
        (["report", "examples/undeclared-bridge.spb"], 1),
        (["explain", _SCRIPT], 0),
    ]
    for words, status in calls:
        told = bench.fabric(*words)
        if told.status != status or (status and not told.err + told.out):
            yield f"{' '.join(words) or 'no word'}: status {told.status}, not {status}"
    if bench.fabric("report", _SCRIPT, program="/bin/false").status != 3:
        yield "a program without an answer: the status isn't 3"
    if bench.fabric("report", _SCRIPT, program="/nowhere").status != 2:
        yield "no program: the status isn't 2"
    yield from _without_others(bench)
    yield from _colours(bench)


def _without_others(bench: Bench) -> Iterator[str]:
    with tempfile.TemporaryDirectory() as folder:
        with open(os.path.join(folder, "yaml.py"), "w", encoding="utf-8") as file:
            file.write("raise ImportError\n")
        path = os.path.join(GOLDEN, "topologies", "leaf-spine.clab.yml")
        told = bench.fabric("import", path, env={"PYTHONPATH": folder})
        if told.status != 2 or "PyYAML" not in told.err:
            yield "without PyYAML: the word for it is missing"
        # a path with python3 and nothing else
        os.symlink(sys.executable, os.path.join(folder, "python3"))
        told = bench.fabric("draw", _SCRIPT, "--layout", "neato", env={"PATH": folder})
        if told.status != 2 or "Graphviz" not in told.err:
            yield "without Graphviz: the word for it is missing"


def _colours(bench: Bench) -> Iterator[str]:
    if "\x1b" in bench.fabric("transcript", _SCRIPT).out:
        yield "colours where there is no terminal"
    shown = _at_terminal(bench, {})
    if b"\x1b[" not in shown:
        yield "no colours at a terminal"
    if b"\x1b[" in _at_terminal(bench, {"NO_COLOR": "1"}):
        yield "colours in spite of NO_COLOR"


def _at_terminal(bench: Bench, more: "dict[str, str]") -> bytes:
    """What a word writes at a terminal."""
    own, other = pty.openpty()
    words = [os.path.join(FABRIC, "fabric"), "transcript", _SCRIPT, "--program", bench.program]
    env = {key: value for key, value in os.environ.items() if key != "NO_COLOR"}
    bench.calls += 1
    with subprocess.Popen(words, stdout=other, cwd=TOP, env={**env, "TERM": "xterm", **more}) as process:
        os.close(other)
        shown = b""
        while True:
            try:
                part = os.read(own, 65536)
            except OSError:
                break
            if not part:
                break
            shown += part
        process.wait()
    os.close(own)
    return shown
