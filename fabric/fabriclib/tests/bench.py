"""Calls of fabric/fabric, and where things are."""
from __future__ import annotations

import contextlib
import io
import os
import subprocess
from typing import Dict, List, NamedTuple, Optional, Sequence

from fabriclib.cli import main

FABRIC = os.path.dirname(os.path.dirname(os.path.dirname(os.path.realpath(__file__))))
TOP = os.path.dirname(FABRIC)
FABRICS = os.path.join(FABRIC, "fabrics")
EXAMPLES = os.path.join(TOP, "examples")
GOLDEN = os.path.join(FABRIC, "golden")


class Result(NamedTuple):
    """How a call ended."""

    status: int
    out: str
    err: str


class Bench:
    """What calls the words with a program, from the repository's top."""

    def __init__(self, program: str) -> None:
        self.program = os.path.abspath(program)
        self.calls = 0

    def fabric(
        self, *words: str, stdin: str = "", env: Optional[Dict[str, str]] = None, program: Optional[str] = None
    ) -> Result:
        """A call of fabric/fabric."""
        self.calls += 1
        whole = [os.path.join(FABRIC, "fabric"), *words, "--program", program or self.program]
        return _called(whole, stdin, env)

    def fabrics(self, calls: Sequence[Sequence[str]]) -> List[Result]:
        """Several calls, in this process, which costs none of them the start of Python."""
        self.calls += len(calls)
        return [_in_process([*words, "--program", self.program]) for words in calls]

    def play(self, script: str) -> Result:
        """A run of the program itself."""
        self.calls += 1
        return _called([self.program, "run"], script, None)


def _in_process(words: Sequence[str]) -> Result:
    """A call of the entry from the repository's top, with what it writes."""
    out, err = (io.TextIOWrapper(io.BytesIO(), encoding="utf-8", write_through=True) for _ in range(2))
    before = os.getcwd()
    os.chdir(TOP)
    try:
        with contextlib.redirect_stdout(out), contextlib.redirect_stderr(err):
            status = main(list(words))
    finally:
        os.chdir(before)
    return Result(status, *(stream.buffer.getvalue().decode() for stream in (out, err)))  # type: ignore[attr-defined]


def _called(words: List[str], stdin: str, env: Optional[Dict[str, str]]) -> Result:
    told = subprocess.run(
        words, input=stdin, capture_output=True, text=True, cwd=TOP, check=False, env={**os.environ, **(env or {})}
    )
    return Result(told.returncode, told.stdout, told.stderr)


def read(path: str) -> str:
    """The text of a file."""
    with open(path, encoding="utf-8") as file:
        return file.read()
