"""The tests of fabric/fabric (fabric/test)."""
from __future__ import annotations

import argparse
import os
import subprocess
import sys
import time
from typing import Callable, Iterator, List, Optional, Tuple

from fabriclib.tests import accepted, golden, lines, no_paths, times, usage
from fabriclib.tests.bench import TOP, Bench


def built_program() -> Optional[str]:
    """The program that ./build made, where no source is newer, as ./spbsim has it."""
    program = os.path.join(TOP, "crates", "spbsim", "out", "spbsim")
    if not os.access(program, os.X_OK):
        return None
    crates = os.path.join(TOP, "crates")
    newer = subprocess.run(
        [
            "find",
            crates,
            os.path.join(TOP, "crates.txt"),
            "(",
            "-name",
            "out",
            "-o",
            "-path",
            os.path.join(crates, "cases"),
            ")",
            "-prune",
            "-o",
            "-type",
            "f",
            "-newer",
            program,
            "-print",
            "-quit",
        ],
        capture_output=True,
        text=True,
        check=False,
    )
    return None if newer.stdout.strip() else program


def main() -> int:
    """Runs the parts; the exit status."""
    parser = argparse.ArgumentParser(prog="fabric/test", description="Tries the words of fabric/fabric.")
    parser.add_argument("--write", action="store_true", help="write the golden outputs anew")
    parser.add_argument("--times", action="store_true", help="time report --n-1 on large fabrics, too")
    parser.add_argument("--program", help="another program than the built one")
    told = parser.parse_args()
    begun = time.monotonic()
    faults = _tried([("lines and answers", lines.run)])
    program = told.program or built_program()
    if program is None:
        print("fabric/test: no program is built from the sources as they are; ./build makes it", file=sys.stderr)
        return 1 if faults else 2
    bench = Bench(program)
    parts: List[Tuple[str, Callable[[], Iterator[str]]]] = [
        ("golden outputs", lambda: golden.run(bench, told.write)),
        ("no path is computed", lambda: no_paths.run(bench)),
        ("what is written is accepted", lambda: accepted.run(bench)),
        ("usage", lambda: usage.run(bench)),
    ]
    if told.times:
        parts.append(("times", lambda: times.run(bench)))
    faults += _tried(parts)
    print(f"{bench.calls} calls in {time.monotonic() - begun:.0f} seconds")
    return 1 if faults else 0


def _tried(parts: List[Tuple[str, Callable[[], Iterator[str]]]]) -> List[str]:
    """Runs parts, tells of each how it went, and gives all that is wrong."""
    faults: List[str] = []
    for name, part in parts:
        found = list(part())
        print(f"{name}: {'as it has to be' if not found else f'{len(found)} wrong'}", flush=True)
        for fault in found:
            print(f"  {fault}", flush=True)
        faults += found
    return faults
