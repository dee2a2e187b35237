#!/usr/bin/env python3
"""Plays each script of tools/scripts with each read and each write failing in turn, and prints what became of the runs.

    tools/fail_io.py [--most N] [--jobs N] [PROGRAM]

A run in which a read of the script fails has to end with status 4, and one in which a write of the answers fails with
status 5, both with a front of the right output. The exit status is 1 where one didn't. Each script is played with reads
and writes that move what they can, then at most 7 bytes, then one. With --most N only so many calls are tried, evenly
spread; the table says how many. The program is the built one; read and write are replaced in its runs (fail_calls.c).
"""
import argparse
import sys

import failing


def main():
    parser = argparse.ArgumentParser(description="Plays scripts with each read and each write failing in turn.")
    failing.add_arguments(parser)
    told = parser.parse_args()
    program = failing.Failing(told.program)
    failures = []
    print(f"{'script':24} {'bytes':>5} {'calls':>6} {'tried':>6} {'status 4':>9} {'status 5':>9} {'failures':>9}")
    for name, path, right in failing.scripts():
        for most_bytes in (0, 7, 1):
            _, calls = program.counts(path, right, MOST_BYTES=most_bytes)
            numbers = failing.spread(calls, told.most)
            statuses, wrong = program.sweep(path, right, "FAIL_IO", numbers, told.jobs, MOST_BYTES=most_bytes)
            wrong += failing.unwanted(statuses, (4, 5))
            moved = most_bytes or "all"
            print(f"{name:24} {moved:>5} {calls:6} {len(numbers):6} {statuses.get(4, 0):9} {statuses.get(5, 0):9}"
                  f" {len(wrong):9}", flush=True)
            failures += [f"{name}, {moved} bytes: {line}" for line in wrong]
    print(*failures, sep="\n", end="\n" if failures else "")
    return 1 if failures else 0


if __name__ == "__main__":
    sys.exit(main())
