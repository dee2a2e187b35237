#!/usr/bin/env python3
"""Plays each script of tools/scripts with each allocation refused in turn, and prints what became of the runs.

    tools/refuse_memory.py [--most N] [--jobs N] [PROGRAM]

A run in which one allocation is refused has to end with status 0 and the right output, or with status 3 and a front of
it. The exit status is 1 where one didn't. With --most N only so many allocations are tried, evenly spread; the table
says how many. The program is the built one; the C library's allocator is replaced in its runs (fail_calls.c).
"""
import argparse
import sys

import failing


def main():
    parser = argparse.ArgumentParser(description="Plays scripts with each allocation refused in turn.")
    failing.add_arguments(parser)
    told = parser.parse_args()
    program = failing.Failing(told.program)
    failures = []
    print(f"{'script':24} {'allocations':>12} {'tried':>8} {'status 0':>9} {'status 3':>9} {'failures':>9}")
    for name, path, right in failing.scripts():
        allocations, _ = program.counts(path, right)
        numbers = failing.spread(allocations, told.most)
        statuses, wrong = program.sweep(path, right, "FAIL_ALLOCATION", numbers, told.jobs)
        wrong += failing.unwanted(statuses, (0, 3))
        print(f"{name:24} {allocations:12} {len(numbers):8} {statuses.get(0, 0):9} {statuses.get(3, 0):9}"
              f" {len(wrong):9}", flush=True)
        failures += [f"{name}: {line}" for line in wrong]
    print(*failures, sep="\n", end="\n" if failures else "")
    return 1 if failures else 0


if __name__ == "__main__":
    sys.exit(main())
