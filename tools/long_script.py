#!/usr/bin/env python3
"""Writes the script that it reads with a comment before each line: that of the program's stored run.

    ./spbsim make 24 | tools/long_script.py >crates/spbsim/stdin

The script gets longer than a pipe takes at once, and each border of 8,192 bytes, at which the program reads anew, lies
in the midst of a command.
"""
import sys

PIECE = 8192
COMMENT = 170


def comment_length(position, line):
    """How long the comment before a line is. Where a border is near, it lets the border cut the line in two."""
    left = PIECE - position % PIECE
    return COMMENT if left > 2 * COMMENT + 60 else left - len(line) // 2


def main():
    position = 0
    for line in sys.stdin:
        comment = "#" * (comment_length(position, line) - 1) + "\n"
        sys.stdout.write(comment + line)
        position += len(comment) + len(line)


if __name__ == "__main__":
    sys.exit(main())
