#!/usr/bin/env python3
"""Compares what stands twice for the cases of crates/cases, and says where it differs.

    tools/cases.py [--write] [--try]

Its folder data/ has a copy of each script and each output of examples/, the file examples.cases has a case for each of
these scripts, and the file stdout says how many cases each file has: a case begins by a line `== ..` or is a line
`? ..`. With --write the copies, examples.cases and stdout are written anew. With --try all cases are played too, before
anything is proved: that takes some three minutes, as each checked run, and needs the toolchain's rt. The exit status is
1 where something differs.
"""
import argparse
import glob
import os
import subprocess
import sys

TOP = os.path.join(os.path.dirname(os.path.abspath(__file__)), "..")
EXAMPLES = os.path.join(TOP, "examples")
CRATE = os.path.join(TOP, "crates", "cases")
DATA = os.path.join(CRATE, "data")


def content(path):
    """The bytes of a file, none where it isn't there."""
    if not os.path.exists(path):
        return None
    with open(path, "rb") as file:
        return file.read()


def example_cases(names):
    """The file of cases that has one for each example. Its answer stands beside it."""
    parts = [f"== {name}\n< examples/{name}.spb\n>> examples/{name}.out\n" for name in names]
    return "! pieces 50\n" + "".join(parts)


def copies():
    """The files that follow from examples/, by their path in the folder of the data."""
    paths = sorted(glob.glob(os.path.join(EXAMPLES, "*.spb")) + glob.glob(os.path.join(EXAMPLES, "*.out")))
    wanted = {os.path.join("examples", os.path.basename(path)): content(path) for path in paths}
    names = [os.path.basename(path)[:-4] for path in paths if path.endswith(".spb")]
    wanted["examples.cases"] = example_cases(names).encode()
    return wanted


def count(text):
    return sum(line.startswith(("== ", "? ")) for line in text.decode().split("\n"))


def counts(wanted):
    """What the program has to write: how many cases each file has."""
    files = {os.path.basename(path): content(path) for path in glob.glob(os.path.join(DATA, "*.cases"))}
    files["examples.cases"] = wanted["examples.cases"]
    return "".join(f"{name}: {count(files[name])}\n" for name in sorted(files)).encode()


def left_over(wanted):
    """Copies of examples that aren't there any more."""
    for path in sorted(glob.glob(os.path.join(DATA, "examples", "*"))):
        if os.path.join("examples", os.path.basename(path)) not in wanted:
            yield path


def play():
    """Plays all cases in a checked run; whether one differs."""
    words = ["rt", "try", "--seconds", "600"]
    for path in sorted(glob.glob(os.path.join(DATA, "**"), recursive=True)):
        if os.path.isfile(path):
            words += ["--data", f"{os.path.relpath(path, DATA)}={path}"]
    return subprocess.run(words, cwd=CRATE, stdin=subprocess.DEVNULL, check=False).returncode != 0


def main():
    parser = argparse.ArgumentParser(description="Compares what stands twice for the cases of crates/cases.")
    parser.add_argument("--write", action="store_true", help="write it anew where it differs")
    parser.add_argument("--try", action="store_true", dest="plays", help="play all cases in a checked run")
    told = parser.parse_args()
    wanted = copies()
    files = {os.path.join(DATA, name): text for name, text in wanted.items()}
    files[os.path.join(CRATE, "stdout")] = counts(wanted)
    differ = [path for path, text in files.items() if content(path) != text]
    gone = list(left_over(wanted))
    if told.write:
        for path in differ:
            os.makedirs(os.path.dirname(path), exist_ok=True)
            with open(path, "wb") as file:
                file.write(files[path])
        for path in gone:
            os.remove(path)
    for path in differ + gone:
        print(f"{os.path.relpath(path)} {'is written anew' if told.write else 'differs'}")
    is_wrong = bool(differ or gone) and not told.write
    return 1 if told.plays and play() or is_wrong else 0


if __name__ == "__main__":
    sys.exit(main())
