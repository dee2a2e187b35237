#!/usr/bin/env python3
"""Tries boxes and scripts by chance, for a bounded time, and stops at the first that is wrong.

    tools/fuzz.py boxes [--seed N] [--steps N] [--seconds N]
    tools/fuzz.py scripts [--seed N] [--scripts N] [--seconds N] [PROGRAM]

`boxes` puts the crate of tools/fuzz_boxes into a copy of this repository and runs it by `rt try`, which takes some
minutes to compile. In it the same happens to a plain and a swift bridge of one configuration: seconds, frames of all
kinds with fields by chance, damaged ones, bytes by chance, carrier, metrics, customer ports and customers' frames.
After each step both have to show the same. At the end it tells what was reached.

`scripts` writes scripts by the grammar, some of them damaged, and has the built program play each twice: as one file,
and through a pipe in pieces of sizes by chance. Output and status have to be the same.

A run of either is the same for the same seed, up to where the time ends it.
"""
import argparse
import collections
import glob
import os
import random
import shutil
import subprocess
import sys
import tempfile
import threading
import time

import failing
import made_scripts

HERE = os.path.dirname(os.path.abspath(__file__))
TOP = os.path.dirname(HERE)
USES = "spb_types shared_frames isis_pdu spb_tlvs itag_frames lsdb adjacency bridge_api plain_bridge swift_bridge"
# the seconds that compiling may take
COMPILING = 1200


def copy_with_boxes(folder):
    """A copy of the repository's sources in a folder, with the crate fuzz_boxes in it; the crate's folder."""
    leave = shutil.ignore_patterns("out", "must-fail")
    shutil.copytree(os.path.join(TOP, "crates"), os.path.join(folder, "crates"), ignore=leave)
    with open(os.path.join(TOP, "crates.txt"), encoding="utf-8") as crates:
        listed = crates.read()
    with open(os.path.join(folder, "crates.txt"), "w", encoding="utf-8") as crates:
        crates.write(f"{listed}fuzz_boxes: {USES}\n")
    os.mkdir(os.path.join(folder, ".git"))
    crate = os.path.join(folder, "crates", "fuzz_boxes")
    os.makedirs(os.path.join(crate, "src"))
    for path in glob.glob(os.path.join(HERE, "fuzz_boxes", "*.rt.in")):
        shutil.copy(path, os.path.join(crate, "src", os.path.basename(path)[:-len(".in")]))
    return crate


def try_boxes(told):
    """Runs the crate; its exit status is 0 where no step showed a difference."""
    with tempfile.TemporaryDirectory() as folder:
        crate = copy_with_boxes(folder)
        # One step of the interpreter, which is too slow; the compiled run is the one that counts.
        words = ["rt", "try", "--steps", "1", "--seconds", str(told.seconds + 300)]
        words += ["--", str(told.seed), str(told.steps), str(told.seconds)]
        ended = subprocess.run(words, cwd=crate, stdin=subprocess.DEVNULL, stdout=subprocess.PIPE,
                               stderr=subprocess.PIPE, text=True, timeout=told.seconds + COMPILING)
    print(ended.stdout, end="")
    if ended.returncode:
        print(ended.stderr, end="", file=sys.stderr)
    return ended.returncode


def whole(program, script):
    """Status and output of a run over a script that is a file."""
    with tempfile.TemporaryFile() as file:
        file.write(script)
        file.seek(0)
        ended = subprocess.run([program, "run"], stdin=file, stdout=subprocess.PIPE, stderr=subprocess.DEVNULL,
                               timeout=failing.LONGEST)
    return ended.returncode, ended.stdout


def pieces(script, pick):
    """A script cut into pieces of sizes by chance: small ones, or also ones that are longer than a line may be."""
    longest = pick.choice((1, 3, 17, 200, 9000))
    at = 0
    while at < len(script):
        size = pick.randint(1, longest)
        yield script[at:at + size]
        at += size


def in_pieces(program, script, pick):
    """Status and output of a run that is given its script in pieces, some of them late."""
    process = subprocess.Popen([program, "run"], stdin=subprocess.PIPE, stdout=subprocess.PIPE,
                               stderr=subprocess.DEVNULL, bufsize=0)
    parts = [(part, pick.random() < 0.02) for part in pieces(script, pick)]

    def give():
        try:
            for part, is_late in parts:
                process.stdin.write(part)
                if is_late:
                    time.sleep(0.001)
            process.stdin.close()
        except BrokenPipeError:
            # The program has refused a line, and reads no more.
            pass

    giving = threading.Thread(target=give)
    giving.start()
    output = process.stdout.read()
    status = process.wait(timeout=failing.LONGEST)
    giving.join()
    return status, output


def try_scripts(told):
    """Plays scripts until so many were played or the time has passed; 1 where one is answered differently in pieces."""
    program = failing.needed(told.program)
    statuses, reasons, lines, begun = collections.Counter(), collections.Counter(), 0, time.monotonic()
    for number in range(told.scripts):
        if time.monotonic() - begun > told.seconds:
            break
        pick = random.Random(f"{told.seed} {number}")
        script = made_scripts.script(pick)
        status, output = whole(program, script)
        if in_pieces(program, script, pick) != (status, output):
            with open("different.spb", "wb") as file:
                file.write(script)
            print(f"DIFFERENCE: seed {told.seed}, script {number}, which is in different.spb")
            return 1
        statuses[status] += 1
        lines += script.count(b"\n")
        last = output.rsplit(b"\n", 2)[-2:-1]
        if last and last[0].startswith(b"error "):
            reasons[last[0].split()[3].decode()] += 1
    print(f"scripts {sum(statuses.values())}, lines {lines}")
    print("ended with status", ", ".join(f"{status}: {count}" for status, count in sorted(statuses.items())))
    print("refused as", ", ".join(f"{reason} {count}" for reason, count in reasons.most_common()))
    return 0


def main():
    parser = argparse.ArgumentParser(description="Tries boxes and scripts by chance.")
    parser.add_argument("what", choices=("boxes", "scripts"))
    parser.add_argument("program", nargs="?", default=failing.BUILT, help="for scripts: the built program")
    parser.add_argument("--seed", type=int, default=1)
    parser.add_argument("--steps", type=int, default=1_000_000, help="for boxes: at most so many steps")
    parser.add_argument("--scripts", type=int, default=10_000, help="at most so many scripts")
    parser.add_argument("--seconds", type=int, default=300, help="nothing new begins after so many seconds")
    told = parser.parse_intermixed_args()
    return try_boxes(told) if told.what == "boxes" else try_scripts(told)


if __name__ == "__main__":
    sys.exit(main())
