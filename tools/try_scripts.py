#!/usr/bin/env python3
"""Plays many scripts in one checked run, which is compiled once for all of them.

    tools/try_scripts.py [--kind K] [--into FOLDER] SCRIPT ..

A SCRIPT is a file, or a folder, which stands for each file NAME.spb in it. For each script a line has its name and the
status of its run, and the answers follow; with --into they go to FOLDER/NAME.out. Like each run of ./spbsim before a
program is built, these are checked as they run and not proved, and have the same limits (docs/SCRIPT.md, Checked runs).
The exit status is 0 where each script has an answer, whatever the status of its run, 1 where one has none, and 2 where
nothing was run.
"""
import argparse
import glob
import os
import re
import shutil
import signal
import subprocess
import sys
import tempfile

CRATE = os.path.join(os.path.dirname(os.path.abspath(__file__)), "..", "crates", "spbsim")


def say(text):
    print(f"try_scripts.py: {text}", file=sys.stderr, flush=True)


def scripts(named):
    """The paths of all scripts, where a folder stands for those in it."""
    for path in named:
        if os.path.isdir(path):
            yield from sorted(glob.glob(os.path.join(glob.escape(path), "*.spb")))
        else:
            yield path


def into(folder, path):
    """The file in the folder to which the answers to a script go."""
    name = os.path.basename(path)
    return os.path.join(folder, (name[:-4] if name.endswith(".spb") else name) + ".out")


def play(paths, kind):
    """What rt writes and says when it plays the scripts, each as the case of its number."""
    with tempfile.TemporaryDirectory() as cases:
        for number, path in enumerate(paths):
            shutil.copyfile(path, os.path.join(cases, f"{number:06}"))
        words = ["rt", "try", "--seconds", "3600", "--cases", cases, "--", "run"]
        words += ["--kind", kind] if kind else []
        how = {"stdin": subprocess.DEVNULL, "stdout": subprocess.PIPE, "stderr": subprocess.PIPE}
        # In a session of its own: two signals at once, from the terminal and from here, would cut short how rt ends.
        with subprocess.Popen(words, cwd=CRATE, start_new_session=True, **how) as rt:
            try:
                written, said = rt.communicate()
            except BaseException:
                # Only rt can end what it has started, so it isn't killed.
                rt.terminate()
                rt.wait()
                raise
    return written, said.decode("utf-8", "replace")


def answers(written):
    """The answers of each case, by its number; no line of an answer begins with ==."""
    parts = re.split(rb"^== (\d{6})\n", written, flags=re.MULTILINE)
    return {int(number): part for number, part in zip(parts[1::2], parts[2::2])}


def ends(said):
    """By the number of each case its status, None where there is no answer, and what rt says of it."""
    parts = re.split(r"^case=(\d{6}) (.*)\n", said, flags=re.MULTILINE)
    for before, number, line in zip(parts[0::3], parts[1::3], parts[2::3]):
        status = re.match(r"run=ended status=(\d+) ", line)
        yield int(number), int(status[1]) if status else None, before if status else f"{before}{line}\n"


def tell(path, status, answer, folder):
    """Writes a script's line and its answers."""
    print(f"== {path}: {'no answer' if status is None else f'status {status}'}", flush=True)
    if status is not None and folder is None:
        sys.stdout.buffer.write(answer)
        sys.stdout.buffer.flush()
    elif status is not None:
        with open(into(folder, path), "wb") as file:
            file.write(answer)


def play_and_tell(paths, told):
    """Plays the scripts and tells of each; 1 where one has no answer."""
    written, said = play(paths, told.kind)
    answered, ended = answers(written), list(ends(said))
    for number, status, words in ended:
        tell(paths[number], status, answered.get(number, b""), told.into)
        sys.stderr.write(words)
    if len(ended) < len(paths):
        sys.stderr.write(said)
        say(f"no answer to {len(paths) - len(ended)} scripts, for the reason above")
    return 0 if len(ended) == len(paths) and all(status is not None for _, status, _ in ended) else 1


def main():
    parser = argparse.ArgumentParser(description="Plays many scripts in one checked run.")
    parser.add_argument("scripts", nargs="+", metavar="SCRIPT", help="a script, or a folder of files NAME.spb")
    parser.add_argument("--kind", choices=("plain", "swift", "mixed"), help="which kind of box the bridges take")
    parser.add_argument("--into", metavar="FOLDER", help="write the answers to FOLDER/NAME.out")
    told = parser.parse_args()
    paths = list(scripts(told.scripts))
    for path in paths:
        if not os.access(path, os.R_OK):
            parser.error(f"{path} can't be read")
    if not paths:
        parser.error("there is no script")
    if told.into and len({into(told.into, path) for path in paths}) < len(paths):
        parser.error("two scripts have one name, and so would their answers")
    if not shutil.which("rt"):
        parser.error("rt, the command of the toolchain, isn't on the path")
    if told.into:
        os.makedirs(told.into, exist_ok=True)
    signal.signal(signal.SIGTERM, lambda number, _: sys.exit(128 + number))
    say("NOT PROVED: these runs are checked as they run (two to three minutes, and what the scripts take)")
    try:
        return play_and_tell(paths, told)
    except KeyboardInterrupt:
        # Ends by the signal itself, so that a shell's loop ends too.
        signal.signal(signal.SIGINT, signal.SIG_DFL)
        os.kill(os.getpid(), signal.SIGINT)


if __name__ == "__main__":
    sys.exit(main())
