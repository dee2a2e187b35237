"""What a run of a program takes: processor time, memory and instructions."""
import os
import re
import shutil
import subprocess
import sys
import tempfile
import time

HERE = os.path.dirname(os.path.abspath(__file__))
BUILT = os.path.join(HERE, "..", "crates", "spbsim", "out", "spbsim")


def help_asked(text):
    """Whether the words ask for help, which is then printed."""
    asked = "--help" in sys.argv[1:] or "-h" in sys.argv[1:]
    if asked:
        print(text.strip())
    return asked


def need(programs):
    """Ends with status 2 where one of the programs isn't there, and says which."""
    for program in programs:
        if not shutil.which(program):
            made = ": ./build makes it" if program == BUILT else ""
            print(f"{os.path.basename(sys.argv[0])}: {os.path.relpath(program)} isn't there{made}", file=sys.stderr)
            sys.exit(2)


def high_water(pid):
    """The most memory that a process has had so far, in MB; None once it has ended."""
    try:
        with open(f"/proc/{pid}/status") as status:
            found = re.search(r"VmHWM:\s*(\d+) kB", status.read())
    except OSError:
        return None
    return int(found.group(1)) / 1024 if found else None


def measure(program, path, words=("run",)):
    """Processor seconds, peak memory in MB and exit status of one run.

    What the system tells of a child after its end counts the memory of the process that it was forked from as well, so
    the peak is read off the program while it runs.
    """
    peak = 0.0
    with open(path, "rb") as script, open(os.devnull, "wb") as nowhere:
        process = subprocess.Popen([program, *words], stdin=script, stdout=nowhere, stderr=nowhere)
        while True:
            peak = max(peak, high_water(process.pid) or 0.0)
            pid, status, usage = os.wait4(process.pid, os.WNOHANG)
            if pid:
                return usage.ru_utime + usage.ru_stime, peak, os.waitstatus_to_exitcode(status)
            time.sleep(0.0005)


def instructions(program, path, words=("run",)):
    """How many instructions a run takes, by valgrind."""
    counted = ["valgrind", "--tool=callgrind", f"--callgrind-out-file={os.devnull}", program, *words]
    with open(path, "rb") as script:
        run = subprocess.run(counted, stdin=script, stdout=subprocess.DEVNULL, stderr=subprocess.PIPE, text=True)
    found = re.search(r"Collected : (\d+)", run.stderr)
    return int(found.group(1)) if found else None


def need_valgrind():
    """Ends with status 2 where valgrind isn't there."""
    if not shutil.which("valgrind"):
        print(f"{os.path.basename(sys.argv[0])}: valgrind, which counts instructions, isn't on the path", file=sys.stderr)
        sys.exit(2)


class Script:
    """A script in a file of its own, while it is needed."""

    def __init__(self, lines):
        self.lines = lines

    def __enter__(self):
        with tempfile.NamedTemporaryFile("w", suffix=".spb", delete=False) as script:
            script.write("\n".join(self.lines) + "\n")
        self.path = script.name
        return self.path

    def __exit__(self, *_):
        os.unlink(self.path)
