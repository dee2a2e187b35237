"""The built program, run with calls that fail: what refuse_memory.py, fail_io.py and fuzz.py share."""
import concurrent.futures
import glob
import os
import subprocess
import sys
import tempfile

HERE = os.path.dirname(os.path.abspath(__file__))
BUILT = os.path.join(HERE, "..", "crates", "spbsim", "out", "spbsim")
# the seconds after which a run counts as one that hangs
LONGEST = 120


def add_arguments(parser):
    """The arguments that both scripts take."""
    parser.add_argument("program", nargs="?", default=BUILT, help="the built program (default: this repository's)")
    parser.add_argument("--most", type=int, help="try at most so many calls of each script, evenly spread")
    parser.add_argument("--jobs", type=int, default=os.cpu_count(), help="how many runs at once")


def needed(program):
    """The whole path of a program. Where it isn't there, this says so and ends with status 2."""
    if os.path.isfile(program) and os.access(program, os.X_OK):
        return os.path.abspath(program)
    made = ": ./build makes it" if program == BUILT else ""
    print(f"{os.path.basename(sys.argv[0])}: {os.path.relpath(program)} isn't there{made}", file=sys.stderr)
    sys.exit(2)


def scripts():
    """Name, path and right output of each script in tools/scripts."""
    for path in sorted(glob.glob(os.path.join(HERE, "scripts", "*.spb"))):
        with open(path[:-4] + ".out", "rb") as right:
            yield os.path.basename(path)[:-4], path, right.read()


def spread(count, most):
    """The numbers from 1 to count, or so many of them, evenly spread, with the first and the last."""
    if most is None or most >= count:
        return list(range(1, count + 1))
    return sorted({1 + k * (count - 1) // max(most - 1, 1) for k in range(most)})


def unwanted(statuses, wanted):
    """A line for each status that isn't wanted."""
    return [f"{count} runs ended with status {status}" for status, count in statuses.items() if status not in wanted]


class Failing:
    """The program and the library that lets its calls fail, compiled into a folder of its own."""

    def __init__(self, program):
        self.program = needed(program)
        self.folder = tempfile.TemporaryDirectory()
        self.library = os.path.join(self.folder.name, "fail_calls.so")
        source = os.path.join(HERE, "fail_calls.c")
        subprocess.run(["cc", "-O2", "-shared", "-fPIC", "-o", self.library, source], check=True)

    def run(self, path, **told):
        """Status and output of `run` on a script; the status is None where it hangs."""
        told = {"LD_PRELOAD": self.library, **{name: str(number) for name, number in told.items()}}
        with open(path, "rb") as script:
            try:
                ended = subprocess.run([self.program, "run"], stdin=script, stdout=subprocess.PIPE,
                                       stderr=subprocess.DEVNULL, env=told, timeout=LONGEST)
            except subprocess.TimeoutExpired as error:
                return None, error.stdout or b""
        return ended.returncode, ended.stdout

    def counts(self, path, right, **told):
        """How many allocations, and how many reads and writes, the run of a script takes when nothing fails."""
        counts = os.path.join(self.folder.name, "counts")
        ended = self.run(path, COUNTS=counts, **told)
        if ended != (0, right):
            sys.exit(f"{path}: not what is beside it: status {ended[0]}, {len(ended[1])} bytes")
        with open(counts, encoding="ascii") as told:
            return tuple(int(word) for word in told.read().split())

    def sweep(self, path, right, name, numbers, jobs, **told):
        """Runs a script once for each number, which names the call that fails: how many runs ended with each status,
        and a line for each run that is wrong: its output is no front of the right one, or isn't all of it at 0."""
        statuses, wrong = {}, []

        def one(number):
            return number, *self.run(path, **{name: number}, **told)

        with concurrent.futures.ThreadPoolExecutor(jobs) as pool:
            for number, status, output in pool.map(one, numbers):
                statuses[status] = statuses.get(status, 0) + 1
                if not right.startswith(output) or (status == 0 and output != right):
                    wrong.append(f"{name}={number}: status {status} and {len(output)} bytes, not the right ones")
        return statuses, wrong
