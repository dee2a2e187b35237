#!/usr/bin/env python3
"""Calls ./spbsim and ./build in the ways in which they may be called, and compares bytes, words and status.

    tools/try_launcher.py [--real]

They are called in a copy of this repository. Where no program is built in it, a stand-in takes the place of rt: it
keeps its words and its input, writes an answer and ends as it is told. With --real there is also a copy of all sources,
and the toolchain's rt runs an example and each other form (some fifteen minutes). Where a program is built, the program
that ./build made here takes part, and else a stand-in for it. The last lines tell what was covered; the exit status is
1 where something was wrong.
"""
import argparse
import fcntl
import os
import pty
import re
import select
import shlex
import shutil
import signal
import subprocess
import sys
import tempfile
import termios
import time

import failing

TOP = os.path.dirname(os.path.dirname(os.path.abspath(__file__)))
EXAMPLE = os.path.join(TOP, "examples", "quiet-drill")
FORMS = (["run"], ["run", "--kind", "plain"], ["run", "--kind", "swift"], ["run", "--kind", "mixed"], ["make", "4"],
         ["make", "10"], ["make", "96"], ["try", "9"], ["try", "24", "--kind", "swift"], ["capture"], ["list"])
NO_FORMS = ([], [""], ["-h"], ["--help"], ["--version"], ["RUN"], ["run", "FILE"], ["run", ""], ["run", "--kind"],
            ["run", "--kind", "fast"], ["run --kind swift"], ["run", "--kind", "swift", "FILE"], ["make"],
            ["make", "3"], ["make", "97"], ["make", "04"], ["make", "100"], ["make", "4", "--kind", "plain"], ["try"],
            ["try", "4", "5"], ["try", "4", "--kind"], ["capture", "FILE"], ["list", "FILE"])
USAGE = b"Usage: spbsim <run [--kind K] | make N | try N [--kind K] | capture | list>\n"
TERMINAL = b"spbsim: the script is read from the terminal; it ends with Ctrl-D on a line of its own\n"
# the seconds after which a call counts as one that hangs: with stand-ins, and with a checked run
LONGEST, LONGEST_REAL = 60, 1800

# In the place of rt and of the program: it keeps folder and words of each call, and its input. `rt all` writes what it
# is told, and `rt run` makes a program.
STAND_IN = r"""#!/bin/sh
printf '%s\037' "$PWD" "$@" >>"$RECORD/calls"
echo >>"$RECORD/calls"
echo $$ >"$RECORD/process"
case ${0##*/}-$1 in
    rt-all) cat "$RECORD/transcript"; exit "$STATUS" ;;
    rt-run) mkdir -p out; cp "$0" out/spbsim; exit 0 ;;
esac
cat >"$RECORD/input"
printf 'an answer\nand another\n'
echo 'a warning' >&2
if [ "${0##*/}" = rt ]; then
    echo "checked: ended status=$STATUS" >&2
    echo "run=$ENDED status=$STATUS runners=1 proved=no" >&2
fi
[ -z "$LASTS" ] || exec sleep "$LASTS"
exit "$STATUS"
"""
ANSWER, WARNING = b"an answer\nand another\n", b"a warning\n"


def read(path):
    """The bytes of a file; none where it isn't there."""
    if not os.path.exists(path):
        return b""
    with open(path, "rb") as file:
        return file.read()


def write_program(path, text):
    with open(path, "w", encoding="ascii") as file:
        file.write(text)
    os.chmod(path, 0o755)


class Copy:
    """A copy of the repository in a folder of its own, with places to call its launcher from."""

    def __init__(self, folder, is_real=False):
        self.folder, self.top = folder, os.path.join(folder, "top")
        self.record, self.temporary = os.path.join(folder, "record"), os.path.join(folder, "temporary")
        self.elsewhere = os.path.join(folder, "else where")
        for made in (self.top, self.record, self.temporary, self.elsewhere):
            os.mkdir(made)
        for name in ("spbsim", "build", "crates.txt"):
            shutil.copy(os.path.join(TOP, name), self.top)
        self.crate = os.path.join(self.top, "crates", "spbsim")
        self.program = os.path.join(self.crate, "out", "spbsim")
        if is_real:
            shutil.copytree(os.path.join(TOP, "crates"), os.path.join(self.top, "crates"),
                            ignore=shutil.ignore_patterns("out", "must-fail"))
            os.mkdir(os.path.join(self.top, ".git"))
        else:
            os.makedirs(os.path.join(self.crate, "src"))
            write_program(os.path.join(self.crate, "src", "main.rt"), "")
        os.symlink(os.path.join(self.top, "spbsim"), os.path.join(self.elsewhere, "link"))
        # It is none of the repository's, so that the link doesn't tell of it.
        write_program(os.path.join(self.elsewhere, "build"), "")
        self.bare, self.with_rt = self.commands(is_real)

    def commands(self, is_real):
        """The paths of commands without rt and with it."""
        bare, with_rt = os.path.join(self.folder, "bare"), os.path.join(self.folder, "rt")
        os.mkdir(bare)
        os.mkdir(with_rt)
        for name in ("bash", "sh", "env", "dirname", "readlink", "find", "mktemp", "rm", "head", "sed", "cat", "sleep",
                     "setsid", "cp", "mkdir", "awk", "nproc", "sort", "grep", "touch"):
            os.symlink(shutil.which(name), os.path.join(bare, name))
        write_program(os.path.join(with_rt, "rt"), STAND_IN)
        return bare, os.environ["PATH"] if is_real else f"{with_rt}:{bare}"

    def build(self, program):
        """Puts a program in its place, newer than the sources."""
        for folder, _, names in os.walk(self.top):
            for name in names:
                os.utime(os.path.join(folder, name), (1e9, 1e9))
        os.makedirs(os.path.dirname(self.program), exist_ok=True)
        if program:
            shutil.copy(program, self.program)
        else:
            write_program(self.program, STAND_IN)

    def places(self):
        """How the launcher may be called: a name of the place, the word, the folder and how the word build is told."""
        build = os.path.join(self.top, "build")
        yield "its own folder", "./spbsim", self.top, "./build"
        yield "another folder", "../top/spbsim", self.elsewhere, "../top/build"
        yield "its whole path", os.path.join(self.top, "spbsim"), self.elsewhere, build
        yield "a symbolic link", "./link", self.elsewhere, build

    def environment(self, **told):
        path = told.pop("PATH", self.with_rt)
        said = {"STATUS": "0", "ENDED": "ended", "LASTS": "", **told}
        return {"PATH": path, "TMPDIR": self.temporary, "RECORD": self.record, **said}

    def forget(self):
        for name in os.listdir(self.record):
            os.remove(os.path.join(self.record, name))

    def calls(self):
        """Folder and words of each call of a stand-in."""
        lines = read(os.path.join(self.record, "calls")).decode().split("\037\n")[:-1]
        return [line.split("\037") for line in lines]

    def input(self):
        return read(os.path.join(self.record, "input"))

    def leftovers(self):
        """What a call has left behind: files, and the process of a stand-in."""
        left = os.listdir(self.temporary)
        process = read(os.path.join(self.record, "process")).decode().strip()
        if process and os.path.isdir(f"/proc/{process}"):
            left.append(f"process {process}")
        return left


def by_default():
    """Before a command is run: an interrupt ends it, whatever this process was told."""
    signal.signal(signal.SIGINT, signal.SIG_DFL)


def at_terminal():
    """Before a command is run: its standard input is its terminal."""
    by_default()
    os.setsid()
    fcntl.ioctl(0, termios.TIOCSCTTY, 0)


def call(words, folder, env, script=b"", longest=LONGEST):
    """Status, output and standard error of a command whose script comes by a pipe; no status where it hangs."""
    process = subprocess.Popen(words, cwd=folder, env=env, stdin=subprocess.PIPE, stdout=subprocess.PIPE,
                               stderr=subprocess.PIPE, preexec_fn=by_default)
    try:
        output, said = process.communicate(script, timeout=longest)
        return process.returncode, output, said
    except subprocess.TimeoutExpired:
        process.terminate()
        return None, *process.communicate()


def not_proved(build):
    return (b"spbsim: NOT PROVED: no program is built from these sources, so this run is checked as it runs (two to "
            b"three minutes)\nspbsim: %s proves and builds one, in three quarters of an hour or so\n"
            % quoted(build).encode())


def quoted(word):
    """The word as a shell's printf writes it by %q."""
    return subprocess.run(["bash", "-c", 'printf %q "$1"', "bash", word], stdout=subprocess.PIPE).stdout.decode()


def tried(form):
    """The words that rt is given for a form."""
    return ["try", "--seconds", "3600", "--", *form]


def forms_are_tried(copy):
    """Without a program: each form from each place."""
    for place, word, folder, build in copy.places():
        for number, form in enumerate(FORMS):
            copy.forget()
            status = number % 7
            script = b"a script\r\n\0" if form[0] in ("run", "capture", "list") else b""
            ended = call([word, *form], folder, copy.environment(STATUS=str(status)), b"a script\r\n\0")
            what = f"{' '.join(form)} from {place}"
            yield f"{what}: the end", ended, (status, ANSWER, not_proved(build) + WARNING)
            yield f"{what}: rt's words", copy.calls(), [[copy.crate, *tried(form)]]
            yield f"{what}: the script", copy.input(), script
            yield f"{what}: what is left", copy.leftovers(), []


def no_forms_are_refused(copy):
    """Without a program: words that are no form are answered at once, also where rt isn't there."""
    for place, word, folder, _ in copy.places():
        for words in NO_FORMS:
            copy.forget()
            ended = call([word, *words], folder, copy.environment(PATH=copy.bare), b"a script")
            said = (b"spbsim: the script comes on standard input: %s run < FILE\n"
                    b"spbsim: docs/SCRIPT.md has each line of a script, and the program's words\n"
                    % quoted(word).encode())
            yield f"{words} from {place}", (ended, copy.calls()), ((2, b"", USAGE + said), [])


def no_answer_is_told(copy):
    """Without a program: what ends with 125, and then nothing is written."""
    def ended(script="run", **told):
        copy.forget()
        status, output, said = call(["sh", "-c", f"./spbsim {script}"], copy.top, copy.environment(**told), b"a script")
        return status, output, said.splitlines()[-1], copy.leftovers()

    rest = b", for the reason above (docs/SCRIPT.md, Checked runs)"
    closed = b": standard output is closed"
    for what, found, why in (
            ("without rt", ended(PATH=copy.bare), b": rt, the command of the toolchain, isn't on the path"),
            ("a fault", ended(STATUS="4", ENDED="fault"), rest),
            ("a status that isn't the program's", ended(STATUS="3", ENDED="no-answer"), rest),
            ("no standard output", ended("run >&-"), closed),
            ("no standard output for make", ended("make 4 >&-"), closed),
            ("no room for the output", ended("run >/dev/full"), b": standard output can't be written"),
            ("no standard input", ended("run <&-"), b": standard input can't be read"),
            ("a folder as standard input", ended("run <."), b": standard input can't be read")):
        yield what, found, (125, b"", b"spbsim: no answer" + why, [])


def slow_pipes_are_read(copy):
    """Without a program: a script that comes late is read to its end."""
    copy.forget()
    process = subprocess.Popen(["./spbsim", "run"], cwd=copy.top, env=copy.environment(), stdin=subprocess.PIPE,
                               stdout=subprocess.PIPE, stderr=subprocess.PIPE)
    for part in (b"a script ", b"in ", b"parts\n"):
        time.sleep(0.3)
        process.stdin.write(part)
        process.stdin.flush()
    output, _ = process.communicate(timeout=LONGEST)
    yield "in parts", (process.returncode, output, copy.input()), (0, ANSWER, b"a script in parts\n")


class Terminal:
    """A command with a terminal on standard input, and on standard error where that is told."""

    def __init__(self, words, folder, env, shows=False):
        self.keys, inside = pty.openpty()
        self.process = subprocess.Popen(words, cwd=folder, env=env, stdin=inside, stdout=subprocess.PIPE,
                                        stderr=inside if shows else subprocess.PIPE, preexec_fn=at_terminal)
        os.close(inside)
        self.shown = b""

    def wait_for(self, text, longest=LONGEST):
        """Waits until the terminal shows a text; whether it did."""
        until = time.monotonic() + longest
        while text not in self.shown and time.monotonic() < until:
            if select.select([self.keys], [], [], 0.1)[0]:
                try:
                    self.shown += os.read(self.keys, 65536)
                except OSError:
                    break
        return text in self.shown

    def type(self, keys):
        os.write(self.keys, keys)

    def end(self, longest=LONGEST):
        """Status, output and standard error, where that isn't the terminal."""
        output, said = self.process.communicate(timeout=longest)
        self.wait_for(b"no such text", 0.3)
        os.close(self.keys)
        return self.process.returncode, output, said


def terminals_are_told(copy, is_built):
    """A script that is typed at a terminal: it is said how it ends; of `make` nothing is said."""
    typed_lines = b"state\n\4"
    for form, typed in ((["run"], typed_lines), (["capture"], typed_lines), (["run", "--kind", "swift"], b"\4"),
                        (["make", "4"], b"")):
        copy.forget()
        terminal = Terminal(["./spbsim", *form], copy.top, copy.environment())
        terminal.type(typed)
        # The program reads on: what make is given it would get from the terminal, and rt gets nothing.
        terminal.type(b"\4" if is_built and form[0] == "make" else b"")
        _, output, said = terminal.end()
        wanted = b"" if is_built else not_proved("./build")
        wanted += TERMINAL if form[0] in ("run", "capture") else b""
        yield f"{' '.join(form)}", (output, said, copy.input()), (ANSWER, wanted + WARNING, typed[:-1])
    if is_built:
        terminal = Terminal(["./spbsim", "run", "FILE"], copy.top, copy.environment())
        terminal.type(b"\4")
        yield "words that are no form", terminal.end()[2], WARNING


def seconds_are_shown(copy):
    """Without a program: a terminal on standard error shows that something goes on, and in the end no more."""
    terminal = Terminal(["./spbsim", "make", "4"], copy.top, copy.environment(LASTS="2"), shows=True)
    ended = terminal.end()
    shown = terminal.shown.replace(b"\r\n", b"\n")
    yield "the end", ended[:2], (0, ANSWER)
    lines = re.escape(not_proved("./build")) + rb"(\rspbsim: \d+ seconds){2,}\r +\r" + re.escape(WARNING)
    yield "what the terminal shows", bool(re.fullmatch(lines, shown)) or shown, True


def begin(words, copy, script, **told):
    """A command in a group of processes of its own, whose input stays open."""
    copy.forget()
    process = subprocess.Popen(words, cwd=copy.top, env=copy.environment(**told), stdin=subprocess.PIPE,
                               stdout=subprocess.PIPE, stderr=subprocess.PIPE, start_new_session=True,
                               preexec_fn=by_default)
    process.stdin.write(script)
    process.stdin.flush()
    return process


def wait_until(is_so, longest=LONGEST):
    until = time.monotonic() + longest
    while not is_so() and time.monotonic() < until:
        time.sleep(0.02)


def signals_end_it(copy):
    """Without a program: a signal ends the launcher by itself, while it reads and while rt runs."""
    for number in (signal.SIGINT, signal.SIGTERM, signal.SIGHUP):
        for is_reading in (True, False):
            process = begin(["./spbsim", "run"], copy, b"half a script", LASTS="60")
            if is_reading:
                wait_until(lambda: os.listdir(copy.temporary))
                time.sleep(0.2)
            else:
                process.stdin.close()
                process.stdin = None
                wait_until(copy.input)
                # What goes to the whole group, as Ctrl-C does, doesn't come to rt as well.
                yield "rt's group", os.getpgid(int(read(os.path.join(copy.record, "process")))) == process.pid, False
            # Ctrl-C goes to all in the foreground, other signals mostly to the launcher alone.
            (os.killpg if number == signal.SIGINT else os.kill)(process.pid, number)
            output, said = process.communicate(timeout=LONGEST)
            what = f"{number.name} while {'the script is read' if is_reading else 'rt runs'}"
            yield what, (process.returncode, output, said, copy.leftovers()), (-number, b"", not_proved("./build"), [])


def interrupts_end_loops(copy):
    """Without a program: Ctrl-C at a terminal ends a shell's loop over scripts too."""
    loop = "for k in 1 2 3; do ./spbsim make 4; done; echo went on"
    copy.forget()
    terminal = Terminal(["bash", "-c", loop], copy.top, copy.environment(LASTS="60"), shows=True)
    is_going = terminal.wait_for(b" seconds")
    wait_until(copy.calls)
    terminal.type(b"\3")
    ended = terminal.end()
    yield "a loop", (is_going, *ended[:2], copy.leftovers()), (True, -signal.SIGINT, b"", [])
    yield "once", len(copy.calls()), 1


def words_are_handed_on(copy):
    """With a program: it gets all words and all bytes, and its end is the launcher's."""
    script = read(EXAMPLE + ".spb")
    for place, word, folder, _ in copy.places():
        for words in (*FORMS, *NO_FORMS):
            copy.forget()
            by_launcher = call([word, *words], folder, copy.environment(STATUS="5"), script)
            calls, given = copy.calls(), copy.input()
            copy.forget()
            alone = call([copy.program, *words], folder, copy.environment(STATUS="5"), script)
            found = (by_launcher, calls, given)
            yield f"{words} from {place}", found, (alone, copy.calls(), copy.input())


def examples_are_answered(copy):
    """With the program that was built: the example, a script that is made, and the usage."""
    script, right = read(EXAMPLE + ".spb"), read(EXAMPLE + ".out")
    for form in FORMS[:4]:
        yield " ".join(form), call(["./spbsim", *form], copy.top, copy.environment(), script), (0, right, b"")
    yield "usage", call(["./spbsim", "run", "FILE"], copy.top, copy.environment(), script), (2, b"", USAGE)
    made = call(["./spbsim", "make", "9"], copy.top, copy.environment())
    yield "make 9", (made[0], made[1].count(b"\n"), made[2]), (0, 153, b"")
    counts = b"try 24 lines 395 shows 72 same 72 outs 96\n"
    yield "try 24", call(["./spbsim", "try", "24"], copy.top, copy.environment()), (0, counts, b"")


def stale_programs_are_left(copy):
    """A source that is newer than the program: the run is checked, and words are judged without rt."""
    os.utime(os.path.join(copy.crate, "src", "main.rt"))
    os.utime(copy.program, (1e9, 1e9))
    copy.forget()
    ended = call(["./spbsim", "make", "4"], copy.top, copy.environment())
    yield "a form", (ended, copy.calls()), ((0, ANSWER, not_proved("./build") + WARNING),
                                            [[copy.crate, *tried(["make", "4"])]])
    yield "no form", call(["./spbsim", "-h"], copy.top, copy.environment())[0], 2


PROVED = "fn %s::law: proved\nlogic=proved functions=1 sum=0 native=nat\n"
QUICK = "statements std: modules loaded=0 checked=0\nonly=0 proved=0\n"
WHOLE = f"{QUICK}== low\n{PROVED % 'low'}== kept\n== spbsim\n{PROVED % 'spbsim'}== summary\nlow: ok\nkept: ok\n" \
        "spbsim: ok\n3 of 3 crates ok\n"
PART = f"{QUICK}== low\n{PROVED % 'low'}== middle\nfn middle::law: not proved\nlogic=open\n== summary\nlow: ok\n" \
       "middle: failed (1)\nspbsim: not run, since middle failed\n1 of 3 crates ok\n"


def builds_are_made(copy):
    """./build with a stand-in for rt: what it calls, what it says, and that it reads no standard input."""
    transcript = os.path.join(copy.record, "transcript")

    def build(text, **told):
        copy.forget()
        with open(transcript, "w", encoding="ascii") as file:
            file.write(text)
        status, output, said = call(["sh", "-c", "./build; status=$?; cat; exit $status"], copy.top,
                                    copy.environment(**told), b"not for ./build")
        return (status, output), said.decode().splitlines(), [words[1:] for words in copy.calls()], copy.leftovers()

    alls, run = ["all", "check", "--jobs", "3"], ["run", "--", "run"]
    crates = re.findall(r"(?m)^(\w+):", read(os.path.join(copy.top, "crates.txt")).decode()).index("spbsim") + 1
    begun = f"build: {crates} crates are proved where that isn't done, 3 at a time; then the program is compiled"
    low, last = f"build: low is proved (1 of {crates})", f"build: spbsim is proved (3 of {crates})"
    failed = (1, b"not for ./build")
    yield "quick pass fails", build("error: x\nrt: mend these first: x\n", STATUS="1", JOBS="3"), (
        failed, [begun, "error: x", "rt: mend these first: x"], [alls], [])
    yield "a crate fails", build(PART, STATUS="1", JOBS="3"), (
        failed, [begun, low, "build: middle isn't proved", "fn middle::law: not proved", "logic=open",
                 "middle: failed (1)", "spbsim: not run, since middle failed", "1 of 3 crates ok"], [alls], [])
    built = (0, b"not for ./build")
    yield "all is proved", build(WHOLE, JOBS="3"), (built, [begun, low, last, "3 of 3 crates ok"], [alls, run], [])
    yield "nothing is newer", build(WHOLE, JOBS="3"), (built, [], [run], [])
    copy.forget()
    ended = call(["./spbsim", "make", "4"], copy.top, copy.environment())
    yield "what was built is run", (ended, copy.calls()), ((0, ANSWER, WARNING), [[copy.top, "make", "4"]])
    os.utime(os.path.join(copy.crate, "src", "main.rt"))
    chosen = build(WHOLE)
    yield "a source is newer", (chosen[0], [words[:3] for words in chosen[2]]), (built, [alls[:3], run])
    yield "so many at a time", chosen[2][0][3] in ("1", "2", "3", "4"), True


def real_runs_answer(copy):
    """Without a program, with the toolchain's rt: the example, each other form, the usage and an interrupt."""
    script, right = read(EXAMPLE + ".spb"), read(EXAMPLE + ".out")
    places = {place: (word, folder, build) for place, word, folder, build in copy.places()}

    def ended(place, form, given=b""):
        word, folder, build = places[place]
        found = call([word, *form], folder, copy.environment(), given, LONGEST_REAL)
        return found, not_proved(build)

    found, said = ended("its own folder", ["run"], script)
    yield "run", (found, copy.leftovers()), ((0, right, said), [])
    found, said = ended("a symbolic link", ["run", "--kind", "swift"], script + b"show none\n")
    lines = script.count(b"\n") + 1
    yield "run --kind swift, refused", found, (1, right + b"error %d 2 NoSuchName\n" % lines, said)
    found, said = ended("another folder", ["make", "4"], script)
    yield "make 4", (found[0], found[1].count(b"\n"), found[2]), (0, 72, said)
    found, said = ended("its whole path", ["try", "4", "--kind", "mixed"], script)
    yield "try 4 --kind mixed", found, (0, b"try 4 lines 72 shows 12 same 12 outs 16\n", said)
    usage = call(["rt", *tried(["run", "FILE"])], copy.crate, copy.environment(), b"", LONGEST_REAL)
    yield "usage", (usage[0], usage[2][:len(USAGE)]), (2, USAGE)
    process = begin(["./spbsim", "run"], copy, script)
    process.stdin.close()
    process.stdin = None
    time.sleep(20)
    os.killpg(process.pid, signal.SIGINT)
    output, said = process.communicate(timeout=LONGEST)
    yield "an interrupt", (process.returncode, output, said), (-signal.SIGINT, b"", not_proved("./build"))
    wait_until(lambda: not processes_in(copy.folder))
    yield "what it leaves", (copy.leftovers(), processes_in(copy.folder)), ([], [])


def processes_in(folder):
    """The words of each process that was told of this folder."""
    found = []
    for process in filter(str.isdigit, os.listdir("/proc")):
        try:
            if folder.encode() in read(f"/proc/{process}/environ"):
                found.append(shlex.join(read(f"/proc/{process}/cmdline").decode("utf-8", "replace").split("\0")))
        except OSError:
            # It has ended, or is none of ours.
            pass
    return found


def groups(folder, is_real):
    """What is covered: a name and the checks of each group."""
    def copy(name, **how):
        os.mkdir(os.path.join(folder, name))
        return Copy(os.path.join(folder, name), **how)

    none = copy("none")
    title = "no program, a stand-in for rt: "
    yield title + "forms", forms_are_tried(none)
    yield title + "words that are no form", no_forms_are_refused(none)
    yield title + "no answer", no_answer_is_told(none)
    yield title + "a slow pipe", slow_pipes_are_read(none)
    yield title + "a terminal", terminals_are_told(none, False)
    yield title + "seconds at a terminal", seconds_are_shown(none)
    yield title + "signals", signals_end_it(none)
    yield title + "Ctrl-C in a loop", interrupts_end_loops(none)
    yield "./build, a stand-in for rt", builds_are_made(copy("build"))
    stand_in = copy("stand-in")
    stand_in.build(None)
    title = "a stand-in for the program: "
    yield title + "words handed on", words_are_handed_on(stand_in)
    yield title + "a terminal", terminals_are_told(stand_in, True)
    yield title + "older than a source", stale_programs_are_left(stand_in)
    if os.access(failing.BUILT, os.X_OK):
        built = copy("built")
        built.build(failing.BUILT)
        yield "the built program: words handed on", words_are_handed_on(built)
        yield "the built program: answers", examples_are_answered(built)
    if is_real:
        yield "no program, the toolchain's rt", real_runs_answer(copy("real", is_real=True))


def main():
    parser = argparse.ArgumentParser(description="Calls ./spbsim and ./build in the ways in which they may be called.")
    parser.add_argument("--real", action="store_true", help="also with the toolchain's rt, some fifteen minutes")
    told = parser.parse_args()
    if told.real and not shutil.which("rt"):
        parser.error("rt, the command of the toolchain, isn't on the path")
    failures = []
    print(f"{'what':60} {'checks':>7} {'wrong':>6}")
    with tempfile.TemporaryDirectory() as folder:
        for name, checks in groups(folder, told.real):
            count = wrong = 0
            for what, found, wanted in checks:
                count += 1
                if found != wanted:
                    wrong += 1
                    failures.append(f"{name}: {what}:\n  found  {found}\n  wanted {wanted}")
            print(f"{name:60} {count:7} {wrong:6}", flush=True)
    if not os.access(failing.BUILT, os.X_OK):
        print("no program is built here, so that a stand-in alone took its place")
    if not told.real:
        print("the toolchain's rt took no part: --real")
    print(*failures, sep="\n", end="\n" if failures else "")
    return 1 if failures else 0


if __name__ == "__main__":
    sys.exit(main())
