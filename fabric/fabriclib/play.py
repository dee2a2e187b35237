"""Lines played through the program in one run, and its answers, line by line as they come."""
from __future__ import annotations

import itertools
import os
import subprocess
import sys
import tempfile
from dataclasses import dataclass, field
from typing import IO, Iterable, Iterator, List, NamedTuple, Optional

from fabriclib import language
from fabriclib.script import Line, Unusable
from fabriclib.terminal import Progress

# How many lines follow the first of an answer: the words of that line which say it.
_ROW_COUNTS = {"show": (3, 4), "wiring": (2, 3), "adj": (2,), "db": (2,), "whatif": (1,)}


class Refused(Exception):
    """The program refused a line: which, from which line of the script it came, why, the column of Words, and the
    rounds that lines `settle` before it made."""

    def __init__(
        self, text: str, origin: Optional[Line], reason: str, column: Optional[int], settled: int = 0
    ) -> None:
        super().__init__(f"{text}: {reason}")
        self.text = text
        self.origin = origin
        self.reason = reason
        self.column = column
        self.settled = settled


class NoAnswer(Exception):
    """The program ended without a whole answer."""


class Answer(NamedTuple):
    """What was answered to a line: its place among those that were played, and the lines."""

    place: int
    lines: List[bytes]

    def texts(self) -> List[str]:
        """The lines as text."""
        return [line.decode("latin-1").rstrip("\n") for line in self.lines]


def settled_rounds(texts: List[str]) -> int:
    """The rounds of which an answer to `settle` tells, in its last line."""
    return int(texts[-1].split()[1])


@dataclass
class Tape:
    """The lines that a run plays, in order, each with the line of the script that it is, if it is one."""

    texts: List[str] = field(default_factory=list)
    origins: List[Optional[Line]] = field(default_factory=list)

    def script(self, lines: Iterable[Line]) -> None:
        """Puts lines of a script at the end."""
        for line in lines:
            self.texts.append(line.text)
            self.origins.append(line)

    def add(self, *texts: str) -> int:
        """Puts further lines at the end, and tells the index of the first."""
        self.texts.extend(texts)
        self.origins.extend(itertools.repeat(None, len(texts)))
        return len(self.texts) - len(texts)


def play(program: str, tape: Tape) -> Iterator[Answer]:
    """Plays a tape, and gives the answers of each line that has some, in order.

    An event takes all `out` lines that come next; where two events follow each other, a question between them keeps
    these apart. Raises Refused and NoAnswer, once all answers before are given, and Unusable where the tape is longer
    than a script may be.
    """
    with tempfile.TemporaryFile() as script:
        script.write("".join(text + "\n" for text in tape.texts).encode("latin-1"))
        if len(tape.texts) > language.LIMITS["lines"] or script.tell() > language.LIMITS["bytes"]:
            raise Unusable(
                f"this takes a run of {len(tape.texts):,} lines and {script.tell():,} bytes; a script has at "
                f"most {language.LIMITS['lines']:,} lines and {language.LIMITS['bytes']:,} bytes"
            )
        script.seek(0)
        with _started(program, script) as process, Progress(len(tape.texts)) as progress:
            assert process.stdout is not None
            try:
                yield from _answers(_Output(process.stdout), tape, progress)
            except BaseException:
                process.terminate()
                raise
            _look_at_end(process.wait())


def _started(program: str, script: IO[bytes]) -> "subprocess.Popen[bytes]":
    """The running program. What it says on standard error goes there unchanged."""
    path = os.path.abspath(program) if os.path.exists(program) else program
    try:
        return subprocess.Popen([path, "run"], stdin=script, stdout=subprocess.PIPE, bufsize=1 << 20)
    except OSError as fault:
        raise Unusable(f"{program} can't be run: {fault.strerror}") from fault


def _look_at_end(status: int) -> None:
    """Raises NoAnswer where the program didn't end well, though no line was refused."""
    if status != 0:
        reason = {3: "NoMemory", 4: "ReadFault", 5: "WriteFault", 6: "TooLong", 125: "no answer"}.get(status, "")
        raise NoAnswer(f"the program ended with status {status} {reason}".rstrip())


class _Output:
    """The lines that the program writes, the next of which can be looked at."""

    def __init__(self, file: IO[bytes]) -> None:
        self.file = file
        self.next: bytes = file.readline()

    def take(self) -> bytes:
        line, self.next = self.next, self.file.readline()
        return line

    def rows(self, count: int) -> List[bytes]:
        """The next `count` lines."""
        if count == 0:
            return []
        rows = [self.next]
        rows.extend(itertools.islice(self.file, count - 1))
        self.next = self.file.readline()
        return rows


def _answers(output: _Output, tape: Tape, progress: Progress) -> Iterator[Answer]:
    settled = 0
    for index, text in enumerate(tape.texts):
        if output.next.startswith(b"error ") and index + 1 == int(output.next.split()[1]):
            raise _refused(output.take(), text, tape.origins[index], settled)
        keyword = text.split(None, 1)[0] if text.strip(" \t") and not text.startswith("#") else ""
        if keyword in language.QUESTIONS:
            yield Answer(index, _question(output, keyword))
        elif keyword == "settle":
            answer = Answer(index, [*_outs(output), *_question(output, keyword)])
            settled += settled_rounds(answer.texts())
            yield answer
        elif keyword in language.EVENTS and output.next.startswith(b"out "):
            yield Answer(index, list(_outs(output)))
        progress.at(index)


def _outs(output: _Output) -> Iterator[bytes]:
    while output.next.startswith(b"out "):
        yield output.take()


def _question(output: _Output, keyword: str) -> List[bytes]:
    first = output.take()
    words = first.split()
    if not words or words[0].decode("latin-1") != keyword:
        raise NoAnswer(
            f"the program wrote {first.decode('latin-1').strip()!r} where an answer of `{keyword}` has to stand"
            if first
            else "the program's answers end too early"
        )
    count = sum(int(words[place]) for place in _ROW_COUNTS.get(keyword, ()))
    rows = output.rows(count)
    if len(rows) != count or (rows and not rows[-1].endswith(b"\n")):
        raise NoAnswer("the program's answers end too early")
    return [first, *rows]


def _refused(line: bytes, text: str, origin: Optional[Line], settled: int) -> Refused:
    words = line.decode("latin-1").split()
    return Refused(text, origin, words[3], int(words[4]) if len(words) > 4 else None, settled)


def default_program() -> str:
    """The repository's ./spbsim."""
    here = os.path.dirname(os.path.realpath(sys.argv[0] if sys.argv and sys.argv[0] else __file__))
    for top in (os.path.dirname(here), os.path.dirname(os.path.dirname(os.path.dirname(os.path.realpath(__file__))))):
        if os.path.exists(os.path.join(top, "spbsim")):
            return os.path.join(top, "spbsim")
    return "spbsim"
