"""What is known of lines and answers without a program: forms, refusals in words, where answers end, and names in them.

What has to come stands in crates/cases and in examples/: lines that are refused, with the reason and the column, and
scripts beside their outputs."""
from __future__ import annotations

import importlib
import os
import random
import re
import shlex
import stat
import sys
import tempfile
from typing import Iterator, List, NamedTuple, Optional, Tuple

from fabriclib import language
from fabriclib.explaining import explain
from fabriclib.naming import Names
from fabriclib.play import Answer, NoAnswer, Refused, Tape, play
from fabriclib.script import Line, Script
from fabriclib.tests.bench import EXAMPLES, TOP, read

_CASES = os.path.join(TOP, "crates", "cases", "data")
_TOOLS = os.path.join(TOP, "tools")


def run() -> Iterator[str]:
    """What is wrong."""
    for part in (_of_forms, _of_refusals, _of_words, _of_asking, _of_answers, _of_names, _of_tools):
        yield from part()


# Forms and refusals


class Case(NamedTuple):
    """A script whose last line is refused, why, and the column where it is in no form."""

    script: Script
    reason: str
    column: Optional[int]

    @property
    def line(self) -> Line:
        """The line that is refused."""
        return self.script.lines[-1]


def _cases() -> Iterator[Case]:
    """Those of two files, in which `? LINES|NUMBER NAME` stands behind declarations."""
    for name in ("refusals", "refused-questions"):
        before = ""
        for text in read(os.path.join(_CASES, f"{name}.cases")).splitlines():
            if not text.startswith("? "):
                before += text + "\n"
                continue
            lines, _, why = text[2:].rpartition("|")
            script = before + lines.replace("; ", "\n") + "\n"
            _, reason, *column = why.split()
            yield Case(Script(f"{name}.spb", script.encode()), reason, int(column[0]) if column else None)


def _misfit(line: Line) -> Optional[int]:
    """The column at which the forms refuse a line, none where they take it."""
    if line.keyword not in language.FORMS:
        return 1
    for index, found in enumerate(list(re.finditer(r"[^ \t]+", line.text))[1:]):
        place = language.place_at(line.words, index)
        if place is None or not language.fits(place, found.group()):
            return found.start() + 1
    return None if language.is_whole(line.words) else len(line.text) + 1


def _of_forms() -> Iterator[str]:
    """The forms refuse what the cases refuse as Words, at the same column, and nothing else."""
    for case in _cases():
        if _misfit(case.line) != case.column:
            yield f"{case.line.text}: the forms refuse column {_misfit(case.line)}, not {case.column}"


def _explained(case: Case) -> List[str]:
    return explain(Refused(case.line.text, case.line, case.reason, case.column), case.script)


def _of_refusals() -> Iterator[str]:
    """Each refusal of the cases is explained: by a line, a caret below it, and the form."""
    for case in _cases():
        told = _explained(case)
        front = f"{case.script.name}:{case.line.number}:{case.column or ''}"
        if not told[0].startswith(front) or f": {case.reason}: " not in told[0] or "docs/SCRIPT.md" in told[0]:
            yield f"{case.line.text}: explained as {told[0]!r}"
        if not told[1].startswith(f"    {case.line.text[:200]}") or told[2].strip() != "^":
            yield f"{case.line.text}: shown as {told[1:3]}"
        if case.line.keyword in language.FORMS and told[-1] != f"form: {language.form(case.line.keyword)}":
            yield f"{case.line.text}: the form is {told[-1]!r}"


_SQUARE = """vid 10 1
bridge alpha 32768 020000000001 00001 2
bridge beta 32768 020000000002 00002 2
bridge gamma 32768 020000000003 00003 2
link ab alpha 1 beta 1 10
link bc beta 2 gamma 1 10
link ca gamma 2 alpha 2 50
down ca
"""
# A line behind these, why it is refused, and what is told of it first.
_TOLD: List[Tuple[str, str, Optional[int], str]] = [
    ("whatif", "Words", 7, "9:7: Words: CHANGE is missing: a change: down, up or metric"),
    ("whatif donw ab", "Words", 8, "`donw` doesn't fit CHANGE, a change: down, up or metric; is `down` meant?"),
    ("whatif metric ab c 5", "Words", 18, "`c` doesn't fit END, an end of a link: a or b"),
    ("whatif down ab now", "Words", 16, "9:16: Words: a word more than the form has"),
    ("whatif down ac", "NoSuchName", None, "9:13: NoSuchName: no link `ac` is declared before this line; is `ca`"),
    ("whatif down ca", "AlreadyDown", None, "9:13: AlreadyDown: the link ca is down already, since this line"),
    ("whatif up ab", "AlreadyUp", None, "9:11: AlreadyUp: the link ab is up already, since this line"),
    ("whatif  metric ab a 0", "Range", None, "9:21: Range: M is 0; it is 1 to 16,777,214"),
    ("whatif metric ab a 16777215", "Range", None, "; 16,777,215 isn't modelled, take 16,777,214"),
    ("proof alpha beta", "Words", 17, "9:17: Words: V is missing"),
    ("proof alpha beta 20", "NoSuchName", None, "9:18: NoSuchName: no base VID 20 is declared; declared are 10"),
    ("check alpha beta 20 - . .", "NoSuchName", None, "9:18: NoSuchName: no base VID 20 is declared"),
    ("check alpha beta 10 - alpha bta", "NoSuchName", None, "9:29: NoSuchName: no bridge `bta` is declared before"),
    ("check alpha beta 10", "Words", 20, "ENTRIES is missing: an entry: the name of the bridge before, - or ."),
    ("check alpha beta 10 - 1 beta", "Words", 23, "`1` doesn't fit ENTRIES, an entry: the name of the bridge before"),
    ("check alpha beta 10 - alpha", "Range", None, "9:28: Range: 2 entries for 3 bridges; the next is that of gamma"),
    ("check alpha beta 10 - - - .", "Range", None, "9:27: Range: 4 entries for 3 bridges; each has one, in order"),
    ("chek alpha beta 10 -", "Words", 1, "`chek` is no keyword; is `check` meant?"),
    ("settle 5", "Words", 8, "9:8: Words: a word more than the form has"),
    ("setle", "Words", 1, "`setle` is no keyword; is `settle` meant?"),
    ("settle", "TooMany", None, "9:1: TooMany: for 3 bridges it may make 28 rounds, and the rounds of a run are"),
]


def _of_words() -> Iterator[str]:
    """What is told of refused questions, and of `settle`."""
    for text, reason, column, wanted in _TOLD:
        told = _explained(Case(Script("s", f"{_SQUARE}{text}\n".encode()), reason, column))[0]
        if wanted not in told:
            yield f"{text}: explained as {told!r}"
    if language.form("whatif") != "whatif down L | whatif up L | whatif metric L END M":
        yield f"the form of whatif is {language.form('whatif')!r}"


def _of_asking() -> Iterator[str]:
    """By a question nothing is declared and nothing changes."""
    before = Script("s", _SQUARE.encode()).world()
    changes = ("whatif up ca", "whatif down ab", "whatif metric ab a 5")
    for text in (*changes, "proof alpha beta 10", "check alpha beta 10 -"):
        if Script("s", f"{_SQUARE}{text}\n".encode()).world() != before:
            yield f"{text} changes what is in force"


# Answers


def _stored(folder: str, output: str) -> str:
    """A program that writes an output, whatever it is given."""
    path = os.path.join(folder, "stored")
    with open(path, "w", encoding="utf-8") as file:
        file.write(f"#!/bin/sh\nexec cat {shlex.quote(output)}\n")
    os.chmod(path, os.stat(path).st_mode | stat.S_IXUSR)
    return path


def _played(path: str) -> Tuple[List[Answer], int]:
    """The answers to an example, as its output has them, and how many of its lines are accepted."""
    answers: List[Answer] = []
    tape = Tape()
    tape.script(Script.read(path).lines)
    with tempfile.TemporaryDirectory() as folder:
        try:
            for answer in play(_stored(folder, path[: -len("spb")] + "out"), tape):
                answers.append(answer)
        except Refused as refused:
            return answers, refused.origin.number - 1 if refused.origin else 0
    return answers, len(tape.texts)


def _of_answers() -> Iterator[str]:
    """Each line of an example that is always answered has its answer, and all answers together are the output."""
    for name in sorted(os.listdir(EXAMPLES)):
        if name.endswith(".spb"):
            for fault in _of_example(os.path.join(EXAMPLES, name)):
                yield f"examples/{name}{fault}"


def _of_example(path: str) -> Iterator[str]:
    lines, output = Script.read(path).lines, read(path[: -len("spb")] + "out")
    try:
        answers, accepted = _played(path)
    except NoAnswer as fault:
        yield f": {fault}"
        return
    told = b"".join(line for answer in answers for line in answer.lines).decode()
    if not re.fullmatch("(error .*\n)?", output[len(told) :]) or not output.startswith(told):
        yield ": the answers aren't those of the output"
    asked = [place for place in range(accepted) if lines[place].keyword in language.ANSWERED]
    if not set(asked) <= {answer.place for answer in answers}:
        yield ": a line has no answer"
    for place, texts in ((answer.place, answer.texts()) for answer in answers):
        front = lines[place].keyword if place in asked else "out"
        # What leaves in the rounds of `settle` stands before the line that tells them.
        told_first = texts[-1] if front == "settle" else texts[0]
        if told_first.split()[0] != front:
            yield f":{place + 1}: {told_first!r} is no answer"


# Lines of answers of examples/planned-cut.spb, behind its last line, and what each says. The link from north to east is
# down by then; a row of what is foretold has only links that are up.
_SAYS: List[Tuple[str, Optional[str]]] = [
    ("u 10 020000000002 1", "to east over east (link down)"),
    ("u 10 020000000002 2", "to east over west"),
    ("whatif 20", None),
    ("- north u 10 020000000002 1", "to east over east"),
    ("- north g 10 030001000064 1", "service 100 from north to east"),
    ("+ north u 10 020000000002 2", "to east over west"),
    ("+ west g 10 030002000064 1", "service 100 from east to north"),
    ("+ south g 10 030001000064 1,2", "service 100 from north to west, east"),
    ("proof north east 10 - south west north", "the way north west south east"),
    ("proof north north 10 - south west north", "the way north"),
    ("proof north east 10 - . . north", "no way to east"),
    ("check yes 30 3 north west south east", None),
    ("check yes none", None),
    ("check no 2", "shown by east"),
    ("settle 7 quiet", None),
    ("settle 32 busy own", "before the first of them a bridge was about to originate an LSP anew"),
]


def _of_names() -> Iterator[str]:
    """Rows that a change would take or make have names as others do; a proof has its way, and a wrong one a bridge."""
    names = Names(Script.read(os.path.join(EXAMPLES, "planned-cut.spb")).world(), "north")
    for text, says in _SAYS:
        if names.note(text) != says:
            yield f"{text}: says {names.note(text)!r}"


# The tools that speak the language

# Files of cases of which the model answers all questions.
_MODELLED = (
    "changes-foretold",
    "changes-of-links",
    "changes-of-services",
    "proofs-in-a-line",
    "proofs-on-a-square",
    "proofs-without-a-path",
)


def _of_tools() -> Iterator[str]:
    """Lines that are made by chance have a form, and the model answers as the cases and an example have it."""
    sys.path.insert(0, _TOOLS)
    made_scripts, model = (importlib.import_module(name) for name in ("made_scripts", "wired_answers"))
    for number in range(100):
        made = made_scripts.Fabric(random.Random(number))
        lines = [*made.declare(), *(made.question() for _ in range(20)), *(made.event() for _ in range(20))]
        for line in Script("made", "\n".join(lines).encode()).lines:
            if _misfit(line) is not None:
                yield f"tools/made_scripts.py makes {line.text!r}"
    for name, script, answers in _modelled():
        wired = model.Wired()
        if [text for line in script for text in wired.answer(line.keyword, line.words[1:])] != answers:
            yield f"tools/wired_answers.py answers otherwise: {name}"


def _modelled() -> Iterator[Tuple[str, List[Line], List[str]]]:
    """What the model answers: a name, the lines of a script that are accepted, and the answers to them."""
    path = os.path.join(EXAMPLES, "planned-cut")
    yield "planned-cut", _lines(read(f"{path}.spb")), read(f"{path}.out").splitlines()
    for name in _MODELLED:
        before, *parts = read(os.path.join(_CASES, f"{name}.cases")).split("\n== ")
        for title, _, part in (part.partition("\n") for part in parts):
            lines = _lines(before + "\n" + re.sub("(?m)^> .*\n?", "", part))
            answers = re.findall("(?m)^> (.*)$", part)
            error = re.match("error ([0-9]+) ", answers[-1])
            if error:
                lines, answers = [line for line in lines if line.number < int(error[1])], answers[:-1]
            yield title, lines, answers


def _lines(text: str) -> List[Line]:
    """The lines of a script that aren't ignored."""
    return [line for line in Script("s", text.encode()).lines if line.keyword]
