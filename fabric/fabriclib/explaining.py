"""A refusal in words: the line, a caret at the word, what it clashes with, where that was declared, and the form."""
from __future__ import annotations

import difflib
from typing import Callable, Dict, Iterable, List, NamedTuple, Optional, Tuple

from fabriclib import language
from fabriclib.play import Refused
from fabriclib.script import Line, Script, World
from fabriclib.terminal import counted


class Finding(NamedTuple):
    """Which word of the line is at fault (0 is the keyword), what is wrong, and the line that it clashes with."""

    word: Optional[int]
    text: str
    other: Optional[int] = None


def explain(refused: Refused, script: Script) -> List[str]:
    """The lines that tell of a refusal."""
    line = refused.origin
    if line is None:
        return [
            f"{script.name}: `{refused.text}`, which isn't of the script but is played after it, was refused: "
            f"{refused.reason}. {_of_added(refused)}".rstrip()
        ]
    before = script.world(line.number - 1) if line.number > 1 else World()
    before.seconds += refused.settled
    finding = _found(refused.reason, line, before)
    column = refused.column or _column(line, finding.word)
    if refused.reason == "Words":
        finding = _of_words(line, column)
    told = [
        f"{script.name}:{line.number}:{column}: {refused.reason}: {finding.text}",
        f"    {_shown(line.shown)}",
        f"    {_blank(line, column)}^",
    ]
    if finding.other is not None:
        told.append(f"{script.name}:{finding.other}: here: {_shown(script.lines[finding.other - 1].shown)}")
    if line.keyword in language.FORMS:
        told.append(f"form: {language.form(line.keyword)}")
    return told


def _found(reason: str, line: Line, before: World) -> Finding:
    """What a reason finds in a line, and of `whatif` in the change about which it asks."""
    finder = _FINDERS.get(reason, _nothing)
    if line.keyword != "whatif":
        return finder(line, before)
    finding = finder(line.change, before)
    return finding if finding.word is None else finding._replace(word=finding.word + 1)


def _of_added(refused: Refused) -> str:
    return {"TooMany": "The rounds of the whole run pass 20,000."}.get(refused.reason, "")


def _shown(text: str) -> str:
    """A line as it is shown: at most 200 characters, and a tab as one blank, so that a caret can stand below."""
    shown = text.replace("\t", " ")
    return shown if len(shown) <= 200 else shown[:200] + " .."


def _blank(line: Line, column: int) -> str:
    """The blanks before the caret; the column counts bytes, and what is shown has characters."""
    before = line.text[: column - 1].encode("latin-1").decode("utf-8", "replace")
    return " " * min(len(before), 200)


def _column(line: Line, word: Optional[int]) -> int:
    """The column, from 1, at which a word begins."""
    column = 0
    for index, text in enumerate(line.words):
        column = line.text.index(text, column)
        if index == (word or 0):
            return column + 1
        column += len(text)
    return len(line.text) + 1


def _nothing(_line: Line, _before: World) -> Finding:
    return Finding(None, "docs/SCRIPT.md, Refusals, says where it comes")


# Words


def _of_words(line: Line, column: int) -> Finding:
    if len(line.text) > 8192:
        return Finding(None, "a line has at most 8,192 bytes")
    if column == len(line.text) + 1:
        place = language.place_at(line.words, len(line.words) - 1) if line.keyword in language.FORMS else None
        return Finding(None, f"{place or 'a word'} is missing" + (f": {language.takes(place)}" if place else ""))
    index = next(i for i in range(len(line.words) or 1) if _column(line, i) >= column or i + 1 == len(line.words))
    word = line.words[index] if line.words else line.text
    if index == 0:
        return Finding(0, _of_keyword(word))
    place = language.place_at(line.words, index - 1)
    if place is None:
        return Finding(index, f"a word more than the form has{_hint_of_more(word)}")
    return Finding(index, f"`{word}` doesn't fit {place}, {language.takes(place)}{_hint(place, word)}")


def _of_keyword(word: str) -> str:
    if word.startswith(("\xef\xbb\xbf", "\xff\xfe", "\xfe\xff")):
        return "the file begins with a byte order mark; a script has none"
    if word.startswith("#"):
        return "a comment begins with # as the very first byte of its line"
    return f"`{word}` is no keyword{_meant(word.lower(), language.FORMS)}"


def _meant(word: str, known: Iterable[str], least: float = 0.6) -> str:
    """Which of the known words may be meant by a word, if one is close."""
    close = difflib.get_close_matches(word, list(known), 1, least)
    return f"; is `{close[0]}` meant?" if close else ""


def _hint_of_more(word: str) -> str:
    return "; a comment has a line of its own" if word.startswith(("#", "//", ";")) else ""


def _hint(place: str, word: str) -> str:
    bare = "".join(c for c in word if c not in ":.-")
    if place == "SYSID" and bare != word and len(bare) == 12:
        return f"; write {bare}"
    if place == "SRC" and bare != word and len(bare) == 5:
        return f"; write {bare}"
    if place in ("PA", "PB", "P") and "/" in word:
        return "; ports have plain numbers"
    if place in ("N", "L", "A", "B", "ENTRIES") and len(word) > 16:
        return f"; it has {len(word)}"
    if place == "CHANGE":
        return _meant(word.lower(), language.CHANGES)
    return ""


# Names


def _places(line: Line) -> List[Tuple[int, str]]:
    """The places of a line, each with the number of its word."""
    return list(zip(range(1, len(line.words)), language.places(line.words)))


def _no_such_name(line: Line, before: World) -> Finding:
    for index, place in _places(line):
        word = line.words[index]
        finding = _missing(line.keyword, place, word, before)
        if finding is not None:
            return Finding(index, finding)
    return _nothing(line, before)


def _missing(keyword: str, place: str, word: str, before: World) -> Optional[str]:
    if place == "L" and keyword != "link":
        return _not_declared("link", word, before.links)
    if place in ("A", "B") or (place == "ENTRIES" and word not in language.NO_BRIDGE):
        return _not_declared("bridge", word, before.bridges)
    if place == "V" and keyword in ("isid", "path", "proof", "check") and int(word) not in before.vids:
        return f"no base VID {word} is declared; declared are {_listed(before.vids)}"
    if place == "I" and keyword == "attach" and int(word) not in before.isids:
        return f"no service with the I-SID {word} is declared; declared are {_listed(before.isids)}"
    return None


def _listed(numbers: Iterable[int]) -> str:
    told = [str(number) for number in numbers]
    return (", ".join(told[:12]) + (" .." if len(told) > 12 else "")) or "none"


def _not_declared(what: str, name: str, declared: Iterable[str]) -> Optional[str]:
    names = list(declared)
    if name in names:
        return None
    return f"no {what} `{name}` is declared before this line{_meant(name, names, 0.5)}"


def _name_taken(line: Line, before: World) -> Finding:
    word = line.words[1]
    declared: Dict[str, Callable[[], int]] = {
        "vid": lambda: before.vids[int(word)][1],
        "bridge": lambda: before.bridges[word].line,
        "link": lambda: before.links[word].line,
        "isid": lambda: before.isids[int(word)][1],
    }
    return Finding(1, f"the {line.keyword} {word} is declared already", declared[line.keyword]())


def _id_taken(line: Line, before: World) -> Finding:
    for bridge in before.bridges.values():
        if bridge.system == line.words[3].lower():
            return Finding(3, f"the system id {bridge.system} belongs to the bridge {bridge.name}", bridge.line)
    for bridge in before.bridges.values():
        if bridge.source == line.words[4].lower():
            return Finding(4, f"the SPSourceID {bridge.source} belongs to the bridge {bridge.name}", bridge.line)
    return _nothing(line, before)


def _port_use(line: Line, before: World) -> Finding:
    for at, port in ((2, 3), (4, 5)):
        link = before.at_port.get((line.words[at], int(line.words[port])))
        if link is not None:
            return Finding(
                port,
                f"port {int(line.words[port])} of {line.words[at]} has the link {link.name}, "
                f"{'up' if link.is_up else 'down'}",
                link.line,
            )
    return _nothing(line, before)


def _already_linked(line: Line, before: World) -> Finding:
    ends = {line.words[2], line.words[4]}
    for link in before.links.values():
        if {link.a, link.b} == ends:
            return Finding(
                2, f"{link.a} and {link.b} have the link {link.name}; parallel links aren't modelled", link.line
            )
    return _nothing(line, before)


# Numbers

_RANGES: Dict[Tuple[str, str], Tuple[int, int]] = {
    ("vid", "V"): (1, 4094),
    ("vid", "E"): (1, 16),
    ("bridge", "PRIO"): (0, 65535),
    ("bridge", "PORTS"): (0, 32),
    ("link", "COST"): (1, language.GREATEST_METRIC),
    ("isid", "I"): (1, 16777215),
    ("attach", "P"): (1, 1024),
    ("detach", "P"): (1, 1024),
    ("frame", "P"): (1, 1024),
    ("metric", "M"): (1, language.GREATEST_METRIC),
    ("round", "COUNT"): (1, 20000),
    ("drain", "COUNT"): (1, 1000000),
}


def _range(line: Line, before: World) -> Finding:
    places = _places(line)
    for index, place in places:
        bounds = _RANGES.get((line.keyword, place))
        if bounds and not bounds[0] <= int(line.words[index]) <= bounds[1]:
            return Finding(
                index,
                f"{place.replace('COUNT', 'N')} is {int(line.words[index]):,}; it is {bounds[0]:,} to {bounds[1]:,}"
                + _of_number(place, int(line.words[index])),
            )
    for index, place in places:
        text = _of_range(line, index, place, before)
        if text:
            return Finding(index, text)
    return _of_entries(line, before) if line.keyword == "check" else _nothing(line, before)


def _of_entries(line: Line, before: World) -> Finding:
    """Entries that aren't as many as bridges: the first that is one too many, or the end of the line."""
    first, bridges = len(language.FORMS["check"]), list(before.bridges)
    count = len(line.words) - first
    told = f"{counted(count, 'entry', 'entries')} for {counted(len(bridges), 'bridge')}"
    if count < len(bridges):
        return Finding(len(line.words), f"{told}; the next is that of {bridges[count]}")
    return Finding(first + len(bridges), f"{told}; each has one, in order of declaration")


def _of_number(place: str, number: int) -> str:
    return "; 16,777,215 isn't modelled, take 16,777,214" if place in ("M", "COST") and number == 16777215 else ""


def _of_range(line: Line, index: int, place: str, before: World) -> Optional[str]:
    word = line.words[index]
    if place == "SYSID" and int(word, 16) == 0:
        return "a system id isn't all zero"
    if place == "SYSID" and int(word[:2], 16) & 1:
        return "a system id is no group address: the lowest bit of its first byte is 0"
    if place == "HEX" and not 14 <= len(word) // 2 <= 2000:
        return f"the frame has {len(word) // 2} bytes; it has 14 to 2,000"
    if place == "B" and line.keyword == "link" and word == line.words[2]:
        return "a link joins two different bridges"
    if place in ("PA", "PB"):
        ports = before.bridges[line.words[index - 1]].ports
        if not 1 <= int(word) <= ports:
            return f"{line.words[index - 1]} has ports 1 to {ports}, and none of number {int(word)}"
    return None


def _too_many(line: Line, before: World) -> Finding:
    rounds = f"the rounds of a run are at most 20,000; {before.seconds:,} were made before"
    most = language.most_settling(len(before.bridges))
    return Finding(
        None,
        {
            "vid": "a script has at most 16 base VIDs",
            "bridge": "a script has at most 96 bridges",
            "link": "a script has at most 400 links",
            "isid": "a script has at most 4,096 services",
            "attach": "a bridge has at most 960 different I-SIDs",
            "round": rounds,
            "settle": f"for {counted(len(before.bridges), 'bridge')} it may make {most} rounds, and {rounds}",
            "drain": "the deliveries that a run's `drain` lines ask for are at most 100,000,000",
        }.get(line.keyword, "a limit would be passed"),
    )


def _too_late(_line: Line, before: World) -> Finding:
    return Finding(
        0,
        "each `vid` stands before the first `bridge`",
        min((bridge.line for bridge in before.bridges.values()), default=None),
    )


# Events


def _already(line: Line, before: World) -> Finding:
    link = before.links[line.words[1]]
    return Finding(1, f"the link {link.name} is {'up' if link.is_up else 'down'} already, since this line", link.since)


def _attached(line: Line, before: World) -> Finding:
    isid, since = before.attached[line.words[1], int(line.words[2])]
    return Finding(2, f"customer port {int(line.words[2])} of {line.words[1]} is attached to the service {isid}", since)


def _receive_only(line: Line, before: World) -> Finding:
    isid, since = before.attached[line.words[1], int(line.words[2])]
    port = int(line.words[2])
    return Finding(2, f"customer port {port} of {line.words[1]} only receives in the service {isid}", since)


def _not_attached(line: Line, before: World) -> Finding:
    own = sorted(port for bridge, port in before.attached if bridge == line.words[1])
    return Finding(
        2,
        f"customer port {int(line.words[2])} of {line.words[1]} isn't attached to a service; attached are the ports "
        f"{_listed(own)}",
    )


def _no_frame(line: Line, before: World) -> Finding:
    link = before.links[line.words[1]]
    tail, head = (link.a, link.b) if line.words[2] == "ab" else (link.b, link.a)
    if line.keyword == "deliver":
        return Finding(
            2, f"no frame is on its way from {tail} to {head}" + ("" if link.is_up else "; the link is down")
        )
    return Finding(
        3, f"no frame stands at place {int(line.words[3])} on the way from {tail} to {head}; places count from 0"
    )


def _rack_spent(_line: Line, before: World) -> Finding:
    return Finding(0, f"a run has boxes for 256 `bridge` and `restart` lines of a kind; {before.boxes} came before")


_FINDERS: Dict[str, Callable[[Line, World], Finding]] = {
    "NoSuchName": _no_such_name,
    "NameTaken": _name_taken,
    "IdTaken": _id_taken,
    "PortUse": _port_use,
    "Range": _range,
    "TooMany": _too_many,
    "AlreadyLinked": _already_linked,
    "AlreadyUp": _already,
    "AlreadyDown": _already,
    "Attached": _attached,
    "NotAttached": _not_attached,
    "ReceiveOnly": _receive_only,
    "NoFrame": _no_frame,
    "RackSpent": _rack_spent,
    "TooLate": _too_late,
}
