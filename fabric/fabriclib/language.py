"""The words of the script language: the form of each line, and what a place of a form takes (docs/SCRIPT.md)."""
from __future__ import annotations

import re
from typing import Dict, Optional, Tuple

# Each keyword with the places of its form, in order. ENTRIES takes one word or more, and behind CHANGE stand the places
# of the change.
FORMS: Dict[str, Tuple[str, ...]] = {
    "vid": ("V", "E"),
    "bridge": ("N", "PRIO", "SYSID", "SRC", "PORTS"),
    "link": ("L", "A", "PA", "B", "PB", "COST"),
    "isid": ("I", "V"),
    "attach": ("B", "P", "I", "MODE"),
    "detach": ("B", "P"),
    "metric": ("L", "END", "M"),
    "down": ("L",),
    "up": ("L",),
    "restart": ("B",),
    "tick": ("B",),
    "deliver": ("L", "DIR"),
    "lose": ("L", "DIR", "K"),
    "double": ("L", "DIR", "K"),
    "round": ("COUNT",),
    "drain": ("COUNT",),
    "frame": ("B", "P", "HEX"),
    "state": (),
    "show": ("B",),
    "wiring": ("B",),
    "db": ("B",),
    "adj": ("B",),
    "path": ("A", "B", "V"),
    "drops": ("B",),
    "whatif": ("CHANGE",),
    "proof": ("A", "B", "V"),
    "check": ("A", "B", "V", "ENTRIES"),
    "settle": (),
}

# The keywords of the lines about which `whatif` asks.
CHANGES = ("down", "up", "metric")

# A place that a line may leave out, with what it then has.
LEFT_OUT = {"MODE": "both"}
MODES = ("both", "send", "recv")
# The entries of a proof that name no bridge: of the start, and of a bridge that no path reaches.
NO_BRIDGE = ("-", ".")

DECLARATIONS = ("vid", "bridge", "link", "isid", "attach", "detach")
QUESTIONS = ("state", "show", "wiring", "db", "adj", "path", "drops", "whatif", "proof", "check")
EVENTS = tuple(word for word in FORMS if word not in DECLARATIONS + QUESTIONS)
# The keywords of the lines that are always answered: `settle` is an event, and says how many rounds it made.
ANSWERED = QUESTIONS + ("settle",)

NAME = re.compile(r"[A-Za-z][A-Za-z0-9_-]{0,15}\Z")
NUMBER = re.compile(r"[0-9]{1,10}\Z")
_NAME_PLACES = ("N", "L", "A", "B")
_HEX_PLACES = {
    "SYSID": re.compile(r"[0-9A-Fa-f]{12}\Z"),
    "SRC": re.compile(r"[0-9A-Fa-f]{5}\Z"),
    "HEX": re.compile(r"([0-9A-Fa-f]{2})+\Z"),
}

# The greatest metric of a link.
GREATEST_METRIC = 16_777_214
LIMITS = {
    "bridges": 96,
    "links": 400,
    "ports": 32,
    "vids": 16,
    "services": 4_096,
    "lines": 100_000,
    "rounds": 20_000,
    "bytes": 8_388_608,
}


def most_settling(bridges: int) -> int:
    """The rounds that `settle` may make with so many bridges."""
    return 4 * bridges + 16


def form(keyword: str) -> str:
    """The form of a keyword's line, as docs/SCRIPT.md writes it."""
    if keyword == "whatif":
        return " | ".join(f"whatif {form(change)}" for change in CHANGES)
    told = ("N" if place == "COUNT" else f"[{place}]" if place in LEFT_OUT else place for place in FORMS[keyword])
    return " ".join((keyword, *told))


def places(words: Tuple[str, ...]) -> Tuple[str, ...]:
    """The place of each word that may stand behind the keyword of a line, in order, as far as its words tell that."""
    own = FORMS[words[0]]
    if words[0] == "whatif" and len(words) > 1 and words[1] in CHANGES:
        return own + FORMS[words[1]]
    if words[0] == "check":
        return own[:-1] + own[-1:] * LIMITS["bridges"]
    return own


def is_whole(words: Tuple[str, ...]) -> bool:
    """Whether a line of a keyword has a word for each place that can't be left out, and no more words than places."""
    own = places(words)
    # No form has a place twice, but that of entries, of which one is enough.
    needed = set(own) - set(LEFT_OUT)
    return len(needed) < len(words) <= 1 + len(own)


def takes(place: str) -> str:
    """What a place of a form takes, in words."""
    if place in _NAME_PLACES:
        return "a name: 1 to 16 letters, digits, _ or -, with a letter first"
    return {
        "SYSID": "a system id: 12 hexadecimal digits and nothing between them",
        "SRC": "an SPSourceID: 5 hexadecimal digits (nick-name x.yy.zz is xyyzz)",
        "HEX": "bytes: 2 hexadecimal digits for each",
        "DIR": "a direction: ab or ba",
        "END": "an end of a link: a or b",
        "MODE": "a mode: both, send or recv",
        "CHANGE": "a change: down, up or metric",
        "ENTRIES": "an entry: the name of the bridge before, - or .",
    }.get(place, "a number: 1 to 10 decimal digits")


def fits(place: str, word: str) -> bool:
    """Whether a word has the form of a place."""
    if place in _NAME_PLACES:
        return NAME.match(word) is not None
    if place in _HEX_PLACES:
        return _HEX_PLACES[place].match(word) is not None
    if place == "DIR":
        return word in ("ab", "ba")
    if place == "END":
        return word in ("a", "b")
    if place == "MODE":
        return word in MODES
    if place == "CHANGE":
        return word in CHANGES
    if place == "ENTRIES":
        return word in NO_BRIDGE or NAME.match(word) is not None
    return NUMBER.match(word) is not None


def place_at(words: Tuple[str, ...], index: int) -> Optional[str]:
    """The place of the word `index` behind the keyword of a line, none behind the last."""
    own = places(words)
    return own[index] if index < len(own) else None
