"""A script's lines, and what is declared and in force behind a line of it."""
from __future__ import annotations

import re
import sys
from dataclasses import dataclass, field
from typing import Dict, Iterator, List, Optional, Tuple

from fabriclib import language


class Unusable(Exception):
    """A word can't do what it is asked; said in words, exit status 2."""


@dataclass(frozen=True)
class Line:
    """A line of a script: its number from 1, its text without its end, and its words."""

    number: int
    text: str
    words: Tuple[str, ...]

    @property
    def shown(self) -> str:
        """The text as it is shown, where its bytes are read as UTF-8."""
        return self.text.encode("latin-1").decode("utf-8", "replace")

    @property
    def keyword(self) -> str:
        """The first word, empty where the line is ignored."""
        return self.words[0] if self.words else ""

    @property
    def change(self) -> "Line":
        """The line behind its first word: of `whatif` the change about which it asks."""
        return Line(self.number, self.text.lstrip(" \t")[len(self.keyword) :].lstrip(" \t"), self.words[1:])


@dataclass
class Bridge:
    """A declared bridge."""

    name: str
    system: str
    source: str
    ports: int
    line: int


@dataclass
class Link:
    """A declared link; end a is port pa of bridge a, end b port pb of bridge b."""

    name: str
    a: str
    pa: int
    b: str
    pb: int
    metric: Dict[str, int]
    line: int
    is_up: bool = True
    since: int = 0

    def far(self, bridge: str) -> Tuple[str, int]:
        """The bridge and port at the end which isn't at this bridge."""
        return (self.b, self.pb) if bridge == self.a else (self.a, self.pa)

    def end_at(self, bridge: str) -> str:
        """The end, a or b, that is at this bridge."""
        return "a" if bridge == self.a else "b"


@dataclass
class World:
    """What is declared and in force behind a line."""

    vids: Dict[int, Tuple[int, int]] = field(default_factory=dict)
    bridges: Dict[str, Bridge] = field(default_factory=dict)
    links: Dict[str, Link] = field(default_factory=dict)
    isids: Dict[int, Tuple[int, int]] = field(default_factory=dict)
    attached: Dict[Tuple[str, int], Tuple[int, int]] = field(default_factory=dict)
    modes: Dict[Tuple[str, int], str] = field(default_factory=dict)
    at_port: Dict[Tuple[str, int], Link] = field(default_factory=dict)
    usual_metric: Dict[Tuple[str, str], int] = field(default_factory=dict)
    seconds: int = 0
    boxes: int = 0

    def members(self, isid: int, but: str = "") -> List[str]:
        """The bridges that have a customer port of a service, of another mode than `but`, in order of declaration."""
        have = {at[0] for at, (service, _) in self.attached.items() if service == isid and self.modes[at] != but}
        return [name for name in self.bridges if name in have]

    def senders(self, isid: int) -> List[str]:
        """The bridges that have a customer port of a service that sends."""
        return self.members(isid, but="recv")

    def receivers(self, isid: int) -> List[str]:
        """The bridges that have a customer port of a service that receives."""
        return self.members(isid, but="send")

    def edges(self) -> List[str]:
        """The bridges that have a customer port; all bridges where none has."""
        have = {bridge for bridge, _ in self.attached}
        return [name for name in self.bridges if name in have] or list(self.bridges)

    def links_of(self, bridge: str) -> List[Link]:
        """The links that end at a bridge, in order of declaration."""
        return [link for link in self.links.values() if bridge in (link.a, link.b)]

    def by_system(self) -> Dict[str, str]:
        """The name of the bridge of each system id."""
        return {bridge.system: bridge.name for bridge in self.bridges.values()}

    def apply(self, line: Line) -> None:
        """Changes what is declared by a line that the program accepts."""
        act = getattr(self, f"_{line.keyword}", None)
        if act is not None and language.is_whole(line.words):
            try:
                act(line.number, *line.words[1:])
            except (KeyError, ValueError):
                pass  # the program refuses such a line, and says so when it is played

    def _vid(self, number: int, vid: str, ect: str) -> None:
        self.vids[int(vid)] = (int(ect), number)

    def _bridge(self, number: int, name: str, _priority: str, system: str, source: str, ports: str) -> None:
        self.bridges[name] = Bridge(name, system.lower(), source.lower(), int(ports), number)
        self.boxes += 1

    def _link(self, number: int, name: str, a: str, pa: str, b: str, pb: str, cost: str) -> None:
        link = Link(name, a, int(pa), b, int(pb), {"a": int(cost), "b": int(cost)}, number, since=number)
        self.links[name] = link
        self.at_port[a, link.pa] = self.at_port[b, link.pb] = link
        self.usual_metric[name, "a"] = self.usual_metric[name, "b"] = int(cost)

    def _isid(self, number: int, isid: str, vid: str) -> None:
        self.isids[int(isid)] = (int(vid), number)

    def _attach(self, number: int, bridge: str, port: str, isid: str, mode: str = language.LEFT_OUT["MODE"]) -> None:
        self.attached[bridge, int(port)] = (int(isid), number)
        self.modes[bridge, int(port)] = mode

    def _detach(self, _number: int, bridge: str, port: str) -> None:
        del self.attached[bridge, int(port)]
        del self.modes[bridge, int(port)]

    def _metric(self, _number: int, link: str, end: str, metric: str) -> None:
        self.links[link].metric[end] = int(metric)
        if int(metric) != language.GREATEST_METRIC:
            self.usual_metric[link, end] = int(metric)

    def _down(self, number: int, link: str) -> None:
        self.links[link].is_up, self.links[link].since = False, number

    def _up(self, number: int, link: str) -> None:
        self.links[link].is_up, self.links[link].since = True, number

    def _restart(self, _number: int, _bridge: str) -> None:
        self.boxes += 1

    def _round(self, _number: int, rounds: str) -> None:
        self.seconds += int(rounds)


class Script:
    """The lines of a file."""

    def __init__(self, name: str, content: bytes) -> None:
        self.name = name
        self.lines = list(_lines(content))

    @staticmethod
    def read(path: str) -> "Script":
        """The script of a path; `-` is standard input. Raises Unusable where it can't be read."""
        try:
            if path == "-":
                return Script("<standard input>", sys.stdin.buffer.read())
            with open(path, "rb") as file:
                return Script(path, file.read())
        except OSError as fault:
            raise Unusable(f"{path} can't be read: {fault.strerror}") from fault

    def upto(self, number: Optional[int]) -> List[Line]:
        """The lines up to that of a number, all where there is none."""
        if number is None or number == len(self.lines):
            return self.lines
        if not 1 <= number <= len(self.lines):
            raise Unusable(f"{self.name} has lines 1 to {len(self.lines)}, and none of number {number}")
        return self.lines[:number]

    def world(self, number: Optional[int] = None) -> World:
        """What is declared and in force behind the line of a number, behind the last where there is none."""
        world = World()
        for line in self.upto(number):
            world.apply(line)
        return world


def _lines(content: bytes) -> Iterator[Line]:
    """The lines of a script's bytes, each byte read as one character."""
    texts = content.decode("latin-1").split("\n")
    last = texts.pop()
    for number, text in enumerate(texts, 1):
        yield _line(number, text[:-1] if text.endswith("\r") else text)
    if last:
        yield _line(len(texts) + 1, last)


def _line(number: int, text: str) -> Line:
    words = () if text.startswith("#") else tuple(re.findall(r"[^ \t]+", text))
    return Line(number, text, words)
