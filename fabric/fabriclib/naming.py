"""What an answer's line says, in names: addresses as bridges, ports by the neighbours behind them."""
from __future__ import annotations

import copy
from typing import List, Optional

from fabriclib import language
from fabriclib.script import World

DROP_REASONS = (
    "no frame of the backbone",
    "PDU can't be read",
    "TLV can't be read",
    "not adjacent",
    "hello discarded",
    "ingress check",
    "no way",
    "I-SID mismatch",
    "database full",
)
CONDITIONS = {
    "q1": "an adjacency isn't as the link",
    "q2": "a frame is on its way",
    "q3": "an LSP or CSNP is due",
}
# Why a network need not be quiet after all the rounds of a line `settle`: what was so before them.
BUSY = {
    "frame": "a customer's frame was on its way",
    "lifetime": "an LSP was about to run out",
    "own": "a bridge was about to originate an LSP anew",
    "ids": "there were more than 900 LSP ids",
}


class Names:
    """The names behind the words of the answers to one question."""

    def __init__(self, world: World, bridge: str) -> None:
        self.world = world
        self.bridge = bridge
        # Whether rows are those that a change would make: then all their links are up.
        self.is_foretold = False
        self.systems = world.by_system()
        self.sources = {own.source: own.name for own in world.bridges.values()}

    def note(self, line: str) -> Optional[str]:
        """What a line says, in names; none where it has no address or port."""
        words = line.split()
        read = {
            "u": self._unicast,
            "g": self._group,
            "p": self._port,
            "l": self._lsp,
            "out": self._out,
            "drops": self._drops,
            "state": self._state,
            "-": self._change,
            "+": self._change,
            "proof": self._proof,
            "check": self._check,
            "settle": self._settle,
        }.get(words[0])
        return read(words) if read else None

    def _neighbour(self, port: str) -> str:
        """The bridge behind a port, with the link's state where that is down."""
        link = self.world.at_port.get((self.bridge, int(port)))
        if link is None:
            return f"port {port}, which has no link"
        return link.far(self.bridge)[0] + ("" if link.is_up or self.is_foretold else " (link down)")

    def _neighbours(self, ports: str) -> str:
        """The bridges behind a list of ports."""
        return ", ".join(map(self._neighbour, ports.split(",")))

    def _unicast(self, words: List[str]) -> str:
        return f"to {self.systems.get(words[2], words[2])} over {self._neighbour(words[3])}"

    def _group(self, words: List[str]) -> str:
        mac = words[2]
        source = self.sources.get(mac[0] + mac[2:6], mac[0] + mac[2:6])
        return f"service {int(mac[6:], 16)} from {source} to {self._neighbours(words[3])}"

    def _change(self, words: List[str]) -> Optional[str]:
        """What a row says that goes from a bridge, or comes to it."""
        there = copy.copy(self)
        there.bridge, there.is_foretold = words[1], True
        return there.note(" ".join(words[2:]))

    def _port(self, words: List[str]) -> Optional[str]:
        link = self.world.at_port.get((self.bridge, int(words[1])))
        if link is None:
            return "no link"
        told = f"link {link.name} to {link.far(self.bridge)[0]}" + ("" if link.is_up else ", down")
        heard = self.systems.get(words[3]) if len(words) > 3 else None
        return told + (f", hears {heard}" if heard else "")

    def _lsp(self, words: List[str]) -> str:
        told = f"of {self.systems.get(words[1][:12], words[1][:12])}"
        for flag, what in (("srm", "to be sent to"), ("ssn", "to be acknowledged to")):
            ports = words[words.index(flag) + 1]
            if ports != "-":
                told += f", {what} {self._neighbours(ports)}"
        return told

    def _out(self, words: List[str]) -> str:
        isid = self.world.attached.get((words[1], int(words[2])))
        return f"leaves at {words[1]}" + (f", service {isid[0]}" if isid else "")

    def _drops(self, words: List[str]) -> Optional[str]:
        told = [f"{count} {reason}" for count, reason in zip(words[2:], DROP_REASONS) if count != "0"]
        return ", ".join(told) or "none"

    def _state(self, words: List[str]) -> Optional[str]:
        return "; ".join(CONDITIONS[word] for word in words[2:]) or None

    def _proof(self, words: List[str]) -> str:
        """The way to the bridge that was asked for, by following entries back to where the paths start."""
        before = dict(zip(self.world.bridges, words[4:]))
        way = [words[2]]
        while before.get(way[-1], ".") not in (*language.NO_BRIDGE, *way):
            way.append(before[way[-1]])
        return f"the way {' '.join(reversed(way))}" if way[-1] == words[1] else f"no way to {words[2]}"

    def _check(self, words: List[str]) -> Optional[str]:
        """The bridge of the number, where entries prove nothing."""
        return f"shown by {list(self.world.bridges)[int(words[2]) - 1]}" if words[1] == "no" else None

    def _settle(self, words: List[str]) -> Optional[str]:
        """What was so before the first round, where all were made and the network isn't quiet."""
        return f"before the first of them {BUSY[words[3]]}" if words[2] == "busy" else None
