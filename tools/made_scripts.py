"""Scripts by chance: by the grammar, mostly accepted, and some of them damaged."""


class Fabric:
    """What a script has declared so far, so that its next lines are mostly accepted."""

    def __init__(self, pick):
        self.pick = pick
        self.vids, self.bridges, self.links, self.isids, self.attached = [], [], [], [], {}
        self.free = []
        self.neighbours, self.dark = {}, set()

    def bridge(self):
        return self.pick.choice(self.bridges)

    def link(self):
        return self.pick.choice(self.links)

    def declare(self):
        """The lines that declare a small fabric."""
        pick = self.pick
        for vid, ect in pick.sample(((10, 1), (20, 2), (30, 3), (40, 16)), pick.randint(1, 3)):
            self.vids.append(vid)
            yield f"vid {vid} {ect}"
        for number in range(1, pick.randint(2, 6) + 1):
            name = pick.choice(("n", "spine", "leaf-", "POP_")) + str(number)
            ports = pick.randint(1, 4)
            self.bridges.append(name)
            self.free += [(name, port) for port in range(1, ports + 1)]
            yield f"bridge {name} {pick.choice((0, 32768, 65535))} 0200000000{number:02X} {number:05x} {ports}"
        yield from self.wire()
        for number in range(pick.randint(0, 3)):
            self.isids.append(100 + number)
            yield f"isid {100 + number} {pick.choice(self.vids)}"

    def wire(self):
        """Links between free ports of bridges that have none yet."""
        pick, joined = self.pick, set()
        pick.shuffle(self.free)
        while len(self.free) >= 2:
            (a, port_a), (b, port_b) = self.free.pop(), self.free.pop()
            if a != b and frozenset((a, b)) not in joined:
                joined.add(frozenset((a, b)))
                self.neighbours.setdefault(a, []).append(b)
                self.neighbours.setdefault(b, []).append(a)
                self.links.append(f"L{len(self.links) + 1}")
                yield f"link {self.links[-1]} {a} {port_a} {b} {port_b} {pick.randint(1, 20)}"

    def question(self):
        pick = self.pick
        word = pick.choice(("state", "show", "wiring", "db", "adj", "drops", "path", "whatif", "proof", "check"))
        if word == "state":
            return word
        if word == "whatif":
            return self.what_if()
        if word in ("path", "proof"):
            return f"{word} {self.bridge()} {self.bridge()} {pick.choice(self.vids)}"
        if word == "check":
            return self.check()
        return f"{word} {self.bridge()}"

    def what_if(self):
        """A change that is asked about: seldom one of a link that is in that state already."""
        pick = self.pick
        if not self.links:
            return f"wiring {self.bridge()}"
        link = self.link()
        if pick.random() < 0.4:
            return f"whatif metric {link} {pick.choice('ab')} {pick.randint(1, 30)}"
        is_turned = pick.random() < 0.03
        return f"whatif {'up' if (link in self.dark) != is_turned else 'down'} {link}"

    def check(self):
        """Entries that may well be right: there are few bridges, and most entries name neighbours."""
        pick, start = self.pick, self.bridge()
        entries = [self.entry(start, bridge) for bridge in self.bridges]
        if pick.random() < 0.03:
            entries.append(".")
        return f"check {start} {self.bridge()} {pick.choice(self.vids)} {' '.join(entries)}"

    def entry(self, start, bridge):
        """An entry of a bridge, where paths begin at another."""
        pick = self.pick
        if pick.random() < 0.03:
            return pick.choice(("-", ".", self.bridge()))
        return "-" if bridge == start else pick.choice(self.neighbours.get(bridge, ["."]))

    def frame_event(self):
        """A frame of a lane, which may well be empty: often refused, so it is seldom chosen."""
        pick = self.pick
        direction = pick.choice(("ab", "ba"))
        word = pick.choice(("deliver", "lose", "double"))
        place = "" if word == "deliver" else " 0"
        return f"{word} {self.link()} {direction}{place}"

    def customer(self):
        """A customer port is attached or detached, or a frame enters there."""
        pick = self.pick
        if not self.isids:
            return f"tick {self.bridge()}"
        bridge, port = self.bridge(), pick.randint(1, 3)
        if (bridge, port) not in self.attached:
            mode = pick.choice(("", "", " both", " send", " recv"))
            self.attached[bridge, port] = mode
            return f"attach {bridge} {port} {pick.choice(self.isids)}{mode}"
        # A frame at a port that only receives is refused, so it is seldom chosen.
        if pick.random() < (0.95 if self.attached[bridge, port] == " recv" else 0.2):
            del self.attached[bridge, port]
            return f"detach {bridge} {port}"
        to = pick.choice(("ffffffffffff", "0a0000000001", "0A0000000002"))
        rest = pick.randbytes(pick.randint(0, 9)).hex()
        return f"frame {bridge} {port} {to}0a000000000{pick.randint(1, 3)}0800{rest}"

    def turn(self):
        """A link fails or comes back. Where it did already, the line is refused, and the script ends there."""
        word, link = self.pick.choice(("down", "up")), self.link()
        (self.dark.add if word == "down" else self.dark.discard)(link)
        return f"{word} {link}"

    def event(self):
        pick = self.pick
        if not self.links or pick.random() < 0.1:
            return f"tick {self.bridge()}"
        chance = pick.random()
        if chance < 0.06:
            return "settle"
        if chance < 0.35:
            return f"round {pick.randint(1, 12)}"
        if chance < 0.5:
            return f"drain {pick.choice((1, 7, 100))}"
        if chance < 0.6:
            return f"metric {self.link()} {pick.choice('ab')} {pick.randint(1, 30)}"
        if chance < 0.63:
            return f"restart {self.bridge()}"
        if chance < 0.66:
            return self.turn()
        if chance < 0.69:
            return self.frame_event()
        return self.customer()


def spelled(pick, line):
    """A line with its end, in one of the spellings that mean the same."""
    if pick.random() < 0.1:
        line = line.replace(" ", pick.choice(("\t", "  ", " \t ")))
    if pick.random() < 0.05:
        line = " " + line + " "
    return line + pick.choice(("\n", "\n", "\n", "\r\n"))


def passed_over(pick):
    """A line that says nothing: blank, or a comment, seldom one as long as a line may be or a byte longer."""
    if pick.random() < 0.05:
        return "#" * pick.choice((8190, 8191, 8192, 8193)) + pick.choice(("\n", "\r\n"))
    return pick.choice(("\n", "\r\n", "  \t\n", "# a comment\n", "#\n"))


def damaged(pick, script):
    """A script with a byte changed, left out or put in."""
    at = pick.randrange(len(script))
    kept = pick.choice((0, 1))
    return script[:at] + pick.choice((b"", pick.randbytes(1), b"\n", b"\r", b" ")) + script[at + kept:]


def script(pick):
    """The bytes of a script by chance."""
    fabric = Fabric(pick)
    lines = [spelled(pick, line) for line in fabric.declare()]
    for _ in range(pick.randint(5, 120)):
        if pick.random() < 0.08:
            lines.append(passed_over(pick))
        lines.append(spelled(pick, fabric.question() if pick.random() < 0.35 else fabric.event()))
    made = "".join(lines).encode("ascii")
    if pick.random() < 0.3:
        made = made.rstrip(b"\r\n") + pick.choice((b"", b"\r"))
    if pick.random() < 0.3:
        made = damaged(pick, made)
    return made
