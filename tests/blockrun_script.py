"""How the tests of blockrun are written down: lines with the answers worked out by hand from document 01 beside them.

A case is held to the reference (tests/blockrun.py) when it is written: a slip of the reference shows there and not in the
program. A line that begins with `#` tells a reader what comes: it is a line of another form, which answers `no 0` and does
nothing (document 01). `None` leaves an answer to the reference alone. A good `link` line starts a scenario afresh.
"""

import sys

import blockrun

RESET = "ok R27 0000 4B00"


def block(n, kind):
    """n bytes; different for each kind, and different from message to message."""
    return bytes((kind * 37 + i * 5 + (i // 64) * 11 + (i * i) // 97) % 256 for i in range(n))


class Case:
    """The lines of one file and the answers worked out by hand. Blanks are tabs, in lines and in answers."""

    def __init__(self, name):
        self.name, self.lines, self.wants, self.scenarios = name, [], [], 0
        self.ending = b"\n"  # of the last line
        self.packed = False  # stored compressed
        self.keys = []

    def raw(self, line, want=None):
        self.lines.append(line)
        self.wants.append(want)

    def say(self, line, want="ok"):
        self.raw(line.replace(" ", "\t").encode("latin-1"), want)

    def note(self, text):
        self.raw(b"# " + text.encode("ascii"), "no 0")

    def link(self, *numbers, want="ok", note=None):
        if note:
            self.note(note)
        if want == "ok":
            self.scenarios += 1
            self.mode, self.sa = numbers[1], numbers[2]
        self.say("link %s" % " ".join(str(n) for n in numbers), want)

    def frame(self, times=1):
        for _ in range(times):
            self.say("frame")

    def bus(self, outcome, want=None):
        self.say("bus " + outcome, want)

    def idle(self):
        """Nothing is asked for."""
        self.bus("d", "no 18")

    def reset(self, read="d"):
        """A Reset that is accepted."""
        self.say("reset")
        self.bus("d", RESET)
        self.frame(2)
        self.bus(read, "ok T27 reset")

    def send(self, quality, data, want="ok"):
        self.say("send %s " % quality + bytes(data).hex().upper(), want)

    def take(self, data):
        self.say("take", "no 16" if data is None else "ok " + bytes(data).hex().upper())

    def data(self, data, outcomes=None):
        """The data messages of a block, each with its outcome; subaddress and words by hand."""
        parts = [data[i : i + 64] for i in range(0, len(data), 64)]
        for i, part in enumerate(parts):
            text = (part.hex() + ("00" if len(part) % 2 else "")).upper()
            words = [text[j : j + 4] for j in range(0, len(text), 4)]
            sa = 11 + i if self.mode == 0 else self.sa
            self.bus(outcomes[i] if outcomes else "d", "ok R%d %s" % (sa, " ".join(words)))

    def descriptor(self, quality, n, count, outcome="d"):
        second = {"v": 0x8000, "b": 0}[quality] + 0x2000 * self.mode + 0x100 * self.sa + count
        self.bus(outcome, "ok R27 %04X %04X" % (n % 4096, second))

    def out(self, quality, data, count, outcomes=None):
        """Submitted, data and descriptor done."""
        self.send(quality, data)
        self.data(data, outcomes)
        self.descriptor(quality, len(data), count)

    def good(self, quality, data, count, taken=None):
        """A whole transfer, taken and confirmed."""
        self.out(quality, data, count)
        self.take(data if taken is None else taken)
        self.idle()
        self.frame()
        self.idle()
        self.frame()
        self.bus("d", "ok T27 confirmed")
        self.idle()
        self.take(None)

    def short(self, quality, count, data, age=2):
        """A transfer, taken and confirmed at that age; with one data message and age 2 it has seven lines."""
        self.out(quality, data, count)
        self.take(data)
        self.frame(age)
        self.bus("d", "ok T27 confirmed")

    def key(self, number, line, answer):
        """A line of the file worked out by arithmetic, with its number, apart from the calls that write the lines."""
        self.keys.append((number, line, answer))


def written(made):
    text = b"\n".join(made.lines) + made.ending
    out = blockrun.answers(text)
    got = out.decode().split("\n")[:-1]
    assert len(got) == len(made.lines) == len(made.wants), made.name
    by_hand = 0
    for at, (line, want, answer) in enumerate(zip(made.lines, made.wants, got)):
        if want is not None:
            by_hand += 1
            wanted = "%d\t%s" % (at + 1, want.replace(" ", "\t"))
            if answer != wanted:
                sys.exit("%s line %d, %r:\n  by hand  %s\n  answered %s" % (made.name, at + 1, line[:80], wanted[:200], answer[:200]))
    for number, line, answer in made.keys:
        wanted = ("%s\n%d %s" % (line, number, answer)).replace(" ", "\t")
        found = "%s\n%s" % (made.lines[number - 1].decode(), got[number - 1])
        if found != wanted:
            sys.exit("%s line %d:\n  wanted %r\n  found  %r" % (made.name, number, wanted, found))
    return text, out, by_hand
