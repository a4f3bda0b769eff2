#!/usr/bin/env python3
"""What the program `blockrun` must answer, worked out apart from its code: lines in, answers out, byte for byte.

    python3 tests/blockrun.py < input > output

Sources: document 01, sections "The two machines" (ranges of a link, the frame tick), "Words on the bus", "Distribution",
"Numbers a caller may get back" and the part on blockrun under "Pairs at the edges"; ECSS-E-ST-50-13C, Tables 8-3 and 8-4 and
clause 8.6.1. It shares no code with the project. What the paper leaves open is decided beside the line that decides it.

How, so that a slip of the project is not made here again:
- a block is a list of bytes, and a transfer is the list of messages that it still has to send, made whole at the submission;
- what a Reset cuts is told apart by whom a message was asked for, not by a phase: an errand that is no longer the
  controller's errand has been cut;
- there is no tick. The age of a descriptor is the number of frames that were seen since its outcome, back to 0 at the
  65536th, which is the paper's subtraction on the circle without a subtraction;
- a count is handed out by a walk round the circle 1 to 255; the spent transfers are a list of them;
- the terminal's marks are a list of sixteen, None or a number of words; in mode 1 the words that came are a list;
- words are taken apart and made by division and remainder; a refusal is the first of the paper's numbers that holds.
"""

import itertools
import sys

LONGEST_LINE = 16384  # without its newline; a limit that the program states, not the paper
CIRCLE = 65536


class Link:
    def __init__(self, address, mode, sa, largest, window):
        self.address, self.mode, self.sa, self.largest, self.window = address, mode, sa, largest, window

    def in_range(self):
        if self.mode == 0:
            shape = self.sa == 11 and self.largest == 1024
        else:
            shape = self.mode == 1 and 11 <= self.sa <= 26 and self.largest in (1024, 4096)
        return shape and 0 <= self.address <= 30 and 2 <= self.window <= 16


# ---- words on the bus


def control_words(size, flag, reset, mode, sa, count):
    """Tables 8-3 and 8-4: four zero bits and SIZE; QoS or Error, Reset, Mode, SA, count."""
    return [size % 4096, ((((flag * 2) + reset) * 2 + mode) * 32 + sa) * 256 + count]


RESET_WORDS = control_words(0, 0, 1, 0, 11, 0)


class Control:
    """The fields of two words."""

    def __init__(self, words):
        first, second = words
        self.reserved, self.size_field = divmod(first, 4096)
        self.size = self.size_field if self.size_field else 4096
        rest, self.count = divmod(second, 256)
        rest, self.sa = divmod(rest, 32)
        rest, self.mode = divmod(rest, 2)
        self.flag, self.reset = divmod(rest, 2)


def misfit(words, link):
    """Numbers 6 to 9, the lowest that holds, or None."""
    if len(words) != 2:
        return 6
    c = Control(words)
    if c.reserved != 0:
        return 7
    if c.reset:
        return 8 if (c.size_field, c.flag, c.mode, c.sa, c.count) != (0, 0, 0, 11, 0) else None
    if c.mode != link.mode or c.sa != link.sa:
        return 9
    return None


def cut(block):
    """A block in messages of 64 bytes, each a list of words, first byte high; an odd end is filled with 0."""
    parts = []
    left = list(block)
    while left:
        part, left = left[:64], left[64:]
        if len(part) % 2:
            part.append(0)
        parts.append([part[i] * 256 + part[i + 1] for i in range(0, len(part), 2)])
    return parts


# ---- the controller's end


class Message:
    """kind is data, descriptor or read; a read has no words of its own."""

    def __init__(self, kind, sa, words):
        self.kind, self.sa, self.words = kind, sa, words


class Errand:
    """What the controller is about: a block transfer, or a Reset (count 0). `left` are the messages it has not asked for
    yet. `age` is None until the descriptor's outcome was told, then the frames since."""

    def __init__(self, count, verified, left):
        self.count, self.verified, self.left = count, verified, left
        self.age = None

    def is_reset(self):
        return self.count == 0


class Controller:
    def __init__(self, link):
        self.link = link
        self.accepted = False  # a reset
        self.counts = None
        self.spent = []  # counts of the transfers started since the last confirmed block or accepted reset
        self.errand = None
        self.asked = None  # (message, errand for which it was asked)

    def ask(self, message):
        assert self.asked is None
        self.asked = (message, self.errand)

    def submit(self, verified, block):
        """A refusal number, or None."""
        if not self.accepted:
            return 2
        if len(block) == 0 or len(block) > self.link.largest:
            return 3
        if self.errand is not None:
            return 4
        if len(self.spent) >= 254:
            return 5
        count = next(self.counts)
        self.spent.append(count)
        left = []
        for place, words in enumerate(cut(block)):
            left.append(Message("data", 11 + place if self.link.mode == 0 else self.link.sa, words))
        words = control_words(len(block), 1 if verified else 0, 0, self.link.mode, self.link.sa, count)
        left.append(Message("descriptor", 27, words))
        self.errand = Errand(count, verified, left)
        self.ask(self.errand.left.pop(0))
        return None

    def reset(self):
        """Voids an acceptance and cuts what is open. A message that is out stays out; else the descriptor goes at once."""
        self.accepted = False
        self.errand = Errand(0, False, [Message("descriptor", 27, list(RESET_WORDS))])
        if self.asked is None:
            self.ask(self.errand.left.pop(0))

    def frame(self):
        waiting = self.errand is not None and self.errand.age is not None
        if waiting:
            self.errand.age += 1
            if self.errand.age == CIRCLE:
                self.errand.age = 0
        if waiting and self.asked is None and self.errand.age >= 2:
            self.ask(Message("read", 27, None))

    def finding(self, errand, words):
        """What a read found; words is None with no reply."""
        if words is None:
            return "lost"
        if misfit(words, self.link) is not None:
            return "other"
        c = Control(words)
        if c.reset:
            return "reset"
        still_open = errand is self.errand and not errand.is_reset()
        if still_open and c.count == errand.count:
            return "refused" if c.flag else "confirmed"
        return "other"

    def told(self, done, words):
        """The outcome of the message asked for, a read's with its words. Gives a read's finding."""
        message, errand = self.asked
        self.asked = None
        finding = None
        if message.kind == "read":
            finding = self.finding(errand, words if done else None)
        if errand is not self.errand:  # a Reset came between: without effect, and the Reset descriptor goes
            self.ask(self.errand.left.pop(0))
        elif message.kind == "data":
            if errand.verified and not done:
                self.errand = None  # abandoned, the descriptor withheld
            else:
                self.ask(errand.left.pop(0))
        elif message.kind == "descriptor":
            if errand.is_reset() and not done:
                self.errand = None  # not accepted
            else:
                errand.age = 0
        elif errand.is_reset():
            if finding == "reset":
                self.accepted = True
                self.counts = itertools.cycle(range(1, 256))
                self.spent = []
                self.errand = None
            elif errand.age >= self.link.window:
                self.errand = None  # not accepted
        else:
            if finding == "confirmed":
                self.spent = []
                self.errand = None
            elif finding == "refused" or errand.age >= self.link.window:
                self.errand = None
        return finding


# ---- the terminal's end


class Terminal:
    def __init__(self, link):
        self.link = link
        self.places = [[0] * 64 for _ in range(16)]  # mode 0, from subaddress 11
        self.marks = [None] * 16  # mode 0: words of the last writing since the marks were cleared
        self.came = []  # mode 1: words since then, 2048 at most
        self.too_many = False  # mode 1: a word past the 2048th came
        self.last_handled = None  # None: no Reset seen
        self.hand = None  # (bytes, the descriptor)
        self.shown = [0, 0]  # 27T

    def clear_marks(self):
        self.marks = [None] * 16
        self.came = []
        self.too_many = False

    def arrive(self, sa, words):
        """Gives the refusal number or None; a bus has nowhere to show it, the terminal's caller has."""
        if sa == 27:
            return self.descriptor(words)
        uses = range(11, 27) if self.link.mode == 0 else [self.link.sa]
        if not 1 <= len(words) <= 32 or sa not in uses:
            return 19
        if self.link.mode == 0:
            place = self.places[sa - 11]
            for i, word in enumerate(words):
                place[2 * i], place[2 * i + 1] = divmod(word, 256)
            self.marks[sa - 11] = len(words)
        else:
            for word in words:
                if len(self.came) < 2048:
                    self.came.append(word)
                else:
                    self.too_many = True
        return None

    def length_holds(self, size):
        wanted = [len(words) for words in cut([0] * size)]
        if self.link.mode == 0:
            return self.marks[: len(wanted)] == wanted
        return not self.too_many and len(self.came) == sum(wanted)

    def stored(self, size):
        """SIZE bytes as they stand."""
        if self.link.mode == 0:
            flat = [byte for place in self.places for byte in place]
        else:
            flat = [byte for word in self.came for byte in divmod(word, 256)]
            flat += [0] * 4096
        return flat[:size]

    def descriptor(self, words):
        number = misfit(words, self.link)
        if number is not None:
            return number
        c = Control(words)
        if c.reset:
            self.hand = None
            self.clear_marks()
            self.last_handled = 0
            self.shown = list(RESET_WORDS)
            return None
        if c.size > 1024 and self.link.largest == 1024:
            return 10
        if c.size > 4096:
            return 11
        if self.last_handled is None or c.count == 0:
            return 12
        if c.count == self.last_handled:
            self.clear_marks()
            return 13
        if self.hand is not None:
            self.clear_marks()
            return 14
        if c.flag and not self.length_holds(c.size):
            self.clear_marks()
            self.last_handled = c.count
            self.shown = control_words(c.size, 1, 0, c.mode, c.sa, c.count)
            return 15
        self.hand = (self.stored(c.size), c)
        self.last_handled = c.count
        self.clear_marks()
        return None

    def take(self):
        """The bytes, or None."""
        if self.hand is None:
            return None
        block, c = self.hand
        self.hand = None
        self.shown = control_words(c.size, 0, 0, c.mode, c.sa, c.count)
        return block


# ---- lines


def number(text):
    """One decimal digit or more. A number of more than five digits is out of every range, whatever it is."""
    if not text or any(c not in b"0123456789" for c in text):
        return None
    text = text.lstrip(b"0")
    return 99999 if len(text) > 5 else int(text or b"0")


def hexed(text):
    """Capital hex, an even number of digits; no digit at all is a block of 0 bytes."""
    digits = [b"0123456789ABCDEF".find(bytes([c])) for c in text]
    if len(digits) % 2 or -1 in digits:
        return None
    return [digits[i] * 16 + digits[i + 1] for i in range(0, len(digits), 2)]


def read_line(line):
    """The line's name and what it says, or None for a line of another form."""
    if len(line) > LONGEST_LINE:
        return None
    name, *rest = line.split(b"\t")
    if name in (b"reset", b"frame", b"take") and rest == []:
        return name, None
    if name == b"link" and len(rest) == 5:
        numbers = [number(field) for field in rest]
        return None if None in numbers else (name, Link(*numbers))
    if name == b"send" and len(rest) == 2 and rest[0] in (b"v", b"b"):
        block = hexed(rest[1])
        return None if block is None else (name, (rest[0] == b"v", block))
    if name == b"bus" and len(rest) == 1 and rest[0] in (b"d", b"r", b"n"):
        return name, rest[0]
    return None


class Run:
    """Both ends of one link, and the answers to lines."""

    def __init__(self):
        self.controller = self.terminal = None
        self.log = []  # refusals of the terminal, for who wants to look

    def bus(self, outcome):
        if self.controller.asked is None:
            return ["no", "18"]
        message = self.controller.asked[0]
        if message.kind == "read":
            return ["ok", "T27", self.controller.told(outcome == b"d", list(self.terminal.shown))]
        if outcome != b"n":
            self.log.append(self.terminal.arrive(message.sa, message.words))
        self.controller.told(outcome == b"d", None)
        return ["ok", "R%d" % message.sa] + ["%04X" % word for word in message.words]

    def answer(self, line):
        form = read_line(line)
        if form is None:
            return ["no", "0"]
        name, said = form
        if name == b"link":
            if not said.in_range():
                return ["no", "20"]
            self.controller, self.terminal = Controller(said), Terminal(said)
            return ["ok"]
        if self.controller is None:
            return ["no", "1"]
        if name == b"reset":
            self.controller.reset()
            return ["ok"]
        if name == b"frame":
            self.controller.frame()  # the terminal's tick moves too, and nothing at that end depends on it
            return ["ok"]
        if name == b"take":
            block = self.terminal.take()
            return ["no", "16"] if block is None else ["ok", "".join("%02X" % byte for byte in block)]
        if name == b"send":
            refused = self.controller.submit(*said)
            return ["ok"] if refused is None else ["no", str(refused)]
        return self.bus(said)


def lines_of(data):
    """Lines end at a newline; a last one may lack it."""
    lines = data.split(b"\n")
    if lines[-1] == b"":
        lines.pop()
    return lines


def answers(data):
    run = Run()
    out = []
    for at, line in enumerate(lines_of(data)):
        out.append("\t".join([str(at + 1)] + run.answer(line)) + "\n")
    return "".join(out).encode("ascii")


if __name__ == "__main__":
    sys.stdout.buffer.write(answers(sys.stdin.buffer.read()))
