#!/usr/bin/env python3
"""Inputs of blockrun that are made for each test and not stored, written to standard output.

    python3 tests/blockrun_random.py SEED N   N random lines, the same for the same seed
    python3 tests/blockrun_random.py NAME     a long scenario: late, sizes, pile, lines
    python3 tests/blockrun_random.py --list   the names

Program and reference (tests/blockrun.py) are compared over them. The long scenarios carry answers worked out by hand, as the
stored ones do, and are held to the reference before they are written.

Random lines are drawn without a look at any state: short gestures (a reset that would be accepted, a transfer that would be
confirmed, ..), with lines left out, put twice, changed in their outcome or spoiled at random. So most runs get far, and
no end is spared what it does not expect.
"""

import random
import sys

from blockrun_script import RESET, Case, block, written

# ---- random lines

STRAY = [b"frame", b"bus\td", b"bus\tr", b"bus\tn", b"take", b"reset", b"send\tv\t41", b"send\tb\t"]
STRANGE = [0, 1, 2, 10, 11, 17, 27, 31, 32, 256, 1023, 4096, 65536, 2**32, 2**64, 2**64 + 11]


class Lines:
    def __init__(self, seed):
        self.draw = random.Random(seed)
        self.lines = []
        self.mode, self.largest, self.window = 0, 1024, 2
        self.noise = 0.05

    def put(self, line):
        """A line, or now and then none, or two, or a spoiled one before it."""
        what = self.draw.random()
        if what < self.noise * 0.3:
            return
        if what < self.noise * 0.5:
            self.lines.append(line)
        elif what < self.noise * 0.8:
            self.lines.append(self.draw.choice(STRAY))
        elif what < self.noise:
            self.lines.append(self.spoiled(line))
        self.lines.append(line)

    def spoiled(self, line):
        line = bytearray(line[:200])
        for _ in range(self.draw.randint(1, 3)):
            what = self.draw.randint(0, 4)
            at = self.draw.randint(0, len(line))
            if what == 0:
                line[at:at] = bytes([self.draw.choice(b"\t\t 0159AFGabg\r\0\xff")])
            elif what == 1:
                line[at : at + 1] = b""
            elif what == 2:
                line[at : at + 1] = bytes([self.draw.randint(0, 255)])
            elif what == 3:
                line = line[:at]
            else:
                line += b"\t"
        return bytes(line).replace(b"\n", b"")

    def link(self):
        mode = self.draw.randint(0, 1)
        sa = 11 if mode == 0 else self.draw.randint(11, 26)
        largest = 1024 if mode == 0 else self.draw.choice([1024, 4096])
        window = self.draw.choice([2, 2, 3, 4, 5, 16, self.draw.randint(2, 16)])
        numbers = [self.draw.randint(0, 30), mode, sa, largest, window]
        if self.draw.random() < 0.25:
            bad = list(numbers)
            bad[self.draw.randint(0, 4)] = self.draw.choice(STRANGE)
            self.lines.append(b"link\t" + b"\t".join(b"%d" % n for n in bad))  # some of these are good ones
            self.lines.append(b"send\tv\t42")
            self.lines.append(b"bus\td")
        self.lines.append(b"link\t" + b"\t".join(b"%d" % n for n in numbers))
        self.mode, self.largest, self.window = mode, largest, window
        self.noise = self.draw.choice([0, 0.02, 0.05, 0.1, 0.3])
        self.loss = self.draw.choice([0, 0.02, 0.1, 0.3])

    def bus(self):
        self.put(b"bus\t" + (self.draw.choice([b"r", b"n"]) if self.draw.random() < self.loss else b"d"))

    def frames(self, times):
        for _ in range(times):
            self.put(b"frame")

    def reset(self):
        self.put(b"reset")
        self.bus()
        self.frames(2)
        self.bus()

    def size(self):
        what = self.draw.random()
        if what < 0.6:
            return self.draw.randint(1, 9)
        if what < 0.85:
            return self.draw.randint(1, 200)
        if what < 0.93:
            return max(0, 64 * self.draw.randint(0, 4) + self.draw.randint(-1, 1))
        if what < 0.97:
            return self.draw.choice([0, 1, 63, 64, 65, 1023, 1024, 1025])
        return self.draw.choice([self.largest, self.largest - 1, self.largest + 1, self.draw.randint(1, self.largest)])

    def send(self):
        n = self.size()
        data = self.draw.randbytes(n).hex().upper().encode()
        self.put(b"send\t" + self.draw.choice([b"v", b"v", b"b"]) + b"\t" + data)
        return (n + 63) // 64

    def transfer(self):
        messages = self.send()
        for _ in range(messages + 1):
            self.bus()
            if self.draw.random() < 0.02:
                self.frames(1)
        if self.draw.random() < 0.7:
            self.put(b"take")
        self.frames(2)
        self.bus()
        while self.draw.random() < 0.4:
            self.frames(1)
            if self.draw.random() < 0.5:
                self.put(b"take")
            self.bus()

    def run_out(self):
        """Until the window is over."""
        for _ in range(self.window + 1):
            self.frames(1)
            self.bus()

    def abandoned(self):
        times = self.draw.choice([1, 2, 3, 3, 5, 253, 254, 255]) if self.draw.random() < 0.06 else self.draw.randint(1, 3)
        for _ in range(times):
            self.lines.append(b"send\tv\t5A")
            self.lines.append(b"bus\t" + (b"n" if times > 9 else self.draw.choice([b"r", b"n"])))

    def cut(self):
        messages = self.send()
        for _ in range(self.draw.randint(0, messages + 1)):
            self.bus()
        self.frames(self.draw.randint(0, 3))
        for _ in range(self.draw.choice([1, 1, 2])):
            self.put(b"reset")
        self.bus()
        self.bus()
        self.frames(2)
        self.bus()

    def garbage(self):
        n = self.draw.choice([0, 1, 5, 40, 300, 3000])
        self.lines.append(self.draw.randbytes(n).replace(b"\n", b"\t"))

    def made(self, n):
        if self.draw.random() < 0.3:
            self.lines += [b"bus\td", b"take", b"frame"]
        self.link()
        self.reset()
        while len(self.lines) < n:
            what = self.draw.choices(
                [self.transfer, self.reset, self.run_out, self.abandoned, self.cut, self.link, self.garbage],
                [60, 8, 8, 6, 4, 2, 2],
            )[0]
            what()
            if what == self.link:
                self.reset()
        return b"\n".join(self.lines[:n]) + (b"\n" if self.draw.random() < 0.5 else b"")


# ---- long scenarios

names = {}


def named(function):
    names[function.__name__] = function
    return function


@named
def late(c):
    """Ages on the circle: a read left out for 65536 frames is told at an age of 0; so with a Reset's; then W counts again."""
    c.link(6, 1, 15, 1024, 3)
    c.reset()
    c.out("v", b"one", 1)
    c.frame(65536)  # the read was asked for at age 2; now the age is 0
    c.bus("d", "ok T27 reset")
    c.send("v", b"two", "no 4")
    c.frame()
    c.idle()  # age 1
    c.frame()
    c.bus("d", "ok T27 reset")  # age 2, below W
    c.frame()
    c.bus("d", "ok T27 reset")  # age 3
    c.send("v", b"two")
    c.data(b"two")
    c.descriptor("v", 3, 2)  # 14: the first is still in hand
    c.frame(65535)
    c.bus("d", "ok T27 reset")  # age 65535: over
    c.take(b"one")
    c.send("v", b"three")
    c.say("reset")
    c.data(b"three")
    c.bus("d", RESET)
    c.frame(65536 + 2)
    c.bus("n", "ok T27 lost")  # age 2: below W
    c.frame()
    c.bus("d", "ok T27 reset")  # age 3
    c.good("v", b"four", 1)
    c.say("reset")
    c.bus("d", RESET)
    c.frame(65536 + 3)
    c.bus("n", "ok T27 lost")  # age 3: not accepted
    c.frame(3)
    c.idle()
    c.send("v", b"five", "no 2")
    c.reset()
    c.good("b", b"five", 1)


@named
def sizes(c):
    """Whole transfers, both qualities: every size within one byte of a whole number of messages, up to the link's largest."""
    kind = 0
    for link in [(5, 0, 11, 1024, 2), (30, 1, 11, 1024, 2), (0, 1, 26, 4096, 16)]:
        c.link(*link)
        c.reset()
        count = 0
        edges = [1, 2] + [64 * k + d for k in range(1, 65) for d in (-1, 0, 1)]
        for n in [n for n in edges if n <= link[3]]:
            if link[3] == 4096 and 300 < n < 3900 and n not in (1023, 1024, 1025, 2047, 2048, 2049):
                continue
            for quality in "vb":
                kind += 1
                count = count % 255 + 1
                c.good(quality, block(n, kind), count)
        for n in [n for n in (1025, 2048, 4095, 4096, 4097) if n > link[3]]:
            c.send("v", block(n, 1), "no 3")
            c.send("b", block(n, 1), "no 3")


@named
def pile(c):
    """Mode 1: words of lost descriptors up to the store's 2048 and past it."""
    for last_words in (31, 32, 33):
        c.link(4, 1, 12, 4096, 2)
        c.reset()
        stale = block(2 * (2048 - 32 - 32 + last_words), 3)
        c.note("%d words came, and 32 more with the next block" % (len(stale) // 2))
        c.send("v", stale)
        c.data(stale)
        c.descriptor("v", len(stale), 1, "n")
        c.frame(2)
        c.bus("d", "ok T27 reset")
        fresh = block(64, 4)
        c.out("b", fresh, 2)
        c.take(stale[:64])
        c.frame(2)
        c.bus("d", "ok T27 confirmed")
        c.good("v", fresh, 3)
    for stale_words in (1, 2, 32):
        c.link(4, 1, 12, 4096, 2)
        c.reset()
        c.note("%d words of an abandoned block, then 4096 bytes: 15; then by Best Effort, the last words not kept" % stale_words)
        stale = block(2 * stale_words, 5)
        c.send("v", stale)
        c.data(stale, "r")
        c.idle()
        whole = block(4096, 6)
        c.out("v", whole, 2)
        c.take(None)
        c.frame(2)
        c.bus("d", "ok T27 refused")
        c.send("v", stale)
        c.data(stale, "r")
        c.out("b", whole, 4)
        c.take((stale + whole)[:4096])
        c.frame(2)
        c.bus("d", "ok T27 confirmed")
        c.good("v", whole, 5)
        c.send("b", whole)
        c.data(whole, "n" + "d" * 63)
        c.descriptor("b", 4096, 6)
        c.take(whole[64:] + bytes(64))
    c.link(4, 1, 12, 1024, 2)
    c.reset()
    c.note("largest 1024: five blocks of 896 bytes with their descriptors lost, 4480 bytes; 15, though the store holds 2048 words")
    for round_ in (0, 1):
        for i in range(1, 6):
            data = block(896, 10 * round_ + i)
            if i == 1:
                head = data
            c.send("v", data)
            c.data(data)
            c.descriptor("v", 896, 7 * round_ + i, "n")
            c.frame(2)
            c.bus("d", "ok T27 reset" if round_ == 0 else "ok T27 other")
        if round_ == 0:
            c.out("v", block(1024, 7), 6)
            c.frame(2)
            c.bus("d", "ok T27 refused")
            c.good("v", b"clear", 7)
        else:
            c.out("b", block(900, 7), 13)
            c.take(head + block(896, 12)[:4])
            c.frame(2)
            c.bus("d", "ok T27 confirmed")
            c.good("v", b"clear", 14)


@named
def lines(c):
    """Long lines about the program's 16384 bytes, good lines after them, and no newline at the end of an overlong one."""
    c.link(5, 0, 11, 1024, 2)
    c.reset()
    c.send("v", b"one")
    for n in (8191, 8192, 8193, 16382, 16383, 16384, 16385, 16386, 20000, 32767, 32768, 32769, 65535, 65536, 65537, 200000):
        c.raw(b"~" * n, "no 0")
        c.raw(b"send\tv\t" + b"A" * (n - 7), "no 3" if n <= 16384 and n % 2 == 1 else "no 0")
        c.raw(b"reset" + b"\t" * (n - 5), "no 0")
        c.raw(b"bus\td" + b" " * (n - 5), "no 0")
    c.data(b"one")
    c.descriptor("v", 3, 1)
    for n in (16383, 16384, 16385):
        tail = b"\t0\t11\t1024\t"
        c.raw(b"link\t" + b"0" * (n - 5 - 1 - len(tail) - 2) + b"5" + tail + b"17", "no 20" if n <= 16384 else "no 0")
        c.raw(b"link\t" + b"9" * (n - 5 - len(tail) - 1) + tail + b"2", "no 20" if n <= 16384 else "no 0")
    c.take(b"one")
    c.frame(2)
    c.bus("d", "ok T27 confirmed")
    for n in (16383, 16384, 16385):
        tail = b"\t0\t11\t1024\t2"
        if n == 16385:
            c.reset()
        c.raw(b"link\t" + b"0" * (n - 5 - 1 - len(tail)) + b"5" + tail, "ok" if n <= 16384 else "no 0")
        c.send("v", b"two", "ok" if n == 16385 else "no 2")
    c.data(b"two")
    c.descriptor("v", 3, 1)
    c.take(b"two")
    c.raw(b"take" * 5000, "no 0")
    c.ending = b""


def main():
    said = sys.argv[1:]
    if said == ["--list"]:
        print("\n".join(names))
    elif len(said) == 1 and said[0] in names:
        c = Case(said[0])
        names[said[0]](c)
        sys.stdout.buffer.write(written(c)[0])
    elif len(said) == 2 and all(word.isdigit() for word in said):
        sys.stdout.buffer.write(Lines(int(said[0])).made(int(said[1])))
    else:
        sys.exit(__doc__)


if __name__ == "__main__":
    main()
