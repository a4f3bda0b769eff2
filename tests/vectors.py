#!/usr/bin/env python3
"""What the program `vectors` must write, worked out apart from its code.

Sources: document 01 ("The two machines", "Words on the bus", "Numbers a caller may get back", "Pairs at the edges") and
ECSS-E-ST-50-13C: Tables 8-3, 8-4, 8-5 and 8-6 (the two words), clause 6.2.1.2.5 (status word), clauses 8.6.1.1 g to l
(cutting), 8.6.1.1 e 7 (counts), Tables 8-9 and 8-10 (Reset command).

How, so that a slip in the formulas of `words` is not made here again:
- a pair of words is a string of 32 characters 0 and 1, cut at the tables' field widths; a change is one character turned;
- a refusal is the least number of all the rows of document 01's table whose condition holds, each row tried by itself;
- a block is a list of bytes, really cut by slices of 64 and paired into words, and the lists are counted;
- a count or a tick is a place on a circle that is walked one step at a time;
- a status word is laid out by bit times, 4 being the first bit after the sync (three bit times) and 19 the last;
- a configuration is looked up in the set of all configurations, which is listed out.

Writes the expected lines to standard output; crates/vectors/stdout holds the same.
"""

# ---- lines

lines = []


def line(*fields):
    lines.append("\t".join(str(f) for f in fields))


def bits(text):
    """The bits of a number in hex, four to a digit."""
    return "".join(format(int(digit, 16), "04b") for digit in text)


def hexed(string):
    return "".join("0123456789ABCDEF"[int(string[i : i + 4], 2)] for i in range(0, len(string), 4))


def turned(string, at):
    return string[:at] + {"0": "1", "1": "0"}[string[at]] + string[at + 1 :]


def answer(number):
    return ["no", number] if number else ["ok"]


# ---- the two words: fields and their widths, as the four tables print them

TABLE = [("reserved", 4), ("size", 12), ("flag", 1), ("reset", 1), ("mode", 1), ("sa", 5), ("count", 8)]


def fields(string):
    cut, at = {}, 0
    for name, width in TABLE:
        cut[name] = string[at : at + width]
        at += width
    assert at == 32 == len(string)
    return cut


def joined(**given):
    string = "".join(format(given.get(name, 0), "0%db" % width) for name, width in TABLE)
    assert len(string) == 32
    return string


class Link:
    def __init__(self, mode, sa, largest):
        self.mode, self.sa, self.largest = mode, sa, largest


ZERO = Link(0, 11, 1024)
ONE = Link(1, 20, 4096)

# Reset: SIZE, QoS (or Error), Mode and count 0, SA 11 (8.6.1.1 e, document 01)
RESET = joined(reset=1, sa=11)


def meaning(string, link, sized):
    """What the words say. `sized` is for a descriptor or a request, which are tested for 10 to 12 too."""
    f = fields(string)
    asks_reset = f["reset"] == "1"
    size = int(f["size"], 2) or 4096
    count = int(f["count"], 2)
    if f["reserved"] == "0000" and asks_reset and string == RESET:
        return ["reset"]
    holds = {
        7: f["reserved"] != "0000",
        8: asks_reset,  # and not the one Reset that is well formed
        9: f["mode"] != str(link.mode) or f["sa"] != format(link.sa, "05b"),
    }
    if sized:
        holds[10] = link.largest == 1024 and size not in range(1, 1025)
        holds[11] = link.largest == 4096 and size not in range(1, 4097)
        holds[12] = not asks_reset and count == 0
    numbers = [n for n in holds if holds[n]]
    if numbers:
        return ["no", min(numbers)]
    if sized:
        return ["block", size, {"1": "v", "0": "b"}[f["flag"]], count]
    return ["block", size, {"1": "error", "0": "good"}[f["flag"]], count]


def words_line(table, string, link):
    sized = table in ("descriptor", "request")
    said = meaning(string, link, sized)
    if table == "request" and "1" not in string:  # both words zero in 28T: no request yet
        said = ["nothing"]
    line(table, hexed(string[:16]), hexed(string[16:]), *said)


OTHERS = ["request", "confirmation27", "confirmation28"]


def tables():
    edges = [("00004B00", ZERO), ("00410B01", ZERO), ("04008BFE", ZERO), ("0000B407", ONE)]
    for text, link in edges:
        string = bits(text)
        words_line("descriptor", string, link)
        for at in range(32):
            words_line("descriptor", turned(string, at), link)
    for text, link in (edges[1], edges[3]):
        string = bits(text)
        for table in OTHERS:
            words_line(table, string, link)
            for at in range(16, 32):
                words_line(table, turned(string, at), link)
    strays = [("00000000", ZERO), ("00004B00", ONE), ("FFFFFFFF", ZERO), ("00410000", ZERO), ("0401B407", Link(1, 20, 1024))]
    for text, link in strays:
        for table in ["descriptor"] + OTHERS:
            words_line(table, bits(text), link)
    made("reset", RESET)
    blocks = [(ZERO, 65, 0, 1), (ZERO, 1024, 1, 254), (ONE, 4096, 1, 7)]  # (b), (c), (d)
    for link, size, flag, count in blocks:
        field = {4096: 0}.get(size, size)  # twelve bits have no room for 4096, which is written as 0
        for table in ("8-3", "8-6", "8-4", "8-5"):
            made(table, joined(size=field, flag=flag, mode=link.mode, sa=link.sa, count=count))
    good = meaning(bits("00410B01"), ZERO, True)
    for length in (0, 1, 2, 3):  # refusal 6: not two words
        line("words", length, *(good if length == 2 else answer(6)))


def made(table, string):
    line("made", table, hexed(string[:16]), hexed(string[16:]))


# ---- blocks


def cut(size):
    """The messages of a block of so many bytes, each a list of words; an odd end gets a filler octet."""
    left, messages = list(range(size)), []
    while left:
        piece, left = left[:64], left[64:]
        if len(piece) % 2 == 1:
            piece.append(None)
        messages.append(list(zip(piece[0::2], piece[1::2])))
    return messages


def taken(size, link):
    return answer(0 if 1 <= size <= link.largest else 3)


def blocks():
    for size in (0, 1024, 1025, 65536, 65537):
        both = [taken(size, ZERO), taken(size, ONE)]
        line("asked", size, *both[0], *both[1], *({"ok": 0, "no": 3}[said[0]] for said in both))
    sizes = [1]
    for m in range(1, 65):
        sizes += [64 * m - 1, 64 * m, 64 * m + 1]
    for size in sizes:
        messages = cut(size)
        # mode 0: the first message to SA 11, each next one to the next SA, 26 the last (sixteen of them)
        places = dict(zip(range(len(messages)), range(11, 27)))
        line(
            "size", size, *taken(size, ZERO), *taken(size, ONE), len(messages), len(messages[0]), len(messages[-1]),
            places.get(len(messages) - 1, 0), ONE.sa,
        )
    circle = list(range(1, 256))
    after = {0: circle[0]}  # 0 is the Reset's, and the first transfer after a Reset has 1
    for here, there in zip(circle, circle[1:] + circle[:1]):
        after[here] = there
    for n in range(256):
        line("count", n, after[n], after[n])
    for a, b in ((0, 0), (0, 255), (1, 129), (255, 1), (255, 255)):
        line("same", a, b, *(["same" if format(a, "08b") == format(b, "08b") else "other"] * 2))


# ---- messages

# bit times of the status word: 1 to 3 sync, 4 to 8 address, then one bit each (6.2.1.2.5), 20 parity
STATUS = {4: "address", 5: "address", 6: "address", 7: "address", 8: "address", 9: "Message Error", 10: "Instrumentation",
          11: "Service Request", 12: "Reserved", 13: "Reserved", 14: "Reserved", 15: "Broadcast Command Received",
          16: "Busy", 17: "Subsystem Flag", 18: "Dynamic Bus Control Acceptance", 19: "Terminal Flag"}


def status_line(string, asked, came):
    told = {}
    for time, bit in zip(range(4, 20), string):
        told[STATUS[time]] = told.get(STATUS[time], "") + bit
    done = told["address"] == "00101" and told["Message Error"] == "0" and told["Busy"] == "0" and came == asked
    line("status", hexed(string), asked, came, "done" if done else "lost")


def statuses():
    good = "00101" + "0" * 11
    for string in [good] + [turned(good, at) for at in range(16)]:
        status_line(string, 2, 2)
        status_line(string, 2, 1)
    status_line(good, 0, 0)
    status_line(good, 2, 3)
    line("status", "none", 2, 2, "lost")


def ticks():
    after = {tick: tick + 1 for tick in range(65535)}
    after[65535] = 0
    for tick in (0, 1, 65534, 65535):
        line("tick", tick, after[tick])
    pairs = [(0, 0), (7, 5), (5, 7), (65535, 65533), (0, 65535), (1, 65535), (0, 65534), (15, 65535), (65535, 0),
             (65535, 65535), (65534, 65535)]
    for tick, since in pairs:
        steps, at = 0, since
        while at != tick:
            at, steps = after[at], steps + 1
        line("age", tick, since, steps)


def commands():
    # Table 8-9: word 1 of SA 1R is Reset Services; Table 8-10: its bit 15, the last of bits 0 to 15
    made("8-10", "0" * 16 + "0" * 15 + "1")
    for second in ("0001", "FFFE", "FFFF", "0000"):
        for length in (0, 1, 2, 3, 32, 33):
            message = (["FFFF", second] + ["FFFF"] * 31)[:length]
            if length not in range(1, 33):
                said = answer(19)
            elif len(message) > 1 and bits(message[1])[15] == "1":
                said = ["reset"]
            else:
                said = ["other"]
            line("command", length, second, *said)


def data():
    # mode 0 has sixteen subaddresses from 11 on; mode 1 its one
    uses = {0: set(range(11, 11 + 16)), 1: {ONE.sa}}
    for mode in (0, 1):
        for sa in (10, 11, 20, 26, 27):
            for words in (0, 1, 32, 33):
                refused = words == 0 or words > 32 or sa not in uses[mode]
                line("data", mode, sa, words, *answer(19 if refused else 0))


# ---- configurations

ALL = {
    (address, mode, sa, largest, window)
    for address in range(31)
    for mode, sas, sizes in ((0, [11], [1024]), (1, range(11, 27), [1024, 4096]))
    for sa in sas
    for largest in sizes
    for window in range(2, 17)
}
MESSAGE_STORE = {0: 1024, 1: 4096}


def configurations():
    tried = [
        (0, (0, 30, 31, 256)),
        (1, (0, 1, 2, 256, 257)),
        (2, (0, 10, 11, 12, 26, 27, 267)),
        (3, (0, 1023, 1024, 1025, 4095, 4096, 4097, 66560, 69632)),
        (4, (1, 2, 16, 17, 258, 4294967295)),
    ]
    for base in ((5, 0, 11, 1024, 2), (5, 1, 20, 4096, 2)):
        for at, numbers in tried:
            for n in numbers:
                five = base[:at] + (n,) + base[at + 1 :]
                if five in ALL:
                    line("link", *five, "ok", *five, MESSAGE_STORE[five[1]], five[3])
                else:
                    line("link", *five, *answer(20))
    held = [(5, 0, 11, 1024, 2), (5, 1, 20, 4096, 2), (0, 0, 0, 0, 0), (5, 0, 11, 4096, 2), (31, 1, 20, 4096, 2)]
    for five in held:
        line("held", *five, "link" if five in ALL else "none")


tables()
blocks()
statuses()
ticks()
commands()
data()
configurations()
print("\n".join(lines))
