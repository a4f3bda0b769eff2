"""Stored cases of blockrun: what a line may say. The paper's worked example, every number that can come out, lines of another form."""

from blockrun_script import RESET, block

# ---- the paper's worked example, as printed there

EXAMPLE_IN = """link 5 0 11 1024 2
reset
bus d
frame
frame
bus d
send v 414243
bus d
bus d
take
bus d
"""
EXAMPLE_OUT = """1 ok
2 ok
3 ok R27 0000 4B00
4 ok
5 ok
6 ok T27 reset
7 ok
8 ok R11 4142 4300
9 ok R27 0003 8B01
10 ok 414243
11 no 18
"""


def example(c):
    for line, answer in zip(EXAMPLE_IN.splitlines(), EXAMPLE_OUT.splitlines()):
        c.say(line, answer.split(" ", 1)[1])
    c.scenarios = 1


# ---- every number that can come out


def refusals(c):
    c.note("before any link")
    for line in ["reset", "frame", "take", "send v 41", "send b ", "bus d", "bus r", "bus n"]:
        c.say(line, "no 1")
    for line in ["send v", "send x 41", "bus", "bus x", "", "Reset", "link 5 0 11 1024"]:
        c.say(line, "no 0")
    c.note("20: each range at its edges; no good link yet, so 1 goes on")
    bad = [
        (31, 0, 11, 1024, 2), (255, 0, 11, 1024, 2), (5, 2, 11, 1024, 2), (5, 3, 11, 1024, 2), (5, 0, 10, 1024, 2),
        (5, 0, 12, 1024, 2), (5, 0, 26, 1024, 2), (5, 0, 0, 1024, 2), (5, 1, 10, 1024, 2), (5, 1, 27, 1024, 2),
        (5, 1, 31, 4096, 2), (5, 0, 11, 4096, 2), (5, 0, 11, 0, 2), (5, 0, 11, 1023, 2), (5, 0, 11, 1025, 2),
        (5, 1, 11, 4095, 2), (5, 1, 11, 4097, 2), (5, 1, 11, 2048, 2), (5, 0, 11, 1024, 1), (5, 0, 11, 1024, 0),
        (5, 0, 11, 1024, 17), (5, 1, 26, 4096, 17), (256, 0, 11, 1024, 2), (5, 256, 11, 1024, 2), (5, 257, 11, 1024, 2),
        (5, 0, 267, 1024, 2), (5, 0, 11, 66560, 2), (5, 0, 11, 1024, 258), (65541, 0, 11, 1024, 2),
        (4294967301, 0, 11, 1024, 2), (5, 4294967296, 11, 1024, 2), (5, 0, 4294967307, 1024, 2),
        (5, 0, 11, 4294968320, 2), (5, 0, 11, 1024, 4294967298), (18446744073709551621, 0, 11, 1024, 2),
        (5, 18446744073709551616, 11, 1024, 2), (5, 0, 18446744073709551627, 1024, 2),
        (5, 0, 11, 18446744073709552640, 2), (5, 0, 11, 1024, 18446744073709551618),
        (340282366920938463463374607431768211461, 0, 11, 1024, 2), ("9" * 400, 0, 11, 1024, 2),
        (31, 2, 10, 1, 1), (5, "1" + "0" * 600, 11, 1024, 2),
    ]
    for numbers in bad:
        c.link(*numbers, want="no 20")
    c.say("reset", "no 1")
    c.note("the good edges")
    zeros = "0" * 300
    for numbers in [
        (0, 0, 11, 1024, 2), (30, 0, 11, 1024, 16), (0, 1, 11, 1024, 2), (30, 1, 26, 4096, 16), ("005", "00", "011", "001024", "0002"),
        (zeros + "5", zeros, zeros + "11", zeros + "1024", zeros + "2"),
    ]:
        c.link(*numbers)
    c.link(5, 0, 11, 1024, 3, note="2 before 3, and without an accepted reset whatever else")
    for data in [b"", b"A", block(1024, 1), block(1025, 1)]:
        c.send("v", data, "no 2")
        c.send("b", data[:3], "no 2")
    c.idle()
    c.bus("r", "no 18")
    c.bus("n", "no 18")
    c.take(None)
    c.say("reset")
    c.send("v", b"A", "no 2")
    c.bus("d", RESET)
    c.send("v", b"A", "no 2")
    c.frame(2)
    c.send("v", b"", "no 2")
    c.bus("d", "ok T27 reset")
    c.note("accepted: 3 at both ends of the range, before 4")
    c.send("v", b"", "no 3")
    c.send("b", b"", "no 3")
    c.send("v", block(1025, 1), "no 3")
    c.send("b", block(1025, 1), "no 3")
    c.idle()
    c.send("v", b"ABC")
    c.send("v", b"", "no 3")
    c.send("v", block(1025, 2), "no 3")
    c.send("v", b"ABC", "no 4")
    c.send("b", b"D", "no 4")
    c.data(b"ABC")
    c.send("v", b"ABC", "no 4")
    c.descriptor("v", 3, 1)
    c.send("v", b"ABC", "no 4")
    c.idle()
    c.note("a refused link leaves this run as it was")
    c.link(31, 0, 11, 1024, 3, want="no 20")
    c.link(5, 0, 11, 1024, 17, want="no 20")
    c.send("v", b"ABC", "no 4")
    c.frame()
    c.link(5, 0, 11, 4096, 3, want="no 20")
    c.frame()
    c.send("v", b"ABC", "no 4")
    c.take(b"ABC")
    c.take(None)
    c.bus("d", "ok T27 confirmed")
    c.idle()
    c.note("acceptance is void as soon as a reset is asked for: 2 before 4")
    c.send("v", b"DEF")
    c.say("reset")
    c.send("v", b"GHI", "no 2")
    c.send("v", b"", "no 2")
    c.note("a good link starts a new run: no reset, nothing asked for")
    c.link(5, 0, 11, 1024, 3)
    c.idle()
    c.send("v", b"GHI", "no 2")
    c.take(None)
    c.link(5, 0, 11, 1024, 2, note="a good link empties the hand and the places")
    c.reset()
    c.out("v", b"ABCD", 1)
    c.link(5, 0, 11, 1024, 2)
    c.take(None)
    c.reset()
    c.send("b", b"EFGH")
    c.data(b"EFGH", "n")
    c.descriptor("b", 4, 1)
    c.take(b"\0\0\0\0")
    c.link(7, 0, 11, 1024, 2, note="14 at the terminal: block 1 still in hand, block 2 not taken; 27T stays")
    c.reset()
    c.out("v", b"one", 1)
    c.frame(2)
    c.bus("d", "ok T27 reset")
    c.out("v", b"two", 2)
    c.frame(2)
    c.bus("d", "ok T27 reset")
    c.take(b"one")
    c.take(None)
    c.out("b", b"three", 3)
    c.frame(2)
    c.bus("d", "ok T27 other")
    c.take(b"three")
    c.good("v", b"four", 4)
    c.link(7, 1, 14, 1024, 2, note="15 at the terminal: words of an abandoned block are still there; 27T shows the error")
    c.reset()
    c.send("v", b"one")
    c.data(b"one", "r")
    c.idle()
    c.out("v", b"two", 2)
    c.take(None)
    c.frame(2)
    c.bus("d", "ok T27 refused")
    c.idle()
    c.good("v", b"three", 3)
    c.note("14 before 15: marks cleared, no error in 27T")
    c.out("v", b"four", 4)
    c.frame(2)
    c.bus("d", "ok T27 other")
    c.send("v", b"five")
    c.data(b"five", "r")
    c.out("v", b"six", 6)
    c.frame(2)
    c.bus("d", "ok T27 other")
    c.take(b"four")
    c.good("v", b"seven", 7)


# ---- lines of another form


def malformed(c):
    wrong = [
        b"", b" ", b"\t", b"\t\t", b"\r", b"\0", b"\xff\xfe", b"x", b"Reset", b"RESET", b"rese", b"resets", b"reset ", b" reset",
        b"reset\t", b"\treset", b"reset\t1", b"reset\r", b"reset\0", b"frame\t", b"frame\t1", b"frames", b"fram", b"Frame",
        b"frame frame", b"take\t", b"take\tv", b"tak", b"takes", b"TAKE", b"link", b"link\t", b"link\t5", b"link\t5\t0",
        b"link\t5\t0\t11", b"link\t5\t0\t11\t1024", b"link\t5\t0\t11\t1024\t", b"link\t5\t0\t11\t1024\t2\t",
        b"link\t5\t0\t11\t1024\t2\t3", b"link\t\t0\t11\t1024\t2", b"link\t5\t\t11\t1024\t2", b"link\t5\t0\t\t1024\t2",
        b"link\t5\t0\t11\t\t2", b"link\t\t\t\t\t", b"link\t-5\t0\t11\t1024\t2", b"link\t+5\t0\t11\t1024\t2", b"link\t5 \t0\t11\t1024\t2",
        b"link\t 5\t0\t11\t1024\t2", b"link\t5\t0\t0x0B\t1024\t2", b"link\t5\t0\t11\t1_024\t2", b"link\t5\t0\t11\t1024\t2.0",
        b"link\t5\t0\t11\t1024\t2\r", b"link\t5\t0\t11\t1024\ttwo", b"link\t5\t0\t11\t1,024\t2", b"link\t5\t0\t11\t1e3\t2",
        b"link\t5\t0\t11\t1024\t\xb2", b"link\t31\t0\t11\t1024\tx", b"link 5 0 11 1024 2", b"Link\t5\t0\t11\t1024\t2", b"\tlink\t5\t0\t11\t1024\t2",
        b"links\t5\t0\t11\t1024\t2", b"lin\t5\t0\t11\t1024\t2", b"link\t\t5\t0\t11\t1024\t2", b"link\t5/\t0\t11\t1024\t2", b"link\t5:\t0\t11\t1024\t2",
        b"send", b"send\t", b"send\tv", b"send\tb", b"send\tv\t4", b"send\tv\t414", b"send\tv\t4g", b"send\tv\t4G", b"send\tv\t4a",
        b"send\tv\tab", b"send\tv\tAb", b"send\tv\t4@", b"send\tv\t:0", b"send\tv\t/0", b"send\tv\t`0", b"send\tv\t 4", b"send\tv\t41 ",
        b"send\tv\t41\t", b"send\tv\t41\t42", b"send\tv\t\t", b"send\tv\t\t41", b"send\t\t41", b"send\tx\t41", b"send\tV\t41", b"send\tB\t41",
        b"send\tvb\t41", b"send\t41", b"send\t41\tv", b"send\tv 41", b"send v 41", b"send\tv\t0x41", b"send\tv\t41\r", b"send\tv\t4\0", b"send\tv\t\xff\xff",
        b"sends\tv\t41", b"sen\tv\t41", b"Send\tv\t41", b"bus", b"bus\t", b"bus\tx", b"bus\tD", b"bus\tR", b"bus\tN", b"bus\tdd", b"bus\td\t",
        b"bus\td\td", b"bus\t\td", b"bus\td ", b"bus d", b"busd", b"buss\td", b"Bus\td", b"bu\td", b"bus\td\r", b"bus\tdone", b"bus\t0", b"d",
        b"1\tok", b"no\t0", b"linkreset", b"reset\nx"[:5] + b"x", b"frame\x0b", b"\xef\xbb\xbfreset", b"take\x1a", b"#", b"# reset",
    ]
    c.note("each before any link: 0, not 1")
    for line in wrong:
        c.raw(line, "no 0")
    c.say("reset", "no 1")
    c.link(5, 0, 11, 1024, 2, note="and between the lines of the worked example: each does nothing")
    good = [
        ("reset", "ok"), ("bus d", RESET), ("frame", "ok"), ("frame", "ok"), ("bus d", "ok T27 reset"), ("send v 414243", "ok"),
        ("bus d", "ok R11 4142 4300"), ("bus d", "ok R27 0003 8B01"), ("frame", "ok"), ("take", "ok 414243"), ("take", "no 16"),
        ("bus d", "no 18"), ("frame", "ok"), ("bus d", "ok T27 confirmed"), ("bus d", "no 18"), ("send b ", "no 3"), ("send b 00", "ok"),
        ("bus n", "ok R11 0000"), ("bus d", "ok R27 0001 0B02"), ("take", "ok 41"),
    ]
    at = 0
    for line, want in good:
        for _ in range(len(wrong) // len(good) + 1):
            if at < len(wrong):
                c.raw(wrong[at], "no 0")
                at += 1
        c.say(line, want)
    c.note("numbers with leading zeros, and every digit of hex")
    c.link("00000000000000000000000000000000000000007", "1", "0019", "000000001024", "02")
    c.mode, c.sa = 1, 19
    c.reset()
    c.good("v", bytes(range(256)), 1)
    c.note("long lines")
    c.raw(b"send\tv\t" + b"41" * 4097, "no 3")
    c.raw(b"send\tb\t" + b"4E" * 4496, "no 3")
    c.raw(b"~" * 20000, "no 0")
    c.good("v", b"ok", 2)
    c.note("a last line without its newline")
    c.ending = b""
    c.say("take", "no 16")


CASES = [example, refusals, malformed]
