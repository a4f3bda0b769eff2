"""Stored cases of blockrun: counts that come round, the transfers spent, the tick past 65535.

The answers are the reference's, which is written from document 01, and answers by hand stand beside the lines. Both follow
the count step by step; so at some lines (`key`) the number, the line and the answer were worked out by arithmetic instead,
which is said there. Where one of them does not hold, nothing is written.
"""

from blockrun_script import RESET, block

# ---- counts


def not_confirmed(c, count, n, shown):
    """n transfers after that count, six lines each: never taken, and their descriptors or reads lost in turn. All the while a
    read that is done finds `shown`."""
    for i in range(1, n + 1):
        count = count % 255 + 1
        data = block(1 + i % 3, i)
        c.send("bv"[i % 2], data)
        c.data(data)
        c.descriptor("bv"[i % 2], len(data), count, "drn"[i % 3])
        c.frame(2)
        read = "dnd"[i % 3] if i % 4 else "r"
        c.bus(read, "ok T27 " + (shown if read == "d" else "lost"))


def three_hundred(c):
    """300 transfers that are confirmed, then 300 that are not.

    The 300 confirmed: line 1 is the note, 2 the link, 3 to 7 the Reset. Each transfer has seven lines (send, data, descriptor,
    take, two frames, read), so the descriptor of the t-th is line 7 + 7 (t - 1) + 3 = 7 t + 3 and its read is line 7 t + 7. Its
    count is t up to 255, then t - 255. SIZE is 1 + t % 3. Where t is odd it is Verified: 8B before the count, else 0B.

    The 300 not confirmed: line 7 * 300 + 8 = 2108 is a note. Each has six lines (no take), so the descriptor of the u-th is
    line 2108 + 6 (u - 1) + 3 = 6 u + 2105. It is the (300 + u)-th since the Reset: its count is u + 45 up to u = 210, which has
    255, then u - 210. The 254th ends at line 2108 + 6 * 254 = 3632. None was confirmed since the 300th, so line 3633 is
    refused by 5, and it stays so at 3634 and, after a look at the bus and a take, at 3637. Lines 3638 to 3642 are a Reset.
    The last 46 have counts 1 to 46; the descriptor of the v-th is line 3642 + 6 (v - 1) + 3 = 6 v + 3639.
    """
    c.link(8, 0, 11, 1024, 2, note="300 confirmed, the count past 255")
    c.reset()
    for t in range(1, 301):
        c.short("bv"[t % 2], (t - 1) % 255 + 1, block(1 + t % 3, t))
    c.key(10, "bus d", "ok R27 0002 8B01")  # t = 1
    c.key(1781, "bus d", "ok R27 0003 0BFE")  # t = 254
    c.key(1785, "bus d", "ok T27 confirmed")
    c.key(1788, "bus d", "ok R27 0001 8BFF")  # t = 255
    c.key(1792, "bus d", "ok T27 confirmed")
    c.key(1795, "bus d", "ok R27 0002 0B01")  # t = 256
    c.key(1799, "bus d", "ok T27 confirmed")
    c.key(2103, "bus d", "ok R27 0001 0B2D")  # t = 300, count 45
    c.key(2107, "bus d", "ok T27 confirmed")
    c.note("300 not confirmed, the count past 255 again: after 254 it is 5 until a reset")
    not_confirmed(c, 45, 254, "other")
    c.send("v", b"no", "no 5")
    c.send("b", b"no", "no 5")
    c.idle()
    c.take(block(2, 1))  # the first of them has been in hand since
    c.send("v", b"no", "no 5")
    c.reset()
    not_confirmed(c, 0, 46, "reset")
    c.take(block(2, 1))
    c.short("v", 47, b"yes")
    c.key(2111, "bus r", "ok R27 0002 8B2E")  # u = 1
    c.key(3365, "bus d", "ok R27 0001 0BFF")  # u = 210
    c.key(3371, "bus r", "ok R27 0002 8B01")  # u = 211
    c.key(3629, "bus n", "ok R27 0003 0B2C")  # u = 254, count 44
    c.key(3633, "send v 6E6F", "no 5")
    c.key(3634, "send b 6E6F", "no 5")
    c.key(3637, "send v 6E6F", "no 5")
    c.key(3645, "bus r", "ok R27 0002 8B01")  # v = 1
    c.key(3915, "bus r", "ok R27 0002 0B2E")  # v = 46


def wrap(c):
    three_hundred(c)
    c.link(8, 1, 21, 1024, 2, note="300 in mode 1: each third one is confirmed, the others are abandoned and take their counts")
    c.reset()
    for i in range(300):
        if i % 3:
            c.send("v", b"Z")
            c.bus("n", "ok R21 5A00")
        else:
            c.short("vb"[i % 2], i % 255 + 1, block(3, i))
    c.link(8, 0, 11, 1024, 2, note="254 abandoned ones, then 5 until a reset")
    c.reset()
    for i in range(254):
        c.send("v", b"z")
        if i == 253:
            c.send("v", b"z", "no 4")
        c.bus("n", "ok R11 7A00")
    for data in [b"y", block(1024, 1)]:
        c.send("v", data, "no 5")
        c.send("b", data[:9], "no 5")
    c.send("v", b"", "no 3")
    c.send("v", block(1025, 1), "no 3")
    c.idle()
    c.frame(2)
    c.send("v", b"y", "no 5")
    c.say("reset")
    c.send("v", b"y", "no 2")
    c.bus("n", RESET)
    c.send("v", b"y", "no 2")
    c.reset()
    c.short("v", 1, b"a")
    c.link(8, 1, 20, 1024, 2, note="a confirmation as the 254th, after W, and going on past 255; then 254 more")
    c.reset()
    for i in range(253):
        c.send("v", b"z")
        c.bus("n", "ok R20 7A00")
    for count, data in [(254, b"a"), (255, b"b"), (1, b"c"), (2, b"d")]:
        c.short("vb"[count % 2], count, data, 7 if count in (254, 2) else 2)
    for i in range(252):
        c.send("v", b"z")
        c.bus("n", "ok R20 7A00")
    c.note("the 253rd is delivered and its confirmation lost, the descriptor of the 254th is lost: neither counts as confirmed")
    c.send("b", b"q")
    c.data(b"q")
    c.descriptor("b", 1, 255)
    c.take(b"q")
    c.frame(2)
    c.bus("r", "ok T27 lost")
    c.send("b", b"s")
    c.data(b"s", "d")
    c.descriptor("b", 1, 1, "n")
    c.frame(2)
    c.bus("d", "ok T27 other")
    c.send("v", b"t", "no 5")
    c.reset()
    c.short("b", 1, b"u")
    c.link(8, 1, 20, 1024, 2, note="254 without a confirmation, the last one refused by the terminal: 5")
    c.reset()
    for i in range(252):
        c.send("v", b"z")
        c.bus("n", "ok R20 7A00")
    c.send("v", b"z")
    c.bus("r", "ok R20 7A00")
    c.out("v", b"y", 254)
    c.frame(2)
    c.bus("d", "ok T27 refused")
    c.send("v", b"x", "no 5")
    c.reset()
    c.short("v", 1, b"w")
    c.link(8, 0, 11, 1024, 2, note="a block in hand for 253 transfers; the count before it comes, and 5 keeps its own count away")
    c.reset()
    c.out("v", b"h", 1)
    c.frame(2)
    c.bus("d", "ok T27 reset")
    for i in range(252):
        c.send("v", b"z")
        c.bus("n", "ok R11 7A00")
    c.take(b"h")
    c.out("b", b"i", 254)
    c.frame(2)
    c.bus("d", "ok T27 other")
    c.send("v", b"j", "no 5")
    c.take(b"i")
    c.send("v", b"j", "no 5")


# ---- the tick


def tick(c):
    """The tick passes 65535 twice: first a transfer waits for its confirmation, then a Reset. The window is 4 frames.

    Line 2 is the link, at tick 0; lines 3 to 7 are a Reset with two frames, so line 7 + k is the frame of tick 2 + k. Tick 65533
    comes at line 65538. Lines 65539 to 65541 are a transfer, whose descriptor is told at that tick. Its reads at ages 2, 3
    and 4, at the ticks 65535, 0 and 1, are lines 65545, 65547 and 65551. The first two show the Reset as before and do not end
    the transfer, since age 3 is below 4; line 65550 takes the block, so the third one confirms it.

    Line 65549 is the frame of tick 1, and line 65552 + k that of tick 1 + k, so tick 65533 comes again at line 131084. Lines
    131085 and 131086 are a Reset and its descriptor. Its reads, at the same ticks and ages, are lines 131090, 131092 and 131095,
    all lost: at age 3 it goes on, at age 4 it is not accepted. So line 131097 finds nothing asked for, and line 131098 is
    refused by 2.
    """
    c.packed = True
    c.link(6, 0, 11, 1024, 4, note="the tick passes 65535: first a transfer waits, the next time a Reset")
    c.reset()
    c.frame(65533 - 2)
    c.out("v", b"round", 1)
    c.frame()  # 65534
    c.idle()
    c.frame()  # 65535, age 2
    c.bus("d", "ok T27 reset")
    c.frame()  # 0, age 3
    c.bus("d", "ok T27 reset")
    c.idle()
    c.frame()  # 1, age 4
    c.take(b"round")
    c.bus("d", "ok T27 confirmed")
    c.idle()
    c.frame(65533 - 1)
    c.say("reset")
    c.bus("d", RESET)
    c.frame()  # 65534
    c.idle()
    c.frame()  # 65535, age 2
    c.bus("r", "ok T27 lost")
    c.frame()  # 0, age 3
    c.bus("n", "ok T27 lost")
    c.idle()
    c.frame()  # 1, age 4
    c.bus("n", "ok T27 lost")
    c.frame()
    c.idle()
    c.send("v", b"no", "no 2")
    c.reset()
    c.good("b", b"after", 1)
    c.key(65538, "frame", "ok")
    c.key(65541, "bus d", "ok R27 0005 8B01")
    c.key(65543, "bus d", "no 18")
    c.key(65545, "bus d", "ok T27 reset")
    c.key(65547, "bus d", "ok T27 reset")
    c.key(65551, "bus d", "ok T27 confirmed")
    c.key(131084, "frame", "ok")
    c.key(131086, "bus d", "ok R27 0000 4B00")
    c.key(131088, "bus d", "no 18")
    c.key(131090, "bus r", "ok T27 lost")
    c.key(131092, "bus n", "ok T27 lost")
    c.key(131095, "bus n", "ok T27 lost")
    c.key(131097, "bus d", "no 18")
    c.key(131098, "send v 6E6F", "no 2")


CASES = [wrap, tick]
