"""Stored cases of blockrun: whole transfers in both modes, confirmation windows, reads before the take."""

from blockrun_script import RESET, block

# ---- whole transfers (every size at an edge, both qualities: sizes in tests/blockrun_random.py)


def modes(c):
    small = [1, 2, 63, 64, 65, 127, 128, 129]
    kind = 0
    for link, sizes in [
        ((5, 0, 11, 1024, 2), [(n, "vb") for n in small] + [(1023, "b"), (1024, "v")]),
        ((30, 1, 11, 1024, 2), [(n, "vb") for n in small] + [(1023, "v"), (1024, "b")]),
        ((0, 1, 26, 4096, 2), [(1, "v"), (64, "b"), (65, "v"), (1025, "b"), (4096, "v")]),
    ]:
        c.link(*link, note="mode %d, largest %d" % (link[1], link[3]))
        c.reset()
        count = 0
        for n, qualities in sizes:
            for quality in qualities:
                kind += 1
                count += 1
                c.good(quality, block(n, kind), count)
        if link[3] == 1024:
            c.send("v", block(1025, 1), "no 3")
            c.idle()
    c.link(9, 1, 20, 4096, 7, note="each subaddress of mode 1, and large then small: nothing of the large one is left")
    c.reset()
    c.good("v", block(200, 90), 1)
    c.good("b", block(3, 91), 2)
    c.good("v", block(199, 92), 3)
    for sa in range(11, 27):
        c.link(9, 1, sa, 1024, 2)
        c.reset()
        c.good("vb"[sa % 2], block(5, sa), 1)


# ---- windows


def windows(c):
    for window in range(2, 17):
        c.link(1, window % 2, 11, 1024, window, note="W %d: a block never taken, one read a frame from age 2 to W" % window)
        c.reset()
        c.out("v", b"one", 1)
        c.idle()
        c.frame()
        c.idle()
        for age in range(2, window + 1):
            c.send("v", b"two", "no 4")
            c.frame()
            c.bus("d", "ok T27 reset")
            c.idle()
        c.frame(2)
        c.idle()
        c.note("over: a new one is accepted; the terminal has still the first in hand")
        c.out("b", b"two", 2)
        c.frame()
        c.idle()
        for age in range(2, window + 1):
            c.frame()
            c.bus("d", "ok T27 reset")
        c.idle()
        c.take(b"one")
        c.note("a Reset with no answer within W")
        c.say("reset")
        c.bus("d", RESET)
        c.frame()
        c.idle()
        for age in range(2, window + 1):
            c.frame()
            c.bus("rn"[age % 2], "ok T27 lost")
            c.idle()
        c.frame(2)
        c.idle()
        c.send("v", b"two", "no 2")
        if window not in (2, 3, 4, 9, 16):
            continue
        c.reset()
        c.short("v", 1, b"a")
        c.short("b", 2, b"b")
        c.out("v", b"three", 3)
        c.frame(2)
        for age in range(2, window):
            c.bus("d", "ok T27 other")
            c.frame()
        c.take(b"three")
        c.note("confirmed at age W")
        c.bus("d", "ok T27 confirmed")
        c.idle()
        c.note("a read asked for at age 2 and told at age W ends it; told one frame earlier it does not")
        c.out("v", b"four", 4)
        c.frame(window)
        c.bus("d", "ok T27 other")
        c.send("v", b"five")
        c.data(b"five")
        c.descriptor("v", 4, 5)
        if window > 2:
            c.frame(window - 1)
            c.bus("d", "ok T27 other")
            c.send("v", b"six", "no 4")
            c.frame()
            c.bus("d", "ok T27 other")
            c.idle()
        else:
            c.frame(3)
            c.bus("d", "ok T27 other")
            c.idle()
        c.take(b"four")
        c.note("a read told long after W that shows the count confirms")
        c.out("v", b"six", 6)
        c.take(b"six")
        c.frame(window + 20)
        c.bus("d", "ok T27 confirmed")
        c.idle()
        c.note("the age counts from the descriptor's outcome, not from its asking")
        c.send("v", b"seven")
        c.data(b"seven")
        c.frame(window + 3)
        c.descriptor("v", 5, 7, "n")
        c.frame()
        c.idle()
        c.frame()
        c.bus("d", "ok T27 other")
        c.note("a Reset whose one read is told lost at age W; then one that shows reset after W")
        c.say("reset")
        c.bus("d", RESET)
        c.frame(window)
        c.bus("n", "ok T27 lost")
        c.frame(2)
        c.idle()
        c.say("reset")
        c.bus("d", RESET)
        c.frame(window + 5)
        c.bus("d", "ok T27 reset")
        c.good("v", b"nine", 1)


# ---- a read before the take


def before_take(c):
    for link in [(2, 0, 11, 1024, 5), (2, 1, 17, 4096, 5)]:
        for quality in "vb":
            c.link(*link, note="mode %d %s: read before the take, then taken, then confirmed" % (link[1], quality))
            c.reset()
            for count, reads in [(1, 1), (2, 2), (3, 3)]:
                data = block(70, count)
                c.out(quality, data, count)
                c.frame(2)
                for _ in range(reads):
                    c.bus("d", "ok T27 reset" if count == 1 else "ok T27 other")
                    c.frame()
                c.take(data)
                c.bus("d", "ok T27 confirmed")
                c.idle()
            c.note("taken with the read out and told done; with the first read lost")
            c.out(quality, b"abc", 4)
            c.frame(2)
            c.bus("n", "ok T27 lost")
            c.frame()
            c.take(b"abc")
            c.bus("r", "ok T27 lost")
            c.frame()
            c.bus("d", "ok T27 confirmed")
            c.note("taken after the window: delivered, and never confirmed")
            c.out(quality, b"defg", 5)
            c.frame()
            for _ in range(4):
                c.frame()
                c.bus("d", "ok T27 other")
            c.idle()
            c.take(b"defg")
            c.frame(3)
            c.idle()
            c.good(quality, b"hij", 6)
            c.note("taken after the window, while the next is on its way: the next is not taken in (14), or is, by when")
            c.out(quality, b"klmno", 7)
            c.frame()
            for _ in range(4):
                c.frame()
                c.bus("d", "ok T27 other")
            c.out(quality, b"pq", 8)
            c.take(b"klmno")
            c.take(None)
            c.frame()
            for _ in range(4):
                c.frame()
                c.bus("d", "ok T27 other")
            c.idle()
            c.out(quality, b"rst", 9)
            c.frame()
            for _ in range(4):
                c.frame()
                c.bus("d", "ok T27 other")
            c.send(quality, b"uvw")
            c.data(b"uvw")
            c.take(b"rst")
            c.descriptor(quality, 3, 10)
            c.take(b"uvw")
            c.frame(2)
            c.bus("d", "ok T27 confirmed")


CASES = [modes, windows, before_take]
