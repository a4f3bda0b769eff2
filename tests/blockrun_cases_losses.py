"""Stored cases of blockrun: messages that are lost, or cut by a Reset."""

from blockrun_script import RESET, block

# ---- a loss at each place


def lossy_links():
    return [(3, 0, 11, 1024, 4), (3, 1, 13, 1024, 4)]


def losses(c):
    n = 129
    sent, after, last = block(n, 1), block(n, 2), block(5, 3)
    parts = [sent[:64], sent[64:128], sent[128:] + b"\0"]
    for link in lossy_links():
        mode = link[1]
        for quality in "vb":
            for kind in "rn":
                for place in range(3):
                    c.link(*link, note="mode %d %s: data message %d is %s" % (mode, quality, place + 1, kind))
                    c.reset()
                    c.send(quality, sent)
                    arrived = [part for i, part in enumerate(parts) if i != place or kind == "r"]
                    if quality == "v":
                        c.data(sent[: 64 * place + 64] if place < 2 else sent, "d" * place + kind)
                        c.idle()
                        c.take(None)
                        c.frame(3)
                        c.idle()
                        stale = place > 0 or kind == "r"
                        if mode == 0 or not stale:
                            c.good("v", after, 2)
                        else:
                            c.out("v", last, 2)
                            c.take(None)
                            c.frame(2)
                            c.bus("d", "ok T27 refused")
                            c.idle()
                            c.good("v", last, 3)
                    else:
                        outcomes = ["d"] * 3
                        outcomes[place] = kind
                        c.data(sent, outcomes)
                        c.descriptor("b", n, 1)
                        if mode == 0:
                            held = b"".join(p if p in arrived else bytes(len(p)) for p in parts)[:n]
                        else:
                            held = (b"".join(arrived) + bytes(n))[:n]
                        c.take(held)
                        c.frame(2)
                        c.bus("d", "ok T27 confirmed")
                        c.idle()
                    c.reset()
                    c.good("vb"[place % 2], last, 1)
                c.link(*link, note="mode %d %s: the descriptor is %s" % (mode, quality, kind))
                c.reset()
                c.send(quality, sent)
                c.data(sent)
                c.descriptor(quality, n, 1, kind)
                c.idle()
                c.frame()
                c.idle()
                if kind == "r":
                    c.take(sent)
                    c.frame()
                    c.bus("d", "ok T27 confirmed")
                else:
                    c.take(None)
                    for _ in range(3):
                        c.frame()
                        c.bus("d", "ok T27 reset")
                        c.idle()
                    c.frame(3)
                    c.idle()
                    if mode == 0:
                        c.good("v", last, 2)
                    else:
                        c.note("what came for it is still there: too long for Verified Length")
                        c.out("v", last, 2)
                        c.take(None)
                        c.frame(2)
                        c.bus("d", "ok T27 refused")
                c.reset()
                c.good(quality, last, 1)
                for at in range(2, 5):
                    c.link(*link, note="mode %d %s: the read at age %d is %s" % (mode, quality, at, kind))
                    c.reset()
                    c.out(quality, last, 1)
                    c.take(last)
                    if at > 2:
                        c.frame(2)
                        c.bus(kind, "ok T27 lost")
                        c.idle()
                    else:
                        c.frame()
                    for age in range(3, at):
                        c.frame()
                        c.bus(kind, "ok T27 lost")
                    c.frame()
                    c.bus(kind, "ok T27 lost")
                    c.idle()
                    if at < 4:
                        c.send("v", last, "no 4")
                        c.frame()
                        c.bus("d", "ok T27 confirmed")
                    c.frame(2)
                    c.idle()
                    c.take(None)
                    c.good(quality, after[:7], 2)
                    c.reset()
                    c.good("v", last, 1)
        for kind in "rn":
            c.link(*link, note="mode %d: the first Reset descriptor is %s" % (mode, kind))
            c.say("reset")
            c.bus(kind, RESET)
            c.idle()
            c.send("v", last, "no 2")
            c.frame(3)
            c.idle()
            c.reset()
            c.good("v", last, 1)
            c.note("a later one, with a block in hand: r drops the block, n leaves it; neither is accepted")
            c.out("v", b"held", 2)
            c.say("reset")
            c.bus(kind, RESET)
            c.idle()
            c.send("v", last, "no 2")
            c.frame(5)
            c.idle()
            c.take(None if kind == "r" else b"held")
            c.reset()
            c.good("b", last, 1)
            for lost in range(1, 4):
                c.link(*link, note="mode %d: %d of the Reset's reads are %s" % (mode, lost, kind))
                c.say("reset")
                c.bus("d", RESET)
                c.idle()
                c.frame()
                c.idle()
                for _ in range(lost):
                    c.send("v", last, "no 2")
                    c.frame()
                    c.bus(kind, "ok T27 lost")
                    c.idle()
                if lost < 3:
                    c.frame()
                    c.bus("d", "ok T27 reset")
                    c.idle()
                else:
                    c.note("age W: not accepted, though 27T shows reset")
                    c.frame(3)
                    c.idle()
                    c.send("v", last, "no 2")
                    c.reset()
                c.good("v", last, 1)


# ---- a reset asked for with a message out


def cut(c):
    first, last = block(66, 1), block(4, 2)
    for link, qualities in [((3, 0, 11, 1024, 3), "v"), ((3, 1, 13, 4096, 3), "b")]:
        for quality in qualities:
            for out in ["data 1", "data 2", "descriptor", "read", "read of a taken block", "reset descriptor", "reset read"]:
                for outcome in "drn":
                    times = 1 if outcome == "d" else 2
                    c.link(*link, note="mode %d %s: %d reset with %s out, told %s" % (link[1], quality, times, out, outcome))
                    if not out.startswith("reset"):
                        c.reset()
                        c.good(quality, last, 1)
                        c.send(quality, first)
                        if out != "data 1":
                            c.data(first[:64])
                        if out == "descriptor" or out.startswith("read"):
                            c.bus("d", None)
                        if out.startswith("read"):
                            c.descriptor(quality, 66, 2)
                            if "taken" in out:
                                c.take(first)
                            c.frame(2)
                    else:
                        c.say("reset")
                        if out == "reset read":
                            c.bus("d", RESET)
                            c.frame(2)
                    for _ in range(times):
                        c.say("reset")
                        c.send("v", last, "no 2")
                    c.frame(2)
                    if out == "data 1":
                        c.data(first[:64], outcome)
                    elif out == "data 2":
                        c.bus(outcome, None)
                    elif out == "descriptor":
                        c.descriptor(quality, 66, 2, outcome)
                    elif out == "reset descriptor":
                        c.bus(outcome, RESET)
                    elif outcome != "d":
                        c.bus(outcome, "ok T27 lost")
                    else:
                        c.bus("d", "ok T27 reset" if out == "reset read" else "ok T27 other")
                    c.send("v", last, "no 2")
                    c.note("now the Reset descriptor, once")
                    if out == "descriptor" and outcome != "n":
                        c.note("the cut descriptor acted: the block can still be taken")
                        c.take(first)
                        c.take(None)
                    c.bus("d", RESET)
                    c.take(None)
                    c.idle()
                    c.frame()
                    c.idle()
                    c.frame()
                    c.bus("d", "ok T27 reset")
                    c.idle()
                    c.good("v", last, 1)
    for outcome in "drn":
        c.link(3, 0, 11, 1024, 3, note="a reset while the Reset descriptor that follows a cut is out, told %s" % outcome)
        c.reset()
        c.send("v", first)
        c.say("reset")
        c.data(first[:64])
        c.say("reset")
        c.say("reset")
        c.bus(outcome, RESET)
        c.bus("d", RESET)
        c.idle()
        c.frame(2)
        c.say("reset")
        c.bus(outcome, "ok T27 reset" if outcome == "d" else "ok T27 lost")
        c.bus("d", RESET)
        c.idle()
        c.frame(2)
        c.bus("d", "ok T27 reset")
        c.good("v", last, 1)
        c.link(3, 0, 11, 1024, 3, note="a reset with nothing out: waiting for age 2, and between two reads; the age starts again")
        c.reset()
        c.out("v", first, 1)
        c.frame()
        c.say("reset")
        c.bus("d", RESET)
        c.frame()
        c.say("reset")
        c.bus("d", RESET)
        c.frame()
        c.idle()
        c.frame()
        c.bus("n", "ok T27 lost")
        c.say("reset")
        c.bus(outcome, RESET)
        if outcome == "d":
            c.frame()
            c.idle()
            c.frame()
            c.bus("d", "ok T27 reset")
            c.good("v", last, 1)
        else:
            c.idle()
            c.send("v", last, "no 2")
            c.frame(2)
            c.idle()
    c.link(3, 0, 11, 1024, 2, note="an accepted reset voided by asking for another one")
    c.reset()
    c.say("reset")
    c.send("b", last, "no 2")
    c.bus("n", RESET)
    c.idle()
    c.send("b", last, "no 2")
    c.note("27T still shows the reset before; only a Reset descriptor that was done counts")
    c.frame(4)
    c.idle()
    c.send("b", last, "no 2")
    c.reset()
    c.good("b", last, 1)
    c.link(3, 0, 11, 1024, 2, note="block 1 in hand, the Reset lost: no new block 1 can be confirmed by taking the old one")
    c.reset()
    c.out("v", b"old", 1)
    c.say("reset")
    c.bus("n", RESET)
    c.send("v", b"new", "no 2")
    c.take(b"old")
    c.frame(2)
    c.idle()
    c.send("v", b"new", "no 2")
    c.reset()
    c.good("v", b"new", 1)


CASES = [losses, cut]
