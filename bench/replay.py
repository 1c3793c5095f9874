#!/usr/bin/env python3
"""Times `replay` on a ring of 2,000 transitions: a token goes round, and the list has a line for each step.

    bench/replay.py [RUNS]

A line tells the number of firings, the bytes of the list, the best processor time of RUNS runs (by default 5) of
the whole process, that of the document only (a list without lines), and how many firings a second of processor
time that leaves. The program reads the input, cuts the list into lines, finds the number of each id and fires it.
"""
import sys

from measure import best, built, load, written
from nets import Net

TRANSITIONS = 2000
FIRINGS = [0, 10_000, 100_000, 1_000_000]


def ring():
    """A net in which one token goes round. Each transition has one input place and one output place."""
    net = Net()
    for i in range(TRANSITIONS):
        net.place("place%d" % i, 1 if i == 0 else 0)
    for i in range(TRANSITIONS):
        net.transition("step%d" % i, ["place%d" % i], ["place%d" % ((i + 1) % TRANSITIONS)])
    return net


def firings(count):
    """The lines of so many steps of the token."""
    return "".join("step%d\n" % (k % TRANSITIONS) for k in range(count)).encode()


def main():
    runs = int(sys.argv[1]) if len(sys.argv) > 1 else 5
    program = built()
    print(load())
    print("%9s %10s %9s %9s %14s" % ("firings", "bytes", "seconds", "document", "firings a s"))
    bare = 0.0
    for count in FIRINGS:
        lines = firings(count)
        with written(lambda: ring().document() + lines) as file:
            output, seconds, _ = best(runs, [program, "replay"], file.name)
        if b"\nfired %d\n" % count not in output:
            sys.exit("%d firings: the text differs" % count)
        if count == 0:
            bare = seconds
        rate = "%.1f million" % (count / (seconds - bare) / 1e6) if seconds > bare else "-"
        print("%9d %10d %9.3f %9.3f %14s" % (count, len(lines), seconds, bare, rate), flush=True)


if __name__ == "__main__":
    main()
