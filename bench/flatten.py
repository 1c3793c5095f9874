#!/usr/bin/env python3
"""Times `check` on documents that are hard to flatten: 4,096 reference nodes in one chain, in 4,096 chains, on
one cycle and leading into one, and arcs with long ids.

    bench/flatten.py [RUNS]

A line tells the shape, the bytes of the document, the status, the answer, and the best processor time of RUNS
runs (by default 5) of the whole process with the most memory. `arcs` are 65,536 arcs with the longest ids that
an input has room for, `long ids` as many arcs as ids of 1,000 bytes leave room for.
"""
import os
import sys

from measure import best, built, load, written
from nets import MOST_ARCS, referring, wide_arcs


SHAPES = (
    ("chain", lambda: referring("chain"), 0),
    ("chains", lambda: referring("chains"), 0),
    ("cycle", lambda: referring("cycle"), 3),
    ("spokes", lambda: referring("spokes"), 3),
    ("arcs", lambda: wide_arcs(MOST_ARCS, 328), 0),
    ("long ids", lambda: wide_arcs(21_900, 1000), 0),
)


def main():
    runs = int(sys.argv[1]) if len(sys.argv) > 1 else 5
    program = built()
    print(load())
    print("%-9s %9s %6s %9s %8s  %s" % ("shape", "bytes", "status", "seconds", "MB held", "answer"))
    for name, net, status in SHAPES:
        with written(lambda: net().document()) as file:
            size = os.path.getsize(file.name)
            answer, seconds, memory = best(runs, [program, "check"], file.name, status)
        print("%-9s %9d %6d %9.4f %8.1f  %s" % (name, size, status, seconds, memory / 1e6, answer.decode().strip()), flush=True)


if __name__ == "__main__":
    main()
