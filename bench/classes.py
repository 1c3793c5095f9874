#!/usr/bin/env python3
"""Times `class` on nets of 2,048 places, 2,048 transitions and 65,536 arcs.

    bench/classes.py [RUNS]

A line tells how many input places a transition has, where it has any, the best processor time of RUNS runs (by
default 9) of `class` and of `check` on the same document, and the milliseconds between them, which are those of
the classes. All these nets are ordinary and free-choice, so no test ends early but those of the state machine
and of the marked graph.
"""
import sys

from measure import best, built, load, written
from nets import blocks


def main():
    runs = int(sys.argv[1]) if len(sys.argv) > 1 else 9
    program = built()
    print(load())
    print("%12s %9s %9s %12s" % ("input places", "class", "check", "milliseconds"))
    for width in (32, 256, 2048):
        with written(lambda: blocks(width).document()) as file:
            answer, whole, _ = best(runs, [program, "class"], file.name)
            _, reading, _ = best(runs, [program, "check"], file.name)
        if b"free-choice yes" not in answer or b"ordinary yes" not in answer:
            sys.exit("class answered %r" % answer)
        print("%12d %9.3f %9.3f %12.2f" % (width, whole, reading, 1000 * (whole - reading)), flush=True)


if __name__ == "__main__":
    main()
