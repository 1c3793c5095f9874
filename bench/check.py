#!/usr/bin/env python3
"""Times `check` on documents of 60 MB, beside `xmllint --stream` and Python's expat on the same files.

    bench/check.py [RUNS]

The documents have the most places, transitions and arcs: `graphics` is mostly positions, `tools` mostly
tool-specific parts, `names` mostly names, `plain` a document of only these nodes. A line tells the size, the
best processor time of RUNS runs (by default 3), the throughput, the most memory beyond the input, and how many
times as long the two others take, `-` where they aren't there. Wanted are 100 MB/s and at most 300 MB.
"""
import os
import shutil
import sys

from measure import best, built, load, written
from nets import MOST_ARCS, MOST_NODES, largest

SIZE = 60_000_000
EXPAT = "import sys, xml.parsers.expat as e; e.ParserCreate().ParseFile(sys.stdin.buffer)"


def filled(unit, front="", rear="", share=1):
    """A document with the unit as often in each node and arc as gives its size, or one in so many of its nodes and arcs."""
    nodes = 2 * MOST_NODES + MOST_ARCS
    bare = len(largest("").document()) // nodes
    times = max(1, (SIZE // nodes - bare - len(front) - len(rear) - 20) // len(unit))
    return largest(front + unit * times + rear, share).document()


POSITION = '\n      <position x="120.5" y="-34.25"/>'
PART = '\n      <property key="shape" kind="box"> 12.5 &lt; x </property><!-- drawn --><line/>'


def drawn(share=1):
    """A document that is mostly positions."""
    return filled(POSITION, "\n    <graphics>", "</graphics>", share)


DOCUMENTS = {
    "plain": lambda: largest("").document(),
    "graphics": drawn,
    "tools": lambda: filled(PART, '<toolspecific tool="editor" version="1.0">', "</toolspecific>"),
    "names": lambda: filled("station \u00e9 &amp; buffer ", "<name><text>", "</text></name>"),
}


def main():
    runs = int(sys.argv[1]) if len(sys.argv) > 1 else 3
    program = built()
    others = [["xmllint", "--stream", "--noout", "-"] if shutil.which("xmllint") else None, [sys.executable, "-c", EXPAT]]
    answer = b"places %d transitions %d arcs %d\n" % (MOST_NODES, MOST_NODES, MOST_ARCS)
    print(load())
    print("%-9s %9s %8s %7s %9s %8s %8s" % ("document", "bytes", "seconds", "MB/s", "MB beyond", "xmllint", "expat"))
    for name, make in DOCUMENTS.items():
        with written(make) as file:
            size = os.path.getsize(file.name)
            output, seconds, memory = best(runs, [program, "check"], file.name)
            ratios = ["%.2f" % (best(runs, other, file.name)[1] / seconds) if other else "-" for other in others]
        if output != answer:
            sys.exit("check answered %r" % output)
        print("%-9s %9d %8.3f %7.0f %9.0f %8s %8s" % (name, size, seconds, size / seconds / 1e6, (memory - size) / 1e6, *ratios), flush=True)


if __name__ == "__main__":
    main()
