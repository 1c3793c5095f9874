#!/usr/bin/env python3
"""Counts what `check` costs for each byte on documents of each kind, beside other readers of the same files.

    bench/reading.py [--megabytes N] [--runs N] [--instructions] [NAME=PROGRAM ..]

The documents have about N megabytes (by default 3): mostly positions, tool-specific parts, names, names with references or
beyond ASCII, attributes of skipped parts, one tag of many attributes, white space, comments, arcs with long and with short
ids, and nested pages. Each PROGRAM reads the document on standard input, and is given no word. A line tells the document,
its bytes, and for each program the least processor time of so many runs in turns (by default 3), in nanoseconds a byte;
with --instructions it is instructions a byte, counted by valgrind, which are the same in every run and don't depend on how
busy the machine is.
"""
import argparse
import os
import random
import re
import subprocess
import tempfile

from measure import built, load, run, written
from nets import FRONT, REAR, Net, wide_arcs

NODES = 40


def nodes(inner, size):
    """A document of places with as many of these inner texts each as give the size."""
    front, unit, rear = inner
    times = max(1, (size // NODES - len(front) - len(rear)) // len(unit.encode()))
    net = Net(front + unit * times + rear)
    for i in range(NODES):
        net.place("p%d" % i)
    return net.document()


def attributes(size, shuffled):
    """A document in which four skipped tags have all the attributes."""
    numbers = list(range(size // 4 // len(' attribute00000="v00000"')))
    if shuffled:
        random.Random(1).shuffle(numbers)
    tag = "<x%s/>" % "".join(' attribute%d="v%d"' % (i, i) for i in numbers)
    net = Net("<toolspecific>%s</toolspecific>" % tag)
    for i in range(4):
        net.place("p%d" % i)
    return net.document()


def pages(size):
    """Arcs in 100 pages, each in the one before."""
    opened = "".join('<page id="n%d">' % i for i in range(100))
    ends = '<place id="p"/><transition id="t"/>'
    arc = '<arc id="a%d" source="p" target="t"/>'
    arcs = "".join(arc % i for i in range(min(65536, size // len(arc))))
    return (FRONT + opened + ends + arcs + "</page>" * 100 + REAR).encode()


def arcs(size, width):
    return wide_arcs(min(65536, size // (35 + 3 * max(width, 4))), width).document()


NAME = ("<name><text>", "</text></name>")
PART = '\n      <property key="shape" kind="box"> 12.5 &lt; x </property><!-- drawn --><line/>'
DOCUMENTS = {
    "graphics": lambda n: nodes(("<graphics>", '\n      <position x="120.5" y="-34.25"/>', "</graphics>"), n),
    "tools": lambda n: nodes(('<toolspecific tool="editor" version="1.0">', PART, "</toolspecific>"), n),
    "names": lambda n: nodes((NAME[0], "station and buffer ", NAME[1]), min(n, NODES * 60000)),
    "names, references": lambda n: nodes((NAME[0], "station \u00e9 &amp; buffer ", NAME[1]), min(n, NODES * 60000)),
    "names beyond ASCII": lambda n: nodes((NAME[0], "\u0441\u0442\u0430\u043d\u0446\u0438\u044f ", NAME[1]), min(n, NODES * 60000)),
    "ignored attributes": lambda n: nodes(("<graphics>", '<g one="first value" two="second" three="third" four="4"/>', "</graphics>"), n),
    "huge tags": lambda n: attributes(min(n, 4 << 20), False),
    "huge tags, shuffled": lambda n: attributes(min(n, 4 << 20), True),
    "white space": lambda n: nodes(("", " " * 2000 + "\n<graphics/>", ""), n),
    "comments": lambda n: nodes(("", "<!-- " + "a comment of some words " * 40 + "-->", ""), n),
    "arcs, long ids": lambda n: arcs(n, 250),
    "arcs": lambda n: arcs(n, 0),
    "nested pages": pages,
}


def instructions(command, path):
    """How many instructions the command takes on the file."""
    with tempfile.NamedTemporaryFile() as counts, open(path, "rb") as source:
        counted = ["valgrind", "--tool=callgrind", "--callgrind-out-file=" + counts.name]
        done = subprocess.run(counted + command, stdin=source, capture_output=True, check=True)
    return int(re.search(rb"Collected : (\d+)", done.stderr).group(1))


def seconds(commands, path, runs):
    """The least processor time of each command on the file, in turns."""
    times = [float("inf")] * len(commands)
    for _ in range(runs):
        for i, command in enumerate(commands):
            with open(path, "rb") as source:
                times[i] = min(times[i], run(command, source)[1])
    return times


def main():
    words = argparse.ArgumentParser()
    words.add_argument("--megabytes", type=float, default=3)
    words.add_argument("--runs", type=int, default=3)
    words.add_argument("--instructions", action="store_true")
    words.add_argument("others", nargs="*", metavar="NAME=PROGRAM")
    words = words.parse_args()
    others = dict(other.split("=", 1) for other in words.others)
    commands = [[built(), "check"]] + [[program] for program in others.values()]
    print("%s, %s a byte" % (load(), "instructions" if words.instructions else "nanoseconds"))
    print("%-20s %9s" % ("document", "bytes") + "".join(" %12s" % name for name in ["pnmlstruct", *others]))
    for name, make in DOCUMENTS.items():
        with written(lambda: make(int(words.megabytes * 1e6))) as file:
            size = os.path.getsize(file.name)
            if words.instructions:
                costs = [instructions(command, file.name) / size for command in commands]
            else:
                costs = [1e9 * time / size for time in seconds(commands, file.name, words.runs)]
        print("%-20s %9d" % (name, size) + "".join(" %12.1f" % cost for cost in costs), flush=True)


if __name__ == "__main__":
    main()
