#!/usr/bin/env python3
"""Measures time against size, beside other programs, and draws it: docs/performance.md and the plots beside it.

    bench/plots.py [--runs N] [--quick] [--out FOLDER] [--note TEXT] [NAME[@TASK]=PROGRAM ..]

Each PROGRAM is another program that takes the same task as its word and the document on standard input; with @TASK it is
taken for that task only. Python's expat, and xmllint, 4ti2 (4ti2-rays or rays) and gringo with clasp where they are
installed, are taken too. What is missing is left out. A point is the least processor time of N runs (by default 3) of all
programs in turns; 4ti2 and clasp run once. A program that takes over 20 seconds at a size isn't tried at larger ones. With
--quick there are only the smallest sizes. The plots are SVG of gnuplot, both axes logarithmic. FOLDER is docs/, unless
another is given. TEXT is a line of the page that says what the other programs are.
"""
import argparse
import datetime
import os
import platform
import shutil
import subprocess
import sys
import tempfile
import threading

import check
import nets
import tasks
from measure import ROOT, built, load, written

PATIENCE = tasks.PATIENCE
PROGRAM = "pnmlstruct"


class Member:
    """A net of a family. Its size is what the horizontal axis tells."""

    def __init__(self, net):
        self.net = net
        self.document = net.document

    def size(self, _path):
        return len(self.net.places) + len(self.net.transitions)


class Drawn:
    """A document that is mostly graphics, one in so many of the nodes and arcs of the largest; its size in megabytes."""

    def __init__(self, share):
        self.document = lambda: check.drawn(share)

    def size(self, path):
        return round(os.path.getsize(path) / 1e6, 2)


FAMILIES = {
    "philosophers": [Member(nets.philosophers(n)) for n in (5, 10, 20, 50, 100, 200)],
    "manufacturing": [Member(nets.manufacturing(n)) for n in (2, 5, 10, 20, 40)],
    "producer chain": [Member(nets.producer_chain(n)) for n in (5, 10, 20, 50, 100, 200)],
}
DOCUMENTS = {"documents with graphics": [Drawn(share) for share in (256, 64, 16, 4, 1)]}
TITLES = {
    "check": "Reading and checking a document",
    "places": "Minimal semiflows of places",
    "siphons": "Minimal siphons",
    "commoner": "Commoner's condition",
}


class OneShot:
    """A program that is given a net in its own form, and is run once."""

    def __init__(self, name, solve):
        self.name = name
        self.solve = solve

    def seconds(self, member, task, _path):
        with tempfile.TemporaryDirectory() as folder:
            return self.solve(member.net, task, folder)[1]


class Reader:
    """A program that reads the document on standard input."""

    def __init__(self, name, command):
        self.name = name
        self.command = command

    def seconds(self, _member, task, path):
        """The processor time of a run, or nothing where it takes too long or ends with another status than 0."""
        words = [task if word == "TASK" else word for word in self.command]
        with open(path, "rb") as source:
            child = subprocess.Popen(words, stdin=source, stdout=subprocess.DEVNULL, stderr=subprocess.DEVNULL)
        clock = threading.Timer(PATIENCE, child.kill)
        clock.start()
        _, status, usage = os.wait4(child.pid, 0)
        clock.cancel()
        child.returncode = os.waitstatus_to_exitcode(status)
        return usage.ru_utime + usage.ru_stime if status == 0 else None


def programs(task, peers):
    """This program, and the others that answer the task."""
    found = [Reader(PROGRAM, [built(), "TASK"])]
    found += [Reader(name, [path, "TASK"]) for name, only, path in peers if only in ("", task)]
    if task == "check":
        found.append(Reader("expat", [sys.executable, "-c", check.EXPAT]))
    if task == "check" and shutil.which("xmllint"):
        found.append(Reader("xmllint", ["xmllint", "--stream", "--noout", "-"]))
    if task == "places" and tasks.RAYS:
        found.append(OneShot("4ti2", tasks.semiflows))
    if task == "siphons" and tasks.CLASP:
        found.append(OneShot("clasp", tasks.closed_sets))
    return found


def measured(found, member, task, runs):
    """The size of a member of a family, and the least time of each program on it, the runs of all in turns."""
    least = {}
    with written(member.document) as file:
        for turn in range(runs):
            for program in found:
                if turn and (isinstance(program, OneShot) or least[program.name] is None):
                    continue
                seconds = program.seconds(member, task, file.name)
                known = least.get(program.name)
                least[program.name] = seconds if known is None or seconds is None else min(known, seconds)
        return member.size(file.name), least


def curves(task, members, peers, runs):
    """For each program its points: the size and the seconds."""
    found = programs(task, peers)
    points = {program.name: [] for program in found}
    for member in members:
        size, least = measured(found, member, task, runs)
        for name, seconds in least.items():
            if seconds is not None:
                points[name].append((size, max(seconds, 1e-4)))
        found = [program for program in found if least[program.name] is not None]
    return points


def draw(task, panels, path):
    """One SVG with a panel for each family."""
    lines = [
        "set terminal svg size %d,380 dynamic font 'sans,12' background 'white' linewidth 1.5" % max(480, 360 * len(panels)),
        "set output '%s'" % path,
        "set multiplot layout 1,%d title \"%s\"" % (len(panels), TITLES[task]),
        "set logscale xy",
        "set format xy '%g'",
        "set xlabel '%s'" % size_name(task),
        "set ylabel 'seconds'",
        "set key left top",
        "set grid",
    ]
    for family, points in panels.items():
        drawn = {name: pairs for name, pairs in points.items() if pairs}
        lines.append("set title '%s'" % family)
        for i, pairs in enumerate(drawn.values()):
            lines += ["$data%d << EOD" % i] + ["%g %.6f" % pair for pair in pairs] + ["EOD"]
        lines.append("plot " + ", ".join("$data%d with linespoints title '%s'" % (i, name) for i, name in enumerate(drawn)))
    lines.append("unset multiplot")
    subprocess.run(["gnuplot"], input="\n".join(lines) + "\n", text=True, check=True)


def machine():
    """The processor and the system of this machine, in a line."""
    with open("/proc/cpuinfo", encoding="utf-8") as file:
        models = [line.split(":", 1)[1].strip() for line in file if line.startswith("model name")]
    return "%s, %s, %s" % (models[0] if models else platform.machine(), load(), platform.platform())


def table(task, panels):
    """The rows of a table: per family and size the seconds of each program."""
    names = list(dict.fromkeys(name for points in panels.values() for name in points))
    rows = ["| family | %s | " % size_name(task) + " | ".join(names) + " |", "|---" * (len(names) + 2) + "|"]
    for family, points in panels.items():
        for size in sorted({size for pairs in points.values() for size, _ in pairs}):
            cells = ["%.4f" % dict(points[name])[size] if size in dict(points.get(name, [])) else "-" for name in names]
            rows.append("| %s | %g | %s |" % (family, size, " | ".join(cells)))
    return rows


def size_name(task):
    """What the horizontal axis of a task's plots tells."""
    return "megabytes" if task == "check" else "places and transitions"


def page(results, where, words, peers):
    """The page, which shows the plots and their numbers."""
    others = "".join(" %s%s=%s" % (name, "@" + only if only else "", os.path.basename(path)) for name, only, path in peers)
    lines = [
        "# Performance",
        "",
        "Time against size, beside other programs, on %s. The machine before the run: %s." % (datetime.date.today().isoformat(), where),
        "",
        "Made by `bench/plots.py --runs %d%s` in one run. A point is the least processor time, user and system, of these" % (words.runs, others),
        "runs, taken in turns; 4ti2 and clasp ran once, timed in steps of 10 ms, and expat has the start of Python in its time.",
        "Where a line ends early the program took over %d seconds at the next size or failed there. Nothing is promised of" % PATIENCE,
        "times. `-` is a size that wasn't reached. " + words.note,
    ]
    for task, panels in results.items():
        lines += ["", "## %s: `%s`" % (TITLES[task], task), "", "![%s](performance/%s.svg)" % (TITLES[task], task), ""] + table(task, panels)
    with open(os.path.join(words.out, "performance.md"), "w", encoding="utf-8") as out:
        out.write("\n".join(lines) + "\n")


def peer(word):
    """The name, the one task or none, and the program of a word of the command line."""
    name, _, program = word.partition("=")
    name, _, only = name.partition("@")
    return name, only, program


def main():
    parser = argparse.ArgumentParser(usage=__doc__)
    parser.add_argument("--runs", type=int, default=3)
    parser.add_argument("--quick", action="store_true")
    parser.add_argument("--out", default=os.path.join(ROOT, "docs"))
    parser.add_argument("--note", default="")
    parser.add_argument("peers", nargs="*")
    words = parser.parse_args()
    if not shutil.which("gnuplot"):
        raise SystemExit("gnuplot draws the plots: apt-get install gnuplot-nox")
    peers = [(name, only, program) for name, only, program in map(peer, words.peers) if shutil.which(program)]
    where = machine()
    os.makedirs(os.path.join(words.out, "performance"), exist_ok=True)
    results = {}
    for task in TITLES:
        results[task] = {}
        for family, members in (DOCUMENTS if task == "check" else FAMILIES).items():
            results[task][family] = curves(task, members[:2] if words.quick else members, peers, words.runs)
            print(task, family, {name: pairs[-1:] for name, pairs in results[task][family].items()}, flush=True)
        draw(task, results[task], os.path.join(words.out, "performance", task + ".svg"))
    page(results, where, words, peers)


if __name__ == "__main__":
    main()
