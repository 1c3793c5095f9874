#!/usr/bin/env python3
"""Times the program beside another one that takes the same words and writes the same texts.

    bench/against.py OTHER [RUNS [WORD ..]]

On nets of growing size a line tells the net, its places and transitions, the task, the last line of the answer,
the best processor times of RUNS runs (by default 3) of both in turns, their ratio, which is below 1 where this
program is faster, the growth of both from the size before, and the peak memory of both. Only tasks and families
that a WORD names are run, where any is given. The run fails where two answers differ. At the end it tells the
geometric mean of the ratios and every row above 1.

The environment may name a word that OTHER takes in the place of a task, as SIPHONS=siphons-branch.
"""
import math
import os
import subprocess
import sys

import nets
from measure import built, load, run, written

FLOWS = ("places", "transitions", "bounds")
SETS = ("siphons", "traps", "commoner")
FAMILIES = [
    ("small", [nets.philosophers(2), nets.manufacturing(1), nets.producer_chain(2)], FLOWS + SETS),
    ("philosophers", [nets.philosophers(n) for n in (20, 50, 100, 200, 666)], FLOWS + SETS),
    ("ring", [nets.ring(n) for n in (100, 500, 2000)], FLOWS + SETS),
    ("token-ring", [nets.token_ring(n) for n in (50, 100, 200, 600)], FLOWS + SETS),
    ("islands", [nets.islands(n) for n in (50, 200, 1000)], FLOWS + SETS),
    ("mutex", [nets.mutual_exclusion(n) for n in (50, 200, 1000)], FLOWS + SETS),
    ("funnel", [nets.funnel(n) for n in (50, 100)], FLOWS),
    ("fan", [nets.fan(n) for n in (30, 60, 100)], FLOWS),
    ("readers", [nets.readers_and_writers(n) for n in (20, 50, 100)], FLOWS + SETS),
    ("factory", [nets.manufacturing(n) for n in (5, 10, 20, 40, 140)], FLOWS + SETS),
    ("chain", [nets.producer_chain(n) for n in (20, 50, 100, 200, 500)], FLOWS + SETS),
    ("marked-graph", [nets.marked_graph(n) for n in (40, 50, 60)], SETS[:2]),
    ("free-choice", [nets.free_choice(n) for n in (30, 60, 200)], SETS[:2]),
]


def answered(task, output):
    """The answer without the order of its lines, which two programs may choose differently for lists."""
    lines = output.decode().split("\n")[:-1]
    return sorted(lines) if task in ("places", "transitions", "siphons", "traps") else lines


def timed(runs, commands, path):
    """For each command its output, the best of its times and its peak memory, the commands being run in turns."""
    results = [(b"", math.inf, 0) for _ in commands]
    for _ in range(runs):
        for i, command in enumerate(commands):
            with open(path, "rb") as source:
                output, seconds, peak = run(command, source)
            results[i] = (output, min(results[i][1], seconds), max(results[i][2], peak))
    return results


def refused(command, path):
    """The line with which the command refuses the net, or nothing."""
    with open(path, "rb") as source:
        done = subprocess.run(command, stdin=source, stdout=subprocess.DEVNULL, stderr=subprocess.PIPE, check=False)
    return done.stderr.decode().strip() if done.returncode else ""


def row(name, net, task, runs, program, other, before):
    """Prints one line and gives the ratio, or none where the program refuses the net."""
    with written(net.document) as file:
        line = refused([program, task], file.name)
        if line:
            print("%-13s %5d %5d %-11s %s" % (name, len(net.places), len(net.transitions), task, line), flush=True)
            return None
        (ours, seconds, memory), (theirs, others, others_memory) = timed(runs, [[program, task], [other, os.environ.get(task.upper(), task)]], file.name)
    if answered(task, ours) != answered(task, theirs):
        sys.exit("%s %s: the answers differ" % (name, task))
    growth = "%.1f %.1f" % (seconds / before[task][0], others / before[task][1]) if task in before else ""
    before[task] = (seconds, others)
    last = ours.decode().split("\n")[-2]
    form = "%-13s %5d %5d %-11s %-22s %8.4f %8.4f %6.2f  %-9s %6.1f %6.1f"
    print(form % (name, len(net.places), len(net.transitions), task, last, seconds, others, seconds / others, growth, memory / 1e6, others_memory / 1e6), flush=True)
    return seconds / others


def main():
    other = sys.argv[1]
    runs = int(sys.argv[2]) if len(sys.argv) > 2 else 3
    words = sys.argv[3:]
    program = built()
    print(load())
    ratios = []
    for name, members, tasks in FAMILIES:
        before = {}
        for net in members:
            for task in tasks:
                if words and not (name in words or task in words):
                    continue
                ratio = row(name, net, task, runs, program, other, before)
                if ratio is not None:
                    ratios.append((ratio, name, len(net.places), task))
    if ratios:
        print("mean %.2f of %d rows" % (math.exp(sum(math.log(ratio[0]) for ratio in ratios) / len(ratios)), len(ratios)))
        for ratio in sorted(ratios, reverse=True):
            if ratio[0] > 1:
                print("%.2f %s %d %s" % ratio)


if __name__ == "__main__":
    main()
