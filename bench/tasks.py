#!/usr/bin/env python3
"""Times `places`, `transitions`, `sub`, `siphons` and `traps` on nets of growing size, and compares the answers with
those of 4ti2 and of gringo with clasp, where they are installed (packages 4ti2, gringo, clasp).

    bench/tasks.py [RUNS]

The nets are small ones, philosophers, fans, token rings, manufacturing systems and producer chains. A line tells
the net, its places and transitions, the task, the answer, the best processor time of RUNS runs (by default 3)
of the whole process, how many times that of the size before it is, the most memory, and how many times as long
the other program takes for the same list: 4ti2 for semiflows, gringo and clasp for siphons and traps. `late`
is written where that takes over 20 seconds. The run fails where two lists differ.
"""
import os
import shutil
import subprocess
import sys
import tempfile

import nets
from measure import best, built, load, written

FAMILIES = [
    ("small", [nets.philosophers(2), nets.philosophers(3), nets.manufacturing(1), nets.producer_chain(2)]),
    ("philosophers", [nets.philosophers(n) for n in (20, 50, 100, 200)]),
    ("fan", [nets.fan(n) for n in (30, 60, 100)]),
    ("ring", [nets.token_ring(n) for n in (20, 50, 100, 200)]),
    ("factory", [nets.manufacturing(n) for n in (5, 10, 20, 40)]),
    ("chain", [nets.producer_chain(n) for n in (20, 50, 100, 200)]),
]
PATIENCE = 20
RAYS = shutil.which("4ti2-rays") or shutil.which("rays")
CLASP = shutil.which("gringo") and shutil.which("clasp")
# A nonempty set is a siphon where no transition puts into it without taking from it; only smallest sets come.
SIPHONS = """
{ in(P) } :- place(P).
:- not in(P) : place(P).
:- in(P), output(T,P), not in(Q) : input(T,Q).
#heuristic in(P) : place(P). [1, false]
#show in/1.
"""


def timed(commands, folder):
    """The output of the last command and the time of all, or neither where they are late."""
    seconds = 0
    for command in commands:
        before = os.times()
        try:
            done = subprocess.run(command, cwd=folder, shell=True, capture_output=True, timeout=PATIENCE, check=False)
        except subprocess.TimeoutExpired:
            return None, None
        after = os.times()
        seconds += after.children_user + after.children_system - before.children_user - before.children_system
    return done.stdout.decode(), seconds


def semiflows(net, task, folder):
    """The extreme rays of y >= 0, y.C = 0 by 4ti2; for `sub` those of y, z >= 0, y.C + z = 0, of which y is told."""
    nodes, others = (net.transitions, list(net.places)) if task == "transitions" else (list(net.places), net.transitions)
    slack = len(others) if task == "sub" else 0
    rows = {other: [0] * len(nodes) + [int(i == k) for k in range(slack)] for i, other in enumerate(others)}
    number = {node: i for i, node in enumerate(nodes)}
    for source, target, weight in net.arcs:
        takes = source in net.places
        place, transition = (source, target) if takes else (target, source)
        node, other = (transition, place) if task == "transitions" else (place, transition)
        rows[other][number[node]] += -weight if takes else weight
    for name, table in (("mat", list(rows.values())), ("sign", [[1] * (len(nodes) + slack)]), ("rel", [["="] * len(others)])):
        with open(os.path.join(folder, "net." + name), "w") as out:
            out.write("%d %d\n" % (len(table), len(table[0])))
            out.writelines(" ".join(map(str, row)) + "\n" for row in table)
    _, seconds = timed([RAYS + " -q net"], folder)
    if seconds is None:
        return None, None
    with open(os.path.join(folder, "net.ray")) as rays:
        lines = rays.read().split("\n")[1:]
    return {frozenset((nodes[i], int(n)) for i, n in enumerate(line.split()[: len(nodes)]) if n != "0") for line in lines if line.strip()}, seconds


def closed_sets(net, task, folder):
    """The minimal siphons, or traps, as the models of an answer set program."""
    flips = task == "traps"
    places, transitions = list(net.places), {t: i for i, t in enumerate(net.transitions)}
    number = {place: i for i, place in enumerate(places)}
    with open(os.path.join(folder, "net.lp"), "w") as out:
        out.write(SIPHONS)
        out.writelines("place(%d).\n" % i for i in range(len(places)))
        for source, target, _ in net.arcs:
            takes = source in net.places
            place, transition = (source, target) if takes else (target, source)
            out.write("%s(%d,%d).\n" % ("input" if takes != flips else "output", transitions[transition], number[place]))
    output, seconds = timed(["gringo net.lp > net.ground", "clasp net.ground 0 --heuristic=Domain --enum-mode=domRec"], folder)
    if seconds is None:
        return None, None
    models = [line for line in output.split("\n") if line.startswith("in(")]
    return {frozenset(places[int(word[3:-1])] for word in model.split()) for model in models}, seconds


def answered(task, output):
    """The members of the program's answer."""
    lines = [line.split() for line in output.decode().split("\n")[: -3 if task == "sub" else -2]]
    if task in ("siphons", "traps"):
        return {frozenset(line) for line in lines}
    return {frozenset((word.split("*")[1], int(word.split("*")[0])) for word in line) for line in lines}


def compared(net, task, output, seconds):
    """How many times as long the other program takes, as text."""
    other = closed_sets if task in ("siphons", "traps") else semiflows
    if not (RAYS if other is semiflows else CLASP):
        return "-"
    with tempfile.TemporaryDirectory() as folder:
        members, others_seconds = other(net, task, folder)
    if members is None:
        return "late"
    if members != answered(task, output):
        sys.exit("the other list has %d members: %s" % (len(members), output.decode().split("\n")[-2]))
    return "%.2f" % (others_seconds / seconds)


def main():
    runs = int(sys.argv[1]) if len(sys.argv) > 1 else 3
    program = built()
    print(load())
    form = "%-12s %6s %11s %-11s %-15s %8s %7s %8s %7s"
    print(form % ("net", "places", "transitions", "task", "answer", "seconds", "growth", "MB held", "other"))
    for family, members in FAMILIES:
        before = {}
        for net in members:
            for task in ("places", "transitions", "sub", "siphons", "traps"):
                with written(net.document) as file:
                    output, seconds, memory = best(runs, [program, task], file.name)
                last = output.decode().split("\n")[-3 if task == "sub" else -2]
                growth = "%.1f" % (seconds / before[task]) if task in before and family != "small" else ""
                other = compared(net, task, output, seconds)
                sizes = (len(net.places), len(net.transitions))
                print(form % (family, *sizes, task, last, "%.4f" % seconds, growth, "%.1f" % (memory / 1e6), other), flush=True)
                before[task] = seconds


if __name__ == "__main__":
    main()
