#!/usr/bin/env python3
"""Times `bounds` against `places` and `commoner` and `live` against `siphons`, on the nets of `tasks.py`.

    bench/verdicts.py [RUNS]

`bounds` does what `places` does and a little more, `commoner` and `live` what `siphons` does. A line tells the
net, its places and transitions, the task, the last line of its answer, the best processor time of RUNS runs (by
default 5) of the whole process, taken in turns with those of the other task, and how many times those of the
other task it is. Where the variable ANALYSER names a program that takes the same words and writes the same texts,
the last column tells how many times as long as that program ours takes, and the run fails where the texts differ.
"""
import os
import sys

from measure import best, built, load, written
from tasks import FAMILIES

PAIRS = [("bounds", "places"), ("commoner", "siphons"), ("live", "siphons")]
ANALYSER = os.environ.get("ANALYSER")


def in_turns(runs, commands, path):
    """The output and the best time of each command, whose runs are taken in turns."""
    outputs, times = [None] * len(commands), [float("inf")] * len(commands)
    for _ in range(runs):
        for i, command in enumerate(commands):
            outputs[i], seconds, _ = best(1, command, path)
            times[i] = min(times[i], seconds)
    return outputs, times


def main():
    runs = int(sys.argv[1]) if len(sys.argv) > 1 else 5
    program = built()
    print(load())
    form = "%-12s %6s %11s %-9s %-24s %8s %12s %8s"
    print(form % ("net", "places", "transitions", "task", "answer", "seconds", "times other", "analyser"))
    for family, members in FAMILIES:
        for net in members:
            with written(net.document) as file:
                for task, other in PAIRS:
                    commands = [[program, task], [program, other]]
                    if ANALYSER and task != "live":
                        commands.append([ANALYSER, task, file.name])
                    outputs, times = in_turns(runs, commands, file.name)
                    if len(outputs) == 3 and outputs[0] != outputs[2]:
                        sys.exit("%s of %s: the texts differ" % (task, family))
                    last = outputs[0].decode().split("\n")[-2]
                    analyser = "%.2f" % (times[0] / times[2]) if len(times) == 3 else "-"
                    sizes = (len(net.places), len(net.transitions))
                    print(form % (family, *sizes, task, last, "%.4f" % times[0], "%.2f" % (times[0] / times[1]), analyser), flush=True)


if __name__ == "__main__":
    main()
