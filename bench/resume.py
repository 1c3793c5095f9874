#!/usr/bin/env python3
"""Times a search for siphons in one run, in ten runs, and in many runs of several processes at once.

    bench/resume.py [LAYERS]

The net is a ring of LAYERS layers (by default 19) with 2^LAYERS minimal siphons, and as many grown ones. The first line
tells the processor time of `siphons`, the second the sum of those of ten runs of `resume`, each of which goes on from what
the one before left; beside it is how many times the first that is. The others tell how long the script
examples/parallel-siphons.sh takes by the clock with 1, 2 and 4 processes, in parts of its time with one.
"""
import os
import subprocess
import sys
import tempfile
import time

from measure import ROOT, built, load, run, written
from nets import layers

RUNS = 10
PROCESSES = [1, 2, 4]
SCRIPT = os.path.join(ROOT, "examples", "parallel-siphons.sh")
LEAVES = 4000


def resumed(program, name, leaves):
    """The processor time of all runs of a chain, and how many siphons they found."""
    total, found, runs = 0.0, 0, 0
    with open(name, "rb") as source:
        output, _, _ = run([program, "canon"], source)
    while runs == 0 or b"\nclass" in output.partition(b"\nend\n")[0]:
        with written(lambda: output) as source, open(source.name, "rb") as file:
            output, seconds, _ = run([program, "resume", "--sets", str(leaves)], file)
        total, runs = total + seconds, runs + 1
        found += int(output.split()[-1])
    return total, found, runs


def scripted(program, name, processes):
    """How long the script takes to write its list into a file, and how many siphons it tells."""
    with open(name, "rb") as source, tempfile.TemporaryFile() as out:
        began = time.monotonic()
        subprocess.run(
            ["sh", SCRIPT, str(processes), str(LEAVES)],
            stdin=source,
            stdout=out,
            env={**os.environ, "PROGRAM": program},
            check=True,
        )
        seconds = time.monotonic() - began
        out.seek(0)
        return seconds, int(out.read().split()[-1])


def main():
    size = int(sys.argv[1]) if len(sys.argv) > 1 else 19
    program = built()
    print(load())
    with written(layers(size).document) as file:
        output, whole, _ = run([program, "siphons", "--sets", str(2**size)], open(file.name, "rb"))
        print("%-28s %9.2f s  %d siphons" % ("siphons", whole, int(output.split()[-1])), flush=True)
        total, found, runs = resumed(program, file.name, -(-(2**size) // RUNS))
        print("%-28s %9.2f s  %d siphons  %.2f of it" % ("%d runs of resume" % runs, total, found, total / whole), flush=True)
        single = None
        for processes in PROCESSES:
            seconds, found = scripted(program, file.name, processes)
            single = single or seconds
            print(
                "%-28s %9.2f s  %d siphons  %.2f of one process"
                % ("the script, %d processes" % processes, seconds, found, seconds / single),
                flush=True,
            )


if __name__ == "__main__":
    main()
