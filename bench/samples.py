#!/usr/bin/env python3
"""Times `sample N` beside the tasks that it contains, each on the net of N philosophers.

    bench/samples.py [RUNS]

A line tells N, the best processor time of RUNS runs (by default 5) of the whole process for `sample N`, and for `places`,
`transitions`, `siphons`, `bounds`, `commoner`, `cert-commoner` and `verify` of what `cert-commoner` wrote, on a document of
the same net.
"""
import sys

from measure import best, built, load, written
from nets import philosophers

TASKS = ["places", "transitions", "siphons", "bounds", "commoner", "cert-commoner"]
SIZES = [3, 20, 50, 100, 200]


def times_of(program, runs, size):
    _, whole, _ = best(runs, [program, "sample", str(size)])
    with written(philosophers(size).document) as file:
        answers = [best(runs, [program, task], file.name) for task in TASKS]
    with written(lambda: answers[-1][0]) as certificate:
        answers.append(best(runs, [program, "verify"], certificate.name))
    return [whole] + [seconds for _, seconds, _ in answers]


def main():
    runs = int(sys.argv[1]) if len(sys.argv) > 1 else 5
    program = built()
    print(load())
    form = "%4s" + " %13s" * (len(TASKS) + 2)
    print(form % ("N", "sample N", *TASKS, "verify"))
    for size in SIZES:
        print(form % (size, *("%.4f" % seconds for seconds in times_of(program, runs, size))), flush=True)


if __name__ == "__main__":
    main()
