#!/usr/bin/env python3
"""Times the making and the checking of certificates.

    bench/certificates.py [RUNS]

The first table has the nets of `tasks.py`: the best processor time of RUNS runs (by default 5) of the whole process
for `bounds` and `cert-bounds`, or `commoner` and `cert-commoner`, and for `verify` of what the latter wrote, and how many
lines the certificate has. The second has certificates of up to a million lines on small nets, with the time for
each line and the peak memory: flows that are written many times over, and a tree that splits over all places in
turn.
"""
import sys

from measure import best, built, load, written
from nets import Net, philosophers
from tasks import FAMILIES

PAIRS = [("bounds", "cert-bounds"), ("commoner", "cert-commoner")]


def made(program, runs, net):
    """A line for each kind of certificate of a net: the times of the task, of the maker and of the checker."""
    with written(net.document) as file:
        for task, maker in PAIRS:
            _, asked, _ = best(runs, [program, task], file.name)
            output, making, _ = best(runs, [program, maker], file.name)
            lines = output.count(b"\n") - 1
            with written(lambda output=output: output) as certificate:
                answer, checking, _ = best(runs, [program, "verify"], certificate.name)
            yield maker, lines, asked, making, checking, answer.decode().split("\n")[0]


def repeated_flow(lines):
    """A net of three philosophers and this many lines of one flow, with a claim by the last of them."""
    flow = "flow 0:1 6:1\n"
    return philosophers(3), "bounds\n" + flow * lines + "bound 0 1 %d\nend\n" % lines


def whole_tree(depth):
    """Places without arcs, each with a token, and the tree that splits over all of them in turn."""
    net = Net()
    for i in range(depth):
        net.place("p%d" % i, 1)

    def below(place, contains):
        if place == depth:
            return ["trap\n" if contains else "empty\n"]
        return ["split %d\n" % place] + below(place + 1, contains) + below(place + 1, True)

    return net, "commoner\n" + "".join(below(0, False)) + "end\n"


LONG = [("flows", repeated_flow, (250_000, 500_000, 1_000_000)), ("tree", whole_tree, (17, 18, 19))]


def main():
    runs = int(sys.argv[1]) if len(sys.argv) > 1 else 5
    program = built()
    print(load())
    form = "%-12s %6s %11s %-14s %8s %9s %9s %9s  %s"
    print(form % ("net", "places", "transitions", "maker", "lines", "task", "make", "verify", "answer"))
    for family, members in FAMILIES:
        for net in members:
            for maker, lines, asked, making, checking, answer in made(program, runs, net):
                times = ["%.4f" % seconds for seconds in (asked, making, checking)]
                print(form % (family, len(net.places), len(net.transitions), maker, lines, *times, answer), flush=True)
    form = "%-8s %9s %9s %9s %14s %9s  %s"
    print(form % ("kind", "lines", "bytes", "seconds", "ns for a line", "MB", "answer"))
    for kind, make, sizes in LONG:
        for size in sizes:
            net, text = make(size)
            with written(net.document) as file:
                document, _, _ = best(1, [program, "canon"], file.name)
            with written(lambda document=document, text=text: document + text.encode()) as file:
                answer, seconds, memory = best(runs, [program, "verify"], file.name)
            lines = text.count("\n")
            row = (kind, lines, len(text), "%.3f" % seconds, "%.0f" % (seconds / lines * 1e9), "%.0f" % (memory / 1e6))
            print(form % (*row, answer.decode().split("\n")[0]), flush=True)


if __name__ == "__main__":
    main()
