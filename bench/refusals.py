#!/usr/bin/env python3
"""Refuses memory to the program, one request after the other, and looks at what it answers.

    bench/refusals.py [--each] [PROGRAM]

PROGRAM is the built program, else crates/pnmlstruct/out/pnmlstruct. With `--each` a line tells the status of each run
and whether it wrote anything. Each task is run on a small net once for each
request N that it makes: with request N refused, and with N and all after it refused. A run must end with status 10,
nothing on standard output and one line on standard error, or with the whole answer that it gives where nothing is refused.
Then a document of 60 MB is read under limits on the address space, from 8 MB up, with the same two outcomes.
The first part needs `cc` and a program that is linked with the C library at run time; `refuse.c` is put in front of it.
"""
import os
import resource
import subprocess
import sys
import tempfile

from nets import Net, islands, largest, philosophers

HERE = os.path.dirname(os.path.realpath(__file__))
ROOT = os.path.dirname(HERE)
OUT_OF_MEMORY = 10
MEGABYTE = 1 << 20


def pruned():
    """A net whose elimination meets rows with larger supports than others."""
    net = Net()
    for place in "abcd":
        net.place(place, 1)
    net.transition("t", ["a", "b"], ["c"])
    net.transition("u", ["c"], ["a", "d"])
    net.transition("v", ["d"], ["b"])
    return net.document()


def cycle():
    net = Net()
    net.place("p", 1)
    net.place("q")
    net.transition("t", ["p"], ["q"])
    net.transition("u", ["q"], ["p"])
    return net.document()


def mutex():
    with open(os.path.join(ROOT, "examples/mutex.pnml"), "rb") as file:
        return file.read()


def ran(program, words, document, environment=None, limit=None):
    """Status, standard output and standard error, and whether a request was refused."""
    reader, writer = os.pipe()
    os.set_inheritable(writer, True)
    setting = dict(environment or {}, REFUSE_TELL=str(writer))
    limits = (lambda: resource.setrlimit(resource.RLIMIT_AS, (limit, limit))) if limit else None
    done = subprocess.run(
        [program] + words, input=document, capture_output=True, check=False, env=setting, pass_fds=[writer], preexec_fn=limits
    )
    os.close(writer)
    refused = os.read(reader, 1) != b""
    os.close(reader)
    return done.returncode, done.stdout, done.stderr, refused


def is_right(outcome, whole):
    """Out of memory with nothing written, or the whole answer."""
    status, out, err, _ = outcome
    if status == OUT_OF_MEMORY:
        return out == b"" and err.count(b"\n") <= 1
    return (status, out, err) == whole[:3]


def in_turn(program, library, words, document, wrong, each):
    """Refuses each request in turn, only it and it with all after it. Gives the number of requests and of answers."""
    whole = ran(program, words, document)
    answers = 0
    for on in ({}, {"REFUSE_ON": "1"}):
        number = 1
        while True:
            outcome = ran(program, words, document, dict(on, LD_PRELOAD=library, REFUSE_AT=str(number)))
            if not outcome[3]:
                break
            if each:
                print("%s, request %d%s: status %d, %s" % (
                    " ".join(words), number, " and on" if on else "", outcome[0], "an answer" if outcome[1] else "nothing written"))
            if not is_right(outcome, whole):
                wrong.append("%s, request %d: %r" % (" ".join(words), number, outcome[:3]))
            answers += outcome[0] != OUT_OF_MEMORY
            number += 1
    return number - 1, answers


def small_runs(program):
    """The tasks with their inputs: documents, and documents with what a task writes of them."""
    chained = philosophers(3).document()
    certificate = ran(program, ["cert-commoner"], cycle())[1]
    bound = ran(program, ["cert-bounds"], cycle())[1]
    resumed = ran(program, ["resume", "--sets", "1"], ran(program, ["canon"], islands(2).document())[1])[1]
    firings = ran(program, ["canon"], cycle())[1] + b"t\nu\n"
    return [
        (["check"], mutex()), (["canon"], mutex()), (["class"], mutex()), (["places"], pruned()), (["transitions"], pruned()),
        (["siphons"], chained), (["traps"], chained), (["bounds"], chained), (["commoner"], cycle()), (["cert-bounds"], cycle()),
        (["cert-commoner"], cycle()), (["verify"], certificate), (["verify"], bound), (["live"], cycle()), (["sub"], pruned()),
        (["resume"], resumed or cycle()), (["replay"], firings), (["sample", "3"], b""),
    ]


def under_limits(program, wrong):
    """Reads a long document in less and less memory. Gives the limits tried and the answers among them."""
    document = largest("<toolspecific tool=\"t\" version=\"1\"/>" * 22).document()
    whole = ran(program, ["canon"], document)
    tried = answers = 0
    for limit in list(range(8, 64, 4)) + list(range(64, 512, 16)):
        outcome = ran(program, ["canon"], document, limit=limit * MEGABYTE)
        if outcome[0] < 0 or outcome[0] == 127:
            continue  # the system couldn't start the program in so little
        tried += 1
        answers += outcome[0] != OUT_OF_MEMORY
        if not is_right(outcome, whole):
            wrong.append("%d MB: status %d, %d bytes" % (limit, outcome[0], len(outcome[1])))
    return len(document), tried, answers


def main():
    each = sys.argv[1:2] == ["--each"]
    named = sys.argv[2:] if each else sys.argv[1:]
    program = os.path.abspath(named[0]) if named else os.path.join(ROOT, "crates/pnmlstruct/out/pnmlstruct")
    wrong = []
    refusals = 0
    with tempfile.TemporaryDirectory() as folder:
        library = os.path.join(folder, "refuse.so")
        subprocess.run(["cc", "-O2", "-shared", "-fPIC", "-o", library, os.path.join(HERE, "refuse.c"), "-ldl"], check=True)
        for words, document in small_runs(program):
            requests, answers = in_turn(program, library, words, document, wrong, each)
            refusals += 2 * requests
            print("%-16s %5d requests refused, each by itself and each with all after it: %d whole answers" % (" ".join(words), requests, answers))
    size, tried, answers = under_limits(program, wrong)
    print("canon of %d bytes under %d limits of memory: %d whole answers" % (size, tried, answers))
    for line in wrong:
        print("WRONG", line)
    print("%d refusals, %d limits, %d wrong" % (refusals, tried, len(wrong)))
    return 1 if wrong else 0


if __name__ == "__main__":
    sys.exit(main())
