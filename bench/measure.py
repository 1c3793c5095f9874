"""Timed runs of a program, for the scripts of this folder."""
import os
import subprocess
import tempfile

ROOT = os.path.dirname(os.path.dirname(os.path.realpath(__file__)))


def built():
    """The program that is measured: the one that the variable PNMLSTRUCT names, else that of this repository,
    which is proved and built first."""
    if "PNMLSTRUCT" in os.environ:
        return os.environ["PNMLSTRUCT"]
    program = os.path.join(ROOT, "crates", "pnmlstruct", "out", "pnmlstruct")
    done = subprocess.run([os.path.join(ROOT, "bin", "pnmlstruct"), "check"], input=b"", capture_output=True, check=False)
    if not os.path.exists(program):
        raise SystemExit(done.stderr.decode())
    return program


def run(command, stdin=subprocess.DEVNULL, status=0):
    """The output of the command, its processor time in seconds, which tells little of how busy the machine is,
    and its peak memory in bytes, which is at least that of the interpreter that starts it, 15 MB or more. It has
    to end with this status."""
    with tempfile.TemporaryFile() as out:
        child = subprocess.Popen(command, stdin=stdin, stdout=out, stderr=subprocess.DEVNULL if status else None)
        _, ended, usage = os.wait4(child.pid, 0)
        child.returncode = os.waitstatus_to_exitcode(ended)
        if child.returncode != status:
            raise SystemExit("%s ended with %d" % (command, child.returncode))
        out.seek(0)
        return out.read(), usage.ru_utime + usage.ru_stime, usage.ru_maxrss * 1024


def best(runs, command, path=None, status=0):
    """The output, the best time and the most memory of this many runs, on a file as input where one is given."""
    times, memory, output = [], 0, b""
    for _ in range(runs):
        if path is None:
            output, seconds, peak = run(command, status=status)
        else:
            with open(path, "rb") as source:
                output, seconds, peak = run(command, source, status)
        times.append(seconds)
        memory = max(memory, peak)
    return output, min(times), memory


def written(make):
    """A file with the bytes that `make` gives. They are made in a process of their own, since the peak memory of
    a run is at least that of the interpreter that starts it."""
    file = tempfile.NamedTemporaryFile()
    child = os.fork()
    if child == 0:
        with open(file.name, "wb") as out:
            out.write(make())
        os._exit(0)
    if os.waitpid(child, 0)[1] != 0:
        raise SystemExit("no document was made")
    return file


def load():
    """How busy the machine is, for the head of a table."""
    return "%d processors, load %.1f" % (os.cpu_count(), os.getloadavg()[0])
