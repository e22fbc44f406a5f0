"""What the measures share: where things stand, runs of programs with their seconds and their memory, and what a report says of itself."""
import argparse
import os
import pathlib
import subprocess
import sys
import tempfile
import time

TOP = pathlib.Path(__file__).resolve().parent.parent
BENCH = TOP / "bench"
TICKS = os.sysconf("SC_CLK_TCK")


def words_of(about, **more):
    """A parser of a script's words, with the folder of the programs that are measured."""
    parser = argparse.ArgumentParser(description=about, formatter_class=argparse.RawDescriptionHelpFormatter, **more)
    parser.add_argument("--programs", type=pathlib.Path, default=TOP / "bin", metavar="FOLDER",
                        help="the folder of the programs, bin/ where none is given; `crates` stands for those that were built here last")
    return parser


def program(folder, name):
    """The path of a program in a folder of programs, or in one of crates that have built theirs."""
    for path in (folder / name, folder / name / "out" / name):
        if path.is_file():
            return path.resolve()
    sys.exit("there is no %s in %s: build it first, by ./run --build %s" % (name, folder, name))


class Run:
    """A run that has ended: its status, elapsed, processor and the system's seconds, peak memory in MB, and what it wrote."""

    def __init__(self, status, elapsed, usage, out, err):
        self.status, self.elapsed, self.out, self.err = status, elapsed, out, err
        self.processors, self.system, self.memory = usage.ru_utime + usage.ru_stime, usage.ru_stime, usage.ru_maxrss / 1024

    def __str__(self):
        return "%8.3f s elapsed, %8.3f s of processors, %7.1f MB" % (self.elapsed, self.processors, self.memory)


def run(words, source=os.devnull, target=None, ends=(0,), **more):
    """Runs a program on a file, and keeps what it writes in the target, else in the run. It must end with one of these statuses, where any are given."""
    words = [str(word) for word in words]
    with open(source, "rb") as given, tempfile.TemporaryFile() as err, open(target, "wb") if target else tempfile.TemporaryFile() as out:
        begin = time.perf_counter()
        child = subprocess.Popen(words, stdin=given, stdout=out, stderr=err, **more)
        _, status, usage = os.wait4(child.pid, 0)
        elapsed = time.perf_counter() - begin
        child.returncode = os.waitstatus_to_exitcode(status)
        err.seek(0)
        said, wrote = err.read().decode(errors="replace"), ""
        if not target:
            out.seek(0)
            wrote = out.read().decode(errors="replace")
    if ends and child.returncode not in ends:
        sys.exit("%s ends with %d: %s" % (" ".join(words[:4]), child.returncode, (said or wrote).strip()[:400]))
    return Run(child.returncode, elapsed, usage, wrote, said)


def processor_seconds(pid):
    """The processor time of a process that runs, of all its threads; None where it has ended."""
    try:
        words = pathlib.Path("/proc/%d/stat" % pid).read_text().rpartition(")")[2].split()
    except FileNotFoundError:
        return None
    return None if words[0] == "Z" else (int(words[11]) + int(words[12])) / TICKS


def awaited(run, seconds):
    """Asks a search for its end once it has had so many processor seconds, and tells how many it had; its judgement and its files come after."""
    spent = 0.0
    while True:
        now = processor_seconds(run.pid)
        spent = spent if now is None else now
        if now is None or seconds <= now:
            return spent
        time.sleep(0.02)


def quickest(count, once):
    """The run with the fewest processor seconds of so many."""
    return min((once() for _ in range(count)), key=lambda it: it.processors)


def fresh(path):
    """The path, with no file there."""
    pathlib.Path(path).unlink(missing_ok=True)
    return path


def head_of(report):
    """What the first lines of a report say, by their first words: its status, cost, bound and rows."""
    with open(report, errors="replace") as lines:
        pairs = [line.split(None, 1) for _, line in zip(range(5), lines)]
    return {pair[0]: pair[1].strip() for pair in pairs if len(pair) == 2}


def told(report):
    """The status, cost and bound of a report in one text."""
    head = head_of(report)
    return ", ".join("%s %s" % (word, head[word]) for word in ("status", "cost", "bound") if word in head) or "no report"


def steps_of(report):
    """How many steps a report has proof lines of: each prices one node."""
    with open(report) as lines:
        return sum(line.startswith("priced ") for line in lines)
