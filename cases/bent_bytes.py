#!/usr/bin/env python3
"""Gives programs files of which bytes are changed: every single byte of the journal and of the report of a search of one step becomes 0, 255
and one more in turn. Each run must end by a status that docs/FORMATS.md names, and with its line where there is one; a journal that opens
must have a plan that `shift_check` counts at the cost of its report, and a report that the checker accepts. Prints each run that doesn't, and
last `N passed, M failed`, counted in runs. Build `shift_solve` and `shift_check` first."""
import concurrent.futures
import os
import pathlib
import subprocess
import sys
import tempfile

TOP = pathlib.Path(__file__).resolve().parent.parent
SECONDS = 60           # that a run may take
OPENED = (0, 10, 11)   # statuses of `solve` after which there is a report
REFUSED = (3, 8, 9)    # and those of a document or a journal that is refused
JUDGED = (0, 1, 4, 8)  # statuses of the checker


def built(program):
    return TOP / "crates" / program / "out" / program


class Programs:
    """The programs that are tried."""

    def __init__(self, solve=None, check=None):
        self.solve = str(solve or built("shift_solve"))
        self.check = str(check or built("shift_check"))

    def run(self, words, source=b""):
        """The status of a run, and what it wrote."""
        try:
            done = subprocess.run(words, input=source, stdout=subprocess.PIPE, stderr=subprocess.PIPE, timeout=SECONDS)
        except subprocess.TimeoutExpired:
            return None, b"", b"it doesn't end"
        return done.returncode, done.stdout, done.stderr

    def search(self, journal, document, steps):
        return self.run([self.solve, "solve", journal, "--workers", "2", "--steps", str(steps)], document)


def cost_in(report):
    """The cost that a report tells in its third line."""
    lines = report.split(b"\n")
    return lines[2].split(b" ")[1] if len(lines) > 2 and lines[2].startswith(b"cost ") else None


def report_faults(programs, folder, document, report):
    """What is wrong with a report that a search wrote."""
    instance, text = os.path.join(folder, "I"), os.path.join(folder, "R")
    pathlib.Path(instance).write_bytes(document)
    pathlib.Path(text).write_bytes(report)
    status, counted, _ = programs.run([programs.check, "recount", instance, text])
    if status != 0 or counted != b"cost %s\n" % cost_in(report):
        yield "its rows are counted as %r, status %r" % (counted, status)
    status, told, _ = programs.run([programs.check, "check", instance, text])
    if status != 0 or not told.startswith(b"accepted "):
        yield "its report isn't accepted: %r, status %r" % (told, status)


def search_faults(programs, document, journal, steps=0):
    """What is wrong with a search over these bytes of a journal, by this document; both may be anything."""
    with tempfile.TemporaryDirectory() as folder:
        path = os.path.join(folder, "J")
        pathlib.Path(path).write_bytes(journal)
        status, report, told = programs.search(path, document, steps)
        if status in OPENED:
            yield from report_faults(programs, folder, document, report)
        elif status not in REFUSED:
            yield "solve ends with %r: %r" % (status, told)
        elif not told.startswith(b"shift_solve: ") or report != b"":
            yield "solve ends with %d, writes %r and says %r" % (status, report, told)


def check_faults(programs, document, report):
    """What is wrong with what the checker says of these bytes of a report; `check` and `recount` must both end by a status."""
    with tempfile.TemporaryDirectory() as folder:
        instance, text = os.path.join(folder, "I"), os.path.join(folder, "R")
        pathlib.Path(instance).write_bytes(document)
        pathlib.Path(text).write_bytes(report)
        for word in ("check", "recount"):
            status, told, said = programs.run([programs.check, word, instance, text])
            if status not in JUDGED or (status in (0, 1)) != (told != b"") or said != b"":
                yield "%s ends with %r, writes %r and says %r" % (word, status, told, said)


def made(programs, document, steps):
    """The journal and the report of a search of some steps over a new journal."""
    with tempfile.TemporaryDirectory() as folder:
        path = os.path.join(folder, "J")
        status, report, told = programs.search(path, document, steps)
        if status not in OPENED:
            sys.exit("no journal is made: %r" % told)
        return pathlib.Path(path).read_bytes(), report


def single_changes(content):
    """The bytes with one of them changed, each in turn, with a name."""
    for at, byte in enumerate(content):
        for other in sorted({0, 255, (byte + 1) % 256} - {byte}):
            yield "byte %d becomes %d" % (at, other), content[:at] + bytes([other]) + content[at + 1:]


def faults(programs=None, jobs=None):
    """What is wrong after each single change, and at last how many runs there were."""
    programs = programs or Programs()
    document = (TOP / "cases" / "texts" / "morning.json").read_bytes()
    journal, report = made(programs, document, 1)
    tasks = [("journal, " + name, search_faults, bent) for name, bent in single_changes(journal)]
    tasks += [("report, " + name, check_faults, bent) for name, bent in single_changes(report)]

    def tried(task):
        name, trial, bent = task
        return ["%s: %s" % (name, fault) for fault in trial(programs, document, bent)]

    with concurrent.futures.ThreadPoolExecutor(jobs or os.cpu_count()) as pool:
        for found in pool.map(tried, tasks):
            yield found


def main():
    passed, failed = 0, 0
    for found in faults(Programs(*sys.argv[1:3])):
        print("".join(fault + "\n" for fault in found), end="", flush=True)
        passed, failed = passed + (found == []), failed + (found != [])
    print("%d passed, %d failed" % (passed, failed))
    return int(failed > 0)


if __name__ == "__main__":
    sys.exit(main())
