#!/usr/bin/env python3
"""Kills `shift_solve solve` (`kill -9`) at random moments of a search of 20 steps, each time over a journal file of its own, looks at what the file holds, and
goes on with it.

    bench/faults/crash.py [--runs K] [--programs FOLDER]

It does so 400 times where no number is given, and prints how many files were left how, and with which cost each went on."""
import collections
import os
import pathlib
import random
import signal
import subprocess
import sys
import tempfile
import time

sys.path.insert(0, str(pathlib.Path(__file__).resolve().parent.parent))
import instances
import journals
import measured

STEPS = "20"


def command(solve, journal, document):
    """A run of the program over that journal, in a process of its own."""
    with open(document, "rb") as source:
        return subprocess.Popen([solve, "solve", journal, "--workers", "1", "--steps", STEPS], stdin=source, stdout=subprocess.PIPE, stderr=subprocess.PIPE)


def held(path):
    """What a journal's file holds: a word, or the cost of the plan that the last record with a plan begins with (a settled plan behind it in the same record is cheaper still)."""
    if not os.path.exists(path):
        return "no file"
    with open(path, "rb") as file:
        content = file.read()
    if not content:
        return "an empty file"
    if len(content) < 12 or content[:8] != journals.MARK or len(content) <= 12 + journals.number(content, 8, 4)[0]:
        return "a torn first write"
    records = list(journals.records(content))
    if not records:
        return "a journal without posts"
    # a plan stands behind the number of posts, and its cost behind the kind and the worker
    costs = [journals.number(it, 5, 8)[0] for it in records if it[2] == journals.PLAN]
    return "posts with a plan of cost %d" % costs[-1] if costs else "posts without a plan"


def opened_again(solve, journal, document):
    """The status of a further run over a journal, and the cost that it prints: at most that of the plan that it held."""
    child = command(solve, journal, document)
    out, _ = child.communicate()
    lines = out.decode().split("\n")
    return child.returncode, lines[2] if len(lines) > 2 else "no report"


def main():
    parser = measured.words_of(__doc__)
    parser.add_argument("--runs", type=int, default=400)
    asked = parser.parse_args()
    solve, runs = measured.program(asked.programs, "shift_solve"), asked.runs
    left, again = collections.Counter(), collections.Counter()
    with tempfile.TemporaryDirectory() as folder:
        document = instances.path_of("quarter_week", folder)
        whole = os.path.join(folder, "whole.journal")
        begin = time.perf_counter()
        command(solve, whole, document).communicate()
        seconds = time.perf_counter() - begin
        killed = 0
        for number in range(runs):
            journal = os.path.join(folder, "run%d.journal" % number)
            child = command(solve, journal, document)
            time.sleep(random.uniform(0, 1.2 * seconds))
            child.send_signal(signal.SIGKILL)
            child.communicate()
            killed += child.returncode == -signal.SIGKILL
            state = held(journal)
            left[state] += 1
            again["%s, then status %d and %s" % ((state,) + opened_again(solve, journal, document))] += 1
    print("%d runs of a run of %.3f s, %d of them killed before their end" % (runs, seconds, killed))
    for state, count in sorted(left.items()):
        print("%5d left %s" % (count, state))
    for state, count in sorted(again.items()):
        print("%5d opened again: %s" % (count, state))


if __name__ == "__main__":
    main()
