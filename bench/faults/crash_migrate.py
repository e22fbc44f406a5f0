#!/usr/bin/env python3
"""Kills `shift_migrate` (`kill -9`) at random moments of the way of an old journal to the present version, each time to a file of its own and every second time
once that is there, and looks at both files: the old one must be as it was, and the new one refused, empty or whole.

    bench/faults/crash_migrate.py [--runs K] [--programs FOLDER]

It does so 200 times where no number is given. Then it cuts a small old journal at each byte: none but the whole one is carried over, and none changes. It
prints how many files were left how; the exit status is 1 where one was left otherwise."""
import collections
import hashlib
import os
import pathlib
import random
import signal
import subprocess
import sys
import tempfile
import time

sys.path.insert(0, str(pathlib.Path(__file__).resolve().parent.parent))
import journals
import measured

# how many records the journal has over which the program is killed
RECORDS = 40_000


def sum_of(path):
    with open(path, "rb") as file:
        return hashlib.sha256(file.read()).hexdigest()


def left_at(path, whole):
    """How the new file was left: a word, or None where it is neither refused nor empty nor whole."""
    if not os.path.exists(path):
        return "no file"
    with open(path, "rb") as file:
        content = file.read()
    if not content:
        return "an empty file"
    if content == whole:
        return "the whole journal"
    if len(content) < 8 or content[:8] not in (journals.MARK, journals.OLD_MARK):
        return "a file that is no journal"
    return None


def wait_for(child, path):
    """Waits until the file is there or the program has ended."""
    while not os.path.exists(path) and child.poll() is None:
        time.sleep(0.0005)


def killed_runs(program, runs, folder):
    """Kills so many runs, and counts how they left their files."""
    old = os.path.join(folder, "old.journal")
    with open(old, "wb") as file:
        file.write(journals.made(True, RECORDS))
    whole, before = journals.made(False, RECORDS), sum_of(old)
    first = os.path.join(folder, "first.journal")
    begin = time.perf_counter()
    child = subprocess.Popen([program, old, first], stdout=subprocess.PIPE)
    wait_for(child, first)
    there = time.perf_counter()
    said = child.communicate()[0]
    end = time.perf_counter()
    assert said == b"migrated records %d posts %d\n" % (RECORDS, RECORDS), said
    found = collections.Counter({left_at(first, whole): 1})
    for number in range(runs):
        new = os.path.join(folder, "new%d.journal" % number)
        child = subprocess.Popen([program, old, new], stdout=subprocess.DEVNULL, stderr=subprocess.DEVNULL)
        if number % 2:
            wait_for(child, new)
        time.sleep(random.uniform(0, 1.2 * (end - there if number % 2 else end - begin)))
        child.send_signal(signal.SIGKILL)
        child.wait()
        found[left_at(new, whole) if sum_of(old) == before else None] += 1
        if os.path.exists(new):
            os.remove(new)
    print("%d runs of a run of %.3f s over %d bytes, %.3f s of it with the new file" % (runs, end - begin, os.path.getsize(old), end - there))
    return found


def cut_runs(program, folder):
    """Cuts a small old journal at each byte, and counts what became of it."""
    found = collections.Counter()
    content = journals.made(True, 1)
    old, new = os.path.join(folder, "cut.journal"), os.path.join(folder, "cut.new")
    for length in range(len(content) + 1):
        with open(old, "wb") as file:
            file.write(content[:length])
        status = subprocess.run([program, old, new], stdout=subprocess.DEVNULL, stderr=subprocess.DEVNULL).returncode
        with open(old, "rb") as file:
            same = file.read() == content[:length]
        wanted = 0 if length == len(content) else 9
        found["a cut file with status %d" % status if same and status == wanted and os.path.exists(new) == (wanted == 0) else None] += 1
    return found


def main():
    parser = measured.words_of(__doc__)
    parser.add_argument("--runs", type=int, default=200)
    asked = parser.parse_args()
    program, runs = measured.program(asked.programs, "shift_migrate"), asked.runs
    with tempfile.TemporaryDirectory() as folder:
        found = killed_runs(program, runs, folder) + cut_runs(program, folder)
    for state, count in sorted(found.items(), key=str):
        print("%5d left %s" % (count, state or "OTHERWISE"))
    sys.exit(1 if found[None] else 0)


if __name__ == "__main__":
    main()
