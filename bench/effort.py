#!/usr/bin/env python3
"""Measures what the law of effort does: `shift_plan` beside a copy of it in which no step gets more work than a usual one.

    bench/effort.py [--seconds N] [--of M] [--workers W] [--seeds K] [--programs FOLDER] [--] [DOCUMENT..]

The copy is made of the program's bytes: the most hundredths that count of those by which the bytes are ahead of the time, 10, are 0 there, in each place where
the adviser's code stands. A program that is built otherwise may have other bytes in those places; then the script says so. A search is told
that it may last M seconds, for which the law spends its journal, and is asked to end once each worker had N processor seconds. Both searches are made with each seed: 1, W + 1, 2 W + 1 and so on. Of each
the steps, the bound, the cost, the bytes of the journal, its processor seconds and the load before it are printed. N is 60, M is N, W and K are 1, and the document is the call
week where none is named."""
import os
import pathlib
import re
import subprocess
import sys
import tempfile

import instances
import journals
import measured

# `ahead.min(10)`: a comparison with 10, 10 into a register, and the lesser of both; behind it `1 << ahead`: 1 into a register, and that shifted. The adviser's
# code stands in the program once for each kind of stop (a search's, that of planned breaks, and none where an old journal is read), and the bytes in each.
SHIFTED = rb"(?=\x41?[\xb8-\xbf]\x01\0\0\0\x41?\xd3[\xe0-\xe7])"
MOST = re.compile(re.escape(bytes.fromhex("4883f80a b90a000000 480f42c8")) + SHIFTED)
NONE = bytes.fromhex("4883f800 b900000000 480f42c8")


def without_effort(plan, folder):
    (content, places), path = MOST.subn(NONE, plan.read_bytes()), folder / "shift_plan"
    if not places:
        sys.exit("the program nowhere has the bytes that are changed")
    path.write_bytes(content)
    path.chmod(0o755)
    return path


def ended(words, seconds):
    """Runs a search, asks for its end after so many processor seconds, and gives how many it had."""
    run = subprocess.Popen([str(word) for word in words], stdin=subprocess.PIPE, stdout=subprocess.DEVNULL, stderr=subprocess.PIPE)
    spent = measured.awaited(run, seconds)
    said = run.communicate()[1].decode()
    if run.returncode != 0:
        sys.exit("shift_plan ends with %d: %s" % (run.returncode, said))
    return spent


def searched(asked, program, name, seed, law, folder):
    document, journal, out = instances.path_of(name, folder), measured.fresh(folder / "journal"), folder / "plan"
    words = [program, "plan", document, "--journal", journal, "--out", out, "--seconds", asked.of or asked.seconds, "--stop-on", "line"]
    load, took = os.getloadavg()[0], ended([*words, "--workers", asked.workers, "--seed", seed], asked.workers * asked.seconds)
    steps = sum(1 for _ in journals.records(journal.read_bytes()))
    print("%s, seed %d, %s: %d steps, %s, journal %d bytes; %.1f processor seconds, load %.1f"
          % (instances.name_of(name), seed, law, steps, measured.told(out / "report"), os.path.getsize(journal), took, load), flush=True)


def main():
    parser = measured.words_of(__doc__)
    for name, number in (("seconds", 60), ("of", None), ("workers", 1), ("seeds", 1)):
        parser.add_argument("--" + name, type=int, default=number)
    parser.add_argument("documents", nargs="*", default=["call_week"])
    asked = parser.parse_args()
    plan = measured.program(asked.programs, "shift_plan")
    with tempfile.TemporaryDirectory() as name:
        folder = pathlib.Path(name)
        plain = without_effort(plan, folder)
        for number in range(asked.seeds):
            seed = 1 + number * asked.workers
            for document in asked.documents:
                searched(asked, plan, document, seed, "with the law", folder)
                searched(asked, plain, document, seed, "effort 1", folder)


if __name__ == "__main__":
    main()
