#!/usr/bin/env python3
"""Counts the instructions of searches by one worker, of the opening of the journals that they leave (`--steps 0`), and of the check of their reports, by
valgrind's callgrind: the same on every machine, whatever else it does.

    bench/instructions.py [--steps N] [--programs FOLDER..] [--] [DOCUMENT..]

N is 300, the programs are those of `bin/` and the documents the usual week, the call week and the ward week where no others are given. The programs of
several folders are counted one after another."""
import os
import pathlib
import re
import sys
import tempfile

import instances
import measured

ENDS = (0, 10)  # optimal, and a spent budget


def counted(words, document, target, folder):
    """Millions of instructions of one process."""
    valgrind = ["valgrind", "--tool=callgrind", "--callgrind-out-file=%s/callgrind" % folder]
    said = measured.run([*valgrind, *words], document, target, ENDS).err
    found = re.search(r"Collected : (\d+)", said)
    return int(found.group(1)) / 1e6 if found else sys.exit("no count: " + said[-500:])


def count(name, steps, programs, folder):
    """The counts of a search, of the opening of its journal and of the check of its report, and the line that the check prints."""
    document, journal, report = instances.path_of(name, folder), measured.fresh(folder / "journal"), folder / "report"
    solve, check = (measured.program(programs, it) for it in ("shift_solve", "shift_check"))
    search = counted([solve, "solve", journal, "--workers", "1", "--steps", steps], document, report, folder)
    opening = counted([solve, "solve", journal, "--workers", "1", "--steps", "0"], document, os.devnull, folder)
    checking = counted([check, "check", document, report], os.devnull, folder / "verdict", folder)
    return search, opening, checking, (folder / "verdict").read_text().strip()


def main():
    parser = measured.words_of(__doc__, conflict_handler="resolve")
    parser.add_argument("--programs", type=pathlib.Path, nargs="+", default=[measured.TOP / "bin"])
    parser.add_argument("--steps", type=int, default=300)
    parser.add_argument("documents", nargs="*", default=["usual_week", "call_week", "ward_week"])
    asked = parser.parse_args()
    with tempfile.TemporaryDirectory() as folder:
        for programs in asked.programs:
            print("%s, %d steps, millions of instructions" % (programs, asked.steps))
            for name in asked.documents:
                search, opening, checking, verdict = count(name, asked.steps, programs, pathlib.Path(folder))
                print("  %-16s search %7.0f, opening %7.0f, check %7.0f, %.2f of the search (%s)" %
                      (instances.name_of(name), search, opening, checking, checking / search, verdict), flush=True)


if __name__ == "__main__":
    main()
