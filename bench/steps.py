#!/usr/bin/env python3
"""Measures searches of many steps over a real journal file, the opening of the journals that they leave, and the check of their reports.

    bench/steps.py [--workers W..] [--runs K] [--folder FOLDER] [--programs FOLDER] [--] [DOCUMENT:STEPS..]

Each document is searched by `shift_solve solve` with one worker for so many steps: the usual week for 2,000 and 20,000 and the call week for 2,000 where
none is named. Its journal is opened by W workers, 1 and 4 where no numbers are given, K times, 5 where none is given; the quickest counts. An opening is
measured twice: with the report that it writes (`--steps 0`), and alone, by a journal with one record more that spells no posts, so that it is refused when
all others are read, judged and folded. The journals stand in the folder, that for temporary files where none is given."""
import os
import pathlib
import tempfile

import instances
import journals
import measured

NO_POSTS = b"\xff\xff"  # a record that spells no posts
ENDS = (0, 10)          # optimal, and a spent budget


def show(what, run):
    print("%-44s %s" % (what, run), flush=True)


def open_again(asked, solve, document, journal, folder):
    """Opens a journal with its report, and one with a refused record behind it."""
    alone = folder / "refused.journal"
    alone.write_bytes(journals.with_more(journal.read_bytes(), journals.framed(NO_POSTS)))
    for what, path, ends in (("opened, with its report", journal, ENDS), ("opened alone", alone, None)):
        for workers in asked.workers:
            words = [solve, "solve", path, "--workers", workers, "--steps", "0"]
            runs = [measured.run(words, document, folder / "again.report", ends) for _ in range(asked.runs)]
            show("  its journal %s, %d workers" % (what, workers), min(runs, key=lambda it: it.elapsed))


def search(asked, name, steps, folder):
    """One search, the opening of its journal, and the check of its report."""
    solve, check = (measured.program(asked.programs, it) for it in ("shift_solve", "shift_check"))
    document, journal, report = instances.path_of(name, folder), measured.fresh(folder / "search.journal"), folder / "search.report"
    words = [solve, "solve", journal, "--workers", "1", "--steps", steps]
    show("%s, %d steps" % (instances.name_of(name), steps), measured.run(words, document, report, ENDS))
    print("    %s; journal %d bytes, report %d bytes" % (measured.told(report), os.path.getsize(journal), os.path.getsize(report)))
    open_again(asked, solve, document, journal, folder)
    judged = measured.run([check, "check", document, report])
    show("  its report checked", judged)
    print("    " + judged.out.strip())


def main():
    parser = measured.words_of(__doc__)
    parser.add_argument("--workers", type=int, nargs="+", default=[1, 4])
    parser.add_argument("--runs", type=int, default=5)
    parser.add_argument("--folder")
    parser.add_argument("searches", nargs="*", default=["usual_week:2000", "usual_week:20000", "call_week:2000"])
    asked = parser.parse_args()
    with tempfile.TemporaryDirectory(dir=asked.folder) as folder:
        for name, _, steps in (it.rpartition(":") for it in asked.searches):
            search(asked, name, int(steps), pathlib.Path(folder))


if __name__ == "__main__":
    main()
