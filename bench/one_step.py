#!/usr/bin/env python3
"""Measures one step of `shift_solve solve` by one worker over a new journal, nearly all of which is the greedy plan, and `shift_check check` of its report.

    bench/one_step.py [--runs K] [--ways WAY..] [--programs FOLDER] [--] [DOCUMENT..]

A document is named as `bench/instances.py` has it: an example, a made one, or a file. Where none is named they are the examples, `quarter_week`,
`day`, `day_breaks` and `day_lunch`. A WAY is `plain`, `local` or `thorough`, `plain` where none is named. K is 5; of so many runs the one with the
fewest processor seconds is printed."""
import tempfile

import instances
import measured

WAYS = {"plain": [], "local": ["--local"], "thorough": ["--thorough"]}
SMALL = [*instances.examples(), "quarter_week", "day", "day_breaks", "day_lunch"]
ENDS = (0, 10)  # optimal, and a spent budget


def measure(asked, name, way, folder):
    solve, check = (measured.program(asked.programs, it) for it in ("shift_solve", "shift_check"))
    document, report, journal = instances.path_of(name, folder), folder + "/report", folder + "/journal"
    words = ["--workers", "1", "--steps", "1", *WAYS[way]]
    step = measured.quickest(asked.runs, lambda: measured.run([solve, "solve", measured.fresh(journal), *words], document, report, ENDS))
    print("%-22s %-8s a step    %s; %s" % (instances.name_of(name), way, step, measured.told(report)), flush=True)
    judged = measured.quickest(asked.runs, lambda: measured.run([check, "check", document, report]))
    print("%-22s %-8s its check %s; %s" % ("", "", judged, judged.out.strip()), flush=True)


def main():
    parser = measured.words_of(__doc__)
    parser.add_argument("--runs", type=int, default=5)
    parser.add_argument("--ways", nargs="+", choices=WAYS, default=["plain"])
    parser.add_argument("documents", nargs="*", default=SMALL)
    asked = parser.parse_args()
    with tempfile.TemporaryDirectory() as folder:
        for name in asked.documents:
            for way in asked.ways:
                measure(asked, name, way, folder)


if __name__ == "__main__":
    main()
