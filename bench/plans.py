#!/usr/bin/env python3
"""Measures `shift_plan` as a planner uses it: a search, its journal opened again, and its plan shown.

    bench/plans.py [--seconds N] [--programs FOLDER] [--] [DOCUMENT..]

Each document, all examples and the airport week where none is named, is searched for N seconds (10) by four workers over a new journal. Then comes
`--seconds 0`, which opens the journal again and writes the plan that it holds, and `show`. A line has the elapsed seconds of the run, steps, cost, bound,
those of both others, and the bytes of journal, report and page."""
import os
import pathlib
import tempfile

import instances
import measured


def measure(asked, name):
    plan = measured.program(asked.programs, "shift_plan")
    with tempfile.TemporaryDirectory() as folder:
        path = pathlib.Path(folder)
        (path / "week.json").write_text(instances.text_of(name))
        seconds = [measured.run([plan, "plan", "week.json", "--seconds", it], cwd=folder).elapsed for it in (asked.seconds, 0)]
        seconds.append(measured.run([plan, "show", "week.json", "week.plan/report", "--out", "shown"], cwd=folder).elapsed)
        head, steps = measured.head_of(path / "week.plan" / "report"), measured.steps_of(path / "week.plan" / "report")
        sizes = [os.path.getsize(path / it) for it in ("week.journal", "week.plan/report", "week.plan/plan.html")]
    print("%-15s %6.2f s %7d steps  cost %6s  bound %6s  again %5.2f s  show %5.2f s  bytes %d %d %d" %
          (instances.name_of(name), seconds[0], steps, head["cost"], head["bound"], *seconds[1:], *sizes), flush=True)


def main():
    parser = measured.words_of(__doc__)
    parser.add_argument("--seconds", type=int, default=10)
    parser.add_argument("documents", nargs="*", default=[*instances.examples(), "airport_week"])
    asked = parser.parse_args()
    for name in asked.documents:
        measure(asked, name)


if __name__ == "__main__":
    main()
