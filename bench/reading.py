#!/usr/bin/env python3
"""Measures how long the programs take to read great files: `shift_solve solve` documents of 2^20 bytes, their limit, which it refuses, and `shift_check recount`
reports.

    bench/reading.py [--bytes N] [--runs K] [--only KIND..] [--programs FOLDER]

The KINDs are `documents` (one long list of needs, one long name of a field, one with as many types as fit), `small` (a report of a thousand rows, and that of
one step of `quarter_week`, both of that week) and `reports` of N bytes (2^28, the most that are read, where no number is given) of the usual week: proof lines
with one-digit prices, with prices at scale 100, with splits alone, with settled nodes alone, or rows alone; and one of a byte more than the most. All kinds are
measured where none is named. Of documents and small reports the quickest of K runs is printed, of 5 where no number is given."""
import pathlib
import random
import tempfile

import instances
import measured

DOCUMENT_MOST, REPORT_MOST = 2**20, 2**28
SLOTS = 336  # of the usual week
ENDS = (0, 10)  # optimal, and a spent budget


def document(need, types):
    return '{"slot_minutes":60,"days":1,"need":[%s],"max_heads":1,"weights":{"excess":1,"shortage":2,"shift":3},"types":[%s]}' % (need, types)


def filled(make, piece):
    """The longest document within the limit that `make` gives of pieces joined by commas."""
    count = (DOCUMENT_MOST - len(make(""))) // (len(piece) + 1)
    return make(",".join([piece] * count))


def documents():
    a_type = '{"name":"M","start_min":8,"start_max":8,"len_min":4,"len_max":4,"breaks":null}'
    yield "needs", filled(lambda pieces: document(pieces, a_type), "1")
    yield "types", filled(lambda pieces: document(",".join(["1"] * 24), pieces), a_type)
    yield "name", '{"' + "n" * (DOCUMENT_MOST - 6) + '":1}'


def show(what, path, run):
    words = (run.out or run.err).strip().split("\n")[0][:60]
    print("%-20s %10d bytes: %s; status %d, %s" % (what, path.stat().st_size, run, run.status, words), flush=True)


def measure_documents(asked, folder):
    solve, path = measured.program(asked.programs, "shift_solve"), folder / "document.json"
    for name, text in documents():
        path.write_text(text)
        words = [solve, "solve", folder / "journal", "--workers", "1", "--steps", "1"]
        show(name, path, measured.quickest(asked.runs, lambda: measured.run(words, path, ends=None)))


def recounted(asked, document, report):
    return measured.run([measured.program(asked.programs, "shift_check"), "recount", document, report], ends=None)


def measure_small(asked, folder):
    """A report of a thousand rows, of 143 shifts on seven days each, and one that the solver writes."""
    document, report = instances.path_of("quarter_week", folder), folder / "report"
    rows = ["row %d %d 1 -" % (shift, day) for shift in range(143) for day in range(7)][:1000]
    report.write_text("\n".join(["shift-report 1", "status stopped", "cost 1", "bound 0", "rows 1000", *rows, "proof 0", "end", ""]))
    show("a thousand rows", report, measured.quickest(asked.runs, lambda: recounted(asked, document, report)))
    words = [measured.program(asked.programs, "shift_solve"), "solve", measured.fresh(folder / "journal"), "--workers", "1", "--steps", "1"]
    measured.run(words, document, report, ENDS)
    show("the week as solved", report, measured.quickest(asked.runs, lambda: recounted(asked, document, report)))


def bound_head(count):
    return "shift-report 1\nstatus bound\ncost -\nbound 0\nrows -\nproof %d\n" % count


def plan_head(count):
    return "shift-report 1\nstatus stopped\ncost 1\nbound 0\nrows %d\n" % count


def priced(prices):
    return "priced 0 100 %s -\n" % ",".join(str(price) for price in prices)


def written(path, size, head, line, tail):
    """Writes a report of that size, filled up with a note."""
    count = (size - len(tail) - 64) // len(line)
    front, piece = head(count), line * max(1, 2**20 // len(line))
    with path.open("w") as out:
        out.write(front)
        whole, rest = divmod(count * len(line), len(piece))
        for _ in range(whole):
            out.write(piece)
        out.write(piece[:rest] + tail)
        out.write("#" * (size - len(front) - count * len(line) - len(tail) - 1) + "\n")


def reports(size):
    """What each report is called, its size, its head, a line of it, and its end."""
    draw = random.Random(1)
    lines = {"one-digit prices": priced(draw.randrange(0, 4) for _ in range(SLOTS)), "prices at scale 100": priced(draw.randrange(-100, 301) for _ in range(SLOTS)),
             "splits alone": "split 0 0 0 - 0\n", "settled nodes alone": "settled 0\n"}
    for name, line in lines.items():
        yield name, size, bound_head, line, "end\n"
    yield "rows alone", size, plan_head, "row 0 0 1 -\n", "proof 0\nend\n"
    yield "one byte too many", REPORT_MOST + 1, bound_head, "settled 0\n", "end\n"


def measure_reports(asked, folder):
    document, path = instances.path_of("usual_week", folder), folder / "report"
    for name, *what in reports(asked.bytes):
        written(path, *what)
        show(name, path, recounted(asked, document, path))


KINDS = {"documents": measure_documents, "small": measure_small, "reports": measure_reports}


def main():
    parser = measured.words_of(__doc__)
    parser.add_argument("--bytes", type=int, default=REPORT_MOST)
    parser.add_argument("--runs", type=int, default=5)
    parser.add_argument("--only", nargs="+", choices=KINDS, default=list(KINDS), metavar="KIND")
    asked = parser.parse_args()
    with tempfile.TemporaryDirectory() as folder:
        for kind in asked.only:
            KINDS[kind](asked, pathlib.Path(folder))


if __name__ == "__main__":
    main()
