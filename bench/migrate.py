#!/usr/bin/env python3
"""Measures `shift_migrate` of old journals of nearly 60 MB: one of a search of the usual week, spelled as the first version did, with eight bytes a price, and
one of small records, each with 24 prices.

    bench/migrate.py [--steps N] [--records N] [--runs K] [--folder FOLDER] [--programs FOLDER]

They have 20,000 steps and 277,777 records where no numbers are given, and each is carried over K times, 3 where none is given. The new journal must have the
bytes of the search's own, or of the made one. The journals stand in the folder, that for temporary files where none is given."""
import os
import pathlib
import tempfile

import instances
import journals
import measured

SPENT = 10  # the status of a search whose steps are spent


def searched(asked, folder):
    """The bytes of the journal of a search."""
    path = folder / "search.journal"
    words = [measured.program(asked.programs, "shift_solve"), "solve", path, "--workers", "1", "--steps", asked.steps]
    measured.run(words, instances.path_of("usual_week", folder), os.devnull, (SPENT,))
    return path.read_bytes()


def carried_over(asked, what, folder, given, wanted):
    """Carries an old journal over, so often, and compares the new one with what is wanted."""
    old, new = folder / "old", folder / "new"
    old.write_bytes(given)
    for _ in range(asked.runs):
        run = measured.run([measured.program(asked.programs, "shift_migrate"), old, measured.fresh(new)])
        print("%s, %d bytes: %s; %s" % (what, len(given), run.out.strip(), run), flush=True)
        assert new.read_bytes() == wanted, "the new journal differs"


def main():
    parser = measured.words_of(__doc__)
    for name, count in (("steps", 20_000), ("records", 277_777), ("runs", 3)):
        parser.add_argument("--" + name, type=int, default=count)
    parser.add_argument("--folder")
    asked = parser.parse_args()
    with tempfile.TemporaryDirectory(dir=asked.folder) as name:
        folder = pathlib.Path(name)
        journal = searched(asked, folder)
        carried_over(asked, "usual week", folder, journals.as_old(journal), journal)
        carried_over(asked, "small records", folder, journals.made(True, asked.records), journals.made(False, asked.records))


if __name__ == "__main__":
    main()
