#!/usr/bin/env python3
"""Makes each allocation of some runs fail, once alone and once with all behind it.

    bench/faults/fail_memory.py [--only NAME..] [--programs FOLDER]

The runs are `solve` of the instance of `cases/texts/morning.json` with one step and with two employees at a time and three steps, `check` of the first one's
report, and `shift_plan plan` (of the journal of a finished search) and `shift_plan show` of `examples/one_shift.json`; of these only the named ones, by the names
that are printed, where there are such words. A run must end with 8, or end and write as it does without, or, of `plan`, say that its search ended early for want
of memory. What it leaves must be gone on with: a journal opens and gives the same report, a folder is made whole. The allocations are counted by a library that
this script compiles from `fail_memory.c` by `cc`. It prints each run that is otherwise, a line for each command, and last `N passed, M failed`."""
import collections
import json
import os
import pathlib
import subprocess
import sys
import tempfile

TOP = pathlib.Path(__file__).resolve().parents[2]
sys.path.insert(0, str(TOP / "bench"))
import measured

SECONDS = 60           # that a run may take
NO_MEMORY = 8
EARLY = b"ends early"  # what `plan` says of a search that memory ended


def compiled(folder):
    """The library that fails allocations."""
    library = os.path.join(folder, "fail_memory.so")
    subprocess.run(["cc", "-O2", "-shared", "-fPIC", "-o", library, pathlib.Path(__file__).with_name("fail_memory.c")], check=True)
    return library


class Command:
    """A command with the files that it begins with, and how what it leaves is gone on with."""

    def __init__(self, name, words, files=(), source=b"", kept=(), again=None):
        self.name, self.words, self.files, self.source, self.kept = name, words, dict(files), source, kept
        self.again = again or words

    def run(self, folder, words=None, extra=()):
        """The status of a run in the folder, and what it wrote."""
        done = subprocess.run(words or self.words, cwd=folder, input=self.source, stdout=subprocess.PIPE, stderr=subprocess.PIPE,
                              timeout=SECONDS, env={**os.environ, **dict(extra)})
        return done.returncode, done.stdout, done.stderr

    def fill(self, folder):
        for name, content in self.files.items():
            path = pathlib.Path(folder) / name
            path.parent.mkdir(parents=True, exist_ok=True)
            path.write_bytes(content)

    def left(self, folder):
        """The kept files of the folder, by name."""
        paths = (path for name in self.kept for path in [pathlib.Path(folder) / name])
        return {str(path.relative_to(folder)): path.read_bytes() for top in paths for path in ([top] if top.is_file() else sorted(top.rglob("*"))) if path.is_file()}


class Trial:
    """The runs of a command of which one allocation fails, or it and all behind it."""

    def __init__(self, command, library, scratch):
        self.command, self.library, self.scratch = command, library, scratch
        self.ends, self.faults = collections.Counter(), []
        with tempfile.TemporaryDirectory(dir=scratch) as folder:
            command.fill(folder)
            count = os.path.join(folder, "COUNT")
            self.usual = command.run(folder, extra={"LD_PRELOAD": library, "FAIL_COUNT": count})
            self.count = int.from_bytes(pathlib.Path(count).read_bytes(), sys.byteorder)
            self.usual_left = command.left(folder)
            self.usual_again = command.run(folder, command.again)
            self.usual_again_left = command.left(folder)

    def fail(self, number, is_all):
        with tempfile.TemporaryDirectory(dir=self.scratch) as folder:
            self.command.fill(folder)
            extra = {"LD_PRELOAD": self.library, "FAIL_NTH": str(number), **({"FAIL_ALL": "1"} if is_all else {})}
            found = self.command.run(folder, extra=extra)
            end = self.end(found, self.command.left(folder))
            self.ends[("with all behind it, " if is_all else "alone, ") + end] += 1
            again = self.command.run(folder, self.command.again)
            left = self.command.left(folder)
            said = "%s, allocation %d%s" % (self.command.name, number, " and all behind it" if is_all else "")
            if end.startswith("other"):
                self.faults.append("%s: status %r, it writes %r and says %r" % (said, *found))
            elif again[:2] != self.usual_again[:2] or left != self.usual_again_left:
                self.faults.append("%s: what it left is gone on with to status %r, %r, %r" % (said, *again))

    def end(self, found, left):
        if found[0] == NO_MEMORY:
            return "ended with 8"
        if found == self.usual and left == self.usual_left:
            return "as without"
        if found[0] == self.usual[0] and EARLY in found[1] + found[2] and left == self.usual_left:
            return "search ended early"
        return "otherwise: other"

    def all(self):
        for is_all in (False, True):
            for number in range(1, self.count + 1):
                self.fail(number, is_all)
        print("%s: %d allocations; %s" % (self.command.name, self.count, ", ".join("%s: %d" % it for it in sorted(self.ends.items()))), flush=True)
        for fault in self.faults:
            print(fault, flush=True)


def commands(solve, check, plan, scratch):
    """The commands that are tried."""
    morning = (TOP / "cases" / "texts" / "morning.json").read_bytes()
    document = json.loads(morning)
    document["max_heads"] = 2
    two = json.dumps(document).encode()
    report = (TOP / "cases" / "texts" / "morning.report").read_bytes()
    one_step = [solve, "solve", "J", "--workers", "1", "--steps", "1"]
    three_steps = [solve, "solve", "J", "--workers", "1", "--steps", "3"]
    yield Command("solve of one step", one_step, source=morning, kept=["J"])
    yield Command("solve of three steps", three_steps, source=two, kept=["J"])
    yield Command("check of a report", [check, "check", "I", "R"], {"I": morning, "R": report})
    shift = (TOP / "examples" / "one_shift.json").read_bytes()
    again = [plan, "plan", "one_shift.json", "--seconds", "0", "--workers", "1"]
    with tempfile.TemporaryDirectory(dir=scratch) as folder:
        begun = Command("", [plan, "plan", "one_shift.json", "--seconds", "2", "--workers", "1"], {"one_shift.json": shift})
        begun.fill(folder)
        begun.run(folder)
        journal, text = ((pathlib.Path(folder) / name).read_bytes() for name in ("one_shift.journal", "one_shift.plan/report"))
    kept = ["one_shift.journal", "one_shift.plan"]
    yield Command("plan of a finished search", again, {"one_shift.json": shift, "one_shift.journal": journal}, kept=kept)
    yield Command("show of its report", [plan, "show", "one_shift.json", "R"], {"one_shift.json": shift, "R": text}, kept=kept)


def main():
    parser = measured.words_of(__doc__)
    parser.add_argument("--only", nargs="+", metavar="NAME")
    asked = parser.parse_args()
    programs = [str(measured.program(asked.programs, name)) for name in ("shift_solve", "shift_check", "shift_plan")]
    runs = faults = 0
    with tempfile.TemporaryDirectory() as scratch:
        library = compiled(scratch)
        for command in commands(*programs, scratch):
            if asked.only and command.name not in asked.only:
                continue
            trial = Trial(command, library, scratch)
            trial.all()
            runs, faults = runs + 2 * trial.count, faults + len(trial.faults)
    print("%d passed, %d failed" % (runs - faults, faults))
    return int(faults > 0)


if __name__ == "__main__":
    sys.exit(main())
