#!/usr/bin/env python3
"""Builds the programs in Rattle that measure parts of a search, those of `bench/programs/`.

    bench/building.py FOLDER [NAME..]      lays crates and programs out in the folder as a repository of the toolchain, and proves and builds the named programs
                                           there, all where none is named, to FOLDER/crates/NAME/out/NAME
    bench/building.py --lay FOLDER         only lays them out, so that `rt` can be used in FOLDER/crates/NAME

A program is no crate of this repository, and no gate proves it: the toolchain wants each text in Rattle of a repository to be one that its gate proves. So its
texts stand here with `.txt` behind their names, which the building takes off, and `uses.txt` has their lines in place of `crates.txt`. Libraries that stand
built in `crates/` are taken as they are."""
import argparse
import contextlib
import os
import pathlib
import shutil
import sys
import tempfile

TOP = pathlib.Path(__file__).resolve().parent.parent
PROGRAMS = TOP / "bench" / "programs"
sys.path.insert(0, str(TOP / "tools"))
from rooms import Step, below, crates, link_or_copy


def used_by_programs():
    """The libraries that each program uses, by the lines of uses.txt."""
    pairs = [line.partition("#")[0].partition(":") for line in (PROGRAMS / "uses.txt").read_text().splitlines()]
    return {name.strip(): uses.split() for name, colon, uses in pairs if colon}


def lay_program(name, home):
    """Copies the texts of a program to a crate of that name."""
    for path in sorted((PROGRAMS / name).rglob("*.txt")):
        target = home / path.relative_to(PROGRAMS / name).with_suffix("")
        target.parent.mkdir(parents=True, exist_ok=True)
        shutil.copy(path, target)


def lay(folder, names):
    """Lays out these programs and all crates that they stand on."""
    used, uses = crates(), used_by_programs()
    stood = set().union(*(below(used, it) for name in names for it in uses[name]))
    for name in stood:
        shutil.copytree(TOP / "crates" / name, folder / "crates" / name, copy_function=link_or_copy, dirs_exist_ok=True)
    for name in names:
        lay_program(name, folder / "crates" / name)
    lines = [line for line in (TOP / "crates.txt").read_text().splitlines(True) if line.partition(":")[0] in stood]
    (folder / "crates.txt").write_text("".join([*lines, *("%s: %s\n" % (name, " ".join(uses[name])) for name in names)]))
    shutil.copy(TOP / "HANDLES", folder)


def build(folder, name):
    """Proves and builds a program that is laid out in the folder, and gives its path. With no words it ends at once."""
    home = folder / "crates" / name
    step = Step(["rt", "run"], home)
    step.wait()
    binary = home / "out" / name
    if "logic=proved" not in step.text() or not os.access(binary, os.X_OK):
        sys.exit(step.text()[-4000:] + "%s isn't proved or built" % name)
    return binary


@contextlib.contextmanager
def built(asked, name):
    """The path of a program: of the one that the words name, or of one that is built in a folder that is removed afterwards."""
    if asked.program:
        yield asked.program.resolve()
        return
    with tempfile.TemporaryDirectory() as at:
        folder = pathlib.Path(at)
        lay(folder, [name])
        yield build(folder, name)


def words_of(about):
    """A parser of the words of a script that measures by such a program."""
    parser = argparse.ArgumentParser(description=about, formatter_class=argparse.RawDescriptionHelpFormatter)
    parser.add_argument("--program", type=pathlib.Path, metavar="PATH", help="the program where it is built already, by bench/building.py")
    return parser


def main():
    parser = argparse.ArgumentParser(description=__doc__, formatter_class=argparse.RawDescriptionHelpFormatter)
    parser.add_argument("--lay", action="store_true")
    parser.add_argument("folder", type=pathlib.Path)
    parser.add_argument("names", nargs="*", default=list(used_by_programs()))
    asked = parser.parse_args()
    lay(asked.folder, asked.names)
    for name in [] if asked.lay else asked.names:
        print(build(asked.folder, name), flush=True)


if __name__ == "__main__":
    main()
