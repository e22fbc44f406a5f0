#!/usr/bin/env python3
"""Gives programs bent files: documents, journals and reports of random bytes, or of searches of small instances and then cut, doubled in part,
spliced with one another, or with some bytes changed.

    bench/faults/bent.py [--files N] [--seed S] [--programs FOLDER]

N is 100,000 and S is 1 where they aren't given. A run that doesn't end by a named status, or a journal that opens to a plan that `shift_check` doesn't count at
its cost, is printed with its number; a greater number of files with the same seed tries the same files first. The last line is `N passed, M failed`."""
import multiprocessing
import os
import pathlib
import random
import select
import signal
import sys
import tempfile

TOP = pathlib.Path(__file__).resolve().parents[2]
sys.path[:0] = [str(TOP / "bench"), str(TOP / "cases")]
import bent_bytes
import measured

TEXTS = ("morning.json", "noon.json", "early_and_late.json", "quarters.json")
STEPS = 6              # of the searches whose journals and reports are bent
AT_ONCE = 50           # files that a process takes at a time


class Spawned(bent_bytes.Programs):
    """The programs, started without a fork of this process, with files in place of pipes: three to four times as many runs in a second."""

    def __init__(self, solve=None, check=None):
        super().__init__(solve, check)
        self.folder = None

    def files(self):
        """The files of the standard streams, those of this process alone."""
        if self.folder is None:
            self.folder = tempfile.TemporaryDirectory()
        return [os.path.join(self.folder.name, name) for name in ("in", "out", "err")]

    def run(self, words, source=b""):
        given, told, said = self.files()
        pathlib.Path(given).write_bytes(source)
        made = os.O_WRONLY | os.O_CREAT | os.O_TRUNC
        streams = [(os.POSIX_SPAWN_OPEN, 0, given, os.O_RDONLY, 0), (os.POSIX_SPAWN_OPEN, 1, told, made, 0o600), (os.POSIX_SPAWN_OPEN, 2, said, made, 0o600)]
        number = os.posix_spawn(words[0], words, os.environ, file_actions=streams)
        status = ended(number)
        if status is None:
            return None, b"", b"it doesn't end"
        return status, pathlib.Path(told).read_bytes(), pathlib.Path(said).read_bytes()


def ended(number):
    """The status of a process once it has ended; it is killed where it takes too long."""
    handle = os.pidfd_open(number)
    try:
        poll = select.poll()
        poll.register(handle, select.POLLIN)
        is_late = not poll.poll(1000 * bent_bytes.SECONDS)
        if is_late:
            os.kill(number, signal.SIGKILL)
        status = os.waitstatus_to_exitcode(os.waitpid(number, 0)[1])
        return None if is_late else status
    finally:
        os.close(handle)


def cut(draw, content, other):
    return content[:draw.randrange(len(content) + 1)]


def doubled(draw, content, other):
    """The content with a stretch of it once more behind itself."""
    first, last = sorted(draw.randrange(len(content) + 1) for _ in range(2))
    return content[:last] + content[first:]


def spliced(draw, content, other):
    """The front of one content and the end of another."""
    return content[:draw.randrange(len(content) + 1)] + other[draw.randrange(len(other) + 1):]


def changed(draw, content, other):
    """The content with one to eight bytes changed, some of them by one."""
    bent = bytearray(content)
    for _ in range(draw.randint(1, 8)):
        at = draw.randrange(len(bent))
        bent[at] = draw.choice((draw.randrange(256), (bent[at] + 1) % 256, (bent[at] - 1) % 256))
    return bytes(bent)


def anything(draw, content, other):
    return bytes(draw.randrange(256) for _ in range(draw.randrange(400)))


WAYS = (cut, doubled, spliced, changed, changed, changed, anything)


def bent_file(number, seed, whole):
    """What is bent, how, with which document, and the bytes; the same for the same number and seed."""
    draw = random.Random("%d %d" % (seed, number))
    document, journal, report = draw.choice(whole)
    kind = draw.randrange(3)
    way = draw.choice(WAYS)
    content = (document, journal, report)[kind]
    other = draw.choice(whole)[kind]
    return ("document", "journal", "report")[kind], way, document, way(draw, content, other)


def faults_of(programs, number, seed, whole):
    kind, way, document, bent = bent_file(number, seed, whole)
    if kind == "document":
        found = bent_bytes.search_faults(programs, bent, b"", 1)
    elif kind == "journal":
        found = bent_bytes.search_faults(programs, document, bent)
    else:
        found = bent_bytes.check_faults(programs, document, bent)
    return ["file %d, a %s %s: %s" % (number, kind, way.__name__, fault) for fault in found]


def prepared(seed, *programs):
    """Keeps for this process what all files are made of: the programs, the seed, and each document with its journal and its report."""
    global PROGRAMS, SEED, WHOLE
    SEED, PROGRAMS, WHOLE = seed, Spawned(*programs), []
    for name in TEXTS:
        document = (TOP / "cases" / "texts" / name).read_bytes()
        WHOLE.append((document, *bent_bytes.made(PROGRAMS, document, STEPS)))


def tried(number):
    return faults_of(PROGRAMS, number, SEED, WHOLE)


def main():
    parser = measured.words_of(__doc__)
    parser.add_argument("--files", type=int, default=100_000)
    parser.add_argument("--seed", type=int, default=1)
    asked = parser.parse_args()
    programs, failed = [str(measured.program(asked.programs, it)) for it in ("shift_solve", "shift_check")], 0
    with multiprocessing.Pool(os.cpu_count(), prepared, (asked.seed, *programs)) as pool:
        for found in pool.imap(tried, range(asked.files), AT_ONCE):
            print("".join(fault + "\n" for fault in found), end="", flush=True)
            failed += found != []
    print("%d passed, %d failed" % (asked.files - failed, failed))
    return int(failed > 0)


if __name__ == "__main__":
    sys.exit(main())
