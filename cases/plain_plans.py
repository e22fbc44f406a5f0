#!/usr/bin/env python3
"""Reads what `shift_plan` writes and says, by docs/DEFINITIONS.md alone: of some examples and of random small instances the report is accepted,
`duties.csv`, `rota.csv` and `cover.csv` hold its rows, its duties, the bands and the cover, and the cost that they add up to is the one that is printed; `show` writes
the same files once more. Then runs that meet something in their way: another run's lock, a killed run, journals of all kinds, folders. Prints
what is wrong, and last `N passed, M failed`, counted in instances and runs. Build the programs first."""
import collections
import csv
import datetime
import fcntl
import hashlib
import json
import os
import pathlib
import pty
import random
import re
import shutil
import signal
import subprocess
import sys
import tempfile
import termios
import time

from plain_reading import Reading, Trial, read_report

TOP = pathlib.Path(__file__).resolve().parent.parent
EXAMPLES = ("ward_week", "call_day", "airport_day")
FILES = ("report", "rota.csv", "duties.csv", "cover.csv", "plan.html")
LEFT = {*FILES, ".written"}
INSTANCES = 10
DUTY_COLUMNS, SLOT_COLUMNS = "day start end type employees breaks", "day time need need_max working on_break over under"
ROTA_COLUMNS = "day day_name start end next_day type paid worked"


def program(name):
    return TOP / "crates" / name / "out" / name


def clock(minutes):
    return "%02d:%02d" % (minutes % 1440 // 60, minutes % 60)


class Folder:
    """A folder with an instance in it, and runs there."""

    def __init__(self, folder, text):
        self.path, self.text, self.document = pathlib.Path(folder), text, json.loads(text)
        self.reading, self.minutes = Reading(self.document), self.document["slot_minutes"]
        (self.path / "week.json").write_text(text)

    def run(self, *words, name="shift_plan"):
        done = subprocess.run([program(name), *words], cwd=self.path, stdin=subprocess.DEVNULL, stdout=subprocess.PIPE, stderr=subprocess.PIPE,
                              universal_newlines=True)
        return done.returncode, done.stdout, done.stderr

    def plan(self, *words):
        return self.run("plan", "week.json", *words)

    def begun(self, *words, starter=None, **how):
        """A search that begins, by the program itself or by the command that starts it."""
        how = {"stdin": subprocess.DEVNULL, "stdout": subprocess.PIPE, "stderr": subprocess.PIPE, **how}
        return subprocess.Popen([*(starter or [program("shift_plan")]), "plan", "week.json", *words], cwd=self.path, **how)

    def wait_for(self, name):
        """Waits until there is a file of that name, half a minute at most."""
        for _ in range(15000):
            if (self.path / name).exists():
                return
            time.sleep(0.002)

    def wait_for_steps(self):
        """Waits until the journal is longer than its head and some steps of the ward's week, half a minute at most."""
        path = self.path / "week.journal"
        for _ in range(3000):
            if path.exists() and path.stat().st_size > 20000:
                return
            time.sleep(0.01)

    def table(self, name, columns):
        with open(self.path / "week.plan" / name, newline="") as source:
            lines = list(csv.reader(source))
        return lines[1:] if lines[0] == columns.split() else []

    def lines(self, name):
        with open(self.path / "week.plan" / name, newline="") as source:
            return list(csv.reader(source))

    def period(self, first, length):
        return "%s-%s" % (clock(first * self.minutes), clock((first + length) * self.minutes))

    def duties(self, rows):
        """The lines of `duties.csv` for these rows, by the slot of the period in which they start."""
        names = [kind["name"] for kind in self.document["types"] for _ in range((kind["start_max"] - kind["start_min"] + 1) * (kind["len_max"] - kind["len_min"] + 1))]
        found = []
        for row in rows:
            _, length, start = self.reading.shifts[row.shift]
            first = (row.day * self.reading.day_slots + start) % len(self.reading.need)
            breaks = " ".join(self.period(start + begin, size) for begin, size in row.breaks)
            line = [first // self.reading.day_slots + 1, *self.period(start, length).split("-"), names[row.shift], row.count, breaks]
            found.append((first, list(map(str, line))))
        return [line for _, line in sorted(found, key=lambda one: one[0])]

    def rota(self, rows, names_of_days):
        """The lines of `rota.csv` for these rows, with the names of its columns, and with the names that days have by their numbers."""
        names = [kind["name"] for kind in self.document["types"] for _ in range((kind["start_max"] - kind["start_min"] + 1) * (kind["len_max"] - kind["len_min"] + 1))]
        most, found = max([len(row.breaks) for row in rows], default=0), []
        for row in rows:
            _, length, start = self.reading.shifts[row.shift]
            first = (row.day * self.reading.day_slots + start) % len(self.reading.need)
            worked = length - sum(size for _, size in row.breaks)
            paid, worked = ("%d:%02d" % divmod(slots * self.minutes, 60) for slots in (length, worked))
            late = "yes" if start % self.reading.day_slots + length >= self.reading.day_slots else "no"
            times = [time for begin, size in row.breaks for time in self.period(start + begin, size).split("-")]
            day = first // self.reading.day_slots + 1
            line = [day, names_of_days.get(day, ""), *self.period(start, length).split("-"), late, names[row.shift], paid, worked, *times]
            found += [(first, list(map(str, line)) + [""] * (2 * most - len(times)))] * row.count
        columns = ["break_%d_%s" % (number + 1, end) for number in range(most) for end in ("start", "end")]
        return [ROTA_COLUMNS.split() + columns, *(line for _, line in sorted(found, key=lambda one: one[0]))]

    def cover(self, rows):
        """The lines of `cover.csv` for these rows."""
        working, present = collections.Counter(), collections.Counter()
        for row in rows:
            working.update(self.reading.slots_worked(row.shift, row.day, row.breaks) * row.count)
            length, start = self.reading.shifts[row.shift][1:]
            present.update([(row.day * self.reading.day_slots + start + offset) % len(self.reading.need) for offset in range(length)] * row.count)
        for slot, (need, most) in enumerate(self.reading.bands):
            day, at = divmod(slot, self.reading.day_slots)
            works = working[slot]
            yield list(map(str, [day + 1, clock(at * self.minutes), need, most, works, present[slot] - works, max(0, works - most), max(0, need - works)]))

    def added_up(self):
        """What the tables cost: over and under of the slots, and the kinds of duties, each at its weight."""
        slots, duties = self.table("cover.csv", SLOT_COLUMNS), self.table("duties.csv", DUTY_COLUMNS)
        over, under = (sum(int(slot[place]) for slot in slots) for place in (6, 7))
        shifts = {(duty[3], duty[1], duty[2]) for duty in duties}
        return self.reading.excess * over + self.reading.shortage * under + self.reading.shift * len(shifts)

    def written(self):
        return {name: (self.path / "week.plan" / name).read_bytes() for name in FILES}

    def faults(self, seconds):
        """What is wrong with a plan of this instance."""
        status, said, _ = self.plan("--seconds", seconds, "--workers", "2")
        if status != 0:
            return ["shift_plan ends with %d" % status]
        files = self.written()
        report = read_report(files["report"].decode())
        page = files["plan.html"].decode()
        accepted = self.run("check", "week.json", "week.plan/report", name="shift_check")[0]
        shown, said_again, _ = self.run("show", "week.json", "week.plan/report")
        found = [
            ("the report isn't accepted", accepted == 0),
            ("the rows aren't legal at their cost", self.reading.are_legal(report.rows) and self.reading.cost(report.rows) == report.cost),
            ("duties.csv holds something else than the rows", self.table("duties.csv", DUTY_COLUMNS) == self.duties(report.rows)),
            ("rota.csv holds something else than the duties", self.lines("rota.csv") == self.rota(report.rows, {})),
            ("cover.csv holds something else than need and cover", self.table("cover.csv", SLOT_COLUMNS) == list(self.cover(report.rows))),
            ("the printed cost is another one", re.search(r"^cost +(\d+)$", said, re.M).group(1) == str(self.added_up()) == str(report.cost)),
            ("the page takes something from elsewhere", not re.search(r"<script|https?://(?!www\.w3\.org/)|url\((?!#)|<link", page)),
            ("the page has another cost", "<td>%d</td>" % report.cost in page),
            ("another name is left in the folder", {path.name for path in (self.path / "week.plan").iterdir()} == LEFT),
            ("the report is shown otherwise", (shown, said_again, self.written()) == (0, said, files)),
        ]
        return [fault for fault, holds in found if not holds]


def example_faults(name):
    with tempfile.TemporaryDirectory() as folder:
        return Folder(folder, (TOP / "examples" / (name + ".json")).read_text()).faults("2")


def random_faults(number, seed):
    with tempfile.TemporaryDirectory() as folder, tempfile.TemporaryDirectory() as other:
        draw = random.Random("plans %s %d" % (seed, number))
        text = Trial(draw, pathlib.Path(other), None, None).text
        return [fault + "\n" + text for fault in Folder(folder, text).faults("1")]


def ends(run, status, *texts):
    """What is wrong with a run that must end with a status and say each of these texts on standard error."""
    found, _, error = run
    faults = ["it ends with %d, and not %d: %s" % (found, status, error)] if found != status else []
    return faults + ["it doesn't say %r but %r" % (text, error) for text in texts if text not in error]


def lock_in_use(folder):
    with open(folder.path / "week.journal", "w") as journal:
        fcntl.flock(journal, fcntl.LOCK_EX)
        return ends(folder.plan("--seconds", "1"), 7, "another run has the journal `week.journal`")


def killed_run(folder):
    run = subprocess.Popen([program("shift_plan"), "plan", "week.json", "--seconds", "60"], cwd=folder.path, stdout=subprocess.DEVNULL, stderr=subprocess.DEVNULL)
    folder.wait_for_steps()
    run.send_signal(signal.SIGKILL)
    run.wait()
    begun = not (folder.path / "week.plan" / "report").exists()
    again = folder.plan("--seconds", "0")
    return ends(again, 0, "goes on from ") + ([] if begun else ["a killed run has written a plan"])


def search_gone_on_with(folder):
    first, second = folder.plan("--seconds", "1"), folder.plan("--seconds", "1")
    return ends(first, 0) + ends(second, 0, "goes on from ")


def reported_cost(folder):
    return read_report((folder.path / "week.plan" / "report").read_text()).cost


def begun_anew(folder):
    """A search begun anew beside a journal, of which it takes the best plan."""
    folder.plan("--seconds", "3")
    old, cost = (folder.path / "week.journal").read_bytes(), reported_cost(folder)
    shutil.rmtree(folder.path / "week.plan")
    again = folder.plan("--seconds", "1", "--anew")
    faults = ends(again, 0, "the old journal is week.journal.1", "begins with the best plan of the old journal, of cost %d;" % cost)
    page = (folder.path / "week.plan" / "plan.html").read_text()
    found = [
        ("the old journal is another one", (folder.path / "week.journal.1").read_bytes() == old),
        ("a plan that is dearer than the old one's is written", reported_cost(folder) <= cost),
        ("the page doesn't say what the search began with", "this search began with the best plan of an old journal, of cost %d;" % cost in page),
    ]
    return faults + [fault for fault, holds in found if not holds]


def begun_anew_for_another_need(folder):
    """A search begun anew beside a journal of another instance, of which it takes nothing."""
    folder.plan("--seconds", "1")
    document = json.loads(folder.text)
    (folder.path / "week.json").write_text(json.dumps({**document, "max_heads": document["max_heads"] + 1}))
    again = folder.plan("--seconds", "1", "--anew")
    return ends(again, 0, "takes nothing from the old journal: it belongs to another instance")


def journal_that_is_a_folder(folder):
    (folder.path / "week.journal").mkdir()
    return ends(folder.plan("--seconds", "1"), 7, "`week.journal`", "is a folder")


def journal_of_another_instance(folder):
    folder.plan("--seconds", "1")
    before = (folder.path / "week.journal").read_bytes()
    (folder.path / "week.json").write_text(folder.text.replace('"max_heads": ', '"max_heads": 1', 1).replace('"max_heads":1', '"max_heads":2', 1))
    heads = json.loads(folder.text)["max_heads"], json.loads((folder.path / "week.json").read_text())["max_heads"]
    run = folder.plan("--seconds", "1")
    same = (folder.path / "week.journal").read_bytes() == before
    told = "the two differ first at max_heads: it is %d in the document, and %d in the journal's instance" % heads[::-1]
    return ends(run, 9, "another instance", told) + ([] if same else ["the journal was changed"])


def damaged_journal(folder):
    folder.plan("--seconds", "1")
    path = folder.path / "week.journal"
    content = bytearray(path.read_bytes())
    content[20] ^= 1
    path.write_bytes(content)
    run = folder.plan("--seconds", "1")
    return ends(run, 9, "anew") + ([] if path.read_bytes() == bytes(content) else ["the journal was changed"])


def torn_journal(folder):
    folder.plan("--seconds", "1")
    path = folder.path / "week.journal"
    whole, faults = path.read_bytes(), []
    head = 12 + int.from_bytes(whole[8:12], "little")
    for size in (4, 10, 12, head - 1, head):
        path.write_bytes(whole[:size])
        faults += ends(folder.plan("--seconds", "1"), 9, "no step of a search was in it, so --anew loses nothing")
        faults += [] if path.stat().st_size == size else ["the journal was changed"]
    path.write_bytes(whole[:head + 1] + whole[head + 1:head + 4])
    other = folder.plan("--seconds", "1")
    return faults + ends(other, 9) + (["a journal with the beginning of a record is called torn"] if "no step of a search" in other[2] else [])


def journal_of_the_first_version(folder):
    path, content = folder.path / "week.journal", b"SHIFTJ1\n" + bytes(5)
    path.write_bytes(content)
    run = folder.plan("--seconds", "1")
    told = "the journal is one of the first version", "type ./run shift_migrate OLD NEW, where OLD is this file and NEW a new one"
    return ends(run, 9, *told) + ([] if path.read_bytes() == content else ["the journal was changed"])


def no_search_to_show(folder):
    folder.plan("--seconds", "1")
    before = folder.written()
    runs = folder.plan("--seconds", "0", "--journal", "other"), folder.plan("--seconds", "0", "--anew")
    faults = [fault for run in runs for fault in ends(run, 2, "--seconds 0 writes the plan of the search that a journal holds")]
    return faults + ([] if folder.written() == before and not (folder.path / "other").exists() else ["the plan was changed, or a journal made"])


def journal_on_a_full_device(folder):
    return ends(folder.plan("--seconds", "1", "--journal", "/dev/full"), 7, "journal")


def folder_below_a_file(folder):
    return ends(folder.plan("--seconds", "1", "--out", "week.json/plan"), 6, "the plan's folder `week.json/plan`")


def folder_that_is_a_file(folder):
    return ends(folder.plan("--seconds", "1", "--out", "week.json"), 6, "`week.json` is a file: name a folder")


def instance_that_isnt_there(folder):
    return ends(folder.run("plan", "other.json"), 5, "the instance `other.json` isn't there")


def instance_that_is_a_folder(folder):
    return ends(folder.run("plan", "."), 5, "is a folder")


def journal_of_the_instance(folder):
    return ends(folder.plan("--journal", "week.json"), 2, "would be the same file")


def document_with_a_namesake(folder):
    (folder.path / "week.txt").write_text(folder.text)
    faults = ends(folder.run("plan", "week.txt", "--seconds", "1"), 2, "would have one journal and one folder")
    named = folder.run("plan", "week.txt", "--seconds", "1", "--journal", "other", "--out", "shown")
    return faults + ends(named, 0) + ([] if (folder.path / "shown" / "report").exists() else ["no plan was written"])


def bent_report(folder):
    folder.plan("--seconds", "1")
    path = folder.path / "week.plan" / "report"
    text = path.read_text()
    claimed = int(re.search(r"^cost (\d+)$", text, re.M).group(1)) + 1
    path.write_text(re.sub(r"^cost \d+$", "cost %d" % claimed, text, count=1, flags=re.M))
    run = folder.run("show", "week.json", "week.plan/report", "--out", "shown")
    faults = ends(run, 1, "the report isn't accepted: it claims the cost %d" % claimed)
    return faults + (["a refused report was shown"] if (folder.path / "shown").exists() else [])


def edited_table(folder):
    folder.plan("--seconds", "1")
    table = folder.path / "week.plan" / "rota.csv"
    written = table.read_bytes()
    table.write_bytes(written + b"by hand\n")
    run = folder.run("show", "week.json", "week.plan/report")
    kept = (folder.path / "week.plan" / "rota.csv.1").read_bytes() == written + b"by hand\n" and table.read_bytes() == written
    again = folder.run("show", "week.json", "week.plan/report")
    quiet = "was edited" not in again[2] and not (folder.path / "week.plan" / "rota.csv.2").exists()
    return ends(run, 0, "rota.csv was edited in the folder week.plan; it is kept as week.plan/rota.csv.1") + ([] if kept and quiet else ["the table isn't kept"])


def folder_of_two_plans(folder):
    """The tables and the page of another plan are left to be put in place, one of them is in its place, and one that stood was edited."""
    folder.plan("--seconds", "1")
    folder.run("show", "week.json", "week.plan/report", "--out", "other", "--first-day", "monday")
    plan, other = folder.path / "week.plan", folder.path / "other"
    new = {path.relative_to(other): path.read_bytes() for path in other.rglob("*") if path.is_file()}
    for name, content in new.items():
        (plan / name.with_name(name.name + ".new")).write_bytes(content)
    (plan / "plan.html.new").rename(plan / "plan.html")
    (plan / "duties.csv").write_bytes(new[pathlib.Path("duties.csv")] + b"by hand\n")
    (plan / "UNFINISHED").write_text("")
    told = folder.run("compare", "week.json", "week.plan/report", "week.json", "other/report")
    finished = folder.run("show", "week.json", "week.plan/report", "--first-day", "monday")
    found = {path.relative_to(plan): path.read_bytes() for path in plan.rglob("*") if path.is_file()}
    edited = found.pop(pathlib.Path("duties.csv.1"), b"")
    return ends(told, 0, "note that the folder week.plan isn't whole") + ends(finished, 0, "duties.csv was edited in the folder week.plan", "that plan is whole there now") + (
        [] if found == new and edited.endswith(b"by hand\n") else ["the folder has " + ", ".join(sorted(map(str, found)))])


def folder_in_use(folder):
    folder.plan("--seconds", "1")
    handle = os.open(folder.path / "week.plan", os.O_RDONLY)
    fcntl.flock(handle, fcntl.LOCK_EX)
    run = folder.run("show", "week.json", "week.plan/report")
    os.close(handle)
    return ends(run, 6, "the plan's folder `week.plan` is in use: another run has it") + ends(folder.run("show", "week.json", "week.plan/report"), 0)


def table_that_is_a_folder(folder):
    folder.plan("--seconds", "1")
    before = folder.written()
    (folder.path / "week.plan" / "cover.csv").unlink()
    (folder.path / "week.plan" / "cover.csv").mkdir()
    run = folder.run("show", "week.json", "week.plan/report", "--first-day", "monday")
    same = all((folder.path / "week.plan" / name).read_bytes() == content for name, content in before.items() if name != "cover.csv")
    left = {path.name for path in (folder.path / "week.plan").iterdir()} == LEFT
    return ends(run, 6, "`week.plan/cover.csv` is a folder") + ([] if same and left else ["some file was written, or left"])


def cheaper_plan_in_the_folder(folder):
    folder.plan("--seconds", "1")
    before = folder.written()
    cost = int(re.search(rb"^cost (\d+)$", before["report"], re.M).group(1))
    empty = folder.reading.cost([])
    (folder.path / "empty").write_text("shift-report 1\nstatus stopped\ncost %d\nbound 0\nrows 0\nproof 0\nend\n" % empty)
    status, said, error = folder.run("show", "week.json", "empty")
    told = "The folder week.plan has a cheaper plan of this document, which costs %d: it stays" % cost in said
    faults = ends((status, said, error), 0) + ([] if cost < empty and told and folder.written() == before else ["the cheaper plan was written over: " + said])
    elsewhere = folder.run("show", "week.json", "empty", "--out", "other")
    return faults + ends(elsewhere, 0) + ([] if (folder.path / "other" / "report").exists() else ["the plan isn't in the other folder"])


def searched_with_seed(folder, seed):
    """The records of the journal of a short search by one worker with a seed, but for the last: the end of the time may have broken it off."""
    journal = "seed.journal.%d" % len(list(folder.path.iterdir()))
    folder.plan("--seconds", "2", "--workers", "1", "--seed", seed, "--journal", journal)
    bytes_left = (folder.path / journal).read_bytes()
    place, records = 12 + int.from_bytes(bytes_left[8:12], "little"), []
    while bytes_left[place] == 1:
        end = place + 5 + int.from_bytes(bytes_left[place + 1:place + 5], "little")
        records.append(bytes_left[place:end])
        place = end
    return records[:-1]


def searches_with_seeds(folder):
    first, again, other = (searched_with_seed(folder, seed) for seed in ("7", "7", "8"))
    both = min(len(first), len(again))
    found = [("searches with one seed differ", first[:both] == again[:both]), ("searches with two seeds don't differ", both == 0 or first[:1] != other[:1])]
    refused = "--seed takes a whole number from 0 to 4294967295, and not `%s`"
    words = [ends(folder.plan("--seed", word), 2, refused % word) for word in ("luck", "-1", "4294967296")]
    return sum(words, [fault for fault, holds in found if not holds])


def duties_of(rows):
    """How often each duty stands in rows."""
    found = collections.Counter()
    for row in rows:
        found[row.shift, row.day, tuple(row.breaks)] += row.count
    return found


def week_with_another_need(folder):
    """One more is wanted for an hour of the second day: the plan that is written costs, with 2 for each old duty that it lacks, no more than
    the old one does there."""
    folder.plan("--seconds", "1")
    old = read_report((folder.path / "week.plan" / "report").read_text()).rows
    changed = json.loads(folder.text)
    noon = folder.reading.day_slots * 3 // 2
    for slot in range(noon, noon + 60 // folder.minutes):
        changed["need"][slot] += 1
    (folder.path / "changed.json").write_text(json.dumps(changed))
    run = folder.run("plan", "changed.json", "--seconds", "1", "--like", "week.plan/report", "--of", "week.json", "--change", "2")
    report, reading = read_report((folder.path / "changed.plan" / "report").read_text()), Reading(changed)
    wanted = duties_of(old)
    kept, every = sum((wanted & duties_of(report.rows)).values()), sum(wanted.values())
    found = [
        ("the rows aren't legal at their cost", reading.are_legal(report.rows) and reading.cost(report.rows) == report.cost),
        ("the old week would have been better", report.cost + 2 * (every - kept) <= reading.cost(old)),
    ]
    return ends(run, 0, "keeps %d of these %d duties" % (kept, every)) + [fault for fault, holds in found if not holds]


def page_and_rota(folder):
    """The page in the folder of the plan, and the lines of its rota."""
    return (folder.path / "week.plan" / "plan.html").read_text(), folder.lines("rota.csv")


def days_with_names(folder):
    folder.plan("--seconds", "1", "--from", "2026-12-31")
    rows = read_report((folder.path / "week.plan" / "report").read_text()).rows
    dated, dated_rota = page_and_rota(folder)
    folder.run("show", "week.json", "week.plan/report", "--first-day", "sunday")
    named, named_rota = page_and_rota(folder)
    folder.run("show", "week.json", "week.plan/report")
    plain, plain_rota = page_and_rota(folder)
    right = "<h2>Day 1, Thursday 2026-12-31</h2>" in dated and "<h2>Day 1, Sunday</h2>" in named and "<h2>Day 1</h2>" in plain
    weekdays = dict(enumerate("Sunday Monday Tuesday Wednesday Thursday Friday Saturday".split(), 1))
    dates = {day: (datetime.date(2026, 12, 30) + datetime.timedelta(day)).strftime("%A %Y-%m-%d") for day in weekdays}
    rotas = [folder.rota(rows, names) for names in (dates, weekdays, {})]
    found = [("days have other names", right and "Friday" not in plain), ("the rota has other names of days", [dated_rota, named_rota, plain_rota] == rotas)]
    return [fault for fault, holds in found if not holds]


def heading_without_folders(folder):
    folder.plan("--seconds", "1")
    run = folder.run("show", str(folder.path / "week.json"), "week.plan/report", "--out", "week.plan")
    return ends(run, 0) + ([] if ">week.json</h1>" in page_and_rota(folder)[0] else ["the page has another heading"])


def words_in_the_wrong_order(folder):
    folder.plan("--seconds", "1")
    short = folder.run("show", "week.plan/report", "week.json")
    path = folder.path / "week.plan" / "report"
    path.write_text(path.read_text() + "# a line behind the end\n" * 60000)
    return ends(short, 3, "the instance comes first") + ends(folder.run("show", "week.plan/report", "week.json"), 3, "the instance comes first")


def report_that_is_none(folder):
    return ends(folder.run("show", "week.json", "week.json"), 4, "the report's line 1")


def closed_output(folder):
    run = subprocess.Popen([program("shift_plan"), "plan", "week.json", "--seconds", "1"], cwd=folder.path, stdout=subprocess.PIPE, stderr=subprocess.PIPE)
    run.stdout.close()
    run.stderr.close()
    status = run.wait()
    written = (folder.path / "week.plan" / "plan.html").exists()
    return (["it ends with %d" % status] if status != 0 else []) + ([] if written else ["no plan was written"])


def short_time(folder):
    began = time.monotonic()
    run = folder.plan("--seconds", "3")
    taken = time.monotonic() - began
    return ends(run, 0) + (["3 seconds took %.1f" % taken] if taken > 6 else [])


def search_without_a_cheaper_plan(folder):
    began = time.monotonic()
    run = folder.plan("--seconds", "100", "--until-quiet", "1")
    taken = time.monotonic() - began
    return ends(run, 0, "no cheaper plan for as long as --until-quiet says") + (["it took %.1f seconds" % taken] if taken > 90 else [])


ASKED = "the search ends early, as it was asked to"


def ended(folder, run, status, *texts, given=b""):
    """What is wrong with a search that must end so within ten seconds, with its plan written whole where it ends with 0."""
    try:
        _, said = run.communicate(given, timeout=10)
    except subprocess.TimeoutExpired:
        run.kill()
        return ["it doesn't end"]
    names = {path.name for path in (folder.path / "week.plan").iterdir()}
    return ends((run.returncode, "", said.decode()), status, *texts) + (["no plan is written whole"] if status == 0 and names != LEFT else [])


def line_in_mid_search(folder):
    run = folder.begun("--seconds", "60", "--stop-on", "line", stdin=subprocess.PIPE)
    time.sleep(3)
    return ended(folder, run, 0, ASKED, given=b"\n")


def end_of_input_in_mid_search(folder):
    run = folder.begun("--seconds", "60", "--stop-on", "line", stdin=subprocess.PIPE)
    time.sleep(3)
    return ended(folder, run, 0, ASKED)


def line_before_the_search(folder):
    folder.plan("--seconds", "1")
    return ended(folder, folder.begun("--seconds", "60", "--stop-on", "line"), 0, "goes on from ", ASKED)


def input_meant_for_others(folder):
    reads, writes = os.pipe()
    os.write(writes, b"for others\n")
    faults = ended(folder, folder.begun("--seconds", "1", stdin=reads), 0)
    os.close(writes)
    return faults + ([] if os.read(reads, 100) == b"for others\n" else ["input that was meant for others was read"])


def enter_at_a_terminal(folder):
    ours, theirs = pty.openpty()
    how = {"stdin": theirs, "stdout": subprocess.DEVNULL, "stderr": theirs, "start_new_session": True}
    run = folder.begun("--seconds", "60", preexec_fn=lambda: fcntl.ioctl(0, termios.TIOCSCTTY, 0), **how)
    os.close(theirs)
    said = b""
    while b"press Enter to end" not in said and run.poll() is None:
        said += os.read(ours, 1000)
    os.write(ours, b"\n")
    try:
        while True:
            said += os.read(ours, 1000)
    except OSError:
        return ends((run.wait(), "", said.decode()), 0, "press Enter to end", ASKED)


def starter(folder):
    """`run` of a repository that has nothing but the program, as it is built."""
    top, sources = folder.path / "made", hashlib.sha256()
    shutil.copytree(TOP / "tools", top / "tools")
    shutil.copy(TOP / "run", top)
    (top / "crates/shift_plan/src").mkdir(parents=True)
    (top / "crates/shift_plan/out").mkdir()
    (top / "crates/shift_plan/out/shift_plan").symlink_to(program("shift_plan"))
    for path, text in ("crates.txt", "shift_plan:\n"), ("crates/shift_plan/src/main.rt", ""):
        (top / path).write_text(text)
        sources.update(b"%s\n" % path.encode() + hashlib.sha256(text.encode()).digest())
    (top / "crates/shift_plan/out/run.sum").write_text(sources.hexdigest())
    return [str(top / "run"), "shift_plan"]


def interrupts(folder, awaited, *signals, seconds="60"):
    """A search by `run` that gets these signals once there is a file of that name."""
    run = folder.begun("--seconds", seconds, starter=starter(folder))
    folder.wait_for(awaited)
    for number in signals:
        run.send_signal(number)
    return run


def interrupted_as_it_begins(folder):
    return ended(folder, interrupts(folder, "week.journal", signal.SIGINT), 0, ASKED)


def terminated_in_mid_search(folder):
    run = folder.begun("--seconds", "60", starter=starter(folder))
    folder.wait_for_steps()
    run.terminate()
    return ended(folder, run, 0, ASKED)


def interrupted_while_it_writes(folder):
    return ended(folder, interrupts(folder, "week.plan/report", signal.SIGINT, seconds="2"), 0)


def interrupted_as_it_ends(folder):
    """At moments from the report's on, past the end of the program: each run of a search that is finished at once ends well."""
    words, faults = starter(folder), []
    (folder.path / "week.json").write_text((TOP / "examples" / "one_shift.json").read_text())
    for moment in range(20):
        report = folder.path / "week.plan" / "report"
        if report.exists():
            report.unlink()
        run = folder.begun("--seconds", "5", starter=words)
        folder.wait_for("week.plan/report")
        time.sleep(0.004 * moment)
        run.send_signal(signal.SIGINT)
        faults += ended(folder, run, 0)
    return faults


def interrupted_twice(folder):
    run = interrupts(folder, "week.journal", signal.SIGTERM, signal.SIGINT)
    return ["it ends with %d" % run.returncode] if run.wait() not in (130, 143) else ended(folder, folder.begun("--seconds", "1"), 0)


def interrupted_with_a_word(folder):
    reads, writes = os.pipe()
    run = folder.begun("--seconds", "60", "--stop-on", "line", starter=starter(folder), stdin=reads)
    folder.wait_for("week.journal")
    run.send_signal(signal.SIGINT)
    faults = ended(folder, run, 0, ASKED)
    os.close(reads)
    os.close(writes)
    return faults


def line_given_to_run(folder):
    run = folder.begun("--seconds", "60", "--stop-on", "line", starter=starter(folder), stdin=subprocess.PIPE)
    folder.wait_for("week.journal")
    return ended(folder, run, 0, ASKED, given=b"\n")


def program_killed_below_run(folder):
    run = folder.begun("--seconds", "60", starter=starter(folder))
    folder.wait_for_steps()
    subprocess.run(["pkill", "-KILL", "-P", str(run.pid)], check=True)
    return ended(folder, run, 0, "the program was killed by signal 9", "goes on from ")


def journal_without_room(folder):
    """A journal with the prices of 6,641 steps, and no room for one more."""
    day, slots = ",".join("1" if 8 <= slot < 12 else "0" for slot in range(24)), ",0" * 1992
    texts = [(TOP / "cases/texts" / name).read_text() for name in ("morning.json", "morning.canonical.json")]
    document, canonical = (text.replace('"slot_minutes":60', '"slot_minutes":5').replace('"days":1', '"days":7').replace(day, day + slots) for text in texts)
    (folder.path / "week.json").write_text(document)
    record = bytes.fromhex("01 73270000 0100 02 0000 00000000 0100 e0070000") + bytes(5 * 2016 + 4)
    (folder.path / "week.journal").write_bytes(b"SHIFTJ2\n" + len(canonical).to_bytes(4, "little") + canonical.encode() + record * 6641 + b"\0")
    run = folder.begun("--seconds", "60", "--workers", "1")
    faults = ended(folder, run, 0, "goes on from 6641 steps: cost 8, bound 0", "the journal is full", "a new one can begin with its best plan", "the same line with --anew goes on from it in a new journal")
    return faults + ends(folder.plan("--seconds", "1", "--anew"), 0, "takes nothing from the old journal: its best plan has no duty")


MEETINGS = (
    lock_in_use, killed_run, search_gone_on_with, begun_anew, begun_anew_for_another_need, no_search_to_show, journal_that_is_a_folder, journal_of_another_instance, damaged_journal, torn_journal, journal_of_the_first_version,
    journal_on_a_full_device, folder_below_a_file, folder_that_is_a_file, instance_that_isnt_there, instance_that_is_a_folder, journal_of_the_instance, document_with_a_namesake, bent_report, edited_table,
    folder_of_two_plans, folder_in_use, table_that_is_a_folder, cheaper_plan_in_the_folder, searches_with_seeds, week_with_another_need, days_with_names, heading_without_folders,
    words_in_the_wrong_order, report_that_is_none, closed_output, short_time, search_without_a_cheaper_plan, line_in_mid_search, end_of_input_in_mid_search, line_before_the_search,
    input_meant_for_others, enter_at_a_terminal, interrupted_as_it_begins, terminated_in_mid_search, interrupted_while_it_writes, interrupted_as_it_ends,
    interrupted_twice, interrupted_with_a_word, line_given_to_run, program_killed_below_run, journal_without_room,
)


def meeting_faults(meeting):
    with tempfile.TemporaryDirectory() as folder:
        return meeting(Folder(folder, (TOP / "examples" / "ward_week.json").read_text()))


def trials(number, seed):
    """What is wrong with each example, with so many random instances, and with each run that meets something, one list for each."""
    for name in EXAMPLES:
        yield ["%s: %s" % (name, fault) for fault in example_faults(name)]
    for instance in range(number):
        yield ["instance %d of seed %s: %s" % (instance, seed, fault) for fault in random_faults(instance, seed)]
    for meeting in MEETINGS:
        yield ["%s: %s" % (meeting.__name__, fault) for fault in meeting_faults(meeting)]


def main(number=str(INSTANCES), seed="1"):
    passed = failed = 0
    for found in trials(int(number), seed):
        print("".join(fault + "\n" for fault in found), end="", flush=True)
        failed += found != []
        passed += found == []
    print("%d passed, %d failed" % (passed, failed))
    return int(failed > 0)


if __name__ == "__main__":
    sys.exit(main(*sys.argv[1:]))
