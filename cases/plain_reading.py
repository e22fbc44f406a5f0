#!/usr/bin/env python3
"""A second reading of docs/DEFINITIONS.md and docs/FORMATS.md, by plain enumeration over every list of breaks, beside what `shift_check` and
`shift_solve` answer on small random instances, half of them with bands. Words: the number of instances (100 where none is given), a seed (1),
and a folder that holds both programs (where none is given, they are taken as they are built). Prints each difference with the instance and the
report that show it, and last `N passed, M failed`, counted in instances."""
import collections
import functools
import itertools
import json
import math
import pathlib
import random
import subprocess
import sys
import tempfile

MOST_COST, MOST_ROTAS, MOST_SPAN = 10**15, 1000, 8  # beyond the last two the rotas aren't enumerated, and a search isn't taken to its end
PLAIN_RULE = {"lead": 0, "tail": 0, "work_min": 1, "work_max": 288, "long_work": 288, "long_rest": 1, "size_min": 1, "size_max": 48, "totals": []}
Cut = collections.namedtuple("Cut", "place at_least number")  # its place: a shift, a day and a beginning of a break list
Report = collections.namedtuple("Report", "status cost bound rows lines")  # where there is no plan, its cost is "-" and its rows are None
Row = collections.namedtuple("Row", "shift day count breaks")
Split = collections.namedtuple("Split", "node shift day breaks number")
Priced = collections.namedtuple("Priced", "node scale prices cut_prices")
Settled = collections.namedtuple("Settled", "node")
KINDS = {"split": Split, "priced": Priced, "settled": Settled, "row": Row}


@functools.lru_cache(maxsize=None)
def every_list(length, begin=0):
    """Every list of breaks of a shift behind an offset, in order, apart from one another, none empty; the least first."""
    firsts = [(start, end) for start in range(begin, length) for end in range(start + 1, length + 1)]
    return [()] + [((start, end - start), *rest) for start, end in firsts for rest in every_list(length, end)]


def is_legal(rule, length, breaks):
    """Whether a list of breaks, in whatever order, is legal for a rule and a length."""
    totals = [0] + [total for least, total in rule["totals"] if least <= length]
    ends = [0] + [start + size for start, size in breaks]
    periods = [start - end for start, end in zip([start for start, _ in breaks] + [length], ends)]
    lunches = [lunch[1:] for lunch in rule.get("lunches", []) if lunch[0] <= length]
    return (
        sum(size for _, size in breaks) == totals[-1]
        and all(rule["work_min"] <= period <= rule["work_max"] for period in periods)
        and all(size > 0 and rule["size_min"] <= size <= rule["size_max"] for _, size in breaks)
        and all(start >= rule["lead"] and start + size <= length - rule["tail"] for start, size in breaks)
        and all(size >= rule["long_rest"] for period, (_, size) in zip(periods, breaks) if period > rule["long_work"])
        and all(any(size == wanted and first <= start and start + size <= last for start, size in breaks) for wanted, first, last in lunches)
    )


class Reading:
    """What the definitions say of the instance of a document."""
    def __init__(self, document):
        self.days, self.need, self.heads = (document[name] for name in ("days", "need", "max_heads"))
        self.bands = list(zip(self.need, document.get("need_max", self.need)))  # of each slot the least and the most wanted employees
        self.excess, self.shortage, self.shift = (document["weights"][name] for name in ("excess", "shortage", "shift"))
        self.day_slots = 1440 // document["slot_minutes"]
        to, kinds = (lambda kind, name: range(kind[name + "_min"], kind[name + "_max"] + 1)), document["types"]
        self.shifts = [(kind.get("breaks") or PLAIN_RULE, length, start) for kind in kinds for start in to(kind, "start") for length in to(kind, "len")]
        self.places = [(shift, day) for shift in range(len(self.shifts)) for day in range(self.days)]

    lists = functools.cached_property(lambda self: [[list for list in every_list(size) if is_legal(rule, size, list)] for rule, size, _ in self.shifts])

    def slots_worked(self, shift, day, breaks):
        rule, length, begin = self.shifts[shift]
        away = {offset for start, size in breaks for offset in range(start, start + size + rule.get("resettle", 0))}
        return [(day * self.day_slots + begin + offset) % len(self.need) for offset in range(length) if offset not in away]

    def are_legal(self, rows):
        """Whether rows are in strict order, none is empty, and their rota is legal."""
        order = [(row.shift, row.day, row.breaks) for row in rows]
        heads = collections.Counter((row.shift, row.day) for row in rows for _ in range(row.count))
        are_known = all(row.count > 0 and row.shift < len(self.shifts) and row.day < self.days for row in rows)
        are_sorted = all(one < other for one, other in zip(order, order[1:]))
        return are_known and are_sorted and max(heads.values(), default=0) <= self.heads and all(is_legal(*self.shifts[row.shift][:2], row.breaks) for row in rows)

    def cost(self, rows):
        cover = collections.Counter(slot for row in rows for slot in self.slots_worked(row.shift, row.day, row.breaks) * row.count)
        slots = [self.excess * max(0, cover[slot] - most) + self.shortage * max(0, least - cover[slot]) for slot, (least, most) in enumerate(self.bands)]
        return sum(slots) + self.shift * len({row.shift for row in rows})

    def least_cost(self):
        """The least cost of all legal rotas, no number where they are many."""
        if math.prod(math.comb(len(self.lists[shift]) + self.heads, self.heads) for shift, _ in self.places) > MOST_ROTAS:
            return math.inf
        several = [itertools.combinations_with_replacement([None] + self.lists[shift], self.heads) for shift, _ in self.places]
        rows = lambda rota: [Row(*place, 1, breaks) for place, duties in zip(self.places, rota) for breaks in duties if breaks is not None]
        return min(self.cost(rows(rota)) for rota in itertools.product(*several))

    def span(self, cuts, place):
        """The range of a class: the greatest number of an at-least cut on exactly that class, and the least of an at-most cut."""
        low = max([0] + [cut.number for cut in cuts if cut.place == place and cut.at_least])
        return low, min([self.heads] + [cut.number for cut in cuts if cut.place == place and not cut.at_least])

    def is_settled(self, cuts, shift, day, beginning=()):
        """Whether a live class is settled."""
        low, high = self.span(cuts, (shift, day, beginning))
        if high == 0 or beginning in self.lists[shift]:
            return high == 0 or high <= low
        longer = {breaks[: len(beginning) + 1] for breaks in self.lists[shift] if breaks[: len(beginning)] == beginning}
        return all(self.is_settled(cuts, shift, day, breaks) for breaks in longer)

    def is_settled_node(self, cuts):
        return all(self.is_settled(cuts, shift, day) for shift, day in self.places if self.lists[shift])

    def duties(self, cuts):
        """Each legal duty without a closed beginning, in the order of rows, with the ranges of its beginnings, the shortest first."""
        for shift, day in self.places:
            for breaks in self.lists[shift]:
                spans = [self.span(cuts, (shift, day, breaks[:size])) for size in range(len(breaks) + 1)]
                if all(high > 0 for _, high in spans):
                    yield shift, day, breaks, spans

    def split_class(self, cuts):
        """The class to split, and the number half way between its low and its high; None for a settled node."""
        for shift, day, breaks, spans in self.duties(cuts):
            if spans[-1][0] < spans[-1][1]:
                size = next(size for size, (low, high) in enumerate(spans) if low < high)
                return shift, day, breaks[:size], sum(spans[size]) // 2

    def settled_cost(self, cuts):
        """The cost of a settled node's plan, the greatest cost where the node is empty."""
        rows = [Row(shift, day, spans[-1][0], breaks) for shift, day, breaks, spans in self.duties(cuts) if spans[-1][0] > 0]
        held = lambda place: sum(row.count for row in rows if (row.shift, row.day, row.breaks[: len(place[2])]) == place)
        is_met = all(held(cut.place) >= cut.number if cut.at_least else held(cut.place) <= cut.number for cut in cuts)
        return self.cost(rows) if is_met and self.are_legal(rows) else MOST_COST

    def are_prices(self, cuts, scale, prices, cut_prices):
        """Whether a price set is within its ranges."""
        ranges = [(-scale * self.excess, scale * self.shortage)] * len(self.need) + [(0, 10**12 if cut.place[2] else 0) for cut in cuts]
        fits = 1 <= scale <= 10000 and (len(prices), len(cut_prices)) == (len(self.need), len(cuts))
        return fits and all(low <= price <= high for price, (low, high) in zip(prices + cut_prices, ranges))

    def reduced_value(self, cuts, prices, cut_prices, shift, day, breaks):
        held = [(cut, price) for cut, price in zip(cuts, cut_prices) if cut.place[2] and cut.place == (shift, day, breaks[: len(cut.place[2])])]
        worth = sum(prices[slot] for slot in self.slots_worked(shift, day, breaks))
        return worth + sum(price if cut.at_least else -price for cut, price in held)

    def term(self, cuts, scale, prices, cut_prices, shift):
        if not self.lists[shift]:
            return 0
        values = [max(self.reduced_value(cuts, prices, cut_prices, shift, day, breaks) for breaks in self.lists[shift]) for day in range(self.days)]
        spans = [self.span(cuts, (shift, day, ())) for day in range(self.days)]
        if any(low > 0 for low, _ in spans):
            return scale * self.shift - sum(max(value * low, value * high) for value, (low, high) in zip(values, spans))
        return min(0, scale * self.shift - sum(max(0, value * high) for value, (_, high) in zip(values, spans)))

    def bound(self, cuts, scale, prices, cut_prices):
        """The bound of a price set."""
        total = sum(price * (most if price < 0 else least) for price, (least, most) in zip(prices, self.bands))
        total += sum(price * (cut.number if cut.at_least else -cut.number) for cut, price in zip(cuts, cut_prices))
        total += sum(self.term(cuts, scale, prices, cut_prices, shift) for shift in range(len(self.shifts)))
        return min(MOST_COST, max(0, -(-total // scale)))

    def recount(self, report):
        """The line of the recount of a report: it names the first row with which the rows up to it aren't legal."""
        for number in range(len(report.rows or [])):
            if not self.are_legal(report.rows[: number + 1]):
                return "refused 5 %d" % number
        return "cost -" if report.rows is None else "cost %d" % self.cost(report.rows)

    def check(self, report):
        """The line of the check of a report."""
        nodes = Nodes(self)
        for number, line in enumerate(report.lines, 1):
            if not nodes.take(line):
                return "refused %d %d" % (list(KINDS.values()).index(type(line)) + 1, number)
        if report.bound > nodes.found:
            return "refused 4 %d %d" % (report.bound, nodes.found)
        line = self.recount(report)
        if line.startswith("cost") and line != "cost %s" % report.cost:
            return "refused 6 %d %s" % (report.cost, line[5:])
        return line if line.startswith("refused") else "accepted %s bound %d" % (line, report.bound)


class Nodes(dict):
    """The unsplit nodes that proof lines make of the root: by its number the cuts and the floor of each; and the least floor."""
    def __init__(self, reading):
        super().__init__({0: ((), 0)})
        self.reading, self.splits, self.lines, self.found = reading, 0, [], 0

    def take(self, line):
        """Goes on by a line where it is good, and says whether it is."""
        reading, (cuts, floor) = self.reading, self.get(line.node, (None, 0))
        if cuts is None:
            return False
        if isinstance(line, Priced):
            good = reading.are_prices(cuts, *line[1:])
            self[line.node] = cuts, max(floor, reading.bound(cuts, *line[1:]) if good else 0)
        elif isinstance(line, Settled):
            good = reading.is_settled_node(cuts)
            self[line.node] = cuts, reading.settled_cost(cuts) if good else floor
        else:
            good = line.shift < len(reading.shifts) and line.day < reading.days and len(line.breaks) <= 48 and line.number <= 200
            for side in (0, 1) if good else ():
                self.pop(line.node, None)
                self[2 * self.splits + 1 + side] = cuts + (Cut(line[1:4], side == 1, line.number + side),), floor
            self.splits += good
        self.lines += [line] * good
        self.found = min(floor for _, floor in self.values())
        return good


def line_text(line):
    word = lambda field: ",".join("%d+%d" % part if isinstance(part, tuple) else str(part) for part in field) or "-"
    return " ".join([type(line).__name__.lower()] + [word(field) if isinstance(field, tuple) else str(field) for field in line])


def report_text(report):
    words = (report.status, report.cost, report.bound, "-" if report.rows is None else len(report.rows))
    lines = ["shift-report 1\nstatus %s\ncost %s\nbound %d\nrows %s" % words] + [line_text(row) for row in report.rows or []]
    return "\n".join(lines + ["proof %d" % len(report.lines)] + [line_text(line) for line in report.lines] + ["end", ""])


def read_field(name, word):
    parts = word.split(",") if word != "-" else []
    if name == "breaks":
        return tuple(tuple(map(int, part.split("+"))) for part in parts)
    return tuple(map(int, parts)) if name in ("prices", "cut_prices") else int(word)


def read_report(text):
    """The report with a plan that a text spells."""
    lines = [line.split(" ") for line in text.split("\n")]
    fields = [KINDS[words[0]](*map(read_field, KINDS[words[0]]._fields, words[1:])) for words in lines[5 : lines.index(["end"])] if words[0] in KINDS]
    count = int(lines[4][1])
    return Report(lines[1][1], int(lines[2][1]), int(lines[3][1]), fields[:count], fields[count:])


class Trial:
    """The programs beside the reading of one random instance."""
    def __init__(self, draw, folder, solve, check):
        self.draw, self.folder, self.solve, self.check = draw, folder, solve, check
        document = self.document()
        self.reading, self.text = Reading(document), json.dumps(document)
        self.least = self.reading.least_cost()
        (folder / "instance").write_text(self.text)

    def document(self):
        """A random instance, often a tiny one, half of the time with bands."""
        draw, types, tiny = self.draw, [], self.draw.random() < 0.5
        minutes, much, peak = 60 if tiny else draw.choice((60, 60, 30, 20)), draw.choice((5, 5, 10**6)), draw.choice((1, 2, 3, 6, 6000))
        day_slots, days = 1440 // minutes, draw.choice((1, 1, 2) if tiny else (1, 2, 3, 2 if minutes < 60 else 7))
        for number in range(1 if tiny else draw.randint(1, 3)):
            start, length = draw.choice((8, day_slots - 2, draw.randint(0, 2 * day_slots - 2))), draw.randint(3, 6 if tiny else 9)
            types.append({"name": "T%d" % number, "start_min": start, "start_max": start + draw.choice((0, 0, 1)), "len_min": length})
            types[-1].update(len_max=length + draw.choice((0, 0, 1)), **draw.choice([{}, {"breaks": None}] + [{"breaks": self.rule(length)}] * 10))
        weights = {"excess": draw.randint(0, 3), "shortage": draw.randint(0, much), "shift": draw.choice((0, draw.randint(0, min(3 * much, 10**6))))}
        need, heads = [draw.choice((0, draw.randint(0, peak))) for _ in range(days * day_slots)], draw.choice((1, 1, 2, 3) if tiny else (1, 2, 3, 200))
        most = {"need_max": [min(10000, least + draw.choice((0, draw.randint(0, peak)))) for least in need]} if draw.random() < 0.5 else {}
        return {"slot_minutes": minutes, "days": days, "need": need, **most, "max_heads": heads, "weights": weights, "types": types}

    def rule(self, length):
        """A random rule that mostly has a legal list at that length."""
        draw = self.draw
        marks = sorted(draw.sample(range(1, length), 2 * min(draw.choice((0, 1, 1, 2, 2, 3)), (length - 1) // 2)))
        shape = [(start, min(draw.randint(1, 2), end - start)) for start, end in zip(marks[::2], marks[1::2])]
        sizes, ends = [size for _, size in shape], [0] + [start + size for start, size in shape]
        periods, long_rest = [start - end for start, end in zip(marks[::2] + [length], ends)], max(sizes + [2])
        long_work = max([1] + [period for period, size in zip(periods, sizes) if size < long_rest])
        either = lambda loose, tight: draw.choice((loose, tight))
        rule = {"lead": either(0, min(marks + [length])), "tail": either(0, length - ends[-1]), "long_work": long_work}
        rule.update(work_min=either(1, min(periods)), work_max=either(length, max(periods)), long_rest=long_rest)
        rule.update(size_min=either(1, min(sizes + [2])), size_max=either(length, max(sizes + [2])), resettle=draw.randint(0, 1))
        totals = [[0, 1]][draw.randint(0, 1) :] + [[draw.randint(1, length), sum(sizes) + (draw.random() < 0.1)], [length + 1, 2]]
        rule["totals"] = totals[: len(totals) - draw.randint(0, 1)]
        places = [(size, draw.randint(end + 1, start), start + size + draw.randint(0, 1)) for end, (start, size) in zip(ends, shape)]
        rule["lunches"] = [[length + draw.randint(-2, 1), *place] for place in places[:2] if draw.random() < 0.3]
        return {name: number for name, number in rule.items() if number or name not in ("lunches", "resettle")}

    def rows(self):
        """Random legal rows."""
        draw, reading, rows = self.draw, self.reading, []
        for shift, day in reading.places:
            lists = draw.sample(reading.lists[shift], min(len(reading.lists[shift]), reading.heads, draw.randint(0, 2)))
            rows += [Row(shift, day, draw.randint(1, max(1, reading.heads // len(lists))), breaks) for breaks in sorted(lists)]
        return rows

    def bent_rows(self, rows):
        """Rows of which one is changed by one thing, doubled, or put behind the next one; mostly bad ones."""
        draw, reading, rows = self.draw, self.reading, rows or [Row(0, 0, 1, ())]
        number = draw.randrange(len(rows))
        row, length = rows[number], reading.shifts[rows[number].shift][1]
        bent = [tuple(max(0, part + draw.choice((-1, 0, 0, 0, 1))) for part in one) for one in row.breaks or ((0, 1),)]
        lists = [draw.choice(every_list(length)), row.breaks[1:], row.breaks[::-1], row.breaks + ((length - 1, draw.randint(1, 2)),)] + [tuple(bent)] * 3
        fields = [{"shift": len(reading.shifts)}, {"day": reading.days}, {"count": 0}, {"count": reading.heads + 1}] + [{"breaks": one} for one in lists]
        others = [[row._replace(**field)] for field in fields] + [[row, row], rows[number + 1 : number + 2] + [row]]
        return rows[:number] + draw.choice(others) + rows[number + 1 :]

    def prices(self, cuts, tries=1):
        """Of some random price sets one of the greatest bound."""
        draw, reading, sets = self.draw, self.reading, []
        for _ in range(tries):
            scale, part, noise = draw.choice((1, 2, 3, 7, 10000)), draw.random() ** 0.5, draw.choice((0, 0.3, 1))
            low, high = -scale * reading.excess, scale * reading.shortage
            some = [draw.randint(low, high) if draw.random() < noise else int(part * high) if need else draw.choice((0, low)) for need in reading.need]
            most = draw.choice((0, scale, high, 10**12))
            sets.append((scale, tuple(some), tuple(draw.choice((most, draw.randint(0, most))) if cut.place[2] else 0 for cut in cuts)))
        return max(sets, key=lambda one: reading.bound(cuts, *one))

    def split(self, cuts):
        """A random class, or the class to split, and a number for it."""
        draw, reading, (shift, day) = self.draw, self.reading, self.draw.choice(self.reading.places)
        breaks = draw.choice(reading.lists[shift] + [draw.choice(every_list(reading.shifts[shift][1]))])
        place = (shift, day, breaks[: draw.randint(0, len(breaks))], 0)
        *place, number = draw.choice((place, reading.split_class(cuts) or place))
        return (*place, draw.choice((0, number, draw.randint(0, reading.heads), 200)))

    def proof(self):
        """The nodes of good proof lines that leave each of them priced or settled."""
        nodes = Nodes(self.reading)
        for _ in range(self.draw.choice((0, 1, 2, 3, 6))):
            node = self.draw.choice(sorted(nodes))
            nodes.take(Split(node, *self.split(nodes[node][0])))
        for node, (cuts, _) in sorted(nodes.items()):
            if self.draw.random() < 0.2 or not nodes.take(Settled(node)):
                nodes.take(Priced(node, *self.prices(cuts, self.draw.randint(1, 4))))
        return nodes

    def line(self, nodes):
        """A line that is mostly wrong, by one thing."""
        draw, reading, node = self.draw, self.reading, self.draw.choice(sorted(nodes))
        scale, prices, cut_prices = self.prices(nodes[node][0])
        place, over = draw.randrange(len(prices)), draw.choice((-scale * reading.excess - 1, scale * reading.shortage + 1))
        sets = [(scale, bent, cut_prices) for bent in (prices + (0,), prices[1:], prices[:place] + (over,) + prices[place + 1 :])]
        others = (cut_prices + (0,), cut_prices[1:], cut_prices[:-1] + (draw.choice((1, 10**12, 10**12 + 1)),))
        sets += [(scale, prices, bent) for bent in others] + [(bent, (0,) * len(prices), cut_prices) for bent in (0, 10000, 10001)]
        splits = [(len(reading.shifts), 0, (), 0), (0, reading.days, (), 0), (0, 0, ((0, 1),) * draw.randint(48, 49), 200), (0, 0, (), 201)]
        node = draw.choice((node, node, draw.randint(0, 2 * nodes.splits + 1)))
        return draw.choice([Settled(node)] * 3 + [Split(node, *draw.choice(splits))] + [Priced(node, *draw.choice(sets))] * 2)

    def reports(self):
        """Random reports, each with the word of the checker that judges it."""
        for _ in range(3):
            nodes = self.proof()
            lines, found, place, rows = nodes.lines, nodes.found, self.draw.randint(0, len(nodes.lines)), self.rows()
            yield "check", Report("bound", "-", MOST_COST + 1, None, lines)
            yield "check", Report("bound", "-", found + self.draw.randint(0, 1), None, lines)
            yield "check", Report("bound", "-", found, None, lines[:place] + [self.line(nodes)] + lines[place:])
            cost, bent = max(0, self.reading.cost(rows) + self.draw.choice((-1, 0, 0, 0, 1))), self.bent_rows(rows)
            for word, some in (("check", self.draw.choice((rows, rows, bent))), ("recount", rows), ("recount", bent)):
                yield word, Report("optimal" if cost <= found else "stopped", cost, min(cost, found), some, lines)

    def run(self, words, text):
        """The status and the texts of a program that reads a text."""
        done = subprocess.run(words, input=text, stdout=subprocess.PIPE, stderr=subprocess.PIPE, universal_newlines=True)
        return done.returncode, done.stdout, done.stderr

    def report_faults(self):
        """Where the checker and the reading differ, each with the text of the report that shows it."""
        for word, report in self.reports():
            line, text = getattr(self.reading, word)(report), report_text(report)
            answer = self.run([self.check, word, self.folder / "instance", "/dev/stdin"], text)
            if answer != (int(line.startswith("refused")), line + "\n", "") or line.startswith("accepted") and report.bound > self.least:
                yield "%s answers %s, the reading says %s; the least cost is %s" % (word, answer, line, self.least), text

    def search_faults(self):
        """What is wrong with the report of a search, each with its text."""
        reading, nodes = self.reading, Nodes(self.reading)
        span = reading.heads * sum(len({breaks[:size] for breaks in reading.lists[shift] for size in range(99)}) for shift, _ in reading.places)
        steps = 2 ** (span + 1) - 1 if span <= MOST_SPAN else self.draw.randint(0, 8)
        status, text, said = self.run([self.solve, "solve", self.folder / "journal", "--workers", "1", "--steps", str(steps)], self.text)
        if status not in (0, 10):
            return [("solve ends with %d: %s" % (status, said), text)]
        report = read_report(text)
        line, answer = reading.check(report), self.run([self.check, "check", self.folder / "instance", "/dev/stdin"], text)
        taken = [(nodes.get(one.node), one, nodes.take(one)) for one in report.lines]  # each with its node as it was before
        accepted = "accepted cost %s bound %d" % (report.cost, report.bound)
        faults = [
            ("solve ends with %d" % status, status == {"optimal": 0, "stopped": 10}.get(report.status)),
            ("its standard error is %s" % said, said == ("" if status == 0 else "shift_solve: stopped: step budget spent\n")),
            ("the text isn't that of the report", text == report_text(report)),
            ("check answers %s, the reading says %s" % (answer, line), answer == (0, line + "\n", "") and line == accepted),
            ("the bound isn't the floor", report.bound == min(report.cost, nodes.found)),
            ("a split isn't of the class to split", all(one[1:] == reading.split_class(node[0]) for node, one, _ in taken if isinstance(one, Split))),
            ("%d steps were enough" % steps, status == 0 or span > MOST_SPAN),
            ("the least cost is %s" % self.least, self.least == math.inf or report.bound <= self.least <= report.cost),
        ]
        return [(fault, text) for fault, holds in faults if not holds]


def differences(number, solve, check, seed=1, first=0):
    """The differences between the programs and the reading over that many random instances, from one on."""
    for instance in range(first, first + number):
        with tempfile.TemporaryDirectory() as folder:
            trial = Trial(random.Random("%s %d" % (seed, instance)), pathlib.Path(folder), solve, check)
            for fault, report in itertools.chain(trial.report_faults(), trial.search_faults()):
                yield "instance %d of seed %s: %s\n%s\n%s" % (instance, seed, fault, trial.text, report)


def main(number="100", seed="1", programs=None):
    crates, failed = pathlib.Path(__file__).resolve().parent.parent / "crates", 0
    solve, check = (pathlib.Path(programs or crates / name / "out").resolve() / name for name in ("shift_solve", "shift_check"))
    for instance in range(int(number)):
        found = list(differences(1, solve, check, seed, instance))
        print("".join(text + "\n" for text in found), end="", flush=True)
        failed += found != []
    print("%d passed, %d failed" % (int(number) - failed, failed))
    return int(failed > 0)


if __name__ == "__main__":
    sys.exit(main(*sys.argv[1:]))
