#!/usr/bin/env python3
"""A reckoner written from document 01 and the requests of document 02 alone, with whole numbers and fractions: what the proved one is compared with.

    python3 tests/independent/reckoner.py < DOSSIER            prints the sheet, and checks demand 3 of it
    python3 tests/independent/reckoner.py --gap < DOSSIER      prints the total, the unrounded one, the gap and its bound

Either takes --plan PLAN too, a file with the plan that is lent (#103), and --periods YEAR,YEAR,.. with the end years of the verification
periods (#107): the sheet then ends with the tonnes issued at each, of which it checks what an owner can rely on.
"""
import argparse
import pathlib
import sys
from fractions import Fraction
from typing import NamedTuple

CLASSES = "E SE P D B M MR FF FR TP PP NF".split()
STOCK = dict(zip(CLASSES, (9130, 13511, 5654, 4821, 0, 8415, 9240, 3986, 4265, 5654, 5654, 0)))
INTO_NON_FOREST = dict(zip(CLASSES, (24900, 30900, 0, 34500, 14100, 10000, 41700, 50600, 97200, 116900, 0, 0)))
PAIRS = [(i, j) for i in CLASSES for j in CLASSES]
FUEL = {1: 318630, 2: 306999, 3: 310059}
LIMING = {1: 132, 2: 143, 3: 220}
NITROGEN = {(1, 1): 1325, (2, 1): 1425, (3, 1): 1225, (1, 2): 625, (2, 2): 725, (3, 2): 525}
MOST_YEARS = MOST_ENDS = 20
LONGEST_REPORT = 64 * MOST_YEARS + 32 + 8 * MOST_ENDS  # 1,472 bytes
ACTIVITY_FIELDS = {b"FU": (1, 8), b"VE": (1, 4, 4, 4), b"NI": (1, 1, 8, 2), b"LI": (1, 8), b"CR": (1, 4, 4, 2, 2, 2, 2, 2)}


class Refused(Exception):
    def __init__(self, number):
        super().__init__(number)
        self.number = number


def require(holds, number):
    if not holds:
        raise Refused(number)


def demand(holds, what):
    if not holds:
        raise AssertionError("what an owner relies on fails: " + what)


class Cursor:
    def __init__(self, data):
        self.data, self.at = bytes(data), 0

    def left(self):
        return len(self.data) - self.at

    def sees(self, marks):
        return self.data[self.at:self.at + 2] in marks

    def record(self, mark, widths):
        require(self.left() >= 2, 1)
        require(self.sees((mark,)), 2)
        require(self.left() >= 2 + sum(widths), 1)
        self.at += 2
        values = []
        for width in widths:
            values.append(int.from_bytes(self.data[self.at:self.at + width], "big"))
            self.at += width
        return values

    def end_of_piece(self):
        require(self.left() != 1, 1)
        require(self.left() == 0, 2)


def days_of(year):
    return 366 if year % 4 == 0 and (year % 100 != 0 or year % 400 == 0) else 365


def by_pair(values):
    return dict(zip(PAIRS, values))


def factors(stock):
    """Of a list of stocks, those of ST or the built-in ones (#102)."""
    return {(i, j): max(stock[i] - stock[j], 0) if j not in ("TP", "PP") else 0 for i, j in PAIRS}


def option_one():
    matrix = dict.fromkeys(PAIRS, 0)
    for i in CLASSES:
        matrix[i, i] = 1000000 - INTO_NON_FOREST[i]
        matrix[i, "NF"] += INTO_NON_FOREST[i]
    return matrix


def activity(cursor):
    """One record, its mark with its fields, and its exact grams."""
    mark = cursor.data[cursor.at:cursor.at + 2]
    values = cursor.record(mark, ACTIVITY_FIELDS[mark])
    record = mark, *values
    if mark == b"NI":
        source, crop, grams, content = values
        require(1 <= source <= 3 and 1 <= crop <= 2 and grams <= 10**10 and content <= 10000, 8)
        return record, Fraction(grams * content * NITROGEN[source, crop] * 3278, 7000000000)
    if mark == b"CR":  # nitrogen of crop residue, source 3 (#106)
        crop, area, dry_matter, share, above, below, above_content, below_content = values
        require(1 <= crop <= 2 and area * dry_matter <= 10**8 and max(above, below) <= 500, 8)
        require(max(share, above_content, below_content) <= 10000, 8)
        nitrogen = area * dry_matter * share * (above * above_content + below * below_content)
        return record, Fraction(nitrogen * NITROGEN[3, crop] * 3278, 7 * 10**12)
    kind = values[0]
    grams = values[1]
    if mark == b"VE":
        _, count, average, each = values
        require(count <= 1000 and average <= 1000000 and each <= 100000, 8)
        grams = count * average * each
    require(1 <= kind <= 3 and grams <= 10**12, 8)
    return record, Fraction(grams * LIMING[kind], 300) if mark == b"LI" else Fraction(grams * FUEL[kind], 100000)


def read_activities(cursor):
    """The exact grams of each record of a year or of a planned one. A third CR is 9 by its mark (#106), as a 61st record is; one that equals an
    earlier one in mark and all fields is 14 (#105)."""
    records = {}
    while cursor.sees(ACTIVITY_FIELDS):
        require(len(records) < 60, 9)
        require(not cursor.sees((b"CR",)) or sum(mark == b"CR" for mark, *_ in records) < 2, 9)
        record, grams = activity(cursor)
        require(record not in records, 14)
        records[record] = grams
    return list(records.values())


def read_plan(plan):
    """Each planned year with its records (#103). Zero bytes are no plan; one that is not of the form is 12, whatever its fault, save that
    two equal records of a planned year are 14 (#105)."""
    cursor, years = Cursor(plan), {}
    try:
        while cursor.sees((b"PY",)):
            year, = cursor.record(b"PY", (2,))
            require(len(years) < 20 and year > max(years, default=-1), 12)
            years[year] = read_activities(cursor)
        if plan:
            cursor.record(b"EN", ())
            require(cursor.left() == 0, 12)
    except Refused as refused:
        raise Refused(14 if refused.number == 14 else 12) from None
    return years


def down(x):
    return x.numerator // x.denominator


def up(x):
    return -((-x.numerator) // x.denominator)


def discounted(reduction):
    """By 20 percent; a negative one whole (#101)."""
    return reduction * Fraction(4, 5) if reduction >= 0 else reduction


class Region:
    def __init__(self, areas=None):
        areas = areas or [0] * 12
        self.start = sum(areas)
        self.areas = dict(zip(CLASSES, areas))
        self.exact = {c: Fraction(a) for c, a in self.areas.items()}
        self.balance = 0

    def projected(self, matrix, factor):
        """The region that the next year starts from, and the carbon of this one, rounded and exact."""
        flows = {(i, j): self.areas[i] * matrix[i, j] // 1000000 for i, j in PAIRS}
        exact = {(i, j): self.exact[i] * matrix[i, j] / 1000000 for i, j in PAIRS}
        later = Region()
        later.start = self.start
        later.balance = self.balance + sum(self.areas.values()) - sum(flows.values())
        later.areas = {j: sum(flows[i, j] for i in CLASSES) for j in CLASSES}
        later.exact = {j: sum(exact[i, j] for i in CLASSES) for j in CLASSES}
        return later, sum(flows[p] * factor[p] for p in PAIRS), sum(exact[p] * factor[p] for p in PAIRS)


class Year(NamedTuple):
    """What a year brings to the ledger: its eight figures, its exact reduction, the regions after it, the number of its records."""
    figures: tuple
    exact: Fraction
    regions: tuple
    records: int

    def is_small(self):
        """#103: whether its rounded activity is so small that it may be a planned one."""
        _, project, activity, _, _, displaced, _, _ = self.figures
        return 20 * activity < project + displaced + activity


class Ledger:
    """The ledger's calls; each answers its number."""

    def __init__(self):
        self.option, self.first, self.n, self.matrix = 0, 0, 0, dict.fromkeys(PAIRS, 0)
        self.stock, self.factor = dict.fromkeys(CLASSES, 0), dict.fromkeys(PAIRS, 0)
        self.project, self.belt = Region(), Region()
        self.years, self.running, self.exact, self.records = [], [0], Fraction(0), 0

    @property
    def total(self):
        """The last of the running totals, which have the grams credited before the first year and up to the end of each (#107)."""
        return self.running[-1]

    def read_opening(self, cursor):
        option, first, n = cursor.record(b"HD", (1, 2, 1))
        require(option in (1, 2) and 2000 <= first <= 2200 and 1 <= n <= MOST_YEARS, 3)
        stock = STOCK
        if cursor.sees((b"ST",)):
            stock = dict(zip(CLASSES, cursor.record(b"ST", (2,) * 12)))
            require(max(stock.values()) <= 50000 and stock["NF"] == 0, 11)
        regions = []
        for mark, least in ((b"PA", 1), (b"DA", 0)):
            areas = cursor.record(mark, (8,) * 12)
            require(least <= sum(areas) <= 10**12, 4)
            regions.append(Region(areas))
        matrix = option_one()
        if option == 2:
            matrix = by_pair(cursor.record(b"MP", (4,) * 144))
            for i in CLASSES:
                require(sum(matrix[i, j] for j in CLASSES) == 1000000, 5)
        self.option, self.first, self.n, self.matrix = option, first, n, matrix
        self.stock, self.factor = stock, factors(stock)
        self.project, self.belt = regions

    def read_year(self, cursor, plan):
        """The year judged and reckoned; the ledger is not changed."""
        year, days = cursor.record(b"YR", (2, 2))
        require(len(self.years) < self.n, 6)
        require(year == self.first + len(self.years) and 1 <= days <= days_of(year), 6)
        sums = []
        for mark, region in ((b"CP", self.project), (b"CD", self.belt)):
            table = cursor.record(mark, (8,) * 144)
            require(sum(table) == region.start, 7)
            counts = {p: f for p, f in self.factor.items() if self.option == 2 or p[1] == "NF"}
            table = by_pair(table)
            sums.append(Fraction(sum(table[p] * f for p, f in counts.items()) * 11, 300))
        share = Fraction(11 * days, 300 * days_of(year))
        if not cursor.sees((b"PL",)):
            return self.reckoned(share, *sums, read_activities(cursor))
        cursor.record(b"PL", ())
        require(year in plan, 13)
        reckoned = self.reckoned(share, *sums, plan[year])
        require(reckoned.is_small(), 13)
        return reckoned

    def reckoned(self, share, project, belt, records):
        """A year by the exact emissions of its tables and of its records; the share turns projected carbon into a reference."""
        later, carbon, carbon_exact = self.project.projected(self.matrix, self.factor)
        belt_later, belt_carbon, belt_exact = self.belt.projected(self.matrix, self.factor)
        reference, belt_reference = down(carbon * share), down(belt_carbon * share)
        emitted, belt_emitted = up(project), up(belt)
        grams = sum(map(up, records))
        displaced = max(belt_emitted - belt_reference, 0)
        reduction = reference - emitted - grams - displaced
        figures = reference, emitted, grams, belt_emitted, belt_reference, displaced, reduction, down(discounted(reduction))
        exact = carbon_exact * share - project - sum(records) - max(belt - belt_exact * share, 0)
        return Year(figures, exact, (later, belt_later), len(records))

    def take(self, year):
        self.years.append(year.figures)
        self.running.append(self.total + year.figures[-1])
        self.exact += discounted(year.exact)
        self.project, self.belt = year.regions
        self.records += year.records
        self.check()

    def bound(self):
        """What the gap stays below, by the greatest stock of the list in force (#102)."""
        y = len(self.years)
        return Fraction("4.84") * max(self.stock.values()) * y * (y + 1) + 5 * y + self.records

    def check(self):
        """Demand 3, as far as it stands after the years so far."""
        demand(self.total <= self.exact, "no more than the unrounded total is reported")
        demand(self.exact - self.total < self.bound(), "the gap stays below its bound")
        for region in (self.project, self.belt):
            demand(sum(region.areas.values()) + region.balance == region.start, "areas and balance make up the starting area")
            demand(region.balance <= 132 * len(self.years), "the balance is at most 132 a year")
            demand(all(region.areas[c] <= region.exact[c] for c in CLASSES), "no area exceeds its unrounded one")

    def judge_ends(self, ends):
        """#107: at most 20 years that rise, within the dossier's, of which they have the last; or none."""
        last = self.first + self.n - 1
        rising, inside = all(a < b for a, b in zip(ends, ends[1:])), all(self.first <= end <= last for end in ends)
        require(not ends or len(ends) <= MOST_ENDS and rising and inside and ends[-1] == last, 15)

    def whole_tonnes(self, end):
        """Those of the running total at the end of a year."""
        return self.running[end - self.first + 1] // 1000000

    def issued(self, ends):
        """The tonnes issued at each end (#107): what the running total has beyond those issued before, if it has."""
        tonnes = []
        for end in ends:
            tonnes.append(max(self.whole_tonnes(end) - sum(tonnes), 0))
        self.check_issued(ends, tonnes)
        return tonnes

    def check_issued(self, ends, tonnes):
        """What an owner can rely on after each end (#107)."""
        for k in range(1, len(ends) + 1):
            most = max(0, *map(self.whole_tonnes, ends[:k]))
            demand(sum(tonnes[:k]) == most, "the issued tonnes are the greatest of 0 and the whole tonnes at each end so far")

    def open(self, piece):
        try:
            cursor, opened = Cursor(piece), Ledger()
            opened.read_opening(cursor)
            cursor.end_of_piece()
        except Refused as refused:
            self.__init__()
            return refused.number
        self.__dict__ = opened.__dict__
        return 0

    def year(self, piece, plan=b""):
        try:
            planned, cursor = read_plan(plan), Cursor(piece)
            year = self.read_year(cursor, planned)
            cursor.end_of_piece()
        except Refused as refused:
            return refused.number
        self.take(year)
        return 0

    def numbers(self, ends=()):
        tonnes = self.total // 1000000 if self.total > 0 else 0
        closing = [self.total, tonnes, self.project.balance, self.belt.balance]
        return [f for figures in self.years for f in figures] + closing + self.issued(ends)

    def close(self, buffer, ends=()):
        report = b"".join(n.to_bytes(8, "big", signed=True) for n in self.numbers(ends))
        if len(buffer) < len(report):
            return 10
        buffer[:len(report)] = report
        return 0


def reckon(dossier, buffer, plan=b"", ends=()):
    """The whole reckoning: its number and the ledger; the report in the buffer where it is 0."""
    ledger, cursor = Ledger(), Cursor(dossier)
    try:
        planned = read_plan(plan)
        ledger.read_opening(cursor)
        for _ in range(ledger.n):
            ledger.take(ledger.read_year(cursor, planned))
        if cursor.sees((b"YR",)):
            ledger.read_year(cursor, planned)
        cursor.record(b"EN", ())
        require(cursor.left() == 0, 2)
        ledger.judge_ends(ends)
    except Refused as refused:
        return refused.number, ledger
    return ledger.close(buffer, ends), ledger


def sheet(dossier, plan=b"", ends=()):
    number, ledger = reckon(dossier, bytearray(LONGEST_REPORT), plan, ends)
    if number:
        return f"refused {number}\n"
    lines = ["year reference project activity belt belt-reference displaced reduction credited"]
    for y, figures in enumerate(ledger.years):
        lines.append(" ".join(map(str, (ledger.first + y, *figures))))
    total, tonnes, balance, belt_balance = ledger.numbers()[-4:]
    lines.append(f"total {total} tonnes {tonnes} balance {balance} {belt_balance}")
    lines += [f"issued {end} {issued}" for end, issued in zip(ends, ledger.issued(ends))]
    return "".join(line + "\n" for line in lines)


def gap(dossier, plan=b"", ends=()):
    number, ledger = reckon(dossier, bytearray(LONGEST_REPORT), plan, ends)
    if number:
        return f"refused {number}\n"
    return f"total {ledger.total} unrounded {ledger.exact} gap {ledger.exact - ledger.total} bound {ledger.bound()}\n"


def years_in(text):
    """The years of a list that commas separate, none in an empty one."""
    return tuple(int(year) for year in text.split(",") if year.strip())


def main():
    options = argparse.ArgumentParser(description=__doc__, formatter_class=argparse.RawDescriptionHelpFormatter)
    options.add_argument("--gap", action="store_true")
    options.add_argument("--plan", type=pathlib.Path)
    options.add_argument("--periods", type=years_in, default=())
    given = options.parse_args()
    plan = given.plan.read_bytes() if given.plan else b""
    sys.stdout.write((gap if given.gap else sheet)(sys.stdin.buffer.read(), plan, given.periods))


if __name__ == "__main__":
    main()
