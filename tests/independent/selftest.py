#!/usr/bin/env python3
"""Shows that the independent reckoner checks demand 3 and what is issued (#107): each claim holds just inside its bound, and fails just
outside it.

    python3 tests/independent/selftest.py
"""
import sys
from fractions import Fraction

import reckoner
from dossiers import PLANNED, areas, case_a, encode, limestone, pieces, plan

LITTLE = Fraction(1, 10**30)
# the greatest stock S, years, activity records, and what the gap stays below: 4.84 S n (n + 1) + 5 n + m, worked out by hand; the
# greatest built-in stock is 13,511
BOUNDS = [(*given, Fraction(bound)) for *given, bound in (
    (13511, 0, 0, "0"), (13511, 1, 0, "130791.48"), (13511, 1, 60, "130851.48"), (13511, 2, 3, "392372.44"), (13511, 20, 0, "27465260.8"),
    (13511, 20, 1200, "27466460.8"), (0, 1, 0, "5"), (0, 2, 3, "13"), (1, 1, 0, "14.68"), (50000, 0, 0, "0"), (50000, 1, 0, "484005"),
    (50000, 20, 1200, "101641300"))]


def holds(check, *given):
    try:
        check(*given)
    except AssertionError:
        return False
    return True


def ledger_of(years, records, stocks=None):
    """A ledger that has so many years and records, with areas of 3,000 units in each class and nothing lost; by the built-in stocks or others."""
    ledger = reckoner.Ledger()
    ledger.stock = dict(zip(reckoner.CLASSES, stocks)) if stocks else reckoner.STOCK
    ledger.years, ledger.records = [(0,) * 8] * years, records
    ledger.exact = Fraction(1, 10)
    ledger.project, ledger.belt = reckoner.Region([3000] * 12), reckoner.Region([3000] * 12)
    return ledger


def expect(found, due, what):
    if found != due:
        sys.exit(f"the independent reckoner's check {'passes' if found else 'fails'} where {what}")


def test_totals():
    for stock, years, records, bound in (given for given in BOUNDS if given[1]):
        ledger, which = ledger_of(years, records, areas(M=stock)), f"of stock {stock}, {years} years, {records} records"
        for gap, due, what in ((Fraction(0), True, "the gap is 0"), (-LITTLE, False, "more than the unrounded total is reported"),
                               (bound - LITTLE, True, f"the gap is just below its bound {which}"), (bound, False, f"the gap is its bound {which}")):
            for total in (0, -7, 10**15):
                ledger.running, ledger.exact = [total], total + gap
                expect(holds(ledger.check), due, what)


def test_bounds():
    for stock, years, records, bound in BOUNDS:
        for c in reckoner.CLASSES[:-1]:
            lists = [areas(**{c: stock})] + [areas(**{"B": 1, c: stock})] * (stock > 1) + [None] * (stock == 13511)
            for stocks in lists:
                found = ledger_of(years, records, stocks).bound()
                expect(found == bound, True, f"the bound of stock {stock} of {c}, {years} years and {records} records is {found}, not {bound}")


def test_stocks():
    """An opening's bound is by the stocks that it files, the next one's by its own."""
    head, _ = pieces(case_a())
    ledger = reckoner.Ledger()
    for stocks, bound in ((areas(E=50000), "484005"), (None, "130791.48"), (areas(), "5"), (areas(E=1), "14.68")):
        piece = head[:1] + ([("ST", stocks)] if stocks else []) + head[1:]
        expect(ledger.open(encode(piece)) == 0, True, "case A is opened")
        ledger.years = [(0,) * 8]
        expect(ledger.bound() == Fraction(bound), True, f"the bound of a year by the stocks {stocks} is {bound}")


def test_planned_records():
    """Of a planned year the plan's records count in the bound, of any other year the dossier's."""
    head, (due,) = pieces(case_a())
    limes = [limestone(grams) for grams in range(1, 61)]
    listed = encode(plan((2019, limes), (2020, limes[:3]), (2021, limes[:7])))
    for piece, records, bound in ((due[:3] + [PLANNED], 3, "130794.48"), (due, 1, "130792.48"), (due[:3], 0, "130791.48")):
        ledger, which = reckoner.Ledger(), f"of {records} records taken beside a plan"
        expect(ledger.open(encode(head)) == 0 and ledger.year(encode(piece), listed) == 0, True, f"a year {which} is given")
        for gap, allowed, what in ((Fraction(bound) - LITTLE, True, "just below"), (Fraction(bound), False, "at")):
            ledger.exact = ledger.total + gap
            expect(holds(ledger.check), allowed, f"the gap is {what} its bound {which}")


def test_residue_records():
    """CR count in the bound as the other records do, in a year's own run and in a plan (#106)."""
    head, (due,) = pieces(case_a())
    tables, fuel = due[:3], due[3:]
    residues = [("CR", [crop, 1, 1, 1, 1, 0, 1, 0]) for crop in (1, 2)]
    for run, bound in ((residues[:1], "130792.48"), (residues, "130793.48"), (residues + fuel, "130794.48"), (residues[1:] + fuel, "130793.48")):
        for piece, listed in ((tables + run, b""), (tables + [PLANNED], encode(plan((2020, run))))):
            ledger, which = reckoner.Ledger(), f"of {len(run)} records with CR, {'planned' if listed else 'its own'}"
            expect(ledger.open(encode(head)) == 0 and ledger.year(encode(piece), listed) == 0, True, f"a year {which} is given")
            expect(ledger.bound() == Fraction(bound), True, f"the bound {which} is {ledger.bound()}, not {bound}")
            emitted = Fraction(11473 * run.count(residues[0]) + 4917 * run.count(residues[1]), 2 * 10**10) + 318630 * run.count(*fuel)
            exact = Fraction(4, 5) * (833569000 - Fraction(100430000000, 300) - emitted)
            expect(ledger.exact == exact, True, f"the unrounded total {which} is {ledger.exact}, not {exact}")


def test_regions():
    for name in ("project", "belt"):
        for years in (1, 2, 20):
            for lost, due in ((0, True), (132 * years, True), (132 * years + 1, False)):
                ledger = ledger_of(years, 0)
                region = getattr(ledger, name)
                region.areas["E"], region.balance = 3000 - lost, lost
                expect(holds(ledger.check), due, f"the {name} balance is {lost} after {years} years")
        for c in reckoner.CLASSES:
            for change, due in ((0, True), (-LITTLE, False)):
                ledger = ledger_of(1, 0)
                getattr(ledger, name).exact[c] += change
                expect(holds(ledger.check), due, f"the unrounded {name} area {c} is {change} beside the rounded one")
            for change in (1, -1):
                ledger = ledger_of(1, 0)
                region = getattr(ledger, name)
                region.areas[c] += change
                region.exact[c] += 1
                expect(holds(ledger.check), False, f"the {name} area {c} and its balance do not make up the starting area")
        ledger = ledger_of(1, 0)
        getattr(ledger, name).balance = 1
        expect(holds(ledger.check), False, f"an invented {name} balance is reported")


# the running total after each year from 2019 on, the ends, and the tonnes issued at each
ISSUED = (((5000000, 10000000, 6000000, 9000000, 13000000), (2020, 2021, 2023), [10, 0, 3]), ((-1, 999999, 1000000), (2019, 2020, 2021), [0, 0, 1]),
          ((5000000, 4999999, 5000000), (2019, 2020, 2021), [5, 0, 0]), ((-5000000, -1, 0), (2019, 2020, 2021), [0, 0, 0]),
          ((9000000, 2000000), (2020,), [2]), ((10**16,), (2019,), [10**10]))


def test_issued():
    """A tonne more or less at one end, or one issued an end too early or too late, and a total just below a whole tonne."""
    ledger = reckoner.Ledger()
    ledger.first = 2019
    for running, ends, tonnes in ISSUED:
        ledger.running, which = [0, *running], f"at the ends {ends} of running totals of {running} g"
        expect(ledger.issued(ends) == tonnes, True, f"{ledger.issued(ends)} tonnes are issued {which}, not {tonnes}")
        expect(holds(ledger.check_issued, ends, tonnes), True, f"{tonnes} tonnes are issued {which}")
        for k in range(len(ends)):
            for more, then in ((1, 0), (-1, 0), (1, -1), (-1, 1)):
                wrong = [t + more * (j == k) + then * (j == k + 1) for j, t in enumerate(tonnes)]
                expect(holds(ledger.check_issued, ends, wrong), False, f"{wrong} tonnes are issued {which}")
    for grams, tonnes in ((-1000000, 0), (-1, 0), (0, 0), (999999, 0), (1000000, 1), (1000001, 1), (1999999, 1), (2000000, 2)):
        ledger.running = [0, grams]
        for given in (-1, 0, 1, 2):
            expect(holds(ledger.check_issued, (2019,), [given]), given == tonnes, f"{given} tonnes are issued of {grams} g")


class Counting(reckoner.Ledger):
    checks, issues = 0, 0

    def check(self):
        Counting.checks += 1
        super().check()

    def check_issued(self, ends, tonnes):
        Counting.issues += len(ends)
        super().check_issued(ends, tonnes)


def test_calls():
    """Every accepted year is checked, in the ledger's calls and in the whole reckoning, and there what is issued."""
    head, years = pieces(case_a())
    ledger = reckoner.Ledger()
    expect(ledger.open(encode(head)) == 0, True, "case A is opened")
    ledger.project.balance += 1
    try:
        ledger.year(encode(years[0]))
        expect(True, False, "a year is given to a ledger with an invented balance")
    except AssertionError:
        pass
    plain, reckoner.Ledger = reckoner.Ledger, Counting
    try:
        expect(reckoner.reckon(encode(case_a()), bytearray(104), ends=(2020,))[0] == 0, True, "case A is reckoned with an end")
        expect((Counting.checks, Counting.issues) == (1, 1), True, "each year and each end is checked once")
    finally:
        reckoner.Ledger = plain


def test_rounding():
    """The rounded reckoning errs on the safe side: some gap is seen, so that the totals compared are two."""
    _, ledger = reckoner.reckon(encode(case_a()), bytearray(96))
    expect(ledger.exact > ledger.total, True, "case A has a gap")
    expect(ledger.exact == Fraction(4, 5) * (833569000 - Fraction(100430000000, 300) - 318630), True, "case A's unrounded total is reckoned by hand")


def main():
    test_bounds()
    test_stocks()
    test_totals()
    test_planned_records()
    test_residue_records()
    test_regions()
    test_issued()
    test_calls()
    test_rounding()
    print("the independent reckoner checks demand 3 and what is issued: each claim fails just outside its bound")


if __name__ == "__main__":
    main()
