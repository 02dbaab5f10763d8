#!/usr/bin/env python3
"""Makes what the test of the C header reads: the longest dossier, no two numbers of whose report are alike save the reduction
and the credit of a bad year, and those numbers.

    python3 tests/independent/figures.py FOLDER     writes FOLDER/figures.dossier and FOLDER/figures.txt

A line of figures.txt is the name of a figure, the year counted from 0, and the figure; the total and what follows it have
the number of years there.
"""
import pathlib
import random
import sys

import reckoner
from dossiers import END, encode, opening, stay_but, year

FIGURES = "reference project activity belt belt_reference displaced reduction credited".split()
CLOSING = "total tonnes balance belt_balance".split()


def twenty_years(rng):
    """Twenty years under Option 2 by filed stocks, with 58 VE and two CR in each, every fifth one bad, the belt always at a loss."""
    project, belt = [rng.randint(1, 10**11) for _ in range(12)], [rng.randint(1, 10**8) * (k < 8) for k in range(12)]
    stocks = [rng.randint(1, 50000) for _ in range(11)] + [0]
    records = opening(2, 2007, 20, project, belt, stay_but(rng, [1000000] * 12, 100000), stocks)
    for y in range(20):
        run = [("VE", [rng.randint(1, 3), *(rng.randint(1, 1000) for _ in range(3))]) for _ in range(58)]
        run += [("CR", [rng.randint(1, 2), rng.randint(1, 500), rng.randint(1, 5000), *(rng.randint(1, 500) for _ in range(5))]) for _ in range(2)]
        records += year(2007 + y, 300 + y, stay_but(rng, project, 200000 if y % 5 == 4 else 1000), stay_but(rng, belt, 900000), *run)
    return records + [END]


def tells_apart(ledger):
    """Whether no two numbers are alike but where a bad year is credited whole, none is 0, and years of either sign come to a total above 0."""
    numbers, bad = ledger.numbers(), sum(figures[-1] < 0 for figures in ledger.years)
    return len(set(numbers)) == len(numbers) - bad and 0 not in numbers and 0 < bad < len(ledger.years) and ledger.total > 0


def main():
    if len(sys.argv) != 2:
        sys.exit(__doc__)
    data = encode(twenty_years(random.Random(2)))
    number, ledger = reckoner.reckon(data, bytearray(1312))
    if number or not tells_apart(ledger):
        sys.exit("the dossier does not tell the figures apart")
    lines = [f"{name} {y} {figure}" for y, figures in enumerate(ledger.years) for name, figure in zip(FIGURES, figures)]
    lines += [f"{name} {len(ledger.years)} {number}" for name, number in zip(CLOSING, ledger.numbers()[-4:])]
    folder = pathlib.Path(sys.argv[1])
    (folder / "figures.dossier").write_bytes(data)
    (folder / "figures.txt").write_text("".join(line + "\n" for line in lines))


if __name__ == "__main__":
    main()
