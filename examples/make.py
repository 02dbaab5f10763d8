#!/usr/bin/env python3
"""Makes the example dossiers, plans and lists of period ends, in this folder or in another: python3 examples/make.py [FOLDER]"""
import pathlib
import struct
import sys

CLASSES = "E SE P D B M MR FF FR TP PP NF".split()


def words(values):
    return b"".join(struct.pack(">Q", v) for v in values)


def areas(**units):
    return words(units.get(c, 0) for c in CLASSES)


def conversions(*cells):
    table = [0] * 144
    for start, end, units in cells:
        table[12 * CLASSES.index(start) + CLASSES.index(end)] = units
    return words(table)


def evergreen(*years):
    """Option 1 from 2020 on, 100 ha of E and no belt; each year has its days, the units of E that turn into non-forest, and its records."""
    return b"".join((
        b"HD" + struct.pack(">BHB", 1, 2020, len(years)),
        b"PA" + areas(E=100_000_000),
        b"DA" + areas(),
        *(b"YR" + struct.pack(">HH", 2020 + y, days)
          + b"CP" + conversions(("E", "E", 100_000_000 - lost), ("E", "NF", lost))
          + b"CD" + conversions() + records
          for y, (days, lost, records) in enumerate(years)),
        b"EN",
    ))


CASE_A = 366, 1_000_000, b"FU" + struct.pack(">BQ", 1, 100_000)


def case_a():
    """Document 01's case A: one year, in which one ha turns into non-forest, and 100 kg of diesel."""
    return evergreen(CASE_A)


def bad_year():
    """Case A's year and one more, in which 3 ha turn into non-forest: its reduction is negative, and deducted whole."""
    return evergreen(CASE_A, (365, 3_000_000, b""))


PERIOD_ENDS = 2021, 2022, 2024


def periods():
    """Five years, case A's the first. In 2022, a period by itself, 3.5 ha turn into non-forest: no tonnes are issued at its end, and at the next
    one only those beyond what was issued before."""
    return evergreen(CASE_A, (365, 800_000, b""), (365, 3_500_000, b""), (365, 900_000, CASE_A[2]), (366, 1_100_000, b""))


def listed(ends):
    """End years as text, for a host's option."""
    return (",".join(map(str, ends)) + "\n").encode()


def twenty_years():
    """Option 2 over twenty years: every class keeps 97 percent, loses two to NF and one to the next class."""
    start = {c: 1_000_000 * (k + 1) for k, c in enumerate(CLASSES)}
    belt = {c: 250_000 for c in CLASSES}
    rows = [[970_000 * (i == j) + 20_000 * (j == 11) + 10_000 * (j == (i + 1) % 12) for j in range(12)] for i in range(12)]
    stay = conversions(*((c, c, a) for c, a in start.items()))
    turn = conversions(*((c, c, a - 1_000) for c, a in belt.items()), *((c, "NF", 1_000) for c in CLASSES[:11]), ("NF", "E", 1_000))
    years = b"".join(
        b"YR" + struct.pack(">HH", year, 365) + b"CP" + stay + b"CD" + turn
        + b"VE" + struct.pack(">BIII", 2, 3, 12_000, 90) + b"NI" + struct.pack(">BBQH", 1, 2, 50_000, 4_600)
        + b"LI" + struct.pack(">BQ", 3, 10_000)
        for year in range(2010, 2030))
    matrix = b"".join(struct.pack(">I", p) for row in rows for p in row)
    return (b"HD" + struct.pack(">BHB", 2, 2010, 20) + b"PA" + areas(**start) + b"DA" + areas(**belt)
            + b"MP" + matrix + years + b"EN")


def newer_stocks():
    """Option 2 over two years by stocks that the owner files: forest of four classes that is lost, degrades and grows back, and a belt."""
    stocks = dict(zip(CLASSES, (9_685, 12_940, 5_910, 5_075, 1_260, 8_820, 8_930, 4_210, 4_050, 5_480, 5_725, 0)))
    rates = {("E", "NF"): 21_000, ("E", "FR"): 4_000, ("SE", "NF"): 27_500, ("SE", "E"): 6_000, ("D", "NF"): 33_000, ("D", "B"): 5_000,
             ("FR", "NF"): 60_000, ("FR", "SE"): 2_000, ("NF", "FR"): 1_500}
    rows = [rates.get((i, j), 0) + (i == j) * (1_000_000 - sum(p for (c, _), p in rates.items() if c == i)) for i in CLASSES for j in CLASSES]
    start = dict(E=5_400_000_000, SE=3_150_000_000, D=1_275_500_000, FR=310_250_000)
    belt = dict(E=820_000_000, D=440_000_000, NF=95_000_000)
    years = b""
    for year, days, lost, degraded, diesel in ((2026, 214, 18_400_000, 7_150_000, 900_000), (2027, 365, 31_250_000, 9_875_000, 1_600_000)):
        turned = (("E", "NF", lost), ("E", "FR", degraded), ("E", "E", start["E"] - lost - degraded),
                  ("SE", "E", 4_100_000), ("SE", "SE", start["SE"] - 4_100_000), ("D", "D", start["D"]), ("FR", "FR", start["FR"]))
        years += (b"YR" + struct.pack(">HH", year, days) + b"CP" + conversions(*turned)
                  + b"CD" + conversions(("E", "NF", 9_500_000), ("E", "E", 810_500_000), ("D", "D", belt["D"]), ("NF", "NF", belt["NF"]))
                  + b"FU" + struct.pack(">BQ", 1, diesel) + b"NI" + struct.pack(">BBQH", 2, 1, 250_000, 180))
    return (b"HD" + struct.pack(">BHB", 2, 2026, 2) + b"ST" + struct.pack(">12H", *stocks.values()) + b"PA" + areas(**start)
            + b"DA" + areas(**belt) + b"MP" + struct.pack(">144I", *rows) + years + b"EN")


def residue(crop, area, dry_matter, share, above, below, above_content, below_content):
    return b"CR" + struct.pack(">BIIHHHHH", crop, area, dry_matter, share, above, below, above_content, below_content)


def fixing_crops():
    """Option 1 over two years, with groundnut and mung bean grown on plots within the project: their residue is left on the field, and its
    nitrogen is reckoned by area and yield. The crops are sown anew each year, so that the renewed share is 1."""
    start, belt = dict(E=5_000_000_000, SE=1_200_000_000), dict(E=900_000_000, NF=60_000_000)
    groundnut = (320, 1_650, 10_000, 200, 60, 160, 140), (340, 1_720, 10_000, 197, 59, 160, 140)
    mung_bean = (210, 1_130, 10_000, 188, 55, 80, 80), (180, 1_240, 10_000, 182, 54, 80, 80)
    years = b""
    for y, (lost, belt_lost, diesel) in enumerate(((42_000_000, 20_500_000, 5_400_000), (38_250_000, 31_000_000, 5_900_000))):
        years += (b"YR" + struct.pack(">HH", 2023 + y, (365, 366)[y])
                  + b"CP" + conversions(("E", "NF", lost), ("E", "E", start["E"] - lost), ("SE", "SE", start["SE"]))
                  + b"CD" + conversions(("E", "NF", belt_lost), ("E", "E", belt["E"] - belt_lost), ("NF", "NF", belt["NF"]))
                  + b"FU" + struct.pack(">BQ", 1, diesel) + residue(1, *groundnut[y]) + residue(1, *mung_bean[y]))
    return b"HD" + struct.pack(">BHB", 1, 2023, 2) + b"PA" + areas(**start) + b"DA" + areas(**belt) + years + b"EN"


def plan(*years):
    """Each year with its records."""
    return b"".join(b"PY" + struct.pack(">H", year) + records for year, records in years) + b"EN"


PLANNED_YEARS = (
    (2021, b"VE" + struct.pack(">BIII", 2, 3, 12_000, 90) + b"NI" + struct.pack(">BBQH", 1, 1, 50_000, 4_600)),
    (2022, b"VE" + struct.pack(">BIII", 2, 2, 12_000, 90) + b"LI" + struct.pack(">BQ", 3, 250_000)),
    (2023, b"VE" + struct.pack(">BIII", 2, 2, 9_000, 90)),
)


def planned():
    """Case A's year and two more, whose activities are planned ones; the plan has a year that the dossier does not reach."""
    return evergreen(CASE_A, (365, 800_000, b"PL"), (365, 1_200_000, b"PL")), plan(*PLANNED_YEARS)


def refusals():
    """One dossier for each refusal that bytes alone can bring, case A or another example with one fault; 12 is that of its plan, 13 that no
    plan is lent, 14 that the invoice for the diesel is booked twice, 15 that its list of period ends lacks the last year."""
    good, long = case_a(), twenty_years()

    def with_bytes(data, at, new):
        return data[:at] + new + data[at + len(new):]

    fuel = good[-13:-2]
    return {
        1: good[:-1],
        2: good + b"\n",
        3: with_bytes(good, 5, bytes([21])),
        4: with_bytes(good, 8, b"\xff"),
        5: with_bytes(long, 204, struct.pack(">I", 969_999)),
        6: with_bytes(good, 206, struct.pack(">H", 367)),
        7: with_bytes(good, 210, struct.pack(">Q", 99_000_001)),
        8: with_bytes(good, len(good) - 11, bytes([4])),
        9: good[:-2] + b"".join(b"FU" + struct.pack(">BQ", 1, 100_000 + k) for k in range(1, 61)) + b"EN",
        11: with_bytes(newer_stocks(), 8, struct.pack(">H", 50_001)),
        12: planned()[0],
        13: evergreen((366, 1_000_000, b"PL")),
        14: good[:-2] + fuel + b"EN",
        15: periods(),
    }


def falling_years():
    """The plan of refusal 12: the planned example's, its years from the last to the first."""
    return plan(*reversed(PLANNED_YEARS))


if __name__ == "__main__":
    folder = pathlib.Path(sys.argv[1]) if len(sys.argv) > 1 else pathlib.Path(__file__).parent
    (folder / "case-a.dossier").write_bytes(case_a())
    (folder / "bad-year.dossier").write_bytes(bad_year())
    (folder / "twenty-years.dossier").write_bytes(twenty_years())
    (folder / "newer-stocks.dossier").write_bytes(newer_stocks())
    (folder / "fixing-crops.dossier").write_bytes(fixing_crops())
    for suffix, data in zip(("dossier", "plan"), planned()):
        (folder / f"planned.{suffix}").write_bytes(data)
    for number, data in refusals().items():
        (folder / f"refused-{number}.dossier").write_bytes(data)
    (folder / "refused-12.plan").write_bytes(falling_years())
    (folder / "periods.dossier").write_bytes(periods())
    (folder / "periods.ends").write_bytes(listed(PERIOD_ENDS))
    (folder / "refused-15.ends").write_bytes(listed(PERIOD_ENDS[:-1]))
