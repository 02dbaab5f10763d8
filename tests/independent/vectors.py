#!/usr/bin/env python3
"""Makes what the programs vectors and ledgertrace read, and the text due of each by the independent reckoner.

    python3 tests/independent/vectors.py            writes stdin and stdout of crates/vectors and crates/ledgertrace
    python3 tests/independent/vectors.py --check    fails where a stored file is another
    python3 tests/independent/vectors.py --library LIBRARY CALL    tries the stored vectors of crates/vectors on a call in C that takes a
                                                                   plan and period ends, those without ends on kh_am004_reckon_plan and
                                                                   those with neither on kh_am004_reckon, if they are there

A vector is a label, a dossier, a plan, the end years of periods and the length of a buffer filled with 165. Each states here its number, and
the figures that tell.
"""
import collections
import ctypes
import itertools
import pathlib
import struct
import sys
from fractions import Fraction
from typing import NamedTuple

import reckoner
from compare import SLICES, closing, lent, lent_ends, reckoning_call, trace
from dossiers import (END, FIELDS, GREATEST, LIMIT, MOST_PLANNED, MOST_RESIDUES, MOST_STOCK, MOST_WIDE, PLANNED, areas, boundaries, case_a,
                      changed, encode, limestone, matrix, of_one_slot, opening, pieces, places, plan, stays, table, year)

ROOT = pathlib.Path(__file__).resolve().parents[2]
ROOM = reckoner.LONGEST_REPORT
FIGURES = "reference project activity belt belt_reference displaced reduction credited total tonnes balance belt_balance".split()

PROJECT, BELT = areas(E=700000, SE=200000, MR=90000, TP=10000), areas(E=50000, FR=30000, NF=20000)
MATRIX = matrix(("E", "NF", 20000), ("E", "SE", 3000), ("SE", "E", 15000), ("MR", "E", 50000), ("FR", "NF", 97200), ("NF", "E", 1000))
NEWER = areas(E=10250, SE=12990, P=6100, D=5230, B=1840, M=9012, MR=8777, FF=4120, FR=3905, TP=6033, PP=5871)
RUN = [("FU", [2, 1234567]), ("VE", [1, 3, 12000, 90]), ("NI", [1, 2, 50000, 4600]), ("LI", [3, 10000]),
       ("CR", [1, 25, 1800, 9000, 110, 20, 160, 140])]
# 27,332 g, small enough for a planned year
LITTLE = [("FU", [2, 1234]), ("VE", [1, 3, 12, 90]), ("NI", [1, 2, 5000, 4600]), ("LI", [3, 1000]), ("CR", [2, 3, 400, 5000, 50, 10, 60, 90])]
MOST_RESIDUE = ("CR", [1, 10000, 10000, 10000, 500, 500, 10000, 10000])  # 5,736,500,000,000 g, more than any other record emits


# Dossiers

def years_of(option, first, n, project, belt, tables, probabilities=None, days=(), run=()):
    """n years of the same tables and records."""
    days = days or [reckoner.days_of(first + y) for y in range(n)]
    records = opening(option, first, n, project, belt, probabilities)
    return records + [record for y in range(n) for record in year(first + y, days[y], *tables, *run)] + [END]


def one_year(option, project, belt, converted, belt_converted, *run, probabilities=None, first=2019, days=365):
    return years_of(option, first, 1, project, belt, (converted, belt_converted), probabilities, [days], run)


def emitting(*run, first=2019, days=365):
    """A year without forest: its activities are all that it emits."""
    return one_year(1, areas(NF=1), areas(), table(("NF", "NF", 1)), table(), *run, first=first, days=days)


def filing(stocks, records):
    """The records with ST after HD."""
    return [records[0], ("ST", list(stocks)), *records[1:]]


def base(option=1, n=1, run=RUN):
    """A sound dossier from 2019 on; each year has tables of its own."""
    records = opening(option, 2019, n, PROJECT, BELT, MATRIX)
    for y in range(n):
        project = table(("E", "E", 690000 - y), ("E", "NF", 10000 + y), ("SE", "E", 5000), ("SE", "SE", 195000), ("MR", "MR", 90000),
                        ("TP", "NF", 10000))
        belt = table(("E", "B", 3000 + y), ("E", "NF", 2000), ("E", "E", 45000 - y), ("FR", "FR", 30000), ("NF", "NF", 20000))
        records += year(2019 + y, 300 + y, project, belt, *run)
    return records + [END]


def different(count, run):
    """So many records, no two of them equal (#105): these in turn, each time with one more in the last field, but CR only twice (#106)."""
    turns = [(mark, fields, more) for more in range(count) for mark, fields in run if mark != "CR" or more < MOST_RESIDUES]
    return [(mark, [*fields[:-1], fields[-1] + more]) for mark, fields, more in turns[:count]]


def vehicles(grams):
    """Sixty VE on diesel that use so much each, no two of them equal: the product of their factors is the same."""
    counts, rates = ([n for n in range(1, top + 1) if grams % n == 0] for top in (GREATEST["VE"][1], GREATEST["VE"][3]))
    factors = ((n, grams // (n * rate), rate) for n in counts for rate in rates if grams % (n * rate) == 0)
    return [("VE", [1, *given]) for given in factors if given[1] <= GREATEST["VE"][2]][:60]


def greatest_run():
    """Sixty different records that are as long and emit as much as they can: 58 VE and two CR."""
    return vehicles(LIMIT)[:58] + [MOST_RESIDUE, ("CR", [1, 1, 10**8, *MOST_RESIDUE[1][3:]])]


def planning(records, *numbers):
    """The dossier with PL in the years of these numbers, or in each, and their records as a plan."""
    head, dues = pieces(records)
    listed = []
    for due in dues:
        if not numbers or due[0][1][0] in numbers:
            listed.append((due[0][1][0], due[3:]))
            due[3:] = [PLANNED]
    return head + [record for due in dues for record in due] + [END], plan(*listed)


# Vectors

class Vector(NamedTuple):
    label: str
    number: int
    dossier: bytes
    plan: bytes
    ends: tuple
    room: int
    figures: dict


def need(records, ends=()):
    """The bytes of the report."""
    return 64 * records[0][1][2] + 32 + 8 * len(ends)


def as_bytes(given):
    return given if isinstance(given, bytes) else encode(given)


def index(records, mark, nth=0):
    return [k for k, record in enumerate(records) if record[0] == mark][nth]


def fields(records, mark, nth=0):
    return records[index(records, mark, nth)][1]


def put(records, mark, cells, nth=0):
    return changed(records, index(records, mark, nth), cells)


def before(records, mark, nth=0):
    """The bytes before a record."""
    return encode(records[:index(records, mark, nth)])


def accepted(label, records, room=None, plan=b"", ends=(), **figures):
    return Vector(label, 0, encode(records), as_bytes(plan), ends, need(records, ends) if room is None else room, figures)


def refused(number, label, data, room=ROOM, plan=b"", ends=()):
    return Vector(label, number, as_bytes(data), as_bytes(plan), ends, room, {})


def fault(number, label, records, mark, cells, nth=0):
    """A record with some fields changed, at which the bytes end."""
    k = index(records, mark, nth)
    return refused(number, label, changed(records, k, cells)[:k + 1])


# Document 01's examples and edges

def examples():
    yield accepted("case A", case_a(), reference=833569000, project=334766667, activity=318630, reduction=498483703, credited=398786962,
                   total=398786962, tonnes=398, balance=0, belt_balance=0, unrounded=Fraction(1196360888, 3))
    for i, j, factor, grams in (("E", "SE", 0, 0), ("E", "TP", 0, 0), ("MR", "E", 110, 5), ("TP", "NF", 5654, 208)):
        moved = one_year(2, areas(**{i: 1}), areas(), table((i, j, 1)), table())
        yield accepted(f"factor {factor} from {i} to {j}", moved, project=grams)
    yield accepted("diesel 1,000 g", emitting(("FU", [1, 1000])), activity=3187)
    yield accepted("NI 1, 1, 1,000,000, 4,600", emitting(("NI", [1, 1, 1000000, 4600])), activity=2854202)
    yield accepted("limestone 1 g", emitting(("LI", [1, 1])), activity=1)
    for loss in (1, 4, 5, 6, 10):
        yield accepted(f"reduction -{loss}", emitting(limestone(loss)), reduction=-loss, credited=-loss, total=-loss, tonnes=0)
    three = areas(E=3)
    yield accepted("E 3 units", one_year(1, three, areas(), stays(three), table()), reference=0, balance=1)


def edges():
    yield longest()
    yield refused(2, "a byte after the longest dossier", longest().dossier + b"\0")
    yield refused(3, "n 21", put(base(), "HD", {2: 21}))
    yield refused(5, "row sum 999,999", put(base(2), "MP", {0: MATRIX[0] - 1}))
    yield refused(5, "row sum 1,000,001", put(base(2), "MP", {143: MATRIX[143] + 1}))
    for first, days in ((2000, 366), (2096, 366), (2100, 365)):
        yield accepted(f"{first} has a day {days}", emitting(first=first, days=days))
    for first, days in ((2000, 367), (2096, 367), (2100, 366), (2200, 366), (2019, 366)):
        yield refused(6, f"{first} has no day {days}", emitting(first=first, days=days)[:-3])
    yield refused(6, "2100 has no day 366, whole dossier", emitting(first=2100, days=366))
    tables = stays(PROJECT), stays(BELT)
    yield accepted("2099 and 2100", years_of(1, 2099, 2, PROJECT, BELT, tables))
    yield refused(6, "2100 as the second year has no day 366", years_of(1, 2099, 2, PROJECT, BELT, tables, days=(365, 366))[:7])


def longest():
    """As many records as there can be, all different, and amounts as great as they can be."""
    turned = matrix(("SE", "NF", 1000000), ("NF", "SE", 1000000))
    records = opening(2, 2200, 20, areas(SE=LIMIT), areas(SE=LIMIT), turned, areas(SE=MOST_STOCK))
    for y, run in enumerate([greatest_run()] * 20):
        lost = table(("SE", "NF", LIMIT - y), ("SE", "SE", y))
        records += year(2200 + y, reckoner.days_of(2200 + y), lost, lost, *run)
    require(len(encode(records + [END])) == 65328, "the longest dossier has not 65,328 bytes")
    return accepted("n 20, the longest dossier", records + [END], activity=58 * 3186300000000 + 2 * 5736500000000)


# Each cause at each place

def cuts():
    for mark, form in [(mark, form) for mark, form in FIELDS.items() if mark != "PY"]:
        records, listed = planning(base(run=LITTLE)) if mark == "PL" else (base(2 if mark == "MP" else 1), b"")
        records = filing(NEWER, records) if mark == "ST" else records
        data, (start, end) = encode(records), places(records)[index(records, mark):][:2]
        yield refused(1, f"cut before {mark}", data[:start], plan=listed)
        yield refused(1, f"cut inside the mark {mark}", data[:start + 1], plan=listed)
        for f in range(min(len(form), 2)):
            yield refused(1, f"cut before field {f + 1} of {mark}", data[:start + 2 + struct.calcsize(">" + form[:f])])
        if form:
            yield refused(1, f"cut before the last byte of {mark}", data[:end - 1])
    yield refused(1, "cut before YR, Option 2", before(base(2), "YR"))
    yield refused(1, "cut before the second YR", before(base(n=2), "YR", 1))
    yield refused(1, "a byte that begins no mark", b"?")
    yield refused(1, "a byte that begins no mark after LI", before(base(), "CR") + b"?")
    yield refused(1, "a byte that begins no mark after CR", before(base(), "EN") + b"?")


# The records of RUN, and what follows each.
FOLLOWING = (("FU", "VE"), ("VE", "NI"), ("NI", "LI"), ("LI", "CR"), ("CR", "EN"))


def marks():
    """Another mark wherever one is due, and nothing after it."""
    one, run = base(), [*GREATEST, "YR", "EN"]
    spots = [("at the start", b"", ["HD"]), ("after HD", before(one, "PA"), ["PA", "ST"]),
             ("after ST", before(filing(NEWER, one), "PA"), ["PA"]), ("after PA", before(one, "DA"), ["DA"]),
             ("after DA, Option 1", before(one, "YR"), ["YR"]), ("after DA, Option 2", before(base(2), "MP"), ["MP"]),
             ("after MP", before(base(2), "YR"), ["YR"]), ("after YR", before(one, "CP"), ["CP"]), ("after CP", before(one, "CD"), ["CD"]),
             ("after CD", before(one, "FU"), [*run, "PL"])]
    for place, data, due in spots:
        for mark in [mark for mark in (*FIELDS, *map(str.lower, due[:2]), "??") if mark not in due]:
            yield refused(2, f"{mark} {place}", data + mark.encode())
    for mark, after in FOLLOWING:
        for wrong in ("HD", "CD"):
            yield refused(2, f"{wrong} after {mark}", before(one, after) + wrong.encode())
    yield refused(2, "EN after the first of two years", before(base(n=2), "YR", 1) + b"EN")


def heads():
    for f, name, values in ((0, "option", (0, 3, 255)), (1, "first year", (0, 1999, 2201, 65535)), (2, "n", (0, 22, 255))):
        for value in values:
            yield fault(3, f"{name} {value}", base(), "HD", {f: value})
    yield refused(3, "option 3, whole dossier", put(base(2), "HD", {0: 3}))
    yield refused(3, "n 0 and no year", put(base()[:3] + [END], "HD", {2: 0}))


def totals():
    """Totals 0, 1, 10^12, one more, and those that are sound modulo 2^64."""
    def dossier(mark, cells):
        units = [cells.get(k, 0) for k in range(12)]
        project, belt = (units, areas()) if mark == "PA" else (areas(NF=1), units)
        return one_year(1, project, belt, table(("NF", "NF", sum(project) % 2**64)), table(("NF", "NF", sum(belt) % 2**64)))

    even = {k: LIMIT // 12 for k in range(12)}
    yield accepted("DA total 0", dossier("DA", {}))
    for mark in ("PA", "DA"):
        for name, cells in (("1", {5: 1}), ("10^12 in its last area", {11: LIMIT}), ("10^12 in all areas", even | {3: LIMIT // 12 + 4})):
            yield accepted(f"{mark} total {name}", dossier(mark, cells))
        yield refused(4, f"{mark} total 2^64 + 7", dossier(mark, {0: 2**63, 1: 2**63, 2: 7}))
        for name, cells in (("2^64 + 1 by its last area", {0: 1000, 11: 2**64 - 999}),
                            ("10^12 + 1 in its first area", {0: LIMIT + 1}), ("10^12 + 1 in its last area", {11: LIMIT + 1}),
                            ("10^12 + 1 by its last area", {0: LIMIT, 11: 1}), ("10^12 + 1 in all areas", even | {7: LIMIT // 12 + 5}),
                            ("2^65 + 7", dict.fromkeys(range(4), 2**63) | {11: 7}), ("12 x (2^64 - 1)", dict.fromkeys(range(12), -1))):
            yield fault(4, f"{mark} total {name}", dossier(mark, {}), mark, {k: cells.get(k, 0) for k in range(12)})
    yield fault(4, "PA total 0", dossier("PA", {}), "PA", {})


def rows():
    records = base(2)
    for i, name in enumerate(reckoner.CLASSES):
        yield fault(5, f"row sum 999,999 of {name}", records, "MP", {13 * i: MATRIX[13 * i] - 1})
        yield fault(5, f"row sum 1,000,001 of {name}", records, "MP", {13 * i: MATRIX[13 * i] + 1})
    for i, name in ((0, "E"), (11, "NF")):
        row = dict.fromkeys(range(12 * i, 12 * i + 12), 0)
        yield fault(5, f"row sum 0 of {name}", records, "MP", row)
        yield fault(5, f"row sum 2^32 + 1,000,000 of {name}", records, "MP", {12 * i + 2: 2**31, 12 * i + 5: 2**31})
        yield fault(5, f"row sum 2^32 + 1,000,000 of {name} by its last number", records, "MP", row | {12 * i: 1000001, 12 * i + 11: -1})
    yield fault(5, "row sums 999,999 and 1,000,001", records, "MP", {13: MATRIX[13] - 1, 26: MATRIX[26] + 1})
    yield fault(5, "matrix turned over", records, "MP", {12 * j + i: MATRIX[12 * i + j] for i in range(12) for j in range(12)})


def years():
    one, two = base(run=[]), base(n=2, run=[])
    for name, number in (("before", 2018), ("after", 2020), ("0", 0), ("65535", 65535)):
        yield fault(6, f"first YR: year {name}", one, "YR", {0: number})
    for name, number in (("again", 2019), ("after a gap", 2021)):
        yield fault(6, f"second YR: year {name}", two, "YR", {0: number}, 1)
    for days in (0, 367, 65535):
        yield fault(6, f"first YR: d {days}", one, "YR", {1: days})
    for days in (0, 367):
        yield fault(6, f"second YR: d {days}", two, "YR", {1: days}, 1)
    yield accepted("second YR: d 366", put(two, "YR", {1: 366}, 1))
    yield refused(6, "YR after the last year", one[:-1] + [("YR", [2020, 300])])
    yield refused(6, "a year more than n", put(two, "HD", {2: 1}))
    yield refused(1, "YR cut after the last year", encode(one[:-1] + [("YR", [2020, 300])])[:-1])
    yield refused(1, "mark YR alone after the last year", encode(one[:-1]) + b"YR")
    yield refused(2, "a year less than n", put(one, "HD", {2: 2}))


def conversions():
    one, two = base(), base(n=2, run=[])
    for mark in ("CP", "CD"):
        cells = fields(one, mark)
        for name, other in (("2^64 more", {5: 2**63, 6: 2**63}), ("2^64 more by its last cell", {1: -1, 143: cells[143] + 1})):
            yield refused(7, f"{mark} total {name}", put(one, mark, other))
        for name, other in (("one less", {0: cells[0] - 1}), ("one more", {0: cells[0] + 1}), ("one more at last", {143: cells[143] + 1}),
                            ("2^65 more", dict.fromkeys((3, 4, 5, 6), 2**63)), ("144 x (2^64 - 1)", dict.fromkeys(range(144), -1)),
                            ("0", dict.fromkeys(range(144), 0))):
            yield fault(7, f"{mark} total {name}", one, mark, other)
        yield fault(7, f"second {mark} total one less", two, mark, {0: fields(two, mark, 1)[0] - 1}, 1)
    yield fault(7, "CP total without its diagonal", one, "CP", dict.fromkeys(range(0, 144, 13), 0))
    yield fault(7, "CP total that of DA", one, "CP", dict(enumerate(fields(one, "CD"))))
    yield fault(7, "CD total that of PA", one, "CD", dict(enumerate(fields(one, "CP"))))
    yield fault(7, "CD total 1 where DA is zero", emitting(), "CD", {0: 1})
    yield accepted("rows of CP other than PA", one_year(1, areas(E=5), areas(), table(("SE", "NF", 5)), table()), project=2478)


def table_entries():
    """#104: each entry is tested against the total by itself, and the sum once a row."""
    one, greatest = base(), one_year(2, areas(E=LIMIT), areas(E=LIMIT), stays(areas(E=LIMIT)), stays(areas(E=LIMIT)))
    for mark in ("CP", "CD"):
        cells, none = fields(one, mark), dict.fromkeys(range(144), 0)
        for name, places in (("in a row", (5, 6)), ("in two rows", (5, 20)), ("in the last row", (142, 143)), ("first and last", (1, 143))):
            yield fault(7, f"{mark} with two entries of 2^63 more, {name}", one, mark, {k: 2**63 + cells[k] for k in places})
            yield fault(7, f"{mark} of two entries of 2^63 alone, {name}", one, mark, none | dict.fromkeys(places, 2**63))
        for k in (0, 11, 12, 131, 132, 143):
            after = (k + 1) % 144
            yield fault(7, f"{mark} with 2^64 - 1 at place {k}, and what wraps to the total", one, mark, {k: -1, after: cells[k] + cells[after] + 1})
            yield fault(7, f"{mark} of 2^64 - 1 at place {k} alone", one, mark, none | {k: -1})
            yield accepted(f"{mark} with the total at place {k} alone", put(greatest, mark, none | {k: LIMIT}))
            yield fault(7, f"{mark} with one more than the total at place {k} alone", greatest, mark, none | {k: LIMIT + 1})
            yield fault(7, f"{mark} with the total at place {k}, and 1 elsewhere", greatest, mark, none | {k: LIMIT, (k + 70) % 144: 1})
        for r in range(12):
            for name, more in (("less", -1), ("more", 1)):
                yield fault(7, f"{mark} with one {name} in row {r}", greatest, mark, none | {12 * r + 3: LIMIT // 2, 12 * r + 8: LIMIT // 2 + more})
        yield fault(7, f"{mark} with the total in all of a row", greatest, mark, none | dict.fromkeys(range(24, 36), LIMIT))
        yield fault(7, f"{mark} with a last row that is missing", greatest, mark, none | {0: LIMIT - 12})
        last = none | {0: LIMIT - 12} | dict.fromkeys(range(132, 144), 1)
        yield fault(7, f"{mark} with a last row one too much", greatest, mark, last | {143: 2})
        yield accepted(f"{mark} with a last row that is right", put(greatest, mark, last))
    for k, number in ((0, 1), (143, 1), (143, -1), (77, 2**63)):
        yield fault(7, f"CD with {number} at place {k} where DA is zero", emitting(), "CD", {k: number})
    yield fault(7, "CD with two entries of 2^63 where DA is zero", emitting(), "CD", {143: 2**63, 142: 2**63})
    yield accepted("CD of zeros where DA is zero", emitting())


FIELD_NAMES = {"FU": ("kind", "grams"), "VE": ("kind", "count", "average", "rate"), "NI": ("source", "crop", "grams", "content"),
               "LI": ("material", "grams"),
               "CR": ("crop", "area", "yield", "share", "above ratio", "below ratio", "above content", "below content")}
# Areas and yields whose product is 10^8, just above it, and those whose product has 32 bits in which it would be in range.
MOST_DRY = ((10000, 10000), (1, 10**8), (10**8, 1), (78125, 1280))
MUCH_DRY = ((1, 10**8 + 1), (10**8 + 1, 1), (17, 5882353), (5882353, 17), (10000, 10001), (1, MOST_WIDE), (MOST_WIDE, 1))
WRAPPED_DRY = ((65536, 65536), (2**31, 2), (2, 2**31), (65537, 65536), (641, 6700417), (2**24, 2**24), (MOST_WIDE, MOST_WIDE))


def least(mark):
    return [1 if name in ("kind", "source", "crop", "material") else 0 for name in FIELD_NAMES[mark]]


def by_two(records):
    return [records[k:k + 2] for k in range(0, len(records), 2)]


def singly(mark):
    """Records with one field at its greatest, the others at their least."""
    return [(mark, least(mark)[:f] + [top] + least(mark)[f + 1:]) for f, top in enumerate(GREATEST[mark])]


def out_of_range():
    """Records of which one field is out of range, or the product of VE or CR, each with its name; area and yield of CR have no limit of their own."""
    for mark, top in GREATEST.items():
        low = least(mark)
        for f, name in enumerate(FIELD_NAMES[mark]):
            for value in (0, top[f] + 1)[1 - low[f]:]:
                if value <= MOST_WIDE or mark != "CR":
                    yield f"{mark} {name} {value}", (mark, low[:f] + [value] + low[f + 1:])
    for count, average, rate in ((1000, 1000000, 1001), (1000, 1000000, 100000)):
        yield f"VE {count} x {average} x {rate}", ("VE", [1, count, average, rate])
    for area, dry_matter in (*MUCH_DRY, *WRAPPED_DRY):
        yield f"CR {area} x {dry_matter}", ("CR", [1, area, dry_matter, 0, 0, 0, 0, 0])


def activities():
    for mark in GREATEST:
        if mark != "CR":
            yield accepted(f"{mark} with each field at its greatest", emitting(*singly(mark)))
    for name, record in zip(FIELD_NAMES["CR"], singly("CR")):
        yield accepted(f"CR with the greatest {name} alone", emitting(record), activity=0)
    for name, record in out_of_range():
        yield refused(8, name, emitting(record))
    for mark, f, value in (("FU", 1, 2**64 - 1), ("VE", 1, 2**32 - 1), ("NI", 2, 2**63)):
        yield refused(8, f"{mark} {FIELD_NAMES[mark][f]} {value}", put(base(), mark, {f: value}))
    yield accepted("VE 1000 x 1000000 x 1000", emitting(("VE", [1, 1000, 1000000, 1000])), activity=3186300000000)
    zeros = [("FU", [3, 0]), ("VE", [2, 0, 0, 0]), ("NI", [3, 2, 0, 0]), ("LI", [2, 0]), ("CR", [2, 0, 0, 0, 0, 0, 0, 0])]
    yield accepted("zero quantities", emitting(*zeros), activity=0)
    two = base(n=2)
    yield fault(8, "a fault in the first year's last record", two, "CR", {0: 0})
    yield fault(8, "a fault in the second year's first record", two, "FU", {0: 0}, 1)


def kinds():
    """Each kind of record, in amounts that tell which is which."""
    fuel = [("FU", [1, 1000000]), ("FU", [2, 10000000]), ("FU", [3, 100000000])]
    yield accepted("diesel, gasoline and crude", emitting(*fuel), activity=3186300 + 30699900 + 310059000)
    vehicles = [("VE", [1, 10, 1000, 100]), ("VE", [2, 10, 10000, 100]), ("VE", [3, 10, 10000, 1000])]
    yield accepted("vehicles on diesel, gasoline and crude", emitting(*vehicles), activity=3186300 + 30699900 + 310059000)
    nitrogen = [("NI", [*fields, 10000]) for fields in ((1, 1, 7000), (2, 1, 10**10), (3, 1, 7 * 10**7), (1, 2, 70000), (2, 2, 7 * 10**6),
                                                        (3, 2, 7 * 10**8))]
    grams = 43434 + 66730714286 + 401555000 + 204875 + 23765500 + 1720950000
    yield accepted("nitrogen of each source and crop", emitting(*nitrogen), activity=grams)
    lime = [("LI", [1, 1000]), ("LI", [2, 1000000]), ("LI", [3, 1000000000])]
    yield accepted("limestone, dolomite and urea", emitting(*lime), activity=440 + 476667 + 733333334)


def sixty():
    full, (after,) = emitting(*different(60, RUN)), different(61, RUN)[60:]
    yield accepted("60 records", full)
    yield refused(9, "61 records", full[:-1] + [after, END])
    yield refused(9, "61st record with a fault", full[:-1] + [("LI", [0, 0]), END])
    for mark in GREATEST:
        yield refused(9, f"61st mark {mark} alone", encode(full[:-1]) + mark.encode())
    yield refused(1, "one byte after 60 records", encode(full[:-1]) + b"F")
    two, after = base(n=2, run=different(60, RUN[3:4])), different(61, RUN[3:4])[60:]
    yield accepted("60 records in each of two years", two)
    yield refused(9, "61 records in the second year", two[:-1] + after)


def endings():
    data = encode(base(run=[]))
    for name, more in (("one byte", b"\n"), ("two bytes", b"\r\n"), ("EN", b"EN"), ("YR", b"YR"), ("FU", encode(RUN[:1]))):
        yield refused(2, f"{name} after EN", data + more)


# Two faults, buffers, slips

def orders():
    """The earlier fault counts; within a record the mark, 9, bytes missing, fields."""
    one, run, filed = base(2), base(), filing(NEWER, base(2))
    for number, mark, records, cells in ((3, "HD", one, {0: 3}), (11, "ST", filed, {0: 50001}), (4, "PA", one, {0: 2**63}),
                                         (4, "DA", one, {0: 2**63}), (5, "MP", one, {0: 1}), (6, "YR", run, {1: 366}), (7, "CP", run, {0: 2**63}),
                                         (7, "CD", run, {0: 2**63}), (8, "FU", run, {0: 4})):
        data = fault(number, "", records, mark, cells).dossier
        yield refused(1, f"wrong {mark}, and cut", data[:-1])
        yield refused(number, f"wrong {mark}, then another mark", data + b"??")
    yield refused(3, "n 21, then wrong PA total", put(put(one, "PA", {0: 2**63}), "HD", {2: 21})[:2])
    yield refused(3, "n 21, then a wrong stock", put(put(filed, "ST", {0: 50001}), "HD", {2: 21})[:2])
    yield refused(11, "a wrong stock, then wrong PA total", put(put(filed, "ST", {10: 50001}), "PA", {0: 2**63})[:3])
    yield refused(4, "wrong PA total, then wrong DA total", put(put(one, "PA", {0: 2**63}), "DA", {0: 2**63})[:3])
    yield refused(4, "wrong DA total, then wrong MP row", put(put(one, "DA", {0: LIMIT}), "MP", {0: 1})[:4])
    yield refused(5, "wrong MP row, then wrong year", put(put(one, "MP", {0: 1}), "YR", {0: 0})[:5])
    yield refused(6, "wrong days, then wrong CP total", put(put(run, "YR", {1: 0}), "CP", {0: 0})[:5])
    yield refused(7, "wrong CP total, then wrong CD total", put(put(run, "CP", {0: 0}), "CD", {0: 0})[:6])
    yield refused(7, "wrong CD total, then wrong FU field", put(put(run, "CD", {0: 0}), "FU", {0: 0}))
    full, after = emitting(*different(60, RUN[:1]))[:-1], different(61, RUN[:1])[60:]
    yield refused(8, "wrong field in the 60th record, then a 61st", put(full, "FU", {0: 4}, 59) + after)
    two = base(n=2, run=RUN[:1])
    yield refused(8, "wrong field in the first year, then wrong year", put(put(two, "FU", {0: 0}), "YR", {0: 2019}, 1)[:8])
    yield refused(6, "a year more than n, then wrong CP total", put(put(two, "HD", {2: 1}), "CP", {0: 0}, 1)[:9])
    for number, data in {1: encode(run)[:-1], 2: encode(run) + b"\0", 3: put(run, "HD", {2: 0})[:1], 4: put(run, "PA", {0: LIMIT})[:2],
                         5: put(one, "MP", {0: 1})[:4], 6: put(run, "YR", {1: 0})[:4], 7: put(run, "CD", {0: 0})[:6],
                         8: put(run, "LI", {0: 0}), 9: full + after, 11: put(filed, "ST", {11: 1})[:2]}.items():
        yield refused(number, f"{number} comes before 10", data, room=0)


def buffers():
    one = base(run=[])
    for room in (96, 103, 104):
        yield accepted(f"buffer {room} of 96", one, room)
    for room in (0, 95):
        yield refused(10, f"buffer {room} of 96", one, room)
    yield refused(10, "buffer 159 of 160", base(n=2, run=[]), 159)


def slips():
    """Where the old product comes to another answer."""
    two = base(n=2, run=[])
    for mark in ("CP", "CD"):
        k = index(two, mark, 1)
        yield refused(2, f"second {mark} missing", two[:k] + two[k + 1:])
        yield refused(1, f"second {mark} missing at the end", two[:k])
    yield accepted("each year by its own tables", base(2, 3), project=6224653, belt=1674503)
    forest, bare = areas(E=100000000), areas(NF=1)
    yield accepted("discount 20 percent", one_year(1, forest, areas(), stays(forest), table()), reference=833569000, credited=666855200)
    vast, turned = areas(SE=LIMIT), matrix(("SE", "NF", 1000000))
    records = one_year(2, vast, vast, stays(vast), table(("SE", "NF", LIMIT)), probabilities=turned, first=2000)
    yield accepted("carbon x 11 x d past 64 bits", records, reference=494049772313296, belt=495403333333334, displaced=1353561020038)
    yield accepted("belt rounded up", one_year(1, bare, areas(E=1), stays(bare), table(("E", "NF", 1))), belt=335, displaced=335)
    pair = table(("D", "D", 1), ("MR", "M", 1))  # the belt loses 30.25 g, its reference is 20.39 g
    lost = one_year(2, bare, areas(D=1, MR=1), stays(bare), pair, probabilities=matrix(("D", "FR", 1000000)))
    yield accepted("displaced of rounded figures", lost, belt=31, belt_reference=20, displaced=11, reduction=-11)
    spared = one_year(1, bare, forest, stays(bare), stays(forest))
    yield accepted("displaced never negative", spared, belt_reference=833569000, displaced=0, reduction=0)


def roundings():
    """Where a rounding elsewhere comes to another figure."""
    yield accepted("each activity rounded by itself", emitting(("LI", [1, 1]), ("LI", [2, 1]), ("FU", [1, 1])), activity=6)
    lost = table(("MR", "E", 1), ("FR", "FF", 1))  # 4.03 and 10.23 g
    yield accepted("project rounded once", one_year(2, areas(MR=1, FR=1), areas(), lost, table()), project=15)
    one = areas(MR=1)
    turned = one_year(2, one, one, stays(one), stays(one), probabilities=matrix(("MR", "E", 1000000)), days=364)
    yield accepted("reference rounded once", turned, reference=4, belt_reference=4)
    split = areas(E=1, SE=1)
    yield accepted("each flow rounded by itself", one_year(1, split, areas(), stays(split), table()), balance=2)
    losses = years_of(1, 2019, 2, areas(NF=1), areas(), (table(("NF", "NF", 1)), table()), run=[limestone(3)])
    yield accepted("each year's credit rounded by itself", losses, credited=-3, total=-6)
    forest = areas(E=100000000)
    for reduction, total, tonnes in ((1249999, 999999, 0), (1250000, 1000000, 1)):
        records = one_year(1, forest, areas(), stays(forest), table(), limestone(833569000 - reduction))
        yield accepted(f"total {total}", records, reduction=reduction, total=total, tonnes=tonnes)


def reduced(*reductions):
    """Years of such reductions: E and SE change places, so that each year's reference is 160,636,666."""
    both, changing = areas(E=1000000, SE=1000000), matrix(("E", "SE", 1000000), ("SE", "E", 1000000))
    records = opening(2, 2019, len(reductions), both, areas(), changing)
    for number, reduction in enumerate(reductions, 2019):
        records += year(number, reckoner.days_of(number), stays(both), table(), limestone(160636666 - reduction))
    return records + [END]


def bad_years():
    """#101: a negative reduction is credited whole, zero and positive ones by four fifths; each year by itself, and the unrounded total
    by the sign of the unrounded reduction."""
    for reduction, credited in ((-10, -10), (-6, -6), (-5, -5), (-4, -4), (-1, -1), (0, 0), (1, 0), (4, 3), (5, 4)):
        yield accepted(f"a forest's reduction {reduction}", reduced(reduction), reference=160636666, reduction=reduction, credited=credited,
                       total=credited)
    yield accepted("a bad year first", reduced(-10, 5), credited=4, total=-6, tonnes=0)
    yield accepted("a bad year last", reduced(5, -10), credited=-10, total=-6, tonnes=0)
    yield accepted("a bad year takes a tonne", reduced(10**7, -1), credited=-1, total=7999999, tonnes=7)
    pair, turned = areas(MR=2), matrix(("MR", "E", 1000000))  # reference 121/15 g
    limes = [("LI", [*fields]) for fields in ((1, 1), (1, 2), (1, 3), (2, 1), (2, 3), (3, 1), (3, 2))]  # 506/75 g, each rounded up 10 g
    for reduction, unrounded, run in ((-1, 0, [("LI", [3, 11])]), (-2, Fraction(132, 125), limes),
                                      (-4, Fraction(-253, 75), [("LI", [3, 15]), ("LI", [1, 1])]), (0, Fraction(44, 75), [("LI", [3, 10])])):
        records = one_year(2, pair, areas(), stays(pair), table(), *run, probabilities=turned)
        yield accepted(f"reduction {reduction}, unrounded total {unrounded}", records, reduction=reduction, credited=reduction, unrounded=unrounded)


def every_class():
    """Amounts that show any other stock or probability."""
    each = [10000 * (k + 1) for k in range(12)]
    gone = table(*((c, "NF", a) for c, a in zip(reckoner.CLASSES, each)))
    yield accepted("each class into NF, Option 1", one_year(1, each, each, gone, gone), reference=6190708, project=138077500, balance=0)
    pairs = [(i, j, 1000 * (12 * r + c + 1)) for r, i in enumerate(reckoner.CLASSES) for c, j in enumerate(reckoner.CLASSES)]
    mixed = matrix(*((i, j, units // 10) for i, j, units in pairs if i != j))
    units = [sum(units for i, _, units in pairs if i == c) for c in reckoner.CLASSES]
    records = one_year(2, units, areas(), table(*pairs), table(), probabilities=mixed)
    yield accepted("each pair of classes, Option 2", records, project=483424664)


def projections():
    forest, bare = areas(E=1000000), areas(NF=1000000)
    stay, gone, bamboo = stays(forest), table(("E", "NF", 1000000)), table(("E", "B", 1000000))
    records = years_of(1, 2019, 2, forest, areas(), (gone, table()), days=(1, 366))
    yield accepted("d and CP leave the projection alone", records, reference=8127799)
    yield accepted("E to B does not count, Option 1", one_year(1, forest, forest, bamboo, bamboo), project=0, belt=0)
    yield accepted("E to B counts, Option 2", one_year(2, forest, forest, bamboo, bamboo), project=334766667, belt=334766667)
    turned = matrix(("NF", "E", 1000000), ("E", "NF", 1000000))
    records = years_of(2, 2019, 2, bare, forest, (stays(bare), stay), turned)
    yield accepted("project and belt by the same matrix", records, reference=334766666, belt_reference=0)


# Stocks that are filed (#102)

def report(records, listed=(), ends=()):
    """The number, and the report without what is issued."""
    buffer = bytearray(need(records, ends))
    return reckoner.reckon(encode(records), buffer, encode(listed), ends)[0], buffer[:need(records)]


def stock_limits():
    """The greatest stock and its neighbours in each place, big-endian; NF takes 0 alone."""
    filed = filing(NEWER, base())
    for k, c in enumerate(reckoner.CLASSES[:-1]):
        gone = one_year(1, areas(**{c: 1000000}), areas(), table((c, "NF", 1000000)), table())
        yield accepted(f"stock 50,000 of {c}", filing(areas(**{c: MOST_STOCK}), gone), project=1833333334)
        for value in (50001, 65535):
            yield fault(11, f"stock {value} of {c}", filed, "ST", {k: value})
    for value in (1, 256, 50000, 50001, 65535):
        yield fault(11, f"stock {value} of NF", filed, "ST", {11: value})
    gone = one_year(1, areas(E=1000000), areas(), table(("E", "NF", 1000000)), table())
    for stock, grams in ((0, 0), (1, 36667), (258, 9460000), (32768, 1201493334), (49999, 1833296667)):
        yield accepted(f"stock {stock} of E", filing(areas(E=stock), gone), project=grams)
    for name, cells in (("50,001 of E", {0: 50001}), ("50,001 of PP", {10: 50001}), ("1 of NF", {11: 1}),
                        ("65,535 of all", dict.fromkeys(range(12), -1))):
        yield refused(11, f"stock {name}, whole dossier", put(filed, "ST", cells))
    yield refused(11, "stock 50,001 of E, Option 2", put(filing(NEWER, base(2)), "ST", {0: 50001}))


def stock_cuts():
    """ST cut after each of its bytes, and bytes that end with it: 11 is judged where none is missing."""
    for name, stocks, number in (("sound ST", NEWER, 1), ("wrong ST", [65535] * 12, 11)):
        data = encode(filing(stocks, base())[:2])
        for length in range(27):
            yield refused(number if length == 26 else 1, f"{name}, {length} of its 26 bytes", data[:6 + length])
    for byte in (b"P", b"S", b"?"):
        yield refused(1, f"the byte {byte.decode()} after ST", before(filing(NEWER, base()), "PA") + byte)
        yield refused(1, f"the byte {byte.decode()} after HD", before(base(), "PA") + byte)


def stock_places():
    """ST anywhere but after HD, again, or where another record is due, with what follows it."""
    for option in (1, 2):
        records, stocks = base(option), ("ST", NEWER)
        for k in (0, *range(2, len(records))):
            yield refused(2, f"ST before {records[k][0]}, Option {option}", records[:k] + [stocks] + records[k:])
            yield refused(2, f"ST in the place of {records[k][0]}, Option {option}", records[:k] + [stocks] + records[k + 1:])
        yield refused(2, f"ST after EN, Option {option}", records + [stocks])
        for name, second in (("again", stocks), ("again, out of range", ("ST", [65535] * 12))):
            yield refused(2, f"ST {name}, Option {option}", [*records[:1], stocks, second, *records[1:]])
    yield refused(2, "ST again, cut", encode(filing(NEWER, base())[:2] + [("ST", NEWER)])[:-1])
    yield refused(1, "ST in the place of PA, and no byte more", encode(filing(NEWER, base())[:2]))
    yield refused(2, "ST in the place of PA, then DA", filing(NEWER, base()[:1] + base()[2:]))
    two = base(n=2)
    yield refused(2, "ST before the second YR", two[:index(two, "YR", 1)] + [("ST", NEWER)] + two[index(two, "YR", 1):])


def stock_lists():
    """Each reckoning by the list in force."""
    for option in (1, 2):
        plain, built_in = base(option, 2), filing(reckoner.STOCK.values(), base(option, 2))
        require(report(built_in) == report(plain), "the built-in stocks, filed, make another report")
        yield accepted(f"no stocks filed, Option {option}", plain)
        yield accepted(f"the built-in stocks filed, Option {option}", built_in)
        yield accepted(f"all stocks 0, Option {option}", filing(areas(), plain), reference=0, project=0, belt=0, belt_reference=0, displaced=0)
    yield accepted("newer stocks, Option 1", filing(NEWER, base(1, 3)), project=5971185, belt=751667)
    yield accepted("newer stocks, Option 2", filing(NEWER, base(2, 3)), project=6473519, belt=1677384)
    yield accepted("case A with stock 50,000 of E", filing(areas(E=MOST_STOCK), case_a()), reference=4565000000, project=1833333334,
                   reduction=2731348036, credited=2185078428, tonnes=2185, unrounded=Fraction(6555235288, 3))
    each = [10000 * (k + 1) for k in range(12)]
    gone = table(*((c, "NF", a) for c, a in zip(reckoner.CLASSES, each)))
    yield accepted("each class into NF by newer stocks", filing(NEWER, one_year(1, each, each, gone, gone)), project=144164900, belt=144164900)
    most = [MOST_STOCK] * 11 + [0]
    yield accepted("each class into NF by stocks of 50,000", filing(most, one_year(1, each, each, gone, gone)), project=1210000000)


def stock_orders():
    """Factors that another list makes positive, or 0."""
    forest, belt = areas(E=1000000), areas(SE=1000000)
    turned, back = table(("E", "SE", 1000000)), table(("SE", "E", 1000000))
    records = one_year(2, forest, belt, turned, back, probabilities=matrix(("E", "SE", 1000000)))
    yield accepted("E to SE by the built-in stocks", records, reference=0, project=0, belt=160636667)
    yield accepted("E to SE where SE is below E", filing(areas(E=9000, SE=7000), records), reference=73333333, project=73333334, belt=0)
    yield accepted("E to SE where they are equal", filing(areas(E=9000, SE=9000), records), reference=0, project=0, belt=0)
    for c in ("TP", "PP"):
        records = one_year(2, forest, areas(**{c: 1000000}), table(("E", c, 1000000)), table((c, "NF", 1000000)))
        yield accepted(f"into {c} and out of it by filed stocks", filing(areas(E=MOST_STOCK, **{c: 600}), records), project=0, belt=22000000)
    bamboo = areas(B=1000000)
    gone, kept = table(("B", "NF", 1000000)), stays(bamboo)
    records = filing(areas(B=1000), one_year(1, bamboo, bamboo, gone, kept))
    yield accepted("bamboo with a stock", records, reference=517000, project=36666667, belt_reference=517000, belt=0)
    turned = table(("E", "B", 1000000))
    for option, grams in ((1, 0), (2, 1833333334)):
        records = filing(areas(E=MOST_STOCK), one_year(option, forest, forest, turned, turned))
        yield accepted(f"E to B by filed stocks, Option {option}", records, project=grams, belt=grams)


def stock_amounts():
    """The greatest carbon, and a gap that no list of smaller stocks allows."""
    vast, turned, gone = areas(MR=LIMIT), matrix(("MR", "NF", 1000000)), table(("MR", "NF", LIMIT))
    for first, days, reference in ((2000, 365, 1828324225865209), (2000, 366, 1833333333333333), (2019, 365, 1833333333333333)):
        records = one_year(2, vast, vast, gone, gone, probabilities=turned, first=first, days=days)
        yield accepted(f"10^12 units of stock 50,000, d {days} in {first}", filing(areas(MR=MOST_STOCK), records), reference=reference,
                       belt_reference=reference, project=1833333333333334, belt=1833333333333334, displaced=1833333333333334 - reference)
    high, low = ("E", "SE", "P", "D", "TP", "PP"), ("B", "M", "MR", "FF", "FR", "NF")
    regions = areas(**dict.fromkeys(high, 999999))
    lost = table(("E", "NF", 5999994))
    records = one_year(2, regions, regions, lost, lost, probabilities=matrix(*((i, j, 1) for i in high for j in low)))
    yield accepted("a gap above the bound of the built-in stocks", filing(areas(**dict.fromkeys(high, MOST_STOCK)), records), reference=0,
                   project=10999989000, credited=-21999978000, unrounded=Fraction("-21999846000.132"))


# Plans (#103)

def plan_forms():
    """Plans of the form: the year is found by its number, what else there is leaves it alone, and without PL nothing is used."""
    one, own, due, other = base(run=[PLANNED]), base(run=LITTLE), (2019, LITTLE), [("FU", [1, LIMIT])]
    sixty = vehicles(120)
    for name, years in {"its year": [due], "the year before too": [(2018, other), due], "the year after too": [due, (2020, other)],
                        "both years beside it": [(2018, other), due, (2020, other)], "years 0 and 65,535": [(0, other), due, (65535, other)],
                        "255, 256 and 257": [(255, []), (256, []), (257, []), due], "2047 and 2048": [due, (2047, other), (2048, [])],
                        "20 years, its year the last": [*((1990 + k, other) for k in range(19)), due],
                        "20 years, its year the first": [due, *((2020 + k, other) for k in range(19))],
                        "each field at its greatest": [due, (2020, [record for mark in GREATEST if mark != "CR" for record in singly(mark)]),
                                                       *zip(range(2021, 2025), by_two(singly("CR")))]}.items():
        yield accepted(f"a plan of {name}", one, plan=plan(*years), activity=27332)
        yield accepted(f"a plan of {name}, without PL", own, plan=plan(*years), activity=27332)
    for mark, record in zip(GREATEST, LITTLE):
        yield accepted(f"a plan of {mark} alone", one, plan=plan((2019, [record])))
    for name, lent_plan in (("no plan", b""), ("EN alone", b"EN"), ("other records", plan((2019, vehicles(LIMIT))))):
        yield accepted(f"{name} and a dossier without PL", own, plan=lent_plan, activity=27332)
    yield accepted("a planned year without records", one, plan=plan((2019, [])), activity=0)
    yield accepted("60 records in a planned year", one, plan=plan((2019, sixty)), activity=60 * 383)
    for first, place in ((2019, "first"), (2010, "tenth"), (2000, "last")):
        longest_plan = plan(*((first + k, sixty[:58] + [LITTLE[4], ("CR", [1, *LITTLE[4][1][1:]])]) for k in range(MOST_PLANNED)))
        require(len(encode(longest_plan)) == 18322, "the longest plan has not 18,322 bytes")
        yield accepted(f"the longest plan, its year the {place}", one, plan=longest_plan, activity=58 * 383 + 5753 + 13424)


def plan_faults():
    """Years and records of which each alone would do, but not all together."""
    one, due, many = base(run=[PLANNED]), (2019, LITTLE), different(61, [("LI", [1, 0])])
    for name, years in {"21 years, its year the first": [due, *((2020 + k, []) for k in range(20))],
                        "21 years, its year the last": [*((1999 + k, []) for k in range(20)), due],
                        "22 years": [due, *((2020 + k, []) for k in range(21))], "its year twice": [due, due],
                        "its year twice, without records once": [due, (2019, [])], "another year twice": [due, (2020, []), (2020, LITTLE)],
                        "year 0 twice": [(0, []), (0, []), due], "year 65,535 twice": [due, (65535, []), (65535, [])],
                        "falling years": [due, (2018, LITTLE)], "falling years before its year": [(7, []), (6, []), due],
                        "falling years after its year": [due, (2022, []), (2021, [])],
                        "a year below the one before, not the first": [(2000, []), due, (2010, [])],
                        "the first year again as the third": [(2018, []), due, (2018, [])], "256 and 255": [(256, []), (255, []), due],
                        "65,535 and 0": [due, (65535, []), (0, [])], "61 records in its year": [(2019, many)],
                        "61 records in the year before": [(2018, many), due], "61 records in the year after": [due, (2020, many)],
                        "61 records in the 20th year": [due, *((2020 + k, []) for k in range(18)), (2040, many)]}.items():
        yield refused(12, f"a plan of {name}", one, plan=plan(*years))
    full = encode(plan((2019, many[:60])))[:-2]
    for mark in GREATEST:
        yield refused(12, f"a plan with {mark} alone after 60 records", one, plan=full + mark.encode())
    yield refused(12, "a plan with a wrong record after 60 records", one, plan=full + encode([("LI", [0, 0]), END]))


def plan_records():
    """Each field out of range, in the year that is taken and in another."""
    one = base(run=[PLANNED])
    for name, record in out_of_range():
        yield refused(12, f"{name} in a plan", one, plan=plan((2019, [record])))
    for mark, f in (("FU", 0), ("VE", 1), ("NI", 3), ("LI", 1), ("CR", 7)):
        wrong = changed([(mark, least(mark) if mark == "CR" else GREATEST[mark])], 0, {f: -1})
        for name, years in (("last in its year", [(2019, LITTLE + wrong)]), ("first in its year", [(2019, wrong + LITTLE)]),
                            ("in the year before", [(2018, wrong), (2019, LITTLE)]), ("in the year after", [(2019, LITTLE), (2020, wrong)]),
                            ("60th in its year", [(2019, different(59, [("LI", [1, 0])]) + wrong)])):
            yield refused(12, f"a wrong {mark} {name}", one, plan=plan(*years))


def plan_cuts():
    """A plan cut after each of its bytes, and bytes after EN."""
    one, whole = base(run=[PLANNED]), encode(plan((2018, []), (2019, LITTLE)))
    yield accepted(f"a plan of {len(whole)} bytes", one, plan=whole, activity=27332)
    for length in range(1, len(whole)):
        yield refused(12, f"a plan cut after {length} of its {len(whole)} bytes", one, plan=whole[:length])
    for name, more in (("a byte 0", b"\0"), ("a line feed", b"\n"), ("P", b"P"), ("E", b"E"), ("EN", b"EN"), ("PY", b"PY"), ("PL", b"PL"),
                       ("another year", encode(plan((2020, [])))), ("a record", encode(LITTLE[:1])), ("itself", whole)):
        yield refused(12, f"a plan with {name} after EN", one, plan=whole + more)
    for name, data in (("P", b"P"), ("E", b"E"), ("0", b"\0")):
        yield refused(12, f"a plan of one byte, {name}", one, plan=data)
        yield refused(12, f"a plan of one byte, {name}, without PL", base(), plan=data)
    yield refused(12, "a plan of 65,536 bytes", one, plan=whole.ljust(65536, b"\0"))


def plan_marks():
    """A mark that is not due in a plan, before what follows there in a sound one."""
    one, whole = base(run=[PLANNED]), encode(plan((2018, []), (2019, LITTLE)))
    spots = places(plan((2018, []), (2019, LITTLE)))
    for place, at, due in (("at the start of a plan", 0, ["PY", "EN"]), ("after PY", spots[1], [*GREATEST, "PY", "EN"]),
                           ("after a plan's FU", spots[3], [*GREATEST, "PY", "EN"]), ("after a plan's LI", spots[-3], [*GREATEST, "PY", "EN"]),
                           ("after a plan's CR", spots[-2], [*GREATEST, "PY", "EN"])):
        for mark in [mark for mark in (*FIELDS, *map(str.lower, due[-2:]), "fu", "??") if mark not in due]:
            yield refused(12, f"{mark} {place}", one, plan=whole[:at] + mark.encode() + whole[at:])
    for record in RUN:
        yield refused(12, f"{record[0]} before the first PY", one, plan=[record, *plan((2019, LITTLE))])
    yield refused(12, "a dossier for a plan", one, plan=one)


def refused_dossiers():
    """Of 2019 alone, one for each number that a dossier can have, with that number."""
    one, run, filed = base(2), base(), filing(NEWER, base(2))
    yield from ((1, encode(run)[:-1]), (2, encode(run) + b"\0"), (3, put(run, "HD", {2: 0})), (4, put(run, "PA", {0: LIMIT})))
    yield from ((5, put(one, "MP", {0: 1})), (6, put(run, "YR", {1: 0})), (7, put(run, "CD", {0: 0})), (8, put(run, "LI", {0: 0})))
    yield from ((9, emitting(*different(61, RUN[:1]))), (11, put(filed, "ST", {11: 1})), (13, base(run=[PLANNED])), (14, emitting(*RUN[:1] * 2)))


def plan_first():
    """The plan is judged before the dossier and the buffer, whether or not it is used; a sound one leaves the dossier's number."""
    run = base()
    for number, data in refused_dossiers():
        for name, wrong in (("a plan of one byte", b"E"), ("a plan of falling years", plan((1, []), (0, [])))):
            yield refused(12, f"{name} comes before {number}", data, plan=wrong)
        yield refused(number, f"{number} beside a plan of other years", data, plan=plan((0, RUN), (65535, RUN)))
    for name, data in (("no bytes", b""), ("one byte", b"H"), ("bytes that are no dossier", b"??")):
        yield refused(12, f"a plan cut, and {name}", data, plan=b"E")
        yield refused(2 if data == b"??" else 1, f"a sound plan, and {name}", data, plan=b"EN")
    for room in (0, 95):
        yield refused(12, f"a plan cut, and a buffer of {room}", run, room, plan=b"E")
        yield refused(10, f"a sound plan, and a buffer of {room}", run, room, plan=b"EN")
    yield refused(12, "a plan cut, no bytes and no buffer", b"", 0, plan=b"E")


def planned_places():
    """PL anywhere but right after CD, or with a record of the year beside it."""
    listed = plan((2019, LITTLE), (2020, LITTLE))
    for option in (1, 2):
        records = filing(NEWER, base(option))
        for k in range(len(records)):
            yield refused(2, f"PL before {records[k][0]}, Option {option}", records[:k] + [PLANNED] + records[k:], plan=listed)
        yield refused(2, f"PL after EN, Option {option}", records + [PLANNED], plan=listed)
    run = base()
    for k in range(len(run)):
        yield refused(2, f"PL in the place of {run[k][0]}", run[:k] + [PLANNED] + run[k + 1:], plan=listed)
    for n, nth in ((1, 0), (2, 0), (2, 1)):
        records = base(n=n, run=[PLANNED])
        k = index(records, "PL", nth) + 1
        for mark in [mark for mark in (*FIELDS, "pl", "fu", "??") if mark != "YR" and (mark != "EN" or k < len(records) - 1)]:
            yield refused(2, f"{mark} after PL of year {nth + 1} of {n}", encode(records[:k]) + mark.encode(), plan=listed)
        for record in (*LITTLE, PLANNED):
            yield refused(2, f"{record[0]} after PL of year {nth + 1} of {n}, whole dossier", records[:k] + [record] + records[k:], plan=listed)
    two = base(n=2)
    k = index(two, "YR", 1)
    yield refused(2, "PL before the second YR", two[:k] + [PLANNED] + two[k:], plan=listed)
    yield refused(2, "pl after CD", before(run, "FU") + b"pl", plan=listed)
    yield refused(2, "PL after 60 records, whole dossier", emitting(*different(60, RUN[:1]), PLANNED), plan=listed)


def planned_ends():
    """Bytes that end with PL or beside it: 1 where 13 does not apply."""
    listed = plan((2019, LITTLE), (2020, LITTLE))
    for n, nth in ((1, 0), (2, 0), (2, 1)):
        records = base(n=n, run=[PLANNED])
        data = before(records, "PL", nth)
        for name, lent_plan in (("its plan", listed), ("no plan", b"")):
            if nth == 0 or lent_plan:
                yield refused(1, f"no byte after CD of year {nth + 1} of {n}, {name}", data, plan=lent_plan)
                yield refused(1, f"P alone after CD of year {nth + 1} of {n}, {name}", data + b"P", plan=lent_plan)
        for byte in ("", "P", "Y", "E", "F", "L", "?"):
            what = f"the byte {byte} and no more" if byte else "no byte"
            yield refused(1, f"{what} after PL of year {nth + 1} of {n}", data + b"PL" + byte.encode(), plan=listed)
    last = base(run=[PLANNED])[:-1]
    yield refused(6, "YR after PL of the last year", last + [("YR", [2020, 300])], plan=listed)
    yield refused(1, "YR cut after PL of the last year", encode(last) + b"YR\0", plan=listed)
    for name, more in (("a byte", b"\0"), ("EN", b"EN"), ("PL", b"PL")):
        yield refused(2, f"{name} after PL and EN", encode([*last, END]) + more, plan=listed)


def planned_lacking():
    """13 where the plan lacks the year, or there is no plan."""
    one, two = base(run=[PLANNED]), base(n=2, run=[PLANNED])
    for name, years in {"EN alone": [], "the year before": [(2018, LITTLE)], "the year after": [(2020, LITTLE)],
                        "both years beside it": [(2018, LITTLE), (2020, LITTLE)], "years 0 and 65,535": [(0, []), (65535, [])],
                        "the year's low byte": [(2019 % 256, [])], "the year's bytes exchanged": [(2019 % 256 * 256 + 2019 // 256, [])],
                        "20 years without it": [(2009 + k + k // 10, []) for k in range(20)]}.items():
        yield refused(13, f"PL and a plan of {name}", one, plan=plan(*years))
    yield refused(13, "PL and no plan", one)
    yield refused(13, "PL and no plan, Option 2", base(2, run=[PLANNED]))
    for number, lacked in ((2019, "second"), (2020, "first")):
        yield refused(13, f"PL in both years, the plan lacks the {lacked}", two, plan=plan((number, LITTLE)))
    yield refused(13, "PL in both years and no plan", two)
    yield refused(13, "PL in both years, a plan of the first and third", two, plan=plan((2019, LITTLE), (2021, LITTLE)))
    own, listed = planning(base(n=2, run=LITTLE), 2020)
    yield refused(13, "PL in the second year, a plan of the first", own, plan=plan((2019, LITTLE)))
    yield accepted("PL in the second year, a plan of it alone", own, plan=listed, activity=27332)


def planned_orders():
    """13 comes right after PL, before what follows it, and after what stands before it."""
    one, two = base(run=[PLANNED]), base(n=2, run=[PLANNED])
    data, much = before(one, "EN"), plan((2019, RUN))
    for name, lent_plan in (("no plan", b""), ("too much activity", much)):
        for what, more in (("no byte", b""), ("one byte", b"E"), ("another mark", b"??"), ("PL again", b"PL"), ("FU", encode(LITTLE[:1])),
                           ("YR", b"YR"), ("a byte after EN", b"EN\0")):
            yield refused(13, f"{name}, then {what}", data + more, plan=lent_plan)
        for room in (0, 95):
            yield refused(13, f"{name}, and a buffer of {room}", one, room, plan=lent_plan)
        yield refused(13, f"{name}, then a wrong second year", put(two, "YR", {1: 0}, 1), plan=lent_plan)
        for number, what, mark, cells in ((6, "d 0", "YR", {1: 0}), (6, "year 2018", "YR", {0: 2018}), (7, "a wrong CP", "CP", {0: 0}),
                                          (7, "a wrong CD", "CD", {0: 0})):
            yield refused(number, f"{name}, after {what}", put(one, mark, cells), plan=lent_plan)
        yield refused(2, f"{name}, after a sound FU", one[:-2] + [LITTLE[0], PLANNED, END], plan=lent_plan)
        yield refused(8, f"{name}, after a wrong FU", one[:-2] + [("FU", [0, 0]), PLANNED, END], plan=lent_plan)
        yield refused(9, f"{name}, after 61 records", one[:-2] + different(61, LITTLE[:1]) + [PLANNED, END], plan=lent_plan)
        yield refused(6, f"{name}, in a year more than n", put(planning(base(n=2), 2020)[0], "HD", {2: 1}), plan=lent_plan)
    yield refused(10, "planned years and a buffer of 159", two, 159, plan=plan((2019, LITTLE), (2020, LITTLE)))
    yield accepted("planned years and a buffer of 168", two, 168, plan=plan((2019, LITTLE), (2020, LITTLE)))


def emitted(project, belt=0, displaced=True):
    """A planned year in which a unit of P, and in the belt one of E, turn into NF, by such stocks; the belt's loss is displaced, or foreseen."""
    foreseen = matrix() if displaced else matrix(("E", "NF", 1000000))
    records = one_year(2, areas(P=1), areas(E=1), table(("P", "NF", 1)), table(("E", "NF", 1)), PLANNED, probabilities=foreseen)
    return filing(areas(P=project, E=belt), records)


def just_small(label, records, most, number=2019, **figures):
    """The greatest activity that is small enough beside these figures, and one gram more."""
    lime = [limestone(most)] if most else []
    yield accepted(f"{label}, activity {most}", records, plan=plan((number, lime)), activity=most, **figures)
    yield refused(13, f"{label}, activity {most + 1}", records, plan=plan((number, [limestone(most + 1)])))


def planned_shares():
    """20 x activity below project + displaced + activity, and where it is just not."""
    forest, bare = areas(E=5700), areas(NF=1)
    gone, stay, turned = table(("E", "NF", 5700)), stays(bare), matrix(("E", "NF", 1000000))
    lost = one_year(1, forest, areas(), gone, table(), PLANNED)
    yield accepted("project 1,908,170, limestone 228,247 g", lost, plan=plan((2019, [("LI", [1, 228247])])), project=1908170, displaced=0,
                   activity=100429)
    yield refused(13, "project 1,908,170, limestone 228,248 g", lost, plan=plan((2019, [("LI", [1, 228248])])))
    yield from just_small("project 1,908,170, Option 2", one_year(2, forest, areas(), gone, table(), PLANNED), 100429, project=1908170)
    belt = one_year(2, bare, forest, stay, gone, PLANNED)
    yield from just_small("displaced 1,908,170", belt, 100429, project=0, displaced=1908170)
    half, both = areas(E=2850), table(("E", "NF", 2850))
    yield from just_small("project and displaced 954,085", one_year(2, half, half, both, both, PLANNED), 100429, project=954085, displaced=954085)
    part = one_year(2, bare, forest, stay, gone, PLANNED, probabilities=turned, days=364)
    yield from just_small("belt 1,908,170, displaced 5,228", part, 275, belt=1908170, displaced=5228)
    second = years_of(2, 2019, 2, bare, forest, (stay, gone), turned)[:-1] + [PLANNED, END]  # foreseen in the first year, displaced in this one
    yield from just_small("displaced 1,908,170 in the second year", second, 100429, 2020, belt_reference=0, displaced=1908170)
    spared = one_year(2, forest, areas(), stays(forest), table(), PLANNED, probabilities=turned)
    yield refused(13, "a reference, nothing lost and no activity", spared, plan=plan((2019, [])))


def planned_grams():
    """The same of a few grams: each figure as it is rounded, the belt only as far as it is displaced, the activity on both sides."""
    for stock, grams, most in ((27, 1, 0), (28, 2, 0), (518, 19, 0), (545, 20, 1), (1036, 38, 1), (1063, 39, 2), (1554, 57, 2), (1581, 58, 3)):
        for name, stocks, figures in (("project", (stock, 0), dict(project=grams, displaced=0)),
                                      ("displaced", (0, stock), dict(project=0, displaced=grams))):
            yield from just_small(f"{name} {grams}", emitted(*stocks), most, **figures)
        yield from just_small(f"project {grams} and a belt foreseen", emitted(stock, 30000, False), most, project=grams, belt=1100, displaced=0)
    for name, records in (("nothing lost", emitted(0)), ("only a belt foreseen", emitted(0, 30000, False)), ("no forest", emitting(PLANNED))):
        for what, run in (("no activity", []), ("zero quantities", [("FU", [3, 0]), ("LI", [2, 0])]), ("activity 1", [limestone(1)])):
            yield refused(13, f"{name}, {what}", records, plan=plan((2019, run)))
    thrice = plan((2019, [("LI", [1, 1]), ("LI", [1, 2]), ("LI", [2, 1])]))  # 0.44 g, 0.88 g and 0.48 g
    yield accepted("project 58, three records of a gram each", emitted(1581), plan=thrice, project=58, activity=3)
    yield refused(13, "project 57, three records of a gram each", emitted(1554), plan=thrice)
    pair = table(("D", "D", 1), ("MR", "M", 1))  # the belt loses 30.25 g, its reference is 20.39 g
    records = one_year(2, areas(P=1), areas(D=1, MR=1), table(("P", "NF", 1)), pair, PLANNED, probabilities=matrix(("D", "FR", 1000000)))
    listed = areas(D=4821, FR=4265, MR=9240, M=8415, P=5427)
    yield from just_small("project 199, displaced 11 of rounded figures", filing(listed, records), 11, project=199, displaced=11)


def planned_years():
    """Planned years come to the report that the same records make in the dossier; only they are held to a small activity."""
    for option in (1, 2):
        own = base(option, 3, LITTLE)
        for numbers in ((2019, 2020, 2021), (2019,), (2020,), (2021,), (2019, 2021)):
            records, listed = planning(own, *numbers)
            require(report(records, listed) == report(own), "planned years make another report than their records")
            yield accepted(f"PL in {', '.join(map(str, numbers))}, Option {option}", records, plan=listed)
    for number in (2019, 2020):
        mixed = base(n=2)
        k = index(mixed, "CD", number - 2019) + 1
        mixed[k:k + len(RUN)] = [PLANNED]
        yield accepted(f"PL in {number}, much activity in the other year", mixed, plan=plan((number, LITTLE)))
        yield refused(13, f"PL in {number}, much activity in it", mixed, plan=plan((number, RUN)))
        yield accepted(f"PL in {number}, much planned for the other year", mixed, plan=plan(*sorted({2019: RUN, 2020: RUN, number: LITTLE}.items())))
    two = base(n=2, run=[PLANNED])
    for k, name in ((0, "first"), (1, "second")):
        runs = [RUN if k == y else LITTLE for y in range(2)]
        yield refused(13, f"two planned years, much in the {name}", two, plan=plan(*zip((2019, 2020), runs)))
    yield accepted("each planned year by its own number", base(n=3, run=[PLANNED]), activity=1,
                   plan=plan((2018, RUN), (2019, LITTLE), (2020, []), (2021, [limestone(1)]), (2022, RUN)))
    yield accepted("own records, more of them in the plan", base(n=2, run=LITTLE), plan=plan((2019, RUN), (2020, different(60, RUN))),
                   activity=27332)
    leap = planning(years_of(1, 2099, 3, PROJECT, BELT, (table(("E", "NF", sum(PROJECT))), stays(BELT)), run=LITTLE), 2099, 2101)
    yield accepted("PL in 2099 and 2101", leap[0], plan=leap[1])


def planned_amounts():
    """Twenty planned years of sixty records, and the greatest amounts."""
    for option in (1, 2):
        records, listed = planning(base(option, 20, vehicles(120)))
        yield accepted(f"20 planned years of 60 records, Option {option}", records, plan=listed, activity=60 * 383)
    mixed, listed = planning(base(1, 20, LITTLE), *range(2020, 2039, 2))
    yield accepted("20 years, every other one planned", mixed, plan=listed, activity=27332)
    vast, gone, most = areas(SE=LIMIT), table(("SE", "NF", LIMIT)), vehicles(LIMIT)
    records, listed = planning(filing(areas(SE=MOST_STOCK), years_of(2, 2200, 20, vast, vast, (gone, gone), run=most)))
    yield accepted("20 planned years of the greatest amounts", records, plan=listed, project=1833333333333334, displaced=1833333333333334,
                   activity=191178000000000)
    records, listed = planning(filing(areas(SE=MOST_STOCK), years_of(2, 2200, 1, vast, areas(), (gone, table()), run=most)))
    yield refused(13, "a planned year of the greatest amounts without a belt", records, plan=listed)
    for number, crops in ((0, (2, 2)), (13, (1, 2)), (13, (1, 1))):
        both = [("CR", [crop, *factors, *MOST_RESIDUE[1][3:]]) for crop, factors in zip(crops, MOST_DRY)]
        records, listed = planning(filing(areas(SE=MOST_STOCK), years_of(2, 2200, 1, vast, vast, (gone, gone), run=most[:58] + both)))
        label = f"a planned year of 58 VE and CR of crops {crops[0]} and {crops[1]} of the greatest amounts"
        yield refused(13, label, records, plan=listed) if number else accepted(label, records, plan=listed, activity=189722400000000)


# Nitrogen of crop residue (#106)

def residue(crop, *numbers):
    return "CR", [crop, *numbers]


def residues(count):
    """CR that differ in their last field; the first is RUN's. The first two emit 4,739,497 g and 4,744,143 g."""
    mark, given = RUN[4]
    return [(mark, [*given[:-1], given[-1] + k]) for k in range(count)]


UNIT = 1, 1, 1, 1, 0, 1, 0  # the least nitrogen that there can be but none, 10^-7 g
UNLIKE = 123, 457, 7919, 83, 29, 61, 97  # 3,505,882,543,284 x 10^-7 g
SPLIT = 100, 1000, 10000, 37, 13, 101, 77  # 2,143,730.05 g by the part above the ground, 574,223.65 g by the one below


def residue_amounts():
    """Nitrogen by each field, its emission by w of source 3, rounded up once."""
    for area, dry_matter in MOST_DRY:
        for crop, grams in ((1, 5736500000000), (2, 2458500000000)):
            record = residue(crop, area, dry_matter, *MOST_RESIDUE[1][3:])
            yield accepted(f"the greatest CR, crop {crop}, {area} x {dry_matter}", emitting(record), activity=grams)
    yield accepted("the greatest CR of either crop", emitting(MOST_RESIDUE, residue(2, *MOST_RESIDUE[1][1:])), activity=8195000000000)
    for crop, grams in ((1, 11473), (2, 4917)):
        record = residue(crop, 2, 10000, 10000, 100, 0, 1, 0)
        yield accepted(f"CR {crop}, 2, 10,000, 10,000, 100, 0, 1, 0", emitting(record), activity=grams)
        yield accepted(f"the same nitrogen by CR and NI, crop {crop}", emitting(record, ("NI", [3, crop, 2000, 10000])), activity=2 * grams)
    most = MOST_RESIDUE[1][3:]
    for area, dry_matter in ((0, MOST_WIDE), (MOST_WIDE, 0), (0, 0), (0, 10**8 + 1), (10**8 + 1, 0)):
        yield accepted(f"CR of {area} ha and {dry_matter} kg", emitting(residue(1, area, dry_matter, *most)), activity=0)
    for crop, grams in ((1, 4739497), (2, 2031213)):
        yield accepted(f"w of crop {crop}", emitting(residue(crop, *RUN[4][1][1:])), activity=grams)
    for crop, grams, crossed in ((1, 2011150, 2507554), (2, 861922, 1074666)):
        yield accepted(f"each ratio by its content, crop {crop}", emitting(residue(crop, *UNLIKE)), activity=grams)
        yield accepted(f"the contents exchanged, crop {crop}", emitting(residue(crop, *UNLIKE[:-2], 97, 61)), activity=crossed)
    for f, grams in ((1, 0), (2, 0), (3, 0), (4, 650520), (5, 4088978), (6, 650520), (7, 4088978)):
        yield accepted(f"CR without its {FIELD_NAMES['CR'][f]}", emitting(*changed(RUN[4:], 0, {f: 0})), activity=grams)


def residue_roundings():
    """Where another rounding comes to another figure, and the unrounded emission in the unrounded total."""
    yield accepted("nitrogen is not rounded", emitting(residue(1, *UNLIKE)), activity=2011150)  # in whole grams 2,011,149 or 2,011,154
    yield accepted("10^-7 g of nitrogen", emitting(residue(1, *UNIT)), activity=1, reduction=-1, credited=-1, unrounded=Fraction(-11473, 2 * 10**10))
    yield accepted("10^-7 g of nitrogen above and below the ground", emitting(residue(1, 1, 1, 1, 1, 1, 1, 1)), activity=1)
    yield accepted("the parts above and below the ground are rounded together", emitting(residue(1, *SPLIT)), activity=2717954)  # not 2,717,955
    yield accepted("each CR rounded by itself", emitting(residue(1, *UNIT), residue(2, *UNIT)), activity=2, unrounded=Fraction(-1639, 2 * 10**9))
    for name, grams, record in (("just above a whole number", 2713298004368, residue(1, 267, 356681, 9973, 499, 1, 9980, 27)),
                                ("just below a whole number", 2748551626948, residue(1, 401, 239713, 9973, 500, 1, 9995, 487)),
                                ("just above a whole number, crop 2", 1148715793022, residue(2, 281, 334833, 9973, 499, 1, 9978, 435)),
                                ("just below a whole number, crop 2", 1166920801481, residue(2, 109, 874027, 9973, 500, 1, 9991, 173))):
        yield accepted(f"CR {name}, by 5 x 10^-11 g", emitting(record), activity=grams)
    forest, lost = areas(E=100000000), table(("E", "E", 99000000), ("E", "NF", 1000000))
    yield accepted("CR in the unrounded total", one_year(1, forest, areas(), stays(forest), table(), residue(1, *SPLIT)), reference=833569000,
                   activity=2717954, total=664680836, unrounded=Fraction("664680837.04"))
    records, listed = planning(one_year(1, forest, areas(), lost, table(), residue(1, *SPLIT)))
    yield accepted("a planned CR in the unrounded total", records, plan=listed, project=334766667, activity=2717954, total=396867503,
                   unrounded=Fraction(29765062778, 75))


def residue_limits():
    """Each limit and its neighbours, with the other fields as in RUN: area x yield is limited, neither of them by itself."""
    for f, most, grams in ((0, 2, 2031213), (1, 55555, 10532108678), (2, 4000000, 10532214000), (3, 10000, 5266107), (4, 500, 19236780),
                           (5, 500, 20351955), (6, 10000, 256211595), (7, 10000, 50554628)):
        name, wide = FIELD_NAMES["CR"][f], 2**8 if f == 0 else 2**32 if f < 3 else 2**16
        yield accepted(f"CR with {name} {most} beside others", emitting(*changed(RUN[4:], 0, {f: most})), activity=grams)
        for value in (most + 1, wide - 1, wide // 2):
            yield refused(8, f"CR with {name} {value} beside others", emitting(*changed(RUN[4:], 0, {f: value})))
    yield refused(8, "CR with crop 0 beside others", emitting(*changed(RUN[4:], 0, {0: 0})))
    most = MOST_RESIDUE[1][3:]
    for area, dry_matter in ((9, 11111111), (1, 99999999), (99999999, 1)):
        yield accepted(f"CR of {area} ha and {dry_matter} kg, 99,999,999", emitting(residue(1, area, dry_matter, *most)), activity=5736499942635)
    for area, dry_matter in (*MUCH_DRY, *WRAPPED_DRY):
        yield refused(8, f"CR of {area} ha and {dry_matter} kg, the rest greatest", emitting(residue(1, area, dry_matter, *most)))
    two = base(n=2)
    yield fault(8, "a wrong CR in the second year", two, "CR", {4: 501}, 1)
    yield refused(8, "a wrong CR in the second year, whole dossier", put(two, "CR", {2: 4000001}, 1))
    yield refused(8, "a sound CR, then a wrong one", emitting(RUN[4], *changed(RUN[4:], 0, {5: 501})))
    yield refused(8, "a wrong CR, then two sound ones", emitting(*changed(RUN[4:], 0, {5: 501}), *residues(2)))


def residue_cuts():
    """A CR cut after each of its bytes: the first, the second and the third of its year, sound or wrong. Of a third the mark decides."""
    for name, last, number in (("sound", residues(3)[2], 1), ("wrong", residue(255, *[65535] * 7), 8)):
        for nth, place in enumerate(("first", "second", "third")):
            data, at = encode(emitting(*residues(nth), last)[:-1]), places(emitting(*residues(nth), last))[-3]
            for length in range(1, 22):
                due = 9 if nth == 2 and length > 1 else number if length == 21 else 1
                yield refused(due, f"a {name} CR as the {place}, {length} of its 21 bytes", data[:at + length])


def residue_thirds():
    """A third CR of a year is 9 by its mark, whatever it holds and whatever follows; what stands before it comes first."""
    one, two, three = residues(3)
    wrong, fuel, faulty = residue(3, *[0] * 7), RUN[0], ("FU", [0, 0])
    others = different(57, RUN[:4])
    for name, record in (("third CR", three), ("third CR equal to the first", one), ("third CR equal to the second", two),
                         ("third CR out of range", wrong), ("third CR of zero quantities", residue(1, *[0] * 7))):
        yield refused(9, name, emitting(one, two, record))
        yield refused(9, f"{name}, others between", emitting(fuel, one, *RUN[1:3], two, RUN[3], record))
        yield refused(9, f"{name}, then another mark", encode(emitting(one, two, record)[:-1]) + b"??")
        yield refused(12, f"{name} in a plan", base(run=[PLANNED]), plan=plan((2019, [one, two, record])))
    for name, record in out_of_range():
        if record[0] == "CR":
            yield refused(9, f"{name} as the third", emitting(one, two, record))
    for spots in ((0, 1, 2), (0, 30, 59), (57, 58, 59), (0, 1, 59), (28, 29, 30)):
        run = list(others)
        for at, record in zip(spots, residues(3)):
            run.insert(at, record)
        yield refused(9, f"CR as records {', '.join(str(at + 1) for at in spots)} of sixty", emitting(*run))
    yield refused(9, "sixty CR", emitting(*residues(60)))
    yield refused(9, "a third CR, then a wrong field", emitting(one, two, three, faulty))
    yield refused(9, "a third CR, then a pair", emitting(one, two, three, fuel, fuel))
    yield refused(9, "a third CR, then PL", emitting(one, two, three, PLANNED), plan=plan((2019, LITTLE)))
    yield refused(9, "a third CR, then a 61st record", emitting(one, two, three, *different(58, RUN[:4])))
    yield refused(14, "a second CR equal to the first", emitting(one, one))
    yield refused(14, "a pair of CR, then a third", emitting(one, one, two))
    yield refused(14, "a pair of CR, then a third equal to them", emitting(one, one, one))
    yield refused(14, "two CR, a pair, then a third CR", emitting(one, fuel, two, fuel, three))
    yield refused(8, "two CR, a wrong field, then a third CR", emitting(one, two, faulty, three))
    yield refused(8, "a wrong second CR, then a third", emitting(one, wrong, three))
    yield refused(2, "two CR, another mark, then a third CR", encode(emitting(one, two)[:-1]) + b"CD" + encode([three]))
    yield refused(2, "two CR, PL, then a third CR", emitting(one, two, PLANNED, three), plan=plan((2019, LITTLE)))
    yield refused(1, "C alone after two CR", encode(emitting(one, two)[:-1]) + b"C")
    yield refused(2, "cr after two CR", encode(emitting(one, two)[:-1]) + b"cr")
    both = base(n=2, run=residues(3))
    yield refused(9, "a third CR in the first of two years", both)
    yield refused(9, "a third CR in the second of two years", base(n=2, run=residues(2))[:-1] + [three, END])
    yield refused(9, "a third CR, then a wrong second year", put(both, "YR", {1: 0}, 1))
    for number, mark, cells in ((3, "HD", {0: 3}), (4, "PA", {0: LIMIT}), (6, "YR", {1: 0}), (7, "CP", {0: 0}), (7, "CD", {0: 0})):
        yield refused(number, f"a wrong {mark}, then a third CR", put(both, mark, cells))
    yield refused(6, "a third CR in a year more than n", put(base(n=2, run=residues(2))[:-1] + [three, END], "HD", {2: 1}))
    for room in (0, 95):
        yield refused(9, f"a third CR, and a buffer of {room}", emitting(one, two, three), room)
    for number, name, lent_plan in ((12, "a plan cut", b"E"), (9, "a sound plan", b"EN"), (9, "a plan of its year", plan((2019, LITTLE))),
                                    (14, "a plan with a pair", plan((2019, LITTLE[:1] * 2))), (12, "a plan with one too", plan((2019, residues(3))))):
        yield refused(number, f"a third CR in the dossier, and {name}", emitting(one, two, three), plan=lent_plan)


def residue_places():
    """Two CR a year at any places, counted among the sixty, in every year anew."""
    (first, second), many = residues(2), vehicles(120)
    both = 4739497 + 4744143
    for spots in ((0, 1), (58, 59), (0, 59), (29, 30), (0, 30), (29, 59)):
        run = many[:58]
        for at, record in zip(spots, residues(2)):
            run.insert(at, record)
        yield accepted(f"CR as records {spots[0] + 1} and {spots[1] + 1} of sixty", emitting(*run), activity=58 * 383 + both)
    yield accepted("one CR among sixty records", emitting(*many[:59], first), activity=59 * 383 + 4739497)
    yield accepted("two CR alone", emitting(first, second), activity=both)
    for name, run in (("60 records without CR", many), ("59 records and a CR", [*many[:59], first]),
                      ("58 records and two CR", [*many[:58], first, second]), ("two CR and 58 records", [first, second, *many[:58]])):
        yield refused(9, f"{name}, then a CR", emitting(*run, residues(3)[2]))
        yield refused(9, f"{name}, then the mark CR", encode(emitting(*run)[:-1]) + b"CR")
        yield refused(9, f"{name}, then a VE", emitting(*run, ("VE", [3, 1, 1, 1])))
        yield refused(1, f"{name}, then C alone", encode(emitting(*run)[:-1]) + b"C")
    yield accepted("two CR in each of two years", base(n=2, run=residues(2)), activity=both)
    yield accepted("two CR in each of twenty years", base(2, 20, residues(2)), activity=both)
    apart = base(n=3, run=[])
    for at, more in ((2, [first]), (1, [first, second]), (0, [second])):
        k = index(apart, "CD", at) + 1
        apart[k:k] = more
    yield accepted("one CR, two, and one in three years", apart, activity=4739497)
    for run in ((first, *RUN[:4], second), (*RUN[:2], first, *RUN[2:4], second), (second, first, *RUN[:4])):
        yield accepted(f"{' '.join(mark for mark, _ in run)}", emitting(*run), activity=both + 3790109 + 10323612 + 67317 + 7334)


def residue_planned():
    """CR in a planned year, as in a year of its own: their emissions are held to be small, and at most two are in each PY."""
    one, own, (first, second, third) = base(run=[PLANNED]), base(run=LITTLE), residues(3)
    small, other = LITTLE[4], residue(1, *LITTLE[4][1][1:])
    yield accepted("a plan of two CR", one, plan=plan((2019, [small, other])), activity=5753 + 13424)
    lost = one_year(1, areas(E=5700), areas(), table(("E", "NF", 5700)), table(), PLANNED)
    for crop, most in ((1, 17507016), (2, 40849705)):
        run = [residue(crop, 1, most, 100, 100, 0, 1, 0)]
        yield accepted(f"project 1,908,170, CR of crop {crop} and {most} kg", lost, plan=plan((2019, run)), project=1908170, activity=100429)
        yield refused(13, f"project 1,908,170, CR of crop {crop} and {most + 1} kg", lost, plan=plan((2019, put(run, "CR", {2: most + 1}))))
    thrice = plan((2019, [limestone(1), residue(1, *UNIT), residue(2, *UNIT)]))
    yield accepted("project 58, a gram of lime and two CR of a gram each", emitted(1581), plan=thrice, project=58, activity=3)
    yield refused(13, "project 57, a gram of lime and two CR of a gram each", emitted(1554), plan=thrice)
    yield refused(13, "a planned CR of the greatest amount", one, plan=plan((2019, [MOST_RESIDUE])))
    yield accepted("a planned CR of the greatest amount in another year", one, plan=plan((2018, [MOST_RESIDUE]), (2019, [small])), activity=5753)
    two = base(n=2, run=[PLANNED])
    yield accepted("two CR in each of two planned years", two, plan=plan((2019, [small, other]), (2020, [small, other])), activity=5753 + 13424)
    yield accepted("two CR of its own, and two in a plan of its year", base(run=residues(2)), plan=plan((2019, [small, other])), activity=9483640)
    yield accepted("two CR of its own, then two planned", planning(base(n=2, run=[small, other]), 2020)[0], plan=plan((2020, [small, other])),
                   activity=5753 + 13424)
    full = [(2019 + k, [small, other]) for k in range(MOST_PLANNED)]
    yield accepted("two CR in each of twenty planned years", one, plan=plan(*full), activity=5753 + 13424)
    due, three, pair, wrong = (2019, LITTLE), residues(3), [small, small], residue(1, 17, 5882353, 0, 0, 0, 0, 0)
    for number, name, years in ((12, "a third CR in its year", [(2019, three)]), (12, "a third CR in the year before", [(2018, three), due]),
                                (12, "a third CR in the year after", [due, (2020, three)]),
                                (12, "a third CR in the 20th year", [*full[:-1], (2038, three)]),
                                (12, "a third CR among sixty", [(2019, [first, *different(57, RUN[:4]), second, third])]),
                                (12, "a CR after sixty", [(2019, [*different(60, RUN[:4]), first])]),
                                (12, "a third CR, then a pair", [(2019, [*three, *LITTLE[:1] * 2])]),
                                (12, "a third CR, then a pair in the next year", [(2019, three), (2020, pair)]),
                                (12, "a wrong CR twice", [(2019, [wrong, wrong])]), (12, "a sound CR, then a wrong one", [(2019, [small, wrong])]),
                                (14, "a second CR equal to the first", [(2019, pair)]), (14, "a pair of CR, then a third", [(2019, [*pair, other])]),
                                (14, "a pair of CR, then a third in the next year", [(2019, pair), (2020, three)]),
                                (14, "a pair of CR in the year after", [due, (2020, pair)])):
        yield refused(number, f"a plan of {name}", one, plan=plan(*years))
        yield refused(number, f"a plan of {name}, without PL", own, plan=plan(*years))
    data = encode(plan((2019, three)))
    for length in range(1, 22):
        yield refused(12, f"a plan cut in its third CR, {length} of its 21 bytes", one, plan=data[:-23] + data[-23:][:length])
    for name, dossier in (("no bytes", b""), ("n 0", put(own, "HD", {2: 0})), ("a wrong field", put(own, "FU", {0: 0})), ("a pair", emitting(*pair))):
        yield refused(12, f"a plan with a third CR, and a dossier of {name}", dossier, plan=data)
    for room in (0, 95):
        yield refused(12, f"a plan with a third CR, and a buffer of {room}", own, room, plan=data)


def residue_pairs():
    """Pairs of CR that are not equal. Twenty of them stand in a plan, each in a year of its own: one number of a CR is a power of two or the
    greatest, one of the other is one more than its least, and all else is at its least."""
    low = least("CR")
    ones = [("CR", [*low[:f], low[f] + 1, *low[f + 1:]]) for f in range(len(low))]
    pairs = [[given, other] for given in powers("CR") for other in ones if given != other]
    for k in range(0, len(pairs), MOST_PLANNED):
        yield accepted(f"CR with a number apart, pairs {k + 1} to {min(k + MOST_PLANNED, len(pairs))}", base(run=LITTLE),
                       plan=plan(*enumerate(pairs[k:k + MOST_PLANNED])), activity=27332)
    given, exchanged = [12, 34, 5678, 90, 12, 345, 678], [12, 34, 5678, 12, 90, 678, 345]
    for name, grams, f, g in (("area and yield", 52076, 0, 1), ("the ratios", 86594, 3, 4), ("the contents", 86594, 5, 6)):
        other = list(given)
        other[f], other[g] = given[g], given[f]
        yield accepted(f"CR that have {name} exchanged", emitting(residue(1, *given), residue(1, *other)), activity=52076 + grams)
    yield accepted("CR with the parts above and below exchanged", emitting(residue(1, *given), residue(1, *exchanged)), activity=2 * 52076)
    yield accepted("CR with the same product by other factors", emitting(residue(1, *given), residue(1, 8, 51, *given[2:])), activity=2 * 52076)


# Where the bytes end

def record_ends():
    """Each wrong field and PL of the vectors above, where the bytes end with the record: the number is the same."""
    above = [vector for section in VECTORS[:VECTORS.index(record_ends)] for vector in section()]
    seen = {(vector.dossier, vector.plan) for vector in above}
    for label, number, data, lent_plan, _, room, _ in above:
        if number in (*range(3, 9), 11, 13):
            short = next(data[:end] for end, _ in boundaries(data) if reckoner.reckon(data[:end], bytearray(room), lent_plan)[0] == number)
            if (short, lent_plan) not in seen:
                seen.add((short, lent_plan))
                yield refused(number, f"{label}, and no byte more", short, plan=lent_plan)


def calendar():
    """The last day of a year and the day after it, in every year that a dossier can begin with, and in some that follow 2200."""
    for first in range(2000, 2201):
        days = reckoner.days_of(first)
        yield refused(1, f"d {days} of {first}, and no byte more", emitting(first=first, days=days)[:4])
        yield refused(6, f"d {days + 1} of {first}, and no byte more", emitting(first=first, days=days + 1)[:4])
    for later in (2201, 2202, 2203, 2204, 2208, 2219):
        n = later - 2199
        days = [reckoner.days_of(2200 + y) for y in range(n)]
        records = years_of(1, 2200, n, areas(NF=1), areas(), (table(("NF", "NF", 1)), table()), days=(*days[:-1], days[-1] + 1))
        yield refused(6, f"d {days[-1] + 1} of {later}, as year {n}", records[:3 * n + 1])
    vast = areas(E=10**9)
    for first in (2000, 2001, 2002, 2003, 2004, 2096, 2100, 2104, 2200):
        days, one = (366, 22775109) if first in (2000, 2004, 2096, 2104) else (365, 22837506)
        for d, grams in ((1, one), (days, 8335690000)):
            records = one_year(1, vast, vast, stays(vast), stays(vast), first=first, days=d)
            yield accepted(f"d {d} of {days} in {first}", records, reference=grams, belt_reference=grams)


def last_marks():
    """Another mark, and nothing after it, at the places that are left."""
    one, two, run = base(), base(n=2), [*GREATEST, "YR", "EN"]
    full = emitting(*different(60, RUN))
    spots = [("after HD, Option 2", before(base(2), "PA"), ["PA", "ST"]), ("after PA, Option 2", before(base(2), "DA"), ["DA"])]
    spots += [(f"after {mark}", before(one, after), run) for mark, after in FOLLOWING]
    spots += [("after 60 records", encode(full[:-1]), run), ("after the first of two years", before(two, "YR", 1), run[:-1]),
              ("after the second YR", before(two, "CP", 1), ["CP"]), ("after the second CP", before(two, "CD", 1), ["CD"]),
              ("after the second CD", before(two, "FU", 1), [*run, "PL"]), ("after EN", encode(one), [])]
    known = {vector.label for section in (marks, endings) for vector in section()}
    for place, data, due in spots:
        for mark in [mark for mark in (*FIELDS, "??") if mark not in due and f"{mark} {place}" not in known]:
            yield refused(2, f"{mark} {place}" + (", two bytes" if place == "after EN" else ""), data + mark.encode())


def full_buffers():
    twenty = base(n=20, run=[])
    yield accepted("buffer 1312 of 1312", twenty)
    for room in (1280, 1311):
        yield refused(10, f"buffer {room} of 1312", twenty, room)


# Equal records (#105)

def equal_records():
    """Two records of a year that are equal in mark and all fields: 14, whatever follows them."""
    for record in RUN:
        mark, others = record[0], [other for other in RUN if other != record]
        yield refused(14, f"{mark} twice", emitting(record, record))
        yield refused(14, f"{mark} twice, and no byte more", emitting(record, record)[:-1])
        yield refused(14, f"{mark} twice, others between", emitting(record, *others, record))
        yield refused(14, f"{mark} twice, of zero quantities", emitting(*[(mark, least(mark))] * 2))
        yield refused(14, f"{mark} twice, of the greatest quantities", emitting(*singly(mark)[-1:] * 2))
    run = different(60, RUN)
    yield refused(14, "three equal records", emitting(*RUN[:1] * 3))
    yield refused(14, "two pairs", emitting(*RUN[:2] * 2))
    yield refused(14, "sixty equal records", emitting(*RUN[:1] * 60))
    for name, again in (("first", run[:1]), ("30th", run[29:30]), ("59th", run[58:59])):
        yield refused(14, f"the {name} record again as the 60th", emitting(*run[:59], *again))
    yield refused(14, "the 59th record of one slot equal to the first", emitting(*of_one_slot(58), *of_one_slot(1)))
    yield refused(14, "the 60th record of one slot equal to the first", emitting(*of_one_slot(59), *of_one_slot(1)))
    yield refused(14, "the 60th record of one slot equal to the 59th", emitting(*of_one_slot(59), *of_one_slot(59)[58:]))
    yield refused(14, "a pair in the second year", base(n=2)[:-1] + [RUN[3], END])
    yield refused(14, "a pair in the first of two years", base(n=2, run=RUN + RUN[3:4]))
    yield refused(14, "a pair under Option 2 by filed stocks", filing(NEWER, base(2, run=RUN + RUN[:1])))


def powers(mark):
    """Records with one field at a power of two, or at the greatest, the others at their least; no two of them equal."""
    low = least(mark)
    found = [(mark, low)]
    for f, top in enumerate(GREATEST[mark]):
        found += [(mark, [*low[:f], value, *low[f + 1:]]) for value in (*(2**k for k in range(top.bit_length())), top) if value <= top]
    return [record for k, record in enumerate(found) if record not in found[:k]]


def nearly_equal():
    """Records that are not equal, or not of one year: accepted."""
    for mark, given in RUN:
        for f, (name, top) in enumerate(zip(FIELD_NAMES[mark], GREATEST[mark])):
            other = [*given[:f], given[f] % top + 1, *given[f + 1:]]
            yield accepted(f"{mark} twice but for its {name}", emitting((mark, given), (mark, other)))
        if mark != "CR":
            yield accepted(f"{mark} with a power of two in one field or another", emitting(*powers(mark)))
    alike = [(mark, [1, amount]) for mark in ("FU", "LI") for amount in (0, 1, 2, 7, LIMIT)]
    yield accepted("FU and LI with the same fields", emitting(*alike), activity=4 + 7 + 23 + 3186300000000 + 1 + 1 + 4 + 440000000000)
    alike += [("VE", [1, count, 0, 0]) for count in (0, 1, 2, 7)] + [("NI", [1, crop, 0, 0]) for crop in (1, 2)]
    yield accepted("records of each mark with the same first fields", emitting(*alike))
    factors = [("VE", [1, *given]) for given in itertools.permutations((2, 3, 4))] + [("VE", [1, 24, 1, 1]), ("VE", [1, 1, 1, 24])]
    yield accepted("VE with other factors and the same product", emitting(*factors), activity=8 * 77)
    yield accepted("VE with the greatest product by sixty factors", emitting(*vehicles(LIMIT)), activity=60 * 3186300000000)
    yield accepted("sixty records of one slot", emitting(*of_one_slot(60)))
    yield accepted("sixty records that differ by a gram", emitting(*different(60, [("FU", [1, 0])])))
    yield accepted("the same records in each of three years", base(2, 3))
    yield accepted("a year's last record is the next one's first", base(n=2, run=RUN[:1]))
    for name, records, years in (("two planned years", base(n=2, run=[PLANNED]), [(2019, LITTLE), (2020, LITTLE)]),
                                 ("a planned year and one that is not used", base(run=[PLANNED]), [(2019, LITTLE), (2020, LITTLE)]),
                                 ("the plan and the dossier's own year", base(run=LITTLE), [(2019, LITTLE)]),
                                 ("a planned year and the next one's own", planning(base(n=2, run=LITTLE), 2019)[0], [(2019, LITTLE)])):
        yield accepted(f"the same records in {name}", records, plan=plan(*years), activity=27332)
    yield accepted("sixty records of one slot in a plan", base(run=LITTLE), plan=plan((2019, of_one_slot(60)), (2020, of_one_slot(60))))


def equal_orders():
    """14 comes after the later record's mark, 9, missing bytes and fields, and before what stands after that record."""
    for name, wrong in out_of_range():
        yield refused(8, f"{name} after the same in range", emitting((wrong[0], least(wrong[0])), wrong))
        yield refused(8, f"{name} twice", emitting(wrong, wrong))
    run, pair, faulty = different(60, RUN), [RUN[0], RUN[0]], ("VE", [4, 0, 0, 0])
    yield refused(14, "a pair, then a wrong field", emitting(*pair, faulty))
    yield refused(8, "a wrong field, then a pair", emitting(faulty, *pair))
    yield refused(8, "a record, a wrong field, and the record again", emitting(RUN[0], faulty, RUN[0]))
    for record in RUN:
        data, (start, end) = encode(emitting(record, record)), places(emitting(record, record))[-3:-1]
        for length in (1, 2, 3, end - start - 1):
            yield refused(1, f"{record[0]} again, {length} of its {end - start} bytes", data[:start + length])
    yield refused(9, "the first record again as the 61st", emitting(*run, run[0]))
    yield refused(9, "the 60th record again as the 61st", emitting(*run, run[59]))
    yield refused(14, "a pair among sixty, then a 61st", emitting(*run[:59], *run[:2]))
    for name, more in (("another mark", b"??"), ("HD", b"HD"), ("CD", b"CD"), ("PL", b"PL"), ("a byte", b"F"), ("a mark and no more", b"LI"),
                       ("EN and a byte", b"EN\0")):
        yield refused(14, f"a pair, then {name}", encode(emitting(*pair)[:-1]) + more)
    yield refused(2, "a record, another mark, and the record again", encode(emitting(RUN[0])[:-1]) + b"CD" + encode(RUN[:1]))
    two = base(n=2, run=pair)
    yield refused(14, "a pair, then a wrong year", put(two, "YR", {1: 0}, 1))
    yield refused(14, "a pair, then a second year that is missing", put(base(run=pair), "HD", {2: 2}))
    for number, mark, cells in ((3, "HD", {0: 3}), (4, "PA", {0: LIMIT}), (6, "YR", {1: 0}), (7, "CP", {0: 0}), (7, "CD", {0: 0})):
        yield refused(number, f"a wrong {mark}, then a pair", put(two, mark, cells))
    yield refused(6, "a pair in a year more than n", put(base(n=2)[:-1] + [RUN[3], END], "HD", {2: 1}))
    for room in (0, 95):
        yield refused(14, f"a pair, and a buffer of {room}", emitting(*pair), room)


def equal_planned():
    """Two equal records of a planned year, used or not: 14, in the order of the plan's faults, of which every other one is 12."""
    one, own, pair, sixty = base(run=[PLANNED]), base(run=LITTLE), LITTLE[:1] * 2, different(60, LITTLE)
    wrong, full = ("FU", [0, 0]), [(2019 + k, []) for k in range(MOST_PLANNED)]
    for record in LITTLE:
        yield refused(14, f"{record[0]} twice in a plan", one, plan=plan((2019, [record] * 2)))
    for name, years in {"a pair in its year": [(2019, pair)], "a pair in the year before": [(2018, pair), (2019, LITTLE)],
                        "a pair in the year after": [(2019, LITTLE), (2020, pair)], "a pair in the 20th year": [*full[:-1], (2038, pair)],
                        "the first record again as the 60th": [(2019, sixty[:59] + sixty[:1])],
                        "the 60th record of one slot equal to the first": [(2018, of_one_slot(59) + of_one_slot(1))],
                        "a pair, then a wrong field": [(2019, [*pair, wrong])],
                        "a pair, then a wrong field in the next year": [(2019, pair), (2020, [wrong])],
                        "a pair, then a year that is not later": [(2019, pair), (2019, [])],
                        "a pair, then a 61st record": [(2019, sixty[:59] + sixty[:2])], "a pair, then a 21st year": [(2018, pair), *full]}.items():
        yield refused(14, f"a plan of {name}", one, plan=plan(*years))
        yield refused(14, f"a plan of {name}, without PL", own, plan=plan(*years))
    for name, years in {"a wrong field, then a pair": [(2019, [wrong, *pair])],
                        "a wrong field, then a pair in the next year": [(2018, [wrong]), (2019, pair)],
                        "a wrong record twice": [(2019, [wrong] * 2)], "a pair in a year that is not later": [(2019, LITTLE), (2018, pair)],
                        "a pair in its year again": [(2019, []), (2019, pair)], "a pair in a 21st year": [*full, (2039, pair)],
                        "the first record again as the 61st": [(2019, sixty + sixty[:1])],
                        "its year twice with the same records": [(2019, LITTLE)] * 2}.items():
        yield refused(12, f"a plan of {name}", one, plan=plan(*years))
    data = encode(plan((2019, pair)))
    for number, name, lent_plan in ((14, "and no byte more", data[:-2]), (14, "then E alone", data[:-1]), (14, "then CD", data[:-2] + b"CD"),
                                    (14, "then a byte after EN", data + b"\0"), (12, "of which the last byte is missing", data[:-3]),
                                    (12, "of which only the mark is there", data[:17]), (12, "before the first PY", encode(pair) + data)):
        yield refused(number, f"a plan with a pair, {name}", one, plan=lent_plan)
    for name, dossier in (("no bytes", b""), ("n 0", put(own, "HD", {2: 0})), ("a wrong field", put(own, "FU", {0: 0})), ("a pair", emitting(*pair)),
                          ("61 records", emitting(*different(61, RUN))), ("a byte after EN", encode(own) + b"\0"),
                          ("PL in a year that the plan lacks", base(n=2, run=[PLANNED]))):
        yield refused(14, f"a plan with a pair, and a dossier of {name}", dossier, plan=data)
    for room in (0, 95):
        yield refused(14, f"a plan with a pair, and a buffer of {room}", own, room, plan=data)
    for number, name, lent_plan in ((12, "a plan cut", b"E"), (14, "a sound plan", b"EN"), (14, "a plan of its year", plan((2019, LITTLE)))):
        yield refused(number, f"a pair in the dossier, and {name}", emitting(*pair), plan=lent_plan)
    yield refused(14, "a pair, then PL by its plan", emitting(*pair, PLANNED), plan=plan((2019, LITTLE)))
    yield refused(2, "PL by its plan, then a pair", one[:-1] + pair, plan=plan((2019, LITTLE)))
    yield refused(13, "PL without a plan, then a pair", one[:-1] + pair)


# Verification periods (#107)

TONNE = 10**6


def credited(*grams):
    """Years from 2019 on that are credited just so many grams."""
    return reduced(*(g if g < 0 else -(-5 * g // 4) for g in grams))


def every_year(records):
    return tuple(fields[0] for mark, fields in records if mark == "YR")


def years_text(ends):
    return ", ".join(map(str, ends)) or "none"


def period_issues():
    """At each end the whole tonnes of the running total beyond those issued before, if there are any."""
    for name, credits, ends, issued, tonnes in (
            ("a bad year between two ends", (5, 5, -4, 3, 4), (2020, 2021, 2023), [10, 0, 3], 13),
            ("a bad year within a period", (5, 5, -4, 3, 4), (2020, 2022, 2023), [10, 0, 3], 13),
            ("a bad year made good within its period", (5, 5, -4, 6, 4), (2020, 2022, 2023), [10, 2, 4], 16),
            ("a bad year first", (-4, 5, 5, 3), (2020, 2022), [1, 8], 9), ("a bad year last", (5, 5, -4), (2020, 2021), [10, 0], 6),
            ("a bad year last within a period", (5, 8, -4), (2019, 2021), [5, 4], 9), ("two bad years", (9, -2, 3, -5, 6), (), [9, 0, 1, 0, 1], 11),
            ("a loss just made good", (9, -2, 2), (), [9, 0, 0], 9), ("a loss made good, and a tonne", (9, -2, 3), (), [9, 0, 1], 10),
            ("a loss never made good", (9, -8, 3, 2, 2), (), [9, 0, 0, 0, 0], 8), ("all lost", (9, -20, 5), (), [9, 0, 0], 0),
            ("a negative running total at first", (-5, 9), (), [0, 4], 4), ("negative running totals at first", (-5, 3, 1, 4), (), [0, 0, 0, 3], 3),
            ("negative running totals at every end", (-5, 3, -1), (), [0, 0, 0], 0), ("running totals of 0", (0, 0, 0), (), [0, 0, 0], 0),
            ("a high that is no end", (10, -8, 3), (2020, 2021), [2, 3], 5), ("a low that is no end", (4, -9, 8, 2), (2019, 2021, 2022), [4, 0, 1], 5),
            ("every year an end", (3, 1, 4, 1, 5), (), [3, 1, 4, 1, 5], 14), ("the last year alone", (3, 1, 4, 1, 5), (2023,), [14], 14),
            ("the last year alone, after a bad one", (5, 5, -4), (2021,), [6], 6), ("the last year alone, a loss", (3, 1, -4, -1), (2022,), [0], 0),
            ("a year between two without credit", (0, 7, 0), (), [0, 7, 0], 7)):
        records = credited(*(TONNE * t for t in credits))
        yield accepted(f"{name}, periods", records, ends=ends or every_year(records), issued=issued, tonnes=tonnes, total=TONNE * sum(credits))


def period_edges():
    """A gram more or less than whole tonnes; what is left of a tonne is carried on to the next end."""
    for tonnes in (1, 2, 128):
        for more in (-1, 0, 1):
            total, issued = TONNE * tonnes + more, tonnes - (more < 0)
            for name, grams, due in (("", [total], [issued]), (" after 700,001 g", [700001, total - 700001], [0, issued]),
                                     (" after a loss", [total + 5, -5], [tonnes, 0])):
                records = credited(*grams)
                yield accepted(f"a running total of {total} g{name}", records, ends=every_year(records), issued=due, total=total, tonnes=issued)
    for loss in (-1, -999999, -TONNE, -TONNE - 1):
        records = credited(loss, TONNE - loss - 1, 1)
        yield accepted(f"a running total of {loss} g, then just below a tonne, then one", records, ends=every_year(records), issued=[0, 0, 1],
                       total=TONNE)
    for name, grams, issued in (("600,000 g a year", [600000] * 5, [0, 1, 0, 1, 1]), ("333,333 g a year", [333333] * 3, [0, 0, 0]),
                                ("333,333 g a year, and a gram", [333333, 333333, 333334], [0, 0, 1]),
                                ("five tonnes, a gram lost and gained again", [5 * TONNE, -1, 1], [5, 0, 0]),
                                ("five tonnes less a gram, a gram, and a gram lost", [5 * TONNE - 1, 1, -1], [4, 1, 0])):
        records = credited(*grams)
        yield accepted(f"{name}, every year an end", records, ends=every_year(records), issued=issued, total=sum(grams))


def period_twenty():
    """As many ends as there can be, the longest report, and the greatest tonnes."""
    credits = (2, -1, 3, 0, 4, -5, 1, 6, -2, 2, 2, 0, -9, 5, 5, 1, 7, -1, -1, 2)
    records = credited(*(TONNE * t for t in credits))
    ends, issued = every_year(records), [2, 0, 2, 0, 4, 0, 0, 2, 0, 0, 2, 0, 0, 0, 1, 1, 7, 0, 0, 0]
    yield accepted("n 20 and 20 ends", records, 1472, ends=ends, issued=issued, total=21 * TONNE, tonnes=21)
    for room in (1312, 1464, 1471):
        yield refused(10, f"n 20 and 20 ends, buffer {room} of 1472", records, room, ends=ends)
    yield accepted("n 20 and 19 ends, buffer 1472 of 1464", records, 1472, ends=ends[1:], issued=[1, 3, *issued[3:]])
    ends = tuple(range(2200, 2220))
    yield longest()._replace(label="n 20 and 20 ends, the longest dossier", ends=ends, room=1472, figures=dict(issued=[0] * 20))
    half, turned = areas(SE=LIMIT // 2, NF=LIMIT // 2), matrix(("SE", "NF", 1000000), ("NF", "SE", 1000000))
    most = filing(areas(SE=MOST_STOCK), years_of(2, 2200, 20, half, areas(), (stays(half), table()), turned))
    for ends, issued in (((2219,), [14666666666]), ((2200, 2209, 2219), [733333333, 6600000000, 7333333333])):
        yield accepted(f"the greatest tonnes, ends {years_text(ends)}", most, ends=ends, issued=issued, total=14666666666666640, tonnes=14666666666)


def period_lists():
    """Every sound list of four years, and of one."""
    four, one = credited(3 * TONNE, TONNE, -2 * TONNE, 4 * TONNE), credited(7 * TONNE)
    for ends, issued in (((), []), ((2022,), [6]), ((2019, 2022), [3, 3]), ((2020, 2022), [4, 2]), ((2021, 2022), [2, 4]),
                         ((2019, 2020, 2022), [3, 1, 2]), ((2019, 2021, 2022), [3, 0, 3]), ((2020, 2021, 2022), [4, 0, 2]),
                         ((2019, 2020, 2021, 2022), [3, 1, 0, 2])):
        yield accepted(f"periods of four years, ends {years_text(ends)}", four, ends=ends, issued=issued, total=6 * TONNE, tonnes=6)
    for ends, issued in (((), []), ((2019,), [7])):
        yield accepted(f"periods of one year, ends {years_text(ends)}", one, ends=ends, issued=issued, total=7 * TONNE, tonnes=7)


def exchanged(number):
    """Its two bytes the other way round."""
    return number % 256 * 256 + number // 256


def period_faults():
    """Each fault of a list at its first place, a middle one and its last: 15."""
    four, one, twenty = base(n=4, run=[]), base(run=[]), base(n=20, run=[])  # 2019 to 2022, 2019, and 2019 to 2038
    sound = 2019, 2020, 2022
    for k, place in enumerate(("first", "second", "last")):
        for name, number in (("a year before the first", 2018), ("a year after the last", 2023), ("0", 0), ("65,535", 65535),
                             ("a year's low byte", sound[k] % 256), ("a year's bytes exchanged", exchanged(sound[k])),
                             ("a year with another high byte", sound[k] ^ 0x8000)):
            yield refused(15, f"a list with {name} as the {place}", four, ends=(*sound[:k], number, *sound[k + 1:]))
    for name, ends in {"two years exchanged at first": (2020, 2019, 2022), "two years exchanged": (2019, 2021, 2020, 2022),
                       "two years exchanged at last": (2019, 2022, 2020), "falling years": (2022, 2021, 2020, 2019),
                       "the first year twice": (2019, 2019, 2022), "a year between twice": (2019, 2020, 2020, 2022),
                       "the last year twice": (2019, 2022, 2022), "the last year twice alone": (2022, 2022),
                       "the last year missing": (2019, 2020, 2021), "two years missing at last": (2019, 2020), "the first year alone": (2019,),
                       "a year between alone": (2020,), "the year before the last alone": (2021,), "the last year first": (2022, 2019, 2020),
                       "the last year, then the next": (2019, 2022, 2023), "the last year, then the first": (2022, 2019),
                       "the last year, then 0": (2022, 0), "the last year, then 65,535": (2019, 2020, 2022, 65535),
                       "the year before and all": range(2018, 2023), "all and the year after": range(2019, 2024), "the next years": range(2023, 2027),
                       "20 rising years": range(2003, 2023), "21 rising years": range(2002, 2023), "64 rising years": range(1959, 2023),
                       "the last year 20 times": [2022] * 20, "the last year 21 times": [2022] * 21, "the last year 64 times": [2022] * 64,
                       "all years 16 times": [*range(2019, 2023)] * 16, "64 zeros": [0] * 64}.items():
        yield refused(15, f"a list of {name}", four, ends=tuple(ends))
    for ends in ((2018,), (2020,), (0,), (65535,), (exchanged(2019),), (2018, 2019), (2019, 2019), (2019, 2020), (2019, 0), (2019, 65535)):
        yield refused(15, f"a list of {years_text(ends)} for 2019 alone", one, ends=ends)
    for name, ends in {"21 rising years up to the last": range(2018, 2039), "21 rising years from the first": range(2019, 2040),
                       "20 years and the last again": [*range(2019, 2039), 2038], "20 years and the first twice": [2019, *range(2019, 2039)],
                       "20 years, one between twice": sorted([*range(2019, 2039), 2028]), "19 years without the last": range(2019, 2038),
                       "64 rising years up to the last": range(1975, 2039)}.items():
        yield refused(15, f"a list of {name}, n 20", twenty, ends=tuple(ends))


def period_orders():
    """15 comes after the numbers of the plan and the dossier, and before 10."""
    one, two, bad, many = base(run=[]), base(n=2, run=[]), (0,), tuple(range(1999, 2020))
    for name, ends in (("a bad list", bad), ("21 years", many)):
        for room in (0, 96, 103, 104):
            yield refused(15, f"{name}, and a buffer of {room}", one, room, ends=ends)
    lists = ("a bad list", ROOM, bad), ("21 years and a buffer of 0", 0, many), ("a sound list and a buffer of 0", 0, (2019,))
    for name, room, ends in lists:
        for number, data in refused_dossiers():
            yield refused(number, f"{number} comes before {name}", data, room, ends=ends)
        for number, fault, wrong in ((12, "a plan cut", b"E"), (14, "a plan with a pair", plan((2019, LITTLE[:1] * 2)))):
            yield refused(number, f"{fault} comes before {name}", one, room, wrong, ends)
            yield refused(number, f"{fault} comes before {name}, and a dossier cut", encode(one)[:-1], room, wrong, ends)
    yield refused(15, "a sound plan, and a bad list", base(run=[PLANNED]), plan=plan((2019, LITTLE)), ends=bad)
    yield refused(13, "a plan without the year, and a bad list", base(run=[PLANNED]), plan=plan((2020, LITTLE)), ends=bad)
    yield refused(6, "a wrong second year, and a list of the first", put(two, "YR", {1: 0}, 1), ends=(2019,))
    yield refused(2, "a year less than n, and a list of those there are", put(one, "HD", {2: 2}), ends=(2019,))
    yield refused(6, "a year more than n, and a list of all", put(two, "HD", {2: 1}), ends=(2019, 2020))
    yield refused(15, "a list of the first of two years", two, ends=(2019,))
    yield refused(1, "no bytes, and a list", b"", ends=(2019,))


def period_buffers():
    """10 counts the issued tonnes, and bytes beyond them stay."""
    for n, ends in ((1, (2019,)), (2, (2020,)), (2, (2019, 2020)), (3, (2019, 2021))):
        records = base(n=n, run=[])
        size = need(records, ends)
        for room in sorted({0, 64 * n, need(records), size - 8, size - 1}):
            yield refused(10, f"buffer {room} of {size}, n {n}, ends {years_text(ends)}", records, room, ends=ends)
        for room in (size, size + 7, size + 8):
            yield accepted(f"buffer {room} of {size}, n {n}, ends {years_text(ends)}", records, room, ends=ends)
    yield accepted("the longest buffer, n 2, ends 2019, 2020", base(n=2, run=[]), ROOM, ends=(2019, 2020))


def forested(option, *lost, run=(), stocks=None):
    """Years from 2020 on of 100 ha of E, of which so many units turn into NF in each; the matrix foresees what Option 1 does."""
    forest = areas(E=100000000)
    records = opening(option, 2020, len(lost), forest, areas(), matrix(("E", "NF", 24900)), stocks)
    for number, units in enumerate(lost, 2020):
        records += year(number, reckoner.days_of(number), table(("E", "E", 100000000 - units), ("E", "NF", units)), table(), *run)
    return records + [END]


def period_kinds():
    """Periods under each option, by filed stocks, with records and planned years: the report before the issued tonnes is the one without ends."""
    lost, ends = (1000000, 3500000, 800000), (2020, 2021, 2022)
    for name, records, listed, figures in (
            ("Option 1", forested(1, *lost), (), dict(issued=[399, 0, 60], total=459980042)),
            ("Option 2", forested(2, *lost), (), dict(issued=[399, 0, 60], total=459980042)),
            ("stock 50,000 of E", forested(1, *lost, stocks=areas(E=MOST_STOCK)), (), dict(issued=[2185, 0, 334], total=2519058297)),
            ("records of each mark", forested(1, *lost, run=RUN), (), dict(issued=[383, 0, 27], total=410767583)),
            ("planned years", *planning(forested(2, *lost, run=LITTLE)), dict(issued=[399, 0, 60], total=459908978)),
            ("a planned year", *planning(forested(1, *lost, run=LITTLE), 2021), dict(issued=[399, 0, 60], total=459908978))):
        require(report(records, listed, ends) == report(records, listed), f"{name}: another report beside the ends")
        yield accepted(f"{name}, three periods", records, plan=listed, ends=ends, **figures)
        yield accepted(f"{name}, no ends", records, plan=listed, **figures | dict(issued=[]))


# The calls on a ledger, each with its number

def opens(number, data):
    return number, lent(b"O", as_bytes(data))


def gives(number, data):
    return number, lent(b"Y", as_bytes(data))


def closes(number, room):
    return number, closing(room)


def lends(data):
    """No call of the ledger's: the year calls after it are lent this plan, or none."""
    return None, lent(b"P", as_bytes(data))


def empty_ledger():
    due = encode(pieces(case_a())[1][0])
    yield from (closes(0, 32), closes(10, 31), closes(10, 0), closes(0, 40), closes(0, 65536))
    yield from (gives(6, due), gives(1, b""), gives(1, b"Y"), gives(2, b"CP"), gives(1, due[:5]), gives(6, due[:6]), gives(6, due + b"??"))
    yield closes(0, 32)


def refused_openings():
    one, two = pieces(base())[0], pieces(base(2))[0]
    sound = encode(two)
    for number, data in ((1, b""), (1, sound[:1]), (1, sound[:-1]), (1, two[:3]), (2, sound[:6] + b"DA"), (3, put(two, "HD", {0: 0})),
                         (3, put(two, "HD", {1: 2201})), (3, put(two, "HD", {2: 21})), (4, put(two, "PA", {0: LIMIT})),
                         (4, put(two, "DA", {0: LIMIT})), (5, put(two, "MP", {0: 0})), (5, put(two, "MP", {143: 1000001})),
                         (1, sound + b"Y"), (2, sound + b"YR"), (1, encode(one) + b"\0"), (2, encode(one) + b"MP"), (2, base(2))):
        yield opens(number, data)
        yield closes(0, 32)
    yield gives(6, pieces(base(2))[1][0])
    yield closes(10, 31)


def case_a_ledger():
    head, (due,) = pieces(case_a())
    yield from (opens(0, head), closes(0, 32), closes(10, 31), gives(0, due))
    yield from (closes(0, 96), closes(10, 95), closes(10, 0), closes(0, 104), closes(0, 1312), gives(6, due), closes(0, 96))


def three_years():
    head, dues = pieces(base(2, 3))
    yield opens(0, head)
    for y, due in enumerate(dues):
        sound, tables, sixty = encode(due), due[:3], due[:3] + different(60, RUN[:1])
        yield from (gives(1, sound[:-1]), gives(1, sound + b"L"), gives(1, encode(tables) + b"Y"), closes(0, 64 * y + 32))
        yield from (gives(2, sound + b"EN"), gives(2, before(due, "CD") + b"FU"), gives(2, encode(tables) + b"YR"), closes(0, 64 * y + 32))
        yield from (gives(6, dues[y - 1]), gives(6, put(due, "YR", {1: 0})), closes(0, 64 * y + 32))
        yield from (gives(7, put(due, "CP", {0: 0})), gives(7, put(due, "CD", {5: 2**63, 6: 2**63})), closes(0, 64 * y + 32))
        yield from (gives(8, put(due, "VE", {1: 1001})), gives(9, due[:3] + different(61, RUN[:1])), gives(9, encode(sixty) + b"NI"))
        yield gives(0, (sound, tables, sixty)[y])
        yield from (closes(0, 64 * y + 96), closes(10, 64 * y + 95), closes(0, 64 * y + 200))
    yield from (gives(6, year(2022, 365, stays(PROJECT), stays(BELT))), gives(6, dues[0]), gives(2, b"FU"))
    yield from (closes(0, 224), closes(10, 223))


def opened_again():
    head, dues = pieces(base(1, 2))
    yield from (opens(0, head), closes(0, 32), gives(0, dues[0]), closes(0, 96), opens(0, head), closes(0, 32), gives(6, dues[1]))
    yield from (gives(0, dues[0]), gives(0, dues[1]), closes(0, 160), opens(1, head[:-1]), closes(0, 32), gives(6, dues[0]), closes(0, 32))


def filed_ledgers():
    """#102: a ledger's years go by the stocks that its opening filed, and the next ledger's by its own."""
    stocks, wrong, plain = [("ST", NEWER)], [("ST", [65535] * 12)], pieces(base(2, 2))[0]
    for option in (1, 2):
        head, dues = pieces(filing(NEWER, base(option, 2)))
        for number, data in ((1, head[:2]), (1, encode(head[:2]) + b"P"), (1, encode(head[:2])[:-1]), (2, encode(head[:2]) + b"ST"),
                             (2, head[:1] + stocks + head[1:]), (2, stocks + head), (2, head[:1] + head[2:3] + stocks + head[3:]),
                             (2, head + stocks), (11, head[:1] + wrong), (11, head[:1] + wrong + head[2:]), (1, encode(head) + b"S")):
            yield from (opens(number, data), closes(0, 32), gives(6, dues[0]))
        yield from (opens(0, head), closes(0, 32))
        for y, due in enumerate(dues):
            yield from (gives(2, stocks + due), gives(2, due[:1] + stocks + due[1:]), gives(2, due[:3] + stocks), gives(2, due + wrong))
            yield from (closes(0, 64 * y + 32), gives(0, due), closes(0, 64 * y + 96), closes(10, 64 * y + 95))
        yield from (opens(0, plain), closes(0, 32), gives(0, dues[0]), closes(0, 96), opens(11, head[:1] + wrong), gives(6, dues[0]), closes(0, 32))


# Plans lent to a ledger's years (#103)

def bad_plans():
    """A plan with a fault is 12 whatever the piece, on a ledger that is empty, has years to come, or is full; openings and closings take none."""
    head, (due,) = pieces(base(run=LITTLE))
    own, by_plan, sound = encode(due), encode(due[:3] + [PLANNED]), encode(plan((2019, LITTLE)))
    yield from (opens(0, head), gives(13, by_plan), closes(0, 32))  # before the first P there is no plan
    for ready, room in (((opens(1, head[:2]),), 32), ((opens(0, head),), 32), ((opens(0, head), gives(0, own)), 96)):
        yield from (lends(b"EN"), *ready)
        for wrong in (b"E", b"PY", encode(plan((2019, []), (2019, []))), sound + b"\0"):
            yield lends(wrong)
            for piece in (own, by_plan, b"", b"Y", b"??", own + b"F", due[:1]):
                yield gives(12, piece)
            yield from (closes(0, room), closes(10, room - 1))
    for lent_plan in (sound, b"EN", b""):
        yield from (lends(lent_plan), gives(6, own), gives(6, by_plan), gives(1, b""), gives(1, b"Y"), gives(2, b"??"), closes(0, 96))
    yield from (lends(sound.ljust(65536, b"\0")), opens(1, head[:2]), gives(12, own), opens(0, head), gives(12, own), closes(0, 32))
    yield from (lends(b""), gives(0, own), closes(0, 96))


def planned_pieces():
    """What may stand beside PL in a year piece, in each of three years."""
    head, dues = pieces(base(2, 3, LITTLE))
    listed = plan(*((due[0][1][0], LITTLE) for due in dues))
    yield from (opens(0, head), lends(listed))
    for y, due in enumerate(dues):
        tables, piece = due[:3], encode(due[:3] + [PLANNED])
        for byte in (b"P", b"Y", b"F", b"\0"):
            yield from (gives(1, piece + byte), gives(1, encode(tables) + byte))
        yield from (gives(1, piece[:-3]), closes(0, 64 * y + 32))
        for mark in ("PL", "YR", "EN", "PY", "??", *GREATEST):
            yield gives(2, piece + mark.encode())
        yield from (gives(2, piece + encode(LITTLE)), gives(2, encode(due) + b"PL"), gives(2, encode(tables[:2]) + b"PL"), gives(2, b"PL"))
        yield from (gives(2, encode(tables) + b"pl"), gives(2, due[:1] + [PLANNED] + due[1:]), closes(0, 64 * y + 32))
        yield from (gives(7, put(tables, "CD", {0: 0}) + [PLANNED]), gives(6, put(tables, "YR", {1: 0}) + [PLANNED]))
        yield from (gives(9, tables + different(61, LITTLE[:1]) + [PLANNED]), gives(8, tables + [("FU", [0, 0]), PLANNED]), closes(0, 64 * y + 32))
        yield from (gives(0, piece), closes(0, 64 * y + 96), closes(10, 64 * y + 95))
    yield from (gives(6, encode(dues[2][:3] + [PLANNED])), lends(b""))


def changing_plans():
    """13 by one plan, 12 by the next, and accepted by a third: each year goes by the plan that it is lent, which a new opening leaves."""
    head, dues = pieces(base(1, 3, [PLANNED]))
    for y, due in enumerate(dues):
        number = 2019 + y
        yield from (opens(0, head), lends(b"")) if y == 0 else ()
        yield from (lends(b""), gives(13, due), gives(13, encode(due) + b"P"), gives(13, encode(due) + b"??"), closes(0, 64 * y + 32))
        for years in ([], [(number - 1, LITTLE)], [(number + 1, LITTLE)], [(number, RUN)], [(number - 1, LITTLE), (number + 1, LITTLE)]):
            yield from (lends(plan(*years)), gives(13, due), closes(0, 64 * y + 32))
        yield from (lends(plan((number, LITTLE)) + [END]), gives(12, due), closes(0, 64 * y + 32))
        yield from (lends(plan((number, LITTLE[:y + 1]))), gives(0, due), closes(0, 64 * y + 96), closes(10, 64 * y + 95))
    yield from (gives(6, dues[2]), lends(plan((2019, LITTLE), (2020, []))), opens(0, head), gives(0, dues[0]), opens(1, head[:2]), gives(6, dues[0]))
    yield from (opens(0, head), gives(0, dues[0]), gives(0, dues[1]), gives(13, dues[2]), closes(0, 160))
    yield from (opens(0, head), lends(plan((2019, LITTLE))), lends(plan((2019, RUN))), gives(13, dues[0]), lends(b""), closes(0, 32))


# Equal records of a ledger's years (#105)

def equal_pieces():
    """A year piece with a pair is refused 14 and leaves the ledger; without one of the two, by a plan, or with their sum it is accepted. A
    plan with a pair is 14 whatever the piece."""
    head, dues = pieces(base(2, 3, LITTLE))
    yield from (opens(0, head), lends(b""))
    for y, due in enumerate(dues):
        pair, by_plan, room = due + due[3:4], due[:3] + [PLANNED], 64 * y + 32
        mended = (due, by_plan, put(due, "FU", {1: 2 * fields(due, "FU")[1]}))[y]
        yield from (gives(14, pair), closes(0, room), gives(14, encode(pair) + b"?"), gives(14, encode(pair) + b"EN"), gives(14, pair + [PLANNED]))
        yield from (gives(1, encode(pair)[:-1]), gives(8, due + [("FU", [0, 0])] * 2), gives(9, due[:3] + different(60, LITTLE) + due[3:4]))
        yield from (gives(7, put(pair, "CD", {0: 0})), gives(6, put(pair, "YR", {1: 0})), closes(0, room))
        for wrong in (plan((2019 + y, LITTLE), (2030, LITTLE + LITTLE[3:4])), plan((2019 + y, LITTLE + LITTLE[:1]))):
            yield from (lends(wrong), gives(14, by_plan), gives(14, due), gives(14, pair), gives(14, b""), closes(0, room), closes(10, room - 1))
        yield from (lends(plan((2019 + y, LITTLE), (2030, LITTLE))), gives(14, pair), gives(0, mended), closes(0, room + 64), closes(10, room + 63))
    yield from (gives(6, dues[2] + dues[2][3:4]), lends(plan((0, LITTLE[:1] * 2))), gives(14, dues[2]), opens(0, head), gives(14, dues[0]))
    yield from (lends(b""), gives(0, dues[0]), closes(0, 96), opens(1, head[:2]), gives(6, dues[0] + dues[0][3:4]), closes(0, 32))


# CR of a ledger's years (#106)

def residue_pieces():
    """A year piece with a third CR is refused 9 and leaves the ledger, a plan with one 12; two CR are taken in every year, its own or planned."""
    head, dues = pieces(base(2, 3, LITTLE))
    (first, second, third), wrong = residues(3), residue(1, 65536, 65536, 0, 0, 0, 0, 0)
    small = [LITTLE[4], residue(1, *LITTLE[4][1][1:])]
    yield from (opens(0, head), lends(b""))
    for y, due in enumerate(dues):
        tables, by_plan, number, room = due[:3], due[:3] + [PLANNED], 2019 + y, 64 * y + 32
        data = encode(tables + [first, second, third])
        for answer, piece in ((9, data), (9, data[:-19]), (9, data[:-1]), (9, data + b"?"), (9, data + b"EN"), (9, tables + [first, second, first]),
                              (9, tables + [first, second, wrong]), (9, tables + [first, second, third, PLANNED]),
                              (9, tables + different(60, RUN[:4]) + [first]), (1, data[:-20]), (1, data[:-22]), (1, encode(tables + [first]) + b"CR"),
                              (14, tables + [first, first]), (14, tables + [first, first, second]), (8, tables + [wrong]),
                              (8, tables + [first, wrong, third]), (8, tables + [first, second, ("FU", [0, 0]), third]),
                              (7, put(tables, "CD", {0: 0}) + residues(3)), (6, put(tables, "YR", {1: 0}) + residues(3)),
                              (2, encode(tables + [first, second]) + b"cr"), (2, tables + [first, PLANNED])):
            yield from (gives(answer, piece), closes(0, room))
        for listed in (plan((number, residues(3))), plan((number, small), (2030, residues(3))), plan((0, residues(3)), (number, small)),
                       plan((number, small + small[:1])), encode(plan((number, residues(3))))[:-21]):
            yield lends(listed)
            for piece in (by_plan, due, data, tables + [first, first], b"", b"C"):
                yield from (gives(12, piece), closes(0, room))
        yield from (lends(plan((number, small[:1] * 2))), gives(14, by_plan), closes(0, room))
        yield from (lends(plan((number, [MOST_RESIDUE]))), gives(13, by_plan), closes(0, room), lends(plan((number, small))))
        yield from (gives(9, data), closes(0, room), closes(10, room - 1), gives(2, by_plan + small[:1]), closes(0, room))
        taken = (tables + [first, *RUN[:4], second], by_plan, tables + vehicles(120)[:58] + [first, second])[y]
        yield from (gives(0, taken), closes(0, room + 64), closes(10, room + 63), gives(6, taken))
    yield from (gives(6, dues[2][:3] + residues(3)), lends(plan((0, residues(3)))), gives(12, dues[2]), opens(0, head), gives(12, dues[0]))
    yield from (lends(b""), gives(0, dues[0][:3] + small), closes(0, 96), gives(9, dues[1][:3] + residues(3)), closes(0, 96))
    yield from (gives(0, dues[1][:3] + small), closes(0, 160), opens(1, head[:2]), gives(6, dues[0][:3] + residues(3)), closes(0, 32))


# The calls that every vector's dossier makes

def cut_up(data):
    """The opening and the years of a dossier's bytes: a piece begins with each YR that is due, and a last EN after a year is left out."""
    closing_marks = ("CD", "PL", *GREATEST)
    starts, whole, due = [0], data, {"DA": data[2:3] != b"\2", "MP": data[2:3] == b"\2"} | dict.fromkeys(closing_marks, True)
    for end, mark in boundaries(data):
        if due.get(mark) and data[end:end + 2] == b"YR":
            starts.append(end)
        if mark in closing_marks and data[end:] == b"EN":
            whole = data[:end]
    return [whole[a:b] for a, b in zip(starts, [*starts[1:], len(whole)])]


def plan_number(lent_plan):
    """The number of a plan by itself."""
    try:
        reckoner.read_plan(lent_plan)
    except reckoner.Refused as refused:
        return refused.number
    return 0


def paths():
    """The pieces of each dossier that are accepted, and the first one that is refused with its number, if one is; years with the plan lent."""
    for label, due, data, lent_plan, *_ in (vector for section in VECTORS for vector in section()):
        ledger, taken = reckoner.Ledger(), []
        for piece in cut_up(data):
            step = (piece, lent_plan) if taken else (piece, None)
            number = ledger.year(*step) if taken else ledger.open(piece)
            if number:
                require(number == due or not taken and plan_number(lent_plan) == due, f"{label}: a piece of it is answered {number} where {due} is due")
                yield taken, (number, step)
                break
            taken.append(step)
        else:
            require(due in (0, 10, 15) or (due == 1 or data.endswith(b"EN")) and len(ledger.years) <= ledger.n, f"{label}: no piece is refused")
            yield taken, None


def after(taken, number, step):
    """A piece given after so many others, and what closing gives then; each call with the plan that it needs, if it does."""
    piece, lent_plan = step
    room = 64 * (taken + (number == 0) - 1) + 32 if taken or number == 0 else 32
    yield lent_plan, gives(number, piece) if taken else opens(number, piece)
    yield None, closes(0, room)
    if number == 0:
        yield None, closes(10, room - 1)


def lending(calls):
    """The calls, and a plan before each that needs another one than stands; none stands in the end."""
    stands = b""
    for lent_plan, call in (*calls, (b"", None)):
        if lent_plan not in (None, stands):
            yield lends(lent_plan)
            stands = lent_plan
        if call:
            yield call


def pieces_of_vectors():
    """The opening and the years of every vector, a closing after each; what is refused at one place is tried there on one ledger."""
    wrong, sound = {}, {}
    for taken, fault in paths():
        sound[tuple(taken)] = True
        if fault:
            wrong.setdefault(tuple(taken), {})[fault[1]] = fault[0]
    tried = set()
    for path in [path for path in sound if not any(len(other) > len(path) and other[:len(path)] == path for other in sound)]:
        for k in range(len(path) + 1):
            if path[:k] not in tried:
                tried.add(path[:k])
                for step, number in wrong.get(path[:k], {}).items():
                    yield from after(k, number, step)
            if k < len(path):
                yield from after(k, 0, path[k])


def every_dossier():
    yield from lending(pieces_of_vectors())


def second_years():
    """A second year cut inside each of its records, and at the end of each."""
    head, (first, second) = pieces(base(2, 2))
    yield from (opens(0, head), gives(0, first))
    data, spots = encode(second), places(second)
    for k, (mark, _) in enumerate(second):
        for at in (spots[k] + 1, spots[k] + 2, spots[k] + 3, spots[k + 1] - 1):
            yield from (gives(1, data[:at]), closes(0, 96))
        if mark in ("YR", "CP"):
            yield from (gives(1, data[:spots[k + 1]]), closes(0, 96))
        else:
            yield from (gives(0, data[:spots[k + 1]]), closes(0, 160), closes(10, 159), gives(6, data), opens(0, head), gives(0, first))


# Writing

VECTORS = (examples, edges, cuts, marks, heads, totals, rows, years, conversions, table_entries, activities, kinds, sixty, endings, orders, buffers,
           slips, roundings, bad_years, every_class, projections, stock_limits, stock_cuts, stock_places, stock_lists, stock_orders,
           stock_amounts, plan_forms, plan_faults, plan_records, plan_cuts, plan_marks, plan_first, planned_places, planned_ends,
           planned_lacking, planned_orders, planned_shares, planned_grams, planned_years, planned_amounts, residue_amounts, residue_roundings,
           residue_limits, residue_cuts, residue_thirds, residue_places, residue_planned, residue_pairs, record_ends, calendar, last_marks,
           full_buffers, equal_records, nearly_equal, equal_orders, equal_planned, period_issues, period_edges, period_twenty, period_lists,
           period_faults, period_orders, period_buffers, period_kinds)
CALLS = (empty_ledger, refused_openings, case_a_ledger, three_years, opened_again, filed_ledgers, bad_plans, planned_pieces, changing_plans,
         equal_pieces, residue_pieces, every_dossier, second_years)


def require(holds, what):
    if not holds:
        sys.exit(what)


def line(label, due, data, lent_plan, ends, room, figures):
    """The vector's line, which has the number, the figures stated of the last year, and the tonnes issued at each end. An unrounded total that
    is stated is held to the independent reckoner's alone, for no call reports it."""
    buffer = bytearray([165] * room)
    number, ledger = reckoner.reckon(data, buffer, lent_plan, ends)
    require(number == due, f"{label}: {number} where {due} is due")
    found = dict(zip(FIGURES, ledger.numbers()[-12:]), unrounded=ledger.exact, issued=ledger.issued(ends) if number == 0 else [])
    for name, figure in figures.items():
        require(found[name] == figure, f"{label}: {name} {found[name]} where {figure} is due")
    words = struct.unpack_from(f">{room // 8}q", buffer) if number == 0 else ()
    return " ".join(map(str, (label, number, *words))) + "\n"


def sized(data):
    return struct.pack(">I", len(data)) + data


def stored(label, dossier, lent_plan, ends, room):
    """A vector as the program vectors reads it."""
    return sized(label.encode("ascii")) + sized(dossier) + sized(lent_plan) + struct.pack(f">I{len(ends)}HI", len(ends), *ends, room)


def vector_files():
    vectors = [vector for section in VECTORS for vector in section()]
    labels = [vector.label for vector in vectors]
    require(len(labels) == len(set(labels)), f"twice: {[label for label in labels if labels.count(label) > 1]}")
    require(max(map(len, labels)) <= 100, "a label has more than 100 bytes")
    require(max(len(vector.ends) for vector in vectors) <= 64, "a list has more than 64 ends")
    data = b"".join(stored(label, dossier, lent_plan, ends, room) for label, _, dossier, lent_plan, ends, room, _ in vectors)
    return data, "".join(line(*vector) for vector in vectors).encode()


def call_files():
    calls = [call for section in CALLS for call in section()]
    data = b"".join(call for _, call in calls)
    text = trace(data)
    answers = [int(answer.split()[1]) for answer in text.splitlines()]
    for k, number in enumerate(number for number, _ in calls if number is not None):
        require(k < len(answers) and answers[k] == number, f"call {k} is answered {answers[k:k + 1]} where {number} is due")
    return data + lent(b"Y", encode(base()))[:-1], text.encode()


def stored_vectors(data, lines, plans=True, ends=True):
    """The vectors that the program vectors reads, each with its line of those that it writes; before version 2.2 it read no plans, before
    version 3.2 no ends."""
    at = 0

    def length():
        nonlocal at
        at += 4
        return int.from_bytes(data[at - 4:at], "big")

    def piece():
        nonlocal at
        n = length()
        at += n
        return data[at - n:at]

    def years():
        nonlocal at
        n = length()
        at += 2 * n
        return struct.unpack(f">{n}H", data[at - 2 * n:at])

    for due in lines:
        yield piece().decode("ascii"), piece(), piece() if plans else b"", years() if ends else (), length(), due
    require(at == len(data), "there is not a line for each vector")


def try_call(call, slices, label, room, due):
    """One vector, of whose slices each has its length: the line due, and after a refusal the buffer as it was."""
    old = bytes([165] * (room + 8))
    buffer = ctypes.create_string_buffer(old, len(old))
    lent_slices = [part for data in slices for part in (data, len(data))]
    number = call(*lent_slices, buffer, room)
    words = struct.unpack_from(f">{room // 8}q", buffer.raw) if number == 0 else ()
    require(" ".join(map(str, (label, number, *words))) == due,
            f"{label}: {call.__name__} answers {number}, or other figures, where '{due[:80]}' is due")
    require(buffer.raw[0 if number else room:] == old[0 if number else room:], f"{label}: {call.__name__} changed bytes that it should leave")


def try_library(path, name):
    """Each stored vector by a call in C that takes a plan and ends; those without ends, or with neither, by the calls for them too, if the
    library has these."""
    library, tried = ctypes.CDLL(path), collections.Counter()
    others = {other: what for other, what in (("kh_am004_reckon_plan", "without ends"), ("kh_am004_reckon", "with neither plan nor ends"))
              if hasattr(library, other)}
    calls = [(reckoning_call(library, call, slices), slices - 1) for call, slices in (SLICES | {name: 4}).items() if call == name or call in others]
    data, lines = (ROOT / "crates/vectors/stdin").read_bytes(), (ROOT / "crates/vectors/stdout").read_text().splitlines()
    for label, dossier, lent_plan, ends, room, due in stored_vectors(data, lines):
        slices = dossier, lent_plan, lent_ends(ends)
        for call, given in calls:
            if not any(map(len, slices[given:])):
                try_call(call, slices[:given], label, room, due)
                tried[call.__name__] += 1
    print(f"{name} of {path} answers each of the {tried[name]} stored vectors as is due"
          + "".join(f", {other} the {tried[other]} {what}" for other, what in others.items()))


def main():
    if sys.argv[1:2] == ["--library"] and len(sys.argv) == 4:
        return try_library(*sys.argv[2:])
    if sys.argv[1:] not in ([], ["--check"]):
        sys.exit(__doc__)
    for name, contents in (("vectors", vector_files()), ("ledgertrace", call_files())):
        for stream, content in zip(("stdin", "stdout"), contents):
            path = ROOT / "crates" / name / stream
            if "--check" not in sys.argv:
                path.parent.mkdir(exist_ok=True)
                path.write_bytes(content)
            elif not path.exists() or path.read_bytes() != content:
                sys.exit(f"{path.relative_to(ROOT)} is not what vectors.py makes")


if __name__ == "__main__":
    main()
