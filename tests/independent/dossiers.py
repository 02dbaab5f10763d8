"""Dossiers, plans and lists of period ends for the tests: sound ones of many kinds, and ways to spoil them.

A dossier is a list of records, a record its mark and its fields; a plan is another such list. Period ends are a list of years.
"""
import itertools
import math
import struct

from reckoner import CLASSES, LONGEST_REPORT, MOST_ENDS, STOCK, Cursor, days_of, read_activities, reckon, up

LIMIT = 10**12
MOST_STOCK = 50000
FIELDS = {"HD": "BHB", "ST": 12 * "H", "PA": 12 * "Q", "DA": 12 * "Q", "MP": 144 * "I", "YR": "HH", "CP": 144 * "Q", "CD": 144 * "Q",
          "PL": "", "FU": "BQ", "VE": "BIII", "NI": "BBQH", "LI": "BQ", "CR": "BIIHHHHH", "EN": "", "PY": "H"}
BITS = {"B": 8, "H": 16, "I": 32, "Q": 64}
WITH_FIELDS = [mark for mark, form in FIELDS.items() if form]
SUMS = ("PA", "DA", "MP", "CP", "CD")
MOST_WIDE = 2**32 - 1
GREATEST = {"FU": [3, LIMIT], "VE": [3, 1000, 1000000, 100000], "NI": [3, 2, 10**10, 10000], "LI": [3, LIMIT],
            "CR": [2, MOST_WIDE, MOST_WIDE, 10000, 500, 500, 10000, 10000]}
# The fields whose product is limited too, and its limit.
PRODUCTS = {"VE": ((1, 2, 3), LIMIT), "CR": ((1, 2), 10**8)}
MOST_RESIDUES = 2
END, PLANNED = ("EN", []), ("PL", [])
MOST_PLANNED = 20


# Building

def encode(records):
    return b"".join(mark.encode() + struct.pack(">" + FIELDS[mark], *fields) for mark, fields in records)


def places(records):
    """Where each record begins, and where the last one ends."""
    found = [0]
    for mark, _ in records:
        found.append(found[-1] + 2 + struct.calcsize(">" + FIELDS[mark]))
    return found


def areas(**units):
    return [units.get(c, 0) for c in CLASSES]


def table(*cells):
    """144 numbers, zero but for some cells (from, to, number)."""
    numbers = [0] * 144
    for i, j, number in cells:
        numbers[12 * CLASSES.index(i) + CLASSES.index(j)] += number
    return numbers


def stays(units):
    """The table in which every area stays."""
    return table(*((c, c, area) for c, area in zip(CLASSES, units)))


def matrix(*cells):
    """144 probabilities: some cells, and the rest of each row on the diagonal."""
    return table(*cells, *((c, c, 1000000 - sum(p for i, _, p in cells if i == c)) for c in CLASSES))


def opening(option, first, n, project, belt, probabilities=None, stocks=None):
    filed = [("ST", stocks)] if stocks else []
    records = [("HD", [option, first, n]), *filed, ("PA", project), ("DA", belt)]
    return records + [("MP", probabilities or matrix())] if option == 2 else records


def year(number, days, project, belt, *activities):
    return [("YR", [number, days]), ("CP", project), ("CD", belt), *activities]


def plan(*years):
    """Years, each with its number and its records."""
    return [record for number, run in years for record in (("PY", [number]), *run)] + [END]


def limestone(grams):
    """Lime that emits so many grams of CO2."""
    return "LI", [1, grams * 300 // 132]


def case_a():
    lost = table(("E", "E", 99000000), ("E", "NF", 1000000))
    return opening(1, 2020, 1, areas(E=100000000), areas()) + year(2020, 366, lost, table(), ("FU", [1, 100000])) + [END]


def pieces(records):
    """The records of the opening, and of each year."""
    starts = [k for k, (mark, _) in enumerate(records) if mark == "YR"]
    ends = starts[1:] + [len(records) - records.count(END)]
    return records[:starts[0]], [records[a:b] for a, b in zip(starts, ends)]


def numbers_of(years):
    """The number of each year of these pieces."""
    return [due[0][1][0] for due in years]


# Sound dossiers

def small(rng):
    return dict(n=rng.randint(1, 3), project=rng.randint(1, 1000), belt=rng.randint(0, 1000), activities=rng.randint(0, 3))


def typical(rng):
    return dict(n=rng.randint(1, 4), project=rng.randint(1, LIMIT), belt=rng.randint(0, LIMIT), activities=rng.choice((0, 1, 5, 60)))


def full(rng):
    return dict(n=rng.randint(1, 2), project=LIMIT, belt=LIMIT, activities=2)


def bare(rng):
    return dict(n=rng.randint(1, 3), project=rng.choice((1, LIMIT)), belt=0, activities=0, cells=1)


def zeros(rng):
    return dict(n=rng.randint(1, 2), project=1, belt=0, activities=4, cells=1, amount=min)


def long(rng):
    return dict(n=20, project=rng.randint(1, LIMIT), belt=rng.randint(0, LIMIT), activities=60)


def greatest(rng):
    """Amounts as great as they can be, now and then one or two less, for there are not sixty different records of the greatest alone."""
    return dict(option=2, first=2200, n=20, project=LIMIT, belt=LIMIT, activities=60, cells=1,
                amount=lambda amounts: max(amounts[1] - rng.choice((0, 0, 0, 1, 2)), 0), filed=True)


def forest(rng):
    """Areas that mostly stay, as an owner's do: totals of either sign, and years of either sign in one dossier."""
    return dict(n=rng.choice((1, 2, 5, 20)), project=rng.randint(10**8, LIMIT), belt=rng.choice((0, rng.randint(1, LIMIT))),
                activities=rng.choice((0, 1, 5, 60)), amount=lambda amounts: rng.randint(0, min(amounts[1], 1000)),
                lost=rng.choice(((0,), (0, 100, 2000), (2000, 300000), (0, 300000, 900000))))


def parts(rng, total, count, cells):
    """Numbers that add up to a total, at most so many cells of them not zero."""
    numbers = [0] * count
    for _ in range(cells - 1):
        numbers[rng.randrange(count)] += (part := rng.randint(0, total))
        total -= part
    numbers[rng.randrange(count)] += total
    return numbers


def any_amount(amounts, rng):
    return rng.choice((*amounts, rng.randint(*amounts), rng.randint(*amounts), 1 if amounts[1] else 0))


def activity(rng, amount=None, mark=None):
    """A record in range; amount picks each quantity from the least and the greatest that it may be."""
    mark = mark or rng.choice(list(GREATEST))
    kinds = 2 if mark == "NI" else 1
    fields = [rng.randint(1, top) for top in GREATEST[mark][:kinds]] + GREATEST[mark][kinds:]
    order = rng.sample(range(kinds, len(fields)), len(fields) - kinds)
    factors, most = PRODUCTS.get(mark, ((), 0))
    if mark == "CR":  # the first of area and yield mostly leaves the other some of their product
        fields[min(factors, key=order.index)] = rng.choice((100, 10**4, 10**6, most, MOST_WIDE))
    picked = []
    for f in order:
        product = math.prod(picked) if f in factors and picked else 0
        top = min(fields[f], most // product) if product else fields[f]
        fields[f] = amount((0, top)) if amount else any_amount((0, top), rng)
        picked += [fields[f]] if f in factors else []
    return mark, fields


def run_of(rng, count, amount=None, others=()):
    """So many records in range, no two of them equal (#105), none equal to one of the others, and at most two of them CR (#106)."""
    run = []
    while len(run) < count:
        record = activity(rng, amount)
        if record not in run and record not in others and (record[0] != "CR" or residues_in(run) < MOST_RESIDUES):
            run.append(record)
    rng.shuffle(run)
    return run


def residues_in(run):
    return sum(mark == "CR" for mark, _ in run)


def stocks(rng, amount=None):
    """A list for ST, of any stocks, with 0, the greatest and the built-in ones among them; now and then the built-in list."""
    if amount is None and rng.random() < 0.1:
        return list(STOCK.values())
    span = 0, MOST_STOCK
    return [amount(span) if amount else rng.choice((*span, STOCK[c], rng.randint(*span), rng.randint(*span))) for c in CLASSES[:-1]] + [0]


def stay_but(rng, units, most):
    """The table in which of each area at most so many millionths turn into another class, most of them into NF."""
    cells = []
    for c, area in zip(CLASSES, units):
        turned = area * rng.randint(0, most) // 1000000
        cells += [(c, c, area - turned), (c, rng.choice(("NF", "NF", "NF", *CLASSES)), turned)]
    return table(*cells)


def made(rng, n, project, belt, activities, option=None, first=None, cells=None, amount=None, lost=None, filed=None):
    """lost is what a year's tables lose, in millionths, one of these in each year; without it the tables are at random. filed says
    whether stocks are; without it they are in a third of the dossiers."""
    def spread(total, count):
        return parts(rng, total, count, cells or rng.choice((1, 3, count)))

    def tables(areas):
        return stay_but(rng, areas, rng.choice(lost)) if lost else spread(sum(areas), 144)

    first = first or rng.choice((2000, 2096, 2100, 2200, rng.randint(2000, 2200)))
    rows = stay_but(rng, [1000000] * 12, 100000) if lost else [p for _ in CLASSES for p in spread(1000000, 12)]
    regions = spread(project, 12), spread(belt, 12)
    listed = stocks(rng, None if lost else amount) if filed or filed is None and rng.randrange(3) == 0 else None
    records = opening(option or rng.randint(1, 2), first, n, *regions, rows, listed)
    for number in range(first, first + n):
        days = days_of(number) if amount and not lost else rng.choice((1, days_of(number), rng.randint(1, 365)))
        records += year(number, days, *map(tables, regions), *run_of(rng, activities, amount))
    return records + [END]


def sound(rng, kind):
    return made(rng, **kind(rng))


# Planned years and plans

def grams(run):
    return sum(map(up, read_activities(Cursor(encode(run)))))


def lime_of(most):
    """Different records of limestone that emit so many grams together: the first as much as one can, each later one a gram less at least."""
    lime, each = [], grams([("LI", [1, LIMIT])])
    while most > 0:
        part = min(most, each - len(lime))
        lime.append(limestone(part))
        most -= part
    return lime


def planned_run(rng, most):
    """Different records that emit at most so many grams, half of the time just that."""
    run = run_of(rng, rng.choice((0, 1, 5, 59)), lambda amounts: rng.randint(0, min(amounts[1], 10)))
    while run and grams(run) > most:
        run = run[:len(run) // 2]
    lime = lime_of(most - grams(run))
    fits = len(run + lime) <= 60 and not any(record in run for record in lime)
    return run + lime if rng.random() < 0.5 and fits else run


def any_plan(rng, listed, numbers):
    """A plan of the years listed, and of some more: of these numbers, or any others."""
    others = [*numbers, 0, 65535, *(rng.randrange(65536) for _ in range(3))]
    for number in rng.sample(others, rng.choice((0, 2, len(others)))):
        if len(listed) < MOST_PLANNED:
            listed.setdefault(number, run_of(rng, rng.choice((0, 1, 60))))
    return plan(*sorted(listed.items()))


def planned(rng, records):
    """A dossier with PL in some of its years, and a plan that has these years: mostly with activities that are small enough, in one dossier
    of four with a gram too much."""
    head, years = pieces(records)
    _, ledger = reckon(encode(records), bytearray(LONGEST_REPORT))
    listed, numbers, over = {}, numbers_of(years), rng.choice((0, 0, 0, 1))
    for number, due, (_, project, _, _, _, displaced, _, _) in zip(numbers, years, ledger.years):
        if rng.random() < (0.7 if project + displaced else 0.1):
            due[3:] = [PLANNED]
            listed[number] = planned_run(rng, (project + displaced - 1) // 19 + over)
    numbers += [numbers[0] - 1, numbers[-1] + 1]
    return head + [record for due in years for record in due] + [END], any_plan(rng, listed, numbers)


def other_plan(rng, listed):
    """The bytes of a plan spoilt, without one of its years, without any, or none."""
    starts = [k for k, (mark, _) in enumerate(listed) if mark == "PY"]
    k = rng.randrange(len(starts)) if starts else 0
    less = listed[:starts[k]] + listed[[*starts, -1][k + 1]:] if starts else [END]
    return rng.choice((spoiled(rng, listed, rng.choice(ways(listed))), encode(less), b"EN", b""))


# Ends of periods (#107)

def sound_ends(rng, numbers):
    """The last of a dossier's years, and before it none, some or all of the others."""
    *others, last = numbers
    return sorted(rng.sample(others, rng.choice((0, rng.randint(0, len(others)), len(others))))) + [last]


def spoiled_ends(rng, numbers):
    """Mostly no sound list: another year in one's place, before one or at the end, one again, the last left out, the order changed, or more than
    there can be."""
    ends = sound_ends(rng, numbers)
    k, other = rng.randrange(len(ends)), rng.choice((*numbers, numbers[0] - 1, numbers[-1] + 1, 0, 65535, rng.randrange(65536)))
    return rng.choice((ends[:k] + [other] + ends[k + 1:], ends[:k] + [other] + ends[k:], ends + [other], ends[:k + 1] + ends[k:], ends[:-1],
                       ends[::-1], rng.sample(ends, len(ends)), ends[:k] + [ends[k]] * MOST_ENDS + ends[k:],
                       list(range(numbers[-1] - MOST_ENDS, numbers[-1] + 1))))


# Different records that a filter takes for equal ones

def slot(kind, count, average, rate):
    """The slot of a VE among the 1,021 of the filter by which the proved reckoner looks for equal records (#105)."""
    return ((((rate * 2**20 + average) * 2**10 + count) * 4 + kind) * 8 + 1) % 1021


def of_one_slot(count, rate=100000):
    """So many VE of this rate, no two of them equal, that all have the same slot."""
    fields = ([1, n, average, rate] for n in range(1000, 0, -1) for average in range(10000, 0, -1))
    found = (("VE", given) for given in fields if slot(*given) == slot(1, 1000, 10000, rate))
    return list(itertools.islice(found, count))


# Ways to spoil the records

def pick(rng, records, marks=FIELDS):
    """The index of a record of these marks, each mark as likely as another."""
    mark = rng.choice([mark for mark in marks if any(record[0] == mark for record in records)])
    return rng.choice([k for k, record in enumerate(records) if record[0] == mark])


def changed(records, k, cells):
    """The records with some fields of one replaced, modulo their width."""
    mark, fields = records[k]
    fields = [cells.get(f, value) % 2**BITS[FIELDS[mark][f]] for f, value in enumerate(fields)]
    return records[:k] + [(mark, fields)] + records[k + 1:]


def off_by_one(rng, records):
    k = pick(rng, records, WITH_FIELDS)
    f = rng.randrange(len(records[k][1]))
    return changed(records, k, {f: records[k][1][f] + rng.choice((1, -1))})


def wrapped(rng, records):
    """Some numbers of a sum changed, which stays the same modulo 2^64, or 2^32 in MP."""
    k = pick(rng, records, SUMS)
    mark, fields = records[k]
    bits = BITS[FIELDS[mark][0]]
    row = range(len(fields))[12 * rng.randrange(12):][:12] if mark == "MP" else range(len(fields))
    spots = rng.sample(row, rng.randint(2, 12))
    shifts = [rng.choice((2**(bits - 1), rng.randrange(2**bits))) for _ in spots[1:]]
    return changed(records, k, {f: fields[f] + shift for f, shift in zip(spots, [*shifts, -sum(shifts)])})


def head_edge(rng, records):
    f, value = rng.choice(((0, 0), (0, 3), (1, 1999), (1, 2201), (2, 0), (2, 21), (2, 255)))
    return changed(records, pick(rng, records, ["HD"]), {f: value})


def stock_edge(rng, records):
    f, value = rng.choice(((rng.randrange(11), MOST_STOCK + rng.randint(0, 1)), (rng.randrange(12), 65535), (11, 1), (11, MOST_STOCK)))
    return changed(records, pick(rng, records, ["ST"]), {f: value})


def year_edge(rng, records):
    k = pick(rng, records, ["YR"])
    number = records[k][1][0]
    days = days_of(number)
    f, value = rng.choice(((0, number - 1), (0, number + 1), (0, 0), (1, 0), (1, days), (1, days + 1), (1, 366), (1, 65535)))
    return changed(records, k, {f: value})


def activity_edge(rng, records):
    k = pick(rng, records, GREATEST)
    top = GREATEST[records[k][0]]
    f = rng.randrange(len(top))
    return changed(records, k, {f: rng.choice((0, top[f], top[f] + 1, -1))})


PRODUCT_EDGES = {
    "VE": ((1000, 1000000, 1000), (1000, 1000000, 1001), (1000, 10001, 100000), (11, 1000000, 100000)),
    "CR": ((10000, 10000), (10000, 10001), (1, 10**8), (10**8 + 1, 1), (17, 5882353), (65536, 65536), (2**31, 2), (MOST_WIDE, 0), (0, MOST_WIDE),
           (MOST_WIDE, 1), (MOST_WIDE, MOST_WIDE))}


def product_edge(rng, records):
    """Factors whose product is the greatest, just above it, or wraps to one in range."""
    k = pick(rng, records, PRODUCTS)
    mark = records[k][0]
    return changed(records, k, dict(zip(PRODUCTS[mark][0], rng.choice(PRODUCT_EDGES[mark]))))


def misplaced(rng, records):
    """A record left out, twice, or in another's place."""
    j, k = pick(rng, records), pick(rng, records)
    return records[:j] + rng.choice(([], [records[j]] * 2, [records[k]])) + records[j + 1:]


def stray_stocks(rng, records):
    """Stocks, in range or not, before some record or after the last: due after HD where none stand there."""
    k = rng.choice((1, pick(rng, records), len(records)))
    extra = [("ST", stocks(rng))]
    return records[:k] + rng.choice((extra, extra, stock_edge(rng, extra))) + records[k:]


def stray_planned(rng, records):
    """PL before some record or after the last: due after CD where no activity record stands."""
    k = rng.choice((pick(rng, records), len(records)))
    return records[:k] + [PLANNED] + records[k:]


def planned_year_edge(rng, records):
    """A planned year that is another's, one beside it, the first or the last that there can be, or any."""
    k, other = pick(rng, records, ["PY"]), pick(rng, records, ["PY"])
    number = records[other][1][0]
    return changed(records, k, {0: rng.choice((number, number - 1, number + 1, 0, 65535, rng.randrange(65536)))})


def many_planned(rng, records):
    """A plan of 20 years, or of 21."""
    numbers = [fields[0] for mark, fields in records if mark == "PY"]
    more = range(max(numbers) + 1, 65536)[:rng.choice((MOST_PLANNED, MOST_PLANNED + 1)) - len(numbers)]
    return records[:-1] + plan(*((number, [activity(rng)] * rng.randint(0, 1)) for number in more))


def other_years(rng, records):
    """A year left out, twice, or in another's place."""
    head, years = pieces(records)
    j, k = rng.randrange(len(years)), rng.randrange(len(years))
    years[j:j + 1] = rng.choice(([], [years[j]] * 2, [years[k]]))
    return head + [record for run in years for record in run] + records[-1:] * records.count(END)


def crowded(rng, records):
    """A year of 61 activity records or more."""
    k = pick(rng, records, ["CD", "PY"])
    return records[:k + 1] + run_of(rng, 61, others=records) + records[k + 1:]


def three_residues(rng, records):
    """The records with three different CR in a year, at any places among at most 57 others, and the index of the third."""
    k = pick(rng, records, ["CD", "PY"])
    end = next((j for j in range(k + 1, len(records)) if records[j][0] not in GREATEST), len(records))
    run = [record for record in records[k + 1:end] if record[0] != "CR"][:57]
    while residues_in(run) <= MOST_RESIDUES:
        record = activity(rng, mark="CR")
        if record not in run:
            run.insert(rng.randint(0, len(run)), record)
    third = [j for j, record in enumerate(run) if record[0] == "CR"][MOST_RESIDUES]
    return records[:k + 1] + run + records[end:], k + 1 + third


def third_residue(rng, records):
    """A year with a third CR, in half of them with a field at an edge."""
    records, k = three_residues(rng, records)
    return records[:k] + rng.choice(([records[k]], activity_edge(rng, [records[k]]))) + records[k + 1:]


# Ways to spoil the bytes

def cut(rng, records):
    """The bytes end between records, inside a mark, after it, inside a field, or one too early."""
    k = pick(rng, records)
    start, end = places(records)[k:k + 2]
    return encode(records)[:rng.choice((start, start + 1, min(start + 2, end - 1), end - 1, rng.randrange(start, end)))]


def stopped(rng, records, marks=WITH_FIELDS):
    """A change in the fields of a record of these marks, and the bytes end with it, or up to three bytes after it."""
    k = pick(rng, records, marks)
    way = rng.choice([way for way in FIELD_WAYS if records[k][0] in RECORD_WAYS[way]])
    return encode(records[:k] + way(rng, [records[k]])) + encode(records[k + 1:k + 2])[:rng.choice((0, 0, 0, 1, 2, 3))]


def stops(rng, records, mark):
    """Bytes that end with a record of this mark, sound or not, with a byte after it, with another mark, or inside it."""
    k = pick(rng, records, [mark])
    head, end = encode(records[:k + 1]), places(records)[k + 1]
    whole = [stopped(rng, records, [mark])] if FIELDS[mark] else []
    inside = head[:rng.randrange(places(records)[k] + 1, end)]
    return [*whole, head, head + rng.randbytes(1), head + rng.choice((*FIELDS, "??")).encode(), inside]


def cut_crowd(rng, records):
    """A 61st activity record of which little more than the mark is there."""
    crowd = records[:pick(rng, records, ["CD", "PY"]) + 1] + run_of(rng, 61)
    return encode(crowd)[:places(crowd)[-2] + rng.randint(1, 9)]


def cut_residue(rng, records):
    """A third CR that is cut, mostly right after its mark."""
    records, k = three_residues(rng, records)
    return encode(records)[:places(records)[k] + rng.choice((1, 2, 2, 2, 3, rng.randint(4, 20)))]


def padded(rng, records):
    """Bytes beyond: one, two, some, another EN, another record, or more than any dossier has."""
    some, record = rng.randbytes(rng.randint(3, 40)), encode([records[pick(rng, records)]])
    return encode(records) + rng.choice((rng.randbytes(1), rng.randbytes(2), some, b"EN", record, bytes(66000)))


def flipped(rng, records):
    data, at = bytearray(encode(records)), places(records)
    for _ in range(rng.choice((1, 1, 2))):
        k = pick(rng, records)
        data[rng.randrange(at[k], at[k + 1])] ^= 1 << rng.randrange(8)
    return bytes(data)


def other_mark(rng, records):
    data, at = bytearray(encode(records)), places(records)[pick(rng, records)]
    data[at:at + 2] = rng.choice([*FIELDS, "en", "\0\0"]).encode()
    return bytes(data)


def two_faults(rng, records):
    once = rng.choice([way for way in ways(records) if way in RECORD_WAYS])(rng, records)
    return in_way(rng, once, rng.choice(ways(once))) if once else b""


RECORD_WAYS = {off_by_one: WITH_FIELDS, wrapped: SUMS, head_edge: ["HD"], stock_edge: ["ST"], year_edge: ["YR"], activity_edge: GREATEST,
               product_edge: PRODUCTS, misplaced: FIELDS, stray_stocks: FIELDS, stray_planned: FIELDS, planned_year_edge: ["PY"],
               many_planned: ["PY"], other_years: ["YR"], crowded: ["CD", "PY"], third_residue: ["CD", "PY"]}
FIELD_WAYS = (off_by_one, wrapped, head_edge, stock_edge, year_edge, activity_edge, product_edge, planned_year_edge)
BYTE_WAYS = {cut: FIELDS, stopped: WITH_FIELDS, cut_crowd: ["CD", "PY"], cut_residue: ["CD", "PY"], padded: FIELDS, flipped: FIELDS,
             other_mark: FIELDS, two_faults: FIELDS}


def ways(records):
    """The ways that find a mark which they need."""
    marks = {mark for mark, _ in records}
    return [way for way, needs in (RECORD_WAYS | BYTE_WAYS).items() if marks.intersection(needs)]


def in_way(rng, records, way):
    return encode(way(rng, records)) if way in RECORD_WAYS else way(rng, records)


def spoiled(rng, records, way):
    """The bytes of the records spoilt in this way, and no year of them has two equal records (#105)."""
    while has_equal_records(data := in_way(rng, records, way)):
        pass
    return data


# Where bytes end

def boundaries(data):
    """Where each record ends that the bytes hold whole, with its mark, up to what is no record."""
    at = 0
    while (mark := data[at:at + 2].decode("latin-1")) in FIELDS:
        at += 2 + struct.calcsize(">" + FIELDS[mark])
        if at > len(data):
            return
        yield at, mark


def has_equal_records(data):
    """Whether two activity records of a year or of a planned one are equal in mark and all fields (#105)."""
    run, start = set(), 0
    for end, mark in boundaries(data):
        record, start = data[start:end], end
        if mark in ("YR", "PY"):
            run.clear()
        if mark in GREATEST and record in run:
            return True
        run.add(record)
    return False


def stops_at_residue(data):
    """Whether the mark of a third CR of a year or of a planned one is there, and no 61st record before it (#106)."""
    count, residues = 0, 0
    for at in (0, *(end for end, _ in boundaries(data))):
        mark = data[at:at + 2].decode("latin-1")
        if mark not in GREATEST:
            count, residues = 0, 0
        elif count == 60 or mark == "CR" and residues == MOST_RESIDUES:
            return count < 60
        else:
            count, residues = count + 1, residues + (mark == "CR")
    return False


def ending(data):
    """The last record that the bytes hold whole, or "none", and what stands after it: nothing, a byte, another mark, or a part of a record."""
    at, last = max(boundaries(data), default=(0, "none"))
    mark = data[at:at + 2].decode("latin-1")
    rest = f"a part of {mark}" if mark in FIELDS else "another mark"
    return last, ("nothing", "a byte", rest)[len(mark)]
