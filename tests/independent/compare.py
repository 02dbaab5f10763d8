#!/usr/bin/env python3
"""Compares the proved reckoner with the independent one: numbers, every byte of the buffer, sheets, and lists of calls on a ledger.

    python3 tests/independent/compare.py LIBRARY YEARSHEET LEDGERTRACE [SEED] [ROUNDS]

Where they differ it prints the seed, target/difference has the bytes, target/difference.plan the plan that was lent, and
target/difference.ends the end years of the periods, with commas between them.
"""
import collections
import ctypes
import pathlib
import random
import struct
import subprocess
import sys

import reckoner
from dossiers import (END, GREATEST, PLANNED, activity, any_plan, bare, boundaries, encode, ending, forest, full, greatest,
                      has_equal_records, long, numbers_of, other_plan, pieces, plan, planned, small, sound, sound_ends, spoiled, spoiled_ends,
                      stops, stops_at_residue, typical, ways, zeros)

ROOT = pathlib.Path(__file__).resolve().parents[2]
# What comes in the comparison. 14 does not: no year of it has two equal records (#105), and the vectors have that number.
NUMBERS = {"reckon": (*range(14), 15), "open": (*range(6), 11), "year": (0, 1, 2, 6, 7, 8, 9, 12, 13), "close": (0, 10)}


# Calls on a ledger, as the program ledgertrace takes them

def lent(kind, data):
    """O opens, P lends a plan to the year calls after it, and Y gives a year."""
    return kind + struct.pack(">I", len(data)) + data


def closing(room):
    return b"C" + struct.pack(">I", room)


def answer(ledger, kind, data, room, lent_plan):
    if kind == b"O":
        return f"open {ledger.open(data)}"
    if kind == b"Y":
        return f"year {ledger.year(data, lent_plan)}"
    number = ledger.close(bytearray(room))
    return " ".join(map(str, ("close", number, *(ledger.numbers() if number == 0 else ()))))


def calls_in(calls):
    """Each call of a list but P, with its bytes, its length and the plan that is lent then, up to the end, a cut call, an unknown one or a
    length above 65,536."""
    lent_plan, at = b"", 0
    while calls[at:at + 1] in (b"O", b"P", b"Y", b"C") and len(calls) >= at + 5:
        kind, length = calls[at:at + 1], int.from_bytes(calls[at + 1:at + 5], "big")
        data = b"" if kind == b"C" else calls[at + 5:at + 5 + length]
        if length > 65536 or kind != b"C" and len(data) < length:
            break
        if kind == b"P":
            lent_plan = data
        else:
            yield kind, data, length, lent_plan
        at += 5 + len(data)


def trace(calls):
    """What is due of a list of calls, a line for each."""
    ledger = reckoner.Ledger()
    return "".join(answer(ledger, *call) + "\n" for call in calls_in(calls))


def rooms(n, ends=()):
    """Buffer lengths around the limit, that without the ends, and others."""
    need = 64 * n + 32 + 8 * len(ends)
    return (*range(need - 9, need + 10), 64 * n + 32, 0, reckoner.LONGEST_REPORT, reckoner.LONGEST_REPORT + 8)


def between(rng, due, given, others, listed):
    """A closing, a year out of turn, a spoiled one, or the year that is due under another plan."""
    return rng.choice((
        lambda: closing(rng.choice(rooms(rng.choice((0, given, given, given + 1))))),
        lambda: lent(b"Y", encode(rng.choice(others))),
        lambda: lent(b"Y", spoiled(rng, due, rng.choice(ways(due)))),
        lambda: lent(b"P", other_plan(rng, listed)) + lent(b"Y", encode(due)) + lent(b"P", encode(listed)),
    ))()


def on_one_dossier(rng, head, years, listed, others):
    """Mostly its plan, spoiled openings, mostly a sound one, its years in order with other calls between them, a year more."""
    calls = [lent(b"P", encode(listed))] if rng.random() < 0.8 else []
    calls += [lent(b"O", spoiled(rng, head, rng.choice(ways(head)))) for _ in range(rng.choice((0, 1, 3)))]
    if rng.random() < 0.8:
        calls.append(lent(b"O", encode(head)))
    for given, due in enumerate([*years, years[-1]]):
        calls += [between(rng, due, given, others, listed) for _ in range(rng.choice((0, 1, 3)))]
        calls.append(lent(b"Y", encode(due)))
    return calls[:rng.choice((len(calls), rng.randint(0, len(calls))))] + [closing(rng.choice(rooms(len(years))))]


def pieces_and_plan(rng, records):
    """The pieces of a dossier, half of the time with planned years, and a plan."""
    records, listed = planned(rng, records) if rng.random() < 0.5 else (records, any_plan(rng, {}, []))
    return *pieces(records), listed


def call_list(rng):
    """Calls on some dossiers in turn; now and then an unknown one, too great a length, or a cut."""
    known = [pieces_and_plan(rng, sound(rng, rng.choice((small, small, typical, forest, full, bare, long)))) for _ in range(4)]
    others = [due for _, years, _ in known for due in years]
    calls = [call for head, years, listed in known for call in on_one_dossier(rng, head, years, listed, others)]
    if rng.random() < 0.2:
        odd = rng.choice((b"X", b"o", b"p", closing(65537), b"Y" + bytes([255] * 4), b"P" + bytes([0, 1, 0, 1]), lent(b"Y", bytes(65536)),
                          lent(b"P", bytes(65536)), closing(65536)))
        calls.insert(rng.randrange(len(calls)), odd)
    calls = b"".join(calls)
    return calls[:rng.randrange(len(calls))] if rng.random() < 0.3 else calls


# Comparing

FAULTS = {"HD": 3, "ST": 11, "PA": 4, "DA": 4, "MP": 5, "YR": 6, "CP": 7, "CD": 7, "PL": 13, "FU": 8, "VE": 8, "NI": 8, "LI": 8,
          "CR": 8}
# Each fault in the last record, and after each record but EN: nothing, a byte, another mark.
ENDINGS = {(number, mark, "nothing") for mark, number in FAULTS.items()} | {
    (number, mark, rest) for mark in FAULTS for number, rest in ((1, "nothing"), (1, "a byte"), (2, "another mark"))}


def first_difference(proved, due):
    """Where two values differ, without the hundreds of kilobytes that they may have."""
    proved, due = str(proved), str(due)
    at = next((k for k, pair in enumerate(zip(proved, due)) if pair[0] != pair[1]), min(len(proved), len(due)))
    start = max(at - 60, 0)
    return f"from character {at}\nproved: {proved[start:at + 60]!r}\nindependent: {due[start:at + 60]!r}"


def reckoning_call(library, name, slices):
    """A call in C over so many lent slices, of which the last is the buffer."""
    call = getattr(library, name)
    call.argtypes, call.restype = (ctypes.c_void_p, ctypes.c_size_t) * slices, ctypes.c_uint32
    return call


# The library's calls, and over how many slices each is: the dossier, the plan, the ends, of these three the first ones, and the buffer.
SLICES = {"kh_am004_reckon": 2, "kh_am004_reckon_plan": 3, "kh_am004_reckon_periods": 4}


def lent_ends(ends):
    """End years as C takes them, in the host's own byte order."""
    return (ctypes.c_uint16 * len(ends))(*ends)


class Comparison:
    def __init__(self, library, yearsheet, ledgertrace, seed):
        library = ctypes.CDLL(library)
        self.by_slices = {slices: reckoning_call(library, name, slices) for name, slices in SLICES.items()}
        self.yearsheet, self.ledgertrace, self.seed, self.rng = yearsheet, ledgertrace, seed, random.Random(seed)
        self.seen, self.sheets, self.kinds = {word: collections.Counter() for word in NUMBERS}, 0, collections.Counter()
        self.endings, self.accepted, self.thirds = set(), collections.Counter(), collections.Counter()

    def fail(self, what, data, lent_plan=b"", ends=()):
        path = ROOT / "target" / "difference"
        path.parent.mkdir(exist_ok=True)
        path.write_bytes(data)
        path.with_suffix(".plan").write_bytes(lent_plan)
        path.with_suffix(".ends").write_text(",".join(map(str, ends)) + "\n")
        sys.exit(f"{what}\nseed {self.seed}; target/difference has the {len(data)} bytes, target/difference.plan the plan's {len(lent_plan)}, "
                 f"target/difference.ends the {len(ends)} ends")

    def same(self, what, proved, due, *data):
        if proved != due:
            self.fail(f"{what} differs {first_difference(proved, due)}", *data)

    def independent(self, reckoned, *data):
        """What the independent reckoner makes of the bytes; what an owner relies on is checked on the way."""
        try:
            return reckoned(*data)
        except AssertionError as failed:
            self.fail(str(failed), *data)

    def proved(self, data, lent_plan, ends, buffer, room):
        """The number by one of the calls that take all that is lent; what is empty is null or not."""
        slices = self.rng.choice([slices for slices in self.by_slices if slices >= (4 if ends else 3 if lent_plan else 2)])
        lent_parts = [part for given in (data, lent_plan, lent_ends(ends))[:slices - 1]
                      for part in (given if len(given) else self.rng.choice((given, None)), len(given))]
        return self.by_slices[slices](*lent_parts, buffer, room)

    def count_accepted(self, data, lent_plan, ends, ledger):
        issued = ledger.issued(ends)
        credited, marks = [figures[-1] for figures in ledger.years], {mark for _, mark in boundaries(data)}
        self.accepted += collections.Counter({
            "all": 1, "tonnes": ledger.total >= 10**6, "either sign": min(credited) < 0 < max(credited), "stocks": data[6:8] == b"ST",
            "periods": len(ends) > 1, "issued twice": sum(map(bool, issued)) > 1,
            "none after some": any(a and not b for a, b in zip(issued, issued[1:])), "planned": "PL" in marks, "residues": "CR" in marks,
            "planned residues": "PL" in marks and any(mark == "CR" for _, mark in boundaries(lent_plan))})

    def reckoning(self, data, lent_plan, ends, lengths):
        all_lent = data, lent_plan, ends
        number, ledger = self.independent(lambda dossier, *lent: reckoner.reckon(dossier, bytearray(reckoner.LONGEST_REPORT), *lent), *all_lent)
        self.endings.add((number, *ending(data)))
        if number == 0:
            self.count_accepted(*all_lent, ledger)
        if number in (9, 12):
            self.thirds[number] += stops_at_residue(data if number == 9 else lent_plan)
        for room in lengths:
            old = self.rng.randbytes(room + 8)
            buffer, due = ctypes.create_string_buffer(old, len(old)), bytearray(old[:room])
            due_number = number or ledger.close(due, ends)
            self.same(f"the number for a buffer of {room}", self.proved(*all_lent, buffer, room), due_number, *all_lent)
            self.same(f"a buffer of {room} and 8 bytes beyond", buffer.raw.hex(), (due + old[room:]).hex(), *all_lent)
            self.seen["reckon"][due_number] += 1

    def printed(self, program, data):
        try:
            ran = subprocess.run([program], input=data, stdout=subprocess.PIPE, timeout=60)
        except subprocess.TimeoutExpired:
            self.fail(f"{program} took longer than 60 s", data)
        return ran.stdout.decode("latin-1") + f"ended with {ran.returncode}" * (ran.returncode != 0)

    def sheet(self, data):
        self.same("the sheet", self.printed(self.yearsheet, data), reckoner.sheet(data), data)
        self.sheets += 1

    def dossier(self, data, lent_plan, ends, lengths, kind):
        """One in ten of each kind is printed too, by yearsheet, which lends neither plan nor ends."""
        if has_equal_records(data) or has_equal_records(lent_plan):
            self.fail("a year of the comparison has two equal records", data, lent_plan, ends)
        self.reckoning(data, lent_plan, ends, lengths)
        if self.kinds[kind] % 10 == 0:
            self.sheet(data)
        self.kinds[kind] += 1

    def lists(self, numbers):
        """No ends of periods, and a sound list and a spoilt one for a dossier of these years."""
        return [], sound_ends(self.rng, numbers), spoiled_ends(self.rng, numbers)

    def by_all_lists(self, data, lent_plan, numbers, kind):
        """With each list, and with all buffer lengths around its limit."""
        for ends in self.lists(numbers):
            self.dossier(data, lent_plan, ends, rooms(len(numbers), ends), kind)

    def by_a_list(self, data, lent_plan, numbers, kind):
        """With one of the lists, and one of these lengths."""
        ends = self.rng.choice(self.lists(numbers))
        self.dossier(data, lent_plan, ends, [self.rng.choice(rooms(len(numbers), ends))], kind)

    def dossiers(self, kind):
        """A sound one and what becomes of it in each way, without a plan or with one that it does not use; then with planned years."""
        records = sound(self.rng, kind)
        numbers, unused = numbers_of(pieces(records)[1]), encode(any_plan(self.rng, {}, []))
        self.by_all_lists(encode(records), self.rng.choice((b"", unused)), numbers, kind)
        for way in ways(records):
            self.by_a_list(spoiled(self.rng, records, way), self.rng.choice((b"", unused)), numbers, (kind, way))
        self.planned(kind, *planned(self.rng, records), numbers)

    def planned(self, kind, records, listed, numbers):
        """A dossier of planned years with its plan, each spoilt in each way beside the other, and with other plans."""
        data, lent_plan = encode(records), encode(listed)
        self.by_all_lists(data, lent_plan, numbers, (kind, planned))
        for way in ways(records):
            self.by_a_list(spoiled(self.rng, records, way), lent_plan, numbers, (kind, way, planned))
        for way in ways(listed):
            self.by_a_list(data, spoiled(self.rng, listed, way), numbers, (kind, way, plan))
        for _ in range(3):
            self.by_a_list(data, other_plan(self.rng, listed), numbers, (kind, other_plan))

    def ends(self):
        """Bytes that end at every kind of place, of a dossier that has a record of each mark, and now and then lacks its plan."""
        run = [activity(self.rng, mark=mark) for mark in GREATEST]
        head, years = pieces(sound(self.rng, lambda rng: small(rng) | dict(n=2, option=2, activities=0, filed=True)))
        records = head + self.rng.choice((years[0] + run + years[1] + [PLANNED], years[0] + [PLANNED] + years[1] + run)) + [END]
        numbers = numbers_of(years)
        listed = encode(plan(*((number, []) for number in numbers)))
        for mark in dict(records):
            for data in stops(self.rng, records, mark):
                self.by_a_list(data, self.rng.choice((listed, listed, b"")), numbers, stops)

    def calls(self):
        calls = call_list(self.rng)
        due = self.independent(trace, calls)
        self.same("the trace of a list of calls", self.printed(self.ledgertrace, calls), due, calls)
        for line in due.splitlines():
            word, number, *_ = line.split()
            self.seen[word][int(number)] += 1

    def report(self):
        buffers, *calls = (sum(seen.values()) for seen in self.seen.values())
        print(f"{sum(self.kinds.values())} dossiers, {buffers} buffers, {self.sheets} sheets and {sum(calls)} calls: all agree, seed {self.seed}")
        for word, numbers in NUMBERS.items():
            print(f"{word}:", ", ".join(f"{number} came {self.seen[word][number]} times" for number in numbers))
        accepted, tonnes, either, stocks, by_plan, residues, by_plan_residues = (
            self.accepted[name] for name in ("all", "tonnes", "either sign", "stocks", "planned", "residues", "planned residues"))
        print(f"of {accepted} accepted dossiers {tonnes} had tonnes, {either} years of either sign, {stocks} stocks of their own, "
              f"{by_plan} planned years, {residues} CR, {by_plan_residues} planned years and CR in the plan; {len(self.endings)} kinds of ending")
        print(f"{self.thirds[9]} dossiers and {self.thirds[12]} plans had a third CR in a year")
        periods, twice, none = (self.accepted[name] for name in ("periods", "issued twice", "none after some"))
        print(f"{periods} accepted dossiers had several periods, {twice} tonnes in two of them, {none} a period without any after one with some")
        for word, numbers in NUMBERS.items():
            if set(numbers) != set(self.seen[word]):
                sys.exit(f"{word}: numbers {sorted(self.seen[word])} came, not {list(numbers)}; seed {self.seed}")
        if tonnes < accepted / 7 or either < accepted / 10 or stocks < accepted / 5 or by_plan < accepted / 5:
            sys.exit(f"too few accepted dossiers had tonnes, years of either sign, stocks of their own, or planned years; seed {self.seed}")
        if residues < accepted / 4 or by_plan_residues < accepted / 8 or min(self.thirds[9], self.thirds[12]) < sum(self.kinds.values()) / 100:
            sys.exit(f"too few accepted dossiers had CR or planned ones, or too few dossiers and plans a third CR; seed {self.seed}")
        if periods < accepted / 10 or min(twice, none) < accepted / 200 or self.seen["reckon"][15] < buffers / 20:
            sys.exit(f"too few accepted dossiers had several periods, tonnes in two of them or none in a later one, or too few lists were bad; "
                     f"seed {self.seed}")
        if not ENDINGS <= self.endings:
            sys.exit(f"these endings never came: {sorted(ENDINGS - self.endings)}; seed {self.seed}")


def main():
    if not 4 <= len(sys.argv) <= 6 or not all(number.isdigit() for number in sys.argv[4:]):
        sys.exit(__doc__)
    library, yearsheet, ledgertrace, *given = sys.argv[1:]
    seed, rounds = map(int, given + ["4", "30"][len(given):])
    comparison = Comparison(library, yearsheet, ledgertrace, seed)
    for k in range(rounds):
        for kind in (small, forest, typical, forest, full, bare, *((zeros, long, greatest) if k % 4 == 0 else ())):
            comparison.dossiers(kind)
        comparison.ends()
        for _ in range(3):
            comparison.calls()
    comparison.report()


if __name__ == "__main__":
    main()
