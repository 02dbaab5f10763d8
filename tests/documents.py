#!/usr/bin/env python3
"""Checks the documents against the tree: what they cite exists, and the numbers that they state are the tree's.

    python3 tests/documents.py

It reads target/header/numbers.txt, which tests/run makes from the C header.
"""
import collections
import math
import pathlib
import re
import struct
import sys
from fractions import Fraction

ROOT = pathlib.Path(__file__).resolve().parents[1]
sys.path[:0] = [str(ROOT / "tests"), str(ROOT / "tests" / "independent")]
import dossiers  # noqa: E402
import inventory  # noqa: E402
import reckoner  # noqa: E402
import vectors  # noqa: E402

DOCUMENTS = [ROOT / "README.md", ROOT / "CHANGELOG.md", *sorted((ROOT / "docs").rglob("*.md"))]
found_wrong = []


def wrong(document, what):
    found_wrong.append(f"{document.relative_to(ROOT)}: {what}")


def plain(number):
    return int(number.replace(",", ""))


def rows(text, columns):
    """The rows of the tables that have so many columns, heads left out."""
    found = []
    for line in text.splitlines():
        cells = [cell.strip() for cell in line.strip().strip("|").split("|")] if line.startswith("|") else []
        if len(cells) == columns and not set(cells[0]) <= set("-"):
            found.append(cells)
    return found


# What PROMISES.md cites

def words(pattern, *globs):
    """The names that a pattern finds in files, with the crate of each."""
    names = collections.defaultdict(set)
    for path in (path for glob in globs for path in ROOT.glob(glob)):
        for name in re.findall(pattern, path.read_text(), re.MULTILINE):
            names[name].add(path.relative_to(ROOT).parts[1])
    return names


class Tree:
    """The names in the tree that a document can cite, each with the crates that have it."""

    def __init__(self):
        self.crates = {path.name for path in ROOT.glob("crates/*")}
        self.files = collections.defaultdict(dict)
        for path in ROOT.glob("crates/*/*/**/*.antt"):
            crate, folder = path.relative_to(ROOT).parts[1:3]
            self.files[crate].setdefault(path.stem, []).append((folder, path.read_text()))
        self.edits = collections.defaultdict(set)
        for path in ROOT.glob("crates/*/must-fail/*.edit"):
            self.edits[path.stem].add(path.parts[-3])
        self.functions = words(r"\bfn ([\w]+)", "crates/*/src/**/*.rt")
        self.types = words(r"\b(?:struct|enum|const) ([\w]+)", "crates/*/src/**/*.rt")
        self.fields = words(r"^    (?:pub )?(\w+): ", "crates/*/src/**/*.rt")
        self.tests = words(r"^(?:def|static void|int|uint32_t|class) (\w+)", "tests/*.py", "tests/*.c", "tests/*/*.py", "tests/*/*.c")
        self.sections = {section.__name__ for section in (*vectors.VECTORS, *vectors.CALLS)}

    def defined(self, name, folder, crate=None, file=None):
        """Whether a definition or a theorem of this name stands in a folder of some crate's file."""
        start = re.compile(r"^\s*(?:\w+ )*(?:pub )?«?" + re.escape(name) + r"»?(?=[\s:{(]|$)", re.MULTILINE)
        return any(start.search(text)
                   for owner in ([crate] if crate else self.files) for stem, found in self.files[owner].items() if file in (None, stem)
                   for place, text in found if place in folder)

    def in_source(self, name, crate=None):
        return any(name in names and (crate is None or crate in names[name]) for names in (self.functions, self.types, self.fields))

    def edit(self, crate, name):
        return name == "*" and any(crate in crates for crates in self.edits.values()) or crate in self.edits.get(name, ())

    def path(self, name):
        """A file or folder from the top, or below crates/."""
        return any((ROOT / base / name).exists() for base in (".", "crates", "tests")) if "*" not in name else bool(list(ROOT.glob(name)))

    def file_of(self, crate, name, folder):
        """crate/File, or crate/File.name; the name may be a record's field, File.Record.field."""
        file, _, rest = name.partition(".")
        if crate not in self.crates or not any(place in folder for place, _ in self.files[crate].get(file, ())):
            return False
        return all(self.defined(part, folder, crate, file) for part in rest.split(".") if part)

    def call(self, name):
        """crate::function, Type::method or crate::Type.field; read_* stands for some."""
        owner, _, last = name.rpartition("::")
        owner = owner.split("::")[-1]
        parts = [part for part in re.split(r"[.:]+", last) if part]
        if last.endswith("*"):
            return any(known.startswith(last[:-1]) and owner in crates for known, crates in self.functions.items())
        crate = owner if owner in self.crates else None
        return (crate or not owner or owner in self.types) and all(self.in_source(part, crate) for part in parts)

    def cited(self, kind, token):
        """Whether what a token names is in the tree; the kind, if one was said, narrows where to look."""
        both = ("specs", "proofs")
        folder = {"D": ("specs",), "T": ("proofs",)}.get(kind, both)
        head, slash, tail = token.partition("/")
        if kind == "M":
            return self.edit(head, tail) if slash else token in self.edits
        if kind == "V":
            return token in self.sections
        if self.path(token):
            return True
        if slash:
            return self.file_of(head, tail, folder) or kind is None and self.edit(head, tail)
        if "::" in token or kind == "C":
            return self.call(token) or self.defined(token, both)
        if any(self.file_of(crate, token, folder) for crate in self.crates) or self.defined(token, folder):
            return True
        if kind in ("D", "T"):
            return False
        return token in self.crates or token in self.edits or token in self.sections or token in self.tests or self.call(token)


# words that are no names of the tree's
WORDS = {"rt", "requires", "read", "write", "stdin", "stdout"}


def citations(line):
    """The names that a line cites in backquotes, each with the letter that its part of a row begins with: D, C, T, M, V, X or none."""
    for part in re.split(r"[;.] ", line.strip("| ").partition("|")[2] if line.startswith("|") else line):
        said = re.match(r"\s*([DCTMVX])[ :]", part) if line.startswith("|") else None
        for token in re.findall(r"`([^`]+)`", part):
            if token not in WORDS and re.fullmatch(r"[\w./:*«»'-]+", token) and "crate/File" not in token and "crates/crate/" not in token:
                yield said[1] if said else None, token


def promises():
    document = ROOT / "docs" / "PROMISES.md"
    tree, cited = Tree(), [citation for line in document.read_text().splitlines() for citation in citations(line)]
    for kind, token in cited:
        if not tree.cited(kind, token):
            wrong(document, f"`{token}`{f', said to be {kind},' if kind else ''} is not in the tree")
    return len(cited)


# Numbers that the documents state

def counted():
    """Numbers of edits, vectors, calls and dossiers, wherever a document states them, save those that tell of earlier versions."""
    counts = inventory.counts(inventory.tree())
    stated = {"(?:must-fail )?edits": counts["must-fail"], "(?:stored )?vectors": counts["vectors"], "dossiers for `crates/vectors`": counts["vectors"],
              "(?:stored|ledger) calls": counts["calls"], "calls for `crates/ledgertrace`": counts["calls"], "example dossiers": counts["example"]}
    for document in (document for document in DOCUMENTS if document.name not in ("CHANGELOG.md", "PORT.md", "DESIGN-PASS.md") and document.parent.name != "changes"):
        for what, due in stated.items():
            for number, said in re.findall(rf"\b(\d[\d,]*) ({what})", document.read_text()):
                if plain(number) != due:
                    wrong(document, f"{number} {said} where the tree has {due}")


def links():
    for document in DOCUMENTS:
        for target in re.findall(r"\]\(([^)#]+)\)", document.read_text()):
            if "://" not in target and not (document.parent / target).exists():
                wrong(document, f"no file for the link {target}")


def numbers():
    """README's table of numbers has the header's texts, and CHANGELOG its version."""
    made = (ROOT / "target" / "header" / "numbers.txt").read_text().splitlines()
    readme, changes = ROOT / "README.md", ROOT / "CHANGELOG.md"
    found = [f"{number} {text}" for number, text, _ in rows(readme.read_text(), 3) if number.isdigit()]
    if found != made[:-1]:
        wrong(readme, f"the table of numbers is not the header's: {set(found) ^ set(made[:-1])}")
    versions = re.findall(r"^## (\d+\.\d+)\b", changes.read_text(), re.MULTILINE)
    if f"version {versions[0] if versions else None}" != made[-1]:
        wrong(changes, f"the first version is {versions[:1]} where the header has {made[-1]}")


def dossier_sizes():
    document = ROOT / "docs" / "DOSSIER.md"
    text = document.read_text()
    sizes = {mark: 2 + struct.calcsize(">" + form) for mark, form in dossiers.FIELDS.items()}
    found = {cells[0]: plain(cells[-1]) for cells in rows(text, 5) if cells[0] in sizes}
    if found != sizes:
        wrong(document, f"the records' sizes are {sizes}")
    opening, year = sizes["HD"] + sizes["PA"] + sizes["DA"], sizes["YR"] + sizes["CP"] + sizes["CD"]
    run = 58 * sizes["VE"] + 2 * sizes["CR"]
    shortest, longest = opening + year + sizes["EN"], opening + sizes["ST"] + sizes["MP"] + 20 * (year + run) + sizes["EN"]
    longest_plan = dossiers.MOST_PLANNED * (sizes["PY"] + run) + sizes["EN"]
    for name, size in (("shortest dossier", shortest), ("longest dossier", longest), ("longest plan", longest_plan)):
        if f"The {name} has {size:,} bytes" not in text:
            wrong(document, f"it does not say that the {name} has {size:,} bytes")


def decisions():
    """One numbered list, from 1 on without a gap or a repeat."""
    document = ROOT / "docs" / "DECISIONS.md"
    found = [int(number) for number in re.findall(r"^(\d+)\. ", document.read_text(), re.MULTILINE)]
    if found != list(range(1, len(found) + 1)):
        wrong(document, f"the decisions are numbered {found}")
    for other in DOCUMENTS:
        for number in re.findall(r"DECISIONS\.md`?\)? (\d+)", other.read_text()):
            if not 1 <= int(number) <= len(found):
                wrong(other, f"there is no decision {number}")


# METHOD.md against the independent reckoner's constants

EQUATIONS = {"flow": ("2, 3", "8", "30, 31, 37"), "next area": ("4, 5", "9", "32, 33, 38"), "projected carbon": ("2, 3", "6, 7", "30, 31, 35, 36"),
             "reference": ("1, 2, 3", "1, 6", "28"), "project": ("10, 11", "10, 12, 13", "29, 34, 39, 40"),
             "activity": ("10, 14 to 26", "10, 14 to 26", "none"), "displaced": ("27", "27", "27"), "reduction": ("10, 41", "10, 41", "none"),
             "credited": ("42", "42", "none"), "total": ("43", "43", "none"), "tonnes": ("43", "43", "none"), "balance": ("none", "none", "none")}


def bound(n, m, greatest=None):
    """The independent reckoner's, by the built-in stocks, or by a list with this greatest one."""
    ledger = reckoner.Ledger()
    ledger.years, ledger.records = [()] * n, m
    ledger.stock = reckoner.STOCK if greatest is None else {"E": greatest}
    return ledger.bound()


def is_bound(times, first, stock, year, record):
    """Whether times the bound is first × S × n × (n + 1) + year × n + record × m; without S, by the built-in stocks, first rounded up."""
    times, first, year, record = (Fraction((number or "1").replace(",", "")) for number in (times, first, year, record))
    if not stock:
        return (times, first, year, record) == (1, math.ceil((bound(1, 0) - bound(1, 0, 0)) / 2), 5, 1)
    return all(first * s * n * (n + 1) + year * n + record * m == times * bound(n, m, s)
               for s in (0, 1, 50000) for n in (1, 2, 20) for m in (0, 1, 1200))


def bounds():
    """The bound's formula wherever METHOD.md and PROMISES.md state it: in grams by the greatest stock S, in PROMISES.md in whole numbers too."""
    number = r"(\d[\d,.]*)"
    for name, wholes in (("METHOD.md", False), ("PROMISES.md", True)):
        document = ROOT / "docs" / name
        text = document.read_text()
        found = re.findall(rf"(?:{number} × gap < )?{number} × (S × )?n × \(n \+ 1\)(?: \+ {number} × n \+ (?:{number} × )?m\b)?", text)
        for formula in found:
            if not formula[3] or not is_bound(*formula):
                wrong(document, f"a bound that is not the reckoner's: {formula}")
        for times in ("", *("25",) * wholes):
            if not any(formula[0] == times and formula[2] for formula in found):
                wrong(document, f"the bound by S is not stated{', times 25 in whole numbers' if times else ''}")


def method():
    document = ROOT / "docs" / "METHOD.md"
    text = document.read_text()

    def same(what, found, due):
        if found != due:
            wrong(document, f"{what}: {found} where {due} is due")

    sixes, fives, fours = rows(text, 6), rows(text, 5), rows(text, 4)
    classes = [cells for cells in sixes if cells[0] in reckoner.CLASSES]
    same("the classes", [cells[0] for cells in classes], reckoner.CLASSES)
    for name, _, stock, hundredths, probability, millionths in classes:
        same(f"stock of {name}", (plain(hundredths), Fraction(stock) * 100), (reckoner.STOCK[name],) * 2)
        same(f"probability of {name}", plain(millionths), reckoner.INTO_NON_FOREST[name])
        same(f"probability of {name}", Fraction(probability.replace("none", "0")) * 10**6, reckoner.INTO_NON_FOREST[name])
    fuels = {int(kind): (Fraction(value) * plain(each) / 10, plain(factor)) for kind, _, value, each, factor in fives if kind.isdigit() and plain(factor) > 10**5}
    same("fuel", fuels, {kind: (factor, factor) for kind, factor in reckoner.FUEL.items()})
    shares = {(int(source[0]), int(crop[0])): (10**5 * (Fraction(direct) + Fraction(volatile) / 100 + Fraction(leached) * Fraction(75, 10**4)), plain(w))
              for source, crop, direct, volatile, leached, w in sixes if source[0].isdigit()}
    same("nitrogen", shares, {pair: (w, w) for pair, w in reckoner.NITROGEN.items()})
    lime = {int(kind): (Fraction(carbon) * 1100, plain(factor)) for kind, _, carbon, factor in fours if kind.isdigit() and carbon.startswith("0.")}
    same("lime", lime, {kind: (factor, factor) for kind, factor in reckoner.LIMING.items()})
    same("the weight of N2O", Fraction(3278, 7), Fraction(44, 28) * 298)
    limits = [cells for cells in fours if cells[0].isdigit() and cells[1].replace(",", "").isdigit()]
    same("the rows of the bound", [(int(n), plain(m)) for n, m, *_ in limits], [(1, 0), (1, 60), (5, 300), (10, 600), (20, 1200)])
    for n, m, grams, tonnes in limits:
        due = bound(int(n), plain(m))
        same(f"the bound of {n} years", Fraction(grams.replace(",", "")), due)
        same(f"the bound of {n} years in tonnes", Fraction(tonnes), Fraction(math.ceil(due / 10**4), 100))
    same("the longest dossier's bound", f"less than {math.ceil(due / 10**6)} t to rounding" in text, True)
    steps = {cells[0]: tuple(cells[3:]) for cells in sixes if cells[0] in EQUATIONS}
    same("the equations", steps, EQUATIONS)
    _, ledger = reckoner.reckon(dossiers.encode(dossiers.case_a()), bytearray(96))
    reference, project, activity, _, _, displaced, reduction, credited = ledger.years[0]
    worked = {cells[0].split(":")[0]: plain(cells[1]) for cells in rows(text, 2) if cells[1].replace(",", "").isdigit()}
    same("case A", worked, {"reference": reference, "project": project, "activity": activity, "displaced": displaced, "reduction": reduction,
                            "credited, and total": credited})
    _, ledger = reckoner.reckon((ROOT / "examples" / "bad-year.dossier").read_bytes(), bytearray(160))
    reference, project, *_, reduction, _ = ledger.years[1]
    for figure in [f"{grams:,} g" for grams in (reference, project, reduction, ledger.total)] + [f"{ledger.numbers()[-3]} tonnes"]:
        same(f"{figure} of the bad year", figure.replace("-", "−") in text, True)
    newer = (ROOT / "examples" / "newer-stocks.dossier").read_bytes()
    for dossier in (newer, newer[:6] + newer[32:]):  # with ST, and without it
        _, ledger = reckoner.reckon(dossier, bytearray(160))
        figure = f"{ledger.total:,} g, {ledger.numbers()[-3]:,} tonnes"
        same(f"{figure} by newer stocks", figure in text, True)
    _, ledger = reckoner.reckon((ROOT / "examples" / "fixing-crops.dossier").read_bytes(), bytearray(160))
    crops = [(1, 320, 1650, 10000, 200, 60, 160, 140), (1, 210, 1130, 10000, 188, 55, 80, 80)]
    crops += [(crop, 10000, 10000, 10000, 500, 500, 10000, 10000) for crop in (1, 2)]
    emitted = [dossiers.grams([("CR", fields)]) for fields in crops]
    for figure in [f"{grams:,} g" for grams in (*emitted, *(figures[2] for figures in ledger.years))] + [f"{ledger.total:,} g, {ledger.numbers()[-3]:,} tonnes"]:
        same(f"{figure} of nitrogen-fixing crops", figure in text, True)
    periods = ROOT / "examples" / "periods.dossier"
    ends = [int(year) for year in periods.with_suffix(".ends").read_text().split(",")]
    _, ledger = reckoner.reckon(periods.read_bytes(), bytearray(reckoner.LONGEST_REPORT), ends=ends)
    issued = [tuple(map(plain, cells)) for cells in fives if cells[0].isdigit() and int(cells[0]) in ends]
    totals = [sum(figures[-1] for figures in ledger.years[:end + 1 - ledger.first]) for end in ends]
    tonnes = ledger.issued(ends)
    same("issued tonnes", issued, [(end, total, total // 10**6, sum(tonnes[:k]), tonnes[k]) for k, (end, total) in enumerate(zip(ends, totals))])


def main():
    cited = promises()
    for check in (counted, links, numbers, dossier_sizes, decisions, bounds, method):
        check()
    if found_wrong:
        sys.exit("\n".join(found_wrong))
    print(f"the documents: {cited} citations of PROMISES.md are in the tree, and the numbers stated are the tree's")


if __name__ == "__main__":
    main()
