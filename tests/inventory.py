#!/usr/bin/env python3
"""Compares what there is to try with tests/inventory.txt, so that none of it goes unnoticed.

    python3 tests/inventory.py            fails where the tree holds less, more or something else
    python3 tests/inventory.py --renew    writes tests/inventory.txt from the tree; do so with each change that means to add or drop

A line is one must-fail edit, one section of vectors or calls with its count, one example dossier, plan or list of period ends, one stored input
or output of a program, now or in an earlier version, with its bytes and the beginning of its SHA-256, or one step of tests/run.
"""
import hashlib
import pathlib
import re
import sys

ROOT = pathlib.Path(__file__).resolve().parents[1]
LISTED = ROOT / "tests" / "inventory.txt"
sys.path.insert(0, str(ROOT / "tests" / "independent"))
import vectors  # noqa: E402


def digest(path):
    data = path.read_bytes()
    return f"{len(data)} bytes {hashlib.sha256(data).hexdigest()[:16]}"


def edits():
    return [f"must-fail {path.parts[-3]}/{path.stem}" for path in ROOT.glob("crates/*/must-fail/*.edit")]


def sections():
    """A plan that is lent between calls has no number, and is not counted as a call."""
    return [f"{kind} {section.__name__} {sum(first is not None for first, *_ in section())}"
            for kind, list_of in (("vectors", vectors.VECTORS), ("calls", vectors.CALLS)) for section in list_of]


def examples():
    return [f"{kind} {path.name} {digest(path)}"
            for kind, suffix in (("example", "dossier"), ("plan", "plan"), ("ends", "ends")) for path in ROOT.glob(f"examples/*.{suffix}")]


def programs():
    """Every program, and what it is run on and must write: a program without these is run on nothing."""
    lines = []
    for main in ROOT.glob("crates/*/src/main.rt"):
        crate = main.parents[1]
        lines.append(f"program {crate.name}")
        lines += [f"program {crate.name} {path.name} {digest(path)}" for path in crate.iterdir() if path.name in ("stdin", "stdout", "args")]
    return lines


def stored():
    return [f"stored {path.name} {digest(path)}" for path in ROOT.glob("tests/stored/*.xz")]


def steps():
    found = re.search(r'^steps="(.*)"$', (ROOT / "tests" / "run").read_text(), re.MULTILINE)
    return [f"step {step}" for step in found[1].split()] if found else []


def tree():
    return sorted(edits()) + sections() + sorted(examples()) + sorted(programs()) + sorted(stored()) + steps()


def counts(lines):
    """How many of each kind, and of the vectors and calls all together."""
    kinds = {}
    for kind, *words in map(str.split, lines):
        kinds[kind] = kinds.get(kind, 0) + (int(words[-1]) if kind in ("vectors", "calls") else 1)
    return kinds


def main():
    if sys.argv[1:] not in ([], ["--renew"]):
        sys.exit(__doc__)
    lines = tree()
    if "--renew" in sys.argv:
        LISTED.write_text("".join(line + "\n" for line in lines))
        return
    listed = LISTED.read_text().splitlines()
    gone, more = [line for line in listed if line not in lines], [line for line in lines if line not in listed]
    if gone or more or len(listed) != len(lines):
        sys.exit("\n".join(["the tree is not what tests/inventory.txt lists:", *(f"- {line}" for line in gone), *(f"+ {line}" for line in more),
                            "if that is meant: python3 tests/inventory.py --renew"]))
    found = counts(lines)
    print(f"the tree holds what is listed: {found['must-fail']} must-fail edits, {found['vectors']} vectors, {found['calls']} calls, "
          f"{found['example']} example dossiers, {found['plan']} plans and {found['ends']} lists of period ends")


if __name__ == "__main__":
    main()
