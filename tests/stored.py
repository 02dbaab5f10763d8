#!/usr/bin/env python3
"""Asks this version what earlier ones were asked: each answer is the one of then, save what requests have changed since.

    python3 tests/stored.py           runs target/bin/vectors and target/bin/ledgertrace
    python3 tests/stored.py --keep    stores what this version answers: to be run before a change of the reckoning

tests/stored has what both programs of an earlier version read and wrote; its example dossiers, each with its plan and its period ends if
it has them, are the last of the vectors. Vectors of a version before plans are asked with no plan, those of one before periods with no
ends. A year that has two equal records is refused 14 now (#105), where the independent reckoner finds no earlier fault. If it was accepted
then, the calls after it, up to the next opening, go by a ledger without that year: what they answer is the independent ledger's to say.
"""
import itertools
import lzma
import pathlib
import re
import subprocess
import sys

ROOT = pathlib.Path(__file__).resolve().parents[1]
FOLDER = ROOT / "tests" / "stored"
sys.path.insert(0, str(ROOT / "tests" / "independent"))
import reckoner  # noqa: E402
import vectors  # noqa: E402
from compare import answer, calls_in  # noqa: E402
from dossiers import has_equal_records  # noqa: E402


def bad_years_whole(report):
    """#101: a negative reduction is credited whole."""
    *figures, _, _, balance, belt_balance = report
    for reduction in range(6, len(figures), 8):
        if figures[reduction] < 0:
            figures[reduction + 1] = figures[reduction]
    total = sum(figures[7::8])
    return [*figures, total, max(total, 0) // 1000000, balance, belt_balance]


# The version that brought a change of reports, and how a report of before becomes one of that version.
CHANGES = (((2, 0), bad_years_whole),)
# The first version whose vectors have plans (#103), the first whose vectors have ends (#107), and the first that refuses two equal records
# of a year (#105).
PLANS, ENDS, EQUAL_REFUSED = (2, 2), (3, 2), (3, 0)


def due_now(version, words, numbers):
    """A line of then: its words, and of an accepted closing or dossier the report's numbers."""
    for since, change in CHANGES:
        if numbers and version < since:
            numbers = change(numbers)
    return " ".join(map(str, (*words, *numbers)))


def is_equal_now(version, dossier, plan):
    """#105: whether two equal records of a year or of a planned one, which an earlier version let pass, are the first fault now."""
    held = version < EQUAL_REFUSED and (has_equal_records(dossier) or has_equal_records(plan))
    return held and reckoner.reckon(dossier, bytearray(1312), plan)[0] == 14


def ask_vectors(version, data, lines):
    """What the program vectors reads now, and the lines due."""
    asked, due = [], []
    for label, dossier, plan, ends, room, line in vectors.stored_vectors(data, lines, plans=version >= PLANS, ends=version >= ENDS):
        number, *words = map(int, line[len(label):].split())
        size = 8 * dossier[5] + 4 if number == 0 else 0  # dossier[5] is HD's n
        asked.append(vectors.stored(label, dossier, plan, ends, room))
        if is_equal_now(version, dossier, plan):
            due.append(f"{label} 14")
        else:
            due.append(" ".join(map(str, (due_now(version, (label, number), words[:size]), *words[size:]))))
    return b"".join(asked), due


def by_opening(calls):
    """The calls of each opening up to the next; those before the first opening are the first."""
    found = [[]]
    for call in calls:
        if call[0] == b"O":
            found.append([])
        found[-1].append(call)
    return found


def due_calls(version, calls, lines):
    """The lines due of an opening's calls: those of then, save the years that two equal records refuse now; after one of them that was
    accepted then, the independent ledger's."""
    ledger, parted = reckoner.Ledger(), False
    equal = version < EQUAL_REFUSED and any(has_equal_records(data) or has_equal_records(plan) for _, data, _, plan in calls)
    for call, line in zip(calls, lines):
        now = answer(ledger, *call) if equal else ""
        parted = parted or (line, now) == ("year 0", "year 14")
        word, number, *numbers = line.split()
        yield now if parted or now == "year 14" else due_now(version, (word, number), list(map(int, numbers)))


def ask_calls(version, data, lines):
    """The calls are asked as they were; and the lines due."""
    left = iter(lines)
    due = [line for calls in by_opening(calls_in(data)) for line in due_calls(version, calls, [*itertools.islice(left, len(calls))])]
    return data, due


def written(program, data):
    return subprocess.run([ROOT / "target" / "bin" / program], input=data, stdout=subprocess.PIPE, timeout=60, check=True).stdout


def example_vectors():
    for path in sorted((ROOT / "examples").glob("*.dossier")):
        plan, ends = path.with_suffix(".plan"), path.with_suffix(".ends")
        yield vectors.stored(f"example {path.name}", path.read_bytes(), plan.read_bytes() if plan.exists() else b"",
                             reckoner.years_in(ends.read_text()) if ends.exists() else (), reckoner.LONGEST_REPORT)


def keep():
    header = (ROOT / "include" / "kh_am004.h").read_text()
    version = ".".join(re.search(rf"KH_AM004_VERSION_{part} (\d+)", header)[1] for part in ("MAJOR", "MINOR"))
    for program, more in (("vectors", b"".join(example_vectors())), ("ledgertrace", b"")):
        data = (ROOT / "crates" / program / "stdin").read_bytes() + more
        for stream, content in (("stdin", data), ("stdout", written(program, data))):
            (FOLDER / f"{program}-{version}.{stream}.xz").write_bytes(lzma.compress(content, preset=9 | lzma.PRESET_EXTREME))


def ask(path):
    program, *version = re.fullmatch(r"(\w+)-(\d+)\.(\d+)\.stdin\.xz", path.name).groups()
    data = lzma.decompress(path.read_bytes())
    then = lzma.decompress(path.with_name(path.name.replace("stdin", "stdout")).read_bytes()).decode().splitlines()
    asked, due = {"vectors": ask_vectors, "ledgertrace": ask_calls}[program](tuple(map(int, version)), data, then)
    now = written(program, asked).decode().splitlines()
    for before, wanted, found in zip(then, due, now):
        if wanted != found:
            sys.exit(f"{path.name}: '{found[:200]}' where '{wanted[:200]}' is due, and was '{before[:200]}'")
    if len(now) != len(due):
        sys.exit(f"{path.name}: {len(now)} lines where {len(due)} are due")
    changed = sum(map(str.__ne__, then, due))
    print(f"{program}, version {'.'.join(version)}: {len(due)} answers, {changed} of them changed as requests say, the others as then")


def main():
    if sys.argv[1:] == ["--keep"]:
        return keep()
    if sys.argv[1:]:
        sys.exit(__doc__)
    stored = sorted(FOLDER.glob("*.stdin.xz"))
    for path in stored:
        ask(path)
    if not stored:
        sys.exit("tests/stored has no answers of an earlier version")


if __name__ == "__main__":
    main()
