"""Writes long dossiers: Option 2, stocks filed, twenty years, sixty different records in each, 58 of VE and two of CR.

    python3 bench/longest.py                              prints the longest dossier
    python3 bench/longest.py worst                        prints one with sixty of VE a year, which have one slot of the proved reckoner's
                                                          filter for equal records: what costs that filter most
    python3 bench/longest.py planned DOSSIER PLAN OWN     writes one of planned years, its plan, and the same with the records in it
    python3 bench/longest.py worst-plan                   prints another plan for it, with such records
"""
import pathlib
import struct
import sys

sys.path.insert(0, str(pathlib.Path(__file__).resolve().parents[1] / "tests" / "independent"))
from dossiers import encode, of_one_slot  # noqa: E402

AREAS = [10**12 // 12] * 12
STOCKS = [50000 - 4000 * k for k in range(11)] + [0]
ROW = [83333] * 11 + [83337]
TABLE = [a // 12 for a in AREAS for _ in range(12)]
TABLE[0] += sum(AREAS) - sum(TABLE)
YEARS = range(2000, 2020)
# Grams of fuel per hour: as much as there can be, and so little that the emissions are small enough for a plan.
MUCH, LITTLE = 100000, 1000
# Kg of dry matter per ha that go with them.
YIELD = {MUCH: 10000, LITTLE: 100}


def words(code, values):
    return struct.pack(f">{len(values)}{code}", *values)


def run(rate):
    """58 VE of different counts and a CR of either crop, with ratios and contents as great as they can be. No two of these have one slot of
    the proved reckoner's filter for equal records, as the records of most years."""
    vehicles = b"".join(b"VE" + struct.pack(">BIII", 1, 1000 - k, 10000, rate) for k in range(58))
    return vehicles + b"".join(b"CR" + struct.pack(">BIIHHHHH", crop, 10000, YIELD[rate], 5000 * crop, 500, 500, 10000, 10000) for crop in (1, 2))


def dossier(records):
    """Each year with these bytes after its tables."""
    head = b"HD" + struct.pack(">BHB", 2, YEARS[0], len(YEARS)) + b"ST" + words("H", STOCKS)
    opening = head + b"PA" + words("Q", AREAS) + b"DA" + words("Q", AREAS) + b"MP" + words("I", ROW * 12)
    tables = b"CP" + words("Q", TABLE) + b"CD" + words("Q", TABLE)
    return opening + b"".join(b"YR" + struct.pack(">HH", y, 365) + tables + records for y in YEARS) + b"EN"


def plan(records):
    return b"".join(b"PY" + struct.pack(">H", y) + records for y in YEARS) + b"EN"


def write_planned(*paths):
    little = run(LITTLE)
    for path, data in zip(paths, (dossier(b"PL"), plan(little), dossier(little))):
        pathlib.Path(path).write_bytes(data)


if sys.argv[1:2] == ["planned"] and len(sys.argv) == 5:
    write_planned(*sys.argv[2:])
elif sys.argv[1:] == ["worst"]:
    sys.stdout.buffer.write(dossier(encode(of_one_slot(60, MUCH))))
elif sys.argv[1:] == ["worst-plan"]:
    sys.stdout.buffer.write(plan(encode(of_one_slot(60, LITTLE))))
elif sys.argv[1:]:
    sys.exit(__doc__)
else:
    sys.stdout.buffer.write(dossier(run(MUCH)))
