#!/usr/bin/env python3
"""Writes the scripts of the speed comparison to a folder, the same ones every time.

    make_input.py FOLDER

sample   a few short lines
lines    close to 65,536 bytes of row, strike and pair lines, with a map line now and then
heavy    128 rows of 9 periods with a load of 90 percent, and 99 map lines
spread   128 rows of 128 periods with a load of 80 percent, and 30 map lines
layers   128 rows of 9 periods, 32 pairs, a charge and a margin, with a load of 85 percent, and 99 map lines

A tick is taken as a microsecond.
"""

import random
import sys
from pathlib import Path

LONGEST_SCRIPT = 65_536
MOST_ROWS = 128
MOST_PAIRS = 32

SAMPLE = """\
row,1,1000,5000,5000,0
row,2,2000,10000,10000,0
row,3,1000,5000,4000,0
map,exact,equal
map,exact,divided
map,sections,equal
map,linear,divided
strike,8
"""

# Periods from 1 ms to 1 s, and how many rows of 100 have each.
PERIODS = [1_000, 2_000, 5_000, 10_000, 20_000, 50_000, 100_000, 200_000, 1_000_000]
WEIGHTS = [4, 3, 3, 30, 26, 4, 21, 2, 7]

MAPS = ["map,exact,equal", "map,sections,divided", "map,linear,equal"]


def row_line(row):
    return "row,%d,%d,%d,%d,%d" % row


def rows_of(rng, periods, load, charge=0):
    """A row for each period. Costs and charges together make about this load."""
    weights = [rng.uniform(0.5, 1.5) for _ in periods]
    unit = load / sum(weights)
    rows = []
    for k, (period, weight) in enumerate(zip(periods, weights)):
        cost = max(1, int(period * weight * unit) - charge)
        deadline = period if rng.random() < 0.5 else int(period * rng.uniform(0.9, 1))
        section = min(cost, rng.randrange(1, 21)) if rng.random() < 0.3 else 0
        rows.append((100 + k, cost, period, deadline, section))
    rng.shuffle(rows)
    return rows


def text(lines):
    script = "".join(line + "\n" for line in lines)
    assert len(script) <= LONGEST_SCRIPT
    return script


def maps(count):
    return [MAPS[k % len(MAPS)] for k in range(count)]


def many_lines():
    """Rows come and go; some lines are refused."""
    rng = random.Random(2)
    lines, size, standing = [], 0, []
    while True:
        kind = rng.random()
        if kind < 0.5:
            period = rng.choice(PERIODS)
            cost = max(1, period // rng.randrange(200, 400))
            standing.append(rng.randrange(1, 2_000))
            line = row_line((standing[-1], cost, period, period, 0))
        elif kind < 0.9:
            at = rng.randrange(len(standing)) if standing else 0
            line = "strike,%d" % (standing.pop(at) if standing else 1)
        elif kind < 0.998:
            line = "pair,%d,%d" % (rng.randrange(1, 2_000), rng.randrange(1, 2_000))
        else:
            line = rng.choice(MAPS)
        size += len(line) + 1
        if size > LONGEST_SCRIPT:
            return text(lines)
        lines.append(line)


def heavy():
    rng = random.Random(3)
    periods = rng.choices(PERIODS, WEIGHTS, k=MOST_ROWS)
    return text([row_line(row) for row in rows_of(rng, periods, 0.9)] + maps(99))


def spread():
    rng = random.Random(4)
    periods = [1_000 * k for k in rng.sample(range(5, 1_001), MOST_ROWS)]
    return text([row_line(row) for row in rows_of(rng, periods, 0.8)] + maps(30))


def layers():
    rng = random.Random(5)
    charge = 2
    periods = rng.choices(PERIODS, WEIGHTS, k=MOST_ROWS)
    rows = rows_of(rng, periods, 0.85, charge)
    lines = [row_line(row) for row in rows]
    # Each pair agrees with deadline order.
    by_deadline = sorted(rows, key=lambda row: row[3])
    pairs = set()
    while len(pairs) < MOST_PAIRS:
        upper, lower = sorted(rng.sample(range(MOST_ROWS), 2))
        pairs.add((by_deadline[upper][0], by_deadline[lower][0]))
    lines += ["pair,%d,%d" % pair for pair in sorted(pairs)]
    lines += ["charge,%d" % charge, "margin,5"]
    return text(lines + maps(99))


def main(folder):
    folder.mkdir(parents=True, exist_ok=True)
    for name, script in [
        ("sample", SAMPLE),
        ("lines", many_lines()),
        ("heavy", heavy()),
        ("spread", spread()),
        ("layers", layers()),
    ]:
        (folder / name).write_bytes(script.encode())


if __name__ == "__main__":
    if len(sys.argv) != 2:
        sys.exit("usage: make_input.py FOLDER")
    main(Path(sys.argv[1]))
