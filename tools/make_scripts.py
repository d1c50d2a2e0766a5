#!/usr/bin/env python3
"""Writes the scripts that `mapper` is tried with, separated by byte 0x1E.

    tools/make_scripts.py > crates/scripts/stdin
    tools/reference/build
    target/tools/reference scripts < crates/scripts/stdin > crates/scripts/stdout

The last command takes a few minutes. The output is the same at every run.
"""

import random
import sys

SCRIPTS = []

MAPS = ["map,%s,%s" % (a, g) for a in ("exact", "linear", "sections") for g in ("equal", "divided")]

S = ["row,1,1000,5000,5000,0", "row,2,2000,10000,10000,0", "row,3,1000,5000,4000,0"]
V = ["row,1,3,6,6,0", "row,2,3,8,8,0"]


def raw(script):
    assert b"\x1e" not in script
    SCRIPTS.append(script)


def add(*parts, end="\n"):
    """A script of lines; a part is a line or a list of lines."""
    lines = []
    for part in parts:
        lines += part if isinstance(part, list) else [part]
    raw(("\n".join(lines) + end).encode("latin-1"))


def rows_of(rows):
    return ["row,%d,%d,%d,%d,%d" % row for row in rows]


# ---- lines, fields and number fields


def reading():
    for script in (b"", b"\n", b"\n\n\n", b"\r\n", b"\r", b" ", b",", b",,,,,", b"\x00", b"\xff\n\x80"):
        raw(script)
    # the last line with and without its byte 10, and an empty line after it
    for end in ("", "\n", "\n\n"):
        add(V, "map,exact,equal", end=end)
        add("strike,8", end=end)
    # empty and refused lines are counted
    add("", V, "", "nothing", "map,exact,equal", "", "map,linear,equal")
    # byte 13 belongs to its field
    add(V, "map,exact,equal", end="\r\n")
    raw(b"row,1,3,6,6,0\r\nrow,2,3,8,8,0\nstrike,1\r\ncharge,1\r\nmargin,1\r\npair,1,2\r\n\r\nmap,exact,equal\n")
    raw(b"row\r,1,3,6,6,0\nrow,1\r,3,6,6,0\nrow,1,3\r,6,6,0\nmap,exact\r,equal\n")
    # words
    for word in ("ro", "rows", "Row", "ROW", " row", "row ", "\trow", "", "r", "0", "task", "plan", "refused", "map\0"):
        add(word + ",1,3,6,6,0", "map,exact,equal")
    for word in ("strikes", "Strike", "pairs", "Pair", "charges", "CHARGE", "margins", "marg", "maps", "Map", "ma"):
        add(V, *["%s,%s" % (word, rest) for rest in ("1", "1,2", "exact,equal")])
    for a in ("Exact", "exac", "exacts", "", " exact", "exact ", "section", "Linear", "linea", "0", "equal"):
        add(V, *["map,%s,%s" % (a, g) for g in ("equal", "divided", "x")])
    for g in ("Equal", "equa", "equals", "", " equal", "equal ", "divide", "Divided", "0", "exact"):
        add(V, *["map,%s,%s" % (a, g) for a in ("exact", "linear", "sections")])
    # counts of fields
    for word, fields in (
        ("row", ["7", "1", "9", "9", "0"]),
        ("strike", ["1"]),
        ("pair", ["1", "2"]),
        ("charge", ["1"]),
        ("margin", ["1"]),
        ("map", ["exact", "equal"]),
    ):
        more = fields + [fields[-1], fields[0]]
        for count in range(len(more) + 1):
            add(V, ",".join([word] + more[:count]), "map,exact,equal")
        add(V, ",".join([word] + fields) + ",", "," + ",".join([word] + fields), word + ",", word + ",,", "map,exact,equal")


NOT_NUMBERS = [
    "", "x", "01", "00", "0000000", "00000001", "10000000", "99999999", "00000000", "123456789012345678901234567890",
    "+1", "-1", "-0", " 1", "1 ", "1.0", "1e3", "0x1", "1_0", "1;", "/", ":", "1/", "1:", "\xd9\xa1", "\xb2", "\x00", "1\x00", "1\t",
]

# good fields for each kind of line that has number fields
GOOD = {
    "row": ["7", "2", "9", "8", "1"],
    "strike": ["1"],
    "pair": ["1", "2"],
    "charge": ["1"],
    "margin": ["1"],
}


def number_fields():
    for word, good in GOOD.items():
        for k in range(len(good)):
            lines = []
            for bad in NOT_NUMBERS:
                lines.append(",".join([word] + good[:k] + [bad] + good[k + 1 :]))
            add(V, lines, "map,exact,equal")
            # this field and all after it
            add(",".join([word] + good[:k] + ["x"] * (len(good) - k)), "map,exact,equal")
            # this field and all before it
            add(",".join([word] + ["x"] * (k + 1) + good[k + 1 :]), "map,exact,equal")
    # a 0 alone is a number field
    add("row,1,1,1,1,0", "row,1,1,1,1,00", "charge,0", "charge,00", "margin,0", "margin,00", "map,exact,equal")


# ---- ranges


def ranges():
    good = [7, 5, 20, 10, 3]
    edges = [
        [0, 1, 65535, 65536, 9999999],
        [0, 2, 3, 1000000, 1000001, 9999999],
        [0, 9, 10, 1000000, 1000001, 9999999],
        [0, 1, 20, 21, 9999999],
        [0, 5, 6, 9999999],
    ]
    for k, values in enumerate(edges):
        for value in values:
            fields = good[:k] + [value] + good[k + 1 :]
            add("row," + ",".join(map(str, fields)), "map,exact,equal", "strike,7", "map,exact,equal")
    # one field wrong with all after it, too
    for k in range(5):
        for wrong in ("0", "9999999"):
            fields = [str(x) for x in good[:k]] + [wrong] * (5 - k)
            add("row," + ",".join(fields), "map,exact,equal")
    # limits in other fields
    add("row,1,1000001,5,6,1000001", "row,1,5,1000001,1000001,6", "row,1,5,0,0,6", "row,1,5,9,10,6", "row,1,0,9,9,1")
    add("row,1,5,9,9,6", "row,1,5,9,9,5", "row,2,9,5,5,9", "map,sections,equal", "strike,2", "map,sections,equal")
    add("row,1,1,1,1,0", "row,65535,1,1,1,1", "map,exact,equal", "strike,65535", "map,exact,equal")
    add("row,1,1000000,1000000,1000000,1000000", *MAPS)
    add("row,1,1000000,1000000,1000000,0", "charge,1", MAPS, "charge,10000", MAPS, "charge,0", MAPS)
    add("row,1,1000000,1,1,0", *MAPS)
    for number in (0, 1, 65535, 65536, 1000000, 9999999):
        add("row,1,1,9,9,0", "row,65535,1,8,8,0", "strike,%d" % number, "strike,%d" % number, "map,exact,equal")
    for u in (0, 1, 65535, 65536, 9999999):
        for l in (0, 1, 65535, 65536, 9999999):
            add("row,1,1,9,9,0", "row,65535,1,8,8,0", "pair,%d,%d" % (u, l), "pair,%d,%d" % (u, l), "map,exact,equal")
    for s in (0, 1, 2, 9999, 10000, 10001, 9999999):
        add("row,1,1,9,9,0", "row,2,1,20000,10001,0", "charge,%d" % s, "map,exact,equal")
    for p in (0, 1, 50, 88, 89, 98, 99, 100, 101, 9999999):
        add("row,1,1,9,9,0", "row,2,1,200,200,0", "margin,%d" % p, "map,exact,equal")


# ---- the order in which codes are tried


def orders_of_codes():
    add("row,0,0,0,0,x", "row,0,x,0,0", "strike,x,x", "pair,x", "charge,", "map,exact", "row", "nothing,x")
    # 2 before 3
    add("row,0,1,1,1,x", "row,x,0,1,1,1", "pair,0,x", "pair,x,0", "strike,x", "charge,99999999", "margin,0100")
    # 2 before 4, 5, 6, 8, 9, 10
    add("row,1,1,9,9,0", "row,1,1,9,9,x", "pair,1,2", "pair,1,02", "pair,3,03", "strike,09")
    # 3 before 4 and 6, 4 with all in range
    add("row,1,1,9,9,0", "row,1,0,9,9,0", "row,1,1,9,10,0", "row,1,1,9,9,2", "row,1,1,9,9,1", "strike,0", "strike,65536", "strike,2")
    # 3 before 8, the leftmost first
    add("pair,0,0", "pair,65536,65536", "pair,1,0", "pair,0,1", "pair,65536,0", "pair,5,5", "pair,65535,65535")
    # a number stands already: another row does not replace it
    add(V, "row,1,1,6,6,0", "row,2,1,4,4,0", "map,exact,equal", "strike,1", "row,1,1,6,6,0", "map,exact,equal")


def many_rows(count, first=1, period=1000):
    return ["row,%d,1,%d,%d,%d" % (first + k, period, period - k % 3, k % 2) for k in range(count)]


def full_sheet():
    full = many_rows(128)
    # with 128 rows: 3, then 4, then 5
    add(full, "row,129,0,9,9,0", "row,128,0,9,9,0", "row,128,1,9,9,0", "row,129,1,9,9,0", "row,129,1,9,9,x", "row,1,1,1000,1000,0",
        "map,exact,equal")
    # a struck row's place is free again, for the same or another number
    add(full, "row,200,1,500,500,0", "strike,64", "row,200,1,500,500,0", "row,64,1,400,400,0", "strike,200", "row,64,1,1000,1000,0",
        "row,64,1,1000,1000,0", "row,65,1,1000,1000,0", "row,201,1,9,9,0", "map,exact,divided")
    # 127 rows are not full
    add(many_rows(127), "row,65535,2,1000,1000,0", "row,65534,2,1000,1000,0", "strike,65535", "row,65534,2,1000,998,0", "map,linear,equal")
    # emptied and filled again
    add(many_rows(40), ["strike,%d" % k for k in range(1, 41)], "map,exact,equal", many_rows(40, first=30), "map,sections,equal")
    # 128 rows, each with its own task, and all in one
    add(["row,%d,1,%d,%d,0" % (1000 + k, 500 + k, 500 + k) for k in range(128)], "map,exact,equal", "map,sections,divided")
    add(["row,%d,7,%d,%d,7" % (65535 - k, 1000 * (1 + k % 5), 1000) for k in range(128)], *MAPS)
    # the largest values everywhere
    add(["row,%d,1000000,1000000,1000000,1000000" % (65535 - k) for k in range(128)], *MAPS)
    add(["row,%d,1000000,1,1,1000000" % (k + 1) for k in range(127)], "row,500,1,1000000,1000000,1", *MAPS)
    add(["row,%d,1,1000000,1000000,1" % (65408 + k) for k in range(128)], "charge,7811", MAPS, "charge,7812", MAPS)


def pairs():
    full = ["pair,%d,%d" % (1 + k // 4, 100 + k) for k in range(32)]
    # with 32 pairs: 3, then 8, then 9, then 10
    add(full, "pair,0,1", "pair,1,65536", "pair,0,0", "pair,9,9", "pair,1,100", "pair,8,131", "pair,1,131", "pair,100,1", "pair,9,1")
    add(full[:31], "pair,8,130", "pair,500,600", "pair,500,600", "pair,600,500", "map,exact,equal")
    # (u, l) and (l, u) are two pairs; pairs of numbers that do not stand are held
    add(V, "pair,1,2", "pair,1,2", "pair,2,1", "pair,2,1", "map,exact,equal")
    add("pair,2,1", V, "map,exact,equal", "map,linear,equal", "strike,1", "map,exact,equal", V[0], "map,exact,equal")
    add(V, "pair,2,1", MAPS, "pair,7,1", MAPS, "pair,2,7", MAPS, "row,7,1,24,24,0", MAPS)
    add(V, "pair,1,2", *MAPS)
    # a chain, a ring, and a row that is to stand above all others
    six = ["row,%d,2,60,%d,0" % (k, 20 + 5 * k) for k in range(1, 7)]
    add(six, ["pair,%d,%d" % (k + 1, k) for k in range(1, 6)], *MAPS)
    add(six, ["pair,%d,%d" % (k + 1, k) for k in range(1, 6)], "pair,1,6", *MAPS)
    add(six, ["pair,6,%d" % k for k in range(1, 6)], *MAPS)
    add(six, ["pair,%d,6" % k for k in range(1, 6)], *MAPS)
    add(six, "pair,3,4", "pair,4,5", MAPS, "pair,5,3", MAPS, "strike,4", MAPS)
    # a pair keeps two rows of one period out of one task
    add("row,1,1,10,10,0", "row,2,1,10,10,0", "pair,1,2", MAPS, "pair,2,1", MAPS)


# ---- sheet order, settings, sessions


def sheets():
    # among equal deadlines the earlier entered first, and last after a strike
    three = ["row,%d,1,10,10,0" % k for k in (3, 1, 2)]
    add(three, *MAPS)
    add(three, "strike,3", "map,exact,equal", "row,3,1,10,10,0", "map,exact,equal", "strike,1", "row,1,1,10,10,0", "map,exact,equal")
    add(three, "strike,3", "row,3,1,20,10,0", "map,exact,equal", "map,exact,divided")
    add("row,1,1,4,4,0", "row,2,1,8,4,0", "row,3,1,4,3,0", "row,4,1,8,4,0", MAPS, "strike,1", "row,1,1,4,4,0", MAPS)
    add("row,9,1,7,5,0", "row,8,1,7,6,0", "row,7,1,7,5,0", "row,6,1,7,6,0", MAPS)
    # the same rows in every order of entry
    rng = random.Random(5)
    rows = ["row,1,1,10,5,1", "row,2,1,20,5,0", "row,3,2,10,10,0", "row,4,1,20,10,1", "row,5,2,40,10,2"]
    for _ in range(6):
        rng.shuffle(rows)
        add(list(rows), "map,exact,equal", "map,sections,divided")
    # strikes of what does not stand, and twice
    add("strike,1", V, "strike,1", "strike,1", "strike,3", "map,exact,equal", "strike,2", "map,exact,equal", "strike,2")
    # refused lines and mappings leave the rows
    add(V, "map,exact,equal", "row,1,1,1,1,0", "strike,7", "row,3,0,1,1,0", "map,exact,equal", "charge,1", "map,exact,equal", "charge,0",
        "map,exact,equal")
    # a row that cannot be on time, and without it
    add(V, "row,3,6,5,5,0", "map,exact,equal", "strike,3", "map,exact,equal", "row,3,1,5,5,0", "map,exact,equal")
    add("row,1,6,5,5,0", MAPS, "strike,1", MAPS)
    add("row,1,5,5,5,0", MAPS)
    # no rows, with settings and pairs
    add(MAPS)
    add("charge,10000", "margin,99", "pair,1,2", MAPS)


def settings():
    # refused lines leave the setting
    add(V, "charge,1", "map,exact,equal", "charge,10001", "map,exact,equal", "charge,x", "charge", "map,exact,equal", "charge,0",
        "map,exact,equal", "charge,10001", "map,exact,equal")
    add(V, "margin,26", "map,exact,equal", "margin,100", "map,exact,equal", "margin,", "map,exact,equal", "margin,25", "map,exact,equal",
        "margin,100", "map,exact,equal", "margin,0", "map,exact,equal")
    # a margin that is just kept, and one more
    for cost, deadline, percent in ((3, 4, 25), (1, 100, 99), (50, 100, 50), (2, 3, 33), (667, 1000, 33), (999999, 1000000, 0)):
        for p in (percent, percent + 1):
            add("row,1,%d,%d,%d,0" % (cost, deadline, deadline), "margin,%d" % p, *MAPS)
    # charge raises the cost of each row, and no section
    add("row,1,2,10,5,0", "row,2,4,20,20,3", "map,sections,equal", "charge,1", "map,sections,equal", "charge,2", "map,sections,equal",
        "map,exact,equal", "map,linear,equal")
    add("row,1,1,10,3,1", "row,2,1,20,20,1", "charge,1", MAPS, "charge,2", MAPS)
    add("row,1,1,100,100,0", "row,2,1,50,50,0", "charge,24", MAPS, "charge,25", MAPS, "charge,32", MAPS, "charge,33", MAPS)
    # margin stands above charge: the charged response is held against it
    add("row,1,10,100,40,0", "margin,50", MAPS, "charge,10", MAPS, "charge,11", MAPS, "margin,47", MAPS)
    # all layers at once
    for s in (0, 1, 3):
        for p in (0, 20, 60):
            for pair in ([], ["pair,2,1"], ["pair,1,3", "pair,3,2"]):
                rows = ["row,1,2,20,12,1", "row,2,3,20,20,2", "row,3,2,40,30,2", "row,4,4,60,60,3"]
                add(rows, "charge,%d" % s, "margin,%d" % p, pair, *MAPS)


# ---- plans


def worked():
    add(S, "map,exact,equal", "strike,8")
    add(S, MAPS)
    add(V, MAPS)
    add("row,1,2,10,5,0", "row,2,4,20,20,3", MAPS)
    add("row,1,2,10,5,0", "row,2,4,20,20,4", MAPS)
    for p in (25, 26):
        add(V, "margin,%d" % p, MAPS)
    add(V, "pair,1,2", "pair,2,1", MAPS)
    add(V, "charge,1", MAPS)


def traps():
    # deadline order has a late row, and another order has none
    add(V, "map,linear,equal", "pair,2,1", "map,exact,equal")
    add("row,1,4,9,9,0", "row,2,2,10,10,0", "row,3,3,14,14,0", "map,linear,equal", "map,exact,equal")
    add("row,1,5,20,9,5", "row,2,2,20,10,0", "row,3,2,40,12,0", MAPS)
    add("row,1,1,20,5,1", "row,2,1,20,6,0", "row,3,5,20,12,5", "pair,2,1", "pair,3,1", MAPS)
    # windows that are whole multiples of a period: w / T rounded up, not down plus 1
    add("row,1,1,2,2,0", "row,2,1,4,4,0", "row,3,2,8,8,0", MAPS)
    add("row,1,5,10,10,0", "row,2,5,20,20,0", "row,3,10,40,40,0", MAPS)
    add("row,1,2,5,5,0", "row,2,3,5,5,0", MAPS)
    add("row,1,1,1,1,0", "row,2,1,1000000,1000000,0", MAPS)
    # several solutions of the equation: the least is the response
    add("row,1,1,2,2,0", "row,2,1,4,4,0", MAPS)
    add("row,1,1,3,3,0", "row,2,1,12,12,0", "row,3,1,12,12,0", MAPS)
    add("row,1,1,10,10,0", "row,2,2,11,11,0", "row,3,5,100,100,0", MAPS)
    # a candidate is tried with all task mates above
    add("row,1,2,10,3,0", "row,2,2,10,10,0", MAPS)
    add("row,1,2,10,4,0", "row,2,2,10,10,0", MAPS)
    add("row,1,2,10,5,0", "row,2,2,10,5,0", "row,3,2,10,6,0", "row,4,2,10,10,0", MAPS)
    add("row,1,1,10,3,0", "row,2,1,10,3,0", "row,3,1,10,3,0", MAPS)
    add("row,1,1,10,3,0", "row,2,1,10,3,0", "row,3,1,10,3,0", "row,4,1,10,10,0", MAPS)
    add("row,1,1,10,3,1", "row,2,1,10,3,1", "row,3,1,10,10,1", "row,4,2,10,10,2", MAPS)
    # a row's own section does not block it
    add("row,1,5,10,5,5", MAPS)
    add("row,1,2,10,4,2", "row,2,5,20,20,5", MAPS)
    add("row,1,2,10,4,2", "row,2,5,20,20,2", MAPS)
    # the largest section below blocks, not the sum, and not one above
    add("row,1,2,30,5,2", "row,2,4,30,14,3", "row,3,4,30,30,2", "row,4,4,60,60,1", MAPS)
    add("row,1,3,30,8,0", "row,2,5,30,14,5", "row,3,5,60,30,4", "row,4,9,90,60,3", MAPS)
    # rule divided: the divisor is a candidate's, and each candidate that is its multiple goes
    add("row,1,1,4,4,0", "row,2,1,6,6,0", "row,3,1,8,8,0", "row,4,1,12,12,0", MAPS)
    add("row,1,1,40,20,0", "row,2,1,60,20,0", "row,3,1,80,20,0", "row,4,1,50,20,0", "row,5,1,120,30,0", MAPS)
    add("row,1,1,10,3,0", "row,2,1,20,20,0", "row,3,1,30,25,0", "row,4,1,40,40,0", MAPS)  # period 10 is late at first
    add("row,1,1,90,20,0", "row,2,1,20,20,0", "row,3,1,30,20,0", "row,4,1,60,20,0", "row,5,1,10,10,0", MAPS)
    add("row,1,1,60,30,0", "row,2,1,20,20,0", "row,3,1,30,25,0", MAPS)
    add("row,1,1,7,7,0", "row,2,1,14,14,0", "row,3,1,21,21,0", "row,4,1,49,49,0", "row,5,1,11,11,0", MAPS)
    add("row,1,1,12,12,0", "row,2,1,1,1,0", MAPS)
    add("row,1,1,100,100,0", "row,2,1,50,50,0", "row,3,1,200,40,0", "row,4,1,25,25,0", "row,5,1,75,30,0", MAPS)
    # the lead is the last candidate, which need not be the last row
    add("row,1,1,8,4,0", "row,2,1,8,5,0", "row,3,6,16,16,0", "row,4,1,16,16,0", "pair,4,1", MAPS)
    add("row,1,1,10,8,0", "row,2,1,15,9,0", "row,3,1,20,10,0", "pair,3,1", MAPS)


def small_tables(rng, count):
    periods = [2, 3, 4, 5, 6, 8, 9, 10, 12, 15, 16, 18, 20, 24, 25, 30, 36, 40, 48, 50, 60]
    for k in range(count):
        chosen = rng.sample(periods, rng.randint(1, 4))
        rows = []
        for number in rng.sample(range(1, 30), rng.randint(1, 8)):
            period = rng.choice(chosen)
            deadline = period if rng.random() < 0.5 else rng.randint((period + 1) // 2, period)
            cost = max(1, round(rng.random() * period / 4))
            section = rng.choice([0, 0, 1, cost, rng.randint(0, cost)])
            rows.append((number, cost, period, deadline, min(section, cost)))
        numbers = [row[0] for row in rows]
        lines = rows_of(rows)
        if k % 2:
            lines.append("charge,%d" % rng.choice([0, 1, 1, 2]))
        if k % 3:
            lines.append("margin,%d" % rng.choice([0, 5, 10, 20, 25, 33, 50]))
        if k % 4 and len(numbers) > 1:
            for _ in range(rng.randint(1, 4)):
                lines.append("pair,%d,%d" % tuple(rng.sample(numbers, 2)))
        lines += MAPS
        if k % 5 == 0:
            gone = rng.choice(rows)
            lines += ["strike,%d" % gone[0], *rng.sample(MAPS, 2), *rows_of([gone]), *rng.sample(MAPS, 2)]
        add(lines)


def free_scripts(rng, count):
    """Lines of all kinds in any order, many of them refused."""
    for _ in range(count):
        lines = []
        for _ in range(rng.randint(5, 25)):
            kind = rng.choice(["row"] * 6 + ["strike", "strike", "pair", "charge", "margin", "map", "map"])
            if kind == "row":
                period = rng.choice([5, 6, 10, 12, 20, 30])
                line = "row,%d,%d,%d,%d,%d" % (rng.randint(0, 9), rng.randint(0, 3), period, rng.randint(3, period + 1), rng.randint(0, 2))
            elif kind == "strike":
                line = "strike,%d" % rng.randint(0, 9)
            elif kind == "pair":
                line = "pair,%d,%d" % (rng.randint(0, 9), rng.randint(0, 9))
            elif kind == "charge":
                line = "charge,%d" % rng.choice([0, 0, 1, 10001])
            elif kind == "margin":
                line = "margin,%d" % rng.choice([0, 10, 30, 100])
            else:
                line = rng.choice(MAPS)
            lines.append(line)
        add(lines, rng.choice(MAPS), end=rng.choice(["\n", ""]))


def spoilt_scripts(rng, count):
    """Good scripts with some bytes changed, left out or put in."""
    good = ("\n".join(S + V + ["pair,2,1", "charge,1", "margin,10", "strike,1", "row,1,2,9,9,1"] + MAPS) + "\n").encode()
    strange = b",,,\n\n\r 0011239rowmapstrikepairchargemarginexactlinearsectionsequaldivided\x00\xff\xc3"
    for _ in range(count):
        script = bytearray(good)
        for _ in range(rng.randint(1, 12)):
            at = rng.randrange(len(script))
            what = rng.randrange(3)
            if what == 0:
                script[at] = rng.choice(strange)
            elif what == 1:
                del script[at]
            else:
                script.insert(at, rng.choice(strange))
        raw(bytes(script))


MILLISECONDS = [1, 2, 5, 10, 20, 50, 100, 200, 1000]
SHARES = [3, 2, 4, 25, 25, 6, 20, 5, 10]


def realistic(rng, count, ticks, load, tight):
    """Rows of an engine controller: `ticks` to a millisecond, a load in percent."""
    periods = [ticks * p for p in rng.choices(MILLISECONDS, SHARES, k=count)]
    weights = [rng.expovariate(1) + 0.05 for _ in periods]
    scale = load / 100 / sum(weights)
    rows = []
    for number, (period, weight) in enumerate(zip(periods, weights), start=1):
        cost = max(1, int(period * weight * scale))
        deadline = period if rng.random() > tight else max(cost, period * rng.randint(60, 99) // 100)
        section = min(cost, rng.choice([0, 0, 0, ticks // 50, ticks // 20, ticks // 10]))
        rows.append((number * 7 % 65521, cost, period, deadline, section))
    return rows_of(rows)


def realistic_tables(rng):
    for count, ticks, load, tight in (
        (20, 1000, 60, 0.2), (20, 100, 95, 0.0), (24, 1000, 80, 0.3), (30, 100, 70, 0.5), (32, 1000, 90, 0.1), (40, 1000, 75, 0.4),
        (48, 100, 85, 0.2), (56, 1000, 95, 0.0), (64, 1000, 65, 0.6), (80, 1000, 80, 0.2), (96, 100, 70, 0.3), (100, 1000, 90, 0.1),
        (112, 1000, 60, 0.5), (128, 1000, 75, 0.2), (128, 100, 60, 0.1), (128, 1000, 92, 0.0),
    ):
        rows = realistic(rng, count, ticks, load, tight)
        lines = rows + MAPS
        lines += ["charge,%d" % (ticks // 500), "margin,5"]
        lines += ["pair,%d,%d" % tuple(7 * k for k in rng.sample(range(1, count + 1), 2)) for _ in range(3)]
        lines += ["map,exact,divided", "map,sections,equal", "strike,7", "map,linear,divided"]
        add(lines)


# ---- long scripts


def long_scripts():
    # exactly 65,536 bytes, the last line without its byte 10; with it, there is one byte too many
    start = S + ["charge,10001"] + ["charge,0", "margin,0"] * 3500 + ["row,4,1,6,6,0"]
    end = ["strike,3", "map,exact,equal"]
    padding = "x" * (65536 - len("\n".join(start + [""] + end)))
    whole = "\n".join(start + [padding] + end).encode()
    assert len(whole) == 65536
    raw(whole)
    raw(whole + b"\n")
    # fields of many digits, and many lines
    add("row," + "9" * 20000 + ",1,1,1,0", "charge," + "0" * 3000, "x" * 5000, "map,exact,equal")
    add([""] * 10000, V, "map,exact,equal", "strike,3")


def main():
    reading()
    number_fields()
    ranges()
    orders_of_codes()
    full_sheet()
    pairs()
    sheets()
    settings()
    worked()
    traps()
    small_tables(random.Random(11), 90)
    free_scripts(random.Random(12), 60)
    spoilt_scripts(random.Random(13), 60)
    realistic_tables(random.Random(14))
    long_scripts()
    sys.stdout.buffer.write(b"\x1e".join(SCRIPTS))


if __name__ == "__main__":
    main()
