#!/usr/bin/env python3
"""What `mapper` has to write for a script, worked out a second time and by
other means.

    reference.py < script > answers
    reference.py --many < scripts > answers

The first form answers one script. With --many the input is split at every
byte 0x1E and each part is one script; the answers to each script are followed
by a line `--`. With --every the response-time equation is solved by trying
every w, however long that takes; without it, only for short deadlines.

The program follows docs/RULES.md, docs/FORMAT.md and docs/CODES.md word by
word. It is meant to be compared with those pages by eye, not to be fast.
"""

import sys
from collections import namedtuple

# ---- limits

LONGEST_SCRIPT = 65_536
MOST_ROWS = 128
MOST_PAIRS = 32
LARGEST_NUMBER = 65_535
LARGEST_COST = 1_000_000
LARGEST_CHARGED_COST = 1_000_001
LARGEST_PERIOD = 1_000_000
LARGEST_CHARGE = 10_000
LARGEST_MARGIN = 99

# ---- questions

Row = namedtuple("Row", "number cost period deadline section")

# A question is a table (a list of rows), a mark for each row, and the place of
# the asked row, counted from 0. A verdict is a response, or LATE.
ABOVE, BELOW, LATE = "above", "below", None


def others(table, marks, place, mark):
    """The rows with this mark, other than the asked one."""
    return [row for k, row in enumerate(table) if k != place and marks[k] == mark]


def activations(window, period):
    """window / period, rounded up."""
    return (window + period - 1) // period


# ---- the response-time equation

# Deadlines up to this are always searched by trying every w.
SHORT_DEADLINE = 60
TRY_EVERY_W = False


def least_by_every_w(right_side, deadline):
    """The least w from 1 to the deadline with w = right_side(w), or LATE."""
    for w in range(1, deadline + 1):
        if w == right_side(w):
            return w
    return LATE


def least_by_jumps(right_side, deadline):
    """The same for a right side that never falls as w grows.

    If right_side(w) is v and v > w, then none of w, w + 1, ..., v - 1 is a
    solution: the right side is at least v at each of them. So v is next.
    """
    w = 1
    while w <= deadline:
        v = right_side(w)
        if v == w:
            return w
        w = v if v > w else w + 1
    return LATE


def least(right_side, deadline):
    if TRY_EVERY_W or deadline <= SHORT_DEADLINE:
        return least_by_every_w(right_side, deadline)
    return least_by_jumps(right_side, deadline)


def response(table, marks, place, blocking):
    asked = table[place]
    above = [(row.period, row.cost) for row in others(table, marks, place, ABOVE)]

    def right_side(w):
        return blocking + asked.cost + sum(activations(w, t) * c for t, c in above)

    return least(right_side, asked.deadline)


# ---- three analyses


def exact(table, marks, place):
    return response(table, marks, place, 0)


def linear(table, marks, place):
    asked = table[place]
    above = others(table, marks, place, ABOVE)
    total = asked.cost + sum(activations(asked.deadline, row.period) * row.cost for row in above)
    return total if total <= asked.deadline else LATE


def sections(table, marks, place):
    blocking = max((row.section for row in others(table, marks, place, BELOW)), default=0)
    return response(table, marks, place, blocking)


ANALYSES = {b"exact": exact, b"linear": linear, b"sections": sections}

# ---- three layers: each takes its setting and the analysis below it, and is again an analysis


def charge(ticks, below):
    def verdict(table, marks, place):
        charged = [row._replace(cost=min(row.cost + ticks, LARGEST_CHARGED_COST)) for row in table]
        return below(charged, marks, place)

    return verdict


def margin(percent, below):
    def verdict(table, marks, place):
        r = below(table, marks, place)
        if r is not LATE and r * 100 <= table[place].deadline * (100 - percent):
            return r
        return LATE

    return verdict


def pairs(held, below):
    def verdict(table, marks, place):
        numbers_above = [row.number for row in others(table, marks, place, ABOVE)]
        for u, l in held:
            if u == table[place].number and l in numbers_above:
                return LATE
        return below(table, marks, place)

    return verdict


# ---- mapping

PlanLine = namedtuple("PlanLine", "task place number response")


def taken_equal(periods, lead):
    """Which candidates the task takes; `periods` has each candidate's period."""
    return [k for k in periods if periods[k] == periods[lead]]


def taken_divided(periods, lead):
    t = min(p for p in periods.values() if periods[lead] % p == 0)
    return [k for k in periods if periods[k] % t == 0]


RULES = {b"equal": taken_equal, b"divided": taken_divided}


def mapping(table, verdict, taken):
    """The plan's lines, or None where the rows are unschedulable.

    The table is in sheet order; rows are named by their place in it.
    """
    unplaced = list(range(len(table)))
    lines = []
    task = 0
    while unplaced:
        marks = [ABOVE if k in unplaced else BELOW for k in range(len(table))]
        verdicts = {k: verdict(table, marks, k) for k in unplaced}
        candidates = [k for k in unplaced if verdicts[k] is not LATE]
        if not candidates:
            return None
        lead = candidates[-1]
        members = taken({k: table[k].period for k in candidates}, lead)
        task += 1
        for place, k in enumerate(members, start=1):
            lines.append(PlanLine(task, place, table[k].number, verdicts[k]))
        unplaced = [k for k in unplaced if k not in members]
    return lines


# ---- refusals


class Refused(Exception):
    """Raised with a code and a field."""


def within(low, value, high, field):
    if not low <= value <= high:
        raise Refused(3, field)


# ---- lines and fields

def lines_of(script):
    """Byte 10 ends a line. The last line may lack it."""
    parts = script.split(b"\n")
    if parts[-1] == b"":  # nothing after the final byte 10, or an empty script
        parts.pop()
    return parts


def number(field):
    """The value of a number field, or None."""
    digits = all(byte in b"0123456789" for byte in field)
    leading_zero = field.startswith(b"0") and field != b"0"
    if digits and not leading_zero and 1 <= len(field) <= 7:
        return int(field)
    return None


def numbers(fields, count):
    """That many number fields, and no more."""
    if len(fields) != count:
        raise Refused(1, 0)
    values = [number(field) for field in fields]
    for place, value in enumerate(values, start=1):
        if value is None:
            raise Refused(2, place)
    return values


# ---- a session


class Session:
    """Takes the lines of one script in turn."""

    def __init__(self):
        self.entered = []  # the standing rows, in the order of their entry
        self.held = []  # the pairs
        self.charge = 0
        self.margin = 0
        self.kinds = {b"row": self.row, b"strike": self.strike, b"pair": self.pair}
        self.kinds |= {b"charge": self.set_charge, b"margin": self.set_margin, b"map": self.map}

    def table(self):
        """The standing rows in sheet order. `sorted` keeps equal keys in order."""
        return sorted(self.entered, key=lambda row: row.deadline)

    def standing(self):
        return [row.number for row in self.entered]

    def answer(self, count, line):
        """The text that the line with this count gets."""
        word, *fields = line.split(b",")
        try:
            if word not in self.kinds:
                raise Refused(1, 0)
            plan = self.kinds[word](fields)
        except Refused as fault:
            code, field = fault.args
            return b"refused,%d,%d,%d\n" % (count, field, code)
        if plan is None:
            return b""
        header = b"plan,%d,%d,%d\n" % (count, len({p.task for p in plan}), len(plan))
        return header + b"".join(b"%d,%d,%d,%d\n" % p for p in plan)

    # Each kind of line changes the session, or gives a plan, or is refused.

    def row(self, fields):
        row = Row(*numbers(fields, 5))
        within(1, row.number, LARGEST_NUMBER, 1)
        within(1, row.cost, LARGEST_COST, 2)
        within(1, row.period, LARGEST_PERIOD, 3)
        within(1, row.deadline, row.period, 4)
        within(0, row.section, row.cost, 5)
        if row.number in self.standing():
            raise Refused(4, 1)
        if len(self.entered) == MOST_ROWS:
            raise Refused(5, 0)
        self.entered.append(row)

    def strike(self, fields):
        (struck,) = numbers(fields, 1)
        within(1, struck, LARGEST_NUMBER, 1)
        if struck not in self.standing():
            raise Refused(6, 1)
        self.entered = [row for row in self.entered if row.number != struck]

    def pair(self, fields):
        u, l = numbers(fields, 2)
        within(1, u, LARGEST_NUMBER, 1)
        within(1, l, LARGEST_NUMBER, 2)
        if u == l:
            raise Refused(8, 0)
        if (u, l) in self.held:
            raise Refused(9, 0)
        if len(self.held) == MOST_PAIRS:
            raise Refused(10, 0)
        self.held.append((u, l))

    def set_charge(self, fields):
        (ticks,) = numbers(fields, 1)
        within(0, ticks, LARGEST_CHARGE, 1)
        self.charge = ticks

    def set_margin(self, fields):
        (percent,) = numbers(fields, 1)
        within(0, percent, LARGEST_MARGIN, 1)
        self.margin = percent

    def map(self, fields):
        if len(fields) != 2 or fields[0] not in ANALYSES or fields[1] not in RULES:
            raise Refused(1, 0)
        below = ANALYSES[fields[0]]
        pile = pairs(self.held, margin(self.margin, charge(self.charge, below)))
        plan = mapping(self.table(), pile, RULES[fields[1]])
        if plan is None:
            raise Refused(12, 0)
        return plan


def answers(script):
    """All that `mapper` writes for a script."""
    if len(script) > LONGEST_SCRIPT:
        return b"refused,0,0,13\n"
    session = Session()
    return b"".join(session.answer(k, line) for k, line in enumerate(lines_of(script), start=1))


# ---- the program


def main(options):
    global TRY_EVERY_W
    if not set(options) <= {"--many", "--every"}:
        sys.exit("usage: reference.py [--many] [--every] < input > output")
    TRY_EVERY_W = "--every" in options
    given = sys.stdin.buffer.read()
    out = sys.stdout.buffer
    if "--many" in options:
        for script in given.split(b"\x1e"):
            out.write(answers(script) + b"--\n")
    else:
        out.write(answers(given))


if __name__ == "__main__":
    main(sys.argv[1:])
