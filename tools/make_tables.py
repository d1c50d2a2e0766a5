#!/usr/bin/env python3
"""Writes the tables that the crate `tables` is tried with.

    tools/make_tables.py > crates/tables/stdin
    tools/reference/build
    target/tools/reference tables < crates/tables/stdin > crates/tables/stdout

The format is described in tools/reference/tables.rs. The output is the same
at every run.
"""

import random
import sys

RANDOM = random.Random(20)
RECORDS = []

ANALYSES = ("exact", "linear", "sections")
RULES = ("equal", "divided")
GREATEST = 4294967295


def record(*fields):
    RECORDS.append(",".join(str(field) for field in fields))


def chance(percent):
    return RANDOM.randrange(100) < percent


# ---- a small model, used only to choose tables
#
# A row is (number, cost, period, deadline, section). A layer is a kind and its
# setting; layers are listed from the bottom of the pile upwards. The variants
# of the model are mistakes that the tables must bring to light.


def sheet_order(rows):
    return sorted(rows, key=lambda row: row[3])


def releases(w, period, variant):
    if variant == "one more":
        return w // period + 1
    return -(-w // period)


def interference(above, w, variant):
    return sum(releases(w, period, variant) * cost for _, cost, period, _, _ in above)


def solution(own, above, deadline, variant):
    windows = range(1, deadline + 1)
    if variant == "greatest":
        windows = reversed(windows)
    for w in windows:
        if w == own + interference(above, w, variant):
            return w
    return None


def response(analysis, layers, row, above, below, variant=None):
    """The response of a row with these other rows above and below, or None."""
    if layers:
        kind, setting = layers[-1]
        under = layers[:-1]
        if kind == "charge":
            charged = lambda other: (other[0], min(other[1] + setting, 1000001)) + other[2:]
            return response(analysis, under, charged(row), list(map(charged, above)), list(map(charged, below)), variant)
        if kind == "margin":
            found = response(analysis, under, row, above, below, variant)
            return found if found is not None and found * 100 <= row[3] * (100 - setting) else None
        if any(u == row[0] and any(l == other[0] for other in above) for u, l in setting):
            return None
        return response(analysis, under, row, above, below, variant)
    _, cost, _, deadline, _ = row
    if analysis == "linear":
        found = cost + interference(above, deadline, variant)
        return found if found <= deadline else None
    blocking = max([other[4] for other in below], default=0) if analysis == "sections" else 0
    return solution(blocking + cost, above, deadline, variant)


def without(rows, row):
    return [other for other in rows if other is not row]


def mapping(analysis, layers, rows, rule, variant=None):
    """The tasks, each a list of (number, response), or None."""
    unplaced, placed, tasks = sheet_order(rows), [], []
    while unplaced:
        ask = lambda row, above, below: response(analysis, layers, row, without(above, row), without(below, row), variant)
        candidates = [(row, ask(row, unplaced, placed)) for row in unplaced]
        candidates = [(row, found) for row, found in candidates if found is not None]
        if not candidates:
            return None
        lead = candidates[-1][0]
        t = lead[2]
        if rule == "divided":
            t = min(row[2] for row, _ in candidates if lead[2] % row[2] == 0)
        fits = lambda row: row[2] == t if rule == "equal" else row[2] % t == 0
        if variant == "mates below":
            members = []
            for row in reversed(unplaced):
                if fits(row):
                    mates = [mate for mate, _ in members]
                    above = [other for other in unplaced if other not in mates]
                    found = ask(row, above, placed + mates)
                    if found is not None:
                        members.insert(0, (row, found))
        else:
            members = [(row, found) for row, found in candidates if fits(row)]
        tasks.append([(row[0], found) for row, found in members])
        taken = [row for row, _ in members]
        unplaced = [row for row in unplaced if row not in taken]
        placed += taken
    return tasks


def late_in_deadline_order(analysis, layers, rows):
    rows = sheet_order(rows)
    return any(
        response(analysis, layers, row, rows[:at], rows[at + 1 :]) is None for at, row in enumerate(rows)
    )


# ---- parts of tables


def parted(total, count):
    """Parts that sum up to the total."""
    cuts = sorted(RANDOM.random() for _ in range(count - 1))
    return [total * (b - a) for a, b in zip([0.0] + cuts, cuts + [1.0])]


def numbers(count):
    greatest = RANDOM.choice((count + 1, 9, 99, 65535))
    return RANDOM.sample(range(1, max(count, greatest) + 1), count)


SMALL_PERIODS = ((4, 8, 16, 12), (3, 5, 6, 10, 15), (2, 4, 6, 8, 12), (5, 10, 20), (7, 9, 11, 14, 21), (6,), tuple(range(2, 31)))


def small_rows(count, load):
    """Rows of small values with about this load in percent."""
    periods = RANDOM.choice(SMALL_PERIODS)
    rows = []
    for number, part in zip(numbers(count), parted(load / 100.0, count) if count else []):
        period = RANDOM.choice(periods)
        cost = max(1, round(part * period))
        deadline = period if chance(45) else RANDOM.randint(min(cost, period), period)
        section = RANDOM.randint(0, min(cost, 3)) if chance(60) else 0
        rows.append((number, cost, period, deadline, section))
    return rows


def pairs_among(rows, count):
    names = [row[0] for row in rows] + [RANDOM.randint(1, 65535)]
    found = []
    for _ in range(count):
        u, l = RANDOM.choice(names), RANDOM.choice(names)
        if u != l and (u, l) not in found:
            found.append((u, l))
    return found


def layer(rows):
    kind = RANDOM.choice(("charge", "margin", "pairs"))
    if kind == "charge":
        return kind, 10000 if chance(2) else RANDOM.choice((0, 1, 1, 2))
    if kind == "margin":
        return kind, RANDOM.choice((0, 1, 5, 10, 10, 20, 25, 26, 33, 50, 99))
    return kind, pairs_among(rows, RANDOM.choice((0, 1, 1, 2, 3, 5)))


def layers_over(rows):
    return [layer(rows) for _ in range(RANDOM.choice((0, 0, 0, 1, 1, 2, 3)))]


def write_layers(layers):
    for kind, setting in layers:
        if kind == "pairs":
            record(kind, *[number for pair in setting for number in pair])
        else:
            record(kind, setting)


def write_rows(rows):
    for row in rows:
        record("row", *row)


def write_table(analysis, layers, rows):
    record("table", analysis)
    if chance(30):
        write_layers(layers)
        write_rows(rows)
    else:
        write_rows(rows)
        write_layers(layers)


def marks(count):
    bias = RANDOM.choice((50, 80, 95))
    return "".join("a" if chance(bias) else "b" for _ in range(count))


def ask(count):
    record("ask", marks(count), RANDOM.randrange(count))


ACTIVATIONS = (0, 1, 2, 3, 4, 5, 6, 7, 8, 10, 12, 999999, 1000000, 1000001)


def task_question(task):
    kind = RANDOM.choice(("run", "totals", "load", "load", "load", "cycle"))
    if kind == "load":
        record(kind, task, RANDOM.choice(ACTIVATIONS))
    else:
        record(kind, task)


def task_questions(count, tasks):
    """Questions about tasks from 1 to this number, and now and then about others."""
    for _ in range(count):
        task_question(RANDOM.randint(1, tasks) if chance(90) else RANDOM.choice((0, tasks + 1, GREATEST)))


# ---- small tables


def small():
    for at in range(2000):
        count = RANDOM.choice((1, 2, 2, 3, 3, 3, 4, 4, 4, 5, 5, 6, 6)) if at % 50 else 0
        rows = small_rows(count, RANDOM.randint(50, 105))
        analysis, layers = ANALYSES[at % 3], layers_over(rows)
        write_table(analysis, layers, rows)
        for rule in RANDOM.sample(RULES, RANDOM.randint(1, 2)):
            record("map", rule)
            plan = mapping(analysis, layers, rows, rule)
            if plan:
                task_questions(RANDOM.randint(1, 4), len(plan))
            elif chance(20):
                task_questions(1, 1)
        for _ in range(RANDOM.randint(1, 3) if count else 0):
            ask(count)
        if count and chance(15):
            changed(rows)


def changed(rows):
    """Strikes and entries between mappings; the plan lines are asked about after a strike too."""
    struck = RANDOM.sample(rows, RANDOM.randint(1, len(rows)))
    for row in struck:
        record("strike", row[0])
    if chance(40):
        record("strike", RANDOM.choice((0, 65536, GREATEST, struck[0][0], 65535)))
    task_questions(2, 1)
    record("map", RANDOM.choice(RULES))
    for row in struck[: RANDOM.randint(0, len(struck))]:
        record("row", *row)
    record("map", RANDOM.choice(RULES))
    task_questions(2, 1)


def unsorted():
    """Questions over lists that are no sheet: in any order, with repeated numbers and the cost 1000001."""
    for at in range(150):
        rows = small_rows(RANDOM.randint(2, 6), RANDOM.randint(50, 100))
        rows += [RANDOM.choice(rows) for _ in range(RANDOM.randint(0, 3))]
        RANDOM.shuffle(rows)
        if chance(25):
            number, _, period, deadline, section = RANDOM.choice(rows)
            rows.insert(RANDOM.randint(0, len(rows)), (number, 1000001, period, deadline, section))
        write_table(ANALYSES[at % 3], layers_over(rows), rows)
        for _ in range(4):
            ask(len(rows))
        record("map", RANDOM.choice(RULES))
        ask(len(rows))


def own_marks():
    """The asked row's mark has no effect, nor the sections of the rows above."""
    for at in range(30):
        rows = small_rows(3, RANDOM.randint(50, 100))
        write_table(ANALYSES[at % 3], layers_over(rows), rows)
        for place in range(3):
            for word in ("aaa", "aab", "aba", "abb", "baa", "bab", "bba", "bbb"):
                if chance(40):
                    record("ask", word, place)


def edges_of_deadlines():
    """Rows whose cost is the deadline, or one more or less, alone and under others."""
    for analysis in ANALYSES:
        for cost in (4, 5, 6):
            for above in ([], [(2, 1, 5, 5, 0)], [(2, 1, 3, 3, 1)]):
                rows = [(1, cost, 9, 5, 1)] + above
                record("table", analysis)
                write_rows(rows)
                record("ask", "b" + "a" * len(above), 0)
                record("ask", "a" + "b" * len(above), 0)
                for rule in RULES:
                    record("map", rule)


# ---- questions that are refused


def refused_questions():
    good = (1, 2, 10, 10, 1)
    # code 7: marks, place and both, with rows in range and not
    for rows in ([], [good], [good, (2, 3, 9, 9, 0)], [(0, 0, 0, 0, 1)], [good, (2, 0, 9, 9, 0)]):
        for analysis, layers in (("exact", []), ("linear", [("charge", 1)]), ("sections", [("pairs", [(1, 2)]), ("margin", 10)])):
            record("table", analysis)
            write_rows(rows)
            write_layers(layers)
            for count in range(4):
                for place in (0, 1, 2, 3, 128, GREATEST):
                    if chance(60) or count == len(rows):
                        record("ask", "ab"[count % 2] * count, place)
            record("map", "equal")
    # code 7: 127 to 130 rows
    for count in (127, 128, 129, 130):
        for analysis in ANALYSES:
            record("table", analysis)
            for at in range(count):
                record("row", at + 1, 1, 200, 200, 0)
            for wrong in (0, 1, -1):
                for place in (0, 63, 127, count - 1, count):
                    if wrong == 0 or place == 0:
                        record("ask", "a" * (count + wrong), place)
            record("map", RANDOM.choice(RULES))
            task_questions(3, 1)
    # code 7 before code 3 in a list of 129 rows
    record("table", "exact")
    for at in range(129):
        record("row", at % 3, 0, 9, 10, 1)
    record("ask", "a" * 129, 5)
    # code 3: each field below and above its range
    wrong = {
        1: (0, 65536, GREATEST),
        2: (0, 1000002, GREATEST),
        3: (0, 1000001, GREATEST),
        4: (0, 11, GREATEST),
        5: (3, GREATEST),
    }
    for field, values in wrong.items():
        for value in values:
            row = list(good)
            row[field - 1] = value
            for rows in ([row], [good, row], [row, good], [good, row, (0, 0, 0, 0, 0)]):
                record("table", RANDOM.choice(ANALYSES))
                write_rows(rows)
                write_layers([layer([good])] if chance(30) else [])
                for _ in range(2):
                    ask(len(rows))
                record("ask", "a", len(rows))
                record("map", "equal")
    # code 3: several wrong fields, several wrong rows
    for _ in range(40):
        rows = []
        for _ in range(RANDOM.randint(1, 4)):
            row = list(good)
            for field in RANDOM.sample((1, 2, 3, 4, 5), RANDOM.choice((0, 0, 1, 2, 3))):
                row[field - 1] = RANDOM.choice(wrong[field])
            rows.append(row)
        record("table", RANDOM.choice(ANALYSES))
        write_rows(rows)
        write_layers(layers_over([good]))
        for _ in range(2):
            ask(len(rows))
    # the ends of the ranges are in range
    for analysis in ANALYSES:
        record("table", analysis)
        rows = [
            (1, 1, 1, 1, 0), (65535, 1000000, 1000000, 1000000, 1000000), (1, 1000001, 1000000, 1, 1000001),
            (65535, 1000001, 1000000, 1000000, 0), (2, 1, 1000000, 1000000, 1),
        ]
        write_rows(rows)
        for place in range(5):
            for word in ("bbbbb", "aaaaa", "abbbb", "babbb", "bbabb", "bbbba"):
                record("ask", word, place)
        for rule in RULES:
            record("map", rule)
        task_questions(6, 1)


def great_sums():
    """Interference far beyond 32 bits, and a charge that cannot raise a cost further."""
    for analysis in ANALYSES:
        for layers in ([], [("charge", 10000)]):
            record("table", analysis)
            record("row", 1, 1, 1000000, 1000000, 0)
            for at in range(127):
                record("row", at + 2, 1000001 - at % 3, 1, 1, 0)
            write_layers(layers)
            record("ask", "a" * 128, 0)
            record("ask", "b" * 128, 0)
            record("ask", "ab" + "a" * 126, 1)


# ---- asking about tasks


def write_lines(lines):
    for line in lines:
        record("line", *line)


def all_questions(task, activations):
    record("run", task)
    record("totals", task)
    record("cycle", task)
    for m in activations:
        record("load", task, m)


def hand_made():
    """Lists of plan lines that no mapping made."""
    for at in range(150):
        rows = small_rows(RANDOM.randint(1, 6), RANDOM.randint(40, 100))
        write_table(ANALYSES[at % 3], layers_over(rows), rows)
        names = [row[0] for row in rows]
        lines = []
        for _ in range(RANDOM.randint(0, 9)):
            task = lines[-1][0] if lines and chance(50) else RANDOM.randint(1, 3)
            number = RANDOM.choice(names) if chance(93) else RANDOM.choice((0, 65535, 65536, 77))
            lines.append((task, RANDOM.randint(0, 4), number, RANDOM.randint(0, 40)))
        write_lines(lines)
        task_questions(RANDOM.randint(2, 5), 3)
        if chance(30):
            record("strike", RANDOM.choice(names))
            task_questions(2, 3)
        if chance(30):
            # a mapping replaces the list, or leaves it where it is refused
            record("map", RANDOM.choice(RULES))
            task_questions(2, 3)
            write_lines([(RANDOM.randint(1, 3), 1, RANDOM.choice(names), 1)])
            task_questions(2, 3)


def runs():
    rows = [(1, 3, 4, 4, 0), (2, 5, 8, 7, 0), (3, 7, 12, 9, 0), (4, 11, 20, 20, 0), (5, 13, 20, 19, 0)]
    lists = (
        [],
        [(1, 1, 1, 9)],
        [(1, 1, 1, 9), (1, 2, 1, 9)],                                # one row twice
        [(1, 1, 1, 9), (1, 2, 2, 9), (1, 3, 1, 9), (2, 1, 3, 9)],
        [(2, 1, 2, 9), (1, 1, 1, 9), (2, 2, 3, 9)],                  # a run that is broken
        [(1, 1, 2, 9), (2, 1, 1, 9), (2, 2, 3, 9), (1, 2, 4, 9)],
        [(1, 1, 9, 9), (2, 1, 1, 9), (1, 2, 2, 9)],                  # a number that does not stand, in one task
        [(1, 1, 2, 9), (2, 1, 1, 9), (1, 2, 9, 9)],                  # and after the run
        [(2, 1, 2, 9), (2, 2, 9, 9)],
        [(3, 1, 4, 9), (3, 2, 5, 9), (3, 3, 2, 9), (3, 4, 1, 9)],    # not in sheet order
        [(1, 1, 3, 9), (1, 2, 4, 9)],                                # periods of which none divides the other
        [(1, 7, 0, 0), (0, 0, 1, 0)],
        [(1, 2, 3, 4), (1, 1, 65536, 4)],
        [(GREATEST, GREATEST, 1, GREATEST), (0, 0, GREATEST, 0), (7, 1, 2, GREATEST)],
    )
    for lines in lists:
        record("table", RANDOM.choice(ANALYSES))
        write_rows(rows)
        write_lines(lines)
        for task in (0, 1, 2, 3, 7, GREATEST):
            if any(task == line[0] for line in lines) or chance(30):
                all_questions(task, (0, 1, 2, 3, 5, 6, 15, 1000000, 1000001))
        record("strike", 1)
        for task in (1, 2, 3):
            all_questions(task, (1,))
    # an empty sheet
    record("table", "exact")
    write_lines([(1, 1, 1, 1)])
    all_questions(1, (0, 1000001))
    all_questions(2, (0, 1000001))


def long_lists():
    """127 to 130 lines; code 7 comes before all others."""
    for count in (127, 128, 129, 130):
        for task_of in (lambda at: 1, lambda at: 1 + at // 64, lambda at: 1 + at % 2):
            record("table", "linear")
            write_rows([(1, 1000000, 1000000, 1000000, 0), (2, 7, 10, 10, 0), (3, 1, 999999, 5, 0)])
            number_of = RANDOM.choice((lambda at: 1, lambda at: 1 + at % 3, lambda at: 1 + at % 4))
            write_lines([(task_of(at), at, number_of(at), at) for at in range(count)])
            for task in (1, 2, 3):
                record("totals", task)
                record("cycle", task)
                for m in (0, 1, 100000, 1000000, 1000001):
                    record("load", task, m)
            record("run", 4)
            record("run", 2)
    # a list that a mapping makes short again
    record("table", "exact")
    write_rows([(1, 1, 9, 9, 0)])
    write_lines([(1, at, 1, at) for at in range(130)])
    all_questions(1, (0,))
    record("map", "equal")
    all_questions(1, (0, 1))
    record("line", 1, 2, 1, 1)
    all_questions(1, (0, 1))


def great_products():
    """Activations times periods far beyond 32 bits."""
    for periods in ((1000000, 999999), (1000000, 500000), (999983, 1000000), (999983, 999979), (1, 1000000), (65536, 65535)):
        record("table", "linear")
        for at, period in enumerate(periods):
            record("row", at + 1, 1000000 - at, period, period, 0)
        write_lines([(1, 1, 1, 1), (1, 2, 2, 1), (1, 3, 1, 1)])
        all_questions(1, (0, 1, 2, 4294, 4295, 65535, 65536, 65537, 500000, 999983, 999999, 1000000, 1000001, GREATEST))


# ---- the worked values


def worked():
    s = [(1, 1000, 5000, 5000, 0), (2, 2000, 10000, 10000, 0), (3, 1000, 5000, 4000, 0)]
    v = [(1, 3, 6, 6, 0), (2, 3, 8, 8, 0)]
    for analysis in ANALYSES:
        for rows in (s, v, [], [(1, 5, 5, 5, 0)], [(1, 6, 5, 5, 0)]):
            record("table", analysis)
            write_rows(rows)
            for rule in RULES:
                record("map", rule)
                for task in (1, 2):
                    all_questions(task, (0, 1, 2))
        for pairs in ([(2, 1)], [(1, 2)], [(1, 2), (2, 1)]):
            record("table", analysis)
            write_rows(v)
            write_layers([("pairs", pairs)])
            for rule in RULES:
                record("map", rule)
        for setting in (0, 1):
            record("table", analysis)
            write_rows(v)
            write_layers([("charge", setting)])
            for rule in RULES:
                record("map", rule)
        for setting in (24, 25, 26):
            record("table", analysis)
            write_rows(v)
            write_layers([("margin", setting)])
            record("ask", "ab", 1)
            record("ask", "ba", 0)
    for section in (3, 4):
        record("table", "sections")
        write_rows([(1, 2, 10, 5, 0), (2, 4, 20, 20, section)])
        record("ask", "bb", 0)
        record("ask", "aa", 1)
        record("map", "equal")
    # two solutions; the least is the response
    record("table", "exact")
    write_rows([(1, 1, 2, 2, 0), (2, 1, 3, 3, 0)])
    record("ask", "aa", 1)
    # the order of layers: charge over and under margin and pairs, and each twice
    kinds = [("charge", 1), ("margin", 20), ("pairs", [(2, 1)]), ("charge", 2), ("margin", 10), ("pairs", [(1, 2)])]
    for a in kinds:
        for b in kinds:
            rows = [(1, 2, 9, 8, 1), (2, 3, 14, 14, 1)]
            record("table", RANDOM.choice(ANALYSES))
            write_rows(rows)
            write_layers([a, b])
            for rule in RULES:
                record("map", rule)
            record("ask", "ab", 1)
            record("ask", "ba", 0)
    # long lists of pairs
    for count in (31, 32):
        record("table", "exact")
        write_rows([(at, 1, 40, 40 - at, 0) for at in range(1, 9)])
        write_layers([("pairs", [(1 + at % 8, 2 + at % 8 + at // 8) for at in range(count)])])
        for rule in RULES:
            record("map", rule)
        record("ask", "aaaaaaaa", 0)
        record("ask", "abbbbbbb", 7)


# ---- traps


def shape(tasks):
    """A plan without its responses."""
    return tasks and [[number for number, _ in task] for task in tasks]


def trap(wanted, find):
    """Searches random tables until `find` accepts enough of them."""
    found = 0
    for _ in range(1000000):
        analysis = RANDOM.choice(ANALYSES)
        rows = small_rows(RANDOM.randint(2, 6), RANDOM.randint(50, 105))
        layers = layers_over(rows)
        if find(analysis, layers, rows):
            found += 1
            write_table(analysis, layers, rows)
            for rule in RULES:
                record("map", rule)
                plan = mapping(analysis, layers, rows, rule)
                task_questions(2 if plan else 0, len(plan or []))
            order = sheet_order(rows)
            for place, row in enumerate(rows):
                higher = order[: order.index(row)]
                record("ask", "".join("a" if other in higher else "b" for other in rows), place)
            if found == wanted:
                return
    sys.exit("a search found too few tables")


def differs(variant, by_shape):
    def find(analysis, layers, rows):
        for rule in RULES:
            right = mapping(analysis, layers, rows, rule)
            wrong = mapping(analysis, layers, rows, rule, variant)
            if (shape(right) != shape(wrong)) if by_shape else (right != wrong):
                return True
        return False

    return find


def traps():
    # a plan although deadline order has a late row: under pairs, linear, sections
    plan_exists = lambda analysis, layers, rows: mapping(analysis, layers, rows, "equal") is not None
    for wanted in ("exact", "linear", "sections"):
        trap(12, lambda analysis, layers, rows: analysis == wanted
             and late_in_deadline_order(analysis, layers, rows) and plan_exists(analysis, layers, rows))
    trap(12, lambda analysis, layers, rows: analysis != "exact" and not layers
         and late_in_deadline_order(analysis, layers, rows) and plan_exists(analysis, layers, rows))
    # releases counted one too many; the greatest solution; later mates marked below
    for variant in ("one more", "greatest", "mates below"):
        trap(12, differs(variant, False))
        trap(15, differs(variant, True))


# ---- tables as real programs have them


MILLISECONDS = (1, 2, 5, 10, 20, 50, 100, 200, 1000)
SHARES = (4, 3, 3, 25, 25, 4, 20, 2, 5)
FIFTEEN = (5, 10, 15, 20, 25, 30, 40, 45, 50, 60, 75, 80, 90, 100, 125)


def realistic_rows(count, periods, shares, load, least):
    """Rows of about this load in percent; a deadline is at least this percentage of its period."""
    rows = []
    for number, part in zip(numbers(count), parted(load / 100.0, count)):
        period = RANDOM.choices(periods, shares)[0]
        cost = max(1, int(part * period))
        rows.append([number, cost, period, period, 0])
    # rounding up the small costs adds load; take it from the greatest shares
    while sum(row[1] / row[2] for row in rows) > load / 100.0:
        row = max(rows, key=lambda row: row[1] / row[2])
        if row[1] == 1:
            break
        row[1] -= 1
    for row in rows:
        row[3] = RANDOM.randint(max(row[1], row[2] * least // 100), row[2])
        row[4] = RANDOM.randint(0, min(row[1], 6))
    return [tuple(row) for row in rows]


def pairs_in_order(rows, count):
    """Pairs whose first row has the shorter deadline."""
    found = []
    while len(found) < count:
        u, l = sheet_order(RANDOM.sample(rows, 2))
        if (u[0], l[0]) not in found:
            found.append((u[0], l[0]))
    return found


def realistic_layers(rows):
    return RANDOM.choice((
        [("charge", 1)], [("margin", 10)], [("pairs", pairs_in_order(rows, 6))], [("pairs", pairs_in_order(rows, 32))],
        [("pairs", pairs_among(rows, 4))], [("charge", 1), ("margin", 5)], [("margin", 3), ("margin", 6)],
        [("margin", 5), ("pairs", pairs_in_order(rows, 3)), ("charge", 1)],
    ))


def realistic_tables(rows, layered):
    """The same rows under all analyses."""
    for analysis in ANALYSES:
        write_table(analysis, realistic_layers(rows) if layered else [], rows)
        for rule in RULES:
            record("map", rule)
            for task in (1, 2, 3, 5):
                task_question(task)
            task_questions(2, 12)
        ask(len(rows))
        ask(len(rows))


def realistic():
    counts = [20, 32, 48, 64, 96, 128]
    for load in range(60, 100, 5):
        for least in (100, 80, RANDOM.choice((20, 40, 60))):
            count = RANDOM.choice(counts)
            rows = realistic_rows(count, [ms * 100 for ms in MILLISECONDS], SHARES, load, least)
            realistic_tables(rows, chance(30))
    for count in (20, 35, 50, 70, 100, 128):
        for load, least in ((90, 100), (90, 90), (80, 80)):
            scale = RANDOM.choice((40, 100, 200))
            rows = realistic_rows(count, [period * scale for period in FIFTEEN], [1] * 15, load, least)
            realistic_tables(rows, chance(25))


def main():
    worked()
    edges_of_deadlines()
    small()
    unsorted()
    own_marks()
    refused_questions()
    great_sums()
    runs()
    hand_made()
    long_lists()
    great_products()
    traps()
    realistic()
    sys.stdout.write("\n".join(RECORDS) + "\n")


if __name__ == "__main__":
    main()
