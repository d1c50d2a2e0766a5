#!/usr/bin/env python3
"""Checks of reference.py itself, on small tables where everything can be tried.

It prints nothing but a count for each check, and stops at the first failure.

  - tables worked out by hand
  - both searches of the response-time equation agree
  - the four laws hold for each analysis under random piles of layers
  - a mapping finds a plan exactly where some order of the rows has every row
    on time, tried over all orders, and the plan's order is such an order
"""

import itertools
import random

import reference as ref
from reference import ABOVE, BELOW, LATE, Row


def mapped(rows, word, rule="equal", before=""):
    """The answer of a script of rows, some lines before the mapping, and the mapping."""
    text = "".join("row,%d,%d,%d,%d,%d\n" % row for row in rows)
    return ref.answers((text + before + "map,%s,%s\n" % (word, rule)).encode()).decode().split("\n")[:-1]


def check_worked():
    s = [(1, 1000, 5000, 5000, 0), (2, 2000, 10000, 10000, 0), (3, 1000, 5000, 4000, 0)]
    v = [(1, 3, 6, 6, 0), (2, 3, 8, 8, 0)]
    plan_2_1 = ["1,1,2,6", "2,1,1,3"]
    plan_1_2 = ["1,1,1,6", "2,1,2,3"]
    # 1, 2: three rows under both rules
    assert mapped(s, "exact") == ["plan,4,2,3", "1,1,2,4000", "2,1,3,2000", "2,2,1,2000"]
    assert mapped(s, "exact", "divided") == ["plan,4,1,3", "1,1,3,4000", "1,2,1,4000", "1,3,2,4000"]
    # 3, 4: one row
    assert ref.exact([Row(1, 5, 5, 5, 0)], [ABOVE], 0) == 5
    assert ref.exact([Row(1, 6, 5, 5, 0)], [BELOW], 0) is LATE
    assert mapped([(1, 6, 5, 5, 0)], "exact") == ["refused,2,0,12"]
    # 5, 6: two rows by the exact and by the linear analysis
    assert mapped(v, "exact") == ["plan,3,2,2"] + plan_2_1
    assert mapped(v, "linear") == ["plan,3,2,2"] + plan_1_2
    rows = [Row(*row) for row in v]
    assert rows[1].cost + ref.activations(8, 6) * rows[0].cost == 9
    # 7: blocking by a section of a row below
    assert ref.sections([Row(1, 2, 10, 5, 0), Row(2, 4, 20, 20, 3)], [ABOVE, BELOW], 0) == 5
    assert ref.sections([Row(1, 2, 10, 5, 0), Row(2, 4, 20, 20, 4)], [ABOVE, BELOW], 0) is LATE
    # 8: a margin that is just kept and one that is not
    assert ref.margin(25, ref.exact)(rows, [ABOVE, BELOW], 1) == 6
    assert ref.margin(26, ref.exact)(rows, [ABOVE, BELOW], 1) is LATE
    # 9, 10: pairs
    assert mapped(v, "exact", before="pair,2,1\n") == ["plan,4,2,2"] + plan_1_2
    assert mapped(v, "exact", before="pair,1,2\npair,2,1\n") == ["refused,5,0,12"]
    # 11: charge
    assert mapped(v, "exact", before="charge,1\n") == ["refused,4,0,12"]
    # 12: no rows
    assert mapped([], "exact") == ["plan,1,0,0"]
    return 12


def random_row(rng, number):
    period = rng.choice([2, 3, 4, 5, 6, 8, 10, 12, 15, 20, 30, 40])
    deadline = rng.randint(max(1, period // 2), period)
    cost = rng.randint(1, max(1, deadline // 2))
    return Row(number, cost, period, deadline, rng.randint(0, cost))


def random_table(rng, most):
    rows = [random_row(rng, k + 1) for k in range(rng.randint(1, most))]
    return sorted(rows, key=lambda row: row.deadline)


def random_pile(rng, numbers):
    pile = rng.choice([ref.exact, ref.linear, ref.sections])
    for _ in range(rng.choice([0, 0, 1, 2, 3])):
        kind = rng.randrange(3)
        if kind == 0:
            pile = ref.charge(rng.randint(0, 2), pile)
        elif kind == 1:
            pile = ref.margin(rng.choice([0, 10, 25, 50]), pile)
        else:
            held = [(rng.randint(1, numbers), rng.randint(1, numbers)) for _ in range(2)]
            pile = ref.pairs([(u, l) for u, l in held if u != l], pile)
    return pile


def check_searches(rng, count):
    for _ in range(count):
        table = random_table(rng, 6)
        place = rng.randrange(len(table))
        above = [(r.period, r.cost) for k, r in enumerate(table) if k != place]
        base = table[place].cost + rng.randint(0, 5)

        def right_side(w):
            return base + sum(ref.activations(w, t) * c for t, c in above)

        found = ref.least_by_every_w(right_side, 300)
        assert found == ref.least_by_jumps(right_side, 300)
    return count


def no_worse(before, after):
    return before is LATE or (after is not LATE and after <= before)


def check_laws(rng, count):
    for _ in range(count):
        table = random_table(rng, 6)
        marks = [rng.choice([ABOVE, BELOW]) for _ in table]
        place = rng.randrange(len(table))
        pile = random_pile(rng, len(table))
        verdict = pile(table, marks, place)
        if verdict is not LATE:
            assert table[place].cost <= verdict <= table[place].deadline
        for k in range(len(table)):
            if k == place:
                other = BELOW if marks[k] == ABOVE else ABOVE
                assert pile(table, marks[:k] + [other] + marks[k + 1 :], place) == verdict
            elif marks[k] == ABOVE:
                assert no_worse(verdict, pile(table, marks[:k] + [BELOW] + marks[k + 1 :], place))
            else:
                rest = place - 1 if k < place else place
                assert no_worse(verdict, pile(table[:k] + table[k + 1 :], marks[:k] + marks[k + 1 :], rest))
    return count


def works(table, pile, order):
    """The verdicts of all rows in an order, highest first, or None where one is late."""
    verdicts = {}
    for rank, k in enumerate(order):
        marks = [ABOVE if j in order[:rank] else BELOW for j in range(len(table))]
        verdicts[k] = pile(table, marks, k)
        if verdicts[k] is LATE:
            return None
    return verdicts


def check_plans(rng, count):
    plans = 0
    for _ in range(count):
        table = random_table(rng, 5)
        pile = random_pile(rng, len(table))
        taken = rng.choice(list(ref.RULES.values()))
        plan = ref.mapping(table, pile, taken)
        exists = any(works(table, pile, order) for order in itertools.permutations(range(len(table))))
        assert exists == (plan is not None)
        if plan is None:
            continue
        plans += 1
        at = {row.number: k for k, row in enumerate(table)}
        assert sorted(at) == sorted(line.number for line in plan)
        order = [at[line.number] for line in sorted(plan, key=lambda line: (-line.task, line.place))]
        verdicts = works(table, pile, order)
        assert verdicts is not None
        for line in plan:
            assert verdicts[at[line.number]] <= line.response
    assert 0 < plans < count
    return count


if __name__ == "__main__":
    rng = random.Random(1)
    print("worked tables", check_worked())
    print("searches", check_searches(rng, 2000))
    print("laws", check_laws(rng, 5000))
    print("plans", check_plans(rng, 2000))
