# Reference program for factorial tables, seventh part: readings back from totals, straight from the wording of the rules.
#
# Given are a plan and N totals, and wanted are the N run sums that have them, which are the readings where every run is made
# once. So there is an equation for each effect: run sum times coefficient, over all runs, adds up to the total. The
# equations of one factor, two or three, are solved by elimination in exact fractions; those of a plan factor by factor, the
# highest first. There is always one solution and no other. Where it is whole and within the limit, and its totals by the
# definition are the given ones, it is the answer; else no readings have the totals. No divisor and no denominator is used;
# check() compares the solutions with the formula that divides by them. Like the other parts, this file is written apart
# from the proved program and shares nothing with it.
#
# Defined here:
#   most_sum                the limit of a run sum, either way
#   inverse                 the inverse of a square of numbers, by elimination
#   solved                  the numbers that have the totals, as fractions, within the limit or not
#   coefficient_rows        the coefficients of all effects in all runs
#   have_totals             whether run sums have the totals, by the definition
#   missed                  the runs whose number is not whole or is beyond the limit, with that number
#   recovered               the run sums that have the totals; None where there are none
#   recover_answer          0, or the first of 2 to 8, 16, 11, 14 that applies
#   column_after            what the lent column holds after the call
#   by_formula              what is solved, by the formula with divisors
#   check                   list of complaints, empty if all is well

import sys
from fractions import Fraction
from functools import lru_cache
from operator import mul
from os.path import abspath, dirname

sys.path.insert(0, dirname(dirname(dirname(abspath(__file__)))))

from reference.rules import totals as totals_rules
from reference.rules.totals import COEFFICIENTS, DONE, Plan


def most_sum(plan):
    """The limit of a run sum, either way: repeats times that of a reading."""
    return plan.repeats * totals_rules.MOST_READING[plan.levels]


# ---- the equations ----

def inverse(square):
    """The inverse of a square of numbers: what makes the unit square of it makes the inverse of the unit square. Each pivot is
    looked for below; there is one, or the square has no inverse."""
    count = len(square)
    rows = [[Fraction(number) for number in row] + [Fraction(place == own) for place in range(count)]
            for own, row in enumerate(square)]
    for place in range(count):
        pivot = next(own for own in range(place, count) if rows[own][place])
        rows[place], rows[pivot] = rows[pivot], rows[place]
        rows[place] = [number / rows[place][place] for number in rows[place]]
        for own in set(range(count)) - {place}:
            rows[own] = [number - rows[own][place] * other for number, other in zip(rows[own], rows[place])]
    return [row[count:] for row in rows]


INVERSES = {levels: inverse(square) for levels, square in COEFFICIENTS.items()}


def solved(levels, k, totals):
    """The one column of numbers that has the totals, as fractions.

    Take the runs at one level of the highest factor for a plan by themselves. The totals of its effects, each times the
    coefficient of that level, add up over the levels to the totals given. So they are solved for, effect by effect; and
    then the numbers at each level, from the totals of that level. Where all totals given are 0, so are those solved for."""
    if k == 0:
        return list(totals)
    size = totals_rules.run_count(levels, k - 1)
    by_rows = zip(*(totals[start:start + size] for start in range(0, len(totals), size)))
    by_levels = zip(*([sum(map(mul, row, own)) for row in INVERSES[levels]] if any(own) else own for own in by_rows))
    return [number for own in by_levels for number in solved(levels, k - 1, own)]


# ---- totals by the definition ----

@lru_cache(maxsize=None)
def coefficient_rows(levels, k):
    """For each effect its coefficients in all runs: products over the factors, the highest factor's digits last."""
    if k == 0:
        return ((1,),)
    return tuple(tuple(number * other for number in row for other in below)
                 for row in COEFFICIENTS[levels] for below in coefficient_rows(levels, k - 1))


def have_totals(levels, k, sums, totals):
    """Whether run sums have the totals: for each effect run sum times coefficient is added up over all runs."""
    return [sum(map(mul, row, sums)) for row in coefficient_rows(levels, k)] == list(totals)


# ---- the call ----

def is_missed(plan, number):
    """Whether a number is no sum of a run's readings: it is not whole, or beyond the limit."""
    return number.denominator != 1 or abs(number) > most_sum(plan)


def missed(plan, totals):
    """The runs of an accepted plan whose number is no sum of readings, with that number."""
    return [(run, number) for run, number in enumerate(solved(plan.levels, plan.k, totals)) if is_missed(plan, number)]


@lru_cache(maxsize=1)
def found(plan, totals):
    """The run sums within the limit that have the N totals of an accepted plan, and None where there are none."""
    numbers = solved(plan.levels, plan.k, totals)
    if any(is_missed(plan, number) for number in numbers):
        return None
    sums = [int(number) for number in numbers]
    return sums if have_totals(plan.levels, plan.k, sums, totals) else None


def recovered(plan, totals):
    """The same of totals in a list."""
    return found(plan, tuple(totals))


def recover_answer(plan, totals, readings_length):
    """The recovery call: 2 to 8, 16, 11, 14, or 0."""
    return totals_rules.foremost(totals_rules.plan_checks(plan) + [
        (11, lambda: totals_rules.wrong_length(plan, [totals, range(readings_length)])),
        (14, lambda: recovered(plan, totals) is None)])


def column_after(plan, totals, column):
    """The lent column after the call: the run sums, and where it is refused what it held before."""
    return list(column) if recover_answer(plan, totals, len(column)) else recovered(plan, totals)


# ---- checks ----

def by_formula(levels, k, totals):
    """What is solved, in another way: for each run the sum over effects of total times coefficient, over the divisor."""
    over = [Fraction(total, totals_rules.divisor(levels, k, effect)) for effect, total in enumerate(totals)]
    return [sum(own * totals_rules.coefficient(levels, k, effect, run) for effect, own in enumerate(over) if own)
            for run in range(totals_rules.run_count(levels, k))]


def alone(count, effect):
    """Totals of which one is 1 and all others are 0."""
    return [int(place == effect) for place in range(count)]


# Levels and factors of small plans, of which each total is tried alone, and of all others, of which one is.
SMALL = [(2, k) for k in range(1, 6)] + [(3, k) for k in range(1, 4)]
LARGE = [(2, k) for k in range(6, 11)] + [(3, k) for k in range(4, 7)]


def effects_tried(levels, k):
    """All effects of a small plan; of a large one an effect whose number has all digits."""
    count = totals_rules.run_count(levels, k)
    return range(count) if (levels, k) in SMALL else [2 * count // 7]


def check_formula():
    """Each total alone solves to what the formula gives. Both add up over totals, so they agree for all of a small plan."""
    return ["%d levels, %d factors, total %d alone: not the formula" % (levels, k, effect)
            for levels, k in SMALL + LARGE for effect in effects_tried(levels, k)
            for own in [alone(totals_rules.run_count(levels, k), effect)]
            if solved(levels, k, own) != by_formula(levels, k, own)]


def check_rows():
    """The rows of coefficients are those of the definition, and the numbers that have totals have them."""
    complaints = []
    for levels, k in SMALL + LARGE:
        rows, runs = coefficient_rows(levels, k), range(totals_rules.run_count(levels, k))
        if any(rows[effect][run] != totals_rules.coefficient(levels, k, effect, run)
               for effect in effects_tried(levels, k) for run in runs):
            complaints.append("%d levels, %d factors: coefficients" % (levels, k))
    for levels, k in SMALL:
        spread = [(17 * place ** 2 + 5 * place + 3) % 83 - 41 for place in range(totals_rules.run_count(levels, k))]
        if not have_totals(levels, k, solved(levels, k, spread), spread):
            complaints.append("%d levels, %d factors: what is solved has other totals" % (levels, k))
        if solved(levels, k, totals_rules.totals(levels, k, spread)) != spread:
            complaints.append("%d levels, %d factors: the totals of numbers solve to others" % (levels, k))
    return complaints


# Small inputs: plan, totals, how long the lent column is, the number, and the run sums. The first four are the rules' own
# runs; then the small input of 14, the limits of two levels and of three, and repeats.
SMALL_INPUTS = [
    (Plan(2, 2), [20, -6, -4, 2], 4, DONE, [3, 5, 4, 8]),
    (Plan(3, 1), [10, -1, -5], 3, DONE, [2, 5, 3]),
    (Plan(2, 3, (), (7,)), [36, -4, -8, 0, -16, 0, 0, 0], 8, DONE, [1, 2, 3, 4, 5, 6, 7, 8]),
    (Plan(2, 1), [0, -200_000], 2, DONE, [-100_000, 100_000]),
    (Plan(2, 2), [20, -6, -4, 3], 4, 14, None),
    (Plan(2, 1), [1_000_000, 1_000_000], 2, DONE, [1_000_000, 0]),
    (Plan(2, 1), [1_000_001, 1_000_001], 2, 14, None),
    (Plan(2, 1), [-1_000_001, 1_000_001], 2, 14, None),
    (Plan(3, 1), [100_000, -100_000, 100_000], 3, DONE, [0, 0, 100_000]),
    (Plan(3, 1), [100_001, -100_001, 100_001], 3, 14, None),
    (Plan(2, 1, repeats=2), [2_000_000, 2_000_000], 2, DONE, [2_000_000, 0]),
    (Plan(2, 1, repeats=2), [2_000_001, 2_000_001], 2, 14, None),
    (Plan(2, 1, repeats=2), [20, -4], 4, 11, None),
    (Plan(2, 2), [20, -6, -4], 4, 11, None),
    (Plan(2, 2, repeats=3), [20, -6, -4], 4, 16, None),
    (Plan(2, 2, (), (3, 3)), [20, -6, -4], 4, 7, None),
]


def check_call():
    """The small inputs have their numbers and run sums."""
    complaints = []
    for plan, totals, length, number, sums in SMALL_INPUTS:
        before = list(range(1, length + 1))
        if (recover_answer(plan, totals, length), column_after(plan, totals, before)) != (number, sums or before):
            complaints.append("%s, totals %s: not %d, or another column" % (plan, totals, number))
    return complaints


def check():
    """List of all complaints about what is solved, coefficients and answers."""
    return check_formula() + check_rows() + check_call()


if __name__ == "__main__":
    sys.exit("\n".join(check()) or None)
