# Inputs of the recovery call, each with the answer that the rules give; check() compares it with what rules/recovery.py
# answers. And the input and the expected text of the program worked_readings, which tries them.
#
# The program reads records: length, two bytes, and so many bytes. These are the fields of a plan, tags 1, 2, 3 and 6 as in a
# sheet, and a field 9: how many readings are lent and how many totals, two bytes each, and then totals, eight bytes each in
# two's complement; all big-endian. The totals that stand there are the first, and those after them are 0. There is no limit
# to the number of records; the program lends 1,100 places at most.
#
# It writes a line for each record: `refused` with the number, or `readings` with the number at each place of the column
# lent. Of a column of more than 100 places it is `readings` with how many there are, `first` with the first four, `last`
# with the last four, and `checksum`. Then `unchanged` where all places hold what they held before the call, else `changed`;
# before the call each holds 20,000,000 more than the place, which no run sum may be.
#
# Checksum: it begins as 0 and becomes, for each place in order, 31 times itself plus the number at the place, modulo the
# prime 2,147,483,647. Where two different numbers change places it is another one, since no power of 31 that matters is 1.
#
# Inputs by what they tell apart:
#   PUBLISHED    the 27 worked examples, and ten tables more with other readings or in blocks: the totals that the source
#                prints recover its readings, and what it does not print is settled by them. Each also with one total
#                changed by 1, of the examples and of one table each total in turn, of 81 some of them, and of the other
#                tables the last: no readings have these
#   FRACTIONS    totals of numbers of which some are halves, thirds, quarters and so on and the others whole: for a program
#                that does not look for remainders, looks at some runs only, or tests too small a divisor
#   LIMITS       run sums at the limit, one beyond it, and at the limits of other plans, with 1, 2, 4 and 8 repeats; the
#                largest totals of the largest plans
#   ANY          any totals of 64 bits: the least and the largest, totals that a program whose sums wrap takes for others,
#                and totals that differ from others by a power of two
#   SIZES        1 to 10 factors at two levels and 1 to 6 at three, with readings that are spread out
#   WHOLE_STEPS  totals changed by so much that other readings have them
#   BESIDE       added factors, block words and repeats, which change no total
#   ALONE, ORDER every number by itself, and two or more of which the first is answered
#   MADE         plans, totals and lengths that are made by numbers from a fixed seed
# WRONG has wrong programs, and check() tests that each of them is told apart.
#
# Defined here:
#   RECOVERED        all inputs
#   WRONG            wrong programs by name, and told_apart: the inputs that tell one
#   check            list of complaints, empty if all is well
#   expected_text    the expected text
#   inputs           the input of the program (recovery_answers.py inputs)
#   list_text        a line for each record, with its number and what is tried (recovery_answers.py list)

import sys
from collections import namedtuple
from fractions import Fraction
from itertools import combinations
from os.path import abspath, dirname

sys.path.insert(0, dirname(dirname(dirname(abspath(__file__)))))

from reference.cases.answers import REFUSED_PLANS, SIDES, TOP, checksum, named, numbered, plan_text
from reference.cases.screening_answers import after
from reference.cases.sheet_cases import Numbers, three_words
from reference.published import amcp, analyses, examples
from reference.published.analyses import (FIVE_4, FIVE_4_BLOCKED, FOUR_8, FOUR_8_BLOCKED, SEVEN_8, SEVEN_BLOCKED, SIX,
                                          SIX_LARGEST, TEN, TEN_ADDED, TEN_BLOCKED, by_signs, by_spreading, quick_totals)
from reference.rules import recovery as recovery_rules
from reference.rules import screening as screening_rules
from reference.rules import sheet_bytes
from reference.rules import totals as totals_rules
from reference.rules.table import row_number
from reference.rules.totals import DONE, MOST_VALUE, Plan, run_count

# number: that of the refusal, or 0. places: how many readings are lent. readings: what the column then holds, None where the
# call is refused.
Recovery = namedtuple("Recovery", "number why plan totals places readings")

# The most places that the program lends; the tag of the field beside the plan's; how long a total is.
MOST_LENT, REST, TOTAL_LENGTH = 1_100, 9, 8

# The most bytes of a record after its length.
MOST_BYTES = 65_535

LEAST, LARGEST = -2 ** 63, 2 ** 63 - 1
FOUR, FOUR_TOTALS = [3, 5, 4, 8], [20, -6, -4, 2]
ONE, TWO, THREE_RUNS, NINE_RUNS = Plan(2, 1), Plan(2, 2), Plan(3, 1), Plan(3, 2)


# ---- inputs ----

def count_of(plan):
    """N; 4 of a plan that is refused with 2 or 3."""
    return 4 if totals_rules.plan_answer(plan) in (2, 3) else run_count(plan.levels, plan.k)


def most_sum(plan):
    """The limit of a run sum, either way."""
    return plan.repeats * TOP[plan.levels]


def totals_of(plan, numbers):
    """The totals of a number for each run. Numbers that are not whole must have whole totals."""
    found = quick_totals(plan.levels, plan.k, numbers)
    if any(Fraction(total).denominator != 1 for total in found):
        raise ValueError("a total is not whole")
    return [int(total) for total in found]


def spread(count):
    """Numbers from -41 to 41 that are spread out."""
    return [(17 * place ** 2 + 5 * place + 3) % 83 - 41 for place in range(count)]


def done(why, plan, sums, totals=None):
    """An accepted input: the run sums that must come back, and their totals, or totals that are said."""
    return Recovery(DONE, why, plan, totals_of(plan, sums) if totals is None else totals, len(sums), list(sums))


def refused(number, why, plan, totals=None, places=None):
    """A refused input. What is not said: totals of 0, and as many readings, as the plan has runs."""
    count = count_of(plan)
    return Recovery(number, why, plan, [0] * count if totals is None else list(totals),
                    count if places is None else places, None)


def with_change(totals, changes):
    """Totals with numbers added to some of them, by place."""
    return [total + changes.get(place, 0) for place, total in enumerate(totals)]


def one_changed(own, place, by):
    """The same input with a number added to one total, where no readings have it."""
    return refused(14, "%s, total %d changed by %+d" % (own.why, place, by), own.plan, with_change(own.totals, {place: by}))


# ---- published ----

def of_example(example):
    """An example: the totals that are printed, and the others as they are settled."""
    sums, shown = examples.sums_of(example), examples.totals_shown(example)
    settled = totals_rules.totals(example.levels, example.k, sums)
    totals = [total if own is None else own for total, own in zip(settled, shown)]
    count = sum(own is not None for own in shown)
    how_many = "totals printed" if count == len(shown) else "%d of %d totals printed" % (count, len(shown))
    return done("%s, %s" % (example.title, how_many), examples.plan(example), sums, totals)


def of_table(own, totals=None):
    """A worked table whose source prints all totals, if they are said, or none."""
    return done("%s, totals %s" % (own.title, "printed" if totals else "settled"), own.plan, analyses.sums_of(own), totals)


def half_totals():
    """The totals that Daniel's Table 7.4 prints, with the report's signs."""
    printed = next(printed for printed in analyses.DANIEL_HALF.printed if printed.measure == "turned total")
    return [int(figure) * (-1) ** totals_rules.letter_count(row) for row, figure in enumerate(printed.text.split())]


def changed_once(own):
    """The input with one total changed by 1: each in turn, up and down where they are few, and some of very many."""
    count = len(own.totals)
    places = range(count) if count < 81 else range(0, count, 8)
    found = [one_changed(own, place, -1 if place % 2 else 1) for place in places]
    return found + ([one_changed(own, place, 1 if place % 2 else -1) for place in places] if count < 10 else [])


WORKED = [of_example(example) for example in examples.EXAMPLES]
HALF = of_table(analyses.DANIEL_HALF, half_totals())
SETTLED = [of_table(own) for own in (
    analyses.AMCP_BLOCKED, analyses.INTERLACED, analyses.DANIEL_MANGOLDS, analyses.POTATO_BLOCKED, analyses.YATES_HAY,
    analyses.DANIEL_LETTUCE, analyses.DANIEL_AIR, analyses.FIRST_Y, analyses.SECOND_Z)]
CHANGED_ONCE = [changed for own in WORKED + [HALF] for changed in changed_once(own)] + [
    one_changed(own, len(own.totals) - 1, 1) for own in SETTLED]
PUBLISHED = WORKED + [HALF] + SETTLED + CHANGED_ONCE


# ---- fractions ----

def fractional(plan, fractions):
    """An input of numbers that are whole but for some runs, to which fractions are added; their totals are whole."""
    numbers = [own + fractions.get(run, 0) for run, own in enumerate(spread(run_count(plan.levels, plan.k)))]
    name = " ".join("%d:%s" % pair for pair in sorted(fractions.items()))
    return refused(14, "%s, k = %d, fractions %s" % (named(plan), plan.k, name), plan, totals_of(plan, numbers))


def all_of(plan, fraction):
    """The same with one fraction in all runs."""
    return fractional(plan, {run: fraction for run in range(run_count(plan.levels, plan.k))})


# The numbers of a three-level factor that have whole totals together.
HALVES, THIRDS, SIXTHS = [[Fraction(own, 6) for own in three] for three in ((3, 0, 3), (2, 2, 2), (5, 2, 5))]


def along(plan, pattern, first, spacing):
    """Such three numbers as fractions, from a run on, so far apart."""
    return fractional(plan, {first + level * spacing: own for level, own in enumerate(pattern) if own})


# Two runs with halves, whichever they are; all runs with one fraction; the runs at one level of a factor. At three levels
# along A and along B, from each run that has level 0 there.
FRACTIONS = [
    fractional(Plan(2, k), {first: Fraction(1, 2), second: Fraction(-1, 2)})
    for k in (1, 2, 3) for first, second in combinations(range(2 ** k), 2)
] + [
    fractional(Plan(2, 5), {run: Fraction(1, 2), 31 - run: Fraction(1, 2)}) for run in range(16)
] + [
    all_of(Plan(2, k), Fraction(1, 2 ** power)) for k in range(1, 6) for power in range(1, k + 1)
] + [
    fractional(Plan(2, 3), {run: Fraction(1, 4) for run in range(8) if run & 1 << letter}) for letter in range(3)
] + [
    along(THREE_RUNS, pattern, 0, 1) for pattern in (HALVES, THIRDS, SIXTHS)
] + [
    along(NINE_RUNS, pattern, first, 1) for pattern in (HALVES, THIRDS, SIXTHS) for first in (0, 3, 6)
] + [
    along(NINE_RUNS, pattern, first, 3) for pattern in (HALVES, THIRDS, SIXTHS) for first in (0, 1, 2)
] + [
    all_of(NINE_RUNS, Fraction(1, 9)), all_of(Plan(3, 3), Fraction(1, 27)), all_of(Plan(3, 3), Fraction(1, 3)),
    fractional(NINE_RUNS, {0: Fraction(1, 4), 2: Fraction(1, 4), 6: Fraction(1, 4), 8: Fraction(1, 4)}),
    fractional(NINE_RUNS, {0: Fraction(1, 2), 2: Fraction(1, 2), 6: Fraction(1, 2), 8: Fraction(1, 2)}),
]

# The first totals of large plans, which are otherwise 0: a multiple of each smaller power, and not of the one that is meant.
FRACTIONS += [
    refused(14, "%s, k = %d, total %d of the mean alone" % (named(plan), plan.k, total), plan,
            [total] + [0] * (run_count(plan.levels, plan.k) - 1))
    for plan, totals in ((TEN, (1, 2, 512, -512, 1023, 1025)), (SIX, (1, 3, 243, 728, -486)), (SEVEN_8, (8, 64, 127)))
    for total in totals
] + [
    refused(14, "%s, k = %d, total %d of %s alone" % (named(plan), plan.k, total, name), plan,
            [total if place == effect else 0 for place in range(run_count(plan.levels, plan.k))])
    for plan, effect, name, totals in (
        (SIX, 1, "A linear", (243, 485, 2, 728)), (SIX, 2, "A curved", (243, 486, 729, 6)),
        (NINE_RUNS, 4, "A and B linear", (1, 2, 6)), (NINE_RUNS, 8, "A and B curved", (4, 6, 9, 12)))
    for total in totals
]


# ---- limits ----

def with_one(plan, place, number):
    """Spread run sums with one number at a place."""
    sums = spread(run_count(plan.levels, plan.k))
    return [*sums[:place], number, *sums[place + 1:]]


def about_limit(plan):
    """All run sums at a limit; and one of them, the first, a middle and the last in turn, at the limit and one beyond."""
    found, limit, count = [], most_sum(plan), run_count(plan.levels, plan.k)
    for side, sign in SIDES:
        found.append(done("%s, k = %d, all at the %s" % (named(plan), plan.k, side), plan, [sign * limit] * count))
        for place in sorted({0, count // 2, count - 1}):
            why = "%s, k = %d, run %d %%s the %s" % (named(plan), plan.k, place, side)
            found.append(done(why % "at", plan, with_one(plan, place, sign * limit)))
            found.append(refused(14, why % "one beyond", plan, totals_of(plan, with_one(plan, place, sign * (limit + 1)))))
    return found


def at_number(number, plan, where, size):
    """The second run at a size, either way, which says where it lies."""
    found = []
    for sign in (1, -1):
        why, sums = "%s, k = %d, a run at %s, %d" % (named(plan), plan.k, where, sign * size), with_one(plan, 1, sign * size)
        found.append(refused(number, why, plan, totals_of(plan, sums)) if number else done(why, plan, sums))
    return found


def mean_alone(plan, total):
    """The total of the mean, and 0 for all others."""
    return [total] + [0] * (run_count(plan.levels, plan.k) - 1)


def all_at(plan, size, number=DONE):
    """All run sums at a size, of which the totals are short to write."""
    count, why = run_count(plan.levels, plan.k), "%s, k = %d, all at %d" % (named(plan), plan.k, size)
    totals = mean_alone(plan, count * size)
    return refused(number, why, plan, totals) if number else done(why, plan, [size] * count, totals)


def by_effect(plan, effect):
    """Run sums at the limit with the signs of an effect."""
    return done("%s, k = %d, at the limit by the signs of effect %d" % (named(plan), plan.k, effect), plan,
                by_signs(plan, effect, most_sum(plan), 0))


OF_REPEATS = [plan._replace(repeats=repeats) for plan in (ONE, Plan(2, 3), THREE_RUNS, NINE_RUNS)
              for repeats in totals_rules.REPEATS]
LARGE_PLANS = [TEN, TEN_BLOCKED, TEN_ADDED, SIX, SIX_LARGEST, Plan(2, 9, repeats=2), Plan(2, 8, repeats=4), SEVEN_8,
               SEVEN_BLOCKED, FIVE_4, FIVE_4_BLOCKED, FOUR_8, FOUR_8_BLOCKED]
LIMITS = [own for plan in OF_REPEATS for own in about_limit(plan)]
LIMITS += at_number(DONE, TWO, "one beyond the limit of three levels", TOP[3] + 1)
LIMITS += at_number(14, THREE_RUNS, "the limit of two levels", TOP[2])
LIMITS += at_number(14, NINE_RUNS, "the limit of two levels", TOP[2])
LIMITS += [own for repeats in (1, 2, 4) for plan in (TWO._replace(repeats=repeats), THREE_RUNS._replace(repeats=repeats))
           for own in at_number(14, plan, "the limit of twice as many repeats", 2 * most_sum(plan))]
LIMITS += [own for repeats in (2, 4, 8) for plan in (TWO._replace(repeats=repeats), THREE_RUNS._replace(repeats=repeats))
           for own in at_number(DONE, plan, "one beyond the limit of half as many repeats", most_sum(plan) // 2 + 1)]
LIMITS += at_number(14, TWO, "the limit of a pass over 4", MOST_VALUE // 4)
LIMITS += at_number(14, ONE, "the limit of a pass over 2", MOST_VALUE // 2)
LIMITS += [all_at(plan, sign * most_sum(plan)) for plan in LARGE_PLANS for sign in (1, -1)]
LIMITS += [all_at(plan, sign * (most_sum(plan) + 1), 14) for plan in LARGE_PLANS for sign in (1, -1)]
LIMITS += [by_effect(TEN, 1), by_effect(TEN, 6), by_effect(TEN, 1023), by_effect(SIX, 728), by_effect(FOUR_8, 80),
           by_effect(SEVEN_8, 127)]

# Totals at the limit of a pass and one beyond: all readings that have them are beyond their own limit, or not whole.
LIMITS += [refused(14, "%s, k = %d, totals %d %d" % (named(ONE), 1, first, second), ONE, [first, second])
           for first in (MOST_VALUE, MOST_VALUE + 1, MOST_VALUE + 2, -MOST_VALUE, -MOST_VALUE - 1, -MOST_VALUE - 2)
           for second in (0, 1, first)]
LIMITS += [refused(14, "%s, k = 10, total %d of %s" % (named(TEN), total, name), TEN,
                   [total if place == effect else 0 for place in range(1024)])
           for name, effect in (("the mean", 0), ("A", 1), ("AB", 3))
           for total in (MOST_VALUE + 1, -MOST_VALUE - 1, MOST_VALUE + 2048)]
LIMITS += [refused(14, "%s, k = 10, half of the runs one beyond the limit" % named(TEN), TEN,
                   [512 * TOP[2] + 512] * 2 + [0] * 1022),
           done("%s, k = 10, half of the runs at the limit" % named(TEN), TEN, [TOP[2], 0] * 512,
                [512 * TOP[2]] * 2 + [0] * 1022)]


# ---- totals of 64 bits ----

def far(why, plan, totals):
    """Totals that no readings have, since some are far too large."""
    return refused(14, "far, %s" % why, plan, totals)


def each_plus(plan, sums, number):
    """The totals of run sums, with a number added to each."""
    totals = totals_of(plan, sums)
    return far("%s, k = %d, each total %+d" % (named(plan), plan.k, number), plan, [total + number for total in totals])


def at_each_place(plan, number):
    """The number as one total in turn, all others 0."""
    count = run_count(plan.levels, plan.k)
    return [far("%s, k = %d, total %d is %d" % (named(plan), plan.k, place, number), plan,
                [number if own == place else 0 for own in range(count)]) for place in range(count)]


# What is added to all totals of k two-level factors is N times itself in run 0 and nothing in the others. At three levels a
# power of two in one total comes to 0 in 64 bits when it is doubled often enough.
FIRST_POWERS = [each_plus(TWO, FOUR, sign * 2 ** 62) for sign in (1, -1)] + [
    each_plus(Plan(2, 3), range(1, 9), 2 ** 61),
    each_plus(Plan(2, 4), examples.sums_of(examples.REPORT_TWO_LEVELS), 2 ** 60),
    each_plus(Plan(2, 10), [0] * 1024, 2 ** 54),
    each_plus(TWO, FOUR, 2 ** 32),
    each_plus(TWO, FOUR, -2 ** 32),
    each_plus(TWO, FOUR, 2 ** 31),
    each_plus(TWO, FOUR, 2 ** 53),
    each_plus(ONE, [3, 5], 2 ** 62),
    each_plus(THREE_RUNS, [2, 5, 3], 2 ** 62),
    each_plus(THREE_RUNS, [2, 5, 3], 2 ** 32),
]
ANY = FIRST_POWERS + [
    far("8 and -2, plus and minus 2^63", ONE, [8 - 2 ** 63, -2 + 2 ** 63]),
    far("10, less 2^63, -1, -5", THREE_RUNS, [10 - 2 ** 63, -1, -5]),
    far("10, -1 and -5 plus 2^63", THREE_RUNS, [10, -1 + 2 ** 63, -5 + 2 ** 63]),
    far("10, -1 and -5, 2^63 added or taken", THREE_RUNS, [10 - 2 ** 63, -1 + 2 ** 63, -5 + 2 ** 63]),
    far("20 plus 2^32, -6, -4, 2", TWO, [20 + 2 ** 32, -6, -4, 2]),
    far("20, -6, -4, 2 less 2^32", TWO, [20, -6, -4, 2 - 2 ** 32]),
    far("20 plus 2^34, -6, -4, 2", TWO, [20 + 2 ** 34, -6, -4, 2]),
    far("all the least", TWO, [LEAST] * 4),
    far("all the largest", TWO, [LARGEST] * 4),
    far("both the least", ONE, [LEAST] * 2),
    far("both the largest", ONE, [LARGEST] * 2),
    far("the least and the largest", ONE, [LEAST, LARGEST]),
    far("the largest and the least", ONE, [LARGEST, LEAST]),
    far("three levels, all the least", THREE_RUNS, [LEAST] * 3),
    far("three levels, all the largest", THREE_RUNS, [LARGEST] * 3),
    far("the least and the largest in turn", Plan(2, 3), [LEAST, LARGEST] * 4),
    far("nine, all the least", NINE_RUNS, [LEAST] * 9),
    far("ten factors, the last the least", TEN, [0] * 1023 + [LEAST]),
    far("six factors, the mean the largest", SIX, [LARGEST] + [0] * 728),
    far("three levels, what times 3 is 2 in 64 bits", THREE_RUNS, [0, 6_148_914_691_236_517_206, 0]),
] + [own for plan in (ONE, TWO, THREE_RUNS) for number in (LEAST, LARGEST, LEAST + 1, 2 ** 62, -2 ** 62)
     for own in at_each_place(plan, number)] + [
    far("four runs, wrapped by %d" % power, TWO, with_change(FOUR_TOTALS, {0: 2 ** power, 3: 2 ** power}))
    for power in (62, 61, 33, 32, 31)
]


# ---- sizes, and totals changed by a whole step ----

SIZED = [Plan(2, k) for k in range(1, 11)] + [Plan(3, k) for k in range(1, 7)]


def last_changed(own):
    """The input with its last total changed by 1."""
    return one_changed(own, len(own.totals) - 1, 1)


def repeated_four(k):
    """The readings 3, 5, 4, 8 again and again: the first four totals are those of the example times so many."""
    times = 2 ** (k - 2)
    return done("k = %d, 3 5 4 8 repeated" % k, Plan(2, k), FOUR * times,
                [times * total for total in FOUR_TOTALS] + [0] * (2 ** k - 4))


SPREAD = [done("%s, k = %d, spread" % (named(plan), plan.k), plan, spread(run_count(plan.levels, plan.k)))
          for plan in SIZED[:7] + SIZED[10:14]]
TO_LIMITS = [done("%s, k = %d, spread to the limits" % (named(plan), plan.k), plan, by_spreading(plan)) for plan in SIZED]
SHORT = [repeated_four(k) for k in range(3, 11)]
SIZES = SPREAD + TO_LIMITS + SHORT + [
    last_changed(own) for own in SPREAD + TO_LIMITS if len(own.totals) in (64, 128, 729, 1024)
] + [one_changed(own, place, 1) for own in SHORT[3:] for place in range(4)]


def stepped(plan, effect, times):
    """Readings, one of whose totals is changed by its divisor times a number: every reading moves by that number times its
    coefficient, and so others have the totals."""
    levels, k = plan.levels, plan.k
    sums, by = spread(run_count(levels, k)), times * totals_rules.divisor(levels, k, effect)
    moved = [own + times * totals_rules.coefficient(levels, k, effect, run) for run, own in enumerate(sums)]
    return done("%s, k = %d, total %d changed by %d" % (named(plan), k, effect, by), plan, moved,
                with_change(totals_of(plan, sums), {effect: by}))


WHOLE_STEPS = [stepped(plan, effect, times) for plan in (ONE, TWO, Plan(2, 3), THREE_RUNS, NINE_RUNS)
               for effect in range(run_count(plan.levels, plan.k)) for times in (1, -7)]


# ---- added factors, block words, repeats ----

def both(why, plan):
    """Spread run sums of a plan, and the same with the second total changed by 1."""
    own = done(why, plan, spread(run_count(plan.levels, plan.k)))
    return [own, one_changed(own, 1, 1)]


def words_of(labels):
    """Words by their letters."""
    return tuple(row_number(label) for label in labels.split())


MET = Plan(2, 2, ((3, 0),))
OF_TABLE_12_4 = [("AMCP, Table 12-4, plan %d" % number, amcp.fractional_plan(number)) for number in amcp.SCREENED]
BESIDE = [
    own for why, plan in (
        *OF_TABLE_12_4,
        ("C is AB, with sign 1", Plan(2, 2, ((3, 1),))),
        ("D is ABC, block word AB", Plan(2, 3, ((7, 0),), (3,))),
        ("D is ABC with sign 1, block word AB, 2 repeats", Plan(2, 3, ((7, 1),), (3,), 2)),
        ("block words AD, ABC", Plan(2, 4, (), words_of("AD ABC"))),
        ("block words AB, BC, 4 repeats", Plan(2, 3, (), words_of("AB BC"), 4)),
        ("block words AD, BE, ABC", Plan(2, 5, (), words_of("AD BE ABC"))),
        ("block words AB, CD, EF, ACE", Plan(2, 6, (), words_of("AB CD EF ACE"))),
        ("three blocks, word 4", Plan(3, 2, (), (4,))),
        ("three blocks, word 7, 8 repeats", Plan(3, 2, (), (7,), 8)),
        ("three blocks, word 22", Plan(3, 3, (), (22,))),
        ("k = 1, 2 repeats", Plan(2, 1, repeats=2)),
        ("k = 2, 8 repeats", Plan(2, 2, repeats=8)),
        ("k = 4, 4 repeats", Plan(2, 4, repeats=4)),
        ("three levels, k = 1, 4 repeats", Plan(3, 1, repeats=4)),
        ("three levels, k = 2, 2 repeats", Plan(3, 2, repeats=2)),
    ) for own in both(why, plan)
] + [
    done("run sums 3, 5, 4, 8 of 2 repeats, which no two equal readings have", Plan(2, 2, repeats=2), FOUR),
    done("run sums 2, 5, 3 of 8 repeats at three levels", Plan(3, 1, repeats=8), [2, 5, 3]),
    done("run sums 3, 5, 4, 8 of 8 repeats, C added", Plan(2, 2, ((3, 1),), (), 8), FOUR),
]


# ---- every number, and the order of checks ----

def with_plan(number, plan):
    """A refused plan: alone with totals and lengths that would do, with lengths that are wrong, and with totals that no
    readings have."""
    text, own = plan_text(plan), [0] * count_of(plan)
    return [
        refused(number, text, plan, own),
        refused(number, "%s, and 11: a reading fewer" % text, plan, own, len(own) - 1),
        refused(number, "%s, and 11: a total more" % text, plan, own + [0]),
        refused(number, "%s, and 14: a total of 1" % text, plan, [1] + own[1:]),
        refused(number, "%s, and 14: the least total" % text, plan, [LEAST] + own[1:]),
    ]


def wrong_lengths(why, plan, *lengths):
    """11: pairs of how many totals and how many readings there are; the totals are all 0."""
    return [refused(11, "%s, %d totals, %d readings" % (why, totals, places), plan, [0] * totals, places)
            for totals, places in lengths]


ALONE = [own for number, plan in REFUSED_PLANS for own in with_plan(number, plan)] + (
    wrong_lengths("k = 2", TWO, (3, 4), (5, 4), (4, 3), (4, 5), (3, 3), (5, 5), (0, 4), (4, 0), (0, 0), (3, 5), (5, 3), (8, 8),
                  (1, 1))
    + wrong_lengths("k = 2, 2 repeats", TWO._replace(repeats=2), (4, 8), (8, 4), (8, 8), (2, 4))
    + wrong_lengths("k = 2, C is AB", MET, (8, 8), (8, 4), (4, 8))
    + wrong_lengths("three levels, k = 2", NINE_RUNS, (4, 4), (4, 9), (9, 4), (8, 9), (9, 8), (10, 10))
    + wrong_lengths("three levels, k = 1, 8 repeats", Plan(3, 1, repeats=8), (3, 24), (24, 3))
    + wrong_lengths("k = 10", TEN, (1023, 1024), (1024, 1023), (1025, 1025), (1024, 1025), (1025, 1024), (1100, 1100),
                    (0, 1024))
    + wrong_lengths("three levels, k = 6", SIX, (728, 729), (729, 728), (729, 730), (64, 64), (1024, 1024))
    + wrong_lengths("k = 9, 2 repeats", Plan(2, 9, repeats=2), (512, 1024), (1024, 512), (1024, 1024)))

# Some have three numbers. There is no 12 and no 13: totals may be of any size, and marks there are none.
THREE_TIMES = TWO._replace(repeats=3)
ORDER = [
    refused(16, "16 and 11: 3 repeats, 3 totals", THREE_TIMES, FOUR_TOTALS[:3], 4),
    refused(16, "16 and 11: 3 repeats, 12 readings", THREE_TIMES, FOUR_TOTALS, 12),
    refused(16, "16 and 14: 3 repeats, 20, -6, -4, 3", THREE_TIMES, [20, -6, -4, 3]),
    refused(16, "16, 11 and 14: 3 repeats, no readings, the least total", THREE_TIMES, [LEAST, 1], 0),
    refused(16, "16 and 11: k = 10, 2 repeats, 1,024 readings", Plan(2, 10, repeats=2), [0] * 4, 1024),
    refused(8, "8 and 16: block words AB, ABC, 3 repeats", Plan(2, 3, (), (3, 7), 3)),
    refused(8, "8, 16, 11 and 14", Plan(2, 3, (), (3, 7), 3), [1, LARGEST], 3),
    refused(7, "7 and 14: block words AB, AB", Plan(2, 3, (), (3, 3)), [1] * 8),
    refused(5, "5 and 11: three levels, block word 5, 4 totals", Plan(3, 2, (), (5,)), FOUR_TOTALS, 9),
    refused(4, "4 and 14: three levels, an added factor", Plan(3, 2, ((3, 0),)), [1] * 9),
    refused(3, "3 and 11: k = 0, no totals", Plan(2, 0), [], 0),
    refused(3, "3 and 11: k = 11", Plan(2, 11), [0] * 1024, 1024),
    refused(2, "2 and 14: levels 4, a total of 1", Plan(4, 1), [1, 0, 0, 0], 4),
    refused(2, "2, 3, 11 and 14", Plan(4, 11), [LEAST], 2),
    refused(11, "11 and 14: 20, -6, -4, 3, 3 readings", TWO, [20, -6, -4, 3], 3),
    refused(11, "11 and 14: 20, -6, -4, 3, 5 readings", TWO, [20, -6, -4, 3], 5),
    refused(11, "11 and 14: 20, -6, 3", TWO, [20, -6, 3], 4),
    refused(11, "11 and 14: the least total, 3 readings", TWO, [LEAST] * 4, 3),
    refused(11, "11 and 14: the largest total, 3 totals", TWO, [LARGEST] * 3, 4),
    refused(11, "11 and 14: a run beyond the limit, 4 readings of 2 runs", ONE, [2 * TOP[2] + 2, 0], 4),
    refused(11, "11 and 14: three levels, 1, 0, 0, no readings", THREE_RUNS, [1, 0, 0], 0),
    refused(11, "11 and 14: three levels, the least total, 2 readings", THREE_RUNS, [LEAST, 0, 0], 2),
    refused(11, "11 and 14: 2 repeats, a run beyond the limit, 8 readings", TWO._replace(repeats=2), [LARGEST] * 4, 8),
    refused(14, "14 alone: 2 repeats, 20, -6, -4, 3", TWO._replace(repeats=2), [20, -6, -4, 3]),
    refused(14, "14, and 21 of another call: C is AB, 20, -6, -4, 3", MET, [20, -6, -4, 3]),
    done("no number: C is AB, 20, -6, -4, 2", MET, FOUR, FOUR_TOTALS),
    done("all 0", TWO, [0] * 4),
    done("three levels, all 0", THREE_RUNS, [0] * 3),
]


# ---- inputs that are made ----

SEED, MADE_COUNT = 395_014, 120


def made_plan(numbers):
    """An accepted plan of up to 32 runs, of 27 at three levels, with added factors, block words and repeats."""
    while True:
        if numbers.below(3) == 0:
            k = numbers.choose((1, 2, 2, 3))
            plan = Plan(3, k, (), (numbers.choose(three_words(k)),) if k > 1 and numbers.below(2) else (),
                        numbers.choose(totals_rules.REPEATS))
        else:
            k = numbers.choose((1, 2, 3, 3, 4, 5))
            added = tuple((numbers.below(2 ** k), numbers.below(2)) for _ in range(numbers.below(3)))
            blocks = tuple(numbers.below(2 ** k) for _ in range(numbers.below(4) // 2))
            plan = Plan(2, k, added, blocks, numbers.choose(totals_rules.REPEATS))
        if totals_rules.plan_answer(plan) == DONE:
            return plan


def made_totals(numbers, plan):
    """Totals of run sums of one of four sizes, of which the largest may be beyond the limit; a third of the time they are
    changed: one by a divisor, one by 1 or by half of N, two by half of N, or all."""
    count, limit = run_count(plan.levels, plan.k), most_sum(plan)
    size = numbers.choose((9, 999, limit, limit + limit // 40))
    totals = totals_of(plan, [numbers.below(2 * size + 1) - size for _ in range(count)])
    way, place, other = numbers.below(12), numbers.below(count), numbers.below(count)
    if way == 0:
        totals[place] += totals_rules.divisor(plan.levels, plan.k, place)
    elif way == 1:
        totals[place] += numbers.choose((1, -1, count // 2))
    elif way == 2:
        totals[place] += count // 2
        totals[other] -= count // 2
    elif way == 3:
        totals = [numbers.below(2001) - 1000 for _ in range(count)]
    return totals


def made(numbers):
    """An input of a plan that is made; one in twelve has a column of another length."""
    plan = made_plan(numbers)
    totals, count = made_totals(numbers, plan), run_count(plan.levels, plan.k)
    places = count if numbers.below(12) else numbers.choose((count - 1, count + 1, count * plan.repeats + 1))
    number = recovery_rules.recover_answer(plan, totals, places)
    return Recovery(number, "made, %s" % plan_text(plan), plan, totals, places,
                    None if number else recovery_rules.recovered(plan, totals))


def all_made():
    """The inputs that are made."""
    numbers = Numbers(SEED)
    return [made(numbers) for _ in range(MADE_COUNT)]


MADE = all_made()

# By kind.
KINDS = {
    "published": PUBLISHED, "fractions": FRACTIONS, "limits": LIMITS, "any totals": ANY, "sizes": SIZES,
    "whole steps": WHOLE_STEPS, "beside": BESIDE, "alone": ALONE, "order": ORDER, "made": MADE,
}
RECOVERED = [own for kind in KINDS.values() for own in kind]


# ---- wrong programs ----

def before(place):
    """What the program puts at a place before the call."""
    return 20_000_000 + place


# What a program answers: the number, the column after the call where that is 0, and whether a place has changed.
Answer = namedtuple("Answer", "number readings changed")

# The ways of a program that is right; a wrong one has another way in one place or more.
#   order           the order of checks
#   lengths         whether 11 applies
#   is_far, far     whether a total is too large to be worked with, and the number given then
#   taken, kept     what becomes of a total that is taken over, and of a sum
#   rows, common    by levels the rows by which a factor's totals are added up, and what the sums are then too large by
#   is_left         whether a sum leaves a remainder, by its place and the number of runs
#   limit           the limit of a run sum
#   is_beyond       whether a number is beyond it
#   none            the number given where there are no readings
#   put             what is put for the run sums
#   early           whether the column is written before all is judged
RIGHT = {
    "order": totals_rules.ORDER,
    "lengths": lambda plan, totals, places: {totals, places} != {count_of(plan)},
    "is_far": lambda total: abs(total) > MOST_VALUE,
    "far": 14,
    "taken": lambda total: total,
    "kept": lambda number: number,
    "rows": {2: ((1, 1), (1, -1)), 3: ((2, 3, 1), (2, 0, -2), (2, -3, 1))},
    "common": {2: 2, 3: 6},
    "is_left": lambda own, over, place, count: own % over != 0,
    "limit": most_sum,
    "is_beyond": lambda number, limit: abs(number) > limit,
    "none": 14,
    "put": lambda plan, sums: sums,
    "early": False,
}


def cut(number, over):
    """A quotient, cut off towards 0 where it is not whole."""
    return abs(number) // over * (1 if number >= 0 else -1)


def combined(levels, rows, factor, column):
    """A column whose values of a factor are combined by rows of numbers."""
    apart = levels ** factor
    return [sum(number * column[place + (other - level) * apart] for other, number in enumerate(rows[level]))
            for place in range(len(column)) for level in [place // apart % levels]]


def sums_back(plan, totals, way):
    """The sums of a program that adds up the totals factor by factor."""
    column = [way["taken"](total) for total in totals]
    for factor in range(plan.k):
        column = [way["kept"](own) for own in combined(plan.levels, way["rows"][plan.levels], factor, column)]
    return column


def worked_out(own, way):
    """The number of a program that has judged plan and lengths, and the run sums that it finds."""
    plan, count = own.plan, count_of(own.plan)
    totals = (own.totals + [0] * count)[:count]
    if any(map(way["is_far"], totals)):
        return way["far"], None
    sums, over, limit = sums_back(plan, totals, way), way["common"][plan.levels] ** plan.k, way["limit"](plan)
    numbers = [cut(number, over) for number in sums]
    missed = any(way["is_left"](own, over, place, count) for place, own in enumerate(sums)) or any(
        way["is_beyond"](number, limit) for number in numbers)
    return way["none"] if missed else DONE, way["put"](plan, numbers)


def answered(own, **other):
    """What a program answers that is right but for some ways."""
    way = {**RIGHT, **other}
    checks = totals_rules.plan_checks(own.plan) + [
        (11, lambda: way["lengths"](own.plan, len(own.totals), own.places)),
        (14, lambda: bool(worked_out(own, way)[0]))]
    ordered = sorted(checks, key=lambda check: way["order"].index(check[0]))
    number = next((number for number, applies in ordered if applies()), DONE)
    if number not in (DONE, 14):
        return Answer(number, None, False)
    number, readings = worked_out(own, way)
    return Answer(number, None if number else readings, not number or way["early"] and readings is not None)


def right_answer(own):
    """What the rules answer."""
    return Answer(own.number, own.readings, not own.number)


def in_bits(bits):
    """What becomes of a number that is held in so many bits."""
    return lambda number: (number + 2 ** (bits - 1)) % 2 ** bits - 2 ** (bits - 1)


def size_in_bits(number):
    """The size of a number of 64 bits, again in 64 bits: that of the least is the least itself."""
    return in_bits(64)(abs(number))


def divided_first(own):
    """What a program answers that divides each total by its divisor, cut off, before it adds up."""
    levels, k = own.plan.levels, own.plan.k
    found = answered(own)
    if found.number not in (DONE, 14):
        return found
    quotients = [cut(total, totals_rules.divisor(levels, k, effect)) for effect, total in enumerate(own.totals)]
    sums = [sum(quotient * totals_rules.coefficient(levels, k, effect, run) for effect, quotient in enumerate(quotients))
            for run in range(run_count(levels, k))]
    missed = any(abs(own_sum) > most_sum(own.plan) for own_sum in sums)
    return Answer(14 if missed else DONE, None if missed else sums, not missed)


def turned_over(plan, column):
    """A column in the order in which the highest factor varies fastest."""
    levels, k = plan.levels, plan.k
    return [column[sum(digit * levels ** (k - 1 - factor) for factor, digit in enumerate(totals_rules.digits(levels, k, run)))]
            for run in range(len(column))]


def as_printed(own):
    """What a program answers that takes the totals to be high minus low, as journals print them."""
    if own.plan.levels != 2:
        return answered(own)
    return answered(own._replace(totals=[total * (-1) ** totals_rules.letter_count(effect)
                                         for effect, total in enumerate(own.totals)]))


def cut_each(own):
    """What a program answers that divides after each factor, cut off, and looks for remainders after the last alone."""
    levels, column, found = own.plan.levels, own.totals, answered(own)
    if found.number not in (DONE, 14):
        return found
    over, sums = RIGHT["common"][levels], []
    for factor in range(own.plan.k):
        sums = combined(levels, RIGHT["rows"][levels], factor, column)
        column = [cut(own_sum, over) for own_sum in sums]
    missed = any(own_sum % over for own_sum in sums) or any(abs(number) > most_sum(own.plan) for number in column)
    return Answer(14 if missed else DONE, None if missed else column, not missed)


def no_plan_with(number, applies):
    """A program that refuses some of the plans with a number."""
    return lambda own: (Answer(number, None, False) if totals_rules.plan_answer(own.plan) == DONE and applies(own.plan)
                        else answered(own))


def remainders(of_run):
    """The way of a program that looks for remainders in some runs alone, by their places and the number of runs."""
    return {"is_left": lambda own, over, place, count: of_run(place, count) and own % over != 0}


def remainders_by(divisor):
    """The way of one that divides by another number than the denominator."""
    return {"is_left": lambda own, over, place, count: own % divisor(over) != 0}


def of_rows(two=RIGHT["rows"][2], three=RIGHT["rows"][3]):
    """The way of one that has other rows."""
    return {"rows": {2: two, 3: three}}


def lengths(wrong):
    """The way of one that has another 11, by the numbers of runs, totals, readings lent, and repeats."""
    return {"lengths": lambda plan, totals, places: wrong(count_of(plan), totals, places, plan.repeats)}


def two_to(over):
    """The power of 2 in a denominator."""
    return over & -over


NEVER = {"is_far": lambda total: False}
WAYS = {
    "remainders are cut off": remainders(lambda place, count: False),
    "remainders of run 0 alone": remainders(lambda place, count: place == 0),
    "remainders of the last run alone": remainders(lambda place, count: place == count - 1),
    "remainders of all runs but two": remainders(lambda place, count: 0 < place < count - 1),
    "remainders of every second run": remainders(lambda place, count: place % 2 == 0),
    "odd sums alone leave a remainder": remainders_by(lambda over: 2),
    "remainders of one factor's denominator": remainders_by(lambda over: 2 if over == two_to(over) else 6),
    "remainders by the power of 2": remainders_by(two_to),
    "remainders by the power of 3": remainders_by(lambda over: over if over == two_to(over) else over // two_to(over)),
    "remainders by twice the denominator": remainders_by(lambda over: 2 * over),
    "over 3 at three levels": {"common": {2: 2, 3: 3}},
    "over 2 at three levels": {"common": {2: 2, 3: 2}},
    "over 4 at two levels": {"common": {2: 4, 3: 6}},
    "a sign turned at two levels": of_rows(two=((1, 1), (-1, 1))),
    "second minus first at two levels": of_rows(two=((1, -1), (1, 1))),
    "a sign turned at three levels": of_rows(three=((2, -3, 1), (2, 0, -2), (2, 3, 1))),
    "the middle sign turned at three levels": of_rows(three=((2, 3, 1), (2, 0, 2), (2, -3, 1))),
    "weights left out at three levels": of_rows(three=((1, 1, 1), (1, 0, -2), (1, -1, 1))),
    "a pass at three levels": of_rows(three=((1, 1, 1), (1, 0, -1), (1, -2, 1))),
    "the limit of a pass for that of readings": {"limit": lambda plan: MOST_VALUE},
    "the limit of two levels at three": {"limit": lambda plan: plan.repeats * TOP[2]},
    "the limit of three levels at two": {"limit": lambda plan: plan.repeats * TOP[3]},
    "the limit of one reading": {"limit": lambda plan: TOP[plan.levels]},
    "the limit of 8 repeats": {"limit": lambda plan: 8 * TOP[plan.levels]},
    "the limit of one repeat more": {"limit": lambda plan: (plan.repeats + 1) * TOP[plan.levels]},
    "the limit itself is beyond": {"is_beyond": lambda number, limit: abs(number) >= limit},
    "one beyond the limit is not": {"is_beyond": lambda number, limit: abs(number) > limit + 1},
    "the upper limit alone": {"is_beyond": lambda number, limit: number > limit},
    "the lower limit alone": {"is_beyond": lambda number, limit: number < -limit},
    "12 for totals beyond the limit of a pass": {"far": 12},
    "12 for no readings": {"none": 12},
    "12 for both": {"none": 12, "far": 12},
    "13 for both": {"none": 13, "far": 13},
    "the limit of a pass itself is beyond": {"is_far": lambda total: abs(total) >= MOST_VALUE},
    "the former limit of a pass": {"is_far": lambda total: abs(total) > 409_600_000},
    "totals beyond the limit of readings": {"is_far": lambda total: abs(total) > TOP[2]},
    "sums of 64 bits": {**NEVER, "kept": in_bits(64)},
    "sums of 64 bits, sizes too": {"is_far": lambda total: size_in_bits(total) > MOST_VALUE, "kept": in_bits(64)},
    "sums of 32 bits": {"kept": in_bits(32)},
    "totals of 32 bits": {**NEVER, "taken": in_bits(32)},
    "numbers of 32 bits": {**NEVER, "is_beyond": lambda number, limit: abs(in_bits(32)(number)) > limit,
                           "put": lambda plan, sums: [in_bits(32)(own) for own in sums]},
    "totals cut to the limit of a pass": {**NEVER, "taken": lambda total: max(-MOST_VALUE, min(MOST_VALUE, total))},
    "11 before 16": {"order": after(11, 8)},
    "14 before 16": {"order": after(14, 8)},
    "14 before 11": {"order": after(14, 10)},
    "16 after 11": {"order": after(16, 11)},
    "16 after 14": {"order": after(16, 14)},
    "the number of totals alone": lengths(lambda count, totals, places, repeats: totals != count),
    "the number of readings alone": lengths(lambda count, totals, places, repeats: places != count),
    "totals as many as readings": lengths(lambda count, totals, places, repeats: totals != places),
    "too few alone": lengths(lambda count, totals, places, repeats: min(totals, places) < count),
    "too many alone": lengths(lambda count, totals, places, repeats: max(totals, places) > count),
    "a place for each reading": lengths(lambda count, totals, places, repeats: (totals, places) != (count, count * repeats)),
    "a total for each reading": lengths(lambda count, totals, places, repeats: (totals, places) != (count * repeats, count)),
    "sums over repeats": {"put": lambda plan, sums: [cut(own, plan.repeats) for own in sums]},
    "written before all is judged": {"early": True},
    "the first place is not written": {"put": lambda plan, sums: [before(0), *sums[1:]]},
    "the last place is not written": {"put": lambda plan, sums: [*sums[:-1], before(len(sums) - 1)]},
    "the last factor first": {"put": turned_over},
    "backwards": {"put": lambda plan, sums: sums[::-1]},
    "sizes alone": {"put": lambda plan, sums: [abs(own) for own in sums]},
    "one constant column": {"put": lambda plan, sums: FOUR},
}
WRONG = {name: (lambda own, other=other: answered(own, **other)) for name, other in WAYS.items()}
WRONG.update({
    "divided before it adds up": divided_first,
    "cut off after each factor": cut_each,
    "totals high minus low": as_printed,
    "no added factors": no_plan_with(4, lambda plan: bool(plan.added)),
    "no blocks": no_plan_with(4, lambda plan: bool(plan.blocks)),
    "screening plans alone": no_plan_with(21, lambda plan: bool(screening_rules.meetings(plan))),
    "two levels alone": no_plan_with(9, lambda plan: plan.levels == 3),
    "no repeats": no_plan_with(16, lambda plan: plan.repeats > 1),
    "every plan refused": lambda own: Answer(2, None, False),
    "14 always": lambda own: Answer(own.number or 14, None, False),
})


def told_apart(name):
    """The inputs to which a wrong program gives another answer."""
    return [own for own in RECOVERED if WRONG[name](own) != right_answer(own)]


# ---- checks ----

# Those of few runs first, on which programs are quick.
BY_SIZE = sorted(RECOVERED, key=lambda own: len(own.totals))
FEW_RUNS = 128


def check_numbers():
    """Number and readings of every input are those that the rules give. No input is tried twice."""
    complaints = []
    for own in RECOVERED:
        number = recovery_rules.recover_answer(own.plan, own.totals, own.places)
        if number != own.number:
            complaints.append("recovery, %s: %d, listed %d" % (own.why, number, own.number))
        elif number == DONE and recovery_rules.recovered(own.plan, own.totals) != own.readings:
            complaints.append("recovery, %s: other readings" % own.why)
    if len({repr(own[2:5]) for own in RECOVERED}) != len(RECOVERED):
        complaints.append("recovery: an input is tried twice")
    return complaints


# Of the examples: how many totals there are, and how many of them are printed.
TOTALS_SHOWN = 380, 272


def check_shown():
    """As many totals are printed as listed."""
    shown = [own for example in examples.EXAMPLES for own in examples.totals_shown(example)]
    found = len(shown), sum(own is not None for own in shown)
    return [] if found == TOTALS_SHOWN else ["recovery: %d totals, %d of them printed" % found]


def check_wrong():
    """By inputs of few runs a right program is not told apart, and every wrong one is told apart by some input. Every number is
    among the answers, and the inputs that are made are of all kinds."""
    complaints = ["recovery, %s: a program that is right answers otherwise" % own.why
                  for own in BY_SIZE if len(own.totals) <= FEW_RUNS and answered(own) != right_answer(own)]
    complaints += ["recovery: %s is not told apart" % name for name, answer in WRONG.items()
                   if not any(answer(own) != right_answer(own) for own in BY_SIZE)]
    if {own.number for own in RECOVERED} != {DONE, *range(2, 9), 11, 14, 16}:
        complaints.append("recovery: a number is not tried, or another")
    if {own.number for own in MADE} != {DONE, 11, 14}:
        complaints.append("recovery: those that are made are not of all kinds")
    return complaints


def check_lent():
    """The program can lend as much as every input wants, and read it. What a place holds before is no run sum, and the
    checksum tells an exchange of two numbers."""
    complaints = ["recovery, %s: too many places, or bytes" % own.why for own in RECOVERED
                  if max(len(own.totals), own.places) > MOST_LENT or len(record(own)) - 2 > MOST_BYTES]
    largest = max(totals_rules.REPEATS) * max(TOP.values())
    if min(before(place) for place in range(MOST_LENT)) <= largest or any(
            pow(FACTOR, apart, PRIME) == 1 for apart in range(1, MOST_LENT)):
        complaints.append("recovery: what a place holds before, or the checksum")
    return complaints


def check():
    """List of all complaints about inputs of the recovery call."""
    return check_numbers() + check_shown() + check_wrong() + check_lent()


# ---- expected text ----

# The places up to which the program writes every number, and of more how many at either end; the prime of the checksum, and
# the number with which it is multiplied.
FEW_PLACES, ENDS = 100, 4
PRIME, FACTOR = 2_147_483_647, 31


def column_text(column):
    """What the program writes of a column that a call has filled."""
    if len(column) <= FEW_PLACES:
        return "readings" + examples.values_text(column)
    return "readings %d, first%s, last%s, checksum %d" % (
        len(column), examples.values_text(column[:ENDS]), examples.values_text(column[-ENDS:]), checksum(column, FACTOR, PRIME))


def recovered_text(own):
    """What the program writes of an input."""
    return "refused %d, unchanged" % own.number if own.number else column_text(own.readings) + ", changed"


def expected_text():
    """What the program must write."""
    return numbered(map(recovered_text, RECOVERED))


# ---- input ----

def record(own):
    """The record of an input: length, the plan's fields, and field 9. Totals of 0 at the end are left out."""
    last = max((place for place, total in enumerate(own.totals) if total), default=-1)
    rest = own.places.to_bytes(2, "big") + len(own.totals).to_bytes(2, "big") + b"".join(
        total.to_bytes(TOTAL_LENGTH, "big", signed=True) for total in own.totals[:last + 1])
    fields = b"".join(sheet_bytes.fields_written(own.plan, [], [])[:-2]) + sheet_bytes.field(REST, rest)
    return len(fields).to_bytes(2, "big") + fields


def inputs():
    """The input of the program: all records."""
    return b"".join(map(record, RECOVERED))


def list_text():
    """A line for each record: what is tried, and its number."""
    return numbered(["%s, %s" % (kind, own.why) for kind, listed in KINDS.items() for own in listed])


if __name__ == "__main__":
    found = check()
    if found:
        sys.exit("\n".join(found))
    if "inputs" in sys.argv[1:]:
        sys.stdout.buffer.write(inputs())
    else:
        sys.stdout.write(list_text() if "list" in sys.argv[1:] else expected_text())
