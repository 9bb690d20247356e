# Sheets for the program factab, and the text that it must print for each: sheets with a name, whose numbers are listed
# here; 450 that are made by numbers from a fixed seed; and 300 that are made so with readings near the limits, as in
# sheet_cases.py. rules/text.py makes the texts.
#
# The program worked_texts reads records, one for each sheet in this order: length, two bytes and big-endian, then so
# many bytes of a sheet. It writes for each record the text of its sheet, and nothing between these texts.
#
# A sheet that is made is lawful, spoiled or damaged, about a third each. It is spoiled before it is written: what it
# holds is changed so that a refusal of the rules applies, and none before it in the order of checks. Where it is spoiled
# for several refusals, the first of their numbers in that order is the answer. It is damaged after it is written, in a
# way of sheet_cases.py, and then its number is not listed.
#
# Defined here:
#   RULES_SHEET, RULES_TEXT   the example of the rules: its sheet, and the text that they print
#   TWICE_SHEET, TWICE_TEXT   two runs that are made twice: their sheet, and the text, worked by hand
#   NINE_SHEET, NINE_TEXT     nine runs in three blocks: their sheet, and the text, worked by hand
#   SIZES                   levels and factors of all sizes of plans; SIZES_REPEATED: the same with repeats
#   Case                    a sheet with a name; number is the answer that the rules give, None if it is not listed
#   CASES                   the sheets with a name
#   plan_with, made_plan, made_readings, made_marks, made_contents   lawful plans, readings and marks
#   SPOILS, spoiled         ways to spoil these, by refusal, and what is spoiled in one to three of them
#   made, MADE              a sheet that is made, of one of some sizes of plans; the 450 of them
#   near, NEAR              a sheet that is made with readings near the limits; the 300 of them
#   Printed, printed        the figures of a text, as they are printed
#   check                   list of complaints, empty if all is well
#   expected_text           the expected text
#   inputs                  the input of the program (text_cases.py inputs)
#   list_text               a line for each sheet, with its number, answer and name (text_cases.py list)

import re
import sys
from collections import Counter, namedtuple
from functools import lru_cache
from itertools import combinations
from os.path import abspath, dirname

sys.path.insert(0, dirname(dirname(dirname(abspath(__file__)))))

from reference.cases import sheet_cases
from reference.cases.answers import named
from reference.published import analyses
from reference.rules import sheet_bytes
from reference.rules import table as table_rules
from reference.rules import text as text_rules
from reference.rules import totals as totals_rules
from reference.rules.sheet_bytes import Contents
from reference.rules.table import BLOCKS, ERROR, KEPT, MEAN, row_number
from reference.rules.totals import DONE, Plan

# table: the table of published/analyses.py that the sheet is of, if it is of one. alone: what the reader answers if that
# is another number, because the sheet is too long.
Case = namedtuple("Case", "number name sheet table alone", defaults=(None, None))

MOST_INPUT, MOST_TEXT = 400_000, 450_000
TOP = totals_rules.MOST_READING

# At two levels.
MOST_ADDED, MOST_BLOCK_WORDS = totals_rules.MOST_ADDED[2], totals_rules.MOST_BLOCK_WORDS[2]

SIZES = [(levels, k) for levels, most in totals_rules.MOST_FACTORS.items() for k in range(1, most + 1)]
SIZES_REPEATED = [(levels, k, repeats) for levels, k in SIZES for repeats in totals_rules.REPEATS[1:]
                  if totals_rules.run_count(levels, k) * repeats <= totals_rules.MOST_READINGS]

# The program's text for 3, 5, 4, 8 with marks 0, 0, 0, 1, as the rules print it.
RULES_SHEET = sheet_bytes.write(Plan(2, 2), [3, 5, 4, 8], [0, 0, 0, 1])
RULES_TEXT = b"""\
over 4
mean 1 400
A 1 36
B 1 16
AB 1 4 error
blocks 0 0
error 1 4
total 4 456
check 12 12
"""

# Runs made twice, with readings 3, 5 and 4, 8: run sums 8 and 12, means 4 and 6, totals 20 and -4. About the means the squares
# are 1, 1, 4 and 4, over 4 they are 40; the four readings have the sum of squares 114.
TWICE_SHEET = sheet_bytes.write(Plan(2, 1, repeats=2), [3, 5, 4, 8], [0, 0])
TWICE_TEXT = b"""\
over 4
mean 1 400
A 1 16
blocks 0 0
error 2 40
total 4 456
check 16 16
"""

# Two factors at three levels in three blocks, the word A B. The blocks have 2 + 6 + 8, 5 + 1 + 9 and 3 + 4 + 7, which are 16,
# 15 and 14; their squares, over 3 and over 36, are 8124, of which the mean's square term is 8100. The row AB would have 240
# with 4 degrees.
NINE_SHEET = sheet_bytes.write(Plan(3, 2, (), (4,)), [2, 5, 3, 1, 4, 6, 7, 8, 9], [0, 0, 0, 0])
NINE_TEXT = b"""\
over 36
mean 1 8100
A 2 456
B 2 1464
AB 2 216
blocks 2 24
error 0 0
total 9 10260
check 29 29
"""


# ---- sheets with a name: tables ----

def of_table(own):
    """The sheet of a worked table."""
    return Case(DONE, own.title, sheet_bytes.write(own.plan, own.readings, analyses.marks_of(own)), own)


def lawful(name, plan, readings, marks):
    """A sheet that is accepted."""
    return Case(DONE, name, sheet_bytes.write(plan, readings, marks))


def no_marks(plan):
    """Mark 0 on every row."""
    return [0] * table_rules.row_count(plan.k)


def all_marks(plan):
    """Mark 1 on every row that may have it."""
    return [int(kind == KEPT) for kind in table_rules.row_kinds(plan, no_marks(plan))]


def one_reading(plan, place, reading):
    """A reading at one place, and 0 at the others."""
    return [reading if own == place else 0 for own in range(totals_rules.reading_count(plan))]


def alternating(plan, first):
    """A reading and its opposite in turn from run to run. At three levels the sum of totals is then as far from 0 as it can
    be."""
    values = [-first if run % 2 else first for run in range(totals_rules.run_count(plan.levels, plan.k))]
    return analyses.each(plan, values)


def of_size(levels, k, repeats=1):
    """A sheet of so many levels, factors and repeats, with readings spread out and every third row marked."""
    plan = Plan(levels, k, repeats=repeats)
    readings = sheet_cases.spread(levels, totals_rules.reading_count(plan))
    return lawful("%s, %d factors, spread" % (named(plan), k), plan, readings, sheet_cases.every_third(plan))


# The example of the rules comes first.
WORKED = ([of_table(analyses.RULES_TWO_FACTORS)]
          + [of_table(own) for own in analyses.TABLES if own is not analyses.RULES_TWO_FACTORS])

# The largest plans are among the worked tables.
EVERY_SIZE = ([of_size(levels, k) for levels, k in SIZES if k < totals_rules.MOST_FACTORS[levels]]
              + [of_size(*size) for size in SIZES_REPEATED])

ONE, TWO, THREE, EIGHT_FACTORS, SIX = Plan(2, 1), Plan(2, 2), Plan(2, 3), Plan(2, 8), Plan(3, 6)
FOUR, EIGHT = [3, 5, 4, 8], [1, 2, 3, 4, 5, 6, 7, 8]
IN_BLOCKS = Plan(2, 4, (), (row_number("AD"), row_number("ABC")))
LONGEST = sheet_cases.MOST

LAWFUL = [
    lawful("readings 0, marks on all rows", THREE, [0] * 8, all_marks(THREE)),
    lawful("equal readings, all rows but the mean 0", THREE, [7] * 8, no_marks(THREE)),
    lawful("three levels, readings 0", Plan(3, 2), [0] * 9, no_marks(Plan(3, 2))),
    lawful("three levels, equal readings", Plan(3, 2), [-7] * 9, all_marks(Plan(3, 2))),
    lawful("three levels, row A 0", Plan(3, 2), [1, 1, 1, 2, 2, 2, 5, 5, 5], no_marks(Plan(3, 2))),
    lawful("mean 0, check numbers below 0", TWO, [-3, 1, 1, 1], no_marks(TWO)),
    lawful("first reading 0, check numbers 0", TWO, [0, 5, -4, 8], no_marks(TWO)),
    lawful("marks on all rows, one factor", ONE, [-TOP[2], TOP[2]], all_marks(ONE)),
    lawful("marks on all rows, blocks AD, ABC, BCD", IN_BLOCKS, range(16), all_marks(IN_BLOCKS)),
    lawful("marks on all rows, three levels", Plan(3, 3), sheet_cases.spread(3, 27), all_marks(Plan(3, 3))),
    lawful("no kept row: k = 2, block word AB, marks on A and B", Plan(2, 2, (), (3,)), FOUR, [0, 1, 1, 0]),
    lawful("eight factors, the first reading at the lower limit, others 0",
           EIGHT_FACTORS, one_reading(EIGHT_FACTORS, 0, -TOP[2]), no_marks(EIGHT_FACTORS)),
    lawful("the longest sheet, alternating from the lower limit, marks on all rows",
           LONGEST, alternating(LONGEST, -TOP[2]), all_marks(LONGEST)),
    lawful("six factors at three levels, alternating from the lower limit, marks on all rows",
           SIX, alternating(SIX, -TOP[3]), all_marks(SIX)),
    lawful("six factors at three levels, the last reading at the lower limit, others 0",
           SIX, one_reading(SIX, 728, -TOP[3]), no_marks(SIX)),
]

# With repeats; the first is the one that is worked by hand.
ONE_2, THREE_4, NINE_2 = Plan(2, 1, repeats=2), Plan(2, 3, repeats=4), Plan(2, 9, repeats=2)
TWO_BY_THREE, THREE_BY_THREE = Plan(3, 1, repeats=2), Plan(3, 2, repeats=8)
IN_BLOCKS_4 = IN_BLOCKS._replace(repeats=4)
LAWFUL_REPEATED = [
    Case(DONE, "2 repeats, 3, 5 and 4, 8", TWICE_SHEET),
    lawful("2 repeats, 3, 5 and 4, 8, row A marked", ONE_2, FOUR, all_marks(ONE_2)),
    lawful("2 repeats, runs the same, so that nothing is about their means", ONE_2, [3, 3, 8, 8], no_marks(ONE_2)),
    lawful("2 repeats, run sums 0, so that all is about their means", ONE_2, [3, -3, -8, 8], no_marks(ONE_2)),
    lawful("8 repeats, one factor, a mean that is no whole number", Plan(2, 1, repeats=8), [0] * 7 + [1] + [0] * 8, [0, 0]),
    lawful("4 repeats, one factor, a mean that is no whole number", Plan(2, 1, repeats=4), [0, 0, 0, 1, 0, 1, 1, 1], [0, 1]),
    lawful("4 repeats, readings 0, marks on all rows", THREE_4, [0] * 32, all_marks(THREE_4)),
    lawful("4 repeats, the last reading at the lower limit, others 0", THREE_4, one_reading(THREE_4, 31, -TOP[2]),
           no_marks(THREE_4)),
    lawful("4 repeats, marks on all rows, blocks AD, ABC, BCD", IN_BLOCKS_4, range(64), all_marks(IN_BLOCKS_4)),
    lawful("three levels, 2 repeats, one factor", TWO_BY_THREE, [2, 5, 3, 1, 4, 6], no_marks(TWO_BY_THREE)),
    lawful("three levels, 8 repeats, marks on all rows", THREE_BY_THREE, sheet_cases.spread(3, 72), all_marks(THREE_BY_THREE)),
    lawful("three levels, 8 repeats, alternating from the lower limit", THREE_BY_THREE, alternating(THREE_BY_THREE, -TOP[3]),
           no_marks(THREE_BY_THREE)),
    lawful("the longest sheet with repeats, alternating from the upper limit, marks on all rows",
           sheet_cases.MOST_2, alternating(sheet_cases.MOST_2, TOP[2]), all_marks(sheet_cases.MOST_2)),
    lawful("nine factors, 2 repeats, both limits in turn", NINE_2, analyses.in_turn(NINE_2, TOP[2]), no_marks(NINE_2)),
]


# Three levels in three blocks; the first is the one that is worked by hand. The numbers 4 and 13 are as sets of letters C,
# and A, C, D; 10 is B, D.
def in_three(k, word, repeats=1):
    """A three-level plan in three blocks."""
    return Plan(3, k, (), (word,), repeats)


NINE, NINE_BLOCKED, ALL_ONES = sheet_cases.NINE, in_three(2, 4), in_three(3, 13)
LAWFUL_IN_THREE = [
    Case(DONE, "three levels, block word 4, nine readings", NINE_SHEET),
    lawful("three levels, block word 4, the row of the word marked", NINE_BLOCKED, NINE, [0, 0, 0, 1]),
    lawful("three levels, block word 7", in_three(2, 7), NINE, no_marks(NINE_BLOCKED)),
    lawful("three levels, block word 7, marks on all rows", in_three(2, 7), NINE, all_marks(NINE_BLOCKED)),
    lawful("three levels, block word 4, readings 0", NINE_BLOCKED, [0] * 9, all_marks(NINE_BLOCKED)),
    lawful("three levels, block word 4, equal readings", NINE_BLOCKED, [-7] * 9, no_marks(NINE_BLOCKED)),
    lawful("three levels, block word 4, equal readings in each block", NINE_BLOCKED,
           analyses.by_blocks(NINE_BLOCKED, (5, -3, 8)), no_marks(NINE_BLOCKED)),
    lawful("three levels, block word 4, equal block sums", NINE_BLOCKED, [1, 2, 3, 4, 5, 6, 1, -1, 0], [0, 0, 0, 1]),
    lawful("three levels, block word 4, 2 repeats", in_three(2, 4, 2), range(18), no_marks(NINE_BLOCKED)),
    lawful("three levels, block word 7, 8 repeats, the row of the word marked", in_three(2, 7, 8), sheet_cases.spread(3, 72),
           [0, 0, 0, 1]),
    lawful("three levels, block word 13, 4 repeats, marks on all rows", in_three(3, 13, 4), sheet_cases.spread(3, 108),
           all_marks(ALL_ONES)),
    lawful("three levels, block word 13, alternating from the lower limit", ALL_ONES, alternating(ALL_ONES, -TOP[3]),
           no_marks(ALL_ONES)),
] + [
    lawful("three levels, three factors, block word %d" % word, in_three(3, word), sheet_cases.spread(3, 27),
           sheet_cases.every_third(in_three(3, word))) for word in (4, 7, 10, 12, 13, 16, 19, 21, 22, 25)
] + [
    lawful("three levels, %d factors, block word %d" % (k, word), in_three(k, word),
           sheet_cases.spread(3, 3 ** k), sheet_cases.every_third(in_three(k, word))) for k, word in ((4, 30), (5, 241), (6, 567))
]


# ---- sheets with a name: refused ----

def refused(number, name, plan, readings, marks=None):
    """A sheet that is refused; marks 0 where they are not said."""
    return Case(number, name, sheet_bytes.write(plan, readings, no_marks(plan) if marks is None else marks))


AB, ABC, C = row_number("AB"), row_number("ABC"), row_number("C")


def small(number, name, plan, readings, marks=None):
    """The small input of a refusal."""
    return refused(number, "small input of %d: %s" % (number, name), plan, readings, marks)


# The small inputs in the table of refusals; those of 9 and 10 are no sheets.
SMALL = [
    Case(1, "small input of 1: empty sheet", b""),
    small(2, "levels 4", Plan(4, 2), FOUR),
    small(3, "three levels, k = 7", Plan(3, 7), FOUR),
    small(4, "three levels, two block words", Plan(3, 2, (), (4, 7)), NINE),
    small(5, "k = 2, block word C", Plan(2, 2, (), (C,)), FOUR),
    small(6, "AB and AB", Plan(2, 2, ((AB, 0), (AB, 0))), FOUR),
    small(7, "AB, AB, with k = 3", Plan(2, 3, (), (AB, AB)), EIGHT),
    small(8, "AB, ABC, with k = 3", Plan(2, 3, (), (AB, ABC)), EIGHT),
    small(16, "k = 2, 3 repeats", Plan(2, 2, repeats=3), EIGHT + FOUR),
    small(11, "k = 2, 3 readings", TWO, [3, 5, 4]),
    small(12, "three levels, a reading one beyond the limit", Plan(3, 1), [2, 5, TOP[3] + 1]),
    small(13, "mark 1 on row 0", TWO, FOUR, [1, 0, 0, 0]),
]

MOST_BYTES_TAKEN = 200


def taken(own):
    """Whether a sheet of sheet_cases.py is used here: it is short, and its number has nothing to do with the column."""
    return len(own.sheet) <= MOST_BYTES_TAKEN and "column" not in own.why


EARLIER = {own.sheet for own in WORKED + LAWFUL_REPEATED + LAWFUL_IN_THREE + SMALL}
TAKEN = [Case(own.number, own.why, own.sheet) for own in sheet_cases.CASES if taken(own) and own.sheet not in EARLIER]


# ---- sheets with a name: 5,187 bytes and more ----

SPREAD = sheet_cases.spread(2, 1024)
NO_MARKS, TOO_MANY_MARKS = [0] * 1024, [0] * 1025
FITTING = [
    refused(12, "5,187 bytes, the last reading one beyond the limit", LONGEST, SPREAD[:1023] + [TOP[2] + 1]),
    refused(13, "5,187 bytes, mark 1 on the last row, which is blocks", LONGEST, SPREAD, [0] * 1023 + [1]),
]


def too_long(alone, name, own_sheet):
    """A sheet that the program refuses for its length, and what the reader alone would answer."""
    return Case(1, "%s bytes, %s" % (format(len(own_sheet), ","), name), own_sheet, None, alone)


TOO_LONG = [
    too_long(1, "the longest sheet and a byte more", sheet_bytes.write(LONGEST, SPREAD, NO_MARKS) + b"\0"),
    too_long(11, "the longest sheet with a mark more", sheet_bytes.write(LONGEST, SPREAD, TOO_MANY_MARKS)),
    too_long(2, "the same with levels 4", sheet_bytes.write(LONGEST._replace(levels=4), SPREAD, TOO_MANY_MARKS)),
    too_long(4, "k = 2 and 1,000 added factors", sheet_bytes.write(Plan(2, 2, ((AB, 0),) * 1000), FOUR, [0] * 4)),
    too_long(16, "k = 10 and 2 repeats", sheet_bytes.write(LONGEST._replace(repeats=2), SPREAD, NO_MARKS)),
]

CASES = WORKED + EVERY_SIZE + LAWFUL + LAWFUL_REPEATED + LAWFUL_IN_THREE + SMALL + TAKEN + FITTING + TOO_LONG


# ---- sheets that are made: lawful contents ----

SEED = 706_112
MADE_COUNT = 450

# Levels and factors of the sheets that are made, each as often as it is here; few have many runs.
FEW_RUNS = ([(2, 1), (2, 2), (2, 3), (2, 4), (3, 1), (3, 2)] * 6 + [(2, 2), (2, 3), (2, 3), (2, 4)] * 4
            + [(2, 5), (3, 3)] * 2 + [(2, 6), (2, 7), (3, 4)])


def long_words(k):
    """The words of two or more of k letters."""
    return [word for word in range(2 ** k) if totals_rules.letter_count(word) > 1]


def plan_with(numbers, k, added_count, block_count):
    """A two-level plan with so many added factors and block words, all of two or more letters; it may be refused."""
    words = long_words(k)
    added = tuple((numbers.choose(words), numbers.below(2)) for _ in range(added_count))
    return Plan(2, k, added, tuple(numbers.choose(words) for _ in range(block_count)))


def made_plan(numbers, levels, k):
    """An accepted plan of so many levels and factors, with words or without; at three levels in blocks half of the time, if
    there are two factors."""
    if levels == 3:
        return sheet_cases.in_blocks(numbers, Plan(3, k))
    if k == 1:
        return Plan(levels, k)
    while True:
        added_count = numbers.below(MOST_ADDED + 1)
        plan = plan_with(numbers, k, added_count, numbers.below(MOST_BLOCK_WORDS + 1))
        if totals_rules.plan_answer(plan) == DONE:
            return plan


def made_readings(numbers, levels, count):
    """So many readings: any, of one size, at the limits, all equal, or one that is not 0."""
    way, top, limits = numbers.below(8), TOP[levels], sheet_cases.LIMITS[levels]
    if way < 4:
        most = numbers.choose((9, 999, top))
        return [numbers.below(2 * most + 1) - most for _ in range(count)]
    if way < 6:
        return [numbers.choose((-top, top) if way == 4 else limits) for _ in range(count)]
    reading, place = numbers.choose(limits), numbers.below(count)
    return [reading if way == 6 or run == place else 0 for run in range(count)]


def made_marks(numbers, plan):
    """Marks of a plan: on no row, on all that may have one, or on some."""
    way = numbers.below(4)
    return bytes(mark and (way == 1 or way > 1 and numbers.below(2)) for mark in all_marks(plan))


def made_contents(numbers, sizes):
    """Plan, readings and marks that are lawful, of one of some sizes; a third of the time with repeats, if it may have any."""
    levels, k = numbers.choose(sizes)
    plan = sheet_cases.with_repeats(numbers, made_plan(numbers, levels, k))
    return Contents(plan, made_readings(numbers, levels, totals_rules.reading_count(plan)), made_marks(numbers, plan))


# ---- sheets that are made: spoiled ----
#
# Each way takes numbers, and contents that are lawful or spoiled only for refusals that come later in the order of checks.
# It gives contents to which its refusal applies, and none before it.

def with_plan(contents, **values):
    """The contents with some values of the plan changed."""
    return contents._replace(plan=contents.plan._replace(**values))


def inserted(numbers, items, new, most):
    """The items, the last left out where there are the most already, and a new one anywhere among them."""
    kept = items[:most - 1]
    place = numbers.below(len(kept) + 1)
    return kept[:place] + (new,) + kept[place:]


def with_added(numbers, contents, word, sign):
    """The contents with an added factor more."""
    return with_plan(contents, added=inserted(numbers, contents.plan.added, (word, sign), MOST_ADDED))


def with_block(numbers, contents, word):
    """The contents with a block word more, at three levels with that alone."""
    most = totals_rules.MOST_BLOCK_WORDS[contents.plan.levels]
    return with_plan(contents, blocks=inserted(numbers, contents.plan.blocks, word, most))


def spoil_levels(numbers, contents):
    """Levels other than 2 or 3."""
    return with_plan(contents, levels=numbers.choose((0, 1, 4, 5, 255)))


def spoil_factors(numbers, contents):
    """k out of range."""
    most = totals_rules.MOST_FACTORS[contents.plan.levels]
    return with_plan(contents, k=numbers.choose((0, most + 1, most + 1, most + 2, 255)))


def spoil_counts(numbers, contents):
    """Over 6 added factors, over 4 block words; at three levels an added factor or a second block word, both of them numbers
    that keep the digit rule as often as not."""
    plan, more = contents.plan, numbers.choose((1, 1, 1, 2, 20))
    words = [numbers.below(2 ** plan.k) for _ in range(MOST_ADDED + more)]
    if numbers.below(2):
        added = plan.added + tuple((word, numbers.below(2)) for word in words)
        return with_plan(contents, added=added[:totals_rules.MOST_ADDED[plan.levels] + more])
    lawful_words = sheet_cases.three_words(plan.k) if plan.levels == 3 and numbers.below(2) else []
    words = [numbers.choose(lawful_words) for _ in words] if lawful_words else words
    return with_plan(contents, blocks=(plan.blocks + tuple(words))[:totals_rules.MOST_BLOCK_WORDS[plan.levels] + more])


def spoil_digits(numbers, contents):
    """A block word of three levels that breaks the digit rule: no digit that is not 0, or one; 1 and 2 exchanged; too large,
    also by a digit more; or a set of two letters or more."""
    k, way = contents.plan.k, numbers.below(6)
    size, lawful_words = 3 ** k, sheet_cases.three_words(k)
    exchanged = [sum(2 * digit % 3 * 3 ** place for place, digit in enumerate(totals_rules.digits(3, k, word)))
                 for word in lawful_words]
    choices = [[0], [digit * 3 ** factor for factor in range(k) for digit in (1, 2)], exchanged,
               [size, 65535, size + numbers.below(65536 - size)], [word + size for word in lawful_words], long_words(k)]
    bad = [word for word in choices[way] if totals_rules.bad_digits(k, word)]
    return with_block(numbers, contents, numbers.choose(bad or [0, size]))


def spoil_words(numbers, contents):
    """A letter beyond k, an added word under two letters, a sign over 1, or an empty block word; at three levels a block word
    that breaks the digit rule."""
    if contents.plan.levels == 3:
        return spoil_digits(numbers, contents)
    k, way = contents.plan.k, numbers.below(5)
    beyond = 1 << k + numbers.below(16 - k) | numbers.below(2 ** k)
    if way == 0:
        return with_block(numbers, contents, beyond)
    if way == 1:
        return with_block(numbers, contents, 0)
    if way == 2:
        return with_added(numbers, contents, beyond, numbers.below(2))
    if way == 3 or k == 1:
        return with_added(numbers, contents, numbers.choose((0, 1 << numbers.below(k))), numbers.below(2))
    return with_added(numbers, contents, numbers.choose(long_words(k)), numbers.choose((2, 3, 128, 255)))


def spoil_added(numbers, contents):
    """Two added factors with one word."""
    word = numbers.choose(long_words(contents.plan.k))
    once = inserted(numbers, contents.plan.added, (word, numbers.below(2)), MOST_ADDED - 1)
    return with_added(numbers, with_plan(contents, added=once), word, numbers.below(2))


def spoil_blocks(numbers, contents):
    """A block word is the combination of one or more others."""
    blocks = contents.plan.blocks[:MOST_BLOCK_WORDS - 1] or (1 + numbers.below(2 ** contents.plan.k - 1),)
    once = with_plan(contents, blocks=blocks)
    return with_block(numbers, once, numbers.choose(totals_rules.confounded(once.plan)))


def spoil_factor(numbers, contents):
    """A block word is one letter or an added factor's word; the other block words do not combine to that."""
    words = [1 << numbers.below(contents.plan.k)] + [word for word, _ in contents.plan.added]
    return with_block(numbers, contents, numbers.choose(words))


def spoil_repeats(numbers, contents):
    """Repeats that are not allowed; or that make too many readings, where there are enough runs."""
    most = totals_rules.MOST_READINGS // totals_rules.run_count(contents.plan.levels, contents.plan.k)
    too_large = tuple(repeats for repeats in totals_rules.REPEATS if repeats > most)
    return with_plan(contents, repeats=numbers.choose((0, 3, 5, 6, 7, 9, 10, 12, 16, 32, 64, 128, 255) + too_large * 4))


def spoil_lengths(numbers, contents):
    """Readings or marks too many or too few."""
    name = numbers.choose(("readings", "marks"))
    values = getattr(contents, name)
    return contents._replace(**{name: numbers.choose((values[:-1], values + values[:1], values[:0], values + values))})


def spoil_reading(numbers, contents):
    """A reading beyond the limit either way."""
    readings, top = list(contents.readings), TOP[contents.plan.levels]
    size = numbers.choose((top + 1, top + 1, top + 1 + numbers.below(top), sheet_cases.HIGH))
    readings[numbers.below(len(readings))] = numbers.choose((size, -size, sheet_cases.LOW))
    return contents._replace(readings=readings)


def spoil_mark(numbers, contents):
    """A mark over 1, or mark 1 on the mean or a blocks row. At three levels no row is one; that of the block word has one of
    the marks over 1 more often than others."""
    marks, row = bytearray(contents.marks), table_rules.word_row(contents.plan)
    if numbers.below(2):
        place = row if row is not None and numbers.below(2) else numbers.below(len(marks))
        marks[place] = numbers.choose((2, 3, 128, 255))
    else:
        marks[numbers.choose([0] + totals_rules.confounded(contents.plan))] = 1
    return contents._replace(marks=bytes(marks))


SPOILS = {
    2: spoil_levels,
    3: spoil_factors,
    4: spoil_counts,
    5: spoil_words,
    6: spoil_added,
    7: spoil_blocks,
    8: spoil_factor,
    16: spoil_repeats,
    11: spoil_lengths,
    12: spoil_reading,
    13: spoil_mark,
}


def refusals_for(plan):
    """The refusals for which contents of a plan may be spoiled. At three levels 6, 7 and 8 do not apply, and with one factor
    there is no word of two letters."""
    return [number for number in SPOILS
            if plan.levels == 2 or number not in (6, 7, 8) if plan.k > 1 or number != 6]


def spoiled(numbers, contents):
    """The contents spoiled for one to three refusals, the last in the order of checks first; and their numbers, in that
    order."""
    possible = refusals_for(contents.plan)
    chosen = sorted({numbers.choose(possible) for _ in range(numbers.choose((1, 1, 2, 3)))}, key=totals_rules.ORDER.index)
    for number in reversed(chosen):
        contents = SPOILS[number](numbers, contents)
    return contents, chosen


# ---- sheets that are made ----

def unless_too_long(number, own_sheet):
    """A number, or 1 where the sheet is too long."""
    return 1 if len(own_sheet) > text_rules.MOST_SHEET else number


def made(numbers, sizes):
    """A sheet that is made: lawful, spoiled or damaged; a sixth of the damaged ones twice."""
    contents, way = made_contents(numbers, sizes), numbers.below(3)
    if way == 0:
        return Case(DONE, "lawful", sheet_bytes.write(*contents))
    if way == 1:
        contents, refusals = spoiled(numbers, contents)
        own_sheet = sheet_bytes.write(*contents)
        return Case(unless_too_long(refusals[0], own_sheet), "spoiled: " + ", ".join(map(str, refusals)), own_sheet)
    ways = [numbers.choose(sheet_cases.WAYS) for _ in range(2 if numbers.below(6) == 0 else 1)]
    parts = sheet_bytes.fields_written(*contents)
    for way in ways:
        parts = sheet_cases.damaged(numbers, parts, way)
    return Case(None, "damaged: " + ", ".join(ways), b"".join(parts))


NUMBERS = sheet_cases.Numbers(SEED)
MADE = [made(NUMBERS, FEW_RUNS) for _ in range(MADE_COUNT)]

NEAR_SEED = 1937


def near(numbers):
    """A sheet that is made with readings near the limits."""
    contents, number = sheet_cases.near_contents(numbers)
    return Case(number, "%s, near the limits" % named(contents.plan), sheet_bytes.write(*contents))


NEAR_NUMBERS = sheet_cases.Numbers(NEAR_SEED)
NEAR = [near(NEAR_NUMBERS) for _ in range(sheet_cases.NEAR_COUNT)]
SHEETS = CASES + MADE + NEAR


# ---- the figures of a text ----

# rows are the lines of the rows. blocks, error and total are degrees and numerator, check the two numbers of that line.
Printed = namedtuple("Printed", "over rows blocks error total check")

# A line of a row; kind is empty for the mean and kept rows.
Row = namedtuple("Row", "label degrees numerator kind")

NUMBER, SIGNED = "(0|[1-9][0-9]*)", "(0|-?[1-9][0-9]*)"
REFUSAL = "refused %s\n" % NUMBER
FIRST = ["over " + NUMBER]
ROW = "(mean|[A-J]+) %s %s(?: (error|blocks))?" % (NUMBER, NUMBER)
LAST = ["%s %s %s" % (name, NUMBER, NUMBER) for name in (BLOCKS, ERROR, "total")]
LAST += ["check %s %s" % (SIGNED, SIGNED), ""]


def refused_of(text):
    """The number of which a text is the refusal, and 0 for any other text."""
    found = re.fullmatch(REFUSAL, text)
    return int(found[1]) if found else DONE


def printed(text):
    """The figures of the text of a table; None where its lines are not made as the rules say."""
    lines = text.split("\n")
    shapes = FIRST + [ROW] * (len(lines) - len(FIRST + LAST)) + LAST
    found = [re.fullmatch(shape, line) for shape, line in zip(shapes, lines)]
    if len(shapes) != len(lines) or None in found:
        return None
    rows = [Row(own[1], int(own[2]), int(own[3]), own[4] or "") for own in found[1:-len(LAST)]]
    return Printed(int(found[0][1]), rows, *([int(own[1]), int(own[2])] for own in found[-len(LAST):-1]))


def sums(rows):
    """Degrees and numerators of rows added up."""
    return [sum(row.degrees for row in rows), sum(row.numerator for row in rows)]


def size_of(figures):
    """Levels and repeats of a table, from its rows and what stands after `over`; None if no plan has these."""
    k = len(figures.rows).bit_length() - 1
    return next(((levels, repeats) for levels in totals_rules.MOST_FACTORS for repeats in totals_rules.REPEATS
                 if totals_rules.denominator(levels, k, repeats) == figures.over), None)


# ---- checks: the coefficients and totals of rules/text.py ----

def sample(count):
    """Numbers below a count: all up to 81, else every seventh and the last."""
    return range(count) if count <= 81 else [*range(0, count, 7), count - 1]


def check_coefficients(levels, k):
    """The coefficients of effects and runs are those of rules/totals.py: all of small plans, a sample of others."""
    numbers = sample(totals_rules.run_count(levels, k))
    for effect in numbers:
        found = text_rules.coefficients(levels, k, effect)
        if [found[run] for run in numbers] != [totals_rules.coefficient(levels, k, effect, run) for run in numbers]:
            return ["%d levels, %d factors: coefficients of effect %d" % (levels, k, effect)]
    return []


def check_totals(levels, k):
    """The totals of readings that are spread out are those of rules/totals.py; of large plans a few are compared."""
    count = totals_rules.run_count(levels, k)
    readings = sheet_cases.spread(levels, count)
    found = text_rules.totals(levels, k, readings)
    compared = range(count) if count <= 32 else (0, 1, count // 3, count - 2, count - 1)
    wrong = [effect for effect in compared if found[effect] != totals_rules.total(levels, k, readings, effect)]
    return ["%d levels, %d factors: total of effect %d" % (levels, k, effect) for effect in wrong]


# ---- checks: sheets and their texts ----

@lru_cache(maxsize=None)
def text_of(own_sheet):
    """The text of a sheet, made once."""
    return text_rules.text(own_sheet).decode()


def check_texts():
    """The text that the rules print, that which is worked by hand, the empty sheet, and one so long that 1 is printed where
    the reader answers 4."""
    complaints = []
    if text_rules.text(RULES_SHEET) != RULES_TEXT:
        complaints.append("text of 3, 5, 4, 8")
    if text_rules.text(TWICE_SHEET) != TWICE_TEXT:
        complaints.append("text of 3, 5 and 4, 8")
    if text_rules.text(NINE_SHEET) != NINE_TEXT:
        complaints.append("text of nine runs in three blocks")
    if text_rules.text(b"") != b"refused 1\n":
        complaints.append("text of the empty sheet")
    many = sheet_bytes.write(Plan(2, 2, ((3, 0),) * 1000), [3, 5, 4, 8], [0, 0, 0, 1])
    if (sheet_bytes.sheet_answer(many), text_rules.text(many)) != (4, b"refused 1\n"):
        complaints.append("text of a sheet with 1,000 added factors")
    return complaints


def word_label(own):
    """The label of the row of the letters that the word of a three-level plan uses; empty where there is none."""
    plan = sheet_bytes.contents_of(sheet_bytes.fields_of(own.sheet)).plan
    if plan.levels == 2 or not plan.blocks:
        return ""
    return "".join(letter for place, letter in enumerate("ABCDEF") if plan.blocks[0] // 3 ** place % 3)


def check_rows(own, figures):
    """Complaints about labels and degrees. The number of rows says how many factors there are, `over` what levels and
    repeats. In three blocks a row has 2 degrees less."""
    k = len(figures.rows).bit_length() - 1
    if [row.label for row in figures.rows] != [table_rules.row_label(row) for row in range(2 ** k)]:
        return ["labels"]
    if size_of(figures) is None:
        return ["denominator"]
    levels, repeats = size_of(figures)
    meant = [1 if levels == 2 or row.label == MEAN else 2 ** len(row.label) - 2 * (row.label == word_label(own))
             for row in figures.rows]
    complaints = ["degrees"] if [row.degrees for row in figures.rows] != meant else []
    return complaints + (["degrees of the total"] if figures.total[0] != levels ** k * repeats else [])


def squares_about_means(own, figures):
    """Degrees and numerator of the squares of readings about their run's mean, in another way than that of rules/: as the
    squares of all differences between two readings of a run, each pair once, over repeats."""
    plan, readings, _ = sheet_bytes.contents_of(sheet_bytes.fields_of(own.sheet))
    squares = sum((first - second) ** 2 for run in totals_rules.runs_of(plan.repeats, readings)
                  for first, second in combinations(run, 2))
    return [len(readings) - len(readings) // plan.repeats, figures.over * squares // plan.repeats]


def block_amount(own):
    """Degrees and numerator of the block amount of a three-level plan, in another way than that of rules/: as the squares of
    the differences of each two block sums, times 2 to the power k. Nothing where there is no word."""
    plan, readings, _ = sheet_bytes.contents_of(sheet_bytes.fields_of(own.sheet))
    if not word_label(own):
        return [0, 0]
    word, block_sums = plan.blocks[0], [0, 0, 0]
    for place, reading in enumerate(readings):
        run = place // plan.repeats
        block_sums[sum(word // 3 ** factor * (run // 3 ** factor % 3) for factor in range(plan.k)) % 3] += reading
    return [2, 2 ** plan.k * sum((first - second) ** 2 for first, second in combinations(block_sums, 2))]


def check_sums(own, figures):
    """Complaints about sums: blocks and error are their rows, the blocks with the block amount of three levels, the error with
    the squares about the means of runs; mean, kept rows, blocks and error are the total."""
    complaints = []
    if figures.rows[0].kind:
        complaints.append("kind of the mean")
    blocks = zip(sums([row for row in figures.rows if row.kind == BLOCKS]), block_amount(own))
    if [sum(values) for values in blocks] != figures.blocks:
        complaints.append(BLOCKS)
    if word_label(own) and any(row.kind == BLOCKS for row in figures.rows):
        complaints.append("a row of three levels is blocks")
    error = zip(sums([row for row in figures.rows if row.kind == ERROR]), squares_about_means(own, figures))
    if [sum(values) for values in error] != figures.error:
        complaints.append(ERROR)
    mean_and_kept = sums([row for row in figures.rows if not row.kind])
    if [sum(values) for values in zip(mean_and_kept, figures.blocks, figures.error)] != figures.total:
        complaints.append("total")
    if figures.check[0] != figures.check[1]:
        complaints.append("check numbers")
    return complaints


def check_table(own, figures):
    """Complaints about the sheet of a worked table: its totals and figures are those of the table."""
    table = analyses.table_of(own)
    kinds = [kind if kind in (BLOCKS, ERROR) else "" for kind in table.kinds]
    rows = [Row(table_rules.row_label(row), *part, kind) for row, (part, kind) in enumerate(zip(table.rows, kinds))]
    meant = Printed(table.denominator, rows, list(table.blocks), list(table.error), list(table.total),
                    [table.sum_of_totals, table.check_number])
    complaints = [] if figures == meant else ["figures of the table"]
    same = text_rules.totals(own.plan.levels, own.plan.k, analyses.sums_of(own)) == table.totals
    return complaints + ([] if same else ["totals of the table"])


def check_figures(own, figures):
    """Complaints about the figures of the text of a sheet that is accepted."""
    complaints = check_rows(own, figures) + check_sums(own, figures)
    if [row.kind == ERROR for row in figures.rows] != [mark == 1 for mark in sheet_bytes.marks_part(own.sheet)]:
        complaints.append("error rows are not those that are marked")
    return complaints + (check_table(own.table, figures) if own.table else [])


def check_case(own):
    """Complaints about one sheet: the number that is listed, what the reader alone answers, and what the text says."""
    text = text_of(own.sheet)
    number = refused_of(text)
    complaints = []
    if own.number not in (None, number):
        complaints.append("%d, listed %d" % (number, own.number))
    if sheet_bytes.sheet_answer(own.sheet) != (number if own.alone is None else own.alone):
        complaints.append("the reader alone answers another number")
    if number == DONE:
        figures = printed(text)
        complaints += check_figures(own, figures) if figures else ["lines"]
    return ["%s: %s" % (own.name, complaint) for complaint in complaints]


def repeats_of(own):
    """The repeats of a sheet that is accepted, and 0 for others."""
    return sheet_bytes.read(own.sheet, sheet_cases.MOST_ROOM).plan.repeats


def check_spread():
    """Complaints about how often answers, refusals, ways of damage and repeats occur among the sheets that are made."""
    answers = Counter(refused_of(text_of(own.sheet)) for own in MADE)
    kinds = Counter(own.name.partition(":")[0] for own in MADE)
    ways = Counter(way for own in MADE for way in own.name.partition(": ")[2].split(", "))
    complaints = ["made sheets: answer %d %d times" % (number, answers[number]) for number in sheet_cases.ANSWERS
                  if answers[number] < 4]
    complaints += ["made sheets: %s %d times" % (way, ways[way]) for way in [*map(str, SPOILS), *sheet_cases.DAMAGES]
                   if ways[way] < 3]
    repeats = Counter(repeats_of(own) for own in MADE)
    complaints += ["made sheets: %d repeats %d times" % (own, repeats[own]) for own in totals_rules.REPEATS if repeats[own] < 8]
    return complaints + ["made sheets: %d %s" % (kinds[kind], kind) for kind in kinds
                         if not MADE_COUNT / 4 < kinds[kind] < MADE_COUNT / 2]


def plans_of(cases):
    """The plans of the sheets that are accepted."""
    accepted = [own for own in cases if refused_of(text_of(own.sheet)) == DONE]
    return [sheet_bytes.contents_of(sheet_bytes.fields_of(own.sheet)).plan for own in accepted]


def check_three_levels():
    """Complaints about three levels among the sheets that are made: of those that are accepted about a third are in blocks,
    with repeats and without, with the row of the word marked and not; and each refusal occurs that may."""
    plans = [plan for plan in plans_of(MADE + NEAR) if plan.levels == 3]
    blocked = [plan for plan in plans if plan.blocks]
    complaints = [] if len(plans) / 4 < len(blocked) < len(plans) / 2 else ["three levels: %d of %d" % (len(blocked), len(plans))]
    if sum(plan.repeats > 1 for plan in blocked) < 8 or len({plan.blocks for plan in blocked}) < 6:
        complaints.append("three levels in blocks: repeats or words")
    kinds = Counter()
    for own in MADE + NEAR:
        figures = printed(text_of(own.sheet))
        if figures and word_label(own):
            kinds[next(row.kind for row in figures.rows if row.label == word_label(own))] += 1
    complaints += ["three levels in blocks: row of the word %r %d times" % (kind, kinds[kind])
                   for kind in ("", ERROR) if kinds[kind] < 8]
    answers = Counter()
    for own in MADE:
        fields = sheet_bytes.fields_of(own.sheet)
        if fields and not sheet_bytes.bad_fields(fields) and sheet_bytes.contents_of(fields).plan.levels == 3:
            answers[refused_of(text_of(own.sheet))] += 1
    complaints += ["three levels: answer %d %d times" % (number, answers[number]) for number in sheet_cases.ANSWERS_OF_THREE
                   if answers[number] < 2]
    return complaints + ["three levels: answer %d" % number for number in (6, 7, 8) if answers[number]]


def check_small():
    """Each refusal that a sheet may have has its small input, and the first text is that of the rules."""
    complaints = [] if [own.number for own in SMALL] == list(sheet_cases.ANSWERS[1:]) else ["small inputs"]
    if text_of(SHEETS[0].sheet).encode() != RULES_TEXT:
        complaints.append("the first text is not that of the rules")
    return complaints


def check():
    """List of all complaints about coefficients, totals, sheets and their texts."""
    complaints = check_texts() + check_small() + check_spread() + check_three_levels() + sheet_cases.check_near(NEAR)
    for levels, k in SIZES:
        complaints += check_coefficients(levels, k) + check_totals(levels, k)
    for own in SHEETS:
        complaints += check_case(own)
    names = Counter(own.name for own in CASES)
    complaints += ["two sheets named %s" % name for name in names if names[name] > 1]
    if any(len(own.sheet) >= 2 ** 16 for own in SHEETS):
        complaints.append("a record does not hold its sheet")
    if len(inputs()) > MOST_INPUT or len(expected_text()) > MOST_TEXT:
        complaints.append("too many bytes: %d read, %d written" % (len(inputs()), len(expected_text())))
    return complaints


# ---- expected text ----

def expected_text():
    """What the program that reads the records must write."""
    return "".join(text_of(own.sheet) for own in SHEETS).encode()


def inputs():
    """The input of the program: for each sheet its length, two bytes, and the sheet."""
    return b"".join(len(own.sheet).to_bytes(2, "big") + own.sheet for own in SHEETS)


def list_text():
    """A line for each sheet: its number, what the program answers, how long it is, and its name or how it is made."""
    return "".join("%d: %d, %d bytes, %s\n" % (number, refused_of(text_of(own.sheet)), len(own.sheet), own.name)
                   for number, own in enumerate(SHEETS, 1))


if __name__ == "__main__":
    found = check()
    if found:
        sys.exit("\n".join(found))
    if "list" in sys.argv[1:]:
        sys.stdout.write(list_text())
    else:
        sys.stdout.buffer.write(inputs() if "inputs" in sys.argv[1:] else expected_text())
