# Sheets for the two calls that take one, and the expected text of the program worked_sheets, which tries them: sheets with
# a name, whose numbers are listed here; 700 sheets that are made and damaged by numbers from a fixed seed; and 300 that are
# made so with readings near the limits, whose numbers are known from how they are made. rules/sheet_bytes.py answers them.
#
# The program reads records, one for each sheet in this order: room, the number of places of the column that it lends, and
# length, two bytes each and big-endian; then so many bytes of a sheet. Before each call every place of the column holds a
# number that no reading may be. The program writes a line for each record: `done` or the refusal; levels, k and repeats;
# the added factors; the block words; the readings, which are the places before the first that kept its number; how many
# places kept theirs; and the marks. A list is how many there are and then each of them, an added factor as word/sign, the
# marks with no space between them. Of over 40 readings one number is written (counted). Words and signs that are not 0
# beyond a plan's counts would be written too, so a refusal with a plan or a column that is not as it should be shows.
#
# Defined here:
#   Case                 a sheet with the room of its column; number is the answer that the rules give, None if not listed
#   spread, LIMITS       readings that are all different; readings at the limits and of many sizes, by levels
#   ABOUT_LIMITS         the sheets with a name whose readings are about the limits
#   CASES                the sheets with a name
#   Numbers              numbers that are spread out, from a seed
#   with_repeats         a plan with repeats, a third of the time
#   three_words          the block words of three levels, by the number of factors
#   in_blocks            a three-level plan in blocks, half of the time
#   DAMAGES              ways to damage the fields of a sheet
#   made, MADE           a sheet that is made and, four times of five, damaged; the 700 of them
#   near_contents        what a sheet holds whose readings are near the limits, and its number
#   near, NEAR           such a sheet; the 300 of them
#   check, check_near    lists of complaints, empty if all is well; the second of sheets near the limits
#   counted              a number by which every value of a list counts
#   expected_text        the expected text
#   inputs               the input of the program (sheet_cases.py inputs)
#   list_text            a line for each sheet, with its number, answer and name (sheet_cases.py list)

import sys
from collections import Counter, namedtuple
from os.path import abspath, dirname

sys.path.insert(0, dirname(dirname(dirname(abspath(__file__)))))

from reference.cases import answers
from reference.cases.answers import AB, ABC, BC, EIGHT, FOUR, LEVELS_NAMED, NINE, TOP, about_limit, named
from reference.published.analyses import FOUR_BLOCKS, MOST_REPEATED, SIX, SIX_ADDED, TEN
from reference.rules import sheet_bytes
from reference.rules import table as table_rules
from reference.rules import totals as totals_rules
from reference.rules.sheet_bytes import ADDED, BLOCK, MARKS, PLAN, READINGS, REPEATS, field
from reference.rules.table import row_number
from reference.rules.totals import DONE, Plan

# contents: what the sheet was made from, where nothing of it is refused.
Case = namedtuple("Case", "number why sheet room contents", defaults=(None,))

MOST_SHEET, MOST_SHEET_REPEATED = 5_187, 4_679
MOST_ROOM = 1_100
MOST_INPUT = 262_144
MOST_SHOWN = 40
MODULUS = 2 ** 31 - 1
ANSWERS = (DONE, 1, 2, 3, 4, 5, 6, 7, 8, 16, 11, 12, 13)

# The answers to sheets of three levels to which refusal 1 does not apply.
ANSWERS_OF_THREE = (DONE, 3, 4, 5, 16, 11, 12, 13)


# ---- sheets with a name: accepted ----

TWO, THREE, ONE = Plan(2, 2), Plan(2, 3), Plan(2, 1)
LAST = [0, 0, 0, 1]
SPREAD = (0, 1, -1, 127, -128, 128, 255, -256, 256, 32767, -32768, 65535, 65536, -65537)
RULES = sheet_bytes.write(TWO, FOUR, LAST)


def lent(number, why, plan, readings, marks=None, room=None):
    """The sheet of a plan; what is not said: marks 0, and a column as long as the readings."""
    rows = [0] * table_rules.row_count(plan.k) if marks is None else marks
    return Case(number, why, sheet_bytes.write(plan, readings, rows), len(readings) if room is None else room)


def spread(levels, count):
    """So many readings within the limit, all different."""
    top = TOP[levels]
    return [(position * 9973 + 12345) % (2 * top + 1) - top for position in range(count)]


def many_sizes(levels):
    """Readings of many signs and sizes; the last two are just within the limit."""
    return SPREAD + (TOP[levels] - 1, 1 - TOP[levels])


def every_third(plan):
    """Marks of an accepted plan: 1 on every third row that may have it."""
    kinds = table_rules.row_kinds(plan, [0] * table_rules.row_count(plan.k))
    return [int(row % 3 == 1 and kind == table_rules.KEPT) for row, kind in enumerate(kinds)]


MOST = Plan(2, 10, SIX_ADDED, FOUR_BLOCKS)
ACCEPTED = [
    lent(DONE, "3, 5, 4, 8 with marks 0, 0, 0, 1", TWO, FOUR, LAST),
    lent(DONE, "column one place longer", TWO, FOUR, LAST, 5),
    lent(DONE, "column of 1,100 places", TWO, FOUR, LAST, 1100),
    lent(DONE, "marks 0, 1, 1, 1", TWO, FOUR, [0, 1, 1, 1]),
    lent(DONE, "readings at both limits", ONE, [-TOP[2], TOP[2]]),
    lent(DONE, "readings of many signs and sizes", Plan(2, 4), many_sizes(2)),
    lent(DONE, "block word ABC", Plan(2, 3, (), (ABC,)), EIGHT),
    lent(DONE, "D = ABC", Plan(2, 3, ((ABC, 0),)), EIGHT),
    lent(DONE, "D = ABC with sign 1", Plan(2, 3, ((ABC, 1),)), EIGHT, [0, 0, 1, 0, 0, 1, 0, 1], 9),
    lent(DONE, "added BC, AB, block word ABC", Plan(2, 3, ((BC, 1), (AB, 0)), (ABC,)), EIGHT, [0, 1, 1, 0, 1, 0, 0, 0]),
    lent(DONE, "block words AD, ABC", Plan(2, 4, (), (row_number("AD"), ABC)), range(16)),
    lent(DONE, "three levels, k = 1", Plan(3, 1), [2, 5, 3], [0, 1], 3),
    lent(DONE, "three levels, k = 1, column one place longer", Plan(3, 1), [-2, 5, -3], [0, 0], 4),
    lent(DONE, "three levels, k = 2", Plan(3, 2), range(-4, 5), LAST),
    lent(DONE, "three levels, k = 6", SIX, spread(3, 729), every_third(SIX), 730),
    lent(DONE, "two levels, k = 10", TEN, spread(2, 1024), every_third(TEN)),
    lent(DONE, "the longest sheet", MOST, spread(2, 1024), every_third(MOST)),
    lent(DONE, "the longest sheet, column longer", MOST, [-TOP[2]] * 1023 + [TOP[2]], room=1100),
]

# With repeats; TWO_4 has four readings for each of four runs, and MOST_2 makes the longest sheet.
ONE_2, TWO_4, THREE_8 = Plan(2, 1, repeats=2), Plan(2, 2, repeats=4), Plan(2, 3, repeats=8)
MOST_2 = Plan(2, 9, SIX_ADDED[:3] + ((AB | 256, 1), (BC | 256, 0), (ABC | 384, 1)), (ABC, 56, 192 | 1, 256 | 2), 2)
SIXTEEN = list(range(1, 17))
ACCEPTED_REPEATED = [
    lent(DONE, "2 repeats, 3, 5 and 4, 8", ONE_2, FOUR),
    lent(DONE, "4 repeats", TWO_4, SIXTEEN, LAST),
    lent(DONE, "4 repeats, column one place longer", TWO_4, SIXTEEN, LAST, 17),
    lent(DONE, "4 repeats, column of 1,100 places", TWO_4, SIXTEEN, LAST, 1100),
    lent(DONE, "8 repeats", THREE_8, spread(2, 64), every_third(THREE_8), 65),
    lent(DONE, "8 repeats, one factor", Plan(2, 1, repeats=8), many_sizes(2), [0, 1]),
    lent(DONE, "2 repeats, block word ABC", Plan(2, 3, (), (ABC,), 2), range(16)),
    lent(DONE, "2 repeats, D = ABC with sign 1", Plan(2, 3, ((ABC, 1),), (), 2), range(-8, 8), [0, 0, 1, 0, 0, 1, 0, 1]),
    lent(DONE, "4 repeats, added BC, AB, block word ABC", Plan(2, 3, ((BC, 1), (AB, 0)), (ABC,), 4), spread(2, 32)),
    lent(DONE, "4 repeats, block words AD, ABC", Plan(2, 4, (), (row_number("AD"), ABC), 4), spread(2, 64)),
    lent(DONE, "three levels, 2 repeats, k = 1", Plan(3, 1, repeats=2), [2, 5, 3, -2, -5, -3], [0, 1]),
    lent(DONE, "three levels, 8 repeats, k = 1", Plan(3, 1, repeats=8), range(24), [0, 0], 25),
    lent(DONE, "three levels, 4 repeats, k = 2", Plan(3, 2, repeats=4), range(-18, 18), LAST),
    lent(DONE, "the longest sheet with repeats", MOST_2, spread(2, 1024), every_third(MOST_2)),
] + [
    lent(DONE, "%s, k = %d, as many readings as there may be" % (named(plan), plan.k), plan,
         spread(plan.levels, totals_rules.reading_count(plan)), every_third(plan))
    for plans in MOST_REPEATED.values() for plan in plans
]

# Three levels in three blocks. As sets of letters 4 is C, which would be refused with 8, and 13 is A, C, D, beyond three
# factors; 727 is the largest word.
SIX_BLOCKED = Plan(3, 6, (), (727,))
ACCEPTED_IN_THREE = [
    lent(DONE, "three levels, k = 2, block word 4", Plan(3, 2, (), (4,)), NINE),
    lent(DONE, "three levels, k = 2, block word 4, its row marked", Plan(3, 2, (), (4,)), NINE, LAST),
    lent(DONE, "three levels, k = 2, block word 7, column longer", Plan(3, 2, (), (7,)), NINE, [0, 1, 1, 1], 12),
    lent(DONE, "three levels, k = 2, block word 7, 2 repeats, its row marked", Plan(3, 2, (), (7,), 2), range(18), LAST),
    lent(DONE, "three levels, k = 2, block word 4, 8 repeats", Plan(3, 2, (), (4,), 8), spread(3, 72), [0, 1, 0, 0], 73),
    lent(DONE, "three levels, k = 3, block word 13, 4 repeats", Plan(3, 3, (), (13,), 4), spread(3, 108)),
    lent(DONE, "three levels, k = 6, block word 727", SIX_BLOCKED, spread(3, 729), every_third(SIX_BLOCKED), 730),
] + [
    lent(DONE, "three levels, k = 3, block word %d" % word, Plan(3, 3, (), (word,)), range(-13, 14),
         [0, 0, 1, 0, 0, 0, 0, word % 2]) for word in (4, 7, 10, 12, 13, 16, 19, 21, 22, 25)
]


# ---- refusal 1 ----

# The fields 1, 4 and 5 of the rules' example, and a field 2 and a field 3.
P, R, M = sheet_bytes.fields_written(TWO, FOUR, LAST)
A, B = field(ADDED, bytes([0, 3, 0])), field(BLOCK, bytes([0, 3]))
NOTHING = b""


# Fields of tag 6, and readings of four runs made twice.
TWICE, FOUR_TIMES = field(REPEATS, bytes([2])), field(REPEATS, bytes([4]))
R8 = field(READINGS, R[3:] + R[3:])


def bare(why, *parts, number=1, room=4):
    """The sheet of these parts."""
    return Case(number, why, b"".join(parts), room)


REFUSAL_1 = [bare("cut after %d bytes" % count, RULES[:count]) for count in range(len(RULES))] + [
    bare("one byte more", RULES, bytes([5])),
    bare("two bytes more", RULES, bytes([5, 0])),
    bare("a zero byte more", RULES, bytes([0])),
    bare("field 5 longer than the sheet by 1", P, R, bytes([5, 0, 5]) + M[3:]),
    bare("field 5 of length 65,535", P, R, bytes([5, 255, 255]) + M[3:]),
    bare("field 1 of length 65,535", bytes([1, 255, 255]) + P[3:], R, M),
    bare("field 5 shorter by 1, and so a byte left", P, R, bytes([5, 0, 3]) + M[3:]),
    bare("field 4 longer by 7, and so over field 5", P, bytes([4, 0, 23]) + R[3:], M),
    bare("lengths with the low byte first", P[:1] + bytes([2, 0]) + P[3:], R[:1] + bytes([16, 0]) + R[3:], M),
    bare("tag 0 first", field(0, NOTHING), P, R, M),
    bare("tag 0 last", P, R, M, field(0, NOTHING)),
    bare("tag 0 alone", field(0, NOTHING)),
    bare("tag 6", P, R, M, field(6, NOTHING)),
    bare("tag 6 with a body", P, R, M, field(6, M[3:])),
    bare("tag 255", P, R, M, field(255, NOTHING)),
    bare("tag 6 in place of 5", P, R, field(6, M[3:])),
    bare("tag 129 in place of 1", field(129, P[3:]), R, M),
    bare("falling: 4, 1, 5", R, P, M),
    bare("falling: 1, 5, 4", P, M, R),
    bare("falling: 2, 1, 4, 5", A, P, R, M),
    bare("falling: 1, 4, 2, 5", P, R, A, M),
    bare("falling: 1, 4, 3, 5", P, R, B, M),
    bare("falling: 1, 4, 5, 3", P, R, M, B),
    bare("falling: 1, 3, 2, 4, 5", P, B, field(ADDED, bytes([0, 7, 0])), R, M),
    bare("tag 1 absent", R, M),
    bare("tag 4 absent", P, M),
    bare("tag 5 absent", P, R),
    bare("tags 4 and 5 absent, a field 2 last", P, A),
    bare("tag 1 twice", P, P, R, M),
    bare("tag 4 twice", P, R, R, M),
    bare("tag 4 twice, the second time empty", P, R, field(READINGS, NOTHING), M),
    bare("tag 5 twice", P, R, M, M),
    bare("tag 5 twice, the second time empty", P, R, M, field(MARKS, NOTHING)),
    bare("tag 4 twice, two readings in each", P, field(READINGS, R[3:11]), field(READINGS, R[11:]), M),
] + [
    bare("field 1 of %d bytes" % count, field(PLAN, bytes([2, 2, 0, 0][:count])), R, M) for count in (0, 1, 3, 4)
] + [
    bare("field 2 of %d bytes" % count, P, field(ADDED, bytes([0, 3, 0, 0, 3, 0][:count])), R, M)
    for count in (0, 1, 2, 4, 6)
] + [
    bare("field 3 of %d bytes" % count, P, field(BLOCK, bytes([0, 3, 0, 3][:count])), R, M) for count in (0, 1, 3, 4)
] + [
    bare("field 4 of %d bytes" % count, P, field(READINGS, (R[3:] + R[3:])[:count]), M)
    for count in (1, 2, 3, 13, 14, 15, 17, 18, 19)
] + [
    bare("tag 6 first: 6, 1, 4, 5", TWICE, P, R8, M, room=8),
    bare("tag 6 before a tag 2: 1, 6, 2, 4, 5", P, TWICE, A, R8, M, room=8),
    bare("tag 6 before a tag 3: 1, 6, 3, 4, 5", P, TWICE, B, R8, M, room=8),
    bare("tag 6 between tags 2 and 3: 1, 2, 6, 3, 4, 5", P, A, TWICE, field(BLOCK, bytes([0, 3])), R8, M, room=8),
    bare("tag 6 after tag 4: 1, 4, 6, 5", P, R8, TWICE, M, room=8),
    bare("tag 6 after tag 5: 1, 4, 5, 6", P, R8, M, TWICE, room=8),
    bare("tag 6 between two tags 2", P, A, TWICE, field(ADDED, bytes([0, 3, 1])), R8, M, room=8),
    bare("tag 6 before and after tag 4", P, TWICE, R8, TWICE, M, room=8),
    bare("tag 6 twice", P, TWICE, TWICE, R8, M, room=8),
    bare("tag 6 twice, 2 and 4", P, TWICE, FOUR_TIMES, R8, M, room=8),
    bare("tag 6 twice, the first time empty", P, field(REPEATS, NOTHING), TWICE, R8, M, room=8),
    bare("tag 6 alone", TWICE),
    bare("tag 6 in place of 4", P, TWICE, M),
    bare("tag 6 in place of 1", TWICE, R8, M, room=8),
    bare("tag 7 between tags 3 and 4", P, field(7, bytes([2])), R8, M, room=8),
    bare("tag 134 in place of 6", P, field(134, bytes([2])), R8, M, room=8),
] + [
    bare("field 6 of %d bytes" % count, P, field(REPEATS, bytes([2, 0, 0, 0][:count])), R8, M, room=8) for count in (0, 2, 3, 4)
] + [
    bare("field 6 of 2 bytes, 0 and 2", P, field(REPEATS, bytes([0, 2])), R8, M, room=8),
    bare("field 6 longer than the sheet", P, bytes([6, 255, 255, 2]), R8, M, room=8),
    bare("field 6 cut after its length", P, bytes([6, 0, 1])),
]


# ---- the other refusals ----

def shown_by_sheet(own):
    """Whether the number of a refused table comes from plan, readings and marks, and not from how long totals and rows are."""
    runs, rows = totals_rules.run_count(own.plan.levels, own.plan.k), table_rules.row_count(own.plan.k)
    return table_rules.table_answer(own.plan, own.readings, own.marks, runs, rows) == own.number


LOW, HIGH = -2 ** 31, 2 ** 31 - 1
TABLE_REFUSALS = [lent(own.number, own.why, own.plan, own.readings, own.marks, own.totals_length * own.plan.repeats)
                  for own in answers.REFUSALS if shown_by_sheet(own)]
REFUSED = [
    lent(2, "levels 255, k = 255", Plan(255, 255), FOUR, LAST),
    lent(3, "two levels, k = 255", Plan(2, 255), FOUR, LAST),
    lent(4, "7 added factors, all different", Plan(2, 4, tuple((word, 0) for word in (3, 5, 6, 7, 9, 10, 11))), range(16)),
    lent(4, "5 block words", Plan(2, 10, (), FOUR_BLOCKS + (ABC,)), FOUR, LAST),
    lent(4, "256 added factors", Plan(2, 2, ((AB, 0),) * 256), FOUR, LAST),
    lent(4, "256 block words", Plan(2, 2, (), (AB,) * 256), FOUR, LAST),
    lent(4, "300 added factors", Plan(2, 2, ((AB, 0),) * 300), FOUR, LAST),
    lent(4, "300 block words", Plan(2, 2, (), (AB,) * 300), FOUR, LAST),
    lent(4, "300 of each", Plan(2, 2, ((AB, 0),) * 300, (AB,) * 300), FOUR, LAST),
    lent(4, "7 added factors at three levels", Plan(3, 1, ((1, 0),) * 7), [2, 5, 3]),
    lent(4, "three levels, block words 4 and 4", Plan(3, 2, (), (4, 4)), NINE, LAST),
    lent(4, "three levels, block words 7 and 4", Plan(3, 2, (), (7, 4)), NINE, LAST),
    lent(4, "three levels, 4 block words", Plan(3, 3, (), (13, 16, 22, 25)), range(27)),
    lent(4, "three levels, 5 block words", Plan(3, 3, (), (13, 16, 22, 25, 4)), range(27)),
    lent(4, "three levels, 256 block words", Plan(3, 2, (), (4,) * 256), NINE, LAST),
    lent(4, "three levels, 257 block words", Plan(3, 2, (), (4,) * 257), NINE, LAST),
    lent(4, "three levels, block word 4 and an added factor", Plan(3, 2, ((AB, 0),), (4,)), NINE, LAST),
    lent(4, "three levels, an added factor", Plan(3, 2, ((AB, 0),)), NINE, LAST),
    lent(5, "added word 32768", Plan(2, 2, ((32768 + AB, 0),)), FOUR, LAST),
    lent(5, "block word 768, the bytes of AB the other way round", Plan(2, 2, (), (256 * AB,)), FOUR, LAST),
    lent(5, "sign 255", Plan(2, 2, ((AB, 255),)), FOUR, LAST),
    lent(5, "block word 4, which three levels have", Plan(2, 2, (), (4,)), FOUR, LAST),
    *[lent(5, "three levels, k = 2, block word %d" % word, Plan(3, 2, (), (word,)), NINE, LAST)
      for word in (0, 1, 2, 3, 5, 6, 8, 9, 10, 13, 1024, 1792, 32768 + 4, 65535)],
    *[lent(5, "three levels, k = 1, block word %d" % word, Plan(3, 1, (), (word,)), [2, 5, 3]) for word in (0, 1, 2, 3, 4, 7)],
    *[lent(5, "three levels, k = 3, block word %d" % word, Plan(3, 3, (), (word,)), range(27))
      for word in (6, 11, 14, 15, 24, 26, 27, 28, 31, 40)],
    lent(5, "three levels, k = 6, block word 728", SIX._replace(blocks=(728,)), NINE, LAST),
    lent(5, "three levels, k = 6, block word 730", SIX._replace(blocks=(730,)), NINE, LAST),
    lent(5, "three levels, k = 6, block word 486", SIX._replace(blocks=(486,)), NINE, LAST),
    lent(5, "the sixth added word alone has a letter beyond k", MOST._replace(k=9, blocks=()), FOUR, LAST),
    lent(6, "the fifth and sixth of six added words", TEN._replace(added=SIX_ADDED[:5] + SIX_ADDED[4:5]), FOUR, LAST),
    lent(7, "the fourth block word is the combination of the first three",
         TEN._replace(blocks=FOUR_BLOCKS[:3] + (totals_rules.combine(FOUR_BLOCKS[:3]),)), FOUR, LAST),
    lent(8, "the sixth added word is the combination of the four block words",
         MOST._replace(added=SIX_ADDED[:5] + ((1023, 0),)), FOUR, LAST),
    lent(11, "column one place short", TWO, FOUR, LAST, 3),
    lent(11, "column of no place", TWO, FOUR, LAST, 0),
    lent(11, "three levels, column one place short", Plan(3, 1), [2, 5, 3], [0, 1], 2),
    lent(11, "two levels, k = 10, column one place short", TEN, spread(2, 1024), every_third(TEN), 1023),
    lent(11, "no readings, column of 4 places", TWO, [], LAST, 4),
    lent(11, "no marks", TWO, FOUR, []),
    lent(11, "no readings and no marks", TWO, [], [], 4),
    lent(11, "2 marks", TWO, FOUR, [0, 0]),
    lent(11, "k = 3, 4 readings, 8 marks", THREE, FOUR, [0] * 8, 8),
    lent(11, "k = 3, 16 readings", THREE, range(16), [0] * 8),
    lent(11, "three levels, 4 readings", Plan(3, 1), FOUR, [0, 1]),
    lent(11, "three levels, k = 2, 9 marks", Plan(3, 2), range(9), [0] * 9),
    lent(12, "the largest i32", TWO, [3, 5, HIGH, 8], LAST),
    lent(12, "both extremes of i32", ONE, [LOW, HIGH]),
    lent(12, "the last reading beyond the lower limit, column longer", TWO, [3, 5, 4, -TOP[2] - 1], LAST, 6),
    lent(12, "the last of 1,024 readings beyond the limit", TEN, spread(2, 1023) + [TOP[2] + 1], every_third(TEN)),
    lent(12, "three levels, the last of 729 readings beyond the limit", SIX, spread(3, 728) + [TOP[3] + 1]),
    lent(13, "mark 3 on the last row", TWO, FOUR, [0, 0, 0, 3]),
    lent(13, "mark 255 on row 0", TWO, FOUR, [255, 0, 0, 0]),
    lent(13, "mark 1 on the combination of four block words", MOST, spread(2, 1024), [0] * 1023 + [1]),
    lent(13, "three levels, mark 2", Plan(3, 2), range(9), [0, 0, 2, 0]),
    lent(13, "three levels, mark 2 on the row of the block word", Plan(3, 2, (), (4,)), NINE, [0, 0, 0, 2]),
    lent(13, "three levels, block word 7, mark 1 on row 0", Plan(3, 2, (), (7,)), NINE, [1, 0, 0, 1]),
    lent(11, "three levels, block word 4, 3 marks", Plan(3, 2, (), (4,)), NINE, [0, 0, 0]),
    lent(11, "three levels, block word 4, 3 readings, a block of them", Plan(3, 2, (), (4,)), NINE[:3], LAST, 9),
    lent(11, "three levels, block word 4, column one place short", Plan(3, 2, (), (4,)), NINE, LAST, 8),
    lent(12, "three levels, block word 4, the last reading beyond the limit", Plan(3, 2, (), (4,)), NINE[:8] + [TOP[3] + 1]),
]


# ---- refusals with repeats ----

def holding(repeats, why, *parts, number=16, room=16):
    """The sheet of the rules' example with four readings for each run and a field 6 that holds a number; or other parts."""
    own = parts or (P, field(REPEATS, bytes([repeats])), field(READINGS, R[3:] * 4), M)
    return Case(number, why, b"".join(own), room)


REFUSED_REPEATED = [
    holding(repeats, "field 6 holding %d" % repeats) for repeats in (0, 1, 3, 5, 6, 7, 9, 12, 16, 32, 64, 127, 128, 129, 255)
] + [
    holding(1, "field 6 holding 1, a reading for each run", P, field(REPEATS, bytes([1])), R, M),
    holding(1, "field 6 holding 1, after fields 2 and 3", field(PLAN, bytes([2, 3])), field(ADDED, bytes([0, 3, 0])),
            field(BLOCK, bytes([0, 7])), field(REPEATS, bytes([1])), *sheet_bytes.fields_written(THREE, EIGHT, [0] * 8)[1:]),
    lent(16, "k = 10, 8 repeats, 4 readings", Plan(2, 10, repeats=8), FOUR),
    lent(11, "4 repeats, no readings", TWO_4, [], LAST, 16),
    lent(11, "4 repeats, 17 readings", TWO_4, range(17), LAST),
    lent(11, "4 repeats, 15 readings, column of 16 places", TWO_4, SIXTEEN[:15], LAST, 16),
    lent(11, "4 repeats, 16 marks", TWO_4, SIXTEEN, [0] * 16),
    lent(11, "no field 6, four readings for each run", TWO, SIXTEEN, LAST),
    lent(11, "k = 3, 8 repeats, 8 readings", THREE_8, EIGHT, [0] * 8, 64),
    lent(11, "three levels, k = 1, 2 repeats, 3 readings", Plan(3, 1, repeats=2), [2, 5, 3], [0, 1], 6),
    lent(11, "k = 9, 2 repeats, 1,024 readings, column one place short", Plan(2, 9, repeats=2), spread(2, 1024), room=1023),
    lent(12, "8 repeats, the last reading beyond the limit", THREE_8, [*spread(2, 63), -TOP[2] - 1], room=70),
    lent(12, "three levels, 4 repeats, the last reading of run 0 beyond the limit", Plan(3, 1, repeats=4),
         [1, 2, 3, TOP[3] + 1, *range(8)]),
    lent(13, "4 repeats, mark 1 on row 0", TWO_4, SIXTEEN, [1, 0, 0, 0]),
    lent(13, "4 repeats, mark 2 on the last row", TWO_4, SIXTEEN, [0, 0, 0, 2]),
    lent(13, "2 repeats, mark 1 on a blocks row", Plan(2, 3, (), (ABC,), 2), range(16), [0] * 7 + [1]),
] + [
    lent(11, "4 repeats, column of %d places" % room, TWO_4, SIXTEEN, LAST, room) for room in range(16)
]


# ---- two refusals at once, of which the first in the order of checks counts; TABLE_REFUSALS has others ----

def cut(own, why, count=1):
    """The sheet without its last bytes, and so refused with 1."""
    return Case(1, why, own.sheet[:-count], own.room)


SEVEN = Plan(2, 2, ((1, 9),) * 7)
TWO_REFUSALS = [
    cut(lent(2, "", Plan(4, 2), FOUR, LAST), "1 and 2: levels 4, last byte cut"),
    cut(lent(3, "", Plan(2, 11), FOUR, LAST), "1 and 3: k = 11, last byte cut"),
    cut(lent(4, "", Plan(2, 2, ((AB, 0),) * 300), FOUR, LAST), "1 and 4: 300 added factors, last byte cut"),
    cut(lent(4, "", Plan(2, 2, (), (AB,) * 5), FOUR, LAST), "1 and 4: 5 block words, tag 5 absent", 7),
    cut(lent(8, "", Plan(2, 2, (), (1,)), FOUR, LAST), "1 and 8: block word A, last byte cut"),
    cut(lent(11, "", TWO, FOUR, LAST, 3), "1 and 11: column one place short, last byte cut"),
    bare("1 and 2: levels 4, tag 6 last", field(PLAN, bytes([4, 2])), R, M, field(6, NOTHING)),
    bare("1 and 2: levels 4, tag 4 absent", field(PLAN, bytes([4, 2])), M),
    bare("1 and 2: field 1 of 1 byte, levels 4", field(PLAN, bytes([4])), R, M),
    bare("1 and 4: seven fields 2, the last of wrong length", P, A * 6, field(ADDED, bytes([0, 3])), R, M),
    bare("1 and 11: field 4 of 15 bytes, no marks", P, field(READINGS, R[3:18]), field(MARKS, NOTHING)),
    bare("1 and 12: reading 2^31 - 1, tag 5 twice", P, field(READINGS, bytes([127, 255, 255, 255])), M, M),
    bare("1 and 13: mark 2, tag 6 last", P, R, field(MARKS, bytes([0, 2, 0, 0])), field(6, NOTHING)),
    lent(2, "2 and 4: levels 4, 7 added factors", SEVEN._replace(levels=4), FOUR, LAST),
    lent(2, "2 and 4: levels 4, 300 block words", Plan(4, 2, (), (AB,) * 300), FOUR, LAST),
    lent(2, "2 and 11: levels 4, no readings, no marks, no column", Plan(4, 2), [], []),
    lent(3, "3 and 4: k = 0, 7 added factors", SEVEN._replace(k=0), FOUR, LAST),
    lent(3, "3 and 5: k = 0, block word A", Plan(2, 0, (), (1,)), FOUR, LAST),
    lent(4, "4 and 5: 7 added factors, words A and signs 9", SEVEN, FOUR, LAST),
    lent(4, "4 and 5: 5 empty block words", Plan(2, 2, (), (0,) * 5), FOUR, LAST),
    lent(4, "4 and 11: 7 added factors, 3 readings", SEVEN, [3, 5, 4], LAST),
    lent(4, "4 and 5: three levels, block words 0 and 0", Plan(3, 2, (), (0, 0)), NINE, LAST),
    lent(4, "4 and 5: three levels, block words 4 and 5", Plan(3, 2, (), (4, 5)), NINE, LAST),
    lent(4, "4 and 5: three levels, an added factor, block word 9", Plan(3, 2, ((AB, 0),), (9,)), NINE, LAST),
    lent(4, "4 and 16: three levels, block words 4 and 7, 3 repeats", Plan(3, 2, (), (4, 7), 3), NINE, LAST),
    lent(3, "3 and 5: three levels, k = 7, block word 0", Plan(3, 7, (), (0,)), NINE, LAST),
    lent(5, "5 and 16: three levels, block word 8, 3 repeats", Plan(3, 2, (), (8,), 3), NINE, LAST),
    lent(5, "5 and 11: three levels, block word 8, 3 readings", Plan(3, 2, (), (8,)), NINE[:3], LAST),
    lent(5, "5 and 12: three levels, block word 8, the least i32", Plan(3, 2, (), (8,)), NINE[:8] + [LOW], LAST),
    lent(5, "5 and 13: three levels, block word 3, mark 1 on row 0", Plan(3, 2, (), (3,)), NINE, [1, 0, 0, 0]),
    lent(16, "16 and 11: three levels, block word 4, 3 repeats, 9 readings", Plan(3, 2, (), (4,), 3), NINE, LAST),
    lent(12, "12 and 13: three levels, block word 4, the least i32, mark 2 on its row", Plan(3, 2, (), (4,)),
         NINE[:8] + [LOW], [0, 0, 0, 2]),
    lent(5, "5 and 7: block words C, C", Plan(2, 2, (), (4, 4)), FOUR, LAST),
    lent(5, "5 and 13: sign 2, mark 1 on row 0", Plan(2, 2, ((AB, 2),)), FOUR, [1, 0, 0, 0]),
    lent(6, "6 and 8: added AB, AB, block word A", Plan(2, 2, ((AB, 0), (AB, 1)), (1,)), FOUR, LAST),
    lent(6, "6 and 12: added AB, AB, the least i32", Plan(2, 2, ((AB, 0), (AB, 0))), [3, 5, 4, LOW], LAST),
    lent(7, "7 and 11: block words AB, AB, no column", Plan(2, 2, (), (AB, AB)), FOUR, LAST, 0),
    lent(8, "8 and 11: block word A, column one place short", Plan(2, 2, (), (1,)), FOUR, LAST, 3),
    lent(8, "8 and 12: block word A, a reading beyond the limit", Plan(2, 2, (), (1,)), [3, 5, TOP[2] + 1, 8], LAST),
    lent(11, "11 and 12: 3 readings, one of them the least i32", TWO, [3, LOW, 4], LAST, 4),
    lent(11, "11 and 12: 3 marks, a reading beyond the limit", TWO, [3, TOP[2] + 1, 4, 8], [0, 0, 0]),
    lent(11, "11 and 12: column one place short, a reading beyond the limit", TWO, [3, TOP[2] + 1, 4, 8], LAST, 3),
    lent(11, "11 and 12: three levels, column one place short, a reading beyond the limit",
         Plan(3, 1), [2, TOP[3] + 1, 3], [0, 1], 2),
    lent(11, "11 and 13: column one place short, mark 1 on row 0", TWO, FOUR, [1, 0, 0, 0], 3),
    lent(11, "11 and 13: 3 marks, one of them 2", TWO, FOUR, [0, 2, 0]),
    lent(11, "11 and 13: 3 readings, mark 2", TWO, [3, 5, 4], [0, 2, 0, 0], 4),
    lent(12, "12 and 13: the last reading beyond the limit, mark 1 on row 0", TWO, [3, 5, 4, TOP[2] + 1], [1, 0, 0, 0]),
    lent(12, "12 and 13: three levels, the least i32, mark 2", Plan(3, 1), [LOW, 5, 3], [0, 2]),
    cut(lent(16, "", Plan(2, 2, repeats=3), SIXTEEN, LAST), "1 and 16: 3 repeats, last byte cut"),
    bare("1 and 16: field 6 of 2 bytes, both 3", P, field(REPEATS, bytes([3, 3])), R, M),
    bare("1 and 16: field 6 holding 1, after tag 4", P, R, field(REPEATS, bytes([1])), M),
    bare("1 and 16: field 6 holding 1, twice", P, field(REPEATS, bytes([1])) * 2, R, M),
    bare("2 and 16: levels 4, field 6 holding 1", field(PLAN, bytes([4, 2])), field(REPEATS, bytes([1])), R, M, number=2),
    bare("8 and 16: block word A, field 6 holding 1", P, field(BLOCK, bytes([0, 1])), field(REPEATS, bytes([1])), R, M,
         number=8),
    lent(4, "4 and 16: 7 added factors, 3 repeats", SEVEN._replace(repeats=3), FOUR, LAST),
    lent(5, "5 and 16: block word C, 0 repeats, no readings", Plan(2, 2, (), (4,), 0), [], LAST),
    bare("16 and 11: field 6 holding 1, 8 readings", P, field(REPEATS, bytes([1])), R8, M, number=16, room=8),
    bare("16 and 11: field 6 holding 1, no column", P, field(REPEATS, bytes([1])), R, M, number=16, room=0),
    bare("16 and 12: field 6 holding 1, a reading beyond the limit", P, field(REPEATS, bytes([1])),
         field(READINGS, R[3:15] + bytes([127, 255, 255, 255])), M, number=16),
    bare("16 and 13: field 6 holding 1, mark 2", P, field(REPEATS, bytes([1])), R, field(MARKS, bytes([0, 2, 0, 0])),
         number=16),
    lent(16, "16 and 11: 3 repeats, column as long as the runs", Plan(2, 2, repeats=3), range(12), LAST, 4),
    lent(16, "16 and 12: 3 repeats, the least i32", Plan(2, 2, repeats=3), [*range(11), LOW], LAST),
    lent(16, "16 and 13: 3 repeats, mark 1 on row 0", Plan(2, 2, repeats=3), range(12), [1, 0, 0, 0]),
    lent(11, "11 and 12: 4 repeats, column one place short, a reading beyond the limit", TWO_4, [*SIXTEEN[:15], LOW], LAST, 15),
    lent(11, "11 and 13: 4 repeats, 4 readings, mark 2", TWO_4, FOUR, [0, 2, 0, 0], 16),
    lent(12, "12 and 13: 4 repeats, the last reading beyond the limit, mark 2", TWO_4, [*SIXTEEN[:15], HIGH], [0, 2, 0, 0]),
]


# ---- one reading about the limits, others small ----

def about_limits(number, where, plan, size):
    """Sheets with a reading of a size, either way, at the first, a middle and the last place; where says how it lies to the
    limit."""
    readings = list(range(totals_rules.reading_count(plan)))
    return [lent(number, "%s, k = %d, %s %s" % (named(plan), plan.k, name, where % limit), plan, own)
            for name, limit, own in about_limit(readings, size)]


def about_own_limit(plan):
    """Readings at the limit, and one beyond it."""
    top = TOP[plan.levels]
    return about_limits(DONE, "at the %s", plan, top) + about_limits(12, "one beyond the %s", plan, top + 1)


ABOUT_LIMITS = (about_own_limit(THREE) + about_own_limit(Plan(3, 2))
                + about_limits(DONE, "at the %s of three levels", THREE, TOP[3])
                + about_limits(DONE, "one beyond the %s of three levels", THREE, TOP[3] + 1)
                + about_limits(12, "one within the %s of two levels", Plan(3, 2), TOP[2] - 1)
                + about_limits(12, "at the %s of two levels", Plan(3, 2), TOP[2])
                + about_own_limit(TWO_4) + about_own_limit(Plan(3, 2, repeats=2)))

CASES = (ACCEPTED + ACCEPTED_REPEATED + ACCEPTED_IN_THREE + REFUSAL_1 + TABLE_REFUSALS + REFUSED + REFUSED_REPEATED + TWO_REFUSALS
         + ABOUT_LIMITS)


# ---- sheets that are made ----

SEED = 3950
MADE_COUNT = 700
LIMITS = {levels: (-top, top) + many_sizes(levels) for levels, top in TOP.items()}


class Numbers:
    """Numbers that are spread out: each state is a fixed multiple of the one before and a fixed number, modulo 2^64."""

    def __init__(self, seed):
        self.state = seed

    def below(self, limit):
        """The next number, below a limit, from the upper half of the state."""
        self.state = (self.state * 6364136223846793005 + 1442695040888963407) % 2 ** 64
        return (self.state >> 32) % limit

    def choose(self, items):
        """One of a list."""
        return items[self.below(len(items))]


def with_repeats(numbers, plan):
    """An accepted plan without repeats, with some a third of the time, if it may have any."""
    most = totals_rules.MOST_READINGS // totals_rules.reading_count(plan)
    allowed = [repeats for repeats in totals_rules.REPEATS if 1 < repeats <= most]
    return plan._replace(repeats=numbers.choose(allowed)) if numbers.below(3) == 0 and allowed else plan


def three_words(k):
    """The block words of three levels and k factors."""
    return [word for word in range(3 ** k) if not totals_rules.bad_digits(k, word)]


def in_blocks(numbers, plan):
    """A three-level plan, in blocks half of the time, if it has two factors or more."""
    words = three_words(plan.k)
    return plan._replace(blocks=(numbers.choose(words),)) if words and numbers.below(2) else plan


def made_plan(numbers):
    """An accepted plan: three levels and one to three factors, or two levels and one to four, with words or without."""
    if numbers.below(5) == 0:
        return in_blocks(numbers, Plan(3, numbers.choose((1, 1, 2, 2, 2, 2, 2, 3))))
    k = 1 + numbers.below(4)
    words = [word for word in range(2 ** k) if totals_rules.letter_count(word) > 1]
    while True:
        added = tuple((numbers.choose(words), numbers.below(2)) for _ in range(numbers.below(5))) if words else ()
        blocks = tuple(numbers.choose(words) for _ in range(numbers.below(3))) if words else ()
        if totals_rules.plan_answer(Plan(2, k, added, blocks)) == DONE:
            return Plan(2, k, added, blocks)


def made_contents(numbers):
    """A plan, readings and marks that are accepted."""
    plan = with_repeats(numbers, made_plan(numbers))
    top, limits = TOP[plan.levels], LIMITS[plan.levels]
    readings = [numbers.choose(limits) if numbers.below(3) == 0 else numbers.below(2 * top + 1) - top
                for _ in range(totals_rules.reading_count(plan))]
    kinds = table_rules.row_kinds(plan, [0] * table_rules.row_count(plan.k))
    return sheet_bytes.Contents(plan, readings, bytes(numbers.below(2) if kind == table_rules.KEPT else 0 for kind in kinds))


def made_room(numbers, contents):
    """The room of a column: as many places as readings, up to three more, or too few, and then any number from N on where
    there are repeats."""
    count, runs = len(contents.readings), totals_rules.run_count(contents.plan.levels, contents.plan.k)
    way = numbers.below(8)
    if way == 0:
        return runs + numbers.below(count - runs) if count > runs else count - 1 - numbers.below(2)
    return count if way < 5 else count + 1 + numbers.below(3)


# ---- damage ----
#
# A sheet is damaged as the list of its parts, which are its fields; parts stay in the list after a first damage, so that a
# second may follow. Each way takes numbers and parts and gives new parts.

def damage_cut(numbers, parts):
    """All from a byte on is lost."""
    left = numbers.below(max(sum(len(part) for part in parts), 1))
    found = []
    for part in parts:
        found.append(part[:left])
        left -= len(found[-1])
    return [part for part in found if part]


def damage_byte(numbers, parts):
    """A byte of a field is another: one bit of it turned, a small number, or any."""
    at = numbers.below(len(parts))
    place = numbers.below(len(parts[at]))
    before = parts[at][place]
    after = numbers.choose((before ^ 1 << numbers.below(8), numbers.below(8), numbers.below(256)))
    changed = parts[at][:place] + bytes([after if after != before else before ^ 1]) + parts[at][place + 1:]
    return parts[:at] + [changed] + parts[at + 1:]


def damage_swap(numbers, parts):
    """Two fields change places."""
    first, second = numbers.below(len(parts)), numbers.below(len(parts))
    found = list(parts)
    found[first], found[second] = parts[second], parts[first]
    return found


def damage_repeat(numbers, parts):
    """A field comes twice."""
    at = numbers.below(len(parts))
    return parts[:at] + [parts[at]] + parts[at:]


def damage_drop(numbers, parts):
    """A field is lost."""
    at = numbers.below(len(parts))
    return parts[:at] + parts[at + 1:]


def damage_length(numbers, parts):
    """The length of a field is off by one, and its body as it was."""
    at = numbers.below(len(parts))
    length = sheet_bytes.number_of(parts[at][1:3]) + numbers.choose((-1, 1))
    changed = parts[at][:1] + (length % 2 ** 16).to_bytes(2, "big") + parts[at][3:]
    return parts[:at] + [changed] + parts[at + 1:]


def damage_count(numbers, parts):
    """A reading or a mark too many or too few; the length of the field says so."""
    tag, size = numbers.choose(((READINGS, sheet_bytes.READING_LENGTH), (MARKS, 1)))
    more = numbers.below(2)
    return [field(tag, part[3:] + part[3:3 + size] if more else part[3:-size]) if part[0] == tag else part for part in parts]


def damage_words(numbers, parts):
    """One, two or seven fields 2 or 3 more, before the fields of higher tags; half of the time all the same."""
    tag, count = numbers.choose((ADDED, BLOCK)), numbers.choose((1, 1, 2, 2, 7))
    bodies = [bytes([0, numbers.below(8), numbers.below(2)])[:sheet_bytes.BODY_LENGTHS[tag]] for _ in range(count)]
    bodies = bodies[:1] * count if numbers.below(2) else bodies
    at = next((place for place, part in enumerate(parts) if part[0] > tag), len(parts))
    return parts[:at] + [field(tag, body) for body in bodies] + parts[at:]


def damage_repeats(numbers, parts):
    """A field 6 more, before field 4 or anywhere, with a number that is allowed more often than not."""
    body = bytes([numbers.choose((0, 1, 1, 2, 2, 3, 4, 8, 16))])
    before_readings = next((place for place, part in enumerate(parts) if part[0] == READINGS), len(parts))
    at = before_readings if numbers.below(3) else numbers.below(len(parts) + 1)
    return parts[:at] + [field(REPEATS, body)] + parts[at:]


def damage_append(numbers, parts):
    """A few bytes more at the end, or a field of any tag up to 7."""
    some = bytes(numbers.below(8) for _ in range(1 + numbers.below(4)))
    return parts + [some if numbers.below(2) else field(numbers.below(8), some)]


def damage_body(numbers, parts):
    """A byte of a field's body is another, small number."""
    at = numbers.below(len(parts))
    place = min(3 + numbers.below(max(len(parts[at]) - 3, 1)), len(parts[at]) - 1)
    return parts[:at] + [parts[at][:place] + bytes([numbers.below(8)]) + parts[at][place + 1:]] + parts[at + 1:]


DAMAGES = {
    "cut": damage_cut,
    "byte changed": damage_byte,
    "fields swapped": damage_swap,
    "field repeated": damage_repeat,
    "field dropped": damage_drop,
    "length off by one": damage_length,
    "wrong count": damage_count,
    "more words": damage_words,
    "field 6 more": damage_repeats,
    "bytes appended": damage_append,
    "byte of a body changed": damage_body,
}

# Most ways lead to refusal 1; two that do not are chosen more often than others.
WAYS = list(DAMAGES) + ["byte of a body changed"] * 6 + ["field 6 more"]
UNDAMAGED = "undamaged"


def damaged(numbers, parts, way):
    """The parts damaged in a way. Parts of which nothing is left stay so."""
    return DAMAGES[way](numbers, parts) if parts else parts


def made(numbers):
    """A sheet that is made: a fifth of all undamaged, a sixth of the others damaged twice."""
    contents = made_contents(numbers)
    room = made_room(numbers, contents)
    parts = sheet_bytes.fields_written(*contents)
    if numbers.below(5) == 0:
        return Case(None, UNDAMAGED, b"".join(parts), room, contents)
    ways = [numbers.choose(WAYS) for _ in range(2 if numbers.below(6) == 0 else 1)]
    for way in ways:
        parts = damaged(numbers, parts, way)
    return Case(None, ", ".join(ways), b"".join(parts), room)


NUMBERS = Numbers(SEED)
MADE = [made(NUMBERS) for _ in range(MADE_COUNT)]


# ---- sheets that are made, with readings near the limits ----

NEAR_SEED = 1955
NEAR_COUNT = 300

# Levels and factors, each as often as it is here; and the limits of both level counts and their neighbours, either way.
NEAR_SIZES = [(2, 1), (2, 2), (2, 3), (3, 1), (3, 2)] * 3 + [(2, 4), (3, 3)]
NEAR_READINGS = [sign * (top + more) for top in TOP.values() for more in (-1, 0, 1) for sign in (1, -1)]


def near_contents(numbers):
    """Plan, readings and marks, with readings near the limits; and their number, which is 12 half of the time: then one or
    two readings are beyond the limit, and no other is."""
    levels, k = numbers.choose(NEAR_SIZES)
    once = in_blocks(numbers, Plan(levels, k)) if levels == 3 else Plan(levels, k)
    plan, number = with_repeats(numbers, once), numbers.choose((DONE, 12))
    count = totals_rules.reading_count(plan)
    beyond = [reading for reading in NEAR_READINGS if abs(reading) > TOP[levels]]
    within = [reading for reading in NEAR_READINGS if abs(reading) <= TOP[levels]]
    readings = [numbers.choose(within) for _ in range(count)]
    for _ in range(1 + numbers.below(2) if number else 0):
        readings[numbers.below(count)] = numbers.choose(beyond)
    marks = bytes(row and numbers.below(2) for row in range(table_rules.row_count(k)))
    return sheet_bytes.Contents(plan, readings, marks), number


def near(numbers):
    """A sheet whose readings are near the limits; a column without room for them comes before these."""
    contents, number = near_contents(numbers)
    room = made_room(numbers, contents)
    return Case(number if room >= len(contents.readings) else 11, "%s, near the limits" % named(contents.plan),
                sheet_bytes.write(*contents), room, None if number else contents)


NEAR_NUMBERS = Numbers(NEAR_SEED)
NEAR = [near(NEAR_NUMBERS) for _ in range(NEAR_COUNT)]
SHEETS = CASES + MADE + NEAR


# ---- checks ----

def check_case(own):
    """Complaints about a sheet whose number is listed: that number, and marks as the number without the column says."""
    complaints = []
    number = sheet_bytes.read(own.sheet, own.room).refused
    if number != own.number:
        complaints.append("%d, listed %d" % (number, own.number))
    if bool(sheet_bytes.marks_part(own.sheet)) != (sheet_bytes.sheet_answer(own.sheet, MOST_ROOM) == DONE):
        complaints.append("marks")
    return ["%s: %s" % (own.why, complaint) for complaint in complaints]


def check_table(own):
    """The column aside, a sheet to which refusal 1 does not apply is refused as the table of what it holds would be; but that
    a field 6 holding 1 is refused where the plan is not."""
    fields = sheet_bytes.fields_of(own.sheet)
    if fields is None or sheet_bytes.bad_fields(fields):
        return []
    plan, readings, marks = sheet_bytes.contents_of(fields)
    lengths = totals_rules.run_count(plan.levels, plan.k), table_rules.row_count(plan.k)
    meant = table_rules.table_answer(plan, readings, marks, *lengths)
    if sheet_bytes.needless_repeats(fields) and totals_rules.plan_answer(plan) == DONE:
        meant = 16
    return [] if meant == sheet_bytes.sheet_answer(own.sheet) else ["%s: another number than of the table" % own.why]


def check_longest():
    """The longest sheet that is accepted has the length that the rules give, and the longest with repeats is shorter."""
    accepted = [own for own in SHEETS if sheet_bytes.read(own.sheet, own.room).refused == DONE]
    longest = max(len(own.sheet) for own in accepted)
    repeated = max(len(own.sheet) for own in accepted if sheet_bytes.read(own.sheet, own.room).plan.repeats > 1)
    if (longest, repeated) == (MOST_SHEET, MOST_SHEET_REPEATED):
        return []
    return ["longest sheet: %d bytes, with repeats %d" % (longest, repeated)]


def check_undamaged(own):
    """Complaints about a sheet that is made and nothing of it refused: it is read as what it was made from, if the column
    has room."""
    plan, readings, marks = own.contents
    fits = own.room >= len(readings)
    meant = sheet_bytes.Sheet(DONE, plan, readings) if fits else sheet_bytes.Sheet(11, sheet_bytes.NO_PLAN, [])
    found = sheet_bytes.read(own.sheet, own.room), sheet_bytes.marks_part(own.sheet)
    return [] if found == (meant, marks) else ["undamaged sheet"]


def check_three_levels():
    """Complaints about three levels among the sheets that are made: about a third of those with nothing refused are in blocks,
    and each answer that may be given occurs, and no other."""
    plans = [own.contents.plan for own in MADE + NEAR if own.contents and own.contents.plan.levels == 3]
    blocked = [plan for plan in plans if plan.blocks]
    complaints = [] if len(plans) / 4 < len(blocked) < len(plans) / 2 else ["three levels: %d of %d" % (len(blocked), len(plans))]
    answers = Counter()
    for own in MADE:
        fields = sheet_bytes.fields_of(own.sheet)
        if fields and not sheet_bytes.bad_fields(fields) and sheet_bytes.contents_of(fields).plan.levels == 3:
            answers[sheet_bytes.read(own.sheet, own.room).refused] += 1
    complaints += ["three levels: answer %d %d times" % (number, answers[number]) for number in ANSWERS_OF_THREE
                   if not answers[number]]
    return complaints + ["three levels: answer %d" % number for number in answers if number not in ANSWERS_OF_THREE]


def check_spread():
    """Every answer, every way of damage and every kind of plan occurs among the sheets that are made."""
    numbers = Counter(sheet_bytes.read(own.sheet, own.room).refused for own in MADE)
    ways = Counter(way for own in MADE for way in own.why.split(", "))
    sizes = Counter((own.contents.plan.levels, own.contents.plan.k) for own in MADE if own.contents)
    repeats = Counter(own.contents.plan.repeats for own in MADE if own.contents)
    complaints = ["made sheets: answer %d %d times" % (number, numbers[number]) for number in ANSWERS if numbers[number] < 4]
    complaints += ["made sheets: %s %d times" % (way, ways[way]) for way in DAMAGES if ways[way] < 25]
    if not MADE_COUNT / 6 < ways[UNDAMAGED] < MADE_COUNT / 4:
        complaints.append("made sheets: %d undamaged" % ways[UNDAMAGED])
    complaints += ["made sheets: %d repeats %d times" % (own, repeats[own]) for own in totals_rules.REPEATS if repeats[own] < 4]
    complaints += check_three_levels()
    return complaints + ["made sheets: none of %r" % (size,) for size in ((2, 1), (2, 2), (2, 3), (2, 4), (3, 1), (3, 2))
                         if not sizes[size]]


def check_near(cases):
    """Complaints about how often numbers and readings occur among sheets near the limits: at either level count many are
    accepted and many refused with 12, and every reading that is near a limit occurs."""
    complaints = []
    held = [(own.number, sheet_bytes.contents_of(sheet_bytes.fields_of(own.sheet))) for own in cases]
    for levels, name in LEVELS_NAMED.items():
        numbers = Counter(number for number, contents in held if contents.plan.levels == levels)
        complaints += ["%s, near the limits: answer %d %d times" % (name, number, numbers[number])
                       for number in (DONE, 12) if numbers[number] < NEAR_COUNT / 8]
        readings = {own for _, contents in held if contents.plan.levels == levels for own in contents.readings}
        complaints += ["%s, near the limits: no reading %d" % (name, own) for own in NEAR_READINGS if own not in readings]
    return complaints


def check():
    """List of all complaints about the sheets."""
    complaints = check_longest() + check_spread() + check_near(NEAR)
    for own in CASES + NEAR:
        complaints += check_case(own)
    for own in SHEETS:
        complaints += check_table(own) + (check_undamaged(own) if own.contents else [])
    titles = [own.why for own in CASES]
    complaints += ["two sheets named %s" % why for why in sorted({why for why in titles if titles.count(why) > 1})]
    if any(own.room > MOST_ROOM or len(own.sheet) >= 2 ** 16 for own in SHEETS):
        complaints.append("a record does not hold its sheet or room")
    if len(inputs()) > MOST_INPUT:
        complaints.append("the program does not read all of its input")
    return complaints


# ---- expected text ----

def list_of(texts):
    """How many there are, and each of them, after a space."""
    return "".join(" " + text for text in [str(len(texts))] + texts)


def counted(values):
    """A number by which every value of a list counts: 31 times the one before, and the value, modulo a prime."""
    number = 0
    for value in values:
        number = (number * 31 + value) % MODULUS
    return number


def values_of(readings):
    """The readings, and of over 40 how many they are and one number."""
    if len(readings) > MOST_SHOWN:
        return " %d %d" % (len(readings), counted(readings))
    return list_of([str(reading) for reading in readings])


def marks_of(marks):
    """How many marks there are, and all of them with no space between."""
    return " %d" % len(marks) + (" " + "".join(str(mark) for mark in marks) if marks else "")


def sheet_line(number, own):
    """The line of a sheet."""
    found = sheet_bytes.read(own.sheet, own.room)
    plan = found.plan
    return "%d: %s, plan %d %d %d, added%s, blocks%s, readings%s, kept %d, marks%s" % (
        number, "refused %d" % found.refused if found.refused else "done", plan.levels, plan.k, plan.repeats,
        list_of(["%d/%d" % pair for pair in plan.added]), list_of([str(word) for word in plan.blocks]),
        values_of(found.readings), own.room - len(found.readings), marks_of(sheet_bytes.marks_part(own.sheet)))


def expected_text():
    """What the program that tries the sheets must write."""
    return "".join(sheet_line(number, own) + "\n" for number, own in enumerate(SHEETS, 1))


def inputs():
    """The input of the program: for each sheet room and length, two bytes each, and the sheet."""
    return b"".join(own.room.to_bytes(2, "big") + len(own.sheet).to_bytes(2, "big") + own.sheet for own in SHEETS)


def list_text():
    """A line for each sheet: its number, what the reader answers, and its name or how it is damaged."""
    return "".join("%d: %d, %s\n" % (number, sheet_bytes.read(own.sheet, own.room).refused, own.why)
                   for number, own in enumerate(SHEETS, 1))


if __name__ == "__main__":
    found = check()
    if found:
        sys.exit("\n".join(found))
    if "inputs" in sys.argv[1:]:
        sys.stdout.buffer.write(inputs())
    else:
        sys.stdout.write(list_text() if "list" in sys.argv[1:] else expected_text())
