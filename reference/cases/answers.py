# Inputs of the table call that are refused, or accepted with readings about the limits or in three blocks; and inputs of the
# estimate, of the alias, of the run and of the blocking call with their outcomes. Each is listed with the answer that the
# rules give; check() compares it with what rules/table.py, rules/totals.py and rules/blockings.py answer. Plans whose effects
# are tried, by what the same files say of rows, divisors and weights. And the input and the expected text of the program
# worked_answers, which tries them all, but for the part about the screening call: it comes after this one, and is in
# screening_answers.py.
#
# The program reads records, one for each table, refused or accepted, then one for each estimate, for each alias, for each
# plan whose effects are tried, for each run and for each blocking: length, a byte, and so many bytes. These are a sheet,
# which has readings and marks for a table alone, and a field 9: the call, a byte, 1 for the table, 2 for the estimate, 3 for
# the alias, 4 for the effects, 5 for the run, 6 for the blocking, 7 for the screening call, and what else the call takes. For
# a table, and for the screening call, it is how many totals and rows are lent, a byte each; for an estimate the effect, two
# bytes, and its total, eight bytes in two's complement; for an alias the effect, two bytes; for a run its number, two bytes;
# for a blocking, which has no sheet, k and the number of words, a byte each, and how many places are lent, two bytes; all
# big-endian; for effects nothing.
#
# The program writes a line for each record. Of a table it is `refused` with the number; or `made`, `rows` with the row
# numerators and `error` with its degrees and numerator; then `unchanged` where all totals and rows hold what they held before
# the call, else `changed`. Of an estimate it is the outcome, a double as the number that its 64 bits are. Of an alias it is
# `reduced` with the base word as a number, then `turned` or `unturned`; or `refused` with the number. Of a run it is `high`
# with the set of letters as a number, then `block` with its number; or `refused` with the number. Of effects it is `effects`
# with how many there are, and more lines follow, each with three numbers, row, divisor and weight: one line for each effect,
# in order, and one for the first place after them, if there is such a place. A plan that is refused with 2 or 3 has no
# effects. Of a blocking it is `written` with the number of lists, or `refused` with the number; then `kept` with how many
# places hold what they held before the call, which is 65,535 less the place and no word; then `checksum` with that of the
# column; and, of a column of up to 100 places, `column` with the number at each place.
#
# Checksum: it begins as 0 and becomes, for each place in order, 17 times itself plus the number at the place, modulo the prime
# 65,521. Where two different words change places it is another one, since no power of 17 that matters is 1.
#
# Signs: differences and aliases are high minus low, as AMCP and Daniel print them. The report prints low minus high, so its
# differences have the other sign where the effect has an odd number of letters; totals are the report's.
#
# Defined here:
#   TOP              the limit of a reading, by levels; LEVELS_NAMED, SIDES: level counts and the two limits in words
#   named            levels and repeats of a plan in words
#   about_limit      readings with one of a size, either way, at the first, a middle and the last place
#   ACCEPTED         accepted inputs of the table call: readings at the limits or, at two levels, beyond those of three; repeats, three blocks
#   REFUSALS         refused inputs of the table call: every refusal of the rules, and inputs to which several apply
#   ESTIMATES        inputs of the estimate call: a plan, an effect and a total
#   ALIASES          inputs of the alias call: a plan and an effect of all factors
#   EFFECTS          plans whose effects are tried
#   RUNS             inputs of the run call: a plan and a run number
#   BLOCKINGS        inputs of the blocking call: factors, words and places
#   check            list of complaints, empty if all is well
#   table_text       what the program writes of a table, and table_record: the record of one, for either table call
#   numbered         texts with their numbers, and record_count: how many records there are
#   expected_text    the expected text
#   inputs           the input of the program (answers.py inputs)
#   list_text        a line for each record, with its number and what is tried (answers.py list)

import sys
from collections import namedtuple
from fractions import Fraction
from os.path import abspath, dirname

sys.path.insert(0, dirname(dirname(dirname(abspath(__file__)))))

from reference.published import daniel, examples
from reference.published.analyses import TEN, TEN_ADDED, TEN_BLOCKED
from reference.rules import blockings as blocking_rules
from reference.rules import sheet_bytes
from reference.rules import table as table_rules
from reference.rules import totals as totals_rules
from reference.rules.table import letters_used, row_label, row_number
from reference.rules.totals import DONE, Plan

# number: that of the refusal, or 0.
TableInput = namedtuple("TableInput", "number why plan readings marks totals_length rows_length")

# outcome: "mean", "difference" and the quotient, "lost", or "refused" and the number.
Estimate = namedtuple("Estimate", "plan effect total outcome")

# outcome: "reduced", the letters of the base word and "turned" or "unturned", or "refused" and the number.
Alias = namedtuple("Alias", "plan effect outcome")

# outcome: "high", the letters, "block" and its number, or "refused" and the number.
Run = namedtuple("Run", "plan number outcome")

# outcome: "written" and the number of lists, or "refused" and the number.
Blocking = namedtuple("Blocking", "k words places outcome")

# What is tried of an effect of a plan.
Effect = namedtuple("Effect", "row divisor weight")

# The most readings, totals and rows, and the most places of a blocking, that the program can lend; the tag of the field that
# names the call, and the calls.
MOST_LENT, MOST_PLACES_LENT = 32, 3363
REST = 9
TABLE, ESTIMATE, ALIAS, EFFECT, RUN, BLOCKING, SCREENING = 1, 2, 3, 4, 5, 6, 7

# The limit of a reading, by levels.
TOP = totals_rules.MOST_READING


# ---- inputs of the table call ----

FOUR, EIGHT, NINE = [3, 5, 4, 8], [1, 2, 3, 4, 5, 6, 7, 8], [2, 5, 3, 1, 4, 6, 7, 8, 9]
AB, AC, BC, ABC = (row_number(label) for label in "AB AC BC ABC".split())


def usual_runs(plan):
    """A reading for each run: 1 to 8 for three factors, 2, 5, 3 for one at three levels, nine for two, 3, 5 for one at two
    levels, else 3, 5, 4, 8."""
    if plan.k == 1:
        return [2, 5, 3] if plan.levels == 3 else FOUR[:2]
    if plan[:2] == (3, 2):
        return NINE
    return EIGHT if plan.k == 3 else FOUR


def usual_readings(plan):
    """For each run that reading, and the next ones above it where the run is made several times; not where repeats are
    refused."""
    repeats = plan.repeats if plan.repeats in totals_rules.REPEATS else 1
    return [reading + repeat for reading in usual_runs(plan) for repeat in range(repeats)]


def attempt(number, why, plan, readings=None, marks=None, totals_length=None, rows_length=None):
    """An input of the table call that is refused with a number, or accepted where that is 0. What is not said: usual
    readings; marks 0; totals as many as their runs, rows as many as marks."""
    runs = len(usual_runs(plan))
    rows = {3: 2, 9: 4}.get(runs, runs)
    return TableInput(number, why, plan, usual_readings(plan) if readings is None else readings,
                      [0] * rows if marks is None else marks,
                      runs if totals_length is None else totals_length, rows if rows_length is None else rows_length)


# ---- tables with a reading about the limits ----

LEVELS_NAMED = {2: "two levels", 3: "three levels"}
SIDES = ("upper limit", 1), ("lower limit", -1)


def named(plan):
    """Levels of a plan in words, and repeats where there are any."""
    return LEVELS_NAMED[plan.levels] + (", %d repeats" % plan.repeats if plan.repeats != 1 else "")


def about_limit(readings, size):
    """The readings with one of a size, either way, at the first, a middle and the last place in turn; before them in words
    which place it is, and which limit the size is about."""
    places = ("first", 0), ("middle", len(readings) // 2), ("last", len(readings) - 1)
    return [("%s reading" % name, limit, [*readings[:place], sign * size, *readings[place + 1:]])
            for limit, sign in SIDES for name, place in places]


def tables_about_limit(number, where, plan, size):
    """Inputs with such a reading; where says how it lies to the limit."""
    return [attempt(number, "%s, %s %s" % (named(plan), name, where % limit), plan, readings)
            for name, limit, readings in about_limit(usual_readings(plan), size)]


def tables_at_limit(plan):
    """Inputs with all readings at a limit."""
    return [attempt(DONE, "%s, all readings at the %s" % (named(plan), limit), plan,
                    [sign * TOP[plan.levels]] * len(usual_readings(plan))) for limit, sign in SIDES]


TWO, ONE_OF_THREE, BLOCKED = Plan(2, 2), Plan(3, 1), Plan(2, 3, (), (AB, BC))

# The same with repeats.
TWO_2, TWO_8, ONE_4, ONE_OF_THREE_2, ONE_OF_THREE_8 = (
    Plan(2, 2, repeats=2), Plan(2, 2, repeats=8), Plan(2, 1, repeats=4), Plan(3, 1, repeats=2), Plan(3, 1, repeats=8))
BLOCKED_2 = BLOCKED._replace(repeats=2)
REPEATED = [TWO_2, TWO_8, ONE_4, ONE_OF_THREE_2, ONE_OF_THREE_8]

# Three levels in three blocks, and the marks of the word's row.
NINE_4, NINE_7, NINE_4_TWICE, LAST = Plan(3, 2, (), (4,)), Plan(3, 2, (), (7,)), Plan(3, 2, (), (4,), 2), [0, 0, 0, 1]

# The first has the small input of 12.
BEYOND_LIMITS = (tables_about_limit(12, "one beyond the %s", ONE_OF_THREE, TOP[3] + 1)
                 + tables_about_limit(12, "one beyond the %s", TWO, TOP[2] + 1)
                 + tables_about_limit(12, "at the %s of two levels", ONE_OF_THREE, TOP[2])
                 + tables_about_limit(12, "one beyond the %s", ONE_OF_THREE_2, TOP[3] + 1)
                 + tables_about_limit(12, "one beyond the %s", TWO_2, TOP[2] + 1))

ACCEPTED = (tables_about_limit(DONE, "at the %s", ONE_OF_THREE, TOP[3])
            + tables_about_limit(DONE, "at the %s", TWO, TOP[2])
            + tables_about_limit(DONE, "one beyond the %s of three levels", TWO, TOP[3] + 1)
            + tables_at_limit(ONE_OF_THREE) + tables_at_limit(TWO)
            + tables_about_limit(DONE, "at the %s", ONE_OF_THREE_2, TOP[3])
            + tables_about_limit(DONE, "at the %s", TWO_2, TOP[2])
            + [own for plan in REPEATED for own in tables_at_limit(plan)]
            + [attempt(DONE, "%s, k = %d" % (named(plan), plan.k), plan) for plan in REPEATED + [BLOCKED_2]]
            + tables_at_limit(NINE_4) + [
                attempt(DONE, "three levels, block word 4", NINE_4),
                attempt(DONE, "three levels, block word 4, its row marked", NINE_4, marks=LAST),
                attempt(DONE, "three levels, block word 7, all rows marked", NINE_7, marks=[0, 1, 1, 1]),
                attempt(DONE, "three levels, block word 4, 2 repeats, its row marked", NINE_4_TWICE, marks=LAST),
                attempt(DONE, "three levels, block word 7, one block at the limit",
                        NINE_7, [TOP[3], 0, 0, 0, TOP[3], 0, 0, 0, TOP[3]])])


# ---- refusals of the table call ----

REFUSALS = [
    attempt(2, "levels 4", Plan(4, 2)),
    attempt(2, "levels 1", Plan(1, 2)),
    attempt(2, "levels 0", Plan(0, 2)),
    attempt(3, "three levels, k = 7", Plan(3, 7)),
    attempt(3, "two levels, k = 11", Plan(2, 11)),
    attempt(3, "two levels, k = 0", Plan(2, 0)),
    attempt(3, "three levels, k = 0", Plan(3, 0)),
    attempt(4, "three levels, two block words", Plan(3, 2, (), (4, 7))),
    attempt(4, "three levels, k = 1, two block words", Plan(3, 1, (), (1, 1))),
    attempt(4, "three levels, one added factor", Plan(3, 1, ((1, 0),), ())),
    attempt(4, "three levels, one added factor and a block word", Plan(3, 2, ((AB, 0),), (4,))),
    attempt(4, "seven added factors", Plan(2, 2, ((AB, 0),) * 7, ())),
    attempt(4, "five block words", Plan(2, 2, (), (AB,) * 5)),
    attempt(5, "k = 2, block word C", Plan(2, 2, (), (row_number("C"),))),
    attempt(5, "k = 2, added word AC", Plan(2, 2, ((AC, 0),), ())),
    attempt(5, "added word A", Plan(2, 2, ((1, 0),), ())),
    attempt(5, "added word empty", Plan(2, 2, ((0, 0),), ())),
    attempt(5, "sign 2", Plan(2, 2, ((AB, 2),), ())),
    attempt(5, "block word empty", Plan(2, 2, (), (0,))),
    attempt(5, "three levels, k = 1, one block word", Plan(3, 1, (), (1,))),
    attempt(5, "three levels, one factor, block word 4", Plan(3, 1, (), (4,))),
] + [
    attempt(5, "three levels, block word %d" % word, Plan(3, 2, (), (word,))) for word in (0, 1, 2, 3, 5, 6, 8, 9, 13, 65535)
] + [
    attempt(6, "added AB and AB", Plan(2, 2, ((AB, 0), (AB, 1)), ())),
    attempt(7, "block words AB, AB", Plan(2, 3, (), (AB, AB))),
    attempt(7, "block words AB, BC, AC", Plan(2, 3, (), (AB, BC, AC))),
    attempt(8, "block words AB, ABC", Plan(2, 3, (), (AB, ABC))),
    attempt(8, "block words BC, ABC, as P K and N P K in Yates's squares", Plan(2, 3, (), (BC, ABC))),
    attempt(8, "block word A", Plan(2, 2, (), (1,))),
    attempt(8, "added ABC, block word ABC", Plan(2, 3, ((ABC, 0),), (ABC,))),
    attempt(8, "added AC, block words AB, BC", Plan(2, 3, ((AC, 1),), (AB, BC))),
    attempt(11, "k = 2, 3 readings", TWO, readings=[3, 5, 4]),
    attempt(11, "k = 2, 5 readings", TWO, readings=[3, 5, 4, 8, 0]),
    attempt(11, "no readings", TWO, readings=[]),
    attempt(11, "3 totals", TWO, totals_length=3),
    attempt(11, "5 totals", TWO, totals_length=5),
    attempt(11, "3 rows", TWO, rows_length=3),
    attempt(11, "5 rows", TWO, rows_length=5),
    attempt(11, "3 marks", TWO, marks=[0, 0, 0]),
    attempt(11, "5 marks", TWO, marks=[0, 0, 0, 0, 0]),
    attempt(11, "three levels, 3 rows, where N is 3 and R is 2", ONE_OF_THREE, rows_length=3),
    attempt(11, "three levels, 3 marks", ONE_OF_THREE, marks=[0, 0, 0]),
    attempt(12, "the least i32", TWO, readings=[-2147483648, 5, 4, 8]),
    attempt(12, "the largest i32, three levels", ONE_OF_THREE, readings=[2, 2147483647, 3]),
    attempt(13, "mark 1 on row 0", TWO, marks=[1, 0, 0, 0]),
    attempt(13, "mark 2", TWO, marks=[0, 0, 2, 0]),
    attempt(13, "mark 255", TWO, marks=[0, 0, 0, 255]),
    attempt(13, "mark 1 on a blocks row", BLOCKED, marks=[0, 0, 0, 1, 0, 0, 0, 0]),
    attempt(13, "mark 1 on the combination of block words", BLOCKED, marks=[0, 0, 0, 0, 0, 1, 0, 0]),
    attempt(13, "mark 2 on a blocks row", BLOCKED, marks=[0, 0, 0, 0, 0, 0, 2, 0]),
    attempt(13, "three levels, mark 1 on row 0", ONE_OF_THREE, marks=[1, 0]),
    attempt(13, "three levels, block word 4, mark 1 on row 0", NINE_4, marks=[1, 0, 0, 0]),
    attempt(13, "three levels, block word 4, mark 2 on its row", NINE_4, marks=[0, 0, 0, 2]),
    attempt(11, "three levels, block word 4, 9 rows", NINE_4, rows_length=9),
    attempt(11, "three levels, block word 4, 8 totals", NINE_4, totals_length=8),
    attempt(12, "three levels, block word 7, the last reading beyond the limit", NINE_7, NINE[:8] + [-TOP[3] - 1]),
    attempt(2, "2 and 3: levels 4, k = 11", Plan(4, 11)),
    attempt(2, "2, 11, 12 and 13", Plan(4, 2), readings=[TOP[2] + 1], marks=[1, 2], totals_length=1, rows_length=1),
    attempt(3, "3 and 4: three levels, k = 7, one block word", Plan(3, 7, (), (AB,))),
    attempt(4, "4 and 5: three levels, two empty block words", Plan(3, 1, (), (0, 0))),
    attempt(4, "4 and 5: three levels, an added factor, block word 5", Plan(3, 2, ((AB, 0),), (5,))),
    attempt(5, "5 and 13: three levels, block word 5, mark 2", Plan(3, 2, (), (5,)), marks=[0, 0, 0, 2]),
    attempt(5, "5 and 6: k = 2, added AC and AC", Plan(2, 2, ((AC, 0), (AC, 0)), ())),
    attempt(5, "5 and 8: k = 2, block words A, C", Plan(2, 2, (), (1, row_number("C")))),
    attempt(6, "6 and 7: added AB, AB, block words ABC, ABC", Plan(2, 3, ((AB, 0), (AB, 0)), (ABC, ABC))),
    attempt(7, "7 and 8: block words A, A", Plan(2, 2, (), (1, 1))),
    attempt(8, "8 and 11: block words AB, ABC, 3 readings", Plan(2, 3, (), (AB, ABC)), readings=[1, 2, 3]),
    attempt(11, "11 and 12: 3 readings, one of them beyond the limit", TWO, readings=[3, 5, TOP[2] + 1]),
    attempt(11, "11 and 12: three levels, 2 readings, one of them beyond the limit", ONE_OF_THREE, readings=[2, TOP[3] + 1]),
    attempt(11, "11 and 12: three levels, 4 totals, a reading beyond the limit", ONE_OF_THREE,
            readings=[2, TOP[3] + 1, 3], totals_length=4),
    attempt(11, "11 and 13: 5 rows, mark 1 on row 0", TWO, marks=[1, 0, 0, 0], rows_length=5),
    attempt(12, "12 and 13: a reading beyond the limit, mark 2", TWO, readings=[TOP[2] + 1, 5, 4, 8], marks=[0, 2, 0, 0]),
    attempt(12, "12 and 13: three levels, a reading beyond the limit, mark 2", ONE_OF_THREE,
            readings=[2, 5, -TOP[3] - 1], marks=[0, 2]),
    attempt(12, "12 and 13: three levels, a reading at the limit of two levels, mark 1 on row 0", ONE_OF_THREE,
            readings=[TOP[2], 5, 3], marks=[1, 0]),
    attempt(13, "two levels, a reading beyond the limit of three levels, mark 2", TWO,
            readings=[3, 5, 4, TOP[3] + 1], marks=[0, 2, 0, 0]),
    attempt(13, "two levels, readings at the limit, mark 1 on row 0", TWO, readings=[TOP[2]] * 4, marks=[1, 0, 0, 0]),
    attempt(13, "three levels, readings at the limit, mark 1 on row 0", ONE_OF_THREE, readings=[-TOP[3]] * 3, marks=[1, 0]),
] + [
    attempt(16, "%d repeats" % repeats, TWO._replace(repeats=repeats)) for repeats in (3, 0, 5, 16, 255)
] + [
    attempt(16, "three levels, 3 repeats", Plan(3, 1, repeats=3)),
    attempt(16, "k = 10, 2 repeats", Plan(2, 10, repeats=2)),
    attempt(16, "k = 9, 4 repeats", Plan(2, 9, repeats=4)),
    attempt(16, "k = 8, 8 repeats", Plan(2, 8, repeats=8)),
    attempt(16, "three levels, k = 6, 2 repeats", Plan(3, 6, repeats=2)),
    attempt(16, "three levels, k = 5, 8 repeats", Plan(3, 5, repeats=8)),
    attempt(11, "k = 9, 2 repeats, 8 readings", Plan(2, 9, repeats=2)),
    attempt(11, "three levels, k = 5, 4 repeats, 16 readings", Plan(3, 5, repeats=4)),
    attempt(11, "2 repeats, a reading for each run", TWO_2, readings=FOUR),
    attempt(11, "2 repeats, 7 readings", TWO_2, readings=EIGHT[:7]),
    attempt(11, "2 repeats, 9 readings", TWO_2, readings=[*EIGHT, 9]),
    attempt(11, "8 repeats, 31 readings", TWO_8, readings=range(31)),
    attempt(11, "1 repeat, two readings for each run", TWO, readings=EIGHT),
    attempt(11, "2 repeats, 8 totals", TWO_2, totals_length=8),
    attempt(11, "2 repeats, 3 totals", TWO_2, totals_length=3),
    attempt(11, "2 repeats, 8 rows", TWO_2, rows_length=8),
    attempt(11, "2 repeats, 8 marks", TWO_2, marks=[0] * 8),
    attempt(11, "three levels, 2 repeats, 3 readings", ONE_OF_THREE_2, readings=[2, 5, 3]),
    attempt(11, "three levels, 2 repeats, 6 totals", ONE_OF_THREE_2, totals_length=6),
    attempt(13, "2 repeats, mark 1 on row 0", TWO_2, marks=[1, 0, 0, 0]),
    attempt(13, "2 repeats, mark 1 on the combination of block words", BLOCKED_2, marks=[0, 0, 0, 0, 0, 1, 0, 0]),
    attempt(13, "three levels, 8 repeats, mark 2", ONE_OF_THREE_8, marks=[0, 2]),
    attempt(2, "2 and 16: levels 4, 3 repeats", Plan(4, 2, repeats=3)),
    attempt(3, "3 and 16: k = 11, 2 repeats", Plan(2, 11, repeats=2)),
    attempt(4, "4 and 16: three levels, two block words, 3 repeats", Plan(3, 2, (), (4, 7), 3)),
    attempt(5, "5 and 16: three levels, block word 6, 3 repeats", Plan(3, 2, (), (6,), 3)),
    attempt(16, "three levels, block word 4, 3 repeats", Plan(3, 2, (), (4,), 3)),
    attempt(5, "5 and 16: block word C, 0 repeats", Plan(2, 2, (), (row_number("C"),), 0)),
    attempt(6, "6 and 16: added AB, AB, 255 repeats", Plan(2, 2, ((AB, 0), (AB, 1)), (), 255)),
    attempt(7, "7 and 16: block words AB, AB, 3 repeats", Plan(2, 3, (), (AB, AB), 3)),
    attempt(8, "8 and 16: block words AB, ABC, 3 repeats", Plan(2, 3, (), (AB, ABC), 3)),
    attempt(16, "16 and 11: 3 repeats, 3 readings", Plan(2, 2, repeats=3), readings=[3, 5, 4]),
    attempt(16, "16 and 11: 0 repeats, no readings, 3 totals", Plan(2, 2, repeats=0), readings=[], totals_length=3),
    attempt(16, "16 and 12: 3 repeats, a reading beyond the limit", Plan(2, 2, repeats=3), readings=[*range(11), TOP[2] + 1]),
    attempt(16, "16 and 13: 3 repeats, mark 2", Plan(2, 2, repeats=3), marks=[0, 2, 0, 0]),
    attempt(16, "16, 11, 12 and 13", Plan(2, 2, repeats=3),
            readings=[TOP[2] + 1], marks=[1, 2], totals_length=1, rows_length=1),
    attempt(11, "11 and 12: 2 repeats, 4 readings, one of them beyond the limit", TWO_2, readings=[3, 5, TOP[2] + 1, 8]),
    attempt(12, "12 and 13: 2 repeats, the last reading beyond the limit, mark 2", TWO_2,
            readings=EIGHT[:7] + [-TOP[2] - 1], marks=[0, 2, 0, 0]),
] + BEYOND_LIMITS


# ---- estimates ----

# Report, Section 1: the totals and the column of differences; the first of these is twice the mean.
REPORT_TOTALS = "747 -111 -189 -11 -17 81 -97 117 -7 71 153 -21 165 215 -115 -21"
REPORT_DIFFERENCES = ("93.375 -13.875 -23.625 -1.375 -2.125 10.125 -12.125 14.625 -0.875 8.875 19.125 -2.625 20.625 26.875 "
                      "-14.375 -2.625")

# AMCP, 12-2.2.1, step 5: what it prints of the estimated effects of Data Sample 12-2, rounded.
AMCP_ROUNDED = {"A": "-1.6", "AD": "-0.3"}


def high_minus_low(effect, figure):
    """A figure of the report, which is low minus high, with the sign that the trade prints."""
    return -figure if totals_rules.letter_count(effect) % 2 else figure


def report_estimates():
    """The report's column of differences, with the signs of the trade; the mean is half of its first figure."""
    found = []
    for effect, (total, printed) in enumerate(zip(REPORT_TOTALS.split(), REPORT_DIFFERENCES.split())):
        outcome = "difference %s" % high_minus_low(effect, Fraction(printed)) if effect else "mean 46.6875"
        found.append(Estimate(Plan(2, 4), effect, int(total), outcome))
    return found


def printed_totals(example):
    """The totals that the source prints, with its signs, in whole units of the readings."""
    column = next(printed for printed in example.printed if printed.kind == example.k)
    return [Fraction(figure) * 10 ** example.places for figure in column.text.split()]


def printed_estimates(example):
    """The totals that the rules make of the readings, each with the outcome by the total that the source prints."""
    over = 2 ** example.k * example.repeats
    totals = totals_rules.totals(2, example.k, examples.sums_of(example))
    outcomes = ["difference %s" % (printed / Fraction(over, 2)) if effect else "mean %s" % (printed / over)
                for effect, printed in enumerate(printed_totals(example))]
    return [Estimate(examples.plan(example), effect, total, outcomes[effect]) for effect, total in enumerate(totals)]


# A plan for each number that refuses a plan.
REFUSED_PLANS = [
    (2, Plan(4, 2)),
    (3, Plan(2, 11)),
    (4, Plan(3, 2, (), (4, 7))),
    (4, Plan(3, 2, ((AB, 0),))),
    (5, Plan(2, 2, (), (row_number("C"),))),
    (5, Plan(3, 2, (), (5,))),
    (6, Plan(2, 2, ((AB, 0), (AB, 0)), ())),
    (7, Plan(2, 3, (), (AB, AB))),
    (8, Plan(2, 3, (), (AB, ABC))),
    (16, Plan(2, 2, repeats=3)),
    (16, Plan(2, 2, repeats=0)),
    (16, Plan(2, 2, repeats=16)),
    (16, Plan(2, 2, repeats=255)),
    (16, Plan(2, 10, repeats=2)),
]


def estimates_about_limit(k, repeats=1):
    """For the mean and for the effect of all k letters totals at the limits, and one beyond them."""
    plan, found = Plan(2, k, repeats=repeats), []
    for sign in (1, -1):
        total = sign * 2 ** k * repeats * TOP[2]
        found += [Estimate(plan, 0, total, "mean %d" % (sign * TOP[2]))]
        found += [Estimate(plan, 2 ** k - 1, total, "difference %d" % (sign * (-1) ** k * 2 * TOP[2]))]
        found += [Estimate(plan, effect, total + sign, "refused 12") for effect in (0, 2 ** k - 1)]
    return found


# The limits of totals of ten factors, and of three, by their numbers of runs.
TEN_TOP, EIGHT_TOP = 1024 * TOP[2], 8 * TOP[2]
AD_ABC, IN_TWO_BLOCKS = Plan(2, 4, (), (row_number("AD"), ABC)), Plan(2, 3, (), (ABC,))
NINE_2, SEVEN_8, IN_BLOCKS_4 = Plan(2, 9, repeats=2), Plan(2, 7, repeats=8), IN_TWO_BLOCKS._replace(repeats=4)
ESTIMATES = report_estimates() + printed_estimates(examples.AMCP_WHOLE) + printed_estimates(examples.AMCP_HALF) + [
    Estimate(TWO, 0, 20, "mean 5"),
    Estimate(TWO, 1, -6, "difference 3"),
    Estimate(TWO, 2, -4, "difference 2"),
    Estimate(TWO, 3, 2, "difference 1"),
    Estimate(Plan(2, 1), 0, 0, "mean 0"),
    Estimate(Plan(2, 1), 1, -200000, "difference 200000"),
    Estimate(Plan(2, 1), 1, 200000, "difference -200000"),
    Estimate(Plan(2, 1), 1, 0, "difference 0"),
    Estimate(TWO, 0, 0, "mean 0"),
    Estimate(TWO, 1, 0, "difference 0"),
    Estimate(TWO, 2, 0, "difference 0"),
    Estimate(TWO, 3, 0, "difference 0"),
    Estimate(Plan(2, 3), 7, 0, "difference 0"),
    Estimate(TEN, 511, 0, "difference 0"),
    Estimate(TEN, 1023, 0, "difference 0"),
    Estimate(IN_TWO_BLOCKS, 7, 0, "lost"),
    Estimate(IN_TWO_BLOCKS, 7, EIGHT_TOP, "lost"),
    Estimate(IN_TWO_BLOCKS, 7, -EIGHT_TOP, "lost"),
    Estimate(IN_TWO_BLOCKS, 0, 36, "mean 4.5"),
    Estimate(IN_TWO_BLOCKS, 4, -16, "difference 4"),
    Estimate(IN_TWO_BLOCKS, 3, 0, "difference 0"),
    Estimate(AD_ABC, row_number("AD"), 71, "lost"),
    Estimate(AD_ABC, row_number("ABC"), 117, "lost"),
    Estimate(AD_ABC, row_number("BCD"), -115, "lost"),
    Estimate(AD_ABC, row_number("A"), -111, "difference 13.875"),
    Estimate(AD_ABC, row_number("ABCD"), -21, "difference -2.625"),
    Estimate(TEN_BLOCKED, 1023, 1, "lost"),
    Estimate(TEN_BLOCKED, 511, 1, "difference -1/512"),
    Estimate(TEN_ADDED, row_number("AB"), 3, "difference 3/512"),
    Estimate(TEN_ADDED, row_number("ABD"), 3, "difference -3/512"),
    Estimate(TEN, 0, 1, "mean 1/1024"),
    Estimate(TEN, 0, -1, "mean -1/1024"),
    Estimate(TEN, 1023, TEN_TOP - 1, "difference %d/512" % (TEN_TOP - 1)),
    Estimate(TEN, 1023, 1 - TEN_TOP, "difference %d/512" % (1 - TEN_TOP)),
    Estimate(TEN, 511, TEN_TOP - 1, "difference %d/512" % (1 - TEN_TOP)),
    Estimate(TEN, 0, TEN_TOP - 1, "mean %d/1024" % (TEN_TOP - 1)),
    Estimate(TEN, 0, 1 - TEN_TOP, "mean %d/1024" % (1 - TEN_TOP)),
    Estimate(TEN, 1023, 1024 * TOP[3] + 1, "difference %d/512" % (1024 * TOP[3] + 1)),
    Estimate(TWO, 3, 4 * TOP[3] + 1, "difference %d/2" % (4 * TOP[3] + 1)),
    Estimate(TWO, 0, -4 * TOP[3] - 1, "mean %d/4" % (-4 * TOP[3] - 1)),
    Estimate(TEN, row_number("ABCDE"), 512, "difference -1"),
    Estimate(TEN, row_number("BCDEFG"), 512, "difference 1"),
    Estimate(TEN, row_number("ACEFGIJ"), 512, "difference -1"),
    Estimate(TEN, row_number("ABDEFGHJ"), 512, "difference 1"),
    Estimate(Plan(2, 3, ((ABC, 1),)), ABC, -8, "difference 2"),
    Estimate(Plan(2, 2, ((AB, 1),)), AB, -8, "difference -4"),
    Estimate(Plan(2, 3, ((ABC, 1),)), row_number("D"), -8, "refused 10"),
    Estimate(TEN, 512, -TEN_TOP, "difference %d" % (2 * TOP[2])),
    Estimate(TEN, 512, TEN_TOP, "difference %d" % (-2 * TOP[2])),
    Estimate(TEN, row_number("AJ"), -TEN_TOP, "difference %d" % (-2 * TOP[2])),
] + [own for k in range(1, 11) for own in estimates_about_limit(k)] + [
    Estimate(plan, 0, 0, "refused %d" % number) for number, plan in REFUSED_PLANS
] + [
    Estimate(Plan(2, 3, (), (AB, ABC)), 8, EIGHT_TOP + 1, "refused 8"),
    Estimate(Plan(3, 1), 0, 10, "refused 9"),
    Estimate(Plan(3, 1), 2, 10 ** 9, "refused 9"),
    Estimate(Plan(3, 2, (), (4,)), 0, 10, "refused 9"),
    Estimate(Plan(3, 3, (), (13,)), 9, 10 ** 9, "refused 9"),
    Estimate(TWO, 4, 0, "refused 10"),
    Estimate(TWO, 32768, 0, "refused 10"),
    Estimate(TWO, 5, 4 * TOP[2] + 1, "refused 10"),
    Estimate(IN_TWO_BLOCKS, 7, EIGHT_TOP + 1, "refused 12"),
    Estimate(IN_TWO_BLOCKS, 7, -EIGHT_TOP - 1, "refused 12"),
    Estimate(TEN, 1, -2 ** 63, "refused 12"),
    Estimate(TEN, 1, 2 ** 63 - 1, "refused 12"),
] + printed_estimates(examples.POTATO_PLOTS) + [
    Estimate(Plan(2, 1, repeats=2), 0, 20, "mean 5"),
    Estimate(Plan(2, 1, repeats=2), 1, -4, "difference 2"),
    Estimate(Plan(2, 1, repeats=8), 1, -4, "difference 1/2"),
    Estimate(Plan(2, 1, repeats=8), 0, 0, "mean 0"),
    Estimate(Plan(2, 1, repeats=8), 1, 0, "difference 0"),
    Estimate(TWO_2, 3, 0, "difference 0"),
    Estimate(NINE_2, 0, 1, "mean 1/1024"),
    Estimate(NINE_2, 511, -1, "difference 1/512"),
    Estimate(SEVEN_8, 0, -1, "mean -1/1024"),
    Estimate(SEVEN_8, 127, 1, "difference -1/512"),
    Estimate(SEVEN_8, 3, TEN_TOP - 1, "difference %d/512" % (TEN_TOP - 1)),
    Estimate(TWO_2, 3, 4 * TOP[2] + 1, "difference %d/4" % (4 * TOP[2] + 1)),
    Estimate(IN_BLOCKS_4, 7, 4 * EIGHT_TOP, "lost"),
    Estimate(IN_BLOCKS_4, 7, 4 * EIGHT_TOP + 1, "refused 12"),
    Estimate(IN_BLOCKS_4, 4, -16, "difference 1"),
    Estimate(TWO, 3, 8 * TOP[2], "refused 12"),
    Estimate(Plan(2, 3, (), (AB, ABC), 3), 0, 0, "refused 8"),
    Estimate(Plan(3, 1, repeats=3), 0, 10, "refused 16"),
    Estimate(Plan(3, 1, repeats=2), 0, 10, "refused 9"),
    Estimate(Plan(2, 2, repeats=3), 4, 0, "refused 16"),
    Estimate(Plan(2, 2, repeats=3), 0, 10 ** 9, "refused 16"),
    Estimate(TWO_2, 4, 10 ** 9, "refused 10"),
] + [own for repeats in (2, 4, 8) for k in (1, 3, 11 - repeats.bit_length()) for own in estimates_about_limit(k, repeats)]


# ---- aliases ----

def alias_text(label, turned):
    """The outcome of an alias that is given, in words."""
    return "reduced %s, %s" % (label, "turned" if turned else "unturned")


def published_aliases():
    """The aliases that Daniel prints, with his signs."""
    return [Alias(own.plan, own.effect, alias_text(row_label(own.word), own.turned)) for own in daniel.published()]


def alias(plan, letters, outcome):
    """An input of the alias call, by the letters of the effect."""
    return Alias(plan, row_number(letters), outcome)


# The words of D, of C, of E and F, of E, F and G, and which of these have sign 1; then ten base factors, of which K has
# all ten as its word, and L eight; then five added factors that all have sign 1.
D_IS_ABC, D_SIGN_1, C_SIGN_1 = Plan(2, 3, ((ABC, 0),)), Plan(2, 3, ((ABC, 1),)), Plan(2, 2, ((AB, 1),))
MIXED = Plan(2, 4, ((ABC, 1), (row_number("BCD"), 0)))
BOTH_SIGN_1 = Plan(2, 4, ((AB, 1), (ABC, 1)))
ALL_SIGN_1 = Plan(2, 4, ((AB, 1), (row_number("CD"), 1), (row_number("ABCD"), 1)))
LONG_WORDS = Plan(2, 10, ((row_number("ABCDEFGHIJ"), 0), (row_number("ABCDEFGH"), 1)))
FIVE_SIGN_1 = Plan(2, 5, tuple((row_number(label), 1) for label in "AB BC CD DE ABC".split()))
LAST_SIGN_1 = Plan(2, 4, tuple((row_number(label), int(label == "ABCD")) for label in "AB BC CD ABCD".split()))
ALL_LETTERS = "ABCDEFGHIJKLMNOP"

ALIASES = published_aliases() + [
    alias(D_IS_ABC, "AD", "reduced BC, unturned"),
    alias(D_SIGN_1, "AD", "reduced BC, turned"),
    alias(D_SIGN_1, "D", "reduced ABC, turned"),
    alias(D_SIGN_1, "ABCD", "reduced mean, turned"),
    alias(D_SIGN_1, "ABC", "reduced ABC, unturned"),
    alias(C_SIGN_1, "AC", "reduced B, unturned"),
    alias(C_SIGN_1, "A", "reduced A, unturned"),
    alias(MIXED, "E", "reduced ABC, turned"),
    alias(MIXED, "F", "reduced BCD, unturned"),
    alias(MIXED, "EF", "reduced AD, turned"),
    alias(MIXED, "DE", "reduced ABCD, turned"),
    alias(MIXED, "AF", "reduced ABCD, unturned"),
    alias(MIXED, "BCDF", "reduced mean, unturned"),
    alias(MIXED, "ABCDEF", "reduced BC, turned"),
    alias(BOTH_SIGN_1, "E", "reduced AB, unturned"),
    alias(BOTH_SIGN_1, "F", "reduced ABC, turned"),
    alias(BOTH_SIGN_1, "EF", "reduced C, turned"),
    alias(BOTH_SIGN_1, "CEF", "reduced mean, turned"),
    alias(BOTH_SIGN_1, "ABCDEF", "reduced ABD, turned"),
    alias(ALL_SIGN_1, "EF", "reduced ABCD, unturned"),
    alias(ALL_SIGN_1, "EFG", "reduced mean, unturned"),
    alias(TEN_ADDED, "K", "reduced AB, turned"),
    alias(TEN_ADDED, "N", "reduced CEHJ, unturned"),
    alias(TEN_ADDED, "P", "reduced ABCDEFGHJ, turned"),
    alias(TEN_ADDED, "OP", "reduced IJ, turned"),
    alias(TEN_ADDED, "AJ", "reduced AJ, unturned"),
    alias(TEN_ADDED, "mean", "reduced mean, unturned"),
    alias(TEN_ADDED, ALL_LETTERS, "reduced ABCDFJ, turned"),
    alias(TEN, "ABCDEFGHIJ", "reduced ABCDEFGHIJ, unturned"),
    alias(LONG_WORDS, "K", "reduced ABCDEFGHIJ, turned"),
    alias(LONG_WORDS, "L", "reduced ABCDEFGH, unturned"),
    alias(LONG_WORDS, "KL", "reduced IJ, turned"),
    alias(FIVE_SIGN_1, "FGHIJ", "reduced BCE, turned"),
    alias(FIVE_SIGN_1, "FGHI", "reduced AE, unturned"),
    alias(LAST_SIGN_1, "EFGH", "reduced BC, turned"),
    alias(LAST_SIGN_1, "EFG", "reduced AD, turned"),
    alias(Plan(2, 1), "A", "reduced A, unturned"),
    alias(TWO, "mean", "reduced mean, unturned"),
    alias(Plan(2, 3, (), (ABC,)), "ABC", "reduced ABC, unturned"),
] + [alias(plan, "mean", "refused %d" % number) for number, plan in REFUSED_PLANS] + [
    alias(Plan(3, 1, repeats=3), "mean", "refused 16"),
    alias(Plan(3, 1, repeats=2), "mean", "refused 9"),
    alias(Plan(2, 2, repeats=3), "C", "refused 16"),
    alias(Plan(2, 3, (), (AB, ABC), 3), "D", "refused 8"),
    alias(TWO_2, "C", "refused 10"),
    alias(D_SIGN_1._replace(repeats=2), "AD", "reduced BC, turned"),
    alias(BOTH_SIGN_1._replace(repeats=8), "EF", "reduced C, turned"),
    alias(Plan(4, 2), ALL_LETTERS, "refused 2"),
    alias(Plan(3, 7), "P", "refused 3"),
    alias(Plan(2, 3, (), (AB, ABC)), "D", "refused 8"),
    alias(Plan(3, 1), "mean", "refused 9"),
    alias(Plan(3, 1), "A", "refused 9"),
    alias(Plan(3, 1), "B", "refused 9"),
    alias(Plan(3, 2, (), (4,)), "mean", "refused 9"),
    alias(Plan(3, 3, (), (13,)), "D", "refused 9"),
    alias(TWO, "C", "refused 10"),
    alias(TWO, "P", "refused 10"),
    alias(D_IS_ABC, "E", "refused 10"),
    alias(D_IS_ABC, ALL_LETTERS, "refused 10"),
    alias(TEN, "K", "refused 10"),
]


# ---- effects ----

# Two levels as far as the list stays short, and the most factors; three levels all; refused with 2, and with 3.
EFFECTS = [*(Plan(2, k) for k in (1, 2, 3, 4, 5, 10)), *(Plan(3, k) for k in range(1, 7)), Plan(9, 2), Plan(2, 0)]

# How many places rows, divisors and weights have, whatever the plan, and what they have where it has no such effect.
PLACES, NO_EFFECT = 1024, Effect(0, 1, 0)

# Rules, X6: the divisors of two three-level factors.
NINE_DIVISORS = "9, 6, 18, 6, 4, 12, 18, 12, 36"


def effects_of(plan):
    """The effects of a plan, in order; none where it is refused with 2 or 3."""
    if totals_rules.plan_answer(plan) in (2, 3):
        return []
    levels, k = plan.levels, plan.k
    return [Effect(letters_used(levels, k, effect), totals_rules.divisor(levels, k, effect),
                   totals_rules.weight(levels, k, effect)) for effect in range(totals_rules.run_count(levels, k))]


# ---- runs ----

def runs_of(plan, outcomes):
    """Inputs of the run call for all runs of a plan, in order: letters and block of each."""
    return [Run(plan, number, "high %s, block %s" % tuple(outcome.split()))
            for number, outcome in enumerate(outcomes.split(", "))]


# Rules, X3, X5 and X7: the runs of D = ABC, with sign 0 and sign 1, in the two blocks of ABC, and in the four of AD and ABC;
# (1) stands for no letter. Then three levels: no letters, and the block of the word, or 0.
THREE_RUNS = [(1, (), "0, 0, 0"), (2, (), "0, 0, 0, 0, 0, 0, 0, 0, 0"), (2, (4,), "0, 1, 2, 1, 2, 0, 2, 0, 1"),
              (2, (7,), "0, 1, 2, 2, 0, 1, 1, 2, 0")]
RUNS = runs_of(Plan(2, 3, ((ABC, 0),)), "(1) 0, AD 0, BD 0, AB 0, CD 0, AC 0, BC 0, ABCD 0") + [
    Run(Plan(2, 3, ((ABC, 1),)), number, "high %s, block 0" % letters)
    for number, letters in enumerate("D A B ABD C ACD BCD ABC".split())
] + runs_of(IN_TWO_BLOCKS, "(1) 0, A 1, B 1, AB 0, C 1, AC 0, BC 0, ABC 1") + runs_of(
    AD_ABC, "(1) 0, A 3, B 2, AB 1, C 2, AC 1, BC 0, ABC 3, D 1, AD 2, BD 3, ABD 0, CD 3, ACD 0, BCD 1, ABCD 2") + [
    Run(Plan(3, k, (), blocks), number, "high (1), block %s" % block)
    for k, blocks, text in THREE_RUNS for number, block in enumerate(text.split(", "))
] + [
    Run(Plan(3, 3, (), (4,)), 26, "high (1), block 1"),
    Run(Plan(3, 3, (), (13,)), 26, "high (1), block 0"),
    Run(Plan(3, 3, (), (13,), 4), 14, "high (1), block 1"),
    Run(Plan(3, 3, (), (22,)), 9, "high (1), block 2"),
    Run(Plan(3, 6, (), (727,)), 728, "high (1), block 1"),
    Run(Plan(3, 6, (), (487,)), 486, "high (1), block 1"),
    Run(Plan(3, 6), 728, "high (1), block 0"),
    Run(Plan(3, 5, (), (12,), 4), 242, "high (1), block 1"),
    Run(TEN_BLOCKED, 1023, "high ABCDEFGHIJ, block 3"),
    Run(TEN_ADDED, 1, "high AKLMNO, block 1"),
] + [Run(plan, 0, "refused %d" % number) for number, plan in REFUSED_PLANS] + [
    Run(Plan(2, 2), 3, "high AB, block 0"),
    Run(Plan(2, 2), 4, "refused 10"),
    Run(Plan(2, 2), 65535, "refused 10"),
    Run(TEN, 1024, "refused 10"),
    Run(Plan(3, 1), 3, "refused 10"),
    Run(Plan(3, 2, (), (4,)), 9, "refused 10"),
    Run(Plan(3, 3), 27, "refused 10"),
    Run(Plan(3, 3, (), (22,)), 27, "refused 10"),
    Run(Plan(3, 6), 729, "refused 10"),
    Run(Plan(3, 1, repeats=2), 3, "refused 10"),
    Run(Plan(3, 1, repeats=3), 3, "refused 16"),
    Run(Plan(3, 2, (), (4,), 3), 9, "refused 16"),
    Run(Plan(3, 2, (), (8,), 3), 9, "refused 5"),
    Run(Plan(3, 2, (), (4, 4)), 9, "refused 4"),
    Run(Plan(3, 7, (), (4, 4)), 9, "refused 3"),
    Run(Plan(4, 2, (), (4,)), 9, "refused 2"),
    Run(Plan(2, 3, ((ABC, 1),), (ABC,)), 8, "refused 8"),
]


# ---- blockings ----

# Factors and words that the call does not take.
OTHER_FACTORS, OTHER_WORDS = (0, 1, 6, 7, 255), (0, 4, 255)

# How many places the most words take, and how many more than enough are tried.
MOST_WORDS, MORE = blocking_rules.MOST_PLACES, 3


def blockings_of(k, words, count):
    """Inputs of the blocking call for factors and words of which there are so many lists: places enough, and three more. Where
    there is a list: one place fewer, a place for each list where that is not enough, one place, none."""
    enough = count * words
    few = sorted({0, 1, count, enough - 1} - {enough}, reverse=True) if count else []
    return ([Blocking(k, words, places, "written %d" % count) for places in (enough, enough + MORE)]
            + [Blocking(k, words, places, "refused 18") for places in few])


# The places up to which the program writes every place of the column.
FEW_PLACES = 100

# The counts are those of rules/blockings.py, which are listed there. Then 3 and 17, alone and together with what comes later:
# without a place, and with places for all words that there are.
BLOCKINGS = [own for (k, words), count in blocking_rules.COUNTS.items() for own in blockings_of(k, words, count)] + [
    Blocking(k, words, places, "refused 3")
    for k in OTHER_FACTORS for words in (*blocking_rules.WORD_COUNTS, *OTHER_WORDS) for places in (0, MOST_WORDS)
] + [
    Blocking(k, words, places, "refused 17")
    for k in blocking_rules.FACTORS for words in OTHER_WORDS for places in (0, MOST_WORDS)
]


def column_before(places):
    """The column that the program lends: no place has the number of another, and none a word."""
    return [65_535 - place for place in range(places)]


# The prime of the checksum, and the number with which it is multiplied.
PRIME, FACTOR = 65_521, 17


def checksum(column, factor=FACTOR, prime=PRIME):
    """The checksum of a column."""
    found = 0
    for number in column:
        found = (factor * found + number) % prime
    return found


# ---- checks ----

def blocked_of(own):
    """The outcome of a blocking in words."""
    refused = blocking_rules.blocking_answer(own.k, own.words, own.places)
    return "refused %d" % refused if refused else "written %d" % len(blocking_rules.lists(own.k, own.words))


def check_blockings():
    """The outcome of every blocking is the one that the rules give, none is tried twice, and the program can lend the places.
    The checksum tells an exchange of two words, and lists in the order of the last word first."""
    complaints = ["blocking, %d factors, %d words, %d places: %s, listed %s" % (*own[:3], blocked_of(own), own.outcome)
                  for own in BLOCKINGS if blocked_of(own) != own.outcome or own.places > MOST_PLACES_LENT]
    if len({own[:3] for own in BLOCKINGS}) != len(BLOCKINGS):
        complaints.append("blocking: one is tried twice")
    turned = sorted(blocking_rules.lists(5, 3), key=lambda words: words[::-1])
    if (any(pow(FACTOR, apart, PRIME) == 1 for apart in range(1, MOST_PLACES_LENT))
            or checksum(blocking_rules.words_of(5, 3)) == checksum([word for words in turned for word in words])):
        complaints.append("blocking: the checksum does not tell another order")
    return complaints


def check_runs():
    """The outcome of every run is the one that the rules give."""
    found = [(own, ran_of(own)) for own in RUNS]
    return ["run %d, %s: %s, listed %s" % (own.number, plan_text(own.plan), outcome, own.outcome)
            for own, outcome in found if outcome != own.outcome]


def ran_of(own):
    """The outcome of a run in words: its letters, (1) for none, and its block, or the number that refuses it."""
    refused = totals_rules.run_answer(own.plan, own.number)
    if refused:
        return "refused %d" % refused
    high, block = totals_rules.treatment(own.plan, own.number)
    return "high %s, block %d" % (row_label(high) if high else "(1)", block)


def check_tables():
    """The number of every table is the one that the rules give."""
    found = [(own, table_rules.table_answer(own.plan, own.readings, own.marks, own.totals_length, own.rows_length))
             for own in REFUSALS + ACCEPTED]
    return ["table, %s: %d, listed %d" % (own.why, number, own.number) for own, number in found if number != own.number]


def outcome_of(own):
    """The outcome of an estimate in words: its name and exact quotient, or the number that refuses it."""
    refused = table_rules.estimate_answer(own.plan, own.effect, own.total)
    if refused:
        return "refused %d" % refused
    name, quotient = table_rules.estimate(own.plan, own.effect, own.total)
    return name if quotient is None else "%s %s" % (name, quotient)


def check_estimates():
    """The outcome of every estimate is the one that the rules give."""
    complaints = []
    for own in ESTIMATES:
        name, _, value = own.outcome.partition(" ")
        listed = own.outcome if name == "refused" or not value else "%s %s" % (name, Fraction(value))
        found = outcome_of(own)
        if found != listed:
            complaints.append("estimate of %d, total %d: %s, listed %s" % (own.effect, own.total, found, own.outcome))
    return complaints


def check_report():
    """The report's totals and differences against published/examples.py; its first difference is twice the mean."""
    example = examples.REPORT_TWO_LEVELS
    printed = next(printed for printed in example.printed if printed.label == "differences")
    mends = examples.mends_of(example, printed)
    figures = [mends[place].meant if place in mends else figure for place, figure in enumerate(printed.text.split())]
    complaints = []
    if [Fraction(figure) for figure in figures] != [Fraction(figure) for figure in REPORT_DIFFERENCES.split()]:
        complaints.append("report, 2^4: differences")
    if 2 * Fraction(ESTIMATES[0].outcome.split()[1]) != Fraction(REPORT_DIFFERENCES.split()[0]):
        complaints.append("report, 2^4: the first difference is not twice the mean")
    if [int(total) for total in REPORT_TOTALS.split()] != totals_rules.totals(2, 4, examples.whole_readings(example)):
        complaints.append("report, 2^4: totals")
    return complaints


def check_amcp():
    """Totals that AMCP prints in Table 12-2 round, over 8, to the estimated effects that it prints."""
    example = examples.AMCP_WHOLE
    complaints = []
    for label, rounded in AMCP_ROUNDED.items():
        estimated = printed_totals(example)[row_number(label)] / 8 / 10 ** example.places
        if abs(estimated - Fraction(rounded)) * 10 > Fraction(1, 2):
            complaints.append("AMCP, Data Sample 12-2: estimated effect of " + label)
    return complaints


def check_zeros():
    """A total of 0 gives positive zero, whose 64 bits are 0."""
    return ["estimate of %d, total 0: not positive zero" % own.effect for own in ESTIMATES
            if own.total == 0 and own.outcome.endswith(" 0") and not estimate_text(own).endswith(" 0")]


def reduced_of(own):
    """The outcome of an alias in words: base word and turn, or the number that refuses it."""
    refused = totals_rules.alias_answer(own.plan, own.effect)
    if refused:
        return "refused %d" % refused
    word, turned = totals_rules.alias(own.plan, own.effect)
    return alias_text(row_label(word), turned)


def counts(plan, effect):
    """How each run counts in an effect, high minus low: 1 for each letter that is high and -1 for each that is low,
    multiplied."""
    letters = [letter for letter in range(effect.bit_length()) if effect >> letter & 1]
    found = []
    for run in range(2 ** plan.k):
        count, high = 1, totals_rules.high_letters(plan, run)
        for letter in letters:
            count *= 1 if high >> letter & 1 else -1
        found.append(count)
    return found


def listed_alias(own):
    """The base word that is listed, and the turn as it is listed; None where a refusal is."""
    if own.outcome.startswith("refused"):
        return None
    _, label, turn = own.outcome.replace(",", "").split()
    return row_number(label), turn


def counts_agree(own):
    """Whether the effect counts in every run as the base word that is listed, the other way round where it is turned."""
    word, turn = listed_alias(own)
    return counts(own.plan, own.effect) == [-count if turn == "turned" else count for count in counts(own.plan, word)]


def check_aliases():
    """The outcome of every alias is the one that the rules give, and in the runs it is as listed."""
    complaints = []
    for own in ALIASES:
        found = reduced_of(own)
        if found != own.outcome:
            complaints.append("alias of %d: %s, listed %s" % (own.effect, found, own.outcome))
        elif listed_alias(own) and not counts_agree(own):
            complaints.append("alias of %d: in the runs it is not %s" % (own.effect, own.outcome))
    return complaints


def check_effects():
    """The divisors of two three-level factors are those that the rules print. Those of fewer than six are the entries of six
    divided by 3 for each that is missing. And divisor times weight is the denominator."""
    complaints = []
    if ", ".join(str(own.divisor) for own in effects_of(Plan(3, 2))) != NINE_DIVISORS:
        complaints.append("effects, two three-level factors: divisors")
    six = effects_of(Plan(3, 6))
    for plan in EFFECTS:
        found, over = effects_of(plan), totals_rules.denominator(plan.levels, plan.k)
        if plan.levels == 3 and any(own.divisor * 3 ** (6 - plan.k) != entry.divisor for own, entry in zip(found, six)):
            complaints.append("effects, %s: a divisor is not that of six factors, divided" % plan_text(plan))
        if any(own.divisor * own.weight != over for own in found):
            complaints.append("effects, %s: a weight is not denominator over divisor" % plan_text(plan))
    return complaints


def check_lent():
    """The program can lend as much as every table wants."""
    return ["table, %s: too many places" % own.why for own in REFUSALS + ACCEPTED
            if max(len(own.readings), own.totals_length, own.rows_length) > MOST_LENT]


def check():
    """List of all complaints about tables, estimates, aliases, effects, runs and blockings."""
    return (check_tables() + check_estimates() + check_report() + check_amcp() + check_zeros() + check_aliases()
            + check_effects() + check_runs() + check_lent() + check_blockings())


# ---- expected text ----

def table_text(own):
    """What the program writes of a table. One that is made has rows and error, and writes its totals and rows."""
    if own.number:
        return "refused %d, unchanged" % own.number
    made = table_rules.table(own.plan, own.readings, own.marks)
    return "made, rows%s, error %d %d, changed" % (examples.values_text(part.numerator for part in made.rows), *made.error)


def estimate_text(own):
    """What the program writes of an estimate."""
    outcome = outcome_of(own)
    if outcome == table_rules.LOST or outcome.startswith("refused"):
        return outcome
    name, quotient = outcome.split()
    return "%s %d" % (name, table_rules.double_pattern(table_rules.exact_double(Fraction(quotient))))


def reduced_text(own):
    """What the program writes of an alias: the base word as a number."""
    return "reduced %d, %s" % listed_alias(own) if listed_alias(own) else own.outcome


def effects_text(plan):
    """What the program writes of a plan's effects, and of the first place after them."""
    found = effects_of(plan)
    return "\n".join(["effects %d" % len(found)] + [" %d %d %d" % own for own in [*found, NO_EFFECT][:PLACES]])


def ran_text(own):
    """What the program writes of a run: its letters as a number."""
    if own.outcome.startswith("refused"):
        return own.outcome
    letters, block = own.outcome.split()[1:4:2]
    return "high %d, block %s" % (0 if letters == "(1)," else row_number(letters.strip(",")), block)


def blocked_text(own):
    """What the program writes of a blocking: the outcome, how many places are kept, the checksum, and few places."""
    before = column_before(own.places)
    after = blocking_rules.column_after(own.k, own.words, before)
    kept = sum(number == old for number, old in zip(after, before))
    column = ", column" + examples.values_text(after) if len(after) <= FEW_PLACES else ""
    return "%s, kept %d, checksum %d%s" % (own.outcome, kept, checksum(after), column)


def numbered(texts, first=1):
    """The texts, each with its number before it and on lines of its own; the first has a number that is said."""
    return "".join("%d: %s\n" % pair for pair in enumerate(texts, first))


def record_count():
    """How many records there are of tables, estimates, aliases, effects, runs and blockings."""
    return sum(map(len, (REFUSALS, ACCEPTED, ESTIMATES, ALIASES, EFFECTS, RUNS, BLOCKINGS)))


def expected_text():
    """What the program that tries tables, estimates, aliases, effects, runs and blockings must write of them."""
    return numbered([table_text(own) for own in REFUSALS + ACCEPTED] + [estimate_text(own) for own in ESTIMATES]
                    + [reduced_text(own) for own in ALIASES] + [effects_text(plan) for plan in EFFECTS]
                    + [ran_text(own) for own in RUNS] + [blocked_text(own) for own in BLOCKINGS])


# ---- input ----

def with_call(sheet, call, rest):
    """A record: length, sheet and field 9."""
    fields = sheet + sheet_bytes.field(REST, bytes([call]) + rest)
    return bytes([len(fields)]) + fields


def record(plan, readings, marks, call, rest):
    """A record with the sheet of a plan."""
    return with_call(sheet_bytes.write(plan, readings, marks), call, rest)


def table_record(own, call=TABLE):
    """The record of a table, of the table call if no other is said."""
    return record(own.plan, own.readings, own.marks, call, bytes([own.totals_length, own.rows_length]))


def estimate_record(own):
    """The record of an estimate."""
    return record(own.plan, [], [], ESTIMATE, own.effect.to_bytes(2, "big") + own.total.to_bytes(8, "big", signed=True))


def alias_record(own):
    """The record of an alias."""
    return record(own.plan, [], [], ALIAS, own.effect.to_bytes(2, "big"))


def effects_record(plan):
    """The record of a plan whose effects are tried."""
    return record(plan, [], [], EFFECT, b"")


def run_record(own):
    """The record of a run."""
    return record(own.plan, [], [], RUN, own.number.to_bytes(2, "big"))


def blocking_record(own):
    """The record of a blocking, without a sheet."""
    return with_call(b"", BLOCKING, bytes([own.k, own.words]) + own.places.to_bytes(2, "big"))


def inputs():
    """The input of the program: the records of all tables, estimates, aliases, effects, runs and blockings."""
    return b"".join([table_record(own) for own in REFUSALS + ACCEPTED] + [estimate_record(own) for own in ESTIMATES]
                    + [alias_record(own) for own in ALIASES] + [effects_record(plan) for plan in EFFECTS]
                    + [run_record(own) for own in RUNS] + [blocking_record(own) for own in BLOCKINGS])


def plan_text(plan):
    """A plan in words."""
    return "levels %d, k %d, added%s, blocks%s, repeats %d" % (
        *plan[:2], "".join(" %d/%d" % pair for pair in plan.added), examples.values_text(plan.blocks), plan.repeats)


def list_text():
    """A line for each record: of a table why it is refused, or what it has about the limits; of an estimate plan, effect and
    total; of an alias plan and effect; of effects the plan; of a run plan and number; of a blocking factors, words and
    places."""
    return numbered(["refusal, " + own.why for own in REFUSALS] + ["table, " + own.why for own in ACCEPTED]
                    + ["estimate, %s, effect %d, total %d" % (plan_text(own.plan), *own[1:3]) for own in ESTIMATES]
                    + ["alias, %s, effect %d" % (plan_text(own.plan), own.effect) for own in ALIASES]
                    + ["effects, " + plan_text(plan) for plan in EFFECTS]
                    + ["run, %s, number %d" % (plan_text(own.plan), own.number) for own in RUNS]
                    + ["blocking, factors %d, words %d, places %d" % own[:3] for own in BLOCKINGS])


if __name__ == "__main__":
    found = check()
    if found:
        sys.exit("\n".join(found))
    if "inputs" in sys.argv[1:]:
        sys.stdout.buffer.write(inputs())
    else:
        sys.stdout.write(list_text() if "list" in sys.argv[1:] else expected_text())
