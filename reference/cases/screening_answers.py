# Inputs of the screening call, each with the answer that the rules give; check() compares it with what rules/screening.py
# answers. And the part of the input and of the expected text of the program worked_answers that is about them, which comes
# after that of answers.py.
#
# The records are laid out like those of a table, with 7 for the call, and so are the lines that the program writes of them.
# The lengths lent are 32 at most, so that a table is made of up to five base factors and 32 readings. Of larger plans 21 is
# tried, and 11 where nothing meets.
#
# Inputs by what they tell apart:
#   PUBLISHED      the plans of AMCP's Table 12-4, with signs 0 and 1; Data Sample 12-4, with each row marked; Daniel's
#                  quarter; and worked tables, of which four pool a main effect
#   THREE_ADDED    three added factors that meet by themselves, with all signs: a program that tries base main effects alone
#                  admits them
#   TWO_ADDED      a base factor that meets two added ones, with all signs: a program that tries the interactions of base
#                  factors alone admits them, and those of THREE_ADDED
#   ONE_ADDED      an added factor that meets two base ones, with both signs: a program that compares signs admits one of two
#                  plans that differ in one sign
#   ONE_THREE      plans of eight factors in which three meet and no others, for all three that are not base factors alone: a
#                  program that leaves out a factor or a pair admits some of them
#   MANY           plans of up to sixteen factors
#   MARKED         the row of each added factor of Table 12-4 marked, for a program that looks at the rows of base factors
#                  alone; and rows that are no main effect's
#   BESIDE         blocks and repeats beside added factors
#   ALONE, ORDER   every number by itself, and two or more of which the first is answered: for a program that has 21 after 11,
#                  21 before 16, or 13 for a main effect before 12
#   MADE           plans with signs, readings and marks that are made by numbers from a fixed seed
# A program that writes before it looks is told by `changed`, where the screening call refuses an input of which the table call
# makes a table. WRONG has wrong programs, and check() tests that each of them is told apart.
#
# Defined here:
#   SCREENED         all inputs, each a TableInput of answers.py
#   WRONG            wrong programs by name, and told_apart: the inputs that tell one
#   check            list of complaints, empty if all is well
#   expected_text    the expected text of this part
#   inputs           the input of the program, this part (screening_answers.py inputs)
#   list_text        a line for each record, with its number and what is tried (screening_answers.py list)

import sys
from itertools import combinations, permutations, product
from os.path import abspath, dirname

sys.path.insert(0, dirname(dirname(dirname(abspath(__file__)))))

from reference.cases import answers
from reference.cases.answers import SCREENING, TOP, TableInput, plan_text
from reference.cases.sheet_cases import Numbers
from reference.published import amcp, analyses, examples
from reference.rules import screening as screening_rules
from reference.rules import table as table_rules
from reference.rules import totals as totals_rules
from reference.rules.table import row_label, row_number
from reference.rules.totals import DONE, Plan

MOST_LENT, MOST_INPUT = answers.MOST_LENT, 65_536


# ---- inputs ----

def words(labels, signs=()):
    """Added factors by the letters of their words, parted by spaces, with signs; 0 where these are not said."""
    own = [row_number(label) for label in labels.split()]
    return tuple(zip(own, [*signs, *[0] * (len(own) - len(signs))]))


def lengths_of(plan):
    """N and R; 4 and 4 of a plan that is refused with 2 or 3, or that is too large to be lent."""
    if totals_rules.plan_answer(plan) in (2, 3) or totals_rules.run_count(plan.levels, plan.k) > MOST_LENT:
        return 4, 4
    return totals_rules.run_count(plan.levels, plan.k), table_rules.row_count(plan.k)


def usual_readings(plan):
    """Readings from -41 to 41 that are spread out; one for each run where repeats are refused."""
    repeats = plan.repeats if plan.repeats in totals_rules.REPEATS else 1
    count = min(lengths_of(plan)[0] * repeats, MOST_LENT)
    return [(17 * place ** 2 + 5 * place + 3) % 83 - 41 for place in range(count)]


def attempt(number, why, plan, readings=None, marked="", marks=None, totals_length=None, rows_length=None):
    """An input of the screening call that is refused with a number, or accepted where that is 0. What is not said: usual
    readings; mark 1 on the rows of some labels, on none if these are not said; as many totals and rows as the plan has."""
    runs, rows = lengths_of(plan)
    of_rows = [row_number(label) for label in marked.split()]
    return TableInput(number, why, plan, usual_readings(plan) if readings is None else readings,
                      [int(row in of_rows) for row in range(rows)] if marks is None else marks,
                      runs if totals_length is None else totals_length, rows if rows_length is None else rows_length)


# ---- published plans and tables ----

def turned(plan):
    """A plan with all signs the other way round."""
    return plan._replace(added=tuple((word, 1 - sign) for word, sign in plan.added))


def of_table_12_4():
    """The plans of AMCP's Table 12-4, with signs 0 and with signs 1."""
    found = []
    for number, meant in amcp.SCREENED.items():
        plan, name = amcp.fractional_plan(number), "AMCP, Table 12-4, plan %d" % number
        found += [attempt(meant, name, plan), attempt(meant, name + ", signs 1", turned(plan))]
    return found


def of_worked(number, own, marked=None):
    """A worked table, or the same with other rows marked, by their labels."""
    why = own.title + ("" if marked is None else ", marked " + marked)
    rows = " ".join(map(row_label, own.marked)) if marked is None else marked
    return attempt(number, why, own.plan, own.readings, rows)


def of_data_sample():
    """Data Sample 12-4: D, whose word is ABC, and the base factors may not be marked."""
    own, plan = analyses.AMCP_HALF, analyses.AMCP_HALF.plan
    found = [of_worked(13 if label in ("mean", "A", "B", "C", "ABC") else DONE, own, label)
             for label in map(row_label, range(table_rules.row_count(plan.k)))]
    return [of_worked(DONE, own)] + found + [of_worked(DONE, own, "AB AC BC"), of_worked(13, own, "AB AC BC ABC")]


# Daniel's other fractional plans are plans 1, 2 and 3 of Table 12-4, with signs 0 and 1.
QUARTER = attempt(21, examples.DANIEL_QUARTER.title, examples.plan(examples.DANIEL_QUARTER),
                  examples.whole_readings(examples.DANIEL_QUARTER))

# All two-level tables with printed figures have up to 32 readings. Data Sample 12-4 is above.
WORKED = [of_worked(13 if own.title in analyses.MAINS_POOLED else DONE, own) for own in analyses.TABLES
          if own.plan.levels == 2 and own.printed and own is not analyses.AMCP_HALF]
THREE_LEVELS = [of_worked(9, own) for own in (analyses.DANIEL_LETTUCE, analyses.YATES_HAY, analyses.FIRST_Y)]
PUBLISHED = of_table_12_4() + of_data_sample() + [QUARTER] + WORKED + THREE_LEVELS


# ---- what meets ----

def with_signs(number, k, labels):
    """The plan of k base factors with some added words, with all choices of signs."""
    name = "k = %d, added %s, signs" % (k, labels)
    return [attempt(number, name + examples.values_text(signs), Plan(2, k, words(labels, signs)))
            for signs in product((0, 1), repeat=len(labels.split()))]


def admitted(k, *choices):
    """Plans of k base factors with some added words, in which nothing meets."""
    return [attempt(DONE, "k = %d, added %s" % (k, labels or "none"), Plan(2, k, words(labels))) for labels in choices]


# H is F G; each two of the three are admitted.
THREE_ADDED = with_signs(21, 5, "ABC ADE BCDE") + admitted(5, "ABC ADE", "ABC BCDE", "ADE BCDE")

# D is E F; each of the two is admitted, E = ABCD as plan 3 of Table 12-4.
TWO_ADDED = with_signs(21, 4, "ABC ABCD") + admitted(4, "ABC")

# C = AB of two base factors is plan 1 of Table 12-4. Without added factors nothing meets.
ONE_ADDED = (with_signs(21, 3, "AB") + with_signs(21, 3, "AC") + with_signs(21, 3, "BC") + with_signs(21, 4, "CD")
             + [own for k in range(1, 6) for own in admitted(k, "")] + admitted(5, "ABCDE"))


def met_alone(all_words, three):
    """Whether three of some words combine to nothing, and no other three do."""
    return [own for own in combinations(range(len(all_words)), 3)
            if totals_rules.combine(all_words[factor] for factor in own) == 0] == [three]


def only_three(three):
    """A plan of five base and three added factors in which three factors meet, and no others: the word of the last of them
    combines those of the two others. The second and the third added factor have sign 1. There are no readings and marks."""
    long_words = [word for word in range(32) if totals_rules.letter_count(word) > 2]
    for chosen in permutations(long_words, 2):
        all_words = [1, 2, 4, 8, 16, *chosen]
        all_words.insert(three[2], all_words[three[0]] ^ all_words[three[1]])
        if met_alone(all_words, three):
            break
    names = [chr(ord("A") + factor) for factor in three]
    return attempt(21, "%s, %s and %s meet alone, added %s" % (*names, " ".join(map(row_label, all_words[5:]))),
                   Plan(2, 5, tuple(zip(all_words[5:], (0, 1, 1)))), readings=[], marks=[])


# All threes of eight factors but those of base factors alone, which cannot meet.
ONE_THREE = [only_three(three) for three in combinations(range(8), 3) if three[2] >= 5]

# The readings are too few, so that a plan in which nothing meets is refused with 11.
MANY = [
    attempt(11, "k = 10, six added, nothing meets", Plan(2, 10, words("ABC DEF GHI ADG BEH ABCDEFGHI", (1, 0, 1)))),
    attempt(21, "k = 10, six added, J, O and P meet", Plan(2, 10, words("ABC DEF GHI ADG ABCDEFGHI ABCDEFGHIJ", (0, 1)))),
    attempt(21, "k = 10, six added, N, O and P meet", Plan(2, 10, words("ABC DEF ADG GHI CFJ CFGHIJ", (1, 1, 1, 0, 0, 1)))),
    attempt(21, "k = 10, six added, I, J and P meet", Plan(2, 10, words("ABC DEF GHI ADG BEH IJ"))),
    attempt(21, "k = 10, six added, K, L and M meet", Plan(2, 10, words("ABC DEF ABCDEF ADG BEH CFI"))),
    attempt(21, "k = 10, six added, A, B and K meet", Plan(2, 10, words("AB DEF GHI ADG BEH CFI"))),
    attempt(11, "k = 10, none added", Plan(2, 10)),
    attempt(11, "k = 6, added ABC DEF", Plan(2, 6, words("ABC DEF"))),
    attempt(21, "k = 6, added ABC DEF ABCDEF", Plan(2, 6, words("ABC DEF ABCDEF", (0, 0, 1)))),
    attempt(21, "k = 6, added ABCD CDEF ABEF", Plan(2, 6, words("ABCD CDEF ABEF"))),
    attempt(DONE, "k = 5, six added, nothing meets", Plan(2, 5, words("ABC ABD ABE ACD ACE ADE", (0, 1)))),
    attempt(DONE, "k = 5, six added, signs 1", Plan(2, 5, words("ABC ABD ABE ACD ACE ADE", (1,) * 6))),
    attempt(21, "k = 5, six added, the last meets", Plan(2, 5, words("ABC ABD ABE ACD ACE BCDE"))),
    attempt(21, "k = 4, six added", Plan(2, 4, words("ABC ABD ACD BCD ABCD AB"))),
    attempt(21, "k = 4, five added", Plan(2, 4, words("ABC ABD ACD BCD ABCD"))),
]


# ---- marks ----

def marked_rows(number):
    """A plan of Table 12-4 that is admitted: the row of the last base factor marked, that of each added one, and all rows that
    are no main effect's."""
    plan, name = amcp.fractional_plan(number), "AMCP, Table 12-4, plan %d, marked " % number
    added = [word for word, _ in plan.added]
    mains = [1 << factor for factor in range(plan.k)] + added
    others = " ".join(row_label(row) for row in range(1, 2 ** plan.k) if row not in mains)
    labels = [row_label(row) for row in [1 << plan.k - 1] + added]
    return ([attempt(13, name + label, plan, marked=label) for label in labels]
            + [attempt(DONE, name + others, plan, marked=others)])


EIGHT_FACTORS, D_IS_ABC = amcp.fractional_plan(8), Plan(2, 3, words("ABC"))
MARKED = [own for number in (3, 5, 7, 8) for own in marked_rows(number)] + [
    attempt(DONE, "AMCP, Table 12-4, plan 5, marked as AMCP says", amcp.fractional_plan(5), marked="ABD ACD"),
    attempt(DONE, "AMCP, Table 12-4, plan 7, marked as AMCP says", amcp.fractional_plan(7), marked="ACD"),
    attempt(13, "D has sign 1, its row marked", Plan(2, 3, words("ABC", (1,))), marked="ABC"),
    attempt(DONE, "D has sign 1, rows of interactions marked", Plan(2, 3, words("ABC", (1,))), marked="AB AC BC"),
    attempt(DONE, "k = 3, ABC marked, which is no factor's", Plan(2, 3), marked="ABC"),
    attempt(DONE, "k = 4, E is ABC, ABCD marked", Plan(2, 4, words("ABC")), marked="ABCD"),
    attempt(DONE, "k = 4, E is ABCD, ABC marked", Plan(2, 4, words("ABCD")), marked="ABC"),
    attempt(13, "k = 1, A marked", Plan(2, 1), marked="A"),
    attempt(13, "k = 2, B marked", Plan(2, 2), marked="B"),
    attempt(13, "k = 5, E marked", Plan(2, 5), marked="E"),
    attempt(13, "k = 5, the last of six added marked", Plan(2, 5, words("ABC ABD ABE ACD ACE ADE")), marked="ADE"),
    attempt(DONE, "k = 5, six added, BCD marked", Plan(2, 5, words("ABC ABD ABE ACD ACE ADE")), marked="BCD"),
    attempt(13, "mark 2 on the row of D", D_IS_ABC, marks=[0] * 7 + [2]),
    attempt(13, "mark 255 on the row of A", D_IS_ABC, marks=[0, 255] + [0] * 6),
    attempt(13, "mark 2 on a row that is no main effect's", D_IS_ABC, marks=[0, 0, 0, 2] + [0] * 4),
    attempt(13, "mark 1 on the mean", D_IS_ABC, marked="mean"),
    attempt(13, "all rows marked but the mean", D_IS_ABC, marked="A B AB C AC BC ABC"),
]


# ---- blocks and repeats ----

# What is lost to blocks is no main effect: AB of four and of eight factors, AB, CD and ABCD of five.
D_BLOCKED, EIGHT_BLOCKED = (plan._replace(blocks=(row_number("AB"),)) for plan in (D_IS_ABC, EIGHT_FACTORS))
E_BLOCKED = Plan(2, 4, words("ABC"), (row_number("AB"), row_number("CD")))
BESIDE = [
    attempt(DONE, "D is ABC, block word AB", D_BLOCKED),
    attempt(13, "D is ABC, block word AB, its row marked", D_BLOCKED, marked="AB"),
    attempt(13, "D is ABC, block word AB, the row of D marked", D_BLOCKED, marked="ABC"),
    attempt(DONE, "D is ABC, block word AB, AC and BC marked", D_BLOCKED, marked="AC BC"),
    attempt(DONE, "E is ABC, block words AB, CD", E_BLOCKED),
    attempt(13, "E is ABC, block words AB, CD, their combination marked", E_BLOCKED, marked="ABCD"),
    attempt(13, "E is ABC, block words AB, CD, the row of E marked", E_BLOCKED, marked="ABC"),
    attempt(DONE, "eight factors, block word AB", EIGHT_BLOCKED),
    attempt(13, "eight factors, block word AB, the row of H marked", EIGHT_BLOCKED, marked="ACD"),
    attempt(21, "D is AB, block word ABC", Plan(2, 3, words("AB"), (row_number("ABC"),))),
    attempt(21, "D is E F, block word AB", Plan(2, 4, words("ABC ABCD"), (row_number("AB"),))),
    attempt(DONE, "D is ABC, 2 repeats", D_IS_ABC._replace(repeats=2)),
    attempt(DONE, "D is ABC, 4 repeats, AB and AC marked", D_IS_ABC._replace(repeats=4), marked="AB AC"),
    attempt(13, "D is ABC, 4 repeats, the row of D marked", D_IS_ABC._replace(repeats=4), marked="ABC"),
    attempt(DONE, "eight factors, 2 repeats", EIGHT_FACTORS._replace(repeats=2)),
    attempt(13, "eight factors, 2 repeats, the row of F marked", EIGHT_FACTORS._replace(repeats=2), marked="BCD"),
    attempt(DONE, "eight factors, 2 repeats, block word AB, BC marked", EIGHT_BLOCKED._replace(repeats=2), marked="BC"),
    attempt(21, "C is AB, 8 repeats", Plan(2, 2, words("AB"), (), 8)),
    attempt(21, "D is E F, 2 repeats", Plan(2, 4, words("ABC ABCD"), (), 2)),
    attempt(DONE, "k = 2, 8 repeats", Plan(2, 2, repeats=8)),
]


# ---- every number, and the order of checks ----

TWO, C_IS_AB, NINE_RUNS = Plan(2, 2), Plan(2, 2, words("AB")), Plan(3, 2)
ALONE = [
    attempt(2, "levels 4", Plan(4, 2)),
    attempt(2, "levels 0", Plan(0, 2)),
    attempt(3, "k = 0", Plan(2, 0)),
    attempt(3, "k = 11", Plan(2, 11)),
    attempt(3, "three levels, k = 7", Plan(3, 7)),
    attempt(4, "seven added factors", Plan(2, 4, words("ABC ABD ACD BCD ABCD AB CD"))),
    attempt(4, "five block words", Plan(2, 2, (), (3,) * 5)),
    attempt(4, "three levels, an added factor", Plan(3, 2, words("AB"))),
    attempt(5, "k = 2, added word AC", Plan(2, 2, words("AC"))),
    attempt(5, "added word A", Plan(2, 2, words("A"))),
    attempt(5, "D is ABC with sign 2", Plan(2, 3, words("ABC", (2,)))),
    attempt(5, "block word empty", Plan(2, 3, words("ABC"), (0,))),
    attempt(5, "three levels, block word 5", Plan(3, 2, (), (5,))),
    attempt(6, "added ABC and ABC", Plan(2, 3, words("ABC ABC", (0, 1)))),
    attempt(7, "D is ABC, block words AB, AB", Plan(2, 3, words("ABC"), (3, 3))),
    attempt(8, "D is ABC, block word ABC", Plan(2, 3, words("ABC"), (7,))),
    attempt(8, "k = 3, block word A", Plan(2, 3, (), (1,))),
    attempt(16, "D is ABC, 3 repeats", D_IS_ABC._replace(repeats=3)),
    attempt(16, "D is ABC, 0 repeats", D_IS_ABC._replace(repeats=0)),
    attempt(16, "k = 10, 2 repeats", Plan(2, 10, repeats=2)),
    attempt(9, "three levels, k = 1", Plan(3, 1)),
    attempt(9, "three levels, k = 2", NINE_RUNS),
    attempt(9, "three levels, k = 3, 27 runs", Plan(3, 3)),
    attempt(9, "three levels in three blocks", Plan(3, 2, (), (4,))),
    attempt(9, "three levels, 2 repeats", Plan(3, 2, repeats=2)),
    attempt(11, "D is ABC, 7 readings", D_IS_ABC, readings=[0] * 7),
    attempt(11, "D is ABC, 9 readings", D_IS_ABC, readings=[0] * 9),
    attempt(11, "no readings", D_IS_ABC, readings=[]),
    attempt(11, "D is ABC, 2 repeats, 8 readings", D_IS_ABC._replace(repeats=2), readings=[0] * 8),
    attempt(11, "7 totals", D_IS_ABC, totals_length=7),
    attempt(11, "9 totals", D_IS_ABC, totals_length=9),
    attempt(11, "16 totals, one for each run of four factors", D_IS_ABC, totals_length=16),
    attempt(11, "7 rows", D_IS_ABC, rows_length=7),
    attempt(11, "9 rows", D_IS_ABC, rows_length=9),
    attempt(11, "7 marks", D_IS_ABC, marks=[0] * 7),
    attempt(11, "16 marks, one for each row of four factors", D_IS_ABC, marks=[0] * 16),
    attempt(12, "the last reading one beyond the limit", D_IS_ABC, readings=[0] * 7 + [TOP[2] + 1]),
    attempt(12, "the first reading one beyond the lower limit", D_IS_ABC, readings=[-TOP[2] - 1] + [0] * 7),
    attempt(DONE, "all readings at the limit", D_IS_ABC, readings=[TOP[2]] * 8),
    attempt(DONE, "all readings at the lower limit", EIGHT_FACTORS, readings=[-TOP[2]] * 16),
]

# Some have five numbers. What comes later than 13 in the order is no number of this call.
FAULTY = dict(readings=[TOP[2] + 1], marks=[1, 2], totals_length=1, rows_length=1)
ORDER = [
    attempt(2, "2, 11, 12 and 13", Plan(4, 2, words("AB")), **FAULTY),
    attempt(3, "3 and 21: k = 11", Plan(2, 11, words("AB"))),
    attempt(4, "4 and 21: seven added factors", Plan(2, 4, words("AB CD AC BC BD AD ABC"))),
    attempt(4, "4 and 9: three levels, an added factor, 2 readings", Plan(3, 2, words("AB")), readings=[0, 0]),
    attempt(5, "5 and 21: C is AB with sign 2", Plan(2, 2, words("AB", (2,)))),
    attempt(5, "5 and 9: three levels, block word 6", Plan(3, 2, (), (6,))),
    attempt(6, "6 and 21: added AB and AB", Plan(2, 3, words("AB AB"))),
    attempt(7, "7 and 21: D is AB, block words ABC, ABC", Plan(2, 3, words("AB"), (7, 7))),
    attempt(8, "8 and 21: D is AB, block word AB", Plan(2, 3, words("AB"), (3,))),
    attempt(16, "16 and 21: C is AB, 3 repeats", C_IS_AB._replace(repeats=3)),
    attempt(16, "16 and 21: k = 10, K is AB, 2 repeats", Plan(2, 10, words("AB"), (), 2)),
    attempt(16, "16 and 21: three added meet, 64 repeats", Plan(2, 5, words("ABC ADE BCDE"), (), 64)),
    attempt(16, "16 and 9: three levels, 3 repeats", Plan(3, 1, repeats=3)),
    attempt(16, "16, 21, 11, 12 and 13", C_IS_AB._replace(repeats=3), **FAULTY),
    attempt(21, "21 and 11: 3 readings", C_IS_AB, readings=[3, 5, 4]),
    attempt(21, "21 and 11: 3 totals", C_IS_AB, totals_length=3),
    attempt(21, "21 and 11: 5 rows", C_IS_AB, rows_length=5),
    attempt(21, "21 and 11: 3 marks", C_IS_AB, marks=[0] * 3),
    attempt(21, "21 and 11: three added meet, no readings", Plan(2, 5, words("ABC ADE BCDE")), readings=[]),
    attempt(21, "21 and 12: a reading beyond the limit", C_IS_AB, readings=[3, 5, 4, TOP[2] + 1]),
    attempt(21, "21 and 13: mark 1 on the mean", C_IS_AB, marked="mean"),
    attempt(21, "21 and 13: mark 2", C_IS_AB, marks=[0, 0, 0, 2]),
    attempt(21, "21 and 13: the row of A marked", C_IS_AB, marked="A"),
    attempt(21, "21 and 13: the row of C marked", C_IS_AB, marked="AB"),
    attempt(21, "21, 11, 12 and 13", C_IS_AB, **FAULTY),
    attempt(9, "9 and 11: three levels, 8 readings", NINE_RUNS, readings=[0] * 8),
    attempt(9, "9 and 11: three levels, 3 rows", NINE_RUNS, rows_length=3),
    attempt(9, "9 and 12: three levels, a reading beyond the limit", NINE_RUNS, readings=[0] * 8 + [TOP[3] + 1]),
    attempt(9, "9 and 13: three levels, mark 1 on the mean", NINE_RUNS, marked="mean"),
    attempt(9, "9 and 13: three levels, the row of A marked", NINE_RUNS, marked="A"),
    attempt(9, "9, 11, 12 and 13", NINE_RUNS, **FAULTY),
    attempt(11, "11 and 12: 7 readings, one of them beyond the limit", D_IS_ABC, readings=[TOP[2] + 1] + [0] * 6),
    attempt(11, "11 and 13: 9 rows, the row of D marked", D_IS_ABC, marked="ABC", rows_length=9),
    attempt(11, "11 and 13: 7 totals, the row of A marked", D_IS_ABC, marked="A", totals_length=7),
    attempt(12, "12 and 13: a reading beyond the limit, the row of D marked", D_IS_ABC,
            readings=[0] * 7 + [TOP[2] + 1], marked="ABC"),
    attempt(12, "12 and 13: a reading beyond the limit, the row of A marked", TWO, [-TOP[2] - 1, 5, 4, 8], "A"),
    attempt(12, "12 and 13: a reading beyond the limit, mark 2", TWO, [3, 5, 4, TOP[2] + 1], marks=[0, 2, 0, 0]),
]


# ---- inputs that are made ----

SEED, MADE_COUNT = 706_124, 50


def made_plan(numbers):
    """An accepted plan of two to five base factors and up to 32 readings; half of the time all added words have three or five
    letters, so that nothing meets."""
    k, odd = numbers.choose((2, 3, 3, 4, 4, 4, 5, 5)), numbers.below(2)
    of_letters = (3, 5) if odd else (2, 3, 4, 5)
    long_words = [word for word in range(2 ** k) if totals_rules.letter_count(word) in of_letters]
    while True:
        added = tuple((numbers.choose(long_words), numbers.below(2)) for _ in range(numbers.below(6) if long_words else 0))
        blocks = tuple(numbers.below(2 ** k) for _ in range(numbers.below(4) // 2))
        plan = Plan(2, k, added, blocks, numbers.choose((1, 1, 2, 4)))
        if totals_rules.plan_answer(plan) == DONE and totals_rules.reading_count(plan) <= MOST_LENT:
            return plan


def made(numbers):
    """An input of a plan that is made, with readings of one of two sizes. Rows are marked that may be, those of main effects
    a quarter of the time."""
    plan, top = made_plan(numbers), numbers.choose((99, TOP[2]))
    mains = screening_rules.main_rows(plan) if numbers.below(4) else []
    free = [row for row, kind in enumerate(table_rules.row_kinds(plan, [0] * 2 ** plan.k)) if kind == table_rules.KEPT]
    marked = [row for row in free if row not in mains and numbers.below(3) == 0]
    own = attempt(None, "", plan, [numbers.below(2 * top + 1) - top for _ in range(totals_rules.reading_count(plan))],
                  " ".join(map(row_label, marked)))
    return own._replace(number=number_of(own), why="made, %s, marked %s" % (
        plan_text(plan), " ".join(map(row_label, marked)) or "none"))


def number_of(own):
    """What rules/screening.py answers to an input."""
    return screening_rules.refused(*own[2:])


def all_made():
    """The inputs that are made."""
    numbers = Numbers(SEED)
    return [made(numbers) for _ in range(MADE_COUNT)]


MADE = all_made()
SCREENED = (PUBLISHED + THREE_ADDED + TWO_ADDED + ONE_ADDED + ONE_THREE + MANY + MARKED + BESIDE + ALONE + ORDER + MADE)


# ---- wrong programs ----

def answered(own, meets, marked_main, order=totals_rules.ORDER):
    """What a program answers that finds another thing to meet, other main effects marked, or has another order of checks."""
    plan, readings, marks = own.plan, own.readings, own.marks
    checks = totals_rules.plan_checks(plan) + [
        (21, lambda: meets(plan)),
        (9, lambda: plan.levels == 3),
        (11, lambda: table_rules.wrong_lengths(*own[2:])),
        (12, lambda: totals_rules.beyond(readings, TOP[plan.levels])),
        (13, lambda: table_rules.bad_mark(plan, marks) or marked_main(plan, marks))]
    return next((number for number, applies in sorted(checks, key=lambda check: order.index(check[0])) if applies()), DONE)


def met(keep):
    """What meets, of that what a program looks at."""
    return lambda plan: any(keep(plan, *own) for own in screening_rules.meetings(plan))


def same_sign(plan, main, first, second):
    """Whether a main effect is high in the runs where one of the two factors is, and not in the others."""
    own = screening_rules.contrasts(plan)
    return own[main] == own[first] ^ own[second]


def of_base(plan, marks):
    """Whether the row of a base factor is marked."""
    return any(marks[1 << factor] == 1 for factor in range(plan.k))


def of_added(plan, marks):
    """Whether the row of an added factor's word is marked."""
    return any(marks[word] == 1 for word, _ in plan.added)


def of_words(plan, marks):
    """Whether either is."""
    return of_base(plan, marks) or of_added(plan, marks)


def after(number, other):
    """The order of checks with a number moved behind another."""
    rest = [own for own in totals_rules.ORDER if own != number]
    place = rest.index(other) + 1
    return (*rest[:place], number, *rest[place:])


MEETS, MARKS = met(lambda plan, *own: True), of_words
WRONG = {
    "base main effects alone": lambda own: answered(own, met(lambda plan, main, *pair: main < plan.k), MARKS),
    "pairs of base factors alone": lambda own: answered(own, met(lambda plan, main, *pair: pair[1] < plan.k), MARKS),
    "signs compared, the same": lambda own: answered(own, met(same_sign), MARKS),
    "signs compared, the opposite": lambda own: answered(own, met(lambda *three: not same_sign(*three)), MARKS),
    "13 for base letters alone": lambda own: answered(own, MEETS, of_base),
    "13 for added factors alone": lambda own: answered(own, MEETS, of_added),
    "21 before 16": lambda own: answered(own, MEETS, MARKS, after(21, 8)),
    "21 after 11": lambda own: answered(own, MEETS, MARKS, after(21, 11)),
    "21 after 12": lambda own: answered(own, MEETS, MARKS, after(21, 12)),
    "21 after 13": lambda own: answered(own, MEETS, MARKS, after(21, 13)),
    "9 before 16": lambda own: answered(own, MEETS, MARKS, after(9, 8)),
    "9 after 11": lambda own: answered(own, MEETS, MARKS, after(9, 11)),
    "13 before 12": lambda own: answered(own, MEETS, MARKS, after(13, 11)),
    "the table call": lambda own: table_rules.table_answer(*own[2:]),
}


def told_apart(name):
    """The inputs to which a wrong program gives another answer."""
    return [own for own in SCREENED if WRONG[name](own) != own.number]


# ---- checks ----

def check_numbers():
    """The number of every input is the one that the rules give; of one that is made, by the words themselves too. No input is
    tried twice."""
    complaints = ["screening, %s: %d, listed %d" % (own.why, number_of(own), own.number)
                  for own in SCREENED if number_of(own) != own.number]
    complaints += ["screening, %s: not by words" % own.why for own in MADE
                   if answered(own, screening_rules.words_combine, of_words) != own.number]
    if len({repr(own[2:]) for own in SCREENED}) != len(SCREENED):
        complaints.append("screening: an input is tried twice")
    return complaints


def check_wrong():
    """Every wrong program is told apart; so is one that writes before it looks, by an input of which the table call makes a
    table, for each of 21, 9 and 13. Every number is among the answers, and the inputs that are made are of all kinds."""
    complaints = ["screening: %s is not told apart" % name for name in WRONG if not told_apart(name)]
    written = {own.number for own in SCREENED if own.number and table_rules.table_answer(*own[2:]) == DONE}
    if written != {21, 9, 13}:
        complaints.append("screening: a program that writes is not told apart")
    if {own.number for own in SCREENED} != {DONE, *range(2, 10), 11, 12, 13, 16, 21}:
        complaints.append("screening: a number is not tried")
    if {own.number for own in MADE} != {DONE, 13, 21}:
        complaints.append("screening: those that are made are not of all kinds")
    return complaints


def check_lent():
    """The program can lend as much as every input wants, and read them all."""
    complaints = ["screening, %s: too many places" % own.why for own in SCREENED
                  if max(len(own.readings), own.totals_length, own.rows_length) > MOST_LENT]
    if len(answers.inputs() + inputs()) > MOST_INPUT:
        complaints.append("screening: too many bytes")
    return complaints


def check():
    """List of all complaints about inputs of the screening call."""
    return check_numbers() + check_wrong() + check_lent()


# ---- expected text, and input ----

def expected_text():
    """What the program must write of the screening call."""
    return answers.numbered([answers.table_text(own) for own in SCREENED], answers.record_count() + 1)


def inputs():
    """The records of the screening call."""
    return b"".join(answers.table_record(own, SCREENING) for own in SCREENED)


def list_text():
    """A line for each record: what is tried, and its number."""
    return answers.numbered(["screening, %s" % own.why for own in SCREENED], answers.record_count() + 1)


if __name__ == "__main__":
    found = check()
    if found:
        sys.exit("\n".join(found))
    if "inputs" in sys.argv[1:]:
        sys.stdout.buffer.write(inputs())
    else:
        sys.stdout.write(list_text() if "list" in sys.argv[1:] else expected_text())
