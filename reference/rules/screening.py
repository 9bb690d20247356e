# Reference program for factorial tables, sixth part: the screening profile, straight from the wording of the rules; and the
# text that the program screentab prints for a sheet. As a command it is that program:
#
#   python3 reference/rules/screening.py < some.sheet
#
# Two effects reduce to one base word exactly when the runs do not tell them apart: they count alike in all runs, or the
# other way round in all. So no letter is replaced by its word here. The contrast of an effect is formed run by run, from
# what is high in the run, and the row of a main effect's base word is looked for among the contrasts of all rows. Where
# contrasts are compared, signs play no part. check() has the words themselves judge the same plans, in two more ways. Like
# the other parts, this file is written apart from the proved program and shares nothing with it.
#
# Names: a factor is its place among all letters, base and added, from 0 for A. A contrast is a number with a bit for each
# run, set where an odd number of the effect's letters are high. A main effect and an interaction of two factors that have
# one base word meet. A screening plan is a two-level plan that the plan check accepts and in which nothing meets.
#
# Defined here:
#   factor_count               the number of factors, base and added
#   contrasts, unsigned        the contrasts of all factors; a contrast without its sign
#   main_rows                  the row of each main effect's base word
#   meetings                   what meets: main factor, and the two factors of the interaction
#   marked_mains               the factors whose main effect is marked as error
#   refused                    0, or the first of 2 to 8, 16, 21, 9, 11, 12, 13 that applies
#   answer                     0, or the number with which the program refuses a sheet
#   text                       what the program prints for a sheet
#   COUNTS                     how many choices of added words make a screening plan, by base and added factors
#   meetings_of_words          what meets by words, each a set of letters
#   words_combine              whether the words of three factors combine to nothing
#   check                      list of complaints, empty if all is well

import sys
from functools import lru_cache
from itertools import combinations
from os.path import abspath, dirname

sys.path.insert(0, dirname(dirname(dirname(abspath(__file__)))))

from reference.rules import sheet_bytes
from reference.rules import table as table_rules
from reference.rules import text as text_rules
from reference.rules import totals as totals_rules
from reference.rules.totals import DONE, Plan


# ---- contrasts ----

def factor_count(plan):
    """The number of factors, base and added."""
    return plan.k + len(plan.added)


@lru_cache(maxsize=100)
def contrasts(plan):
    """The contrasts of the main effects of a two-level plan, that of A first: a bit for each run, set where the factor is
    high."""
    high = [totals_rules.high_letters(plan, run) for run in range(totals_rules.run_count(2, plan.k))]
    return tuple(sum((own >> factor & 1) << run for run, own in enumerate(high)) for factor in range(factor_count(plan)))


def unsigned(plan, contrast):
    """A contrast without its sign: of the contrast and its opposite the one that has no bit for run 0."""
    every_run = (1 << totals_rules.run_count(2, plan.k)) - 1
    return contrast ^ every_run if contrast & 1 else contrast


def main_rows(plan):
    """For each factor of a two-level plan the row of its main effect's base word: the row with the same contrast, up to the
    sign. A row's contrast combines those of its letters."""
    own, of_rows = contrasts(plan), [0]
    for contrast in own[:plan.k]:
        of_rows += [other ^ contrast for other in of_rows]
    row_of = {unsigned(plan, contrast): row for row, contrast in enumerate(of_rows)}
    return [row_of[unsigned(plan, contrast)] for contrast in own]


# ---- the profile ----

@lru_cache(maxsize=None)
def pairs(count):
    """The pairs of so many factors, each with the lower first."""
    return list(combinations(range(count), 2))


def meetings(plan):
    """What meets in an accepted plan, as main factor, first and second, rising: the contrast of the main effect is that of
    the interaction of the first and the second, up to the sign. At three levels no factor is added, and nothing meets."""
    if plan.levels != 2:
        return []
    own = contrasts(plan)
    mains = [unsigned(plan, contrast) for contrast in own]
    found = {}
    for first, second in pairs(len(own)):
        found.setdefault(unsigned(plan, own[first] ^ own[second]), []).append((first, second))
    return [(main, *pair) for main, contrast in enumerate(mains) for pair in found.get(contrast, [])]


def marked_mains(plan, marks):
    """The factors of a two-level plan the row of whose main effect's base word has mark 1."""
    return [factor for factor, row in enumerate(main_rows(plan)) if marks[row] == 1]


def refused(plan, readings, marks, totals_length, rows_length):
    """The screening call: 2 to 8, 16, 21, 9, 11, 12, 13, or 0."""
    return totals_rules.foremost(totals_rules.plan_checks(plan) + [
        (21, lambda: bool(meetings(plan))),
        (9, lambda: plan.levels == 3),
        (11, lambda: table_rules.wrong_lengths(plan, readings, marks, totals_length, rows_length)),
        (12, lambda: totals_rules.beyond(readings, totals_rules.MOST_READING[plan.levels])),
        (13, lambda: table_rules.bad_mark(plan, marks) or bool(marked_mains(plan, marks)))])


# ---- the text ----

def answer(own_sheet):
    """0, or the number of the refusal: that of factab where it refuses the sheet, else that of the screening call, which is
    21, 9 or 13."""
    number = text_rules.answer(own_sheet)
    if number != DONE:
        return number
    plan, readings, marks = sheet_bytes.contents_of(sheet_bytes.fields_of(own_sheet))
    return refused(plan, readings, marks, totals_rules.run_count(plan.levels, plan.k), table_rules.row_count(plan.k))


def text(own_sheet):
    """What the program prints for a sheet: the table that factab prints, or the line of its refusal alone."""
    number = answer(own_sheet)
    return b"refused %d\n" % number if number else text_rules.text(own_sheet)


# ---- checks ----

# By base and added factors: so many choices of words for the added factors make a screening plan. Choices that differ in
# order or in signs count once. In 2 to the power k runs there is none of more than 2 to the power k - 1 factors.
COUNTS = {
    (1, 0): 1,
    (2, 0): 1, (2, 1): 0,
    (3, 0): 1, (3, 1): 1, (3, 2): 0, (3, 3): 0, (3, 4): 0,
    (4, 0): 1, (4, 1): 5, (4, 2): 6, (4, 3): 4, (4, 4): 1, (4, 5): 0, (4, 6): 0,
    (5, 0): 1, (5, 1): 16, (5, 2): 95,
}

# Signs of added factors that are tried: all 0, all 1, and 1 for the first, the third and so on.
SIGNS = [lambda place: 0, lambda place: 1, lambda place: 1 - place % 2]


def letter_sets(plan):
    """The words of all factors as sets of letters: a base factor is its own letter, an added one has its word."""
    base = range(plan.k)
    return [{factor} for factor in base] + [{letter for letter in base if word >> letter & 1} for word, _ in plan.added]


def meetings_of_words(plan):
    """What meets by a second way: the letters that the words of the two factors do not share are the main effect's."""
    words = letter_sets(plan)
    return [(main, first, second) for main, word in enumerate(words) for first, second in pairs(len(words))
            if words[first] ^ words[second] == word]


def words_combine(plan):
    """A third way, which has no main effect: whether the words of some three factors combine to nothing."""
    words = [1 << factor for factor in range(plan.k)] + [word for word, _ in plan.added]
    return any(totals_rules.combine(three) == 0 for three in combinations(words, 3))


def plans_of(k, count):
    """The accepted plans of k base factors and so many added ones, by the choices of their words, with each of the signs."""
    words = [word for word in range(2 ** k) if totals_rules.letter_count(word) > 1]
    for chosen in combinations(words, count):
        yield [Plan(2, k, tuple((word, sign(place)) for place, word in enumerate(chosen))) for sign in SIGNS]


def check_choice(plans):
    """Complaints about one choice of words: signs play a part, the three ways differ, or a row is not that of the word."""
    found, complaints = meetings(plans[0]), []
    if any(meetings(plan) != found for plan in plans[1:]):
        complaints.append("signs play a part")
    if found != meetings_of_words(plans[0]) or bool(found) != words_combine(plans[0]):
        complaints.append("what meets")
    words = [1 << factor for factor in range(plans[0].k)] + [word for word, _ in plans[0].added]
    if any(main_rows(plan) != words for plan in plans):
        complaints.append("rows of main effects")
    return ["%s: %s" % (plans[0], complaint) for complaint in complaints]


def check_counts():
    """Every choice is judged alike in all ways, and as many as listed are screening plans."""
    complaints = []
    for (k, count), meant in COUNTS.items():
        screening = 0
        for plans in plans_of(k, count):
            complaints += check_choice(plans)
            screening += not meetings(plans[0])
        if screening != meant:
            complaints.append("%d base factors, %d added: %d screening plans" % (k, count, screening))
    return complaints


# Small inputs: plan, readings, marks, the number, and that of the table call. D is ABC, C is AB.
EIGHT, NO_MARKS = range(1, 9), [0] * 8
D_IS_ABC = Plan(2, 3, ((0b111, 0),))
SMALL_INPUTS = [
    (D_IS_ABC, EIGHT, NO_MARKS, DONE, DONE),
    (D_IS_ABC, EIGHT, [0, 0, 0, 1, 0, 1, 1, 0], DONE, DONE),
    (D_IS_ABC, EIGHT, [0] * 7 + [1], 13, DONE),
    (D_IS_ABC, EIGHT, [0, 1, 0, 0, 0, 0, 0, 0], 13, DONE),
    (Plan(2, 3), EIGHT, [0] * 7 + [1], DONE, DONE),
    (Plan(2, 2, ((0b11, 0),)), [3, 5, 4, 8], [0] * 4, 21, DONE),
    (Plan(2, 2, ((0b11, 1),)), [3, 5, 4, 8], [0] * 4, 21, DONE),
    (Plan(2, 2, ((0b11, 0),)), [3, 5, 4], [1] * 4, 21, 11),
    (Plan(2, 2, ((0b11, 0),)), [3, 5, 4, 8], [1, 0, 0, 0], 21, 13),
    (Plan(2, 2, ((0b11, 0),), repeats=3), [3, 5, 4], [1] * 4, 16, 16),
    (Plan(3, 1), [2, 5, 3], [0, 0], 9, DONE),
    (Plan(3, 1), [2, 5], [1, 0], 9, 11),
]


def check_call():
    """The small inputs have their numbers, those of the table call too. Of a sheet of theirs the text is the line of factab's
    number where that is not 0, else the line of the call's, and that of factab where neither refuses it."""
    complaints = []
    for plan, readings, marks, number, of_table in SMALL_INPUTS:
        lengths = totals_rules.run_count(plan.levels, plan.k), table_rules.row_count(plan.k)
        if (refused(plan, readings, marks, *lengths), table_rules.table_answer(plan, readings, marks, *lengths)) != (
                number, of_table):
            complaints.append("%s: not %d, or of the table not %d" % (plan, number, of_table))
        own_sheet, printed = sheet_bytes.write(plan, readings, marks), of_table or number
        if text(own_sheet) != (b"refused %d\n" % printed if printed else text_rules.text(own_sheet)):
            complaints.append("%s: text" % (plan,))
    return complaints


def check():
    """List of all complaints about what meets, rows of main effects, answers and text."""
    return check_counts() + check_call()


if __name__ == "__main__":
    sys.stdout.buffer.write(text(sys.stdin.buffer.read()))
