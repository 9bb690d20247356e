# Sheets for the program screentab: one that is worked by hand, and those that are made by numbers from a seed, on which the
# program is compared with rules/screening.py. It is a command:
#
#   python3 reference/cases/screen_cases.py PROGRAM [COUNT [SEED]]
#
# PROGRAM is the path of the program; COUNT, SEED and what is printed are as in compare.py, which makes the comparison.
#
# Three quarters of the sheets are lawful for factab: two levels and two to six base factors, with one to six added factors
# of either sign, half of them in blocks where there are three base factors or more, a third with repeats. In about half of
# these plans the words of added factors have odd numbers of letters. Then nothing meets: what two words of odd numbers
# combine to has an even number. Marks are on no row, on rows that may have one, on rows of any effect, or on one main
# effect's row alone. An eighth of the sheets are spoiled so that factab refuses them, and an eighth are those of compare.py.
#
# Defined here:
#   HALF_SHEET, HALF_TEXT    eight runs of four factors: their sheet, and the text, worked by hand
#   COUNT, SEED              how many sheets the gate compares, and from what seed
#   made_plan, made_marks    a plan with added factors, and marks of it
#   made                     a sheet with a name, of any of these kinds
#   longest                  a sheet of 5,187 bytes of which a table is made
#   LONGEST_REFUSED          what makes of it one that is refused with 21 or 13
#   check                    list of complaints, empty if all is well

import sys
from collections import Counter
from os.path import abspath, dirname

sys.path.insert(0, dirname(dirname(dirname(abspath(__file__)))))

from reference.cases import compare, sheet_cases, text_cases
from reference.cases.sheet_cases import Numbers
from reference.cases.text_cases import Case
from reference.rules import screening as screening_rules
from reference.rules import sheet_bytes
from reference.rules import text as text_rules
from reference.rules import totals as totals_rules
from reference.rules.sheet_bytes import Contents
from reference.rules.totals import DONE, Plan

COUNT, SEED = 300, 1204

# D = ABC, readings 1 to 8, the rows of two letters pooled: totals 36, -4, -8, 0, -16, 0, 0, 0, and 204 as the sum of squares.
HALF_SHEET = sheet_bytes.write(Plan(2, 3, ((0b111, 0),)), range(1, 9), [0, 0, 0, 1, 0, 1, 1, 0])
HALF_TEXT = b"""\
over 8
mean 1 1296
A 1 16
B 1 64
AB 1 0 error
C 1 256
AC 1 0 error
BC 1 0 error
ABC 1 0
blocks 0 0
error 3 0
total 8 1632
check 8 8
"""


# ---- sheets ----

# Base factors of the plans, each as often as it is here.
FACTORS = (2, 3, 3, 4, 4, 4, 4, 5, 5, 6)


def made_plan(numbers):
    """An accepted plan with added factors, half of the time with words that have odd numbers of letters, if there are any."""
    k, odd, in_blocks = numbers.choose(FACTORS), numbers.below(2), numbers.below(2)
    words = text_cases.long_words(k)
    chosen = [word for word in words if totals_rules.letter_count(word) % 2] if odd and k > 2 else words
    while True:
        added = tuple((numbers.choose(chosen), numbers.below(2)) for _ in range(1 + numbers.below(text_cases.MOST_ADDED)))
        count = 1 + numbers.below(text_cases.MOST_BLOCK_WORDS) if in_blocks and k > 2 else 0
        plan = Plan(2, k, added, tuple(numbers.choose(words) for _ in range(count)))
        if totals_rules.plan_answer(plan) == DONE:
            return plan


def made_marks(numbers, plan):
    """Marks of a plan: on no row; on all rows that may have one, or on some of these; on some rows of any effect; or on one
    main effect's alone."""
    way, mains = numbers.below(5), screening_rules.main_rows(plan)
    lawful = [row for row, mark in enumerate(text_cases.all_marks(plan)) if mark]
    others = [row for row in lawful if row not in mains]
    marked = [[], others, [row for row in others if numbers.below(2)], [row for row in lawful if numbers.below(2)],
              [numbers.choose(mains)]][way]
    return bytes(int(row in marked) for row in range(2 ** plan.k))


def made_contents(numbers):
    """Plan, readings and marks that are lawful for factab."""
    plan = sheet_cases.with_repeats(numbers, made_plan(numbers))
    readings = text_cases.made_readings(numbers, plan.levels, totals_rules.reading_count(plan))
    return Contents(plan, readings, made_marks(numbers, plan))


def made(numbers):
    """A sheet of any kind."""
    way = numbers.below(8)
    if way == 0:
        return compare.made(numbers)
    contents = made_contents(numbers)
    if way == 1:
        contents, refusals = text_cases.spoiled(numbers, contents)
        return Case(None, "added factors, spoiled: " + ", ".join(map(str, refusals)), sheet_bytes.write(*contents))
    return Case(None, "added factors", sheet_bytes.write(*contents))


# ---- the longest ----

def without(marks, rows):
    """Marks with 0 on some rows."""
    return bytes(0 if row in rows else mark for row, mark in enumerate(marks))


def longest(numbers):
    """Contents as in compare.py whose sheet has 5,187 bytes, of which the program makes a table."""
    while True:
        own = compare.longest(numbers)
        if not screening_rules.meetings(own.plan):
            return own._replace(marks=without(own.marks, screening_rules.main_rows(own.plan)))


def with_word(contents, place, word):
    """The contents with another word for one of the added factors."""
    added = list(contents.plan.added)
    added[place] = (word, added[place][1])
    return contents._replace(plan=contents.plan._replace(added=tuple(added)))


def with_mark(contents, factor):
    """The contents with mark 1 on the row of a main effect."""
    row = screening_rules.main_rows(contents.plan)[factor]
    return contents._replace(marks=bytes(1 if own == row else mark for own, mark in enumerate(contents.marks)))


# By what is wrong with it: what changes the contents. The last added factor's word becomes what the first two combine to.
LONGEST_REFUSED = {
    "two effects meet": lambda own: with_word(own, -1, own.plan.added[0][0] ^ own.plan.added[1][0]),
    "A is marked": lambda own: with_mark(own, 0),
    "the last added factor is marked": lambda own: with_mark(own, -1),
}


# ---- checks ----

def kinds_of(own_sheet):
    """What a sheet is counted as: its number, and where the number is not factab's also what its contents have."""
    number = screening_rules.answer(own_sheet)
    if text_rules.answer(own_sheet):
        return ["factab refuses"]
    plan, _, marks = sheet_bytes.contents_of(sheet_bytes.fields_of(own_sheet))
    has = {"added": plan.added, "sign 1": [sign for _, sign in plan.added if sign], "blocks": plan.blocks,
           "repeats": plan.repeats > 1, "marks": any(marks)}
    if number == 13:
        marked = screening_rules.marked_mains(plan, marks)
        has.update({"base alone": max(marked) < plan.k, "added alone": min(marked) >= plan.k})
    return ["%d" % number] + ["%d, %s" % (number, name) for name, value in has.items() if value]


# How often each must be among the sheets of the gate, at the least.
LEAST = {
    "factab refuses": 30, "0": 60, "0, added": 40, "0, sign 1": 40, "0, blocks": 15, "0, repeats": 12, "0, marks": 30, "9": 3,
    "21": 60, "21, sign 1": 40, "21, blocks": 15, "21, repeats": 12, "21, marks": 30,
    "13": 20, "13, blocks": 5, "13, repeats": 5, "13, base alone": 5, "13, added alone": 5,
}


def check():
    """List of all complaints: the text that is worked by hand, how often each kind of sheet is made, and the longest."""
    complaints = [] if screening_rules.text(HALF_SHEET) == HALF_TEXT else ["the text that is worked by hand"]
    numbers, found, own = Numbers(SEED), Counter(), longest(Numbers(SEED))
    for _ in range(COUNT):
        found.update(kinds_of(made(numbers).sheet))
    complaints += ["%s %d times" % (kind, found[kind]) for kind, least in LEAST.items() if found[kind] < least]
    meant = {DONE: 1, 21: 1, 13: 2}
    sheets = [sheet_bytes.write(*contents) for contents in (own, *(change(own) for change in LONGEST_REFUSED.values()))]
    if Counter(map(screening_rules.answer, sheets)) != meant or {len(sheet) for sheet in sheets} != {text_rules.MOST_SHEET}:
        complaints.append("the longest sheets")
    return complaints


if __name__ == "__main__":
    compare.command("screen_cases.py", sys.argv[1:], made, screening_rules.text)
