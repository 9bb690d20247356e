# Reference program for factorial tables, first part: plans, totals and words, straight from the wording of the rules.
#
# It is written apart from the proved program and shares nothing with it. Where that program works by passes in one
# column, this one adds up run sum times coefficient over all runs, so that an error of a pass cannot be in both.
#
# The other parts: table.py has the table and the estimate, sheet_bytes.py the sheet, text.py the printed text, blockings.py
# the ways to block a small plan, screening.py the screening profile, recovery.py the readings back from totals, heads.py
# plans in bytes and tables in numbers, as calls from C take and give them.
#
# Names: a plan has levels (2 or 3), k base factors, added factors (word, sign), block words and repeats: each run is made
# so often. N is levels to the power k. A run or an effect is a number below N whose digits, lowest first, belong to the
# factors A, B, C and so on; a run's digit is the factor's level, an effect's digit chooses a coefficient row. A word is a
# set of base letters, bit 0 for A; but the block word of a three-level plan is a number whose digits to the base 3, lowest
# first, belong to the factors. Readings are N times repeats; totals, steps and passes work on the N run sums.
#
# Defined here:
#   Plan                                  a plan as a caller hands it in
#   COEFFICIENTS, DIVISORS                coefficient rows and divisors of one factor, by levels
#   MOST_READING, MOST_NUMERATOR          the limits of readings and of numerators, by levels
#   MOST_VALUE                            the limit of values of a pass or step
#   REPEATS, MOST_READINGS                how often a run may be made, and how many readings a plan may have
#   ORDER                                 the order of checks: all numbers, the first to be judged first
#   most_total                            the limit of the total that the estimate is given
#   run_count, digits                     N, and the digits of a run or effect number
#   reading_count                         N times repeats
#   runs_of, run_sums                     the readings of each run, and their sums
#   squares_about_means                   the squares of readings about their run's mean, added up
#   coefficient, total, totals            totals by the definition
#   step, steps                           the report's own step, and the columns after 1 to k of them
#   divisor, denominator, weight, numerator
#                                         an effect's part of the sum of squares, in whole numbers
#   check_number                          what the totals must add up to, from the run sums
#   letter_count, combine                 words that are sets of letters
#   letter_words, three_word              the block words of a plan: those of two levels, and that of three
#   confounded                            the combinations of block words; none at three levels
#   block_of                              the block of a run
#   high_letters                          the letters of all factors, base and added, that are high in a run
#   treatment                             what the run call gives: the letters that are high in a run, and its block
#   alias                                 the base word of an effect of all factors, and whether its sign turns
#   foremost                              the first of some checks, in the order of checks, that applies
#   plan_answer                           the plan check: 0, or the first of 2 to 8 and 16 that applies
#   pass_answer, step_answer, totals_answer
#                                         the answers of these calls: 0, or the first number that applies
#   alias_answer                          the same: 0, or the first of 2 to 8, 16, 9, 10 that applies
#   run_answer                            the same: 0, or the first of 2 to 8, 16, 10 that applies

from collections import namedtuple
from fractions import Fraction
from itertools import combinations

# added is a list of pairs (word, sign), blocks a list of words, at three levels of numbers.
Plan = namedtuple("Plan", "levels k added blocks repeats", defaults=((), (), 1))

COEFFICIENTS = {
    2: ((1, 1), (1, -1)),
    3: ((1, 1, 1), (1, 0, -1), (1, -2, 1)),
}
DIVISORS = {2: (2, 2), 3: (3, 2, 6)}

MOST_FACTORS = {2: 10, 3: 6}

# The most added factors and block words, by levels.
MOST_ADDED = {2: 6, 3: 0}
MOST_BLOCK_WORDS = {2: 4, 3: 1}
REPEATS = (1, 2, 4, 8)
MOST_READINGS = 1_024

# The limits, the first and the last by levels; most_total makes one more from the first.
#   MOST_READING     a reading, either way
#   MOST_VALUE       a value of the column that a pass or step is given, either way, at either level count
#   MOST_NUMERATOR   a numerator, and any sum of numerators of one table
MOST_READING = {2: 1_000_000, 3: 100_000}
MOST_VALUE = 1_024_000_000
MOST_NUMERATOR = {2: 1_048_576_000_000_000_000, 3: 340_122_240_000_000_000}

DONE = 0

# The order of checks: lowest first, but that 16 comes after 8, 21 after 16, and 15 after 11. Numbers that no call of these
# files gives have their places too.
ORDER = (1, 2, 3, 4, 5, 6, 7, 8, 16, 21, 9, 10, 11, 15, 12, 13, 14, 17, 18, 19, 20)


def most_total(plan):
    """The limit, either way, of the total that the estimate is given: 2 to the power k times repeats times that of a
    reading."""
    return 2 ** plan.k * plan.repeats * MOST_READING[plan.levels]


# ---- runs and effects ----

def run_count(levels, k):
    """N, the number of runs and of effects."""
    return levels ** k


def digits(levels, k, number):
    """The k digits of a run or effect number, that of factor A first."""
    return [number // levels ** factor % levels for factor in range(k)]


# ---- readings ----

def reading_count(plan):
    """N times repeats, the number of readings."""
    return run_count(plan.levels, plan.k) * plan.repeats


def runs_of(repeats, readings):
    """The readings of each run: they come so many at a time, in run order."""
    return [readings[start:start + repeats] for start in range(0, len(readings), repeats)]


def run_sums(repeats, readings):
    """The sum of the readings of each run."""
    return [sum(run) for run in runs_of(repeats, readings)]


def squares_about_means(repeats, readings):
    """The squares of readings about their run's mean, added up."""
    return sum((reading - Fraction(sum(run), repeats)) ** 2 for run in runs_of(repeats, readings) for reading in run)


# ---- totals by the definition, of the run sums ----

def coefficient(levels, k, effect, run):
    """Product over the factors: the effect's digit chooses the row, the run's digit the number in it."""
    product = 1
    for row, place in zip(digits(levels, k, effect), digits(levels, k, run)):
        product *= COEFFICIENTS[levels][row][place]
    return product


def total(levels, k, sums, effect):
    """Sum over all runs of run sum times coefficient."""
    return sum(own * coefficient(levels, k, effect, run) for run, own in enumerate(sums))


def totals(levels, k, sums):
    """The totals of all effects, in the order of their numbers."""
    return [total(levels, k, sums, effect) for effect in range(run_count(levels, k))]


# ---- the report's own step ----

def step(levels, column):
    """A new column: of each successive set of values all sums first, then all differences, then the third combinations."""
    sets = [column[start:start + levels] for start in range(0, len(column), levels)]
    return [sum(factor * value for factor, value in zip(row, values)) for row in COEFFICIENTS[levels] for values in sets]


def steps(levels, k, column):
    """The columns after 1, 2, ..., k steps."""
    columns = []
    for _ in range(k):
        column = step(levels, column)
        columns.append(column)
    return columns


# ---- sums of squares in whole numbers, and the check number ----

def divisor(levels, k, effect, repeats=1):
    """The number by which the square of an effect's total is divided: by its digits, times repeats."""
    product = repeats
    for row in digits(levels, k, effect):
        product *= DIVISORS[levels][row]
    return product


def denominator(levels, k, repeats=1):
    """The common denominator: 2 or 6 to the power k, times repeats."""
    return (2 if levels == 2 else 6) ** k * repeats


def weight(levels, k, effect, repeats=1):
    """Denominator over divisor."""
    return denominator(levels, k, repeats) // divisor(levels, k, effect, repeats)


def numerator(levels, k, effect, own_total, repeats=1):
    """An effect's total squared times denominator over divisor."""
    return own_total ** 2 * weight(levels, k, effect, repeats)


def check_number(levels, k, sums):
    """What the totals add up to: N times the first run sum, at three levels what k rounds leave."""
    if levels == 2:
        return run_count(levels, k) * sums[0]
    column = list(sums)
    for _ in range(k):
        column = [3 * column[start] - column[start + 1] + column[start + 2] for start in range(0, len(column), 3)]
    return column[0]


# ---- words ----

def letter_count(word):
    """The number of letters of a word."""
    return bin(word).count("1")


def combine(words):
    """The letters that occur an odd number of times in the words."""
    combined = 0
    for word in words:
        combined ^= word
    return combined


def letter_words(plan):
    """The block words that are sets of letters, which are those of two levels."""
    return tuple(plan.blocks) if plan.levels == 2 else ()


def three_word(plan):
    """The block word of a three-level plan, a number; None where there is none."""
    return plan.blocks[0] if plan.levels == 3 and plan.blocks else None


def confounded(plan):
    """All combinations of one or more block words that are sets of letters."""
    blocks = letter_words(plan)
    return [combine(chosen) for count in range(1, len(blocks) + 1) for chosen in combinations(blocks, count)]


def block_of(plan, run):
    """The block number of a run: bit j is set when an odd number of the letters of block word j are high. At three levels it
    is the sum of digit times level, modulo 3, and 0 without a word."""
    if plan.levels == 3:
        word = three_word(plan) or 0
        return sum(digit * level for digit, level in zip(digits(3, plan.k, word), digits(3, plan.k, run))) % 3
    return sum(letter_count(word & run) % 2 << place for place, word in enumerate(plan.blocks))


# ---- added factors ----

def high_letters(plan, run):
    """The letters of all factors that are high in a run: an added factor's where an odd number of the letters of its word
    are; with sign 1 where an even number are."""
    high = run
    for place, (word, sign) in enumerate(plan.added, plan.k):
        high |= (letter_count(word & run) + sign) % 2 << place
    return high


def treatment(plan, run):
    """What the run call gives: the letters that are high in a run, none at three levels, and its block."""
    return 0 if plan.levels == 3 else high_letters(plan, run), block_of(plan, run)


def alias(plan, effect):
    """The base word to which an effect of all factors reduces, and whether the sign turns.

    Each added letter is replaced by its word; the number of replaced letters with sign 1 is odd exactly when the sign
    turns. This is reversed when the effect and its base word differ in being odd or even."""
    replaced = [own for place, own in enumerate(plan.added, plan.k) if effect >> place & 1]
    base = combine([effect % 2 ** plan.k] + [word for word, _ in replaced])
    turned = [sign for _, sign in replaced].count(1) % 2 == 1
    if letter_count(effect) % 2 != letter_count(base) % 2:
        turned = not turned
    return base, turned


# ---- the plan check ----

def too_many(plan):
    """Refusal 4: over 6 added factors or over 4 block words; at three levels an added factor or a second block word."""
    return len(plan.added) > MOST_ADDED[plan.levels] or len(plan.blocks) > MOST_BLOCK_WORDS[plan.levels]


def bad_digits(k, word):
    """Whether a word breaks the digit rule: it is a number to the base 3 of k digits, A's the lowest, with at least two digits
    that are not 0, the lowest of these 1."""
    used = [digit for digit in digits(3, k, word) if digit]
    return word >= 3 ** k or len(used) < 2 or used[0] != 1


def bad_word(plan):
    """Refusal 5: a letter beyond k, an added word under two letters, a sign over 1, an empty block word. At three levels only
    a word that breaks the digit rule."""
    if plan.levels == 3:
        return any(bad_digits(plan.k, word) for word in plan.blocks)
    words = [word for word, _ in plan.added] + list(plan.blocks)
    return (any(word >> plan.k for word in words)
            or any(letter_count(word) < 2 or sign > 1 for word, sign in plan.added)
            or 0 in plan.blocks)


def equal_added(plan):
    """Refusal 6: two added factors with one word. At three levels there are none."""
    words = [word for word, _ in plan.added]
    return len(set(words)) < len(words)


def dependent_blocks(plan):
    """Refusal 7: some one or more block words combine to the empty word. Not at three levels."""
    return 0 in confounded(plan)


def lost_factor(plan):
    """Refusal 8: a confounded effect is one letter or an added factor's word. Not at three levels."""
    added = [word for word, _ in plan.added]
    return any(letter_count(word) == 1 or word in added for word in confounded(plan))


def bad_repeats(plan):
    """Refusal 16: repeats not 1, 2, 4 or 8, or over 1,024 readings."""
    return plan.repeats not in REPEATS or reading_count(plan) > MOST_READINGS


def foremost(checks):
    """The number of the first of some checks, in the order of checks, that applies, and 0 where none does. A check is a
    number and a function that tells whether it applies; those after the first that does are not asked."""
    ordered = sorted(checks, key=lambda check: ORDER.index(check[0]))
    return next((number for number, applies in ordered if applies()), DONE)


def plan_checks(plan):
    """The checks of a plan, 2 to 8 and 16, which every call has that takes one."""
    return [(2, lambda: plan.levels not in COEFFICIENTS),
            (3, lambda: not 1 <= plan.k <= MOST_FACTORS[plan.levels]),
            (4, lambda: too_many(plan)),
            (5, lambda: bad_word(plan)),
            (6, lambda: equal_added(plan)),
            (7, lambda: dependent_blocks(plan)),
            (8, lambda: lost_factor(plan)),
            (16, lambda: bad_repeats(plan))]


def plan_answer(plan):
    """0 for an accepted plan, else the first of 2 to 8 and 16 that applies."""
    return foremost(plan_checks(plan))


# ---- the answers of the calls ----

def wrong_length(plan, columns):
    """Refusal 11: a column that does not have N places."""
    return any(len(column) != run_count(plan.levels, plan.k) for column in columns)


def beyond(column, limit):
    """Refusal 12: a value beyond the limit either way."""
    return any(abs(value) > limit for value in column)


def pass_answer(plan, factor, column):
    """The pass of a factor: 2 to 8, 16, 10, 11, 12, or 0."""
    return foremost(plan_checks(plan) + [(10, lambda: not 0 <= factor < plan.k),
                                         (11, lambda: wrong_length(plan, [column])),
                                         (12, lambda: beyond(column, MOST_VALUE))])


def step_answer(plan, column, next_column):
    """The step from one column to another: 2 to 8, 16, 11, 12, or 0."""
    return foremost(plan_checks(plan) + [(11, lambda: wrong_length(plan, [column, next_column])),
                                         (12, lambda: beyond(column, MOST_VALUE))])


def totals_answer(plan, readings, column):
    """The totals of the readings, written to a column: 2 to 8, 16, 11, 12, or 0."""
    return foremost(plan_checks(plan) + [
        (11, lambda: len(readings) != reading_count(plan) or wrong_length(plan, [column])),
        (12, lambda: beyond(readings, MOST_READING[plan.levels]))])


def alias_answer(plan, effect):
    """The alias call: 2 to 8, 16, 9, 10, or 0."""
    return foremost(plan_checks(plan) + [(9, lambda: plan.levels == 3),
                                         (10, lambda: bool(effect >> plan.k + len(plan.added)))])


def run_answer(plan, run):
    """The run call, at either level count: 2 to 8, 16, 10, or 0."""
    return foremost(plan_checks(plan) + [(10, lambda: run >= run_count(plan.levels, plan.k))])
