# Reference program for factorial tables, second part: the table and the estimate, straight from the wording of the
# rules.
#
# Plans, run sums, totals, numerators and words are those of totals.py. Like it, this file is written apart from the proved
# program and shares nothing with it.
#
# Names: a row is a set of base letters, bit 0 for A. There are R rows, 2 to the power k. An effect uses the letters whose
# digits in its number are not 0. Each row has a mark, 0 or 1, and is of one kind: mean, blocks, error or kept. Rows are
# those of the run sums. The squares of readings about their run's mean are no row and join the error. Of a three-level plan
# in blocks the block amount is no row either: it leaves the row of the letters that the word uses and joins the blocks.
#
# Defined here:
#   row_count, row_label, row_number    R, the label of a row, and the row of a label
#   letters_used                        the row to which an effect belongs
#   row_degrees, row_numerators         degrees and numerators of rows
#   row_kinds                           the kind of every row
#   Part, Table                         a part of a table, and a table
#   within_runs                         the part of the squares of readings about their run's mean
#   between_blocks                      the part of the block amount of a three-level plan
#   word_row, without                   the row of the letters that its word uses, and the rows when that part has left it
#   table, table_of_totals              the table of readings and marks; the same where the totals are already there
#   table_answer                        0, or the first of 2 to 8, 16, 11, 12, 13 that applies
#   estimate                            mean, difference or lost, with the exact quotient; a difference is high minus low
#   estimate_answer                     0, or the first of 2 to 8, 16, 9, 10, 12 that applies
#   exact_double, double_pattern        the double that is exactly a quotient, and its 64 bits as a number

import struct
from collections import namedtuple
from fractions import Fraction

from reference.rules import totals as totals_rules

MEAN, KEPT, BLOCKS, ERROR = "mean", "kept", "blocks", "error"
KINDS = (MEAN, KEPT, BLOCKS, ERROR)

# A part of a table: its degrees, and its numerator over the table's denominator.
Part = namedtuple("Part", "degrees numerator")

# mean, kept, blocks, error and total are parts; rows are the parts of the single rows, and kinds their kinds. within is the
# part of the error that is no row, and between that of the blocks.
Table = namedtuple("Table", "denominator mean kept blocks error total sum_of_totals check_number totals rows kinds within "
                            "between")


# ---- rows ----

def row_count(k):
    """R, the number of rows."""
    return 2 ** k


def row_label(row):
    """`mean` for row 0, else the row's letters, A first."""
    return "".join(chr(ord("A") + letter) for letter in range(row.bit_length()) if row >> letter & 1) or MEAN


def row_number(label):
    """The row of a label."""
    return 0 if label == MEAN else sum(1 << ord(letter) - ord("A") for letter in label)


def letters_used(levels, k, effect):
    """The set of the letters whose digits in the effect's number are not 0."""
    return sum(1 << letter for letter, digit in enumerate(totals_rules.digits(levels, k, effect)) if digit)


def row_degrees(levels, row):
    """1 at two levels. At three levels 2 for each letter multiplied; row 0 has 1."""
    if levels == 2:
        return 1
    return 2 ** totals_rules.letter_count(row)


def row_numerators(plan, totals):
    """For each row the sum of the numerators of every effect using exactly its letters."""
    levels, k = plan.levels, plan.k
    sums = [0] * row_count(k)
    for effect, total in enumerate(totals):
        sums[letters_used(levels, k, effect)] += totals_rules.numerator(levels, k, effect, total, plan.repeats)
    return sums


def row_kind(plan, row, mark):
    """Row 0 is the mean, confounded rows are blocks, rows with mark 1 are error, and mark 0 keeps any other row. At three
    levels no row is confounded, and so the row that the block amount leaves is kept or error."""
    if row == 0:
        return MEAN
    if row in totals_rules.confounded(plan):
        return BLOCKS
    return ERROR if mark == 1 else KEPT


def row_kinds(plan, marks):
    """The kind of every row."""
    return [row_kind(plan, row, mark) for row, mark in enumerate(marks)]


# ---- the table ----

def added_up(parts):
    """Degrees and numerators added up."""
    return Part(sum(part.degrees for part in parts), sum(part.numerator for part in parts))


def within_runs(plan, readings):
    """The squares of readings about their run's mean, over the denominator: N times (repeats - 1) degrees."""
    over = totals_rules.denominator(plan.levels, plan.k, plan.repeats)
    numerator = over * totals_rules.squares_about_means(plan.repeats, readings)
    if numerator.denominator != 1:
        raise ValueError("the squares about the means, over the denominator, are not whole: %s" % numerator)
    return Part(totals_rules.run_count(plan.levels, plan.k) * (plan.repeats - 1), int(numerator))


def readings_of_blocks(plan, readings):
    """The readings of each of the three blocks."""
    blocks = [], [], []
    for run, own in enumerate(totals_rules.runs_of(plan.repeats, readings)):
        blocks[totals_rules.block_of(plan, run)].extend(own)
    return blocks


def between_blocks(plan, readings):
    """The block amount of a three-level plan with a word, over the denominator, with 2 degrees: the sum over blocks of the
    squared block sum over its number of readings, less the mean's square term. Without a word nothing."""
    if totals_rules.three_word(plan) is None:
        return Part(0, 0)
    squares = sum(Fraction(sum(own) ** 2, len(own)) for own in readings_of_blocks(plan, readings))
    mean_square_term = Fraction(sum(readings) ** 2, len(readings))
    numerator = totals_rules.denominator(plan.levels, plan.k, plan.repeats) * (squares - mean_square_term)
    if numerator.denominator != 1 or numerator < 0:
        raise ValueError("the block amount, over the denominator, is not whole or is negative: %s" % numerator)
    return Part(2, int(numerator))


def word_row(plan):
    """The row of the letters that the word of a three-level plan uses; None where there is no word."""
    word = totals_rules.three_word(plan)
    return None if word is None else letters_used(plan.levels, plan.k, word)


def without(rows, row, part):
    """The rows when a part has left one of them, which holds the remainder. Raises if that were negative."""
    left = Part(rows[row].degrees - part.degrees, rows[row].numerator - part.numerator)
    if left.degrees < 0 or left.numerator < 0:
        raise ValueError("the remainder is negative: %s" % (left,))
    return rows[:row] + [left] + rows[row + 1:]


def table_of_totals(plan, readings, marks, totals):
    """The table of an accepted plan, its readings and marks, where the totals are already there."""
    levels, k, repeats = plan.levels, plan.k, plan.repeats
    over = totals_rules.denominator(levels, k, repeats)
    rows = [Part(row_degrees(levels, row), numerator) for row, numerator in enumerate(row_numerators(plan, totals))]
    kinds, within, between = row_kinds(plan, marks), within_runs(plan, readings), between_blocks(plan, readings)
    if word_row(plan) is not None:
        rows = without(rows, word_row(plan), between)
    of_kind = {kind: added_up([part for part, own in zip(rows, kinds) if own == kind]) for kind in KINDS}
    total = Part(totals_rules.reading_count(plan), over * sum(reading ** 2 for reading in readings))
    check_number = totals_rules.check_number(levels, k, totals_rules.run_sums(repeats, readings))
    return Table(over, of_kind[MEAN], of_kind[KEPT], added_up([of_kind[BLOCKS], between]), added_up([of_kind[ERROR], within]),
                 total, sum(totals), check_number, totals, rows, kinds, within, between)


def table(plan, readings, marks):
    """The table of an accepted plan, its readings and marks, with totals by the definition."""
    sums = totals_rules.run_sums(plan.repeats, readings)
    return table_of_totals(plan, readings, marks, totals_rules.totals(plan.levels, plan.k, sums))


def wrong_lengths(plan, readings, marks, totals_length, rows_length):
    """Refusal 11: readings, totals, rows or marks not N times repeats, N, R, R long."""
    runs, rows = totals_rules.run_count(plan.levels, plan.k), row_count(plan.k)
    return (len(readings), totals_length, rows_length, len(marks)) != (totals_rules.reading_count(plan), runs, rows, rows)


def bad_mark(plan, marks):
    """Refusal 13: a mark over 1, or mark 1 on the mean or a blocks row."""
    kinds = row_kinds(plan, [0] * len(marks))
    return any(mark > 1 or mark == 1 and kind in (MEAN, BLOCKS) for mark, kind in zip(marks, kinds))


def table_answer(plan, readings, marks, totals_length, rows_length):
    """The table call: 2 to 8, 16, 11, 12, 13, or 0."""
    return totals_rules.foremost(totals_rules.plan_checks(plan) + [
        (11, lambda: wrong_lengths(plan, readings, marks, totals_length, rows_length)),
        (12, lambda: totals_rules.beyond(readings, totals_rules.MOST_READING[plan.levels])),
        (13, lambda: bad_mark(plan, marks))])


# ---- the estimate ----

LOST, DIFFERENCE = "lost", "difference"


def estimate(plan, effect, total):
    """The outcome for an effect of an accepted two-level plan, with the exact quotient; None where it is lost.

    The divisors are 2 to the power k and k - 1, times repeats. A difference is negated when the effect has an odd number of
    letters. A total of 0 gives 0."""
    if effect in totals_rules.confounded(plan):
        return LOST, None
    if effect == 0:
        return MEAN, Fraction(total, 2 ** plan.k * plan.repeats)
    difference = Fraction(total, 2 ** (plan.k - 1) * plan.repeats)
    return DIFFERENCE, -difference if totals_rules.letter_count(effect) % 2 else difference


def estimate_answer(plan, effect, total):
    """The estimate call: 2 to 8, 16, 9, 10, 12, or 0."""
    return totals_rules.foremost(totals_rules.plan_checks(plan) + [
        (9, lambda: plan.levels == 3),
        (10, lambda: bool(effect >> plan.k)),
        (12, lambda: abs(total) > totals_rules.most_total(plan))])


def exact_double(quotient):
    """The double that is exactly the quotient. Raises if there is none."""
    double = float(quotient)
    if Fraction(double) != quotient:
        raise ValueError("no double is exactly %s" % quotient)
    return double


def double_pattern(double):
    """The 64 bits of a double as an unsigned number, the sign highest."""
    return struct.unpack(">Q", struct.pack(">d", double))[0]
