# Reference program for factorial tables, fourth part: the text that the program factab prints for a sheet, straight
# from the wording of the rules. As a command it is that program:
#
#   python3 reference/rules/text.py < some.sheet
#
# Sheets are read by sheet_bytes.py and tables are made by table.py. Like them, this file is written apart from the
# proved program and shares nothing with it.
#
# Totals are by the definition, the sum over all runs of run sum times coefficient. To be quick the coefficients are
# looked up: the product over all factors is that over the lower half of them times that over the others, and for each
# of these two groups all coefficients are kept. cases/text_cases.py compares them with totals.py.
#
# Defined here:
#   MOST_SHEET              the most bytes of a sheet; a longer one is refused with 1 whatever it holds
#   coefficients, totals    the coefficients of an effect for all runs, and the totals of all effects
#   table_of_sheet          the table of a sheet that is accepted
#   answer                  0, or the number with which the program refuses a sheet
#   text                    what the program prints for a sheet

import sys
from functools import lru_cache
from operator import mul
from os.path import abspath, dirname

sys.path.insert(0, dirname(dirname(dirname(abspath(__file__)))))

from reference.rules import table as table_rules
from reference.rules import totals as totals_rules
from reference.rules.sheet_bytes import contents_of, fields_of, sheet_answer

MOST_SHEET = 5_187


# ---- totals by the definition ----

@lru_cache(maxsize=None)
def group_coefficients(levels, k):
    """The coefficients of a group of k factors: a list for each of its effects, with a number for each of its runs."""
    places = range(totals_rules.run_count(levels, k))
    return [[totals_rules.coefficient(levels, k, effect, run) for run in places] for effect in places]


def coefficients(levels, k, effect):
    """The coefficients of an effect for all runs: that of the upper group of factors times that of the lower."""
    upper_effect, lower_effect = divmod(effect, totals_rules.run_count(levels, k // 2))
    upper, lower = group_coefficients(levels, k - k // 2)[upper_effect], group_coefficients(levels, k // 2)[lower_effect]
    return [first * second for first in upper for second in lower]


def totals(levels, k, sums):
    """The totals of all effects: for each the sum over all runs of run sum times coefficient."""
    effects = range(totals_rules.run_count(levels, k))
    return [sum(map(mul, sums, coefficients(levels, k, effect))) for effect in effects]


# ---- the text ----

def table_of_sheet(sheet):
    """The table of a sheet that is accepted."""
    plan, readings, marks = contents_of(fields_of(sheet))
    sums = totals_rules.run_sums(plan.repeats, readings)
    return table_rules.table_of_totals(plan, readings, marks, totals(plan.levels, plan.k, sums))


def row_text(row, part, kind):
    """The line of a row: label, degrees, numerator and, if so, `error` or `blocks`."""
    fields = [table_rules.row_label(row), str(part.degrees), str(part.numerator)]
    return " ".join(fields + [kind] if kind in (table_rules.ERROR, table_rules.BLOCKS) else fields)


def table_text(table):
    """The lines of a table."""
    lines = ["over %d" % table.denominator]
    lines += [row_text(row, part, kind) for row, (part, kind) in enumerate(zip(table.rows, table.kinds))]
    lines += ["blocks %d %d" % table.blocks, "error %d %d" % table.error, "total %d %d" % table.total]
    lines += ["check %d %d" % (table.sum_of_totals, table.check_number)]
    return "".join(line + "\n" for line in lines)


def answer(sheet):
    """0, or the number of the refusal: 1 for more than 5,187 bytes, else what applies to the sheet without a column."""
    return 1 if len(sheet) > MOST_SHEET else sheet_answer(sheet)


def text(sheet):
    """What the program prints for a sheet: its table, or the line of its refusal alone."""
    refused = answer(sheet)
    return ("refused %d\n" % refused if refused else table_text(table_of_sheet(sheet))).encode()


if __name__ == "__main__":
    sys.stdout.buffer.write(text(sys.stdin.buffer.read()))
