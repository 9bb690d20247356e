# A whole job with the library, in Python: a plan, its runs, totals and effects; the table of a sheet; and a refusal.
#
#   PYTHONPATH=bindings/python python3 examples/use.py examples/sixteen_runs.sheet
#
# It prints examples/use.txt, as examples/use.c does, which tells where the readings are from.
#
# Defined here:
#   PLAN, READINGS, NO_PLAN                 the plan, its readings, and a plan that is refused
#   print_runs, print_effects, print_table  the parts of the job

import sys
from pathlib import Path

import lithgorn
from lithgorn import LOST, MEAN, Plan, Refused, letters

# Three base factors at two levels, D = ABC, two blocks by AB.
PLAN = Plan(2, 3, added=[("ABC", 0)], blocks=["AB"])
READINGS = [42, 30, 50, 29, 40, 28, 46, 23]

# The same with A as block word, which is refused: A would be lost to blocks.
NO_PLAN = Plan(2, 3, blocks=["A"])


def print_runs():
    """Each run with its letters, block and reading."""
    for number, reading in enumerate(READINGS):
        high, block = lithgorn.run(PLAN, number)
        print("run %d: %s, block %d, reading %d" % (number, letters(high) or "(1)", block, reading))


def print_effects():
    """The total of each base word, low minus high, and its estimate, high minus low; then what the added factor is."""
    for word, total in enumerate(lithgorn.totals(PLAN, READINGS)):
        kind, value = lithgorn.estimate(PLAN, word, total)
        found = "lost to blocks" if kind == LOST else "%s %g" % ("mean" if kind == MEAN else "effect", value)
        print("%s: total %d, %s" % (letters(word) or "mean", total, found))
    word, turned = lithgorn.alias(PLAN, "D")
    print("D: the effect of %s%s" % (letters(word) or "mean", ", negated" if turned else ""))


def print_table(sheet):
    """The table of a sheet: each row's numerator over the denominator, and the sums."""
    table = lithgorn.sheet_table(sheet)
    for word, row in enumerate(table.rows):
        print("%s: %d / %d = %.4f" % (letters(word) or "mean", row.numerator, table.denominator, row.sum_of_squares))
    print("total: %d degrees, %d / %d = %.4f" % (*table.total[:2], table.denominator, table.total.sum_of_squares))
    print("check: %d and %d" % table.checks)


def print_all(sheet):
    """The whole job."""
    lithgorn.check(PLAN)
    print("plan of %d bytes: 0" % len(bytes(PLAN)))
    print_runs()
    print_effects()
    print_table(sheet)
    text = lithgorn.text(sheet)
    print("text: %d bytes, first %s" % (len(text), text.splitlines()[0]))
    try:
        lithgorn.check(NO_PLAN)
    except Refused as refused:
        print("block word A: refused %d%s" % (refused.number, ", a factor would be lost" * (
            refused.number == lithgorn.REFUSED_LOST_FACTOR)))


if __name__ == "__main__":
    print_all(Path(sys.argv[1] if len(sys.argv) > 1 else "examples/sixteen_runs.sheet").read_bytes())
