# The effects of a two-level sheet, high minus low as journals print them, and at three levels the mean of the readings at
# each level of each factor. All are exact. Which rows are pooled as error and which are lost to blocks is taken from the
# table that factab prints.
#
# Totals are formed by the report's own steps, estimates and aliases by the rules of the reference program; here is no
# arithmetic of signs. The table that the reference program makes of the totals must be the text that factab prints, or
# nothing is shown: so a row of the table and the effect beside it are of the same readings, though only the first is
# proved.
#
# Names: the effect of a row is that of its letters, which are those of base factors. The effect of an added factor is that
# of its word, with the other sign where the alias turns. What a row stands for is called its source: the added factor whose
# word it is, or else its letters.
#
# Defined here:
#   Effect               an effect with its source, value and kind
#   LOST                 the kind of an effect that is lost to blocks
#   totals_of            the totals of all effects of a plan
#   compare              a Problem where a text is not that of some totals
#   row_effects          the effects of all rows of a two-level plan, the mean first
#   added_effects        the effects of its added factors
#   added_in             the added factors by the row that is their word
#   source               what a row stands for, as letters
#   spelled              letters as names, parted by a sign of times
#   generator            the word of an added factor with the sign that the trade writes
#   level_means          at three levels the mean of the readings at each level, factor by factor

from collections import namedtuple
from fractions import Fraction
from itertools import zip_longest

from ftab_parts.factab import BLOCKS
from ftab_parts.files import Problem
from reference.rules import table as table_rules
from reference.rules import text as text_rules
from reference.rules import totals as totals_rules
from reference.rules.table import row_label

LOST = "lost"

# row is the label of the row that has the effect, label its letters, or the letter of the added factor; value is None where
# it is lost. kind is that of the row, but lost for blocks. turned tells that value is that of the row with the other sign.
Effect = namedtuple("Effect", "row label value kind turned")


# ---- totals, and the table that they make ----

def totals_of(plan, readings):
    """The totals of all effects of an accepted plan, by steps of its run sums."""
    return totals_rules.steps(plan.levels, plan.k, totals_rules.run_sums(plan.repeats, readings))[-1]


def compare(text, contents, totals):
    """Raises a Problem where factab's text of some contents is not what the reference program makes of their totals."""
    meant = text_rules.table_text(table_rules.table_of_totals(*contents, totals))
    for own, other in zip_longest(text.split("\n"), meant.split("\n"), fillvalue=""):
        if own != other:
            raise Problem("factab prints '%s', and by the reference program it is '%s'" % (own[:60], other))


# ---- effects of two levels ----

def row_effects(plan, table, totals, scale):
    """The effects of all rows of a two-level plan, the mean first, in the unit of the readings before they were scaled."""
    found = []
    for row, (own, total) in enumerate(zip(table.rows, totals)):
        _, value = table_rules.estimate(plan, row, total)
        kind = LOST if own.kind == BLOCKS else own.kind
        found.append(Effect(own.label, own.label, None if kind == LOST else value / scale, kind, False))
    return found


def added_effects(plan, effects):
    """The effects of the added factors, given those of the rows."""
    found = []
    for place in range(plan.k, plan.k + len(plan.added)):
        row, turned = totals_rules.alias(plan, 1 << place)
        own = effects[row]
        found.append(Effect(own.row, row_label(1 << place), -own.value if turned else own.value, own.kind, turned))
    return found


# ---- what rows stand for ----

def added_in(plan):
    """The letters of the added factors of a plan, by the label of the row that is their word."""
    words = [(1 << place, totals_rules.alias(plan, 1 << place)) for place in range(plan.k, plan.k + len(plan.added))]
    return {row_label(row): row_label(factor) for factor, (row, _) in words}


def source(added, label):
    """What a row stands for: the added factor whose word it is, or else its letters."""
    return added.get(label, label)


def spelled(letters, names, times=" x "):
    """Letters as names, parted by a sign of times; as they are where none has a name."""
    if letters == table_rules.MEAN or not names:
        return letters
    return times.join(names.get(letter, letter) for letter in letters)


def generator(added):
    """The word of an added factor, given its effect, with the sign that the trade writes: D = -AB has -AB."""
    return ("-" if added.turned else "+") + added.row


# ---- three levels ----

def level_means(plan, readings, scale):
    """The mean of the readings at each of the three levels, factor by factor: pairs of letter and means."""
    sums = totals_rules.run_sums(plan.repeats, readings)
    count = totals_rules.reading_count(plan) // plan.levels * scale
    found = []
    for factor in range(plan.k):
        levels = [sum(own for run, own in enumerate(sums) if run // plan.levels ** factor % plan.levels == level)
                  for level in range(plan.levels)]
        found.append((row_label(1 << factor), [Fraction(own, count) for own in levels]))
    return found
