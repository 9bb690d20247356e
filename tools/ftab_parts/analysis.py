# What is shown of a sheet: the table that factab prints, with sums of squares, mean squares and ratios formed from it, and
# the effects. The parts show and plot have it from here; columns.py, records.py and latex.py write it.
#
# Proved are the labels, degrees, numerators, kinds and check numbers, which stand as factab prints them. All else is formed
# from them, or from the readings, and is exact but not proved.
#
# With a scale s the readings of the sheet are s times those of the file. Sums of squares and mean squares are divided by s
# squared, effects and level means by s; numerators and check numbers are those of the sheet.
#
# Defined here:
#   Line, Analysis     a line of the table, and all that is shown of a sheet
#   contents           plan, readings and marks of a sheet that is accepted
#   analysis_of        what is shown of a file
#   block_label        a block word by its letters
#   plan_text          the plan in words
#   sums               the lines below those of the rows
#   source_letters     what the rows stand for
#   effect_letters     all effects
#   row_effects        the effect that stands beside each row
#   spelled            letters as names
#   name_of            the name of a factor
#   generators         the added factors as the trade writes them
#   pooled_mains       the factors whose main effects are pooled as error

from collections import namedtuple
from fractions import Fraction
from hashlib import sha256

from ftab_parts import effects, factab, sheets
from ftab_parts.factab import ERROR, KEPT, MEAN
from reference.rules import sheet_bytes
from reference.rules import totals as totals_rules
from reference.rules.table import row_label

# row is a row of factab's table, its sums among them. squares is the sum of squares, mean the mean square, None without
# degrees and for the total; ratio is that of mean to the error's, None where there is none.
Line = namedtuple("Line", "row squares mean ratio")

# text is what factab prints, table the same as numbers, lines those of the rows; blocks, error and total are lines too.
# effects and added are empty at three levels, means at two.
Analysis = namedtuple("Analysis", "path digest plan names scale text table lines blocks error total effects added means")


def contents(sheet):
    """Plan, readings and marks of a sheet that is accepted."""
    return sheet_bytes.contents_of(sheet_bytes.fields_of(sheet))


# ---- squares ----

def square_of(row, over):
    """The sum of squares and the mean square of a row; None for the second without degrees, and for the total of all."""
    squares = Fraction(row.numerator, over)
    return squares, squares / row.degrees if row.degrees and row.label != factab.TOTAL else None


def line_of(row, over, error):
    """The line of a row, given the error's mean square. Only what is not part of the error, and no mean, has a ratio."""
    squares, mean = square_of(row, over)
    compared = row.kind == KEPT or row.label == factab.BLOCKS
    return Line(row, squares, mean, mean / error if compared and error and mean is not None else None)


# ---- all that is shown ----

def analysis_of(path):
    """What is shown of a file, a sheet or lines of which one is made; raises Problem."""
    made = sheets.content_of(path)
    text, table = factab.table_of(made)
    own, scale = contents(made.sheet), made.scale
    totals = effects.totals_of(own.plan, own.readings)
    effects.compare(text, own, totals)
    over = table.over * scale ** 2
    _, error = square_of(table.error, over)
    lines = [line_of(row, over, error) for row in table.rows]
    sums = [line_of(row, over, error) for row in (table.blocks, table.error, table.total)]
    two = own.plan.levels == 2
    found = effects.row_effects(own.plan, table, totals, scale) if two else []
    return Analysis(path, sha256(made.sheet).hexdigest(), own.plan, made.names, scale, text, table, lines, *sums, found,
                    effects.added_effects(own.plan, found) if two else [],
                    [] if two else effects.level_means(own.plan, own.readings, scale))


def counted(count, name):
    """How many of a name there are."""
    return "%d %s%s" % (count, name, "" if count == 1 else "s")


def block_count(plan):
    """The number of blocks."""
    return plan.levels ** len(plan.blocks)


def block_label(plan, word):
    """The letters of a block word, at three levels with a 2 after those whose digit is 2."""
    if plan.levels == 2:
        return row_label(word)
    digits = totals_rules.digits(3, plan.k, word)
    return "".join(row_label(1 << factor) + "2" * (digit == 2) for factor, digit in enumerate(digits) if digit)


def plan_text(plan):
    """The plan in words."""
    parts = ["%s at %d levels" % (counted(plan.k + len(plan.added), "factor"), plan.levels)]
    parts += ["%d of them added" % len(plan.added)] if plan.added else []
    parts += [counted(totals_rules.run_count(plan.levels, plan.k), "run")]
    parts += ["each made %d times" % plan.repeats] if plan.repeats > 1 else []
    parts += [counted(block_count(plan), "block")] if plan.blocks else []
    return ", ".join(parts)


# ---- its lines and names ----

def source_letters(analysis):
    """What the rows stand for, by letters."""
    added = effects.added_in(analysis.plan)
    return [effects.source(added, line.row.label) for line in analysis.lines]


def pooled_mains(analysis):
    """The factors whose main effects are pooled as error, by letters."""
    return [own for own, line in zip(source_letters(analysis), analysis.lines) if len(own) == 1 and line.row.kind == ERROR]


def effect_letters(analysis):
    """All effects by their letters, those of added factors last."""
    return [own.label for own in analysis.effects + analysis.added]


def row_effects(analysis):
    """The effect that stands beside each row: beside the word of an added factor that of the factor, with its own sign."""
    return list({own.row: own for own in analysis.effects + analysis.added}.values())


def spelled(analysis, letters, most=None):
    """Some letters as names; as they are where the names are longer than `most`, and nothing for the mean."""
    names = [effects.spelled(own, analysis.names) for own in letters]
    short = [own if most and len(name) > most else name for own, name in zip(letters, names)]
    return ["" if own == MEAN else name for own, name in zip(letters, short)]


def sums(analysis):
    """The lines below those of the rows."""
    return [analysis.blocks, analysis.error, analysis.total]


def name_of(analysis, letter):
    """The name of a factor, its letter where it has none."""
    return analysis.names.get(letter, letter)


def generators(analysis):
    """The added factors as a text writes them, such as D = +ABC."""
    return ["%s = %s" % (own.label, effects.generator(own)) for own in analysis.added]
