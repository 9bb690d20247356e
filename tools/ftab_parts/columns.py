# The table for reading, as text in columns. LaTeX is made of the same columns, by latex.py.
#
# At two levels sums of squares are decimals that end, all with as many decimals as the longest has; at three levels they are
# fractions in lowest terms and beside them rounded. What is rounded has 6 digits, and all of those before the point.
#
# Defined here:
#   Column                       a column: its head, its cells, and how they stand
#   table_columns                the columns of the table
#   effect_columns, mean_columns those of the effects, and of the means of levels
#   estimate_texts               the values of effects
#   kind_text                    what follows a row
#   about, head_lines            what is to be known of a table; what stands above it
#   text                         the table for reading
#   PROVED, MEANING              what is proved; what the effects are

import textwrap
from collections import namedtuple

from ftab_parts import effects, files
from ftab_parts.analysis import effect_letters, generators, plan_text, pooled_mains, source_letters, spelled, sums
from ftab_parts.factab import KEPT, MEAN, TITLE, plain
from ftab_parts.figures import aligned, decimals, exact, rounded

# The most letters of a line, where numbers and the names of files let it.
WIDTH = 110
GAP = "  "

# Names of a row that together are longer than the first, or than there is room, give way to its letters. There is always
# room for the second.
MOST_SOURCE, LEAST_SOURCE = 40, 12

# A mean square is written as it is where it has at most so many decimals more than the sums of squares.
MORE_DECIMALS = 3

PROVED = "Labels, degrees, numerators and check are factab's proved text. The rest is formed by ftab, not proved."
MEANING = {2: "Effects, high minus low: mean of the readings that count plus, less mean of those that count minus",
           3: "Means of the readings at each level"}

# Cells stand at the left, at the right, or with their points below each other.
Column = namedtuple("Column", "head cells how")
LEFT, RIGHT, POINT = "left", "right", "point"


# ---- columns ----

def column_lines(column):
    """The lines of a column, all of one width."""
    cells = aligned(column.cells) if column.how == POINT else column.cells
    wide = max(map(len, [column.head, *cells]))
    return [cell.ljust(wide) if column.how == LEFT else cell.rjust(wide) for cell in [column.head, *cells]]


def laid(columns):
    """Columns as lines, the head first."""
    return [GAP.join(cells).rstrip() for cells in zip(*map(column_lines, columns))]


def with_names(analysis, columns, head, letters):
    """Columns with one of names in the second place, as wide as there is room."""
    room = WIDTH - len(GAP) - max(map(len, laid(columns)))
    names = spelled(analysis, letters, max(LEAST_SOURCE, min(MOST_SOURCE, room)))
    return columns[:1] + [Column(head, names + [""] * (len(columns[0].cells) - len(names)), LEFT)] + columns[1:]


def most_decimals(lines):
    """The decimals of the longest sum of squares; None where some do not end."""
    counts = [decimals(line.squares) for line in lines]
    return None if None in counts else max(counts)


def is_exact(line, most):
    """Whether the mean square of a line is written as it is: it ends, and has few more decimals than the sums of squares."""
    count = decimals(line.mean)
    return most is not None and count is not None and count <= most + MORE_DECIMALS


def mean_text(line, most):
    """The mean square of a line, nothing where it has none."""
    if line.mean is None:
        return ""
    return exact(line.mean, most) if is_exact(line, most) else rounded(line.mean)


def squares_columns(lines):
    """The columns of sums of squares and mean squares. Sums have all the decimals that the longest has, where all end; else
    they are fractions, and beside them rounded."""
    most = most_decimals(lines)
    means = Column("mean square", [mean_text(line, most) for line in lines], POINT)
    if most is not None:
        return [Column("sum of squares", [exact(line.squares, most) for line in lines], POINT), means]
    return [Column("fraction", [exact(line.squares) for line in lines], RIGHT),
            Column("sum of squares", [rounded(line.squares) for line in lines], POINT), means]


def rounding_notes(analysis):
    """What is said of squares that are rounded, in a list that is empty where none is."""
    lines = analysis.lines + sums(analysis)
    most = most_decimals(lines)
    if most is None:
        return ["Sums of squares beside the fractions and mean squares have 6 digits, or all before the point."]
    if all(is_exact(line, most) for line in lines if line.mean is not None):
        return []
    return ["Mean squares that do not end as decimals, or have many, have 6 digits, or all before the point."]


def ratio_text(line):
    """The ratio of a line, nothing where it has none."""
    return "" if line.ratio is None else rounded(line.ratio)


def kind_text(row):
    """What follows a row: that it is pooled as error or lost to blocks."""
    return "" if row.kind in (KEPT, MEAN) else row.kind


def table_columns(analysis):
    """The columns of the table."""
    lines = analysis.lines + sums(analysis)
    rows = [line.row for line in lines]
    columns = [Column("row", [row.label for row in rows], LEFT),
               Column("degrees", [str(row.degrees) for row in rows], RIGHT),
               Column("numerator", [str(row.numerator) for row in rows], RIGHT), *squares_columns(lines)]
    if any(line.ratio is not None for line in lines):
        columns.append(Column("ratio", [ratio_text(line) for line in lines], POINT))
    columns.append(Column("", [kind_text(row) for row in rows], LEFT))
    return with_names(analysis, columns, "source", source_letters(analysis)) if analysis.names or analysis.added else columns


def table_text(analysis):
    """The lines of the table, with rules below the head and below the rows."""
    lines = laid(table_columns(analysis))
    rule = "-" * max(map(len, lines))
    last = len(lines) - len(sums(analysis))
    return [lines[0], rule, *lines[1:last], rule, *lines[last:]]


def estimate_texts(found):
    """The values of some effects, with all the decimals that the longest has; nothing for one that is lost."""
    most = max((decimals(own.value) or 0 for own in found if own.value is not None), default=0)
    return ["" if own.value is None else rounded(own.value) if decimals(own.value) is None else exact(own.value, most)
            for own in found]


def effect_columns(analysis):
    """The columns of the effects, those of added factors last."""
    found = analysis.effects + analysis.added
    kinds = {effects.LOST: "lost to blocks", MEAN: "mean of all readings", KEPT: ""}
    columns = [Column("effect", [own.label for own in analysis.effects] + generators(analysis), LEFT),
               Column("estimate", estimate_texts(found), POINT),
               Column("", [kinds.get(own.kind, own.kind) for own in found], LEFT)]
    return with_names(analysis, columns, "name", effect_letters(analysis)) if analysis.names else columns


def mean_columns(analysis):
    """The columns of the level means."""
    columns = [Column("factor", [letter for letter, _ in analysis.means], LEFT)]
    columns += [Column("level %d" % level, [rounded(own[level]) for _, own in analysis.means], POINT)
                for level in range(analysis.plan.levels)]
    return with_names(analysis, columns, "name", columns[0].cells) if analysis.names else columns


def about(analysis):
    """What is to be known of a table: the plan in words, names, generators and scale."""
    named = ["%s = %s" % own for own in sorted(analysis.names.items())]
    found = [plan_text(analysis.plan)] + ["Factors: %s" % ", ".join(named)] * bool(named)
    found += ["Added: %s" % ", ".join(generators(analysis))] * bool(analysis.added)
    return found + ["Scale %d: numerators and check are of the readings times %d, all else is of the readings" % (
        analysis.scale, analysis.scale)] * (analysis.scale != 1)


def head_lines(analysis):
    """What stands above the table: the file, and what is to be known."""
    lines = [TITLE + plain(files.name_of(analysis.path))]
    return lines + [line for own in about(analysis) for line in textwrap.wrap(own, WIDTH, subsequent_indent=GAP)]


def ratio_note(analysis):
    """What the ratios are, or why there are none."""
    if not analysis.error.row.degrees:
        return "There are no ratios, for the error has no degrees."
    if not analysis.error.row.numerator:
        return "There are no ratios, for the error is 0."
    return "Ratio: mean square to the error's mean square, to 6 digits."


def note_lines(analysis):
    """What stands below the table."""
    over = "A sum of squares is its numerator over %d%s." % (
        analysis.table.over, "" if analysis.scale == 1 else ", over %d squared" % analysis.scale)
    lines = ["check: the totals add up to %d, by the readings to %d" % analysis.table.checks, "",
             over, "The total has the mean, and a degree for each reading.", ratio_note(analysis)]
    lines += rounding_notes(analysis)
    lines += ["Each row of a fraction stands for several effects; 'ftab list' names them."] if analysis.added else []
    called = {letter: "%s (%s)" % (letter, name) for letter, name in analysis.names.items()}
    return lines + ["The main effect of %s is pooled as error." % called.get(own, own) for own in pooled_mains(analysis)]


def text(analysis, version):
    """The table for reading."""
    below = effect_columns(analysis) if analysis.effects else mean_columns(analysis)
    lines = head_lines(analysis) + [""] + table_text(analysis) + note_lines(analysis)
    lines += ["", MEANING[analysis.plan.levels], ""] + laid(below)
    lines += ["", PROVED, "ftab %s, sheet sha256 %s" % (version, analysis.digest), ""]
    return "".join(line + "\n" for line in lines)
