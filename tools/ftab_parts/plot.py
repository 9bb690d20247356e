# The part `plot` of the command: a half-normal plot of the effects of a two-level sheet, as an SVG of points, lines and
# text.
#
# The method is C. Daniel's, of 1959. That paper is not at hand. His Applications of statistics to industrial experimentation
# (1976) cites it and has no figure of such a plot; Section 7.6 says what is plotted, and Sections 6.3 and 8.4 how he draws
# a normal plot. They are followed so:
#
#   his                                                  here
#   contrast sums without signs, by magnitude            effects without signs, which are these over one divisor
#   values upwards, per cents on the other axis,         the same, the per cents spaced by half-normal quantiles, since
#   spaced so that normal values give a straight line    signs are left out
#   the ith of N at 100 (i - 1/2)/N per cent             the same
#   a line by eye, forced through the middle (50%, 0),   a line by least squares, forced through 0, over the effects up to
#   the data near 16 and 84 per cent weighing more       68.3 per cent, which is from 16 to 84 with signs left out; the
#                                                        nearer to it, the more an effect weighs
#   the standard deviation is half of what the line      the standard deviation of an effect is the line's height at 68.3
#   differs by between 16 and 84 per cent                per cent
#
# He warns in Section 7.6 that the signs, which the plot leaves out, tell much. So marks are filled where an effect is above
# 0 and open where it is below. Ours besides are other marks for effects pooled as error, and the list of those lost to
# blocks, which are not plotted.
#
# Quantiles, the line and all places of the drawing are rounded as doubles are. Nothing here is proved.
#
# Defined here:
#   Point, points_of     an effect with its place on the axes, and those of an analysis, the smallest first
#   slope_of             the slope of the line
#   notes_of             what is written below the plot
#   plot_of              the SVG of an analysis
#   add, run             the arguments of the part, and the part

from collections import namedtuple
from functools import partial
from os.path import basename

from ftab_parts import drawing, effects, files
from ftab_parts.analysis import analysis_of, generators
from ftab_parts.drawing import Mark, quantile
from ftab_parts.factab import ERROR, MEAN, plain
from ftab_parts.figures import exact, rounded

# The line is fitted up to this quantile, which is that of 68.3 per cent; it wants at least so many effects.
LINE_END, LEAST_FITTED = 1.0, 3

# Names that together are longer than this give way to letters.
MOST_NAME = 30

# quantile and size are the place of an effect on the axes.
Point = namedtuple("Point", "effect quantile size")

ABOUT = """Draws a half-normal plot of the effects of FILE, a two-level sheet or lines of
cells, by C. Daniel's method: the effects without signs, the smallest first,
against half-normal quantiles. Effects that are error alone lie about a line
through 0. Effects that are pooled as error have marks of their own; those that
are lost to blocks are not plotted but named.

Which effects are pooled or lost is taken from the text that factab prints, which
is proved. Effects, quantiles, the line and the drawing are formed by ftab and are
not proved."""

ENDING = """Without -o or --into the plot of NAME.csv or NAME.sheet is NAME.svg beside it.

Exit status: 0 done; 1 a file is not understood, has three levels or its sheet is
refused, or factab cannot be run; 2 wrong usage. The other files are drawn all the
same."""


# ---- points and line ----

def texts_of(analysis, letters):
    """What an effect may be called: its names, if together they are not too long, and its letters."""
    name = effects.spelled(letters, analysis.names)
    return [name, letters] if len(name) <= MOST_NAME and name != letters else [letters]


def plotted(analysis):
    """The effects that are plotted: of all rows but the mean and those lost; of an added factor's word that factor's."""
    found = {own.row: own for own in analysis.effects + analysis.added}
    return [own for own in found.values() if own.kind not in (MEAN, effects.LOST)]


def points_of(analysis):
    """The points, the smallest effect first; equal ones in the order of the rows."""
    found = sorted(plotted(analysis), key=lambda own: abs(own.value))
    return [Point(own, quantile((place + 0.5) / len(found)), float(abs(own.value))) for place, own in enumerate(found)]


def slope_of(points):
    """The slope of the line, and over how many points it is fitted; None where they are too few."""
    fitted = [point for point in points if point.quantile <= LINE_END]
    if len(fitted) < LEAST_FITTED:
        return None, len(fitted)
    return (sum(point.quantile * point.size for point in fitted) / sum(point.quantile ** 2 for point in fitted)), len(fitted)


def mark_of(analysis, point):
    """The mark of a point."""
    own = point.effect
    sign = "zero" if not own.value else "plus" if own.value > 0 else "minus"
    texts = texts_of(analysis, own.label)
    return Mark(point.quantile, point.size, "pooled" if own.kind == ERROR else "kept", sign, texts,
                "%s: %s" % (" = ".join(texts[::-1]), exact(own.value)))


# ---- notes ----

def line_note(points):
    """How the line is drawn, or why there is none."""
    slope, count = slope_of(points)
    if slope is None:
        return "No line: it wants %d effects up to 68.3 per cent, and has %d." % (LEAST_FITTED, count)
    if not slope:
        return "No line: the effects up to 68.3 per cent are 0."
    return ("Line: through 0, by least squares over the %d effects up to 68.3 per cent. Its height there, %s, estimates the "
            "standard deviation of an effect." % (count, short(slope)))


def short(number):
    """A double to 4 digits."""
    return rounded(drawing.fraction(number), 4)


def notes_of(analysis, points, labelled):
    """What is written below the plot."""
    lost = [own.label for own in analysis.effects if own.kind == effects.LOST]
    names = ["%s = %s" % own for own in sorted(analysis.names.items())]
    notes = [line_note(points)]
    notes += ["Lost to blocks and not plotted: %s." % ", ".join(lost)] if lost else []
    notes += ["Labelled: the %d largest of %d effects." % (labelled, len(points))] if labelled < len(points) else []
    notes += ["Factors: %s." % ", ".join(names)] if names else []
    notes += ["Added: %s. A point of a fraction stands for several effects; that of one of these words is labelled with its "
              "factor." % ", ".join(generators(analysis))] if analysis.added else []
    return notes


# ---- the part ----

def plot_of(analysis, version):
    """The SVG of an analysis."""
    if analysis.plan.levels != 2:
        raise files.Problem("a half-normal plot is of two-level plans, and this one has %d levels" % analysis.plan.levels)
    points = points_of(analysis)
    marks = [mark_of(analysis, point) for point in points]
    title = "Half-normal plot of effects: %s" % plain(basename(files.name_of(analysis.path)))
    slope, _ = slope_of(points)
    foot = "ftab %s, sheet sha256 %s" % (version, analysis.digest)
    return drawing.drawn(title, marks, slope, partial(notes_of, analysis, points), foot)


def add(parser):
    """The arguments of the part."""
    parser.description, parser.epilog = ABOUT, ENDING
    parser.add_argument("files", nargs="+", metavar="FILE", help="a file of lines or a sheet, - for standard input")
    files.add_places(parser, "the plot")


def run(arguments):
    """Writes the plots; the exit status."""
    places = files.places(arguments, ".svg", files.BESIDE)

    def work(path):
        """Writes the plot of a file."""
        files.put_at(places[path], plot_of(analysis_of(path), arguments.version).encode(errors="replace"))
    return files.each(arguments.files, work)
