# A half-normal plot as an SVG: frame, scales, marks, labels, a line, a legend and notes. It has no script and no style
# sheet, and names no file, so that it can be opened or printed as it is. It is black and grey on white.
#
# Defined here:
#   Mark         a point with its kind, sign, label and title
#   quantile     the half-normal quantile of a part
#   fraction     a double as a fraction
#   ticks        where the axis of values has its numbers
#   drawn        the SVG

import textwrap
from collections import namedtuple
from fractions import Fraction
from html import escape
from math import floor, log10
from statistics import NormalDist

from ftab_parts import labels
from ftab_parts.figures import decimals
from ftab_parts.labels import Box

# quantile and size are the place on the axes. kind is kept or pooled, sign plus, minus or zero. texts are those of its
# label, the best first; title is what a browser shows of the mark.
Mark = namedtuple("Mark", "quantile size kind sign texts title")

# The drawing is so wide; the frame of the plot is so placed in it; the title is so high, or less where it is long.
WIDE = 760
FRAME = Box(78, 52, 738, 472)
TITLE = 16.0
NOTE_LETTERS, NOTE_STEP = 118, 16

# Per cents that the lower axis may have, and how far apart they stand at least.
PER_CENTS = (0, 10, 20, 30, 40, 50, 60, 70, 80, 90, 95, 98, 99, 99.5, 99.8, 99.9)
APART = 24

# What the legend says of a kind and a sign.
MEANINGS = {
    ("kept", "plus"): "effect above 0",
    ("kept", "minus"): "effect below 0",
    ("kept", "zero"): "effect 0",
    ("pooled", "plus"): "pooled as error, above 0",
    ("pooled", "minus"): "pooled as error, below 0",
    ("pooled", "zero"): "pooled as error, 0",
}
FILLS = {"plus": "black", "minus": "white", "zero": "silver"}

# The most decimals of numbers at an axis.
MOST_DECIMALS = 6

# The radius of a mark; the second where there are many.
RADII, MANY = (4.0, 3.0), 63


# ---- scales ----

def quantile(part):
    """The half-normal quantile of a part of 1."""
    return NormalDist().inv_cdf((1 + part) / 2)


def fraction(number):
    """A double as a fraction, without its last digits."""
    return Fraction("%.12g" % number)


def ticks(most):
    """Where the axis of values has its numbers, from 0 to the first that is a little above the most."""
    if not most:
        return [Fraction(0), Fraction(1)]
    tenth, own = Fraction(10) ** floor(log10(most)), fraction(most) * Fraction(26, 25)
    step = next(step for step in (tenth / 5, tenth / 2, tenth, 2 * tenth) if own <= 8 * step)
    count = -(-own // step)
    return [step * place for place in range(int(count) + 1)]


class Scales:
    """The places of quantiles and sizes in the drawing."""

    def __init__(self, marks):
        """Takes the axes as far as the marks go."""
        self.values = ticks(max(mark.size for mark in marks))
        self.widest = max([1.25] + [mark.quantile * 1.06 for mark in marks])
        self.highest = float(self.values[-1])
        self.radius = RADII[len(marks) >= MANY]

    def x(self, quantile):
        """Where a quantile is."""
        return FRAME.left + (FRAME.right - FRAME.left) * quantile / self.widest

    def y(self, size):
        """Where a size is."""
        return FRAME.bottom - (FRAME.bottom - FRAME.top) * float(size) / self.highest

    def per_cents(self):
        """The per cents of the lower axis, with their places; none nearer to the one before than APART."""
        found = []
        for own in PER_CENTS:
            x = self.x(quantile(own / 100))
            if x <= FRAME.right and (not found or x - found[-1][1] >= APART):
                found.append((own, x))
        return found


# ---- elements ----

def element(name, content="", **attributes):
    """An element with its content, which is written as it is; a _ in a name of an attribute stands for -."""
    own = "".join(' %s="%s"' % (key.rstrip("_").replace("_", "-"), short(value)) for key, value in attributes.items())
    return "<%s%s>%s</%s>" % (name, own, content, name) if content else "<%s%s/>" % (name, own)


def short(value):
    """A value of an attribute; doubles to 2 decimals."""
    return escape(("%.2f" % value).rstrip("0").rstrip(".") if isinstance(value, float) else str(value))


def line(x, y, to_x, to_y, **attributes):
    """A line."""
    return element("line", x1=float(x), y1=float(y), x2=float(to_x), y2=float(to_y), **attributes)


def words(text, x, y, size=12, **attributes):
    """A text at its base line."""
    return element("text", escape(text), x=float(x), y=float(y), font_size=size, **attributes)


def shape(kind, sign, x, y, radius):
    """The shape of a mark: a circle, or a square for what is pooled."""
    how = {"fill": FILLS[sign], "stroke": "black", "stroke_width": 1.2}
    if kind == "kept":
        return element("circle", cx=x, cy=y, r=radius, **how)
    half = radius * 0.9
    return element("rect", x=x - half, y=y - half, width=2 * half, height=2 * half, **how)


# ---- the parts of the drawing ----

def axes(scales):
    """The frame, thin lines across it, and the numbers and names of the axes."""
    grid, found = {"stroke": "gainsboro", "stroke_width": 0.8}, []
    for own, x in scales.per_cents():
        found += [line(x, FRAME.top, x, FRAME.bottom, **grid), line(x, FRAME.bottom, x, FRAME.bottom + 5, stroke="black"),
                  words("%g" % own, x, FRAME.bottom + 19, text_anchor="middle")]
    for value in scales.values:
        y = scales.y(value)
        found += [line(FRAME.left, y, FRAME.right, y, **grid), line(FRAME.left - 5, y, FRAME.left, y, stroke="black"),
                  words(tick_text(scales.values, value), FRAME.left - 9, y + 4, text_anchor="end")]
    found.append(element("rect", x=FRAME.left, y=FRAME.top, width=FRAME.right - FRAME.left, height=FRAME.bottom - FRAME.top,
                         fill="none", stroke="black"))
    middle = (FRAME.top + FRAME.bottom) / 2
    found.append(words("per cent, 100 (i - 1/2) / n for the i-th of n effects, on a half-normal scale",
                       (FRAME.left + FRAME.right) / 2, FRAME.bottom + 42, 13, text_anchor="middle"))
    found.append(words("absolute effect (high minus low)", 0, 0, 13, text_anchor="middle",
                       transform="translate(20 %g) rotate(-90)" % middle))
    return found


def tick_text(values, value):
    """A number of the axis of values, with the decimals that the step has; with a power of ten where these are many."""
    places = decimals(values[1])
    return "%.*f" % (places, value) if places <= MOST_DECIMALS else "%g" % value


def fitted(scales, slope):
    """The line through 0 as far as the frame goes, a pair of its ends; none without a slope."""
    if not slope:
        return []
    end = min(scales.widest, scales.highest / slope)
    return [((scales.x(0), scales.y(0)), (scales.x(end), scales.y(slope * end)))]


def legend(marks):
    """The legend of the marks that there are, in the upper left corner, and its box."""
    own = [pair for pair in MEANINGS if pair in {(mark.kind, mark.sign) for mark in marks}]
    wide = max(labels.text_width(MEANINGS[pair], 12) for pair in own)
    box = Box(FRAME.left + 10, FRAME.top + 10, FRAME.left + 42 + wide, FRAME.top + 20 + 18 * len(own))
    found = [element("rect", x=box.left, y=box.top, width=box.right - box.left, height=box.bottom - box.top, fill="white",
                     stroke="silver")]
    for place, pair in enumerate(own):
        y = box.top + 14 + 18 * place
        found += [shape(*pair, box.left + 14, y, RADII[0]), words(MEANINGS[pair], box.left + 26, y + 4)]
    return found, box


def place_of(scales, mark):
    """Where a mark is in the drawing."""
    return scales.x(mark.quantile), scales.y(mark.size)


def point(scales, mark):
    """The element of a mark, with a title."""
    own = shape(mark.kind, mark.sign, *place_of(scales, mark), scales.radius)
    return element("g", element("title", escape(mark.title)) + own, class_="point %s %s" % (mark.kind, mark.sign))


def label_elements(own):
    """The elements of labels, leaders first."""
    leaders = [line(*label.leader[0], *label.leader[1], stroke="gray", stroke_width=0.7) for label in own if label.leader]
    return leaders + [words(label.text, label.x, label.y, labels.SIZE, class_="label", text_anchor=label.anchor)
                      for label in own]


def labels_of(scales, marks, box, lines):
    """The labels of the marks, as many of the largest as find a place. Where not all do, they are tried once more from the
    smallest on, which serves if then all do."""
    places = [place_of(scales, mark) for mark in marks]
    wanted = [(mark.texts, place) for mark, place in zip(marks, places)][::-1]
    found = labels.placed(wanted, places, FRAME, [box], lines)
    if len(found) == len(wanted):
        return found
    second = labels.placed(wanted[::-1], places, FRAME, [box], lines)
    return second if len(second) == len(wanted) else found


def note_elements(notes, foot):
    """The notes below the plot and the foot, and how high the drawing is."""
    lines = [own for note in notes for own in textwrap.wrap(note, NOTE_LETTERS)]
    first = FRAME.bottom + 68
    found = [words(own, 20, first + NOTE_STEP * place, class_="note") for place, own in enumerate(lines)]
    last = first + NOTE_STEP * len(lines) + 4
    return found + [words(foot, 20, last, 10, fill="dimgray")], last + 14


def drawn(title, marks, slope, notes, foot):
    """The SVG. The notes are those that a function gives for the number of labels that found a place."""
    scales = Scales(marks)
    own_legend, box = legend(marks)
    own_lines = fitted(scales, slope)
    own_labels = labels_of(scales, marks, box, own_lines)
    own_notes, high = note_elements(notes(len(own_labels)), foot)
    content = [element("title", escape(title)), element("rect", width=WIDE, height=high, fill="white"),
               words(title, WIDE / 2, 30, min(TITLE, TITLE * WIDE / labels.text_width(title, TITLE)), text_anchor="middle")]
    content += axes(scales) + own_legend + label_elements(own_labels)
    content += [line(*start, *end, class_="fitted", stroke="dimgray", stroke_width=1.2, stroke_dasharray="6 4")
                for start, end in own_lines]
    content += [point(scales, mark) for mark in marks] + own_notes
    return element("svg", "\n" + "\n".join(content) + "\n", xmlns="http://www.w3.org/2000/svg", width=WIDE, height=high,
                   viewBox="0 0 %d %d" % (WIDE, high), font_family="Helvetica, Arial, sans-serif") + "\n"
