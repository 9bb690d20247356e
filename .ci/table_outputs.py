# What the command tools/ftab must show and draw of some data, by the reference program, for the cases of
# .ci/command_tables.py.
#
# Of data, which are plan, readings, marks, names and a scale, the lines of a file and its sheet are made here. What is shown
# of it as JSON or CSV is read again, and every figure is compared, as a fraction, with that of reference/rules, whose totals
# are by the definition. A drawing is read as XML: its points must be the effects that are not lost, and stand where they
# belong, by quantiles from the error function and a line that is fitted here.
#
# Defined here:
#   VERSION                     the version of the product
#   Data                        plan, readings, marks, names and scale
#   spread                      readings of a plan that follow no simple rule
#   lines_of, sheet_of          the lines and the sheet of data
#   text_of                     what factab prints for them
#   json_of, csv_of, svg_of     functions that say whether an output is that of data

import csv
import io
import json
import re
import sys
from collections import namedtuple
from fractions import Fraction
from hashlib import sha256
from math import erf, sqrt
from pathlib import Path
from xml.etree import ElementTree

from cases import COMMAND

sys.path.insert(0, str(Path(__file__).resolve().parent.parent))

from reference.rules import sheet_bytes
from reference.rules import table as table_rules
from reference.rules import text as text_rules
from reference.rules import totals as totals_rules
from reference.rules.table import row_label, row_number

VERSION = re.search('(?m)^VERSION = "(.*)"$', COMMAND.read_text()).group(1)

# marks are labels of rows that are pooled as error; names are by letter.
Data = namedtuple("Data", "plan readings marks names scale", defaults=((), {}, 1))


# ---- data ----

def spread(plan, most=50):
    """Readings of a plan that follow no simple rule, within a limit either way: each is made of a number that the one before
    makes."""
    found, own = [], 1
    for _ in range(totals_rules.reading_count(plan)):
        own = (own * 1_103_515_245 + 12_345) % 2 ** 31
        found.append(own // 2 ** 7 % (2 * most + 1) - most)
    return found


def scaled(data, reading):
    """A reading as the lines have it, before it is scaled."""
    return str(reading) if data.scale == 1 else "%.6f" % (reading / data.scale)


def block_text(plan, word):
    """A block word as a line has it."""
    if plan.levels == 2:
        return row_label(word)
    return "".join(row_label(1 << factor) + "2" * (digit == 2)
                   for factor, digit in enumerate(totals_rules.digits(3, plan.k, word)) if digit)


def lines_of(data):
    """The lines of data."""
    plan = data.plan
    lines = ["levels,%d" % plan.levels, "factors,%d" % plan.k]
    lines += ["added,%s,%d" % (row_label(word), sign) for word, sign in plan.added]
    lines += ["block," + block_text(plan, word) for word in plan.blocks]
    lines += ["repeats,%d" % plan.repeats] if plan.repeats > 1 else []
    lines += ["scale,%d" % data.scale] if data.scale > 1 else []
    lines += ['name,%s,"%s"' % own for own in data.names.items()]
    for run, own in enumerate(totals_rules.runs_of(plan.repeats, data.readings)):
        levels = totals_rules.digits(plan.levels, plan.k, run)
        lines.append(",".join(["run", *map(str, levels), *(scaled(data, reading) for reading in own)]))
    lines += [",".join(["error", *data.marks])] if data.marks else []
    return "".join(line + "\n" for line in lines).encode()


def marks_of(data):
    """The marks of all rows."""
    return [int(row_label(row) in data.marks) for row in range(table_rules.row_count(data.plan.k))]


def sheet_of(data):
    """The sheet of data."""
    return sheet_bytes.write(data.plan, data.readings, marks_of(data))


def table_of(data):
    """The table of data, by the reference program."""
    return text_rules.table_of_sheet(sheet_of(data))


def text_of(data):
    """What factab prints for data."""
    return text_rules.text(sheet_of(data))


# ---- what is shown of data ----

def denominator_of(data):
    """The denominator of sums of squares, in the unit of the readings before they were scaled."""
    return totals_rules.denominator(data.plan.levels, data.plan.k, data.plan.repeats) * data.scale ** 2


def square_of(data, part):
    """The sum of squares of a part of a table."""
    return Fraction(part.numerator, denominator_of(data))


def ratio_of(data, table, part, compared):
    """The ratio of a part's mean square to the error's; None where there is none."""
    if not (compared and part.degrees and table.error.degrees and table.error.numerator):
        return None
    return (square_of(data, part) / part.degrees) / (square_of(data, table.error) / table.error.degrees)


def figures_of(data):
    """The figures of the lines of a table: by label degrees, numerator, sum of squares, mean square, ratio and kind."""
    table = table_of(data)
    parts = [(row_label(row), part, kind, kind == table_rules.KEPT)
             for row, (part, kind) in enumerate(zip(table.rows, table.kinds))]
    parts += [("blocks", table.blocks, "", True), ("error", table.error, "", False), ("total", table.total, "", False)]
    return {label: (part.degrees, part.numerator, square_of(data, part),
                    square_of(data, part) / part.degrees if part.degrees and label != "total" else None,
                    ratio_of(data, table, part, compared), kind) for label, part, kind, compared in parts}


def effect_value(data, totals, effect):
    """The difference of an effect of all factors, by alias and estimate; None where it is lost."""
    base, turned = totals_rules.alias(data.plan, effect)
    _, value = table_rules.estimate(data.plan, base, totals[base])
    return None if value is None else (-value if turned else value) / data.scale


def effects_of(data):
    """The effects of the rows and of the added factors of a two-level plan, by label."""
    plan, totals = data.plan, table_of(data).totals
    effects = list(range(2 ** plan.k)) + [1 << place for place in range(plan.k, plan.k + len(plan.added))]
    return {row_label(effect): effect_value(data, totals, effect) for effect in effects}


def row_of(data, label):
    """The row that has an effect."""
    return row_label(totals_rules.alias(data.plan, row_number(label))[0])


def means_of(data):
    """The means of the readings at each level of a three-level plan, by letter and level."""
    plan, found = data.plan, {}
    for factor in range(plan.k):
        for level in range(3):
            own = [reading for place, reading in enumerate(data.readings)
                   if totals_rules.digits(3, plan.k, place // plan.repeats)[factor] == level]
            found[row_label(1 << factor), level] = Fraction(sum(own), len(own) * data.scale)
    return found


def added_of(data):
    """The letters of added factors by the rows of their words."""
    letters = [row_label(1 << place) for place in range(data.plan.k, data.plan.k + len(data.plan.added))]
    return {row_of(data, letter): letter for letter in letters}


def source_of(data, label):
    """What a row stands for, by names; nothing for the mean and the sums."""
    if label in ("mean", "blocks", "error", "total"):
        return ""
    own = [data.names.get(letter, letter) for letter in added_of(data).get(label, label)]
    return " x ".join(own) if data.names else "".join(own)


# ---- outputs ----

def all_equal(pairs_of):
    """A function that says of some bytes whether the two numbers or texts of each pair are equal that `pairs_of` finds; what
    cannot be read is as little meant as what differs."""
    def holds(content):
        """Whether they are."""
        try:
            return all(own == meant for own, meant in pairs_of(content))
        except (ArithmeticError, AttributeError, IndexError, KeyError, TypeError, ValueError, ElementTree.ParseError):
            return False
    return holds


def number(text):
    """The number of a text, None for none."""
    return None if text in (None, "") else Fraction(text)


# ---- JSON ----

def json_figures(own):
    """The figures of a line of JSON."""
    return (own["degrees"], int(own["numerator"]), number(own["sum_of_squares"]), number(own["mean_square"]),
            number(own["ratio"]), own["kind"])


def json_estimates(own):
    """The effects or level means of JSON."""
    if "effects" in own:
        return {(line["label"], line["row"]): number(line["estimate"]) for line in own["effects"]}
    return {(line["label"], level): Fraction(mean)
            for line in own["level_means"] for level, mean in enumerate(line["means"])}


def estimates_of(data):
    """The same of data."""
    if data.plan.levels == 3:
        return means_of(data)
    return {(label, "mean" if label == "mean" else row_of(data, label)): value for label, value in effects_of(data).items()}


def json_of(data, path):
    """Whether an output is the JSON of data in a file."""
    def pairs_of(content):
        """What is found and what is meant."""
        own = json.loads(content)
        lines = own["rows"] + [own["blocks"], own["error"], own["total"]]
        return [(own["ftab"], VERSION), (own["file"], path), (own["factab"].encode(), text_of(data)),
                (own["sheet_sha256"], sha256(sheet_of(data)).hexdigest()), (own["names"], data.names),
                ([line["label"] for line in lines], list(figures_of(data))),
                ({line["label"]: json_figures(line) for line in lines}, figures_of(data)),
                ([line["source"] for line in lines], [source_of(data, line["label"]) for line in lines]),
                (int(own["denominator"]) * int(own["scale"]) ** 2, denominator_of(data)),
                (own["plan"]["blocks"], [block_text(data.plan, word) for word in data.plan.blocks]),
                (json_estimates(own), estimates_of(data))]
    return all_equal(pairs_of)


# ---- CSV ----

def ends(value):
    """Whether a number ends as a decimal."""
    return 10 ** 60 % value.denominator == 0


def as_meant(text, value):
    """The value itself where a cell has it, exactly if it ends as a decimal and else to 15 digits; or what the cell has."""
    own = number(text)
    if own is None or value is None or ends(value):
        return own
    return value if abs(own - value) < abs(value) / 10 ** 14 else own


def csv_figures(own, meant):
    """The figures of a record of CSV, those in the place of meant ones that are near enough."""
    return (int(own["degrees"]), int(own["numerator"]), as_meant(own["sum_of_squares"], meant[2]),
            as_meant(own["mean_square"], meant[3]), as_meant(own["ratio"], meant[4]), own["kind"])


def csv_of(data, path):
    """Whether an output is the CSV of data in a file."""
    def pairs_of(content):
        """What is found and what is meant."""
        records = list(csv.DictReader(io.StringIO(content.decode())))
        table = [own for own in records if own["part"] in ("row", "sum")]
        figures, estimates = figures_of(data), estimates_of(data)
        pairs = [([own["label"] for own in table], list(figures)), ({own["file"] for own in records}, {path})]
        pairs += [(csv_figures(own, figures[own["label"]]), figures[own["label"]]) for own in table]
        pairs += [(own["source"], source_of(data, own["label"])) for own in table]
        pairs += [(int(own["denominator"]) * int(own["scale"]) ** 2, denominator_of(data)) for own in table]
        found = {(own["label"], int(own["level"]) if own["level"] else own["row"]): own["estimate"] for own in records
                 if own["part"] in (("level",) if data.plan.levels == 3 else ("row", "added"))}
        pairs.append((set(found), set(estimates)))
        # beside the word of an added factor stands the factor, and so its effect, with its own sign
        factors = {row: value for (label, row), value in estimates.items() if label != row and data.plan.levels == 2}
        meant = {own: factors.get(own[0], value) for own, value in estimates.items()}
        return pairs + [(as_meant(found[own], value), value) for own, value in meant.items()]
    return all_equal(pairs_of)


# ---- SVG ----

SPACE = "{http://www.w3.org/2000/svg}"

# The corner of the plot at which both axes have 0; how far a place may be off, since it is rounded; and a line.
LEFT, BOTTOM, OFF, LINE_OFF = 78, 472, 0.02, 0.5

# label, value with its sign, words of the class, and the place from the corner.
Point = namedtuple("Point", "label value words x y")


def place_in(shape):
    """The place of a circle or a square."""
    own = {key: float(value) for key, value in shape.attrib.items() if key in ("cx", "cy", "x", "y", "width", "height")}
    return (own["cx"], own["cy"]) if "cx" in own else (own["x"] + own["width"] / 2, own["y"] + own["height"] / 2)


def points_in(root):
    """The points of a drawing from left to right."""
    found = []
    for title, shape in root.iter(SPACE + "g"):
        label, _, value = title.text.rpartition(": ")
        x, y = place_in(shape)
        found.append(Point(label.partition(" = ")[0], Fraction(value), "", x - LEFT, BOTTOM - y))
    words = [group.get("class").split()[1:] for group in root.iter(SPACE + "g")]
    return sorted((point._replace(words=own) for point, own in zip(found, words)), key=lambda point: point.x)


def plotted(data):
    """The effects that are to be plotted, by label: those of rows, or of the added factors whose words these are."""
    effects, added = effects_of(data), added_of(data)
    labels = [added.get(row_label(row), row_label(row)) for row in range(1, 2 ** data.plan.k)]
    return {label: effects[label] for label in labels if effects[label] is not None}


def words_of(data, label, value):
    """The words of the class of a point."""
    return ["pooled" if row_of(data, label) in data.marks else "kept", "plus" if value > 0 else "minus" if value else "zero"]


def quantile(part):
    """The half-normal quantile of a part, by halving."""
    low, high = 0.0, 10.0
    for _ in range(60):
        middle = (low + high) / 2
        low, high = (middle, high) if erf(middle / sqrt(2)) < part else (low, middle)
    return low


def stand_right(points):
    """Whether points stand where they belong: the ith of n at the half-normal quantile of (i - 1/2)/n, and each as high as
    it is large."""
    quantiles = [quantile((place + 0.5) / len(points)) for place in range(len(points))]
    wide, most = points[-1].x / quantiles[-1], points[-1]
    high = most.y / float(abs(most.value)) if most.value else 0
    return all(abs(point.x - wide * own) < OFF and abs(point.y - high * float(abs(point.value))) < OFF
               for point, own in zip(points, quantiles))


def line_is_right(root, points):
    """Whether the line through 0 is fitted to the points up to quantile 1; there is none where these are not three, or 0."""
    lines = [own for own in root.iter(SPACE + "line") if own.get("class") == "fitted"]
    wide = points[-1].x / quantile((len(points) - 0.5) / len(points))
    fitted = [point for point in points if point.x <= wide]
    if len(fitted) < 3 or not any(point.value for point in fitted):
        return not lines
    slope = sum(point.x * point.y for point in fitted) / sum(point.x ** 2 for point in fitted)
    [(x, y, to_x, to_y)] = [[float(own.get(key)) for key in ("x1", "y1", "x2", "y2")] for own in lines]
    return (x, y) == (LEFT, BOTTOM) and abs(BOTTOM - to_y - slope * (to_x - LEFT)) < LINE_OFF


def texts_in(root, kind):
    """The texts of a drawing that are of a class."""
    return [own.text for own in root.iter(SPACE + "text") if own.get("class") == kind]


def names_of(data, label):
    """What a label may say: letters, or names."""
    return label, source_of(data, row_of(data, label))


def svg_of(data, labelled, *notes):
    """Whether an output is the plot of data with so many labels, of the largest effects, and notes that have some words."""
    def pairs_of(content):
        """What is found and what is meant."""
        root = ElementTree.fromstring(content)
        points, labels, written = points_in(root), texts_in(root, "label"), " ".join(texts_in(root, "note"))
        largest = [point.label for point in points[len(points) - labelled:]]
        return [(len(points), len(plotted(data))), ({point.label: point.value for point in points}, plotted(data)),
                ([point.words for point in points], [words_of(data, point.label, point.value) for point in points]),
                (points, sorted(points, key=lambda point: abs(point.value))), (len(labels), labelled),
                ([own for own in largest if not set(names_of(data, own)) & set(labels)], []),
                ([words for words in notes if words not in written], []),
                (stand_right(points), True), (line_is_right(root, points), True)]
    return all_equal(pairs_of)
