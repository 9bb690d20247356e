# Lines of cells, such as a spreadsheet saves them, and the numbers and words of letters in a cell.
#
# Cells are parted by commas, semicolons or tabs: by the one that stands after the first cell of the first line whose first
# cell is known. A cell may be in quotes, and then has two where it means one. It may begin with blanks and end with them. A
# cell that begins with # and all after it in the line is passed over, and so are blank lines, blank cells at the end of a
# line, and the line sep=; with which some spreadsheets begin. The first cell of a line says what the line is, in small
# letters or capitals. A cell ends where its line does.
#
# Where cells are parted by semicolons or tabs, a comma in a number with decimals is its point.
#
# Defined here:
#   LETTERS                    the letters of factors
#   Line                       a line of cells: its number, the cells, and what parts them
#   quoted                     a cell in a message
#   stop                       ends with a message that names the line
#   counted                    so many of a name, in words
#   lines_of                   the lines of a text
#   of_kind, at_most_one, only the lines with a first cell; the one that there may be, or must be
#   with_minus                 a cell with the minus of a keyboard
#   whole                      the whole number of a cell
#   decimal_parts, decimal     the digits and the power of ten of a decimal number; the same number times a scale
#   word, three_digits         the word of a cell, by its letters, at two levels and at three

import re
from collections import namedtuple

from ftab_parts.files import Problem

LETTERS = "ABCDEFGHIJKLMNOP"
MOST_SHOWN = 60

# number counts from 1; the first of the cells is in small letters.
Line = namedtuple("Line", "number cells separator")

COMMA = ","
SEPARATORS = {",": "commas", ";": "semicolons", "\t": "tabs"}
FIRST_CELL = re.compile(' *"?([A-Za-z]+)"? *([,;\t])')

# A line by which a spreadsheet says what parts its cells.
SEPARATOR_LINE = re.compile('"?sep=[,;\t]"? *')

# A cell in quotes or without, and what parts it from the next.
CELLS = {own: re.compile('(?: *"((?:[^"]|"")*)" *|([^%s]*))(%s|$)' % (own, own)) for own in SEPARATORS}

# Sign, digits before the point, digits after it, and the power of ten. Cells with more digits are no numbers here.
DECIMAL = re.compile("([+-]?)([0-9]{0,40})(?:[.]([0-9]{0,40}))?(?:[eE]([+-]?[0-9]{1,3}))?")


def quoted(cell):
    """A cell in a message: in quotes, not all where it is long, and without what a terminal would take for an order."""
    shown = "".join(letter if letter.isprintable() else "?" for letter in cell[:MOST_SHOWN])
    return "'%s%s'" % (shown, "..." * (len(cell) > MOST_SHOWN))


def stop(line, why):
    """Ends with a message that names the line."""
    raise Problem("line %d: %s" % (line.number, why))


def counted(count, name):
    """So many of a name, in words."""
    return "%d %s%s" % (count, name, "s" * (count != 1))


# ---- lines ----

def separator_of(text, kinds):
    """What parts the cells of a text, by the first line whose first cell is one of some kinds."""
    found = (FIRST_CELL.match(line) for line in text.split("\n"))
    return next((own[2] for own in found if own and own[1].lower() in kinds), COMMA)


def cells_of(number, text, separator):
    """The cells of a line up to one that begins with #, without the blank ones at the end."""
    cells, at, more = [], 0, True
    while more:
        found = CELLS[separator].match(text, at)
        quoted, plain, more = found.groups()
        cell = (quoted.replace('""', '"') if plain is None else plain).strip()
        if cell.startswith("#"):
            break
        if plain is not None and cell.startswith('"'):
            raise Problem("line %d: a cell begins with a quote and does not end with one" % number)
        cells.append(cell)
        at = found.end()
    last = max((place for place, cell in enumerate(cells) if cell), default=-1)
    return cells[:last + 1]


def unknown(cell, separator, kinds):
    """That a first cell is none of some kinds, in words; where its line looks parted in another way, that too."""
    if not cell:
        return "the first cell is blank, and not one of %s" % ", ".join(kinds)
    parted = "; cells are parted by %s here" % SEPARATORS[separator] if FIRST_CELL.match(cell) else ""
    return "%s is none of %s%s" % (quoted(cell), ", ".join(kinds), parted)


def line_of(number, cells, separator, counts, elsewhere):
    """A line by its cells, if its first cell is known and there are as many as there must be."""
    line = Line(number, [cells[0].lower()] + cells[1:], separator)
    kind = line.cells[0]
    if kind not in counts:
        stop(line, elsewhere.get(kind) or unknown(cells[0], separator, counts))
    least, most = counts[kind]
    if not least <= len(cells) <= (most or len(cells)):
        stop(line, "%s, wanted %d%s" % (counted(len(cells), "cell"), least, "" if most == least else " or more"))
    return line


def lines_of(text, counts, elsewhere):
    """The lines of a text that are not passed over. `counts` has the first cells that there may be, and for each the least
    and the most number of cells, None for any; `elsewhere` has why other first cells are none here."""
    separator = separator_of(text, [*counts, *elsewhere])
    numbered = [(number, cells_of(number, own, separator)) for number, own in enumerate(text.split("\n"), 1)
                if not SEPARATOR_LINE.fullmatch(own)]
    lines = [line_of(number, cells, separator, counts, elsewhere) for number, cells in numbered if cells]
    if not lines:
        raise Problem("there is no line in it")
    return lines


def of_kind(lines, kind):
    """The lines with a first cell."""
    return [line for line in lines if line.cells[0] == kind]


def at_most_one(lines, kind):
    """The one line with a first cell, None if there is none."""
    found = of_kind(lines, kind)
    if len(found) > 1:
        stop(found[1], "%s is already in line %d" % (kind, found[0].number))
    return found[0] if found else None


def only(lines, kind):
    """The one line with a first cell."""
    found = at_most_one(lines, kind)
    if not found:
        raise Problem("there is no line that begins with %s" % kind)
    return found


# ---- numbers ----

def with_minus(cell):
    """A cell with the minus of a keyboard in the place of the printer's."""
    return cell.replace("\u2212", "-")


def whole(line, cell, least, most):
    """The whole number of a cell."""
    number = with_minus(cell)
    if not re.fullmatch("[+-]?[0-9]{1,19}", number) or not least <= int(number) <= most:
        stop(line, "%s is no whole number from %d to %d" % (quoted(cell), least, most))
    return int(number)


def decimal_parts(line, cell):
    """The digits of a decimal number as a whole one, and the power of ten that it is to be multiplied by; None of others."""
    number = with_minus(cell)
    if line.separator != COMMA and "." not in number:
        number = number.replace(",", ".", 1)
    found = DECIMAL.fullmatch(number)
    if not found or not (found[2] or found[3]):
        return None
    return int(found[1] + found[2] + (found[3] or "")), int(found[4] or 0) - len(found[3] or "")


def decimal(line, cell, scale, least, most):
    """The decimal number of a cell times a scale, which must make it whole."""
    parts = decimal_parts(line, cell)
    if parts is None:
        stop(line, "%s is no number" % quoted(cell))
    digits, power = parts
    number, rest = divmod(digits * scale * 10 ** max(0, power), 10 ** max(0, -power))
    if rest:
        stop(line, "%s times the scale %d is not whole" % (quoted(cell), scale))
    if not least <= number <= most:
        stop(line, "%s times the scale %d is no whole number from %d to %d" % (quoted(cell), scale, least, most))
    return number


# ---- words ----

def word(line, cell):
    """The word of a cell: a set of letters, bit 0 for A."""
    letters = cell.upper()
    if not re.fullmatch("[A-Pa-p]+", cell) or len(set(letters)) < len(letters):
        stop(line, "%s is not made of different letters from A to P" % quoted(cell))
    return sum(1 << LETTERS.index(letter) for letter in letters)


def three_digits(line, cell):
    """The number of a cell at three levels: a letter's digit is 1, or 2 where a 2 follows it."""
    found = re.findall("([A-P])(2?)", cell.upper())
    letters = [letter for letter, _ in found]
    if not re.fullmatch("(?:[A-Pa-p]2?)+", cell) or len(set(letters)) < len(letters):
        stop(line, "%s is not made of different letters from A to P, each alone or with a 2 after it" % quoted(cell))
    return sum((2 if two else 1) * 3 ** LETTERS.index(letter) for letter, two in found)
