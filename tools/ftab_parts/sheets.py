# Sheets of lines of cells. The first cell of a line says what the line is:
#
#   levels,2            2 or 3, once
#   factors,3           k, the number of base factors, once
#   added,ABC,0         an added factor: its word, and its sign, 0 or 1
#   block,AC            a block word
#   block,ABC2          the same at three levels, once or not at all: a letter alone has the digit 1, one with a 2 after it
#                       the digit 2; two letters or more, and no 2 after the first of them in the alphabet
#   repeats,2           how often each run is made, 1, 2, 4 or 8, once or not at all; 1 where there is no such line
#   coding,-            how runs write levels, once or not at all: 0 for 0, 1 and 2, as where there is no such line; 1 for
#                       1, 2 and 3; - for - and +, or -1 and 1, at three levels with 0 between them
#   scale,1000          by what each reading is multiplied, once or not at all; readings may have decimals then, and must
#                       come out whole
#   name,A,iterations   the name of a factor, base or added, once or not at all for each
#   run,A,B,C,reading   a header, which is passed over: the letters or names of the base factors, in their order, then no
#                       more words than readings; none of its cells is a number. As often as one likes
#   run,0,1,0,17        a run: the levels of A, B, C and so on, the lowest for low, and the reading; each run once
#   run,0,1,0,17,19     the same with as many readings as repeats
#   error,AB,AC         rows that are pooled as error, one or more
#
# Lines may stand in any order. Added factors and block words stand in the sheet in the order of their lines; the letters of
# a word may stand in any. How cells are parted, and what is passed over, is in cells.py. Neither names nor the scale stand
# in the sheet. A sheet is made also where the rules refuse it; causes.py says why they do. What the rules say of a plan is
# asked of the reference program, reference/rules.
#
# Defined here:
#   Made                    the sheet of lines, the names of factors, the scale, and where in the lines something stands
#   made                    the sheet of lines
#   content_of              the same of a file that has lines or is a sheet
#   sheet_of                the bytes of a file that is a sheet
#   PLAN_CELLS              the first cells of lines that say what the plan is, and how many cells there are then
#   plan_of                 the plan of lines
#   marked_rows, marks_of   the rows that are marked, each with its line; the marks of all rows
#   is_mean                 whether a cell is the label of the mean

import re
from collections import namedtuple

from ftab_parts import files
from ftab_parts.cells import (COMMA, LETTERS, at_most_one, counted, decimal, decimal_parts, lines_of, of_kind, only, quoted,
                              stop, three_digits, whole, with_minus, word)
from ftab_parts.files import Problem
from reference.rules import sheet_bytes
from reference.rules import table as table_rules
from reference.rules import totals as totals_rules
from reference.rules.sheet_bytes import READING_LENGTH
from reference.rules.totals import Plan

# names are by letter, and scale is 1 where no line has it. lines are the numbers of lines, by first cell and place: that of
# a run by its number, of a marked row by its number, of an added factor or block word by its place, of others by 0. A sheet
# that is not made of lines has none.
Made = namedtuple("Made", "sheet names scale lines", defaults=({},))

# The least and the most number of cells; of runs that depends on the factors.
PLAN_CELLS = {"levels": (2, 2), "factors": (2, 2), "added": (3, 3), "block": (2, 2), "repeats": (2, 2)}
ONLY_RUNS = {"coding": (2, 2), "scale": (2, 2), "name": (3, 3)}
CELLS = {**PLAN_CELLS, **ONLY_RUNS, "run": (1, None), "error": (2, None)}

# First cells that are none here, and why.
ELSEWHERE = {
    "sum": "the readings of a run are wanted, and here is their sum, from which they cannot be told",
    "total": "the readings of runs are wanted, and here is a total, which is for recover",
}

MOST_BYTE = 255
MOST_BODY = 65_535
MOST_WORD = 65_535
LEAST_READING, MOST_READING = -2 ** 31, 2 ** 31 - 1
MOST_SCALE = 10 ** 18

# Decimal marks, in words, and each one's other.
MARKS = {",": "a comma", ".": "a point"}
OTHER = {",": ".", ".": ","}

# A cell that is a number, or might have been one, or is a level.
NUMBER = re.compile("[+-]?(?:[0-9.,]+(?:[eE][+-]?[0-9]+)?)?")

# Levels by how they are written, where the coding is signs; and the codings themselves.
SIGNS = {
    2: {"-": 0, "-1": 0, "+": 1, "+1": 1, "1": 1},
    3: {"-": 0, "-1": 0, "0": 1, "+": 2, "+1": 2, "1": 2},
}
WRITTEN = {2: "-+", 3: "-0+"}
CODINGS = {"0": 0, "1": 1, "-": "-", "-1": "-"}


# ---- the plan ----

def size_of(lines):
    """Levels and k. Fields of a sheet hold so many readings and marks, or the lines are not understood."""
    line = only(lines, "factors")
    levels = whole(only(lines, "levels"), only(lines, "levels").cells[1], 0, MOST_BYTE)
    k = whole(line, line.cells[1], 0, MOST_BYTE)
    if READING_LENGTH * totals_rules.run_count(levels, k) > MOST_BODY or table_rules.row_count(k) > MOST_BODY:
        stop(line, "no sheet holds the runs of %d factors at %d levels" % (k, levels))
    return levels, k


def repeats_of(lines, levels, k):
    """Repeats, 1 where no line has them. A field of a sheet holds so many readings, or the lines are not understood."""
    line = at_most_one(lines, "repeats")
    repeats = whole(line, line.cells[1], 0, MOST_BYTE) if line else 1
    if READING_LENGTH * totals_rules.run_count(levels, k) * repeats > MOST_BODY:
        stop(line, "no sheet holds %d readings for each run of %d factors at %d levels" % (repeats, k, levels))
    return repeats


def three_word(line, cell):
    """The block word of a cell at three levels."""
    number = three_digits(line, cell)
    if number > MOST_WORD:
        stop(line, "no sheet holds the word %s at 3 levels" % quoted(cell))
    return number


def sign_of(line, cell):
    """The sign of an added factor; one over 1 is refused with the sheet."""
    if not re.fullmatch("[0-9]{1,3}", cell) or int(cell) > MOST_BYTE:
        stop(line, "%s is no sign; signs are 0 and 1" % quoted(cell))
    return int(cell)


def plan_of(lines):
    """The plan of lines, whether it is accepted or not."""
    levels, k = size_of(lines)
    added = tuple((word(line, line.cells[1]), sign_of(line, line.cells[2]))
                  for line in of_kind(lines, "added"))
    block_word = three_word if levels == 3 else word
    blocks = tuple(block_word(line, line.cells[1]) for line in of_kind(lines, "block"))
    return Plan(levels, k, added, blocks, repeats_of(lines, levels, k))


# ---- names and header ----

def letters_of(plan):
    """The letters of all factors, base and added."""
    return LETTERS[:plan.k + len(plan.added)]


def name_of(line, plan):
    """The letter and the name of a line."""
    letter, name = line.cells[1].upper(), line.cells[2]
    if len(letter) != 1 or letter not in letters_of(plan):
        stop(line, "%s is no factor; there are %s" % (quoted(line.cells[1]), ", ".join(letters_of(plan)) or "none"))
    if not name.isprintable():
        stop(line, "the name of %s has a character that cannot be printed" % letter)
    if name.upper() in letters_of(plan) and name.upper() != letter:
        stop(line, "%s is the letter of a factor and no name of %s" % (quoted(name), letter))
    return letter, name


def names_of(lines, plan):
    """The names of factors, by letter."""
    found = {}
    for line in of_kind(lines, "name"):
        letter, name = name_of(line, plan)
        if letter in found:
            stop(line, "%s has already the name %s" % (letter, quoted(found[letter])))
        if name.lower() in [own.lower() for own in found.values()]:
            stop(line, "the name %s is already that of another factor" % quoted(name))
        found[letter] = name
    return found


def is_header(line):
    """Whether a line that begins with run is a header: it has other cells, and none of them is a number or a sign."""
    return len(line.cells) > 1 and not any(NUMBER.fullmatch(with_minus(cell)) for cell in line.cells[1:])


def wanted_cells(plan):
    """What the cells of a run are, in words."""
    return "run, %s, %s" % (counted(plan.k, "level"), counted(plan.repeats, "reading"))


def check_header(line, plan, names):
    """Stops where a header does not name the base factors in their order, or names others."""
    own = [(letter.lower(), names.get(letter, letter).lower()) for letter in letters_of(plan)]
    cells = [cell.lower() for cell in line.cells[1:]]
    for place, cell in enumerate(cells[:plan.k]):
        if cell not in own[place]:
            letter = LETTERS[place]
            name = " or " + quoted(names[letter]) if letter in names else ""
            stop(line, "the header has %s where %s%s is wanted" % (quoted(line.cells[1 + place]), letter, name))
    if not plan.k <= len(cells) <= plan.k + plan.repeats or any(cell in pair for cell in cells[plan.k:] for pair in own):
        stop(line, "the header does not have the cells of a run: " + wanted_cells(plan))


# ---- runs ----

def coding_of(lines, levels):
    """The coding: the number that is written for the lowest level, or a minus."""
    line = at_most_one(lines, "coding")
    if not line:
        return 0
    cell = with_minus(line.cells[1])
    if cell not in CODINGS:
        stop(line, "%s is no coding: 0, 1 and - are" % quoted(line.cells[1]))
    if CODINGS[cell] == "-" and levels not in SIGNS:
        stop(line, "the coding - is for 2 or 3 levels, and there are %d" % levels)
    return CODINGS[cell]


def level_of(line, cell, levels, coding):
    """The level of a cell."""
    own, number = SIGNS[levels] if coding == "-" else {}, with_minus(cell)
    if number in own:
        return own[number]
    if coding != "-" and re.fullmatch("[+]?[0-9]{1,3}", number) and coding <= int(number) < coding + levels:
        return int(number) - coding
    meant = {2: "- and +", 3: "-, 0 and +"}[levels] if coding == "-" else "%d to %d" % (coding, coding + levels - 1)
    otherwise = "" if coding else ", unless a line coding says otherwise"
    stop(line, "%s is no level; levels are %s%s" % (quoted(cell), meant, otherwise))


def run_of(line, plan, coding):
    """The number of the run of a line."""
    wanted = 1 + plan.k + plan.repeats
    if len(line.cells) != wanted:
        stop(line, "%s, wanted %d: %s" % (counted(len(line.cells), "cell"), wanted, wanted_cells(plan)))
    return sum(level_of(line, cell, plan.levels, coding) * plan.levels ** factor
               for factor, cell in enumerate(line.cells[1:1 + plan.k]))


def scale_of(lines):
    """The scale, None where no line has it."""
    line = at_most_one(lines, "scale")
    return whole(line, line.cells[1], 1, MOST_SCALE) if line else None


def reading_of(line, cell, scale):
    """The reading of a cell. Without a scale a number with decimals is none, and the message tells of scales."""
    if scale is not None:
        return decimal(line, cell, scale, LEAST_READING, MOST_READING)
    parts = decimal_parts(line, cell)
    if parts and re.search("[.,eE]", cell):
        fitting = min(10 ** max(1, -parts[1]), MOST_SCALE)
        stop(line, "%s is no whole number; for decimals there are lines such as scale,%d" % (quoted(cell), fitting))
    if not re.fullmatch("[+-]?[0-9]+", with_minus(cell)):
        stop(line, "%s is no whole number" % quoted(cell))
    return whole(line, cell, LEAST_READING, MOST_READING)


def check_marks(lines, plan):
    """Stops where some readings have decimal commas and others points: a point may be one of thousands then."""
    found = {}
    for line in of_kind(lines, "run"):
        for mark, cell in [(mark, cell) for cell in line.cells[1 + plan.k:] for mark in OTHER
                           if mark in cell and OTHER[mark] not in cell]:
            found.setdefault(mark, (line, cell))
            if len(found) > 1 and line.separator != COMMA and not is_header(line):
                before, own = found[OTHER[mark]]
                stop(line, "%s has %s, and %s in line %d has %s: one of them may part thousands" % (
                    quoted(cell), MARKS[mark], quoted(own), before.number, MARKS[OTHER[mark]]))


def runs_of(lines, plan, names):
    """For each run, by its number, its line and its readings."""
    coding, scale = coding_of(lines, plan.levels), scale_of(lines)
    check_marks(lines, plan)
    found = {}
    for line in of_kind(lines, "run"):
        if is_header(line):
            check_header(line, plan, names)
            continue
        run = run_of(line, plan, coding)
        if run in found:
            stop(line, "the run is already in line %d" % found[run][0].number)
        found[run] = line, [reading_of(line, cell, scale) for cell in line.cells[1 + plan.k:]]
    return found


def missing_run(plan, runs, coding):
    """Stops where runs have no line, and names the first as lines write it."""
    missing = [run for run in range(totals_rules.run_count(plan.levels, plan.k)) if run not in runs]
    if missing:
        digits = totals_rules.digits(plan.levels, plan.k, missing[0])
        texts = [WRITTEN[plan.levels][digit] if coding == "-" else str(coding + digit) for digit in digits]
        others = "; %d runs have none" % len(missing) if len(missing) > 1 else ""
        raise Problem("there is no line for the run %s%s" % (",".join(texts), others))


# ---- marks ----

def is_mean(cell):
    """Whether a cell is the label of the mean."""
    return cell.lower() == table_rules.MEAN


def no_row(cell, row, plan):
    """That a cell is no row, in words; where it has letters of added factors, in which row what they stand for is."""
    words = "%s is no row, for there are %d factors" % (quoted(cell), plan.k)
    if plan.levels != 2 or row >> len(letters_of(plan)):
        return words
    base, _ = totals_rules.alias(plan, row)
    return words + "; with the words of added factors it is in the row " + table_rules.row_label(base)


def marked_rows(lines, plan):
    """The rows that are pooled as error, each with its line."""
    found = {}
    for line, cell in [(line, cell) for line in of_kind(lines, "error") for cell in line.cells[1:]]:
        row = 0 if is_mean(cell) else word(line, cell)
        if row >= table_rules.row_count(plan.k):
            stop(line, no_row(cell, row, plan))
        if row in found:
            stop(line, "the row %s is already in line %d" % (table_rules.row_label(row), found[row].number))
        found[row] = line
    return found


def marks_of(marked, plan):
    """The marks of all rows, by those that are marked."""
    return [int(row in marked) for row in range(table_rules.row_count(plan.k))]


# ---- the sheet ----

def numbers_of(lines, runs, marked):
    """The numbers of the lines by first cell and place."""
    found = {(line.cells[0], 0): line.number for line in lines if line.cells[0] in ("levels", "factors", "repeats")}
    for kind in ("added", "block"):
        found.update({(kind, place): line.number for place, line in enumerate(of_kind(lines, kind))})
    found.update({("run", run): line.number for run, (line, _) in runs.items()})
    found.update({("error", row): line.number for row, line in marked.items()})
    return found


def made(text):
    """The sheet of lines. Raises Problem where they make none."""
    lines = lines_of(text, CELLS, ELSEWHERE)
    plan = plan_of(lines)
    names, scale = names_of(lines, plan), scale_of(lines) or 1
    runs = runs_of(lines, plan, names)
    missing_run(plan, runs, coding_of(lines, plan.levels))
    marked = marked_rows(lines, plan)
    readings = [reading for run in sorted(runs) for reading in runs[run][1]]
    sheet = sheet_bytes.write(plan, readings, marks_of(marked, plan))
    return Made(sheet, names, scale, numbers_of(lines, runs, marked))


# ---- files of either kind ----

def begins_as_sheet(content):
    """Whether some bytes begin as a sheet does, with the tag of the plan; no text does."""
    return content[:1] == bytes([sheet_bytes.PLAN])


def content_of(path):
    """What is made of a file of lines; of a file that is a sheet its bytes, without names and scale."""
    content = files.read_bytes(path)
    return Made(content, {}, 1) if begins_as_sheet(content) else made(files.text_of(content))


def has_lines(content):
    """Whether some bytes are lines of cells, in which something may be wrong."""
    try:
        lines_of(files.text_of(content), CELLS, ELSEWHERE)
    except Problem:
        return False
    return True


def sheet_of(path):
    """The bytes of a file that is a sheet, whether it is accepted or not, and no file of lines."""
    content = files.read_bytes(path)
    if not begins_as_sheet(content) and has_lines(content):
        raise Problem("it has lines of cells, and a sheet is wanted, which `ftab make` makes of them")
    return content
