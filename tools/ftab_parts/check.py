# The part `check` of the command, for an author or a referee: whether a printed table belongs to a sheet. What the table
# must be is made by the reference program, which is written apart from the proved one; factab and the kit are not needed.
#
# Lines are compared by their first words, so that one that is missing or too many does not make all after it differ. Windows
# line ends and blank lines at the end of the table are passed over.
#
# Defined here:
#   differences    how a printed table differs from what is meant, line by line
#   add, run       the arguments of the part, and the part

from difflib import SequenceMatcher
from itertools import zip_longest

from ftab_parts import files, sheets
from ftab_parts.factab import TITLE
from reference.rules import text as text_rules

# The first words of a table, and of what is printed of a sheet that is refused.
OVER, REFUSED = "over", "refused"

# So much of a line is told.
MOST_TOLD = 100

ABOUT = """Tells whether a printed table belongs to a sheet. TABLE is what factab printed,
SHEET a sheet or the lines of cells of which it is made. Of a sheet that is
refused the table is the line of its refusal.

What the table should be is made by the reference program, which is written apart
from factab and is not proved; factab itself is not needed."""

ENDING = """Exit status: 0 the table belongs to the sheet; 1 it does not, and each line that
differs is named, or a file is not understood; 2 wrong usage."""


def first_word(line):
    """The first word of a line, which is its label."""
    return line.partition(" ")[0]


def told(line):
    """A line as a message has it."""
    return "'%s'" % (line if len(line) <= MOST_TOLD else line[:MOST_TOLD] + " ..")


def line_difference(number, own, meant):
    """How a line with a number differs from what is meant, in a list that is empty if it does not; None is no line."""
    if own is None:
        return ["after line %d: %s is missing" % (number - 1, told(meant))]
    if meant is None:
        return ["line %d: %s is one too many" % (number, told(own))]
    return [] if own == meant else ["line %d: %s should be %s" % (number, told(own), told(meant))]


def differences(own, meant):
    """How the lines of a printed table differ from what is meant."""
    if first_word(own[0]) != first_word(meant[0]):
        return line_difference(1, own[0], meant[0])
    found = []
    matcher = SequenceMatcher(None, [first_word(line) for line in own], [first_word(line) for line in meant])
    for _, start, end, meant_start, meant_end in matcher.get_opcodes():
        pairs = zip_longest(own[start:end], meant[meant_start:meant_end])
        for place, (line, other) in enumerate(pairs, start + 1):
            found += line_difference(min(place, end + 1), line, other)
    return found


def printed(path):
    """The lines of a printed table, without blank ones at the end."""
    lines = files.read_text(path).split("\n")
    while len(lines) > 1 and not lines[-1].strip():
        lines.pop()
    if first_word(lines[0]) not in (OVER, REFUSED):
        shown = "; it is a table that ftab show wrote" if lines[0].startswith(TITLE) else ""
        raise files.Problem("line 1: %s is the first line of no table that factab prints%s" % (told(lines[0]), shown))
    return lines


def lines_of(path):
    """The lines that belong to a file: a sheet, which one with that ending is whatever it holds, or lines that make one."""
    sheet = files.read_bytes(path) if path.endswith(".sheet") else sheets.content_of(path).sheet
    return text_rules.text(sheet).decode().splitlines()


def add(parser):
    """The arguments of the part."""
    parser.description, parser.epilog = ABOUT, ENDING
    parser.add_argument("table", metavar="TABLE", help="a printed table; - is standard input")
    parser.add_argument("sheet", metavar="SHEET", help="a .sheet or a .csv; - is standard input")


def compare(table, own, sheet, meant):
    """Says that a table belongs to a sheet, or each line that differs; the exit status."""
    found = differences(own, meant)
    for words in found:
        files.tell("ftab: %s: %s" % (table, words))
    if found:
        files.tell("ftab: %s: it does not belong to %s; %s" % (table, sheet, counted(len(found))))
        return 1
    files.put(("%s belongs to %s\n" % (table, sheet)).encode("utf-8", "surrogateescape"))
    return 0


def counted(count):
    """How many lines differ, in words."""
    return "1 line differs" if count == 1 else "%d lines differ" % count


def run(arguments):
    """Compares the table with the sheet; the exit status."""
    table, sheet = arguments.table, arguments.sheet
    if table == sheet:
        raise files.Usage("TABLE and SHEET are one file")
    own, meant = [], []
    wrong = files.each([table], lambda path: own.extend(printed(path)))
    wrong |= files.each([sheet], lambda path: meant.extend(lines_of(path)))
    return wrong or compare(files.name_of(table), own, files.name_of(sheet), meant)
