# The program factab as the parts of the command use it: it is run on the bytes of a sheet, and the text that it prints is
# read as a table. That text is proved; what the command makes of it is not.
#
# The program is that of the repository, crates/factab/out/factab, or beside an installed command that of its folder bin;
# FACTAB in the environment names another. It is started once for a sheet and ends by itself.
#
# Defined here:
#   TITLE            how a table of `ftab show` begins
#   plain            a text that can be printed, as what a program writes or a file is called may not be
#   program          the path of the program
#   text_of          what the program prints for a sheet
#   Row, Table       a row of a printed table, and the table
#   rows_of          the table of a text
#   table_of         text and table of a sheet; where the sheet is refused a Problem with number and cause

import os
import re
import subprocess
from collections import namedtuple
from os.path import abspath, basename, dirname, join

from ftab_parts import causes
from ftab_parts.files import Problem

# The folder that holds ftab_parts: tools/ of the repository, or lib/lithgorn below the place of an installation.
HOME = dirname(dirname(abspath(__file__)))

# The kinds of rows, as reference/rules/table.py has them; the text has a word for the last two alone.
MEAN, KEPT, BLOCKS, ERROR = "mean", "kept", "blocks", "error"

# How a table begins that `ftab show` writes; no text of factab does.
TITLE = "Analysis of variance: "

# The first word of the line of all squares; those of blocks and error are the kinds.
TOTAL = "total"

# label and kind are texts, degrees and numerator whole numbers. blocks, error and total of a table are such rows too, their
# label the first word of their line and their kind empty. over is the common denominator, checks are the two numbers.
Row = namedtuple("Row", "label degrees numerator kind")
Table = namedtuple("Table", "over rows blocks error total checks")

ROW = re.compile("(mean|[A-J]+) ([0-9]+) ([0-9]+)(?: (blocks|error))?")
SUM = re.compile("(blocks|error|total) ([0-9]+) ([0-9]+)")
OVER = re.compile("over ([1-9][0-9]*)")
CHECK = re.compile("check (-?[0-9]+) (-?[0-9]+)")

# The lines of a table that are no rows: one before them, four after them.
OTHERS = 5


# ---- the program ----

def plain(text):
    """A text with a ? for each line end and all else that cannot be printed."""
    return "".join(letter if letter.isprintable() else "?" for letter in text)


def program():
    """The path of the program."""
    above = dirname(HOME)
    built = join(above, "crates", "factab", "out") if basename(HOME) == "tools" else join(dirname(above), "bin")
    return os.environ.get("FACTAB") or join(built, "factab")


def text_of(sheet):
    """What the program prints for a sheet."""
    path = program()
    try:
        found = subprocess.run([path], input=sheet, stdout=subprocess.PIPE, stderr=subprocess.PIPE)
    except OSError as why:
        raise Problem("the program %s cannot be started (%s); 'rt run' in crates/factab builds it, FACTAB names another" % (
            path, why.strerror))
    if found.returncode or found.stderr:
        said = plain(found.stderr.decode(errors="replace").strip().split("\n")[-1])
        raise Problem("the program %s fails: %s" % (path, said or "exit status %d" % found.returncode))
    return found.stdout.decode("ascii", errors="replace")


# ---- its text ----

def fields(form, line):
    """The fields of a line that has a form."""
    match = form.fullmatch(line)
    if not match:
        raise Problem("the program %s prints no table: a line is '%s'" % (program(), plain(line[:60])))
    return match.groups()


def row_of(line):
    """The row of a line."""
    label, degrees, numerator, kind = fields(ROW, line)
    return Row(label, int(degrees), int(numerator), kind or (MEAN if label == MEAN else KEPT))


def sum_of(name, line):
    """The line of blocks, error or total, as a row."""
    label, degrees, numerator = fields(SUM, line)
    if label != name:
        raise Problem("the program %s prints no table: '%s' stands where %s should" % (program(), line[:60], name))
    return Row(label, int(degrees), int(numerator), "")


def rows_of(text):
    """The table of a text."""
    lines = text.split("\n")
    if len(lines) < 1 + OTHERS + 1 or lines.pop() != "":
        raise Problem("the program %s prints no table, or a part of one" % program())
    [over], checks = fields(OVER, lines[0]), fields(CHECK, lines[-1])
    blocks, error, total = (sum_of(name, line) for name, line in zip((BLOCKS, ERROR, TOTAL), lines[-4:-1]))
    return Table(int(over), [row_of(line) for line in lines[1:-4]], blocks, error, total, tuple(map(int, checks)))


def table_of(made):
    """Text and table of a sheet that is made; where it is refused a Problem with number and cause."""
    text = text_of(made.sheet)
    if text.startswith("refused "):
        refusal = causes.refusal(made.sheet, made.lines)
        if refusal.split(" (")[0] != text.rstrip("\n"):
            raise Problem("the program %s prints '%s', and by the reference program it is '%s'" % (
                program(), plain(text[:60].rstrip("\n")), refusal.split(" (")[0] or "a table"))
        raise Problem(refusal)
    return text, rows_of(text)
