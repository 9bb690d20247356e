# The part make of the command ftab: sheets of lines of cells. Of a sheet that the rules refuse a message says why, and it is
# written only where that is asked for.
#
# Defined here:
#   add, run      its arguments, and what it does
#   make          makes the sheet of a file
#   warnings      what is told of a sheet that is made

from ftab_parts import causes, files, sheets
from ftab_parts.files import Problem
from reference.rules.table import row_label

ABOUT = """Makes sheets of lines of cells, such as a spreadsheet saves them: FILE.sheet of
FILE.csv, beside it. Of standard input the sheet goes to standard output. A
warning names main effects that are pooled as error. Whether a sheet is refused
is asked of the reference program, which is not proved; factab has the last word."""

LINES = """The first cell of a line says what the line is:
  levels,2           levels of each factor, 2 or 3
  factors,3          the number of base factors: A, B, C
  added,ABC,0        an added factor, here D: its word, and its sign, 0 or 1
  block,AC           a block word; at three levels such as ABC2
  repeats,2          how often each run is made; without this line once
  name,A,iterations  the name of a factor, for messages and tables
  coding,-           runs write levels as - and +, with coding,1 as 1, 2 and 3,
                     without this line as 0, 1 and 2
  scale,1000         readings have decimals; times this they must be whole
  run,A,B,C,reading  a header, which is passed over
  run,0,1,0,17       a run: the levels of A, B and C, then its readings
  error,AB,AC        rows that are pooled as error
Cells are parted by commas, semicolons or tabs. A cell that begins with # and
all after it in the line is passed over. docs/USING.md has more on the lines.

Exit status: 0 done; 1 a file is not understood, or its sheet is refused; 2 wrong
usage. The other files are made all the same."""


def add(parser):
    """Adds its arguments to a parser."""
    parser.description, parser.epilog = ABOUT, LINES
    parser.add_argument("files", nargs="+", metavar="FILE", help="a file of lines, - for standard input")
    files.add_places(parser, "the sheet")
    parser.add_argument("--anyway", action="store_true", help="write a sheet also where it is refused; the exit status is 1 "
                        "all the same")


def warnings(own):
    """What is told of a sheet that is made and accepted: main effects that are pooled as error."""
    named = [(row_label(row), letter, own.names.get(letter)) for row, letter in causes.pooled_mains(own.sheet)]
    return ["row %s is the main effect of %s, which is pooled as error" % (
        row, "%s (%s)" % (letter, name) if name else letter) for row, letter, name in named]


def make(path, place, anyway):
    """Makes the sheet of a file and writes it to a place; where it is refused, only anyway."""
    own = sheets.made(files.read_text(path))
    refusal = causes.refusal(own.sheet, own.lines)
    if anyway or not refusal:
        files.put_at(place, own.sheet)
    if refusal:
        raise Problem(refusal)
    for words in warnings(own):
        files.warn(path, words)


def run(arguments):
    """Makes the sheets of all files; the exit status."""
    places = files.places(arguments, ".sheet", files.BESIDE)
    return files.each(arguments.files, lambda path: make(path, places[path], arguments.anyway))
