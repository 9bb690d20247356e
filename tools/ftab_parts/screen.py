# The part screen of the command ftab: what the program screentab will answer to sheets, and why.
#
# Defined here:
#   add, run            its arguments, and what it does
#   SCREENING_CAUSES    what the numbers say that are of screentab alone
#   meeting_texts       what meets in a plan, in words
#   screening_causes    why screentab refuses a sheet, in words
#   screened            what screentab will answer, and why, as a line

from ftab_parts import files, sheets
from ftab_parts.causes import causes, some_of
from ftab_parts.cells import LETTERS
from ftab_parts.files import Problem
from reference.rules import screening as screening_rules
from reference.rules import sheet_bytes
from reference.rules import text as text_rules
from reference.rules.table import row_label

ABOUT = """Says of sheets whether the program screentab will print the table; if not, with
which number it will refuse the sheet, and why. It makes tables of two-level
plans alone in which no main effect meets an interaction of two factors, and none
is pooled as error. The answer is by the reference program, which is not proved."""

STATUS = """Exit status: 0 the table will be printed; 1 a sheet will be refused or cannot be
read; 2 wrong usage."""

PRINTS = "screentab will print the table"
ANSWERS = "screentab will answer: refused %d (%s)"

# By number, of a sheet that factab makes a table of.
SCREENING_CAUSES = {
    21: "a main effect and an interaction of two factors have one base word",
    9: "the screening profile is for two-level plans",
    13: "the row of a main effect is marked as error",
}


def add(parser):
    """Adds its arguments to a parser."""
    parser.description, parser.epilog = ABOUT, STATUS
    parser.add_argument("files", nargs="+", metavar="FILE.sheet", help="a sheet, - for standard input")


def meeting_texts(plan):
    """What meets in an accepted plan, by letters; not all where that is much."""
    return some_of(["%s meets %s" % (LETTERS[main], LETTERS[first] + LETTERS[second])
                    for main, first, second in screening_rules.meetings(plan)])


def marked_texts(plan, marks):
    """The rows of main effects of an accepted two-level plan that are marked, those of added factors with their letters."""
    names = [row_label(row) for row in screening_rules.main_rows(plan)]
    names[plan.k:] = ["%s, that of %s," % (name, letter) for name, letter in zip(names[plan.k:], LETTERS[plan.k:])]
    return some_of(["row %s has mark 1" % names[factor] for factor in screening_rules.marked_mains(plan, marks)])


def screening_causes(own_sheet):
    """Why screentab refuses a sheet, in words; nothing for a sheet of which it prints the table."""
    if text_rules.answer(own_sheet):
        return causes(own_sheet)
    refused = screening_rules.answer(own_sheet)
    plan, _, marks = sheet_bytes.contents_of(sheet_bytes.fields_of(own_sheet))
    found = {21: lambda: meeting_texts(plan), 13: lambda: marked_texts(plan, marks)}.get(refused, lambda: [])()
    return [SCREENING_CAUSES[refused]] + found if refused else []


def screened(own_sheet):
    """The line that says what screentab will answer to a sheet: the number and why, or that it prints the table."""
    found = screening_causes(own_sheet)
    return ANSWERS % (screening_rules.answer(own_sheet), "; ".join(found)) if found else PRINTS


def screen(path, name):
    """Says that screentab will print the table of a sheet, after the name of its file; raises Problem where it will not."""
    told = screened(sheets.sheet_of(path))
    if told != PRINTS:
        raise Problem(told)
    files.put(("%s%s\n" % (name, told)).encode("utf-8", "surrogateescape"))


def run(arguments):
    """Says it of all files, of several each with its name; the exit status."""
    several = len(arguments.files) > 1
    return files.each(arguments.files, lambda path: screen(path, "%s: " % files.name_of(path) if several else ""))
