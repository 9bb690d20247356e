# The part list of the command ftab: the lines of sheets, which make the same sheets again. In comments they have the plan in
# words: what each added factor is, in the signs that the trade prints, where +1 is high; what rows hold besides their own
# effect; the runs of each block, and what is lost to blocks; the names of runs, and what meets. Of a sheet that is refused
# there are number and cause, and what can be read.
#
# All of this is asked of the reference program, reference/rules.
#
# Defined here:
#   add, run             its arguments, and what it does
#   block_text           the letters of a block word
#   alias_lines          what rows hold besides their own effect
#   accepted_lines       the lines of a sheet that is accepted, which the part recover writes too
#   listing              the lines of a sheet
#   written              lines as a text

import struct
from itertools import combinations

from ftab_parts import files, sheets
from ftab_parts.causes import causes, main_letters, refusal, whole_fields
from ftab_parts.cells import LETTERS, counted
from ftab_parts.files import Problem
from ftab_parts.screen import meeting_texts
from reference.rules import sheet_bytes
from reference.rules import table as table_rules
from reference.rules import text as text_rules
from reference.rules import totals as totals_rules
from reference.rules.sheet_bytes import ADDED, BLOCK, BODY_LENGTHS, MARKS, PLAN, READING_LENGTH, READINGS, REPEATS
from reference.rules.table import row_label

ABOUT = """Writes the lines of sheets, of which `ftab make` makes the same sheets again. In
comments they have the plan in words: added factors as generators, with +1 for
high; aliases of main effects and of interactions of two factors, high minus low;
blocks with their runs, and what is lost to blocks. The words are by the
reference program, which is not proved."""

STATUS = """Exit status: 0 done; 1 a sheet is refused or cannot be read; 2 wrong usage. Of a
sheet that is refused the lines have the cause, and what can be read."""

# The first cells of runs, and of the sums of their readings.
RUN, SUM = "run", "sum"

TO_A_LINE = 16


def add(parser):
    """Adds its arguments to a parser."""
    parser.description, parser.epilog = ABOUT, STATUS
    parser.add_argument("files", nargs="+", metavar="FILE.sheet", help="a sheet, - for standard input")


# ---- words ----

def passed_over(what, values):
    """Values as lines that are passed over, sixteen to a line."""
    texts = [str(value) for value in values]
    rows = [" ".join(texts[at:at + TO_A_LINE]) for at in range(0, len(texts), TO_A_LINE)]
    return ["# %s: %s" % (what, row) if at == 0 else "#   " + row for at, row in enumerate(rows or ["none"])]


def word_text(own_word):
    """The letters of a word."""
    return row_label(own_word) if own_word else "(empty)"


def block_text(levels, own_word):
    """The letters of a block word, at three levels with a 2 after those whose digit is 2, letters beyond k too."""
    if levels != 3 or not own_word:
        return word_text(own_word)
    digits = totals_rules.digits(3, len(LETTERS), own_word)
    return "".join(letter + "2" * (digit == 2) for letter, digit in zip(LETTERS, digits) if digit)


# ---- the plan in words ----

def added_line(plan, place):
    """The line of an added factor of an accepted plan, with the generator that it is."""
    (own_word, sign), letter = plan.added[place], LETTERS[plan.k + place]
    _, turned = totals_rules.alias(plan, 1 << plan.k + place)
    return "added,%s,%d,# %s = %s%s: %s is high when an %s number of these are" % (
        row_label(own_word), sign, letter, "-" if turned else "+", row_label(own_word), letter, ("odd", "even")[sign])


def small_effects(plan):
    """The main effects and the interactions of two factors, all factors taken."""
    letters = [1 << place for place in range(plan.k + len(plan.added))]
    return letters + [first | second for first, second in combinations(letters, 2)]


def alias_lines(plan):
    """For each row the main effects and interactions of two factors that it holds besides its own effect; a minus where they
    have the other sign, high minus low."""
    if not plan.added:
        return []
    found, lost = {}, totals_rules.confounded(plan)
    for effect in small_effects(plan):
        base, turned = totals_rules.alias(plan, effect)
        if base != effect:
            found.setdefault(base, []).append("-" * turned + row_label(effect))
    lines = ["# %s = %s%s" % (row_label(base), " = ".join(others), ", lost to blocks" if base in lost else "")
             for base, others in sorted(found.items())]
    return ["# aliases, high minus low, of main effects and of interactions of two factors:"] + lines


def run_name(plan, run):
    """The name of a run: at two levels the letters that are high, (1) for none; at three its levels."""
    if plan.levels == 3:
        return "".join(str(digit) for digit in totals_rules.digits(3, plan.k, run))
    high, _ = totals_rules.treatment(plan, run)
    return row_label(high).lower() if high else "(1)"


def lost_rows(plan):
    """What is lost to blocks, in words: rows, or at three levels two degrees of a row."""
    if plan.levels == 3:
        return ["2 degrees of", row_label(table_rules.word_row(plan))]
    return [row_label(row) for row in sorted(totals_rules.confounded(plan))]


def block_lines(plan):
    """The block words of an accepted plan, what is lost to blocks, and the runs of each block."""
    if not plan.blocks:
        return []
    lines = ["block," + block_text(plan.levels, own_word) for own_word in plan.blocks]
    lines += passed_over("lost to blocks", lost_rows(plan))
    runs = {}
    for run in range(totals_rules.run_count(plan.levels, plan.k)):
        runs.setdefault(totals_rules.block_of(plan, run), []).append(run_name(plan, run))
    return lines + [line for block, names in sorted(runs.items()) for line in passed_over("block %d" % block, names)]


def screening_lines(plan):
    """What meets in an accepted plan, if anything does."""
    met = meeting_texts(plan)
    return ["# no screening plan: " + ", ".join(met)] if met else []


# ---- the lines of an accepted sheet ----

def run_line(plan, kind, run, own):
    """The line of a run, with its name at two levels, and its block if there are blocks."""
    words = [run_name(plan, run)] if plan.levels == 2 else []
    words += ["block %d" % totals_rules.block_of(plan, run)] if plan.blocks else []
    cells = [kind, *totals_rules.digits(plan.levels, plan.k, run), *own] + (["# " + " in ".join(words)] if words else [])
    return ",".join(map(str, cells))


def error_lines(plan, marks):
    """The lines of the rows that are pooled as error; those that are main effects say so."""
    mains = main_letters(plan)
    return ["error,%s%s" % (row_label(row), ",# the main effect of %s" % mains[row] if row in mains else "")
            for row, mark in enumerate(marks) if mark]


def accepted_lines(plan, kind, runs, marks):
    """The lines of an accepted sheet: for each run its readings, or by their kind the sum of them alone."""
    lines = ["# %s, %s" % (counted(len(runs), "run"), counted(len(marks), "row"))]
    lines += ["levels,%d" % plan.levels, "factors,%d" % plan.k]
    lines += [added_line(plan, place) for place in range(len(plan.added))]
    lines += alias_lines(plan) + screening_lines(plan) + block_lines(plan)
    lines += ["repeats,%d" % plan.repeats] if plan.repeats > 1 else []
    what = "reading" if plan.repeats == 1 else "%d readings" % plan.repeats
    lines += passed_over("after %s the levels of these, then the %s" % (kind, what if kind == RUN else "sum of " + what),
                         LETTERS[:plan.k])
    return lines + [run_line(plan, kind, run, own) for run, own in enumerate(runs)] + error_lines(plan, marks)


# ---- the lines of a refused sheet ----

def field_lines(levels, tag, body):
    """A field of a sheet that is refused, as lines that are passed over: what it holds, or its bytes."""
    if tag == PLAN and len(body) == BODY_LENGTHS[PLAN]:
        return passed_over("levels and factors", body)
    if tag == ADDED and len(body) == BODY_LENGTHS[ADDED]:
        return passed_over("added factor, word and sign", [word_text(sheet_bytes.number_of(body[:2])), body[2]])
    if tag == BLOCK and len(body) == BODY_LENGTHS[BLOCK]:
        return passed_over("block word", [block_text(levels, sheet_bytes.number_of(body))])
    if tag == REPEATS and len(body) == BODY_LENGTHS[REPEATS]:
        return passed_over("repeats", body)
    if tag == READINGS and len(body) % READING_LENGTH == 0:
        count = len(body) // READING_LENGTH
        return passed_over("%d readings" % count, struct.unpack(">%di" % count, body))
    if tag == MARKS:
        return passed_over("%d marks" % len(body), body)
    return passed_over("%d bytes of a field %d" % (len(body), tag), body)


def refused_lines(refused, own_sheet):
    """The lines of a sheet that is refused: number and causes, and what can be read."""
    fields, rest = whole_fields(own_sheet)
    levels = next((body[0] for tag, body in fields if tag == PLAN and body), None)
    lines = ["# refused %d: %s" % (refused, "; ".join(causes(own_sheet)))]
    lines += [line for tag, body in fields for line in field_lines(levels, tag, body)]
    return lines + (passed_over("%d bytes of a field that is cut short" % len(rest), rest) if rest else [])


# ---- the part ----

def written(lines):
    """Lines as a text."""
    return "".join(line + "\n" for line in lines)


def listing(own_sheet):
    """The lines of a sheet."""
    refused = text_rules.answer(own_sheet)
    if refused:
        return written(refused_lines(refused, own_sheet))
    plan, readings, marks = sheet_bytes.contents_of(sheet_bytes.fields_of(own_sheet))
    return written(accepted_lines(plan, RUN, totals_rules.runs_of(plan.repeats, readings), marks))


def list_sheet(path, head):
    """Writes the lines of a sheet after a head; raises Problem where it is refused."""
    own_sheet = sheets.sheet_of(path)
    files.put((head + listing(own_sheet)).encode("utf-8", "surrogateescape"))
    if refusal(own_sheet):
        raise Problem(refusal(own_sheet))


def run(arguments):
    """Writes the lines of all files, of several each after its name; the exit status."""
    several = len(arguments.files) > 1
    return files.each(arguments.files, lambda path: list_sheet(path, "# %s\n" % files.name_of(path) if several else ""))
