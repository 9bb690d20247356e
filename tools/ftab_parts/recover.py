# The part recover of the command ftab: lines of runs from lines of totals. Such lines are those of sheets.py that say what
# the plan is and which rows are pooled as error, and in the place of runs
#
#   total,AB,2          an effect by its letters, `mean` for none, and its total; each effect once, in any order. The letters
#                       are those of base factors
#   total,AB2,-148      the same at three levels: a letter alone is linear, digit 1, one with a 2 after it curved, digit 2
#
# Totals have the report's signs, low minus high: the runs 3, 5, 4, 8 have 20, -6, -4, 2 for mean, A, B, AB. Of runs that are
# made several times they are those of the runs' sums, and only these come back: a line such as sum,0,1,0,36 has the levels
# and the sum of the readings, which cannot be told apart any more. No sheet is made of such lines.
#
# Where the recovery call refuses a plan or its totals, the message has number and cause, and names runs that come out as no
# reading. What is asked of plan and totals is asked of the reference program, reference/rules.
#
# Defined here:
#   add, run         its arguments, and what it does
#   effect_label     the letters of an effect, as in a line
#   recovered        the lines of the runs that have the totals of lines

from ftab_parts import files
from ftab_parts.causes import cause, plan_places, some_of
from ftab_parts.cells import lines_of, of_kind, quoted, stop, three_digits, whole, word
from ftab_parts.files import Problem, Usage
from ftab_parts.listing import RUN, SUM, accepted_lines, block_text, written
from ftab_parts.sheets import PLAN_CELLS, is_mean, marked_rows, marks_of, plan_of
from reference.rules import recovery as recovery_rules
from reference.rules import table as table_rules
from reference.rules import totals as totals_rules

ABOUT = """Writes the lines of the runs that have some totals, for `ftab make`. In the place
of runs FILE has a line such as total,AB,2 for each effect: its letters, mean for
none, and its total, low minus high. Of runs that are made several times the sums
come back. This is by the reference program, which is not proved."""

STATUS = """Exit status: 0 done; 1 a file is not understood, or no readings have its totals;
2 wrong usage."""

CELLS = {**PLAN_CELLS, "total": (3, 3), "error": (2, None)}

# First cells that are none here, and why.
ELSEWHERE = {
    RUN: "totals are wanted, and here is a run, which is for make",
    "coding": "a coding is of levels of runs, and here are totals",
    "scale": "totals are whole numbers, and a scale is for readings",
    "name": "names of factors are for make",
}

NO_READINGS = 14


def add(parser):
    """Adds its arguments to a parser."""
    parser.description, parser.epilog = ABOUT, STATUS
    parser.add_argument("files", nargs="+", metavar="FILE", help="a file of lines, - for standard input")
    files.add_places(parser, "the lines")


def effect_of(line, plan):
    """The effect of a line, by its letters."""
    cell = line.cells[1]
    if is_mean(cell):
        return 0
    effect = three_digits(line, cell) if plan.levels == 3 else word(line, cell)
    if effect >= totals_rules.run_count(plan.levels, plan.k):
        stop(line, "%s is no effect, for there are %d factors" % (quoted(cell), plan.k))
    return effect


def effect_label(plan, effect):
    """The letters of an effect, as in a line."""
    return block_text(plan.levels, effect) if effect else table_rules.MEAN


def totals_of(lines, plan):
    """The totals of an accepted plan, effect by effect."""
    found = {}
    for line in of_kind(lines, "total"):
        effect = effect_of(line, plan)
        if effect in found:
            stop(line, "the total is already in line %d" % found[effect][0].number)
        found[effect] = line, whole(line, line.cells[2], -2 ** 63, 2 ** 63 - 1)
    missing = [effect for effect in range(totals_rules.run_count(plan.levels, plan.k)) if effect not in found]
    if missing:
        raise Problem("there is no line for the total of %s" % effect_label(plan, missing[0]))
    return [found[effect][1] for effect in sorted(found)]


def missed_texts(plan, totals):
    """The runs of an accepted plan that the totals leave without readings, and why; not all where they are many."""
    name = RUN if plan.repeats == 1 else "the %s of run" % SUM
    limit = "beyond {:,} either way".format(recovery_rules.most_sum(plan))
    return some_of(["%s %s comes out as %s, %s" % (
        name, ",".join(map(str, totals_rules.digits(plan.levels, plan.k, run))), number,
        limit if number.denominator == 1 else "which is not whole") for run, number in recovery_rules.missed(plan, totals)])


def refuse(refused, plan, found):
    """Ends with the number of the recovery call and why, in words."""
    raise Problem("refused %d (%s)" % (refused, "; ".join([cause(refused, plan)] + found)))


def recovered(text):
    """The lines of the runs that have the totals of lines, or of their sums. Raises Problem, also where the recovery call
    refuses plan or totals; the plan is judged first."""
    lines = lines_of(text, CELLS, ELSEWHERE)
    plan = plan_of(lines)
    refused = totals_rules.plan_answer(plan)
    if refused:
        refuse(refused, plan, plan_places(refused, plan, {}))
    totals, marks = totals_of(lines, plan), marks_of(marked_rows(lines, plan), plan)
    sums = recovery_rules.recovered(plan, totals)
    if sums is None:
        refuse(NO_READINGS, plan, missed_texts(plan, totals))
    return written(accepted_lines(plan, RUN if plan.repeats == 1 else SUM, [[own] for own in sums], marks))


def run(arguments):
    """Writes the lines of all files; the exit status."""
    places = files.places(arguments, ".csv", files.STANDARD)
    if len(places) > 1 and files.STANDARD in places.values():
        raise Usage("several files want --into FOLDER")
    return files.each(arguments.files, lambda path: files.put_at(places[path], recovered(files.read_text(path)).encode()))
