# Calls of the library as a program in another language makes them: by name, with numbers, bytes and lent places, through the
# shared library. Each has the answer and what the lent places must hold afterwards, by rules/. It is a command:
#
#   python3 reference/cases/library_cases.py LIBRARY [COUNT [SEED]]
#
# LIBRARY is the path of liblithgorn.so; its calls are declared in bindings/python/lithgorn.py. Every difference is printed;
# the last lines say how many calls of each kind were compared, and the exit is 1 if one differs.
#
# Bytes to be read are lent with a field 6 behind them, and places with two more on either side, so that a call which goes
# beyond what it is lent shows. Where a call is refused every place must hold what it held before; where it is done, so must
# those that were lent to be read. Doubles are compared bit by bit.
#
# The calls:
#   listed      the inputs with a name of answers.py, screening_answers.py, recovery_answers.py, sheet_cases.py and
#               text_cases.py, on a plan in bytes or a sheet; those of whole plans with the four calls that take one; plans
#               of all numbers of factors
#   bad heads   every kind of bytes that are no plan, and a plan for each number, with each of the ten calls on a plan in
#               bytes
#   made        sheets of compare.py and screen_cases.py from a seed: the calls on the sheet, and those on its plan, readings
#               and marks: a run, an alias, an estimate, totals, passes in random order and steps until they are the totals,
#               the way back, both tables, and those on a whole plan where it is one; a sixth of lengths and numbers wrong
#   bound       the functions of bindings/python/lithgorn.py on some of the same sheets, with exact results
#
# Defined here:
#   COUNT, SEED          how many sheets are made, and from what seed
#   Lent, Case           a slice or a place that is lent; a call with its answer
#   passed               the pass of a factor, by the definition
#   BAD_HEADS            bytes that are no plan, or one that is refused, with their numbers
#   on_head, listed, made
#                        calls on a plan in bytes, calls of the lists, and calls on a sheet that is made
#   complaints_of        how what a call leaves differs from what is meant
#   bound                the functions of the binding on a sheet: name, what is found, and what is meant
#   LEAST, LEAST_SEEDED  how often each call must be done and refused at the least, and how many must be from a seed
#   prepared             all calls
#   compare              makes them and prints the differences; counts calls by name and answer
#   too_few, counts_text complaints about these counts, and the counts in lines
#   check                list of complaints, empty if all is well

import sys
from collections import Counter, namedtuple
from ctypes import POINTER, byref, c_char_p, c_double, c_int32, c_int64, c_size_t, c_uint8, c_uint16, c_uint64, cast, sizeof
from fractions import Fraction
from functools import lru_cache
from os import environ
from os.path import abspath, dirname, join

ROOT = dirname(dirname(dirname(abspath(__file__))))
sys.path[:0] = [ROOT, join(ROOT, "bindings", "python")]

import lithgorn

from reference.cases import answers, recovery_answers, screen_cases, screening_answers, sheet_cases, text_cases
from reference.cases import compare as sheets
from reference.cases.sheet_cases import Numbers
from reference.rules import blockings as blocking_rules
from reference.rules import heads, sheet_bytes
from reference.rules import recovery as recovery_rules
from reference.rules import screening as screening_rules
from reference.rules import table as table_rules
from reference.rules import text as text_rules
from reference.rules import totals as totals_rules
from reference.rules.sheet_bytes import ADDED, BLOCK, MARKS, PLAN, READINGS, REPEATS, field, fields_of
from reference.rules.totals import DONE, MOST_VALUE, Plan

COUNT, SEED = 300, 117

# before are the numbers in it, and after those that its first places then hold, all others being as before; bytes in the
# place of lists where there are many. alone: a pointer, and no length.
Lent = namedtuple("Lent", "kind before after alone", defaults=((), False))

# arguments are numbers, bytes and what is lent. answer: 0 or the number of a refusal; of marks and text a length.
Case = namedtuple("Case", "call why arguments answer")


# ---- what is lent ----

def filled(count):
    """So many numbers that no call writes."""
    return [20_000_000 + place for place in range(count)]


def read_only(kind, numbers):
    """A slice to be read."""
    return Lent(kind, list(numbers))


def written(kind, count, numbers):
    """A slice of so many places, into the first of which numbers are written."""
    return Lent(kind, filled(count), list(numbers))


def place(kind, number):
    """One place, into which a number is written; before it holds 99."""
    return Lent(kind, [99], [number], True)


def case(call, why, number, *arguments):
    """A call. Where it is refused nothing that is lent changes."""
    kept = [own._replace(after=()) if number and isinstance(own, Lent) else own for own in arguments]
    return Case(call, why, kept, number)


# ---- what the rules give ----

def plan_in(head):
    """The plan of a head that is accepted."""
    return heads.plan_of(fields_of(head))


def passed(levels, k, factor, column):
    """The pass of a factor: the digit of a place chooses the coefficient row, by which the values are combined that stand at
    the places with any digit of this factor and the same of all others."""
    spacing, found = levels ** factor, []
    for number in range(levels ** k):
        digit = totals_rules.digits(levels, k, number)[factor]
        row, first = totals_rules.COEFFICIENTS[levels][digit], number - digit * spacing
        found.append(sum(own * column[first + level * spacing] for level, own in enumerate(row)))
    return found


@lru_cache(maxsize=8)
def table_of(plan, readings, marks):
    """The table of an accepted plan; readings and marks are tuples."""
    totals = text_rules.totals(plan.levels, plan.k, totals_rules.run_sums(plan.repeats, readings))
    return table_rules.table_of_totals(plan, readings, marks, totals)


def made_slices(lent, table):
    """Totals, rows, figures and checks as they are lent, by the lengths of the first two; and what is then in them."""
    totals, rows, figures, checks = ([], [], [], []) if table is None else (
        table.totals, [part.numerator for part in table.rows], heads.figures_of(table), heads.checks_of(table))
    return (written(c_int64, lent[0], totals), written(c_uint64, lent[1], rows),
            written(c_uint64, heads.FIGURES, figures)._replace(alone=True),
            written(c_int64, heads.CHECKS, checks)._replace(alone=True))


# ---- the calls on a plan in bytes ----

def check_case(why, head):
    """The plan check."""
    return case("lithgorn_check", why, heads.answer(head), head)


def run_case(why, head, run):
    """A run."""
    number = heads.answer(head, lambda plan: totals_rules.run_answer(plan, run))
    high, block = (0, 0) if number else totals_rules.treatment(plan_in(head), run)
    return case("lithgorn_run", why, number, head, run, place(c_uint16, high), place(c_uint8, block))


def alias_case(why, head, effect):
    """An alias."""
    number = heads.answer(head, lambda plan: totals_rules.alias_answer(plan, effect))
    word, turned = (0, 0) if number else totals_rules.alias(plan_in(head), effect)
    return case("lithgorn_alias", why, number, head, effect, place(c_uint16, word), place(c_uint8, int(turned)))


KINDS = {table_rules.MEAN: lithgorn.MEAN, table_rules.DIFFERENCE: lithgorn.DIFFERENCE, table_rules.LOST: lithgorn.LOST}


def estimate_case(why, head, effect, total):
    """An estimate; the double of one that is lost is not written."""
    number = heads.answer(head, lambda plan: table_rules.estimate_answer(plan, effect, total))
    kind, quotient = (table_rules.LOST, None) if number else table_rules.estimate(plan_in(head), effect, total)
    value = place(c_double, 99 if quotient is None else table_rules.exact_double(quotient))
    return case("lithgorn_estimate", why, number, head, effect, total, place(c_uint8, KINDS[kind]), value)


def pass_case(why, head, factor, column):
    """A pass."""
    number = heads.answer(head, lambda plan: totals_rules.pass_answer(plan, factor, column))
    after = column if number else passed(*plan_in(head)[:2], factor, column)
    return case("lithgorn_pass", why, number, head, factor, Lent(c_int64, list(column), after))


def step_case(why, head, column, count):
    """A step into a column of so many places."""
    number = heads.answer(head, lambda plan: totals_rules.step_answer(plan, column, range(count)))
    after = [] if number else totals_rules.step(plan_in(head).levels, column)
    return case("lithgorn_step", why, number, head, read_only(c_int64, column), written(c_int64, count, after))


def totals_case(why, head, readings, count):
    """The totals, into a column of so many places."""
    number = heads.answer(head, lambda plan: totals_rules.totals_answer(plan, readings, range(count)))
    after = [] if number else of_readings(plan_in(head), readings)
    return case("lithgorn_totals", why, number, head, read_only(c_int32, readings), written(c_int64, count, after))


def of_readings(plan, readings):
    """The totals of an accepted plan."""
    return text_rules.totals(plan.levels, plan.k, totals_rules.run_sums(plan.repeats, readings))


def recover_case(why, head, totals, count):
    """The way back, into a column of so many places."""
    number = heads.answer(head, lambda plan: recovery_rules.recover_answer(plan, totals, count))
    after = [] if number else recovery_rules.recovered(plan_in(head), totals)
    return recovered_case(why, head, totals, count, number, after)


def recovered_case(why, head, totals, count, number, after):
    """The same where the number and the run sums are known."""
    return case("lithgorn_recover", why, number, head, read_only(c_int64, totals), written(c_int32, count, after))


# The two table calls, with what refuses them.
TABLES = {"lithgorn_table": table_rules.table_answer, "lithgorn_screen": screening_rules.refused}


def table_case(call, why, head, readings, marks, lent):
    """A table of one of the two calls, by the lengths of totals and rows."""
    number = heads.answer(head, lambda plan: TABLES[call](plan, readings, marks, *lent))
    table = None if number else table_of(plan_in(head), tuple(readings), tuple(marks))
    return case(call, why, number, head, read_only(c_int32, readings), bytes(marks), *made_slices(lent, table))


# Four places of each, with which a head that is refused is handed to every call.
FOUR = [3, 5, 4, 8]


def on_head(why, head):
    """Each of the ten calls on a head."""
    return [check_case(why, head), run_case(why, head, 1), alias_case(why, head, 1), estimate_case(why, head, 1, 4),
            pass_case(why, head, 0, FOUR), step_case(why, head, FOUR, 4), totals_case(why, head, FOUR, 4),
            recover_case(why, head, [20, -6, -4, 2], 4), table_case("lithgorn_table", why, head, FOUR, [0] * 4, (4, 4)),
            table_case("lithgorn_screen", why, head, FOUR, [0] * 4, (4, 4))]


# ---- bad heads ----

P, A, B, R = field(PLAN, b"\2\3"), field(ADDED, b"\0\7\0"), field(BLOCK, b"\0\3"), field(REPEATS, b"\2")
WHOLE_HEAD = P + A + B + R
INSIDE = [count for count in range(1, len(WHOLE_HEAD)) if count not in (len(P), len(P + A), len(P + A + B))]

BAD_HEADS = [("cut after %d bytes" % count, 1, WHOLE_HEAD[:count]) for count in INSIDE] + [
    ("no bytes", 1, b""),
    ("a byte more", 1, WHOLE_HEAD + b"\6"),
    ("two bytes more", 1, WHOLE_HEAD + b"\0\0"),
    ("field 1 of length 65,535", 1, b"\1\xff\xff\2\3"),
    ("field 6 longer than the head by 1", 1, P + b"\6\0\2\2"),
    ("length with the low byte first", 1, b"\1\2\0\2\3"),
    ("tag 0 first", 1, field(0, b"") + P),
    ("tag 0 last", 1, P + field(0, b"")),
    ("tag 7 last", 1, WHOLE_HEAD + field(7, b"")),
    ("tag 255 last", 1, P + field(255, b"")),
    ("tag 129 in place of 1", 1, field(129, b"\2\3")),
    ("falling: 2, 1", 1, A + P),
    ("falling: 1, 3, 2", 1, P + B + A),
    ("falling: 1, 6, 2", 1, P + R + A),
    ("falling: 1, 6, 3", 1, P + R + B),
    ("falling: 6, 1", 1, R + P),
    ("tag 4 last", 1, P + field(READINGS, b"")),
    ("tag 4 last, with readings", 1, P + field(READINGS, bytes(32))),
    ("tag 5 last", 1, P + field(MARKS, b"")),
    ("tag 4 alone", 1, field(READINGS, b"")),
    ("a whole sheet", 1, sheet_bytes.write(Plan(2, 2), FOUR, [0] * 4)),
    ("tag 4 between 3 and 6", 1, P + B + field(READINGS, b"") + R),
    ("tag 1 absent: 2", 1, A),
    ("tag 1 absent: 3", 1, B),
    ("tag 1 absent: 6", 1, R),
    ("tag 1 absent: 2, 3, 6", 1, A + B + R),
    ("tag 1 twice", 1, P + P),
    ("tag 1 twice, other levels", 1, P + field(PLAN, b"\3\3")),
    ("tag 6 twice", 1, P + R + R),
    ("tag 6 twice, 2 and 4", 1, P + R + field(REPEATS, b"\4")),
    ("tag 6 twice, 1 and 1", 1, P + field(REPEATS, b"\1") * 2),
] + [
    ("field %d of %d bytes" % (tag, count), 1, (b"" if tag == PLAN else P) + field(tag, bytes([2, 3, 0, 0, 0][:count])))
    for tag, length in sheet_bytes.BODY_LENGTHS.items() for count in range(5) if count != length
] + [
    ("1 and 2: levels 4, a byte more", 1, field(PLAN, b"\4\2") + b"\0"),
    ("1 and 16: field 6 of 2 bytes, both 3", 1, P + field(REPEATS, b"\3\3")),
    ("2 and 16: levels 4, field 6 holding 1", 2, field(PLAN, b"\4\2") + field(REPEATS, b"\1")),
    ("8 and 16: block word A, field 6 holding 1", 8, P + field(BLOCK, b"\0\1") + field(REPEATS, b"\1")),
    ("300 added factors", 4, P + A * 300),
    ("256 block words", 4, P + B * 256),
    ("262 added factors, of which 6 are not the same", 4, P + b"".join(
        field(ADDED, bytes([0, word, 0])) for word in [3, 5, 6, 7] + [3] * 258)),
] + [
    ("field 6 holding %d" % repeats, 16, P + field(REPEATS, bytes([repeats]))) for repeats in (0, 1, 3, 5, 16, 255)
] + [
    ("number %d" % number, number, heads.write(plan)) for number, plan in answers.REFUSED_PLANS
]


# ---- the calls on a sheet ----

def read_case(why, sheet, room):
    """The reader, with a column of so many places."""
    number, readings, length = sheet_bytes.sheet_answer(sheet, room), [], 0
    if not number:
        readings, length = sheet_bytes.contents_of(fields_of(sheet)).readings, len(heads.head_of(sheet))
    return case("lithgorn_read", why, number, sheet, written(c_int32, room, readings), place(c_size_t, length))


def marks_case(why, sheet):
    """The marks: how many of the last bytes they are."""
    part = sheet_bytes.marks_part(sheet)
    if part != sheet[len(sheet) - len(part):]:
        raise ValueError("the marks are not the last bytes")
    return Case("lithgorn_marks", why, [sheet], len(part))


TEXT_ROOM = bytes([85]) * lithgorn.TEXT


def text_case(why, sheet):
    """The text: its length, and the bytes in the buffer."""
    number = text_rules.answer(sheet)
    text = b"refused %d\n" % number if number else text_rules.table_text(table_in(sheet)).encode()
    return Case("lithgorn_text", why, [sheet, Lent(c_uint8, TEXT_ROOM, text, True)], len(text))


def table_in(sheet):
    """The table of a sheet that is accepted."""
    plan, readings, marks = sheet_bytes.contents_of(fields_of(sheet))
    return table_of(plan, tuple(readings), tuple(marks))


def sheet_table_case(why, sheet, lent):
    """The table of a sheet, by the lengths of totals and rows."""
    number = heads.sheet_table_answer(sheet, lent)
    return case("lithgorn_sheet_table", why, number, sheet, *made_slices(lent, None if number else table_in(sheet)))


# ---- the calls on a whole plan ----

def is_whole(plan):
    """Whether a plan has no added factors and no block words."""
    return not plan.added and not plan.blocks


def whole_pass_case(why, plan, factor, column):
    """A pass; the call takes no repeats."""
    number = totals_rules.pass_answer(plan._replace(repeats=1), factor, column)
    after = column if number else passed(*plan[:2], factor, column)
    return case("yates_pass", why, number, *plan[:2], factor, Lent(c_int64, list(column), after))


def whole_totals_case(why, plan, readings, count):
    """The totals, into a column of so many places."""
    number = totals_rules.totals_answer(plan, readings, range(count))
    return case("yates_totals", why, number, *plan[:2], plan.repeats, read_only(c_int32, readings),
                written(c_int64, count, [] if number else of_readings(plan, readings)))


def whole_recovered_case(why, plan, totals, count, number, after):
    """The way back, into a column of so many places, where the number and the run sums are known."""
    return case("yates_recover", why, number, *plan[:2], plan.repeats, read_only(c_int64, totals),
                written(c_int32, count, after))


def whole_table_case(why, plan, readings, marks, lent):
    """The table, by the lengths of totals, rows, figures and checks."""
    number = heads.whole_table_answer(plan, readings, marks, lent)
    totals, rows, figures, checks = made_slices(lent, None if number else table_of(plan, tuple(readings), tuple(marks)))
    if number:
        figures, checks = written(c_uint64, lent[2], []), written(c_int64, lent[3], [])
    return case("anova_table", why, number, *plan[:2], plan.repeats, read_only(c_int32, readings), bytes(marks),
                totals, rows, figures._replace(alone=False), checks._replace(alone=False))


def whole_cases(numbers, why, plan, readings, marks, lent):
    """Three of these calls on plan, readings and marks; factor and lengths of figures and checks are now and then wrong."""
    factor = wrong_now_and_then(numbers, 0, [11, 2 ** 64 - 1])
    own = wrong_now_and_then(numbers, (heads.FIGURES, heads.CHECKS), [(10, 2), (12, 2), (0, 2), (11, 1), (11, 3), (11, 0)])
    sums = totals_rules.run_sums(max(plan.repeats, 1), readings)
    return [whole_pass_case(why, plan, factor, sums), whole_totals_case(why, plan, readings, lent[0]),
            whole_table_case(why, plan, readings, marks, (*lent, *own))]


# ---- the calls of the lists ----

FEW_RUNS = 100


def listed_tables():
    """The tables of answers.py and screening_answers.py."""
    return ([table_case("lithgorn_table", own.why, heads.write(own.plan), *own[3:5], own[5:7])
             for own in answers.REFUSALS + answers.ACCEPTED]
            + [table_case("lithgorn_screen", own.why, heads.write(own.plan), *own[3:5], own[5:7])
               for own in screening_answers.SCREENED])


def listed_whole():
    """The tables of answers.py of a whole plan."""
    numbers = Numbers(SEED)
    return [made for own in answers.REFUSALS + answers.ACCEPTED if is_whole(own.plan)
            for made in whole_cases(numbers, own.why, own.plan, list(own.readings), own.marks, own[5:7])]


def listed_figures():
    """Runs, aliases and estimates of answers.py."""
    return ([run_case(own.outcome, heads.write(own.plan), own.number) for own in answers.RUNS]
            + [alias_case(own.outcome, heads.write(own.plan), own.effect) for own in answers.ALIASES]
            + [estimate_case(own.outcome, heads.write(own.plan), own.effect, own.total) for own in answers.ESTIMATES])


def listed_blockings():
    """The blockings of answers.py."""
    found = []
    for k, words, places, outcome in answers.BLOCKINGS:
        number, before = blocking_rules.blocking_answer(k, words, places), answers.column_before(places)
        column = Lent(c_uint16, before, blocking_rules.column_after(k, words, before))
        count = 0 if number else len(blocking_rules.lists(k, words))
        found.append(case("lithgorn_blockings", outcome, number, k, words, column, place(c_size_t, count)))
    return found


def listed_recoveries():
    """The recoveries of recovery_answers.py, whose numbers and run sums are listed there."""
    return ([recovered_case(own.why, heads.write(own.plan), *own[3:5], own.number, own.readings or [])
             for own in recovery_answers.RECOVERED]
            + [whole_recovered_case(own.why, own.plan, *own[3:5], own.number, own.readings or [])
               for own in recovery_answers.RECOVERED if is_whole(own.plan)])


def listed_sheets():
    """The sheets of sheet_cases.py, with reader and marks; of text_cases.py those of few readings, with text and table."""
    found = []
    for own in sheet_cases.CASES + sheet_cases.MADE:
        found += [read_case(own.why, own.sheet, own.room), marks_case(own.why, own.sheet)]
    for own in text_cases.CASES:
        contents = sheet_bytes.read(own.sheet, lithgorn.MOST_READINGS)
        if len(contents.readings) < FEW_RUNS:
            lent = (4, 4) if contents.refused else heads.lengths_of(contents.plan)
            found += [text_case(own.name, own.sheet), sheet_table_case(own.name, own.sheet, lent)]
    return found


def listed_sizes():
    """Plans of all numbers of factors, with readings that are spread out: passes, steps, totals, tables and text."""
    numbers, found = Numbers(SEED), []
    for levels, k in text_cases.SIZES:
        plan, why = Plan(levels, k), "%d levels, %d factors" % (levels, k)
        readings, marks = sheet_cases.spread(levels, levels ** k), sheet_cases.every_third(plan)
        lent = heads.lengths_of(plan)
        head, sheet = heads.write(plan), sheet_bytes.write(plan, readings, marks)
        found += made_passes(numbers, why, head, plan, readings) + made_steps(why, head, plan, readings)
        found += [totals_case(why, head, readings, lent[0]), table_case("lithgorn_table", why, head, readings, marks, lent),
                  text_case(why, sheet), sheet_table_case(why, sheet, lent)]
    return found


def listed():
    """All calls of the lists, and each call on each bad head."""
    return (listed_figures() + listed_tables() + listed_whole() + listed_blockings() + listed_recoveries() + listed_sheets()
            + listed_sizes() + [own for name, _, head in BAD_HEADS for own in on_head(name, head)])


# ---- calls that are made ----

def wrong_now_and_then(numbers, right, wrong):
    """One of two, the second a sixth of the time."""
    return right if numbers.below(6) else numbers.choose(wrong)


def lengths(numbers, runs, rows):
    """Lengths of totals and rows, now and then one of them wrong."""
    wrong = [(runs + 1, rows), (runs - 1, rows), (runs, rows + 1), (runs, rows - 1)]
    return wrong_now_and_then(numbers, (runs, rows), wrong)


def on_sheet(numbers, why, sheet):
    """The four calls on a sheet."""
    contents = sheet_bytes.read(sheet, lithgorn.MOST_READINGS)
    runs, rows = (4, 4) if contents.refused else heads.lengths_of(contents.plan)
    count = len(contents.readings)
    room = wrong_now_and_then(numbers, count + numbers.below(3), [max(count - 1, 0), 0])
    return [read_case(why, sheet, room), marks_case(why, sheet), text_case(why, sheet),
            sheet_table_case(why, sheet, lengths(numbers, runs, rows))]


def made_figures(numbers, why, head, plan):
    """A run, an alias and an estimate of an accepted plan, now and then beyond it."""
    runs, factors = totals_rules.run_count(plan.levels, plan.k), plan.k + len(plan.added)
    run = wrong_now_and_then(numbers, numbers.below(runs), [runs, runs + 1, 2 ** 32, 2 ** 64 - 1])
    effect = wrong_now_and_then(numbers, numbers.below(2 ** factors), [min(2 ** factors, 65_535), 65_535])
    base = wrong_now_and_then(numbers, numbers.below(2 ** plan.k), [2 ** plan.k, 65_535])
    most = totals_rules.most_total(plan)
    total = wrong_now_and_then(numbers, numbers.below(2 * most + 1) - most, [most, -most, most + 1, -most - 1, -2 ** 63, 0])
    return [run_case(why, head, run), alias_case(why, head, effect), estimate_case(why, head, base, total)]


def made_passes(numbers, why, head, plan, sums):
    """The passes of all factors in random order, from the run sums to the totals."""
    found, left, column = [], list(range(plan.k)), sums
    while left:
        factor = left.pop(numbers.below(len(left)))
        found.append(pass_case(why, head, factor, column))
        column = passed(plan.levels, plan.k, factor, column)
    if column != text_rules.totals(plan.levels, plan.k, sums):
        raise ValueError("passes in random order are not the totals")
    return found


def made_steps(why, head, plan, sums):
    """The k steps from the run sums to the totals."""
    columns = [sums] + totals_rules.steps(plan.levels, plan.k, sums)
    return [step_case(why, head, column, len(sums)) for column in columns[:-1]]


def faulty_columns(numbers, why, head, plan):
    """A pass and a step that are refused: a value beyond the limit, a wrong length, a factor beyond the plan."""
    count = totals_rules.run_count(plan.levels, plan.k)
    column = [numbers.below(2 * MOST_VALUE + 1) - MOST_VALUE for _ in range(count)]
    column[numbers.below(count)] = numbers.choose((MOST_VALUE + 1, -MOST_VALUE - 1, 2 ** 63 - 1, -2 ** 63))
    short, factor = column[:-1], numbers.choose((0, 0, 0, plan.k, 2 ** 64 - 1))
    own = numbers.choose((column, column, short, column + [1]))
    return [pass_case(why, head, factor, own), step_case(why, head, own, numbers.choose((count, count, count + 1)))]


def made_recovery(numbers, why, head, plan, totals):
    """The way back from the totals, half of the time with one of them changed."""
    changed = list(totals)
    changed[numbers.below(len(totals))] += numbers.choose((0, 0, 1, -1, len(totals), 2 ** 40))
    count = wrong_now_and_then(numbers, len(totals), [len(totals) - 1, len(totals) + 1])
    return [recover_case(why, head, changed, count)]


def on_plan(numbers, why, head, contents):
    """The calls on the plan, readings and marks of a sheet to which refusal 1 does not apply."""
    plan, readings, marks = contents
    if heads.answer(head):
        return on_head(why, head)
    lent = lengths(numbers, *heads.lengths_of(plan))
    found = [check_case(why, head), *made_figures(numbers, why, head, plan), totals_case(why, head, readings, lent[0]),
             *(table_case(call, why, head, readings, marks, lent) for call in TABLES),
             *faulty_columns(numbers, why, head, plan)]
    if totals_rules.totals_answer(plan, readings, range(heads.lengths_of(plan)[0])) == DONE:
        sums, totals = totals_rules.run_sums(plan.repeats, readings), of_readings(plan, readings)
        found += made_passes(numbers, why, head, plan, sums) + made_steps(why, head, plan, sums)
        found += made_recovery(numbers, why, head, plan, totals) if len(totals) < FEW_RUNS else []
    return found + (whole_cases(numbers, why, plan, readings, marks, lent) if is_whole(plan) else [])


def made(numbers, own):
    """The calls on a sheet that is made, and on its plan; of bytes that are no sheet, these as a plan."""
    fields = fields_of(own.sheet)
    found = on_sheet(numbers, own.name, own.sheet)
    if fields is None or sheet_bytes.bad_fields(fields):
        return found + [check_case(own.name, own.sheet)]
    return found + on_plan(numbers, own.name, heads.head_of(own.sheet), sheet_bytes.contents_of(fields))


# ---- comparison ----

GUARD, BEHIND = 2, field(REPEATS, b"\2")


def array_of(kind, numbers):
    """The numbers as C has them, with a few more on either side."""
    if isinstance(numbers, bytes):
        return (kind * (len(numbers) + 2 * GUARD)).from_buffer_copy(bytes([85] * GUARD) + numbers + bytes([85] * GUARD))
    return (kind * (len(numbers) + 2 * GUARD))(*[85] * GUARD, *numbers, *[85] * GUARD)


def handed(own):
    """An argument as the library is given it: the memory that is lent, if any, what it must be afterwards, and pointers and
    numbers."""
    if isinstance(own, bytes):
        memory = (c_uint8 * (len(own) + len(BEHIND))).from_buffer_copy(own + BEHIND)
        return memory, own + BEHIND, [cast(memory, c_char_p), len(own)]
    if not isinstance(own, Lent):
        return None, None, [own]
    memory = array_of(own.kind, own.before)
    pointer = cast(byref(memory, GUARD * sizeof(own.kind)), POINTER(own.kind))
    after = own.after + own.before[len(own.after):] if isinstance(own.before, bytes) else [
        *own.after, *own.before[len(own.after):]]
    return memory, bytes(array_of(own.kind, after)), [pointer] if own.alone else [pointer, len(own.before)]


def complaints_of(own):
    """Makes a call, and tells how its answer and what it was lent differ from what is meant."""
    lent = [handed(argument) for argument in own.arguments]
    found = getattr(lithgorn.library(), own.call)(*(part for _, _, parts in lent for part in parts))
    complaints = [] if found == own.answer else ["answer %d, meant %d" % (found, own.answer)]
    return complaints + ["argument %d holds something else" % number for number, (memory, meant, _) in enumerate(lent, 1)
                         if memory is not None and bytes(memory) != meant]


def shown(own):
    """An argument in a complaint: bytes in hexadecimal, and of long ones the first."""
    return own.hex()[:200] if isinstance(own, bytes) else str(own)[:200]


# ---- the binding ----

def outcome(call, *arguments):
    """What a function of the binding gives, or the number with which it is refused."""
    try:
        return call(*arguments)
    except lithgorn.Refused as refused:
        return "refused %d" % refused.number


def meant(number, result):
    """The same by the rules; the result is asked for only where nothing is refused."""
    return "refused %d" % number if number else result()


def bound_table(table):
    """A table as the binding gives it."""
    over = table.denominator
    parts = [lithgorn.Part(*part, Fraction(part.numerator, over))
             for part in (table.mean, table.kept, table.blocks, table.error, table.total)]
    rows = [lithgorn.Row(part.numerator, Fraction(part.numerator, over)) for part in table.rows]
    return lithgorn.Table(over, *parts, rows, list(table.totals), tuple(heads.checks_of(table)))


def bound_sheet(sheet):
    """The four functions on a sheet: name, what is found, and what is meant."""
    number, text = sheet_bytes.sheet_answer(sheet), text_rules.answer(sheet)
    contents = None if number else sheet_bytes.contents_of(fields_of(sheet))
    return [("read", outcome(lithgorn.read, sheet), meant(number, lambda: (contents.plan, contents.readings))),
            ("marks", outcome(lithgorn.marks, sheet), sheet_bytes.marks_part(sheet)),
            ("text", outcome(lithgorn.text, sheet),
             "refused %d\n" % text if text else text_rules.table_text(table_in(sheet))),
            ("sheet_table", outcome(lithgorn.sheet_table, sheet), meant(number, lambda: bound_table(table_in(sheet))))]


def bound_plan(numbers, contents):
    """The functions on a plan, accepted or not, its readings and marks."""
    plan, readings, marks = contents
    own, refused = lithgorn.Plan(*plan), totals_rules.plan_answer(plan)
    runs, rows = (4, 4) if refused in (2, 3) else heads.lengths_of(plan)
    run, effect, total = numbers.below(runs + 1), numbers.below(rows), numbers.below(1000)
    tables = [(name, outcome(getattr(lithgorn, name), own, readings, marks),
               meant(TABLES["lithgorn_" + name](plan, readings, marks, runs, rows),
                     lambda: bound_table(table_of(plan, tuple(readings), tuple(marks))))) for name in ("table", "screen")]
    alias, estimate = totals_rules.alias_answer(plan, effect), table_rules.estimate_answer(plan, effect, total)
    return tables + [
        ("check", outcome(lithgorn.check, own), meant(refused, lambda: None)),
        ("run", outcome(lithgorn.run, own, run),
         meant(totals_rules.run_answer(plan, run), lambda: totals_rules.treatment(plan, run))),
        ("alias", outcome(lithgorn.alias, own, effect), meant(alias, lambda: totals_rules.alias(plan, effect))),
        ("estimate", outcome(lithgorn.estimate, own, effect, total), meant(estimate, lambda: tuple(
            KINDS.get(part, part) for part in table_rules.estimate(plan, effect, total)))),
        ("totals", outcome(lithgorn.totals, own, readings), meant(
            totals_rules.totals_answer(plan, readings, range(runs)), lambda: of_readings(plan, readings)))]


def bound_columns(contents):
    """A pass, a step and the way back, of a plan and readings that are accepted."""
    plan, readings, _ = contents
    own, sums = lithgorn.Plan(*plan), totals_rules.run_sums(plan.repeats, readings)
    return [("pass_", outcome(lithgorn.pass_, own, plan.k - 1, sums), passed(*plan[:2], plan.k - 1, sums)),
            ("step", outcome(lithgorn.step, own, sums), totals_rules.step(plan.levels, sums)),
            ("recover", outcome(lithgorn.recover, own, of_readings(plan, readings)), sums)]


def bound(numbers, own):
    """The functions of the binding on a sheet that is made, and on its plan."""
    fields = fields_of(own.sheet)
    if fields is None or sheet_bytes.bad_fields(fields):
        return bound_sheet(own.sheet)
    contents = sheet_bytes.contents_of(fields)
    columns = [] if sheet_bytes.sheet_answer(own.sheet) else bound_columns(contents)
    return bound_sheet(own.sheet) + bound_plan(numbers, contents) + columns


# ---- all together ----

# How often each call must be done, and how often refused, at the least; there are not more blockings. The marks are refused
# by a length of 0, and the text is never.
LEAST = {**dict.fromkeys([*lithgorn.CALLS, "binding"], 40), "lithgorn_blockings": 24}
LEAST_SEEDED = 2_000
NEVER_REFUSED = ("lithgorn_text",)


def sheet_made(numbers, number):
    """A sheet of compare.py or, every second time, of screen_cases.py."""
    return screen_cases.made(numbers) if number % 2 else sheets.made(numbers)


def tried(cases, counts):
    """Makes some calls, prints those that differ and counts them; how many differ."""
    differences = 0
    for own in cases:
        complaints = complaints_of(own)
        if complaints:
            differences += 1
            print("%s, %s: %s\n  %s" % (own.call, own.why, "; ".join(complaints), ", ".join(map(shown, own.arguments))))
        refused = own.answer == 0 if own.call == "lithgorn_marks" else own.answer != 0 and own.call not in NEVER_REFUSED
        counts[own.call, refused] += 1
    return differences


def bound_tried(numbers, own, counts):
    """The same of the functions of the binding."""
    differences = 0
    for name, found, by_rules in bound(numbers, own):
        if found != by_rules:
            differences += 1
            print("%s of the binding, %s: %s\n  meant %s" % (name, own.name, str(found)[:200], str(by_rules)[:200]))
        counts["binding", isinstance(by_rules, str) and by_rules.startswith("refused")] += 1
    return differences


# sheets: those that are tried with the binding, a sixth of all that are made.
Prepared = namedtuple("Prepared", "listed made sheets")


def prepared(count=COUNT, seed=SEED):
    """All calls of the lists and of so many sheets that are made. The library is not asked for them."""
    numbers = Numbers(seed)
    own = [sheet_made(numbers, number) for number in range(count)]
    return Prepared(listed(), [case for sheet in own for case in made(numbers, sheet)], own[::6])


def compare(own):
    """How many of these calls differ; and how many there are, by name and by whether they are refused."""
    numbers, counts = Numbers(SEED), Counter()
    differences = tried(own.listed, counts)
    counts["listed"] = sum(counts.values())
    differences += tried(own.made, counts)
    return differences + sum(bound_tried(numbers, sheet, counts) for sheet in own.sheets), counts


def seeded(counts):
    """How many calls are not of the lists, but from a seed."""
    return sum(number for call, number in counts.items() if call != "listed") - counts["listed"]


def too_few(counts):
    """Complaints about calls that are made too seldom, each and those from a seed together."""
    complaints = ["%s: %d %s" % (call, counts[call, refused], "refused" if refused else "done")
                  for call, least in LEAST.items() for refused in (False, True)
                  if counts[call, refused] < least and not (refused and call in NEVER_REFUSED)]
    return complaints + (["%d calls from a seed" % seeded(counts)] if seeded(counts) < LEAST_SEEDED else [])


def counts_text(counts):
    """A line for each call: how often it was done, and how often refused; then how many there are."""
    lines = ["%-20s %5d done, %5d refused" % (call, counts[call, False], counts[call, True]) for call in LEAST]
    return "\n".join(lines + ["calls: %d of lists, %d from a seed" % (counts["listed"], seeded(counts))]) + "\n"


def check():
    """List of all complaints: bad heads whose number is not the one that is listed."""
    return ["%s: %d, listed %d" % (name, heads.answer(head), number) for name, number, head in BAD_HEADS
            if heads.answer(head) != number]


if __name__ == "__main__":
    if not 2 <= len(sys.argv) <= 4 or not all(own.isdecimal() for own in sys.argv[2:]):
        sys.exit("library_cases.py LIBRARY [COUNT [SEED]]")
    environ["LITHGORN_LIBRARY"] = sys.argv[1]
    differences, counts = compare(prepared(*map(int, sys.argv[2:])))
    print(counts_text(counts) + "%d differences" % differences)
    sys.exit(1 if differences else 0)
