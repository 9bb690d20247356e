# Reference program for factorial tables, eighth part: what calls from C take and give in the place of a plan and of a table,
# straight from the wording of the rules.
#
# A plan comes as bytes: the fields of a sheet before its readings, which are its head. Fields are those of sheet_bytes.py,
# plans and the plan check those of totals.py, tables those of table.py. Like them, this file is written apart from the
# proved program and shares nothing with it.
#
# Names: lent are the lengths of the slices that are lent to be written. Figures are 11 numbers: the denominator, then
# degrees and numerator of mean, kept effects, blocks, error and total. Checks are 2: the sum of the totals, and what it must
# be by the readings.
#
# Defined here:
#   bad_head                  refusal 1
#   plan_of                   the plan of fields to which it does not apply
#   answer                    0, or the number of a call on a head: 1, 2 to 8, 16, and then those of the call
#   figures_of, checks_of     figures and checks of a table
#   lengths_of                how many totals and rows a plan has
#   sheet_table_answer        0, or the first of 1 to 8, 16, 11, 12, 13 that applies to the table of a sheet
#   whole_table_answer        the same of 2, 3, 16, 11, 12, 13 and the table of a whole plan
#   write, head_of            the head of a plan, and that of a sheet that is accepted
#   check                     list of complaints, empty if all is well

import sys
from itertools import product
from os.path import abspath, dirname

sys.path.insert(0, dirname(dirname(dirname(abspath(__file__)))))

from reference.rules import sheet_bytes
from reference.rules import table as table_rules
from reference.rules import totals as totals_rules
from reference.rules.sheet_bytes import ADDED, BLOCK, MARKS, PLAN, READINGS, REPEATS, bodies_of, field, fields_of, number_of
from reference.rules.totals import DONE, Plan

# In the order in which they stand in a head.
TAGS = (PLAN, ADDED, BLOCK, REPEATS)
FIGURES, CHECKS = 11, 2


# ---- heads ----

def bad_head(fields):
    """Refusal 1: a field cut short; a tag that is unknown or falling, 4 or 5; tag 1 absent or there twice, tag 6 there
    twice; a field of a wrong length."""
    if fields is None:
        return True
    tags = [tag for tag, _ in fields]
    return (any(tag not in TAGS for tag in tags)
            or any(TAGS.index(after) < TAGS.index(before) for before, after in zip(tags, tags[1:]))
            or tags.count(PLAN) != 1 or tags.count(REPEATS) > 1
            or any(len(body) != sheet_bytes.BODY_LENGTHS[tag] for tag, body in fields))


def plan_of(fields):
    """The plan of fields to which refusal 1 does not apply. Without tag 6 repeats are 1."""
    [levels_k] = bodies_of(fields, PLAN)
    added = tuple((number_of(body[:2]), body[2]) for body in bodies_of(fields, ADDED))
    blocks = tuple(number_of(body) for body in bodies_of(fields, BLOCK))
    [repeats] = [number_of(body) for body in bodies_of(fields, REPEATS)] or [1]
    return Plan(*levels_k, added, blocks, repeats)


def answer(head, of_plan=lambda plan: DONE):
    """The number of a call on a head: 1; else the first of 2 to 8 and 16 that applies, 16 also for a tag 6 that holds 1;
    else that of the call, which is given the plan."""
    fields = fields_of(head)
    if bad_head(fields):
        return 1
    plan = plan_of(fields)
    return totals_rules.plan_answer(plan) or (16 if sheet_bytes.needless_repeats(fields) else of_plan(plan))


def write(plan):
    """The head of a plan. Nothing of what it holds is refused. Repeats of 1 have no field."""
    return b"".join(sheet_bytes.fields_written(plan, [], [])[:-2])


def head_of(sheet):
    """The head of a sheet to which refusal 1 does not apply: its fields before the readings, as they stand."""
    return b"".join(field(tag, body) for tag, body in fields_of(sheet) if tag in TAGS)


# ---- the numbers of a table ----

def figures_of(table):
    """The 11 figures of a table."""
    parts = table.mean, table.kept, table.blocks, table.error, table.total
    return [table.denominator] + [number for part in parts for number in part]


def checks_of(table):
    """The two check numbers of a table."""
    return [table.sum_of_totals, table.check_number]


def lengths_of(plan):
    """How many totals and rows a plan has that is not refused with 2 or 3."""
    return totals_rules.run_count(plan.levels, plan.k), table_rules.row_count(plan.k)


def sheet_table_answer(sheet, lent):
    """The table of a sheet, by the lengths of totals and rows: the sheet's number without a column, but 11 before 12 and 13
    where one of these is another."""
    number = sheet_bytes.sheet_answer(sheet)
    if number not in (DONE, 12, 13):
        return number
    return 11 if lent != lengths_of(sheet_bytes.contents_of(fields_of(sheet)).plan) else number


def whole_table_answer(plan, readings, marks, lent):
    """The table of a whole plan, by the lengths of totals, rows, figures and checks: the number of the table call, but that
    figures and checks of another length are refused as totals are."""
    totals_length, rows_length, *own = lent
    return table_rules.table_answer(plan, readings, marks, totals_length if own == [FIGURES, CHECKS] else None, rows_length)


# ---- checks ----

# Fields that are tried one after the other, lawful and not.
TRIED = [field(PLAN, b"\2\3"), field(ADDED, b"\0\7\0"), field(BLOCK, b"\0\3"), field(REPEATS, b"\2"), field(READINGS, b""),
         field(MARKS, b""), field(0, b""), field(7, b"\2"), field(PLAN, b"\2"), field(REPEATS, b""), b"\2"]
LONGEST = 4


def as_sheet(head):
    """Whether the head, with empty readings and marks behind it, has refusal 1; one that has a tag 4 or 5 already has it."""
    fields = fields_of(head + field(READINGS, b"") + field(MARKS, b""))
    return fields is None or sheet_bytes.bad_fields(fields)


def check_fields():
    """Refusal 1 of every row of up to four fields is that of the sheet which begins with it; and some are accepted."""
    heads = [b"".join(chosen) for count in range(LONGEST + 1) for chosen in product(TRIED, repeat=count)]
    complaints = ["%s: refusal 1" % head.hex() for head in heads if (answer(head) == 1) != as_sheet(head)]
    return complaints + (["no head is accepted"] if all(answer(head) for head in heads) else [])


# Small inputs with their numbers, and plans.
SMALL_INPUTS = [
    ("01 0002 0203", DONE, Plan(2, 3)),
    ("01 0002 0203 02 0003 000700 03 0002 0003 06 0001 02", DONE, Plan(2, 3, ((7, 0),), (3,), 2)),
    ("01 0002 0303 03 0002 0016", DONE, Plan(3, 3, (), (22,))),
    ("", 1, None),
    ("01 0002 02", 1, None),
    ("02 0003 000700", 1, None),
    ("01 0002 0203 01 0002 0203", 1, None),
    ("01 0002 0203 03 0002 0003 02 0003 000700", 1, None),
    ("01 0002 0203 04 0000 05 0000", 1, None),
    ("01 0002 0203 06 0001 02 06 0001 02", 1, None),
    ("01 0002 0203 06 0002 0002", 1, None),
    ("01 0002 0403 06 0001 01", 2, Plan(4, 3)),
    ("01 0002 020b", 3, Plan(2, 11)),
    ("01 0002 0203 03 0002 0001 06 0001 01", 8, Plan(2, 3, (), (1,))),
    ("01 0002 0203 06 0001 01", 16, Plan(2, 3)),
    ("01 0002 0203 06 0001 03", 16, Plan(2, 3, repeats=3)),
]


def check_small():
    """The small inputs have their numbers and plans; and the head of a plan is that of its sheet."""
    complaints = []
    for text, number, plan in SMALL_INPUTS:
        head = bytes.fromhex(text)
        if answer(head) != number or number != 1 and plan_of(fields_of(head)) != plan:
            complaints.append("%s: not %d, or another plan" % (text, number))
        if number == DONE and not write(plan) == head == head_of(sheet_bytes.write(plan, [1], [0])):
            complaints.append("%s: the head of the plan" % text)
    return complaints


def check_lengths():
    """11 of lent slices comes after the plan's own numbers, and before 12 and 13."""
    plan, beyond, marks = Plan(2, 2), [2_000_000] * 4, [1] * 4
    sheet, no_sheet = sheet_bytes.write(plan, beyond, marks), sheet_bytes.write(Plan(2, 11), beyond, marks)
    small = [(whole_table_answer(plan, beyond, marks, (4, 4, 10, 2)), 11),
             (whole_table_answer(plan, beyond, marks, (4, 4, 11, 3)), 11),
             (whole_table_answer(plan, beyond, marks, (4, 4, 11, 2)), 12),
             (whole_table_answer(Plan(4, 2), beyond, marks, (4, 4, 10, 2)), 2),
             (sheet_table_answer(sheet, (4, 4)), 12), (sheet_table_answer(sheet, (3, 4)), 11),
             (sheet_table_answer(sheet, (4, 5)), 11), (sheet_table_answer(no_sheet, (3, 4)), 3)]
    return ["lengths, %d: %d in place of %d" % (place, *own) for place, own in enumerate(small) if own[0] != own[1]]


def check():
    """List of all complaints about heads and lengths."""
    return check_fields() + check_small() + check_lengths()


if __name__ == "__main__":
    sys.exit("\n".join(check()) or None)
