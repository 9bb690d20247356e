# Reference program for factorial tables, third part: the sheet, straight from the wording of the rules.
#
# Plans and the plan check are those of totals.py, rows and marks those of table.py. Like them, this file is written
# apart from the proved program and shares nothing with it.
#
# Names: a sheet is bytes, field after field. A field is a one-byte tag, a two-byte length and its body; all numbers are
# big-endian. The reader's column is lent by the caller; room is how many places it has.
#
# Defined here:
#   PLAN, ADDED, BLOCK, REPEATS, READINGS, MARKS
#                                         the tags 1, 2, 3, 6, 4 and 5, in the order in which they stand in a sheet
#   fields_of                             the fields of a sheet as tags and bodies; None where one is cut short
#   Contents, contents_of                 plan, readings and marks, whether they are accepted or not
#   sheet_answer                          0, or the first of 1 to 8, 16, 11, 12, 13 that applies, with a column or without
#   Sheet, NO_PLAN, read                  what the reader gives
#   marks_part                            what the marks call hands back
#   field, fields_written, write          a field, the fields of a sheet, and the sheet of a plan, readings and marks

from collections import namedtuple

from reference.rules import table as table_rules
from reference.rules import totals as totals_rules
from reference.rules.totals import Plan

PLAN, ADDED, BLOCK, REPEATS, READINGS, MARKS = 1, 2, 3, 6, 4, 5

# In the order in which they stand in a sheet; those that are there once; those that are there once or not at all.
TAGS = (PLAN, ADDED, BLOCK, REPEATS, READINGS, MARKS)
ONCE = (PLAN, READINGS, MARKS)
AT_MOST_ONCE = (REPEATS,)

# Levels and k; word and sign; the word; repeats.
BODY_LENGTHS = {PLAN: 2, ADDED: 3, BLOCK: 2, REPEATS: 1}
READING_LENGTH = 4

# readings is a list of numbers, marks are bytes.
Contents = namedtuple("Contents", "plan readings marks")

# refused is 0 where the sheet is accepted. Else the plan is NO_PLAN, and no reading is written.
Sheet = namedtuple("Sheet", "refused plan readings")

NO_PLAN = Plan(0, 0, repeats=0)


# ---- fields ----

def number_of(body):
    """A number that is not signed."""
    return int.from_bytes(body, "big")


def fields_of(sheet):
    """The fields of a sheet as pairs of tag and body, in order; None where one is cut short."""
    found, at = [], 0
    while at < len(sheet):
        head = sheet[at:at + 3]
        if len(head) < 3:
            return None
        end = at + 3 + number_of(head[1:])
        if end > len(sheet):
            return None
        found.append((head[0], sheet[at + 3:end]))
        at = end
    return found


def bodies_of(fields, tag):
    """The bodies of all fields of a tag."""
    return [body for own, body in fields if own == tag]


def bad_fields(fields):
    """Refusal 1, beside fields cut short: an unknown or falling tag, tag 1, 4 or 5 absent or repeated, field 1, 2 or 3 of
    wrong length, field 4 not a multiple of 4 bytes; a second tag 6, one elsewhere than between tags 3 and 4, or one of
    another length."""
    tags = [tag for tag, _ in fields]
    return (any(tag not in TAGS for tag in tags)
            or any(TAGS.index(after) < TAGS.index(before) for before, after in zip(tags, tags[1:]))
            or any(tags.count(tag) != 1 for tag in ONCE)
            or any(tags.count(tag) > 1 for tag in AT_MOST_ONCE)
            or any(len(body) != length for tag, length in BODY_LENGTHS.items() for body in bodies_of(fields, tag))
            or any(len(body) % READING_LENGTH for body in bodies_of(fields, READINGS)))


# ---- what a sheet holds ----

def contents_of(fields):
    """Plan, readings and marks of fields to which refusal 1 does not apply. Without tag 6 repeats are 1."""
    [levels_k], [readings], [marks] = (bodies_of(fields, tag) for tag in ONCE)
    added = tuple((number_of(body[:2]), body[2]) for body in bodies_of(fields, ADDED))
    blocks = tuple(number_of(body) for body in bodies_of(fields, BLOCK))
    values = [int.from_bytes(readings[at:at + READING_LENGTH], "big", signed=True)
              for at in range(0, len(readings), READING_LENGTH)]
    [repeats] = [body[0] for body in bodies_of(fields, REPEATS)] or [1]
    return Contents(Plan(levels_k[0], levels_k[1], added, blocks, repeats), values, marks)


def needless_repeats(fields):
    """Refusal 16, beside that of the plan: a tag 6 holding 1."""
    return bytes([1]) in bodies_of(fields, REPEATS)


def wrong_counts(contents, room):
    """Refusal 11: readings not N times repeats, marks not R, or a column under N times repeats; room is None where there is
    no column."""
    readings = totals_rules.reading_count(contents.plan)
    rows = table_rules.row_count(contents.plan.k)
    return len(contents.readings) != readings or len(contents.marks) != rows or room is not None and room < readings


def sheet_answer(sheet, room=None):
    """The first of 1 to 8, 16, 11, 12, 13 that applies, or 0. The marks call has no column."""
    fields = fields_of(sheet)
    if fields is None or bad_fields(fields):
        return 1
    contents = contents_of(fields)
    plan, readings, marks = contents
    return totals_rules.foremost(totals_rules.plan_checks(plan) + [
        (16, lambda: needless_repeats(fields)),
        (11, lambda: wrong_counts(contents, room)),
        (12, lambda: totals_rules.beyond(readings, totals_rules.MOST_READING[plan.levels])),
        (13, lambda: table_rules.bad_mark(plan, marks))])


# ---- the two calls ----

def read(sheet, room):
    """What the reader gives: a number, where that is 0 the plan, and the readings that the first places then hold."""
    refused = sheet_answer(sheet, room)
    if refused:
        return Sheet(refused, NO_PLAN, [])
    contents = contents_of(fields_of(sheet))
    return Sheet(totals_rules.DONE, contents.plan, contents.readings)


def marks_part(sheet):
    """The part of the sheet that holds the marks, and an empty part where the sheet is refused."""
    return b"" if sheet_answer(sheet) else contents_of(fields_of(sheet)).marks


# ---- writing ----

def field(tag, body):
    """A field: tag, length and body."""
    return bytes([tag]) + len(body).to_bytes(2, "big") + body


def fields_written(plan, readings, marks):
    """The fields of a sheet in the order of their tags, each as bytes. Nothing of what they hold is refused. Repeats of 1
    have no field."""
    return ([field(PLAN, bytes([plan.levels, plan.k]))]
            + [field(ADDED, word.to_bytes(2, "big") + bytes([sign])) for word, sign in plan.added]
            + [field(BLOCK, word.to_bytes(2, "big")) for word in plan.blocks]
            + [field(REPEATS, bytes([repeats])) for repeats in [plan.repeats] if repeats != 1]
            + [field(READINGS, b"".join(value.to_bytes(READING_LENGTH, "big", signed=True) for value in readings))]
            + [field(MARKS, bytes(marks))])


def write(plan, readings, marks):
    """The sheet of a plan, readings and marks."""
    return b"".join(fields_written(plan, readings, marks))
