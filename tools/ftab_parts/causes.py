# Why a sheet is refused, in words; and which of its rows are main effects.
#
# The number is that of the reference program, reference/rules, and so is what is asked of a plan here. Where the sheet is
# made of lines, those that are the cause are named.
#
# Defined here:
#   CAUSES, CAUSES_OF_THREE   what each number says, and what it says at three levels
#   whole_fields              the fields of a sheet up to one that is cut short
#   field_causes              what makes refusal 1 apply to a sheet
#   places                    the counts, readings, marks or lines for which a sheet is refused
#   cause                     what a number says of a plan
#   plan_causes               what is besides wrong with the plan of a sheet that is too long
#   causes                    why a sheet is refused
#   refusal                   the same with the number; nothing for a sheet that is accepted
#   some_of                   of much the first
#   main_letters              the rows that are main effects, with the letters of their factors
#   pooled_mains              the main effects that are pooled as error

from ftab_parts.cells import LETTERS
from reference.rules import screening as screening_rules
from reference.rules import sheet_bytes
from reference.rules import table as table_rules
from reference.rules import text as text_rules
from reference.rules import totals as totals_rules
from reference.rules.sheet_bytes import AT_MOST_ONCE, BODY_LENGTHS, ONCE, READING_LENGTH, READINGS, TAGS
from reference.rules.table import row_label
from reference.rules.totals import MOST_READING, MOST_READINGS

MOST_PLACES = 8

# By number; those of three levels, where they are others, below. docs/USING.md has the limits of 12 and 16 too. No sheet is
# refused with 14, which is of the recovery call.
CAUSES = {
    2: "levels other than 2 or 3",
    3: "k out of range, which is 1 to 10 at two levels and 1 to 6 at three",
    4: "over 6 added factors, or over 4 block words",
    5: "a letter beyond k, an added word under two letters, a sign over 1, or an empty block word",
    6: "two added factors with one word",
    7: "some one or more block words combine to the empty word",
    8: "a confounded effect is one letter or an added factor's word",
    16: "repeats other than 1, 2, 4 or 8, over {:,} readings, or a field 6 that holds 1".format(MOST_READINGS),
    11: "readings or marks not as many as there are runs, times repeats, or rows",
    12: "a reading beyond {:,} either way at two levels, or beyond {:,} at three".format(MOST_READING[2], MOST_READING[3]),
    13: "a mark over 1, or mark 1 on the mean or a blocks row",
    14: "no readings within the limit have the totals",
}
CAUSES_OF_THREE = {
    4: "at three levels an added factor, or a second block word",
    5: "at three levels a block word with a letter beyond k, under two letters, or a 2 after the first of them in the "
       "alphabet",
}

# The numbers of lines of a sheet that is not made of any; and the lines that are the cause of a number, whatever they hold.
NO_LINES = {}
LINES = {2: "levels", 3: "factors", 16: "repeats"}


def some_of(found):
    """What is found, and where that is much the first of it."""
    return found[:MOST_PLACES] + ["and others"] * (len(found) > MOST_PLACES)


# ---- bytes that are no sheet ----

def whole_fields(own_sheet):
    """The fields of a sheet up to one that is cut short, as pairs of tag and body, and the bytes that are left."""
    found, at = [], 0
    while at + 3 <= len(own_sheet):
        end = at + 3 + sheet_bytes.number_of(own_sheet[at + 1:at + 3])
        if end > len(own_sheet):
            break
        found.append((own_sheet[at], own_sheet[at + 3:end]))
        at = end
    return found, own_sheet[at:]


def field_causes(own_sheet):
    """What makes refusal 1 apply to a sheet, in words; nothing where it does not."""
    fields, rest = whole_fields(own_sheet)
    tags = [tag for tag, _ in fields]
    found = ["more than {:,} bytes".format(text_rules.MOST_SHEET)] if len(own_sheet) > text_rules.MOST_SHEET else []
    found += ["tag %d is unknown" % tag for tag in sorted(set(tags) - set(TAGS))]
    known = [tag for tag in tags if tag in TAGS]
    found += ["tag %d comes after tag %d" % (after, before) for before, after in zip(known, known[1:])
              if TAGS.index(after) < TAGS.index(before)]
    found += ["tag %d is absent" % tag for tag in ONCE if tag not in tags]
    found += ["tag %d comes %d times" % (tag, tags.count(tag)) for tag in ONCE + AT_MOST_ONCE if tags.count(tag) > 1]
    found += ["a field %d has %d bytes, wanted %d" % (tag, len(body), BODY_LENGTHS[tag])
              for tag, body in fields if len(body) != BODY_LENGTHS.get(tag, len(body))]
    found += ["a field 4 has %d bytes, not a multiple of 4" % len(body)
              for tag, body in fields if tag == READINGS and len(body) % READING_LENGTH]
    return found + (["a field is cut short"] if rest else [])


# ---- contents that are refused ----

def in_line(lines, kind, place):
    """The line in which something stands, in words; nothing where that is not known."""
    return " in line %d" % lines[kind, place] if (kind, place) in lines else ""


def word_places(refused, plan, lines):
    """The lines of words that make the plan refused with 5, or with 8 beside its added factors, without the other words."""
    added = plan.added if refused == 8 else ()
    alone = [("added", place, plan._replace(added=(own,), blocks=())) for place, own in enumerate(plan.added)]
    alone += [("block", place, plan._replace(added=added, blocks=(own,))) for place, own in enumerate(plan.blocks)]
    return ["the word" + in_line(lines, kind, place) for kind, place, own in alone
            if (kind, place) in lines and totals_rules.plan_answer(own) == refused]


def plan_places(refused, plan, lines):
    """The counts and lines for which a plan is refused."""
    if refused in (5, 8):
        return word_places(refused, plan, lines)
    counts = "%d runs, repeats %d" % (totals_rules.run_count(plan.levels, plan.k), plan.repeats) if refused == 16 else ""
    where = in_line(lines, LINES.get(refused), 0)
    return [counts + where if counts else where.strip()] if counts or where else []


def places(refused, contents, lines=NO_LINES):
    """The counts, readings, marks or lines for which a sheet is refused."""
    plan, readings, marks = contents
    runs, rows = totals_rules.run_count(plan.levels, plan.k), table_rules.row_count(plan.k)
    if refused == 11:
        return ["%d readings for %d runs%s, %d marks for %d rows" % (
            len(readings), runs, " of %d each" % plan.repeats if plan.repeats > 1 else "", len(marks), rows)]
    if refused == 12:
        return ["run %d%s has %d" % (place // plan.repeats, in_line(lines, "run", place // plan.repeats), reading)
                for place, reading in enumerate(readings) if abs(reading) > MOST_READING[plan.levels]]
    if refused != 13:
        return plan_places(refused, plan, lines)
    kinds = table_rules.row_kinds(plan, [0] * len(marks))
    return ["row %s%s has mark %d" % (row_label(row), in_line(lines, "error", row), mark) for row, mark in enumerate(marks)
            if mark > 1 or mark == 1 and kinds[row] != table_rules.KEPT]


def cause(refused, plan):
    """What a number says of a plan, in words."""
    return CAUSES_OF_THREE.get(refused, CAUSES[refused]) if plan.levels == 3 else CAUSES[refused]


def plan_causes(own_sheet):
    """What is besides wrong with the plan of a sheet that is too long, in words."""
    fields = sheet_bytes.fields_of(own_sheet)
    if len(own_sheet) <= text_rules.MOST_SHEET or fields is None or sheet_bytes.bad_fields(fields):
        return []
    plan = sheet_bytes.contents_of(fields).plan
    refused = totals_rules.plan_answer(plan)
    return ["its plan would be refused %d: %s" % (refused, cause(refused, plan))] if refused else []


def causes(own_sheet, lines=NO_LINES):
    """Why a sheet is refused, in words; nothing for a sheet that is accepted."""
    refused = text_rules.answer(own_sheet)
    if refused in (totals_rules.DONE, 1):
        return field_causes(own_sheet) + plan_causes(own_sheet)
    contents = sheet_bytes.contents_of(sheet_bytes.fields_of(own_sheet))
    return [cause(refused, contents.plan)] + some_of(places(refused, contents, lines))


def refusal(own_sheet, lines=NO_LINES):
    """The number with which a sheet is refused, and why, in words; nothing for a sheet that is accepted."""
    refused = text_rules.answer(own_sheet)
    return "refused %d (%s)" % (refused, "; ".join(causes(own_sheet, lines))) if refused else ""


# ---- main effects ----

def main_letters(plan):
    """The rows of an accepted plan that are main effects, by their numbers, with the letters of their factors."""
    rows = screening_rules.main_rows(plan) if plan.levels == 2 else [1 << factor for factor in range(plan.k)]
    return {row: LETTERS[factor] for factor, row in enumerate(rows)}


def pooled_mains(own_sheet):
    """The main effects of an accepted sheet that are pooled as error: row and letter of the factor."""
    plan, _, marks = sheet_bytes.contents_of(sheet_bytes.fields_of(own_sheet))
    return [(row, letter) for row, letter in main_letters(plan).items() if marks[row]]
