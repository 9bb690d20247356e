# Compares the program factab with rules/text.py on sheets that are made by numbers from a seed. It is a command:
#
#   python3 reference/cases/compare.py PROGRAM [COUNT [SEED]]
#
# PROGRAM is the path of a program that reads a sheet from standard input and writes its text to standard output. COUNT
# is how many sheets it is tried on, 2,000 if not given. Without SEED a fresh one is taken. Every difference is printed
# with its sheet in hexadecimal; the last line says how many there are, and the exit is 1 if there is one. The rules do
# not say how the program exits, so that is not compared; but a program that is ended by a signal or by the time limit
# differs.
#
# Four fifths of the sheets are made by text_cases.py, half of them of plans of any size and the others of small ones: a
# third of each lawful, spoiled and damaged, and a third with repeats where the plan may have them. A tenth are bytes that
# are no sheet or hardly one. A tenth are about 5,187 bytes long or longer, up to 200,000, or the longest with repeats. In
# all about a third have a field 6, and about a third of the three-level plans that are lawful are in three blocks.
# screen_cases.py compares the program screentab in the same way, on other sheets.
#
# Defined here:
#   made_bytes, made_long    bytes that are hardly a sheet, and long ones
#   made                     a sheet with a name, of any of these kinds
#   answer_of                what a program writes for a sheet
#   difference               how that differs from what is meant, in words
#   compare                  tries a program on sheets, prints the differences and counts them, and what is answered
#   command                  does so as a command

import os
import subprocess
import sys
from collections import Counter
from os.path import abspath, dirname

sys.path.insert(0, dirname(dirname(dirname(abspath(__file__)))))

from reference.cases import text_cases
from reference.cases.sheet_cases import Numbers, damaged
from reference.cases.text_cases import Case
from reference.rules import sheet_bytes
from reference.rules import text as text_rules
from reference.rules import totals as totals_rules
from reference.rules.sheet_bytes import Contents
from reference.rules.totals import Plan

COUNT = 2_000
TIME_LIMIT = 60
SOME_BYTES = 300
MANY_BYTES = 200_000


# ---- sheets ----

def any_bytes(numbers, count, limit=256):
    """So many bytes, each below a limit."""
    return bytes(numbers.below(limit) for _ in range(count))


def place_of(field):
    """Where a field, tag and body, belongs in a sheet, unknown tags last."""
    return sheet_bytes.TAGS.index(field[0]) if field[0] in sheet_bytes.TAGS else len(sheet_bytes.TAGS)


def some_fields(numbers):
    """A few fields of tags up to 7, in order more often than not; those of a length that is settled mostly have it."""
    tags = [numbers.below(8) for _ in range(numbers.below(8))]
    lengths = [sheet_bytes.BODY_LENGTHS.get(tag, numbers.below(20)) for tag in tags]
    fields = [(tag, any_bytes(numbers, length + (numbers.below(10) == 0), numbers.choose((2, 4, 256))))
              for tag, length in zip(tags, lengths)]
    ordered = sorted(fields, key=place_of) if numbers.below(3) else fields
    return [sheet_bytes.field(tag, body) for tag, body in ordered]


def made_bytes(numbers):
    """Bytes that are no sheet or hardly one: any, small ones, a few fields, or a lawful sheet with another end."""
    way = numbers.below(4)
    if way == 0:
        return Case(None, "any bytes", any_bytes(numbers, numbers.below(SOME_BYTES)))
    if way == 1:
        return Case(None, "small bytes", any_bytes(numbers, numbers.below(SOME_BYTES), 6))
    if way == 2:
        return Case(None, "some fields", b"".join(some_fields(numbers)))
    whole = sheet_bytes.write(*text_cases.made_contents(numbers, text_cases.FEW_RUNS))
    kept, end = whole[:numbers.below(len(whole))], any_bytes(numbers, numbers.below(9))
    return Case(None, "a sheet with another end", kept + end)


def longest(numbers, repeats=1):
    """Lawful contents whose sheet is as long as can be with some repeats, 5,187 bytes without: as many words as there may be,
    and as many factors as leave no more readings."""
    k = totals_rules.MOST_FACTORS[2] + 1 - repeats.bit_length()
    while True:
        once = text_cases.plan_with(numbers, k, text_cases.MOST_ADDED, text_cases.MOST_BLOCK_WORDS)
        plan = once._replace(repeats=repeats)
        if totals_rules.plan_answer(plan) == totals_rules.DONE:
            readings = text_cases.made_readings(numbers, plan.levels, totals_rules.reading_count(plan))
            return Contents(plan, readings, text_cases.made_marks(numbers, plan))


def many_words(numbers):
    """A sheet of four runs with very many words."""
    added = ((3, 0),) * numbers.choose((0, 7, 850, 859, 860, 861, 870, 2000))
    blocks = (3,) * numbers.choose((0, 5, 1000, 1030, 1031, 1032, 1040, 3000))
    return sheet_bytes.write(Plan(numbers.choose((2, 2, 3, 4)), 2, added, blocks), [3, 5, 4, 8], [0, 0, 0, 1])


def made_long(numbers):
    """A sheet of about 5,187 bytes or more: the longest, also spoiled or with bytes more; many words; many bytes. Or the
    longest with repeats."""
    way = numbers.below(7)
    if way == 6:
        return Case(None, "the longest with repeats",
                    sheet_bytes.write(*longest(numbers, numbers.choose(totals_rules.REPEATS[1:]))))
    if way == 0:
        return Case(None, "the longest", sheet_bytes.write(*longest(numbers)))
    if way == 1:
        contents, refusals = text_cases.spoiled(numbers, longest(numbers))
        return Case(None, "the longest, spoiled: " + ", ".join(map(str, refusals)), sheet_bytes.write(*contents))
    if way == 2:
        return Case(None, "many words", many_words(numbers))
    if way == 3:
        parts = sheet_bytes.fields_written(*longest(numbers))
        return Case(None, "the longest, bytes appended", b"".join(damaged(numbers, parts, "bytes appended")))
    most = text_rules.MOST_SHEET
    count = numbers.choose((most - 1, most, most + 1, 65_536, MANY_BYTES))
    if way == 4:
        return Case(None, "very many bytes", any_bytes(numbers, 64) * (count // 64) + any_bytes(numbers, count % 64))
    whole = sheet_bytes.write(*text_cases.made_contents(numbers, text_cases.SIZES))
    return Case(None, "a sheet and zeros", whole + bytes(max(count - len(whole), 0)))


def made(numbers):
    """A sheet of any kind."""
    way = numbers.below(10)
    if way == 0:
        return made_bytes(numbers)
    if way == 1:
        return made_long(numbers)
    return text_cases.made(numbers, text_cases.FEW_RUNS if way < 6 else text_cases.SIZES)


# ---- comparison ----

def answer_of(program, own_sheet):
    """What a program writes for a sheet, and a complaint if it was ended."""
    try:
        found = subprocess.run([program], input=own_sheet, stdout=subprocess.PIPE, timeout=TIME_LIMIT)
    except subprocess.TimeoutExpired as ended:
        return ended.stdout or b"", "not ended after %d seconds" % TIME_LIMIT
    return found.stdout, "ended by signal %d" % -found.returncode if found.returncode < 0 else ""


def difference(meant, found):
    """How a text differs from what is meant, in words; nothing if it does not."""
    if meant == found:
        return ""
    pairs = list(zip(meant.split(b"\n"), found.split(b"\n")))
    number = next((place for place, (first, second) in enumerate(pairs) if first != second), len(pairs))
    lines = [(text.split(b"\n") + [b""] * (number + 1))[number].decode(errors="replace") for text in (meant, found)]
    return "line %d: meant %r, found %r; %d bytes meant, %d found" % (number + 1, *lines, len(meant), len(found))


def compare(program, count, seed, made=made, text=text_rules.text):
    """The number of sheets, of so many that are made, for which a program does not write the text that is meant, each of which
    is printed; and how often each answer is meant."""
    numbers, answers, differences = Numbers(seed), Counter(), 0
    for number in range(1, count + 1):
        own = made(numbers)
        meant = text(own.sheet)
        found, ended = answer_of(program, own.sheet)
        complaints = [complaint for complaint in (difference(meant, found), ended) if complaint]
        if complaints:
            differences += 1
            print("sheet %d, %s: %s\n  %s" % (number, own.name, "; ".join(complaints), own.sheet.hex() or "(empty)"))
        answers[text_cases.refused_of(meant.decode())] += 1
    return differences, answers


def command(name, arguments, made, text):
    """Compares a program as a command with some arguments, says how often each answer is meant, and exits."""
    if not 1 <= len(arguments) <= 3 or not all(own.isdecimal() for own in arguments[1:]):
        sys.exit("%s PROGRAM [COUNT [SEED]]" % name)
    count = int(arguments[1]) if len(arguments) > 1 else COUNT
    seed = int(arguments[2]) if len(arguments) > 2 else int.from_bytes(os.urandom(4), "big")
    print("seed %d" % seed, flush=True)
    try:
        differences, answers = compare(arguments[0], count, seed, made, text)
    except OSError as why:
        sys.exit(str(why))
    print("answers: " + ", ".join("%d %d times" % pair for pair in sorted(answers.items())))
    print("%d sheets from seed %d, %d differences" % (count, seed, differences))
    sys.exit(1 if differences else 0)


if __name__ == "__main__":
    command("compare.py", sys.argv[1:], made, text_rules.text)
