# A stage of the gate: compares the stored inputs and outputs of the programs with what the files of reference/ make now,
# and published figures with what the reference program makes of the readings. Exits with 1 at a difference.
#
#   crates/worked_plans/stdout    the plans of AMCP 706-112, Tables 12-3 and 12-4, and those of Yates's Table 43:
#                                 published/amcp.py, published/yates.py
#   crates/worked_totals/stdout   steps, totals and passes of the published examples, at the limits and with repeats:
#                                 published/examples.py
#   crates/worked_readings/stdout readings back from totals, and refusals: cases/recovery_answers.py
#   crates/worked_readings/stdin  the records of these, which that program reads
#   crates/worked_answers/stdout  refused and accepted tables, estimates, aliases, effects, runs and blockings:
#                                 cases/answers.py; then the screening call: cases/screening_answers.py
#   crates/worked_answers/stdin   the records of these, which that program reads
#   crates/worked_sheets/stdout   answers of the two calls that take a sheet: cases/sheet_cases.py
#   crates/worked_sheets/stdin    the sheets, which that program reads
#   crates/worked_texts/stdout    the texts of sheets, tables and refusals: cases/text_cases.py
#   crates/worked_texts/stdin     the records of the sheets, which that program reads
#   crates/factab/stdout          the text that the rules print: cases/text_cases.py
#   crates/factab/stdin           the sheet of that text, which that program reads
#   crates/screentab/stdout       the text that is worked by hand: cases/screen_cases.py
#   crates/screentab/stdin        the sheet of that text, which that program reads
#   crates/blockwords/stdout      the lists of block words for the two numbers in crates/blockwords/args: rules/blockings.py
#
# Each of these files also checks what it lists against rules/. Beside them published/analyses.py compares published
# analyses of variance with rules/table.py, published/daniel.py published aliases with rules/totals.py, rules/blockings.py
# its lists of block words with the plan check of rules/totals.py, rules/screening.py what meets in small plans with what
# their words say, rules/recovery.py what it solves with the formula that divides by the divisors, rules/heads.py which bytes
# are no plan with the sheets that begin with them, cases/library_cases.py which calls it makes, cases/screen_cases.py counts
# the kinds of sheets that it makes, and cases/csv_cases.py tries the modules of tools/ftab_parts that make, list, screen and
# recover, and compares the sheets of examples/ with the lines that they are made from.
#
# Defined here:
#   PROGRAMS, INPUTS, OTHERS   which file makes and checks what
#   complaints                 all that is wrong

import sys
from pathlib import Path

ROOT = Path(__file__).resolve().parent.parent
sys.path.insert(0, str(ROOT))

from reference.cases import (answers, csv_cases, library_cases, recovery_answers, screen_cases, screening_answers,
                             sheet_cases, text_cases)
from reference.published import amcp, analyses, daniel, examples, yates
from reference.rules import blockings, heads, recovery, screening

# Each program with the reference files that make what it must write, one after the other.
PROGRAMS = [
    ("worked_plans", [amcp, yates]),
    ("worked_totals", [examples]),
    ("worked_readings", [recovery_answers]),
    ("worked_answers", [answers, screening_answers]),
    ("worked_sheets", [sheet_cases]),
    ("worked_texts", [text_cases]),
]

# Those of the programs that read an input; the same files make it.
INPUTS = ["worked_readings", "worked_answers", "worked_sheets", "worked_texts"]

# Reference files beside these that have something to check.
OTHERS = [analyses, daniel, blockings, screening, recovery, heads, screen_cases, library_cases, csv_cases]


def path_of(module):
    """The path of a reference file, from the root."""
    return module.__name__.replace(".", "/") + ".py"


def complaints_of(module):
    """The complaints of a reference file about what it has."""
    return ["%s: %s" % (path_of(module), complaint) for complaint in module.check()]


def differs(crate, name, modules, meant):
    """The complaint that what is stored beside a program's sources under a name is not what reference files make."""
    stored = ROOT / "crates" / crate / name
    if stored.exists() and stored.read_bytes() == meant:
        return []
    return ["crates/%s/%s differs: made by %s" % (crate, name, ", ".join(path_of(module) for module in modules))]


def words_differ():
    """Complaints about the program blockwords: its stored arguments are no two numbers, or its output is not theirs."""
    stored = ROOT / "crates" / "blockwords" / "args"
    text, error = blockings.output(stored.read_bytes().splitlines() if stored.exists() else [])
    return (["crates/blockwords/args: not two numbers, one to a line"] if error else []) + differs(
        "blockwords", "stdout", [blockings], text)


def bytes_of(text):
    """The bytes of what a program must write, which some reference files make as bytes."""
    return text if isinstance(text, bytes) else text.encode()


def complaints():
    """What is wrong: figures that do not hold together, and stored inputs and outputs that differ."""
    found = []
    for module in OTHERS:
        found += complaints_of(module)
    for crate, modules in PROGRAMS:
        for module in modules:
            found += complaints_of(module)
        found += differs(crate, "stdout", modules, b"".join(bytes_of(module.expected_text()) for module in modules))
        if crate in INPUTS:
            found += differs(crate, "stdin", modules, b"".join(module.inputs() for module in modules))
    found += differs("factab", "stdout", [text_cases], text_cases.RULES_TEXT)
    found += differs("factab", "stdin", [text_cases], text_cases.RULES_SHEET)
    found += differs("screentab", "stdout", [screen_cases], screen_cases.HALF_TEXT)
    found += differs("screentab", "stdin", [screen_cases], screen_cases.HALF_SHEET)
    return found + words_differ()


if __name__ == "__main__":
    found = complaints()
    for complaint in found:
        print(complaint)
    print("outputs: %d complaints" % len(found))
    sys.exit(1 if found else 0)
