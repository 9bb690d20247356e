# Lines for the modules of tools/ftab_parts that make, list, screen and recover, with the message, the number of a refusal,
# the sheet or the lines of runs that each must give; and the sheets of the examples, which are made from such lines. The
# command itself, tools/ftab, is tried in .ci/command.py; here it is run where what it writes hangs on the lines.
#
# Defined here:
#   UNCLEAR, SAME, REFUSED   lines that are not understood, that make the sheet of the rules, that make a refused sheet
#   UNCLEAR_TWICE            lines with repeats that are not understood
#   UNCLEAR_NINE             lines of three levels with block words that are not understood
#   THREE_WORDS              block words of three levels, in cells, and as the numbers that the sheet holds
#   ABOUT_LIMITS             readings about the limits, on which the command itself is tried
#   REPEATS_TOLD             repeats, and what the command tells of them
#   WORDS_TOLD               block words and added factors at three levels, and what the command tells of them
#   SCREENED_TOLD            added factors and marks, and what the command tells of their screening
#   UNCLEAR_TOTALS           lines of totals that are not understood
#   RUNS_BACK                lines of totals, and the lines of runs that the command writes of them
#   REFUSED_TOTALS           lines of totals that the recovery call refuses, and what the command tells of them
#   SAME_TEXTS               whole texts that make the sheet of the rules: other separators, quotes, codings, headers
#   LEVELS_CODED             codings at three levels, by the cells of the three levels
#   SCALED                   cells of readings with a scale, and the reading or the message
#   NAMED                    lines of names, and the names of factors
#   UNCLEAR_FORMS            lines with codings, scales, names, headers and quotes that are not understood
#   EXAMPLES                 the stored examples, and the worked table of each
#   OWN_EXAMPLES             the stored examples whose readings are not published, with what their lines hold
#   TOTALS_EXAMPLES          the stored lines of totals, and the example whose runs come back
#   check                    list of complaints, empty if all is well

import re
import subprocess
import sys
import tempfile
from pathlib import Path

ROOT = Path(__file__).resolve().parents[2]
sys.path[:0] = [str(ROOT), str(ROOT / "tools")]

from ftab_parts.causes import field_causes, places
from ftab_parts.files import Problem, read_text
from ftab_parts.listing import block_text, listing
from ftab_parts.recover import effect_label, recovered
from ftab_parts.screen import screened
from ftab_parts.sheets import made
from reference.cases import text_cases
from reference.cases.answers import NINE
from reference.published import analyses
from reference.rules import screening as screening_rules
from reference.rules import sheet_bytes
from reference.rules import text as text_rules
from reference.rules import totals as totals_rules
from reference.rules.table import row_label
from reference.rules.totals import MOST_READING, Plan

FOLDER = ROOT / "examples"

EXAMPLES = {
    "four_runs": analyses.RULES_TWO_FACTORS,
    "sixteen_runs": analyses.REPORT_TWO_LEVELS,
    "blocked": analyses.AMCP_BLOCKED,
    "three_levels": analyses.DANIEL_LETTUCE,
    "repeated": analyses.POTATO_PLOTS,
    "three_blocks": analyses.FIRST_Y,
    "screening": analyses.AMCP_HALF,
}
TOTALS_EXAMPLES = {"four_runs_totals": "four_runs", "three_levels_totals": "three_levels"}

# By plan, readings in the order of runs, the rows that are marked, names and scale.
OWN_EXAMPLES = {
    "fraction": (
        Plan(2, 4, ((0b0111, 0),), (0b1011,)),
        [-5017, -6501, -7033, -6862, -5609, -5504, -6145, -7460, -5026, -6792, -7539, -7128, -5627, -5843, -6666, -7641],
        [0b0111, 0b1101, 0b1110, 0b1111],
        {"A": "restart length", "B": "preconditioner", "C": "reordering", "D": "warm start", "E": "mixed precision"}, 1000),
}


# ---- lines ----

# Lines of the rules' example, of which some are replaced below.
FOUR_LINES = ["levels,2", "factors,2", "run,0,0,3", "run,1,0,5", "run,0,1,4", "run,1,1,8", "error,AB"]

# A number of a line, from 1, what stands there instead, and what the message is then.
UNCLEAR = [
    (1, "", "there is no line that begins with levels"),
    (2, "# factors,2", "there is no line that begins with factors"),
    (1, "level,2", "line 1: 'level' is none of levels, factors, added, block, repeats, coding, scale, name, run, error"),
    (1, "levels", "line 1: 1 cell, wanted 2"),
    (1, "levels,2,3", "line 1: 3 cells, wanted 2"),
    (1, "levels,two", "line 1: 'two' is no whole number from 0 to 255"),
    (1, "levels,256", "line 1: '256' is no whole number from 0 to 255"),
    (3, "levels,2", "line 3: levels is already in line 1"),
    (2, "factors,16", "line 2: no sheet holds the runs of 16 factors at 2 levels"),
    (2, "factors,255", "line 2: no sheet holds the runs of 255 factors at 2 levels"),
    (2, "factors,3", "line 3: 4 cells, wanted 5: run, 3 levels, 1 reading"),
    (4, "", "there is no line for the run 1,0"),
    (6, "run,0,1,8", "line 6: the run is already in line 5"),
    (6, "run,1,2,8", "line 6: '2' is no level; levels are 0 to 1, unless a line coding says otherwise"),
    (6, "run,1,-1,8", "line 6: '-1' is no level; levels are 0 to 1, unless a line coding says otherwise"),
    (6, "run,1,1", "line 6: 3 cells, wanted 4: run, 2 levels, 1 reading"),
    (6, "run,1,1,", "line 6: 3 cells, wanted 4: run, 2 levels, 1 reading"),
    (6, "run,1,1,8.0", "line 6: '8.0' is no whole number; for decimals there are lines such as scale,10"),
    (6, "run,1,1,8.125", "line 6: '8.125' is no whole number; for decimals there are lines such as scale,1000"),
    (6, "run,1,1,8e3", "line 6: '8e3' is no whole number; for decimals there are lines such as scale,10"),
    (6, "run,1,1,eight", "line 6: 'eight' is no whole number"),
    (6, "run,1,1,2147483648", "line 6: '2147483648' is no whole number from -2147483648 to 2147483647"),
    (6, "run,1,1,-2147483649", "line 6: '-2147483649' is no whole number from -2147483648 to 2147483647"),
    (7, "error,AC", "line 7: 'AC' is no row, for there are 2 factors"),
    (7, "error,AC\nadded,AB,0",
     "line 7: 'AC' is no row, for there are 2 factors; with the words of added factors it is in the row B"),
    (7, "error,\u0131", "line 7: '\u0131' is not made of different letters from A to P"),
    (7, "error,AB\nerror,BA", "line 8: the row AB is already in line 7"),
    (7, "error,AB,b,ba", "line 7: the row AB is already in line 7"),
    (7, "error,A,,B", "line 7: '' is not made of different letters from A to P"),
    (7, "error", "line 7: 1 cell, wanted 2 or more"),
    (7, "block,AQ", "line 7: 'AQ' is not made of different letters from A to P"),
    (7, "block,AA", "line 7: 'AA' is not made of different letters from A to P"),
    (7, "block,Aa", "line 7: 'Aa' is not made of different letters from A to P"),
    (7, "block,", "line 7: 1 cell, wanted 2"),
    (7, "block,AB2", "line 7: 'AB2' is not made of different letters from A to P"),
    (7, "block,2", "line 7: '2' is not made of different letters from A to P"),
    (7, "added,AB2,0", "line 7: 'AB2' is not made of different letters from A to P"),
    (7, "error,AB2", "line 7: 'AB2' is not made of different letters from A to P"),
    (7, "added,AB", "line 7: 2 cells, wanted 3"),
    (7, "added,,0", "line 7: '' is not made of different letters from A to P"),
    (7, "added,AB,256", "line 7: '256' is no sign; signs are 0 and 1"),
    (7, "repeats,2", "line 3: 4 cells, wanted 5: run, 2 levels, 2 readings"),
    (7, "repeats,0", "line 3: 4 cells, wanted 3: run, 2 levels, 0 readings"),
    (7, "repeats,1\nrepeats,1", "line 8: repeats is already in line 7"),
    (7, "repeats", "line 7: 1 cell, wanted 2"),
    (7, "repeats,2,2", "line 7: 3 cells, wanted 2"),
    (7, "repeats,twice", "line 7: 'twice' is no whole number from 0 to 255"),
    (7, "repeats,256", "line 7: '256' is no whole number from 0 to 255"),
    (7, "repeats,-1", "line 7: '-1' is no whole number from 0 to 255"),
    (6, "run,1,1,8,9", "line 6: 5 cells, wanted 4: run, 2 levels, 1 reading"),
    (6, "run", "line 6: 1 cell, wanted 4: run, 2 levels, 1 reading"),
]

# The example with each run made twice, 8 and 9 the last; and the same of it.
TWICE_LINES = ["levels,2", "factors,2", "repeats,2", "run,0,0,3,5", "run,1,0,4,8", "run,0,1,-1,0", "run,1,1,8,9", "error,AB"]
TWICE_SHEET = sheet_bytes.write(Plan(2, 2, repeats=2), [3, 5, 4, 8, -1, 0, 8, 9], [0, 0, 0, 1])
UNCLEAR_TWICE = [
    (3, "repeats,2\nrepeats,4", "line 4: repeats is already in line 3"),
    (3, "", "line 4: 5 cells, wanted 4: run, 2 levels, 1 reading"),
    (3, "repeats,4", "line 4: 5 cells, wanted 7: run, 2 levels, 4 readings"),
    (7, "run,1,1,8", "line 7: 4 cells, wanted 5: run, 2 levels, 2 readings"),
    (7, "run,1,1,8,", "line 7: 4 cells, wanted 5: run, 2 levels, 2 readings"),
    (7, "run,1,1,8,9,10", "line 7: 6 cells, wanted 5: run, 2 levels, 2 readings"),
    (7, "run,1,1,,9", "line 7: '' is no whole number"),
    (7, "run,1,1,8,9.5", "line 7: '9.5' is no whole number; for decimals there are lines such as scale,10"),
    (7, "run,1,2,8,9", "line 7: '2' is no level; levels are 0 to 1, unless a line coding says otherwise"),
    (7, "run,0,1,8,9", "line 7: the run is already in line 6"),
    (7, "run,1,1,8\nrun,1,1,9", "line 7: 4 cells, wanted 5: run, 2 levels, 2 readings"),
    (5, "", "there is no line for the run 1,0"),
]

# Nine runs at three levels in three blocks.
NINE_LINES = ["levels,3", "factors,2", "block,AB"] + [
    "run,%d,%d,%d" % (run % 3, run // 3, reading) for run, reading in enumerate(NINE)] + ["error,AB"]
WORDS_WANTED = "different letters from A to P, each alone or with a 2 after it"
UNCLEAR_NINE = [
    (3, "block,%s" % cell, "line 3: '%s' is not made of %s" % (cell, WORDS_WANTED))
    for cell in ("AA", "AA2", "A2BA", "AB3", "A1B2", "AB22", "2AB", "AB 2", "aB2b", "AQ", "A-B", "7")
] + [
    (3, "block,AP", "line 3: no sheet holds the word 'AP' at 3 levels"),
    (3, "block,AK2", "line 3: no sheet holds the word 'AK2' at 3 levels"),
    (3, "block,AB,", None),
    (3, "block,AB,2", "line 3: 3 cells, wanted 2"),
    (3, "block", "line 3: 1 cell, wanted 2"),
    (3, "added,AB2,0", "line 3: 'AB2' is not made of different letters from A to P"),
    (13, "error,AB2", "line 13: 'AB2' is not made of different letters from A to P"),
    (12, "run,2,3,9", "line 12: '3' is no level; levels are 0 to 2, unless a line coding says otherwise"),
]

# Factors, a cell, the number that it stands for, and what the sheet is answered.
THREE_WORDS = [
    (2, "AB", 4, 0), (2, "BA", 4, 0), (2, "AB2", 7, 0), (2, "B2A", 7, 0),
    (3, "ABC", 13, 0), (3, "ABC2", 22, 0), (3, "AB2C", 16, 0), (3, "AB2C2", 25, 0), (3, "C2BA", 22, 0), (3, "BC2", 21, 0),
    (3, "AC", 10, 0), (3, "AC2", 19, 0), (3, "c2ba", 22, 0), (2, "ab2", 7, 0),
    (2, "A", 1, 5), (2, "A2", 2, 5), (2, "B", 3, 5), (2, "A2B", 5, 5), (2, "BA2", 5, 5),
    (2, "A2B2", 8, 5), (2, "B2", 6, 5), (2, "AC", 10, 5), (2, "C", 9, 5), (1, "AB", 4, 5), (2, "AK", 59050, 5),
    (2, "AJ2", 39367, 5), (3, "A2BC", 14, 5), (3, "B2C", 15, 5),
]

# Repeats that make over 65,535 bytes of readings.
TOO_MANY = "levels,2\nfactors,13\nrepeats,3"

# The same, where the sheet is that of the rules' example.
SAME = [
    (1, "\n# a comment, with \"cells\"\nlevels,2,,,"),
    (2, " factors , 2 ,# two of them, A and B"),
    (3, '"run","0","0","+3"'),
    (7, ",,,\nerror,BA\n"),
    (7, "error,AB\nrepeats,1"),
    (1, "repeats, 1 ,# once\nlevels,2"),
]


def replaced(number, text, lines=FOUR_LINES):
    """The lines of an example, that of the rules if not said, one of them replaced."""
    return "\n".join(lines[:number - 1] + [text] + lines[number:])


def recoded(coding, *cells):
    """The lines of the rules' example, with a coding and the cells for its two levels."""
    runs = [line.split(",") for line in FOUR_LINES[2:6]]
    return "\n".join(FOUR_LINES[:2] + ["coding," + coding] + [
        ",".join(["run", *(cells[int(level)] for level in run[1:3]), run[3]]) for run in runs] + FOUR_LINES[6:])


# Whole texts of which the sheet is that of the rules' example.
FOUR_TEXT = "\n".join(FOUR_LINES)
QUOTED = "\n".join(",".join('"%s"' % cell for cell in line.split(",")) for line in FOUR_LINES)
SAME_TEXTS = [
    FOUR_TEXT.replace(",", ";"),
    FOUR_TEXT.replace(",", "\t"),
    FOUR_TEXT.replace(",", " ; "),
    "# cells, parted otherwise, here\n\n" + FOUR_TEXT.replace(",", ";"),
    QUOTED,
    QUOTED.replace(",", ";"),
    QUOTED.replace(",", "\t"),
    FOUR_TEXT.upper(),
    FOUR_TEXT.lower(),
    FOUR_TEXT + '\n"# a comment, in ""quotes""",more',
    FOUR_TEXT + '\n# a "quote that is not closed',
    FOUR_TEXT + '\nname,A,"iterations, ""most"""',
    recoded("0", "0", "1"),
    recoded("0", "00", "+1"),
    recoded("1", "1", "2"),
    recoded("-", "-", "+"),
    recoded("-1", "-1", "1"),
    recoded("-", "-1", "+1"),
    recoded("\u2212", "\u2212", "+"),
    recoded("-", "-", "1"),
    replaced(3, "run,A,B,reading\nrun,0,0,3"),
    replaced(3, "Run,a,b\nrun,0,0,3\nrun,A,B,reading"),
    "name,a,Iterations\nname,B,2nd pass\nrun,iterations,2nd Pass,y\nrun,A,2nd pass,y\n" + FOUR_TEXT,
    "scale,1\n" + replaced(3, "run,0,0,3.0"),
    "scale,1\n" + replaced(3, "run,0,0,.3e1"),
    "scale;1\n" + FOUR_TEXT.replace(",", ";").replace("run;0;0;3", "run;0;0;3,000"),
    "scale\t1\n" + FOUR_TEXT.replace(",", "\t").replace("run\t0\t0\t3", "run\t0\t0\t+3,"),
]

# A coding, and what it has for the three levels.
LEVELS_CODED = [("0", "012"), ("1", "123"), ("-", "-0+"), ("-1", ("-1", "0", "1")), ("-", ("-", "0", "+1"))]

# A scale, a cell of a reading, and the reading or the message; where cells are parted by semicolons.
SCALED = [
    (1000, "1.234", 1234), (1000, "-.5", -500), (1000, "7", 7000), (1000, "+7.", 7000), (1000, "1,234", 1234),
    (1000, "1.2340000", 1234), (1000, "\u22120.001", -1), (1000, "1.2e-2", 12), (1000, "1.2E+1", 12000), (8, "0.125", 1),
    (3, "0.5", "line 4: '0.5' times the scale 3 is not whole"),
    (10 ** 12, "1.234e-9", 1234),
    (1000, "0.0001", "line 4: '0.0001' times the scale 1000 is not whole"),
    (1000, "1.2e-7", "line 4: '1.2e-7' times the scale 1000 is not whole"),
    (1000, "2147483.648", "line 4: '2147483.648' times the scale 1000 is no whole number from -2147483648 to 2147483647"),
    (1000, "1e999", "line 4: '1e999' times the scale 1000 is no whole number from -2147483648 to 2147483647"),
    (1000, "-2147483.648", -2147483648),
    (1000, "1.234.5", "line 4: '1.234.5' is no number"),
    (1000, "1,234,5", "line 4: '1,234,5' is no number"),
    (1000, "1.234,5", "line 4: '1.234,5' is no number"),
    (1000, ".", "line 4: '.' is no number"),
    (1000, "-", "line 4: '-' is no number"),
    (1000, "n/a", "line 4: 'n/a' is no number"),
    (1000, "nan", "line 4: 'nan' is no number"),
    (1000, "0x10", "line 4: '0x10' is no number"),
    (1000, "1e1000", "line 4: '1e1000' is no number"),
    (1000, "1" * 41, "line 4: '%s' is no number" % ("1" * 41)),
    (1000, "1" * 61, "line 4: '%s...' is no number" % ("1" * 60)),
    (1000, "\x1b[31m\x07", "line 4: '?[31m?' is no number"),
]

# Lines before those of the rules' example, and the names and the scale that they give.
NAMED = [
    ("name,A,iterations", {"A": "iterations"}, 1),
    ("name,b,x\nname,a,A", {"B": "x", "A": "A"}, 1),
    ("name,C,warm start\nadded,AB,0\nscale,1", {"C": "warm start"}, 1),
    ('name,A,"a, b"\nname,B,"the ""most""" ', {"A": "a, b", "B": 'the "most"'}, 1),
    ("name,A,x\nscale,10", {"A": "x"}, 10),
    ("# nothing", {}, 1),
]

# A number of a line of the rules' example, what stands there instead, and the message.
NO_HEADER = "the header does not have the cells of a run: run, 2 levels, 1 reading"
UNCLEAR_FORMS = [
    (1, "levels,2\ncoding,2", "line 2: '2' is no coding: 0, 1 and - are"),
    (1, "levels,2\ncoding,+", "line 2: '+' is no coding: 0, 1 and - are"),
    (1, "levels,2\ncoding,0/1", "line 2: '0/1' is no coding: 0, 1 and - are"),
    (1, "levels,2\ncoding,0\ncoding,0", "line 3: coding is already in line 2"),
    (1, "levels,2\ncoding", "line 2: 1 cell, wanted 2"),
    (1, "levels,2\ncoding,1", "line 4: '0' is no level; levels are 1 to 2"),
    (1, "levels,2\ncoding,-", "line 4: '0' is no level; levels are - and +"),
    (1, "levels,4\ncoding,-", "line 2: the coding - is for 2 or 3 levels, and there are 4"),
    (3, "run,-,+,3", "line 3: '-' is no level; levels are 0 to 1, unless a line coding says otherwise"),
    (3, "run,0,,3", "line 3: '' is no level; levels are 0 to 1, unless a line coding says otherwise"),
    (1, "levels,2\nscale,0", "line 2: '0' is no whole number from 1 to 1000000000000000000"),
    (1, "levels,2\nscale,1e3", "line 2: '1e3' is no whole number from 1 to 1000000000000000000"),
    (1, "levels,2\nscale,10\nscale,10", "line 3: scale is already in line 2"),
    (1, "levels,2\nname,A", "line 2: 2 cells, wanted 3"),
    (1, 'levels,2\nname,A,""', "line 2: 2 cells, wanted 3"),
    (1, "levels,2\nname,C,x", "line 2: 'C' is no factor; there are A, B"),
    (1, "levels,2\nname,AB,x", "line 2: 'AB' is no factor; there are A, B"),
    (1, "levels,2\nname,,x", "line 2: '' is no factor; there are A, B"),
    (1, "levels,2\nname,A,x\nname,a,y", "line 3: A has already the name 'x'"),
    (1, "levels,2\nname,A,x\nname,B,X", "line 3: the name 'X' is already that of another factor"),
    (1, "levels,2\nname,A,b", "line 2: 'b' is the letter of a factor and no name of A"),
    (1, "levels,2\nname,A,x\x1b[31m", "line 2: the name of A has a character that cannot be printed"),
    (3, "run,A,reading", "line 3: the header has 'reading' where B is wanted"),
    (3, "run,B,A,reading", "line 3: the header has 'B' where A is wanted"),
    (3, "run,A", "line 3: " + NO_HEADER),
    (3, "run,A,B,C", "there is no line for the run 0,0"),
    (3, "run,A,B,C\nadded,AB,0", "line 3: " + NO_HEADER),
    (3, "run,A,B,A", "line 3: " + NO_HEADER),
    (3, "run,A,B,reading,more", "line 3: " + NO_HEADER),
    (3, "name,B,depth\nrun,A,width,reading", "line 4: the header has 'width' where B or 'depth' is wanted"),
    (3, "run,A,B,3", "line 3: 'A' is no level; levels are 0 to 1, unless a line coding says otherwise"),
    (3, 'run,"0,0,3', "line 3: a cell begins with a quote and does not end with one"),
    (3, 'run,0,0,"3" "4"', "line 3: a cell begins with a quote and does not end with one"),
    (3, 'run,0,0,"3\n"', "line 3: a cell begins with a quote and does not end with one"),
    (3, "run;0;0;3", "line 3: 'run;0;0;3' is none of levels, factors, added, block, repeats, coding, scale, name, run, "
     "error; cells are parted by commas here"),
    (3, "sum,0,0,3", "line 3: the readings of a run are wanted, and here is their sum, from which they cannot be told"),
    (3, ",0,0,3", "line 3: the first cell is blank, and not one of levels, factors, added, block, repeats, coding, scale, "
     "name, run, error"),
]


def repeated(repeats):
    """Lines of one factor and so many repeats."""
    runs = ["run,%d%s" % (level, ",7" * repeats) for level in range(2)]
    return "\n".join(["levels,2", "factors,1", "repeats,%d" % repeats] + runs)


# Lines, and what the program answers to the sheet that they make.
REFUSED = [
    ("levels,2\nfactors,11\n" + "".join("run,%s,0\n" % ",".join(bin(run)[3:]) for run in range(2048, 4096)), 1),
    ("levels,4\nfactors,1\nrun,0,3\nrun,1,5\nrun,2,4\nrun,3,8", 2),
    ("levels,2\nfactors,0\nrun,3", 3),
    ("levels,3\nfactors,1\nblock,A\nblock,A\nrun,0,2\nrun,1,5\nrun,2,3", 4),
    ("levels,3\nfactors,1\nblock,A\nrun,0,2\nrun,1,5\nrun,2,3", 5),
    (replaced(3, "block,AB\nblock,AB2", NINE_LINES), 4),
    (replaced(3, "added,AB,0", NINE_LINES), 4),
    (replaced(3, "block,AB\nadded,AB,0", NINE_LINES), 4),
    (replaced(13, "error,mean", NINE_LINES), 13),
    (replaced(3, "added,A,0\nrun,0,0,3"), 5),
    (replaced(3, "block,AC\nrun,0,0,3"), 5),
    (replaced(3, "added,AB,2\nrun,0,0,3"), 5),
    (replaced(3, "added,AB,0\nadded,BA,1\nrun,0,0,3"), 6),
    (replaced(3, "block,AB\nblock,AB\nrun,0,0,3"), 7),
    (replaced(3, "block,A\nrun,0,0,3"), 8),
    (repeated(0), 16),
    (repeated(3), 16),
    (repeated(16), 16),
    (repeated(255), 16),
    (repeated(3) + "\nblock,A", 8),
    ("levels,2\nfactors,10\nrepeats,2\n" + "".join("run,%s,0,0\n" % ",".join(bin(run)[3:]) for run in range(1024, 2048)), 1),
    (replaced(7, "run,1,1,8,1000001", TWICE_LINES), 12),
    (replaced(8, "error,mean", TWICE_LINES), 13),
    (replaced(3, "run,0,0,%d" % (-MOST_READING[2] - 1)), 12),
    (replaced(3, "run,0,0,2147483647"), 12),
    (replaced(3, "block,AB\nrun,0,0,3"), 13),
    (replaced(7, "error,mean"), 13),
]

WORDS_OF_16 = "repeats other than 1, 2, 4 or 8, over 1,024 readings, or a field 6 that holds 1"

# Repeats of one factor, and what the command tells of the sheet.
REPEATS_TOLD = [
    (1, ""),
    (2, ""),
    (4, ""),
    (8, ""),
    (3, "refused 16 (%s; 2 runs, repeats 3 in line 3)\n" % WORDS_OF_16),
    (0, "refused 16 (%s; 2 runs, repeats 0 in line 3)\n" % WORDS_OF_16),
]

AT_THREE_4 = "refused 4 (at three levels an added factor, or a second block word)\n"
AT_THREE_5 = ("refused 5 (at three levels a block word with a letter beyond k, under two letters, or a 2 after the first of "
              "them in the alphabet; the word in line 3)\n")

# What stands for the third of the nine runs' lines, and what the command tells of the sheet.
WORDS_TOLD = [
    ("block,AB", ""),
    ("block,AB2", ""),
    ("block,A2B", AT_THREE_5),
    ("block,C", AT_THREE_5),
    ("block,AB\nblock,AB2", AT_THREE_4),
    ("added,AB,0", AT_THREE_4),
]

PRINTS = "screentab will print the table\n"
ANSWERS = "screentab will answer: refused "
WORDS_OF_21 = "a main effect and an interaction of two factors have one base word"
WORDS_OF_MAINS = "the row of a main effect is marked as error"
NO_SCREENING = "# no screening plan: "

# Factors, what stands before the runs' lines, what is told of screening, and what the listing names, if it does. The first of
# the list is plan 2 of AMCP's Table 12-4, the third plan 6, of which not all that meets is named.
MET_TOLD = (2, "added,AB,1\nerror,A", ANSWERS + "21 (%s; A meets BC; B meets AC; C meets AB)\n" % WORDS_OF_21,
            "A meets BC, B meets AC, C meets AB")
SCREENED_TOLD = [
    (3, "added,ABC,0", PRINTS, None),
    (3, "added,ABC,1\nerror,AB\nerror,BC", PRINTS, None),
    (3, "added,ABC,0\nadded,BC,0\nadded,AC,0",
     ANSWERS + "21 (%s; A meets CF; A meets DE; B meets CE; B meets DF; C meets AF; C meets BE; D meets AE; D meets BF; "
     "and others)\n" % WORDS_OF_21,
     "A meets CF, A meets DE, B meets CE, B meets DF, C meets AF, C meets BE, D meets AE, D meets BF, and others"),
    MET_TOLD,
    (4, "added,ABC,0\nadded,ABCD,0", ANSWERS + "21 (%s; D meets EF; E meets DF; F meets DE)\n" % WORDS_OF_21,
     "D meets EF, E meets DF, F meets DE"),
    (5, "added,ABC,0\nadded,ADE,1\nadded,BCDE,0", ANSWERS + "21 (%s; F meets GH; G meets FH; H meets FG)\n" % WORDS_OF_21,
     "F meets GH, G meets FH, H meets FG"),
    (3, "added,ABC,0\nerror,ABC", ANSWERS + "13 (%s; row ABC, that of D, has mark 1)\n" % WORDS_OF_MAINS, None),
    (3, "added,ABC,1\nerror,ABC\nerror,B\nerror,AC",
     ANSWERS + "13 (%s; row B has mark 1; row ABC, that of D, has mark 1)\n" % WORDS_OF_MAINS, None),
    (3, "error,ABC", PRINTS, None),
    (3, "error,mean\nadded,AB,0", ANSWERS + "13 (a mark over 1, or mark 1 on the mean or a blocks row; row mean has mark 1)\n",
     None),
    (2, "added,AB,0\nadded,AB,1", ANSWERS + "6 (two added factors with one word)\n", None),
]

WORDS_OF_12 = "a reading beyond 1,000,000 either way at two levels, or beyond 100,000 at three"

# Levels, the reading of run 0, and whether the command tells of 12. The others are those of the rules' two examples.
ABOUT_LIMITS = [
    (2, MOST_READING[3] + 1, False),
    (2, MOST_READING[2], False),
    (2, -MOST_READING[2], False),
    (2, MOST_READING[2] + 1, True),
    (2, -MOST_READING[2] - 1, True),
    (3, MOST_READING[3], False),
    (3, MOST_READING[3] + 1, True),
    (3, -MOST_READING[2], True),
]


# Totals of the rules' examples, of which some lines are replaced below; then of nine runs, of repeats, of a blocked fraction.
FOUR_TOTALS = ["levels,2", "factors,2", "total,mean,20", "total,A,-6", "total,B,-4", "total,AB,2", "error,AB"]
THREE_TOTALS = ["levels,3", "factors,1", "total,mean,10", "total,A,-1", "total,A2,-5"]
NINE_LABELS = "mean A A2 B AB A2B B2 AB2 A2B2".split()
NINE_TOTALS = ["levels,3", "factors,2", "block,AB2"] + ["total,%s,%d" % pair for pair in zip(
    NINE_LABELS, totals_rules.totals(3, 2, NINE))] + ["error,AB", "error,B"]
TWICE_TOTALS = ["levels,2", "factors,2", "repeats,2"] + FOUR_TOTALS[2:]
EIGHT_TOTALS = ["levels,2", "factors,3", "added,ABC,1", "block,AB"] + ["total,%s,%d" % pair for pair in zip(
    "mean A B AB C AC BC ABC".split(), (36, -4, -8, 0, -16, 0, 0, 0))] + ["error,BC"]

WORDS_OF_TWO = "different letters from A to P"
NO_KIND = "'%s' is none of levels, factors, added, block, repeats, total, error"
UNCLEAR_TOTALS = [(FOUR_TOTALS, *own) for own in (
    (3, "run,0,0,3", "line 3: totals are wanted, and here is a run, which is for make"),
    (3, "total,mean,20\nrun,0,0,3", "line 4: totals are wanted, and here is a run, which is for make"),
    (3, "sum,0,0,3", "line 3: " + NO_KIND % "sum"),
    (3, "totals,mean,20", "line 3: " + NO_KIND % "totals"),
    (3, "scale,10", "line 3: totals are whole numbers, and a scale is for readings"),
    (3, "coding,-", "line 3: a coding is of levels of runs, and here are totals"),
    (3, "name,A,iterations", "line 3: names of factors are for make"),
    (1, "", "there is no line that begins with levels"),
    (2, "", "there is no line that begins with factors"),
    (1, "levels,2\nlevels,2", "line 2: levels is already in line 1"),
    (2, "factors,16", "line 2: no sheet holds the runs of 16 factors at 2 levels"),
    (3, "", "there is no line for the total of mean"),
    (6, "", "there is no line for the total of AB"),
    (6, "# total,AB,2", "there is no line for the total of AB"),
    (6, "total,AB,2\ntotal,BA,2", "line 7: the total is already in line 6"),
    (6, "total,mean,2", "line 6: the total is already in line 3"),
    (6, "total,AC,2", "line 6: 'AC' is no effect, for there are 2 factors"),
    (6, "total,P,2", "line 6: 'P' is no effect, for there are 2 factors"),
    (6, "total,AB2,2", "line 6: 'AB2' is not made of " + WORDS_OF_TWO),
    (6, "total,aB,2\ntotal,AB,2", "line 7: the total is already in line 6"),
    (6, "total,AA,2", "line 6: 'AA' is not made of " + WORDS_OF_TWO),
    (6, "total,3,2", "line 6: '3' is not made of " + WORDS_OF_TWO),
    (6, "total,,2", "line 6: '' is not made of " + WORDS_OF_TWO),
    (6, "total,Mean,2", "line 6: the total is already in line 3"),
    (6, "total,means,2", "line 6: 'means' is not made of " + WORDS_OF_TWO),
    (6, "total,AB", "line 6: 2 cells, wanted 3"),
    (6, "total,AB,", "line 6: 2 cells, wanted 3"),
    (6, "total,AB,2,3", "line 6: 4 cells, wanted 3"),
    (6, "total,AB,2.0", "line 6: '2.0' is no whole number from -9223372036854775808 to 9223372036854775807"),
    (6, "total,AB,9223372036854775808",
     "line 6: '9223372036854775808' is no whole number from -9223372036854775808 to 9223372036854775807"),
    (6, "total,AB,-9223372036854775809",
     "line 6: '-9223372036854775809' is no whole number from -9223372036854775808 to 9223372036854775807"),
    (6, "total,AB,18446744073709551618",
     "line 6: '18446744073709551618' is no whole number from -9223372036854775808 to 9223372036854775807"),
    (7, "error,AC", "line 7: 'AC' is no row, for there are 2 factors"),
    (7, "error,AB\nerror,BA", "line 8: the row AB is already in line 7"),
)] + [(THREE_TOTALS, *own) for own in (
    (5, "", "there is no line for the total of A2"),
    (5, "total,A,-5", "line 5: the total is already in line 4"),
    (5, "total,B,-5", "line 5: 'B' is no effect, for there are 1 factors"),
    (5, "total,A3,-5", "line 5: 'A3' is not made of " + WORDS_WANTED),
    (5, "total,A22,-5", "line 5: 'A22' is not made of " + WORDS_WANTED),
    (5, "total,AA2,-5", "line 5: 'AA2' is not made of " + WORDS_WANTED),
    (5, "total,P2,-5", "line 5: 'P2' is no effect, for there are 1 factors"),
)] + [
    (NINE_TOTALS, 9, "", "there is no line for the total of A2B"),
    (NINE_TOTALS, 12, "total,B2A,0", "line 12: the total is already in line 11"),
]

# Lines, and what comes back.
FOUR_BACK = """# 4 runs, 4 rows
levels,2
factors,2
# after run the levels of these, then the reading: A B
run,0,0,3,# (1)
run,1,0,5,# a
run,0,1,4,# b
run,1,1,8,# ab
error,AB
"""
RUNS_BACK = [
    (FOUR_TOTALS, FOUR_BACK),
    (FOUR_TOTALS[::-1], FOUR_BACK),
    (["# archived", *FOUR_TOTALS[:5], 'total, "BA" , +2 ,# of A and B', "error,BA", "repeats,1", ""], FOUR_BACK),
    ([line.replace(",", ";").upper() for line in FOUR_TOTALS], FOUR_BACK),
    (FOUR_TOTALS[:6], FOUR_BACK.replace("error,AB\n", "")),
    (THREE_TOTALS, """# 3 runs, 2 rows
levels,3
factors,1
# after run the levels of these, then the reading: A
run,0,2
run,1,5
run,2,3
"""),
    (NINE_TOTALS, """# 9 runs, 4 rows
levels,3
factors,2
block,AB2
# lost to blocks: 2 degrees of AB
# block 0: 00 11 22
# block 1: 10 21 02
# block 2: 20 01 12
# after run the levels of these, then the reading: A B
run,0,0,2,# block 0
run,1,0,5,# block 1
run,2,0,3,# block 2
run,0,1,1,# block 2
run,1,1,4,# block 0
run,2,1,6,# block 1
run,0,2,7,# block 1
run,1,2,8,# block 2
run,2,2,9,# block 0
error,B,# the main effect of B
error,AB
"""),
    (EIGHT_TOTALS, """# 8 runs, 8 rows
levels,2
factors,3
added,ABC,1,# D = -ABC: D is high when an even number of these are
# aliases, high minus low, of main effects and of interactions of two factors:
# AB = -CD, lost to blocks
# AC = -BD
# BC = -AD
# ABC = -D
block,AB
# lost to blocks: AB
# block 0: d abd c abc
# block 1: a b acd bcd
# after run the levels of these, then the reading: A B C
run,0,0,0,1,# d in block 0
run,1,0,0,2,# a in block 1
run,0,1,0,3,# b in block 1
run,1,1,0,4,# abd in block 0
run,0,0,1,5,# c in block 0
run,1,0,1,6,# acd in block 1
run,0,1,1,7,# bcd in block 1
run,1,1,1,8,# abc in block 0
error,BC
"""),
    (TWICE_TOTALS, """# 4 runs, 4 rows
levels,2
factors,2
repeats,2
# after sum the levels of these, then the sum of 2 readings: A B
sum,0,0,3,# (1)
sum,1,0,5,# a
sum,0,1,4,# b
sum,1,1,8,# ab
error,AB
"""),
    (["levels,2", "factors,1", "total,mean,0", "total,A,%d" % (-2 * MOST_READING[2])], """# 2 runs, 2 rows
levels,2
factors,1
# after run the levels of these, then the reading: A
run,0,-1000000,# (1)
run,1,1000000,# a
"""),
]

WORDS_OF_14 = "no readings within the limit have the totals"
NOT_WHOLE = "%s comes out as %s, which is not whole"


def one_factor(levels, totals, *others):
    """Lines of totals of one factor."""
    return ["levels,%d" % levels, "factors,1", *others] + ["total,%s,%d" % pair for pair in zip(NINE_LABELS, totals)]


# Lines, and the message.
REFUSED_TOTALS = [
    (FOUR_TOTALS[:5] + ["total,AB,3"], "refused 14 (%s; %s)" % (WORDS_OF_14, "; ".join(
        NOT_WHOLE % pair for pair in (("run 0,0", "13/4"), ("run 1,0", "19/4"), ("run 0,1", "15/4"), ("run 1,1", "33/4"))))),
    (one_factor(3, (10, -1, -4)), "refused 14 (%s; %s)" % (WORDS_OF_14, "; ".join(
        NOT_WHOLE % pair for pair in (("run 0", "13/6"), ("run 1", "14/3"), ("run 2", "19/6"))))),
    (one_factor(3, (11, -1, -4)), "refused 14 (%s; %s)" % (WORDS_OF_14, "; ".join(
        NOT_WHOLE % pair for pair in (("run 0", "5/2"), ("run 2", "7/2"))))),
    (one_factor(2, (MOST_READING[2] + 1,) * 2),
     "refused 14 (%s; run 0 comes out as 1000001, beyond 1,000,000 either way)" % WORDS_OF_14),
    (one_factor(2, (0, 2 * MOST_READING[2] + 2)),
     "refused 14 (%s; run 0 comes out as 1000001, beyond 1,000,000 either way; run 1 comes out as -1000001, beyond 1,000,000 "
     "either way)" % WORDS_OF_14),
    (one_factor(3, (MOST_READING[2], 0, -2 * MOST_READING[2])),
     "refused 14 (%s; run 1 comes out as 1000000, beyond 100,000 either way)" % WORDS_OF_14),
    (one_factor(2, (2 * MOST_READING[2] + 1,) * 2, "repeats,2"),
     "refused 14 (%s; the sum of run 0 comes out as 2000001, beyond 2,000,000 either way)" % WORDS_OF_14),
    (one_factor(2, (3, 0), "repeats,8"), "refused 14 (%s; %s)" % (WORDS_OF_14, "; ".join(
        NOT_WHOLE % ("the sum of run %d" % run, "3/2") for run in range(2)))),
    (one_factor(2, (-2 ** 63, 2 ** 63 - 2)), "refused 14 (%s; run 1 comes out as -9223372036854775807, beyond 1,000,000 "
     "either way)" % WORDS_OF_14),
    (EIGHT_TOTALS[:4] + ["total,mean,37"] + EIGHT_TOTALS[5:], "refused 14 (%s; %s)" % (WORDS_OF_14, "; ".join(
        NOT_WHOLE % ("run %d,%d,%d" % (run % 2, run // 2 % 2, run // 4), "%d/8" % (8 * run + 9)) for run in range(8)))),
    (["levels,2", "factors,4"] + ["total,%s,%d" % (row_label(row), row == 0) for row in range(16)],
     "refused 14 (%s; %s; and others)" % (WORDS_OF_14, "; ".join(
         NOT_WHOLE % ("run %d,%d,%d,0" % (run % 2, run // 2 % 2, run // 4), "1/16") for run in range(8)))),
    (["levels,4", "factors,1", "total,mean,1"], "refused 2 (levels other than 2 or 3)"),
    (["levels,2", "factors,0", "total,mean,1"],
     "refused 3 (k out of range, which is 1 to 10 at two levels and 1 to 6 at three)"),
    (["levels,3", "factors,7"], "refused 3 (k out of range, which is 1 to 10 at two levels and 1 to 6 at three)"),
    (NINE_TOTALS + ["block,AB"], "refused 4 (at three levels an added factor, or a second block word)"),
    (FOUR_TOTALS + ["block,AC"],
     "refused 5 (a letter beyond k, an added word under two letters, a sign over 1, or an empty block word)"),
    (FOUR_TOTALS + ["added,AB,0", "added,AB,1"], "refused 6 (two added factors with one word)"),
    (FOUR_TOTALS + ["block,AB", "block,AB"], "refused 7 (some one or more block words combine to the empty word)"),
    (FOUR_TOTALS + ["block,A"], "refused 8 (a confounded effect is one letter or an added factor's word)"),
    (FOUR_TOTALS + ["repeats,3"], "refused 16 (%s; 4 runs, repeats 3)" % WORDS_OF_16),
    (FOUR_TOTALS[:5] + ["total,AB,3", "block,A", "repeats,3"],
     "refused 8 (a confounded effect is one letter or an added factor's word)"),
    (FOUR_TOTALS[:5] + ["total,AC,3", "repeats,3"], "refused 16 (%s; 4 runs, repeats 3)" % WORDS_OF_16),
]


def lines_and_sheet(levels, reading):
    """The lines of the rules' example of so many levels with a reading of run 0, and the sheet that they must make."""
    if levels == 2:
        return replaced(3, "run,0,0,%d" % reading), sheet_bytes.write(Plan(2, 2), [reading, 5, 4, 8], [0, 0, 0, 1])
    lines = "levels,3\nfactors,1\nrun,0,%d\nrun,1,5\nrun,2,3\n" % reading
    return lines, sheet_bytes.write(Plan(3, 1), [reading, 5, 3], [0, 0])


# ---- checks ----

def make(text):
    """The sheet of lines."""
    return made(text).sheet


def message_of(text):
    """The message about lines that are not understood, None for others."""
    try:
        made(text)
    except Problem as why:
        return str(why)
    return None


def check_make():
    """Complaints about lines: messages, numbers of sheets that are refused, and lines that make the same sheet."""
    complaints = []
    for number, text, message in UNCLEAR:
        if message_of(replaced(number, text)) != message:
            complaints.append("%r: message %s" % (text, message_of(replaced(number, text))))
    for number, text, message in UNCLEAR_TWICE:
        found = message_of(replaced(number, text, TWICE_LINES))
        if found != message:
            complaints.append("%r with repeats: message %s" % (text, found))
    for number, text, message in UNCLEAR_NINE:
        found = message_of(replaced(number, text, NINE_LINES))
        if found != message:
            complaints.append("%r at three levels: message %s" % (text, found))
    if message_of(TOO_MANY) != "line 3: no sheet holds 3 readings for each run of 13 factors at 2 levels":
        complaints.append("too many readings: message %s" % message_of(TOO_MANY))
    for text, refused in REFUSED:
        if text_rules.answer(make(text)) != refused:
            complaints.append("%r: not refused with %d" % (text[:40], refused))
    for lines in (TWICE_LINES, list(reversed(TWICE_LINES))):
        if make("\n".join(lines)) != TWICE_SHEET:
            complaints.append("%r: another sheet" % lines[0])
    for text in [replaced(number, text) for number, text in SAME] + ["\n".join(reversed(FOUR_LINES))] + SAME_TEXTS:
        if message_of(text) or make(text) != text_cases.RULES_SHEET:
            complaints.append("%r: another sheet, or none: %s" % (text, message_of(text)))
    return complaints


def scaled(scale, cell):
    """The reading of a cell with a scale, by its sheet, or the message."""
    text = "levels;2\nfactors;1\nscale;%d\nrun;0;%s\nrun;1;0" % (scale, cell)
    return message_of(text) or sheet_bytes.contents_of(sheet_bytes.fields_of(make(text))).readings[0]


def check_forms():
    """Complaints about scales, names, headers and quotes."""
    complaints = ["%r: message %s" % (text, message_of(replaced(number, text))) for number, text, message in UNCLEAR_FORMS
                  if message_of(replaced(number, text)) != message]
    complaints += ["scale %d, %r: %s" % (scale, cell, scaled(scale, cell)) for scale, cell, meant in SCALED
                   if scaled(scale, cell) != meant]
    for lines, names, scale in NAMED:
        own = made(lines + "\n" + FOUR_TEXT)
        if (own.names, own.scale) != (names, scale):
            complaints.append("%r: other names, or another scale" % lines)
    return complaints


def check_codings():
    """Complaints about codings at three levels."""
    complaints = []
    for coding, cells in LEVELS_CODED:
        lines = "levels,3\nfactors,1\ncoding,%s\nrun,%s,2\nrun,%s,5\nrun,%s,3" % (coding, *cells)
        if make(lines) != sheet_bytes.write(Plan(3, 1), [2, 5, 3], [0, 0]):
            complaints.append("coding %s at three levels: another sheet" % coding)
    return complaints


def command_says(lines):
    """What the command writes of lines: the sheet, also where it is refused, and the message; and its exit status."""
    return command_ends(["make", "-o", "-", "--anyway"], lines.encode())


def command_ends(way, content):
    """What the command writes of a file with some content, to standard output and to standard error, there without its name
    and that of the file; and its exit status."""
    with tempfile.TemporaryDirectory() as folder:
        path = Path(folder) / "content"
        path.write_bytes(content)
        found = subprocess.run([sys.executable, "-B", str(ROOT / "tools" / "ftab"), *way, str(path)],
                               stdout=subprocess.PIPE, stderr=subprocess.PIPE)
        return found.stdout, found.stderr.decode().replace("ftab: %s: " % path, ""), found.returncode


def told(message):
    """A message of the command, and the exit status that belongs to it."""
    return message, 1 if message else 0


def check_limits():
    """Complaints about the command on readings about the limits: the sheet is written, and a message where it is refused,
    which names the readings beyond the limit of their level count and no others, with their lines."""
    complaints = []
    for levels, reading, refused in ABOUT_LIMITS:
        lines, own_sheet = lines_and_sheet(levels, reading)
        message = "refused 12 (%s; run 0 in line 3 has %d)\n" % (WORDS_OF_12, reading) if refused else ""
        if command_says(lines) != (own_sheet, *told(message)):
            complaints.append("%d levels, reading %d: sheet or message" % (levels, reading))
    if places(12, sheet_bytes.Contents(Plan(2, 1), [MOST_READING[2] + 1, MOST_READING[3] + 1], b"\0\0")) != [
            "run 0 has %d" % (MOST_READING[2] + 1)]:
        complaints.append("the readings that are named for 12")
    return complaints


def check_repeats():
    """Complaints about the command on lines with repeats: the sheet is written, and a message where it is refused."""
    complaints = []
    for repeats, message in REPEATS_TOLD:
        own_sheet = sheet_bytes.write(Plan(2, 1, repeats=repeats), [7] * 2 * repeats, [0, 0])
        if command_says(repeated(repeats)) != (own_sheet, *told(message)):
            complaints.append("%d repeats: sheet or message" % repeats)
    if places(12, sheet_bytes.Contents(Plan(2, 1, repeats=2), [0, 0, 0, MOST_READING[2] + 1], b"\0\0")) != [
            "run 1 has %d" % (MOST_READING[2] + 1)]:
        complaints.append("the run that is named for 12, with repeats")
    if places(11, sheet_bytes.Contents(Plan(2, 1, repeats=2), [7] * 3, b"\0\0")) != [
            "3 readings for 2 runs of 2 each, 2 marks for 2 rows"]:
        complaints.append("the counts that are named for 11, with repeats")
    if not listing(TWICE_SHEET).startswith("# 4 runs, 4 rows\nlevels,2\nfactors,2\nrepeats,2\n"):
        complaints.append("the listing of a sheet with repeats")
    return complaints


def plain_lines(levels, k, others):
    """Some lines, after those of levels and factors, and readings that are all 7."""
    runs = [totals_rules.digits(levels, k, run) for run in range(totals_rules.run_count(levels, k))]
    return "\n".join(["levels,%d" % levels, "factors,%d" % k, others]
                     + ["run,%s,7" % ",".join(map(str, own)) for own in runs])


def check_three_words():
    """Complaints about block words of three levels: the number that the sheet holds, its answer, and the listing, which has the
    letters in the order of the alphabet; and about the command on them."""
    complaints = []
    for k, cell, word, refused in THREE_WORDS:
        own_sheet, plan = make(plain_lines(3, k, "block," + cell)), Plan(3, k, (), (word,))
        listed = ("# block word: %s" if refused else "block,%s") % "".join(sorted(re.findall("[A-P]2?", cell.upper())))
        if own_sheet != sheet_bytes.write(plan, [7] * totals_rules.reading_count(plan), [0] * 2 ** k):
            complaints.append("%s with %d factors: another sheet" % (cell, k))
        if text_rules.answer(own_sheet) != refused or listed not in listing(own_sheet).split("\n"):
            complaints.append("%s with %d factors: answer or listing" % (cell, k))
    for text, message in WORDS_TOLD:
        lines = replaced(3, text, NINE_LINES)
        if command_says(lines) != (make(lines), *told(message)):
            complaints.append("%r at three levels: sheet or message" % text)
    if make("\n".join(NINE_LINES)) != sheet_bytes.write(Plan(3, 2, (), (4,)), NINE, [0, 0, 0, 1]):
        complaints.append("nine runs in three blocks: another sheet")
    meant = "levels,3\nfactors,2\nblock,AB\n# lost to blocks: 2 degrees of AB\n"
    if meant not in listing(make("\n".join(NINE_LINES))) or "\nrun,2,1,6,# block 0\n" not in listing(make("\n".join(NINE_LINES))):
        complaints.append("nine runs in three blocks: listing")
    return complaints


def check_screened():
    """Complaints about what is told of screening, and what the listing names; and about the command, which tells it, and where
    it makes a sheet of which factab makes a table tells nothing."""
    complaints = []
    for k, others, answer, listed in SCREENED_TOLD:
        own_sheet = make(plain_lines(2, k, others))
        if screened(own_sheet) + "\n" != answer:
            complaints.append("%r: what is told of screening" % others)
        found = [line[len(NO_SCREENING):] for line in listing(own_sheet).split("\n") if line.startswith(NO_SCREENING)]
        if found != ([listed] if listed else []):
            complaints.append("%r: what the listing has of screening" % others)
    at_three = ANSWERS + "9 (the screening profile is for two-level plans)\n"
    warning = "warning: row A is the main effect of A, which is pooled as error\n"
    tried = [(plain_lines(2, 2, MET_TOLD[1]), warning, MET_TOLD[2]), ("\n".join(NINE_LINES), "", at_three)]
    for lines, message, answer in tried:
        if command_says(lines) != (make(lines), message, 0) or command_ends(["screen"], make(lines)) != (b"", answer, 1):
            complaints.append("the command on %r" % answer)
    return complaints


def recovered_or_message(text):
    """The lines of runs that have the totals of lines, and else the message."""
    try:
        return recovered(text)
    except Problem as why:
        return str(why)


def sheet_back(text):
    """The sheet of the runs that have the totals of lines, None where there is none."""
    lines = recovered_or_message(text)
    return None if message_of(lines) else make(lines)


def total_lines(own):
    """The lines of totals of a worked table whose runs are made once."""
    plan = own.plan
    return "\n".join(
        ["levels,%d" % plan.levels, "factors,%d" % plan.k]
        + ["added,%s,%d" % (row_label(word), sign) for word, sign in plan.added]
        + ["block," + block_text(plan.levels, word) for word in plan.blocks]
        + ["total,%s,%d" % (effect_label(plan, effect), total)
           for effect, total in enumerate(totals_rules.totals(plan.levels, plan.k, own.readings))]
        + ["error," + row_label(row) for row in own.marked])


def check_recover():
    """Complaints about lines of totals: messages, the lines of runs, and that those of a worked table make its sheet."""
    complaints = []
    for lines, number, text, message in UNCLEAR_TOTALS:
        if recovered_or_message(replaced(number, text, lines)) != message:
            complaints.append("%r: message %s" % (text, recovered_or_message(replaced(number, text, lines))))
    for lines, meant in RUNS_BACK + REFUSED_TOTALS:
        if recovered_or_message("\n".join(lines)) != meant:
            complaints.append("%r: %s" % ("; ".join(lines), recovered_or_message("\n".join(lines))))
    for name, own in EXAMPLES.items():
        if own.plan.repeats == 1 and sheet_back(total_lines(own)) != text_cases.of_table(own).sheet:
            complaints.append("%s: the runs that come back make another sheet" % name)
    sums = "\n".join(TWICE_TOTALS)
    if message_of(recovered_or_message(sums)) != (
            "line 6: the readings of a run are wanted, and here is their sum, from which they cannot be told"):
        complaints.append("a sheet of sums")
    if message_of("\n".join(FOUR_TOTALS)) != "line 3: the readings of runs are wanted, and here is a total, which is for recover":
        complaints.append("a sheet of totals")
    return complaints


def check_recover_command():
    """Complaints about the command on lines of totals: what it writes, its message and its exit status."""
    complaints = []
    first, alone = UNCLEAR_TOTALS[0], FOUR_TOTALS[:5] + ["total,AB,3"]
    recover, make_out = ["recover"], ["make", "-o", "-"]
    tried = [(recover, lines, (back.encode(), "", 0)) for lines, back in (RUNS_BACK[0], RUNS_BACK[6], RUNS_BACK[8])]
    tried += [(recover, lines, (b"", message + "\n", 1)) for lines, message in REFUSED_TOTALS[::3]]
    tried += [(recover, replaced(*first[1:3], first[0]).split("\n"), (b"", first[3] + "\n", 1)),
              (make_out, FOUR_BACK.split("\n"), (text_cases.RULES_SHEET, "", 0)),
              (make_out, RUNS_BACK[8][1].split("\n"), (b"", message_of(RUNS_BACK[8][1]) + "\n", 1)),
              (make_out, alone, (b"", message_of("\n".join(alone)) + "\n", 1))]
    for way, lines, meant in tried:
        found = command_ends(way, "\n".join(lines).encode())
        if found != meant:
            complaints.append("%s of %r: %r" % (way[0], "; ".join(lines), found))
    return complaints


def check_full():
    """Complaints about the command where its output cannot be written: a message and the exit status, whatever it was to write."""
    complaints = []
    for way, name in ("make", "four_runs.csv"), ("list", "four_runs.sheet"), ("recover", "four_runs_totals.csv"):
        more = ["-o", "-"] if way == "make" else []
        with open("/dev/full", "wb") as full:
            found = subprocess.run([sys.executable, "-B", str(ROOT / "tools" / "ftab"), way, *more, str(FOLDER / name)],
                                   stdout=full, stderr=subprocess.PIPE)
        if (found.stderr, found.returncode) != (b"ftab: the output cannot be written\n", 1):
            complaints.append("%s to a full disk: %r, %d" % (way, found.stderr, found.returncode))
    return complaints


def check_listing(own):
    """Complaints about the lines of a sheet: they make it again, or give the number of its refusal and a cause."""
    refused = text_rules.answer(own.sheet)
    lines = listing(own.sheet)
    if bool(field_causes(own.sheet)) != (refused == 1):
        return ["%s: cause" % own.name]
    if (NO_SCREENING in lines) != (screening_rules.answer(own.sheet) == 21):
        return ["%s: what meets" % own.name]
    if refused:
        return [] if lines.startswith("# refused %d: " % refused) else ["%s: number" % own.name]
    return [] if make(lines) == own.sheet else ["%s: its lines make another sheet" % own.name]


def check_screening(own):
    """Complaints about what is told of the screening of a sheet: the number and a cause, or that the table is printed."""
    refused, answer = screening_rules.answer(own.sheet), screened(own.sheet) + "\n"
    meant = answer.startswith(ANSWERS + "%d (" % refused) if refused else answer == PRINTS
    return [] if meant else ["%s: screening" % own.name]


def check_example(name, own):
    """Complaints about a stored example: its lines make its sheet, which is that of a worked table."""
    lines, stored = FOLDER / (name + ".csv"), FOLDER / (name + ".sheet")
    if not lines.exists() or not stored.exists():
        return ["examples/%s: its lines or its sheet are absent" % name]
    complaints = [] if make(read_text(lines)) == stored.read_bytes() else ["its lines make another sheet"]
    complaints += [] if stored.read_bytes() == text_cases.of_table(own).sheet else ["not the sheet of %s" % own.title]
    return ["examples/%s: %s" % (name, complaint) for complaint in complaints]


def check_own_example(name, plan, readings, marked, names, scale):
    """Complaints about a stored example whose readings are not published: its lines make its sheet, and hold what is
    meant."""
    lines, stored = FOLDER / (name + ".csv"), FOLDER / (name + ".sheet")
    if not lines.exists() or not stored.exists():
        return ["examples/%s: its lines or its sheet are absent" % name]
    meant = sheet_bytes.write(plan, readings, [int(row in marked) for row in range(2 ** plan.k)])
    own = made(read_text(lines))
    complaints = [] if own.sheet == stored.read_bytes() else ["its lines make another sheet"]
    complaints += [] if (own.sheet, own.names, own.scale) == (meant, names, scale) else ["it holds something else"]
    return ["examples/%s: %s" % (name, complaint) for complaint in complaints]


def check_totals_example(name, other):
    """Complaints about stored lines of totals: the runs that come back make the sheet of another example."""
    lines, stored = FOLDER / (name + ".csv"), FOLDER / (other + ".sheet")
    if not lines.exists() or sheet_back(read_text(lines)) != stored.read_bytes():
        return ["examples/%s: absent, or its runs are not those of %s" % (name, other)]
    return []


def check():
    """List of all complaints about lines, the command, listings and stored examples."""
    complaints = check_make() + check_forms() + check_codings()
    complaints += check_limits() + check_repeats() + check_three_words() + check_screened()
    complaints += check_recover() + check_recover_command() + check_full()
    for name, other in TOTALS_EXAMPLES.items():
        complaints += check_totals_example(name, other)
    for own in text_cases.SHEETS:
        complaints += check_listing(own) + check_screening(own)
    for name, own in EXAMPLES.items():
        complaints += check_example(name, own)
    for name, own in OWN_EXAMPLES.items():
        complaints += check_own_example(name, *own)
    return complaints
