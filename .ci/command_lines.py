# Cases of the command tools/ftab: how it is used, and its parts make, list, screen and recover. Each is a run of the
# command; how it is made is in .ci/cases.py. What single lines of cells make, and their messages, is tried without the
# command in reference/cases/csv_cases.py; here every kind of damage to a file has a run.
#
# Defined here:
#   USAGE                  arguments: help, version, wrong usage
#   MAKE, WARNED, REFUSED  sheets that are made; with a warning; sheets that are refused
#   DAMAGED                files of which no sheet is made
#   BATCHES                several files at once
#   LIST, SCREEN, RECOVER  the other parts
#   OUTPUTS                inputs and outputs that are closed or fail
#   CASES                  all of them

import re
import sys
from pathlib import Path

from cases import COMMAND, Case, has

ROOT = Path(__file__).resolve().parent.parent
sys.path.insert(0, str(ROOT))

from reference.rules import sheet_bytes
from reference.rules.totals import Plan

VERSION = re.search('(?m)^VERSION = "(.*)"$', COMMAND.read_text()).group(1)
EXAMPLES = ROOT / "examples"

# The rules' example: lines, of which some are replaced below, their sheet, its listing and its totals; and a smaller one.
FOUR = b"levels,2\nfactors,2\nrun,0,0,3\nrun,1,0,5\nrun,0,1,4\nrun,1,1,8\nerror,AB\n"
SHEET = sheet_bytes.write(Plan(2, 2), [3, 5, 4, 8], [0, 0, 0, 1])
LISTED = (b"# 4 runs, 4 rows\nlevels,2\nfactors,2\n# after run the levels of these, then the reading: A B\n"
          b"run,0,0,3,# (1)\nrun,1,0,5,# a\nrun,0,1,4,# b\nrun,1,1,8,# ab\nerror,AB\n")
TOTALS = b"levels,2\nfactors,2\ntotal,mean,20\ntotal,A,-6\ntotal,B,-4\ntotal,AB,2\nerror,AB\n"
NO_TOTALS = TOTALS.replace(b"AB,2", b"AB,3")
OTHER = b"levels,2\nfactors,1\nrun,0,7\nrun,1,9\n"
OTHER_SHEET = sheet_bytes.write(Plan(2, 1), [7, 9], [0, 0])

ONE, TWO, SHEETS = {"a.csv": FOUR}, {"a.csv": FOUR, "b.csv": OTHER}, {"a.sheet": SHEET}


def with_line(number, text):
    """The lines of the rules' example with other text in the place of a line."""
    lines = FOUR.splitlines(True)
    return b"".join(lines[:number - 1] + [text + b"\n"] + lines[number:])


def stored(name):
    """The bytes of an example."""
    return (EXAMPLES / name).read_bytes()


def eight(*others):
    """Lines of three factors whose readings are 1 to 8, and others."""
    runs = ["run,%d,%d,%d,%d" % (run % 2, run // 2 % 2, run // 4, run + 1) for run in range(8)]
    return "\n".join(["levels,2", "factors,3", *others, *runs, ""]).encode()


def eight_sheet(added, *marked):
    """The sheet of such lines with added factors and rows that are pooled as error."""
    return sheet_bytes.write(Plan(2, 3, added), range(1, 9), [int(row in marked) for row in range(8)])


def sixteen(added, blocks=()):
    """The sheet of four factors and added ones, all readings 7."""
    return sheet_bytes.write(Plan(2, 4, added, blocks), [7] * 16, [0] * 16)


def told(name, arguments, files, *words, **others):
    """A case with a message and exit status 1; if not said otherwise, nothing is written."""
    return Case(name, arguments, files, status=1, error=list(words), **others)


# ---- how it is used ----

def wrong_usage(name, arguments, files, *words):
    """A case of wrong usage: nothing is written but the usage and what is wrong."""
    return Case("usage, " + name, arguments, files, status=2, error=["usage: ftab", *words])


def helped(*arguments):
    """A case of the help of a part: usage, that not all is proved, and the exit status."""
    words = "usage: ftab " + arguments[0], "not proved", "Exit status: 0 "
    return Case("usage, help of " + arguments[0], [*arguments, "--help"], output=has(*words))


USAGE = [
    Case("usage, the version", ["--version"], output=b"ftab %s\n" % VERSION.encode()),
    Case("usage, the help", ["--help"], output=has(
        "usage: ftab PART", "make", "list", "show", "plot", "check", "screen", "recover", "is proved", "Exit status: 0 ")),
    Case("usage, the help in short", ["-h"], output=has("usage: ftab PART")),
    helped("make"),
    helped("list"),
    helped("screen"),
    helped("recover"),
    wrong_usage("no part", [], {}, "required: PART"),
    wrong_usage("a part that there is not", ["tables"], {}, "invalid choice: 'tables'"),
    wrong_usage("a part after two hyphens", ["--", "make"], ONE, "a part is to be named first"),
    wrong_usage("no file", ["make"], ONE, "ftab make: ", "required: FILE"),
    wrong_usage("an argument that there is not", ["make", "--quick", "a.csv"], ONE, "unrecognized arguments: --quick"),
    wrong_usage("an argument cut short", ["make", "--any", "a.csv"], ONE, "unrecognized arguments: --any"),
    wrong_usage("-o for two files", ["make", "a.csv", "b.csv", "-o", "c"], TWO, "-o is for one file, and here are 2"),
    wrong_usage("-o and --into", ["make", "a.csv", "-o", "c.sheet", "--into", "c"], ONE, "not allowed with"),
    wrong_usage("--into for standard input", ["make", "-", "--into", "c"], {}, "standard input has none"),
    wrong_usage("a file twice", ["make", "a.csv", "a.csv"], ONE, "a.csv is named twice"),
    wrong_usage("two files for one place", ["make", "a.csv", "in/a.csv", "--into", "c"], {**ONE, "in/a.csv": OTHER},
                "a.csv and in/a.csv would both be written to c/a.sheet"),
    wrong_usage("a sheet over its lines", ["make", "a.csv", "-o", "./a.csv"], ONE, "./a.csv is read, and would be written"),
    wrong_usage("a sheet over other lines", ["make", "a.csv", "a.sheet"], {**ONE, "a.sheet": OTHER}, "a.sheet is read, and"),
    wrong_usage("runs of two files to one output", ["recover", "a.csv", "b.csv"], TWO, "several files want --into FOLDER"),
    wrong_usage("runs over their totals", ["recover", "a.csv", "--into", "."], {"a.csv": TOTALS}, "would be written over"),
]


# ---- sheets that are made ----

def made(name, content, sheet=SHEET):
    """A case of a file of which a sheet is made, beside it and without a word."""
    return Case("make, " + name, ["make", "a.csv"], {"a.csv": content}, written={"a.sheet": sheet})


SIGNS = b"levels,2\nfactors,2\ncoding,-\nrun,A,B,reading\nrun,-,-,3\nrun,+,-,5\nrun,-,+,4\nrun,+,+,8\nerror,AB\n"
SCALED = b"levels;2\nfactors;1\nscale;1000\nrun;0;0,007\nrun;1;9e-3\n"
REPEATED = b"levels,2\nfactors,1\nrepeats,2\nrun,0,7,8\nrun,1,9,10\n"

MAKE = [
    made("a file", FOUR),
    made("the byte order mark, lines that end as in Windows", b"\xef\xbb\xbf" + FOUR.replace(b"\n", b"\r\n")),
    made("lines that end with a return", FOUR.replace(b"\n", b"\r")),
    made("no end of the last line", FOUR[:-1]),
    made("the line by which a spreadsheet says its separator", b"sep=;\n" + FOUR.replace(b",", b";")),
    made("semicolons", FOUR.replace(b",", b";")),
    made("tabs", FOUR.replace(b",", b"\t")),
    made("quotes", re.sub(rb"[^,\n]+", rb'"\g<0>"', FOUR)),
    made("capitals and small letters", FOUR.lower().replace(b"run", b"Run").replace(b"ab", b"bA")),
    made("blank cells and blank lines", with_line(1, b"\n,,\nlevels,2,,,")),
    made("a header and levels that are signs", SIGNS),
    made("levels from 1", b"coding,1\nlevels,2\nfactors,1\nrun,1,7\nrun,2,9\n", OTHER_SHEET),
    made("decimals and a scale, decimal commas", SCALED, OTHER_SHEET),
    made("repeats", REPEATED, sheet_bytes.write(Plan(2, 1, repeats=2), [7, 8, 9, 10], [0, 0])),
    made("several rows in a line", eight("error,AB,ca,ABC"), eight_sheet((), 0b011, 0b101, 0b111)),
    made("three levels in three blocks", stored("three_blocks.csv"), stored("three_blocks.sheet")),
    Case("make, another ending", ["make", "in/a.b.txt"], {"in/a.b.txt": FOUR}, written={"in/a.b.sheet": SHEET}),
    Case("make, a name that begins with a hyphen", ["make", "--", "-a.csv"], {"-a.csv": FOUR}, written={"-a.sheet": SHEET}),
    Case("make, a sheet that was there before", ["make", "a.csv"], {**ONE, "a.sheet": OTHER_SHEET}, written=SHEETS),
    Case("make, -o", ["make", "a.csv", "-o", "b"], ONE, written={"b": SHEET}),
    Case("make, -o -", ["make", "a.csv", "-o", "-"], ONE, output=SHEET),
    Case("make, an output that is no file", ["make", "a.csv", "-o", "/dev/stdout"], ONE, output=SHEET),
    Case("make, standard input", ["make", "-"], stdin=FOUR, output=SHEET),
    Case("make, standard input to a file", ["make", "-", "-o", "b.sheet"], stdin=FOUR, written={"b.sheet": SHEET}),
    Case("make, a folder that is not there", ["make", "a.csv", "--into", "b/c"], ONE, written={"b/c/a.sheet": SHEET}),
]


def warned(name, content, sheet, *words):
    """A case of a file of which a sheet is made, with warnings."""
    return Case("make, " + name, ["make", "a.csv"], {"a.csv": content}, written={"a.sheet": sheet},
                error=["ftab: a.csv: warning: " + own for own in words])


POOLED = "row %s is the main effect of %s, which is pooled as error\n"

WARNED = [
    warned("an added factor's word is pooled", stored("fraction.csv"), stored("fraction.sheet"),
           POOLED % ("ABC", "E (mixed precision)")),
    warned("two added factors' words are pooled", eight("added,AB,1", "added,BC,0", "error,AB,BC,AC"),
           eight_sheet(((3, 1), (6, 0)), 3, 5, 6), POOLED % ("AB", "D"), POOLED % ("BC", "E")),
    warned("a base factor is pooled", eight("name,C,depth", "error,C"), eight_sheet((), 4), POOLED % ("C", "C (depth)")),
    warned("a base factor of three levels is pooled", b"levels,3\nfactors,1\nrun,0,2\nrun,1,5\nrun,2,3\nerror,A",
           sheet_bytes.write(Plan(3, 1), [2, 5, 3], [0, 1]), POOLED % ("A", "A")),
    made("the word of no factor is pooled", eight("added,AB,1", "error,AC,BC,ABC"), eight_sheet(((3, 1),), 5, 6, 7)),
]

LARGE = with_line(3, b"run,0,0,1000001")
LARGE_SHEET = sheet_bytes.write(Plan(2, 2), [1000001, 5, 4, 8], [0, 0, 0, 1])
WORDS_OF_12 = ("refused 12 (a reading beyond 1,000,000 either way at two levels, or beyond 100,000 at three; run 0 in "
               "line 3 has 1000001)\n")


def refused(name, content, *words):
    """A case of a file whose sheet is refused, and so is not written."""
    return told("make, " + name, ["make", "a.csv"], {"a.csv": content}, "ftab: a.csv: refused " + words[0], *words[1:])


REFUSED = [
    refused("a reading beyond the limit", LARGE, "12 (", WORDS_OF_12),
    refused("the mean is pooled", with_line(7, b"error,mean"), "13 (", "row mean in line 7 has mark 1"),
    refused("a row lost to blocks is pooled", with_line(7, b"block,AB\nerror,AB"), "13 (", "row AB in line 8 has mark 1"),
    refused("four levels", b"levels,4\nfactors,1\n" + b"".join(b"run,%d,5\n" % level for level in range(4)),
            "2 (levels other than 2 or 3; in line 1)"),
    refused("no factor", b"levels,2\n\nfactors,0\nrun,5\n", "3 (", "in line 3)"),
    refused("a letter beyond k", with_line(1, b"levels,2\nadded,AB,0\nadded,AC,0"), "5 (", "; the word in line 3)"),
    refused("one word twice", with_line(1, b"levels,2\nadded,AB,0\nadded,BA,1"), "6 (two added factors with one word)"),
    refused("a factor lost to blocks", with_line(7, b"block,B"), "8 (", "; the word in line 7)"),
    refused("three repeats", b"levels,2\nfactors,1\nrepeats,3\nrun,0,1,2,3\nrun,1,4,5,6", "16 (", "repeats 3 in line 3)"),
    told("make, a refused sheet over another", ["make", "a.csv"], {"a.csv": LARGE, "a.sheet": SHEET}, WORDS_OF_12),
    told("make, a refused sheet anyway", ["make", "--anyway", "a.csv"], {"a.csv": LARGE}, "ftab: a.csv: " + WORDS_OF_12,
         written={"a.sheet": LARGE_SHEET}),
    told("make, a refused sheet anyway to standard output", ["make", "--anyway", "-"], {}, WORDS_OF_12, stdin=LARGE,
         output=LARGE_SHEET),
    Case("make, a good sheet anyway", ["make", "--anyway", "a.csv"], ONE, written=SHEETS),
    told("make, a damaged file anyway", ["make", "--anyway", "a.csv"], {"a.csv": FOUR[:-12]}, "ftab: a.csv: line 6: "),
]


# ---- files of which no sheet is made ----

def damaged(name, content, *words):
    """A case of a file of which no sheet is made, with what is told of it after its name."""
    return told("make, " + name, ["make", "a.csv"], {"a.csv": content}, "ftab: a.csv: " + words[0], *words[1:])


def replaced(name, number, text, *words):
    """The same of a file with other text in the place of a line, which is told of."""
    return damaged(name, with_line(number, text), "line %d: " % number + words[0], *words[1:])


NO_LEVEL = "'%s' is no level; levels are 0 to 1, unless a line coding says otherwise\n"
NO_QUOTE = "a cell begins with a quote and does not end with one\n"
RANDOM = bytes((97 * place + 31) % 255 + 1 for place in range(2000))

DAMAGED = [
    damaged("an empty file", b"", "there is no line in it"),
    damaged("comments alone", b"# levels,2\n\n,,,\n", "there is no line in it"),
    damaged("a line cut off", FOUR[:35], "line 4: 2 cells, wanted 4: run, 2 levels, 1 reading"),
    damaged("the last lines cut off", FOUR[:39], "there is no line for the run 0,1"),
    damaged("words that are no lines", b"Dear all,\nhere are the readings.\n", "line 1: 'Dear all' is none of"),
    damaged("a sheet in the place of lines", SHEET, "it is a sheet, and a text is wanted"),
    damaged("a spreadsheet's own file", b"PK\3\4" + RANDOM, "it is a spreadsheet's own file; save it as CSV"),
    damaged("random bytes", RANDOM, "line 1: the byte "),
    damaged("text of two bytes a letter", FOUR.decode().encode("utf-16"), "it is in UTF-16, and UTF-8 is wanted"),
    damaged("far too many bytes", FOUR + b"#" * 10_000_000, "it has more than 10,000,000 bytes"),
    damaged("totals", TOTALS, "line 3: the readings of runs are wanted, and here is a total, which is for recover"),
    replaced("sums of readings", 3, b"sum,0,0,3", "the readings of a run are wanted, and here is their sum"),
    replaced("a zero byte", 3, b"run,0,\0,3", "there is a zero byte, and text is wanted"),
    replaced("a byte that is no UTF-8", 7, b"name,A,K\xf6rnung", "the byte 246 is no UTF-8"),
    replaced("a quote that is not closed", 3, b'run,0,"0,3', NO_QUOTE),
    replaced("something after a quote", 3, b'run,0,0,"3"?', NO_QUOTE),
    replaced("other separators in a line", 3, b"run;0;0;3", "'run;0;0;3' is none of", "cells are parted by commas here"),
    replaced("a wrong first cell", 2, b"factor,2", "'factor' is none of levels, factors, added,"),
    replaced("no first cell", 2, b",2", "the first cell is blank, and not one of levels, factors,"),
    damaged("no levels", with_line(1, b""), "there is no line that begins with levels"),
    replaced("levels twice", 3, b"levels,2", "levels is already in line 1"),
    replaced("levels that are no number", 1, b"levels,two", "'two' is no whole number from 0 to 255"),
    replaced("too many factors", 2, b"factors,200", "no sheet holds the runs of 200 factors at 2 levels"),
    replaced("too few cells", 4, b"run,1,5", "3 cells, wanted 4"),
    replaced("too many cells", 4, b"run,1,0,5,6", "5 cells, wanted 4"),
    replaced("a hundred thousand cells", 4, b"run" + b",0" * 100_000, "100001 cells, wanted 4"),
    replaced("a run twice", 5, b"run,1,0,4", "the run is already in line 4"),
    damaged("a run missing", with_line(5, b""), "there is no line for the run 0,1"),
    replaced("a level out of range", 6, b"run,1,2,8", NO_LEVEL % "2"),
    replaced("a level that is a sign", 6, b"run,1,+,8", NO_LEVEL % "+"),
    replaced("a level that is not there", 6, b"run,1,,8", NO_LEVEL % ""),
    damaged("levels of another coding", with_line(1, b"levels,2\ncoding,1"), "line 4: '0' is no level; levels are 1 to 2\n"),
    replaced("an unknown coding", 7, b"coding,low/high", "'low/high' is no coding: 0, 1 and - are"),
    replaced("a reading that is no number", 4, b"run,1,0,five", "'five' is no whole number\n"),
    damaged("thousands by points", b"levels;2\nfactors;1\nscale;10\nrun;0;985,5\nrun;1;1.250\n",
            "line 5: '1.250' has a point, and '985,5' in line 4 has a comma: one of them may part thousands"),
    damaged("three runs missing, in their coding", b"levels,2\nfactors,2\ncoding,-\nrun,-,-,3\n",
            "there is no line for the run +,-; 3 runs have none\n"),
    replaced("a sign that is none", 7, b"added,AB,+", "'+' is no sign; signs are 0 and 1"),
    told("make, a place in a folder that is not there", ["make", "a.csv", "-o", "b/c.sheet"], ONE,
         "ftab: a.csv: b/c.sheet cannot be written: No such file"),
    replaced("a reading that is not there", 4, b"run,1,0,#5", "3 cells, wanted 4"),
    replaced("a reading that no sheet holds", 4, b"run,1,0,3000000000", "'3000000000' is no whole number from -2147483648"),
    replaced("a reading of ten thousand digits", 4, b"run,1,0," + b"9" * 10_000, "'%s...' is no whole number" % ("9" * 60)),
    replaced("decimals without a scale", 4, b"run,1,0,5.25", "'5.25' is no whole number; ", "lines such as scale,100\n"),
    damaged("not whole with a scale", b"scale,10\n" + with_line(4, b"run,1,0,5.25"), "line 5: '5.25' times the scale 10 is"),
    damaged("no number with a scale", b"scale,10\n" + with_line(4, b"run,1,0,n/a"), "line 5: 'n/a' is no number"),
    replaced("a scale that is none", 7, b"scale,-10", "'-10' is no whole number from 1 to "),
    replaced("a name for no factor", 7, b"name,C,depth", "'C' is no factor; there are A, B"),
    replaced("an empty name", 7, b'name,A,""', "2 cells, wanted 3"),
    damaged("two names for a factor", b"name,A,x\nname,a,y\n" + FOUR, "line 2: A has already the name 'x'"),
    damaged("a name for two factors", b"name,A,x\nname,B,X\n" + FOUR, "line 2: the name 'X' is already that of another"),
    replaced("a header with other factors", 3, b"run,A,C,reading", "the header has 'C' where B is wanted"),
    replaced("a header with too few cells", 3, b"run,A", "the header does not have the cells of a run: run, 2 levels, 1 "),
    replaced("a letter twice", 7, b"error,ABA", "'ABA' is not made of different letters from A to P"),
    replaced("a letter that is none", 7, b"block,A1", "'A1' is not made of different letters from A to P"),
    replaced("a row that is none", 7, b"error,AC", "'AC' is no row, for there are 2 factors\n"),
    damaged("a row by an added letter", eight("added,AB,0", "error,BD"), "line 4: 'BD' is no row,", "it is in the row A\n"),
    replaced("a row twice", 7, b"error,AB,B,ba", "the row AB is already in line 7"),
    told("make, a file that is not there", ["make", "b.csv"], ONE, "ftab: b.csv: it cannot be read: No such file"),
    told("make, a folder", ["make", "in"], {"in/a.csv": FOUR}, "ftab: in: it cannot be read: Is a directory"),
    told("make, a damaged file beside its sheet", ["make", "a.csv"], {**SHEETS, "a.csv": FOUR[:39]}, "a.csv: there is no"),
    told("make, a folder in the place of the sheet", ["make", "a.csv", "-o", "in"], {**ONE, "in/x": b""},
         "ftab: a.csv: in cannot be written: Is a directory"),
    told("make, a file in the place of a folder", ["make", "a.csv", "--into", "b"], {**ONE, "b": b""},
         "ftab: a.csv: b/a.sheet cannot be written: "),
    told("make, damaged standard input", ["make", "-"], {}, "ftab: standard input: there is no line for", stdin=FOUR[:39]),
    told("make, empty standard input", ["make", "-"], {}, "ftab: standard input: there is no line in it"),
]


# ---- several files ----

def many(ending, content):
    """Three hundred files with an ending and some content, by path."""
    return {"in/%03d.%s" % (number, ending): content for number in range(300)}


BOTH = {"a.sheet": SHEET, "b.sheet": OTHER_SHEET}

BATCHES = [
    Case("make, several files", ["make", "a.csv", "b.csv"], TWO, written=BOTH),
    Case("make, several files into a folder", ["make", "in/a.csv", "b.csv", "--into", "c"],
         {"in/a.csv": FOUR, "b.csv": OTHER}, written={"c/a.sheet": SHEET, "c/b.sheet": OTHER_SHEET}),
    Case("make, a file and standard input", ["make", "b.csv", "-"], TWO, stdin=FOUR, output=SHEET,
         written={"b.sheet": OTHER_SHEET}),
    told("make, one of several is refused", ["make", "l.csv", "a.csv", "b.csv"], {**TWO, "l.csv": LARGE},
         "ftab: l.csv: " + WORDS_OF_12, written=BOTH),
    told("make, all but one are damaged", ["make", "x.csv", "none.csv", "b.csv", "in", "l.csv"],
         {"x.csv": b"x", "b.csv": OTHER, "in/y": b"", "l.csv": LARGE}, "ftab: x.csv: line 1: ", "ftab: none.csv: it cannot",
         "ftab: in: it cannot", "ftab: l.csv: refused 12 (", written={"b.sheet": OTHER_SHEET}),
    told("make, many files and a damaged one", ["make", "x.csv", *many("csv", b"")], {"x.csv": b"x", **many("csv", FOUR)},
         "ftab: x.csv: line 1: ", written=many("sheet", SHEET)),
]


# ---- list ----

def listed(name, sheet, *words):
    """A case of a sheet whose lines have some words."""
    return Case("list, " + name, ["list", "a.sheet"], {"a.sheet": sheet}, output=has(*words))


LARGE_LISTED = has("# refused 12: a reading beyond 1,000,000", "; run 0 has 1000001\n# levels and factors: 2 2\n",
                   "# 4 readings: 1000001 5 4 8\n# 4 marks: 0 0 0 1\n")

LIST = [
    Case("list, a sheet", ["list", "a.sheet"], SHEETS, output=LISTED),
    Case("list, standard input", ["list", "-"], stdin=SHEET, output=LISTED),
    Case("list, several sheets", ["list", "a.sheet", "-"], SHEETS, stdin=SHEET,
         output=b"# a.sheet\n%s# standard input\n%s" % (LISTED, LISTED)),
    listed("the blocked fraction", stored("fraction.sheet"),
           "added,ABC,0,# E = +ABC: E is high when an odd number of these are\n",
           "# AB = CE\n# AC = BE\n# BC = AE\n# ABC = E\n# ABCD = DE\nblock,ABD\n# lost to blocks: ABD\n",
           "# block 0: (1) ab ce abce ade bde acd bcd\n# block 1: ae be ac bc d abd cde abcde\n",
           "run,1,0,0,0,-6501,# ae in block 1\n", "error,ABC,# the main effect of E\nerror,ACD\n"),
    listed("an odd word with sign 1", sixteen(((0b0111, 1),)), "added,ABC,1,# E = -ABC: E is high when an even number",
           "\n# AB = -CE\n# AC = -BE\n# BC = -AE\n# ABC = -E\n# ABCD = -DE\n# after"),
    listed("an even word with sign 0", sixteen(((0b1111, 0),)), "added,ABCD,0,# E = -ABCD: E is high when an odd number",
           "\n# ABC = -DE\n# ABD = -CE\n# ACD = -BE\n# BCD = -AE\n# ABCD = -E\n# after"),
    listed("an even word with sign 1", sixteen(((0b1111, 1),)), "added,ABCD,1,# E = +ABCD: E is high when an even number",
           "\n# ABC = DE\n# ABD = CE\n# ACD = BE\n# BCD = AE\n# ABCD = E\n# after"),
    listed("effects that meet", sixteen(((0b0011, 1), (0b1100, 0))), "# E = +AB:", "# F = -CD:",
           "\n# A = BE\n# B = AE\n# AB = E\n# C = -DF\n# ABC = CE\n# D = -CF\n# ABD = DE\n# CD = -F\n",
           "# ABCD = -EF\n# no screening plan: A meets BE, B meets AE, C meets DF, "),
    listed("small effects that are lost", sixteen(((0b0111, 0),), (0b0011,)), "\n# AB = CE, lost to blocks\n# AC = BE\n",
           "\nblock,AB\n# lost to blocks: AB\n"),
    listed("three levels in blocks", stored("three_blocks.sheet"), "block,ABC2\n# lost to blocks: 2 degrees of ABC\n",
           "# block 0: 000 210 120 101 011 221 202 112 022\n# block 1: ", "run,1,2,2,454,# block 1\n", "error,ABC\n"),
    told("list, a refused sheet", ["list", "a.sheet"], {"a.sheet": LARGE_SHEET}, "ftab: a.sheet: refused 12 (a reading",
         output=LARGE_LISTED),
    told("list, a sheet cut short", ["list", "a.sheet"], {"a.sheet": SHEET[:-1]},
         "ftab: a.sheet: refused 1 (tag 5 is absent; a field is cut short)\n",
         output=has("# refused 1: tag 5 is absent; a field is cut short\n# levels and factors: 2 2\n")),
    told("list, no byte", ["list", "-"], {}, "ftab: standard input: refused 1 (tag 1 is absent",
         output=b"# refused 1: tag 1 is absent; tag 4 is absent; tag 5 is absent\n"),
    told("list, lines in the place of a sheet", ["list", "a.csv"], ONE, "ftab: a.csv: it has lines of cells, and a sheet"),
    told("list, one of several is not there", ["list", "b.sheet", "a.sheet"], SHEETS, "ftab: b.sheet: it cannot be read: ",
         output=b"# a.sheet\n" + LISTED),
]


# ---- screen and recover ----

PRINTS = b"screentab will print the table\n"
ANSWERS = "screentab will answer: refused "


def screened(name, sheet, *words):
    """A case of a sheet that screentab refuses."""
    return told("screen, " + name, ["screen", "a.sheet"], {"a.sheet": sheet}, "ftab: a.sheet: " + ANSWERS + words[0],
                *words[1:])


SCREEN = [
    Case("screen, a screening plan", ["screen", "a.sheet"], {"a.sheet": stored("screening.sheet")}, output=PRINTS),
    Case("screen, standard input", ["screen", "-"], stdin=SHEET, output=PRINTS),
    screened("effects that meet", sixteen(((0b0011, 0),)), "21 (", "; A meets BE; B meets AE; E meets AB)"),
    screened("a main effect that is pooled", stored("fraction.sheet"), "13 (the row", "; row ABC, that of E, has mark 1)"),
    screened("three levels", stored("three_levels.sheet"), "9 (the screening profile is for two-level plans)"),
    screened("a sheet that factab refuses", LARGE_SHEET, "12 (a reading beyond 1,000,000", "; run 0 has 1000001)"),
    screened("bytes that are no sheet", b"\0\1", "1 (tag 1 is absent; "),
    told("screen, several sheets", ["screen", "a.sheet", "b.sheet", "c.sheet"],
         {**SHEETS, "b.sheet": stored("three_levels.sheet"), "c.sheet": OTHER_SHEET}, "ftab: b.sheet: " + ANSWERS + "9 (",
         output=b"a.sheet: %sc.sheet: %s" % (PRINTS, PRINTS)),
    told("screen, lines in the place of a sheet", ["screen", "a.csv"], ONE, "ftab: a.csv: it has lines of cells, and a"),
]

RECOVER = [
    Case("recover, totals", ["recover", "a.csv"], {"a.csv": TOTALS}, output=LISTED),
    Case("recover, standard input to a file", ["recover", "-", "-o", "b.csv"], stdin=TOTALS, written={"b.csv": LISTED}),
    Case("recover, two files", ["recover", "a.csv", "b.csv", "--into", "c"], {"a.csv": TOTALS, "b.csv": TOTALS},
         written={"c/a.csv": LISTED, "c/b.csv": LISTED}),
    told("recover, no readings have the totals", ["recover", "a.csv"], {"a.csv": NO_TOTALS}, "ftab: a.csv: refused 14 (no "
         "readings within the limit have the totals; run 0,0 comes out as 13/4, which is not whole;"),
    told("recover, a total missing", ["recover", "a.csv", "-o", "b.csv"], {"a.csv": TOTALS.replace(b"total,B", b"#")},
         "ftab: a.csv: there is no line for the total of B"),
    told("recover, a total twice", ["recover", "a.csv"], {"a.csv": TOTALS.replace(b"B,-4", b"A,-4")},
         "ftab: a.csv: line 5: the total is already in line 4"),
    told("recover, runs in the place of totals", ["recover", "a.csv"], ONE,
         "ftab: a.csv: line 3: totals are wanted, and here is a run, which is for make"),
    told("recover, a plan that is refused", ["recover", "-"], {}, "ftab: standard input: refused 8 (",
         stdin=TOTALS + b"block,A"),
    told("recover, one of two files is refused", ["recover", "a.csv", "b.csv", "--into", "c"],
         {"a.csv": NO_TOTALS, "b.csv": TOTALS}, "ftab: a.csv: refused 14 (", written={"c/b.csv": LISTED}),
]


# ---- inputs and outputs that are closed or fail ----

def failing(name, arguments, files, how, *words, **others):
    """A case of an input or an output that is closed or fails: the exit status is 1, and there is no output."""
    return told(name + ", " + how, arguments, files, *words, how=how, **others)


DAMAGED_TOO = {**ONE, "x.csv": b"x"}

OUTPUTS = [failing(name, arguments, files, how, "ftab: the output cannot be written\n") for name, arguments, files in (
    ("usage, the help", ["--help"], {}),
    ("usage, the version", ["--version"], {}),
    ("usage, help of make", ["make", "--help"], {}),
    ("make", ["make", "a.csv", "-o", "-"], ONE),
    ("list", ["list", "a.sheet"], SHEETS),
    ("screen", ["screen", "a.sheet"], SHEETS),
    ("recover", ["recover", "a.csv"], {"a.csv": TOTALS}),
) for how in (">&-", ">/dev/full")] + [
    failing("make", ["make", "-"], {}, "<&-", "ftab: standard input: it is closed\n"),
    failing("make", ["make", "a.csv", "-o", "-"], ONE, ">&- 2>&-"),
    failing("make", ["make", "a.csv", "-o", "-"], ONE, ">/dev/full 2>/dev/full"),
    failing("make", ["make", "-"], {}, "<&- >&- 2>&-"),
    failing("make", ["make", "a.csv", "x.csv"], DAMAGED_TOO, "2>&-", written=SHEETS),
    failing("make", ["make", "a.csv", "x.csv"], DAMAGED_TOO, "2>/dev/full", written=SHEETS),
    failing("make", ["make", "x.csv", "a.csv"], DAMAGED_TOO, "<&- >&- 2>&-", written=SHEETS),
    Case("make, a closed output that is not written to", ["make", "a.csv"], ONE, written=SHEETS, how=">&-"),
    Case("usage, no part, standard error closed", [], status=2, how="2>&-"),
    Case("usage, no part, standard error full", [], status=2, how="2>/dev/full"),
]

CASES = USAGE + MAKE + WARNED + REFUSED + DAMAGED + BATCHES + LIST + SCREEN + RECOVER + OUTPUTS
