# Cases of the command tools/ftab: its parts show, plot and check. Each is a run of the command; how it is made is in
# .ci/cases.py. Most have data, and what must be seen of these is told by .ci/table_outputs.py, from the reference program.
#
# Defined here:
#   SHOW          tables, in all formats
#   NOT_SHOWN     files, programs and outputs with which no table is shown
#   PLOT          half-normal plots
#   CHECK         printed tables that belong to a sheet, or do not
#   CASES         all of them

import csv
import io
import json
import re
import tempfile
from hashlib import sha256
from pathlib import Path

from cases import Case, has
from table_outputs import VERSION, Data, csv_of, json_of, lines_of, sheet_of, spread, svg_of, text_of

from reference.rules.totals import Plan


# ---- data ----

FOUR = Data(Plan(2, 2), [3, 5, 4, 8], ["AB"])
EIGHT = Data(Plan(2, 3), spread(Plan(2, 3)))
NO_ERROR = Data(Plan(2, 2), [1, 2, 3, 4], ["AB"])
ZERO = Data(Plan(2, 3), [7] * 8)
SINGLE = Data(Plan(2, 1), [7, 9])
HALVES = Data(Plan(2, 1), [1, 2])
LARGE = Data(Plan(3, 1), [100_000, 99_999, 99_999])
SIX = Data(Plan(2, 6), spread(Plan(2, 6)))
BLOCKED = Data(Plan(2, 4, (), (9, 7)), spread(Plan(2, 4)), ["ABD", "ACD", "ABCD"])
TWICE = Data(Plan(2, 3, (), (), 2), spread(Plan(2, 3, (), (), 2)), ["ABC"])
SEVEN = Data(Plan(2, 7), spread(Plan(2, 7)), ["ABCDEFG"], dict(zip("ABCDEFG", (
    "iter", "warm", "tol", "cool", "pen", "pre", "cut"))))
TEN = Data(Plan(2, 10), spread(Plan(2, 10)), ["ABCDEFGHIJ", "AJ"])
THREE = Data(Plan(3, 2, (), (), 2), spread(Plan(3, 2, (), (), 2)), ["AB"], {"B": "nitrogen"})
THREE_BLOCKS = Data(Plan(3, 3, (), (1 + 3 + 18,)), spread(Plan(3, 3)), ["ABC"])
THREE_SCALED = Data(Plan(3, 2, (), (4,), 4), spread(Plan(3, 2, (), (), 4)), [], {"A": "phosphate"}, 1000)

# Four base factors in four blocks, AB, AC and BC being lost; E = -ABCD, which is pooled as error, F = +BCD; hundredths.
FRACTION = Data(Plan(2, 4, ((15, 0), (14, 0)), (3, 5)), spread(Plan(2, 4)), ["ABCD", "ABC"],
                {"A": "iterations", "B": "warm start", "E": "penalty"}, 100)

# Names that LaTeX and XML would take for something else.
ODD = Data(Plan(2, 2), [3, 5, 4, 8], ["AB"], {"A": "50% of a_b & c^2", "B": "{x} \\ ~$#<|>"})
LONG = FRACTION._replace(names={letter: "the %s of all the factors of this plan & <more>" % name for letter, name in zip(
    "ABCDEF", ("first", "second", "third", "fourth", "fifth", "sixth"))})


# ---- show ----

JSON, LATEX = ["show", "--format", "json"], ["show", "--format", "latex"]

ABOUT_SHA = "ftab %s, sheet sha256 %%s\n" % VERSION
PROVED = "Labels, degrees, numerators and check are factab's proved text. The rest is formed by ftab, not proved.\n"

FOUR_TEXT = """Analysis of variance: a.csv
2 factors at 2 levels, 4 runs

row     degrees  numerator  sum of squares  mean square  ratio
---------------------------------------------------------------------
mean          1        400             100          100
A             1         36               9            9      9
B             1         16               4            4      4
AB            1          4               1            1         error
---------------------------------------------------------------------
blocks        0          0               0
error         1          4               1            1
total         4        456             114
check: the totals add up to 12, by the readings to 12

A sum of squares is its numerator over 4.
The total has the mean, and a degree for each reading.
Ratio: mean square to the error's mean square, to 6 digits.

Effects, high minus low: mean of the readings that count plus, less mean of those that count minus

effect  estimate
mean           5  mean of all readings
A              3
B              2
AB             1  error

"""


def of_lines(data):
    """The files of a case: a.csv with the lines of data."""
    return {"a.csv": lines_of(data)}


TWO = {"a.csv": lines_of(FOUR), "b.csv": lines_of(EIGHT)}


def as_json(name, data):
    """A case of JSON, all figures of which are compared."""
    return Case("show, %s, JSON" % name, [*JSON, "a.csv"], of_lines(data), output=json_of(data, "a.csv"))


def as_csv(name, data):
    """A case of CSV, all figures of which are compared."""
    return Case("show, %s, CSV" % name, ["show", "a.csv", "--format=csv"], of_lines(data), output=csv_of(data, "a.csv"))


def short_lines(content):
    """Whether no line is over 110 letters, all are plain ASCII, and in all of 131 rows the numerators end at one place."""
    lines = content.decode().splitlines()
    rules = [place for place, line in enumerate(lines) if line.startswith("---")]
    head = lines[rules[0] - 1]
    end = head.index("numerator") + len("numerator")
    rows = lines[rules[0] + 1:rules[1]] + lines[rules[1] + 1:rules[1] + 4]
    return (content.isascii() and max(map(len, lines)) <= 110 and len(rows) == 2 ** 7 + 3
            and all(re.search(r"[0-9] +[0-9]+$", row[:end]) and row[end] == " " for row in rows))


def foot(data):
    """The foot of a text."""
    return PROVED + ABOUT_SHA % sha256(sheet_of(data)).hexdigest()


ODD_TEX = r"""\begin{tabular}{lrrrrrrl}
\hline
Source & Degrees & Numerator & Sum of squares & Mean square & Ratio & Effect &  \\
\hline
Mean & 1 & 400 & 100 & 100 &  &  &  \\
50\% of a\_b \& c\textasciicircum{}2 & 1 & 36 & 9 & 9 & 9 & 3 &  \\
\{x\} \textbackslash{} \textasciitilde{}\$\#\textless{}\textbar{}\textgreater{} & 1 & 16 & 4 & 4 & 4 & 2 &  \\
50\% of a\_b \& c\textasciicircum{}2 $\times$ \{x\} \textbackslash{} \textasciitilde{}"""

SHOW = [
    Case("show, the help", ["show", "--help"], output=has("usage: ftab show", "text,csv,json,latex", "which is proved",
                                                         "and not proved", "Exit status: 0 done")),
    Case("show, a table as text", ["show", "a.csv"], of_lines(FOUR), output=(FOUR_TEXT + foot(FOUR) + "\n").encode()),
    Case("show, standard input", ["show", "-"], {}, lines_of(FOUR),
         output=(FOUR_TEXT + foot(FOUR) + "\n").replace("a.csv", "standard input").encode()),
    Case("show, a sheet", ["show", "a.sheet", "--format", "json"], {"a.sheet": sheet_of(BLOCKED)},
         output=json_of(BLOCKED, "a.sheet")),
    Case("show, three levels as text", ["show", "a.csv"], of_lines(THREE), output=has(
        "2 factors at 3 levels, 9 runs, each made 2 times", "Factors: B = nitrogen", "source", "fraction", "AB   ",
        "A x nitrogen", "numerator over 72", "Means of the readings at each level", "B       nitrogen", foot(THREE))),
    Case("show, 7 factors with names, short lines", ["show", "a.csv"], of_lines(SEVEN), output=short_lines),
    Case("show, a fraction as text", ["show", "a.csv"], of_lines(FRACTION), output=has(
        "6 factors at 2 levels, 2 of them added, 16 runs, 4 blocks", "Added: E = -ABCD, F = +BCD",
        "Scale 100: numerators and check are of the readings times 100", "AB      iterations x warm start", "blocks",
        "ABCD    penalty", "error", "numerator over 16, over 100 squared", "stands for several effects",
        "The main effect of E (penalty) is pooled as error.",
        "lost to blocks", "E = -ABCD", foot(FRACTION))),
    Case("show, as many decimals in all lines", ["show", "a.csv"], of_lines(HALVES), output=has(
        "mean          1          9             4.5          4.5\n",
        "A             1          1             0.5          0.5\n",
        "blocks        0          0             0.0\n", "error         0          0             0.0\n",
        "total         2         10             5.0\n", "mean         1.5", "A            1.0")),
    Case("show, all digits before the point", ["show", "a.csv"], of_lines(LARGE),
         output=lambda content: content.split(b"\n")[5].split()[-3:] == [b"89998800004/3", b"29999600001", b"29999600001"]),
    Case("show, an error of 0", ["show", "a.csv"], of_lines(NO_ERROR), output=has("no ratios, for the error is 0")),
    Case("show, an error without degrees", ["show", "a.csv"], of_lines(EIGHT),
         output=has("no ratios, for the error has no degrees")),
    as_json("the rules' example", FOUR),
    as_json("one factor", SINGLE),
    as_json("an error of 0", NO_ERROR),
    as_json("four blocks", BLOCKED),
    as_json("a fraction with names and a scale", FRACTION),
    as_json("runs made twice", TWICE),
    as_json("1,024 runs", TEN),
    as_json("three levels, runs made twice", THREE),
    as_json("three levels in three blocks", THREE_BLOCKS),
    as_json("three levels, runs made four times, names and a scale", THREE_SCALED),
    as_csv("a fraction with names and a scale", FRACTION),
    as_csv("128 rows", SEVEN),
    as_csv("three levels", THREE),
    Case("show, names in LaTeX", [*LATEX, "a.csv"], of_lines(ODD), output=has(ODD_TEX, "\\end{tabular}\n")),
    Case("show, long names and signs in LaTeX", [*LATEX, "a.csv"], of_lines(LONG), output=has(
        "\nA & 1 &", "& blocks \\\\\n", "$-0.", "\nE & 1 &", "\\hline\nBlocks & 3", "\\end{tabular}\n\n\\noindent\n",
        "Added: E = -ABCD, F = +BCD.\n", "Effects are high minus low.\n")),
    Case("show, three levels in LaTeX", [*LATEX, "a.csv"], of_lines(THREE),
         output=has("\\begin{tabular}{lrrrrrrl}", "Fraction", "A $\\times$ nitrogen & 4 &", "& error \\\\\n",
                    "\\hline\nBlocks", "\\end{tabular}\n", "\\begin{tabular}{lrrr}", "nitrogen &", "\\end{tabular}\n")),
    Case("show, to a file", [*JSON, "a.csv", "-o", "b.json"], of_lines(FOUR), written={"b.json": json_of(FOUR, "a.csv")}),
    Case("show, several files one after the other", ["show", "a.csv", "b.csv"], TWO,
         output=has(FOUR_TEXT + foot(FOUR) + "\nAnalysis of variance: b.csv\n", foot(EIGHT))),
    Case("show, several files in JSON", [*JSON, "a.csv", "b.csv"], TWO,
         output=lambda content: [own["file"] for own in json.loads(content)] == ["a.csv", "b.csv"]),
    Case("show, several files in CSV", ["show", "--format", "csv", "a.csv", "b.csv"], TWO,
         output=lambda content: content.count(b"file,part,") == 1 and {own["file"] for own in csv.DictReader(
             io.StringIO(content.decode()))} == {"a.csv", "b.csv"}),
    Case("show, into a folder, one file of three refused", [*JSON, "a.csv", "b.csv", "c.sheet", "--into", "in"],
         {"a.csv": lines_of(FOUR), "b.csv": lines_of(FOUR._replace(marks=["mean"])), "c.sheet": sheet_of(THREE)}, status=1,
         error=["ftab: b.csv: refused 13 (", "row mean in line 7 has mark 1"],
         written={"in/a.table.json": json_of(FOUR, "a.csv"),
                  "in/c.table.json": json_of(THREE._replace(names={}), "c.sheet")}),
]


# ---- what is not shown ----

# Programs in the place of factab, by name; they are there until the gate's stage ends.
FOLDER = tempfile.TemporaryDirectory()


def program(name, *lines):
    """The path of a program that is a script of the shell."""
    path = Path(FOLDER.name) / name
    path.write_text("#!/bin/sh\n" + "".join(line + "\n" for line in lines))
    path.chmod(0o755)
    return str(path)


def printing(name, text):
    """The path of a program that prints a text, whatever it reads."""
    return program(name, "cat > /dev/null", "cat <<'END'", *text.splitlines(), "END")


def by_program(name, path, *words):
    """A case in which another program is in the place of factab, of which nothing is shown."""
    return Case("show, " + name, ["show", "a.csv"], of_lines(FOUR), status=1, error=["ftab: a.csv: ", *words],
                environment={"FACTAB": path})


FOUR_TABLE = text_of(FOUR).decode()

NOT_SHOWN = [
    by_program("no program", "/nowhere/factab", "/nowhere/factab cannot be started", "'rt run' in crates/factab builds it"),
    by_program("a program that fails", program("fails", "cat > /dev/null", "exit 3"), "fails: exit status 3"),
    by_program("a program that complains", program("complains", "cat > /dev/null", "echo no paper >&2"), "fails: no paper"),
    by_program("a program that prints nothing", program("silent", "cat > /dev/null"), "prints no table"),
    by_program("a program that prints what it reads", program("copies", "cat"), "prints no table"),
    by_program("a program that prints a part", printing("part", FOUR_TABLE[:FOUR_TABLE.index("blocks")]), "prints no table"),
    by_program("a program that prints words", printing("words", "over 4\n" * 12), "prints no table: a line is 'over 4'"),
    by_program("a program with another numerator", printing("other", FOUR_TABLE.replace("A 1 36", "A 1 49")),
               "factab prints 'A 1 49', and by the reference program it is 'A 1 36'"),
    by_program("a program with another kind", printing("kind", FOUR_TABLE.replace("B 1 16", "B 1 16 error")),
               "factab prints 'B 1 16 error', and by the reference program it is 'B 1 16'"),
    by_program("a program that refuses", printing("refuses", "refused 13"), "prints 'refused 13'", "it is 'a table'"),
    Case("show, a file that is not there", ["show", "b.csv"], of_lines(FOUR), status=1,
         error=["ftab: b.csv: it cannot be read"]),
    Case("show, lines that are not understood", ["show", "a.csv"], {"a.csv": lines_of(FOUR).replace(b"8", b"eight")},
         status=1, error=["ftab: a.csv: line 6: "]),
    Case("show, a sheet that is cut", ["show", "a.sheet"], {"a.sheet": sheet_of(FOUR)[:-1]}, status=1,
         error=["ftab: a.sheet: refused 1 (", "a field is cut short"]),
    Case("show, a format that there is not", ["show", "--format", "word", "a.csv"], of_lines(FOUR), status=2,
         error=["ftab show: ", "invalid choice: 'word'"]),
    Case("show, -o for two files", ["show", "a.csv", "b.csv", "-o", "c"], TWO, status=2, error=["-o is for one file"]),
    Case("show, an output that is closed", ["show", "a.csv"], of_lines(FOUR), status=1, how=">&-",
         error=["ftab: the output cannot be written"]),
    Case("show, an output that is full", ["show", "a.csv"], of_lines(TEN), status=1, how=">/dev/full",
         error=["ftab: the output cannot be written"]),
]


# ---- plot ----

def drawn(name, data, labelled, *notes):
    """A case of a plot, all points of which are compared."""
    return Case("plot, " + name, ["plot", "a.csv", "-o", "out.svg"], of_lines(data), written={"out.svg": svg_of(
        data, labelled, *notes)})


PLOT = [
    Case("plot, the help", ["plot", "--help"], output=has("usage: ftab plot", "C. Daniel", "is proved", "not proved",
                                                         "Exit status: 0 done")),
    drawn("seven effects", EIGHT, 7, "over the 5 effects up to 68.3 per cent", "standard deviation"),
    drawn("lost and pooled effects", BLOCKED, 12, "over the 8 effects", "Lost to blocks and not plotted: ABC, AD, BCD."),
    drawn("a fraction with names and a scale", FRACTION, 12, "Factors: A = iterations, B = warm start, E = penalty.",
          "Added: E = -ABCD, F = +BCD.", "Lost to blocks and not plotted: AB, AC, BC."),
    drawn("long names", LONG, 12, "A = the first of all the factors of this plan & <more>, B ="),
    drawn("runs made twice", TWICE, 7),
    drawn("63 effects", SIX, 16, "Labelled: the 16 largest of 63 effects.", "over the 43 effects"),
    drawn("127 effects", SEVEN, 12, "Labelled: the 12 largest of 127 effects.", "over the 87 effects"),
    drawn("all effects 0", ZERO, 7, "No line: the effects up to 68.3 per cent are 0."),
    drawn("one factor", SINGLE, 1, "No line: it wants 3 effects up to 68.3 per cent, and has 1."),
    drawn("odd names", ODD, 3, "A = 50% of a_b & c^2, B = {x} \\ ~$#<|>."),
    Case("plot, beside the file", ["plot", "in/a.sheet"], {"in/a.sheet": sheet_of(EIGHT)},
         written={"in/a.svg": svg_of(EIGHT, 7)}),
    Case("plot, to standard output", ["plot", "-"], {}, lines_of(EIGHT), output=svg_of(EIGHT, 7)),
    Case("plot, the title", ["plot", "in/a.csv", "-o", "-"], {"in/a.csv": lines_of(EIGHT)},
         output=has("<svg ", "<title>Half-normal plot of effects: a.csv</title>", "half-normal scale", "absolute effect",
                    ABOUT_SHA.strip() % sha256(sheet_of(EIGHT)).hexdigest(), "</svg>\n")),
    Case("plot, three levels among other files", ["plot", "a.csv", "b.csv", "c.csv"],
         {"a.csv": lines_of(EIGHT), "b.csv": lines_of(THREE), "c.csv": lines_of(BLOCKED)}, status=1,
         error=["ftab: b.csv: a half-normal plot is of two-level plans, and this one has 3 levels"],
         written={"a.svg": svg_of(EIGHT, 7), "c.svg": svg_of(BLOCKED, 12)}),
    Case("plot, a refused sheet", ["plot", "a.csv"], of_lines(FOUR._replace(readings=[3, 5, 4, 1_000_001])), status=1,
         error=["ftab: a.csv: refused 12 (", "run 3 in line 6 has 1000001"]),
    Case("plot, a folder that is a file", ["plot", "a.csv", "--into", "b"], {**of_lines(EIGHT), "b": b""}, status=1,
         error=["ftab: a.csv: b/a.svg cannot be written"]),
    Case("plot, no program", ["plot", "a.csv"], of_lines(FOUR), status=1, error=["cannot be started"],
         environment={"FACTAB": "/nowhere/factab"}),
]


# ---- check ----

NO_FACTAB = {"FACTAB": "/nowhere/factab"}


def belongs(name, table, data, path="a.sheet"):
    """A case of a table that belongs to data, without factab."""
    content = lines_of(data) if path.endswith(".csv") else sheet_of(data)
    return Case("check, " + name, ["check", "a.txt", path], {"a.txt": table, path: content}, environment=NO_FACTAB,
                output=b"a.txt belongs to %s\n" % path.encode())


def differs(name, table, sheet, *words):
    """A case of a table that does not belong to a sheet, with all that is told of it."""
    return Case("check, " + name, ["check", "a.txt", "a.sheet"], {"a.txt": table, "a.sheet": sheet}, status=1,
                error=["ftab: a.txt: " + own + "\n" for own in words], environment=NO_FACTAB)


def changed(*changes):
    """The table of the rules' example, changed."""
    text = FOUR_TABLE
    for own, other in changes:
        text = text.replace(own, other)
    return text.encode()


NOT_OF = "it does not belong to a.sheet; "

CHECK = [
    Case("check, a table that ftab show wrote", ["check", "a.txt", "a.sheet"],
         {"a.txt": b"Analysis of variance: a.csv\n", "a.sheet": sheet_of(FOUR)}, status=1, environment=NO_FACTAB,
         error=["is the first line of no table that factab prints; it is a table that ftab show wrote\n"]),
    Case("check, the help", ["check", "--help"], output=has("usage: ftab check", "is not proved", "Exit status: 0")),
    belongs("a table", text_of(FOUR), FOUR),
    belongs("a table and lines", text_of(FRACTION), FRACTION, "a.csv"),
    belongs("three levels", text_of(THREE_BLOCKS), THREE_BLOCKS),
    belongs("1,024 runs", text_of(TEN), TEN),
    belongs("line ends of Windows, blank lines at the end", text_of(FOUR).replace(b"\n", b"\r\n") + b"\r\n  \n\n", FOUR),
    belongs("a refusal", b"refused 13", FOUR._replace(marks=["mean"])),
    Case("check, a table from standard input", ["check", "-", "a.csv"], of_lines(FOUR), text_of(FOUR),
         output=b"standard input belongs to a.csv\n"),
    Case("check, bytes that are no sheet", ["check", "a.txt", "a.sheet"], {"a.txt": b"refused 1\n", "a.sheet": b"\0\1"},
         output=b"a.txt belongs to a.sheet\n"),
    differs("two lines that differ", changed(("A 1 36", "A 1 37"), (" error", "")), sheet_of(FOUR),
            "line 3: 'A 1 37' should be 'A 1 36'", "line 5: 'AB 1 4' should be 'AB 1 4 error'", NOT_OF + "2 lines differ"),
    differs("a line that is missing", changed(("B 1 16\n", "")), sheet_of(FOUR),
            "after line 3: 'B 1 16' is missing", NOT_OF + "1 line differs"),
    differs("the last line is missing", changed(("check 12 12\n", "")), sheet_of(FOUR),
            "after line 8: 'check 12 12' is missing", NOT_OF + "1 line differs"),
    differs("lines too many", changed(("blocks", "C 1 0\nblocks"), ("check 12 12", "check 12 12\n# end")), sheet_of(FOUR),
            "line 6: 'C 1 0' is one too many", "line 11: '# end' is one too many", NOT_OF + "2 lines differ"),
    differs("two rows that changed places", changed(("A 1 36\nB 1 16", "B 1 16\nA 1 36")), sheet_of(FOUR),
            NOT_OF + "2 lines differ"),
    differs("spaces", changed(("A 1 36", "A  1 36")), sheet_of(FOUR),
            "line 3: 'A  1 36' should be 'A 1 36'", NOT_OF + "1 line differs"),
    differs("another sheet", text_of(FOUR), sheet_of(FOUR._replace(readings=[3, 5, 4, 9])),
            "line 2: 'mean 1 400' should be 'mean 1 441'", NOT_OF + "6 lines differ"),
    differs("a table of a refused sheet", text_of(FOUR), sheet_of(FOUR._replace(marks=["mean"])),
            "line 1: 'over 4' should be 'refused 13'", NOT_OF + "1 line differs"),
    differs("a refusal by another number", b"refused 12\n", sheet_of(FOUR._replace(marks=["mean"])),
            "line 1: 'refused 12' should be 'refused 13'", NOT_OF + "1 line differs"),
    Case("check, no table", ["check", "a.txt", "a.csv"], {**of_lines(FOUR), "a.txt": b"row degrees\n"}, status=1,
         error=["ftab: a.txt: line 1: 'row degrees' is the first line of no table that factab prints"]),
    Case("check, an empty table", ["check", "a.txt", "a.csv"], {**of_lines(FOUR), "a.txt": b""}, status=1,
         error=["ftab: a.txt: line 1: '' is the first line of no table"]),
    Case("check, two files that are not there", ["check", "a.txt", "a.sheet"], {}, status=1,
         error=["ftab: a.txt: it cannot be read", "ftab: a.sheet: it cannot be read"]),
    Case("check, lines that are not understood", ["check", "a.txt", "a.csv"],
         {"a.csv": b"levels,2\n", "a.txt": text_of(FOUR)}, status=1,
         error=["ftab: a.csv: there is no line that begins with factors"]),
    Case("check, standard input twice", ["check", "-", "-"], {}, status=2,
         error=["ftab check: TABLE and SHEET are one file"]),
    Case("check, one file", ["check", "a.txt"], {"a.txt": text_of(FOUR)}, status=2, error=["required: SHEET"]),
]

CASES = SHOW + NOT_SHOWN + PLOT + CHECK
