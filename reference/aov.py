# R's analysis of variance beside `ftab show`: every sum of squares, all degrees, and which way main effects point. As a
# command, where R is installed:
#
#   python3 reference/aov.py [FILE.csv ...]
#
# Without files it takes the plans listed here and the files of examples/ that have runs. It wants the program factab, as
# ftab does, and Rscript; it is no part of the gate. Exit status: 0 where R agrees, 1 where it does not or a file is
# refused, 2 where there is no Rscript.
#
# The model that R is given has the blocks first, as a factor, and then the base factors and those of their interactions
# that are not lost to blocks. What R has left as residuals is the error without the rows that are pooled. The rows of added
# factors are compared a second time, as factors of their own; their levels are those of the reference program. R calculates
# in doubles: a sum of squares agrees where it differs by less than a part in 10^9, or by less than a part in 10^13 of the
# total.
#
# Defined here:
#   PLANS            plans that are compared beside files: lines of cells by name
#   data_of          the readings of a file as R reads them
#   terms_of         the terms of its model
#   shown, by_r      what ftab shows of a file, and what R makes of it
#   square_pairs, effect_pairs
#                    pairs of figures that have to agree, by name
#   complaints_of    those that do not, and the largest difference

import json
import subprocess
import sys
import tempfile
from collections import namedtuple
from fractions import Fraction
from pathlib import Path
from shutil import which

ROOT = Path(__file__).resolve().parent.parent
sys.path[:0] = [str(ROOT / "tools"), str(ROOT)]

from ftab_parts import sheets
from reference.rules import sheet_bytes
from reference.rules import totals as totals_rules
from reference.rules.table import row_label

FTAB, SCRIPT = ROOT / "tools" / "ftab", ROOT / "reference" / "aov.R"
NEAR, NEAR_TOTAL = Fraction(1, 10 ** 9), Fraction(1, 10 ** 13)

# What R writes: degrees and squares by term, means by factor and level, and squares of factors alone.
Written = namedtuple("Written", "terms levels alone")


# ---- plans ----

def plan_lines(levels, k, *others, repeats=1):
    """Lines of a plan with readings from 0 to 999 that follow no simple rule: each is made of a number that the one before
    makes."""
    lines, own = ["levels,%d" % levels, "factors,%d" % k, "repeats,%d" % repeats, *others], 1
    for run, time in [(run, time) for run in range(levels ** k) for time in range(repeats)]:
        own = (own * 1_103_515_245 + 12_345) % 2 ** 31
        if time == 0:
            lines.append(",".join(map(str, ["run", *totals_rules.digits(levels, k, run)])))
        lines[-1] += ",%d" % (own // 2 ** 7 % 1000)
    return "".join(line + "\n" for line in lines)


PLANS = {
    "full 2^4": plan_lines(2, 4),
    "2^(5-1) in four blocks, E = -ABCD pooled as error": plan_lines(
        2, 4, "added,ABCD,0", "block,AB", "block,ACD", "error,ABCD,ABC", "name,E,penalty"),
    "2^(6-2) in two blocks, decimals": plan_lines(2, 4, "added,ABC,0", "added,BCD,1", "block,AD", "scale,100", "error,AB"),
    "2^3, each run twice, in two blocks": plan_lines(2, 3, "block,ABC", "error,AB", repeats=2),
    "2^3, each run eight times": plan_lines(2, 3, repeats=8),
    "3^2, each run four times": plan_lines(3, 2, repeats=4),
    "3^2, each run twice, AB pooled as error": plan_lines(3, 2, "error,AB", repeats=2),
    "3^3 in three blocks": plan_lines(3, 3, "block,AB2C"),
    "3^3 in three blocks by AB2, ABC pooled": plan_lines(3, 3, "block,AB2", "error,ABC"),
}


# ---- what is given to R ----

def factor_levels(plan, run):
    """The levels of all factors in a run, those of added ones last."""
    if plan.levels == 3:
        return totals_rules.digits(3, plan.k, run)
    high, _ = totals_rules.treatment(plan, run)
    return [high >> place & 1 for place in range(plan.k + len(plan.added))]


def data_of(made):
    """The readings of a sheet as R reads them, a line for each."""
    plan, readings, _ = sheet_bytes.contents_of(sheet_bytes.fields_of(made.sheet))
    names = ["x" + row_label(1 << place) for place in range(plan.k + len(plan.added))]
    lines = [",".join(names + ["block"] * bool(plan.blocks) + ["reading"])]
    for run, own in enumerate(totals_rules.runs_of(plan.repeats, readings)):
        cells = factor_levels(plan, run) + [totals_rules.block_of(plan, run)] * bool(plan.blocks)
        lines += [",".join(map(str, cells + [repr(reading / made.scale)])) for reading in own]
    return "".join(line + "\n" for line in lines)


def term(label):
    """The term of a row."""
    return ":".join("x" + letter for letter in label)


def terms_of(table):
    """The terms of the model of what ftab shows: blocks, and the rows that are not lost, those of fewer letters first."""
    rows = [row["label"] for row in table["rows"] if row["kind"] in ("kept", "error")]
    return ["block"] * bool(table["plan"]["blocks"]) + [term(label) for label in sorted(rows, key=len)]


# ---- both sides ----

def shown(path):
    """What ftab shows of a file; None where it is refused, which ftab has told."""
    found = subprocess.run([sys.executable, str(FTAB), "show", "--format", "json", str(path)], stdout=subprocess.PIPE)
    return json.loads(found.stdout) if found.returncode == 0 else None


def by_r(data, terms):
    """What R makes of readings and terms."""
    with tempfile.TemporaryDirectory() as folder:
        path = Path(folder) / "readings.csv"
        path.write_text(data)
        found = subprocess.run(["Rscript", "--vanilla", str(SCRIPT), str(path), *terms], stdout=subprocess.PIPE, check=True)
    lines = [line.split() for line in found.stdout.decode().splitlines()]
    own = {word: {name: (int(number), Fraction(value)) for kind, name, number, value in lines if kind == word}
           for word in ("term", "alone")}
    levels = {(name, int(level)): Fraction(value) for kind, name, level, value in lines if kind == "level"}
    return Written(own["term"], levels, own["alone"])


def pooled(table):
    """Degrees and squares of the rows that are pooled as error."""
    rows = [row for row in table["rows"] if row["kind"] == "error"]
    return sum(row["degrees"] for row in rows), sum(Fraction(row["sum_of_squares"]) for row in rows)


def square_pairs(table, written):
    """Degrees and squares of rows, blocks and what is left, by ftab and by R."""
    pairs = {row["label"]: ((row["degrees"], Fraction(row["sum_of_squares"])), written.terms.get(term(row["label"])))
             for row in table["rows"] if row["kind"] in ("kept", "error")}
    sums = {name: (table[name]["degrees"], Fraction(table[name]["sum_of_squares"])) for name in ("blocks", "error")}
    pairs["blocks"] = sums["blocks"], written.terms.get("block", (0, 0))
    left = tuple(own - other for own, other in zip(sums["error"], pooled(table)))
    pairs["error without what is pooled"] = left, written.terms.get("Residuals", (0, 0))
    return pairs


def effect_pairs(table, written):
    """Main effects or level means by ftab and by R, and the squares of added factors alone."""
    pairs, mains = {}, [own for own in table.get("effects", []) if len(own["label"]) == 1]
    for own in mains:
        name = "x" + own["label"]
        pairs["effect of " + own["label"]] = ((1, Fraction(own["estimate"])),
                                              (1, written.levels[name, 1] - written.levels[name, 0]))
        square = next(row for row in table["rows"] if row["label"] == own["row"])
        pairs[own["label"] + " alone"] = (1, Fraction(square["sum_of_squares"])), written.alone.get(name)
    for own, level in [(own, level) for own in table.get("level_means", []) for level in range(len(own["means"]))]:
        pairs["mean of %s at %d" % (own["label"], level)] = ((1, Fraction(own["means"][level])),
                                                             (1, written.levels["x" + own["label"], level]))
    return pairs


def part(own, other):
    """By what part of itself a number differs from another; for 0 by how much."""
    return abs(own - other) / abs(own) if own else abs(other)


def figure_text(figure):
    """Degrees and squares, in words."""
    return "no such term" if figure is None else "%.15g with %d degrees" % (figure[1], figure[0])


def complaints_of(pairs, total):
    """The figures that do not agree, in words, and the largest part by which one differs from what is not 0."""
    found, largest = [], Fraction(0)
    for name, (own, other) in pairs.items():
        if other is None or own[0] != other[0] or abs(own[1] - other[1]) > max(NEAR * abs(own[1]), NEAR_TOTAL * total):
            found.append("%s: ftab has %s, R has %s" % (name, figure_text(own), figure_text(other)))
        elif own[1]:
            largest = max(largest, part(own[1], other[1]))
    return found, largest


def compare(name, path):
    """Compares a file, and says what was compared; whether all agrees."""
    table = shown(path)
    if table is None:
        return False
    written = by_r(data_of(sheets.content_of(str(path))), terms_of(table))
    pairs = {**square_pairs(table, written), **effect_pairs(table, written)}
    found, largest = complaints_of(pairs, Fraction(table["total"]["sum_of_squares"]))
    for complaint in found:
        print("%s: %s" % (name, complaint))
    print("%s: %d figures, %d differ; largest difference a part of %.1e" % (name, len(pairs), len(found), largest))
    return not found


def main(paths):
    """Compares files, or the plans and the examples; the exit status."""
    if not which("Rscript"):
        print("aov.py: there is no Rscript; install R (r-base-core in Debian)", file=sys.stderr)
        return 2
    own = {path: Path(path) for path in paths}
    with tempfile.TemporaryDirectory() as folder:
        if not paths:
            own = {path.name: path for path in sorted((ROOT / "examples").glob("*.csv")) if "total," not in path.read_text()}
            for place, (name, text) in enumerate(PLANS.items()):
                own[name] = Path(folder) / ("%d.csv" % place)
                own[name].write_text(text)
        return int(not all([compare(name, path) for name, path in own.items()]))


if __name__ == "__main__":
    sys.exit(main(sys.argv[1:]))
