# Published worked examples: readings, step columns and totals; and the expected text of the program that works them, and
# that tries steps, passes and totals at their limits and with repeats that are allowed or not.
#
# Sources:
#   report   J. M. Cameron, Computing the analysis of variance of factorial experiments on automatic computers,
#            NBS Report 3950, 1955
#   AMCP     Engineering Design Handbook, Experimental Statistics, Section 3, AMCP 706-112, 1969, chapter 12
#   Yates    F. Yates, The design and analysis of factorial experiments, Technical Communication 35, 1937
#   Daniel   C. Daniel, Applications of statistics to industrial experimentation, 1976
#   rules    the rules' own reference runs
#
# Figures are given as printed, in the order of the print, with the figures that a scan shows wrongly left as they
# stand. Left out are stray points and spaces of the scan and the commas of thousands; a decimal comma is a point, and
# a tilde a minus. Readings with decimals are whole numbers here: 4.2 in tenths is 42.
#
# In a printed column
#   .    the source does not print this figure
#   ?    the scan does not show it, or does not show at which place it stands
# A figure with a question mark in it, such as ?4, is shown in part.
#
# Signs: the report's differences are first minus last, as the totals of the rules are. AMCP, Yates and Daniel take the
# last minus the first. A figure of theirs has the other sign if an odd number of such differences are in it; the third
# combination of three levels is the same in both.
#
# Damage: whether a wrong figure is in the print or only in the scan is not decided here. Each wrong figure has one
# mend, with what is printed, what is meant and the reason. Every figure of a step column is a sum of readings with
# known coefficients. So the whole figures of an example, those that are shown and have no mend, are equations for its
# readings. check() tests for every example that these equations have one solution, that this solution is the readings
# given here, and that it stays the only one if any one of the whole figures is left out. The readings then settle every
# figure that is damaged or not shown.
#
# Repeats: the last four examples have the single plots of others, each a reading, several for each run. Steps, totals and
# passes are those of the run sums, and what is said above of readings holds for the run sums. The single readings are
# compared with sums of a block or of a replication, where these are printed.
#
# Blocks: the block words of the two-level examples in blocks are found among the lists of rules/blockings.py, and so are the
# effects that Yates's Table 23 has in its line of blocks.
#
# Defined here:
#   EXAMPLES               the examples, numbered from 1 in this order
#   IN_BLOCKS              the two-level ones in blocks
#   MENDS                  the damaged figures
#   whole_readings         the readings of an example as whole numbers, in standard order of the runs
#   sums_of                the sum of the readings of each run
#   plan                   the plan of an example
#   totals_shown           the totals that a source shows, mended, with the report's signs
#   check                  list of complaints about figures and mends, empty if all is well
#   limit_lines            what the program writes of columns about the limits
#   repeats_line           what it writes of repeats that are allowed or not
#   expected_text          the expected text

import sys
from collections import namedtuple
from fractions import Fraction
from itertools import product
from os.path import abspath, dirname

sys.path.insert(0, dirname(dirname(dirname(abspath(__file__)))))

from reference.rules import blockings
from reference.rules import totals as totals_rules

# places: decimals of the readings. turned: differences last minus first. plots: how many plots one reading adds up.
# added, blocks: the plan's added factors (word, sign) and block words. repeats: how often each run is made. readings: as
# meant, in standard order of the runs, with all readings of a run together.
Example = namedtuple("Example", "title source where levels k places turned plots added blocks repeats readings printed")

# kind: a number j for the column after j steps (0 for the readings, k for the totals), else a key of KINDS.
# effects: for the kind "added parts" the effects whose parts are added.
Printed = namedtuple("Printed", "label kind text effects", defaults=((),))

# title, label and place say which figure; place counts from 0.
Mend = namedtuple("Mend", "title label place printed meant reason")

LACKING = "?"
NOT_PRINTED = "."


def worked(title, source, where, levels, k, readings, printed, places=0, turned=False, plots=1, added=(), blocks=(),
           repeats=1):
    """An example, with the usual values for what is not said of it."""
    return Example(title, source, where, levels, k, places, turned, plots, added, blocks, repeats, readings, printed)


# ---- the report: four factors at two levels ----

REPORT_TWO_LEVELS = worked(
    "report, 2^4", "report", "Section 1, Example for n = 4: input (page 4) and worksheet (page 5)", 2, 4,
    "60 20 83 59 19 77 13 39 5 26 27 85 25 47 86 76", [
        Printed("input", 0, "60 20 83 59 19 77 13 39 5 26 27 85 25 47 86 76"),
        Printed("worksheet, readings", 0, "60 20 83 59 19 77 13 3 5 26 27 ?5 25 47 86 76"),
        Printed("step 1", 1, "80 192 96 52 31 112 72 162 40 24 -58 -26 -2? -58 -22 10"),
        Printed("step 2", 2, "222 148 143 234 64 -94 -79 -12 -62 44 -81 -90 16 ?32 37 -32"),
        Printed("step 3", 3, "370 377 -20 -91 -18 -171 -16 5 ?4 -91 148 -67 -106 9 48 ?"),
        Printed("step 4", 4, "747 -111 -189 ? -17 81 -97 117 -7 71 153 -2? 165 215 -115 -21"),
        Printed("squares", "squares",
                "558009 12321 3572? 121 289 6561 9409 13689 49 5041 23409 441 27225 46225 13225 441"),
        Printed("differences", "differences",
                "93575 -13.875 -23.625 -1.375 -2.125 10.125 +12.125 14.625 -0.875 8.875 19.125 -2.625 20.625 26.875 "
                "-14.375 -2.625"),
        Printed("analysis of variance", "parts",
                "34875.5625 770.0625 2232.5625 7.5625 18.0625 410.0625 588.0625 855.5625 3.0625 315.0625 1463.0625 "
                "27.5625 1701.5625 2889.0625 826.5625 27.5625"),
        Printed("sum of readings", "sum", "747"),
        Printed("sum of squared readings", "sum of squares", "47011"),
        Printed("sum of squared readings, check 2", "sum of squares", "47001"),
        Printed("sum of totals", "sum of totals", "960"),
        Printed("sum of squared totals", "sum of squared totals", "752176"),
    ])


# ---- AMCP 706-112 ----

AMCP_WHOLE = worked(
    "AMCP, Data Sample 12-2", "AMCP", "Tables 12-1 and 12-2 (page 12-8)", 2, 4,
    "4.2 3.1 4.5 2.9 3.9 2.8 4.6 3.2 4.0 3.0 5.0 2.5 4.0 2.5 5.0 2.3", [
        Printed("column 2", 0, "4.2 3.1 4.5 2.9 3.9 2.8 4.6 3.2 4.0 3.0 5.0 2.5 4.0 2.5 5.0 2.3"),
        Printed("column 3", 1, "7.3 7.4 6.7 7.8 7.0 7.5 6.5 7.3 -1.1 -1.6 -1.1 -1.4 -1.0 -2.5 -1.5 -2.7"),
        Printed("column 4", 2, "14.7 14.5 14.5 13.8 -2.7 -2.5 -3.5 -4.2 0.1 1.1 0.5 0.8 -0.5 -0.3 -1.5 -1.2"),
        Printed("column 5", 3, "29.2 28.3 -5.2 -7.7 1.2 1.3 -0.8 -2.7 -0.2 -0.7 0.2 -0.7 1.0 0.3 0.2 0.3"),
        Printed("column 6", 4, "57.5 -12.9 2.5 -3.5 -0.9 -0.5 1.3 0.5 -0.9 -2.5 0.1 -1.9 -0.5 -0.9 -0.7 0.1"),
        Printed("sum of readings", "sum", "57.5"),
        Printed("sum of squared readings", "sum of squares", "219.15"),
        Printed("sum of squared totals", "sum of squared totals", "3506.40"),
    ], places=1, turned=True)

# Four factors in eight runs: the base factors are A, B, C, and D is high when an odd number of them are.
AMCP_HALF = worked(
    "AMCP, Data Sample 12-4", "AMCP", "Tables 12-5 and 12-6 (pages 12-19 and 12-20), plan 2 of Table 12-4", 2, 3,
    "4.2 3.0 5.0 2.9 4.0 2.8 4.6 2.3", [
        Printed("column 2", 0, "4.2 3.0 5.0 2.9 4.0 2.8 4.6 2.3"),
        Printed("column 3", 1, "7.2 7.9 6.8 6.9 -1.2 -2.1 -1.2 -2.3"),
        Printed("column 4", 2, "15.1 13.7 -3.3 -3.5 0.7 0.1 -0.9 -1.1"),
        Printed("column 5", 3, "28.8 -6.8 0.8 -2.0 -1.4 -0.2 -0.6 -0.2"),
        Printed("sum of readings", "sum", "28.8"),
        Printed("sum of squared readings", "sum of squares", "110.34"),
        Printed("sum of squared totals", "sum of squared totals", "882.72"),
    ], places=1, turned=True, added=((0b111, 0),))


# ---- Yates, two levels ----

YATES_POTATOES = worked(
    "Yates, potatoes", "Yates", "Section 3, Tables 7 to 9; factors n, k, d", 2, 3,
    "425 426 1118 1203 1283 1396 1673 1807", [
        Printed("yield", 0, "425 426 1118 1203 1283 1396 1673 1807"),
        Printed("column 1", 1, "851 2321 2679 3480 1 85 113 134"),
        Printed("column 2", 2, "3172 6159 86 247 1470 801 84 21"),
        Printed("column 3", 3, "9331 333 2271 105 2987 161 -669 -63"),
        Printed("Tables 8 and 9", "parts", "2720861.3 3465.3 161170.0 344.5 278817.8 810.0 13986.3 124.0"),
        Printed("Table 8, treatments", "added parts", "458718.0", range(1, 8)),
    ], turned=True, plots=4)

# Block words s d p and s n k. The remainder of Table 23 is what has three or more letters and is not confounded.
YATES_BEANS = worked(
    "Yates, beans", "Yates", "Section 7, Tables 22 and 23; factors s, d, n, p, k", 2, 5,
    "66.5 36.2 74.8 54.7 68.0 23.3 67.3 70.5 56.7 29.9 76.7 49.8 36.3 45.7 60.8 64.6 "
    "63.6 39.3 51.3 73.3 71.2 60.5 73.7 92.5 49.6 74.3 63.6 56.3 48.0 47.9 77.0 61.3", [
        Printed("column 0", 0,
                "66.5 36.2 74.8 54.7 68.0 23.3 67.3 70.5 56.7 29.9 76.7 49.8 36.3 45.7 60.8 64.6 "
                "63.6 39.3 51.3 73.3 71.2 60.5 73.7 92.5 49.6 74.3 63.6 56.3 48.0 47.9 77.0 61.3"),
        Printed("column 1", 1,
                "102.7 129.5 91.3 137.8 86.6 126.5 82.0 125.4 102.9 124.6 131.7 166.2 123.9 119.9 95.9 138.3 "
                "-30.3 -20.1 -44.7 3.2 -26.8 -26.9 9.4 3.8 -24.3 22.0 -10.7 18.8 24.7 -7.3 -0.1 -15.7"),
        Printed("column 2", 2,
                "232.2 229.1 213.1 207.4 227.5 297.9 243.8 234.2 -50.4 -41.5 -53.7 13.2 -2.3 8.1 17.4 -15.8 "
                "26.8 46.5 39.9 43.4 21.7 34.5 -4.0 42.4 10.2 47.9 -0.1 -5.6 46.3 29.5 -32.0 -15.6"),
        Printed("column 3", 3,
                "461.3 420.5 525.4 478.0 -91.9 -40.5 5.8 1.6 73.3 83.3 56.2 38.4 58.1 -5.7 75.8 -47.6 "
                "-3.1 -5.7 70.4 -9.6 8.9 66.9 10.4 -33.2 19.7 3.5 12.8 46.4 37.7 -5.5 -16.8 16.4"),
        Printed("column 4", 4,
                "881.8 1003.4 -132.4 7.4 156.6 94.6 52.4 28.2 -8.8 60.8 75.8 -22.8 23.2 59.2 32.2 -0.4 "
                "-40.8 -47.4 51.4 -4.2 10.0 -17.8 -63.8 -123.4 -2.6 -80.0 58.0 -43.6 -16.2 33.6 -43.2 33.2"),
        Printed("column 5", 5,
                "1885.2 -125.0 251.2 80.6 52.0 53.0 82.4 31.8 -88.2 47.2 -7.8 -187.2 -82.6 14.4 17.4 -10.0 "
                "121.6 139.8 -62.0 -24.2 69.6 -98.6 36.0 -32.6 -6.6 -55.6 -27.8 -59.6 -77.4 -101.6 49.8 76.4"),
        Printed("Table 23, blocks", "added parts", "1476.43", (0b01011, 0b10101, 0b11110)),
        Printed("Table 23, one and two letters", "added parts", "4921.20",
                [effect for effect in range(1, 32) if totals_rules.letter_count(effect) <= 2]),
        Printed("Table 23, remainder", "added parts", "1066.64",
                [effect for effect in range(1, 32) if totals_rules.letter_count(effect) >= 3
                 and effect not in (0b01011, 0b10101, 0b11110)]),
        Printed("Table 23, total", "added parts", "7464.27", range(1, 32)),
    ], places=1, turned=True, blocks=(0b01011, 0b10101))

# Table 28 prints the plots; here are the four of each treatment. Totals that the arrangement confounds are not printed.
SUGAR_BEET_PLOTS = [
    "594 596 643 628", "587 634 637 651", "583 604 549 618", "634 562 562 605",
    "542 609 569 615", "629 624 576 586", "615 627 623 645", "576 638 629 639",
]
SUGAR_BEET_SUMS = " ".join(str(sum(int(plot) for plot in plots.split())) for plots in SUGAR_BEET_PLOTS)

YATES_SUGAR_BEET = worked(
    "Yates, sugar beet in squares", "Yates", "Section 8b, Tables 28 and 29; factors n, p, k", 2, 3, SUGAR_BEET_SUMS, [
        Printed("Table 28, sums", 0, SUGAR_BEET_SUMS),
        Printed("effects", 3, ". 109 -11 -147 55 -5 . ."),
        Printed("Table 29, treatments", "added parts", "1145.7", range(1, 6)),
    ], turned=True, plots=4)


def yates_table_38(level, readings, sums, effects, more=(), plots=3):
    """One of the four columns of Table 38, a two-level example of its own; factors p, m."""
    return worked("Yates, Table 38, " + level, "Yates", "Section 9d, Table 38; factors p, m", 2, 2, readings, [
        Printed("yields", 0, readings),
        Printed("sums and differences", 1, sums),
        Printed("effects", 2, effects),
    ] + list(more), turned=True, plots=plots)


YATES_TABLE_38 = [
    yates_table_38("n0", "411 444 561 657", "855 1218 33 96", "2073 129 363 63"),
    yates_table_38("n1", "479 578 659 645", "1057 1304 99 -14", "2361 85 247 -113"),
    yates_table_38("n2", "451 517 546 601", "968 1147 66 55", "2115 121 179 -11"),
    yates_table_38("total", "1341 1539 1766 1903", "2880 3669 198 137", "6549 335 789 -61",
                   [Printed("Table 39", "parts", "1191372.2 3117.4 17292.2 103.4")], plots=9),
]


# ---- Daniel, two levels ----

DANIEL_SAMPLE = worked(
    "Daniel, 2^2", "Daniel", "Table 3.5", 2, 2, "67 43 81 61", [
        Printed("column 0", 0, "67 43 81 61"),
        Printed("column 1", 1, "110 142 -24 -20"),
        Printed("column 2", 2, "252 -44 32 4"),
    ], turned=True)

DANIEL_CEMENT = worked(
    "Daniel, 2^3 on cement", "Daniel", "Tables 5.1 and 5.3", 2, 3, "297 300 106 131 177 178 76 109", [
        Printed("column 0", 0, "297 300 106 131 177 178 76 109"),
        Printed("column 1", 1, "597 237 355 185 3 25 1 33"),
        Printed("column 2", 2, "834 540 28 34 -360 170 22 32"),
        Printed("column 3", 3, "1374 62 -530 54 -294 6 190 10"),
    ], turned=True)

DANIEL_DRILL = worked(
    "Daniel, 2^4 on drilling", "Daniel", "Table 6.1", 2, 4,
    "1.68 1.98 3.28 3.44 4.98 5.70 9.97 9.07 2.07 2.44 4.09 4.53 7.77 9.43 11.75 16.30", [
        Printed("column 0", 0,
                "1.68 1.98 3.28 3.44 4.98 5.70 9.97 9.07 2.07 2.44 4.09 4.53 7.77 9.43 11.75 16.30"),
        Printed("column 1", 1,
                "3.66 6.72 10.68 19.04 4.51 8.62 17.20 28.05 0.30 0.16 0.72 -0.90 0.37 0.44 1.66 4.55"),
        Printed("column 2", 2,
                "10.38 29.72 13.13 45.25 0.46 -0.18 0.81 6.21 3.06 8.36 4.11 10.85 -0.14 -1.62 0.07 2.89"),
        Printed("column 3", 3,
                "40.10 58.38 0.28 7.02 11.42 14.96 -1.76 2.96 19.34 32.12 -0.64 5.40 5.30 6.74 -1.48 2.82"),
        Printed("column 4", 4,
                "98.48 7.30 26.38 1.20 51.46 4.76 12.04 1.34 18.28 6.74 3.54 4.72 12.78 6.04 1.44 4.30"),
        Printed("five largest effects", "added parts", "249.15", (0b0010, 0b0100, 0b0110, 0b1000, 0b1100)),
        Printed("about the mean", "added parts", "262.68", range(1, 16)),
    ], places=2, turned=True)

# Block words S P N and P K D. The readings are the yields less 110, in units of 10 lb; the yields are printed beside them.
DANIEL_MANGOLDS = worked(
    "Daniel, 2^5 on mangolds", "Daniel", "Table 7.9; factors S, P, K, N, D", 2, 5,
    "-36 1 -21 -9 -32 6 -41 -12 -32 8 -14 21 -10 28 -24 19 15 8 -9 18 -20 23 -26 26 0 28 -10 22 -9 37 0 41", [
        Printed("column 3", "readings and 110",
                "74 111 89 101 78 116 69 98 78 118 96 131 100 138 86 129 "
                "125 118 101 128 90 133 84 136 110 138 100 132 101 147 110 151"),
        Printed("column 4", 0,
                "-36 1 -21 -9 -32 6 -41 -12 -32 8 -14 21 -10 28 -24 19 15 8 -9 18 -20 23 -26 26 0 28 -10 22 9 37 0 41"),
        Printed("column 5", 5,
                ". 534 -34 8 16 126 46 8 214 72 44 -10 102 60 4 10 292 -10 -6 76 -16 78 126 -60 -66 8 -16 -78 14 -36 40 22"),
    ], turned=True, blocks=(0b01011, 0b10110))

# Five factors in eight runs: the base factors are A, B, C; D has the word AC and sign 0, E the word AB and sign 1.
DANIEL_QUARTER = worked(
    "Daniel, 2^(5-2)", "Daniel", "Table 12.5", 2, 3, "59.1 57.0 58.6 63.9 67.2 71.6 79.2 76.9", [
        Printed("yield", 0, "59.1 57.0 58.6 63.9 67.2 71.6 79.2 76.9"),
        Printed("total effects", 3, "533.5 5.3 23.7 0.7 56.3 -1.1 10.9 -14.1"),
    ], places=1, turned=True, added=((0b101, 0), (0b011, 1)))


# ---- the report: four factors at three levels ----
#
# The scan runs up to three lines of the worksheet into one. For each such line: how many runs it holds, and the figures
# it shows of the readings, of the steps 1, 2, 3, of step 4 (the totals) and of the squares. Where it shows fewer or more
# figures than runs, their places are not sure, and the column has no figure of that line. Which runs a line holds is seen
# from the names and divisors on it, but for the run 12: it may belong to the line before. check_doubtful() tests that the
# readings are settled without the figures at the places 10 to 14. The readings given are those that agree with the most
# figures of the scan; a figure that disagrees with them has a mend. So they are inferred, and not read off the print.

DOUBTFUL = range(10, 15)

WORKSHEET = [
    (2, "?", "19 19", "", "145", "409 1", "16711"),
    (3, "3", "", "47 50", "-4", "", "144"),
    (2, "6", "6", "46 23", "13 -8", "", "1936"),
    (3, "5 3", "4 3", "90 45 7", "7 8", "746", ""),
    (2, "7 9", "5", "-6 -5", "-43", "12 28", "144 794"),
    (3, "9 4", "5", "-2 -2 1", "-5", "-1 -1", "49"),
    (3, "5 2 9", "? 13", "49", "-16 -13 5", "-4 5 31", "19 25 961"),
    (3, "3 7 2", "7 6 10", "-9 0 1", "", "-69 46 -42", "4624 7116 7844"),
    (3, "3 1 5", "17 4 14", "-1?", "-23 5", "-18 -23", "16 225 529"),
    (3, "5 5 3", "12 14 15", "8 70 -11", "2 -31 -5", "16 91 149", "256 8281 21201"),
    (3, "3 9 4", "5", "-2 5 5", "1? 1 -20", "24 -17 -15", "57 289 225"),
    (3, "8 1 7", "-2 0 -4", "-9 4", "?? 1 -1", "-9 -1", "8"),
    (3, "", "-5 -2 2", "-3 5 -3", "-10 19 19", "1 7", "49 729"),
    (3, "2 2 9", "-1 1 2", "-3 2 -7", "-7 -3 0", "3 -29", "61 169 89"),
    (3, "4", "-7 7 -2", "-3 -5 3", "4 -6 -3", "-7 1 -19", "49 1 ?"),
    (3, "9", "201", "", "-4 -18 15", "35 5", "1225 25 25"),
    (3, "6 7 4", "4 0 4", "-5 -10 -1", "-25 1 10", "27 -11 15", "729 24 225"),
    (3, "5 4 5", "-1 2 -5", "-17 3 1", "6 -2 11", "5 -3 29", "25 9 291"),
    (3, "2", "? 4 4", "0 -15", "26 -26 31", "-39 -5 -33", "1521 25 1089"),
    (3, "5 1 1", "-4 -6 1", "-12 5 6", "-1 -1 -41", "-20 7 -23", "400 49 529"),
    (3, "", "0 -10 10", "", "19 7 25", "13 5", "169"),
    (3, "2 2", "-3 6 -2", "5 -11 -5", "-8 -31 -23", "-17 -43 79", "1549 6241"),
    (3, "6 9 7", "-11 13 6", "7 -6 1", "7 3 -12", "-11 29", "1?1 8? 841"),
    (3, "? 7", "7 3 4", "-1 -23 -1", "-14 10 -0", "", "1 36 2209"),
    (3, "", "-1 -2", "", "-22 -5", "1", "2011 141 1881"),
    (3, "", "", "9 -17", "-5 3", "19", "269 625"),
    (3, "", "", "-31 5 5", "20 41 5", "-? 45 ?", "125 54"),
    (3, "5", "4 4 42", "3", "-121", "55", "15"),
]


def worksheet_column(number):
    """A column of the worksheet: the figures of the lines that show as many as they hold runs."""
    figures = []
    for line in WORKSHEET:
        shown = line[number].split()
        figures += shown if len(shown) == line[0] else [LACKING] * line[0]
    return " ".join(figures)


REPORT_THREE_LEVELS = worked(
    "report, 3^4", "report", "Section 2, Example for n = 4, worksheet", 3, 4,
    "5 6 3 6 9 6 8 5 3 6 7 8 4 9 4 5 2 9 3 7 8 3 1 5 5 5 3 3 9 4 8 1 7 7 3 5 2 2 9 9 4 2 7 6 9 6 7 4 5 6 5 3 6 4 "
    "5 1 1 2 2 2 6 2 2 6 4 7 9 8 7 3 3 8 2 9 1 8 4 4 7 5 3", [
        Printed("readings", 0, worksheet_column(1)),
        Printed("step 1", 1, worksheet_column(2)),
        Printed("step 2", 2, worksheet_column(3)),
        Printed("step 3", 3, worksheet_column(4)),
        Printed("step 4", 4, worksheet_column(5)),
        Printed("squares", "squares", worksheet_column(6)),
    ])


# ---- Yates, three levels ----

# Totals of six plots, over the three levels of n.
YATES_TWO_OF_THREE = worked(
    "Yates, sugar beet, d and s", "Yates", "Section 11c, Tables 46, 53 and 54; factors d, s", 3, 2,
    "256.4 264.6 217.8 251.1 239.9 247.7 235.3 227.3 222.2", [
        Printed("Table 46", 0, "256.4 264.6 217.8 251.1 239.9 247.7 235.3 227.3 222.2"),
        Printed("Table 54 (1)", 1, "738.8 738.7 684.8 -38.6 -3.4 -13.1 -55.0 19.0 2.9"),
        Printed("Table 54 (2)", 2, "2162.3 -55.1 -33.1 -54.0 25.5 57.9 -53.8 -44.9 -90.1"),
        Printed("Table 53", "parts", ". . . . 27.09 46.56 . 28.00 37.58"),
        Printed("Section 11a", "parts", ". 84.33 10.15 . . . . . ."),
    ], places=1, turned=True, plots=6)

YATES_FIRST_REPLICATION = worked(
    "Yates, sugar beet, first replication", "Yates", "Section 12, Tables 44 (blocks Y) and 55 to 59; factors d, s, n", 3, 3,
    "47.8 47.8 38.0 44.6 37.1 47.1 35.4 47.2 35.2 45.7 52.5 46.0 49.7 52.7 38.2 51.4 36.5 46.2 "
    "50.5 43.0 44.1 50.9 49.3 52.2 56.0 45.4 34.2", [
        Printed("Table 44", 0,
                "47.8 47.8 38.0 44.6 37.1 47.1 35.4 47.2 35.2 45.7 52.5 46.0 49.7 52.7 38.2 51.4 36.5 46.2 "
                "50.5 43.0 44.1 50.9 49.3 52.2 56.0 45.4 34.2"),
        Printed("Table 57", 3,
                "1224.7 -50.8 -9.8 -27.9 -11.3 . -40.7 . . 45.4 -19.4 . 13.8 . . . . . -32.0 . . . . . . . ."),
        Printed("Table 56, d and s", "added parts", "262.05", range(1, 9)),
        Printed("Table 56, d and n", "added parts", "333.49", (1, 2, 9, 10, 11, 18, 19, 20)),
        Printed("Table 56, s and n", "added parts", "250.82", (3, 6, 9, 12, 15, 18, 21, 24)),
        Printed("Table 58, linear responses", "added parts", "301.12", (1, 3, 9)),
        Printed("Table 58, curvatures", "added parts", "51.42", (2, 6, 18)),
        Printed("Table 58, linear interactions", "added parts", "57.87", (4, 10, 12)),
        Printed("Table 59, linear by curvature", "added parts", "68.19", (5, 7, 11, 15, 19, 21)),
        Printed("Table 59, curvature by curvature", "added parts", "15.22", (8, 20, 24)),
        Printed("Table 58, total", "added parts", "999.23", range(1, 27)),
    ], places=1, turned=True)

YATES_BOTH_REPLICATIONS = worked(
    "Yates, sugar beet, both replications", "Yates", "Section 10b, Tables 45 to 48 and 54; factors d, s, n", 3, 3,
    "87.2 84.2 71.2 77.9 70.1 80.6 61.1 79.6 66.5 85.1 94.3 72.6 86.3 86.9 73.5 86.3 70.9 83.8 "
    "84.1 86.1 74.0 86.9 82.9 93.6 87.9 76.8 71.9", [
        Printed("Table 45", 0,
                "87.2 84.2 71.2 77.9 70.1 80.6 61.1 79.6 66.5 85.1 94.3 72.6 86.3 86.9 73.5 86.3 70.9 83.8 "
                "84.1 86.1 74.0 86.9 82.9 93.6 87.9 76.8 71.9"),
        Printed("Table 54", 3,
                "2162.3 -55.1 -33.1 -54.0 25.5 57.9 -53.8 -44.9 -90.1 . . . . . . . . . . . . . . . . . ."),
        Printed("Table 47, mean", "added parts", "86584.10", (0,)),
        Printed("Table 48, d", "added parts", "94.47", (1, 2)),
        Printed("Table 48, s", "added parts", "107.80", (3, 6)),
        Printed("Table 48, n", "added parts", "150.14", (9, 18)),
        Printed("Table 48, d and s", "added parts", "139.25", (4, 5, 7, 8)),
        Printed("Table 48, d and n", "added parts", "30.52", (10, 11, 19, 20)),
        Printed("Table 48, s and n", "added parts", "71.83", (12, 15, 21, 24)),
        Printed("Table 47, all treatments", "added parts", "905.06", range(1, 27)),
    ], places=1, turned=True, plots=2)


# ---- the rules' own runs ----

RULES_TWO_FACTORS = worked("rules, 3 5 4 8", "rules", "Reference runs", 2, 2, "3 5 4 8", [
    Printed("readings", 0, "3 5 4 8"),
    Printed("totals", 2, "20 -6 -4 2"),
    Printed("squared totals", "squares", "400 36 16 4"),
    Printed("sum of squared readings", "sum of squares", "114"),
    Printed("sum of squared totals", "sum of squared totals", "456"),
    Printed("check", "sum of totals", "12"),
])

RULES_THREE_LEVELS = worked("rules, three levels", "rules", "Reference runs", 3, 1, "2 5 3", [
    Printed("readings", 0, "2 5 3"),
    Printed("totals", 1, "10 -1 -5"),
    Printed("check", "sum of totals", "4"),
])

RULES_BLOCKS = worked("rules, 1 to 8", "rules", "Reference runs", 2, 3, "1 2 3 4 5 6 7 8", [
    Printed("readings", 0, "1 2 3 4 5 6 7 8"),
    Printed("totals", 3, "36 -4 -8 0 -16 0 0 0"),
], blocks=(0b111,))

RULES_ONE_FACTOR = worked("rules, one factor", "rules", "Reference runs", 2, 1, "-100000 100000", [
    Printed("readings", 0, "-100000 100000"),
    Printed("totals", 1, "0 -200000"),
])


# ---- runs that are made several times ----

# Yates, Table 1: the plots of each block, treatment and yield. Each block prints a treatment twice, of which one is meant
# for n k d; check_labels() tests that in one way alone the run sums are those of Table 7.
POTATO_BLOCKS = [
    "nk 291 kd 398 d 312 nd 373 (1) 101 k 265 n 106 nk>nkd 450",
    "kd 407 d 324 k 272 nk 306 n 89 nk>nkd 449 nd 338 (1) 106",
    "d 323 (1) 87 nd 324 kd 423 nk 334 k 279 n 128 nk>nkd 471",
    "nd 361 nk 272 n 103 d 324 k 302 (1) 131 nk>nkd 437 kd 445",
]
POTATO_TREATMENTS = "(1) n k nk d nd kd nkd".split()

# Yates, Table 44: blocks by replications, Y and Z, and in each the plots, treatment and yield. The first figure of a
# treatment is 1 more than the level of d and three times that of s, the second is the level of n.
BEET_BLOCKS = [
    ["41 49.7 10 47.8 32 44.1 21 52.5 52 49.3 91 46.2 60 47.1 80 47.2 72 56.0",
     "62 52.2 51 52.7 20 47.8 90 35.2 82 45.4 40 44.6 31 46.0 71 51.4 12 50.5",
     "42 50.9 61 38.2 22 43.0 81 36.5 30 38.0 11 45.7 50 37.1 92 34.2 70 35.4"],
    ["80 32.4 92 37.7 10 39.4 22 43.1 71 34.9 51 34.2 42 36.0 60 33.5 31 26.6",
     "90 31.3 20 36.4 11 39.4 61 35.3 32 29.9 81 34.4 40 33.3 52 33.6 72 31.9",
     "12 33.6 82 31.4 70 25.7 50 33.0 41 36.6 62 41.4 91 37.6 30 33.2 21 41.8"],
]
BEET_BLOCK_SUMS = ["439.9 425.8 359.0", "317.8 305.5 314.3"]
BEET_TREATMENTS = ["%d%d" % (first, second) for second in range(3) for first in range(1, 10)]


def plots_of(block):
    """The yields of a block's plots by treatment, each treatment as it is meant."""
    words = block.split()
    return {label.rpartition(">")[2]: plot for label, plot in zip(words[::2], words[1::2])}


def by_runs(treatments, blocks):
    """The yields of each treatment, a plot of each block, treatment after treatment."""
    return " ".join(plots_of(block)[treatment] for treatment in treatments for block in blocks)


POTATO_PLOTS = worked(
    "Yates, potatoes, single plots", "Yates", "Sections 2 and 3, Tables 1, 7 and 8; factors n, k, d", 2, 3,
    by_runs(POTATO_TREATMENTS, POTATO_BLOCKS), [
        Printed("Table 1, block totals", "sums of repeats", "2296 2291 2369 2375"),
        Printed("Table 1, total", "sum", "9331"),
    ] + YATES_POTATOES.printed, turned=True, repeats=4)

SUGAR_BEET_SINGLE = worked(
    "Yates, sugar beet in squares, single plots", "Yates", "Section 8b, Tables 28 and 29; factors n, p, k", 2, 3,
    " ".join(SUGAR_BEET_PLOTS), YATES_SUGAR_BEET.printed, turned=True, repeats=4)

BEET_PLOTS = worked(
    "Yates, sugar beet, single plots", "Yates", "Section 10b, Tables 44 to 48; factors d, s, n", 3, 3,
    by_runs(BEET_TREATMENTS, [" ".join(blocks) for blocks in BEET_BLOCKS]), [
        Printed("Table 46", "sums of repeats", "1224.7 937.6"),
    ] + YATES_BOTH_REPLICATIONS.printed, places=1, turned=True, repeats=2)

# One plot, the first of run ab, is missing and was filled in by the source. Its effects are over all sixteen plots; that of
# AB, 8.5, is not from the sums, as the other three are, but from rounded means, and is left out.
DANIEL_BUDS = worked(
    "Daniel, 2^2 on bud take, in four blocks", "Daniel", "Section 3.6.4, Table 3.7", 2, 2,
    "64 75 76 73 23 14 12 33 30 50 41 25 15 33 17 10", [
        Printed("Table 3.7, sums of columns", 0, "288 82 146 75"),
        Printed("Table 3.7, sum", 2, "591 . . ."),
        Printed("Table 3.7, sums of rows", "sums of repeats", "132 172 146 141"),
        Printed("Section 3.6.4, effects", "means", "37 -17.3 -9.3 ."),
    ], turned=True, repeats=4)


EXAMPLES = (
    [REPORT_TWO_LEVELS, AMCP_WHOLE, AMCP_HALF, YATES_POTATOES, YATES_BEANS, YATES_SUGAR_BEET]
    + YATES_TABLE_38
    + [DANIEL_SAMPLE, DANIEL_CEMENT, DANIEL_DRILL, DANIEL_MANGOLDS, DANIEL_QUARTER]
    + [REPORT_THREE_LEVELS, YATES_TWO_OF_THREE, YATES_FIRST_REPLICATION, YATES_BOTH_REPLICATIONS]
    + [RULES_TWO_FACTORS, RULES_THREE_LEVELS, RULES_BLOCKS, RULES_ONE_FACTOR]
    + [POTATO_PLOTS, SUGAR_BEET_SINGLE, BEET_PLOTS, DANIEL_BUDS]
)

IN_BLOCKS = [YATES_BEANS, DANIEL_MANGOLDS, RULES_BLOCKS]


# ---- mends ----

WHOLE = "the whole figures settle the readings, and the readings this figure"
SIGN = "the sign is lost or wrong; " + WHOLE
INPUT = "whole in the input on the page before"
CHECK = "752176 is 16 times 47011, which is also printed as the sum of squared readings"
BESIDE = "a minus is lost; the yield 101 beside it, less 110"


def mends(title, label, figures, reason):
    """Mends of one printed column, each given as place: printed > meant."""
    found = []
    for figure in figures.split(","):
        place, change = figure.split(":")
        printed, meant = change.split(">")
        found.append(Mend(title, label, int(place), printed.strip(), meant.strip(), reason))
    return found


MENDS = (
    mends("report, 2^4", "worksheet, readings", "7: 3 > 39, 11: ?5 > 85", INPUT)
    + mends("report, 2^4", "step 1", "1: 192 > 142, 12: -2? > -21", WHOLE)
    + mends("report, 2^4", "step 2", "5: -94 > -84, 13: ?32 > -32", WHOLE)
    + mends("report, 2^4", "step 3", "8: ?4 > 74, 15: ? > 69", WHOLE)
    + mends("report, 2^4", "step 4", "3: ? > -11, 11: -2? > -21", WHOLE)
    + mends("report, 2^4", "squares", "2: 3572? > 35721", WHOLE)
    + mends("report, 2^4", "differences", "0: 93575 > 93.375, 6: +12.125 > -12.125", WHOLE)
    + mends("report, 2^4", "sum of squared readings, check 2", "0: 47001 > 47011", CHECK)
    + mends("Daniel, 2^3 on cement", "column 2", "5: 170 > -170", SIGN)
    + mends("Daniel, 2^5 on mangolds", "column 4", "28: 9 > -9", BESIDE)
    + mends("Daniel, 2^5 on mangolds", "column 5", "6: 46 > -46, 7: 8 > -8, 13: 60 > -60, 14: 4 > -4, 25: 8 > -8", SIGN)
    + mends("report, 3^4", "readings", "11: 9 > 8, 20: 2 > 8, 49: 4 > 6, 64: 9 > 4", WHOLE)
    + mends("report, 3^4", "step 1", "0: 19 > 14, 1: 19 > 21, 22: 4 > 24, 25: 14 > 16, 78: 4 > -15, 80: 42 > 0", WHOLE)
    + mends("report, 3^4", "step 2",
            "7: 90 > 55, 8: 45 > 43, 25: 70 > 10, 34: 5 > 3, 55: 5 > 3, 56: 6 > 13, 61: -11 > -17", WHOLE)
    + mends("report, 3^4", "step 2", "12: -2 > 2, 68: -1 > 1, 77: 5 > -5", SIGN)
    + mends("report, 3^4", "step 3",
            "17: 5 > -15, 24: 2 > 22, 27: 1? > 11, 30: ?? > 12, 54: -1 > -17, 55: -1 > -7, 56: -41 > -44, 57: 19 > 14, "
            "64: 3 > 23, 68: -0 > -11, 76: 41 > 46, 77: 5 > 25", WHOLE)
    + mends("report, 3^4", "step 3", "41: -3 > 3, 63: 7 > -7", SIGN)
    + mends("report, 3^4", "step 4", "1: 1 > 10, 15: -4 > -14, 16: 5 > 15, 18: -69 > -68, 20: -42 > -62, 75: -? > -65", WHOLE)
    + mends("report, 3^4", "step 4", "26: 149 > -149, 61: -43 > 43, 76: 45 > -45", SIGN)
    + mends("report, 3^4", "squares",
            "11: 794 > 784, 15: 19 > 196, 16: 25 > 225, 19: 7116 > 2116, 20: 7844 > 3844, 26: 21201 > 22201, 27: 57 > 576, "
            "36: 61 > 961, 38: 89 > 841, 46: 24 > 121, 50: 291 > 841, 63: 1?1 > 121, 64: 8? > 81, 67: 36 > 361, "
            "69: 2011 > 289, 70: 141 > 441, 71: 1881 > 11881", WHOLE)
)


# ---- what the figures must be ----

def whole_readings(example):
    """The readings as whole numbers, in standard order of the runs."""
    return [int(Fraction(reading) * 10 ** example.places) for reading in example.readings.split()]


def sums_of(example):
    """The sum of the readings of each run, in whole numbers."""
    return totals_rules.run_sums(example.repeats, whole_readings(example))


def plan(example):
    """The plan of an example."""
    return totals_rules.Plan(example.levels, example.k, example.added, example.blocks, example.repeats)


def columns(example):
    """The run sums and the columns after 1 to k steps, in whole numbers."""
    sums = sums_of(example)
    return [sums] + totals_rules.steps(example.levels, example.k, sums)


def sign(example, step, place):
    """-1 where the source's figure has the other sign: it holds an odd number of differences, taken last minus first."""
    if not example.turned:
        return 1
    done = totals_rules.digits(example.levels, example.k, place)[example.k - step:]
    return -1 if done.count(1) % 2 else 1


def in_print(example, value):
    """A whole number in the unit of the print."""
    return Fraction(value, 10 ** example.places)


def column_in_print(example, step):
    """The column after so many steps, as the source gives it: its unit and its signs."""
    return [in_print(example, sign(example, step, place) * value)
            for place, value in enumerate(columns(example)[step])]


def parts_in_print(example):
    """For each effect its total squared, over its divisor and the plots of a reading."""
    levels, k, repeats = example.levels, example.k, example.repeats
    return [total ** 2 / (totals_rules.divisor(levels, k, effect, repeats) * example.plots)
            for effect, total in enumerate(column_in_print(example, k))]


def readings_in_print(example):
    """The single readings, in the unit of the print."""
    return [in_print(example, reading) for reading in whole_readings(example)]


def sums_of_repeats(example):
    """For each repeat, the first first, the sum of its readings over all runs."""
    return [sum(readings_in_print(example)[repeat::example.repeats]) for repeat in range(example.repeats)]


# What the figures of each kind must be. Columns are found by their number.
KINDS = {
    "readings and 110": lambda example, printed: [value + 110 for value in column_in_print(example, 0)],
    "squares": lambda example, printed: [total ** 2 for total in column_in_print(example, example.k)],
    "differences": lambda example, printed: [total / 2 ** (example.k - 1) for total in column_in_print(example, example.k)],
    "parts": lambda example, printed: parts_in_print(example),
    "added parts": lambda example, printed: [sum(parts_in_print(example)[effect] for effect in printed.effects)],
    "means": lambda example, printed: [total / len(readings_in_print(example))
                                       for total in column_in_print(example, example.k)],
    "sum": lambda example, printed: [sum(column_in_print(example, 0))],
    "sum of squares": lambda example, printed: [sum(value ** 2 for value in readings_in_print(example))],
    "sums of repeats": lambda example, printed: sums_of_repeats(example),
    "sum of totals": lambda example, printed: [sum(column_in_print(example, example.k))],
    "sum of squared totals": lambda example, printed: [sum(value ** 2 for value in column_in_print(example, example.k))],
}

# Kinds that the sources round, and by how many units of its last decimal a figure may be off: parts are rounded, and
# some are made from rounded ones; sums add up rounded parts.
ROUNDED = {"differences": Fraction(1, 2), "means": Fraction(1, 2), "parts": 1, "added parts": 2}


def figures_meant(example, printed):
    """What the printed figures must be."""
    if printed.kind in KINDS:
        return KINDS[printed.kind](example, printed)
    return column_in_print(example, printed.kind)


def agrees(printed, figure, meant):
    """A figure is the number meant, or that number rounded if its kind is."""
    if printed.kind not in ROUNDED:
        return Fraction(figure) == meant
    decimals = len(figure.partition(".")[2])
    return abs(Fraction(figure) - meant) * 10 ** decimals <= ROUNDED[printed.kind]


# ---- checks ----

def mends_of(example, printed):
    """The mends of one printed column, by place."""
    return {mend.place: mend for mend in MENDS if (mend.title, mend.label) == (example.title, printed.label)}


def check_rules(example):
    """Complaints of the rules: plan and readings accepted, totals by the definition after k steps, both checks."""
    levels, k, repeats = example.levels, example.k, example.repeats
    readings, sums = whole_readings(example), sums_of(example)
    found = totals_rules.totals(levels, k, sums)
    complaints = []
    if totals_rules.totals_answer(plan(example), readings, found) != totals_rules.DONE:
        complaints.append("not accepted")
    if columns(example)[k] != found:
        complaints.append("k steps do not give the totals by the definition")
    squares = sum(Fraction(total ** 2, totals_rules.divisor(levels, k, effect, repeats)) for effect, total in enumerate(found))
    if squares + totals_rules.squares_about_means(repeats, readings) != sum(reading ** 2 for reading in readings):
        complaints.append("sum of squares")
    if sum(found) != totals_rules.check_number(levels, k, sums):
        complaints.append("check sum")
    if any(shown not in (None, total) for shown, total in zip(totals_shown(example), found)):
        complaints.append("totals that are shown")
    return complaints


def check_printed(example, printed):
    """Complaints about one printed column: every figure, mended if it has a mend, is the one meant."""
    complaints = []
    figures = printed.text.split()
    meant = figures_meant(example, printed)
    own = mends_of(example, printed)
    if len(figures) != len(meant):
        return ["%s: %d figures" % (printed.label, len(figures))]
    for place, (figure, number) in enumerate(zip(figures, meant)):
        name = "%s, place %d" % (printed.label, place)
        if place in own:
            mend = own[place]
            if mend.printed != figure or mend.printed == mend.meant:
                complaints.append(name + ": mend of another figure")
            figure = mend.meant
        if figure not in (LACKING, NOT_PRINTED) and (LACKING in figure or not agrees(printed, figure, number)):
            complaints.append("%s: %s is not %s" % (name, figure, number))
    return complaints


def totals_shown(example):
    """The totals that the source shows, each mended if it has a mend, as whole numbers with the report's signs; None where it
    shows none."""
    printed = next(printed for printed in example.printed if printed.kind == example.k)
    own = mends_of(example, printed)
    figures = [own[place].meant if place in own else figure for place, figure in enumerate(printed.text.split())]
    return [None if figure in (LACKING, NOT_PRINTED)
            else int(sign(example, example.k, place) * Fraction(figure) * 10 ** example.places)
            for place, figure in enumerate(figures)]


def whole_figures(example):
    """The (step, place) of every figure of run sums, step columns and totals that is shown and has no mend."""
    found = set()
    for printed in example.printed:
        if printed.kind in KINDS:
            continue
        own = mends_of(example, printed)
        found |= {(printed.kind, place) for place, figure in enumerate(printed.text.split())
                  if place not in own and figure not in (LACKING, NOT_PRINTED)}
    return sorted(found)


def equations(example):
    """For each step and place the coefficients of the run sums in the figure there."""
    count = totals_rules.run_count(example.levels, example.k)
    found = {}
    for run in range(count):
        alone = [1 if other == run else 0 for other in range(count)]
        for step, column in enumerate([alone] + totals_rules.steps(example.levels, example.k, alone)):
            for place, value in enumerate(column):
                found.setdefault((step, place), []).append(value)
    return found


PRIME = 2 ** 31 - 1


def eliminate(rows, width):
    """Rows brought to steps in their first places, modulo a prime; the number of pivots found there."""
    rows = [[value % PRIME for value in row] for row in rows]
    rank = 0
    for place in range(width):
        pivot = next((number for number in range(rank, len(rows)) if rows[number][place]), None)
        if pivot is None:
            continue
        rows[rank], rows[pivot] = rows[pivot], rows[rank]
        inverse = pow(rows[rank][place], PRIME - 2, PRIME)
        first = rows[rank] = [value * inverse % PRIME for value in rows[rank]]
        for number in range(rank + 1, len(rows)):
            factor = rows[number][place]
            if factor:
                rows[number] = [(value - factor * own) % PRIME for value, own in zip(rows[number], first)]
        rank += 1
    return rows, rank


def check_settled(example):
    """The whole figures settle all run sums, and still do if any one of them is left out.

    Full rank modulo a prime is full rank. Beside each equation stands which figure it came from, so what is left of
    the equations beyond the rank are the relations between figures; a figure that is in one of them follows from others."""
    count = totals_rules.run_count(example.levels, example.k)
    known = equations(example)
    whole = whole_figures(example)
    marked = [known[figure] + [1 if other == number else 0 for other in range(len(whole))]
              for number, figure in enumerate(whole)]
    rows, rank = eliminate(marked, count)
    if rank != count:
        return ["readings not settled"]
    related = [any(row[count + number] for row in rows[rank:]) for number in range(len(whole))]
    return ["step %d, place %d: no other figure confirms it" % figure for figure, sure in zip(whole, related) if not sure]


def check_doubtful():
    """The readings of the report's three-level example are settled without the figures at doubtful places."""
    example = REPORT_THREE_LEVELS
    known = equations(example)
    sure = [known[figure] for figure in whole_figures(example) if figure[1] not in DOUBTFUL]
    count = totals_rules.run_count(example.levels, example.k)
    return [] if eliminate(sure, count)[1] == count else [example.title + ": readings need figures at doubtful places"]


def mended_at(block, place):
    """A block whose second n k, or first, is taken for n k d; place says which of the two."""
    words = block.replace("nk>nkd", "nk").split()
    words[[at for at, word in enumerate(words) if word == "nk"][place]] = "nk>nkd"
    return " ".join(words)


def check_labels():
    """Of all ways to take one of the two n k of each block of Table 1 for n k d, one alone has the run sums of Table 7; and
    these are the readings that are used."""
    ways = [[mended_at(block, place) for block, place in zip(POTATO_BLOCKS, places)] for places in product(range(2), repeat=4)]
    meant = sums_of(YATES_POTATOES)
    fitting = [blocks for blocks in ways
               if sums_of(POTATO_PLOTS._replace(readings=by_runs(POTATO_TREATMENTS, blocks))) == meant]
    return [] if fitting == [POTATO_BLOCKS] else ["Yates, Table 1: labels"]


def check_beet_blocks():
    """The sums of the blocks of Table 44 are those that it prints, and its first replication that of Section 12."""
    complaints = []
    for blocks, printed in zip(BEET_BLOCKS, BEET_BLOCK_SUMS):
        sums = [sum(Fraction(plot) for plot in plots_of(block).values()) for block in blocks]
        if sums != [Fraction(figure) for figure in printed.split()]:
            complaints.append("Yates, Table 44: block sums " + printed)
    if whole_readings(BEET_PLOTS)[::2] != whole_readings(YATES_FIRST_REPLICATION):
        complaints.append("Yates, Table 44: first replication")
    return complaints


def check_lists():
    """The block words of every two-level example in blocks are a list, and as many lists confound the same effects as a group
    has. Those of the beans confound the effects that Table 23 has in its line of blocks."""
    complaints = [] if [own for own in EXAMPLES if own.levels == 2 and own.blocks] == IN_BLOCKS else ["examples in blocks"]
    for example in IN_BLOCKS:
        k, words = example.k, tuple(sorted(example.blocks))
        size = blockings.groups(k, len(words))[blockings.confounded(words)]
        if not blockings.is_listed(plan(example)) or size != blockings.GROUP_SIZES[len(words)]:
            complaints.append(example.title + ": the block words are no list")
    printed = next(printed for printed in YATES_BEANS.printed if printed.label == "Table 23, blocks")
    if tuple(sorted(printed.effects)) != blockings.confounded(YATES_BEANS.blocks):
        complaints.append("Yates, Table 23: confounded effects")
    return complaints


def check_mends():
    """Complaints about mends given twice or of no printed column."""
    labels = {(example.title, printed.label) for example in EXAMPLES for printed in example.printed}
    complaints = ["mend of no column: %r" % (mend,) for mend in MENDS if (mend.title, mend.label) not in labels]
    if len({mend[:3] for mend in MENDS}) != len(MENDS):
        complaints.append("two mends of one figure")
    return complaints


def check_example(example):
    """Complaints about one example."""
    complaints = check_rules(example)
    for printed in example.printed:
        complaints += check_printed(example, printed)
    return [example.title + ": " + complaint for complaint in complaints + check_settled(example)]


def check():
    """List of all complaints about the examples and the mends."""
    complaints = check_mends() + check_doubtful() + check_labels() + check_beet_blocks() + check_lists()
    for example in EXAMPLES:
        complaints += check_example(example)
    return complaints


# ---- expected text ----

def values_text(values):
    """Each value after one space."""
    return "".join(" %d" % value for value in values)


def pass_orders(k):
    """Lists of calls, each with every base factor once and the position k, which is no base factor, at every place."""
    count = k + 1
    rising = [[(first + place) % count for place in range(count)] for first in range(count)]
    falling = [[(first + count - place) % count for place in range(count)] for first in range(count)]
    return rising + falling


def example_lines(number, example):
    """The lines of one example: its steps, its totals, and the totals again for every order of passes."""
    sums = sums_of(example)
    totals = values_text(totals_rules.totals(example.levels, example.k, sums))
    lines = ["example %d: %d levels, %d factors, %d repeats" % (number, example.levels, example.k, example.repeats)]
    for step, column in enumerate(totals_rules.steps(example.levels, example.k, sums), 1):
        lines.append("step %d:%s" % (step, values_text(column)))
    lines.append("totals:" + totals)
    for calls in pass_orders(example.k):
        answers = [totals_rules.pass_answer(plan(example), call, sums) for call in calls]
        lines.append("calls%s, answers%s:%s" % (values_text(calls), values_text(answers), totals))
    return lines


def after(answer, made, kept):
    """What an answer and the column at exit look like: the one made, or the one kept where the call is refused."""
    return " answer %d:%s" % (answer, values_text(kept if answer else made))


def with_one(levels, place, value):
    """A column of one factor's runs with the value at one place and 0 elsewhere."""
    return [value if own == place else 0 for own in range(levels)]


def heading(levels, place, value):
    """The line before what is tried on such a column."""
    return "levels %d, place %d, value %d" % (levels, place, value)


def value_lines(levels, place, value):
    """Step and pass of one factor over such a column."""
    column, zeros, one_factor = with_one(levels, place, value), [0] * levels, totals_rules.Plan(levels, 1)
    made = totals_rules.step(levels, column)
    return [heading(levels, place, value),
            "step" + after(totals_rules.step_answer(one_factor, column, zeros), made, zeros),
            "pass" + after(totals_rules.pass_answer(one_factor, 0, column), made, column)]


def reading_lines(levels, place, reading):
    """The totals of readings that are such a column."""
    readings, zeros = with_one(levels, place, reading), [0] * levels
    answer = totals_rules.totals_answer(totals_rules.Plan(levels, 1), readings, zeros)
    return [heading(levels, place, reading), "totals" + after(answer, totals_rules.totals(levels, 1, readings), zeros)]


def about(limit):
    """A limit and one beyond it, either way."""
    return limit, limit + 1, -limit, -limit - 1


def limit_lines(levels, place):
    """The lines about the limits: of values, and of the readings of either level count."""
    lines = []
    for value in about(totals_rules.MOST_VALUE):
        lines += value_lines(levels, place, value)
    for limit in totals_rules.MOST_READING.values():
        for reading in about(limit):
            lines += reading_lines(levels, place, reading)
    return lines


# Levels, factors and repeats that are tried: of one factor, of the most readings that a plan may have and of the next more,
# and of levels or factors that are refused before.
REPEATS_TRIED = [(2, 1, repeats) for repeats in (0, 1, 2, 3, 4, 5, 8, 9, 16, 128, 255)] + [
    (2, 10, 1), (2, 10, 2), (2, 9, 2), (2, 9, 4), (2, 8, 4), (2, 8, 8), (2, 7, 8),
    (3, 6, 1), (3, 6, 2), (3, 5, 4), (3, 5, 8), (3, 4, 8), (4, 1, 3), (2, 11, 3),
]
TRIED_VALUES, TRIED_READINGS = 2, 16


def repeats_line(levels, k, repeats):
    """What step, passes and totals answer to a plan, whose columns have two places and whose readings are sixteen; the second
    pass is of no base factor."""
    own, column, readings = totals_rules.Plan(levels, k, repeats=repeats), [0] * TRIED_VALUES, [0] * TRIED_READINGS
    answers = (totals_rules.step_answer(own, column, column), totals_rules.pass_answer(own, 0, column),
               totals_rules.pass_answer(own, k, column), totals_rules.totals_answer(own, readings, column))
    return "levels %d, factors %d, repeats %d: step %d, pass %d, pass of no factor %d, totals %d" % (
        levels, k, repeats, *answers)


def expected_text():
    """What the program that works the examples and tries limits and repeats must write."""
    lines = []
    for number, example in enumerate(EXAMPLES, 1):
        lines += example_lines(number, example)
    for levels in (2, 3):
        for place in range(levels):
            lines += limit_lines(levels, place)
    lines += [repeats_line(*tried) for tried in REPEATS_TRIED]
    return "".join(line + "\n" for line in lines)


if __name__ == "__main__":
    found = check()
    if found:
        sys.exit("\n".join(found))
    sys.stdout.write(expected_text())
