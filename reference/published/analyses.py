# Published analyses of variance: readings, block words and marks with the figures that are printed for their tables; and
# tables of extreme readings at the largest plans, with repeats and without.
#
# Sources are named as in examples.py, whose readings are used where it has them. Readings of seven more tables are here:
# Yates's squares that interlace, his hay and the second replication of his sugar beet; Daniel's mangolds in pounds, half of
# the beans, lettuce and air pollution.
#
# Signs, units, question marks and points in printed figures are as in examples.py. In a printed text "94.22+216.84" is the
# sum of two printed figures, and "9>-9" a damaged figure with its mend.
#
# Closeness: a printed figure is the computed one within half a unit of its last decimal, a sum of figures within half a unit
# for each. Figures that are further off are listed (OFF), with by how many units and what we take for the cause: the figure
# is cut off after its last decimal and not rounded, or it is made from other printed figures, which are rounded. Either is
# tested, and a figure that is not further off may not stand in that list. Degrees, totals and numerators, and the figures of
# the report's two-level example, are compared exactly. Damaged figures have mends as in examples.py (MENDS).
#
# Marks: a row has mark 1 if the source pools it as error, or leaves it out of the effects that it adds up.
#
# Repeats: where the single plots are the readings, the squares about the means of runs are what the source has for blocks,
# rows, columns and error, added up; the rules have them all in the error.
#
# Three levels in blocks: Yates splits D.S.N into four pairs of degrees, W, X, Y and Z, and each pair is the block amount of a
# word (yates.py has their sets). The first replication was laid out in the sets of Y, the second in those of Z. His readings
# are also worked with the words of the other pairs, whose sums he prints, as if they had been laid out so.
#
# Lists: the block words of the two-level tables in blocks, of those with two to five factors and none added, are found among
# the lists of rules/blockings.py; the two effects that are lost in Yates's squares are no list.
#
# Screening: of the published two-level tables rules/screening.py must refuse those that pool a main effect as error, with 13,
# and no others; and Data Sample 12-4 where the row of D = ABC is marked.
#
# Defined here:
#   TABLES                 the worked tables, numbered from 1 in this order
#   IN_BLOCKS              those of two levels and two to five factors, none added, that are in blocks
#   FOUR_BLOCKS, SIX_ADDED, TEN, TEN_BLOCKED, TEN_ADDED, SIX
#                          words and plans of ten factors, and the plan of six at three levels
#   MOST_REPEATED          plans with repeats that have the most readings, by levels
#   THREE_BLOCKED          large three-level plans in three blocks, with repeats and without
#   MENDS, OFF             damaged figures; figures further off than half a unit
#   POOLED                 the report's columns in which rows of three levels are pooled, as far as they can be read
#   KNOWN                  numerators of the extreme tables that are known without adding up
#   TOGETHER               printed figures that add up the blocks of several tables
#   MAINS_POOLED           the published tables that pool main effects, with the letters of these
#   words_of_row           the words of three levels that use the letters of a row
#   in_turn, each          readings with repeats: both limits in turn, and values for each run
#   by_blocks              readings of three levels that are the same in each block
#   marks_of, sums_of, table_of
#                          the marks of all rows, the run sums, and the table, of a worked table
#   check                  list of complaints, empty if all is well

import re
from collections import namedtuple
from fractions import Fraction
from itertools import combinations, product

from reference.published import examples
from reference.published.yates import WORDS
from reference.rules import blockings, screening
from reference.rules import table as table_rules
from reference.rules import totals as totals_rules
from reference.rules.table import row_number
from reference.rules.totals import Plan, block_of

# places: decimals of the readings in print. plots: how many plots one reading adds up. marked: the rows with mark 1.
WorkedTable = namedtuple("WorkedTable", "title plan readings marked places plots printed")

# parts: what the figures of the text belong to, see part_of. units: how many units of its last decimal a figure may be off.
Printed = namedtuple("Printed", "where measure parts text units", defaults=(Fraction(1, 2),))

# title, where, measure and place say which figure; place counts from 0.
Mend = namedtuple("Mend", "title where measure place printed meant reason")
Off = namedtuple("Off", "title where measure place units cause")

# tables: those whose blocks are added up. cause: as of a figure that is off, None if it is not.
Together = namedtuple("Together", "where tables figure cause", defaults=(None,))

EXACT = 0
LACKING, NOT_PRINTED = examples.LACKING, examples.NOT_PRINTED


def mended(figure):
    """A figure as printed and as meant; the same where it has no mend."""
    shown, _, meant = figure.partition(">")
    return shown, meant or shown


def rows_of(labels):
    """The rows of labels parted by spaces, rising."""
    return sorted(row_number(label) for label in labels.split())


def of_letters(plan, least):
    """The rows of so many letters or more that are not confounded."""
    lost = totals_rules.confounded(plan)
    rows = range(table_rules.row_count(plan.k))
    return [row for row in rows if totals_rules.letter_count(row) >= least and row not in lost]


def worked(example, marked, printed):
    """The table of an example of examples.py. marked: labels, or the least number of letters of rows that are pooled."""
    plan = examples.plan(example)
    rows = of_letters(plan, marked) if isinstance(marked, int) else rows_of(marked)
    return WorkedTable(example.title, plan, examples.whole_readings(example), rows, example.places, example.plots, printed)


def new_example(title, source, where, levels, k, readings, **values):
    """An example that examples.py does not have."""
    return examples.worked(title, source, where, levels, k, readings, [], **values)


# ---- the report and AMCP ----

# The totals squared are the numerators, since every divisor of two levels is the denominator.
REPORT_TWO_LEVELS = worked(examples.REPORT_TWO_LEVELS, "", [
    Printed("analysis of variance", "sum of squares", "rows",
            "34875.5625 770.0625 2232.5625 7.5625 18.0625 410.0625 588.0625 855.5625 3.0625 315.0625 1463.0625 27.5625 "
            "1701.5625 2889.0625 826.5625 27.5625", EXACT),
    Printed("analysis of variance", "sum of squares", "total", "47011.000", EXACT),
    Printed("squares", "numerator", "rows",
            "558009 12321 3572? 121 289 6561 9409 13689 49 5041 23409 441 27225 46225 13225 441", EXACT),
    Printed("sum of squares", "numerator", "total", "752176", EXACT),
    Printed("check 1", "sum of totals", "total", "960", EXACT),
    Printed("check 2", "numerator", "total", "752176", EXACT),
    Printed("check 2", "sum of squares", "total", "47001", EXACT),
])

AMCP_WHOLE = worked(examples.AMCP_WHOLE, 3, [
    Printed("12-2.2.2, step 2", "numerator", "error", "5.17", EXACT),
    Printed("12-2.2.2, step 3", "degrees", "error", "5", EXACT),
    Printed("12-2.2.2, step 3", "mean square", "error", ".0646"),
    Printed("12-2.2.2, step 3", "standard deviation", "error", ".25"),
    Printed("12-2.2.2, step 5", "standard deviation", "error", "0.254"),
    Printed("Table 12-2", "numerator", "total", "3506.40", EXACT),
    Printed("Table 12-2", "sum of squares", "total", "219.15", EXACT),
])

# The same readings in the blocks of Table 12-3, four factors (ii), pooled as paragraph 12-3.2.2 says: interactions of three
# or more factors but those that are confounded. AMCP works no example of blocks.
AMCP_BLOCKED = worked(examples.AMCP_WHOLE._replace(
    title="AMCP, Data Sample 12-2 in four blocks", blocks=(row_number("AD"), row_number("ABC"))), 3, [
    Printed("Table 12-3, number of confounded effects", "degrees", "blocks", "3", EXACT),
    Printed("Table 12-2", "numerator", "total", "3506.40", EXACT),
])

# AMCP pools nothing here; its estimate of error comes from elsewhere.
AMCP_HALF = worked(examples.AMCP_HALF, "", [
    Printed("Table 12-6", "numerator", "total", "882.72", EXACT),
    Printed("Table 12-6", "sum of squares", "total", "110.34", EXACT),
])


# ---- Yates, two levels ----

YATES_POTATOES = worked(examples.YATES_POTATOES, "", [
    Printed("Table 8", "sum of squares", "mean, kept", "2720861.3 458718.0"),
    Printed("Table 8", "degrees", "kept", "7", EXACT),
    Printed("Table 8", "mean square", "kept", "65531.1"),
    Printed("Table 9", "sum of squares", "A, B, AB, C, AC, BC, ABC, kept",
            "3465.3 161170.0 344.5 278817.8 810.0 13986.3 124.0 458717.9"),
    Printed("Table 9", "degrees", "A, B, AB, C, AC, BC, ABC, kept", "1 1 1 1 1 1 1 7", EXACT),
])

# Factors s, d, n, p, k; block words s d p and s n k; d n p k is confounded with them.
YATES_BEANS = worked(examples.YATES_BEANS, 3, [
    Printed("Table 21", "block total", "0, 1, 2, 3", "555.2 436.7 481.0 412.3", EXACT),
    Printed("Table 23", "sum of squares", "blocks, kept, error, corrected", "1476.43 4921.20 1066.64 7464.27"),
    Printed("Table 23", "degrees", "blocks, kept, error, corrected", "3 15 13 31", EXACT),
    Printed("Table 23", "mean square", "blocks, kept, error", "492.14 328.08 82.05"),
    Printed("Daniel, Section 7.2.2", "standard deviation", "error", "9.06"),
    Printed("Daniel, Section 7.2.2", "degrees", "error", "13", EXACT),
])

# P K and N P K are lost to rows and columns. As block words they would be refused, since N is their combination.
YATES_SUGAR_BEET = worked(examples.YATES_SUGAR_BEET, "BC ABC", [
    Printed("Table 29", "sum of squares", "kept", "1145.7"),
    Printed("Table 29", "degrees", "kept", "5", EXACT),
    Printed("Table 29", "mean square", "kept", "229.1"),
])

# The same yields, with the treatments at the places of Table 27. The scan lacks one treatment of the second row and one of
# the third; check_arrangement() tests that one place alone fits each. N P K is the difference of the two squares.
SQUARES_PRINTED = ["(1) k pk p npk np nk n", "npk np n k pk (1) p", "pk n (1) k p np npk", "np p nk npk n (1) pk k"]
SQUARES = ["(1) k pk p npk np nk n", "nk npk np n k pk (1) p", "pk n (1) k p nk np npk", "np p nk npk n (1) pk k"]
SQUARES_YIELDS = ["542 587 583 576 549 562 576 569", "629 615 634 594 637 623 643 629",
                  "562 596 624 627 639 628 645 651", "604 638 609 634 615 586 605 618"]
TREATMENTS = "(1) n p np k nk pk npk".split()


def treatment_sums(arrangement):
    """The sums of the yields of each treatment, in standard order."""
    plots = [(treatment, int(plot)) for row, yields in zip(arrangement, SQUARES_YIELDS)
             for treatment, plot in zip(row.split(), yields.split())]
    return [sum(plot for own, plot in plots if own == treatment) for treatment in TREATMENTS]


INTERLACED = worked(new_example(
    "Yates, sugar beet in squares that interlace", "Yates", "Section 8b, Tables 27, 28 and 30; factors n, p, k", 2, 3,
    " ".join(str(plots) for plots in treatment_sums(SQUARES)), plots=4, blocks=(row_number("ABC"),)), "", [
    Printed("Table 30", "sum of squares", "blocks, kept", "442.5 2694.9"),
    Printed("Table 30", "degrees", "blocks, kept", "1 6", EXACT),
    Printed("Table 30", "mean square", "blocks, kept", "442.5 449.2"),
])

YATES_TABLE_38 = worked(examples.YATES_TABLE_38[3], "", [
    Printed("Table 39", "sum of squares", "mean, A, B, AB", "1191372.2 3117.4 17292.2 103.4"),
    Printed("Table 39", "degrees", "A, B, AB", "1 1 1", EXACT),
])


# ---- Daniel, two levels ----

DANIEL_CEMENT_FOUR = worked(examples.DANIEL_CEMENT._replace(
    title="Daniel, 2^3 on cement, four rows pooled"), "A AB AC ABC", [
    Printed("Section 5.11", "mean square", "error", "216"),
    Printed("Section 5.11", "degrees", "error", "4", EXACT),
])

DANIEL_CEMENT_TWO = worked(examples.DANIEL_CEMENT._replace(
    title="Daniel, 2^3 on cement, two rows pooled"), "AC ABC", [
    Printed("Section 5.11", "mean square", "error", "8.5", EXACT),
    Printed("Section 5.11", "degrees", "error", "2", EXACT),
])

DANIEL_DRILL = worked(examples.DANIEL_DRILL, "A AB AC ABC AD BD ABD ACD BCD ABCD", [
    Printed("Section 6.2", "sum of squares", "corrected, kept, error, error", "262.68 249.15 13.52 13.53"),
    Printed("Section 6.2", "degrees", "kept, error", "5 10", EXACT),
    Printed("Section 6.2", "mean square", "kept, error", "49.83 1.35"),
    Printed("Section 6.2", "share of corrected", "kept", "0.948"),
])

# The yields of Table 7.8, in pounds; Table 7.9 has them in tens of pounds, rounded, and the block of each run. Kempthorne's
# mean square, which Daniel cites, is in tens of pounds, so that a pound is a tenth.
DANIEL_POUNDS = new_example(
    "Daniel, 2^5 on mangolds, in pounds", "Daniel", "Tables 7.8 and 7.9; factors S, P, K, N, D", 2, 5,
    "74.0 110.8 88.8 100.8 78.4 115.6 69.2 98.4 78.0 118.4 96.4 131.2 100.0 137.6 86.0 129.2 "
    "124.8 117.6 100.8 128.4 89.6 132.8 84.4 135.6 110.4 137.6 99.6 132.4 100.8 146.8 110.0 150.6",
    places=1, blocks=examples.DANIEL_MANGOLDS.blocks)
MANGOLD_BLOCKS = "3 4 1 2 2 1 4 3 4 3 2 1 1 2 3 4 2 1 4 3 3 4 1 2 1 2 3 4 4 3 2 1"

DANIEL_MANGOLDS = worked(DANIEL_POUNDS, 3, [
    Printed("Section 7.4.3, Kempthorne", "mean square", "error", "67.91"),
    Printed("Section 7.4.3, Kempthorne", "degrees", "error", "13", EXACT),
])

# The sixteen runs in two of the four blocks of the beans: k is high when an odd number of d, n, p are, and s d p is the
# difference of the two blocks. The readings are the yields less 59, rounded; two have lost a minus, as the yields show.
HALF_READINGS = "7 -23 8>-8 14 12 1 8 11 9>-9 15 18 -9 -23 -13 18 2"

DANIEL_HALF = worked(new_example(
    "Daniel, half of 2^5 on beans", "Daniel", "Table 7.4; factors S, D, N, P, and K = D N P", 2, 4,
    " ".join(mended(figure)[1] for figure in HALF_READINGS.split()),
    turned=True, added=((row_number("BCD"), 0),), blocks=(row_number("ABD"),)), "A AB C AC BC ABC D AD BD ACD", [
    Printed("Table 7.4", "turned total", "rows", "21 -25 87 -11 11 -3 37 -13 -23 7 31 -143 -73 -3 69 63", EXACT),
    Printed("Section 7.2.3", "mean square", "error", "24.7"),
    Printed("Section 7.2.3", "degrees", "error", "10", EXACT),
])


# ---- three levels ----

REPORT_THREE_LEVELS = worked(examples.REPORT_THREE_LEVELS, "", [
    Printed("Section 2, powers of the couple (1, 2)", "degrees", "rows", "1 2 2 4 2 4 4 8 2 4 4 8 4 8 8 16", EXACT),
    Printed("worksheet", "mean square", "CD, ACD, BCD", "10.3457 4.8556 6.5031"),
    Printed("worksheet, check", "sum of squares", "total", "254?", EXACT),
])

YATES_TWO_OF_THREE = worked(examples.YATES_TWO_OF_THREE, "", [
    Printed("Table 47", "sum of squares", "mean, A+B+AB, A, B", "86584.10 341.52 94.47 107.80"),
    Printed("Table 48", "sum of squares", "A, B, AB", "94.47 107.80 139.25"),
    Printed("Table 48", "degrees", "A, B, AB", "2 2 4", EXACT),
    Printed("Table 48", "mean square", "A, B, AB", "47.24 53.90 34.81"),
    Printed("Table 53", "sum of squares", "AB", "139.23"),
    Printed("report, Section 2, powers of the couple (1, 2)", "degrees", "rows", "1 2 2 4", EXACT),
])

# The arrangement in blocks confounds a part of D S N, which Yates therefore gives in two figures; its row is marked.
YATES_FIRST_REPLICATION = worked(examples.YATES_FIRST_REPLICATION, "ABC", [
    Printed("Table 56", "sum of squares", "A+B+AB, A+C+AC, B+C+BC", "262.05 333.49 250.82"),
    Printed("Table 58", "sum of squares", "A+B+C, corrected", "301.12+51.42 999.23"),
    Printed("Table 58", "degrees", "A+B+C, corrected", "3+3 26", EXACT),
    Printed("Table 59", "sum of squares", "error, kept", "415.03+90.36 301.12+51.42+57.87+68.19+15.22"),
    Printed("Table 59", "degrees", "error, kept", "2+6 3+3+3+6+3", EXACT),
    Printed("report, Section 2, powers of the couple (1, 2)", "degrees", "rows", "1 2 2 4 2 4 4 8", EXACT),
])

YATES_BOTH_REPLICATIONS = worked(examples.YATES_BOTH_REPLICATIONS, "ABC", [
    Printed("Table 47", "sum of squares", "mean, A+B+AB, A+C+AC, B+C+BC, A, B, C, error, corrected",
            "86584.10 341.52 275.13 329.77 94.47 107.80 150.14 94.22+216.84 905.06"),
    Printed("Table 48", "sum of squares", "A, B, C, AB, AC, BC", "94.47 107.80 150.14 139.25 30.52 71.83"),
    Printed("Table 48", "degrees", "A, B, C, AB, AC, BC, error", "2 2 2 4 4 4 4+4", EXACT),
    Printed("Table 48", "mean square", "A, B, C, AB, AC, BC", "47.24 53.90 75.07 34.81 7.63 17.96"),
])

# Three treatments in each of two pairs of years. They have no order, but a row holds all effects of its letters, and its sum
# of squares does not depend on the order. Factor A is 1933 and 1935, written down; B is 1932 and 1934, written across.
HAY = new_example("Yates, hay", "Yates", "Section 9f, Tables 41 and 42", 3, 2,
                  "65.2 104.2 94.5 71.0 101.0 84.8 85.2 112.2 108.2", places=1, plots=4)
YATES_HAY = worked(HAY, "", [
    Printed("Table 42", "sum of squares", "A, B, AB, corrected", "402.20 115.85 22.83 540.89"),
    Printed("Table 42", "degrees", "A, B, AB, corrected", "2 2 4 8", EXACT),
    Printed("Table 42", "mean square", "A, B, AB", "201.10 57.92 5.71"),
])

# Factor A is phosphate, written down; B is nitrogen.
DANIEL_LETTUCE = worked(new_example(
    "Daniel, 3^2 on lettuce", "Daniel", "Tables 4.2 and 4.3", 3, 2, "449 409 341 413 358 278 326 291 312"), "AB", [
    Printed("Table 4.3", "sum of squares", "A, A1, A2, B, B1, B2, A1B1, error, corrected",
            "11008.67 11008.17 0.50 12200.00 12150.00 50.00 2209.00 4791.33 28000.00"),
    Printed("Table 4.3", "degrees", "A, A1, A2, B, B1, B2, A1B1, error, corrected", "2 1 1 2 1 1 1 3 8", EXACT),
    Printed("Table 4.2", "mean square", "error", "1198"),
    Printed("Table 4.3", "mean square", "error", "1198.00"),
])

# Factor A is the size of the community, written down; B is the year.
DANIEL_AIR = worked(new_example(
    "Daniel, 3^2 on air pollution", "Daniel", "Table 4.6", 3, 2, "1035 661 1156 768 410 799 641 334 666"), "AB", [
    Printed("Table 4.6", "sum of squares", "A, B, error", "287723 260560 7306"),
    Printed("Table 4.6", "degrees", "A, B, error", "2 2 4", EXACT),
    Printed("Table 4.6", "mean square", "A, B, error", "143861 130280 1827"),
])


# ---- runs that are made several times ----

# The figures of the sums, and besides them blocks, error and total: the readings are the single plots.
POTATO_PLOTS = worked(examples.POTATO_PLOTS, "", YATES_POTATOES.printed + [
    Printed("Table 7", "turned total", "rows", "9331 333 2271 105 2987 161 -669 -63", EXACT),
    Printed("Table 8", "sum of squares", "error, corrected", "774.1+7287.6 466779.7"),
    Printed("Table 8", "degrees", "error, corrected", "3+21 31", EXACT),
])

# As if n k d were confounded, each block being halved. Table 11 has the halves, those with n k d last.
POTATO_BLOCKED = worked(examples.POTATO_PLOTS._replace(
    title="Yates, potatoes, single plots, N.K.D confounded", blocks=(row_number("ABC"),)), "", [
    Printed("Table 11", "block total", "0, 1", "1163+1157+1168+1209 1133+1134+1201+1166", EXACT),
    Printed("Table 12", "sum of squares", "blocks, kept, error, corrected", "124.0 458593.9 774.1+421.9+6865.8 466779.7"),
    Printed("Table 12", "degrees", "blocks, kept, error, corrected", "1 6 3+3+18 31", EXACT),
    Printed("Table 12", "mean square", "blocks, kept", "124.0 76432.3"),
])

SUGAR_BEET_SINGLE = worked(examples.SUGAR_BEET_SINGLE, "BC ABC", YATES_SUGAR_BEET.printed + [
    Printed("Section 8b", "turned total", "A, B, C, AB, AC", "109 -11 55 -147 -5", EXACT),
    Printed("Table 29", "sum of squares", "error, corrected", "457.5+20488.4+2797.9+3460.6 28350.1"),
    Printed("Table 29", "degrees", "error, corrected", "1+6+6+13 31", EXACT),
])

# D.S.N is marked as before; what Yates has for it in Table 48, being confounded in part, is another figure than in Table 47.
BEET_PLOTS = worked(examples.BEET_PLOTS, "ABC", [
    Printed("Table 47", "sum of squares", "mean, A+B+AB, A+C+AC, B+C+BC, A, B, C, ABC, kept+ABC",
            "86584.10 341.52 275.13 329.77 94.47 107.80 150.14 94.22+216.84 905.06"),
    Printed("Table 48", "sum of squares", "A, B, C, AB, AC, BC, error, corrected",
            "94.47 107.80 150.14 139.25 30.52 71.83 1950.38+94.22+44.29+295.29 2978.19"),
    Printed("Table 48", "degrees", "A, B, C, AB, AC, BC, ABC, error, corrected", "2 2 2 4 4 4 4+4 5+4+4+22 53", EXACT),
    Printed("Table 48", "mean square", "A, B, C, AB, AC, BC", "47.24 53.90 75.07 34.81 7.63 17.96"),
])

# One plot is filled in, for which Daniel takes a degree off; blocks and residual are from rounded means. Neither is compared.
DANIEL_BUDS = worked(examples.DANIEL_BUDS, "", [
    Printed("Table 3.8", "sum of squares", "kept, corrected", "6557+766 8363"),
    Printed("Table 3.8", "degrees", "kept", "1+2", EXACT),
])


# ---- three levels in three blocks ----

def in_sets(example, group, marked, printed):
    """The table of an example laid out in the sets of one of Yates's groups."""
    return worked(example._replace(title="%s, in the sets of %s" % (example.title, group), blocks=(WORDS[group],)),
                  marked, printed)


def sums_of_sets(where, text):
    """The printed sums of the three sets of a group."""
    return Printed(where, "block total", "0, 1, 2", text, EXACT)


# As it was laid out and analysed. W, X and Z, which are what is left of D.S.N, are a part of the error in Table 58.
FIRST_Y = in_sets(examples.YATES_FIRST_REPLICATION, "Y", "ABC", [
    sums_of_sets("Table 44", "439.9 425.8 359.0"),
    sums_of_sets("Table 55", "439.9 425.8 359.0"),
    Printed("Table 56", "sum of squares", "A+B+AB, A+C+AC, B+C+BC, error", "262.05 333.49 250.82 90.36"),
    Printed("Table 58", "sum of squares", "blocks, A+B+C, AB+AC+BC+ABC, corrected",
            "415.03 301.12+51.42 57.87+173.79 999.23"),
    Printed("Table 58", "degrees", "blocks, A+B+C, AB+AC+BC+ABC, corrected", "2 3+3 3+15 26", EXACT),
    Printed("Table 58", "mean square", "blocks", "207.52"),
    Printed("Table 59", "sum of squares", "blocks, kept, error, corrected",
            "415.03 301.12+51.42+57.87+68.19+15.22 90.36 999.23"),
    Printed("Table 59", "degrees", "blocks, kept, error, ABC, corrected", "2 3+3+3+6+3 6 6 26", EXACT),
    Printed("Table 59", "mean square", "blocks", "207.52"),
])

FIRST_W = in_sets(examples.YATES_FIRST_REPLICATION, "W", "ABC", [sums_of_sets("Table 55", "402.6 396.5 425.6")])
FIRST_X = in_sets(examples.YATES_FIRST_REPLICATION, "X", "", [sums_of_sets("Table 55", "403.5 415.3 405.9")])
FIRST_Z = in_sets(examples.YATES_FIRST_REPLICATION, "Z", "ABC", [
    sums_of_sets("Table 46, Z without the blocks Z", "420.3 397.4 407.0"),
    sums_of_sets("Table 55", "420.3 397.4 407.0"),
])

# As it was laid out, in the sets of Z; and in those of Y.
SECOND_REPLICATION = new_example(
    "Yates, sugar beet, second replication", "Yates", "Section 10b, Tables 44 (blocks Z) and 46; factors d, s, n", 3, 3,
    examples.by_runs(examples.BEET_TREATMENTS, [" ".join(examples.BEET_BLOCKS[1])]), places=1)
SECOND_Z = in_sets(SECOND_REPLICATION, "Z", "ABC", [
    sums_of_sets("Table 44", "317.8 305.5 314.3"),
    sums_of_sets("Table 46, blocks", "317.8 305.5 314.3"),
    Printed("Table 46", "effect total", "mean", "937.6", EXACT),
])
SECOND_Y = in_sets(SECOND_REPLICATION, "Y", "", [sums_of_sets("Table 46, Y without the blocks Y", "316.7 303.1 317.8")])

# Both replications as repeats, all in the sets of one group.
BOTH_Y = in_sets(examples.BEET_PLOTS, "Y", "ABC", [
    sums_of_sets("Table 46", "756.6 728.9 676.8"),
    Printed("Table 47", "sum of squares", "mean, A, B, C, blocks+ABC", "86584.10 94.47 107.80 150.14 94.22+216.84"),
    Printed("Table 48", "sum of squares", "corrected", "2978.19"),
    Printed("Table 48", "degrees", "blocks+ABC, corrected", "4+4 53", EXACT),
])
BOTH_Z = in_sets(examples.BEET_PLOTS, "Z", "", [sums_of_sets("Table 46", "738.1 702.9 721.3")])
BOTH_W = in_sets(examples.BEET_PLOTS, "W", "ABC", [sums_of_sets("Table 46", "715.6 694.6 752.1")])
BOTH_X = in_sets(examples.BEET_PLOTS, "X", "", [sums_of_sets("Table 46", "721.2 719.4 721.7")])

# The diagonals of the hay; each pair's amount is what the other leaves of the interaction.
HAY_PRINTED = [
    Printed("Table 42", "sum of squares", "A, B, blocks+AB, corrected", "402.20 115.85 22.83 540.89"),
    Printed("Table 42", "degrees", "A, B, blocks+AB, corrected", "2 2 4 8", EXACT),
]
HAY_I = in_sets(HAY, "I", "", [sums_of_sets("Table 41", "274.4 274.2 277.7")] + HAY_PRINTED)
HAY_J = in_sets(HAY, "J", "AB", [sums_of_sets("Table 41", "262.2 283.4 280.7")] + HAY_PRINTED)


# ---- the rules' own runs ----

RULES_TWO_FACTORS = worked(examples.RULES_TWO_FACTORS, "AB", [
    Printed("Reference runs", "effect total", "rows", "20 -6 -4 2", EXACT),
    Printed("Reference runs", "numerator", "rows", "400 36 16 4", EXACT),
    Printed("Reference runs", "numerator", "total", "456", EXACT),
    Printed("Reference runs", "sum of totals", "total", "12", EXACT),
])

RULES_THREE_LEVELS = worked(examples.RULES_THREE_LEVELS, "", [
    Printed("Reference runs", "effect total", "mean, A1, A2", "10 -1 -5", EXACT),
    Printed("Reference runs", "numerator", "mean, A1, A2, A", "200 3 25 28", EXACT),
    Printed("Reference runs", "degrees", "A", "2", EXACT),
    Printed("Reference runs", "sum of totals", "total", "4", EXACT),
])

RULES_BLOCKS = worked(examples.RULES_BLOCKS, "", [
    Printed("Reference runs", "effect total", "rows", "36 -4 -8 0 -16 0 0 0", EXACT),
    Printed("Reference runs, number of blocks rows", "degrees", "blocks", "1", EXACT),
])

RULES_ONE_FACTOR = worked(examples.RULES_ONE_FACTOR, "A", [
    Printed("Reference runs", "effect total", "rows", "0 -200000", EXACT),
])


# ---- extreme readings ----

TOP, MOST_NUMERATOR = totals_rules.MOST_READING, totals_rules.MOST_NUMERATOR


def by_signs(plan, effect, top, at_zero):
    """For each run top where the effect's coefficient is above 0, minus top where it is below, else the number at_zero."""
    coefficients = [totals_rules.coefficient(plan.levels, plan.k, effect, run)
                    for run in range(totals_rules.run_count(plan.levels, plan.k))]
    return [top if own > 0 else -top if own < 0 else at_zero for own in coefficients]


def by_spreading(plan):
    """Numbers less the limit: the first is 0, and each next is the one before times 9973 plus 12345, modulo twice the limit
    plus 1. No total is 0."""
    top = TOP[plan.levels]
    readings, number = [], 0
    for _ in range(totals_rules.reading_count(plan)):
        readings.append(number - top)
        number = (number * 9973 + 12345) % (2 * top + 1)
    return readings


def in_turn(plan, top):
    """The limit and its opposite in turn, so that every run has the sum 0."""
    return [top, -top] * (totals_rules.reading_count(plan) // 2)


def each(plan, values):
    """For each run as many readings of its value as it is made."""
    return [value for value in values for _ in range(plan.repeats)]


def extreme(title, plan, readings, marked):
    """A table of made-up readings."""
    return WorkedTable(title, plan, readings, rows_of(marked), 0, 1, [])


# All four block words combine to the row of all ten letters.
FOUR_BLOCKS = tuple(row_number(label) for label in "ABC DEF GH IJ".split())
SIX_ADDED = tuple((row_number(label), sign) for label, sign in (
    ("AB", 0), ("BCD", 1), ("ADG", 0), ("CEHJ", 1), ("ABCDEFGHI", 0), ("ABCDEFGHJ", 1)))

SIX, TEN, TEN_BLOCKED = Plan(3, 6), Plan(2, 10), Plan(2, 10, (), FOUR_BLOCKS)
ALL_TEN = "ABCDEFGHIJ"
TEN_ADDED = Plan(2, 10, SIX_ADDED, FOUR_BLOCKS)
EXTREMES = [
    extreme("ten factors, all at the upper limit", TEN, by_signs(TEN, 0, TOP[2], 0), "A AB " + ALL_TEN),
    extreme("ten factors in 16 blocks, all at the lower limit", TEN_BLOCKED, by_signs(TEN_BLOCKED, 0, -TOP[2], 0),
            "A B ABD"),
    extreme("ten factors, signs of effect 1023", TEN, by_signs(TEN, 1023, TOP[2], 0), "J " + ALL_TEN),
    extreme("ten factors in 16 blocks, signs of effect 1023", TEN_BLOCKED, by_signs(TEN_BLOCKED, 1023, TOP[2], 0), "A J"),
    extreme("ten factors, signs of effect 1", TEN, by_signs(TEN, 1, TOP[2], 0), "B BCDEFGHIJ"),
    extreme("ten factors in 16 blocks, six added, spread out", TEN_ADDED, by_spreading(TEN_ADDED),
            "A BD ABCDEFGHI BCDEFGHIJ"),
    extreme("six factors at three levels, all at the upper limit", SIX, by_signs(SIX, 0, TOP[3], 0), "A ABCDEF"),
    extreme("six factors at three levels, all at the lower limit", SIX, by_signs(SIX, 0, -TOP[3], 0), "F"),
    extreme("six factors at three levels, signs of effect 728", SIX, by_signs(SIX, 728, TOP[3], 0), "ABCDE ABCDEF"),
    extreme("six factors at three levels, signs of effect 364, 0 at 0", SIX, by_signs(SIX, 364, TOP[3], 0), "A ABCDEF"),
    extreme("six factors at three levels, signs of effect 1, the limit at 0", SIX, by_signs(SIX, 1, TOP[3], TOP[3]), "A F"),
    extreme("six factors at three levels, spread out", SIX, by_spreading(SIX), "AF BCDE ABCDEF"),
]

# With repeats: as many readings as there may be, and at three levels also as many repeats.
SEVEN_8, FIVE_4, FOUR_8 = Plan(2, 7, repeats=8), Plan(3, 5, repeats=4), Plan(3, 4, repeats=8)
SEVEN_BLOCKED = Plan(2, 7, (), (row_number("ABC"), row_number("DEFG")), 8)
MOST_REPEATED = {2: [SEVEN_8, Plan(2, 8, repeats=4), Plan(2, 9, repeats=2)], 3: [FOUR_8, FIVE_4]}
ALL_SEVEN = "ABCDEFG"
EXTREMES_REPEATED = [
    extreme("seven factors, 8 repeats, all at the upper limit", SEVEN_8, each(SEVEN_8, by_signs(SEVEN_8, 0, TOP[2], 0)), "A"),
    extreme("seven factors in 4 blocks, 8 repeats, all at the lower limit", SEVEN_BLOCKED,
            each(SEVEN_BLOCKED, by_signs(SEVEN_BLOCKED, 0, -TOP[2], 0)), "G"),
    extreme("seven factors in 4 blocks, 8 repeats, signs of effect 127", SEVEN_BLOCKED,
            each(SEVEN_BLOCKED, by_signs(SEVEN_BLOCKED, 127, TOP[2], 0)), "A"),
    extreme("seven factors, 8 repeats, both limits in turn", SEVEN_8, in_turn(SEVEN_8, TOP[2]), "A " + ALL_SEVEN),
    extreme("seven factors, 8 repeats, spread out", SEVEN_8, by_spreading(SEVEN_8), "AB CDEFG " + ALL_SEVEN),
    extreme("five factors at three levels, 4 repeats, all at the upper limit", FIVE_4,
            each(FIVE_4, by_signs(FIVE_4, 0, TOP[3], 0)), "A"),
    extreme("five factors at three levels, 4 repeats, all at the lower limit", FIVE_4,
            each(FIVE_4, by_signs(FIVE_4, 0, -TOP[3], 0)), "ABCDE"),
    extreme("five factors at three levels, 4 repeats, both limits in turn", FIVE_4, in_turn(FIVE_4, TOP[3]), "A ABCDE"),
    extreme("five factors at three levels, 4 repeats, spread out", FIVE_4, by_spreading(FIVE_4), "AE BCD"),
    extreme("four factors at three levels, 8 repeats, all at the upper limit", FOUR_8,
            each(FOUR_8, by_signs(FOUR_8, 0, TOP[3], 0)), "D"),
    extreme("four factors at three levels, 8 repeats, all at the lower limit", FOUR_8,
            each(FOUR_8, by_signs(FOUR_8, 0, -TOP[3], 0)), ""),
    extreme("four factors at three levels, 8 repeats, both limits in turn", FOUR_8, in_turn(FOUR_8, -TOP[3]), "AB"),
    extreme("four factors at three levels, 8 repeats, spread out", FOUR_8, by_spreading(FOUR_8), "AD ABCD"),
]

# Three levels in blocks: the readings of each block at a limit or 0, so that nothing is left of the row; all readings at a
# limit, so that the blocks have nothing; and readings in general. The words: the largest, that of all digits 1, and two that
# are of two letters.
SIX_LARGEST, SIX_ONES, SIX_ENDS = Plan(3, 6, (), (727,)), Plan(3, 6, (), (364,)), Plan(3, 6, (), (487,))
FIVE_4_BLOCKED, FOUR_8_BLOCKED = Plan(3, 5, (), (241,), 4), Plan(3, 4, (), (30,), 8)
THREE_BLOCKED = [SIX_LARGEST, FIVE_4_BLOCKED, FOUR_8_BLOCKED]


def by_blocks(plan, values):
    """For each run the value of its block."""
    return [values[block_of(plan, run)] for run in range(totals_rules.run_count(plan.levels, plan.k))]


EXTREMES_IN_THREE = [
    extreme("six factors in three blocks, one at the upper limit, two at the lower", SIX_LARGEST,
            by_blocks(SIX_LARGEST, (TOP[3], -TOP[3], -TOP[3])), "A ABCDEF"),
    extreme("six factors in three blocks, at the lower limit, 0 and the upper limit", SIX_ONES,
            by_blocks(SIX_ONES, (-TOP[3], 0, TOP[3])), "F"),
    extreme("six factors in three blocks, all at the lower limit", SIX_ENDS, by_signs(SIX_ENDS, 0, -TOP[3], 0), "AF"),
    extreme("six factors in three blocks, signs of effect 728", SIX_LARGEST, by_signs(SIX_LARGEST, 728, TOP[3], 0), "ABCDEF"),
    extreme("six factors in three blocks, spread out", SIX_ENDS, by_spreading(SIX_ENDS), "AF ABCDEF"),
    extreme("five factors in three blocks, 4 repeats, two at the upper limit, one at the lower", FIVE_4_BLOCKED,
            each(FIVE_4_BLOCKED, by_blocks(FIVE_4_BLOCKED, (TOP[3], TOP[3], -TOP[3]))), "ABCDE"),
    extreme("five factors in three blocks, 4 repeats, spread out", FIVE_4_BLOCKED, by_spreading(FIVE_4_BLOCKED), "A ABCDE"),
    extreme("four factors in three blocks, 8 repeats, both limits in turn", FOUR_8_BLOCKED, in_turn(FOUR_8_BLOCKED, TOP[3]),
            "BCD"),
    extreme("four factors in three blocks, 8 repeats, spread out", FOUR_8_BLOCKED, by_spreading(FOUR_8_BLOCKED), "A BD"),
]

# Numerators of the extreme tables that are known without adding up: every row but these is 0. Where every reading is at the
# limit, the total is the most that the rules have. With the signs of effect 728 each factor gives 1 and 4 as its sum and
# third combination, so 1 * 1 * 2 without its letter and 4 * 4 with it; with those of effect 364 all but 64 of 729 readings
# are 0; and with those of effect 1 the readings' mean is a third of the limit, so that the mean has a ninth of the total.
# With repeats the total is the denominator times the number of readings times the limit squared, with seven factors again
# the most; where both limits take turns no row has any of it. In three blocks with one at a limit and two at the other the
# mean is a third of the limit, and the blocks have all but a ninth of the total.
KNOWN = {
    "ten factors, all at the upper limit": {"mean": MOST_NUMERATOR[2]},
    "ten factors in 16 blocks, all at the lower limit": {"mean": MOST_NUMERATOR[2]},
    "ten factors, signs of effect 1023": {ALL_TEN: MOST_NUMERATOR[2]},
    "ten factors in 16 blocks, signs of effect 1023": {ALL_TEN: MOST_NUMERATOR[2]},
    "ten factors, signs of effect 1": {"A": MOST_NUMERATOR[2]},
    "six factors at three levels, all at the upper limit": {"mean": MOST_NUMERATOR[3]},
    "six factors at three levels, all at the lower limit": {"mean": MOST_NUMERATOR[3]},
    "six factors at three levels, signs of effect 728":
        {table_rules.row_label(row): 16 ** letters * 2 ** (6 - letters) * TOP[3] ** 2
         for row in range(64) for letters in [totals_rules.letter_count(row)]},
    "six factors at three levels, signs of effect 364, 0 at 0": {"ABCDEF": MOST_NUMERATOR[3] * 64 // 729},
    "six factors at three levels, signs of effect 1, the limit at 0":
        {"mean": MOST_NUMERATOR[3] // 9, "A": MOST_NUMERATOR[3] * 8 // 9},
    "seven factors, 8 repeats, all at the upper limit": {"mean": MOST_NUMERATOR[2]},
    "seven factors in 4 blocks, 8 repeats, all at the lower limit": {"mean": MOST_NUMERATOR[2]},
    "seven factors in 4 blocks, 8 repeats, signs of effect 127": {ALL_SEVEN: MOST_NUMERATOR[2]},
    "seven factors, 8 repeats, both limits in turn": {},
    "five factors at three levels, 4 repeats, all at the upper limit": {"mean": 4 * 6 ** 5 * 972 * TOP[3] ** 2},
    "five factors at three levels, 4 repeats, all at the lower limit": {"mean": 4 * 6 ** 5 * 972 * TOP[3] ** 2},
    "five factors at three levels, 4 repeats, both limits in turn": {},
    "four factors at three levels, 8 repeats, all at the upper limit": {"mean": 8 * 6 ** 4 * 648 * TOP[3] ** 2},
    "four factors at three levels, 8 repeats, all at the lower limit": {"mean": 8 * 6 ** 4 * 648 * TOP[3] ** 2},
    "four factors at three levels, 8 repeats, both limits in turn": {},
    "six factors in three blocks, one at the upper limit, two at the lower": {"mean": MOST_NUMERATOR[3] // 9},
    "six factors in three blocks, at the lower limit, 0 and the upper limit": {},
    "six factors in three blocks, all at the lower limit": {"mean": MOST_NUMERATOR[3]},
    "five factors in three blocks, 4 repeats, two at the upper limit, one at the lower":
        {"mean": 4 * 6 ** 5 * 972 * TOP[3] ** 2 // 9},
    "four factors in three blocks, 8 repeats, both limits in turn": {},
}


TABLES = (
    [REPORT_TWO_LEVELS, AMCP_WHOLE, AMCP_BLOCKED, AMCP_HALF]
    + [YATES_POTATOES, YATES_BEANS, YATES_SUGAR_BEET, INTERLACED, YATES_TABLE_38]
    + [DANIEL_CEMENT_FOUR, DANIEL_CEMENT_TWO, DANIEL_DRILL, DANIEL_MANGOLDS, DANIEL_HALF]
    + [REPORT_THREE_LEVELS, YATES_TWO_OF_THREE, YATES_FIRST_REPLICATION, YATES_BOTH_REPLICATIONS, YATES_HAY]
    + [DANIEL_LETTUCE, DANIEL_AIR]
    + [RULES_TWO_FACTORS, RULES_THREE_LEVELS, RULES_BLOCKS, RULES_ONE_FACTOR]
    + EXTREMES
    + [POTATO_PLOTS, POTATO_BLOCKED, SUGAR_BEET_SINGLE, BEET_PLOTS, DANIEL_BUDS]
    + EXTREMES_REPEATED
    + [FIRST_Y, FIRST_W, FIRST_X, FIRST_Z, SECOND_Z, SECOND_Y, BOTH_Y, BOTH_Z, BOTH_W, BOTH_X, HAY_I, HAY_J]
    + EXTREMES_IN_THREE
)

IN_BLOCKS = [AMCP_BLOCKED, YATES_BEANS, INTERLACED, DANIEL_MANGOLDS, RULES_BLOCKS, POTATO_BLOCKED]

# By title. In Daniel's half of the beans S, N and P are pooled; K, which is high when an odd number of D, N, P are, is not.
MAINS_POOLED = {
    DANIEL_CEMENT_FOUR.title: "A",
    DANIEL_DRILL.title: "A",
    DANIEL_HALF.title: "ACD",
    RULES_ONE_FACTOR.title: "A",
}


# ---- damaged figures, and figures that are off ----

MENDS = [
    Mend("report, 2^4", "squares", "numerator", 2, "3572?", "35721",
         "the other fifteen squares and 752176; 2232.5625 is 35721 over 16"),
    Mend("report, 2^4", "check 2", "sum of squares", 0, "47001", "47011", "752176 is 16 times 47011"),
    Mend("report, 3^4", "worksheet", "mean square", 1, "4.8556", "3.8549",
         "the readings; since the worksheet adds rounded parts, 3.8550 may be printed, and which is not settled"),
    Mend("report, 3^4", "worksheet, check", "sum of squares", 0, "254?", "2541", "the readings"),
    Mend("Daniel, 3^2 on lettuce", "Table 4.3", "degrees", 7, "3", "4",
         "sum of squares and mean square beside it are those of all four degrees, that of A1B1 among them"),
    Mend("Daniel, 3^2 on lettuce", "Table 4.3", "mean square", 0, "1198.00", "1198",
         "1198 in Table 4.2; the decimals do not belong to the quotient"),
]

CUT = "cut off"
OFF = [
    Off("Yates, potatoes", "Table 9", "sum of squares", 7, "0.69",
        "3465.3 + 161170.0 + 344.5 + 278817.8 + 810.0 + 13986.3 + 124.0"),
    Off("Daniel, 2^4 on drilling", "Section 6.2", "sum of squares", 1, "0.53", CUT),
    Off("Daniel, 2^4 on drilling", "Section 6.2", "sum of squares", 2, "0.92", CUT),
    Off("Daniel, half of 2^5 on beans", "Section 7.2.3", "mean square", 0, "0.63", CUT),
    Off("Yates, sugar beet, d and s", "Table 47", "sum of squares", 2, "0.82", CUT),
    Off("Yates, sugar beet, d and s", "Table 48", "sum of squares", 0, "0.82", CUT),
    Off("Yates, sugar beet, d and s", "Table 48", "sum of squares", 2, "1.15", "341.52 - 94.47 - 107.80"),
    Off("Yates, sugar beet, d and s", "Table 53", "sum of squares", 0, "0.86", "27.09 + 46.56 + 28.00 + 37.58"),
    Off("Yates, sugar beet, first replication", "Table 56", "sum of squares", 2, "0.52", CUT),
    Off("Yates, sugar beet, both replications", "Table 47", "sum of squares", 4, "0.82", CUT),
    Off("Yates, sugar beet, both replications", "Table 47", "sum of squares", 7, "1.15", CUT),
    Off("Yates, sugar beet, both replications", "Table 47", "sum of squares", 8, "0.71", CUT),
    Off("Yates, sugar beet, both replications", "Table 48", "sum of squares", 0, "0.82", CUT),
    Off("Yates, sugar beet, both replications", "Table 48", "sum of squares", 3, "1.15", "341.52 - 94.47 - 107.80"),
    Off("Yates, sugar beet, both replications", "Table 48", "sum of squares", 4, "1.15", "275.13 - 94.47 - 150.14"),
    Off("Yates, hay", "Table 42", "sum of squares", 2, "0.78", CUT),
    Off("Yates, hay", "Table 42", "mean square", 1, "0.70", "115.85 / 2"),
    Off("Daniel, 3^2 on air pollution", "Table 4.6", "mean square", 2, "0.56", "7306 / 4"),
    Off("Yates, potatoes, single plots", "Table 9", "sum of squares", 7, "0.69",
        "3465.3 + 161170.0 + 344.5 + 278817.8 + 810.0 + 13986.3 + 124.0"),
    Off("Yates, sugar beet in squares, single plots", "Table 29", "sum of squares", 1, "1.19",
        "457.5 + 20488.4 + 2797.9 + 1145.7 + 3460.6"),
    Off("Yates, sugar beet, single plots", "Table 47", "sum of squares", 4, "0.82", CUT),
    Off("Yates, sugar beet, single plots", "Table 47", "sum of squares", 7, "1.15", CUT),
    Off("Yates, sugar beet, single plots", "Table 47", "sum of squares", 8, "0.71", CUT),
    Off("Yates, sugar beet, single plots", "Table 48", "sum of squares", 0, "0.82", CUT),
    Off("Yates, sugar beet, single plots", "Table 48", "sum of squares", 3, "1.15", "341.52 - 94.47 - 107.80"),
    Off("Yates, sugar beet, single plots", "Table 48", "sum of squares", 4, "1.15", "275.13 - 94.47 - 150.14"),
    Off("Yates, sugar beet, first replication, in the sets of Y", "Table 56", "sum of squares", 2, "0.52", CUT),
    Off("Yates, sugar beet, single plots, in the sets of Y", "Table 47", "sum of squares", 1, "0.82", CUT),
    Off("Yates, sugar beet, single plots, in the sets of Y", "Table 47", "sum of squares", 4, "1.15", CUT),
    Off("Yates, hay, in the sets of I", "Table 42", "sum of squares", 2, "0.78", CUT),
    Off("Yates, hay, in the sets of J", "Table 42", "sum of squares", 2, "0.78", CUT),
]


# ---- blocks of several tables ----

# Table 56 has W, X and Z of the first replication; Table 47 W and X, and Y and Z, of both; Table 48 Y and Z from the
# replications that are not laid out in them.
TOGETHER = [
    Together("Table 56", [FIRST_W, FIRST_X, FIRST_Z], "90.36"),
    Together("Table 47", [BOTH_W, BOTH_X], "94.22", CUT),
    Together("Table 47", [BOTH_Y, BOTH_Z], "216.84"),
    Together("Table 48", [SECOND_Y, FIRST_Z], "44.29"),
]


# ---- the report's pooling of three levels ----

# From the column of the 81 squares over their divisors the worksheet makes a column of 54, of 36, of 24 and of 16: the first
# elements of all successive sets of three, then the sums of the last two of each. The squares over divisors are rounded to
# four decimals and then added. Here is what can be read, by column and first place, of the lines that show as many figures
# as they hold; a point that is lost in a whole figure is set. Column 4 is the rows. Of the column of 81 squares over
# divisors too little can be told apart.
POOLED = [
    (1, 10, "3.56>3.3611 4.35>4.0833"),
    (1, 12, "26.?>26.6944 ?0?17>2.0417 17?>17.0139"),
    (1, 18, "2?>2.4691 1.541>1.5648 .8916>.8920"),
    (1, 21, "1?204>1.1204 .0139 ?.33?0>1.3380"),
    (1, 24, "6.8179 19?5?02>19.5602 9.6>4.6682"),
    (1, 27, "2.1692>2.4692 21.9299>21.9259 6.5692>6.8642"),
    (1, 30, "11.2593 .7?>.7223 7.5741"),
    (1, 33, "51.4569>31.4568 5.5741 72.5988"),
    (1, 36, "10.1111 3.57>3.3889 4.0556"),
    (1, 39, "18.7223 7.5233>7.5833 -19944>.6944"),
    (1, 42, "?.7223>2.7223 6.0278 2.6949>2.6944"),
    (1, 45, "2.0864 .2407 18.1?>18.1914"),
    (1, 48, "5?85>5.0185 22.21>22.8611 30.18>30.5648"),
    (1, 51, "4.?5>4.3765 18.?26>18.3426 5.?>5.2068"),
    (2, 18, ".76?4>.7654 4.69>4.5926 43>.9382"),
    (2, 27, "28.7?01>28.7901 8.2964 .173>78.1729"),
    (2, 30, "14945>7.4445 8.?777>8.2777 8.7222"),
    (2, 33, "124321>18.4321 ?3?59>53.4259 23.5494"),
    (3, 15, "4?>42.7161 21.4446 9.3?>9.3950"),
    (3, 21, "4>86.4693 16?>16.9999 76.97?>76.9753"),
    (4, 15, "449195>93.9752"),
]


# ---- readings that examples.py does not have: sums that are printed beside them ----

DOWN, ACROSS = [(0, 3, 6), (1, 4, 7), (2, 5, 8)], [(0, 1, 2), (3, 4, 5), (6, 7, 8)]
DIAGONALS = [(0, 4, 8), (1, 5, 6), (2, 3, 7), (0, 5, 7), (1, 3, 8), (2, 4, 6)]

# Table, runs, a number taken off each reading, and the printed sums; the sums of the air's readings are not printed, but
# how far the means of three lie from the mean of all, in whole numbers.
SUMS = [
    (YATES_HAY, DOWN, 0, "221.4 317.4 287.5"),
    (YATES_HAY, ACROSS, 0, "263.9 256.8 305.6"),
    (YATES_HAY, DIAGONALS, 0, "274.4 274.2 277.7 262.2 283.4 280.7"),
    (YATES_HAY, [range(9)], 0, "826.3"),
    (DANIEL_LETTUCE, DOWN, 353, "129 -1 -128"),
    (DANIEL_LETTUCE, ACROSS, 353, "140 10>-10 -130"),
]
DEVIATIONS = [(DANIEL_AIR, DOWN, "96 -251 155"), (DANIEL_AIR, ACROSS, "232 -60 -172")]


# ---- the tables ----

def quick_totals(levels, k, sums):
    """The totals, found for each level of the highest factor by themselves and then combined by its coefficient rows."""
    if k == 0:
        return list(sums)
    size = totals_rules.run_count(levels, k - 1)
    parts = [quick_totals(levels, k - 1, sums[start:start + size]) for start in range(0, len(sums), size)]
    return [sum(factor * part[effect] for factor, part in zip(row, parts))
            for row in totals_rules.COEFFICIENTS[levels] for effect in range(size)]


def marks_of(own):
    """The marks of all rows."""
    return [1 if row in own.marked else 0 for row in range(table_rules.row_count(own.plan.k))]


def sums_of(own):
    """The sum of the readings of each run."""
    return totals_rules.run_sums(own.plan.repeats, own.readings)


def table_of(own):
    """The table, with totals by the quicker way; check_table() compares them with the definition."""
    totals = quick_totals(own.plan.levels, own.plan.k, sums_of(own))
    return table_rules.table_of_totals(own.plan, own.readings, marks_of(own), totals)


# ---- what the printed figures must be ----

def effect_number(levels, label):
    """The effect of a label: mean, or letters; at three levels with a digit after each letter, such as A1B2."""
    if label == table_rules.MEAN or levels == 2:
        return row_number(label)
    return sum(int(digit) * levels ** (ord(letter) - ord("A")) for letter, digit in zip(label[::2], label[1::2]))


def part_of(own, table, name):
    """The part of a table that a printed figure belongs to: mean, kept, blocks, error or total; corrected, which is the
    total but the mean; a row by its label; an effect by letters and digits; or parts added up, with plus signs."""
    if "+" in name:
        return table_rules.added_up([part_of(own, table, piece) for piece in name.split("+")])
    if name in table_rules.KINDS or name == "total":
        return getattr(table, name)
    if name == "corrected":
        return table_rules.Part(table.total.degrees - 1, table.total.numerator - table.mean.numerator)
    if name.isalpha():
        return table.rows[row_number(name)]
    levels, k, _, _, repeats = own.plan
    effect = effect_number(levels, name)
    return table_rules.Part(1, totals_rules.numerator(levels, k, effect, table.totals[effect], repeats))


def block_total(own, number):
    """The sum of the readings of a block, by its number."""
    return sum(own_sum for run, own_sum in enumerate(sums_of(own)) if block_of(own.plan, run) == number)


def effect_total(own, table, name):
    """The total of an effect, in the unit of the print."""
    return Fraction(table.totals[effect_number(own.plan.levels, name)], unit(own))


def turned_total(own, table, name):
    """The total of a two-level effect with differences last minus first."""
    return effect_total(own, table, name) * (-1) ** totals_rules.letter_count(row_number(name))


def unit(own):
    """How many units of the readings one unit of the print is."""
    return 10 ** own.places


def sum_of_squares(own, table, name):
    """A part's numerator over the denominator, in the unit of the print and by plots."""
    return Fraction(part_of(own, table, name).numerator, table.denominator * unit(own) ** 2 * own.plots)


def mean_square(own, table, name):
    """A part's sum of squares over its degrees; 0 for a part without degrees."""
    degrees = part_of(own, table, name).degrees
    return sum_of_squares(own, table, name) / degrees if degrees else Fraction(0)


# What a figure of each measure must be. A standard deviation is printed as the root of this number.
MEASURES = {
    "numerator": lambda own, table, name: Fraction(part_of(own, table, name).numerator, unit(own) ** 2),
    "degrees": lambda own, table, name: Fraction(part_of(own, table, name).degrees),
    "sum of squares": sum_of_squares,
    "mean square": mean_square,
    "standard deviation": mean_square,
    "share of corrected": lambda own, table, name:
        sum_of_squares(own, table, name) / sum_of_squares(own, table, "corrected"),
    "sum of totals": lambda own, table, name: Fraction(table.sum_of_totals, unit(own)),
    "effect total": effect_total,
    "turned total": turned_total,
    "block total": lambda own, table, name: Fraction(block_total(own, int(name)), unit(own)),
}


def names_of(own, printed):
    """What each figure of a printed text belongs to."""
    if printed.parts == "rows":
        return [table_rules.row_label(row) for row in range(table_rules.row_count(own.plan.k))]
    return printed.parts.split(", ")


def units_below(figure, meant):
    """By how many units of its last decimal a figure is below the number meant; and how many figures are added up in it."""
    summands = figure.split("+")
    decimals = max(len(summand.partition(".")[2]) for summand in summands)
    return (meant - sum(Fraction(summand) for summand in summands)) * 10 ** decimals, len(summands)


def worked_out(expression):
    """The value of printed figures that are added, taken off or divided, from left to right."""
    first, *rest = expression.split()
    value = Fraction(first)
    for sign, figure in zip(rest[::2], rest[1::2]):
        value = {"+": value + Fraction(figure), "-": value - Fraction(figure), "/": value / Fraction(figure)}[sign]
    return value


def explained(off, figure, below, summands):
    """Whether a figure is as far off as listed, for the cause listed."""
    if abs(below) > Fraction(off.units):
        return False
    if off.cause == CUT:
        return 0 <= below < summands
    return abs(units_below(figure, worked_out(off.cause))[0]) <= Fraction(1, 2)


def root_agrees(figure, meant, units):
    """The root of a number, as printed."""
    room = units / 10 ** len(figure.partition(".")[2])
    return (Fraction(figure) - room) ** 2 <= meant <= (Fraction(figure) + room) ** 2


def found_in(listed, own, printed, place):
    """The mend or the entry of OFF for one printed figure, or None."""
    key = (own.title, printed.where, printed.measure, place)
    return next((entry for entry in listed if entry[:4] == key), None)


# ---- checks ----

def wrong_mend(shown, meant):
    """Whether a mend changes nothing, is not whole itself, or does not fit the digits of a figure that is shown in part."""
    fits = re.fullmatch(re.escape(shown).replace(re.escape(LACKING), ".+"), meant)
    return shown == meant or LACKING in meant or LACKING in shown and not fits


def check_figure(own, table, printed, place, name, figure):
    """Complaints about one printed figure, mended if it has a mend."""
    mend, off = found_in(MENDS, own, printed, place), found_in(OFF, own, printed, place)
    if mend:
        if mend.printed != figure or wrong_mend(figure, mend.meant):
            return ["mend does not fit %s" % figure]
        figure = mend.meant
    if LACKING in figure:
        return ["%s is not whole" % figure]
    meant = MEASURES[printed.measure](own, table, name)
    if printed.measure == "standard deviation":
        return [] if root_agrees(figure, meant, printed.units) else ["%s is not the root of %s" % (figure, meant)]
    below, summands = units_below(figure, meant)
    if abs(below) <= printed.units * summands:
        return ["%s is listed as off and is not" % figure] if off else []
    if off and explained(off, figure, below, summands):
        return []
    return ["%s is not %s, but %.2f units off" % (figure, float(meant), abs(below))]


def check_printed(own, table, printed):
    """Complaints about one printed text."""
    names, figures = names_of(own, printed), printed.text.split()
    if len(names) != len(figures):
        return ["%s: %d figures" % (printed.where, len(figures))]
    return ["%s, %s of %s: %s" % (printed.where, printed.measure, name, complaint)
            for place, (name, figure) in enumerate(zip(names, figures)) if figure != NOT_PRINTED
            for complaint in check_figure(own, table, printed, place, name, figure)]


def degrees_of_report(k):
    """The degrees of three levels as the report has them: the couple (1, 2) to the power k."""
    found = [1]
    for _ in range(k):
        found = found + [2 * degrees for degrees in found]
    return found


def pooled_once(column):
    """The report's pooling: the first elements of all successive sets of three, then the sums of the last two of each."""
    sets = [column[start:start + 3] for start in range(0, len(column), 3)]
    return [first for first, _, _ in sets] + [second + third for _, second, third in sets]


def whole_rows(own, table):
    """Rows and their degrees in another way: at two levels the effects themselves, at three the report's pooling. Nothing has
    left them."""
    levels, k, _, _, repeats = own.plan
    column = [totals_rules.numerator(levels, k, effect, total, repeats) for effect, total in enumerate(table.totals)]
    if levels == 3:
        for _ in range(k):
            column = pooled_once(column)
    degrees = [1] * len(column) if levels == 2 else degrees_of_report(k)
    return [table_rules.Part(*pair) for pair in zip(degrees, column)]


def words_of_row(plan, row):
    """The words of three levels that use the letters of a row, and no others."""
    words = range(totals_rules.run_count(3, plan.k))
    return [word for word in words if not totals_rules.bad_digits(plan.k, word)
            and table_rules.letters_used(3, plan.k, word) == row]


def check_rows(own, table):
    """Rows and their degrees in another way. In three blocks one row holds the amounts of all other words of its letters, and
    2 degrees for each of them."""
    meant, row = whole_rows(own, table), table_rules.word_row(own.plan)
    if row is not None:
        others = [word for word in words_of_row(own.plan, row) if word != totals_rules.three_word(own.plan)]
        meant[row] = table_rules.added_up([table_rules.between_blocks(own.plan._replace(blocks=(word,)), own.readings)
                                           for word in others])
    return [] if table.rows == meant else ["rows"]


def check_between(own, table):
    """What has left a row in another way: the squares of the differences of each two block sums, times 2 to the power k. It
    and what is left are the whole row."""
    row = table_rules.word_row(own.plan)
    if row is None:
        return [] if table.between == (0, 0) else ["blocks without a word"]
    sums = [block_total(own, number) for number in range(3)]
    squares = sum((first - second) ** 2 for first, second in combinations(sums, 2))
    complaints = [] if table.between == table_rules.Part(2, 2 ** own.plan.k * squares) else ["block amount"]
    if table_rules.added_up([table.rows[row], table.between]) != whole_rows(own, table)[row]:
        complaints.append("the row that the block amount leaves")
    return complaints


def check_blocks(own, table):
    """Mean and blocks together in another way: the squared sums of the blocks, over their readings."""
    numbers = range(own.plan.levels ** len(own.plan.blocks))
    readings = Fraction(len(own.readings), len(numbers))
    squares = sum(block_total(own, number) ** 2 for number in numbers)
    meant = table_rules.Part(len(numbers), squares / readings * table.denominator)
    return [] if table_rules.added_up([table.mean, table.blocks]) == meant else ["blocks"]


def spot_effects(own):
    """Effects whose totals are compared with the definition: all of them, of large plans a few."""
    count = totals_rules.run_count(own.plan.levels, own.plan.k)
    return range(count) if count <= 81 else [effect for effect in (0, 1, 2, 364, 511, count - 1) if effect < count]


def check_within(own, table):
    """The squares about the means in another way: the squares of all readings, less those of the run sums over repeats."""
    repeats, runs = own.plan.repeats, len(sums_of(own))
    squares = sum(reading ** 2 for reading in own.readings) - Fraction(sum(own_sum ** 2 for own_sum in sums_of(own)), repeats)
    meant = table_rules.Part(len(own.readings) - runs, squares * table.denominator)
    return [] if table.within == meant else ["squares about the means of runs"]


def beyond_limits(own, table):
    """Whether a numerator or a sum of numerators is beyond its limit, or a total beyond that of a value of a pass."""
    parts = table.rows + [table.mean, table.kept, table.blocks, table.error, table.total]
    return (any(part.numerator > MOST_NUMERATOR[own.plan.levels] for part in parts)
            or totals_rules.beyond(table.totals, totals_rules.MOST_VALUE))


def check_table(own, table):
    """Complaints of the rules about one table."""
    levels, k = own.plan.levels, own.plan.k
    complaints = []
    lengths = len(table.totals), len(table.rows)
    if table_rules.table_answer(own.plan, own.readings, marks_of(own), *lengths) != totals_rules.DONE:
        complaints.append("not accepted")
    sums = sums_of(own)
    if any(table.totals[effect] != totals_rules.total(levels, k, sums, effect) for effect in spot_effects(own)):
        complaints.append("totals")
    parts = [getattr(table, kind) for kind in table_rules.KINDS]
    pieces = table.rows + [table.within, table.between]
    if table_rules.added_up(parts) != table.total or table_rules.added_up(pieces) != table.total:
        complaints.append("mean, kept, blocks and error do not add up to the total")
    if table.sum_of_totals != table.check_number:
        complaints.append("check numbers")
    if beyond_limits(own, table):
        complaints.append("beyond the limits")
    left = 2 if table_rules.word_row(own.plan) in own.marked else 0
    marked = sum(table_rules.row_degrees(levels, row) for row in own.marked) - left
    if table.error.degrees != marked + len(own.readings) - len(sums):
        complaints.append("degrees of error")
    return (complaints + check_rows(own, table) + check_blocks(own, table) + check_between(own, table)
            + check_within(own, table))


def check_known(own, table):
    """The extreme tables whose numerators are known."""
    known = KNOWN.get(own.title)
    if known is None:
        return []
    meant = [known.get(table_rules.row_label(row), 0) for row in range(len(table.rows))]
    return [] if [part.numerator for part in table.rows] == meant else ["known rows"]


def check_worked(own):
    """Complaints about one table."""
    table = table_of(own)
    complaints = check_table(own, table) + check_known(own, table)
    for printed in own.printed:
        complaints += check_printed(own, table, printed)
    return [own.title + ": " + complaint for complaint in complaints]


def check_lists():
    """Complaints about mends and figures that are off: given twice, or of no printed figure; and about titles."""
    complaints = []
    titles = [own.title for own in TABLES]
    figures = [(own.title, printed.where, printed.measure, place) for own in TABLES for printed in own.printed
               for place in range(len(printed.text.split()))]
    for entry in MENDS + OFF:
        if figures.count(entry[:4]) != 1:
            complaints.append("of no figure, or of two: %r" % (entry,))
    if any(len({entry[:4] for entry in listed}) != len(listed) for listed in (MENDS, OFF)):
        complaints.append("two entries for one figure")
    if len(set(titles)) != len(titles) or not set(KNOWN) <= set(titles):
        complaints.append("titles")
    return complaints


def check_pooled():
    """The report's pooled columns, from parts rounded to four decimals."""
    own = REPORT_THREE_LEVELS
    levels, k = own.plan.levels, own.plan.k
    column = [round(Fraction(total ** 2 * 10 ** 4, totals_rules.divisor(levels, k, effect)))
              for effect, total in enumerate(table_of(own).totals)]
    columns = [column]
    for _ in range(k):
        columns.append(pooled_once(columns[-1]))
    complaints = []
    for number, first, text in POOLED:
        for place, figure in enumerate(text.split(), first):
            shown, meant = mended(figure)
            if ">" in figure and wrong_mend(shown, meant) or Fraction(meant) != Fraction(columns[number][place], 10 ** 4):
                complaints.append("report, 3^4: pooled column %d, place %d: %s" % (number, place, figure))
    return complaints


def check_together():
    """The printed figures that add up the blocks of several tables."""
    complaints = []
    for own in TOGETHER:
        meant = sum(sum_of_squares(table, table_of(table), table_rules.BLOCKS) for table in own.tables)
        below, _ = units_below(own.figure, meant)
        if own.cause == CUT and not Fraction(1, 2) < below < 1 or own.cause is None and abs(below) > Fraction(1, 2):
            complaints.append("Yates, %s: %s is not %s" % (own.where, own.figure, float(meant)))
    return complaints


def check_sums():
    """The sums printed beside readings that examples.py does not have."""
    complaints = []
    for own, groups, less, text in SUMS:
        sums = [Fraction(sum(own.readings[run] - less for run in runs), unit(own)) for runs in groups]
        if sums != [Fraction(mended(figure)[1]) for figure in text.split()]:
            complaints.append("%s: sums %s" % (own.title, text))
    for own, groups, text in DEVIATIONS:
        mean = Fraction(sum(own.readings), len(own.readings))
        found = [round(Fraction(sum(own.readings[run] for run in runs), len(runs)) - mean) for runs in groups]
        if found != [int(figure) for figure in text.split()]:
            complaints.append("%s: deviations %s" % (own.title, text))
    return complaints


def check_pounds():
    """The mangolds in pounds round to those in tens of pounds, and their blocks are those of the block words."""
    pounds = examples.whole_readings(DANIEL_POUNDS)
    tens = [reading + 110 for reading in examples.whole_readings(examples.DANIEL_MANGOLDS)]
    complaints = []
    if any(abs(pound - 10 * ten) > 5 for pound, ten in zip(pounds, tens)):
        complaints.append("Daniel, mangolds: pounds and tens of pounds")
    pairs = {(name, block_of(DANIEL_MANGOLDS.plan, run)) for run, name in enumerate(MANGOLD_BLOCKS.split())}
    if len(pairs) != 4 or len({name for name, _ in pairs}) != 4 or len({number for _, number in pairs}) != 4:
        complaints.append("Daniel, mangolds: blocks")
    return complaints


def is_small(plan):
    """Whether a plan is of those whose lists of block words rules/blockings.py has, and in blocks."""
    return (plan.levels == 2 and plan.k in blockings.FACTORS and not plan.added
            and len(plan.blocks) in blockings.WORD_COUNTS)


def check_block_words():
    """The block words of the small tables in blocks are a list; P K and N P K, which the squares of Table 29 lose to rows and
    columns, are none."""
    complaints = [] if [own for own in TABLES if is_small(own.plan)] == IN_BLOCKS else ["tables in blocks"]
    complaints += [own.title + ": the block words are no list" for own in IN_BLOCKS if not blockings.is_listed(own.plan)]
    if blockings.is_listed(YATES_SUGAR_BEET.plan._replace(blocks=YATES_SUGAR_BEET.marked)):
        complaints.append("Yates, Table 29: what the squares lose is a list")
    return complaints


def screened(own):
    """What the screening call answers to a worked table."""
    lengths = totals_rules.run_count(own.plan.levels, own.plan.k), table_rules.row_count(own.plan.k)
    return screening.refused(own.plan, own.readings, marks_of(own), *lengths)


def check_screened():
    """The screening call refuses the published tables of three levels with 9, those that pool main effects with 13, and no
    other. Data Sample 12-4 it refuses with 13 where the mean or a row is marked that Table 12-6 has for one of A to D."""
    complaints = []
    for own in TABLES:
        pooled = MAINS_POOLED.get(own.title, "")
        meant = 9 if own.plan.levels == 3 else 13 if pooled else totals_rules.DONE
        if own.printed and screened(own) != meant:
            complaints.append("%s: screening" % own.title)
        if pooled and [chr(ord("A") + factor) for factor in screening.marked_mains(own.plan, marks_of(own))] != list(pooled):
            complaints.append("%s: main effects that are pooled" % own.title)
    refused = rows_of("mean A B C ABC")
    if any(screened(AMCP_HALF._replace(marked=[row])) != (13 if row in refused else totals_rules.DONE) for row in range(8)):
        complaints.append("AMCP, Data Sample 12-4: screening with a row marked")
    return complaints


def check_half():
    """The readings of half of the beans are the yields less 59, rounded."""
    complaints = []
    yields = examples.whole_readings(examples.YATES_BEANS)
    for run, reading in enumerate(DANIEL_HALF.readings):
        whole_run = run | totals_rules.letter_count(run & row_number("BCD")) % 2 << 4
        if abs(10 * (reading + 59) - yields[whole_run]) > 5:
            complaints.append("Daniel, half of the beans: reading of run %d" % run)
    return complaints


def interlaces(arrangement):
    """Whether the rows hold each treatment once, and the columns are those of two squares with each treatment once."""
    rows = [row.split() for row in arrangement]
    columns = [set(column) for column in zip(*rows)]
    even = {"(1)", "np", "nk", "pk"}
    return (all(sorted(row) == sorted(TREATMENTS) for row in rows)
            and all(column in (even, set(TREATMENTS) - even) for column in columns))


def check_arrangement():
    """One arrangement alone interlaces, of all that put the lacking treatments into the second and third row."""
    ways = []
    for second, third in product(range(8), repeat=2):
        rows = [row.split() for row in SQUARES_PRINTED]
        rows[1].insert(second, "nk")
        rows[2].insert(third, "nk")
        ways.append([" ".join(row) for row in rows])
    return [] if [way for way in ways if interlaces(way)] == [SQUARES] else ["Yates, squares that interlace: arrangement"]


def check():
    """List of all complaints about tables."""
    complaints = (check_lists() + check_pooled() + check_together() + check_sums() + check_pounds() + check_half()
                  + check_arrangement() + check_block_words() + check_screened())
    for own in TABLES:
        complaints += check_worked(own)
    return complaints
