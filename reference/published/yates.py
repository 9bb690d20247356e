# Published plans of three levels in blocks, those of Yates's Tables 43 and 44, and the expected text of the program that
# works the first.
#
# Source: F. Yates, The design and analysis of factorial experiments, Technical Communication 35, 1937. Table 43 gives four
# groups, W, X, Y and Z, of three sets each: for each combination of the first and second factor the level of the third that
# is in the set. All 108 entries can be read. Table 40 and what follows it give the groups I and J of two factors.
#
# The expected text is made from the entries alone. The words, of which the rules make the same sets, are used in the checks
# and by the program: sets 1, 2, 3 are blocks 0, 1, 2.
#
# Defined here:
#   TABLE_43, DIAGONALS   the sets as printed
#   WORDS                 the word of each group, a number to the base 3
#   sets_of               the set of each run, in run order, from 0
#   check                 list of complaints, empty if all is well
#   expected_text         the expected text

import sys
from os.path import abspath, dirname

sys.path.insert(0, dirname(dirname(dirname(abspath(__file__)))))

from reference.published.examples import BEET_BLOCKS, BEET_TREATMENTS, plots_of
from reference.rules import totals as totals_rules
from reference.rules.totals import Plan

# For each combination of the first and second factor, its levels, and the level of the third in W1, W2, W3, X1 and so on.
TABLE_43 = [
    "00 0 2 1 0 1 2 0 2 1 0 1 2",
    "10 1 0 2 2 0 1 1 0 2 2 0 1",
    "20 2 1 0 1 2 0 2 1 0 1 2 0",
    "01 2 1 0 1 2 0 1 0 2 2 0 1",
    "11 0 2 1 0 1 2 2 1 0 1 2 0",
    "21 1 0 2 2 0 1 0 2 1 0 1 2",
    "02 1 0 2 2 0 1 2 1 0 1 2 0",
    "12 2 1 0 1 2 0 0 2 1 0 1 2",
    "22 0 2 1 0 1 2 1 0 2 2 0 1",
]
GROUPS = "WXYZ"

# Section 9e: the combinations of two factors by the numbers of Table 40, 1 to 9, the first factor written down; J is also
# printed as Y.
DIAGONALS = {"I": "1+5+9 2+6+7 3+4+8", "J": "1+6+8 2+4+9 3+5+7"}

# By digits, A's first: A B2 C2, A B2 C, A B C2, A B C; A B2 and A B.
WORDS = {"W": 25, "X": 16, "Y": 22, "Z": 13, "I": 7, "J": 4}


def plan_of(group):
    """The plan of a group."""
    return Plan(3, 3 if group in GROUPS else 2, (), (WORDS[group],))


def run_number(levels):
    """The number of a run by its levels, that of A first."""
    return sum(level * 3 ** factor for factor, level in enumerate(levels))


def runs_of_sets(group):
    """The runs of each of the three sets of a group, by what is printed."""
    if group in DIAGONALS:
        return [[int(number) - 1 for number in text.split("+")] for text in DIAGONALS[group].split()]
    first = 3 * GROUPS.index(group)
    rows = [(row.split()[0], row.split()[1:]) for row in TABLE_43]
    return [[run_number([int(levels[0]), int(levels[1]), int(entries[first + place])]) for levels, entries in rows]
            for place in range(3)]


def sets_of(group):
    """The set of each run of a group, in run order, from 0; None for a run that is in none."""
    found = dict((run, place) for place, runs in enumerate(runs_of_sets(group)) for run in runs)
    return [found.get(run) for run in range(totals_rules.run_count(3, plan_of(group).k))]


# ---- checks ----

def check_group(group):
    """The sets hold each run once, and are the blocks of the group's word by the rules, in the same order."""
    own, sets = plan_of(group), sets_of(group)
    complaints = []
    if sum(len(runs) for runs in runs_of_sets(group)) != len(sets) or None in sets:
        complaints.append("not every run exactly once")
    if totals_rules.plan_answer(own) != totals_rules.DONE:
        complaints.append("the word is not accepted")
    if [totals_rules.treatment(own, run) for run in range(len(sets))] != [(0, place) for place in sets]:
        complaints.append("the blocks of the word are other sets")
    return ["Yates, group %s: %s" % (group, complaint) for complaint in complaints]


def check_table_44():
    """The blocks in which the sugar beet was laid out are the sets of Y, and in the second replication those of Z."""
    complaints = []
    for group, blocks in zip("YZ", BEET_BLOCKS):
        found = [sorted(BEET_TREATMENTS.index(treatment) for treatment in plots_of(block)) for block in blocks]
        if found != [sorted(runs) for runs in runs_of_sets(group)]:
            complaints.append("Yates, Table 44: blocks %s" % group)
    return complaints


def check():
    """List of all complaints about the groups and Table 44."""
    complaints = check_table_44()
    for group in WORDS:
        complaints += check_group(group)
    return complaints


# ---- expected text ----

def expected_text():
    """What the program writes of Table 43: for each group the block of each run, in run order."""
    return "".join("table 43, %s:%s\n" % (group, "".join(" %d" % place for place in sets_of(group))) for group in GROUPS)


if __name__ == "__main__":
    found = check()
    if found:
        sys.exit("\n".join(found))
    sys.stdout.write(expected_text())
