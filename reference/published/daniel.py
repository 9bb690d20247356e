# Published aliases with their signs, those of fractional plans in Daniel's book, beside the ones of AMCP 706-112 in amcp.py.
#
# Source: C. Daniel, Applications of statistics to industrial experimentation, 1976, chapters 11 and 12. Unlike AMCP's, some
# of his plans have an added factor that is high where an even number of the letters of its word are, which is sign 1.
#
# A row is printed as a sum, such as A - BC: these effects cannot be told apart, and count in the runs alike where they have
# the same sign, the other way round where they have not. I is the mean. The row of I is the source's list of effects that
# are not told apart from the mean; it settles the words of the added factors and their signs, which check() tests. In each
# row one term has base letters alone. Asterisks, which mark blocks, are left out.
#
# Damage: a term that the scan shows wrongly stands as printed, an arrow and as meant. There is one, and the row of I settles
# it. Whether the print has it wrong or only the scan is not decided here.
#
# Blocks: the first two plans are the two blocks of one plan of three factors. The effect that is not told apart from the mean
# in them is its block word, which is found among the lists of rules/blockings.py.
#
# Screening: a main effect and an interaction of two factors that stand in one row meet, whatever their signs. In the half
# replicates of three factors and in the quarter they do, and the screening call refuses these plans.
#
# Defined here:
#   PRINTED_PLANS    the plans with the rows as printed
#   TWO_BLOCKS       those that are the blocks of one plan, block 0 first
#   SCREENED         what the screening call answers to each plan
#   ALL_PRINTED      the plans of which the rows have all that meets
#   Published        a published alias: where it stands, plan, effect, base word, and whether their signs differ
#   published        all of them
#   check            list of complaints, empty if all is well

import re
from collections import namedtuple

from reference.rules import blockings, screening
from reference.rules import totals as totals_rules
from reference.rules.table import row_number
from reference.rules.totals import Plan

# letters: the source's names of the factors, in the order A, B, C and so on.
PrintedPlan = namedtuple("PrintedPlan", "where plan letters rows")

Published = namedtuple("Published", "where plan effect word turned")

AB, AC, ABC, ABCD = (row_number(label) for label in "AB AC ABC ABCD".split())

PRINTED_PLANS = [
    PrintedPlan("Section 11.4, the even block", Plan(2, 2, ((AB, 0),)), "ABC", "I - ABC, A - BC, B - AC, C - AB"),
    PrintedPlan("Section 11.4, the odd block and Table 11.1", Plan(2, 2, ((AB, 1),)), "ABC", "I + ABC, C + AB"),
    PrintedPlan("Section 11.5", Plan(2, 3, ((ABC, 0),)), "ABCD",
                "I + ABCD, A + BCD, B + ACD, AB + CD, C + ABD, AC + BD, BC + AD, ABC + D"),
    PrintedPlan("Table 12.1, left", Plan(2, 4, ((ABCD, 0),)), "SDNPK",
                "I - SDNPK, SDN - PK, DP - SNK, SDP - NK, SNP - DK, DNP - SK, SDNP - K"),
    PrintedPlan("Table 12.1, right", Plan(2, 4, ((ABCD, 1),)), "SDNPK",
                "I + SDNPK, SDN + PK, DP + SNK, SDP + NK, SNP + DK, DNP + SK, SDNP + K"),
    PrintedPlan("Section 12.3.1 and Table 12.5", Plan(2, 3, ((AC, 0), (AB, 1))), "ABCDE",
                "I + ABE - ACD - BCDE, A + BC>BE - CD, B + AE, AB + E, C - AD, AC - D, BC - DE, ABC + CE - BD"),
]

TWO_BLOCKS = PRINTED_PLANS[:2]

# In the order of the plans. Of the odd block not all rows are printed; the last plan is the quarter.
SCREENED = [21, 21, 0, 0, 0, 21]
ALL_PRINTED = [PRINTED_PLANS[0], *PRINTED_PLANS[2:]]


# ---- rows ----

def effect_of(own, letters):
    """The effect of the source's letters; 0 for I."""
    return 0 if letters == "I" else sum(1 << own.letters.index(letter) for letter in letters)


def terms_of(own, row):
    """The terms of a row as meant: pairs of effect and sign."""
    found = re.findall(r"([+-]?)([A-Z]+)(?:>([A-Z]+))?", row.replace(" ", ""))
    return [(effect_of(own, meant or shown), -1 if sign == "-" else 1) for sign, shown, meant in found]


def rows_of(own):
    """The rows as terms, that of I first."""
    return [terms_of(own, row) for row in own.rows.split(", ")]


def base_terms(own, terms):
    """Those of the terms that have base letters alone."""
    return [term for term in terms if term[0] < 2 ** own.plan.k]


def published():
    """All published aliases, in the order of the rows."""
    found = []
    for own in PRINTED_PLANS:
        for terms in rows_of(own):
            word, base_sign = base_terms(own, terms)[0]
            found += [Published("Daniel, " + own.where, own.plan, effect, word, sign != base_sign)
                      for effect, sign in terms if effect != word]
    return found


# ---- checks ----

def run_sign(effect, high):
    """How a run counts in an effect, high minus low: each letter that is low turns the sign."""
    return (-1) ** totals_rules.letter_count(effect & ~high)


def same_in_all(own):
    """The effects of all letters that have one and the same sign in all runs of the plan, with this sign."""
    runs = [totals_rules.high_letters(own.plan, run) for run in range(2 ** own.plan.k)]
    signs = [(effect, {run_sign(effect, high) for high in runs}) for effect in range(2 ** len(own.letters))]
    return [(effect, found.pop()) for effect, found in signs if len(found) == 1]


def follows(terms, mean):
    """Whether the terms of a row follow from the row of I: each of them times the first stands there, with the sign."""
    first, first_sign = terms[0]
    return all((effect ^ first, sign * first_sign) in mean for effect, sign in terms)


def check_plan(own):
    """Complaints about one plan: its row of I is not that of its runs, or a row does not follow from that of I."""
    mean, *others = rows_of(own)
    complaints = []
    if len(own.letters) != own.plan.k + len(own.plan.added) or sorted(mean) != same_in_all(own):
        complaints.append("plan")
    for terms in others:
        if len(base_terms(own, terms)) != 1 or not follows(terms, mean):
            complaints.append("row of %r" % (terms,))
    return ["Daniel, %s: %s" % (own.where, complaint) for complaint in complaints]


def check_blocks():
    """The two blocks have one word beside the mean, which is a list of one word; and its blocks are their runs."""
    words = {tuple(effect for effect, _ in rows_of(own)[0] if effect) for own in TWO_BLOCKS}
    whole = Plan(2, len(TWO_BLOCKS[0].letters), (), words.pop())
    if words or not blockings.is_listed(whole):
        return ["Daniel, Section 11.4: the block word is no list"]
    runs = range(totals_rules.run_count(whole.levels, whole.k))
    meant = [[run for run in runs if totals_rules.block_of(whole, run) == number] for number in range(2)]
    found = [sorted(totals_rules.high_letters(own.plan, run) for run in range(2 ** own.plan.k)) for own in TWO_BLOCKS]
    return [] if found == meant else ["Daniel, Section 11.4: the block word makes other blocks"]


def met_in_rows(own):
    """What meets in the rows: each main effect with each interaction of two factors that stands beside it, as places of
    letters."""
    found = []
    for terms in rows_of(own):
        letters = [[place for place in range(len(own.letters)) if effect >> place & 1] for effect, _ in terms]
        found += [(main[0], *pair) for main in letters if len(main) == 1 for pair in letters if len(pair) == 2]
    return sorted(found)


def check_screening(own, number):
    """What meets in the rows meets, and nothing else where the rows have all of it; and the plan is answered as listed."""
    met, runs = screening.meetings(own.plan), 2 ** own.plan.k
    complaints = []
    if not set(met_in_rows(own)) <= set(met) or own in ALL_PRINTED and met_in_rows(own) != met:
        complaints.append("what meets")
    if screening.refused(own.plan, [0] * runs, [0] * runs, runs, runs) != number or bool(met_in_rows(own)) != (number == 21):
        complaints.append("screening")
    return ["Daniel, %s: %s" % (own.where, complaint) for complaint in complaints]


def check():
    """List of all complaints about plans and rows; and aliases that are not those of rules/totals.py."""
    complaints = check_blocks() + [complaint for own in PRINTED_PLANS for complaint in check_plan(own)]
    for own, number in zip(PRINTED_PLANS, SCREENED):
        complaints += check_screening(own, number)
    for own in published():
        if totals_rules.alias(own.plan, own.effect) != (own.word, own.turned):
            complaints.append("%s, effect %d: not the alias of the rules" % (own.where, own.effect))
    return complaints
