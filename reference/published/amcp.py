# Published blocked and fractional plans, those of AMCP 706-112, and the expected text of the program that works them.
#
# Source: Engineering Design Handbook, Experimental Statistics, Section 3 (AMCP 706-112, December 1969),
# Table 12-3 (blocked factorial plans) and Table 12-4 (fractional factorial plans), each factor at two levels.
#
# The entries below are transcribed from a scan of the two tables, in the order of the print, with the entries
# that the scan shows wrongly left as they stand. The expected text is made from these entries and from the
# mends alone; only the words of the added factors of Table 12-4 are read off the runs. Blocks, confounded effects
# and aliases are computed in the checks and nowhere else. The checks also compare runs and aliases of Table 12-4, those
# of every effect of all letters, with rules/totals.py; and find the plans of Table 12-3 that have up to five factors among
# the lists of block words of rules/blockings.py.
#
# Screening: in Table 12-4 a main effect and an interaction of two factors that stand in one row meet. The checks compare
# these, the plans in which nothing meets, and the rows that may not be pooled, which are T and those of main effects, with
# rules/screening.py.
#
# Damage: whether a wrong entry is in the print or only in the scan is not decided here. Each wrong entry has one
# mend, with what is printed, what is meant and the reason. A mend is used only if the undamaged entries of the
# same plan settle it, and check() tests this for every mend:
#   Table 12-3, a run: the products of two undamaged runs of one block (letters that occur in both cancel) form
#     the first block; a later block is the first block times any of its own runs. This settles the set of runs
#     of every block. The place is settled by the order of the print: a block is the first block times the first
#     run of the block, entry by entry. One block departs from this order (ORDER_DEPARTURES); it needs no mend.
#   Table 12-3, a confounded effect: the list is closed under multiplication, so the undamaged effects settle it.
#   Table 12-4, a run: the rows are in standard order of the base letters, so the base letters of a row are known;
#     the undamaged rows settle each added letter.
#   Table 12-4, an estimated effect: the runs settle which effects of one or two letters are equal up to sign.
#
# Names: a run is a treatment combination; as a number, bit 0 is letter a, bit 1 is letter b, and so on. An effect
# is a set of letters, numbered in the same way. "(1)" is the run without a letter.
#
# Defined here:
#   BLOCKED_PLANS, FRACTIONAL_PLANS   the tables as printed
#   MENDS                             the damaged entries
#   ORDER_DEPARTURES                  the blocks that are right as sets but not in the usual order of the print
#   LISTS                             how many lists of block words confound the effects of a plan of Table 12-3
#   SCREENED                          what the screening call answers to the plans of Table 12-4
#   mended_effects, mended_blocks     Table 12-3 after mending
#   mended_rows                       Table 12-4 after mending
#   fractional_plan                   a plan of Table 12-4 as the rules have it
#   check                             list of complaints about tables and mends, empty if all is well
#   table_12_3_text, table_12_4_text, expected_text   the expected text

import re
import sys
from collections import namedtuple
from os.path import abspath, dirname

sys.path.insert(0, dirname(dirname(dirname(abspath(__file__)))))

from reference.rules import blockings, screening
from reference.rules import totals as totals_rules

BlockedPlan = namedtuple("BlockedPlan", "factors label effects blocks")
FractionalPlan = namedtuple("FractionalPlan", "number factors halvings rows")

# plan: (factors, label) in Table 12-3, plan number in Table 12-4.
# part: ("block", number) or ("confounded", 0) in Table 12-3; ("run", row) or ("effects", row) in Table 12-4.
# position: place in the mended list, from 1. printed is None for an entry that is lacking, meant is None for an
# entry too many.
Mend = namedtuple("Mend", "table plan part position printed meant reason")


# ---- runs and effects as numbers and as words ----

def number_of(word):
    """Number of a run or an effect given by its letters."""
    if word == "(1)":
        return 0
    number = 0
    for letter in word.lower():
        number |= 1 << (ord(letter) - ord("a"))
    return number


def run_name(number):
    """Letters of a run, a first; (1) for no letter."""
    return "".join(chr(ord("a") + bit) for bit in range(number.bit_length()) if number >> bit & 1) or "(1)"


def effect_name(number):
    """Letters of an effect, A first."""
    return run_name(number).upper()


def letter_count(number):
    return bin(number).count("1")


def parity(effect, run):
    """1 if an odd number of the letters of the effect are high in the run, else 0."""
    return letter_count(effect & run) % 2


def runs_with_letters(factors, counts):
    """The rule in words of Table 12-3: all runs whose number of letters is among the counts."""
    return " ".join(run_name(run) for run in range(2 ** factors) if letter_count(run) in counts)


# ---- Table 12-3 as printed: factors, label, confounded effects, blocks ----
# Six factors (i) and seven factors (i) are printed in words, by the number of letters of the runs.

BLOCKED_PLANS = [
    BlockedPlan(3, "i", "ABC", [
        "(1) ab ac bc",
        "a b c abc",
    ]),
    BlockedPlan(4, "i", "ABCD", [
        "(1) ab ac bc ad bd cd abcd",
        "a b c abc d abd acd bcd",
    ]),
    BlockedPlan(4, "ii", "AD ABC BCD", [
        "(1) bc abd acd",
        "a abc bd cd",
        "b c ad abcd",
        "d bcd ab ac",
    ]),
    BlockedPlan(5, "i", "ABCDE", [
        "(1) ab ac bc ad bd cd abcd ae be ce abce de abde acde bcde",
        "a b c abc d abd acd bcd e abe ace bce ade bac cde abcde",
    ]),
    BlockedPlan(5, "ii", "BCE ADE ABCD", [
        "(1) ad bc abcd abe bde ace cde",
        "a d abc bcd be abde ce acde",
        "b abd c acd ae de abce bcde",
        "e ade bce abcde ab bd ac cd",
    ]),
    BlockedPlan(5, "iii", "AD BE ABC BCD CDE ACE ABDE", [
        "(1) bce acd abde",
        "a abce cd bde",
        "b ce abcd ade",
        "c be ad abcde",
        "d bcde ac abe",
        "e bc acde abd",
        "ad ace bcd de",
        "ae abc cde bd",
    ]),
    BlockedPlan(6, "i", "ABCDEF", [
        runs_with_letters(6, (0, 6, 2, 4)),
        runs_with_letters(6, (1, 3, 5)),
    ]),
    BlockedPlan(6, "ii", "ABCD BCEF ADEF", [
        "(1) bc ad abcd ef bcef adef abcdef bde cde abe ace bdf cdf abf acf",
        "a abc d bcd aef abcef def bcdef abde acde be ce abdf acdf bf cf",
        "b c abd acd bef cef abdef acdef de bcde ae abce df bcdf af abcf",
        "e bce ade bcde f bef adf abdef bd cd ab ac bdef cdef abef acef",
    ]),
    BlockedPlan(6, "iii", "ADE BCE ACF BDF ABCD ABEF CDEF", [
        "(1) ace bde abcd adf cdef abef bcf",
        "a ce abde bcd df acdef bef abcf",
        "b abce de acd abdf bcdef aef cf",
        "c ae bcde abd acdf def abcef bf",
        "d acde be abc af cef abdef bcd",
        "e ac bd abcde adef cdf abf bcef",
        "f acef bdef abdef ad cde abe bc",
        "ab bce ade cd bdf abcdef ef acf",
    ]),
    BlockedPlan(6, "iv", "AD BE CF ABC BCD CDE DEF ACE AEF ABF BDF ABDE BCEF ACDF ABCDEF", [
        "(1) bcef acdf abde",
        "a abcef cdf bde",
        "b cef abdef ade",
        "c bef adf abcde",
        "d bcdef acf abe",
        "e bef acdef abd",
        "f bce aca abdef",
        "ab acef bcd de",
        "ac abef df bcde",
        "ad abcdef cf be",
        "ae abef cdef bd",
        "af abce cd bdef",
        "bc ef abdf acde",
        "bf ce abcd adef",
        "abc aef bdf cde",
        "abf ace bcd def",
    ]),
    BlockedPlan(7, "i", "ABCDEFG", [
        runs_with_letters(7, (0, 2, 4, 6)),
        runs_with_letters(7, (1, 3, 5, 7)),
    ]),
    BlockedPlan(7, "ii", "ABCD ABEFG CDEFG", [
        "(1) ab abcd ace acf acg ade adf adg bce bcf cdef cdeg cdg abcdeg abdefg abdefg bcg bde bdg abeg abfg cd ef eg fg acefg adefg "
        "bcefg bdefg",
        "a b bcd ce cf cg de df dg abce abcf acdeg acdeg acdfg bcdeg bcdeg bcdfg bef abcg abde abdf abdg beg bfg acd aef aeg afg cefg "
        "defg abcefg abdefg",
        "c abc abd ae af ag acde acdf acdg be bf def deg dfg abdef abdeg abdfg abcef bg bcde bcdf bcdg abceg abcfg d cef cfg aefg "
        "acdefg befg bcdefg ceg",
        "e abe abcde ac acef aceg ad adef adeg bc bcef cdf cdg cdefg abcdf abcdg abcdefg abf bceg bd bdef bdeg abg abefg cde f g efg "
        "acfg adfg befg bdfg",
    ]),
    BlockedPlan(7, "iii", "ABCD BCEF ADEF ACFG BDFG ABEG CDEG", [
        "(1) bde adg abeg beg acdg abcd ace efg bdg adef abf bcef cdf abcdefg acfg",
        "a abde dg beg abeg acdeg bcd ce aefg abdfg def bf abcef acdf bcdefg cfg",
        "b de abdg aeg cg bcdeg acd abce befg dfg abdef af cef bcdf acdefg abcfg",
        "c bcde acd abceg bg deg abd ae cefg bcdfg acdeg abcf bef df abdefg afg",
        "d be ag abdeg bcdg ceg abc acde defg bfg aef abdf bcdef cf abcefg acdfg",
        "e bd adeg abg bceg cdg abcde ac fg bdefg adf abef bef cdef abcdfg acefg",
        "f bdef adfg abefg befg cdefg abcdf acef eg bdg ade ab bce cd abcdeg acg",
        "g bdeg ad abe bc cde abcdg aceg ef bdg adfg abfg bcefg cdg abcdefg acf",
    ]),
    BlockedPlan(7, "iv", "ACF ADE BCE BDF CDG ABG CFG ABEF CDEF ABCD BDEG ACEG ADFG BCFG ABCDEF ABCDEF", [
        "(1) aceg bdeg abcd adfg cdef abef befg",
        "a ceg abdeg bcd dfg acdeg bef abefg",
        "b abceg deg acd abdfg bcdef aef cfg",
        "c aeg bcdeg abd acdfg def abcef bfg",
        "d acdeg beg abc afg cef abdef bcdfg",
        "e acg bdg abcde adefg cdf abf bcefg",
        "f acefg bdefg abcdf adg cde abe beg",
        "g ace bde abcdg adf cdefg abefg bcf",
        "ab bceg adeg cd bdg abcdef ef acfg",
        "ac eg abcdeg bd cdg adef bcef abfg",
        "ad cdeg abeg bc fg acef bdef abcdfg",
        "ae cg abd bcde defg acdf bf abcefg",
        "af cefg abdefg bcdf dg acde be abeg",
        "ag ce abde bcdg df acdefg befg abcf",
        "bg abce de acd abdf bcdefg aefg cf",
        "abg bce ade cdg bdg abcdefg efg acf",
    ]),
]


# ---- Table 12-4 as printed: plan, factors n, halvings b, rows (treatment combination, estimated effects) ----

FRACTIONAL_PLANS = [
    FractionalPlan(1, 3, 1, [
        ("(1)", "T"), ("ac", "A - BC"), ("bc", "B - AC"), ("ab", "-C + AB"),
    ]),
    FractionalPlan(2, 4, 1, [
        ("(1)", "T"), ("ad", "A"), ("bd", "B"), ("ab", "AB + CD"), ("cd", "C"), ("ac", "AC + BD"),
        ("bc", "BC + AD"), ("abcd", "D"),
    ]),
    FractionalPlan(3, 5, 1, [
        ("(1)", "T"), ("ae", "A"), ("be", "B"), ("ab", "AB"), ("ce", "C"), ("ac", "AC"), ("bc", "BC"),
        ("abce", "-DE"), ("de", "D"), ("ad", "AD"), ("bd", "BD"), ("abde", "-CE"), ("cd", "CD"),
        ("acde", "-BE"), ("bcde", "-AE"), ("abcd", "-E"),
    ]),
    FractionalPlan(4, 5, 2, [
        ("(1)", "T"), ("ad", "A - DE"), ("bde", "B - CE"), ("abe", "AB + CD"), ("cde", "C - BE"),
        ("ace", "AC + BD"), ("bc", "-E + BC + AD"), ("abcd", "D - AE"),
    ]),
    FractionalPlan(5, 6, 2, [
        ("(1)", "T"), ("ae", "A"), ("bef", "B"), ("abf", "AB + CE"), ("cef", "C"), ("acf", "AC + BE"),
        ("bc", "BC + AE + DF"), ("abce", "E"), ("df", "D"), ("adef", "AD + EF"), ("bde", "BD + CF"),
        ("abd", "*"), ("cde", "CD + BF"), ("acd", "*"), ("bcd", "F"), ("abcdef", "AF + DE"),
    ]),
    FractionalPlan(6, 6, 3, [
        ("(1)", "T"), ("adf", "A - DE - CF"), ("bde", "B - CE - DF"), ("abef", "AB + CD + EF"),
        ("cdef", "C - AF - BE"), ("ace", "-F + AC + BD"), ("bef", "-E + AD + BC"), ("abcd", "D - AE - BF"),
    ]),
    FractionalPlan(7, 7, 3, [
        ("(1)", "T"), ("aeg", "A"), ("befg", "B"), ("abf", "AB + CE + DG"), ("cef", "C"),
        ("acfg", "AC + BE + FG"), ("bcg", "BC + AE + DF"), ("abce", "E"), ("dfg", "D"), ("ade", "AD + EF + BG"),
        ("bde", "BD + CF + AG"), ("abd", "G"), ("cdeg", "CD + BF + EG"), ("acd", "*"), ("bcd", "F"),
        ("abcdeg", "AF + DE + CG"),
    ]),
    FractionalPlan(8, 8, 4, [
        ("(1)", "T"), ("aegh", "A"), ("befg", "B"), ("abfh", "AB + CE + DG + FH"), ("cefh", "C"),
        ("acfg", "AC + BE + FG + DH"), ("bcgh", "BC + AE + DF + GH"), ("abce", "E"), ("dfgh", "D"),
        ("ade", "AD + EF + BG + CH"), ("bdeh", "BD + AG + CF + EH"), ("abd", "G"),
        ("cdeg", "CD + AH + BF + EG"), ("acdh", "H"), ("bcd", "F"), ("abcdefgh", "AE + CG + BH"),
    ]),
]


# ---- mends ----

LATER = "first block times first run of this block, entry by entry; no undamaged entry of the plan is that run"
FIRST = "each later block times its own first run, entry by entry; no undamaged entry of the plan is that run"
PAIRING = "; which printed entry stands for which of abcdef, abcdfg, abef is not settled, the mended list is"
OTHERS = "first block times any other run of this block; ad stands in block 4, ab in no other place"
CLOSED = "list closed under multiplication; the effect is constant in every block, the printed one is not"
TWICE = "sixteen blocks have fifteen confounded effects; the effect is printed twice and is not one of them"
ROW = "base letters by the order of the rows, added letters by the other rows"
ALIAS = "runs of the plan"


def block_mend(factors, label, block, position, printed, meant, reason=LATER):
    return Mend("12-3", (factors, label), ("block", block), position, printed, meant, reason)


def confounded_mend(factors, label, position, printed, meant, reason=CLOSED):
    return Mend("12-3", (factors, label), ("confounded", 0), position, printed, meant, reason)


def run_mend(plan, row, printed, meant):
    return Mend("12-4", plan, ("run", row), 1, printed, meant, ROW)


def effect_mend(plan, row, position, printed, meant, reason=ALIAS):
    return Mend("12-4", plan, ("effects", row), position, printed, meant, reason)


MENDS = [
    block_mend(5, "i", 2, 14, "bac", "bde"),
    block_mend(5, "iii", 7, 1, "ad", "ab", OTHERS),
    block_mend(6, "ii", 4, 4, "bcde", "abcde"),
    block_mend(6, "ii", 4, 6, "bef", "bcf"),
    block_mend(6, "ii", 4, 8, "abdef", "abcdf"),
    block_mend(6, "iii", 5, 8, "bcd", "bcdf"),
    block_mend(6, "iii", 7, 4, "abdef", "abcdf"),
    block_mend(6, "iv", 3, 3, "abdef", "abcdf"),
    block_mend(6, "iv", 6, 2, "bef", "bcf"),
    block_mend(6, "iv", 7, 3, "aca", "acd"),
    block_mend(6, "iv", 8, 3, "bcd", "bcdf"),
    block_mend(6, "iv", 11, 2, "abef", "abcf"),
    block_mend(7, "ii", 1, 14, "cdg", "cdfg", FIRST),
    block_mend(7, "ii", 1, 15, None, "abcdef", FIRST + PAIRING),
    block_mend(7, "ii", 1, 17, "abdefg", "abcdfg", FIRST + PAIRING),
    block_mend(7, "ii", 1, 18, "abdefg", "abef", FIRST + PAIRING),
    block_mend(7, "ii", 1, 21, None, "bdf", FIRST),
    block_mend(7, "ii", 2, 12, "acdeg", "acdef"),
    block_mend(7, "ii", 2, 15, "bcdeg", "bcdef"),
    block_mend(7, "ii", 4, 31, "befg", "bcfg"),
    block_mend(7, "iii", 1, 5, "beg", "bcg", FIRST),
    block_mend(7, "iii", 1, 6, "acdg", "cdeg", FIRST),
    block_mend(7, "iii", 1, 10, "bdg", "bdfg", FIRST),
    block_mend(7, "iii", 2, 5, "abeg", "abcg"),
    block_mend(7, "iii", 4, 3, "acd", "acdg"),
    block_mend(7, "iii", 4, 11, "acdeg", "acdef"),
    block_mend(7, "iii", 6, 13, "bef", "bcf"),
    block_mend(7, "iii", 7, 5, "befg", "bcfg"),
    block_mend(7, "iii", 8, 10, "bdg", "bdf"),
    block_mend(7, "iii", 8, 11, "adfg", "adefg"),
    block_mend(7, "iii", 8, 14, "cdg", "cdfg"),
    block_mend(7, "iii", 8, 15, "abcdefg", "abcdef"),
    confounded_mend(7, "iv", 7, "CFG", "EFG"),
    confounded_mend(7, "iv", 15, "ABCDEF", "ABCDEFG"),
    confounded_mend(7, "iv", 16, "ABCDEF", None, TWICE),
    block_mend(7, "iv", 1, 8, "befg", "bcfg", FIRST),
    block_mend(7, "iv", 2, 6, "acdeg", "acdef"),
    block_mend(7, "iv", 2, 8, "abefg", "abcfg"),
    block_mend(7, "iv", 7, 8, "beg", "bcg"),
    block_mend(7, "iv", 9, 5, "bdg", "bdfg"),
    block_mend(7, "iv", 10, 5, "cdg", "cdfg"),
    block_mend(7, "iv", 12, 3, "abd", "abdg"),
    block_mend(7, "iv", 13, 8, "abeg", "abcg"),
    block_mend(7, "iv", 15, 4, "acd", "acdg"),
    block_mend(7, "iv", 16, 5, "bdg", "bdf"),
    run_mend(5, 15, "bcd", "bcdf"),
    run_mend(6, 7, "bef", "bcf"),
    run_mend(7, 10, "ade", "adef"),
    run_mend(7, 12, "abd", "abdg"),
    run_mend(7, 15, "bcd", "bcdf"),
    run_mend(7, 16, "abcdeg", "abcdefg"),
    run_mend(8, 10, "ade", "adef"),
    run_mend(8, 12, "abd", "abdg"),
    run_mend(8, 15, "bcd", "bcdf"),
    effect_mend(8, 16, 1, "+AE", "+AF", ALIAS + "; AE stands in row 7; which of AF and DE the printed AE stands for is not settled"),
    effect_mend(8, 16, 2, None, "+DE", ALIAS + "; its place in the row is taken from plan 7 and is not settled"),
]

# Seven factors (ii), block 3: ceg is printed last; in the order of the first block it would be entry 27.
ORDER_DEPARTURES = [((7, "ii"), 3)]

# By plan, of up to five factors: the printed effects are those of so many lists, of one word, of two and of three.
LISTS = {(3, "i"): 1, (4, "i"): 1, (4, "ii"): 3, (5, "i"): 1, (5, "ii"): 3, (5, "iii"): 28}

# By plan of Table 12-4: 21 where a main effect and an interaction of two factors stand in one row, else 0.
SCREENED = {1: 21, 2: 0, 3: 0, 4: 21, 5: 0, 6: 21, 7: 0, 8: 0}


def mends_of(table, plan, part):
    """The mends of one list of entries, in rising order of position."""
    found = [mend for mend in MENDS if (mend.table, mend.plan, mend.part) == (table, plan, part)]
    return sorted(found, key=lambda mend: mend.position)


def mend_entries(printed, mends):
    """The list of entries after its mends. Raises if a mend does not fit what is printed."""
    entries = list(printed)
    for mend in mends:
        place = mend.position - 1
        if mend.printed is None:
            entries.insert(place, mend.meant)
            continue
        if entries[place] != mend.printed:
            raise ValueError("mend does not fit the print: %r, printed is %r" % (mend, entries[place]))
        if mend.meant is None:
            del entries[place]
        else:
            entries[place] = mend.meant
    return entries


def undamaged(entries, mends):
    """Position and entry of each mended entry that is also printed so."""
    damaged = {mend.position for mend in mends if mend.meant is not None}
    return {position: entry for position, entry in enumerate(entries, 1) if position not in damaged}


def mended_effects(plan):
    """Confounded effects of a plan of Table 12-3 after mending."""
    return mend_entries(plan.effects.split(), mends_of("12-3", plan[:2], ("confounded", 0)))


def mended_blocks(plan):
    """Blocks of a plan of Table 12-3 after mending, in the order of the print."""
    return [mend_entries(block.split(), mends_of("12-3", plan[:2], ("block", number)))
            for number, block in enumerate(plan.blocks, 1)]


def read_effects(text):
    """Estimated effects of a row of Table 12-4 with their signs, such as +A; none for T and for *."""
    if text in ("T", "*"):
        return []
    return [(sign or "+") + letters for sign, letters in re.findall("([+-]?)([A-Z]+)", text.replace(" ", ""))]


def mended_rows(plan):
    """Rows of a plan of Table 12-4 after mending: run and list of signed effects."""
    rows = []
    for number, (run, effects) in enumerate(plan.rows, 1):
        run = mend_entries([run], mends_of("12-4", plan.number, ("run", number)))[0]
        effects = mend_entries(read_effects(effects), mends_of("12-4", plan.number, ("effects", number)))
        rows.append((run, effects))
    return rows


# ---- checks ----

def products(numbers):
    """All products of the numbers, with the empty product 0. Letters that occur twice cancel."""
    closed = {0}
    for number in numbers:
        if number not in closed:
            closed |= {number ^ other for other in closed}
    return closed


def check_words(name, words, factors):
    """Complaints about words whose letters are doubled, not in rising order or not of the factors."""
    return ["%s: bad word %s" % (name, word) for word in words
            if run_name(number_of(word)) != word.lower() or number_of(word) >= 2 ** factors]


def check_mends():
    """Complaints about mends that change nothing, are given twice or belong to no plan."""
    complaints = []
    parts = set()
    for plan in BLOCKED_PLANS:
        parts.add(("12-3", plan[:2], ("confounded", 0)))
        parts |= {("12-3", plan[:2], ("block", number)) for number in range(1, len(plan.blocks) + 1)}
    for plan in FRACTIONAL_PLANS:
        parts |= {("12-4", plan.number, (column, row)) for column in ("run", "effects") for row in range(1, len(plan.rows) + 1)}
    for mend in MENDS:
        if mend.printed == mend.meant:
            complaints.append("mend changes nothing: %r" % (mend,))
        if (mend.table, mend.plan, mend.part) not in parts:
            complaints.append("mend of no plan: %r" % (mend,))
    if len({mend[:4] for mend in MENDS}) != len(MENDS):
        complaints.append("two mends of one entry")
    return complaints


def check_partition(name, plan, blocks):
    """Every run of the plan stands exactly once, in blocks of equal size."""
    complaints = check_words(name, [entry for block in blocks for entry in block], plan.factors)
    runs = sorted(number_of(entry) for block in blocks for entry in block)
    if runs != list(range(2 ** plan.factors)):
        complaints.append(name + ": not every run exactly once")
    if len({len(block) for block in blocks}) != 1:
        complaints.append(name + ": blocks of unequal size")
    return complaints


def check_confounded(name, plan, blocks, effects):
    """The confounded effects are exactly the effects of constant parity in every block, the empty one left out."""
    constant = [effect for effect in range(1, 2 ** plan.factors)
                if all(len({parity(effect, number_of(run)) for run in block}) == 1 for block in blocks)]
    complaints = check_words(name, effects, plan.factors)
    if sorted(number_of(effect) for effect in effects) != constant:
        complaints.append(name + ": confounded effects are not the effects constant on blocks")
    if len(effects) != len(blocks) - 1:
        complaints.append(name + ": number of confounded effects")
    return complaints


def check_order(name, plan, blocks):
    """Each block is the first block times its own first run, entry by entry, but for the listed departures.
    The plans printed in words have no order."""
    departures = [number for number, block in enumerate(blocks, 1)
                  if any(number_of(run) != number_of(block[0]) ^ number_of(first) for run, first in zip(block, blocks[0]))]
    in_words = plan.label == "i" and plan.factors >= 6
    listed = [number for key, number in ORDER_DEPARTURES if key == plan[:2]]
    if not in_words and departures != listed:
        return ["%s: order of print in blocks %r" % (name, departures)]
    return []


def check_settled_blocks(name, plan, blocks):
    """The undamaged runs of the plan alone settle the runs of every block and the place of every mended run."""
    complaints = []
    sound = [undamaged(block, mends_of("12-3", plan[:2], ("block", number))) for number, block in enumerate(blocks, 1)]
    sound = [{position: number_of(run) for position, run in block.items()} for block in sound]
    anchors = [min(block.values()) for block in sound]
    group = products(run ^ anchor for block, anchor in zip(sound, anchors) for run in block.values())
    for number, (block, own) in enumerate(zip(blocks, sound), 1):
        if {number_of(run) for run in block} != {run ^ anchors[number - 1] for run in group}:
            complaints.append("%s block %d: runs not settled" % (name, number))
        damaged = [position for position in range(1, len(block) + 1) if position not in own]
        if damaged == [1]:
            continue  # the one run that is left over
        for position in damaged:
            if 1 not in own or place_in_order(plan, sound, position) != {number_of(block[position - 1]) ^ own[1]}:
                complaints.append("%s block %d entry %d: place not settled" % (name, number, position))
    return complaints


def place_in_order(plan, sound, position):
    """The run of the first block at this position, as every block says that is undamaged there and at its first run."""
    return {block[position] ^ block[1] for number, block in enumerate(sound, 1)
            if position in block and 1 in block and (plan[:2], number) not in ORDER_DEPARTURES}


def check_settled_effects(name, plan, effects):
    """The undamaged confounded effects alone settle the list, by multiplication."""
    sound = undamaged(effects, mends_of("12-3", plan[:2], ("confounded", 0)))
    closed = products(number_of(effect) for effect in sound.values())
    if closed != {0} | {number_of(effect) for effect in effects}:
        return [name + ": confounded effects not settled"]
    return []


def check_blocked_plan(plan):
    name = "table 12-3, %d factors (%s)" % plan[:2]
    blocks = mended_blocks(plan)
    effects = mended_effects(plan)
    return (check_partition(name, plan, blocks) + check_confounded(name, plan, blocks, effects)
            + check_order(name, plan, blocks) + check_settled_blocks(name, plan, blocks)
            + check_settled_effects(name, plan, effects))


def lists_of(plan):
    """The lists of block words that confound exactly the printed effects; two blocks want one word, four two, eight three."""
    effects = tuple(sorted(number_of(effect) for effect in mended_effects(plan)))
    count = len(plan.blocks).bit_length() - 1
    return [words for words in blockings.lists(plan.factors, count) if blockings.confounded(words) == effects]


def blocks_of(factors, words):
    """The blocks that a list of block words makes, as sets of runs."""
    own, blocks = totals_rules.Plan(2, factors, (), words), {}
    for run in range(2 ** factors):
        blocks.setdefault(totals_rules.block_of(own, run), set()).add(run)
    return {frozenset(block) for block in blocks.values()}


def check_lists():
    """The plans of up to five factors are among the lists of block words, each as often as a group has lists; and each of
    these lists makes the printed blocks."""
    found = {plan[:2]: lists_of(plan) for plan in BLOCKED_PLANS if plan.factors in blockings.FACTORS}
    complaints = []
    if {name: len(own) for name, own in found.items()} != LISTS:
        complaints.append("table 12-3: the lists of block words are %r" % {name: len(own) for name, own in found.items()})
    for plan in BLOCKED_PLANS:
        printed = {frozenset(number_of(run) for run in block) for block in mended_blocks(plan)}
        complaints += ["table 12-3, %d factors (%s): %s makes other blocks" % (*plan[:2], blockings.labels(words))
                       for words in found.get(plan[:2], []) if blocks_of(plan.factors, words) != printed]
    return complaints


def base_count(plan):
    """Number of base letters k, where the plan has 2^k rows."""
    return len(plan.rows).bit_length() - 1


def words_of_added(plan, runs):
    """For each added factor, the words of base letters of which an odd number are high exactly when it is high."""
    base = base_count(plan)
    return {added: [word for word in range(1, 2 ** base) if all(parity(word, run) == run >> added & 1 for run in runs)]
            for added in range(base, plan.factors)}


def coefficients(effect, runs):
    """Product over the letters of the effect of -1 for low and +1 for high, for each run."""
    return [-1 if (letter_count(effect) - letter_count(effect & run)) % 2 else 1 for run in runs]


def computed_effects(plan, runs, word):
    """All effects of one or two letters equal up to sign to the base word over the runs, with that sign."""
    base = coefficients(word, runs)
    found = []
    for effect in range(1, 2 ** plan.factors):
        if letter_count(effect) > 2:
            continue
        own = coefficients(effect, runs)
        if own == base:
            found.append("+" + effect_name(effect))
        elif own == [-value for value in base]:
            found.append("-" + effect_name(effect))
    return found


def plan_of(plan, words):
    """A plan of Table 12-4 as the rules have it, by the words of its added factors, all of sign 0."""
    return totals_rules.Plan(2, base_count(plan), tuple((found[0], 0) for found in words.values()))


def fractional_plan(number):
    """A plan of Table 12-4 as the rules have it, by its number; the words are read off the mended runs."""
    plan = FRACTIONAL_PLANS[number - 1]
    return plan_of(plan, words_of_added(plan, [number_of(run) for run, _ in mended_rows(plan)]))


def met_in_row(effects):
    """What meets in a row of Table 12-4: each of its main effects with each of its interactions of two factors, as places of
    letters."""
    letters = [[ord(letter) - ord("A") for letter in effect[1:]] for effect in effects]
    return [(main[0], *pair) for main in letters if len(main) == 1 for pair in letters if len(pair) == 2]


def screened(own, marked):
    """What the screening call answers to a plan with readings 0 and some rows marked."""
    places = 2 ** own.k
    return screening.refused(own, [0] * places, [int(row in marked) for row in range(places)], places, places)


def check_screening(plan, own):
    """What meets in a plan of Table 12-4 is what stands in one row. A plan in which nothing does is admitted, also with all
    rows marked that have no main effect and are not T, those with * among them; with any other row marked it is not."""
    rows = [effects for _, effects in mended_rows(plan)]
    met = sorted(meeting for effects in rows for meeting in met_in_row(effects))
    mains = [row for row, effects in enumerate(rows) if any(len(effect) == 2 for effect in effects)]
    others = [row for row in range(1, len(rows)) if row not in mains]
    complaints = [] if screening.meetings(own) == met else ["what meets"]
    if screened(own, []) != SCREENED[plan.number] or bool(met) != (SCREENED[plan.number] == 21):
        complaints.append("screening")
    if not met and (screened(own, others) != totals_rules.DONE or any(screened(own, [row]) != 13 for row in [0] + mains)):
        complaints.append("rows that may be pooled when main effects are screened")
    return ["table 12-4, plan %d: %s" % (plan.number, complaint) for complaint in complaints]


def check_rules(name, own, runs):
    """The runs are those of rules/totals.py. Every effect counts in them as the base word does to which it is reduced there;
    the other way round exactly where the sign turns."""
    complaints = []
    if [totals_rules.high_letters(own, run) for run in range(2 ** own.k)] != runs:
        complaints.append(name + ": runs are not those of the rules")
    for effect in range(2 ** (own.k + len(own.added))):
        word, turned = totals_rules.alias(own, effect)
        meant = [-value if turned else value for value in coefficients(word, runs)]
        if word >= 2 ** own.k or coefficients(effect, runs) != meant:
            complaints.append("%s, %s: not the alias of the rules" % (name, effect_name(effect)))
    return complaints


def check_fractional_plan(plan):
    name = "table 12-4, plan %d" % plan.number
    complaints = []
    base = base_count(plan)
    rows = mended_rows(plan)
    runs = [number_of(run) for run, _ in rows]
    complaints += check_words(name, [run for run, _ in rows], plan.factors)
    complaints += check_words(name, [effect[1:] for _, effects in rows for effect in effects], plan.factors)
    if len(rows) != 2 ** (plan.factors - plan.halvings):
        complaints.append(name + ": number of rows")
    if [run % 2 ** base for run in runs] != list(range(len(rows))):
        complaints.append(name + ": rows not in standard order of the base letters")
    sound = [run for row, run in enumerate(runs, 1) if not mends_of("12-4", plan.number, ("run", row))]
    words = words_of_added(plan, sound)
    if any(len(found) != 1 for found in words.values()) or words != words_of_added(plan, runs):
        complaints.append(name + ": added letters not settled")
    else:
        complaints += check_rules(name, plan_of(plan, words), runs) + check_screening(plan, plan_of(plan, words))
    for word, ((run, effects), (_, printed)) in enumerate(zip(rows, plan.rows)):
        if sorted(effects) != sorted(computed_effects(plan, runs, word)):
            complaints.append("%s, row %s: effects are not the computed ones" % (name, run))
        if (printed == "T") != (word == 0) or (printed == "*") != (word != 0 and not effects):
            complaints.append("%s, row %s: T or * in the wrong row" % (name, run))
    return complaints


def check():
    """List of all complaints about the two tables and the mends."""
    complaints = check_mends() + check_lists()
    for plan in BLOCKED_PLANS:
        complaints += check_blocked_plan(plan)
    for plan in FRACTIONAL_PLANS:
        complaints += check_fractional_plan(plan)
    return complaints


# ---- expected text ----

def table_12_3_text():
    lines = []
    for plan in BLOCKED_PLANS:
        lines.append("table 12-3, %d factors (%s)" % plan[:2])
        lines.append(" ".join(["confounded"] + sorted(mended_effects(plan), key=number_of)))
        blocks = [sorted(block, key=number_of) for block in mended_blocks(plan)]
        lines += [" ".join(block) for block in sorted(blocks, key=lambda block: number_of(block[0]))]
    return "".join(line + "\n" for line in lines)


def table_12_4_text():
    lines = []
    for plan in FRACTIONAL_PLANS:
        rows = mended_rows(plan)
        lines.append("table 12-4, plan %d" % plan.number)
        words = words_of_added(plan, [number_of(run) for run, _ in rows])
        lines.append(", ".join("%s = %s" % (effect_name(1 << added), effect_name(found[0])) for added, found in words.items()))
        for (run, effects), (_, printed) in zip(rows, plan.rows):
            ordered = sorted(effects, key=lambda effect: number_of(effect[1:]))
            lines.append(" ".join([run] + (ordered or [printed])))
    return "".join(line + "\n" for line in lines)


def expected_text():
    return table_12_3_text() + table_12_4_text()


if __name__ == "__main__":
    found = check()
    if found:
        sys.exit("\n".join(found))
    sys.stdout.write(expected_text())
