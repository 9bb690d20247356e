# Reference program for factorial tables, fifth part: every way to block a small plan, straight from the wording of the rules;
# and the text that the program blockwords prints of them. As a command it is that program:
#
#   python3 reference/rules/blockings.py FACTORS WORDS
#
# A list of block words is made by choosing words in rising order, and judged by arithmetic modulo 2, a word being a row with
# a place for each letter. The words have to be independent, and to stay so with any one letter put beside them: then none of
# their combinations is empty, and none is a single letter. The plan check of totals.py has no part in this; check() has it
# judge all lists once more. Like the other parts, this file is written apart from the proved program and shares nothing with
# it.
#
# Names: a word is a set of letters, bit 0 for A. A list has one to three words of a plan of k factors, each above the one
# before. Its confounded effects are its words and what they combine to. A group is all lists of one plan that have the same
# confounded effects.
#
# Defined here:
#   FACTORS, WORD_COUNTS         the factors, and the words of a list, that the call takes
#   COUNTS, GROUP_SIZES          how many lists there are, and how many of them are a group
#   MOST_PLACES                  how many places the most words take
#   WANTS, RULES_TEXT            the line on standard error, and the text that the rules print
#   rank, is_blocking            the rank of words modulo 2, and whether words block a plan
#   lists, words_of              all lists, in order, and their words one after the other
#   confounded, groups           the confounded effects of a list, rising; and how many lists have the same
#   is_listed                    whether the block words of a two-level plan, in rising order, are a list
#   blocking_answer              0, or the first of 3, 17, 18 that applies
#   column_after                 the column at exit
#   labels, text                 words by their letters, and what the program prints for two numbers
#   number_in, output            the number that an argument is; what the program writes for its arguments
#   check                        list of complaints, empty if all is well

import sys
from collections import Counter
from functools import lru_cache
from itertools import combinations
from os.path import abspath, dirname

sys.path.insert(0, dirname(dirname(dirname(abspath(__file__)))))

from reference.rules import totals as totals_rules
from reference.rules.table import row_label
from reference.rules.totals import DONE, Plan

FACTORS = range(2, 6)
WORD_COUNTS = range(1, 4)

# By factors and words.
COUNTS = {
    (2, 1): 1, (2, 2): 0, (2, 3): 0,
    (3, 1): 4, (3, 2): 3, (3, 3): 0,
    (4, 1): 11, (4, 2): 39, (4, 3): 28,
    (5, 1): 26, (5, 2): 270, (5, 3): 1120,
}

# By words: in how many ways so many words can be chosen, in rising order, that combine to the same effects.
GROUP_SIZES = {1: 1, 2: 3, 3: 28}

MOST_PLACES = 3_360

# An argument above this number counts as this number.
MOST_NUMBER = 255

# What the program says on standard error of arguments that are not two whole numbers.
WANTS = b"blockwords: wants the number of factors, 2 to 5, and that of block words, 1 to 3\n"

# The text that the rules print: three factors, two words.
RULES_TEXT = b"lists 3\nAB AC : AB AC BC\nAB BC : AB AC BC\nAC BC : AB AC BC\n"


# ---- lists ----

def rank(words):
    """The rank of words modulo 2: each row that is not empty clears its highest letter from the rows after it."""
    rows, found = list(words), 0
    while rows:
        row = rows.pop(0)
        if row:
            found += 1
            highest = 1 << row.bit_length() - 1
            rows = [other ^ row if other & highest else other for other in rows]
    return found


def is_blocking(k, words):
    """Whether words are independent, and no combination of them is one letter of a plan of k factors."""
    return rank(words) == len(words) and all(rank((*words, 1 << letter)) == len(words) + 1 for letter in range(k))


@lru_cache(maxsize=None)
def lists(k, count):
    """All lists of so many words, rising by first word, then by second, then by third."""
    return [words for words in combinations(range(2 ** k), count) if is_blocking(k, words)]


def words_of(k, count):
    """The words of all lists, one list after the other."""
    return [word for words in lists(k, count) for word in words]


def confounded(words):
    """The words and what they combine to, rising."""
    effects = []
    for word in words:
        effects += [word] + [word ^ effect for effect in effects]
    return tuple(sorted(effects))


def groups(k, count):
    """How many lists have the same confounded effects, by these."""
    return Counter(confounded(words) for words in lists(k, count))


def is_listed(plan):
    """Whether the block words of a two-level plan, in rising order, are one of the lists of its base factors."""
    return tuple(sorted(plan.blocks)) in lists(plan.k, len(plan.blocks))


# ---- the call ----

def blocking_answer(k, count, places):
    """The blocking call, for a column of so many places: 3, 17, 18, or 0."""
    return totals_rules.foremost([(3, lambda: k not in FACTORS),
                                  (17, lambda: count not in WORD_COUNTS),
                                  (18, lambda: places < len(words_of(k, count)))])


def column_after(k, count, column):
    """The column at exit: where the call is done a place for each word, the places after the last word as they were; where it
    is refused, all as they were."""
    if blocking_answer(k, count, len(column)) != DONE:
        return list(column)
    words = words_of(k, count)
    return words + list(column[len(words):])


# ---- the text ----

def labels(words):
    """Words by their letters, parted by spaces."""
    return " ".join(row_label(word) for word in words)


def text(k, count):
    """What the program prints for two numbers: how many lists there are, and each with its confounded effects; or the line of
    the refusal. Its column has place for the most words."""
    refused = blocking_answer(k, count, MOST_PLACES)
    if refused:
        return b"refused %d\n" % refused
    found = lists(k, count)
    lines = ["lists %d" % len(found)] + ["%s : %s" % (labels(words), labels(confounded(words))) for words in found]
    return "".join(line + "\n" for line in lines).encode()


def number_in(argument):
    """The number that an argument of digits alone is, 255 where it is above that; None for another argument."""
    if not argument or argument.strip(b"0123456789"):
        return None
    digits = argument.lstrip(b"0")
    return min(int(digits or b"0"), MOST_NUMBER) if len(digits) <= len(str(MOST_NUMBER)) else MOST_NUMBER


def output(arguments):
    """What the program writes to standard output and to standard error, given its arguments."""
    numbers = [number_in(argument) for argument in arguments]
    if len(numbers) != 2 or None in numbers:
        return b"", WANTS
    return text(*numbers), b""


# ---- checks ----

def named(k, count):
    """Factors and words."""
    return "%d factors, %d words" % (k, count)


def check_counts():
    """There are as many lists as listed, for all factors and words that the call takes; and the most words fill the most
    places."""
    complaints = ["%s: %d lists" % (named(*own), len(lists(*own))) for own in COUNTS if len(lists(*own)) != COUNTS[own]]
    if list(COUNTS) != [(k, count) for k in FACTORS for count in WORD_COUNTS]:
        complaints.append("counts of other factors or words")
    if max(len(words_of(*own)) for own in COUNTS) != MOST_PLACES:
        complaints.append("the most places")
    return complaints


def check_order():
    """Each list rises, and comes after all that are below it; none comes twice."""
    return ["%s: order" % named(*own) for own in COUNTS
            if lists(*own) != sorted({tuple(sorted(set(words))) for words in lists(*own)})]


def accepted(k, count):
    """The lists by a second way: all lists of rising words, a letter beyond k among theirs, that the plan check accepts."""
    return [words for words in combinations(range(2 ** (k + 1)), count)
            if totals_rules.plan_answer(Plan(2, k, (), words)) == DONE]


def check_accepted():
    """The plan check accepts exactly the lists, and has the same confounded effects."""
    complaints = ["%s: the plan check accepts others" % named(*own) for own in COUNTS if lists(*own) != accepted(*own)]
    for k, count in COUNTS:
        complaints += ["%s, %s: confounded effects" % (named(k, count), labels(words)) for words in lists(k, count)
                       if sorted(totals_rules.confounded(Plan(2, k, (), words))) != list(confounded(words))]
    return complaints


def check_groups():
    """Every group has as many lists as listed, and those of a group confound as many effects as their words combine to."""
    return ["%s, %s: a group of %d" % (named(*own), labels(effects), size)
            for own in COUNTS for effects, size in groups(*own).items()
            if size != GROUP_SIZES[own[1]] or len(set(effects)) != 2 ** own[1] - 1]


# The small inputs of the rules, and inputs to which several numbers apply: factors, words, places, and the number.
SMALL_INPUTS = [(1, 1, 0, 3), (3, 0, 0, 17), (3, 1, 3, 18), (3, 1, 4, DONE), (2, 2, 0, DONE), (1, 0, 0, 3), (6, 4, 0, 3)]


def check_call():
    """The small inputs have the numbers that the rules give; and the text of the rules is made."""
    complaints = ["%s, %d places: not %d" % (named(k, count), places, number) for k, count, places, number in SMALL_INPUTS
                  if blocking_answer(k, count, places) != number]
    if output([b"3", b"2"]) != (RULES_TEXT, b""):
        complaints.append("the text of the rules")
    return complaints


def check():
    """List of all complaints about lists, groups, answers and text."""
    return check_counts() + check_order() + check_accepted() + check_groups() + check_call()


if __name__ == "__main__":
    for stream, written in zip((sys.stdout, sys.stderr), output([argument.encode(errors="surrogateescape")
                                                                 for argument in sys.argv[1:]])):
        stream.buffer.write(written)
