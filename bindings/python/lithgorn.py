# The calls of the library for Python 3, by ctypes over the shared library liblithgorn.so, which tools/library builds.
# Results are exact: whole numbers as int, quotients as Fraction. Nothing is computed here but these quotients;
# include/lithgorn.h says what each call takes and gives, and docs/CALLS.md what is promised of it.
#
# The library is looked for where LITHGORN_LIBRARY in the environment says; else in target/lib of the repository, or beside
# the folder in which tools/install puts this file; else where the system looks.
#
# A plan is a Plan, or a plan in bytes. A word is a number, a set of letters with bit 0 for A, or its letters, as "ABC"; at
# three levels it is a number to the base 3, A's digit the lowest, or as "ABC2". Runs are in the order (1), a, b, ab, c and
# so on, readings of one run together; rows are in the order of their words. Totals are low minus high; estimates and
# aliases are high minus low.
#
# What the library refuses raises Refused, which has the number and the cause. A number that its C type cannot hold raises
# ValueError; all others are judged by the library alone. Examples are in the text of each function:
#
#   python3 -m doctest bindings/python/lithgorn.py
#
# Defined here:
#   VERSION .. CHECK_READINGS        the numbers of the header, by their names there without LITHGORN_
#   CAUSES, Refused                  why a call is refused, in words; the exception
#   CALLS, library                   answer and arguments of each call, and the library that has them
#   word, letters                    the number of a word, and its letters
#   Plan, plan_of                    a plan, and the plan of accepted bytes
#   check                            whether a plan is accepted
#   Run, run                         what is high in a run, and its block
#   Alias, alias                     the base word of an effect, and whether its sign turns
#   Estimate, estimate               mean or difference from a total, or lost
#   blockings                        every way to block a small plan
#   pass_, step, totals, recover     columns
#   Part, Row, Table, table, screen  the analysis of variance
#   Sheet, read, marks, text, sheet_table
#                                    the calls that take a sheet

import os
from collections import namedtuple
from ctypes import CDLL, POINTER, byref, c_char_p, c_double, c_int32, c_int64, c_size_t, c_uint8, c_uint16, c_uint64, sizeof
from fractions import Fraction
from functools import lru_cache
from operator import index
from os.path import abspath, dirname, exists, join


# ---- the numbers of the header ----

VERSION = "1.17"
MOST_READINGS, MOST_PLAN, MOST_SHEET, TEXT, FIGURES, CHECKS, MOST_BLOCKINGS = 1_024, 65, 5_187, 69_632, 11, 2, 3_360

DONE = 0
REFUSED_BYTES, REFUSED_LEVELS, REFUSED_FACTORS, REFUSED_COUNTS, REFUSED_WORDS, REFUSED_SAME_WORDS = 1, 2, 3, 4, 5, 6
REFUSED_DEPENDENT_BLOCKS, REFUSED_LOST_FACTOR, REFUSED_THREE_LEVELS, REFUSED_NOT_IN_PLAN, REFUSED_LENGTHS = 7, 8, 9, 10, 11
REFUSED_LIMIT, REFUSED_MARKS, REFUSED_NO_READINGS, REFUSED_REPEATS, REFUSED_WORD_COUNT = 12, 13, 14, 16, 17
REFUSED_COLUMN, REFUSED_MEETING = 18, 21

MEAN, DIFFERENCE, LOST = 0, 1, 2

DENOMINATOR, MEAN_DEGREES, MEAN_NUMERATOR, KEPT_DEGREES, KEPT_NUMERATOR, BLOCKS_DEGREES = 0, 1, 2, 3, 4, 5
BLOCKS_NUMERATOR, ERROR_DEGREES, ERROR_NUMERATOR, TOTAL_DEGREES, TOTAL_NUMERATOR = 6, 7, 8, 9, 10

CHECK_TOTALS, CHECK_READINGS = 0, 1


# ---- refusals ----

CAUSES = {
    REFUSED_BYTES: "the bytes are no plan or no sheet",
    REFUSED_LEVELS: "levels other than 2 or 3",
    REFUSED_FACTORS: "too few or too many factors",
    REFUSED_COUNTS: "too many added factors or block words",
    REFUSED_WORDS: "a word or a sign that the plan may not have",
    REFUSED_SAME_WORDS: "two added factors with one word",
    REFUSED_DEPENDENT_BLOCKS: "block words combine to the empty word",
    REFUSED_LOST_FACTOR: "a factor would be lost to blocks",
    REFUSED_THREE_LEVELS: "three levels, and the call is for two",
    REFUSED_NOT_IN_PLAN: "the run, a letter of the effect or the factor is not in the plan",
    REFUSED_LENGTHS: "readings, totals, marks or rows too few or too many",
    REFUSED_LIMIT: "a reading, a value or a total beyond the limit",
    REFUSED_MARKS: "a mark over 1, or on a row that may not have one",
    REFUSED_NO_READINGS: "no readings within the limit have these totals",
    REFUSED_REPEATS: "repeats that are not allowed, or over 1,024 readings",
    REFUSED_WORD_COUNT: "too few or too many block words of a blocking",
    REFUSED_COLUMN: "a column with too few places",
    REFUSED_MEETING: "a main effect has the base word of an interaction of two factors",
}


class Refused(Exception):
    """What the library refuses: its number, and the cause in words.

    >>> try:
    ...     check(Plan(2, 3, blocks=["A"]))
    ... except Refused as refused:
    ...     print(refused.number == REFUSED_LOST_FACTOR, refused.cause, refused, sep="; ")
    True; a factor would be lost to blocks; refused 8: a factor would be lost to blocks
    """

    def __init__(self, number):
        super().__init__(number)
        self.number = number
        self.cause = CAUSES.get(number, "a number that this file does not know")

    def __str__(self):
        return "refused %d: %s" % (self.number, self.cause)


def _judge(number):
    """Raises Refused, but for the answer 0."""
    if number != DONE:
        raise Refused(number)


# ---- the library ----

# Arguments: a slice is a pointer and a length. Slices of bytes that are only read are bytes.
BYTES, READINGS = (c_char_p, c_size_t), (POINTER(c_int32), c_size_t)
VALUES, NUMERATORS = (POINTER(c_int64), c_size_t), (POINTER(c_uint64), c_size_t)
MADE = VALUES + NUMERATORS + (POINTER(c_uint64), POINTER(c_int64))
WHOLE = (c_uint8, c_uint8, c_uint8)

# By name: the answer, and the arguments.
CALLS = {
    "lithgorn_check": (c_uint8, BYTES),
    "lithgorn_run": (c_uint8, (*BYTES, c_size_t, POINTER(c_uint16), POINTER(c_uint8))),
    "lithgorn_alias": (c_uint8, (*BYTES, c_uint16, POINTER(c_uint16), POINTER(c_uint8))),
    "lithgorn_estimate": (c_uint8, (*BYTES, c_uint16, c_int64, POINTER(c_uint8), POINTER(c_double))),
    "lithgorn_blockings": (c_uint8, (c_uint8, c_uint8, POINTER(c_uint16), c_size_t, POINTER(c_size_t))),
    "lithgorn_pass": (c_uint8, (*BYTES, c_size_t, *VALUES)),
    "lithgorn_step": (c_uint8, BYTES + VALUES + VALUES),
    "lithgorn_totals": (c_uint8, BYTES + READINGS + VALUES),
    "lithgorn_recover": (c_uint8, BYTES + VALUES + READINGS),
    "lithgorn_table": (c_uint8, BYTES + READINGS + BYTES + MADE),
    "lithgorn_screen": (c_uint8, BYTES + READINGS + BYTES + MADE),
    "lithgorn_read": (c_uint8, (*BYTES, *READINGS, POINTER(c_size_t))),
    "lithgorn_marks": (c_size_t, BYTES),
    "lithgorn_text": (c_size_t, (*BYTES, POINTER(c_uint8))),
    "lithgorn_sheet_table": (c_uint8, BYTES + MADE),
    "yates_pass": (c_uint8, (c_uint8, c_uint8, c_size_t, *VALUES)),
    "yates_totals": (c_uint8, WHOLE + READINGS + VALUES),
    "yates_recover": (c_uint8, WHOLE + VALUES + READINGS),
    "anova_table": (c_uint8, WHOLE + READINGS + BYTES + VALUES + NUMERATORS + NUMERATORS + VALUES),
}

NAME = "liblithgorn.so"
HERE = dirname(abspath(__file__))


def _path():
    """Where the library is: by the environment, in the repository, beside an installed file, or its name alone."""
    places = [join(HERE, "..", "..", "target", "lib", NAME), join(HERE, "..", NAME)]
    return os.environ.get("LITHGORN_LIBRARY") or next((place for place in places if exists(place)), NAME)


@lru_cache(maxsize=None)
def library():
    """The library, with answer and arguments of each call."""
    try:
        found = CDLL(_path())
    except OSError as why:
        raise OSError("%s; tools/library builds %s, LITHGORN_LIBRARY may name another" % (why, NAME)) from None
    for name, (answer, arguments) in CALLS.items():
        call = getattr(found, name)
        call.restype, call.argtypes = answer, arguments
    return found


# ---- from Python to C and back ----

def _range(kind):
    """The least and the largest number of a C type."""
    most = 1 << 8 * sizeof(kind)
    return (0, most - 1) if kind(-1).value > 0 else (-(most >> 1), (most >> 1) - 1)


RANGES = {kind: _range(kind) for kind in (c_uint8, c_uint16, c_size_t, c_int32, c_int64, c_uint64)}


def _fitting(numbers, kind):
    """Numbers that a C type holds; ctypes would cut the others short."""
    least, most = RANGES[kind]
    for number in numbers:
        if not least <= number <= most:
            raise ValueError("%d is not from %d to %d" % (number, least, most))
    return numbers


def _number(number, kind):
    """A number that a C type holds."""
    return _fitting([index(number)], kind)[0]


def _column(numbers, kind):
    """A column of numbers, to be lent."""
    own = _fitting([index(number) for number in numbers], kind)
    return (kind * len(own))(*own)


def _room(count, kind):
    """A column of so many places, to be written."""
    return (kind * count)()


def _content(content):
    """The bytes of a plan or a sheet."""
    return bytes(content) if isinstance(content, Plan) else bytes(memoryview(content))


def _counts(content):
    """N and R of accepted bytes, which begin with tag 1. Of others any numbers serve: these are refused before lengths are
    judged."""
    levels, factors = content[3:5] if len(content) >= 5 else (0, 0)
    return (levels ** factors, 2 ** factors) if levels in (2, 3) and factors <= 10 else (0, 0)


# ---- words and plans ----

FIRST, MOST_LETTERS = ord("A"), 16


def word(own, levels=2):
    """The number of a word, by its letters; a number is its own.

    >>> word("ABC"), word(""), word("ABC2", levels=3), word(7)
    (7, 0, 22, 7)
    """
    if not isinstance(own, str):
        return _number(own, c_uint16)
    found, rest = {}, own
    while rest:
        digit = 2 if levels == 3 and rest[1:2] == "2" else 1
        place, rest = ord(rest[0]) - FIRST, rest[digit:]
        if not 0 <= place < MOST_LETTERS or place in found:
            raise ValueError("%r is no word: capital letters from A to P, each once" % own)
        found[place] = digit
    return _number(sum(digit * levels ** place for place, digit in found.items()), c_uint16)


def letters(own, levels=2):
    """The letters of a word, by its number.

    >>> letters(7), letters(0), letters(22, levels=3)
    ('ABC', '', 'ABC2')
    """
    digits = [own // levels ** place % levels for place in range(MOST_LETTERS)]
    return "".join(chr(FIRST + place) + str(digit) * (digit > 1) for place, digit in enumerate(digits) if digit)


def _field(tag, body):
    """A field of a plan in bytes."""
    return bytes([tag, 0, len(body)]) + body


class Plan(namedtuple("Plan", "levels factors added blocks repeats", defaults=((), (), 1))):
    """A plan: added are pairs of word and sign, blocks are words. Its bytes are the plan in bytes.

    >>> bytes(Plan(2, 3, added=[("ABC", 0)], blocks=["AB"], repeats=2)).hex(" ")
    '01 00 02 02 03 02 00 03 00 07 00 03 00 02 00 03 06 00 01 02'
    >>> bytes(Plan(3, 3, blocks=["ABC2"])).hex(" ")
    '01 00 02 03 03 03 00 02 00 16'
    """

    __slots__ = ()

    def __bytes__(self):
        words = [(word(own), sign) for own, sign in self.added]
        blocks = [word(own, self.levels if self.levels == 3 else 2) for own in self.blocks]
        return b"".join([_field(1, bytes([self.levels, self.factors]))]
                        + [_field(2, own.to_bytes(2, "big") + bytes([sign])) for own, sign in words]
                        + [_field(3, own.to_bytes(2, "big")) for own in blocks]
                        + [_field(6, bytes([self.repeats]))] * (self.repeats != 1))


def _bodies(content):
    """The fields of accepted bytes, as pairs of tag and body."""
    found, at = [], 0
    while at < len(content):
        end = at + 3 + int.from_bytes(content[at + 1:at + 3], "big")
        found.append((content[at], content[at + 3:end]))
        at = end
    return found


def plan_of(content):
    """The plan of a plan in bytes, words as numbers.

    >>> plan_of(bytes.fromhex("01 0002 02 03  02 0003 00 07 00  03 0002 00 03"))
    Plan(levels=2, factors=3, added=((7, 0),), blocks=(3,), repeats=1)
    """
    check(content)
    fields = _bodies(_content(content))
    added = tuple((int.from_bytes(body[:2], "big"), body[2]) for tag, body in fields if tag == 2)
    blocks = tuple(int.from_bytes(body, "big") for tag, body in fields if tag == 3)
    return Plan(*fields[0][1], added, blocks, *[body[0] for tag, body in fields if tag == 6])


# ---- single figures of a plan ----

# high is a word of all letters, base and added.
Run = namedtuple("Run", "high block")
Alias = namedtuple("Alias", "word turned")

# kind is MEAN, DIFFERENCE or LOST; value is None where it is LOST.
Estimate = namedtuple("Estimate", "kind value")


def check(plan):
    """Raises Refused where a plan is not accepted.

    >>> check(Plan(2, 3, added=[("ABC", 0)], blocks=["AB"]))
    >>> check(Plan(2, 11))
    Traceback (most recent call last):
    lithgorn.Refused: refused 3: too few or too many factors
    >>> check(Plan(300, 2))
    Traceback (most recent call last):
    ValueError: bytes must be in range(0, 256)
    """
    content = _content(plan)
    _judge(library().lithgorn_check(content, len(content)))


def run(plan, number):
    """The letters that are high in a run, and its block.

    >>> run(Plan(2, 3, added=[("ABC", 0)], blocks=["AB"]), 1)
    Run(high=9, block=1)
    >>> letters(9)
    'AD'
    """
    content, high, block = _content(plan), c_uint16(), c_uint8()
    _judge(library().lithgorn_run(content, len(content), _number(number, c_size_t), byref(high), byref(block)))
    return Run(high.value, block.value)


def alias(plan, effect):
    """The base word to which an effect of all factors reduces, and whether its sign turns.

    >>> alias(Plan(2, 3, added=[("ABC", 1)]), "AD")
    Alias(word=6, turned=True)
    """
    content, base, turned = _content(plan), c_uint16(), c_uint8()
    _judge(library().lithgorn_alias(content, len(content), word(effect), byref(base), byref(turned)))
    return Alias(base.value, bool(turned.value))


def estimate(plan, effect, total):
    """The mean, or the difference of an effect, high minus low, from its total; or that it is lost to blocks.

    >>> estimate(Plan(2, 4), "A", -111)
    Estimate(kind=1, value=Fraction(111, 8))
    >>> estimate(Plan(2, 3, blocks=["ABC"]), "ABC", 0) == (LOST, None)
    True
    """
    content, kind, value = _content(plan), c_uint8(), c_double()
    _judge(library().lithgorn_estimate(content, len(content), word(effect), _number(total, c_int64), byref(kind),
                                       byref(value)))
    return Estimate(kind.value, None if kind.value == LOST else Fraction(value.value))


def blockings(factors, words):
    """Every list of so many block words that a two-level plan of 2 to 5 factors may have.

    >>> [" ".join(map(letters, own)) for own in blockings(3, 2)]
    ['AB AC', 'AB BC', 'AC BC']
    """
    column, lists = _room(MOST_BLOCKINGS, c_uint16), c_size_t()
    _judge(library().lithgorn_blockings(_number(factors, c_uint8), _number(words, c_uint8), column, len(column),
                                        byref(lists)))
    return [tuple(column[first:first + words]) for first in range(0, lists.value * words, words)]


# ---- columns ----

def pass_(plan, factor, column):
    """A column after the pass of a base factor, 0 for A.

    >>> pass_(Plan(2, 2), 1, pass_(Plan(2, 2), 0, [3, 5, 4, 8]))
    [20, -6, -4, 2]
    """
    content, lent = _content(plan), _column(column, c_int64)
    _judge(library().lithgorn_pass(content, len(content), _number(factor, c_size_t), lent, len(lent)))
    return list(lent)


def step(plan, column):
    """The column after a step of NBS Report 3950.

    >>> step(Plan(2, 2), [3, 5, 4, 8])
    [8, 12, -2, -4]
    """
    content, lent = _content(plan), _column(column, c_int64)
    made = _room(_counts(content)[0], c_int64)
    _judge(library().lithgorn_step(content, len(content), lent, len(lent), made, len(made)))
    return list(made)


def totals(plan, readings):
    """The totals of all effects, low minus high.

    >>> totals(Plan(2, 2), [3, 5, 4, 8])
    [20, -6, -4, 2]
    """
    content, lent = _content(plan), _column(readings, c_int32)
    made = _room(_counts(content)[0], c_int64)
    _judge(library().lithgorn_totals(content, len(content), lent, len(lent), made, len(made)))
    return list(made)


def recover(plan, totals):
    """The readings that have the totals; where runs are made several times, the run sums.

    >>> recover(Plan(2, 2), [20, -6, -4, 2])
    [3, 5, 4, 8]
    >>> recover(Plan(2, 2), [20, -6, -4, 3])
    Traceback (most recent call last):
    lithgorn.Refused: refused 14: no readings within the limit have these totals
    """
    content, lent = _content(plan), _column(totals, c_int64)
    made = _room(_counts(content)[0], c_int32)
    _judge(library().lithgorn_recover(content, len(content), lent, len(lent), made, len(made)))
    return list(made)


# ---- the analysis of variance ----

# The sum of squares is the numerator over the table's denominator.
Part = namedtuple("Part", "degrees numerator sum_of_squares")
Row = namedtuple("Row", "numerator sum_of_squares")

# mean, kept, blocks, error and total are parts; rows and totals are lists. checks are the sum of the totals, and what it
# must be by the readings.
Table = namedtuple("Table", "denominator mean kept blocks error total rows totals checks")


def _rooms(content):
    """Totals, rows, figures and checks, to be written."""
    runs, rows = _counts(content)
    return _room(runs, c_int64), _room(rows, c_uint64), _room(FIGURES, c_uint64), _room(CHECKS, c_int64)


def _lent(rooms):
    """The same as arguments; figures and checks have no length there."""
    totals, rows, figures, checks = rooms
    return totals, len(totals), rows, len(rows), figures, checks


def _made(rooms):
    """The table in what was written."""
    totals, rows, figures, checks = map(list, rooms)
    over = figures[DENOMINATOR]
    parts = [Part(figures[place], figures[place + 1], Fraction(figures[place + 1], over))
             for place in (MEAN_DEGREES, KEPT_DEGREES, BLOCKS_DEGREES, ERROR_DEGREES, TOTAL_DEGREES)]
    return Table(over, *parts, [Row(numerator, Fraction(numerator, over)) for numerator in rows], totals, tuple(checks))


def _tabled(call, plan, readings, marks):
    """The table of one of the two calls that take a plan."""
    content, column, own = _content(plan), _column(readings, c_int32), bytes(map(index, marks))
    rooms = _rooms(content)
    _judge(call(content, len(content), column, len(column), own, len(own), *_lent(rooms)))
    return _made(rooms)


def table(plan, readings, marks):
    """The analysis of variance; a mark is 1 for a row that is pooled as error, else 0.

    >>> made = table(Plan(2, 2), [3, 5, 4, 8], [0, 0, 0, 1])
    >>> made.denominator, made.error, made.checks
    (4, Part(degrees=1, numerator=4, sum_of_squares=Fraction(1, 1)), (12, 12))
    >>> made.rows[word("B")]
    Row(numerator=16, sum_of_squares=Fraction(4, 1))
    """
    return _tabled(library().lithgorn_table, plan, readings, marks)


def screen(plan, readings, marks):
    """The same of screening plans alone, in which no main effect meets an interaction of two factors.

    >>> screen(Plan(2, 3, added=[("ABC", 0)]), range(1, 9), [0] * 8).total.degrees
    8
    >>> screen(Plan(2, 2, added=[("AB", 0)]), [3, 5, 4, 8], [0] * 4)
    Traceback (most recent call last):
    lithgorn.Refused: refused 21: a main effect has the base word of an interaction of two factors
    """
    return _tabled(library().lithgorn_screen, plan, readings, marks)


# ---- sheets ----

Sheet = namedtuple("Sheet", "plan readings")

# The sheet of the examples below: two factors, the readings 3, 5, 4, 8, and the mark on AB.
FOUR_RUNS = bytes.fromhex("01 0002 02 02  04 0010 00000003 00000005 00000004 00000008  05 0004 00 00 00 01")


def read(sheet):
    """Plan and readings of a sheet.

    >>> read(FOUR_RUNS)
    Sheet(plan=Plan(levels=2, factors=2, added=(), blocks=(), repeats=1), readings=[3, 5, 4, 8])
    """
    content, column, length = _content(sheet), _room(MOST_READINGS, c_int32), c_size_t()
    _judge(library().lithgorn_read(content, len(content), column, len(column), byref(length)))
    plan = plan_of(content[:length.value])
    return Sheet(plan, column[:plan.levels ** plan.factors * plan.repeats])


def marks(sheet):
    """The marks of a sheet; none of one that is refused.

    >>> list(marks(FOUR_RUNS)), list(marks(FOUR_RUNS[:-1]))
    ([0, 0, 0, 1], [])
    """
    content = _content(sheet)
    return content[len(content) - library().lithgorn_marks(content, len(content)):]


def text(sheet):
    """The text that factab prints of a sheet; of one that is refused the line of its number.

    >>> text(FOUR_RUNS).splitlines()[:3], text(b"")
    (['over 4', 'mean 1 400', 'A 1 36'], 'refused 1\\n')
    """
    content, room = _content(sheet), _room(TEXT, c_uint8)
    length = library().lithgorn_text(content, len(content), room)
    return bytes(room)[:length].decode("ascii")


def sheet_table(sheet):
    """The analysis of variance of a sheet.

    >>> sheet_table(FOUR_RUNS) == table(Plan(2, 2), [3, 5, 4, 8], [0, 0, 0, 1])
    True
    """
    content = _content(sheet)
    rooms = _rooms(content)
    _judge(library().lithgorn_sheet_table(content, len(content), *_lent(rooms)))
    return _made(rooms)
