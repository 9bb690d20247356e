# A stage of the gate: runs the programs factab, blockwords and screentab as they were linked, beside reference/rules/text.py,
# reference/rules/blockings.py and reference/rules/screening.py: which bytes they read and write by way of the system, no
# contract can say. As a command:
#
#   python3 .ci/program.py FACTAB BLOCKWORDS SCREENTAB
#
# FACTAB, BLOCKWORDS and SCREENTAB are the paths of the programs. Of each run the text must be that of the program's file of
# rules/; on standard error there must be nothing, or the line that tells that a read or a write failed, or which arguments
# are wanted; and the run must end within a time limit and not by a signal. Every difference is printed; the last three lines
# say how many there are, one line for each program, and the exit is 1 if there is one.
#
# The runs of factab: sheets of no byte to a megabyte, most of about 5,187; the sheets of examples/; sheets with readings at
# the limits and beyond them, of two and of three levels, with repeats and in three blocks too; inputs that come in parts or
# late; inputs and outputs that are closed or fail; and 500 sheets of cases/compare.py from a seed that is always the same.
#
# The runs of screentab are made in the same way, with readings about the limits of fewer plans; and 300 sheets of
# cases/screen_cases.py from a seed that is always the same.
#
# The runs of blockwords: factors from 0 to 7 and far more, each with words from 0 to 4 and far more; numbers with zeros
# before them, numbers whose last bytes are lawful ones, and numbers of as many digits as an argument may have; arguments that
# are too few, too many or no numbers; and inputs and outputs that are closed or fail.
#
# Defined here:
#   Run                              a run: its name, what the program is given, and what must be seen
#   Reader                           a program that reads a sheet: its name, and what it must write for an input
#   sized, stored, limited           its runs, by what is tried: sizes, stored sheets, readings about the limits
#   parted, failing                  inputs in parts, and inputs and outputs that fail
#   counted, spelled, faulty         the runs of blockwords: factors and words, ways to write a number, faulty arguments
#   words_failing                    its inputs and outputs that are closed or fail
#   seen, complaints_of              what is seen of a run, and how it differs from what is meant
#   part_taken                       the same of a run whose output takes a part of the text
#   reader_runs                      the runs of a program that reads a sheet: name and complaints of each
#   factab_runs, screentab_runs      all runs of a program but those of sheets from a seed
#   blockwords_runs                  all runs of a program
#   tried, all_tried                 makes the runs of a program, or of all three, and prints the differences

import fcntl
import os
import subprocess
import sys
import tempfile
import time
from collections import namedtuple
from pathlib import Path
from shlex import quote
from threading import Timer

sys.path.insert(0, str(Path(__file__).resolve().parent.parent))

from reference.cases import compare, screen_cases
from reference.cases.answers import SIDES, about_limit, named
from reference.cases.compare import difference
from reference.cases.csv_cases import EXAMPLES, FOLDER, OWN_EXAMPLES
from reference.cases.sheet_cases import Numbers
from reference.cases.text_cases import RULES_SHEET
from reference.published.analyses import MOST_REPEATED, THREE_BLOCKED
from reference.rules import blockings as blocking_rules
from reference.rules import screening as screening_rules
from reference.rules import sheet_bytes
from reference.rules import text as text_rules
from reference.rules.table import row_count
from reference.rules.totals import MOST_FACTORS, MOST_READING, Plan, reading_count

COUNT, SEED = 500, 5187
TIME_LIMIT = 20
MEGABYTE = 1_000_000
MOST = text_rules.MOST_SHEET

# In seconds: between two bytes, and before an end or a beginning that is late.
SHORT, LATE = 0.002, 0.2

# The size of the smallest pipe, and the request of Linux that sets it.
PIPE, SET_PIPE_SIZE = 4096, 1031

# What the programs say on standard error, after their name; rules/blockings.py has what blockwords says of its arguments.
NOT_READ, NOT_WRITTEN = b"%s: the input cannot be read\n", b"%s: the text cannot be written\n"
WORDS_NOT_WRITTEN = NOT_WRITTEN % b"blockwords"

# Factors and words that blockwords is given, each with each.
FACTORS_TRIED, WORDS_TRIED = (*range(8), 255, 256, 1000), (*range(5), 256)

# The lengths of long arguments: about those of usual buffers, and the most that Linux lets an argument have.
LONG = (4_095, 4_096, 4_097, 65_535, 65_536, 65_537, 131_071)

# parts are what comes to the input in turn, bytes and seconds of waiting; how is what the shell redirects; text and
# error are what must be on standard output and standard error; arguments are those of the program.
Run = namedtuple("Run", "name parts how text error arguments", defaults=((),))

# text is the function that makes what must be on standard output of an input.
Reader = namedtuple("Reader", "name text")
FACTAB, SCREENTAB = Reader(b"factab", text_rules.text), Reader(b"screentab", screening_rules.text)


# ---- the runs of a program that reads a sheet ----

def of_reader(reader, name, parts, how, text, error):
    """A run of a program that reads a sheet, with the program in its name."""
    return Run("%s, %s" % (reader.name.decode(), name), parts, how, text, error)


def in_parts(reader, name, parts):
    """A run whose input comes in parts."""
    text = reader.text(b"".join(part for part in parts if isinstance(part, bytes)))
    return of_reader(reader, name, parts, "", text, b"")


def of_sheet(reader, name, own_sheet):
    """A run on a sheet."""
    return in_parts(reader, "%s, %d bytes" % (name, len(own_sheet)), [own_sheet])


def of_four_levels(added, blocks):
    """A sheet of four runs at four levels, which is refused with 2 unless it is too long, with so many words."""
    return sheet_bytes.write(Plan(4, 2, ((3, 0),) * added, (3,) * blocks), [3, 5, 4, 8], [0, 0, 0, 1])


def fewer_words(contents):
    """The same with a block word less, which makes a sheet of 5,182 bytes; no lawful one is nearer to 5,187."""
    return contents._replace(plan=contents.plan._replace(blocks=contents.plan.blocks[:-1]))


def sized(reader, contents):
    """Runs on sheets by their length; the contents are those of a longest sheet."""
    longest = sheet_bytes.write(*contents)
    sheets = [("no byte", b""), ("one byte", bytes([sheet_bytes.PLAN]))]
    sheets += [("lawful, with a word less", sheet_bytes.write(*fewer_words(contents)))]
    sheets += [("lawful", longest), ("lawful, without the last byte", longest[:-1])]
    sheets += [("lawful, and a byte more", longest + bytes([last])) for last in (0, 1, 255)]
    sheets += [("four levels", of_four_levels(*words)) for words in ((0, 1031), (1, 1030), (2, 1029))]
    sheets += [("zeros", bytes(length)) for length in (MOST - 1, MOST, MOST + 1, MEGABYTE)]
    sheets += [("lawful, and zeros", own.ljust(MEGABYTE, b"\0")) for own in (longest, RULES_SHEET)]
    return [of_sheet(reader, *own) for own in sheets]


def stored(reader):
    """Runs on the sheets of examples/, each a file that is the input."""
    paths = [FOLDER / (name + ".sheet") for name in [*EXAMPLES, *OWN_EXAMPLES]]
    return [of_reader(reader, path.name, [], "<" + quote(str(path)), reader.text(path.read_bytes()), b"") for path in paths]


def limited(reader, plan):
    """Runs on sheets of a plan: all readings at a limit; and one, at the first, a middle and the last place, at a limit of
    either level count or one beyond it, where the others are 0."""
    top, count = MOST_READING[plan.levels], reading_count(plan)
    columns = [("all readings %d" % (sign * top), [sign * top] * count) for _, sign in SIDES]
    for size in [limit + more for limit in MOST_READING.values() for more in (0, 1)]:
        columns += [("%s %d" % (name, sum(readings)), readings) for name, _, readings in about_limit([0] * count, size)]
    blocks = ", block words %s" % list(plan.blocks) if plan.blocks else ""
    return [of_sheet(reader, "%s, k = %d%s, %s" % (named(plan), plan.k, blocks, name),
                     sheet_bytes.write(plan, readings, [0] * row_count(plan.k))) for name, readings in columns]


def chunks(numbers, own_sheet, most):
    """A sheet in parts of 1 byte to a number of bytes."""
    parts, at = [], 0
    while at < len(own_sheet):
        length = 1 + numbers.below(most)
        parts.append(own_sheet[at:at + length])
        at += length
    return parts


def parted(reader, numbers, longest):
    """Runs on inputs that come byte by byte, in other parts, or late."""
    small = RULES_SHEET
    inputs = [("byte by byte", [part for byte in small for part in (bytes([byte]), SHORT)])]
    inputs += [("bytes of 5,187", chunks(numbers, longest, 1))]
    inputs += [("parts of 5,187, up to %d" % most, chunks(numbers, longest, most)) for most in (7, 100, 2000)]
    inputs += [("parts of 5,188", chunks(numbers, longest + b"\0", 2000))]
    inputs += [("5,187, the last byte late", [longest[:-1], LATE, longest[-1:]])]
    inputs += [("a late beginning", [LATE, small]), ("nothing, and a late end", [LATE])]
    inputs += [("a late end of %d" % len(own), [own, LATE]) for own in (small, longest)]
    inputs += [("a byte more, late, after %d" % len(own), [own, LATE, b"\0"]) for own in (small, longest)]
    return [in_parts(reader, *own) for own in inputs]


def failing(reader):
    """Runs with an input or an output that is closed or fails, and with standard error closed."""
    own, meant = [RULES_SHEET], reader.text(RULES_SHEET)
    not_read, not_written = NOT_READ % reader.name, NOT_WRITTEN % reader.name
    return [of_reader(reader, *run) for run in (
        ("a closed input", [], "<&-", b"", not_read),
        ("a directory as input", [], "</", b"", not_read),
        ("an empty file as input", [], "</dev/null", reader.text(b""), b""),
        ("a closed output", own, ">&-", b"", not_written),
        ("an output that is full", own, ">/dev/full", b"", not_written),
        ("a closed input and a closed output", [], "<&- >&-", b"", not_read),
        ("standard error closed", own, "2>&-", meant, b""),
        ("standard error and the input closed", [], "<&- 2>&-", b"", b""),
        ("standard error and the output closed", own, ">&- 2>&-", b"", b""),
        ("standard error and the output full", own, ">/dev/full 2>/dev/full", b"", b""),
        ("all closed", [], "<&- >&- 2>&-", b"", b""),
    )]


# ---- the runs of blockwords ----

def of_arguments(name, *arguments):
    """A run on arguments."""
    return Run("blockwords, " + name, [], "", *blocking_rules.output(arguments), arguments)


def shown(*arguments):
    """A run on arguments that are short enough to be its name."""
    return of_arguments("arguments %r" % list(arguments), *arguments)


def counted():
    """Runs on factors and words, each with each."""
    return [shown(b"%d" % k, b"%d" % count) for k in FACTORS_TRIED for count in WORDS_TRIED]


def spelled():
    """Runs on numbers with zeros before them; on numbers whose last byte is 3 or 2, and so are their last two, four or eight;
    and on long ones, which are 3 or 2 after zeros, or nines."""
    runs = [shown(*own.split()) for own in (b"03 2", b"3 02", b"003 0002", b"000 1", b"3 000", b"0255 1", b"3 0256")]
    for above in (256, 65_536, 2 ** 32, 2 ** 64):
        runs += [shown(b"%d" % (above + 3), b"2"), shown(b"3", b"%d" % (above + 2))]
    for length in LONG:
        runs += [of_arguments("3 in %d digits" % length, b"3".rjust(length, b"0"), b"2"),
                 of_arguments("2 in %d digits" % length, b"3", b"2".rjust(length, b"0")),
                 of_arguments("factors of %d digits" % length, b"9" * length, b"2"),
                 of_arguments("words of %d digits" % length, b"3", b"9" * length)]
    return runs


# Arguments that are no whole number: nothing; letters, signs, spaces, ends of lines and other bytes, alone, before, after and
# between digits; the two bytes beside the digits; the digits four and two of other scripts.
NO_NUMBERS = [
    b"", b"four", b"a", b"4a", b"a4", b"4a4", b"+4", b"-4", b"4+", b"4-", b"-", b"--", b"-0", b" ", b" 4", b"4 ", b"4 2", b"\t4",
    b"4\n", b"4\r", b"4/", b"/4", b"4:", b":4", b"4,", b"4.0", b"0x4", b"4_0", b"4;", b"\x01", b"\x7f", b"4\x80", b"\xb4",
    b"\xff", "\u0664".encode(), "\uff14".encode(), "\u00b2".encode(),
]


def faulty():
    """Runs on arguments that are not two whole numbers."""
    runs = [shown(*own.split()) for own in (b"", b"4", b"7", b"4 2 1", b"4 2 1 1", b"7 2 1", b"4 9 1", b"--help", b"4 2 x")]
    runs += [shown(b"4", b"2", b""), shown(b"", b"4", b"2"), shown(b"", b"")]
    runs += [shown(b"x", b"9"), shown(b"9", b"x"), shown(b"x", b"y")]
    for wrong in NO_NUMBERS:
        runs += [shown(wrong, b"2"), shown(b"4", wrong)]
    for length in LONG:
        runs += [of_arguments("a letter after %d digits" % (length - 1), b"0" * (length - 1) + b"x", b"2"),
                 of_arguments("a letter before %d digits" % (length - 1), b"4", b"x" + b"2" * (length - 1))]
    return runs


# Arguments of which there is a text, a long one, the line of a refusal with 3 and with 17, and no text.
FAILING = (b"4", b"2"), (b"5", b"3"), (b"6", b"2"), (b"4", b"0"), (b"4", b"x"), (b"4",)


def words_failing():
    """Runs with an input that is closed or holds something, of which nothing is read; with an output that is closed or full;
    with standard error closed or full; and with both."""
    runs = [shown(b"4", b"2")._replace(parts=[RULES_SHEET])]
    for own in (shown(*arguments) for arguments in FAILING):
        unwritten = own._replace(text=b"", error=own.error or WORDS_NOT_WRITTEN)
        runs += [own._replace(how=how) for how in ("<&-", "</", "</dev/null")]
        runs += [unwritten._replace(how=how) for how in (">&-", ">/dev/full", "<&- >&-")]
        runs += [own._replace(how=how, error=b"") for how in ("2>&-", "2>/dev/full", "<&- 2>&-")]
        runs += [unwritten._replace(how=how, error=b"") for how in (">&- 2>&-", ">/dev/full 2>/dev/full", "<&- >&- 2>&-")]
    return [run._replace(name="%s, %s" % (run.name, run.how or "an input")) for run in runs]


# ---- what is seen ----

def feed(process, parts, text):
    """Writes the parts to a program's input; a complaint if it has written something while the input could go on."""
    sent, complaint = 0, ""
    try:
        for part in parts:
            if isinstance(part, bytes):
                process.stdin.write(part)
                sent += len(part)
                continue
            time.sleep(part)
            if sent <= MOST and os.fstat(text.fileno()).st_size:
                complaint = "writes before the input ends"
        process.stdin.close()
    except BrokenPipeError:
        pass  # it has ended, or wants no more
    return complaint


def ending(status, seconds):
    """A complaint if a program had to be ended or was ended by a signal."""
    if seconds >= TIME_LIMIT:
        return "not ended after %d seconds" % TIME_LIMIT
    return "ended by signal %d" % -status if status < 0 else ""


def seen(program, run):
    """What a program writes in a run to standard output and standard error, and complaints about how it went."""
    with tempfile.TemporaryFile() as text, tempfile.TemporaryFile() as error:
        began = time.monotonic()
        process = subprocess.Popen(["sh", "-c", 'exec "$0" "$@" ' + run.how, program, *run.arguments], bufsize=0,
                                   stdin=subprocess.PIPE, stdout=text, stderr=error)
        limit = Timer(TIME_LIMIT, process.kill)
        limit.start()
        early = feed(process, run.parts, text)
        status = process.wait()
        limit.cancel()
        text.seek(0)
        error.seek(0)
        return text.read(), error.read(), [early, ending(status, time.monotonic() - began)]


def complaints_of(program, run):
    """How a run differs from what is meant."""
    text, error, complaints = seen(program, run)
    complaints.append(difference(run.text, text))
    if error != run.error:
        complaints.append("standard error: meant %r, found %r" % (run.error, error))
    return [complaint for complaint in complaints if complaint]


def part_taken(program, run, least):
    """How a run differs whose output takes 4,096 bytes of a longer text: the beginning of the text must be there, so many bytes
    of it or more, and the run's line on standard error."""
    out, end = os.pipe()
    fcntl.fcntl(end, SET_PIPE_SIZE, PIPE)
    os.set_blocking(end, False)
    with open(out, "rb") as output:
        try:
            found = subprocess.run([program, *run.arguments], input=b"".join(run.parts), stdout=end, stderr=subprocess.PIPE,
                                   timeout=TIME_LIMIT)
        except subprocess.TimeoutExpired:
            return [ending(0, TIME_LIMIT)]
        finally:
            os.close(end)
        taken = output.read()
    complaints = [difference(run.text[:max(least, len(taken))], taken), ending(found.returncode, 0)]
    if found.stderr != run.error:
        complaints.append("standard error: meant %r, found %r" % (run.error, found.stderr))
    return [complaint for complaint in complaints if complaint]


# ---- the command ----

def reader_runs(program, reader, numbers, contents, others):
    """The runs of a program that reads a sheet: name and complaints of each. The contents are those of a longest sheet, of which
    there is a table; others are runs beside those that every such program has."""
    longest = sheet_bytes.write(*contents)
    whole = of_sheet(reader, "the longest", longest)
    if len(longest) != MOST or not whole.text.startswith(b"over "):
        sys.exit("the longest sheet of %s is not lawful or not of %d bytes" % (reader.name.decode(), MOST))
    for run in sized(reader, contents) + stored(reader) + others + parted(reader, numbers, longest) + failing(reader):
        yield run.name, complaints_of(program, run)
    part = whole._replace(name=whole.name + ", an output that takes a part", error=NOT_WRITTEN % reader.name)
    yield part.name, part_taken(program, part, PIPE)


def factab_runs(program):
    """All runs of factab but those of cases/compare.py."""
    numbers = Numbers(SEED)
    plans = [Plan(levels, k) for levels, most in MOST_FACTORS.items() for k in (1, most)]
    plans += [plan for most in MOST_REPEATED.values() for plan in most] + THREE_BLOCKED
    about_limits = [run for plan in plans for run in limited(FACTAB, plan)]
    return reader_runs(program, FACTAB, numbers, compare.longest(numbers), about_limits)


# Plans of screentab for readings about the limits: whole, three levels, D = ABC with sign 1, each run made twice, C = AB.
SCREENED = [Plan(2, 1), Plan(3, 1), Plan(2, 3, ((7, 1),)), Plan(2, 3, ((7, 0),), (3,), 2), Plan(2, 2, ((3, 0),))]


def screentab_runs(program):
    """All runs of screentab but those of cases/screen_cases.py."""
    numbers = Numbers(screen_cases.SEED)
    contents = screen_cases.longest(numbers)
    others = [of_sheet(SCREENTAB, name, sheet_bytes.write(*change(contents)))
              for name, change in screen_cases.LONGEST_REFUSED.items()]
    others += [run for plan in SCREENED for run in limited(SCREENTAB, plan)]
    return reader_runs(program, SCREENTAB, numbers, contents, others)


def blockwords_runs(program):
    """All runs of blockwords: name and complaints of each. Where its output takes a part, the line that does not fit may lack
    as a whole."""
    for run in counted() + spelled() + faulty() + words_failing():
        yield run.name, complaints_of(program, run)
    whole = shown(b"5", b"3")._replace(error=WORDS_NOT_WRITTEN)
    longest = max(len(line) for line in whole.text.splitlines(True))
    yield whole.name + ", an output that takes a part", part_taken(program, whole, PIPE - longest + 1)


def tried(runs):
    """The number of runs, and of those that differ from what is meant, each of which is printed."""
    count, wrong = 0, 0
    for name, complaints in runs:
        count += 1
        if complaints:
            wrong += 1
            print("%s: %s" % (name, "; ".join(complaints)), flush=True)
    return count, wrong


def all_tried(factab, blockwords, screentab):
    """Makes all runs of the programs, and says of each how many there were and how many differ; whether any does."""
    found = {}
    count, wrong = tried(factab_runs(factab))
    differences, _ = compare.compare(factab, COUNT, SEED)
    found["factab"] = count + COUNT, wrong + differences
    found["blockwords"] = tried(blockwords_runs(blockwords))
    count, wrong = tried(screentab_runs(screentab))
    differences, _ = compare.compare(screentab, screen_cases.COUNT, screen_cases.SEED, screen_cases.made, screening_rules.text)
    found["screentab"] = count + screen_cases.COUNT, wrong + differences
    for name, (count, wrong) in found.items():
        print("%s: %d runs, %d differences" % (name, count, wrong))
    return any(wrong for _, wrong in found.values())


if __name__ == "__main__":
    if len(sys.argv) != 4:
        sys.exit("program.py FACTAB BLOCKWORDS SCREENTAB")
    try:
        wrong = all_tried(*sys.argv[1:])
    except OSError as why:
        sys.exit(str(why))
    sys.exit(1 if wrong else 0)
