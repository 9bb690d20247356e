# What the parts of the command ftab read and write: files, standard input, standard output, and messages.
#
# The path - is standard input where something is read, and standard output where something is written. Standard output and
# standard error are written without buffers in between: so nothing is left to be written when the command ends, and where
# they are closed or full Python has nothing to say.
#
# Defined here:
#   Problem                  why nothing is made of a file, in words, with its line if it has one
#   Usage                    why the command was not used as it is meant, in words
#   tell, warn               a line on standard error; a warning about a file
#   name_of                  the name of a file in messages
#   read_bytes, read_text    the bytes and the text of a file
#   text_of                  the text of some bytes
#   put, put_to, put_at      writes some bytes to standard output, to a file, or to either
#   each                     works on each of some files, whatever becomes of the others
#   add_places, places       the arguments that say where something is written, and the place for each file

import os
import sys

STANDARD = "-"
BESIDE = "beside"
MOST_BYTES = 10_000_000
TWO_BYTE_MARKS = b"\xff\xfe", b"\xfe\xff"


class Problem(Exception):
    """Why nothing is made of a file, in words, with its line if it has one."""


class Usage(Exception):
    """Why the command was not used as it is meant, in words."""


# ---- messages ----

def to_error(text):
    """Writes to standard error; nothing where that is closed or full."""
    try:
        if sys.stderr is not None:
            os.write(2, text.encode("utf-8", "surrogateescape"))
    except OSError:
        pass


class Progress:
    """The line of progress, and whether it is shown."""

    shown = False


def progress(done, count):
    """Says how many of several files are done, if standard error is a terminal."""
    if count > 1 and os.isatty(2):
        to_error("\r%d of %d files done" % (done, count))
        Progress.shown = True


def clear():
    """Takes the line of progress away."""
    if Progress.shown:
        to_error("\r\033[K")
        Progress.shown = False


def tell(words):
    """Writes a line to standard error."""
    clear()
    to_error(words + "\n")


def name_of(path):
    """The name of a file in messages."""
    return "standard input" if path == STANDARD else path


def warn(path, words):
    """Writes a warning about a file."""
    tell("ftab: %s: warning: %s" % (name_of(path), words))


# ---- reading ----

def read_from(path):
    """The first bytes of a file, one more than there may be."""
    if path != STANDARD:
        with open(path, "rb") as file:
            return file.read(MOST_BYTES + 1)
    if sys.stdin is None:
        raise Problem("it is closed")
    return sys.stdin.buffer.read(MOST_BYTES + 1)


def read_bytes(path):
    """The bytes of a file."""
    try:
        content = read_from(path)
    except OSError as why:
        raise Problem("it cannot be read: %s" % why.strerror) from None
    if len(content) > MOST_BYTES:
        raise Problem("it has more than {:,} bytes".format(MOST_BYTES))
    return content


def line_at(content, place):
    """The number of the line in which a place of some bytes is."""
    return content[:place].count(b"\n") + 1


def text_of(content):
    """The text of some bytes, each line ending with a newline alone."""
    if content.startswith(TWO_BYTE_MARKS):
        raise Problem("it is in UTF-16, and UTF-8 is wanted")
    content = content[3 * content.startswith(b"\xef\xbb\xbf"):].replace(b"\r\n", b"\n").replace(b"\r", b"\n")
    if content[:1] == b"\1":
        raise Problem("it is a sheet, and a text is wanted")
    if content.startswith(b"PK\3\4"):
        raise Problem("it is a spreadsheet's own file; save it as CSV")
    if b"\0" in content:
        raise Problem("line %d: there is a zero byte, and text is wanted" % line_at(content, content.index(b"\0")))
    try:
        return content.decode()
    except UnicodeDecodeError as why:
        raise Problem("line %d: the byte %d is no UTF-8; save the file as CSV in UTF-8" % (
            line_at(content, why.start), content[why.start])) from None


def read_text(path):
    """The text of a file."""
    return text_of(read_bytes(path))


# ---- writing ----

def put(content):
    """Writes some bytes to standard output, or ends the command with a message where that is closed or full."""
    clear()
    rest = memoryview(content)
    try:
        if sys.stdout is None:
            raise OSError
        while rest:
            rest = rest[os.write(1, rest):]
    except OSError:
        tell("ftab: the output cannot be written")
        raise SystemExit(1) from None


def put_whole(path, content):
    """Writes a file whole or not at all: first another beside it, which then takes its name."""
    folder = os.path.dirname(path)
    other = os.path.join(folder, ".ftab-" + os.urandom(4).hex())
    try:
        with open(other, "xb") as file:
            file.write(content)
        os.replace(other, path)
    except BaseException:
        if os.path.exists(other):
            os.remove(other)
        raise


def put_to(path, content):
    """Writes a file whole or not at all. What is there and is no file with a name, such as a device or a pipe, stays what it
    is."""
    real = os.path.realpath(path)
    try:
        if os.path.exists(path) and not (os.path.isfile(path) and os.path.exists(real)):
            with open(path, "wb") as file:
                file.write(content)
        else:
            put_whole(real, content)
    except OSError as why:
        raise Problem("%s cannot be written: %s" % (path, why.strerror)) from None


def put_at(place, content):
    """Writes some bytes to a place: standard output or a file."""
    if place == STANDARD:
        put(content)
    else:
        put_to(place, content)


# ---- several files ----

def each(paths, work):
    """Works on each of some files; a problem of one is told, and the others go on. The exit status is 0, or 1 where there
    was a problem."""
    status = 0
    for done, path in enumerate(paths):
        progress(done, len(paths))
        try:
            work(path)
        except Problem as why:
            tell("ftab: %s: %s" % (name_of(path), why))
            status = 1
    clear()
    return status


def add_places(parser, what):
    """Adds the arguments that say where something is written."""
    either = parser.add_mutually_exclusive_group()
    either.add_argument("-o", metavar="OUT", dest="out", help="write %s to the file OUT, - for standard output; for one "
                        "FILE alone" % what)
    either.add_argument("--into", metavar="FOLDER", help="write %s to FOLDER, under the name of its FILE" % what)


def make_folder(folder):
    """Makes the folder into which files are to be written, where it is not there. Where it cannot be made, each file that is
    written says so."""
    try:
        if folder is not None:
            os.makedirs(folder, exist_ok=True)
    except OSError:
        pass


def place_of(path, arguments, ending, otherwise):
    """Where the arguments say that what is made of a file is written."""
    if arguments.out is not None:
        return arguments.out
    if arguments.into is not None:
        return os.path.join(arguments.into, os.path.splitext(os.path.basename(path))[0] + ending)
    return STANDARD if STANDARD in (path, otherwise) else os.path.splitext(path)[0] + ending


def places(arguments, ending, otherwise):
    """For each file the place where what is made of it is written; without -o and --into that is `otherwise`, - or BESIDE.
    Raises Usage where something would be written over a file that is read, or over another that is made."""
    paths, read = arguments.files, {os.path.realpath(path) for path in arguments.files if path != STANDARD}
    if arguments.out is not None and len(paths) > 1:
        raise Usage("-o is for one file, and here are %d" % len(paths))
    if arguments.into is not None and STANDARD in paths:
        raise Usage("--into is for files with a name, and standard input has none")
    found, made = {}, {}
    make_folder(arguments.into)
    for path in paths:
        place = place_of(path, arguments, ending, otherwise)
        real = os.path.realpath(place)
        if path in found:
            raise Usage("%s is named twice" % name_of(path))
        if place != STANDARD and real in made:
            raise Usage("%s and %s would both be written to %s" % (made[real], path, place))
        if place != STANDARD and real in read:
            raise Usage("%s is read, and would be written over" % place)
        found[path], made[real] = place, path
    return found
