# The command ftab: its arguments, and the parts to which it hands over. Only the part that is asked for is imported, so that
# the command starts quickly.
#
# Each part is a module with two functions: `add` adds its arguments to a parser, `run` does the work and gives the exit
# status. To what the arguments say `version` is added, the version of the product.
#
# Defined here:
#   PARTS     the parts: module, and what it does
#   Parser    arguments whose messages never end in a traceback
#   main      the command

import argparse
from importlib import import_module

from ftab_parts import files

DONE, FAILED, WRONG_USAGE, INTERRUPTED = 0, 1, 2, 130

PARTS = {
    "make": ("make", "sheets of lines of cells, such as a spreadsheet saves them"),
    "list": ("listing", "the lines of sheets again, with the plan in words"),
    "show": ("show", "tables for reading, with sums of squares, ratios and effects"),
    "plot": ("plot", "a half-normal plot of the effects, as SVG"),
    "check": ("check", "whether a printed table belongs to a sheet"),
    "screen": ("screen", "what screentab will answer to sheets, and why"),
    "recover": ("recover", "the lines of the runs that have some totals"),
}

ABOUT = """Exact analysis-of-variance tables for factorial experiments: from lines of
cells, such as a spreadsheet saves them, to tables that one can read."""

EPILOG = """parts:
%s

`ftab PART --help` says what a part does. A file named - is standard input.
What the program factab prints is proved. What ftab adds to it is not, and the
help of each part says so.

Exit status: 0 done; 1 something is refused or not understood, and the cause is
told on standard error; 2 wrong usage.""" % (
    "\n".join("  %-9s%s" % (name, what) for name, (_, what) in PARTS.items()))


class Help(argparse.Action):
    """The argument --help."""

    def __call__(self, parser, *others):
        """Writes the help and ends."""
        files.put(parser.format_help().encode())
        parser.exit(DONE)


class Version(argparse.Action):
    """The argument --version."""

    def __call__(self, parser, *others):
        """Writes name and version and ends."""
        files.put(("ftab %s\n" % self.const).encode())
        parser.exit(DONE)


class Parser(argparse.ArgumentParser):
    """Arguments whose help and messages are written by files.py, and so never end in a traceback."""

    def __init__(self, name):
        """The arguments of a command or of its part, with --help."""
        super().__init__(prog=name, add_help=False, allow_abbrev=False, formatter_class=argparse.RawDescriptionHelpFormatter)
        self.add_argument("-h", "--help", action=Help, nargs=0, help="write this help and end")

    def error(self, message):
        """Ends with a message for wrong usage."""
        files.tell("%s\n%s: %s" % (self.format_usage().rstrip(), self.prog, message))
        raise SystemExit(WRONG_USAGE)


def whole_command(version):
    """The arguments of the command where no part is named first."""
    parser = Parser("ftab")
    parser.description, parser.epilog = ABOUT, EPILOG
    parser.add_argument("--version", action=Version, nargs=0, const=version, help="write the version and end")
    parser.add_argument("part", metavar="PART", choices=PARTS, help="what is to be done")
    parser.usage = "ftab PART [arguments of the part], ftab --help or ftab --version"
    return parser


def run(version, arguments):
    """Hands over to the part that is named; the exit status."""
    if not arguments or arguments[0] not in PARTS:
        parser = whole_command(version)
        parser.parse_args(arguments)
        parser.error("a part is to be named first")
    part = import_module("ftab_parts." + PARTS[arguments[0]][0])
    parser = Parser("ftab " + arguments[0])
    part.add(parser)
    found = parser.parse_args(arguments[1:])
    found.version = version
    try:
        return part.run(found)
    except files.Usage as why:
        return parser.error(str(why))


def main(version, arguments):
    """The command; the exit status."""
    try:
        return run(version, arguments)
    except (files.Problem, OSError) as why:
        files.tell("ftab: %s" % why)
        return FAILED
    except KeyboardInterrupt:
        return INTERRUPTED
