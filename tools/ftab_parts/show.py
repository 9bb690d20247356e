# The part `show` of the command: the table of a sheet for reading, as text, CSV, JSON or LaTeX. What is shown is formed in
# analysis.py, and written by a file for each format or two.
#
# Defined here:
#   FORMATS     the formats: the file that writes them, and the ending of what is written
#   joined      several tables in one text
#   add, run    the arguments of the part, and the part

from importlib import import_module

from ftab_parts import files
from ftab_parts.analysis import analysis_of

# A format is the name of a function of its file, too.
FORMATS = {
    "text": ("columns", ".table.txt"),
    "csv": ("records", ".table.csv"),
    "json": ("records", ".table.json"),
    "latex": ("latex", ".table.tex"),
}

# Formats in which several tables make one text.
TOGETHER = ("csv", "json")

ABOUT = """Shows the table of FILE, a sheet or lines of cells: sums of squares, mean squares
and ratios to the error's mean square; below it the effects, high minus low, or at
three levels the mean of the readings at each level.

Labels, degrees, numerators, denominator, kinds and check numbers are the text
that factab prints, which is proved. Sums of squares, mean squares, ratios, effects
and level means are formed by ftab from it or from the readings: exact, or rounded
where it is said, and not proved. The text of factab is compared with the
reference program, and nothing is shown where they differ. JSON holds it whole."""

ENDING = """With --into FOLDER the table of NAME.csv or NAME.sheet is NAME.table.txt there, or
with another format .table.csv, .table.json or .table.tex. Without it all tables
go to standard output, one after the other; in CSV with one head, in JSON as an
array.

Exit status: 0 done; 1 a file is not understood or its sheet is refused, or factab
cannot be run; 2 wrong usage. The other files are shown all the same."""


def add(parser):
    """The arguments of the part."""
    parser.description, parser.epilog = ABOUT, ENDING
    parser.add_argument("files", nargs="+", metavar="FILE", help="a file of lines or a sheet, - for standard input")
    parser.add_argument("--format", choices=FORMATS, default="text", help="how it is written; without this as text")
    files.add_places(parser, "the table")


def joined(form, texts):
    """Several tables in one text: in CSV with one head, in JSON as an array."""
    if form == "json":
        return "[\n%s]\n" % ",\n".join(text.rstrip("\n") for text in texts) if texts else "[]\n"
    return "".join(texts[:1] + [text.split("\n", 1)[1] for text in texts[1:]])


def run(arguments):
    """Writes the tables; the exit status."""
    module, ending = FORMATS[arguments.format]
    write = getattr(import_module("ftab_parts." + module), arguments.format)
    places = files.places(arguments, ending, files.STANDARD)
    together = len(places) > 1 and arguments.into is None and arguments.format in TOGETHER
    texts = []

    def work(path):
        """Writes the table of a file, or keeps it for the end."""
        texts.append(write(analysis_of(path), arguments.version))
        if not together:
            files.put_at(places[path], texts.pop().encode(errors="replace"))
    status = files.each(arguments.files, work)
    if together:
        files.put(joined(arguments.format, texts).encode(errors="replace"))
    return status
