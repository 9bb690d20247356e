# A stage of the gate: runs the command tools/ftab as a user does, and compares what it writes, its messages and its exit
# status with what is meant. As a command, after the programs are linked:
#
#   python3 .ci/command.py
#
# Every difference is printed; the last line says how many runs there were and how many differ, and the exit is 1 if one
# does.
#
# The cases are in .ci/command_lines.py, which has how the command is used and its parts make, list, screen and recover; and
# in .ci/command_tables.py, which has its parts show, plot and check, and these run the program factab. What a case is, and
# how it is run, is in .ci/cases.py. Here are the runs for which a redirection does not do: standard error is a terminal, or
# nobody reads the output.
#
# Defined here:
#   on_terminal     complaints about the line of progress
#   not_read        complaints about runs whose output nobody reads
#   tried_all       makes all runs, and says how many differ

import os
import pty
import subprocess
import sys
import tempfile
from pathlib import Path

import cases
from command_lines import CASES as LINES, FOUR, SHEET

if (Path(__file__).parent / "command_tables.py").exists():
    from command_tables import CASES as TABLES
else:
    TABLES = []

# What takes a line of progress away; the files of a run, and what is on the terminal then.
AWAY = b"\r\x1b[K"
PROGRESS = [b"\r%d of 3 files done" % done for done in range(3)]
ON_TERMINAL = [
    (["a.csv"], 0, b""),
    (["a.csv", "none.csv", "b.csv"], 1, b"".join([
        *PROGRESS[:2], AWAY, b"ftab: none.csv: it cannot be read: No such file or directory\r\n", PROGRESS[2], AWAY])),
]

NOT_READ = [["list", "a.sheet"], ["make", "a.csv", "-o", "-"], ["--help"]]


def started(arguments, folder, **others):
    """The command, started with some arguments in a folder, which then has two files of lines and a sheet."""
    for name, content in ("a.csv", FOUR), ("b.csv", FOUR), ("a.sheet", SHEET):
        (Path(folder) / name).write_bytes(content)
    return subprocess.Popen([sys.executable, "-B", str(cases.COMMAND), *arguments], cwd=folder, **others)


def read_all(terminal):
    """All that is written to a terminal until nobody has it open any more, which is an error of the system."""
    found = b""
    try:
        while True:
            found += os.read(terminal, 65_536)
    except OSError:
        return found
    finally:
        os.close(terminal)


def on_terminal(names, status, meant):
    """Complaints about a run whose standard error is a terminal: with several files there is a line of progress, which is
    gone where a message comes and in the end; with one there is none."""
    terminal, end = pty.openpty()
    with tempfile.TemporaryDirectory() as folder:
        process = started(["make", *names], folder, stderr=end)
        os.close(end)
        found = read_all(terminal)
        ended = process.wait(cases.TIME_LIMIT)
    return [] if (found, ended) == (meant, status) else ["make, %d files on a terminal: %r, %d" % (len(names), found, ended)]


def not_read(arguments):
    """Complaints about a run whose output is a pipe that nobody reads: a message and exit status 1."""
    out, end = os.pipe()
    os.close(out)
    with tempfile.TemporaryDirectory() as folder:
        process = started(arguments, folder, stdout=end, stderr=subprocess.PIPE)
        os.close(end)
        _, error = process.communicate(timeout=cases.TIME_LIMIT)
    if (error, process.returncode) == (b"ftab: the output cannot be written\n", 1):
        return []
    return ["%s, an output that nobody reads: %r, %d" % (arguments[0], error, process.returncode)]


def tried_all():
    """Makes all runs, and says how many there were and how many differ; whether any does."""
    wrong = cases.tried(LINES + TABLES)
    others = [complaint for run in ON_TERMINAL for complaint in on_terminal(*run)]
    others += [complaint for arguments in NOT_READ for complaint in not_read(arguments)]
    for complaint in others:
        print(complaint)
    count = len(LINES) + len(TABLES) + len(ON_TERMINAL) + len(NOT_READ)
    print("ftab: %d runs, %d differences" % (count, wrong + len(others)))
    return bool(wrong or others)


if __name__ == "__main__":
    sys.exit(1 if tried_all() else 0)
