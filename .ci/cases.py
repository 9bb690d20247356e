# Runs of the command tools/ftab, with what must be seen of each. .ci/command.py tries them; it and the files of cases beside
# it share what is here.
#
# A case is one run of the command, as a user starts it: a process of its own in a folder of its own, which has the case's
# files and no others. Seen are its exit status, what it writes to standard output and to standard error, and the files that
# are in the folder after it. Whatever the case, no run may end by a signal or write a traceback, and no file may be there
# after it that was not there before and is not named in `written`.
#
# To start Python and to import the modules takes several times as long as most runs. So this is done once: a process that
# has imported them parts in two for each run, and the new one is the command, with its own folder, files and exit status.
# The first case of each part is started from nothing, and so is every case with redirections or with variables of the
# environment.
#
# Defined here:
#   Case              a run, and what must be seen of it
#   has               an output that holds some words
#   COMMAND           the path of the command
#   Seen              what is seen of a run
#   started, parted   a run from nothing, and one of a process that has imported the modules
#   complaints_of     how a run differs from what is meant
#   tried             makes the runs of all cases, and prints the differences

import os
import runpy
import signal
import subprocess
import sys
import tempfile
import traceback
from collections import namedtuple
from importlib import import_module
from pathlib import Path

ROOT = Path(__file__).resolve().parent.parent
COMMAND = ROOT / "tools" / "ftab"
TIME_LIMIT = 20
AT_A_TIME = 2
MOST_STATUS = 255

# name         what is tried; the first word is the part of the command
# arguments    a list of the command's arguments; paths are from the run's folder
# files        what is in the folder: a dict of bytes by path
# stdin        the bytes of standard input
# status       the exit status
# output       the bytes of standard output, or a function that says of them whether they are as meant
# error        words, each of which must stand in standard error; where there are none, nothing may stand there
# written      files that the run writes or changes: by path their bytes, or a function as of output
# how          what the shell redirects, such as >&- or >/dev/full
# environment  variables of the environment besides
Case = namedtuple("Case", "name arguments files stdin status output error written how environment",
                  defaults=({}, b"", 0, b"", [], {}, "", {}))

# What is seen of a run. The status is below 0 where a signal has ended it; files are those in its folder after it.
Seen = namedtuple("Seen", "status output error files")


def has(*words):
    """An output in which all of some words stand, in their order."""
    def holds(content):
        """Whether they do."""
        at = 0
        for word in (word.encode() for word in words):
            at = content.find(word, at) + len(word)
            if at < len(word):
                return False
        return True
    return holds


# ---- runs ----

def started(case, folder):
    """Status, output and error of a run from nothing."""
    found = subprocess.run(["sh", "-c", 'exec "$0" "$@" ' + case.how, sys.executable, "-B", str(COMMAND), *case.arguments],
                           cwd=folder, input=case.stdin, stdout=subprocess.PIPE, stderr=subprocess.PIPE,
                           env={**os.environ, **case.environment}, timeout=TIME_LIMIT)
    return found.returncode, found.stdout, found.stderr


def become_command(case, folder, streams):
    """Makes this process the command, and ends it as Python would."""
    os.chdir(folder)
    for number, stream in enumerate(streams):
        os.dup2(stream.fileno(), number)
    signal.alarm(TIME_LIMIT)
    sys.argv = [str(COMMAND), *case.arguments]
    status = 0
    try:
        runpy.run_path(str(COMMAND), run_name="__main__")
    except SystemExit as end:
        status = end.code
    except BaseException:
        os.write(2, traceback.format_exc().encode())
        status = 1
    os._exit(status or 0)


def parted(case, folder):
    """Status, output and error of a run of a process that has imported the modules."""
    with tempfile.TemporaryFile() as given, tempfile.TemporaryFile() as output, tempfile.TemporaryFile() as error:
        given.write(case.stdin)
        given.seek(0)
        child = os.fork()
        if child == 0:
            become_command(case, folder, (given, output, error))
        status = os.waitstatus_to_exitcode(os.waitpid(child, 0)[1])
        output.seek(0)
        error.seek(0)
        return status, output.read(), error.read()


def import_parts():
    """Imports the modules of the command, which runs from nothing do each for themselves."""
    sys.path[:0] = [str(ROOT / "tools"), str(ROOT)]
    command = import_module("ftab_parts.command")
    for module, _ in command.PARTS.values():
        import_module("ftab_parts." + module)


def files_in(folder):
    """The files below a folder, by their paths from it."""
    return {path.relative_to(folder).as_posix(): path.read_bytes() for path in folder.rglob("*") if path.is_file()}


def seen(case, run):
    """What is seen of the run of a case, in one of the two ways."""
    with tempfile.TemporaryDirectory() as name:
        folder = Path(name)
        for path, content in case.files.items():
            (folder / path).parent.mkdir(parents=True, exist_ok=True)
            (folder / path).write_bytes(content)
        status, output, error = run(case, folder)
        return Seen(status, output, error.decode(errors="replace"), files_in(folder))


# ---- complaints ----

def as_meant(meant, content):
    """Whether some bytes are those that are meant, or those of which a function says so."""
    return meant(content) if callable(meant) else content == meant


def file_complaints(case, files):
    """How the files after a run differ from those before it and those that it writes."""
    complaints = ["%s is not written" % path for path in case.written if path not in files]
    complaints += ["%s is gone" % path for path in case.files if path not in files]
    for path, content in files.items():
        meant = case.written.get(path, case.files.get(path))
        if meant is None:
            complaints.append("%s is written: %r" % (path, content[:200]))
        elif not as_meant(meant, content):
            complaints.append("%s holds %r" % (path, content[:400]))
    return complaints


def complaints_of(case, run):
    """How the run of a case differs from what is meant."""
    try:
        found = seen(case, run)
    except subprocess.TimeoutExpired:
        return ["not ended after %d seconds" % TIME_LIMIT]
    complaints = [] if found.status == case.status else ["exit status %d, meant %d" % (found.status, case.status)]
    complaints += [] if as_meant(case.output, found.output) else ["standard output: %r" % found.output[:1000]]
    missing = [words for words in case.error if words not in found.error]
    if missing or "Traceback" in found.error or found.error and not case.error:
        complaints.append("standard error: %r, meant %r" % (found.error[:1000], missing or "nothing else"))
    return complaints + file_complaints(case, found.files)


# ---- all cases ----

def ways_of(cases):
    """For each case the way in which it is run."""
    parts = [case.name.split(",")[0] for case in cases]
    return [started if case.how or case.environment or parts.index(part) == place else parted
            for place, (case, part) in enumerate(zip(cases, parts))]


def wrong_of(runs):
    """The number of cases that differ from what is meant, each of which is printed; runs are cases and ways."""
    wrong = 0
    for case, run in runs:
        complaints = complaints_of(case, run)
        if complaints:
            wrong += 1
            print("%s: %s" % (case.name, "; ".join(complaints)), flush=True)
    return wrong


def share(runs):
    """Has another process make some runs, whose exit status is the number of those that differ; its number."""
    sys.stdout.flush()
    child = os.fork()
    if child == 0:
        try:
            os._exit(min(wrong_of(runs), MOST_STATUS))
        except BaseException:
            traceback.print_exc()
            sys.stderr.flush()
            os._exit(MOST_STATUS)
    return child


def tried(cases):
    """Makes the runs of all cases, several at a time; the number of cases that differ from what is meant, each of which is
    printed."""
    import_parts()
    runs = list(zip(cases, ways_of(cases)))
    children = [share(runs[first::AT_A_TIME]) for first in range(AT_A_TIME)]
    return sum(abs(os.waitstatus_to_exitcode(os.waitpid(child, 0)[1])) for child in children)
