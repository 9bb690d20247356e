# A stage of the gate: builds the library for C and Python and tries it as its users would. No contract can see across the
# border between two languages; so what is declared on either side is compared, and the calls are made.
#
#   python3 .ci/library.py
#
#   build       tools/library
#   header      include/lithgorn.h by itself, as C of three standards and as C++, without a warning
#   agreement   the calls of the header, their arguments and answers are those of the crate lithgorn_c, of the binding, and
#               of the symbols of both libraries; its numbers and version are those of the binding; a document names each
#               call; the functions of lithgorn_c are those of lithgorn, with the same arguments and word for word the same
#               clauses
#   examples    examples/use.c, use.rs and use.py, built as docs/CALLS.md says, print examples/use.txt
#   binding     the examples in bindings/python/lithgorn.py
#   calls       those of reference/cases/library_cases.py, through the shared library, from a seed that is always the same
#   install     tools/install into a folder, from which the programs, the library and the binding are then used; and with
#               files missing
#
# Every complaint is printed, then how many calls of each kind were compared; the exit is 1 if there is a complaint.
#
# Defined here:
#   ran, failed                           runs a command; the complaint that it failed
#   header_calls, crate_calls             the calls of the header and of the crate: answer, and types of the arguments
#   stated                                what the functions of a crate state
#   header_numbers                        the numbers of the header, by name
#   check_header .. check_install         complaints, by the list above
#   complaints                            all of them

import doctest
import os
import re
import subprocess
import sys
import tempfile
from concurrent.futures import ThreadPoolExecutor
from ctypes import POINTER, c_char_p, c_double, c_int32, c_int64, c_size_t, c_uint8, c_uint16, c_uint64
from pathlib import Path

ROOT = Path(__file__).resolve().parent.parent
sys.path[:0] = [str(ROOT), str(ROOT / "bindings" / "python")]

import lithgorn

from reference.cases import library_cases
from reference.rules import text as text_rules

ARCHIVE, SHARED = ROOT / "target" / "staticlib" / "liblithgorn.a", ROOT / "target" / "lib" / "liblithgorn.so"
HEADER, SHEET = ROOT / "include" / "lithgorn.h", ROOT / "examples" / "sixteen_runs.sheet"
TIME_LIMIT = 600


def ran(*command, **how):
    """What is seen of a command: its exit status, and what it writes to standard output and to standard error."""
    options = {"cwd": ROOT, "timeout": TIME_LIMIT, "capture_output": True, **how}
    return subprocess.run([str(part) for part in command], **options)


def failed(what, found):
    """The complaint that a command failed, with the end of what it wrote; nothing where it did not."""
    if found.returncode == 0:
        return []
    written = (found.stdout + found.stderr).decode(errors="replace").strip()
    return ["%s: exit status %d\n%s" % (what, found.returncode, written[-1000:])]


# ---- the header by itself ----

STRICT = ("-pedantic", "-Wall", "-Wextra", "-Werror", "-fsyntax-only")
COMPILERS = [("gcc", "-std=c89", "-x", "c"), ("gcc", "-std=c99", "-x", "c"), ("gcc", "-std=c11", "-x", "c"),
             ("g++", "-std=c++98", "-x", "c++"), ("g++", "-std=c++17", "-x", "c++")]


def check_header():
    """Compilers that do not take the header alone, or warn of it."""
    return [complaint for command in COMPILERS
            for complaint in failed("include/lithgorn.h, " + " ".join(command[:2]), ran(*command, *STRICT, HEADER))]


# ---- agreement ----

SCALARS = {"u8": "uint8_t", "u16": "uint16_t", "u64": "uint64_t", "i32": "int32_t", "i64": "int64_t", "usize": "size_t",
           "f64": "double"}
C_TYPES = {"uint8_t": c_uint8, "uint16_t": c_uint16, "uint64_t": c_uint64, "int32_t": c_int32, "int64_t": c_int64,
           "size_t": c_size_t, "double": c_double}


def header_text():
    """The header without its comments."""
    return re.sub(r"(?s)/\*.*?\*/", "", HEADER.read_text())


def c_type(argument):
    """The type of an argument of the header; an array is a pointer."""
    kind, pointer, _, array = re.fullmatch(r"((?:const )?\w+) (\*?)(\w+)(\[\w+\])?", argument).groups()
    return kind + (" *" if pointer or array else "")


def header_calls():
    """The calls of the header: for each its answer, and the types of its arguments."""
    text = header_text().replace("LITHGORN_RESTRICT ", "")
    found = re.findall(r"(?m)^(\w+) (\w+)\(([^)]*)\);", text)
    return {name: (answer, [c_type(" ".join(argument.split())) for argument in arguments.split(",")])
            for answer, name, arguments in found}


def rattle_types(kind):
    """The types that an argument of the crate has in C: of a slice two, and of an array or a place a pointer."""
    lent, mutable, own, length = re.fullmatch(r"(&)?(mut )?\[?(\w+)(; \w+)?\]?", kind).groups()
    if not lent:
        return [SCALARS[own]]
    pointer = ("" if mutable else "const ") + SCALARS[own] + " *"
    return [pointer, "size_t"] if kind.endswith("]") and not length else [pointer]


def sources(crate):
    """The sources of a crate."""
    return "".join(path.read_text() for path in sorted((ROOT / "crates" / crate / "src").glob("*.rt")))


def crate_calls():
    """The same of the crate's sources, as C sees them."""
    text = sources("lithgorn_c")
    found = re.findall(r'pub extern "C" fn (\w+)\(([^)]*)\) -> (\w+)', text)
    return {name: (SCALARS[answer], [own for argument in arguments.split(",") if argument.strip()
                                     for own in rattle_types(argument.split(":")[1].strip())])
            for name, arguments, answer in found}


def stated(crate):
    """What the functions of a crate state, by their names: arguments, answer and clauses, white space aside."""
    found = re.findall(r'(?ms)^pub (?:extern "C" )?fn (\w+)(\(.*?)^\{', sources(crate))
    return {name: re.sub(r",(?=\))", "", "".join(text.split())) for name, text in found}


def check_stated():
    """Functions that lithgorn and lithgorn_c do not both have, or with other clauses."""
    own, handed_on = stated("lithgorn"), stated("lithgorn_c")
    complaints = [] if own else ["lithgorn has no functions"]
    return complaints + ["%s: lithgorn and lithgorn_c do not state the same of it" % name
                         for name in sorted(own.keys() | handed_on.keys()) if own.get(name) != handed_on.get(name)]


def python_type(kind):
    """What the binding should have for a type of the header."""
    if not kind.endswith("*"):
        return C_TYPES[kind]
    return c_char_p if kind == "const uint8_t *" else POINTER(C_TYPES[kind.replace("const ", "")[:-2]])


def check_calls():
    """Calls, answers and arguments of the header that are not those of the crate or of the binding."""
    meant, crate = header_calls(), crate_calls()
    complaints = ["%s: the header has %s, the crate %s" % (name, meant.get(name), crate.get(name))
                  for name in sorted(meant.keys() | crate.keys()) if meant.get(name) != crate.get(name)]
    bound = {name: (python_type(answer), tuple(map(python_type, arguments))) for name, (answer, arguments) in meant.items()}
    return complaints + ["%s: the binding has other arguments or another answer" % name
                         for name in sorted(bound.keys() | lithgorn.CALLS.keys())
                         if bound.get(name) != lithgorn.CALLS.get(name)]


def symbols(*command):
    """The functions that a library defines for others."""
    lines = ran("nm", "--defined-only", *command).stdout.decode().splitlines()
    return {line.split()[-1] for line in lines if re.match(r"[0-9a-f]+ T ", line)} - {"_init", "_fini"}


def check_symbols():
    """Calls of the header that a library has not, and others that it has."""
    found = ("the archive", symbols("-g", ARCHIVE)), ("the shared library", symbols("-D", SHARED))
    return ["%s: %s" % (name, "the header has it, and %s has not" % which if name in header_calls() else
                        "%s has it, and the header has not" % which)
            for which, own in found for name in sorted(own ^ header_calls().keys())]


def header_numbers():
    """The numbers of the header, and the version, by their names without LITHGORN_."""
    text = header_text()
    found = re.findall(r"LITHGORN_(\w+) = (\d+)", text) + re.findall(r"#define LITHGORN_(\w+) (\d+)\n", text)
    [version] = re.findall(r'#define LITHGORN_VERSION "([^"]*)"', text)
    return {"VERSION": version, **{name: int(number) for name, number in found}}


def check_numbers():
    """Numbers of the header that the binding has not, or others; and refusals that it has no words for."""
    meant = header_numbers()
    complaints = ["%s: the header has %s, the binding %s" % (name, number, getattr(lithgorn, name, None))
                  for name, number in meant.items() if getattr(lithgorn, name, None) != number]
    refusals = {number for name, number in meant.items() if name.startswith("REFUSED_")}
    return complaints + (["the binding has no words for %s" % sorted(refusals ^ lithgorn.CAUSES.keys())]
                         if refusals != lithgorn.CAUSES.keys() else [])


def check_documents():
    """Calls of the header that no document names."""
    words = set(re.findall(r"\w+", "".join(path.read_text() for path in (ROOT / "docs").glob("*.md"))))
    return ["%s: no document names it" % name for name in header_calls() if name not in words]


# ---- examples and binding ----

def check_examples(folder):
    """Examples that cannot be built, fail, or print something else than is stored."""
    stored, sheet = (ROOT / "examples" / "use.txt").read_bytes(), SHEET.relative_to(ROOT)
    library, python = ARCHIVE.parent.relative_to(ROOT), {**os.environ, "PYTHONPATH": "bindings/python"}
    c, rust = folder / "use_c", folder / "use_rust"
    complaints = failed("examples/use.c", ran("gcc", "-std=c99", "-Wall", "-Wextra", "-Werror", "examples/use.c",
                                              "-I", "include", "-L", library, "-llithgorn", "-o", c))
    complaints += failed("examples/use.rs", ran("rustc", "-D", "warnings", "examples/use.rs", "-L", library,
                                                "-l", "static=lithgorn", "-o", rust))
    if complaints:
        return complaints
    for command in ((c,), (rust,), (sys.executable, "-B", "examples/use.py")):
        found = ran(*command, sheet, env=python)
        complaints += failed("examples, %s" % Path(command[-1]).name, found)
        if found.stdout != stored:
            complaints.append("examples, %s: does not print examples/use.txt" % Path(command[-1]).name)
    return complaints


def check_binding():
    """Examples of the binding that fail, or that there are none."""
    found = doctest.testmod(lithgorn)
    return [] if found.attempted and not found.failed else ["binding: %d of %d examples fail" % found[:2]]


# ---- calls ----

def check_calls_made(calls):
    """Calls that differ, or of which there are too few; prints how many of each there are."""
    differences, counts = library_cases.compare(calls)
    print(library_cases.counts_text(counts), end="")
    return library_cases.too_few(counts) + (["%d calls differ" % differences] if differences else [])


# ---- install ----

def installed_text(prefix, sheet):
    """What the installed binding gives as the text of a sheet."""
    environment = {name: value for name, value in os.environ.items() if name != "LITHGORN_LIBRARY"}
    program = "import sys, lithgorn; sys.stdout.write(lithgorn.text(open(sys.argv[1], 'rb').read()))"
    return ran(sys.executable, "-B", "-c", program, sheet, cwd=prefix,
               env={**environment, "PYTHONPATH": str(prefix / "lib" / "lithgorn")})


def check_installed(prefix):
    """What does not work of what is installed: the command, the program, the binding, and a program in C that is linked."""
    version, sheet = header_numbers()["VERSION"], SHEET.read_bytes()
    text, built = text_rules.text(sheet), prefix / "use_installed"
    tried = [("ftab --version", ran(prefix / "bin" / "ftab", "--version", cwd=prefix), None),
             ("factab", ran(prefix / "bin" / "factab", input=sheet, cwd=prefix), text),
             ("the binding", installed_text(prefix, SHEET), text),
             ("gcc", ran("gcc", "examples/use.c", "-I", prefix / "include", "-L", prefix / "lib", "-llithgorn",
                         "-Wl,-rpath,%s" % (prefix / "lib"), "-o", built), b"")]
    tried += [("a program in C", ran(built, SHEET, cwd=prefix), (ROOT / "examples" / "use.txt").read_bytes())]
    complaints = [complaint for name, found, _ in tried for complaint in failed("installed, " + name, found)]
    complaints += ["installed, %s: writes something else" % name for name, found, meant in tried
                   if meant is not None and found.stdout != meant]
    said = tried[0][1].stdout.decode()
    return complaints + ([] if version in said.split() else ["installed, ftab --version: %r" % said])


def check_missing(folder):
    """Where nothing is built, tools/install names what is missing, exits with 1 and installs nothing."""
    script, prefix = folder / "empty" / "tools" / "install", folder / "nothing"
    script.parent.mkdir(parents=True)
    script.write_bytes((ROOT / "tools" / "install").read_bytes())
    found = ran("bash", script, prefix)
    names = "crates/factab/out/factab", "rt run", "liblithgorn.so", "tools/library", "tools/ftab", "man/ftab.1"
    unnamed = [name for name in names if name not in found.stderr.decode()]
    if found.returncode != 1 or prefix.exists() or unnamed:
        return ["tools/install with nothing built: exit status %d, not named %s" % (found.returncode, unnamed)]
    return [] if ran("bash", script).returncode == 2 else ["tools/install without a folder: exit status is not 2"]


def check_install(folder):
    """What is wrong with tools/install."""
    prefix = folder / "prefix"
    return (failed("tools/install", ran("tools/install", prefix)) or check_installed(prefix)) + check_missing(folder)


# ---- all ----

def complaints():
    """All that is wrong. What needs no library is done while that is built; without one nothing else is tried."""
    with ThreadPoolExecutor() as pool:
        building = pool.submit(ran, "tools/library", timeout=None)
        found = check_header() + check_calls() + check_stated() + check_numbers() + check_documents()
        calls, built = library_cases.prepared(), failed("tools/library", building.result())
    if built:
        return found + built
    os.environ["LITHGORN_LIBRARY"] = str(SHARED)
    found += check_symbols() + check_binding() + check_calls_made(calls)
    with tempfile.TemporaryDirectory() as name:
        return found + check_examples(Path(name)) + check_install(Path(name))


if __name__ == "__main__":
    found = complaints()
    for complaint in found:
        print(complaint)
    print("library: %d complaints" % len(found))
    sys.exit(1 if found else 0)
