# A stage of the gate: reads README.md, CHANGELOG.md, docs/*.md, crates.txt and the comments in specs and proofs, and compares
# what they say with the repository. Prints FILE:LINE: and what is wrong; exits with 1 if anything is.
#
#   links       a relative link leads to a file, and after # to a heading of it
#   paths       a file or folder cited in backticks exists: one with a / in it, or with one of ENDINGS; in blocks of code,
#               what begins with a folder of the root
#   names       a name cited in backticks stands in the code, comments aside; `a::b` in the sources of the crate a, and
#               `F.b` in the file F.antt
#   lines       a line of code cited in backticks, which ends with a semicolon, stands in a source of the crates
#   owners      names that directly follow a file, a folder or a crate stand in it: `F.antt` `a`, `b` and `c`; in the
#               same way `F.antt` (`a`, `b`); and what is called a crate is one
#   the map     docs/MAP.md has the groups of crates.txt, in its order: a heading ### for each, and a table with the head
#               cell `crate` and one row for each crate
#   arrows      what a crate depends on stands above it in crates.txt; and it depends on every crate that it names
#   inner       no crate names the folder Inner of another
#   sizes       README.md, CHANGELOG.md and the cells of docs/CLAIMS.md are short
#   versions    files that name the version name one: 1, a point and the number of the last landing in docs/CHANGES.md
#   rules       numbers of rules are of docs/RULES.md where a comment in specs or proofs, or a cell or an item of a document,
#               begins with them, as T9: or P8, P9: or V6 to V9 alone; and each rule has a row in docs/CLAIMS.md
#
# Paths are from the root, below crates/ or below docs/; one that begins with neither a crate nor a folder of the root,
# such as Laws/Order.antt, is any path with that end. A star stands for any name, and so does a capital letter between
# slashes. What is built, below target/ and crates/NAME/out/, and paths outside the repository are passed over.
#
# Documents speak of today: a name of the past stands without backticks.
#
# Defined here:
#   Repository                           its files and folders, and the words of its code
#   Citation, citations                  what stands in backticks, with its line and what stands before it
#   listed_crates, map_groups            the groups of crates.txt and of the map
#   rule_lines, rules_in, rule_lists     the rules, those of a list, and the lists with which a line begins
#   check_links .. check_rules           complaints, by the list above
#   documents                            the documents whose links and citations are read
#   complaints                           all of them

import re
import sys
from collections import namedtuple
from fnmatch import fnmatchcase
from itertools import zip_longest
from pathlib import Path

ROOT = Path(__file__).resolve().parent.parent
README, CHANGELOG, CHANGES = "README.md", "CHANGELOG.md", "docs/CHANGES.md"
MAP, RULES, CLAIMS, CRATES = "docs/MAP.md", "docs/RULES.md", "docs/CLAIMS.md", "crates.txt"
MOST_LINES, MOST_WORDS = {README: 120, CHANGELOG: 60}, 60

ENDINGS = (".antt", ".rt", ".py", ".c", ".h", ".rs", ".md", ".cff", ".sheet", ".csv", ".svg", ".txt", ".edit")
CODE_FOLDERS = ("crates", "include", "bindings", "reference", "tools", "bench", ".ci")
EXAMPLES, EXAMPLE_ENDINGS = "examples", (".c", ".rs", ".py")
PASSED_OVER = (".git", "target", "out", "__pycache__")
BUILT = r"target/|crates/\w+/out/"
KIT = ("io", "libc", "std", "check", "bytes", "os", "itoa")

# Words of the kit's messages and of C that documents cite and no code here has.
OUTSIDE = {"axioms", "logic-built", "libraries-built", "statements", "trusted", "restrict"}

# What names the version, and where in it; in the document of changes the number of the last landing does.
VERSIONS = {
    "CITATION.cff": r'(?m)^version: "?([\d.]+)"?$',
    CHANGELOG: r"(?m)^- \*\*([\d.]+)\*\*",
    "tools/ftab": r'(?m)^VERSION = "([\d.]+)"$',
    "include/lithgorn.h": r'(?m)^#define LITHGORN_VERSION "([\d.]+)"$',
    "man/factab.1": r'(?m)^\.TH .*"Lithgorn ([\d.]+)"',
    "man/ftab.1": r'(?m)^\.TH .*"Lithgorn ([\d.]+)"',
}
LANDING = r"(?m)^## (\d+)\. "

# Comments, by the ending of a file; Python's also between three quotes.
C_COMMENTS = r"//.*|/\*[\s\S]*?\*/"
COMMENTS = {
    ".antt": r"(?m)(?:^|(?<=\s))--.*",
    ".rt": r"//.*",
    ".c": C_COMMENTS,
    ".h": C_COMMENTS,
    ".rs": C_COMMENTS,
    ".py": r'(?s)""".*?"""|(?:(?<=\n)|(?<=\s))#[^\n]*',
    "": r"(?m)^\s*#.*",
}

# The number of a rule, and a list of such.
RULE = r"[A-Z]\d+(?:\.\d+)?"
RULE_LIST = r"%s(?:(?:, | to )%s)*" % (RULE, RULE)

# line counts from 1. gap is what stands between the citation before it and this one, None for the first of its passage.
Citation = namedtuple("Citation", "line text gap before")

# A group of crates.txt or of the map: its heading, the line of that, and pairs of line and crate.
Group = namedtuple("Group", "heading line crates")


# ---- the repository ----

def words_of(text):
    """The words of a text, as code parts them."""
    return set(re.findall(r"[^\s(){}\[\],;:.`\"'=<>|&!?/…]+", text))


def read(path):
    """The text of a file of the repository."""
    return (ROOT / path).read_text(encoding="utf-8")


def below(folder):
    """The files below a folder, as paths from the root."""
    found = []
    for path in (ROOT / folder).iterdir():
        if path.name in PASSED_OVER:
            continue
        found += below(path.relative_to(ROOT)) if path.is_dir() else [path.relative_to(ROOT).as_posix()]
    return found


class Repository:
    """Files and folders, what crates.txt lists, and the words of each file of code without its comments."""

    def __init__(self):
        self.files = sorted(below("."))
        self.paths = set(self.files) | {parent.as_posix() for path in self.files for parent in Path(path).parents}
        self.tops = {path.split("/")[0] for path in self.files}
        self.groups, self.depends = listed_crates()
        self.own_text = {path: without_comments(path) for path in self.files if is_code(path)}
        self.words = {path: words_of(text) for path, text in self.own_text.items()}
        named = {part for path in self.paths for part in Path(path).parts}
        self.all_words = set().union(OUTSIDE, named, *self.words.values()) | {Path(name).stem for name in named}

    def found(self, cited):
        """The paths that a cited path may mean; none if it does not exist."""
        first = cited.split("/")[0]
        pattern = re.sub(r"(?<![^/])[A-Z](?![^/])", "*", cited.strip("/"))
        if "*" in pattern:
            wanted = (pattern, "crates/" + pattern, "*/" + pattern)
            return [path for path in self.paths if any(fnmatchcase(path, own) for own in wanted)]
        exact = [path for path in (pattern, "crates/" + pattern, "docs/" + pattern) if path in self.paths]
        if exact or "/" in pattern and first in self.tops | set(self.depends):
            return exact
        return [path for path in self.paths if path.endswith("/" + pattern)]

    def stands(self, name, owners):
        """Whether a name stands in one of some files, or in a file below one of some folders."""
        inside = tuple(owner + "/" for owner in owners)
        files = [path for path in self.words if path in owners or path.startswith(inside)]
        return any(is_word(name, self.words[path]) for path in files)


def is_code(path):
    """Whether a path is of code: not what a program reads or writes, and not this file; of the examples the programs."""
    top = path.split("/")[0]
    return (path != ".ci/documents.py" and Path(path).name not in ("stdin", "stdout")
            and (top in CODE_FOLDERS or top == EXAMPLES and path.endswith(EXAMPLE_ENDINGS)))


def without_comments(path):
    """The text of a file without its comments."""
    comments = COMMENTS.get(Path(path).suffix)
    return re.sub(comments, "", read(path)) if comments else read(path)


def is_word(name, words):
    """Whether a name is one of some words; a star in it may stand for any letters."""
    return name in words or "*" in name and any(fnmatchcase(word, name) for word in words)


# ---- crates.txt ----

def listed_crates():
    """The groups of crates.txt, each under the comment line directly above it, and what each crate depends on."""
    groups, depends, comment = [], {}, None
    for line, text in enumerate(read(CRATES).splitlines(), 1):
        if text.startswith("#"):
            comment = Group(text.strip("# "), line, [])
        elif not text.strip():
            comment = None
        else:
            name, _, below_it = text.partition(":")
            name = name.split()[0]
            if comment or not groups:
                groups.append(comment or Group("", line, []))
                comment = None
            groups[-1].crates.append((line, name))
            depends[name] = below_it.split()
    return groups, depends


# ---- citations ----

def passages(text):
    """The passages of a document, which are paragraphs, rows of tables, headings and lines of code blocks: the first line
    of each, whether it is code, and its text."""
    found, fenced, going_on = [], False, False
    for line, own in enumerate(text.splitlines(), 1):
        fence = own.lstrip().startswith("```")
        fenced ^= fence
        indented = own.startswith("    ") and not going_on
        if fence or not own.strip():
            going_on = False
        elif fenced or indented:
            found.append((line, True, own))
        elif not going_on or own.lstrip().startswith(("|", "#")):
            found.append((line, False, own))
            going_on = True
        else:
            found[-1] = found[-1][:2] + (found[-1][2] + "\n" + own,)
    return found


def citations(text):
    """The citations of a document, in order."""
    found = []
    for first, code, passage in passages(text):
        if code:
            continue
        end = None
        for match in re.finditer("`([^`]+)`", passage):
            gap = None if end is None else " ".join(passage[end:match.start()].split("\n"))
            line = first + passage.count("\n", 0, match.start())
            found.append(Citation(line, " ".join(match[1].split()), gap, passage[:match.start()]))
            end = match.end()
    return found


def is_path(text):
    """Whether a citation is of a file or a folder of the repository, and not of a name in a file."""
    return (bool(re.fullmatch(r"[\w·.*/-]*[A-Za-z][\w·.*/-]*", text)) and not is_outside(text)
            and (text.endswith(ENDINGS) or "/" in text and not module_and_name(text)))


def is_outside(text):
    """Whether a citation is of a path that is built, or outside the repository."""
    return text.startswith("/") or bool(re.match(BUILT, text))


def module_and_name(text):
    """The two parts of a citation such as Laws/Order.mixed; none of another."""
    match = re.fullmatch(r"((?:\w+/)*[A-Z]\w*)\.([^\W\d][^\s(){},;:./]*)", text)
    return match.groups() if match and not text.endswith(ENDINGS) else ()


def names_in(text):
    """The words of a citation that are names: of two letters or more, with a letter first."""
    return sorted(word for word in words_of(text) if re.match(r"[^\W\d_]..*|[^\W\d_].", word))


def is_name(text):
    """Whether a citation is one name, of a definition or a field."""
    return bool(re.fullmatch(r"\.?[^\W\d][^\s(){},;:./]*", text))


# ---- checks of what is cited ----

def anchors(path):
    """What may stand after # in a link to a document."""
    headings = re.findall(r"(?m)^#+ +(.*)$", read(path))
    return {re.sub(r"[^\w\- ]", "", heading.lower()).replace(" ", "-") for heading in headings}


def check_links(document):
    """Relative links of a document that lead nowhere."""
    found = []
    for line, text in enumerate(read(document).splitlines(), 1):
        for target in re.findall(r"\]\(([^)\s]+)\)", text):
            if re.match(r"[a-z]+:", target):
                continue
            name, _, anchor = target.partition("#")
            path = (ROOT / document).parent / name if name else ROOT / document
            if not path.exists():
                found.append((document, line, "the link leads to no file: %s" % target))
            elif anchor and anchor not in anchors(path.resolve().relative_to(ROOT)):
                found.append((document, line, "the link leads to no heading: %s" % target))
    return found


def check_paths(repository, document, cited):
    """Files and folders that are cited and absent."""
    return [(document, own.line, "there is no file or folder `%s`" % own.text)
            for own in cited if is_path(own.text) and not repository.found(own.text)]


def check_code(repository, document):
    """Files and folders that a code block of a document names and that are absent."""
    tops = "|".join(re.escape(top) for top in sorted(repository.tops))
    return [(document, line, "there is no file or folder %s" % path)
            for line, code, passage in passages(read(document)) if code
            for path in re.findall(r"(?<![\w./-])(?:%s)/[\w./-]*\w" % tops, passage)
            if path not in repository.paths and not is_outside(path)]


def check_name(repository, own):
    """What is wrong with the names of a citation that is no path."""
    for crate, name in re.findall(r"(\w+)::(\w+)", own.text):
        if crate in repository.depends and not repository.stands(name, ["crates/%s/src" % crate]):
            return ["`%s` is not in the sources of the crate %s" % (name, crate)]
    if re.search(r"\bcrate $", own.before.replace("\n", " ")) and own.text not in repository.depends:
        return ["`%s` is no crate of crates.txt" % own.text]
    if module_and_name(own.text):
        module, name = module_and_name(own.text)
        files = repository.found(module + ".antt")
        if "/" in module and not files or files and not repository.stands(name, files):
            return ["`%s` does not stand in a file %s.antt" % (name, module)]
    absent = [name for name in names_in(own.text) if not is_word(name, repository.all_words)]
    return ["`%s` stands nowhere in the code" % name for name in absent]


def check_names(repository, document, cited):
    """Names that are cited and stand nowhere."""
    return [(document, own.line, complaint) for own in cited
            if not is_path(own.text) and not is_outside(own.text)
            for complaint in check_name(repository, own)]


def check_lines(repository, document, cited):
    """Lines of code that are cited and stand in no source of the crates."""
    sources = [text for path, text in repository.own_text.items() if path.startswith("crates/") and path.endswith(".rt")]
    return [(document, own.line, "the line `%s` stands in no source" % own.text)
            for own in cited if own.text.endswith(";") and not any(own.text in text for text in sources)]


def owner_of(repository, own):
    """The files or folders in which the names after a citation should stand; none where it owns no name."""
    if own.text in repository.depends:
        return ["crates/" + own.text]
    if not is_path(own.text) or own.text.endswith((".md", ".txt", ".sheet", ".csv")):
        return []
    return [path for path in repository.found(own.text) if is_code(path)]


def check_owners(repository, document, cited):
    """Names that directly follow a file, a folder or a crate and do not stand in it. A crate among these names may be the
    owner of the next, as in `yates` `totals`, `columns` `copy`, or a name, as in `effects` `rows` `divisors`."""
    found, owners, last = [], [], None
    for own in cited:
        if own.gap in (" ", " (") and owner_of(repository, last):
            owners = [last] + owners[:1]
        elif own.gap not in (" ", ", ", " and ", ", and "):
            owners = []
        if owners and not is_name(own.text):
            owners = owners if " " in own.text else []
        elif owners and not stands_by(repository, own, owners):
            if own.text not in repository.depends and is_word(own.text.lstrip("."), repository.all_words):
                found.append((document, own.line, "`%s` does not stand in %s" % (own.text, owners[0].text)))
            owners = []
        last = own
    return found


def stands_by(repository, own, owners):
    """Whether a name stands in what one of some citations means."""
    name = own.text.lstrip(".")
    return any(repository.stands(name, owner_of(repository, owner)) for owner in owners)


# ---- checks of crates and sizes ----

def map_groups():
    """The groups of the map: headings ### with a table whose head cell is `crate`."""
    groups, heading, inside = [], None, False
    for line, text in enumerate(read(MAP).splitlines(), 1):
        cells = [cell.strip() for cell in text.strip().strip("|").split("|")]
        if text.startswith("#"):
            heading, inside = (text.strip("# "), line), False
        elif not text.startswith("|"):
            inside = False
        elif cells[0] == "crate" and heading:
            groups.append(Group(*heading, []))
            inside = True
        elif inside and not set(cells[0]) <= set("-: "):
            groups[-1].crates.append((line, cells[0].strip("`") if len(cells) > 1 and cells[1] else ""))
    return groups


def check_map(repository):
    """Where the map's groups are not those of crates.txt."""
    if MAP not in repository.paths:
        return [(MAP, 1, "there is no map")]
    found = []
    listed, mapped = repository.groups, map_groups()
    for own in listed:
        if not own.heading:
            found.append((CRATES, own.line, "there is no line with # directly above the first crate of a group"))
    for own, theirs in zip_longest(listed, mapped, fillvalue=Group("no group", 1, [])):
        if own.heading != theirs.heading:
            return found + [(MAP, theirs.line, "the group is '%s', and in crates.txt, line %d, it is '%s'" % (
                theirs.heading, own.line, own.heading))]
        found += check_group(own, theirs)
    return found


def check_group(own, theirs):
    """Crates that are in a group of crates.txt or of the map alone, or twice in the map."""
    names, rows = [name for _, name in own.crates], [name for _, name in theirs.crates]
    found = [(MAP, theirs.line, "%s: there is no row for the crate %s" % (own.heading, name))
             for name in names if name not in rows]
    for place, (line, name) in enumerate(theirs.crates):
        if name not in names:
            found.append((MAP, line, "%s: the row is of no crate of this group, or says nothing" % own.heading))
        elif name in rows[:place]:
            found.append((MAP, line, "%s: a second row for the crate %s" % (own.heading, name)))
    return found


def named_crates(repository, crate):
    """The crates that the sources, definitions and proofs of a crate name, each with a file; its modules are its own."""
    mine = "crates/%s/" % crate
    files = [path for path in repository.own_text if path.startswith(mine) and path.endswith((".rt", ".antt"))]
    modules = {Path(path).stem for path in files if path.startswith(mine + "src/")}
    found = {}
    for path in files:
        text = repository.own_text[path]
        names = {name for name in re.findall(r"(?<![\w:.])(\w+)::", text) if name not in modules}
        for name in names | set(re.findall(r"Rattle\.(\w+)", text)):
            if name in repository.depends and name != crate:
                found.setdefault(name, path)
    return found


def check_arrows(repository):
    """Crates that depend on one that stands below them, or on a crate that they do not list."""
    found, above = [], []
    folders = {path.split("/")[1] for path in repository.files if path.startswith("crates/")}
    for line, crate in [own for group in repository.groups for own in group.crates]:
        depends = repository.depends[crate]
        found += [(CRATES, line, "%s depends on %s, which does not stand above it" % (crate, name))
                  for name in depends if name not in above and name not in KIT]
        found += [(CRATES, line, "%s names %s, which is not listed, in %s" % (crate, name, path))
                  for name, path in sorted(named_crates(repository, crate).items()) if name not in depends]
        if crate in above or crate not in folders:
            found.append((CRATES, line, "%s is listed twice, or has no folder" % crate))
        above.append(crate)
    return found + [(CRATES, 1, "crates/%s is not listed" % name) for name in sorted(folders - set(above))]


def check_inner(repository):
    """Files that name what only the functions of another crate ask or leave."""
    return [(path, 1, "it names the folder Inner of the crate %s" % name)
            for path, text in repository.own_text.items() if path.startswith("crates/")
            for name in sorted(set(re.findall(r"Rattle\.(\w+)(?:\.\w+)*\.Inner\b", text)))
            if name != path.split("/")[1]]


def check_sizes(repository):
    """What is longer than it may be."""
    found = []
    for path, most in MOST_LINES.items():
        count = len(read(path).splitlines()) if path in repository.paths else 0
        if not 0 < count <= most:
            found.append((path, count, "%d lines, wanted 1 to %d" % (count, most)))
    if CLAIMS not in repository.paths:
        return found + [(CLAIMS, 1, "there are no claims")]
    for line, text in enumerate(read(CLAIMS).splitlines(), 1):
        cells = [cell.split() for cell in text.strip("|").split("|")] if text.startswith("|") else []
        found += [(CLAIMS, line, "a cell of %d words, at most %d: %s .." % (len(cell), MOST_WORDS, " ".join(cell[:6])))
                  for cell in cells if len(cell) > MOST_WORDS]
    return found


def check_versions(repository):
    """Files that name no version, or another than that of the last landing."""
    landings = re.findall(LANDING, read(CHANGES)) if CHANGES in repository.paths else []
    wanted = "1.%s" % landings[-1] if landings else "none"
    named = {path: re.findall(pattern, read(path))[:1] if path in repository.paths else []
             for path, pattern in VERSIONS.items()}
    return [(path, 1, "the version is %s, and by the last landing of %s it is %s" % (
        "".join(own) or "absent", CHANGES, wanted)) for path, own in named.items() if own != [wanted]]


# ---- checks of rules ----

def rule_lines():
    """The numbers of the rules, in their order, each with its line."""
    return {number: line for line, text in enumerate(read(RULES).splitlines(), 1)
            for number in re.findall(r"^(?:- |\| )\*\*(%s)\*\*" % RULE, text)}


def rules_in(cited, order):
    """The rules of a list such as T3 to T5, T7; a part of it that names none is left as it stands."""
    found = []
    for part in cited.split(", "):
        first, _, last = part.partition(" to ")
        last = last or first
        known = first in order and last in order and first[0] == last[0]
        found += (order[order.index(first):order.index(last) + 1] if known else []) or [part]
    return found


def rule_lists(path, text):
    """The lists of rules with which a comment begins, or its part after a semicolon; or a cell or an item of a document."""
    if not path.endswith(".antt"):
        return re.findall(r"(?:^- |\| )(?:as )?(%s)(?=[:;]| \|)" % RULE_LIST, text)
    own = text.strip()
    return re.findall(r"(?:^-- +(?:---- )?|; )(%s)(?=:|$)" % RULE_LIST, own) if own.startswith("--") else []


def check_rules(repository):
    """Rules that are cited and absent, and rules without a row in the claims."""
    if not {RULES, CLAIMS} <= repository.paths:
        return [(RULES, 1, "there are no rules, or no claims")]
    lines = rule_lines()
    order, found = list(lines), []
    for path in repository.files:
        if not any(fnmatchcase(path, own) for own in ("docs/*.md", "crates/*/specs/*.antt", "crates/*/proofs/*.antt")):
            continue
        found += [(path, line, "there is no rule %s" % rule) for line, text in enumerate(read(path).splitlines(), 1)
                  for cited in rule_lists(path, text) for rule in rules_in(cited, order) if rule not in lines]
    rows = {rule for text in read(CLAIMS).splitlines() if text.startswith("|")
            for rule in rules_in(text.split("|")[1].strip(), order)}
    return found + [(RULES, line, "the claims have no row for the rule %s" % rule)
                    for rule, line in lines.items() if rule not in rows]


# ---- the command ----

def documents(repository):
    """The documents whose links and citations are read."""
    return [path for path in repository.files if path in (README, CHANGELOG) or fnmatchcase(path, "docs/*.md")]


def complaints(repository):
    """All that is wrong, as file, line and words, and how many citations were compared."""
    found, count = [], 0
    for check in (check_map, check_arrows, check_inner, check_sizes, check_versions, check_rules):
        found += check(repository)
    for document in documents(repository):
        found += check_links(document)
        found += check_code(repository, document)
        cited = citations(read(document))
        count += len(cited)
        for check in (check_paths, check_names, check_lines, check_owners):
            found += check(repository, document, cited)
    return sorted(found), count


if __name__ == "__main__":
    found, count = complaints(Repository())
    for complaint in found:
        print("%s:%d: %s" % complaint)
    print("documents: %d citations, %d complaints" % (count, len(found)))
    sys.exit(1 if found else 0)
