#!/usr/bin/env python3
"""Turned the names of definitions and laws to the spelling of today's Rattle, once, on the commit that docs/PORT.md names second.

usage: python3 tools/snake_names.py      at the top of the repository

Words are in snake case: each lowerCamel name that a file of specs/ or proofs/ declares is spelled with underscores, and 'getD' in a name is
'get_or', as the library's word is now. Types and modules, which begin with a capital, stay. Where the new spelling of a word is that of a law
whose dash had become an underscore before, the law gets its dash back. Names of src/, exported names, strings, inputs and outputs stay.
"""

import glob
import os
import re

# A token of antt or of a clause: all but white space and what encloses or joins.
TOKEN = re.compile(r"(?<![^\s(){}\[\],;:.λ\"@⟨⟩`])[^\s(){}\[\],;:.λ\"@⟨⟩`]+")
SIGNATURE = re.compile(
    r"^\s*(?:(?:unfoldable|abbrev|pub|data|record|private)\s+)*([^\s:{}()\[\],;=|→]+(?: [^\s:{}()\[\],;=|→]+)*?)(?: [({][^:]*)? : ")
# Laws that the new spelling of a word would fall together with: these had a dash.
DASHED = ["all_digits", "two_runs", "block_runs", "in_order", "by_rows", "word_count", "runs_of", "row_count", "turn_two", "turn_three"]
# Local names that a capital got in.
LOCAL = {"x_Fits": "x_fits", "newTotals": "new_totals"}


def files(*endings):
    for ending in endings:
        yield from sorted(glob.glob(f"crates/*/{ending}", recursive=True))


def snake(name):
    """The spelling of today of a name, part by part of what dashes join."""
    parts = []
    for part in name.split("-"):
        if part == "getD":
            part = "get_or"
        if re.match(r"^[a-z]", part) and re.search(r"[a-z0-9][A-Z]", part):
            part = re.sub(r"(?<=[a-z0-9])([A-Z]+)", lambda m: "_" + m.group(1).lower(), part)
        parts.append(part)
    return "-".join(parts)


def declared():
    """The names that files of specs/ and proofs/ declare: definitions, laws, fields, constructors."""
    names = set()
    for path in files("specs/**/*.antt", "proofs/**/*.antt"):
        with open(path, encoding="utf-8") as text:
            for line in text:
                if re.match(r"^\s*(--|use |mod|pub mod)", line):
                    continue
                m = SIGNATURE.match(line)
                if m:
                    names.update(m.group(1).split())
    return names


# A line of the table that a file opens with: a name, and after three spaces or more what it is.
ROW = re.compile(r"^(--   \S.*?)(   +)(\S.*)$")


def aligned(old, new):
    """The lines of new, with the second columns of tables in comments below one another where those of old were."""
    olds, news, i = old.split("\n"), new.split("\n"), 0
    while i < len(olds):
        first = ROW.match(olds[i])
        if not first:
            i += 1
            continue
        column, rows = first.start(3), []
        while i < len(olds) and (m := ROW.match(olds[i])) and m.start(3) == column:
            rows.append((i, ROW.match(news[i])))
            i += 1
        column = max([column] + [len(m.group(1)) + 3 for _, m in rows])
        for k, m in rows:
            news[k] = m.group(1).ljust(column) + m.group(3)
    return "\n".join(news)


def main():
    turned = {n: snake(n) for n in declared() if snake(n) != n} | LOCAL
    dashed = {n: n.replace("_", "-") for n in DASHED}

    def turn(m, dashes):
        token = m.group(0)
        if token in turned:
            return turned[token]
        if dashes and token in dashed and m.string[m.start() - 1:m.start()] != ".":
            return dashed[token]
        return token

    count = 0
    for path in files("specs/**/*.antt", "proofs/**/*.antt", "src/**/*.rt", "must-fail/*.edit"):
        with open(path, encoding="utf-8") as text:
            old = text.read()
        # no dash in Rust's files, nor in an edit of one
        dashes = path.endswith(".antt") or (path.endswith(".edit") and "file: src/" not in old)
        new = aligned(old, TOKEN.sub(lambda m: turn(m, dashes), old))
        if new != old:
            count += 1
            with open(path, "w", encoding="utf-8") as text:
                text.write(new)
    print(f"{len(turned)} names turned, {count} files")


if __name__ == "__main__":
    main()
