#!/usr/bin/env python3
"""Counts the places of src/ that are written in an older form, point by point, as docs/DESIGN-PASS.md has them.

    tools/design_count.py [COMMIT]     of a commit, or of the working tree
    tools/design_count.py -l [COMMIT]  with each place
"""
import re
import subprocess
import sys
from collections import defaultdict


def git(*words):
    return subprocess.run(["git", *words], capture_output=True, text=True, check=True).stdout


def sources(commit):
    """Each source file's path and text."""
    if commit:
        paths = git("ls-tree", "-r", "--name-only", commit, "crates").split()
    else:
        paths = git("ls-files", "crates").split()
    for path in paths:
        if re.fullmatch(r"crates/\w+/src/.*\.rt", path):
            yield path, git("show", f"{commit}:{path}") if commit else open(path).read()


def functions(path, text):
    """Each function: its line, name, parameters, result, clauses and body."""
    for m in re.finditer(r"(?m)^( *)(?:pub )?(?:extern \"C\" )?fn (\w+)", text):
        depth, i = 0, m.end()
        start = text.index("(", i)
        i = start
        while True:
            depth += {"(": 1, ")": -1}.get(text[i], 0)
            i += 1
            if depth == 0:
                break
        indent = m.group(1)
        body = re.search(r"(?m)^%s\{\n|(?<=\s)\{\n" % indent, text[i:])
        if not body:
            continue
        end = text.find("\n%s}" % indent, i + body.start())
        head = text[i : i + body.start()]
        line = text.count("\n", 0, m.start()) + 1
        yield f"{path}:{line}", m.group(2), text[start + 1 : i - 1], head, text[i + body.end() : end]


def parameters(words):
    flat = re.sub(r"\s+", " ", words).strip().rstrip(",")
    return [p.strip() for p in re.split(r",(?![^\[<(]*[\]>)])", flat) if ":" in p]


def shape(body):
    """A body with its names, types and numbers taken out."""
    keep = {"if", "else", "while", "for", "in", "let", "mut", "return", "match"}
    return re.sub(r"\w+", lambda m: m.group() if m.group() in keep else "_", re.sub(r"\s+|//.*", "", body))


def main():
    words = [w for w in sys.argv[1:] if w != "-l"]
    every = "-l" in sys.argv[1:]
    commit = words[0] if words else None
    found = defaultdict(list)
    bodies, requires, pairs = defaultdict(list), defaultdict(list), defaultdict(list)
    for path, text in sources(commit):
        code = re.sub(r"//.*", lambda m: " " * len(m.group()), text)
        for m in re.finditer(r"(?m)^(?:pub )?enum (\w+) \{((?:.|\n)*?)\n\}", code):
            line = f"{path}:{code.count(chr(10), 0, m.start()) + 1} {m.group(1)}"
            found["1 enums"].append(line)
            if re.search(r"Refused\(u8\)|\bFailed\b|\bOther\b", m.group(2)):
                found["1 enums of the shape of Option or Result"].append(line)
        for m in re.finditer(r"(?m)^(?:pub )?const (?:KEPT|ERROR|MEAN|BLOCKS|DIFFERENCE|LOST|NO_READINGS): \w+ = \d+;", code):
            found["1 constants for kinds and refusals"].append(f"{path}:{code.count(chr(10), 0, m.start()) + 1} {m.group()}")
        for where, name, params, head, body in functions(path, code):
            place = f"{where} {name}"
            if re.search(r"-> u8\b", head) and re.search(r"refused|_on_head|two_to_eight|lowest|TableLeft|promised|cond meet", head):
                found["1 functions that answer a refusal's number"].append(place)
            found["3 while loops"] += [place] * len(re.findall(r"(?m)^\s*while\b", body))
            if len(body.split("\n")) > 2:
                bodies[shape(body)].append(place)
            for clause in re.findall(r"requires \w* ?\{((?:[^{}]|\{[^{}]*\})*)\}", head):
                for fact in re.split(r" × ", clause):
                    requires[re.sub(r"[() ]", "", fact)].append(place)
            names = parameters(params)
            found["4 casts written with `as`"] += [place] * len(re.findall(r"\bas (?:usize|u8|u16|u32|u64|i32|i64)\b", body))
            if re.search(r"text: &mut \[u8\], at: usize", ", ".join(names)):
                found["6 buffers with the place beside them"].append(place)
            if any(re.search(r": \[\w+; \d+\]", p) for p in names) and any(re.search(r": usize", p) for p in names):
                found["6 arrays with a count beside them"].append(place)
            for group in (("readings", "marks", "totals", "rows"), ("readings", "marks", "column", "rows"), ("text", "at")):
                if all(any(p.startswith(g + ":") for p in names) for g in group):
                    pairs[" ".join(group)].append(place)
            if re.search(r"if (?:p\.)?levels == [23] \{", body):
                found["7 switches on the number of levels"].append(place)
    for places in bodies.values():
        if len(places) > 1:
            found["2 functions of one shape"] += [" = ".join(places)]
    for fact, places in requires.items():
        if len(set(places)) > 2:
            found["5 facts required by three functions or more"].append(f"{fact}: {len(set(places))}")
    for group, places in pairs.items():
        if len(places) > 2:
            found["5 parameters that travel together"].append(f"{group}: {len(places)}")
    for point in sorted(found):
        print(f"{len(found[point]):4} {point}")
        if every:
            for place in found[point]:
                print("         ", place)


main()
