#!/usr/bin/env python3
"""Respells this repository's own definitions and lemmas as today's Rattle spells them: words in snake case, types in upper camel case.

usage: python3 tools/snake_case.py [--dry]     at the top of the repository, once, after /opt/rattle/port/port.py

A name that a file takes from the library stays, as do the names that Rattle makes (goals, steps, invariants),
everything in src/ outside clauses, strings and comments. It stops where two names would fall together in one file.
"""

import glob
import os
import re
import sys

WORD = r"[^\W\d][\w'-]*(?<!-)"
TOKEN = re.compile(WORD)
DEFINITION = re.compile(r"^(\s*)(?:abbrev |unfoldable )?(?:pub )?(?:abbrev |unfoldable )?(?:(?:record|data) )?(" + WORD + r")\s*(?:[({].*)?:(?=\s|$)")
MADE = re.compile(r"^(invariant|decreases)-")
USE = re.compile(r"^\s*(?:ghost )?(?:pub )?use ([\w.·'+-]+?)\.\{([^}]*)\}", re.M)
# functions that would take the name of a field that stands beside them
BESIDE_FIELDS = {"first-share": "first_share_of", "free-space": "free_space_of", "used-size": "used_size_of", "height-along": "height_along_of"}
# what port.py left half spelled
HALF = {"Goes_on": "GoesOn"}
# names that are bound by `as`, by a signature's argument or by `let`
BOUND = {"answer-fault", "node-fault", "gap-between", "question-of", "unsigned-question", "between-insets", "in-range", "of-container", "padding-border", "up-y", "none-there"}


def files(ending, *places):
    for place in places:
        yield from sorted(glob.glob(f"crates/*/{place}/**/*{ending}", recursive=True))


def read(path):
    with open(path, encoding="utf-8") as f:
        return f.read()


def spelled(name):
    if name in BESIDE_FIELDS:
        return BESIDE_FIELDS[name]
    if name in HALF:
        return HALF[name]
    if "-" not in name:
        return name
    if name[0].isupper():
        return "".join(part[0].upper() + part[1:] for part in name.split("-"))
    return name.replace("-", "_")


def defined(path):
    """The names that a file of specs/ or proofs/ declares, goals and invariants of Rattle's left out."""
    names = set()
    for line in read(path).split("\n"):
        m = DEFINITION.match(line)
        if m and not line.strip().startswith("--"):
            name = m.group(2)
            if MADE.match(name) or re.search(r":\s*(goal|need)\." + re.escape(name) + r"\b", line):
                continue
            names.add(name)
    return names


def parts(listed):
    for entry in listed.split(","):
        words = entry.strip().split(" as ")
        if words[0].strip():
            yield words[0].strip(), words[-1].strip()


def foreign(text, crates):
    """The names that a file takes from the library, and not from this repository's crates."""
    names = set()
    for m in USE.finditer(text):
        path = m.group(1).split(".")
        own = len(path) > 1 and path[0] == "Rattle" and path[1] in crates and not (len(path) > 3 and path[3] == "declared")
        if not own:
            names.update(name for _, name in parts(m.group(2)))
    return names


def names_in(text):
    """The words of a text, the paths of its imports and its fields left out."""
    text = re.sub(r"use [\w.·'+-]+\.\{", "{", text)
    text = re.sub(r"use [\w.·'+-]+", "", text)
    return set(m.group(0) for m in TOKEN.finditer(text) if text[m.start() - 1:m.start()] != ".")


def untouched(text):
    """The places of strings, and of comments but for the names that they quote."""
    places = set()
    for m in re.finditer(r'"[^"\n]*"', text):
        places.update(range(*m.span()))
    for m in re.finditer(r"--(?![^\n]*\").*", text):
        places.update(range(*m.span()))
        for q in re.finditer(r"`[^`\n]*`", m.group(0)):
            places.difference_update(range(m.start() + q.start(), m.start() + q.end()))
    return places


def turned(text, names, report, path):
    out, at = [], 0
    kept = untouched(text)
    for m in TOKEN.finditer(text):
        word = m.group(0)
        if m.start() in kept:
            continue
        if word in names and spelled(word) != word:
            before = text[max(0, m.start() - 60):m.start()]
            if re.search(r"\b(goal|need)\.$", before) or re.search(r"(?<![\w'-])c(\.[\w'-]+)*\.$", before):
                report.append(f"{path}: kept .{word}")
                continue
            out.append(text[at:m.start()])
            out.append(spelled(word))
            at = m.end()
    out.append(text[at:])
    return "".join(out)


def clauses(text):
    """The spans of a .rt file that are antt: ghost items and clauses."""
    for m in re.finditer(r"^ghost use [^;]*;", text, re.M):
        yield m.span()
    for m in re.finditer(r"\b(?:requires|ensures|ghost)\*?(?: \w+)?(?::| =)? \{", text):
        depth, i = 1, m.end()
        while depth:
            depth += {"{": 1, "}": -1}.get(text[i], 0)
            i += 1
        yield m.start(), i


def main():
    dry = "--dry" in sys.argv
    crates = {os.path.basename(c) for c in glob.glob("crates/*")}
    specs = list(files(".antt", "specs", "proofs"))
    own = BOUND.union(*(defined(p) for p in specs))
    report, clashes, writes = [], [], {}
    for path in specs + list(files(".rt", "src")):
        text = read(path)
        names = own - foreign(text, crates)
        if path.endswith(".rt"):
            new, at = [], 0
            for start, end in sorted(clauses(text)):
                if start < at:
                    continue
                new.append(text[at:start])
                new.append(turned(text[start:end], names, report, path))
                at = end
            turned_text = "".join(new) + text[at:]
            words = set(w for s, e in clauses(text) for w in names_in(text[s:e]))
        else:
            words = names_in(re.sub(r"--.*", "", text))
            turned_text = turned(text, names, report, path)
        for word in words & names:
            if spelled(word) != word and spelled(word) in words:
                clashes.append(f"{path}: {word} and {spelled(word)}")
        if turned_text != text:
            writes[path] = turned_text
    for line in sorted(set(report)):
        print(line)
    for line in sorted(set(clashes)):
        print("fall together:", line)
    if clashes and not dry:
        raise SystemExit("nothing written")
    if not dry:
        for path, text in writes.items():
            with open(path, "w", encoding="utf-8") as f:
                f.write(text)
    print(len(writes), "files,", sum(spelled(n) != n for n in own), "names")


main()
