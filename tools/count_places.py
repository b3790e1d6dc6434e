#!/usr/bin/env python3
"""Counts, in src/ of a commit, the places that docs/DESIGN-PASS.md speaks of.

    python3 tools/count_places.py COMMIT            one line for each pattern: point, name, how many
    python3 tools/count_places.py COMMIT PATTERN    the places of one pattern
"""
import collections
import re
import subprocess
import sys

LINES = [  # (point, name, pattern of one line)
    (1, "arms", r"^ *(None|Err\([a-z_]*\)|Ok\(\(\)\)) => "),
    (1, "let_else", r"let (Some|Ok)\(.*(else \{|= *$)|if let (Some|Ok)\(|^ *\) else \{"),
    (1, "tests", r"\.is_(err|ok)\(\)"),
    (1, "bool_fields", r"^    (pub )?[a-z_]+: bool,"),
    (1, "codes", r" as u8 ==|fn number\(self\) -> u"),
    (3, "loops", r"^ *(for|while|loop) "),
    (3, "counters", r"\+= 1\b|saturating_add\(1\)|= !(self\.)?odd"),
    (4, "equality", r" as u8 ==|fn (is_)?same_?[a-z0-9]*\("),
    (4, "words", r"-> &'static str|fn [a-z_]+_named\(word"),
    (4, "numbers", r"fn number\(self\) -> u"),
    (4, "matches", r"matches!\("),
    (6, "indexed", r"[a-z_]\[[a-z_]+\]|\.remove\(0\)"),
    (6, "vectors", r"^    (pub )?[a-z_]+: Vec<"),
    (7, "callables", r"\bFn(Once|Mut)?\(|\bdyn |\bfn\("),
]
KEYWORDS = set("match if else let return for in self Self Some None Ok Err true false as mut ref while loop".split())


def run(*args):
    return subprocess.run(args, check=True, capture_output=True, text=True).stdout


def sources(commit):
    names = run("git", "ls-tree", "-r", "--name-only", commit).split("\n")
    for name in names:
        if re.fullmatch(r"crates/[a-z_]+/src/.*\.rt", name):
            yield name, run("git", "show", f"{commit}:{name}")


def functions(text):
    """Each function with a body: its line, name, parameters, clauses and body."""
    lines = text.split("\n")
    for at, line in enumerate(lines):
        head = re.match(r"( *)(pub(\(crate\))? )?(const )?fn (\w+)", line)
        if not head:
            continue
        clauses, body, end = [], [], at
        for end in range(at, len(lines)):
            if re.match(r" *(requires|ensures)\b", lines[end]):
                clauses.append(lines[end])
            if lines[end] == head.group(1) + "}" or lines[end].endswith("{}") or lines[end].endswith(";"):
                break
        text_of = "\n".join(lines[at : end + 1])
        opened = re.search(r"(^ *\{$|\) (-> [^\n]*)?\{$)", text_of, re.M)
        body = text_of[opened.end() :] if opened else ""
        head_of = re.split(r"->|\n *(?:requires|ensures)\b|\n *\{", re.sub(r"<[^()]*>\(", "(", text_of, count=1))[0]
        params = re.findall(r"\b([a-z]\w*): [^,)\n]+", head_of)
        yield at + 1, head.group(5), params, clauses, body


def alike(body):
    """The body with every name, number and operator on numbers taken out."""
    tokens = re.findall(r"[A-Za-z_]\w*|\d[\w.]*|[^\s\w]", body)
    return " ".join(t if t in KEYWORDS or not re.match(r"[\w+\-*/]", t) else "x" for t in tokens)


def twins(commit):
    groups = collections.defaultdict(list)
    for name, text in sources(commit):
        for line, fn, _, _, body in functions(text):
            shape = alike(body)
            if shape.count(" ") >= 8 and "/tests" not in name:
                groups[shape].append(f"{name}:{line}:{fn}")
    return [" | ".join(g) for g in groups.values() if len(g) > 1]


def facts(commit):
    seen = collections.defaultdict(set)
    for name, text in sources(commit):
        for line, fn, _, clauses, _ in functions(text):
            for clause in clauses:
                for word in re.findall(r"\b(?:[A-Z]\w+|\w+_of|ordered|items)\b(?= )", clause):
                    seen[word].add(f"{name}:{fn}")
    common = {"Type", "Some", "None", "Ok", "Err", "IfSome", "IfOk", "IfErr", "OnOk", "OnErr", "MatchResult", "T", "Bool", "Float", "Ieee", "Means"}
    return [f"{w}: {len(s)} functions" for w, s in sorted(seen.items()) if len(s) > 2 and w not in common]


def together(commit):
    seen = collections.defaultdict(set)
    for name, text in sources(commit):
        for line, fn, params, _, _ in functions(text):
            for a in range(len(params)):
                for b in range(a + 1, len(params)):
                    seen[tuple(sorted((params[a], params[b])))].add(f"{name}:{fn}")
    return [f"{a}, {b}: {len(s)} functions" for (a, b), s in sorted(seen.items()) if len(s) > 2]


def enums(commit):
    return [f"{name}: {m}" for name, text in sources(commit) for m in re.findall(r"^(?:pub |pub\(crate\) )?enum (\w+)", text, re.M)]


def proofs(commit):
    names = run("git", "ls-tree", "-r", "--name-only", commit).split("\n")
    return [n for n in names if re.fullmatch(r"crates/[a-z_]+/proofs/.*\.antt", n)]


def main():
    commit = sys.argv[1]
    wanted = sys.argv[2] if len(sys.argv) > 2 else None
    rows = []
    for point, name, pattern in LINES:
        found = [f"{f}:{i}: {l.strip()}" for f, t in sources(commit) for i, l in enumerate(t.split("\n"), 1) if re.search(pattern, l)]
        rows.append((point, name, found))
    rows += [(1, "enums", enums(commit)), (2, "twins", twins(commit)), (5, "facts", facts(commit)), (5, "together", together(commit)), (8, "proof_files", proofs(commit))]
    for point, name, found in sorted(rows):
        if wanted is None:
            print(point, name, len(found))
        elif wanted == name:
            print("\n".join(found))


main()
