#!/usr/bin/env python3
"""Spells this repository's own definitions and lemmas in snake case, as `row_bits` for `rowBits` and `total_append` for `total-append`.

    python3 tools/spell.py            at the top of the repository, once, right after the kit's port.py
    python3 tools/spell.py --list     what it would rename, old and new; --check: what would meet in a file; neither writes

Names are those that a file of specs/, or a file right in proofs/, declares: definitions, lemmas, fields, constructors. Words change whole, in code, in
clauses, in the texts of must-fail edits, and within back-quotes in comments and pages. Functions of src/, strings, inputs and outputs keep their names, and
so does a name that some file imports from the kit. Where a lemma would get the name of a definition, it gets `_lem`; OTHERS has the rest.
"""

import collections
import os
import re
import sys

WORD = re.compile(r"[^\s(){}.;,@\"«»\[\]`]+")
DECLARED = re.compile(r"(?m)^\s*(?:pub |abbrev |unfoldable |private )*([^\s(){}:]+) (?:\([^)]*\) |\{[^}]*\} )*:(?= |$)")
# constructors and fields that would meet a definition
OTHERS = {
    "step_call": "step_event",
    "run_call": "run_event",
    "save-call": "save_event",
    "restore-call": "restore_event",
    "in-word": "word_fits",
    "in-table": "table_holds",
    "owed-room": "room_owed",
    "in-time": "on_time",
    "stateBits": "state_bits_of",
}
# a bare word that clauses and specs/ may not hold
WORDS = {"assumption": "assumed"}
IN_CRATE = {("lending", "nodes-at"): "nodes_at"}


def snake(name):
    return re.sub(r"(?<=[a-z0-9])[A-Z]", lambda m: "_" + m[0].lower(), name).replace("-", "_")


def bare(path, text):
    text = re.sub(r'"(?:\\.|[^"\\\n])*"', '""', text)
    return re.sub(r"(?m)(?:^|(?<=\s))--.*$", "", text) if path.endswith(".antt") else re.sub(r"//.*", "", text)


def files(top):
    for folder, dirs, names in os.walk(top):
        dirs[:] = sorted(d for d in dirs if d not in (".git", "out", "target", "tools"))
        for name in sorted(names):
            if name.endswith((".antt", ".rt", ".edit", ".md")):
                yield os.path.join(folder, name)


def is_function(path):
    return bool(re.search(r"/proofs/.+/", path))


def table(texts, crates):
    declared, kit, lemma = set(), set(), set()
    for path, text in texts.items():
        if not path.endswith((".antt", ".rt")):
            continue
        code = bare(path, text)
        for m in re.finditer(r"\buse\s+([^\s;{]+?)\.\{([^}]*)\}", code):
            steps = m[1].split(".")
            if not (steps[0] == "Rattle" and steps[1] in crates):
                kit.update(item.strip().split(" as ")[0].strip() for item in m[2].split(","))
        if path.endswith(".antt") and not is_function(path):
            names = {m[1] for m in DECLARED.finditer(code)}
            declared |= names
            if "/proofs/" in path:
                lemma |= names
    spelled = {n: snake(n) for n in declared if n not in kit and snake(n) != n and n[0].islower()}
    spelled |= {n: new for n, new in OTHERS.items() if n in declared}
    same = collections.defaultdict(set)
    for n in declared:
        same[spelled.get(n, n)].add(n)
    for new, olds in same.items():
        if len(olds) < 2:
            continue
        together = any(olds <= set(WORD.findall(bare(p, t))) for p, t in texts.items() if p.endswith((".antt", ".rt")))
        for n in sorted(olds):
            if together and n in lemma and (n == new or "-" in n):
                spelled[n] = new + "_lem"
                break
    return spelled | WORDS


def turned(path, text, spelled, crate):
    def word(m):
        n = m[0]
        return IN_CRATE.get((crate, n)) or spelled.get(n, n)

    def words(part):
        return WORD.sub(word, part)

    def quoted(part):
        return re.sub(r"`[^`\n]*`", lambda m: words(m[0]), part)

    if path.endswith(".md"):
        return quoted(text)
    if path.endswith(".edit"):  # its first lines are prose
        return re.sub(r"(?m)^(old|new): ?.*$", lambda m: m[0][:5] + words(m[0][5:]), text)
    comment = {".antt": r"(?:^|(?<=\s))--[^\n]*", ".rt": r"//[^\n]*"}[os.path.splitext(path)[1]]
    pieces = re.compile(r"(" + comment + r')|("(?:\\.|[^"\\\n])*")', re.M)
    out, at = [], 0
    for m in pieces.finditer(text):
        out.append(words(text[at : m.start()]))
        out.append(quoted(m[0]) if m[1] is not None else m[0])
        at = m.end()
    return "".join(out) + words(text[at:])


def main():
    top = "."
    crates = set(os.listdir(os.path.join(top, "crates")))
    texts = {}
    for path in files(top):
        with open(path, encoding="utf-8") as f:
            texts[path] = f.read()
    spelled = table(texts, crates)
    if "--list" in sys.argv:
        print("".join(f"{old}\t{new}\n" for old, new in sorted((spelled | {f"{c}: {n}": new for (c, n), new in IN_CRATE.items()}).items())), end="")
        return
    meets = 0
    for path, text in texts.items():
        parts = path.split("/")
        crate = parts[2] if parts[1] == "crates" else ""
        new = turned(path, text, spelled, crate)
        if path.endswith((".antt", ".rt")):
            was = collections.defaultdict(set)
            for n in set(WORD.findall(bare(path, text))):
                was[IN_CRATE.get((crate, n)) or spelled.get(n, n)].add(n)
            for n, olds in was.items():
                if len(olds) > 1:
                    meets += 1
                    print(f"meet: {path}: {' '.join(sorted(olds))} would be {n}")
        if "--check" not in sys.argv and new != text:
            with open(path, "w", encoding="utf-8") as f:
                f.write(new)
    print(f"{len(spelled)} names; {meets} meet")


main()
