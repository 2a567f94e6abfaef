#!/usr/bin/env python3
"""respell.py: brings this repository's own definitions and lemmas to today's spelling, once, right after the kit's port.py.

usage: python3 tools/respell.py [--check]      at the top of the repository

A definition in lower camel case, and a lemma with dashes, is written in snake case: `sizesIn` becomes `sizes_in`, `fill-goes` becomes
`fill_goes`. Types and modules keep their capitals. A lemma that would then have its function's name gets `_lem`.
Names of functions of src/, exported names, strings, inputs and outputs stay. Names that only a function's own proof file has stay too:
those files follow the goals' names.
It stops where two names would fall together. --check writes nothing.
"""

import collections
import glob
import re
import sys

WORD = r"[^\s(){}.;,@\"«»]+"
HEAD = re.compile(r"^\s*(?:(?:unfoldable|abbrev|data|record|pub|mutual|module)\s+)*(" + WORD + r")(?:\s*\([^)]*\)|\s*\{[^}]*\})*\s*:(?=\s|$)", re.M)
ALIAS = re.compile(r"\bas («?)(" + WORD + ")")
TOKEN = re.compile(WORD)
QUOTED = re.compile(r'"(?:\\.|[^"\\\n])*"')

# Lemmas that have a definition's name once both are in snake case.
LEMMAS = {
    name: name + "_lem"
    for name in ("is_digit", "same_bytes", "in_use", "text_in", "nothing_known", "is_word", "go_on", "too_short")
}
LEMMAS |= {"answer-of": "answer_of_lem", "all-below": "all_below_lem", "is-empty": "is_empty_lem"}
# Definitions whose signature has an implicit argument before its arrow, and a parameter: no head of a line shows them.
UNSEEN = {"onFile": "on_file", "onFileAnswer": "on_file_answer", "newLength": "new_length", "newLength'": "new_length'"}
# A name of one proof file that would hide a definition.
IN_FILE = {"crates/model/proofs/walk/+branches_instruction_parts/Proof.antt": {"branches_at": "branches_told"}}


def read(path):
    with open(path, encoding="utf-8") as f:
        return f.read()


def of_a_function(path):
    return path.endswith(("/Proof.antt", "/Answers.antt", "/Invariants.antt"))


def is_camel(name):
    return name[0].islower() and re.search(r"[a-z0-9][A-Z]", name) is not None


def snake(name):
    new = name.replace("-", "_")
    if new[0].islower():
        new = re.sub(r"(?<=[a-z0-9])([A-Z])", lambda m: "_" + m[1].lower(), new)
    return new


def table():
    found = set()
    every = set()
    for path in logic():
        if of_a_function(path):
            continue
        text = read(path)
        names = set(HEAD.findall(text)) | {m[1] for m in ALIAS.findall(text)}
        every |= names
        found |= {n for n in names if is_camel(n) or "-" in n}
    rows = {n: snake(n) for n in found} | LEMMAS | UNSEEN
    by_new = collections.defaultdict(list)
    for old, new in rows.items():
        by_new[new].append(old)
    for new, olds in by_new.items():
        if len(olds) > 1:
            for old in olds:
                if "-" in old:
                    rows[old] = new + "_lem"
    fall = [n for n, k in collections.Counter(rows.values()).items() if k > 1]
    fall += [new for old, new in rows.items() if new in every and new != old and new not in rows]
    if fall:
        sys.exit("respell: these names fall together: " + ", ".join(sorted(set(fall))))
    return rows


def logic():
    return sorted(glob.glob("crates/*/specs/**/*.antt", recursive=True) + glob.glob("crates/*/proofs/**/*.antt", recursive=True))


def own_heads(text):
    return {m[1] for m in re.findall(r"use Rattle\.[^{;\n]* as («?)(" + WORD + ")", text)}


def turned(text, rows, mark, path, heads):
    out = []
    for line in text.split("\n"):
        at = comment_at(line, mark)
        out.append(code(line[:at], rows, path, heads) + prose(line[at:], rows))
    return "\n".join(out)


def comment_at(line, mark):
    quoted = [m.span() for m in QUOTED.finditer(line)]
    for m in re.finditer(r"(?<!\S)" + mark, line):
        if not any(a <= m.start() < b for a, b in quoted):
            return m.start()
    return len(line)


def code(text, rows, path, heads):
    quoted = [m.span() for m in QUOTED.finditer(text)]

    def one(m):
        old = m[0]
        if any(a <= m.start() < b for a, b in quoted):
            return old
        local = IN_FILE.get(path, {})
        behind = m.start() > 0 and text[m.start() - 1] == "."
        if old in local and not behind:
            return local[old]
        if old not in rows:
            return old
        if behind and not is_camel(old):
            head = re.search(r"(" + WORD + r")\.$", text[: m.start()])
            if of_a_function(path) or not head or head[1] not in heads:
                return old
        if old in LEMMAS and not path.endswith(".antt"):
            return old
        return rows[old]

    return TOKEN.sub(one, text)


def prose(text, rows):
    return re.sub(r"[A-Za-z0-9_']+", lambda m: rows[m[0]] if m[0] in rows and is_camel(m[0]) else m[0], text)


def main(args):
    rows = table()
    changed = 0
    paths = [(p, "--") for p in logic()]
    paths += [(p, "//") for p in sorted(glob.glob("crates/*/src/**/*.rt", recursive=True))]
    for path, mark in paths:
        old = read(path)
        new = turned(old, rows, mark, path, own_heads(old))
        changed += write(path, old, new, args)
    for path in ["README.md", *sorted(glob.glob("docs/**/*.md", recursive=True)), *sorted(glob.glob("crates/*/must-fail/*.edit"))]:
        old = read(path)
        changed += write(path, old, prose(old, rows), args)
    print(f"respell: {len(rows)} names, {changed} files")
    return 0


def write(path, old, new, args):
    if old == new:
        return 0
    if "--check" not in args:
        with open(path, "w", encoding="utf-8") as f:
            f.write(new)
    return 1


if __name__ == "__main__":
    raise SystemExit(main(sys.argv[1:]))
