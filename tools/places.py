#!/usr/bin/env python3
"""places.py: counts the places of docs/DESIGN-PASS.md in src/, by the same rules at any commit.

usage: python3 tools/places.py [--list] [TREE]      TREE: the top of a checkout; none: the one that this file is in

Each rule below finds places of one point of the page by the form of the text; --list prints each of them with its file and line.
"""

import collections
import glob
import os
import re
import sys

NAME = r"[A-Za-z_][A-Za-z0-9_]*"
NUMBER = r"(?:u8|u16|u32|u64|usize|i32|i64)"


def line_of(text, at):
    return text.count("\n", 0, at) + 1


def closing(text, at, pair):
    """The place after the bracket that closes the one at place `at`."""
    depth = 0
    for i in range(at, len(text)):
        depth += {pair[0]: 1, pair[1]: -1}.get(text[i], 0)
        if depth == 0:
            return i + 1
    return len(text)


def code_of(text):
    """The text with comments blanked, of the same length."""
    return re.sub(r"//[^\n]*", lambda m: " " * len(m.group()), text)


def functions(text):
    """Name, parameters, clauses and body of each function, with its place."""
    for m in re.finditer(r"\bfn (" + NAME + r")\s*(?:<[^(]*>)?\(", text):
        end = closing(text, m.end() - 1, "()")
        inner = text[m.end() : end - 1]
        parts, depth, start = [], 0, 0
        for i, c in enumerate(inner + ","):
            depth += {"<": 1, "[": 1, "(": 1, ">": -1, "]": -1, ")": -1}.get(c, 0)
            if c == "," and depth == 0:
                parts.append(inner[start:i].strip())
                start = i + 1
        at = end
        clauses = ""
        while True:
            opens = text.find("{", at)
            semicolon = text.find(";", at)
            if opens < 0 or (0 <= semicolon < opens):
                body = ""
                break
            word = text[at:opens]
            past = closing(text, opens, "{}")
            if re.search(r"\b(requires|ensures)\b[^{]*$", word):
                clauses += text[opens:past]
                at = past
                continue
            body = text[opens:past]
            break
        names = [re.sub(r"^mut ", "", p.split(":")[0].strip()) for p in parts if p]
        yield m.start(), m.group(1), names, clauses, body


def enums(text):
    for m in re.finditer(r"\benum (" + NAME + r")[^{]*\{", text):
        body = text[m.end() : closing(text, m.end() - 1, "{}") - 1]
        yield m.start(), m.group(1), re.findall(r"^\s*(" + NAME + r")\s*(\([^)]*\)|\{[^}]*\})?", body, re.M)


def own_results(text):
    """Point 1: an enum of two variants, one or both of which hold values."""
    for at, name, variants in enums(text):
        if len(variants) == 2 and any(v[1] for v in variants):
            yield at, name
        elif len(variants) > 2 and any(v[0] in ("Refused", "Unknown", "Disabled") for v in variants):
            yield at, name


def refusal_numbers(text):
    """Point 1: a refusal as a number."""
    for m in re.finditer(r"Refused\((?:u8|number|_|[0-9]+|[a-z_]+\([a-z]+\))\)|return 10;|=> 2[5-9],|=> 30,", text):
        yield m.start(), m.group()


def kind_numbers(text):
    """Point 1: a constant, or a number in a test, that stands for a kind, a place, a sort, a word or a form."""
    for m in re.finditer(r"\bconst (" + NAME + r"): (?:u8|u64) = [0-9]+;", text):
        yield m.start(), m.group(1)
    for m in re.finditer(r"\b(?:kind|code|call|children) [=!<>]=? ?[0-9]+\b|^\s*[0-9]+ => ", text, re.M):
        yield m.start(), m.group().strip()


def flags(text):
    """Point 1: a flag with values beside it in one struct."""
    for m in re.finditer(r"\bstruct (" + NAME + r")[^{;]*\{", text):
        body = text[m.end() : closing(text, m.end() - 1, "{}") - 1]
        fields = re.findall(r"(" + NAME + r"): ([^,\n]+)", body)
        if any(t == "bool" for _, t in fields) and any(t != "bool" for _, t in fields):
            yield m.start(), m.group(1)


def loops(text):
    """Point 3: a loop that is written out with `while` or `loop`."""
    for m in re.finditer(r"^[ \t]*(while |loop \{)", text, re.M):
        yield m.start(), text[m.start() : text.find("\n", m.start())].strip()


BY_HAND = re.compile(
    r"^(is_same\w*|is_equal|is_sizes|magnitude|wide|two|four|eight|signed|little|parameter_in|twos_complement|truth|narrowed|held|"
    r"at_most\w*|deeper|are_both|one_if_same|number_or|rounds_or|value_number|sizes_number|sort_code|sort_of|is_length|is_count|is_refusal|"
    r"tell\w*|print|is_letter_or_digit|set_all|forget|clear|store|update|load_bytes|fill_\w+|put_bytes|keep|nothing_found|begin|first)$"
)


def by_hand(text):
    """Points 2 and 4: a function whose name says that it compares, copies, converts, sets or prints."""
    for at, name, _, _, _ in functions(text):
        if BY_HAND.match(name):
            yield at, name


GROUPS = [
    ("rows", "kinds", "parameters"),
    ("kinds", "parameters"),
    ("variables", "nexts"),
    ("heads", "links"),
    ("given", "queue", "waits"),
    ("values", "marks", "history"),
    ("new_kinds", "new_parameters"),
    ("text", "sorts", "nodes"),
    ("out", "at"),
    ("nodes", "from"),
    ("file", "dimensions"),
]


def travelling(text):
    """Point 5: parameters that travel together, a place for each function and group."""
    for at, name, names, _, _ in functions(text):
        for group in GROUPS:
            if set(group) <= set(names):
                yield at, name + ": " + ", ".join(group)


def long_lists(text):
    """Point 5: a function with more than six parameters."""
    for at, name, names, _, _ in functions(text):
        if len(names) > 6:
            yield at, f"{name}: {len(names)}"


FACTS = re.compile(r"\b([A-Z][A-Za-z]+) (?:[a-z(])")


def facts(trees):
    """Point 5: a fact that stands in the `requires` or `ensures` of three or more functions."""
    seen = collections.defaultdict(list)
    for path, text in trees:
        for at, name, _, clauses, _ in functions(text):
            for fact in set(FACTS.findall(clauses)):
                seen[fact].append((path, line_of(text, at), name))
    return {fact: places for fact, places in seen.items() if len(places) > 2}


def rows_of_numbers(text):
    """Point 6: an array in place of a struct, cells that pack two values, a length beside a buffer."""
    for m in re.finditer(r"\[\[i32; 3\]", text):
        yield m.start(), m.group()
    for m in re.finditer(r"\bUNIT\b", text):
        yield m.start(), m.group()
    for m in re.finditer(r"\b(?:queued|length|bytes): usize\b", text):
        yield m.start(), m.group()


def switches(text):
    """Point 7: a match on which step, call or command to carry out."""
    for m in re.finditer(r"\bmatch (?:step|call|command|op|kind)\b", text):
        yield m.start(), m.group()


PLACES = [
    ("1 own enums of the shape of Option or Result", own_results),
    ("1 refusals as numbers", refusal_numbers),
    ("1 numbers for kinds, places, sorts, words, forms", kind_numbers),
    ("1 structs with a flag beside values", flags),
    ("3 loops written out", loops),
    ("2, 4 functions that compare, copy, convert, set or print by hand", by_hand),
    ("5 groups of parameters that travel together, by function", travelling),
    ("5 functions with more than six parameters", long_lists),
    ("6 rows of numbers, packed cells, lengths beside buffers", rows_of_numbers),
    ("7 switches on which step", switches),
]


def shape(body):
    """A body with its names, types and numbers blanked."""
    return re.sub(r"\s+", " ", re.sub(r"[0-9]+", "0", re.sub(NAME, "x", re.sub(NUMBER, "t", body)))).strip()


def main():
    args = [a for a in sys.argv[1:] if a != "--list"]
    top = args[0] if args else os.path.join(os.path.dirname(os.path.abspath(__file__)), "..")
    trees = []
    for path in sorted(glob.glob(os.path.join(top, "crates", "*", "src", "*.rt"))):
        trees.append((os.path.relpath(path, top), code_of(open(path).read())))
    for title, rule in PLACES:
        found = [(path, line_of(text, at), what) for path, text in trees for at, what in rule(text)]
        print(f"{title}: {len(found)}")
        if "--list" in sys.argv:
            for path, line, what in found:
                print(f"    {path}:{line}: {what}")
    shapes = collections.defaultdict(list)
    for path, text in trees:
        for at, name, _, _, body in functions(text):
            if body.count("\n") > 2:
                shapes[shape(body)].append((path, line_of(text, at), name))
    twins = [places for places in shapes.values() if len(places) > 1]
    print(f"2 functions whose bodies have one shape, names, types and numbers aside: {sum(len(t) for t in twins)} in {len(twins)} groups")
    if "--list" in sys.argv:
        for places in twins:
            print("    " + "; ".join(f"{p}:{l}: {n}" for p, l, n in places))
    named = facts(trees)
    print(f"5 facts in the clauses of three or more functions: {len(named)}, in {sum(len(p) for p in named.values())} places")
    if "--list" in sys.argv:
        for fact, places in sorted(named.items(), key=lambda x: -len(x[1])):
            print(f"    {fact}: {len(places)}")


main()
