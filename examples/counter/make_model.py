#!/usr/bin/env python3
"""Writes model.gts from counter.alt, and prints the numbers of the variables and transitions.

    make_model.py [FOLDER]        the folder of counter.alt and model.gts; without it, the folder of this script

It reads a flat block of AltaRica 3.0: Boolean and Integer variables (init: a state, reset: a flow; low and high:
the ends of a number, without them those of 32 bits), events, transitions, the assertion. Operators bind as in the
language; div and mod are calls.
"""

import pathlib
import re
import struct
import sys

TOKEN = re.compile(r"\s+|//[^\n]*|(:=|->|==|!=|<=|>=|[A-Za-z_][\w.]*|\d+|[-+*<>=(){},;:])")
# A relation's kind, and whether its operands are exchanged.
RELATIONS = {"==": (38, False), "!=": (38, False), "<": (39, False), "<=": (40, False), ">": (39, True), ">=": (40, True)}


class Reader:
    """Reads the text word by word. An expression is given as its type and its nodes in prefix order."""

    def __init__(self, text):
        self.words, at = [], 0
        while at < len(text):
            found = TOKEN.match(text, at)
            if not found:
                raise SystemExit(f"line {text.count(chr(10), 0, at) + 1}: {text[at]!r} is not expected")
            if found[1]:
                self.words.append((found[1], text.count("\n", 0, at) + 1))
            at = found.end()
        self.at = 0
        self.states, self.flows, self.events, self.transitions = {}, {}, [], []

    def fail(self, what):
        word, line = self.words[min(self.at, len(self.words) - 1)]
        raise SystemExit(f"line {line}, at {word!r}: {what}")

    def sees(self, *words):
        return self.at < len(self.words) and self.words[self.at][0] in words

    def word(self):
        if self.at == len(self.words):
            self.fail("the text ends too early")
        self.at += 1
        return self.words[self.at - 1][0]

    def take(self, word):
        """Takes this word if it stands here."""
        found = self.sees(word)
        self.at += found
        return found

    def expect(self, word):
        if not self.take(word):
            self.fail(f"{word!r} is expected")

    def listed(self, item):
        items = [item()]
        while self.take(","):
            items.append(item())
        return items

    def of_type(self, wanted, operand):
        found, nodes = operand
        if found != wanted:
            self.fail(f"{wanted} is expected, not {found}")
        return nodes

    # Declarations.

    def model(self):
        self.expect("block")
        self.word()
        while self.sees("Boolean", "Integer", "event"):
            kind = self.word()
            if kind == "event":
                self.events += self.listed(self.word)
            else:
                names = self.listed(self.word)
                self.variable(kind, names, self.attributes())
            self.expect(";")
        self.numbers = {name: number for number, name in enumerate([*self.states, *self.flows])}
        self.types = {name: kind for name, (kind, _) in [*self.states.items(), *self.flows.items()]}
        self.expect("transition")
        while not self.sees("assertion"):
            self.transitions.append(self.transition())
        self.expect("assertion")
        assertion = self.block(self.flows, "end")
        variables = [nodes for _, nodes in [*self.states.values(), *self.flows.values()]]
        nodes = sum([*variables, *(nodes for _, nodes in self.transitions), assertion], [])
        sizes = len(self.states), len(self.flows), len(self.events), len(self.transitions), len(nodes)
        kinds, parameters = zip(*nodes)
        return sizes, struct.pack(f"<5H{len(nodes)}B{len(nodes)}i", *sizes, *kinds, *parameters)

    def attributes(self):
        def attribute():
            name = self.word()
            self.expect("=")
            sign = -1 if self.take("-") else 1
            value = self.word()
            return name, {"false": 0, "true": 1}[value] if value in ("false", "true") else sign * int(value)

        self.expect("(")
        attributes = dict(self.listed(attribute))
        self.expect(")")
        return attributes

    def variable(self, kind, names, given):
        group = self.states if "init" in given else self.flows
        first = given["init"] if "init" in given else given["reset"]
        ends = [(2, given.get("low", -(2**31))), (3, given.get("high", 2**31 - 1))]
        nodes = [(1, first)] if kind == "Boolean" else [*ends, (4, first)]
        group.update({name: (kind, nodes) for name in names})

    def transition(self):
        event = self.word()
        if event not in self.events:
            self.fail(f"{event} is no event")
        self.expect(":")
        guard = self.of_type("Boolean", self.expression())
        self.expect("->")
        return event, [(5, self.events.index(event)), *guard, *self.instruction(self.states)]

    # Instructions.

    def block(self, targets, end):
        branches = []
        while not self.take(end):
            branches.append(self.instruction(targets))
        return [(19, len(branches)), *sum(branches, [])]

    def instruction(self, targets):
        if self.take("{"):
            return self.block(targets, "}")
        if self.take("skip"):
            self.expect(";")
            return [(16, 0)]
        if self.take("if"):
            condition = self.of_type("Boolean", self.expression())
            self.expect("then")
            return [(18, 0), *condition, *self.instruction(targets)]
        name = self.word()
        if name not in targets:
            self.fail(f"{name} cannot be assigned here")
        self.expect(":=")
        value = self.of_type(self.types[name], self.expression())
        self.expect(";")
        return [(17, self.numbers[name]), *value]

    # Expressions, loosest operator first.

    def expression(self):
        if not self.take("if"):
            return self.chain(self.conjunction, "Boolean", {"or": 37})
        condition = self.of_type("Boolean", self.expression())
        self.expect("then")
        kind, chosen = self.expression()
        self.expect("else")
        return kind, [(46, 0), *condition, *chosen, *self.of_type(kind, self.expression())]

    def conjunction(self):
        return self.chain(self.negation, "Boolean", {"and": 36})

    def negation(self):
        if self.take("not"):
            return "Boolean", [(35, 0), *self.of_type("Boolean", self.negation())]
        return self.relation()

    def relation(self):
        kind, left = self.sum()
        if not self.sees(*RELATIONS):
            return kind, left
        sign = self.word()
        number, exchanged = RELATIONS[sign]
        if number == 38 and kind == "Boolean":
            number = 47
        elif kind == "Boolean":
            self.fail("Integer is expected, not Boolean")
        right = self.of_type(kind, self.sum())
        nodes = [(number, 0), *right, *left] if exchanged else [(number, 0), *left, *right]
        return "Boolean", [(35, 0), *nodes] if sign == "!=" else nodes

    def sum(self):
        return self.chain(self.product, "Integer", {"+": 41, "-": 42})

    def product(self):
        return self.chain(self.primary, "Integer", {"*": 43})

    def chain(self, operand, kind, operators):
        """Operands of one level, grouped from the left."""
        found = operand()
        while self.sees(*operators):
            number = operators[self.word()]
            left = self.of_type(kind, found)
            found = kind, [(number, 0), *left, *self.of_type(kind, operand())]
        return found

    def primary(self):
        word = self.word()
        if word.isdigit():
            return "Integer", [(32, int(word))]
        if word in ("false", "true"):
            return "Boolean", [(33, int(word == "true"))]
        if word == "(":
            inner = self.expression()
            self.expect(")")
            return inner
        if word in ("div", "mod"):
            self.expect("(")
            left = self.of_type("Integer", self.expression())
            self.expect(",")
            right = self.of_type("Integer", self.expression())
            self.expect(")")
            return "Integer", [(44 if word == "div" else 45, 0), *left, *right]
        if word not in self.numbers:
            self.fail(f"{word} is not declared")
        return self.types[word], [(34, self.numbers[word])]


def main():
    folder = pathlib.Path(sys.argv[1] if len(sys.argv) > 1 else pathlib.Path(__file__).parent)
    reader = Reader((folder / "counter.alt").read_text())
    sizes, file = reader.model()
    (folder / "model.gts").write_bytes(file)
    print("{} states, {} flows, {} events, {} transitions, {} nodes".format(*sizes))
    for name, number in reader.numbers.items():
        print(f"variable {number}: {name}")
    for number, (event, _) in enumerate(reader.transitions):
        print(f"transition {number}: {event}")


if __name__ == "__main__":
    main()
