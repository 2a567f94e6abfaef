#!/usr/bin/env python3
"""cases.py: writes the stored cases of the test programs, from the files of bench/cases.

check_cases: checks.txt; call_cases: calls.txt, earlier_calls.txt and values.txt; program_cases: programs.txt and earlier_programs.txt;
text_cases: texts.txt; join_cases: joins.txt; window_cases: windows.txt; wide_cases: gtswide.txt; each with the edges below. Where
too_large.txt names an answer, 24, 25, 28 are 38, 39, 40 (see `lines_of`). The models of bench/cases/old are in the old layout: all of
them go to wide_cases, and those that the old check accepts, or refuses by 3 to 8, are rewritten and keep their answers (see
`rewritten_lines`), but for joins at the old limits, which are left out, and `f` with 4 or 5 digits. The cases of NAME go to
crates/NAME/data/cases and the expected output to crates/NAME/stdout. The byte format is described in crates/NAME/src/main.rt.
"""
import os
import re
from collections import namedtuple

ROOT = os.path.dirname(os.path.dirname(os.path.abspath(__file__)))
BOOLEAN, NUMBER = 1, 2


def little(number, width):
    return (number % 256 ** width).to_bytes(width, 'little')


def sizes_of(*sizes):
    """The bytes of the five sizes."""
    return b''.join(little(size, 2) for size in sizes)


def model(states, flows, events, transitions, nodes):
    """The bytes of a model file."""
    return sizes_of(states, flows, events, transitions, len(nodes)) + bytes(k for k, _ in nodes) + b''.join(little(p, 4) for _, p in nodes)


def case(part, answer, numbers, body):
    header = bytes([part, answer]) + b''.join(little(x, 2) for x in numbers) + little(len(body), 4)
    return header + body


def model_case(file, answer, sizes=(0, 0, 0, 0, 0)):
    return case(1, answer, sizes, file)


def expression_case(kinds, parameters, file, wanted, answer):
    """An expression handed beside the model of a file."""
    body = bytes(kinds) + b''.join(little(p, 4) for p in parameters) + file
    return case(2, answer, (wanted, len(kinds), len(parameters), len(file), 0), body)


def tree_of(nodes):
    """The kinds and the parameters of an expression."""
    return [k for k, _ in nodes], [p for _, p in nodes]


def numbers(words):
    assert int(words[1]) == len(words) - 2
    return [int(w) for w in words[2:]]


def words_of(name):
    """The words of each line of a file of bench/cases."""
    with open(os.path.join(ROOT, 'bench', 'cases', name)) as lines:
        return [line.split() for line in lines]


# For each file from before A8 the places of the answers that are 38, 39, 40 now: among its calls, or among the lines of its outputs.
TOO_LARGE = {words[0]: numbers(words) for words in words_of('too_large.txt')}
EXACT = {'no 24': 'no 38', 'no 25': 'no 39', 'no 28': 'no 40'}


def exact_calls(lines, places):
    """The lines of lists of calls, with the answers at these places made exact."""
    wants = [words for words in lines if words[0] == 'want']
    for place in places:
        wants[place][1:] = EXACT[' '.join(wants[place][1:])].split()
    return lines


def exact_programs(lines, places):
    """The lines of runs of gtsrun, with the answers at these places made exact."""
    outputs = [words for words in lines if words[0] == 'output']
    answers = [bytes(numbers(words)).decode().splitlines() for words in outputs]
    all_places = [(run, line) for run, each in enumerate(answers) for line in range(len(each))]
    for run, line in [all_places[place] for place in places]:
        answers[run][line] = EXACT[answers[run][line]]
    for words, each in zip(outputs, answers):
        words[2:] = map(str, ''.join(line + '\n' for line in each).encode())
    return lines


def lines_of(name):
    """The words of each line of a file of bench/cases, with today's answers."""
    exact = exact_programs if 'programs' in name else exact_calls
    return exact(words_of(name), TOO_LARGE.get(name, []))


def stored_checks(lines):
    """The cases of checks.txt."""
    cases, file, kinds = [], b'', None
    for words in lines:
        if words[0] == 'model':
            file, kinds = bytes(numbers(words)), None
        elif words[0] == 'kinds':
            kinds = numbers(words)
        elif words[0] == 'params':
            parameters = numbers(words)
        elif words[0] == 'wanted':
            wanted = BOOLEAN if words[1] == 'boolean' else NUMBER
        elif kinds is not None:
            answer = 0 if words[1] == 'ok' else int(words[2])
            cases.append(expression_case(kinds, parameters, file, wanted, answer))
        elif words[1] == 'no':
            cases.append(model_case(file, int(words[2])))
        else:
            cases.append(model_case(file, 0, [int(w) for w in words[2:]]))
    return cases


SKIP, TRUE, FLAG = (16, 0), (33, 1), (1, 0)
OLD_SMALLEST = bytes([0, 0, 0, 0, 1, 0, 16, 0, 0, 0, 0])
RANGE = [(2, -5), (3, 5), (4, 0)]


def accepted(states, flows, events, transitions, nodes):
    file = model(states, flows, events, transitions, nodes)
    return model_case(file, 0, (states, flows, events, transitions, len(nodes)))


def refused(answer, states, flows, events, transitions, nodes):
    return model_case(model(states, flows, events, transitions, nodes), answer)


def guarded(guard):
    """A model with a Boolean and a number as states and one transition with this guard."""
    return (2, 0, 1, 1, [FLAG] + RANGE + [(5, 0)] + guard + [SKIP, SKIP])


def acting(action):
    """A model with a state and a flow, one transition with this action."""
    return (1, 1, 1, 1, [FLAG, FLAG, (5, 0), TRUE] + action + [SKIP])


def asserting(assertion):
    return (1, 1, 0, 0, [FLAG, FLAG] + assertion)


def depth_case(parts, answer):
    return accepted(*parts) if answer == 0 else refused(answer, *parts)


def full_tree(depth):
    """A number expression with all leaves at this depth."""
    return [(32, 1)] if depth == 1 else [(41, 0)] + 2 * full_tree(depth - 1)


def headers():
    """Lengths, and sizes alone or before nodes that do not matter: 2 before 37 before 3, and 37 before what the nodes offend."""
    cases = [model_case(bytes(length), 1) for length in (0, 1, 5, 6, 9)] + [model_case(bytes(10), 4), model_case(bytes(11), 3)]
    alone = {
        2: [(0, 0, 0, 0, 12001), (0, 0, 0, 0, 65535), (65535, 0, 0, 0, 12001), (4000, 1, 0, 0, 12001), 5 * (65535,)],
        37: [
            (4001, 0, 0, 0, 0), (0, 4001, 0, 0, 0), (4000, 1, 0, 0, 0), (1, 4000, 0, 0, 0), (2001, 2000, 0, 0, 0),
            (65535, 0, 0, 0, 0), (0, 65535, 0, 0, 0), (65535, 65535, 0, 0, 0), (65535, 1, 0, 0, 0), (32768, 32768, 0, 0, 0),
            (4001, 0, 0, 0, 12000), (0, 4001, 65535, 65535, 1),
        ],
        3: [(0, 0, 0, 0, 12000), (0, 0, 0, 0, 256), (4000, 0, 0, 0, 1), (0, 4000, 0, 0, 12000)],
        4: [(4000, 0, 0, 0, 0), (0, 4000, 0, 0, 0), (2000, 2000, 65535, 65535, 0), (9, 9, 9, 9, 0)],
    }
    cases += [model_case(sizes_of(*sizes), answer) for answer in alone for sizes in alone[answer]]
    smallest, wide = model(0, 0, 0, 0, [SKIP]), model(4001, 0, 0, 0, [(99, 7)])
    cases += [model_case(file, 3) for file in (smallest + bytes(1), smallest[:-1], smallest + bytes(5), smallest[:-5], OLD_SMALLEST)]
    cases += [model_case(file, 37) for file in (wide, wide + bytes(1), wide[:-1], wide + bytes(5))]
    longest = model(0, 0, 0, 0, [(19, 11999)] + 11999 * [SKIP])
    return cases + [model_case(longest + bytes(1), 3), model_case(longest[:-1], 3), model_case(longest[:-5], 3)]


def largest():
    """Models at the limits of the sizes, and past them."""
    flags, free = 4000 * [FLAG], lambda event: [(5, event), TRUE, SKIP]
    asserted = lambda assertion: (1, 3999, 0, 0, flags + assertion)
    return [
        *[accepted(0, 0, events, 0, [SKIP]) for events in (0, 255, 256, 65535)],
        accepted(255, 255, 255, 0, 510 * [FLAG] + [SKIP]),
        *[accepted(states, 4000 - states, 0, 0, flags + [SKIP]) for states in (0, 1, 256, 2000, 3999, 4000)],
        refused(37, 4000, 1, 0, 0, flags + [FLAG, SKIP]),
        refused(37, 4001, 0, 0, 0, flags + [FLAG, SKIP]),
        refused(6, 4000, 0, 0, 0, flags[1:] + [SKIP]),
        accepted(4000, 0, 65535, 2666, flags + 2666 * free(65534) + [SKIP]),
        accepted(255, 0, 255, 255, 255 * [FLAG] + 255 * free(254) + [SKIP]),
        *[accepted(0, 0, 1, count, count * free(0) + [SKIP]) for count in (256, 257, 3998)],
        accepted(0, 0, 65535, 3999, 3999 * free(65534) + [SKIP]),
        accepted(2, 0, 65535, 3999, 2 * [FLAG] + 3999 * free(65534) + [SKIP]),
        refused(7, 0, 0, 65535, 3999, 3998 * free(65534) + free(65535) + [SKIP]),
        refused(7, 0, 0, 256, 1, free(256) + [SKIP]),
        refused(4, 0, 0, 1, 4000, 4000 * free(0)),
        *[refused(4, 0, 0, 1, 65535, count * free(0)) for count in (0, 1, 3999, 4000)],
        refused(6, 0, 0, 1, 65535, 3999 * free(0) + [SKIP]),
        refused(6, 0, 0, 1, 257, free(0) + [SKIP]),
        refused(6, 0, 0, 1, 256, 257 * free(0) + [SKIP]),
        accepted(1, 0, 0, 0, [FLAG, (19, 11998)] + 11998 * [SKIP]),
        accepted(0, 0, 0, 0, [(19, 11999)] + 11999 * [SKIP]),
        refused(2, 0, 0, 0, 0, [(19, 12000)] + 12000 * [SKIP]),
        refused(8, 0, 0, 0, 0, [(19, 11998)] + 11999 * [SKIP]),
        accepted(0, 0, 0, 0, 30 * [(19, 1)] + [(19, 11969)] + 11969 * [SKIP]),
        refused(5, 0, 0, 0, 0, 31 * [(19, 1)] + [(19, 11968)] + 11968 * [SKIP]),
        *[accepted(*asserted([(17, flow), (34, read)])) for flow, read in ((1, 3999), (256, 255), (3999, 0))],
        *[refused(7, *asserted([(17, flow), (34, read)])) for flow, read in ((0, 1), (4000, 0), (1, 4000), (1, 65536), (65537, 0))],
    ]


def edges():
    """Cases at the edges of document 01's rules, with the answers that they demand."""
    big, negative = 2147483647, -2147483648
    cases = [
        # blocks
        refused(4, 0, 0, 0, 0, [(19, big)]),
        refused(4, 0, 0, 0, 0, [(19, big)] + 11999 * [SKIP]),
        refused(4, *acting([(19, big)])),
        refused(6, 0, 0, 1, 2, 2 * [(5, 0), TRUE, (19, big)] + [SKIP]),
        refused(7, 0, 0, 0, 0, [(19, -1)]),
        refused(7, 0, 0, 0, 0, [(19, negative)]),
        accepted(0, 0, 0, 0, [(19, 0)]),
        refused(8, 0, 0, 0, 0, [(19, 0), SKIP]),
        refused(4, 0, 0, 0, 0, [(19, 2), SKIP]),
        # depth: blocks, conditions, expressions
        accepted(0, 0, 0, 0, 31 * [(19, 1)] + [SKIP]),
        accepted(0, 0, 0, 0, 31 * [(19, 1)] + [(19, 0)]),
        refused(5, 0, 0, 0, 0, 32 * [(19, 1)] + [SKIP]),
        refused(5, 0, 0, 0, 0, 32 * [(19, 1)] + [(99, 7)]),
        refused(4, 0, 0, 0, 0, 32 * [(19, 1)]),
        accepted(0, 0, 0, 0, 31 * [(18, 0), TRUE] + [SKIP]),
        refused(5, 0, 0, 0, 0, 32 * [(18, 0), TRUE] + [SKIP]),
        accepted(*guarded(31 * [(35, 0)] + [TRUE])),
        refused(5, *guarded(32 * [(35, 0)] + [TRUE])),
        accepted(*asserting([(17, 1)] + 30 * [(35, 0)] + [TRUE])),
        refused(5, *asserting([(17, 1)] + 31 * [(35, 0)] + [TRUE])),
        # variables
        refused(6, 1, 0, 0, 0, [SKIP]),
        refused(6, 1, 0, 0, 0, [(3, 0), SKIP]),
        refused(6, 1, 0, 0, 0, [(4, 0), SKIP]),
        refused(7, 1, 0, 0, 0, [(1, 2), SKIP]),
        refused(7, 1, 0, 0, 0, [(1, -1), SKIP]),
        refused(4, 1, 0, 0, 0, [(2, 5)]),
        refused(7, 1, 0, 0, 0, [(2, 5), (3, 4)]),
        refused(4, 1, 0, 0, 0, [(2, 5), (3, 5)]),
        refused(6, 1, 0, 0, 0, [(2, 5), (4, 5), (3, 5)]),
        refused(6, 1, 0, 0, 0, [(2, 5), (3, 5), (3, 5)]),
        refused(7, 1, 0, 0, 0, [(2, 5), (3, 5), (4, 6)]),
        refused(7, 1, 0, 0, 0, [(2, 5), (3, 5), (4, 4)]),
        accepted(1, 0, 0, 0, [(2, 5), (3, 5), (4, 5), SKIP]),
        accepted(1, 0, 0, 0, [(2, negative), (3, big), (4, negative), SKIP]),
        accepted(1, 0, 0, 0, [(2, negative), (3, big), (4, big), SKIP]),
        refused(4, 1, 0, 0, 0, [FLAG]),
        # transitions
        refused(7, 0, 0, 0, 1, [(5, 0), TRUE, SKIP, SKIP]),
        refused(7, 0, 0, 1, 1, [(5, 1), TRUE, SKIP, SKIP]),
        refused(7, 0, 0, 1, 1, [(5, -1), TRUE, SKIP, SKIP]),
        refused(6, 0, 0, 1, 1, [SKIP, TRUE, SKIP, SKIP]),
        refused(4, 0, 0, 1, 1, [(5, 0), TRUE, SKIP]),
        # types and parameters
        refused(6, *guarded([(32, 0)])),
        refused(7, *guarded([(33, 2)])),
        refused(7, *guarded([(34, 1)])),
        refused(7, *guarded([(34, 2)])),
        refused(7, *guarded([(34, -1)])),
        accepted(*guarded([(34, 0)])),
        refused(6, *guarded([SKIP])),
        refused(6, *guarded([(48, 0)])),
        refused(6, *guarded([(41, 5), (32, 0), (32, 0)])),
        refused(7, *guarded([(36, 5), (32, 0), (32, 0)])),
        refused(6, *guarded([(36, 0), (32, 0), (32, 0)])),
        refused(7, *guarded([(47, 0), (34, 0), (34, 1)])),
        refused(6, *guarded([(47, 0), (34, 0), (32, 1)])),
        accepted(*guarded([(38, 0), (34, 1), (32, negative)])),
        refused(7, *guarded([(38, 0), (34, 0), (32, 1)])),
        accepted(*guarded([(46, 0), (34, 0), TRUE, (40, 0), (34, 1), (32, 1)])),
        refused(6, *guarded([(46, 0), (32, 1), TRUE, TRUE])),
        refused(6, *guarded([(46, 0), TRUE, TRUE, (32, 1)])),
        refused(7, *guarded([(46, 1), TRUE, TRUE, TRUE])),
        # instructions
        accepted(*acting([(17, 0), (34, 1)])),
        refused(7, *acting([(17, 1), (34, 0)])),
        refused(7, *acting([(17, 2), (34, 0)])),
        refused(7, *acting([(17, -1), (34, 0)])),
        refused(6, *acting([(17, 0), (32, 0)])),
        refused(7, *acting([(16, 1)])),
        refused(7, *acting([(18, 1), TRUE, SKIP])),
        refused(6, *acting([TRUE])),
        accepted(*asserting([(17, 1), (34, 0)])),
        refused(7, *asserting([(17, 0), (34, 1)])),
        refused(7, *asserting([(17, 2), (34, 1)])),
        refused(8, *asserting([SKIP, SKIP])),
    ]
    # depth in each place of a child: 30 negations below it reach depth 32, 31 reach depth 33
    for more, answer in ((30, 0), (31, 5)):
        deep = more * [(35, 0)] + [TRUE]
        for nodes in [[(35, 0)] + deep, [(36, 0)] + deep + [TRUE], [(37, 0), TRUE] + deep]:
            cases.append(depth_case(guarded(nodes), answer))
        for place in range(3):
            nodes = [(46, 0)] + place * [TRUE] + deep + (2 - place) * [TRUE]
            cases.append(depth_case(guarded(nodes), answer))
        cases.append(depth_case(asserting([(18, 0)] + deep + [SKIP]), answer))
        cases.append(depth_case(acting([(18, 0)] + deep + [SKIP]), answer))
        cases.append(depth_case(acting([(17, 0)] + deep), answer))
        cases.append(depth_case(acting([(18, 0), TRUE] + more * [(19, 1)] + [SKIP]), answer))
        cases.append(depth_case(acting([(19, 2), SKIP] + more * [(18, 0), TRUE] + [SKIP]), answer))
    outside = [
        (0, NUMBER, 31 * [(42, 0), (32, 1)] + [(32, 1)]),
        (5, NUMBER, 32 * [(42, 0), (32, 1)] + [(32, 1)]),
        (4, NUMBER, 31 * [(42, 0), (32, 1)] + [(42, 0)]),
        (0, NUMBER, [(41, 0)] + full_tree(13) + full_tree(12)),
        (8, NUMBER, full_tree(12) + [(32, 1)]),
        (6, BOOLEAN, full_tree(3)),
        (4, BOOLEAN, []),
        (0, BOOLEAN, [(34, 0)]),
        (7, NUMBER, [(34, 0)]),
        (0, NUMBER, [(34, 1)]),
        (7, BOOLEAN, [(34, 2)]),
        (6, BOOLEAN, [SKIP]),
        (6, BOOLEAN, [FLAG]),
    ]
    both = model(2, 0, 0, 0, [FLAG] + RANGE + [SKIP])
    none = model(0, 0, 0, 0, [SKIP])
    for answer, wanted, nodes in outside:
        cases.append(expression_case(*tree_of(nodes), both, wanted, answer))
    cases.append(expression_case([33], [], none, BOOLEAN, 3))
    cases.append(expression_case([], [0], none, BOOLEAN, 3))
    cases.append(expression_case([33, 33], [1], none, BOOLEAN, 3))
    # the model's refusal comes first, whatever the expression is
    cases.append(expression_case([33], [1], b'', BOOLEAN, 1))
    cases.append(expression_case([33], [], bytes(9), BOOLEAN, 1))
    cases.append(expression_case([33], [], sizes_of(4001, 0, 0, 0, 12001), BOOLEAN, 2))
    cases.append(expression_case([33], [], sizes_of(4001, 0, 0, 0, 0), BOOLEAN, 37))
    cases.append(expression_case([], [], bytes(10), BOOLEAN, 4))
    cases.append(expression_case([99], [0], model(1, 0, 0, 0, [(1, 2), SKIP]), BOOLEAN, 7))
    cases.append(expression_case([33], [2], model(0, 0, 0, 0, [SKIP, SKIP]), BOOLEAN, 8))
    return headers() + largest() + cases


CALLS = {'check': 0, 'start': 1, 'fire': 2, 'back': 3, 'marks': 4, 'value': 5, 'pick': 6, 'first_outside': 7}
FORMS = {'no': 0, 'ok': 1, 'done': 2, 'value': 3, 'sizes': 4, 'pick': 5, 'none': 6, 'outside': 7, 'within': 8}


# All that is lent: the run's values, marks, history and n, and the buffer of the marks call.
Store = namedtuple('Store', 'values marks history n buffer')


def store_bytes(store):
    history = b''.join(little(entry, 2) for entry in store.history)
    return b''.join(little(v, 4) for v in store.values) + bytes(store.marks) + history + bytes(store.buffer)


def call_bytes(call, wanted, store):
    """A call, as ('fire', 3), its wanted answer, as ('ok', 2), and the store afterwards."""
    looked = wanted[-1] if wanted[0] in ('outside', 'within', 'sizes') else 0
    if wanted[0] == 'sizes':
        number = sizes_of(*wanted[1:5])
    elif wanted[0] in ('done', 'none', 'within'):
        number = bytes(8)
    else:
        number = little(wanted[1], 8)
    argument = call[1] if len(call) == 2 else 0
    header = bytes([CALLS[call[0]], FORMS[wanted[0]]]) + little(looked, 2) + bytes(4)
    return header + little(argument, 8) + number + little(store.n, 8) + store_bytes(store)


def list_bytes(file, twin, store, calls):
    """A list of calls on a model, its shuffled twin, from a store."""
    lengths = [len(store.values), len(store.history), len(store.buffer), len(calls), len(store.marks)]
    header = little(len(file), 4) + little(len(twin), 4) + b''.join(little(x, 2) for x in lengths) + bytes(6)
    return header + little(store.n, 8) + file + twin + store_bytes(store) + b''.join(call_bytes(*c) for c in calls)


def listed(files, store, calls):
    """A list of calls on a model and its twin, with its number of calls."""
    return (list_bytes(*files, store, calls), len(calls))


def kept(store, answers):
    """Calls that leave the store as it is, each with its answer."""
    return [(call, wanted, store) for call, wanted in answers]


def stored_store(part):
    """The store of some lines, which call the buffer `marks` and the run's marks `held`."""
    return Store(part['values'], part['held'], part['record'], part['n'], part['marks'])


def stored_calls(lines):
    """The lists of calls.txt, each with its number of calls."""
    lists, part, calls = [], {}, []
    for words in lines:
        if words[0] == 'call':
            if not calls:
                begin = stored_store(part)
            calls.append([(words[1], *map(int, words[2:]))])
        elif words[0] == 'want':
            rest = numbers(words[1:]) if words[1] == 'pick' else [int(w) for w in words[2:]]
            assert words[1] != 'pick' or len(rest) == 1
            calls[-1].append((words[1], *rest))
        elif words[0] == 'end':
            lists.append(listed((bytes(part['model']), bytes(part['twin'])), begin, calls))
            part, calls = {}, []
        elif words[0] != 'same':
            part[words[0]] = int(words[1]) if words[0] == 'n' else numbers(words)
        if calls and words[0] in ('same', 'held'):
            calls[-1].append(stored_store(part))
    return lists


def range_check(files, store, wanted):
    """A list of one call, first outside."""
    return listed(files, store, kept(store, [(('first_outside',), wanted)]))


def stored_values(lines):
    """The cases of values.txt, each a list of one call; nothing but the values is lent to it."""
    lists = []
    for words in lines:
        if words[0] == 'model':
            file = bytes(numbers(words))
        elif words[0] == 'values':
            values = numbers(words)
        else:
            lists.append(range_check((file, file), Store(values, [], [], 0, []), (words[1], *map(int, words[2:]))))
    return lists


ASSIGN = [(17, 0), TRUE]
TOGGLE = [(17, 0), (35, 0), (34, 0)]
ONE_OVER_ZERO = [(44, 0), (32, 1), (32, 0)]


def equals(join, expression, number):
    return [(38, 0)] + join(expression, [(32, number)])


def failed_condition(join):
    return equals(join, ONE_OVER_ZERO, 1)


def conditional(condition, chosen, other):
    """An if-then-else."""
    return [(46, 0)] + condition + chosen + other


def assignment(variable, expression):
    return [(17, variable)] + expression


def when(condition, instruction):
    return [(18, 0)] + condition + instruction


def block(branches):
    return [(19, len(branches))] + [node for branch in branches for node in branch]


def transition_nodes(guards, actions):
    """Transitions of event 0."""
    return [node for guard, action in zip(guards, actions) for node in [(5, 0)] + guard + action]


def stepped(action, twin, rounds=1, assertion=[SKIP], other=[SKIP], flows=0):
    """A pick that is refused, start, marks, a step, take back twice: the action and its twin give the state 1; every flow becomes 1."""
    head, transition = (1 + flows) * [FLAG], [(5, 0), TRUE]
    files = [model(1, flows, 1, 1, head + transition + a + b) for a, b in ((action, assertion), (twin, other))]
    store = Store(3 * [7] if flows == 0 else (1 + flows) * [7], [9, 8], [9, 65535], 77, [5, 6])
    rest = flows * [1] + store.values[1 + flows:]
    begun = store._replace(values=[0] + rest, marks=[1, 8], n=0)
    copied = begun._replace(buffer=[1, 6])
    after = copied._replace(values=[1] + rest, history=[0, 65535], n=1)
    back = after._replace(values=[0] + rest, n=0)
    calls = [
        (('pick',), ('no', 20), store),
        (('start',), ('ok', rounds), begun),
        (('marks',), ('done',), copied),
        (('fire', 0), ('ok', rounds), after),
        (('back',), ('done',), back),
        (('back',), ('no', 22), back),
    ]
    return listed(files, store, calls)


def refused_step(number, action, twin):
    """A step whose action is refused; the mark held is made up."""
    nodes = [FLAG, (5, 0), TRUE]
    files = [model(1, 0, 1, 1, nodes + each + [SKIP]) for each in (action, twin)]
    store = Store([0], [2], [3], 0, [])
    return listed(files, store, kept(store, [(('fire', 0), ('no', number)), (('marks',), ('no', 10)), (('pick',), ('pick', 0))]))


def refused_start(number, assertion, twin):
    """A start whose assertion over one flow is refused."""
    files = [model(0, 1, 0, 0, [FLAG] + each) for each in (assertion, twin)]
    store = Store([5], [], [], 3, [])
    return listed(files, store, kept(store, [(('start',), ('no', number)), (('value', 0), ('no', 20))]))


def guard_nest(guard, twin, mark, toggled=None):
    """Start, marks, pick and a step with a guard that has this mark over a state of 1, and the mark `toggled` over 0."""
    files = [model(1, 0, 1, 1, [(1, 1), (5, 0)] + each + TOGGLE + [SKIP]) for each in (guard, twin)]
    store = Store([0], [7], [0], 0, [9])
    begun = store._replace(values=[1], marks=[mark])
    copied = begun._replace(buffer=[mark])
    calls = [
        (('start',), ('ok', 1), begun),
        (('marks',), ('done',), copied),
        (('pick',), ('pick', 0) if mark == 1 else ('none',), copied),
    ]
    if mark == 1:
        calls.append((('fire', 0), ('ok', 1), copied._replace(values=[0], marks=[toggled], n=1)))
        calls.append((('back',), ('done',), copied))
    else:
        calls.append((('fire', 0), ('no', 23 if mark == 0 else 24), copied))
    return listed(files, store, calls)


def long_history(places):
    """Take back at the end of a history of so many steps, two of three of which toggle the state; and at two places before."""
    file = model(1, 0, 1, 2, [FLAG] + [(5, 0), TRUE] + TOGGLE + [(5, 0), TRUE, SKIP] + [SKIP])
    history = [0 if i % 3 else 1 for i in range(places)]
    value = [sum(1 for t in history[:n] if t == 0) % 2 for n in range(places + 1)]
    store = Store([1], [0, 2], history, places, [])
    calls = kept(store, [(('fire', 0), ('no', 21)), (('fire', 2), ('no', 11))])
    for n in (places - 1, places - 2, places - 3):
        calls.append((('back',), ('done',), store._replace(values=[value[n]], marks=[1, 1], n=n)))
    return listed((file, file), store, calls)


def largest_sizes(count, events):
    """So many states, flows and transitions; each transition raises its state if the one before it is raised."""
    variables, actions = 2 * count * [FLAG], []
    for t in range(count):
        actions += [(5, events - 1), (34, t - 1) if t else TRUE, (17, t), TRUE]
    assigned = [[(17, count + i), (34, i)] for i in range(count)]
    files = [model(count, count, events, count, variables + actions + block(order)) for order in (assigned, assigned[::-1])]
    ones = lambda k: k * [1] + (count - k) * [0]
    values = lambda k: ones(k) + ones(k) + [-7, 8]
    marks = lambda k: ones(k + 1) + [3, 4]
    store = Store(2 * count * [-1] + [-7, 8], count * [9] + [3, 4], 300 * [count - 1], 2 ** 64 - 1, count * [9] + [5, 6])
    left = store._replace(values=values(0), marks=marks(0), n=0)
    calls = [
        (('first_outside',), ('outside', 0, 1), store),
        (('start',), ('ok', 2), left),
        (('first_outside',), ('within', 2 * count), left),
    ]
    left = left._replace(buffer=ones(1) + [5, 6])
    calls.append((('marks',), ('done',), left))
    for k in range(3):
        history = left.history[:k] + [k] + left.history[k + 1:]
        left = left._replace(values=values(k + 1), marks=marks(k + 1), history=history, n=k + 1)
        calls.append((('fire', k), ('ok', 2), left))
    calls.append((('fire', count - 1), ('no', 23), left))
    left = left._replace(buffer=ones(4) + [5, 6])
    calls.append((('marks',), ('done',), left))
    calls += kept(left, [(('pick',), ('pick', 0)), (('value', count + 2), ('value', 1)), (('value', 2 * count), ('no', 12))])
    left = left._replace(values=values(2), marks=marks(2), n=2)
    calls.append((('back',), ('done',), left))
    calls.append((('check',), ('sizes', count, count, events, count, 8 * count + 1), left))
    return listed(files, store, calls)


def chain_of(flows, nots=0):
    """Flows from 1 on, each assigned from the next one under so many negations, the last one true."""
    last = flows - 1
    return [assignment(1 + i, nots * [(35, 0)] + ([(34, 2 + i)] if i < last else [TRUE])) for i in range(flows)]


def longest_chain():
    """A state and 3,999 flows, each assigned from the next one: 4,000 rounds; no transitions."""
    chain = chain_of(3999)
    files = [model(1, 3999, 0, 0, 4000 * [FLAG] + block(order)) for order in (chain, chain[::-1])]
    store = Store(4000 * [2] + [-7, 8], [9], [65535], 77, [5])
    begun = store._replace(values=[0] + 3999 * [1] + [-7, 8], n=0)
    calls = kept(store, [(('check',), ('sizes', 1, 3999, 0, 0, 11999)), (('first_outside',), ('outside', 0, 1))])
    calls.append((('start',), ('ok', 4000), begun))
    return listed(files, store, calls + kept(begun, [
        (('first_outside',), ('within', 4000)), (('value', 3999), ('value', 1)), (('value', 4000), ('no', 12)),
        (('fire', 0), ('no', 11)), (('pick',), ('none',)), (('back',), ('no', 22)),
    ]))


def most_of_all():
    """3,999 transitions, of which only the last is fireable: made-up marks are copied, the last one is fired and taken back."""
    file = model(0, 0, 65535, 3999, 3998 * [(5, 65534), (33, 0), SKIP] + [(5, 0), TRUE, SKIP] + [SKIP])
    store = Store([7], 3999 * [2] + [9], [65535, 3999, 256], 0, 3999 * [7] + [8])
    copied = store._replace(buffer=3999 * [2] + [8])
    fired = copied._replace(marks=3998 * [0] + [1, 9], history=[3998, 3999, 256], n=1)
    seen = fired._replace(buffer=3998 * [0] + [1, 8])
    back = seen._replace(n=0)
    calls = [
        (('check',), ('sizes', 0, 0, 65535, 3999, 11998), store),
        (('marks',), ('done',), copied),
        (('pick',), ('pick', 3998), copied),
        *kept(copied, [(('fire', t), ('no', 23)) for t in (0, 256, 3997)] + [(('fire', t), ('no', 11)) for t in (3999, 65535, 69534)]),
        (('fire', 3998), ('ok', 1), fired),
        (('marks',), ('done',), seen),
        (('back',), ('done',), back),
        (('back',), ('no', 22), back),
    ]
    return listed((file, file), store, calls)


def wide_entries(transitions):
    """So many transitions, of which the last alone toggles the state; entries at this number and above are no transitions."""
    free = [(5, 0), TRUE, SKIP]
    file = model(1, 0, 1, transitions, [FLAG] + (transitions - 1) * free + [(5, 0), TRUE] + TOGGLE + [SKIP])
    last, ones = transitions - 1, transitions * [1]
    store = Store([1], ones, [last, 0, 65535], 2, [])
    once, none = store._replace(n=1), store._replace(values=[0], n=0)
    again = none._replace(values=[1], n=1)
    calls = [(('back',), ('done',), once), (('back',), ('done',), none), (('fire', last), ('ok', 1), again)]
    fired = again._replace(history=[last, 0, 65535], n=2)
    calls += [(('fire', 0), ('ok', 1), fired), (('fire', transitions), ('no', 11), fired)]
    lists = [listed((file, file), store, calls)]
    for history, n, answer in [
        ([transitions], 1, ('no', 20)), ([65535], 1, ('no', 20)), ([0, transitions], 2, ('no', 20)), ([last, 65535], 1, ('value', 0)),
        ([last, last, transitions], 2, ('value', 0)), ([last], 2, ('no', 20)),
    ]:
        store = Store([0], ones, history, n, [])
        lists.append(listed((file, file), store, kept(store, [(('value', 0), answer)])))
    return lists


def counted_history():
    """1,499 transitions, each fireable where x is its number: 300 steps are taken back and fired again."""
    files, marks = both_ways(lambda join: counting(1499, join)), lambda x: [int(t == x) for t in range(1499)]
    store = Store([300], 1499 * [0], list(range(300)) + [1498, 1499], 300, [])
    back = store._replace(values=[299], marks=marks(299), n=299)
    twice = back._replace(values=[298], marks=marks(298), n=298)
    calls = [
        (('back',), ('done',), back), (('back',), ('done',), twice), (('fire', 298), ('ok', 1), back),
        (('fire', 299), ('ok', 1), store._replace(marks=marks(300))),
        (('pick',), ('pick', 300), store._replace(marks=marks(300))),
    ]
    return listed(files, store, calls)


def extremes():
    """Lists on models at the limits: one block of nearly 12,000 branches, nestings of depth 32, 4,000 rounds, the largest sizes."""
    skips, nested_skips = [[SKIP]], lambda order: 29 * [(19, 1)] + block(order)
    few, many = chain_of(255, 10), chain_of(3990)
    blocks, conditions = 30 * [(19, 1)], 30 * [(18, 0), TRUE]
    minus = 30 * [(42, 0), (32, 1)] + [(32, 1)]
    choice = 30 * [(46, 0), (34, 0), TRUE] + [(34, 0)]
    both = 30 * [(36, 0), (34, 0)] + [TRUE]
    crossed = 30 * [(36, 0)] + [TRUE] + 30 * [(34, 0)]
    failed = [(38, 0), (32, 0)] + ONE_OVER_ZERO
    return [
        stepped(block(11993 * skips + [ASSIGN]), block([ASSIGN] + 11993 * skips)),
        stepped(nested_skips(11964 * skips + [ASSIGN]), nested_skips([ASSIGN] + 11964 * skips)),
        stepped(block(5990 * [ASSIGN]), block(5990 * [ASSIGN])),
        stepped(block(700 * [ASSIGN] + 800 * [[(19, 1)] + ASSIGN]), block(800 * [[(19, 1)] + ASSIGN] + 700 * [ASSIGN])),
        stepped(ASSIGN, ASSIGN, 2, block(11991 * skips + [[(17, 1), TRUE]]), block([[(17, 1), TRUE]] + 11991 * skips), 1),
        stepped(ASSIGN, ASSIGN, 2, block(5990 * [[(17, 1), TRUE]]), block(5990 * [[(17, 1), TRUE]]), 1),
        refused_step(27, block(5989 * [ASSIGN] + [[(17, 0), (33, 0)]]), block([[(17, 0), (33, 0)]] + 5989 * [ASSIGN])),
        refused_start(30, block(1989 * [ASSIGN] + [[(17, 0), (33, 0)]]), block([[(17, 0), (33, 0)]] + 1989 * [ASSIGN])),
        stepped(ASSIGN, ASSIGN, 256, block(few), block(few[::-1]), 255),
        stepped(ASSIGN, ASSIGN, 3991, block(many), block(many[::-1]), 3990),
        longest_chain(),
        stepped(blocks + ASSIGN, blocks + ASSIGN),
        stepped(conditions + ASSIGN, conditions + ASSIGN),
        stepped(ASSIGN, ASSIGN, 2, blocks + [(17, 1), TRUE], blocks + [(17, 1), TRUE], 1),
        stepped(ASSIGN, ASSIGN, 2, conditions + [(17, 1), TRUE], conditions + [(17, 1), TRUE], 1),
        stepped([(17, 0)] + 29 * [(35, 0)] + [(34, 0)], [(17, 0)] + 29 * [(35, 0)] + [(34, 0)]),
        guard_nest([(38, 0)] + minus + [(32, 1)], [(38, 0), (32, 1)] + minus, 1, 1),
        guard_nest([(38, 0)] + minus + [(32, 0)], [(38, 0), (32, 0)] + minus, 0),
        guard_nest(choice, choice, 1, 0),
        guard_nest(both, crossed, 1, 0),
        guard_nest(29 * [(37, 0), (33, 0)] + failed, 29 * [(37, 0)] + failed + 29 * [(33, 0)], 2),
        long_history(512),
        largest_sizes(255, 255),
        largest_sizes(1499, 65535),
        most_of_all(),
        *wide_entries(256) + wide_entries(257) + wide_entries(3998)[:1],
        counted_history(),
    ]


def guarded_by(head, guards, action):
    """A model with one state and a transition for each guard, all with this action."""
    return model(1, 0, 1, len(guards), head + transition_nodes(guards, len(guards) * [action]) + [SKIP])


def lowest():
    """Picks along a run: the guards are 6 div x = 3, x < 2 and x not 3, and every step raises x by 1."""
    head, x = [(2, 0), (3, 3), (4, 0)], (34, 0)
    quotient, three = [(44, 0), (32, 6), x], [(32, 3)]
    guards = [[(38, 0)] + quotient + three, [(39, 0), x, (32, 2)], [(35, 0), (38, 0), x] + three]
    twin = [[(38, 0)] + three + quotient, guards[1], [(35, 0), (38, 0)] + three + [x]]
    files = [guarded_by(head, guards, [(17, 0), (41, 0), x, (32, 1)]), guarded_by(head, twin, [(17, 0), (41, 0), (32, 1), x])]
    stores = [
        Store([0, 7], [1, 0, 0], [9, 9, 9], 0, []),  # before any start; the guards give 2 1 1
        Store([1, 7], [0, 1, 1], [1, 9, 9], 1, []),
        Store([2, 7], [1, 0, 1], [1, 2, 9], 2, []),
        Store([3, 7], [0, 0, 0], [1, 2, 0], 3, []),
    ]
    calls = [
        (('pick',), ('pick', 1), stores[0]),
        (('fire', 1), ('ok', 1), stores[1]),
        (('pick',), ('pick', 1), stores[1]),
        (('fire', 2), ('ok', 1), stores[2]),
        (('pick',), ('pick', 0), stores[2]),
        (('fire', 0), ('ok', 1), stores[3]),
        (('pick',), ('none',), stores[3]),
    ]
    return listed(files, stores[0], calls)


def last_of_all(values, history, n, wanted, marks=None, count=255):
    """Pick alone, on a model of so many transitions of which only the last can be fireable."""
    both = [[(36, 0), (34, 0), TRUE], [(36, 0), TRUE, (34, 0)]]
    files = [guarded_by([FLAG], (count - 1) * [[(33, 0)]] + [last], [SKIP]) for last in both]
    store = Store(values, count * [0] if marks is None else marks, history, n, [])
    return listed(files, store, kept(store, [(('pick',), wanted)]))


def picks():
    """Lists for pick: the lowest of several, and what 9 and 20 look at, from both sides of each edge."""
    return [
        lowest(),
        last_of_all([1], [254, 255], 1, ('pick', 254)),
        last_of_all([0], [], 0, ('none',)),
        last_of_all([], [], 0, ('no', 9)),
        last_of_all([2], [], 0, ('no', 20)),
        last_of_all([1], [254, 255], 2, ('no', 20)),
        last_of_all([1], [254], 2, ('no', 20)),
        last_of_all([1], [3997, 3998], 1, ('pick', 3997), count=3998),
        last_of_all([0], [], 0, ('none',), count=3998),
        last_of_all([1], [3997, 3998], 2, ('no', 20), count=3998),
    ]


def range_models():
    """A number from -1 to 3 that the transition raises by 1, and whether it is below 2; and the twin."""
    x, one = (34, 0), (32, 1)
    head, below = [(2, -1), (3, 3), (4, 0), FLAG, (5, 0), TRUE, (17, 0), (41, 0)], [(17, 1), (39, 0), x, (32, 2)]
    return [model(1, 1, 1, 1, head + [x, one] + block([below, [SKIP]])), model(1, 1, 1, 1, head + [one, x] + block([[SKIP], below]))]


def checked_along():
    """First outside before a start, and after steps that are accepted or refused."""
    stale = Store([4, 2, 9], [3], [5], 3, [7])
    begun = stale._replace(values=[0, 1, 9], marks=[1], n=0)
    raised = begun._replace(values=[1, 1, 9], history=[0], n=1)
    back = raised._replace(values=[0, 1, 9], n=0)
    check, within = ('first_outside',), ('within', 2)
    calls = [
        (check, ('outside', 0, 1), stale),
        (('pick',), ('no', 20), stale),
        (('start',), ('ok', 2), begun),
        (check, within, begun),
        (('fire', 0), ('ok', 2), raised),
        (('fire', 0), ('no', 21), raised),
        (check, within, raised),
        (('back',), ('done',), back),
        (check, within, back),
    ]
    return listed(range_models(), stale, calls)


def ranges():
    """Lists for first outside: along a run, both sides of each end, and marks, a history and an n that it does not look at."""
    within, first, second = ('within', 2), ('outside', 0, 1), ('outside', 1, 2)
    answers = [
        ([-1, 0], within), ([3, 1], within), ([-2, 0], first), ([4, 0], first), ([0, -1], second), ([0, 2], second), ([4, 2], first),
        ([0, 1, -7], within), ([0], ('no', 9)), ([], ('no', 9)),
    ]
    lists = [range_check(range_models(), Store(values, [], [], 0, []), wanted) for values, wanted in answers]
    lists.append(range_check(range_models(), Store([0, 1], [3], [9], 2 ** 64 - 1, []), within))
    flags = model(2000, 2000, 0, 0, 4000 * [FLAG] + [SKIP])
    for values, wanted in [
        (4000 * [1], ('within', 4000)), (3999 * [1] + [2], ('outside', 3999, 4000)), (256 * [0] + [-1] + 3743 * [2], ('outside', 256, 257)),
        (3999 * [2], ('no', 9)), (4000 * [0] + [2], ('within', 4000)),
    ]:
        lists.append(range_check((flags, flags), Store(values, [], [], 0, []), wanted))
    return [checked_along()] + lists


def both_ways(write):
    """A model and its twin: `write` gets a function that joins two parts, as they come or exchanged."""
    return write(lambda a, b: a + b), write(lambda a, b: b + a)


def stairs(join):
    """A number x from 0 to 3, at first 1, and a flow: whether x is below 2. The guards are 6 div x = 3, the flow, and x not 3; the
    first two transitions raise x by 1, the third sets it to 0."""
    x, three, head = [(34, 0)], [(32, 3)], [(2, 0), (3, 3), (4, 1), FLAG]
    raising = [(17, 0), (41, 0)] + join(x, [(32, 1)])
    first = [(5, 0), (38, 0)] + join([(44, 0), (32, 6)] + x, three) + raising
    second = [(5, 0), (34, 1)] + raising
    third = [(5, 0), (35, 0), (38, 0)] + join(x, three) + [(17, 0), (32, 0)]
    return model(1, 1, 1, 3, head + first + second + third + [(19, 2)] + join([(17, 1), (39, 0)] + x + [(32, 2)], [SKIP]))


STAIRS = both_ways(stairs)
STAIRS_SIZES = ('sizes', 1, 1, 1, 3, 33)


def at(x, store, **others):
    """The store with the stairs' values and marks at x."""
    marks = [[2, 1, 1], [0, 1, 1], [1, 0, 1], [0, 0, 0]][x]
    return store._replace(values=[x, int(x < 2)] + store.values[2:], marks=marks + store.marks[3:], **others)


def made_up():
    """Made-up marks are copied, fire and pick go by the guards; a step sets the marks right; a guard fails and is taken back."""
    store = Store([2, 0, -7], [0, 1, 2, 9], [9, 9], 0, [7, 7, 7, 8])
    copied = store._replace(buffer=[0, 1, 2, 8])
    top = at(3, copied, history=[0, 9], n=1)
    back = at(1, top, n=0)
    low = at(0, back, history=[2, 9], n=1)
    seen = low._replace(buffer=[2, 1, 1, 8])
    calls = [
        (('marks',), ('done',), copied),
        *kept(copied, [(('fire', 1), ('no', 23)), (('pick',), ('pick', 0)), (('value', 0), ('value', 2)), (('back',), ('no', 22))]),
        (('fire', 0), ('ok', 2), top),
        (('pick',), ('none',), top),
        (('back',), ('done',), back),
        (('fire', 2), ('ok', 2), low),
        (('marks',), ('done',), seen),
        *kept(seen, [(('fire', 0), ('no', 24)), (('pick',), ('pick', 1))]),
        (('back',), ('done',), at(1, seen, n=0)),
        (('marks',), ('done',), at(1, seen, n=0, buffer=[0, 1, 1, 8])),
    ]
    return listed(STAIRS, store, calls)


def taken_back():
    """Take back on made-up marks, and start."""
    store = Store([3, 0], [2, 2, 2], [1, 0], 2, [])
    once, twice = at(2, store, n=1), at(1, store, n=0)
    calls = [(('back',), ('done',), once), (('back',), ('done',), twice)]
    again = Store([9, 9], [255, 254, 253], [], 7, [])
    return [listed(STAIRS, store, calls), listed(STAIRS, again, [(('start',), ('ok', 2), at(1, again, n=0))])]


def above_two(place, mark):
    """A held mark above 2: every call on a run but start refuses it."""
    marks = [0, 1, 1, 9]
    marks[place] = mark
    store = Store([1, 1], marks, [1, 9], 1, [7, 7, 7])
    refusals = [('fire', 1), ('fire', 0), ('back',), ('marks',), ('value', 0), ('pick',)]
    calls = kept(store, [(call, ('no', 20)) for call in refusals])
    calls += kept(store, [(('first_outside',), ('within', 2)), (('check',), STAIRS_SIZES)])
    begun = at(1, store, n=0)
    return listed(STAIRS, store, calls + [(('start',), ('ok', 2), begun), (('fire', 1), ('ok', 2), at(2, begun, n=1))])


def above_two_past_the_last(mark):
    """Marks above 2 from place T on are neither looked at nor written."""
    store = Store([1, 1], [0, 1, 1, mark], [9], 0, [7, 7, 7, mark])
    copied = store._replace(buffer=[0, 1, 1, mark])
    fired = at(2, copied, history=[1], n=1)
    back = at(1, fired, n=0)
    calls = [
        (('marks',), ('done',), copied),
        *kept(copied, [(('value', 1), ('value', 1)), (('pick',), ('pick', 1))]),
        (('fire', 1), ('ok', 2), fired),
        (('back',), ('done',), back),
        (('start',), ('ok', 2), back),
    ]
    return listed(STAIRS, store, calls)


def mark_lengths(marks, buffer):
    """Every call with so many cells for the run's marks, made up, and for the buffer; T is 3."""
    store = Store([2, 0], marks * [2], [1, 9], 1, buffer * [7])
    calls = kept(store, [(('check',), STAIRS_SIZES), (('first_outside',), ('within', 2))])
    if marks < 3:
        refusals = [('value', 1), ('pick',), ('marks',), ('fire', 0), ('back',), ('start',)]
        return listed(STAIRS, store, calls + kept(store, [(call, ('no', 10)) for call in refusals]))
    calls += kept(store, [(('value', 1), ('value', 0)), (('pick',), ('pick', 0))])
    left = store if buffer < 3 else store._replace(buffer=[2, 2, 2] + store.buffer[3:])
    calls.append((('marks',), ('no', 10) if buffer < 3 else ('done',), left))
    fired = at(3, left, history=[1, 0], n=2)
    calls.append((('fire', 0), ('ok', 2), fired))
    calls.append((('back',), ('done',), at(2, fired, n=1)))
    calls.append((('start',), ('ok', 2), at(1, fired, n=0)))
    return listed(STAIRS, store, calls)


def mark_orders():
    """9 with 10; 10 with 11, 12 and 20; 11, 12 and the buffer's 10 with 20; 20 with 21 to 23."""
    every = [('start',), ('fire', 3), ('fire', 0), ('back',), ('marks',), ('value', 2), ('value', 0), ('pick',)]
    lists = []
    for store in (Store([1], [0, 1], [], 0, [7, 7]), Store([1], [3, 3, 3], [], 5, [])):
        lists.append(listed(STAIRS, store, kept(store, [(call, ('no', 9)) for call in every + [('first_outside',)]])))
    for store in (Store([9, 9], [3, 3], [9], 2, [7, 7, 7]), Store([9, 9], [], [], 1, [])):
        answers = [(call, ('no', 10)) for call in every] + [(('first_outside',), ('outside', 0, 1))]
        lists.append(listed(STAIRS, store, kept(store, answers)))
    store = Store([1, 1], [3, 0, 0], [], 0, [7, 7])
    answers = [(('fire', 3), ('no', 11)), (('value', 2), ('no', 12)), (('marks',), ('no', 10))]
    answers += [(call, ('no', 20)) for call in [('fire', 0), ('back',), ('value', 0), ('pick',)]]
    lists.append(listed(STAIRS, store, kept(store, answers)))
    return lists


def refusing(first, join):
    """A number x from 0 to 5 and a flow. Transitions 0 to 7 are refused by 23 to 30, transition 8 sets x to 4; a start with x at
    1, 2, 3 is refused by 28, 29, 30."""
    number = lambda first: [(2, 0), (3, 5), (4, first)]
    state, flow = lambda k: assignment(0, [(32, k)]), lambda k: assignment(1, [(32, k)])
    both = lambda a, b: [(19, 2)] + join(a, b)
    where = lambda k, body: when(equals(join, [(34, 0)], k), body)
    guards = [[(33, 0)], failed_condition(join)] + 7 * [[TRUE]]
    failed = assignment(0, ONE_OVER_ZERO)
    actions = [[SKIP], [SKIP], failed, state(9), both(state(1), state(2)), state(1), state(2), state(3), state(4)]
    faults = where(2, flow(9)), where(3, both(flow(1), flow(2)))
    assertion = both(where(1, assignment(1, ONE_OVER_ZERO)), both(*faults))
    return model(1, 1, 1, 9, number(first) + number(0) + transition_nodes(guards, actions) + assertion)


def refused_on_made_up():
    """Refusals by 21 to 31 leave made-up marks as they are."""
    marks = [2, 1, 0, 1, 2, 0, 0, 2, 0, 77]
    files = lambda first: both_ways(lambda join: refusing(first, join))
    store = Store([0, 0], marks, [0, 8, 9], 2, 9 * [7])
    copied = store._replace(buffer=marks[:9])
    fired = copied._replace(values=[4, 0], marks=[0, 2, 1, 1, 1, 1, 1, 1, 1, 77], history=[0, 8, 8], n=3)
    calls = kept(store, [(('fire', t), ('no', 23 + t)) for t in range(8)] + [(('back',), ('no', 31))])
    calls += [(('marks',), ('done',), copied), (('fire', 8), ('ok', 1), fired), (('fire', 8), ('no', 21), fired)]
    lists = [listed(files(0), store, calls)]
    store = Store([0, 0], marks, [], 0, [])
    answers = [(('fire', 8), ('no', 21)), (('back',), ('no', 22)), (('marks',), ('no', 10)), (('pick',), ('pick', 2))]
    lists.append(listed(files(0), store, kept(store, answers)))
    store = Store([0, 0], marks, [8], 1, [])
    for first in (1, 2, 3):
        lists.append(listed(files(first), store, kept(store, [(('start',), ('no', 27 + first)), (('back',), ('no', 31))])))
    short = store._replace(marks=marks[:8])
    return lists + [listed(files(1), short, kept(short, [(('start',), ('no', 10))]))]


def no_transitions(cells):
    """Every call on a model without transitions; the marks and the buffer have these cells."""
    file, store = model(1, 0, 0, 0, [FLAG, SKIP]), Store([0], cells, [], 0, cells)
    answers = [
        (('check',), ('sizes', 1, 0, 0, 0, 2)), (('start',), ('ok', 1)), (('fire', 0), ('no', 11)), (('back',), ('no', 22)),
        (('marks',), ('done',)), (('value', 0), ('value', 0)), (('pick',), ('none',)), (('first_outside',), ('within', 1)),
    ]
    return listed((file, file), store, kept(store, answers))


def counting(count, join):
    """A number x from 0 to a count, at first 0, and so many transitions: each is fireable where x is its number, and raises x by 1."""
    x, transitions = [(34, 0)], []
    for t in range(count):
        transitions += [(5, 0), (38, 0)] + join(x, [(32, t)]) + [(17, 0), (41, 0)] + join(x, [(32, 1)])
    return model(1, 0, 1, count, [(2, 0), (3, count), (4, 0)] + transitions + [SKIP])


def most_transitions(count):
    """Made-up marks of so many transitions are copied and set right, at the first of them and at the last."""
    files, only = both_ways(lambda join: counting(count, join)), lambda t: [int(i == t) for i in range(count)]
    store = Store([0], count * [2] + [3, 255, 9], [9, 9], 0, (count + 3) * [7])
    copied = store._replace(buffer=count * [2] + [7, 7, 7])
    fired = copied._replace(values=[1], marks=only(1) + [3, 255, 9], history=[0, 9], n=1)
    seen = fired._replace(buffer=only(1) + [7, 7, 7])
    back = seen._replace(values=[0], marks=only(0) + [3, 255, 9], n=0)
    calls = [
        (('marks',), ('done',), copied),
        *kept(copied, [(('pick',), ('pick', 0)), (('fire', count - 1), ('no', 23))]),
        (('fire', 0), ('ok', 1), fired),
        (('marks',), ('done',), seen),
        (('back',), ('done',), back),
    ]
    last = Store([count - 1], count * [1], [9], 0, count * [7])
    ended = last._replace(values=[count], marks=count * [0], history=[count - 1], n=1)
    shown = ended._replace(buffer=count * [0])
    more = [
        *kept(last, [(('pick',), ('pick', count - 1)), (('fire', 0), ('no', 23))]),
        (('fire', count - 1), ('ok', 1), ended),
        (('marks',), ('done',), shown),
        (('pick',), ('none',), shown),
    ]
    return [listed(files, store, calls), listed(files, last, more)]


def held_marks():
    """Lists for the marks that a run holds: made up, above 2, of every length, and the order of the refusals."""
    lengths = (2, 3, 6)
    return [
        made_up(),
        *taken_back(),
        *[above_two(place, mark) for place in range(3) for mark in (3, 255)],
        *[above_two_past_the_last(mark) for mark in (3, 255)],
        *[mark_lengths(marks, buffer) for marks in lengths for buffer in lengths],
        *mark_orders(),
        *refused_on_made_up(),
        no_transitions([]),
        no_transitions([9, 255]),
        *most_transitions(255),
        *most_transitions(1499),
        last_of_all([1], [], 0, ('no', 10), 254 * [0]),
        last_of_all([1], [], 0, ('no', 20), 254 * [0] + [3]),
        last_of_all([1], [], 0, ('pick', 254), 255 * [2] + [3]),
        last_of_all([1], [], 0, ('no', 20), 3997 * [0] + [3], 3998),
    ]


# The sort of a conditional: a variable of it, the kind of its constants, two values; and nodes that give the first of these too: an
# operator over two constants.
Sort = namedtuple('Sort', 'variable constant same other again')
NUMBERS = Sort([(2, 0), (3, 9), (4, 0)], 32, 4, 7, (41, 1, 3))
TRUES = Sort([FLAG], 33, 1, 0, (37, 0, 1))
FALSES = Sort([FLAG], 33, 0, 1, (36, 1, 0))

# The three states of a model with a conditional, and its flows. FIRST becomes true in the first round; LATER becomes true and BRANCH
# gets the value `same` in the second.
PLACE, CLASHES, KEPT, RESULT, BRANCH, LATER, FIRST, CLASH = range(8)


def condition_nodes(join, tree):
    """A condition: a word, or three conditions for an if-then-else."""
    if isinstance(tree, tuple):
        return conditional(*[condition_nodes(join, part) for part in tree])
    return {'true': [(33, 1)], 'false': [(33, 0)], 'unknown': [(34, LATER)], 'failed': failed_condition(join)}[tree]


def branch_nodes(join, sort, tree):
    """A branch: a word, or a condition and two branches for an if-then-else."""
    if isinstance(tree, tuple):
        return conditional(condition_nodes(join, tree[0]), *[branch_nodes(join, sort, part) for part in tree[1:]])
    constant = lambda value: [(sort.constant, value)]
    operator, one, two = sort.again
    words = {
        'same': constant(sort.same),
        'again': [(operator, 0)] + join(constant(one), constant(two)),
        'other': constant(sort.other),
        'unknown': [(34, BRANCH)],
        'failed': ONE_OVER_ZERO if sort == NUMBERS else failed_condition(join),
    }
    return words[tree]


def has_value(join, sort, nodes, value):
    """Whether an expression has this value; unknown or failed where the expression is."""
    if sort == NUMBERS:
        return equals(join, nodes, value)
    return nodes if value else [(35, 0)] + nodes


def conditional_transitions(join, nodes, test, constant):
    """0 and 1: to place 1, to place 2; 2 and 3: the same with a clash; 4: a guard; 5 and 6: actions, assigned and as a condition."""
    to = lambda place: assignment(PLACE, [(32, place)])
    clashing = lambda place: [(19, 2)] + join(to(place), assignment(CLASHES, [TRUE]))
    actions = [to(1), to(2), clashing(1), clashing(2), [SKIP], assignment(KEPT, nodes), when(test, assignment(KEPT, constant))]
    return transition_nodes(4 * [[TRUE]] + [test] + 2 * [[TRUE]], actions)


def conditional_model(join, sort, tree, value):
    """A model with a conditional. Where PLACE is 1 the assertion assigns it to a flow, where PLACE is 2 this value if the conditional
    has it. Where CLASHES is true, another flow gets two values in the second round."""
    nodes, constant = branch_nodes(join, sort, tree), [(sort.constant, value)]
    test = has_value(join, sort, nodes, value)
    at_place = lambda place, body: when(equals(join, [(34, PLACE)], place), body)
    clash = [(19, 2)] + join(assignment(CLASH, [(33, 0)]), assignment(CLASH, [(33, 1)]))
    branches = [
        assignment(FIRST, [TRUE]),
        assignment(LATER, [(34, FIRST)]),
        when([(34, FIRST)], assignment(BRANCH, [(sort.constant, sort.same)])),
        at_place(1, assignment(RESULT, nodes)),
        at_place(2, when(test, assignment(RESULT, constant))),
        when([(36, 0)] + join([(34, CLASHES)], [(34, FIRST)]), clash),
    ]
    head = [(2, 0), (3, 2), (4, 0), FLAG] + 3 * sort.variable + 3 * [FLAG]
    transitions = conditional_transitions(join, nodes, test, constant)
    return model(3, 5, 1, 7, head + transitions + block(join(branches[:2], branches[2:])))


def conditional_list(sort, tree, at_first, at_last):
    """Calls on a model with a conditional that is this in the first round, and this once LATER and BRANCH are known."""
    fails, value = at_last == 'failed', sort.other if at_last == 'other' else sort.same
    files = both_ways(lambda join: conditional_model(join, sort, tree, value))
    store = Store([2, 1, 0, 0, 0, 0, 0, 1], 7 * [2], [4, 5, 6, 0, 1, 9], 5, 7 * [9])

    def left(n, place, state, result):
        marks = [1, 1, 1, 1, 2 if fails else 1, 1, 1]
        return store._replace(values=[place, 0, state, result, sort.same, 1, 1, 0], marks=marks, n=n)

    begun, rounds = left(0, 0, 0, 0), 4 if at_first == 'unknown' else 3
    if fails:
        calls = [(('back',), ('no', 31), store), (('start',), ('ok', 3), begun)]
        calls += kept(begun, [(('fire', t), ('no', number)) for t, number in ((4, 24), (5, 25), (6, 25), (0, 28), (1, 28))])
    else:
        calls = [
            (('back',), ('done',), left(4, 1, value, value)),
            (('start',), ('ok', 3), begun),
            (('fire', 4), ('ok', 3), left(1, 0, 0, 0)),
            (('fire', 5), ('ok', 3), left(2, 0, value, 0)),
            (('fire', 6), ('ok', 3), left(3, 0, value, 0)),
            (('fire', 0), ('ok', rounds), left(4, 1, value, value)),
            (('fire', 1), ('ok', rounds), left(5, 2, value, value)),
        ]
    clashing = ('no', 28 if at_first == 'failed' else 30)
    calls += kept(calls[-1][2], [(('fire', 2), clashing), (('fire', 3), clashing), (('pick',), ('pick', 0))])
    return listed(files, store, calls)


# Conditionals: the condition and the branches, what they are in the first round, and what they are when all is known. `unknown` is LATER
# in a condition, which becomes true, and BRANCH in a branch, which becomes `same`.
CONDITIONALS = [
    # A known condition chooses, and the other branch is not looked at.
    (('true', 'same', 'other'), 'same', 'same'),
    (('true', 'same', 'failed'), 'same', 'same'),
    (('true', 'same', 'unknown'), 'same', 'same'),
    (('true', 'failed', 'same'), 'failed', 'failed'),
    (('true', 'unknown', 'other'), 'unknown', 'same'),
    (('false', 'same', 'other'), 'other', 'other'),
    (('false', 'failed', 'other'), 'other', 'other'),
    (('false', 'unknown', 'other'), 'other', 'other'),
    (('false', 'same', 'failed'), 'failed', 'failed'),
    (('false', 'other', 'unknown'), 'unknown', 'same'),
    # An unknown condition: the value that both branches have, else unknown.
    (('unknown', 'same', 'same'), 'same', 'same'),
    (('unknown', 'same', 'again'), 'same', 'same'),
    (('unknown', 'again', 'same'), 'same', 'same'),
    (('unknown', 'same', 'other'), 'unknown', 'same'),
    (('unknown', 'other', 'same'), 'unknown', 'other'),
    (('unknown', 'same', 'unknown'), 'unknown', 'same'),
    (('unknown', 'unknown', 'same'), 'unknown', 'same'),
    (('unknown', 'unknown', 'unknown'), 'unknown', 'same'),
    (('unknown', 'same', 'failed'), 'unknown', 'same'),
    (('unknown', 'failed', 'same'), 'unknown', 'failed'),
    (('unknown', 'failed', 'unknown'), 'unknown', 'failed'),
    (('unknown', 'unknown', 'failed'), 'unknown', 'same'),
    (('unknown', 'failed', 'failed'), 'unknown', 'failed'),
    # A failed condition: the value that both branches have; unknown if a branch is; else failed.
    (('failed', 'same', 'same'), 'same', 'same'),
    (('failed', 'same', 'again'), 'same', 'same'),
    (('failed', 'again', 'same'), 'same', 'same'),
    (('failed', 'same', 'unknown'), 'unknown', 'same'),
    (('failed', 'unknown', 'same'), 'unknown', 'same'),
    (('failed', 'other', 'unknown'), 'unknown', 'failed'),
    (('failed', 'unknown', 'other'), 'unknown', 'failed'),
    (('failed', 'unknown', 'unknown'), 'unknown', 'same'),
    (('failed', 'failed', 'unknown'), 'unknown', 'failed'),
    (('failed', 'unknown', 'failed'), 'unknown', 'failed'),
    (('failed', 'same', 'other'), 'failed', 'failed'),
    (('failed', 'same', 'failed'), 'failed', 'failed'),
    (('failed', 'failed', 'same'), 'failed', 'failed'),
    (('failed', 'failed', 'failed'), 'failed', 'failed'),
]

# The same for conditionals in one another.
NESTED_CONDITIONALS = [
    # Branches agree inside.
    (('true', ('unknown', 'same', 'again'), 'other'), 'same', 'same'),
    (('false', 'failed', ('failed', 'other', 'other')), 'other', 'other'),
    # Outside.
    (('unknown', ('true', 'same', 'other'), ('false', 'other', 'again')), 'same', 'same'),
    (('failed', ('true', 'same', 'failed'), 'again'), 'same', 'same'),
    # Inside and outside.
    (('unknown', ('unknown', 'same', 'again'), 'same'), 'same', 'same'),
    (('failed', ('unknown', 'same', 'same'), ('failed', 'again', 'same')), 'same', 'same'),
    # The one inside waits.
    (('unknown', ('unknown', 'same', 'other'), 'same'), 'unknown', 'same'),
    (('failed', ('unknown', 'same', 'other'), 'same'), 'unknown', 'same'),
    (('failed', 'same', ('unknown', 'other', 'same')), 'unknown', 'failed'),
    (('failed', ('unknown', 'failed', 'failed'), 'same'), 'unknown', 'failed'),
    (('failed', 'failed', ('failed', 'unknown', 'same')), 'unknown', 'failed'),
    # The one inside fails.
    (('unknown', ('failed', 'same', 'other'), 'same'), 'unknown', 'failed'),
    (('unknown', 'same', ('failed', 'same', 'other')), 'unknown', 'same'),
    (('failed', ('failed', 'same', 'other'), 'same'), 'failed', 'failed'),
    # The condition is one.
    ((('unknown', 'true', 'true'), 'same', 'other'), 'same', 'same'),
    ((('failed', 'true', 'true'), 'same', 'failed'), 'same', 'same'),
    ((('failed', 'false', 'false'), 'failed', 'other'), 'other', 'other'),
    ((('unknown', 'true', 'false'), 'same', 'again'), 'same', 'same'),
    ((('unknown', 'true', 'false'), 'same', 'other'), 'unknown', 'same'),
    ((('unknown', 'false', 'true'), 'same', 'other'), 'unknown', 'other'),
    ((('unknown', 'failed', 'failed'), 'same', 'again'), 'same', 'same'),
    ((('unknown', 'failed', 'failed'), 'same', 'other'), 'unknown', 'failed'),
    ((('failed', 'true', 'false'), 'same', 'again'), 'same', 'same'),
    ((('failed', 'true', 'false'), 'same', 'other'), 'failed', 'failed'),
    ((('failed', 'unknown', 'true'), 'same', 'other'), 'unknown', 'same'),
    ((('failed', 'unknown', 'false'), 'same', 'other'), 'unknown', 'failed'),
]


# What the starts below read: STATE is 4, X and W are flows that are numbers, Y and Z flows that are Booleans.
STATE, X, W, Y, Z = [[(34, variable)] for variable in range(5)]


def gives(flow, expression):
    """An assignment to the flow that is read by these nodes."""
    return assignment(flow[0][1], expression)


def started(reset, branches, wanted, flows=None):
    """A start where X has this reset value; `branches` gets the way to join two parts. A refused start leaves the flows as they were."""
    number = lambda first: [(2, 0), (3, 9), (4, first)]
    head = number(4) + number(reset) + number(0) + 2 * [FLAG]
    turned = lambda join: block(join(branches(join)[:1], branches(join)[1:]))
    files = both_ways(lambda join: model(1, 4, 0, 0, head + turned(join)))
    store = Store([9, 9, 9, 9, 9], [], [], 7, [])
    left = store if flows is None else store._replace(values=[4] + flows, n=0)
    return listed(files, store, [(('start',), wanted, left)])


def four_if(condition):
    """4 in both branches."""
    return conditional(condition, [(32, 4)], [(32, 4)])


def no_longer_refused():
    """Starts that gave 30 twice, 28 and 29."""
    either_way = lambda condition: conditional(condition, [TRUE], [TRUE])
    return [
        started(1, lambda join: [when(either_way(Y), gives(X, STATE)), gives(Y, equals(join, X, 4))], ('ok', 3), [4, 0, 1, 0]),
        started(1, lambda join: [gives(Y, conditional(Z, [TRUE], equals(join, STATE, 4))), gives(Z, Y)], ('ok', 3), [1, 0, 1, 1]),
        started(1, lambda join: [gives(X, four_if(failed_condition(join)))], ('ok', 2), [4, 0, 0, 0]),
        started(9, lambda join: [gives(X, four_if(Y)), gives(W, [(41, 0)] + join(X, [(32, 5)]))], ('ok', 3), [4, 9, 0, 0]),
    ]


def refused_otherwise():
    """Starts that gave 30, then 28 three times, and now give another number: a later round fails, outside, two values, a value unlike a
    known one."""
    over_zero = [(44, 0), (32, 1), (42, 0)] + X + [(32, 4)]
    return [
        started(1, lambda join: [gives(X, four_if(Y)), gives(Y, equals(join, over_zero, 1))], ('no', 28)),
        started(1, lambda join: [gives(X, conditional(failed_condition(join), [(32, 12)], [(32, 12)]))], ('no', 29)),
        started(1, lambda join: [gives(X, four_if(failed_condition(join))), gives(X, [(32, 5)])], ('no', 30)),
        started(1, lambda join: [gives(X, four_if(failed_condition(join))), when(equals(join, X, 4), gives(X, [(32, 5)]))], ('no', 30)),
    ]


def other_counts():
    """Starts with fewer rounds than before, 3 for 4, and with more, 2 for 1; beside each one whose branches do not agree."""
    late = [gives(Y, Z), gives(Z, [TRUE])]
    return [
        started(1, lambda join: [gives(X, four_if(Y))] + late, ('ok', 3), [4, 0, 1, 1]),
        started(1, lambda join: [gives(X, conditional(Y, [(32, 4)], [(32, 5)]))] + late, ('ok', 4), [4, 0, 1, 1]),
        started(4, lambda join: [gives(X, four_if(Y))], ('ok', 2), [4, 0, 0, 0]),
        started(4, lambda join: [gives(X, conditional(Y, [(32, 5)], [(32, 4)]))], ('ok', 1), [4, 0, 0, 0]),
    ]


def fours(join):
    """Five expressions that are 4, no two of the same nodes."""
    sum_of, product = [(41, 0)] + join([(32, 1)], [(32, 3)]), [(43, 0)] + join([(32, -1)], [(32, -4)])
    return [STATE, [(32, 4)], sum_of, product, [(44, 0), (32, 9), (32, 2)]]


def four_by(one, two):
    """A start that gave 30: its branches are two of the expressions that are 4."""
    value = lambda join: conditional(Y, fours(join)[one], fours(join)[two])
    return started(1, lambda join: [gives(X, value(join)), gives(Y, equals(join, X, 4))], ('ok', 3), [4, 0, 1, 0])


def values_and_nodes():
    """Branches that agree by the same nodes and by others; branches of the same nodes that are known later or never."""
    lists = [four_by(one, two) for one in range(5) for two in range(5)]
    same_nodes = lambda join: [gives(X, conditional(Y, W, W)), gives(Y, equals(join, X, 4))]
    lists.append(started(0, lambda join: same_nodes(join) + [gives(W, STATE)], ('ok', 4), [4, 4, 1, 0]))
    return lists + [started(0, same_nodes, ('ok', 1), [0, 0, 0, 0])]


def guards_and_actions():
    """24 before: accepted, over a state that is toggled, and 23. 25 before: accepted, 27, and 26. Beside them branches that differ: still
    24 and 25."""
    failing = lambda one, two: both_ways(lambda join: conditional(failed_condition(join), one, two))
    true, false, toggled = [TRUE], [(33, 0)], [(34, 0)]
    assigned = lambda nodes: assignment(0, nodes)
    truly = lambda join: assigned(conditional(failed_condition(join), true, true))
    outside = lambda join: assigned(conditional(failed_condition(join), [(32, 6)], [(32, 6)]))
    files = both_ways(lambda join: model(1, 0, 1, 1, RANGE + [(5, 0), TRUE] + outside(join) + [SKIP]))
    store = Store([4], [2], [3], 0, [])
    return [
        guard_nest(*failing(true, true), 1, 1),
        guard_nest(*failing(toggled, toggled), 1, 0),
        guard_nest(*failing(true, toggled), 1, 2),
        guard_nest(*failing(false, false), 0),
        guard_nest(*failing(false, toggled), 2),
        stepped(*both_ways(truly)),
        stepped(*[when(nodes, ASSIGN) for nodes in failing(true, true)]),
        refused_step(25, *map(assigned, failing(true, toggled))),
        refused_step(27, *both_ways(lambda join: block(join([truly(join)], [assigned(false)])))),
        listed(files, store, kept(store, [(('fire', 0), ('no', 26))])),
    ]


def deep_conditionals():
    """Conditionals 29 deep under a condition that waits for them, in each part of one another, and under one that fails; chains of 255
    and of 1,990 flows whose condition is known last."""
    waits, lists = [(34, 2)], []
    for nodes in [29 * ([(46, 0)] + waits + [TRUE]) + [TRUE], 29 * ([(46, 0)] + waits) + 30 * [TRUE], 29 * [(46, 0)] + waits + 58 * [TRUE]]:
        branches = [assignment(1, nodes), assignment(2, [(34, 1)])]
        lists.append(stepped(ASSIGN, ASSIGN, 3, block(branches), block(branches[::-1]), 2))
    nest = lambda join: 29 * ([(46, 0)] + failed_condition(join) + [TRUE]) + [TRUE]
    lists.append(guard_nest(*both_ways(nest), 1, 1))
    either = lambda nodes: conditional([(34, 1)], nodes, nodes)
    for flows in (255, 1990):
        chain = [assignment(1 + i, either([(34, 2 + i)])) for i in range(flows - 1)] + [assignment(flows, [TRUE])]
        lists.append(stepped(ASSIGN, ASSIGN, flows + 1, block(chain), block(chain[::-1]), flows))
    return lists


def conditionals():
    """Lists for if-then-else: each way its condition and its branches can be, alone and in one another, and what changed by that."""
    return [
        *[conditional_list(sort, *row) for sort in (NUMBERS, TRUES, FALSES) for row in CONDITIONALS],
        *[conditional_list(sort, *row) for sort in (NUMBERS, TRUES) for row in NESTED_CONDITIONALS],
        *no_longer_refused(),
        *refused_otherwise(),
        *other_counts(),
        *values_and_nodes(),
        *guards_and_actions(),
        *deep_conditionals(),
    ]


def parts_case(*parts):
    """The lengths of some parts, four bytes each, and the parts."""
    return b''.join(little(len(part), 4) for part in parts) + b''.join(parts)


def stored_programs(lines):
    """The cases of programs.txt: the model file, the input, the output; and of gtswide.txt: the input, the output."""
    parts, cases = [], []
    for words in lines:
        parts.append(bytes(numbers(words)))
        if words[0] == 'output':
            cases.append(parts_case(*parts))
            parts = []
    return cases


def text_case(file, text, kinds, parameters, answer, nodes):
    """A text typed beside a model; `kinds` and `parameters` are the length and the fill of a slice, the nodes two lists."""
    lengths = (len(file), len(text), kinds[0], parameters[0], len(nodes[0]))
    header = bytes([answer, kinds[1]]) + b''.join(little(x, 2) for x in lengths) + little(parameters[1], 4)
    return header + file + text + bytes(nodes[0]) + b''.join(little(p, 4) for p in nodes[1])


def stored_texts(lines):
    """The cases of texts.txt."""
    cases = []
    for words in lines:
        if words[0] == 'model':
            file = bytes(numbers(words))
        elif words[0] == 'text':
            text = bytes(numbers(words))
        elif words[0] == 'outkinds':
            kinds = (int(words[1]), int(words[2]))
        elif words[0] == 'outparams':
            parameters = (int(words[1]), int(words[2]))
        elif words[0] == 'kinds':
            nodes = numbers(words)
        elif words[0] == 'params':
            assert len(nodes) == count == int(words[1])
            cases.append(text_case(file, text, kinds, parameters, 0, (nodes, numbers(words))))
        elif words[1] == 'no':
            cases.append(text_case(file, text, kinds, parameters, int(words[2]), ([], [])))
        else:
            count = int(words[2])
    return cases


def join_case(file, mandatory, optional, out, answer, new):
    """A join in a model; `out` is the length and the fill of the slice, `new` the new model, empty where it is refused."""
    lengths = (len(file), len(mandatory), len(optional), out[0], len(new))
    header = bytes([answer, out[1]]) + b''.join(little(x, 2) for x in lengths) + bytes(4)
    return header + file + b''.join(little(k, 8) for k in mandatory + optional) + new


def stored_joins(lines):
    """The cases of joins.txt."""
    cases = []
    for words in lines:
        if words[0] == 'model':
            file = bytes(numbers(words))
        elif words[0] == 'mandatory':
            mandatory = numbers(words)
        elif words[0] == 'optional':
            optional = numbers(words)
        elif words[0] == 'out':
            out = (int(words[1]), int(words[2]))
        elif words[0] == 'cells':
            assert length == int(words[1])
            cases.append(join_case(file, mandatory, optional, out, 0, bytes(numbers(words))))
        elif words[1] == 'no':
            cases.append(join_case(file, mandatory, optional, out, int(words[2]), b''))
        else:
            length = int(words[2])
    return cases


# A model in parts; each transition is its event, the nodes of its guard and those of its action.
Parts = namedtuple('Parts', 'states flows events head transitions assertion')


def file_of(parts):
    transitions = [node for event, guard, action in parts.transitions for node in [(5, event)] + guard + action]
    nodes = parts.head + transitions + parts.assertion
    return model(parts.states, parts.flows, parts.events, len(parts.transitions), nodes)


def nested(operator, guards):
    return guards[0] if len(guards) == 1 else [(operator, 0)] + guards[0] + nested(operator, guards[1:])


def joined(parts, mandatory, optional):
    """The model with one transition more, for these members."""
    guards = lambda members: [parts.transitions[k][1] for k in members]
    guard = nested(36, guards(mandatory)) if mandatory else nested(37, guards(optional))
    branches = [parts.transitions[k][2] for k in mandatory]
    branches += [when(*parts.transitions[k][1:]) for k in optional]
    new = (parts.events, guard, block(branches))
    return parts._replace(events=parts.events + 1, transitions=parts.transitions + [new])


# More cells than any model needs, so that the slice is not the reason of a refusal.
ENOUGH = 60416


def join_answer(parts, mandatory, optional, answer, cells=ENOUGH, fill=7):
    """A join that is accepted where the answer is 0."""
    new = b'' if answer else file_of(joined(parts, mandatory, optional))
    return join_case(file_of(parts), mandatory, optional, (cells, fill), answer, new)


def shop(join):
    """A Boolean b, a number x from 0 to 5 and a flow that is x. The transitions: b, which clears it; x below 3, which raises it;
    not b, which sets x to 5; 6 div x = 3, which sets x to 0; true, which sets b and nothing else."""
    b, x, number = [(34, 0)], [(34, 1)], [(2, 0), (3, 5), (4, 2)]
    transitions = [
        (0, b, [(17, 0), (33, 0)]),
        (1, [(39, 0)] + x + [(32, 3)], [(17, 1), (41, 0)] + join(x, [(32, 1)])),
        (2, [(35, 0)] + b, [(17, 1), (32, 5)]),
        (3, [(38, 0)] + join([(44, 0), (32, 6)] + x, [(32, 3)]), [(17, 1), (32, 0)]),
        (0, [TRUE], [(19, 2)] + join(ASSIGN, [SKIP])),
    ]
    return Parts(2, 1, 4, [(1, 1)] + 2 * number, transitions, [(19, 2)] + join([(17, 2)] + x, [SKIP]))


SHOP, SHOP_TWIN = both_ways(shop)


def with_first(guard, action):
    """The shop whose first transition has this guard and this action, and whose second has `true` and skip."""
    return SHOP._replace(transitions=[(0, guard, action), (1, [TRUE], [SKIP])] + SHOP.transitions[2:])


def join_lengths():
    """0, 1, 2, 31, 32, 33 and 60 members of each kind; a guard of two nodes at the first and the last places."""
    cases = []
    for m in (0, 1, 2, 31, 32, 33, 60):
        for n in (0, 1, 2, 31, 32, 33, 60):
            answer = 35 if m + n == 0 else 36 if m > 32 or m == 0 and n > 32 else 0
            cases.append(join_answer(SHOP, m * [0], n * [2], 36 if m == 0 and n == 32 else answer))
            cases.append(join_answer(SHOP_TWIN, m * [0], n * [4], answer))
    for count in (31, 32):
        for place in (0, 1, 28, 29, 30, 31)[:count - 26]:
            members = place * [0] + [2] + (count - 1 - place) * [0]
            answer = 36 if count == 32 and place >= 30 else 0
            cases += [join_answer(SHOP, members, [], answer), join_answer(SHOP, [], members, answer), join_answer(SHOP, [0], members, 0)]
    return cases


def join_depths():
    """Depth 32 and 33: a mandatory guard, an optional guard, a mandatory and an optional action; joined or alone."""
    nots = lambda depth: (depth - 1) * [(35, 0)] + [(34, 0)]
    cases = []
    for depth, members, answer in [
        (32, [0], 0), (31, [0, 1], 0), (31, [1, 0], 0), (32, [0, 1], 36), (32, [1, 0], 36),
        (31, [0, 1, 1], 0), (31, [1, 0, 1], 36), (31, [1, 1, 0], 36), (30, [1, 0, 1], 0), (30, [1, 1, 0], 0),
    ]:
        cases.append(join_answer(with_first(nots(depth), [SKIP]), members, [], answer))
    for depth, members, answer in [
        (30, [0], 0), (31, [0], 36), (30, [1, 1, 0], 0), (30, [1, 1, 0, 1], 36), (30, [1, 0, 1, 1], 0), (29, [1, 1, 0, 1], 0),
    ]:
        parts = with_first(nots(depth), [SKIP])
        cases += [join_answer(parts, [], members, answer), join_answer(parts, [1], members, 36 if depth == 31 else 0)]
    for depth, mandatory, optional in [(30, 0, 0), (31, 0, 36), (32, 36, 36)]:
        for action in [
            (depth - 1) * [(19, 1)] + [SKIP], (depth - 1) * [(18, 0), TRUE] + [SKIP],
            [(17, 0)] + nots(depth - 1), [(18, 0)] + nots(depth - 1) + [SKIP], (depth - 1) * [(19, 1)] + [(19, 0)],
        ]:
            parts = with_first([TRUE], action)
            cases += [join_answer(parts, [0], [], mandatory), join_answer(parts, [1, 0], [1], mandatory)]
            cases += [join_answer(parts, [], [0], optional), join_answer(parts, [1], [1, 0], optional)]
    return cases


def join_sizes():
    """E of 254 to 65,535, T of 1 to 3,995; new models of 11,999 to 12,001 nodes, with slices up to the longest."""
    cases = []
    for events, count in [(254, 1), (255, 1), (256, 1), (65534, 1), (65535, 1), (255, 255), (256, 256), (65534, 257), (65535, 257)]:
        parts = SHOP._replace(events=events, transitions=count * [(0, [TRUE], [SKIP])])
        answer = 36 if events == 65535 else 0
        cases += [join_answer(parts, [count - 1], [], answer), join_answer(parts, [], [0], answer)]
        cases += [join_answer(parts, [], [], 35, 0), join_answer(parts, [0], [count], 11, 0)]
    # 12,000 nodes with one mandatory member, 12,002 with an optional one.
    most = SHOP._replace(events=3995, transitions=[(t, [TRUE], [SKIP]) for t in range(3995)])
    cases += [join_answer(most, [3994], [], 0), join_answer(most, [], [0], 36), join_answer(most, [3995], [], 11)]
    filled = lambda skips: SHOP._replace(assertion=block(skips * [[SKIP]]))
    nodes = lambda parts: (len(file_of(parts)) - 10) // 5
    for mandatory, optional in [([0], []), ([], [3, 1]), ([1], [3, 0])]:
        # So many skips give the new model exactly 12,000 nodes.
        skips = 12000 - nodes(joined(filled(0), mandatory, optional))
        for more, answer, cells in [(-1, 0, 60010), (0, 0, 60010), (0, 36, 60009), (1, 36, 60010), (1, 36, ENOUGH)]:
            cases.append(join_answer(filled(skips + more), mandatory, optional, answer, cells))
    full = filled(12000 - nodes(filled(0)))
    return cases + [join_answer(full, [0], [], 36), join_answer(full, [], [5], 11), join_answer(full, [], [], 35)]


def join_slices():
    """Slices of exactly the new length, shorter and longer, with each fill."""
    cases = []
    for mandatory, optional in [([0], []), ([], [1]), ([3, 2], [0, 0]), ([1, 1, 1], [1])]:
        length = len(file_of(joined(SHOP, mandatory, optional)))
        for fill in (0, 19, 255):
            for cells in (0, 9, 10, len(file_of(SHOP)), length - 5, length - 1):
                cases.append(join_answer(SHOP, mandatory, optional, 36, cells, fill))
            for cells in (length, length + 1, length + 5, ENOUGH):
                cases.append(join_answer(SHOP, mandatory, optional, 0, cells, fill))
    return cases


def refused_files():
    """Files that are no models, one for each number of the check."""
    return [
        (1, bytes(9)), (2, sizes_of(4001, 0, 0, 0, 12001)), (37, sizes_of(4001, 0, 0, 0, 0)), (3, file_of(SHOP)[:-1]), (4, bytes(10)),
        (5, file_of(with_first(32 * [(35, 0)] + [TRUE], [SKIP]))), (6, file_of(with_first([SKIP], [SKIP]))),
        (7, file_of(with_first([(34, 9)], [SKIP]))), (8, model(0, 0, 0, 0, [SKIP, SKIP])),
    ]


def join_orders():
    """1 to 8 and 37 before 35, 35 before 11, 11 before 36, in either list and at any place of it."""
    cases = []
    for answer, file in refused_files():
        for mandatory, optional in [([], []), ([9], []), ([0], [0]), (60 * [0], [2 ** 64 - 1])]:
            cases += [join_case(file, mandatory, optional, (cells, 7), answer, b'') for cells in (0, ENOUGH)]
    for number in (5, 6, 255, 256, 2 ** 16, 2 ** 32, 2 ** 63, 2 ** 64 - 1):
        lists = [([number], []), ([], [number]), ([number, 0], [0]), ([0, number], [0]), ([0], [number, 0]), ([0], [0, number])]
        lists += [([number], 60 * [0]), (59 * [0] + [number], []), (60 * [0], 59 * [0] + [number])]
        cases += [join_answer(SHOP, *both, 11, cells) for both in lists for cells in (0, ENOUGH)]
    none = Parts(0, 0, 0, [], [], [SKIP])
    cases += [join_answer(none, [], [], 35), join_answer(none, [0], [], 11), join_answer(none, [], [0], 11)]
    return cases


def join_contents():
    """Members in any order, twice, in both lists; every kind of node and the ends of its parameters; models without variables."""
    lists = [([3, 1, 0], []), ([0, 1, 3], []), ([], [2, 1, 0]), ([], [0, 1, 2])]
    lists += [([4, 4], [4, 4]), ([0], [0]), ([1, 2], [2, 1]), ([4], [3, 2, 1, 0])]
    cases = [join_answer(parts, *both, 0) for parts in (SHOP, SHOP_TWIN) for both in lists]
    least, most, x = [(32, -2147483648)], [(32, 2147483647)], [(34, 1)]
    relation = [(39, 0)] + least + x + [(40, 0)] + x + most
    guard = [(46, 0), (47, 0), (35, 0), TRUE, (37, 0)] + relation + [(36, 0), (33, 0), (38, 0)] + x + least + [(34, 0)]
    value = [(41, 0), (42, 0)] + x + least + [(43, 0), (44, 0)] + most + x + [(45, 0), (46, 0), TRUE, (32, -1)] + x + x
    action = [(19, 4), SKIP, (19, 0), (18, 0), (34, 0), (17, 1)] + value + [(17, 0), (33, 1)]
    every = with_first(guard, action)
    cases += [join_answer(every, *both, 0) for both in [([0], []), ([], [0]), ([0, 1], [0, 2]), ([2, 0], [])]]
    bare = Parts(0, 0, 200, [], [(199, [TRUE], [SKIP]), (7, [(33, 0)], [(19, 0)])], [(19, 0)])
    return cases + [join_answer(bare, *both, 0) for both in [([0], []), ([], [1]), ([1, 0], [1])]]


def join_edges():
    """Joins at the edges of the rules, with the answers that they demand."""
    return join_lengths() + join_depths() + join_sizes() + join_slices() + join_orders() + join_contents()


# What is asked of a log: two expressions, each as its kinds and its parameters, the rows of a window, and the cells of the log.
Question = namedtuple('Question', 'condition number window log')


def window_case(files, question, out, answer, figures):
    """A question of a log of a model and its twin; `out` is the length and the fill of the slice, a refusal has no figures."""
    trees = [question.condition, question.number]
    lengths = [len(files[0])] + [len(part) for tree in trees for part in tree]
    lengths += [len(question.log), out[0], len(figures) // 3, len(files[1])]
    header = bytes([answer, 0]) + b''.join(little(x, 2) for x in lengths) + little(out[1], 4) + little(question.window, 8)
    kinds = b''.join(bytes(kinds) for kinds, _ in trees)
    values = question.log + question.condition[1] + question.number[1] + figures
    return header + b''.join(files) + kinds + b''.join(little(x, 4) for x in values)


def stored_windows(lines):
    """The cases of windows.txt; each model is its own twin."""
    cases = []
    for words in lines:
        if words[0] == 'model':
            file, trees = bytes(numbers(words)), []
        elif words[0] == 'rows':
            log = numbers(words)
        elif words[0] == 'window':
            window = int(words[1])
        elif words[0] in ('kinds', 'params'):
            trees.append(numbers(words))
        elif words[0] == 'out':
            out, question = (int(words[1]), int(words[2])), Question(trees[:2], trees[2:], window, log)
        elif words[0] == 'cells':
            assert 3 * rows == int(words[1])
            cases.append(window_case((file, file), question, out, 0, numbers(words)))
        elif words[1] == 'no':
            cases.append(window_case((file, file), question, out, int(words[2]), []))
        else:
            rows = int(words[2])
    return cases


def figures_of(truths, values, window):
    """The figures of every row, from its window alone; a truth or a value is None where its expression failed."""
    figures = []
    for last in range(1, len(truths) + 1):
        first = max(0, last - window)
        known = [value for value in values[first:last] if value is not None]
        figures += [truths[first:last].count(True), max(known, default=0), min(len(known), 1)]
    return figures


# An expression: its nodes, and what it comes to over a row, None where it fails.
Reading = namedtuple('Reading', 'nodes over')


def question_of(condition, number, window, rows):
    """A question of two readings."""
    return Question(tree_of(condition.nodes), tree_of(number.nodes), window, sum(rows, []))


def reported(files, condition, number, window, rows, more=0, fill=7):
    """A question that is answered; the slice has so many cells more than are written."""
    truths, values = [[reading.over(row) for row in rows] for reading in (condition, number)]
    figures = figures_of(truths, values, window)
    return window_case(files, question_of(condition, number, window, rows), (len(figures) + more, fill), 0, figures)


def unreported(files, answer, question, cells):
    """A question that is refused."""
    return window_case(files, question, (cells, 7), answer, [])


def gauge(join):
    """A number of all 32 bits, and one transition."""
    ends = [(2, -2147483648), (3, 2147483647), (4, 0)]
    action = block(join([assignment(0, [(32, 1)])], [[SKIP]]))
    return model(1, 0, 1, 1, ends + [(5, 0)] + equals(join, [(34, 0)], 3) + action + [SKIP])


def meter(join):
    """A number from -5 to 5 and a Boolean as states, a Boolean as a flow, and one transition."""
    action = block(join([assignment(1, [TRUE])], [[SKIP]]))
    assertion = block(join([assignment(2, [(34, 1)])], [[SKIP]]))
    return model(2, 1, 1, 1, RANGE + 2 * [FLAG] + [(5, 0)] + equals(join, [(34, 0)], 3) + action + assertion)


GAUGE, METER = both_ways(gauge), both_ways(meter)

# Readings of the first value of a row: as it is; with a minus, which the least number does not have; one that fails where it is 0; whether
# it is below 0; a truth that fails where it is 0; and true.
AT_ZERO = [(38, 0), (34, 0), (32, 0)]
FIRST_VALUE = Reading([(34, 0)], lambda row: row[0])
MINUS = Reading([(42, 0), (32, 0), (34, 0)], lambda row: None if row[0] == -2147483648 else -row[0])
NOT_ZERO = Reading(conditional(AT_ZERO, ONE_OVER_ZERO, [(34, 0)]), lambda row: row[0] or None)
BELOW_ZERO = Reading([(39, 0), (34, 0), (32, 0)], lambda row: row[0] < 0)
TRUE_OR_FAILED = Reading(conditional(AT_ZERO, [(38, 0), (32, 1)] + ONE_OVER_ZERO, [TRUE]), lambda row: row[0] != 0 or None)
ALWAYS = Reading([TRUE], lambda row: True)


def window_lengths():
    """Windows of 0 to 5,001 rows over logs of 0 to 5,000 rows, which go up and down, rise, fall, stay, or alternate; a long log does all
    five only where a window has 1,000 rows."""
    mixed = lambda at, count: at * 7919 % 1009 - 504
    rising, falling = lambda at, count: at - count // 2, lambda at, count: count // 2 - at
    shapes = [mixed, rising, falling, lambda at, count: -4, lambda at, count: 3 - at % 2 * 6]
    cases = []
    for count in (0, 1, 2, 9, 1000, 1001, 5000):
        for window in sorted({0, 1, 2, 4, count - 1, count, count + 1, 1000, 1001} - {-1}):
            for shape in shapes if window == 1000 or count < 1000 else [mixed]:
                rows = [[shape(at, count)] for at in range(count)]
                if 0 < window <= 1000:
                    cases.append(reported(GAUGE, BELOW_ZERO, FIRST_VALUE, window, rows))
                else:
                    cases.append(unreported(GAUGE, 41, question_of(BELOW_ZERO, FIRST_VALUE, window, rows), 3 * count))
    return cases


def window_failures():
    """Each way in which six rows fail or not: the number, the condition, or both; all values are below 0."""
    cases = []
    for pattern in range(64):
        rows = [[(pattern >> at & 1) * -(1 + at * 5 % 7)] for at in range(6)]
        for readings in [(BELOW_ZERO, NOT_ZERO), (ALWAYS, NOT_ZERO), (TRUE_OR_FAILED, NOT_ZERO), (TRUE_OR_FAILED, FIRST_VALUE)]:
            cases += [reported(GAUGE, *readings, window, rows) for window in (1, 3, 6)]
    return cases


def window_ends():
    """The ends of 32 bits and what is beside them; the minus of the least number is too large."""
    least, most = -2147483648, 2147483647
    cases = []
    for values in [
        [least], [most], 4 * [least], [least, most, least, most], [most, least, least, least, most], [least, least + 1, least, 0, -1],
        [least, -1, least, least, least], [0, least, least, most, most - 1, least], [most, most - 1, most, most, 1],
    ]:
        rows = [[value] for value in values]
        for window in (1, 2, 3, 1000):
            for number in (FIRST_VALUE, MINUS, NOT_ZERO):
                cases.append(reported(GAUGE, BELOW_ZERO, number, window, rows, 2, least))
                cases.append(reported(GAUGE, TRUE_OR_FAILED, number, window, rows, 1, most))
    return cases


def window_slices():
    """Slices of exactly the cells that are written, shorter and longer, with rows of one value and of three; no rows."""
    cases = []
    for files, width in ((GAUGE, 1), (METER, 3)):
        for count in (0, 1, 2, 5, 64):
            rows = [[at % 3 - 1] + (width - 1) * [at % 2] for at in range(count)]
            for more in (0, 1, 2, 3, 300):
                cases += [reported(files, BELOW_ZERO, FIRST_VALUE, 3, rows, more, fill) for fill in (0, 1, -1, -2147483648)]
            question = question_of(BELOW_ZERO, FIRST_VALUE, 3, rows)
            short = {0, 1, count, 3 * count - 3, 3 * count - 2, 3 * count - 1} & set(range(3 * count))
            cases += [unreported(files, 10, question, cells) for cells in sorted(short)]
    return cases


def wrong_trees():
    """Conditions and numbers over the meter that are wrong, each with the number of its refusal."""
    x, b, minus = (34, 0), (34, 1), [(42, 0), (32, 1)]
    with_nodes = lambda pairs: [(answer, tree_of(nodes)) for answer, nodes in pairs]
    conditions = [(3, ([33], [])), (3, ([], [0])), (3, ([33, 33], [1]))] + with_nodes([
        (4, []), (4, [(36, 0), b]), (5, 32 * [(35, 0)] + [b]), (6, [(32, 1)]), (6, [SKIP]), (7, [(33, 2)]), (7, [x]), (7, [(34, 3)]),
        (8, [b, b]),
    ])
    values = [(3, ([32], [])), (3, ([], [0])), (3, ([32], [1, 1]))] + with_nodes([
        (4, []), (4, [(41, 0), x]), (5, 32 * minus + [x]), (6, [TRUE]), (6, [FLAG]), (7, [(41, 1), x, x]), (7, [b]), (7, [(34, 65536)]),
        (8, [x, x]),
    ])
    return conditions, values


CONDITION, VALUE = tree_of([(34, 1)]), tree_of([(34, 0)])


def expression_orders():
    """The model's number before the condition's, and that before the number's: with 41, 10 or 20 after them, or none of these."""
    conditions, values = wrong_trees()
    cases = []
    follows = [(0, [9], 0), (1001, [0, 0, 0], 3), (1, [0, 0], 3), (1, [0, 0, 0], 0), (1, [9, 0, 0], 3), (1, [0, 0, 0], 3)]
    for window, log, cells in follows:
        asked = lambda files, answer, *trees: unreported(files, answer, Question(*trees, window, log), cells)
        for answer, file in refused_files():
            for trees in [(CONDITION, VALUE), (conditions[0][1], VALUE), (CONDITION, values[3][1])]:
                cases.append(asked((file, file), answer, *trees))
        for answer, wrong in conditions:
            cases += [asked(METER, answer, wrong, number) for _, number in [(0, VALUE)] + values]
        cases += [asked(METER, answer, CONDITION, wrong) for answer, wrong in values]
    return cases


def window_orders():
    """41 before 10 and 20, and 10 before 20."""
    asked = lambda answer, window, log, cells: unreported(METER, answer, Question(CONDITION, VALUE, window, log), cells)
    cases = []
    for window in (0, 1001, 65536, 65537, 2 ** 32, 2 ** 32 + 1, 2 ** 63, 2 ** 64 - 1):
        for log in ([], [0, 0, 0], [9, 2, 0], [0], 9 * [7]):
            cases += [asked(41, window, log, cells) for cells in (0, len(log), 15104)]
    for length in (1, 2, 4, 5, 299, 301):
        cases += [asked(41, 1, length * [cell], cells) for cell, cells in [(0, 0), (9, 0), (0, length + 2), (9, 900)]]
    for log in ([9, 0, 0], [0, 2, 0, 0, 0, 0], [0, 0, 0, 0, 0, -1]):
        cases += [asked(10, 1, log, cells) for cells in (0, len(log) - 1)] + [asked(20, 1, log, len(log) + more) for more in (0, 1)]
    return cases


def no_variables():
    """A model without variables: 41 whatever the log is, and what comes before it."""
    files = both_ways(lambda join: model(0, 0, 0, 0, block(join([[SKIP]], [[(19, 0)]]))))
    condition, number, read = tree_of([TRUE]), tree_of([(32, 1)]), tree_of([(34, 0)])
    cases = []
    for window in (0, 1, 1000, 1001):
        for log in ([], [0], [0, 7]):
            for answer, trees in [(41, (condition, number)), (7, (read, number)), (7, (condition, read))]:
                cases += [unreported(files, answer, Question(*trees, window, log), cells) for cells in (0, 3, 6)]
    return cases


def window_ranges():
    """A value outside its ends, or at one of them, in each place of three rows."""
    condition, cases = Reading([(34, 1)], lambda row: row[1] == 1), []
    for window in (1, 2, 1000):
        for place in range(9):
            for value in (-2147483648, -6, -5, -1, 0, 1, 2, 5, 6, 2147483647):
                log = place * [0] + [value] + (8 - place) * [0]
                rows = [log[:3], log[3:6], log[6:]]
                if value in (range(2) if place % 3 else range(-5, 6)):
                    cases.append(reported(METER, condition, FIRST_VALUE, window, rows))
                else:
                    cases.append(unreported(METER, 20, question_of(condition, FIRST_VALUE, window, rows), 9))
    return cases


def spread(operator, parts):
    """An operator over many expressions, half of them on each side."""
    half = len(parts) // 2
    return parts[0] if half == 0 else [(operator, 0)] + spread(operator, parts[:half]) + spread(operator, parts[half:])


def long_expressions():
    """Expressions of 5,000 nodes over the meter, right, and wrong at the end."""
    x, b, c = [(34, 0)], [(34, 1)], [(34, 2)]
    some = Reading([(35, 0)] + spread(36, 2499 * [b] + [c]), lambda row: row[1] == 0 or row[2] == 0)
    last = conditional(BELOW_ZERO.nodes, [(32, 7)], x)
    total = Reading(spread(41, 2497 * [x] + [last]), lambda row: 2497 * row[0] + (7 if row[0] < 0 else row[0]))
    assert len(some.nodes) == len(total.nodes) == 5000
    rows = [[at * 7 % 11 - 5, at % 3 // 2, at % 2] for at in range(30)]
    cases = [reported(METER, *readings, 4, rows) for readings in [(some, FIRST_VALUE), (BELOW_ZERO, total), (some, total)]]
    for answer, change in [(4, lambda nodes: nodes[:-1]), (7, lambda nodes: nodes[:-1] + [(34, 3)]), (8, lambda nodes: nodes + x)]:
        for trees in [(tree_of(change(some.nodes)), VALUE), (CONDITION, tree_of(change(total.nodes)))]:
            cases.append(unreported(METER, answer, Question(*trees, 1, 3 * [0]), 3))
    return cases


def wide_model(count, nodes, join):
    """A number and so many Booleans, in so many nodes."""
    head = [(2, -9), (3, 9), (4, 0)] + (count - 1) * [FLAG]
    branches = join([[SKIP]], [[(19, 0)]]) + (nodes - count - 10) * [[SKIP]]
    return model(1, count - 1, 1, 1, head + [(5, 0)] + equals(join, [(34, 0)], 3) + [SKIP] + block(branches))


def wide_logs():
    """Rows of up to 4,000 values, of which the first and the last are read, in models of up to 12,000 nodes."""
    cases = []
    for count, nodes in [(256, 1024), (256, 1025), (257, 1024), (1024, 4096), (1024, 4097), (1025, 4096), (4000, 9000), (2, 12000)]:
        files = both_ways(lambda join: wide_model(count, nodes, join))
        last = Reading([(34, count - 1)], lambda row: row[-1] == 1)
        rows = [[at] + [(at + place) % 2 for place in range(1, count)] for at in (9, -9)]
        cases.append(reported(files, last, FIRST_VALUE, 2, rows))
        cases.append(unreported(files, 20, question_of(last, FIRST_VALUE, 2, [rows[0][:-1] + [2]]), 3))
    return cases


def window_edges():
    """Windows over logs at the edges of the rules, with the answers that they demand."""
    return [
        *window_lengths(), *window_failures(), *window_ends(), *window_slices(), *expression_orders(), *window_orders(), *no_variables(),
        *window_ranges(), *long_expressions(), *wide_logs(),
    ]


def text_edges():
    """Variables of a model that has 4,000 of them, the first 256 numbers."""
    file = model(256, 3744, 0, 0, 256 * RANGE + 3744 * [FLAG] + [SKIP])
    cells = lambda text, answer, kinds=[], parameters=[]: text_case(file, text, (400, 7), (400, -7), answer, (kinds, parameters))
    return [
        *[cells(b'v%d' % variable, 0, [34], [variable]) for variable in (0, 255, 256, 257, 510, 511, 3999)],
        *[cells(b'v%d' % variable, 12) for variable in (4000, 4001, 65535, 65536, 69535, 2 ** 32, 2 ** 64)],
        cells(b'v3999 and not v256', 0, [36, 34, 35, 34], [0, 3999, 0, 256]),
        cells(b'v3999 or v4000', 12),
        cells(b'v255 == v3999', 33),
        cells(b'v255 + v256', 33),
        cells(b'v255 + 4000', 0, [41, 34, 32], [0, 255, 4000]),
    ]


# The model of document 01's example, which it gives all answers of.
EXAMPLE = model(1, 2, 2, 2, [
    (1, 1), (1, 0), (1, 0), (5, 0), (34, 0), (17, 0), (33, 0), (5, 1), (35, 0), (34, 0), (17, 0), (33, 1),
    (19, 2), (17, 2), (46, 0), (34, 0), (34, 1), (33, 0), (17, 1), (33, 1),
])


def digits():
    """f with no digit to six of them, and what stands after them, on the example; the last line has no line feed."""
    start, stop, low, high, none, bad = b'ok 3 1 1 1', b'ok 2 0 1 0', b'back 1 1 1', b'back 0 1 0', b'no 11', b'no 13'
    turns = [
        (b'f', bad), (b'f ', bad), (b'f 1', b'no 23'), (b'f 01', b'no 23'), (b'f 001', b'no 23'), (b'f 0001', b'no 23'),
        (b'f 00001', b'no 23'), (b'f 000001', bad), (b'f 2', none), (b'f 99', none), (b'f 256', none), (b'f 999', none), (b'f 1000', none),
        (b'f 0002', none), (b'f 9999', none), (b'f 10000', none), (b'f 00002', none), (b'f 65535', none), (b'f 65536', none),
        (b'f 65537', none), (b'f 99999', none), (b'f 100000', bad), (b'f 000000', bad), (b'f 0000000', bad), (b'f 99999999', bad),
        (b'f 00000 ', bad), (b'f 0000 0', bad), (b'f 0000x', bad), (b'f 00000x', bad), (b'f 00000\r', bad), (b'f -0001', bad),
        (b'f  0000', bad), (b'f0000', bad), (b'f 00000', stop), (b'f 00000', b'no 23'), (b'f 00001', start), (b'f 0000', stop),
        (b'u', low), (b'f 000', stop), (b'f 0001', start), (b'u', high), (b'm', b'm 0 1'), (b'u', low), (b'f 00000', stop),
    ]
    inputs, outputs = zip(*turns)
    return EXAMPLE, b'\n'.join(inputs), b'\n'.join((start,) + outputs) + b'\n'


def full_lines():
    """4,000 variables in a line: 3,998 numbers of a sign and ten digits, and two Booleans; one transition."""
    least = [(2, -2147483648), (3, 2147483647), (4, -2147483648)]
    file = model(4000, 0, 1, 1, 3998 * least + 2 * [FLAG] + [(5, 0), TRUE, SKIP] + [SKIP])
    values = 3998 * b' -2147483648' + b' 0 0'
    return file, b'm\nf 00000\nu\nu\n', b'ok 1%b\nm 1\nok 1%b\nback%b\nno 22\n' % (values, values, values)


def chained_lines():
    """4,000 rounds; 4,000 variables and no transition."""
    file = model(1, 3999, 0, 0, 4000 * [FLAG] + block(chain_of(3999)))
    return file, b'm\nf 0\nu\n\n', b'ok 4000 0%b\nm\nno 11\nno 22\nno 13\n' % (3999 * b' 1')


def marked_lines():
    """3,999 transitions, of which the last two are fireable: 200 steps and one more."""
    file = model(0, 0, 1, 3999, 3997 * [(5, 0), (33, 0), SKIP] + 2 * [(5, 0), TRUE, SKIP] + [SKIP])
    marks, steps = b'm%b 1 1\n' % (3997 * b' 0'), 199 * b'f 03998\n'
    inputs = b'm\nf 3996\nf 3997\n' + steps + b'f 3998\nf 3999\nf 03999\nf 4000\nu\nm'
    return file, inputs, b'ok 1\n' + marks + b'no 23\n' + 200 * b'ok 1\n' + b'no 21\n' + 3 * b'no 11\n' + b'back\n' + marks


def program_edges():
    """Runs at the limits, and starts that are refused by the number of the model."""
    longest = model(0, 0, 0, 0, [(19, 11999)] + 11999 * [SKIP])
    refusals = [
        (1, bytes(9)), (2, sizes_of(4001, 0, 0, 0, 12001)), (2, model(0, 0, 0, 0, [(19, 12000)] + 12000 * [SKIP])),
        (37, sizes_of(4000, 1, 0, 0, 0)), (3, longest + bytes(1)), (3, longest + bytes(5000)), (3, OLD_SMALLEST), (4, bytes(10)),
    ]
    cases = [parts_case(file, b'm\nf 0\n', b'no %d\n' % number) for number, file in refusals]
    cases.append(parts_case(longest, b'm\nf 12000\n', b'ok 1\nm\nno 11\n'))
    return cases + [parts_case(*run) for run in (digits(), full_lines(), chained_lines(), marked_lines())]


def old_groups(name):
    """The lines of a file of bench/cases/old in groups, one for each model."""
    groups = []
    for words in lines_of(os.path.join('old', name)):
        if words[0] == 'model':
            groups.append([])
        groups[-1].append(words)
    return groups


def old_refusal(group):
    """What the old check says of a group's model: the number of its refusal, or 0. Every call and every program begins with that check."""
    for words in group:
        if words[0] == 'want':
            number = int(words[2]) if words[1] == 'no' else 0
            break
        if words[0] == 'output':
            number = int((re.match(rb'no (\d+)\n', bytes(numbers(words))) or [0, 0])[1])
            break
    return number if number <= 8 else 0


def rewritten(file):
    """An old file in the new layout."""
    return sizes_of(*file[:4]) + file[4:]


def rewritten_line(words):
    """A line about a model of the old layout, about the same model in the new one. A join's slice and its new model grow as the model."""
    if words[0] in ('model', 'twin', 'cells'):
        file = rewritten(bytes(numbers(words)))
        return [words[0], str(len(file)), *map(str, file)]
    if words[0] == 'out':
        return ['out', str(int(words[1]) + 4), words[2]]
    return ['want', 'length', str(int(words[2]) + 4)] if words[:2] == ['want', 'length'] else words


def rewritten_lines(name, numbers=(0,)):
    """The lines of the old groups whose model the old check answers by one of these numbers, with the model rewritten."""
    return [rewritten_line(words) for group in old_groups(name) if old_refusal(group) in numbers for words in group]


def turned_long_fires(file, inputs, output):
    """A run on an old model, rewritten. Where f has 4 or 5 digits that name no transition, 11 is now the answer; where they name one, the
    line loses them, so that its answer stays 13."""
    answers = output.split(b'\n')
    lines = inputs.split(b'\n')
    for place, line in enumerate(lines[:len(answers) - 2]):
        if re.fullmatch(rb'f [0-9]{4,5}', line):
            assert answers[1 + place] == b'no 13'
            if int(line[2:]) < file[3]:
                lines[place] = b'f '
            else:
                answers[1 + place] = b'no 11'
    return rewritten(file), b'\n'.join(lines), b'\n'.join(answers)


def rewritten_programs(name):
    """The old runs on accepted models, rewritten."""
    groups = [group for group in old_groups(name) if old_refusal(group) == 0]
    return [parts_case(*turned_long_fires(*[bytes(numbers(words)) for words in group])) for group in groups]


def is_join_kept(file, words):
    """Do the limits of the new layout leave the answer to a join as it was? Not where E, T or the nodes may have been in the way."""
    members = len(words['mandatory']) + len(words['optional']) - 4
    return words['want'][1:] != ['no', '36'] or 255 not in file[2:4] and (1 + members) * (file[4] + 256 * file[5] + 3) <= 4000


def rewritten_joins(name):
    """The old joins in accepted models, rewritten."""
    lines = []
    for group in old_groups(name):
        file, join = bytes(numbers(group[0])), {}
        for words in group if old_refusal(group) == 0 else []:
            join[words[0]] = words
            if words[0] == 'want' and is_join_kept(file, join):
                lines += [rewritten_line(join[word]) for word in ('model', 'mandatory', 'optional', 'out', 'want')]
            elif words[0] == 'cells':
                lines.append(rewritten_line(words))
    return stored_joins(lines)


OLD_FILES = [
    'checks.txt', 'calls.txt', 'earlier_calls.txt', 'joined_calls.txt', 'values.txt', 'texts.txt', 'joins.txt', 'programs.txt',
    'earlier_programs.txt',
]


def wide_text(file, number):
    """What gtswide prints of an old file that the old check answers by this number."""
    return b'no %d\n' % number if number else rewritten(file)


def wide_edges():
    """Old files at the edges of the old layout's rules: lengths, N of 4,000 and 4,001, and files that are longer than any accepted one."""
    old = lambda states, flows, events, transitions, nodes: bytes([states, flows, events, transitions]) + model(0, 0, 0, 0, nodes)[8:]
    skips, flags = lambda count: [(19, count)] + count * [SKIP], 510 * [FLAG]
    longest = old(0, 0, 0, 0, skips(3999))
    forms = 255 * [(5, 254), TRUE, SKIP]
    answers = [
        (1, b''), (1, bytes(5)), (4, bytes(6)), (3, bytes(7)), (4, bytes([9, 9, 9, 9, 0, 0])), (0, OLD_SMALLEST), (3, OLD_SMALLEST[:-1]),
        (3, OLD_SMALLEST + bytes(1)), (2, bytes([0, 0, 0, 0, 161, 15])), (2, 6 * b'\xff'), (3, bytes([255, 255, 255, 255, 160, 15])),
        (0, longest), (0, old(1, 0, 0, 0, [FLAG] + skips(3998))), (2, old(0, 0, 0, 0, skips(4000))), (3, longest[:-1]),
        (3, longest + bytes(1)), (3, longest + bytes(9994)), (2, old(0, 0, 0, 0, skips(5998))), (2, old(0, 0, 0, 0, skips(11999))),
        (3, model(0, 0, 0, 0, skips(3999))), (0, old(255, 255, 255, 255, flags + forms + [SKIP])),
        (0, old(255, 255, 0, 0, flags + [SKIP])), (0, old(0, 0, 255, 255, forms + [SKIP])),
        (4, old(255, 255, 0, 0, flags)), (8, old(0, 0, 0, 0, 2 * [SKIP])), (7, old(0, 0, 255, 1, [(5, 255), TRUE, SKIP, SKIP])),
        (5, old(0, 0, 0, 0, 32 * [(19, 1)] + [SKIP])), (6, old(0, 0, 0, 0, [FLAG])),
    ]
    return [parts_case(file, wide_text(file, number)) for number, file in answers]


def wide_cases():
    """Runs of gtswide: the stored ones, the edges, and the models of all old files."""
    cases = stored_programs(lines_of('gtswide.txt')) + wide_edges()
    for name in OLD_FILES:
        for group in old_groups(name):
            file, number = bytes(numbers(group[0])), old_refusal(group)
            cases.append(parts_case(file, wide_text(file, number)))
    return cases


def distinct(cases):
    return list(dict.fromkeys(cases))


def write(crate, cases, output):
    folder = os.path.join(ROOT, 'crates', crate)
    os.makedirs(os.path.join(folder, 'data'), exist_ok=True)
    with open(os.path.join(folder, 'data', 'cases'), 'wb') as file:
        file.write(b''.join(cases))
    with open(os.path.join(folder, 'stdout'), 'w') as file:
        file.write(output + '\n')
    print(f'{crate}: {output}, {sum(map(len, cases))} bytes')


def main():
    old = lambda read, *names: [each for name in names for each in read(rewritten_lines(name))]
    # Numbers 3 to 8 are the same in both layouts.
    checks = stored_checks(lines_of('checks.txt')) + stored_checks(rewritten_lines('checks.txt', (0, 3, 4, 5, 6, 7, 8))) + edges()
    lists = stored_calls(lines_of('calls.txt')) + stored_calls(lines_of('earlier_calls.txt'))
    lists += old(stored_calls, 'calls.txt', 'earlier_calls.txt', 'joined_calls.txt')
    lists += stored_values(lines_of('values.txt')) + old(stored_values, 'values.txt')
    lists = distinct(lists + extremes() + picks() + ranges() + held_marks() + conditionals())
    programs = stored_programs(lines_of('programs.txt')) + stored_programs(lines_of('earlier_programs.txt')) + program_edges()
    programs += rewritten_programs('programs.txt') + rewritten_programs('earlier_programs.txt')
    texts = stored_texts(lines_of('texts.txt')) + old(stored_texts, 'texts.txt') + text_edges()
    joins = stored_joins(lines_of('joins.txt')) + rewritten_joins('joins.txt') + join_edges()
    logs = stored_windows(lines_of('windows.txt')) + window_edges()
    calls = sum(number for _, number in lists)
    write('call_cases', [each for each, _ in lists], f'{len(lists)} lists, {2 * calls} calls, 0 differ')
    for crate, word, cases in [
        ('check_cases', 'cases', checks), ('program_cases', 'programs', programs), ('text_cases', 'texts', texts),
        ('join_cases', 'joins', joins), ('window_cases', 'logs', logs), ('wide_cases', 'files', wide_cases()),
    ]:
        cases = distinct(cases)
        write(crate, cases, f'{len(cases)} {word}, 0 differ')


if __name__ == '__main__':
    main()
