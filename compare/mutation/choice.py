# Which edits are tried: what the seed picks, with two for each public function.
import random

from mutation.crates import DEFINITIONS
from mutation.mutant import KINDS
from mutation.edits import mutants_of_code
from mutation.definitions import mutants_of_definitions

SEED = 28
# How many more a public function may have.
MORE = 2
# How many edits a crate has; one that takes long to check has fewer.
USUAL = 13
NUMBER = {
    'binary32': 16, 'rules': 18, 'quad': 12, 'text': 10, 'solve': 10, 'entries': 10, 'airmode': 10, 'sheet': 10,
    'thrust_floor': 10, 'torque': 10, 'lowering': 10, 'frame': 10, 'bodies': 10, 'plain': 10, 'rotor_out': 9,
    'priority': 9, 'sheet_run': 9, 'lines': 8, 'exported': 8, 'probes': 8, 'report': 4,
}

POSSIBLE = {}

def possible(code, crate):
    if crate not in POSSIBLE:
        POSSIBLE[crate] = mutants_of_definitions(crate) if crate in DEFINITIONS else mutants_of_code(code, crate)
    return POSSIBLE[crate]

# What a public function uses of its crate, itself first: functions and constants by the names in its body, each as its
# file and its name.
def used_by(code, crate, function_source, function):
    units = {}
    for source in code.of(crate):
        for f in source.functions:
            units.setdefault(f.name, []).append((source.file, f.called, f.body))
        for name, (_, _, value) in source.constants.items():
            units.setdefault(name, []).append((source.file, f'const {name}', value))
    seen, todo = [], [(function_source.file, function.called, function.body)]
    while todo:
        file, called, body = todo.pop(0)
        if (file, called) in seen:
            continue
        seen.append((file, called))
        elsewhere = {use[-1] for source in code.of(crate) if source.file == file
                     for use in source.uses if use[0] != 'crate'}
        for i, token in enumerate(body):
            call = i + 1 < len(body) and body[i + 1].text == '('
            named = [] if token.text in elsewhere else [
                unit for unit in units.get(token.text, []) if call or unit[1].startswith('const ')]
            todo += [unit for unit in named if unit[0] == file] or named
    return seen

def public_functions(code, crate):
    return [(source, f) for source in code.of(crate) for f in source.functions if f.public]

# The edits of a public function: of its contract, over a struct that is lent; of its own body; of what it uses; and
# last what it answers as a whole. Each part is in the order that the seed gives.
def edits_of(code, source, function, shuffled):
    own, *used = used_by(code, source.crate, source, function)
    of_own = [m for m in shuffled if (m.file, m.function) == own]
    of_used = [m for m in shuffled if (m.file, m.function) in used and m.kind != 'answer']
    contract, answer = ([m for m in of_own if m.kind == kind] for kind in ('contract', 'answer'))
    return contract + [m for m in of_own if m.kind not in ('contract', 'answer')] + of_used + answer

# A variable made a number comes after the other kinds, and after it a callee's name, which changes the calls, and what
# is no single token.
LATE = ('value', 'callee', 'answer')

def shuffled(mutants, crate):
    order = [m for m in mutants if m.kind not in ('value', 'answer')]
    random.Random(f'{SEED} {crate}').shuffle(order)
    for kind in ('value', 'answer'):
        some = [m for m in mutants if m.kind == kind]
        random.Random(f'{SEED} {crate} {kind}').shuffle(some)
        order += some
    return sorted(dict.fromkeys(order), key=lambda m: LATE.index(m.kind) + 1 if m.kind in LATE else 0)

def picked(code, crate):
    order = shuffled(possible(code, crate), crate)
    plan = []
    for source, function in public_functions(code, crate):
        for m in edits_of(code, source, function, order)[:2]:
            if m not in plan:
                plan.append(m)
    number, turn = NUMBER.get(crate, USUAL), 0
    # in turns from each kind or, of definitions, from each file
    by = (lambda m: m.file) if crate in DEFINITIONS else (lambda m: m.kind)
    turns = sorted({by(m) for m in order if m.kind not in ('value', 'answer')},
                   key=lambda x: KINDS.index(x) if x in KINDS else x)
    rest = {x: [m for m in order if by(m) == x and m not in plan] for x in turns}
    while len(plan) < number and any(rest.values()):
        x = turns[turn % len(turns)]
        turn += 1
        if rest[x]:
            plan.append(rest[x].pop(0))
    return plan
