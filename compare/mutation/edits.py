# The edits of one token of the code.
import re
import struct

from mutation.mutant import Mutant
from mutation.source import CLOSE, OPEN, after_bracket, split, type_text
from mutation.names import element, type_of

OPERATORS = {
    '+': ('-', '*'), '-': ('+', '*'), '*': ('+', '/'), '/': ('*', '-'), '%': ('/', '*'),
    '&&': ('||',), '||': ('&&',), '+=': ('-=', '*='),
}
ZEROS = {'f32': '0.0', 'u8': '0', 'u16': '0', 'u32': '0', 'u64': '0', 'usize': '0'}
COMPARISONS = ('<', '<=', '>', '>=', '==', '!=')
KEYWORDS = {
    'let', 'mut', 'if', 'else', 'while', 'loop', 'for', 'in', 'match', 'return', 'as', 'true', 'false',
    'break', 'continue', 'self', 'crate',
}

def next_float(text):
    bits = struct.unpack('<I', struct.pack('<f', float(text)))[0] + 1
    value = struct.unpack('<f', struct.pack('<I', bits))[0]
    for digits in range(1, 12):
        short = f'{value:.{digits}e}'
        if struct.pack('<f', float(short)) == struct.pack('<I', bits):
            mantissa, exponent = short.split('e')
            if int(exponent) not in (0, -1):
                return f'{mantissa}e{int(exponent)}'
            return f'{value:.{digits + 1}f}'.rstrip('0')
    return None

def other_floats(text):
    value = float(text)
    others = ['0.0' if value else '1.0', '1.0' if value not in (0.0, 1.0) else '2.0' if value else '0.5']
    return others + [next_float(text)] + ([repr(2 * value)] if value not in (0.0, 1.0) else [])

def other_integers(text):
    value = int(text.replace('_', ''), 0)
    show = (lambda n: f'0x{n:08x}') if text.startswith('0x') else str
    return [show(value + 1)] + ([show(value - 1)] if value else [])

# The arms of the matches of a body: where the pattern begins, where its arrow is, and where the arm ends.
def arms_of(body):
    found = []
    for i, token in enumerate(body):
        if token.text != 'match':
            continue
        i += 1
        while body[i].text != '{':
            i = after_bracket(body, i) if body[i].text in OPEN else i + 1
        close, i = after_bracket(body, i) - 1, i + 1
        while i < close:
            start = i
            while body[i].text != '=>':
                i += 1
            arrow, i = i, i + 1
            if body[i].text == '{':
                i = after_bracket(body, i)
            while i < close and body[i].text != ',':
                i = after_bracket(body, i) if body[i].text in OPEN else i + 1
                if body[i - 1].text == '}' and body[arrow + 1].text == '{':
                    break
            found.append((start, arrow, i))
            i = i + 1 if i < close and body[i].text == ',' else i
    return found

# The tokens of a body that are patterns or types.
def passed_over(body):
    over = set()
    for start, arrow, _ in arms_of(body):
        over.update(range(start, arrow + 1))
    for i, token in enumerate(body):
        if token.text == 'let':
            end = i
            while body[end].text not in ('=', ';'):
                end = after_bracket(body, end) if body[end].text in OPEN else end + 1
            over.update(range(i, end))
        elif token.text == 'as':
            over.update((i, i + 1))
        elif token.text == 'for':
            end = i
            while body[end].text != 'in':
                end += 1
            over.update(range(i, end))
        elif token.text == '|' and begins_closure(body, i):
            over.update(range(i, closure_body(body, i)))
    return over

# Whether a closure begins with the bar at i, and where its code begins: behind its names and its contract.
def begins_closure(body, i):
    return body[i - 1].text in ('(', ',', '=')

def closure_body(body, i):
    i += 1
    while body[i].text != '|':
        i += 1
    i += 1
    while body[i].text in ('requires', 'ensures'):
        while body[i].text != '{':
            i += 1
        i = after_bracket(body, i)
    return i

# The variables in scope at each token of a body, with their types: parameters, then what lets and patterns bind, each
# up to the end of its block or arm.
def scopes(code, source, function):
    body, at = function.body, []
    bound = [(0, len(body), name, of) for name, of in function.parameters]
    for start, arrow, end in arms_of(body):
        bound += [(arrow, end, name, of) for name, of in bound_by(code, body[start:arrow])]
    for i, token in enumerate(body):
        scope = {}
        for start, end, name, of in bound:
            if start <= i < end:
                scope[name] = of
        at.append(scope)
        if token.text == '|' and begins_closure(body, i):
            end = closure_body(body, i)
            bound += [(end, block_end(body, end), x.text, None) for x in body[i:end] if x.kind == 'name']
        elif token.text == 'let':
            names, end = let_of(code, source, scope, body, i)
            bound += [(end, block_end(body, end), name, of) for name, of in names]
    return at

def block_end(body, i):
    while i < len(body) and body[i].text not in CLOSE:
        i = after_bracket(body, i) if body[i].text in OPEN else i + 1
    return i

def let_of(code, source, scope, body, i):
    equals = i
    while body[equals].text != '=':
        equals = after_bracket(body, equals) if body[equals].text in OPEN else equals + 1
    asks = i and body[i - 1].text in ('if', 'while')  # up to the block
    end = equals
    while body[end].text not in (('{',) if asks else (';', 'else')):
        end = after_bracket(body, end) if body[end].text in OPEN else end + 1
    value = body[equals + 1:end]
    while not asks and body[end].text != ';':
        end = after_bracket(body, end) if body[end].text in OPEN else end + 1
    pattern = [x for x in body[i + 1:equals] if x.text != 'mut']
    if any(x.text == '::' for x in pattern):
        return bound_by(code, pattern), end
    if pattern[0].text == '[':
        return [(x.text, element(type_of(code, source, scope, value))) for x in pattern if x.kind == 'name'], end
    if len(pattern) > 1 and pattern[1].text == '{':
        fields = code.struct(pattern[0].text)
        return [(part[-1].text, fields.get(part[0].text)) for part in split(pattern[2:-1], ',')], end
    if len(pattern) > 1 and pattern[1].text == '(':
        return [], end
    if len(pattern) > 1 and pattern[1].text == ':':
        return [(pattern[0].text, type_text(pattern[2:]))], end
    return [(pattern[0].text, type_of(code, source, scope, value))], end

# The names that a pattern of an enum's case binds.
def bound_by(code, pattern):
    if len(pattern) < 4 or pattern[1].text != '::':
        return []
    shape = code.enum(pattern[0].text).get(pattern[2].text, ())
    inner = [x[0].text for x in split(pattern[4:-1], ',') if x]
    if pattern[3].text == '{':
        return [(name, dict(shape).get(name)) for name in inner]
    return [(name, of) for name, of in zip(inner, shape) if name != '_']

def edits_in(code, source, function, where, tokens, at):
    over = passed_over(tokens)
    constants = code.constants_in(source)
    found = []

    def add(token, new, kind):
        if new is not None and new != token.text:
            found.append(Mutant(source.crate, source.file, source.text, token.start, token.end, new, kind, where))

    def value_ends(i):  # whether a value ends before token i, so that a sign there is an operator between two
        return i > 0 and (tokens[i - 1].kind in ('float', 'int') or tokens[i - 1].text in CLOSE
                          or (tokens[i - 1].kind == 'name' and tokens[i - 1].text not in KEYWORDS - {'self'}))

    def others(of, name, scope):
        if of is None:
            return []
        same = [x for x in scope if scope[x] == of and x != name and x != 'self']
        return same + [x for x in constants if constants[x][0] == of and x != name and x not in scope]

    for i, token in enumerate(tokens):
        if i in over:
            continue
        before = tokens[i - 1].text if i else ''
        after = tokens[i + 1].text if i + 1 < len(tokens) else ''
        scope = at[i] if at else {}
        word = token.text
        if token.kind == 'float':
            for new in other_floats(word):
                add(token, new, 'constant')
            if before != '-' or value_ends(i - 1):
                found.append(
                    Mutant(source.crate, source.file, source.text, token.start, token.start, '-', 'sign', where))
        elif token.kind == 'int':
            if not (before == ';' and after == ']'):
                for new in other_integers(word):
                    add(token, new, 'constant')
        elif token.kind == 'bytes':
            add(token, word[:2] + ('_' if word[2] != '\\' else '\\t') + word[3 if word[2] != '\\' else 4:], 'constant')
        elif word in ('true', 'false'):
            add(token, 'false' if word == 'true' else 'true', 'constant')
        elif word == '-' and not value_ends(i) or word == '!':
            found.append(Mutant(source.crate, source.file, source.text, token.start, token.end, '', 'sign', where))
        elif word in OPERATORS and value_ends(i):
            for new in OPERATORS[word]:
                add(token, new, 'operator')
        elif word in COMPARISONS:
            for new in COMPARISONS:
                add(token, new, 'comparison')
        elif token.kind != 'name' or word in KEYWORDS:
            continue
        elif before == '.' and after != '(':
            owner = type_of_before(code, source, scope, tokens, i)
            fields = code.struct(owner)
            for new in fields:
                if fields[new] == fields.get(word):
                    add(token, new, 'operand')
        elif after == '(' or before == '::' and after != '::':
            for new, kind in other_callees(code, source, function, tokens, i):
                add(token, new, kind)
        elif after == '::' or (after == ':' and before in ('{', ',')) or after == '{' and word[0].isupper():
            continue
        elif word in scope:
            shorthand = before in ('{', ',') and after in (',', '}') and in_struct(tokens, i)
            for new in others(scope[word], word, scope):
                add(token, f'{word}: {new}' if shorthand else new, 'operand')
            if scope[word] in ZEROS and before not in ('*', '&', 'mut') and after not in ('=', '+=', '[', '.'):
                add(token, f'{word}: {ZEROS[scope[word]]}' if shorthand else ZEROS[scope[word]], 'value')
        elif word in constants:
            for new in others(constants[word][0], word, scope):
                add(token, new, 'operand')
    return found

# Whether the token at i stands in the braces of a struct or a case that is made.
def in_struct(tokens, i):
    depth = 0
    while i > 0:
        i -= 1
        if tokens[i].text in CLOSE:
            depth += 1
        elif tokens[i].text in OPEN:
            if depth == 0:
                return (tokens[i].text == '{' and i > 0
                        and tokens[i - 1].kind == 'name' and tokens[i - 1].text[0].isupper())
            depth -= 1
    return False

# The type of what stands before the dot before token i.
def type_of_before(code, source, scope, tokens, i):
    start = i - 2
    while start > 0 and (tokens[start - 1].text == '.' or tokens[start].text == '.'):
        start -= 1
    of = type_of(code, source, scope, tokens[start:i - 1])
    return re.sub(r'^&(mut ?)?', '', of) if of else None

def other_callees(code, source, function, tokens, i):
    word, before = tokens[i].text, tokens[i - 1].text if i else ''
    after = tokens[i + 1].text if i + 1 < len(tokens) else ''
    if before == '.':
        found = [m for owner in sorted({f.owner for s in code.sources for f in s.functions if f.owner})
                 for m in [code.methods(owner)] if word in m]
        return [(f.name, 'callee') for m in found for f in m.values() if f.signature() == m[word].signature()]
    if before == '::':
        start = i
        while start > 1 and tokens[start - 1].text == '::':
            start -= 2
        path = [x.text for x in tokens[start:i] if x.kind == 'name']
        cases = code.enum(path[-1])
        if word in cases:
            return [(name, 'case') for name in cases if cases[name] == cases[word]]
        for other in code.named(source, path):
            known = {f.name: f for f in other.functions if f.owner is None and (f.public or other is source)}
            if word in known:
                return [(f.name, 'callee') for f in known.values() if f.signature() == known[word].signature()]
        return []
    known = code.functions_in(source)
    if word not in known or after != '(':
        return []
    return [(name, 'callee') for name, f in known.items()
            if f.signature() == known[word].signature() and f is not function]

# What a type's constants are: two for each.
def constants_of(of):
    if of in ZEROS:
        return [ZEROS[of], '1.0' if of == 'f32' else '1']
    if of == 'bool':
        return ['true', 'false']
    match = re.fullmatch(r'\[f32;(\w+)\]', of or '')
    return [f'[0.0; {match.group(1)}]', f'[1.0; {match.group(1)}]'] if match else []

# A public function with no branch and no loop: what it answers, what it stores and what it calls.
def answers_in(source, function):
    body, found = function.body, []
    if not function.public or not body or any(token.text in ('if', 'while', 'match', 'else') for token in body):
        return found
    lent = {name: of[4:].strip() for name, of in function.parameters if of and of.startswith('&mut')}

    def add(first, last, new):
        found.append(
            Mutant(source.crate, source.file, source.text, first.start, last.end, new, 'answer', function.called))

    for statement in split(body, ';'):
        if statement[-1] is body[-1]:
            for new in constants_of(function.result):
                add(statement[0], statement[-1], new)
        elif statement[0].text == '*' and statement[1].text in lent:
            for new in constants_of(lent[statement[1].text]):
                add(statement[3], statement[-1], new)
        elif '=' not in [token.text for token in statement] and statement[-1].text == ')':
            stored = next((token.text for token in statement if token.text in lent), None)
            add(statement[0], body[[t.start for t in body].index(statement[-1].start) + 1], '')
            for new in constants_of(lent.get(stored))[:1]:
                add(statement[0], statement[-1], f'*{stored} = {new}')
    return found

# A function over a struct behind a reference was walked by hand when these edits were chosen, and a walk is about one
# code: another was refused as not being that one (docs/DECISIONS.md, 74).
def walked(function):
    return any(re.match(r'&\s*(mut)?\s*[A-Z]', of or '') for _, of in function.parameters)

# So a token of the contract is edited, which the code then fails to meet: what is left for what was found, and a float
# for another.
def contract_edits(source, function):
    at, floats = source.text.index(function.contract), [name for name, of in function.parameters if of == 'f32']
    others = {r'(?<=\.)new': ['old'],
              **{rf'\b{name}': [other for other in floats if other != name] for name in floats}}
    found = [(match, new) for word in others for match in re.finditer(rf'{word}\b', function.contract)
             for new in others[word]]
    return [Mutant(source.crate, source.file, source.text, at + match.start(), at + match.end(), new, 'contract',
                   function.called) for match, new in found]

def mutants_of_code(code, crate):
    found = []
    for source in code.of(crate):
        for function in source.functions:
            if walked(function):
                found += contract_edits(source, function)
                continue
            found += edits_in(code, source, function, function.called, function.body, scopes(code, source, function))
            found += answers_in(source, function)
        for name, (_, _, value) in source.constants.items():
            found += edits_in(code, source, None, f'const {name}', value, None)
    return sorted(found, key=lambda m: (m.file, m.start, m.new))
