# A file of code as tokens: its functions, constants, structs and enums.
import os
import re

from mutation.crates import crate_folder, die, read

TOKEN = re.compile(r'''
    (?P<space>\s+|//[^\n]*)
  | (?P<bytes>b"(?:\\.|[^"\\])*"|b'(?:\\.|[^'\\])*')
  | (?P<string>"[^"]*")
  | (?P<float>\d[\d_]*\.\d[\d_]*(?:e[+-]?\d+)?)
  | (?P<int>0x[0-9a-fA-F_]+|\d[\d_]*)(?P<suffix>(?:u8|u16|u32|u64|usize|i8|i16|i32|i64|isize)?)
  | (?P<name>[A-Za-z_]\w*)
  | (?P<sign>\.\.=|\.\.|=>|->|::|<=|>=|==|!=|&&|\|\||\+=|-=|\*=|/=|%=|.)
''', re.X)

class Token:
    def __init__(self, kind, text, start):
        self.kind, self.text, self.start, self.end = kind, text, start, start + len(text)

    def __repr__(self):
        return self.text

def tokens_of(text):
    tokens = []
    for match in TOKEN.finditer(text):
        kind = match.lastgroup if match.lastgroup != 'suffix' else 'int'
        if kind != 'space':
            tokens.append(Token(kind, match.group(kind), match.start(kind)))
    return tokens

OPEN, CLOSE = {'(': ')', '[': ']', '{': '}'}, {')', ']', '}'}

# The place after the bracket that closes the one at i.
def after_bracket(tokens, i):
    depth = 0
    while True:
        if tokens[i].text in OPEN:
            depth += 1
        elif tokens[i].text in CLOSE:
            depth -= 1
        i += 1
        if depth == 0:
            return i

def type_text(tokens):
    out = ''
    for token in tokens:
        if token.kind != 'name' or not out or not (out[-1].isalnum() or out[-1] == '_'):
            out += token.text
        else:
            out += ' ' + token.text
    return re.sub(r"'\w+ ?", '', out)

class Function:
    def __init__(self, name, public, parameters, result, contract, body, owner):
        self.name, self.public, self.parameters, self.result = name, public, parameters, result
        self.contract, self.body, self.owner = contract, body, owner
        self.called = f'{owner}::{name}' if owner else name

    def signature(self):
        takes_self = self.parameters and self.parameters[0][0] == 'self'
        return tuple(of for _, of in self.parameters), self.result, self.owner if takes_self else None

class Source:
    def __init__(self, crate, file):
        self.crate, self.file = crate, file
        self.text = read(os.path.join(crate_folder(crate), file))
        self.functions, self.constants, self.structs, self.enums, self.uses = [], {}, {}, {}, []
        self.module = os.path.basename(file)[:-3]
        self.items(tokens_of(self.text), None)

    # A function of a trait's `impl` whose law says what it gives (`from_gives`) is public, and that is its contract.
    def items(self, t, owner):
        i, public, promise = 0, False, ''
        while i < len(t):
            word = t[i].text
            if word == '#':
                i = after_bracket(t, i + 2 if t[i + 1].text == '!' else i + 1)
            elif word == 'pub':
                public = t[i + 1].text != '('
                i = i + 1 if public else after_bracket(t, i + 1)
            elif word == 'extern':
                i += 2
            elif word == 'ghost':
                start = i
                while t[i].text != ';':
                    i = after_bracket(t, i) if t[i].text in OPEN else i + 1
                i += 1
                if t[start + 1].text.endswith('_gives'):
                    promise = self.text[t[start].start:t[i - 1].start]
            elif word in ('use', 'mod', 'type'):
                start = i + 1
                while t[i].text != ';':
                    i += 1
                if word == 'use':
                    self.uses += paths_of(t[start:i])
                i, public = i + 1, False
            elif word in ('struct', 'enum', 'trait', 'impl'):
                head = i + 1
                while t[i].text not in ('{', ';'):
                    i = after_bracket(t, i) if t[i].text in OPEN else i + 1
                end = i + 1 if t[i].text == ';' else after_bracket(t, i)
                inside = t[i + 1:end - 1]
                if word == 'struct':
                    self.structs[t[head].text] = fields_of(inside)
                elif word == 'enum':
                    self.enums[t[head].text] = cases_of(inside)
                elif word == 'impl':  # a trait's declaration has no code
                    self.items(inside, owner_of(t[head:i]))
                i, public = end, False
            elif word == 'const':
                name, colon = t[i + 1].text, i + 2
                equals = colon
                while t[equals].text != '=':
                    equals = after_bracket(t, equals) if t[equals].text in OPEN else equals + 1
                end = equals
                while t[end].text != ';':
                    end = after_bracket(t, end) if t[end].text in OPEN else end + 1
                self.constants[name] = (type_text(t[colon + 1:equals]), public, t[equals + 1:end])
                i, public = end + 1, False
            elif word == 'fn':
                i = self.function(t, i, public or bool(promise), owner, promise)
                public = False
            else:
                die(f'{self.crate}/{self.file}: cannot read the item that begins with {word!r}')

    def function(self, t, i, public, owner, promise):
        name, i = t[i + 1].text, i + 2
        if t[i].text == '<':
            while t[i].text != '(':
                i += 1
        end = after_bracket(t, i)
        parameters, i = parameters_of(t[i + 1:end - 1], owner), end
        result = '()'
        if t[i].text == '->':
            start = i + 1
            while t[i].text not in ('requires', 'ensures', '{'):
                i = after_bracket(t, i) if t[i].text in OPEN else i + 1
            result = type_text(t[start:i])
        start = i
        while t[i].text != '{':
            while t[i].text != '{':  # a clause can have a name
                i += 1
            i = after_bracket(t, i)
        contract = self.text[t[start].start:t[i].start] or promise
        end = after_bracket(t, i)
        self.functions.append(Function(name, public, parameters, result, contract, t[i + 1:end - 1], owner))
        return end

def split(tokens, mark):
    parts, part, i = [], [], 0
    while i < len(tokens):
        if tokens[i].text == mark:
            parts.append(part)
            part, i = [], i + 1
        elif tokens[i].text in OPEN:
            end = after_bracket(tokens, i)
            part, i = part + tokens[i:end], end
        else:
            part.append(tokens[i])
            i += 1
    return parts + [part] if part else parts

def parameters_of(tokens, owner):
    found = []
    for part in split(tokens, ','):
        part = part[1:] if part[0].text == 'mut' else part
        if part[-1].text == 'self':
            found.append(('self', owner))
        elif part[0].text in OPEN:  # a pattern: an array's names have no type that an edit could use
            found += [(x.text, None) for x in part[1:after_bracket(part, 0) - 1] if x.kind == 'name']
        else:
            found.append((part[0].text, type_text(part[2:])))
    return found

# The type that an `impl` is of: its name, which stands after `for` where a trait is implemented.
def owner_of(head):
    depth, names = 0, []
    for token in head:
        depth += (token.text == '<') - (token.text == '>')
        if token.text == 'for' and depth == 0:
            names = []
        elif token.kind == 'name' and depth == 0:
            names.append(token.text)
    return names[-1]

# The paths that a `use` line brings, each as its names: a::{b, c::d} is two.
def paths_of(tokens):
    group = next((i for i, token in enumerate(tokens) if token.text == '{'), None)
    if group is None:
        return [[token.text for token in tokens if token.kind == 'name']]
    head = [token.text for token in tokens[:group] if token.kind == 'name']
    parts = split(tokens[group + 1:after_bracket(tokens, group) - 1], ',')
    return [head + path for part in parts for path in paths_of(part)]

def fields_of(tokens):
    fields = {}
    for part in split(tokens, ','):
        part = part[1:] if part[0].text == 'pub' else part
        if part[0].text != 'ghost':
            fields[part[0].text] = type_text(part[2:])
    return fields

def cases_of(tokens):
    cases = {}
    for part in split(tokens, ','):
        inner = part[2:-1]
        if len(part) == 1:
            cases[part[0].text] = ()
        elif part[1].text == '(':
            cases[part[0].text] = tuple(type_text(x) for x in split(inner, ','))
        else:
            cases[part[0].text] = tuple(fields_of(inner).items())
    return cases
