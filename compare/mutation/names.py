# What a name in the code means: where it is declared, and its type, as far as an edit has to know.
import re

from mutation.crates import CRATES, LIBRARIES, files_below, is_program
from mutation.source import OPEN, Source, after_bracket, split, type_text

class Code:
    def __init__(self):
        self.sources = [Source(crate, file) for crate in LIBRARIES for file in files_below(crate, 'src', '.rt')]

    def of(self, crate):
        return [source for source in self.sources if source.crate == crate]

    # The sources that the words of a path name: a module of the crate, or a crate's own.
    def named(self, source, path):
        head = path[0]
        if head == 'crate':
            return [s for s in self.of(source.crate) if s.module == (path[1] if len(path) > 1 else 'lib')]
        if head in CRATES and not is_program(head):
            module = path[1] if len(path) > 1 else 'lib'
            return [s for s in self.of(head) if s.module == module]
        for use in source.uses:
            if use[-1] == head:
                return self.named(source, use)
        return []

    # What a file has in scope by a bare name: its own items, and what its `use` lines bring.
    def visible(self, source, pick):
        found = dict(pick(source))
        for use in source.uses:
            for other in self.named(source, use[:-1]):
                if use[-1] in pick(other):
                    found[use[-1]] = pick(other)[use[-1]]
        return found

    def functions_in(self, source):
        return self.visible(source, lambda s: {f.name: f for f in s.functions if f.owner is None})

    def constants_in(self, source):
        return self.visible(source, lambda s: s.constants)

    def enum(self, name):
        for source in self.sources:
            if name in source.enums:
                return source.enums[name]
        return {}

    def struct(self, name):
        for source in self.sources:
            if name in source.structs:
                return source.structs[name]
        return {}

    def methods(self, owner):
        return {f.name: f for s in self.sources for f in s.functions if f.owner == owner}

def element(of):
    match = re.fullmatch(r'&?(?:mut)?\s?\[(.*?)(?:;[^;\]]*)?\]', of or '')
    return match.group(1) if match else None

# The type of an expression, by its first operand; None where that does not tell.
def type_of(code, source, scope, tokens):
    i, asked = 0, None
    while i < len(tokens):
        if tokens[i].text in OPEN:
            i = after_bracket(tokens, i)
            continue
        if i and tokens[i].text in ('<', '<=', '>', '>=', '==', '!=', '&&', '||'):
            return 'bool'
        if tokens[i].text == 'as':
            asked = tokens[i + 1].text
        i += 1
    if asked:
        return asked
    if not tokens:
        return None
    i, of, first = 1, None, tokens[0]
    if first.kind == 'float':
        return 'f32'
    if first.kind == 'int':
        return 'usize'
    if first.text in ('true', 'false', '!'):
        return 'bool'
    if first.text in ('-', '*'):
        of = type_of(code, source, scope, tokens[1:])
        return re.sub(r'^&(mut ?)?', '', of) if of and first.text == '*' else of
    if first.text == '(':
        return type_of(code, source, scope, tokens[1:after_bracket(tokens, 0) - 1])
    if first.text == '[':
        inner = tokens[1:after_bracket(tokens, 0) - 1]
        parts = split(inner, ';')
        if len(parts) == 2:
            return f'[{type_of(code, source, scope, parts[0])};{type_text(parts[1])}]'
        parts = split(inner, ',')
        return f'[{type_of(code, source, scope, parts[0])};{len(parts)}]' if parts else None
    if first.kind == 'name':
        path = [first.text]
        while i + 1 < len(tokens) and tokens[i].text == '::':
            path.append(tokens[i + 1].text)
            i += 2
        after = tokens[i].text if i < len(tokens) else ''
        if after == '(':
            of = result_of(code, source, path)
            i = after_bracket(tokens, i)
        elif len(path) == 1 and path[0] in scope:
            of = scope[path[0]]
        elif len(path) == 1 and path[0] in code.constants_in(source):
            of = code.constants_in(source)[path[0]][0]
        elif after == '{' or len(path) == 2:
            of = path[0]
        while i < len(tokens):
            if tokens[i].text == '[':
                of, i = element(of), after_bracket(tokens, i)
            elif tokens[i].text == '.' and i + 2 < len(tokens) and tokens[i + 2].text == '(':
                name = tokens[i + 1].text
                of = 'usize' if name == 'len' else getattr(code.methods(of).get(name), 'result', None)
                i = after_bracket(tokens, i + 2)
            elif tokens[i].text == '.':
                of, i = code.struct(of).get(tokens[i + 1].text), i + 2
            else:
                break
    return of

def result_of(code, source, path):
    if len(path) == 1:
        found = code.functions_in(source).get(path[0])
        return found.result if found else None
    if path[0] == 'f32':
        return {'from_bits': 'f32', 'to_bits': 'u32'}.get(path[1])
    for other in code.named(source, path[:-1]):
        for function in other.functions:
            if function.name == path[-1]:
                return function.result
    found = code.methods(path[-2]).get(path[-1])
    return found.result if found else path[0] if path[0][0].isupper() else None
