# One edit: a token of a file, and what takes its place.

KINDS = ('operator', 'comparison', 'constant', 'sign', 'operand', 'case', 'callee', 'value', 'contract', 'answer')

class Mutant:
    def __init__(self, crate, file, text, start, end, new, kind, function):
        self.crate, self.file, self.kind, self.function = crate, file, kind, function
        self.start, self.end, self.old, self.new = start, end, text[start:end], new
        first = text.rfind('\n', 0, start) + 1
        last = text.find('\n', start)
        self.line, self.column = text.count('\n', 0, start) + 1, start - first + 1
        self.code = text[first:last].strip()
        self.edited = (text[first:start] + new + text[end:last]).strip()

    def key(self):
        return '\t'.join((self.crate, self.file, str(self.line), str(self.column), self.function,
                          self.old or '-', self.new or '-', self.kind))

    def __eq__(self, other):
        return self.key() == other.key()

    def __hash__(self):
        return hash(self.key())

    def words(self):
        old, new = self.old or 'nothing', self.new or 'nothing'
        return f'{self.crate}/{self.file}:{self.line}:{self.column} {self.function}: {old} -> {new} ({self.kind})'
