# The edits of one token of a definition, for the crates that have no code.
import os
import re

from mutation.crates import LIBRARIES, crate_folder, files_below, read
from mutation.mutant import Mutant
from mutation.edits import other_integers

SPEC_TOKEN = re.compile(r'''(?P<int>0x[0-9a-fA-F_]+|(?<![\w/^])\d[\d_]*(?![\w/^]))|(?P<word>[^\s(){};,]+)''', re.X)
SPEC_OPERATORS = {
    '+f': ('-f',), '-f': ('+f',), '*f': ('/f', '+f'), '/f': ('*f',), '+': ('*', '-'), '-': ('+',), '*': ('+',),
    '&&': ('||',), '||': ('&&',), '+ℤ': ('-ℤ', '*ℤ'), '-ℤ': ('+ℤ',), '*ℤ': ('+ℤ',),
}
SPEC_COMPARISONS = {
    '≤': ('<',), '<': ('≤',), 'lt': ('le',), 'le': ('lt',), 'ltb': ('leb', 'eqb'), 'leb': ('ltb',), 'eqb': ('ltb',),
}
SPEC_CONSTANTS = {'0f': ('1f',), '1f': ('0f', 'small'), 'small': ('0f', '1f'), 'true': ('false',), 'false': ('true',)}

# The names that a file brings in, an operator by its sign.
def brought_in(text):
    names = set()
    for match in re.finditer(r'^use [^{\n]*\{([^}]*)\}', text, re.M):
        names.update(name.strip().strip('◌') for name in match.group(1).split(','))
    names.update(name.strip('◌') for name in re.findall(r'^(?:unfoldable |abbrev )?(?:pub )?(\S+) : ', text, re.M))
    return names

# The definitions of a file: name, type and the places of what it says, from one line to the next that begins anew.
def definitions(text):
    found, at, current, head_of_record = [], 0, None, ''
    for line in text.splitlines(keepends=True):
        bare = line.strip()
        head = re.match(r'(?:unfoldable |abbrev )?(?:pub )?(\S+) : (.*)', line)
        if bare.startswith(('--', 'use ', 'infix', 'pub mod', 'unfolding')) or not bare:
            pass
        elif line.startswith('pub record') or head_of_record:
            head_of_record += line
            match = re.match(r'pub record (\S+)(.*)\s: Type', head_of_record, re.S)
            if match:
                parameters = re.findall(r'\(([^:()]*) : ([^()]*)\)', match.group(2))
                names = {name: of for names, of in parameters for name in names.split()}
                current, head_of_record = (match.group(1), 'record', names), ''
        elif current and current[1] == 'record' and line.startswith('  '):
            start = line.index(' : ') + 3 if ' : ' in line and line.startswith('  pub') else 0
            found.append((current[0], current[2], at + start, at + len(line)))
        elif not line.startswith(' ') and head:
            current = (head.group(1), head.group(2), {})
        elif current and current[1] != 'record':
            if not line.startswith(' '):
                left = line.split(' = ')[0] if ' = ' in line else line.rstrip().rstrip('=')
                names = re.sub(r'[()]', ' ', left).split()
                types = [x.strip() for x in re.split(r'→(?![^(]*\))', current[1])]
                names = names[1:] if names[0] == current[0] else [names[0], names[2]] if len(names) == 3 else []
                current = (current[0], current[1], dict(zip(names, types)) if left.count('(') == 0 else {})
                start = len(line.split(' = ')[0]) + 3 if ' = ' in line else len(line)
            else:
                start = 0
            found.append((current[0], current[2], at + start, at + len(line)))
        at += len(line)
    return found

def mutants_of_definitions(crate):
    found = []
    for file in files_below(crate, 'specs', '.antt'):
        text = read(os.path.join(crate_folder(crate), file))
        names = brought_in(text)
        kinds = types_of_names(text)
        for where, variables, start, end in definitions(text):
            for match in SPEC_TOKEN.finditer(text, start, end):
                word, new = match.group(), []
                if match.lastgroup == 'int':
                    new = [(n, 'constant') for n in other_integers(word)]
                elif word in SPEC_CONSTANTS:
                    new = [(n, 'constant') for n in SPEC_CONSTANTS[word] if n in names]
                elif word in SPEC_OPERATORS:
                    new = [(n, 'operator') for n in SPEC_OPERATORS[word] if n in names]
                elif word in SPEC_COMPARISONS:
                    new = [(n, 'comparison') for n in SPEC_COMPARISONS[word] if n in names]
                elif word in variables:
                    new = [(n, 'operand') for n in variables if n != word and variables[n] == variables[word]]
                elif word in kinds:
                    new = [(n, 'operand') for n in kinds if n != word and kinds[n] == kinds[word] and n in names]
                found += [Mutant(crate, file, text, match.start(), match.end(), n, kind, where) for n, kind in new]
    return found

# The types of the names that a file has or brings in from the definitions of this repository.
def types_of_names(text):
    types = {}
    for name in sorted(brought_in(text)):
        if name in ALL_TYPES:
            types[name] = ALL_TYPES[name]
    return types

def all_types():
    types = {}
    for crate in LIBRARIES:
        for file in files_below(crate, 'specs', '.antt'):
            text = read(os.path.join(crate_folder(crate), file))
            for name, of in re.findall(r'^(?:unfoldable |abbrev )?(?:pub )?(\S+) : (.*)', text, re.M):
                types[name] = of
    return types

ALL_TYPES = all_types()
