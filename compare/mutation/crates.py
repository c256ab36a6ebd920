# The crates of the repository, and the files that are read and written.
import hashlib
import os
import sys

ROOT = os.path.dirname(os.path.dirname(os.path.dirname(os.path.realpath(__file__))))
WORK = os.path.join(ROOT, 'target', 'mutants')
LOGS = os.path.join(WORK, 'log')
RESULTS = os.path.join(WORK, 'results.tsv')
DOCUMENT = os.path.join(ROOT, 'docs', 'MUTANTS.md')

DEFINITIONS = ('general', 'binary32', 'refusals', 'rules', 'rust_text')  # crates with no code
VERDICTS = ('fact', 'shape', 'no program', 'survived', 'not told')

def die(what):
    print('mutants:', what, file=sys.stderr)
    sys.exit(2)

def read(path):
    with open(path, encoding='utf-8') as file:
        return file.read()

def write(path, text):
    with open(path, 'w', encoding='utf-8') as file:
        file.write(text)

# The crates in the order of crates.txt, each with the crates that it names.
def listed_crates():
    crates = {}
    for line in read(os.path.join(ROOT, 'crates.txt')).splitlines():
        line = line.split('#')[0].strip()
        if line:
            name, names = line.split(':')
            crates[name.split()[0]] = names.split()
    return crates

CRATES = listed_crates()

def crate_folder(name):
    return os.path.join(ROOT, 'crates', name)

def is_program(name):
    return os.path.exists(os.path.join(crate_folder(name), 'src', 'main.rt'))

LIBRARIES = [name for name in CRATES if not is_program(name)]

def files_below(crate, folder, ending):
    found = []
    for where, _, names in os.walk(os.path.join(crate_folder(crate), folder)):
        found += [os.path.relpath(os.path.join(where, name), crate_folder(crate))
                  for name in names if name.endswith(ending)]
    return sorted(found)

def crate_hash(crate):
    sum_of = hashlib.sha256()
    for folder in ('src', 'specs', 'proofs'):
        for file in files_below(crate, folder, ''):
            sum_of.update(file.encode() + b'\0')
            with open(os.path.join(crate_folder(crate), file), 'rb') as content:
                sum_of.update(hashlib.sha256(content.read()).digest())
    return sum_of.hexdigest()[:12]
