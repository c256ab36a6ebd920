# The results, a line for each edit, and the equal programs that docs/MUTANTS.md explains.
import hashlib
import os
import re

from mutation.crates import DOCUMENT, LOGS, RESULTS, crate_hash, read, write
from mutation.sorting import sorted_from

class Results:
    def __init__(self):
        self.by_key = {}
        if os.path.exists(RESULTS):
            for line in read(RESULTS).splitlines():
                *key, at, verdict, first = line.split('\t')
                self.by_key['\t'.join(key)] = (at, verdict, first)

    def of(self, mutant):
        at, verdict, first = self.by_key.get(mutant.key(), (None, None, None))
        return (verdict, first) if at == crate_hash_once(mutant.crate) else (None, None)

    def add(self, mutant, verdict, first):
        at = crate_hash_once(mutant.crate)
        self.by_key[mutant.key()] = (at, verdict, first)
        with open(RESULTS, 'a', encoding='utf-8') as file:
            file.write('\t'.join((mutant.key(), at, verdict, first.replace('\t', ' '))) + '\n')

    def sort_anew(self):
        lines = []
        for key, (at, verdict, first) in self.by_key.items():
            log = os.path.join(LOGS, log_name(key))
            if verdict in ('fact', 'shape') and os.path.exists(log):
                verdict, said = sorted_from(read(log).split('\n\n', 1)[1])
                first = (re.match(r'in \w+: ', first) or [''])[0] + said
            self.by_key[key] = (at, verdict, first)
            lines.append('\t'.join((key, at, verdict, first.replace('\t', ' '))) + '\n')
        write(RESULTS, ''.join(lines))

def log_name(key):
    return hashlib.sha256(key.encode()).hexdigest()[:10]

HASHES = {}

def crate_hash_once(crate):
    if crate not in HASHES:
        HASHES[crate] = crate_hash(crate)
    return HASHES[crate]

EXPLAINED = [line.replace('\\|', '|') for line in read(DOCUMENT).splitlines()] if os.path.exists(DOCUMENT) else []

def explained(mutant):
    parts = (f'{mutant.crate}/{mutant.file}', mutant.function, mutant.code, mutant.edited)
    return any(all(f'`{part}`' in line for part in parts) for line in EXPLAINED)
