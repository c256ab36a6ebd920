# Two wrong programs for each public function: kept as must-fail edits, in the gate or outside it, or tried.
import os
import re

from mutation.crates import crate_folder, read
from mutation.definitions import definitions
from mutation.choice import possible, shuffled, used_by
from mutation.results import explained

# The edits that are kept outside the gate.
OUTSIDE = os.path.join(os.path.dirname(os.path.dirname(os.path.realpath(__file__))), 'edits')

# The edits of a crate that are kept, those that the gate tries first: where and by what label, file, and the function
# or the definition that it edits.
def kept_edits(code, crate):
    return (edits_in(code, crate, 'must-fail', os.path.join(crate_folder(crate), 'must-fail'))
            + edits_in(code, crate, 'edits', os.path.join(OUTSIDE, crate)))

def edits_in(code, crate, where, folder):
    found = []
    for name in sorted(os.listdir(folder)) if os.path.isdir(folder) else []:
        file, old = None, None
        for line in read(os.path.join(folder, name)).splitlines():
            file = line[6:] if line.startswith('file: ') and file is None else file
            old = line[5:] if line.startswith('old: ') and old is None else old
        found.append((f'{where}/{name[:-5]}', file, unit_at(code, crate, file, old)))
    return found

def unit_at(code, crate, file, old):
    path = os.path.join(crate_folder(crate), file)
    text = read(path)
    place = text.find(old)
    if file.endswith('.rt'):
        for source in code.of(crate):
            if source.file == file:
                for f in source.functions:
                    if f.body and f.body[0].start <= place + len(old) and place <= f.body[-1].end:
                        return f.called
                for f in source.functions:
                    start = text.find(f.contract) if f.contract else -1
                    if start >= 0 and start < place + len(old) and place < start + len(f.contract):
                        return f.called
                for name, (_, _, value) in source.constants.items():
                    if value[0].start <= place + len(old) and place <= value[-1].end:
                        return f'const {name}'
        return None
    within = [where for where, _, start, end in definitions(text) if start <= place + len(old) and place < end]
    return within[0] if within else None

# What became of the code: a call can be left out whole.
def changed(m):
    return f'made `{m.edited}`' if m.edited else 'left out'

# The wrong programs of a public function: kept edits, and edits that were refused about a fact and are not explained as
# equal programs; those of its own body and contract first, then those of what it uses.
def wrong_programs(code, results, source, function):
    own, *used = used_by(code, source.crate, source, function)
    stated = re.findall(r'[^\s(){}⌜⌝]+', function.contract)
    kept = kept_edits(code, source.crate)
    order = shuffled(possible(code, source.crate), source.crate)

    def of(units):
        wrong = [f'`{label}`' for unit in units for label, file, at in kept if (file, at) == unit]
        return wrong + [
            f'line {m.line} of `{m.file}`, `{m.code}` {changed(m)}' for m in order
            if (m.file, m.function) in units and results.of(m)[0] == 'fact' and not explained(m)]

    return (of([own]) + [f'`{label}`' for label, file, at in kept if file.startswith('specs/') and at in stated]
            + of(used))
