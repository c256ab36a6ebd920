# One edit made in a copy of the crates, and checked there.
import atexit
import os
import re
import shutil
import signal
import subprocess
import tempfile

from mutation.crates import CRATES, DEFINITIONS, LOGS, ROOT
from mutation.crates import crate_folder, die, files_below, is_program, read, write
from mutation.sorting import sorted_from

LIMIT = 300  # seconds for one check

def run(words, folder, seconds):
    process = subprocess.Popen(words, cwd=folder, stdin=subprocess.DEVNULL, stdout=subprocess.PIPE,
                               stderr=subprocess.STDOUT, start_new_session=True)
    try:
        said, _ = process.communicate(timeout=seconds)
        return process.returncode, said.decode('utf-8', 'replace')
    except subprocess.TimeoutExpired:
        os.killpg(process.pid, signal.SIGKILL)
        process.communicate()
        return None, ''
    except KeyboardInterrupt:
        os.killpg(process.pid, signal.SIGKILL)
        raise

# The copy that edits are made in, in a temporary folder: in the checkout the gate would take offence at it.
class Tree:
    def __init__(self):
        os.makedirs(LOGS, exist_ok=True)
        self.folder = os.path.realpath(tempfile.mkdtemp(prefix='footspandle-mutants-'))
        atexit.register(shutil.rmtree, self.folder, ignore_errors=True)
        shutil.copy(os.path.join(ROOT, 'crates.txt'), self.folder)
        shutil.copytree(os.path.join(ROOT, 'crates'), os.path.join(self.folder, 'crates'),
                        ignore=shutil.ignore_patterns('must-fail', 'out'))
        self.proved = set()

    def crate(self, name):
        return os.path.join(self.folder, 'crates', name)

    # Proves crates as they stand, once: rt takes over what other checks on this machine kept of the same text.
    def prove(self, crates):
        for crate in crates:
            if crate in self.proved:
                continue
            print(f'proving {crate} as it stands', flush=True)
            status, said = run(['rt', 'check'], self.crate(crate), None)
            if status != 0:
                print(said)
                die(f'{crate} is not proved as it stands, so no edit of it is tried')
            self.proved.add(crate)

def crates_over(crate):
    over = [crate]
    for name in CRATES:
        if any(x in over for x in CRATES[name]) and name not in over:
            over.append(name)
    return over[1:]

# The libraries over a crate of definitions: those that name the definition first, then those that name its file, then
# the others.
def users_of(crate, file, name):
    module = os.path.basename(file)[:-5]
    libraries = [other for other in crates_over(crate) if not is_program(other)]

    def closeness(other):
        text = ''.join(read(os.path.join(crate_folder(other), f))
                       for folder in ('src', 'specs', 'proofs') for f in files_below(other, folder, 't'))
        brought = re.findall(rf'Rattle\.{crate}\.specs\.{module}\.\{{([^}}]*)\}}', text)
        return 0 if any(name in [x.strip() for x in names.split(',')] for names in brought) else 1 if brought else 2

    return sorted(libraries, key=closeness)

def tried(tree, mutant, number):
    users = users_of(mutant.crate, mutant.file, mutant.function) if mutant.crate in DEFINITIONS else []
    tree.prove([mutant.crate] + users)
    path = os.path.join(tree.crate(mutant.crate), mutant.file)
    text = read(path)
    write(path, text[:mutant.start] + mutant.new + text[mutant.end:])
    try:
        verdict, first = checked(tree, mutant, mutant.crate, number)
        for user in users if verdict == 'survived' else []:
            verdict, first = checked(tree, mutant, user, number)
            if verdict != 'survived':
                return verdict, f'in {user}: {first}'
        return verdict, first
    finally:
        write(path, text)

def checked(tree, mutant, crate, number):
    status, said = run(['rt', 'check'], tree.crate(crate), LIMIT)
    if status is None:
        return 'not told', f'over {LIMIT} s'
    if status == 0:
        return 'survived', ''
    text = said.replace(tree.folder + '/', '')
    write(os.path.join(LOGS, number), mutant.words() + '\n' + mutant.code + '\n' + mutant.edited + '\n\n' + text)
    if status != 1:
        return 'not told', text.strip().splitlines()[-1][:200] if text.strip() else 'nothing was said'
    return sorted_from(text)
