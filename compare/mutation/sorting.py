# How a refusal is sorted from its log: about a fact, or about the shape.
import re

# What an error says that is about values: of two statements, that they differ; of a goal, that it has no proof; of a
# function with no proof file, what is not shown.
FACT = re.compile('|'.join((
    r'the two (types|sides|terms) (first differ|differ only) where',
    r'the two types are `',
    r'expected type `.*but this has type `',
    r'` *\n  ≟ `.*does not hold',
    r'must be a path whose two ends are equal, and `Path ',
    r'`omega`: the goal does not follow',
    r'`search`: no proof of `',
    r'^note: [^`]*: (it is not proved that|index \d+ is out of bounds|[^`]* may )',
)), re.S)

# What it names when it is about how the code is made: the function as the code that it is, or a step of the proof file.
SHAPE = re.compile(r'code\.function|prog\.Wp\.|(expected|found|but this has) type `\(c : |Need-')

# The first error with the lines that belong to it, those passed over that only say that something they use is refused;
# where there is none, the first note that is not about the name of a step, which the code as it stands has too.
def first_error(lines):
    errors = [i for i, line in enumerate(lines) if re.match(r'\S+: error', line) and 'was not admitted' not in line]
    notes = [i for i, line in enumerate(lines) if line.startswith('note: ') and "is rattle's own name" not in line]
    begins = errors or notes or [0]
    end = begins[0] + 1
    while end < len(lines) and lines[end].startswith(' '):
        end += 1
    return lines[begins[0]:end]

def sorted_from(log):
    lines = log.splitlines() or ['']
    if not any(line.startswith('logic=not-proved') for line in lines):
        return 'no program', next((line for line in lines if 'error' in line), lines[0])[:300]
    first = first_error(lines)
    about = '\n'.join(first)
    return 'fact' if FACT.search(about) and not SHAPE.search(about) else 'shape', first[0][:300]
