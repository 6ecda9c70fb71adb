"""Reads the public functions and docs/PROMISES.md and says what is missing in the tree. Run by tests/names.

Every public function has a law of one answer whose text is that of its contract, or its comment gives the reason, as
`No law of one answer: ..`. A contract speaks of the result and of each buffer that is lent to be written. No call for C
has a `requires`. The functions of callers* are promises and not answers, and have no law.

What a static library NAME_c exports is each `feldrime_..` of NAME: with its parameters, its result and its clauses, and
nothing but a call of it.

A name in backquotes in PROMISES.md is there: a definition or law, a function, a wrong program, a crate, a file. Of a
command of `rt` the last word is a crate.

A proof of more than 25 lines begins with a line that says what it rests on."""
import re
import sys
from pathlib import Path

import sources
from laws import contract_fact, law_of, laws_by_fact

PAGE = Path('docs/PROMISES.md')
WORDS = {'requires', 'ensures', '-from-c', 'read', 'write'}  # in backquotes, and no names of ours
missing = []
functions = list(sources.functions())
declared = list(sources.declarations({}, []))
laws = laws_by_fact()


def judge(f):  # one public function
    if f.crate == 'feldrime' and f.name.startswith('feldrime_') and f.requires:
        missing.append(f'{f.full} is a call for C and has a requires')
    if re.search(r'No law of one answer: \w', f.comment):
        return
    fact, silent = contract_fact(f.head)
    for what in silent:
        missing.append(f'what {f.full} says of {what}')
    if not law_of(f, laws):
        missing.append(f'a law of one answer with the text of {f.full}: "{fact}"')


for f in functions:
    if f.public and not f.crate.startswith('callers'):
        judge(f)


def words(head):  # without what is laid out: line ends, and a comma before a closing bracket
    return re.sub(r',? ?\) ?', ')', re.sub(r'\( ', '(', ' '.join(head.split())))


exports = list(sources.functions(' staticlib'))
exported = {(e.crate, e.name): e for e in exports}
called = {(f.crate + '_c', f.name): f for f in functions if f.public and f.name.startswith('feldrime_')}
for e in exports:
    f = called.get((e.crate, e.name))
    arguments = ', '.join(re.findall(r'(\w+): ', e.head.split(')')[0]))
    if not f or not e.public or words(e.head) != words(f.head):
        missing.append(f'{e.full} as an export of a function with its clauses')
    elif words(e.body) != words(f'{f.full}({arguments})'):
        missing.append(f'a call of {f.full} as all that {e.full} does')
missing += [f'an export of {f.full}' for key, f in called.items() if key not in exported]

known = WORDS | {f.name for f in functions} | {f.full for f in functions} | {d.name for d in declared}
known |= {e.label for e in sources.edits(functions, declared)} | {p.name for p in Path('crates').iterdir()}


def there(name):
    if name.startswith('rt '):
        name = name.split(' ')[-1]
    path = name.split(' ')[0]
    return name in known or any(Path('.').glob(path)) or any(Path('crates').glob('*/specs/' + path))


for number, line in enumerate(PAGE.read_text().splitlines(), 1):
    missing += [f'{PAGE}:{number}: {name}' for name in re.findall('`([^`]+)`', line) if not there(name)]

PROOFS = ('Answers.antt', 'Invariants.antt', 'Proof.antt')
for path in sorted(p for p in Path('.').glob('crates/*/proofs/**/*.antt') if p.name in PROOFS):
    proof = path.read_text()
    if proof.count('\n') > 25 and not proof.startswith('-- '):
        missing.append(f'a first line in {path} that says what it rests on')

for what in missing:
    print(f'names: {what}')
print(f'names: {sum(f.public for f in functions)} public functions, {sum(map(len, laws.values()))} laws of one answer, '
      f'{len(missing)} missing')
sys.exit(1 if missing else 0)
