"""refused.py [CRATE..]: tries each wrong program of crates/CRATE/must-fail by a check of its own, reads why the prover
refused it, and says which were refused for another reason than a false fact. Run by tests/refused.

`rt ci` says of an edit no more than that the crate is not proved with it. Here each edit is put into a copy of its
crate and of those below, and the log of `rt check` there is kept as target/must-fail/CRATE/LABEL.log. Only what an edit
changes is proved again. FELDRIME_CHECKS says how many crates are tried at a time.

An edit is one wrong program, LABEL.edit, or several in together.edit, which are tried by one check. There each has
a line `# LABEL, FUNCTION: ..`, and a function stands there once.

The first error counts, of several programs the first in the proof of each one's function: what follows it is often no
more than its consequence. Where a function has no answer in proofs/ to the goal that is now false, the first note about
a goal counts. Where that error or note is a limit of the prover, or says that the old proof no longer fits the edited
code, the log does not show that the contract rules the slip out, unless a note on the function says that the prover has
values at which a goal is false. REASONS has the prover's words for these. An error or note of any other kind counts as
a fact, so that a new way of failing has to be added here.

tests/tree/refused.samples has the prover's own words, each under the reason that has to be found in them. So this
program is tried each time it runs, and each pattern has a sample."""
import os
import re
import shutil
import subprocess
import sys
import tempfile
from concurrent.futures import ThreadPoolExecutor
from pathlib import Path

FACT = 'a fact'
NONE = 'no error'
LINE, BELOW = False, True  # whether the words stand in the error's line, or may stand below it, indented
REASONS = {
    'a bound of the prover': [
        (BELOW, r'`\w+` (met a bound of its own|stopped at a bound of its own|broke off)'),
        (LINE, r'^note: .*\bgave up at one of its limits'),
    ],
    'something not admitted': [(LINE, r'\bwas not admitted\b')],
    'a name that is not there': [
        (LINE, r'that can be named from here'),
        (LINE, r'has no field'),
        (LINE, r'not in scope'),
    ],
    'a wrong number of answers': [
        (BELOW, r'explicit arguments? more than'),
        (LINE, r'room for only'),
        (LINE, r'this tuple has'),
        (LINE, r'a tuple is checked against'),
        (LINE, r'but this has type `goal\.'),
    ],
}
SAMPLES = Path('tests/tree/refused.samples')
LOGS = Path('target/must-fail')


def goals(log, function=None):  # what is said of goals without a proof, of a function or of any: above its verdict
    verdict = rf'fn \S*\b{function}: no' if function else r'fn \S+: no'
    notes = []
    for said in re.findall(rf'((?:^(?!fn |struct |enum ).*\n)*)^{verdict}\w*\b', log, re.M):
        notes += re.findall(r'^note: \S+: it is not proved that .*', said, re.M)
    return notes


def first_error(log, function=None):  # in a function's proof, or anywhere: the line, and with what is indented below it
    place = rf'\S*proofs/(?:[\w+]+/)*{function}/\w+\.antt:[\d:]+' if function else r'\S+'
    found = re.search(rf'^{place}: error: .*\n?(?: .*\n?)*', log, re.M)
    if found:
        return found.group().splitlines()[0], found.group()
    note = next(iter(goals(log, function)), None)
    return note, note


def judge(log, function=None):  # the reason, and the pattern by which it was found
    line, whole = first_error(log, function)
    if line is None:
        return NONE, None
    if any('allow values at which this goal is false' in note for note in goals(log, function)):
        return FACT, None
    for reason, patterns in REASONS.items():
        for where, pattern in patterns:
            if re.search(pattern, whole if where is BELOW else line):
                return reason, pattern
    return FACT, None


def samples():  # reason, function or None, log
    parts = re.split(r'^= (.*?)(?: in (\w+))?\n', SAMPLES.read_text(), flags=re.M)
    return list(zip(parts[1::3], parts[2::3], parts[3::3]))


def programs(edit):  # pairs of a label and the function whose proof refuses it, or None where that is not said
    if edit.stem != 'together':
        return [(edit.stem, None)]
    return re.findall(r'^# (\w+), (\w+): ', edit.read_text(), re.M)


def edited(edit, crate):  # the texts that the edit alters, by their paths in the crate's folder
    texts = {}
    for key, text in re.findall(r'^(file|old|new): ?(.*)', edit.read_text(), re.M):
        if key == 'file':
            path = crate / text
            texts.setdefault(path, path.read_text())
        elif key == 'old':
            old = text
        elif texts[path].count(old) != 1:
            raise ValueError(f'{edit}: its old text does not stand once in {path.name}: {old}')
        else:
            texts[path] = texts[path].replace(old, text)
    return texts


def below():  # each crate's line of crates.txt, and the crates that it names
    lines = re.findall(r'^((\w+)(?: staticlib)?:(.*))', Path('crates.txt').read_text(), re.M)
    return {name: (line, needs.split()) for line, name, needs in lines}


def try_crate(crate, edits, lines):  # leaves the log of each edit, and returns those that cannot be applied
    wanted, wrong = [], []

    def visit(name):
        if name in lines and name not in wanted:
            for needed in lines[name][1]:
                visit(needed)
            wanted.append(name)

    visit(crate)
    with tempfile.TemporaryDirectory() as room:
        room = Path(room)
        for name in wanted:
            for part in ('src', 'specs', 'proofs'):
                if Path('crates', name, part).is_dir():
                    shutil.copytree(Path('crates', name, part), room / 'crates' / name / part)
        (room / 'crates.txt').write_text(''.join(lines[name][0] + '\n' for name in wanted))
        folder = room / 'crates' / crate
        for edit in edits:
            log = LOGS / crate / (edit.stem + '.log')
            log.parent.mkdir(parents=True, exist_ok=True)
            log.unlink(missing_ok=True)
            try:
                texts = edited(edit, folder)
            except (ValueError, OSError) as error:
                wrong.append(str(error))
                continue
            kept = {path: path.read_text() for path in texts}
            for path, text in texts.items():
                path.write_text(text)
            with log.open('w') as out:
                how = {'cwd': folder, 'stdin': subprocess.DEVNULL, 'stdout': out, 'stderr': subprocess.STDOUT}
                subprocess.run(['rt', 'check'], **how)
            for path, text in kept.items():
                path.write_text(text)
    return wrong


wrong = []
seen = set()
for reason, function, log in samples():
    verdict = judge(log, function)
    seen.add(verdict)
    if verdict[0] != reason:
        wrong.append(f'{SAMPLES}: {verdict[0]} was found where it is {reason}: {first_error(log, function)[0]}')
wanted = {(FACT, None), (NONE, None)} | {(r, p) for r, patterns in REASONS.items() for _, p in patterns}
for reason, pattern in sorted(wanted - seen, key=str):
    wrong.append(f'{SAMPLES}: no sample of {reason}' + (f', {pattern}' if pattern else ''))

lines = below()
asked = sys.argv[1:] or list(lines)
edits = {name: sorted(Path('crates', name, 'must-fail').glob('*.edit')) for name in lines if name in asked}
edits = {name: found for name, found in edits.items() if found}
with ThreadPoolExecutor(int(os.environ.get('FELDRIME_CHECKS', 1))) as pool:
    for found in pool.map(lambda name: try_crate(name, edits[name], lines), edits):
        wrong += found

count = 0
for edit in (edit for found in edits.values() for edit in found):
    log = LOGS / edit.parts[1] / (edit.stem + '.log')
    if not log.is_file():
        continue
    text = log.read_text(errors='replace')
    found = programs(edit)
    count += len(found)
    functions = [function for _, function in found]
    if len(functions) < 1 or len(set(functions)) < len(functions):
        wrong.append(f'{edit}: no program, or two in one function')
    if not re.search(r'^logic=not-proved', text, re.M):
        wrong.append(f'{edit}: the prover gave no verdict, as {log} says')
    for label, function in found:
        reason, _ = judge(text, function)
        if reason != FACT:
            line = first_error(text, function)[0] or 'the log has no line with an error'
            wrong.append(f'{edit}: {label} refused for {reason}: {line[:400]}')

print(*wrong, sep='\n', end='\n' if wrong else '')
print(f'refused: {count} wrong programs tried in {sum(map(len, edits.values()))} edits, {len(wrong)} complaints')
sys.exit(1 if wrong or not edits else 0)
