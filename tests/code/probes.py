"""probes.py OBJDUMP SOURCE SAMPLES LIBRARY ARCHIVE..: prints which functions of the archives probe the stack in a loop.
Refuses any such function in LIBRARY, whose frames are to stay small, and in the others those where the loop may spoil
r11. Run by tests/probes.

A probing loop lowers rsp by a page a turn, until it is r11, which is set just before the loop. It is refused where an
instruction that can come before that names r11: no caller hands anything over there, so that whoever reads it wrote it.
A loop of any other form is refused too. What comes before follows from the jumps; one through a table may go anywhere
but into the function's first block, which no compiler jumps to.

SAMPLES is SOURCE assembled: each function's name there begins with what has to be found, none, loop or refused. So this
program is tried each time it runs, and objdump's layout with it."""
import re
import subprocess
import sys
from pathlib import Path

PAGE = {('sub', '$0x1000,%rsp'), ('add', '$0xfffffffffffff000,%rsp'), ('lea', '-0x1000(%rsp),%rsp')}
ENDS = {('cmp', '%r11,%rsp'), ('cmp', '%rsp,%r11')}
PREFIXES = {'bnd', 'notrack', 'rep', 'repz', 'data16', 'cs'}
OTHER = r'.*:  +file format elf64-x86-64|In archive .*:|Disassembly of section .*:|\t\.\.\.'  # no code, but harmless
LAST = {'ret', 'jmp', 'ud2', 'hlt', 'int3'}  # nothing follows by itself


class Strange(Exception):  # code, or a text of objdump's, that this program does not understand
    pass


class Function:
    def __init__(self, name):
        self.name = name
        self.places = []  # addresses
        self.code = []    # pairs of mnemonic and operands
        self.goals = []   # where each instruction may jump to: an address, None, or '*' for anywhere

    def take(self, place, text):
        text, _, relocation = text.partition('\t')
        words = text.split('#')[0].split()
        while len(words) > 1 and words[0] in PREFIXES:
            words.pop(0)
        if not words:
            raise Strange(f'{self.name}: no instruction at {place:x}')
        operands = ' '.join(words[1:])
        goal = None
        if words[0].startswith('j') and operands.startswith('*'):
            goal = '*'
        elif words[0].startswith(('j', 'loop')) and not relocation:  # one with a relocation leaves the function
            goal = int(words[1], 16)
        self.places.append(place)
        self.code.append((words[0], operands))
        self.goals.append(goal)

    def link(self):  # before[i]: from where instruction i is reached, without tables
        index = {place: i for i, place in enumerate(self.places)}
        self.before = [set() for _ in self.code]
        for i, (word, _) in enumerate(self.code):
            if word not in LAST and i + 1 < len(self.code):
                self.before[i + 1].add(i)
            goal = self.goals[i]
            if isinstance(goal, int) and self.places[0] <= goal <= self.places[-1]:
                if goal not in index:
                    raise Strange(f'{self.name}: a jump to {goal:x}, between two instructions')
                self.before[index[goal]].add(i)
        self.first = 1  # the end of the first block
        while self.before[self.first:self.first + 1] == [{self.first - 1}] and self.goals[self.first - 1] is None:
            self.first += 1
        self.tables = {i for i, goal in enumerate(self.goals) if goal == '*'}

    def reaching(self, i, tables):  # all that can come before an instruction, itself where it is in a loop
        seen, left = set(), {i}
        while left:
            j = left.pop()
            new = (self.before[j] | (self.tables if tables and j >= self.first else set())) - seen
            seen |= new
            left |= new
        return seen

    def loop_around(self, i):  # the instructions of the loop that i is in, none where it is in none
        return {j for j in self.reaching(i, False) if i in self.reaching(j, False)}

    def told(self, i):
        return f'{self.places[i]:x} {" ".join(self.code[i])}'

    def fault(self, loop):  # what is wrong with a probing loop, or None
        start = min(loop)
        if not ENDS & {self.code[i] for i in loop}:
            return f'a probing loop at {self.told(start)} that does not end by r11'
        own = start - 1
        if own > 0 and re.fullmatch(r'\$0x[0-9a-f]+,%r11', self.code[own][1]) and self.code[own][0] == 'sub':
            own -= 1
        if own < 0 or not re.fullmatch(r'mov %rsp,%r11|lea -0x[0-9a-f]+\(%rsp\),%r11', ' '.join(self.code[own])):
            return f'a probing loop at {self.told(start)} whose end is not set just before it'
        if any(self.before[i] - loop != ({start - 1} if i == start else set()) for i in loop):
            return f'a probing loop at {self.told(start)} that is jumped into'
        for i in sorted(self.reaching(own, True) - loop - set(range(own, start))):
            if '%r11' in self.code[i][1]:
                return f'r11 is in use before the probing loop at {self.told(start)}: {self.told(i)}'
        return None

    def judge(self):  # none, loop or refused, and why
        self.link()
        loops = [self.loop_around(i) for i, code in enumerate(self.code) if code in PAGE]
        faults = [self.fault(loop) for loop in loops if loop]
        if any(faults):
            return 'refused', next(filter(None, faults))
        return ('loop', '') if faults else ('none', '')


def functions_of(objdump, path):
    command = [objdump, '-d', '-r', '-w', '--no-show-raw-insn', path]
    run = subprocess.run(command, capture_output=True, text=True, check=False)
    if run.returncode != 0 or run.stderr:
        raise Strange(f'{objdump} ended with {run.returncode} and said: {run.stderr.strip()}')
    functions = []
    for line in run.stdout.splitlines():
        if head := re.fullmatch(r'[0-9a-f]+ <(.+)>:', line):
            functions.append(Function(head.group(1)))
        elif code := re.fullmatch(r' *([0-9a-f]+):\t(.+)', line):
            if not functions:
                raise Strange(f'code before the first function: {line}')
            functions[-1].take(int(code.group(1), 16), code.group(2))
        elif line and not re.fullmatch(OTHER, line):
            raise Strange(f'a line of no known form: {line}')
    if not functions or not all(f.code for f in functions):
        raise Strange('no functions, or one without code')
    return functions


def try_samples(objdump, source, samples):  # a line for each that is not found as its name says
    wanted = re.findall(r'^(\w+):', Path(source).read_text(), re.M)
    judged = {f.name: f.judge()[0] for f in functions_of(objdump, samples)}
    wrong = [f'the sample {name} was not read' for name in wanted if name not in judged]
    wrong += [f'the sample {name} is found as: {v}' for name, v in judged.items() if not name.startswith(v + '_')]
    return wrong + [f'no sample is {v}' for v in ('none', 'loop', 'refused') if v not in judged.values()]


def main():
    objdump, source, samples, *archives = sys.argv[1:]
    wrong = [] if archives else ['no archive was named']
    try:
        wrong += try_samples(objdump, source, samples)
        for path in archives:
            name = Path(path).name
            judged = [(f.name, *f.judge()) for f in functions_of(objdump, path)]
            loops = ', '.join(function for function, verdict, _ in judged if verdict != 'none') or 'none'
            wrong += [f'{name}: {function}: {why}' for function, verdict, why in judged if verdict == 'refused']
            if path == archives[0] and loops != 'none':
                wrong.append(f'{name}: a frame above 32 KB, which is probed in a loop: {loops}')
            print(f'probes: {name}: {len(judged)} functions, of which probe the stack in a loop: {loops}')
    except (Strange, OSError) as error:
        wrong.append(str(error))
    for line in wrong:
        print(f'probes: {line}')
    return 1 if wrong else 0


sys.exit(main())
