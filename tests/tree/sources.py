"""What tests/names and tests/tables read from the tree: functions with their contracts, definitions and laws, wrong
programs, and tags. docs/WORKING.md, "The tables", says what a tag is."""
import re
from dataclasses import dataclass, field
from pathlib import Path

SECTIONS = {  # the first word of a tag, and the heading that it stands for
    'demand': 'The three demands', 'board': '01, "The board that is built"', 'register': '01, "Register fields"',
    'clock': '01, "Clock and frame"', 'fetch': '01, "Which cell is fetched"', 'dots': '01, "From cell to dots"',
    'file': '01, "Files"', 'refusal': '01, "Refusal numbers"', 'case': '01, "Numbers on both sides"',
    'strength': '01, "How strong each guarantee must be"', 'more': 'Calls that 01 does not name',
    'R-1': '02, R-1: attributes that run on', 'R-2': '02, R-2: which porch', 'R-3': '02, R-3: the level rule',
    'R-4': '02, R-4: headlines of double size', 'R-5': '02, R-5: from sheets to the catalogue, and back',
    'R-6': '02, R-6: an index of phrases', 'R-7': "02, R-7: the B chip's graphics",
}
TAG = re.compile(r'\[((?:' + '|'.join(SECTIONS) + r') [\w. -]+)\]')
FUNCTION = re.compile(r'^( *)(pub )?(?:extern "C" )?fn (\w+)(.*?)(?:^\1| )\{\n(.*?)^\1\}', re.M | re.S)
TRAIT = re.compile(r'^pub trait (\w+).*?\{\n(.*?)^\}', re.M | re.S)
PROMISE = re.compile(r'^    fn (\w+)(.*?)(?:;$| \{$|^    \{$)', re.M | re.S)  # a function of a trait, with a body or none
IMPL = re.compile(r'^impl (\w+)(?:<.+>)? for (\w+) \{\n(.*?)^\}', re.M | re.S)
GHOST = re.compile(r'ghost (\w+) = \{ (?:λ ([\w ]+)\. )?(.*?) \};')
DECLARED = re.compile(r' *((?:abbrev|unfoldable) )?(?:pub )?(?:(?:record|data) (\S+)|([^\s(){}:=]+) :)')


@dataclass
class Function:
    crate: str
    name: str  # with its type, if it is a method
    public: bool
    comment: str
    head: str
    body: str
    path: Path
    span: tuple

    @property
    def full(self):
        return f'{self.crate}::{self.name}'

    @property
    def requires(self):
        return clauses(self.head, 'requires')

    @property
    def ensures(self):
        return clauses(self.head, 'ensures')


@dataclass
class Declared:
    crate: str
    module: str
    name: str
    kind: str  # 'definition', 'law' or another word for what is neither
    comment: str
    tags: list
    line: int


@dataclass
class Edit:
    crate: str
    label: str
    alters: str  # a function or a definition
    text: str
    tags: list = field(default_factory=list)


def clauses(head, kind):  # the facts of a function's clauses of this kind, as one text
    facts = []
    for found in re.finditer(rf'\b{kind}\*?(?: \w+)? \{{', head):
        depth, end = 1, found.end()
        while depth:
            depth += {'{': 1, '}': -1}.get(head[end], 0)
            end += 1
        facts.append(' '.join(head[found.end():end - 1].split()))
    return ' × '.join(facts)


def comment_above(text, start, mark):  # the lines of a comment, without attributes
    lines = []
    above = re.sub(r'^ *#\[[^\n]*(?:\n(?! *(?:#\[|//|pub |fn |extern ))[^\n]*)*\n\Z', '', text[:start], flags=re.M)
    for line in reversed(above.splitlines()):
        if line.strip().startswith(mark):
            lines.insert(0, line.strip()[len(mark):].strip())
        elif not line.strip().startswith('#['):
            break
    return ' '.join(lines)


def in_order(pattern, kind=''):  # the files of all libraries, or ' staticlib', in the order of crates.txt
    crates = re.findall(rf'^(\w+){kind}:', Path('crates.txt').read_text(), re.M)
    return [path for crate in crates for path in sorted(Path('crates', crate).glob(pattern))]


def put_in(text, name, taken, fact):  # a ghost function's text in place of its name and what it is given
    if not taken:
        return re.sub(rf'\b{name}\b', fact, text)
    return re.sub(rf'\b{name} (\w+)', lambda m: re.sub(rf'\b{taken}\b', m[1], fact), text)


def kept(path, text):  # what a type keeps of a public trait, `From` or `Default`: each function, with the type's own words
    traits = {m[1]: m for m in TRAIT.finditer(text)}
    kinds = {impl[1] for impl in IMPL.finditer(text)}
    for trait in (t for name, t in traits.items() if name not in kinds):  # its types are private, or of other crates
        ghosts = '|'.join(re.findall(r'^    ghost (\w+):', trait[2], re.M)) or '(?!)'
        for m in PROMISE.finditer(trait[2]):
            start = trait.start(2) + m.start()
            head = re.sub(rf'\b({ghosts})\b', r'Self.\1', m[2])
            yield Function(path.parts[1], f'{trait[1]}::{m[1]}', True, comment_above(text, start, '//'), head, '', path,
                           (start, trait.start(2) + m.end()))
    for impl in IMPL.finditer(text):
        ghosts = GHOST.findall(impl[3])
        for m in PROMISE.finditer(impl[3]) if impl[1] in ('From', 'Default') else ():
            result, fact = ghosts[0][1].split()[-1], ghosts[0][2]
            head = m[2].rstrip() + ' ensures { ' + re.sub(rf'\b{result}\b', 'result', fact) + ' }'
            yield Function(path.parts[1], f'{impl[2]}::{m[1]}', True, '', head, '', path, impl.span())
        trait = traits.get(impl[1])
        for m in PROMISE.finditer(trait[2]) if trait else ():
            head = re.sub(r'\bSelf\b', impl[2], m[2])
            for ghost in ghosts:
                head = put_in(head, *ghost) if ghost[1] else head.replace(f' {ghost[0]} ', f' {ghost[2]} ')
            start = trait.start(2) + m.start()
            yield Function(path.parts[1], f'{impl[2]}::{m[1]}', True, comment_above(text, start, '//'), head, '', path,
                           (start, trait.start(2) + m.end()))


def functions(kind=''):
    for path in in_order('src/*.rt', kind):
        text = path.read_text()
        yield from kept(path, text)
        inside = [m.span() for pattern in (TRAIT, IMPL) for m in pattern.finditer(text)]
        for m in FUNCTION.finditer(text):
            if any(start < m.start() < end for start, end in inside):
                continue
            owner = re.findall(r'^impl (\w+) \{', text[:m.start()], re.M)[-1:] if m[1] else []
            yield Function(path.parts[1], '::'.join(owner + [m[3]]), bool(m[2]), comment_above(text, m.start(), '//'),
                           m[4], m[5], path, m.span())


def tags_in(line):  # the tags, and the words behind them
    found = list(TAG.finditer(line))
    return [m[1] for m in found], line[found[-1].end():].strip() if found else ''


def declarations(sentences, complaints):  # those of specs, and theorems in proofs; a tag's words go into sentences
    for path in in_order('specs/*.antt') + in_order('proofs/*.antt'):
        tags, comment = [], []
        for number, line in enumerate(path.read_text().splitlines(), 1):
            found, words = tags_in(line) if line.lstrip().startswith('--') else ([], '')
            if found:
                tags += found
                tell(sentences, found, words, f'{path}:{number}', complaints)
            elif line.lstrip().startswith('--'):
                comment.append(line.strip()[2:].strip())
            elif (m := DECLARED.match(line)) and not line.startswith('use ') and not line.lstrip().startswith('module'):
                name = m[2] or m[3]
                kind = 'definition' if m[1] or m[2] else 'law'
                yield Declared(path.parts[1], path.stem, name, kind, ' '.join(comment), tags, number)
                tags, comment = [], []
            else:
                comment = []
                complaints += [f'{path}:{number}: [{tag}] above no definition' for tag in tags]
                tags = []
        complaints += [f'{path}: [{tag}] above no definition' for tag in tags]


def tell(sentences, tags, words, place, complaints):  # the words behind a tag, which stand once
    if not words:
        return
    if len(tags) > 1 or tags[0] in sentences:
        complaints.append(f'{place}: the words of {tags[0]} stand twice, or behind two tags')
    sentences[tags[0]] = words


def enclosing(path, old, known, declared):  # the function or definition in which a text stands
    text = path.read_text()
    at = text.find(old)
    if path.suffix == '.rt':
        return next((f.name for f in known if f.path == path and f.span[0] <= at < f.span[1]), '')
    line = text.count('\n', 0, at) + 1
    before = [d for d in declared if (d.crate, d.module) == (path.parts[1], path.stem) and d.line <= line]
    return before[-1].name if before else ''


def edits(known, declared):
    for path in in_order('must-fail/*.edit'):
        text, crate = path.read_text(), path.parts[1]
        if path.stem == 'together':
            for label, function, words in re.findall(r'^# (\w+), (\w+): (.*)', text, re.M):
                yield Edit(crate, label, function, TAG.sub('', words).strip(), tags_in(words)[0])
            continue
        words = ' '.join(re.findall(r'^# (.*)', text, re.M))
        file, old = re.search(r'^file: (.*)', text, re.M)[1], re.search(r'^old: (.*)', text, re.M)[1]
        alters = enclosing(Path('crates', crate, file), old.strip(), known, declared)
        yield Edit(crate, path.stem, alters, TAG.sub('', words).strip(), tags_in(words)[0])


def tests(sentences, complaints):  # pairs of a tag and a test: a script of tests/independent by its name, or a file
    for path in sorted(p for p in Path('tests').glob('**/*') if p.is_file() and 'tree' not in p.parts):
        text = path.read_text(errors='replace')
        for m in re.finditer(r'^ *(?://+|#|/\*) .*$', text, re.M):
            found, words = tags_in(m[0])
            if found:
                tell(sentences, found, words, path, complaints)
            name = re.search(r'"([\w{}-]+)"', text[m.end():])
            script = path.suffix == '.rs' and name
            yield from ((tag, re.sub(r'\{\}', '*', name[1]) if script else str(path)) for tag in found)
