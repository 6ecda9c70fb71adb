"""Contracts and their laws of one answer (crates/agreement/specs/One*.antt) as texts that can be compared: a contract
and its law are one text but for the names of parameters. Used by tests/names and tests/tables."""
import re
from pathlib import Path

from sources import clauses

FONT = 'words flags unshifted shifted groups'


def plain(text, names):  # a fact with _ for each parameter, whatever of it is named
    text = re.sub(rf'\b(?:lent_font|font_to_fill|left_font) {FONT}\b', 'words', text)
    text = text.replace('lent_records', 'records_of')
    named = '|'.join(map(re.escape, sorted(names, key=len, reverse=True)))
    text = re.sub(rf'(?<![\w.-])(?:{named})(?:\.(?:now|old|new|entry|exit|ref_ptr|\d+))*(?![\w-])', '_', text)
    while text != (text := re.sub(r'\(_\)(?:\.\d+)?', '_', text)):
        pass
    return ' '.join(text.split())


def ghosts_in(head, fact):  # what a function of any type says of that type, such as I.kept: a parameter of its law
    types = ['Self'] + re.findall(r'[<,] ?(\w+): ', head.split('(')[0])
    return re.findall(rf'\b(?:{"|".join(types)})\.\w+', fact)


def contract_fact(head):  # the fact that is ensured, and what it does not speak of
    fact = clauses(head, 'ensures')
    if not fact:
        return None, ['its result']
    written = re.findall(r'(\w+): &mut ', head)
    if re.search(rf'\bleft_font {FONT}\b', fact):
        written = [x for x in written if x not in FONT.split()]
    silent = [x for x in written if not re.search(rf'\b{x}\.new\b', fact)]
    if '->' in head and not re.search(r'\bresult\b', fact):
        silent.append('its result')
    return plain(fact, ['result', 'self'] + re.findall(r'(\w+): ', head) + ghosts_in(head, fact)), silent


def laws_by_fact():  # for each fact the names of the laws that only one answer meets it
    laws = {}
    for path in sorted(Path('.').glob('crates/agreement/specs/One*.antt')):
        pattern = r'^pub (\S+[-_]one) : (.*?)OneAnswer \(λ (?:\(r : .*?\)|r)\. (.*?)\)\n\S'
        for name, binders, fact in re.findall(pattern, path.read_text(), re.M | re.S):
            names = [x for group in re.findall(r'[({]([^:(){}]*) :', binders) for x in group.split()]
            laws.setdefault(plain(' '.join(fact.split()), ['r'] + names), []).append(name)
    return laws


def law_of(function, laws):  # the laws of a function's contract; its own by name, if that is among them
    found = laws.get(contract_fact(function.head)[0], [])
    own = function.name.lower().replace('::', '-').replace('_', '-') + '-one'
    return [x for x in found if x.replace('_', '-') == own] or found
