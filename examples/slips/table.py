"""The table of slips: the headings of docs/SLIPS.md and the two lines under each; the edits that they name; and the facts.

`X::f` is the contract of the routine f of crate X, `X/Name.law` a law of crates/X/proofs/Name.antt, as in docs/PROOFS.md.
"""
import collections
import os
import re

ROOT = os.path.dirname(os.path.dirname(os.path.dirname(os.path.abspath(__file__))))
TABLE = 'docs/SLIPS.md'
Slip = collections.namedtuple('Slip', 'name title edit fact said text')
Change = collections.namedtuple('Change', 'file old new')


class Fault(Exception):
    pass


def there(path):
    return os.path.exists(os.path.join(ROOT, path))


def read(path):
    with open(os.path.join(ROOT, path), encoding='utf-8') as file:
        return file.read()


def slips():
    """The sections, by name."""
    found = {}
    for section in re.split(r'^(?=##)', read(TABLE), flags=re.M):
        head = re.match(r'### ([a-z0-9-]+): (.+)', section)
        if not head:
            continue
        edit = re.findall(r'^- Edit: `((?:crates/\w+/must-fail|more-edits/\w+)/\w+\.edit)`$', section, re.M)
        fact = re.findall(r'^- Refused at `([^`]+)`: (.+)$', section, re.M)
        if len(edit) != 1 or len(fact) != 1 or head[1] in found:
            raise Fault('%s: the section %s needs one line "- Edit: `PATH`", one "- Refused at `FACT`: WORDS", and a name of its own' % (TABLE, head[1]))
        found[head[1]] = Slip(head[1], head[2], edit[0], *fact[0], section)
    return found


def crate_of(slip):
    return slip.edit.split('/')[1]


def label_of(slip):
    return os.path.basename(slip.edit)[:-len('.edit')]


def changes(slip):
    """What the edit replaces, as rt reads it."""
    file, old, found = '', '', []
    for line in read(slip.edit).split('\n'):
        if line.startswith('file: '):
            file = 'crates/%s/%s' % (crate_of(slip), line[6:])
        elif line.startswith('old: '):
            old = line[5:]
        elif line.startswith('new:'):
            found.append(Change(file, old, line[4:].removeprefix(' ')))
    return found


def of_code(change):
    """Does it change code or a definition, and not only mend a proof?"""
    return change.file.split('/')[2] != 'proofs'


def law_file(fact):
    crate, law = fact.split('/')
    return 'crates/%s/proofs/%s.antt' % (crate, law.split('.')[0])


def plainer(clause):
    """A clause without its brackets: result is the answer, x what the slice x held at the call, `x afterwards` what it holds then."""
    clause = re.sub(r'^ensures ?(\w*) \{ (.*) \}$', r'ensures \1: \2', clause).replace('ensures :', 'ensures:')
    return re.sub(r'\b(\w+)\.(?:now|old)\b', r'\1', re.sub(r'\b(\w+)\.new\b', r'\1 afterwards', clause))


def statement(fact):
    """What the fact says in the sources' own words: a routine's promises, or a law's type. Empty where there is no such fact."""
    if '::' in fact:
        crate, *modules, name = [part for part in fact.split('::') if part[0].islower()]
        files = ['crates/%s/src/%s.rt' % (crate, file) for file in (['/'.join(modules)] if modules else ['lib', 'main'])]
        heads = [re.search(r'^ *(?:pub(?:\(\w+\))? )?fn %s\b.*?^ *\{$' % name, read(file), re.M | re.S) for file in files if there(file)]
        return [plainer(line) for head in heads if head for line in re.findall(r'^ *(ensures.*)', head[0], re.M)]
    if not there(law_file(fact)):
        return []
    name = re.escape(fact.split('.')[1])
    law = re.search(r'^ *(?:pub )?(%s : .*?)(?=^ *unfolding |^ *%s\b)' % (name, name), read(law_file(fact)), re.M | re.S)
    return [line.strip() for line in law[1].rstrip().split('\n')] if law else []
