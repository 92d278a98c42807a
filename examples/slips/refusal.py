"""What the prover said of a mistake, read from its log: what it could not show, the one at the fact that the table names, and what was left to show there."""
import collections
import re

from table import crate_of

Error = collections.namedtuple('Error', 'place fact need text')
# what the prover says of a proof that speaks of what is not there: then the edit is out of date, and nothing is shown of the mistake
GONE = re.compile(r'has no \S+ that can be named from here|has no field|is not in scope|^expected an? .{0,40}, found')


def blocks(log):
    return re.split(r'^(?=\S)', log, flags=re.M)


def errors(log, slip):
    """What is not shown, and no consequence of another, in the log's order: goals that nothing answers, answers that fall, and laws."""
    found, crate = [], crate_of(slip)
    places = dict((need, place) for place, need in re.findall(r'^note: (src/\S+:\d+):\d+: it is not proved that .*? \(`([^`]+)`\)', log, re.M))
    for block in blocks(log):
        text = ' '.join(block.split())
        goal = re.match(r'note: `([^`]+)` of proofs/(.+)/(?:Answers|Invariants)\.antt must prove: (.*?)(?: names you can use.*)?$', text)
        if goal:
            place = places.get(goal[1], 'src')
            found.append(Error('crates/%s/%s' % (crate, place), '%s::%s' % (crate, goal[2].replace('/', '::')), goal[1], goal[3]))
        error = re.match(r'(?:\./)?(proofs/\S+?\.antt):(\d+):\d+: error: (?:`([^`]+)`: )?(.*)', text)
        if not error or 'was not admitted' in error[4] or 'was rejected' in error[4]:
            continue
        file, need = error[1], error[3] or ''
        routine, law = re.match(r'proofs/(.+)/(?:Answers|Invariants|Proof)\.antt$', file), re.match(r'proofs/(.+)\.antt$', file)
        fact = '%s::%s' % (crate, routine[1].replace('/', '::')) if routine else '%s/%s.%s' % (crate, law[1], need)
        found.append(Error('crates/%s/%s:%s' % (crate, file, error[2]), fact, need, error[4]))
    return found


def gone(found):
    return [error for error in found if GONE.search(error.text[:200])]


def named(slip, found):
    """The errors at the fact: of a routine at its promise, where it returns or a loop goes round, and not at the safety of a line on the way."""
    at = [error for error in found if error.fact == slip.fact]
    return at if '::' not in slip.fact else [error for error in at if re.match(r'returns|loop.*-(init|preserved)\b', error.need)]


def shorter(term, most=110):
    """A term of the prover without the paths of its names and of what it knows."""
    term = re.sub(r'\bc\.args\.(\w+)(?:\.now)?', r'\1', term)
    term = re.sub(r"\bc\.([\w-]+)\.new\.(\w+)", r'\2 afterwards', term)
    term = re.sub(r"\bc\.([\w-]+)\.result", r"\1's result", term)
    term = re.sub(r"(?:\b[\w-]+\.)+([^\s().]+)", r'\1', term)
    return term if len(term) <= most else term[:most].rstrip() + ' …'


def values(error, log):
    """Values that the known facts allow, at which what is to be shown is false, where the prover found some."""
    told = re.search(r'^note: `%s` of proofs/\S+ may be false: the known facts allow (.*?): help:' % re.escape(error.need), log, re.M)
    return shorter(told[1].replace('`', '')) if told else None


def waiting(log):
    """The routines that are not proved for nothing but a callee."""
    return re.findall(r'^fn (\S+): (?:no proof: it|not proved; it) calls', log, re.M)
