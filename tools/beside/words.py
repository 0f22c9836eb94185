"""What the program says, in words."""

VERDICTS = {
    'trivial': 'proved at sight',
    'bapa': 'proved by sizes',
    'local': 'proved by objects',
    'unproved': 'not proved',
}
KINDS = {
    'null': 'that this is not null',
    'pre': 'the precondition of this call',
    'post': 'the postcondition',
    'inv': 'this invariant of the class',
    'loop': 'the loop invariant before the loop',
    'kept': 'the loop invariant after a turn',
    'frame': 'that nothing else changes',
    'assert': 'the assert',
    'note': 'the note',
}
# How many equations are told.
SHOWN = 8
LIMITS = {'sets': 6, 'elements': 8, 'size': 67_108_864}


def cause(line):
    """A line below an unproved one, in words."""
    what, _, rest = line.partition(': ') if ': ' in line else line.partition(':')
    return {
        'bapa refuted': refuted,
        'bapa too large': too_large,
        'local open': is_open,
        'local too many': lambda it: f'objects: {int(it):,} instances would be needed, and 100,000 may be made',
        'local budget': lambda it: f'objects: the search was stopped after {int(it):,} cases; there may be a proof',
    }.get(what, lambda _: line)(rest)


def refuted(pieces):
    """What a refutation by regions says."""
    classes, told = set(), []
    for piece in pieces.split('; '):
        words = piece.split()
        if words[:1] == ['element']:
            classes.add(words[3])
        elif words[:1] == ['number']:
            told.append(f'a number is {difference(words[2], words[4])}')
        elif words[:1] == ['region']:
            told.append(f'{number(words[3])} objects more lie in one region')
    if len(classes) == 1:
        told.insert(0, 'each object that is named is null')
    elif classes:
        told.insert(0, f'{len(classes)} different objects are named, null among them')
    return f'sizes: what is said of sets, sizes and numbers leaves room for it to be false{where(told)}'


def where(told):
    return f': where {", ".join(told)}' if told else ''


def number(text):
    return int(text, 0)


def difference(plus, minus):
    return number(plus) - number(minus)


def too_large(sizes):
    """Which limit of a query is passed."""
    given = {name: int(count) for name, count in (it.split() for it in sizes.split(', '))}
    passed = [f'{given[it]:,} {it} of at most {LIMITS[it]:,}' for it in LIMITS if given[it] > LIMITS[it]]
    return f'sizes: too much is said at a time: {", ".join(passed)}'


def is_open(equations):
    """What a ground model says."""
    told = [f'{one} is {other}' for one, other in distinct(equations)]
    said = 'objects: what is said of objects leaves room for it to be false'
    if not told:
        return f'{said}, even where all that are named differ'
    turned = '; a name with @ is what it was at another moment, or an object that is meant to be there'
    return said + where(told[:SHOWN]) + (', ..' if told[SHOWN:] else '') + (turned if '@' in str(told[:SHOWN]) else '')


def distinct(equations):
    """The equations that say something, each once. What a field holds at null says nothing."""
    found = []
    for equation in equations.split('; '):
        one, _, other = equation.partition(' = ')
        if other and one != other and (other, one) not in found and 'null..' not in (one[:6], other[:6]):
            found.append((one, other))
    return found


def refused(refusal):
    """A refusal in words."""
    return {
        1: 'this is no UTF-8',
        2: 'this character begins nothing here',
        3: 'this comment has no end',
        4: 'this formula has no closing quote',
        5: 'this number is above 9223372036854775807',
        6: 'this cannot stand here',
        7: 'this nests deeper than 64',
        8: f'the definition of {refusal.name} reads {refusal.name} itself',
        11: f'rule {refusal.rule} of types is broken',
        12: f'{refusal.name} has {refusal.count} proof obligations, and 2,000 may be',
    }[refusal.number]
