"""A program with a method more, which asserts what a method may take for granted, calls it, and asserts what it owes.

That the asserts say the contract is tested only. The lines of the source stay where they are."""
import re

IT, TRY, BEFORE, AFTER, RESULT = 'jahob_it', 'jahob_try', 'jahob_before', 'jahob_after', 'jahob_result'
LEFT, AT = 'jahob_left', 'jahob_at'
DEFAULTS = {'int': '0', 'boolean': 'false'}
PIECES = re.compile(r'\.\.|[^\W\d]\w*(?:\.[^\W\d]\w*)?|\s+|.')


def wrapped(model, method):
    """The text of the program."""
    pieces = {cls: '' for cls in model.ends}
    if method.public:
        for cls in pieces:
            owed = [closed(model, it) for it in model.invariants if it.of == cls]
            if owed:
                told = asserts(owed)
                pieces[cls] = f' static void {BEFORE}() {{ {told} }} static void {AFTER}() {{ {told} }}'
    classes = [cls for cls, piece in pieces.items() if piece]
    pieces[method.of] += ' ' + calling(model, method, classes)
    return inserted(model.source.text, [(model.ends[cls], piece) for cls, piece in pieces.items()])


def inserted(text, pieces):
    """A text with pieces put in at offsets."""
    for place, piece in sorted(pieces, reverse=True):
        text = text[:place] + piece + text[place:]
    return text


def asserts(formulas):
    return ' '.join(f'/*: assert "{it}"; */' for it in formulas)


def calling(model, method, classes):
    """The method that calls another between the asserts."""
    fixed = 'static ' if method.fixed else ''
    params = ', '.join(f'{kind} {name}' for kind, name in method.params)
    call = f'{method.name}({", ".join(name for _, name in method.params)});'
    call = call if method.result == 'void' else f'{method.result} {RESULT} = {call}'
    before = asserts([method.requires] if method.requires else [])
    before += ''.join(f' {cls}.{BEFORE}();' for cls in classes)
    owed = [substituted(method.ensures, {'result': RESULT})] if method.ensures else []
    owed = asserts(owed + [formula for formula, _ in kept(model, method)])
    after = ''.join(f' {cls}.{AFTER}();' for cls in classes)
    return f'{fixed}void {TRY}({params}) {{ {before} {call} {owed} {after} }}'


def kept(model, method):
    """That what the contract doesn't name is as it was: for each such variable a formula, and the variable."""
    named = model.may_change(method)
    found = []
    for it in model.state():
        name = f'{it.of}.{it.name}'
        if it not in named and it.fixed:
            found.append((f'{name} = old {name}', name))
        elif it not in named:
            read = f'{IT}..{name}'
            found.append((f'ALL {IT}. {IT} : old alloc --> {read} = old ({read})', name))
    return found


def meanings(model, method):
    """For each formula that the wrapper asserts behind the call what it says of the source."""
    told = {closed(model, it): f'the invariant "{it.body}" of {it.of} is false' for it in model.invariants}
    told.update({formula: f'{name} changed, which `modifies` doesn\'t name' for formula, name in kept(model, method)})
    if method.ensures:
        told[substituted(method.ensures, {'result': RESULT})] = f'`ensures "{method.ensures}"` is false'
    return told


def closed(model, invariant):
    """An invariant of all objects of its class, where it speaks of one."""
    own = {it.name for it in model.variables if it.of == invariant.of and not it.fixed}
    binders = re.findall(r'(?:ALL|EX|%|\{) ?([\w ]*)(?:\.|::)', invariant.body)
    bound = set(' '.join(binders).split())
    names = {name: f'{IT}..{invariant.of}.{name}' for name in own - bound}
    body = substituted(invariant.body, {**names, 'this': IT})
    return body if body == invariant.body else f'ALL {IT}. {IT} : {invariant.of} --> ({body})'


def substituted(formula, names):
    """A formula with other texts for words that don't stand behind two dots."""
    pieces, before = [], ''
    for piece in PIECES.findall(formula):
        pieces.append(names.get(piece, piece) if before != '..' else piece)
        before = before if piece.isspace() else piece
    return ''.join(pieces)


def stepped(model, method):
    """A program of which the method returns after as many of its statements as a static says, with a static that says
    which was the last, and the places of these statements."""
    source, (start, end) = model.source, method.body
    back = '' if method.result == 'void' else ' ' + DEFAULTS.get(method.result, 'null')
    pieces, spans = [(model.ends[method.of], f' static int {LEFT}, {AT};')], []
    begin, depth = start + 1, 0
    for number in range(start + 1, end):
        token = source.tokens[number]
        depth += (token.text == '(') - (token.text == ')') if token.mode == 'code' else 0
        if token.text in ('{', '}', ';') and depth == 0 and token.mode != 'formula':
            if token.text == ';' and token.mode == 'code' and is_step(source.tokens[begin:number]):
                spans.append((source.tokens[begin].start, token.end))
                stop = f' {LEFT} = {LEFT} - 1; {AT} = {len(spans)}; if ({LEFT} == 0) {{ return{back}; }}'
                pieces.append((token.end, stop))
            begin = number + 1
    return inserted(source.text, pieces), spans


def is_step(tokens):
    """Whether some tokens are a statement that stands for itself, and behind which another may stand."""
    texts = [it.text for it in tokens if it.mode == 'code']
    return bool(texts) and texts[0] not in ('return', 'if', 'while', 'else', '(')
