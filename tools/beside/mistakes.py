"""What usually causes a refusal, and what to write instead."""
import re
from collections import namedtuple

# `holds` asks a view of the refused place; `hint` is what to write instead.
Mistake = namedtuple('Mistake', 'name holds hint')
STARTS = ';', '{', '}', ''
RESERVED = {
    'code': 'class public private protected static final void int boolean null true false this if else while return '
            'new',
    'spec': 'specvar ghost vardefs invariant requires modifies ensures inv assert note from claimedby',
    'formula': 'ALL EX old card tree rtrancl_pt Un Int dvd UNIV null True False',
}
RESERVED = {mode: words.split() for mode, words in RESERVED.items()}
RESERVED['spec'] += RESERVED['code']
JAVA = {
    'for': 'there is no `for`: write `int i = 0; while (i < n) { ..; i = i + 1; }`',
    'do': 'there is no `do`: write the body once before a `while`',
    'switch': 'there is no `switch`: write `if` and `else`',
    'break': 'there is no `break`: put it into the condition of the loop, or `return` from a method of its own',
    'continue': 'there is no `continue`: put the rest of the body into an `else`',
    'throw': 'there are no exceptions: say in `requires` when the method may be called',
    'try': 'there are no exceptions: say in `requires` when the method may be called',
    'import': 'there are no `import` and no `package`: the classes of one file are the whole program',
    'package': 'there are no `import` and no `package`: the classes of one file are the whole program',
    'interface': 'there are no interfaces: write a class',
    'enum': 'there are no enumerations: write numbers, or a class',
    'extends': 'there is no inheritance: write the fields into the class itself',
    'implements': 'there is no inheritance: write the fields into the class itself',
    'abstract': 'there is no inheritance: write a class with bodies',
    'instanceof': 'there is no `instanceof`: in formulas write `x : C`',
}


class View:
    """The tokens round a refused place."""

    def __init__(self, source, line, column):
        self.source, self.tokens = source, source.tokens
        self.number = source.at(source.offset(line, column))
        self.mode = self.tokens[self.number].mode if self.number < len(self.tokens) else ''

    def text(self, step=0):
        """The text of a token, counted from the refused one."""
        number = self.number + step
        return self.tokens[number].text if 0 <= number < len(self.tokens) else ''

    def glued(self, step):
        """The texts of a token and the one behind it, where nothing stands between them."""
        number = self.number + step
        if not 0 <= number < len(self.tokens) - 1:
            return ''
        one, other = self.tokens[number:number + 2]
        return one.text + other.text if one.end == other.start else ''

    def here(self):
        """Two signs of which the refused one is the first or the second."""
        return self.glued(-1), self.glued(0)

    def statement(self):
        """The texts from the start of the statement on to the refused token."""
        start = self.number
        while start > 0 and self.tokens[start - 1].text not in STARTS:
            start -= 1
        return [it.text for it in self.tokens[start:self.number + 1]]

    def spec(self):
        """The texts of the specification up to the refused token."""
        start = self.number
        while start > 0 and self.tokens[start - 1].mode != 'code':
            start -= 1
        return [it.text for it in self.tokens[start:self.number + 1] if it.mode == 'spec']

    def before_spec(self):
        """The text of the code's token before the specification."""
        return next((it.text for it in reversed(self.tokens[:self.number]) if it.mode == 'code'), '')

    def is_name(self):
        return re.fullmatch(r'[^\W\d]\w*', self.text()) is not None


def java(view):
    """The word of Java by which a statement or a class begins that there is not here."""
    words = [view.text(), view.text(-1), *view.statement()[:1]]
    return next((it for it in words if it in JAVA), None) if view.mode == 'code' else None


def is_constructor(view):
    return view.mode == 'code' and view.text() == '(' and view.text(-1)[:1].isupper() \
        and view.text(-2) in ('{', '}', ';', 'public', 'private', 'protected')


def is_contract_before(view):
    return view.mode == 'spec' and view.text() in ('requires', 'modifies', 'ensures') and view.before_spec() != ')' \
        and len(view.spec()) == 1


def is_in_order(view):
    words = view.spec()
    after = {'requires': ('modifies', 'ensures'), 'modifies': ('ensures',)}
    return not any(it in after.get(view.text(), ()) for it in words[:-1])


def is_bound_with_dot(view):
    before = [view.text(step) for step in range(-8, 0)]
    return view.mode == 'formula' and '.' in view.text() and ('ALL' in before or 'EX' in before)


def is_reserved(view):
    near = view.text(), view.text(-1)
    return any(it in RESERVED.get(view.mode, ()) for it in near) and reserved_word(view) is not None


def reserved_word(view):
    """The word at the place that names something elsewhere and is reserved here."""
    names = declared(view.source)
    return next((it for it in (view.text(), view.text(-1)) if it in names and it in RESERVED.get(view.mode, ())), None)


def declared(source):
    """The words that are declared: behind `specvar`, and in code behind another word that is no modifier."""
    word = re.compile(r'[^\W\d]\w*')
    no_types = 'return', 'new', 'else', 'class', 'static', 'public', 'private', 'protected', 'final'
    return {other.text for one, other in zip(source.tokens, source.tokens[1:])
            if one.mode == other.mode and word.fullmatch(one.text) and word.fullmatch(other.text)
            and (one.mode == 'code' and one.text not in no_types or one.text == 'specvar')}


def signs(mode, *texts):
    """Whether one of some signs stands at the place."""
    return lambda view: view.mode == mode and (view.text() in texts or any(it in texts for it in view.here()))


def names(*words):
    """Whether the source has one of some words at the place."""
    return lambda view: view.text() in words


TABLE = [
    Mistake('a word of Java', java, lambda view: JAVA[java(view)]),
    Mistake('++ and --', signs('code', '++', '--'), '`x++` is no statement: write `x = x + 1;`'),
    Mistake('+=', signs('code', '+=', '-=', '*='), '`x += e` is no statement: write `x = x + e;`'),
    Mistake('=> in a formula', signs('formula', '=>', '==>', '->'),
            'implication is `-->`, and that two truths are equal is said by `=`'),
    Mistake('== in a formula', signs('formula', '=='), 'in a formula equality is one sign: `=`'),
    Mistake('&& in a formula', signs('formula', '&&'), 'in a formula "and" is one sign: `&`'),
    Mistake('|| in a formula', signs('formula', '||'), 'in a formula "or" is one sign: `|`'),
    Mistake('!= in a formula', signs('formula', '!='), 'in a formula write `~=`, or `~:` for "is no member"'),
    Mistake('! in a formula', signs('formula', '!'), 'in a formula "not" is `~`'),
    Mistake('a backslash', signs('formula', '\\'),
            'there are no backslashes: write `ALL x. ..`, `EX x. ..`, `old`, `result`'),
    Mistake('for x : S', lambda view: view.mode == 'formula' and view.text() == ':' and view.text(-2) in ('ALL', 'EX'),
            'a quantifier goes over all objects: write `ALL x. x : S --> ..` or `EX x. x : S & ..`'),
    Mistake('x.y behind a quantifier', is_bound_with_dot,
            'behind the name that a quantifier binds stand a dot and a space: `ALL x. ..`'),
    Mistake('a reserved word', is_reserved,
            lambda view: f'`{reserved_word(view)}` is a word of the language here: give what it names another name'),
    Mistake('a chain', lambda view: view.mode == 'formula' and view.text() in ('=', '<', '<=', '~=', ':', '>', '>='),
            'comparisons do not chain: write `a = b & b = c`'),
    Mistake('in', lambda view: view.mode == 'formula' and 'in' in (view.text(), view.text(-1)),
            '"is a member of" is `:`'),
    Mistake('the contract before the method', is_contract_before,
            'a contract stands behind the parameters, before the body: `void m() /*: requires ".." */ { .. }`'),
    Mistake('the order of a contract', lambda view: view.mode == 'spec' and not is_in_order(view),
            'a contract goes in this order: `requires`, then `modifies`, then `ensures`'),
    Mistake('inv behind the condition', lambda view: view.mode == 'spec' and view.text() == 'inv',
            'an invariant of a loop stands before its condition: `while /*: inv ".." */ (c) { .. }`'),
    Mistake('a semicolon in a contract', lambda view: view.text() == ';' and 'modifies' in view.spec(),
            'there are no semicolons in a contract: `requires ".." modifies a, b ensures ".."`'),
    Mistake('no semicolon behind an invariant', lambda view: 'invariant' in view.spec() and view.text(-1) == '"'
            and view.text() != '"', 'a `;` stands behind each `invariant`, `vardefs` and `specvar`'),
    Mistake('no colon behind a name', lambda view: view.mode == 'spec' and view.is_name() and view.text(1) == '"'
            and view.text(-1) in ('invariant', 'inv', 'note', 'assert'),
            'a colon stands behind the name: `invariant name: ".."`, `note name: ".."`'),
    Mistake('= for :=', lambda view: view.mode == 'spec' and view.text() == '=' and 'specvar' not in view.spec(),
            'a ghost variable is assigned by `:=`: `v := ".."`'),
    Mistake('no quotes', lambda view: view.text(-1) in ('requires', 'ensures', 'invariant', 'inv', 'assert')
            and view.mode == 'spec' and view.text() not in ('"', ':'),
            'a formula stands between quotes: `requires "n = 0"`'),
    Mistake('an array', lambda view: view.mode == 'code' and view.text() in ('[', ']'),
            'there are no arrays: write a class with a field that leads to the next object'),
    Mistake('new with arguments', lambda view: view.text(-3) == 'new' and view.text(-1) == '(',
            '`new C()` has no arguments: set the fields behind it'),
    Mistake('new without brackets', lambda view: view.text(-2) == 'new' and view.text() != '(',
            'brackets stand behind the class: `new C()`'),
    Mistake('a constructor', is_constructor,
            'there are no constructors: write a method `static C make(..) { C c = new C(); ..; return c; }`'),
    Mistake('a type with a parameter', lambda view: view.text() == '<' and view.text(-1)[:1].isupper(),
            'types have no parameters: write `Object`, or a class of its own'),
    Mistake('a text', lambda view: view.mode == 'code' and view.text() in ('"', "'"),
            'there are no texts and no characters: write numbers or objects'),
    Mistake('a division', lambda view: view.mode == 'code' and view.text() in ('/', '%'),
            'there is no division: say what the quotient is in a formula, or count in a loop'),
    Mistake('? and :', lambda view: view.mode == 'code' and view.text() in ('?', ':'),
            'there is no `?`: write `if (c) { .. } else { .. }`'),
    Mistake('<>', signs('code', '<>'), '"is not" is `!=`'),
    Mistake('a condition without brackets', lambda view: view.text(-1) in ('if', 'while') and view.mode == 'code',
            'brackets stand round a condition: `if (c)`'),
    Mistake('two locals in one',
            lambda view: view.mode == 'code' and view.text() == ',' and '(' not in view.statement(),
            'each local has a declaration of its own: `int i = 0; int k = 1;`'),
    Mistake('a call in an expression', lambda view: view.mode == 'code' and view.text() == '('
            and re.fullmatch(r'[^\W\d]\w*', view.text(-1)) is not None,
            'a call stands alone or as a whole right-hand side: `boolean b = m(); if (b) ..`'),
    Mistake('new in an expression', lambda view: view.text() == 'new',
            '`new` stands as a whole right-hand side: `C c = new C();`'),
    Mistake('a call before an operator', lambda view: view.mode == 'code' and view.text(-1) == ')'
            and view.text() in ('+', '-', '*', '<', '>', '<=', '>=', '==', '!=', '&&', '||', '.'),
            'a call stands alone or as a whole right-hand side: `int k = m(); return k + 1;`'),
    Mistake('no semicolon', lambda view: view.mode == 'code' and view.text() in ('}', 'return', 'if', 'while') and
            view.text(-1) not in STARTS, 'a `;` stands behind each statement and field'),
]
# What to do where no mistake above is seen, by the number of the refusal.
OTHERS = {
    1: 'save the file as UTF-8',
    2: 'take it out, or write the sign that stands for it here (docs/LANGUAGE.md lists the signs)',
    3: 'close it by `*/`',
    4: 'close it; a formula holds no quote and no `*/`',
    5: 'write a smaller one',
    6: 'docs/LANGUAGE.md says what may stand there',
    7: 'name a part of it by a local, a `note` or a specification variable',
    8: 'define one of the variables without the others, or make it ghost',
    12: 'move branches into methods that are called, or keep a long goal whole by `~ ~ (F)`',
}
RULES = {
    ('27', '.'): 'the field of an object is read by two dots in a formula: `x..f`',
    ('27', 'true'): 'in a formula the truths are `True` and `False`',
    ('27', 'false'): 'in a formula the truths are `True` and `False`',
    ('28', '+'): 'the union of sets is `Un`, what both have is `Int`',
}


def hint(source, refusal, rules):
    """What to write instead of what is refused. `rules` has what docs/LANGUAGE.md says of each rule."""
    if refusal.line is None or refusal.number == 1:
        return OTHERS[refusal.number]
    view = View(source, refusal.line, refusal.column)
    if refusal.number == 11:
        return rule_hint(view, refusal, rules)
    if refusal.number in (2, 6):
        for mistake in TABLE:
            if mistake.holds(view):
                return mistake.hint(view) if callable(mistake.hint) else mistake.hint
    return OTHERS[refusal.number]


def rule_hint(view, refusal, rules):
    """What to write where a rule is broken."""
    for (rule, sign), told in RULES.items():
        if str(refusal.rule) == rule and (sign == view.text() or sign in '.+' and sign in near(view)):
            return told
    asked, instead = rules.get(refusal.rule, ('docs/LANGUAGE.md says what it asks', None))
    return asked + (f' For example `{instead}`' if instead else '')


def near(view):
    """The text of the refused token, and the one behind it."""
    return view.text() + view.text(1)


def rules_of(page):
    """For each rule of types what it asks and a program that keeps it, from the table of docs/LANGUAGE.md."""
    rows = re.findall(r'^\| (\d+) \| (.*?) \| `.*?\| (.*) \|$', page, re.M)
    return {int(number): (asked.replace('\\|', '|'), instead.strip('`') if instead[0] == '`' else None)
            for number, asked, instead in rows}
