"""The classes of a source that the program doesn't refuse: members, contracts, invariants."""
import re
from collections import namedtuple

# `kind` is obj, int, bool or set; `type` the class of an object; `of` the class that declares it.
Variable = namedtuple('Variable', 'of name kind type fixed ghost body')
Method = namedtuple('Method', 'of name fixed public result params requires modifies ensures body')
Invariant = namedtuple('Invariant', 'of body')
MODIFIERS = 'public', 'private', 'protected', 'static', 'final', 'ghost'


class Model:
    """What a source declares. `ends` has for each class the offset of its closing bracket."""

    def __init__(self, source):
        self.source, self.tokens = source, source.tokens
        self.variables, self.methods, self.invariants, self.ends = [], [], [], {}
        number = 0
        while number < len(self.tokens):
            if self.tokens[number].mode == 'code' and self.tokens[number].text == 'class':
                number = self.read_class(number + 1)
            number += 1

    def text(self, number):
        return self.tokens[number].text

    def closing(self, number):
        """The number of the bracket that closes one."""
        depth = 0
        for at in range(number, len(self.tokens)):
            if self.tokens[at].mode == 'code':
                depth += (self.text(at) in '({') - (self.text(at) in ')}')
            if depth == 0:
                return at
        return len(self.tokens) - 1

    def read_class(self, number):
        """Reads a class from its name on, and answers the number of its last token."""
        name, number = self.text(number), number + 2
        while self.text(number) != '}' or self.tokens[number].mode != 'code':
            is_code = self.tokens[number].mode == 'code'
            number = self.read_member(name, number) if is_code else self.read_spec(name, number)
        self.ends[name] = self.tokens[number].start
        return number

    def read_spec(self, cls, number):
        """Reads an item of a specification."""
        words = []
        while self.text(number) not in ('specvar', 'vardefs', 'invariant') and self.text(number) in MODIFIERS:
            words.append(self.text(number))
            number += 1
        item = self.text(number)
        if item == 'specvar':
            return self.read_variable(cls, number, words)
        while self.text(number) != '"':
            number += 1
        body, number = self.formula(number)
        if item == 'vardefs':
            name, _, body = body.partition('==')
            self.define(cls, name.strip(), body.strip())
        else:
            self.invariants.append(Invariant(cls, body))
        return number + 1

    def read_variable(self, cls, number, words):
        name, number = self.text(number + 1), number + 3
        kind = self.text(number) if self.text(number) != '"' else 'objset'
        while self.text(number) != ';' or self.tokens[number].mode != 'spec':
            number += 1
        kind = {'objset': 'set', 'obj': 'obj'}.get(kind, kind)
        self.variables.append(Variable(cls, name, kind, None, 'static' in words, 'ghost' in words, None))
        return number + 1

    def define(self, cls, name, body):
        self.variables = [it._replace(body=body) if (it.of, it.name) == (cls, name) else it for it in self.variables]

    def formula(self, number):
        """What stands between the quotes of which the first is a token, and the number of the token behind them."""
        end = number + 1
        while self.text(end) != '"':
            end += 1
        inside = self.source.text[self.tokens[number].end:self.tokens[end].start]
        return ' '.join(inside.split()), end + 1

    def read_member(self, cls, number):
        words = []
        while self.text(number) in MODIFIERS:
            words.append(self.text(number))
            number += 1
        kind, number = self.text(number), number + 1
        if self.text(number + 1) == '(':
            return self.read_method(cls, kind, words, number)
        while self.text(number) != ';':
            if self.text(number - 1) in (kind, ','):
                self.variables.append(variable(cls, kind, self.text(number), 'static' in words))
            number += 1
        return number + 1

    def read_method(self, cls, result, words, number):
        name, end = self.text(number), self.closing(number + 1)
        texts = [it.text for it in self.tokens[number + 2:end]]
        params = list(zip(texts[::3], texts[1::3]))
        contract, start = self.read_contract(end + 1)
        last = self.closing(start)
        is_static, is_public = 'static' in words, 'public' in words
        self.methods.append(Method(cls, name, is_static, is_public, result, params, *contract, (start, last)))
        return last + 1

    def read_contract(self, number):
        """The formulas and names of a contract, and the number of the bracket behind it."""
        found, what = {'requires': None, 'modifies': [], 'ensures': None}, None
        while self.tokens[number].mode != 'code':
            if self.text(number) in found:
                what = self.text(number)
            elif self.text(number) == '"':
                inside, number = self.formula(number)
                found[what] = [*found[what], inside] if what == 'modifies' else inside
                continue
            elif self.text(number) != ',':
                found[what].append(self.text(number))
            number += 1
        return (found['requires'], found['modifies'], found['ensures']), number

    def method(self, name):
        return next((it for it in self.methods if f'{it.of}.{it.name}' == name), None)

    def named(self, cls, word):
        """The variable that a word names in a class."""
        of, _, own = word.rpartition('.')
        found = [it for it in self.variables if it.name == own and it.of == (of or cls)]
        found = found or [it for it in self.variables if it.name == own and not of]
        return found[0] if found else None

    def state(self):
        """The variables that hold something."""
        return [it for it in self.variables if it.body is None]

    def may_change(self, method):
        """The variables that the contract of a method names, those that a definition reads among them."""
        found, waiting = set(), [(method.of, it) for it in method.modifies]
        while waiting:
            cls, word = waiting.pop()
            it = self.named(cls, word)
            if it and it not in found:
                found.add(it)
                waiting += [(it.of, word) for word in re.findall(r'[^\W\d]\w*(?:\.[^\W\d]\w*)?', it.body or '')]
        return found


def variable(cls, kind, name, fixed):
    """A field or static of a type of code."""
    sort = {'int': 'int', 'boolean': 'bool'}.get(kind, 'obj')
    return Variable(cls, name, sort, kind if sort == 'obj' else None, fixed, False, None)
