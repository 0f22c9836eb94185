"""A source: its lines, its tokens, and what stands at a place."""
import bisect
import re
from collections import namedtuple

# `mode` is code, spec or formula; `start` and `end` are offsets in the text.
Token = namedtuple('Token', 'mode text start end')
Range = namedtuple('Range', 'start end')

WORD = r'[^\W\d]\w*'
FORMS = {
    'code': re.compile(rf'{WORD}|\d+|&&|\|\||[=!<>]=|[{{}}();,.=<>+\-*!]'),
    'spec': re.compile(rf'{WORD}(?:\.{WORD})?|\d+|::|:=|[;,:=]'),
    'formula': re.compile(rf'{WORD}(?:\.{WORD})?|\d+|-->|\.\.|::|~[:=]|==|<=|>=|[.,:=<>&|~+\-*%(){{}}\[\]]'),
}


class Source:
    """The text of a source. Places are lines and columns from 1, and a column counts bytes."""

    def __init__(self, data):
        self.text = data.decode('utf-8', 'surrogateescape')
        self.starts = [0] + [it.end() for it in re.finditer('\n', self.text)]
        self.lines = self.text.split('\n')
        self.tokens = list(tokens(self.text))

    def offset(self, line, column):
        """The offset of a place in the text."""
        if line > len(self.lines):
            return len(self.text)
        inside = self.lines[line - 1].encode('utf-8', 'surrogateescape')[:column - 1]
        return self.starts[line - 1] + len(inside.decode('utf-8', 'surrogateescape'))

    def place(self, offset):
        """The line and the column of an offset."""
        line = bisect.bisect_right(self.starts, offset)
        before = self.text[self.starts[line - 1]:offset]
        return line, len(before.encode('utf-8', 'surrogateescape')) + 1

    def at(self, offset):
        """The number of the token that begins at an offset, or of the first behind it."""
        return bisect.bisect_left([it.start for it in self.tokens], offset)

    def range_of(self, kind, line, column):
        """What the place of a report or a refusal speaks of."""
        start = self.offset(line, column)
        number = self.at(start)
        if number == len(self.tokens) or self.tokens[number].start != start:
            return Range(start, min(start + 1, len(self.text)))
        if self.tokens[number].text == '"':
            return Range(start, self.closing(number))
        if kind == 'pre':
            return Range(start, self.call_end(number))
        return Range(start, self.tokens[number].end)

    def closing(self, number):
        """Where the formula ends whose opening quote is a token."""
        for token in self.tokens[number + 1:]:
            if token.text == '"':
                return token.end
        return self.tokens[number].end

    def call_end(self, number):
        """Where a call ends that begins with a token, or the statement that it stands in."""
        depth = 0
        for token in self.tokens[number:]:
            depth += (token.text == '(') - (token.text == ')')
            if token.text == ')' and depth == 0:
                return token.end
            if token.text in (';', '{', '}'):
                break
        return self.tokens[number].end

    def formula(self, span):
        """What stands between the quotes of a range, on one line, or nothing."""
        inside = self.text[span.start:span.end]
        return ' '.join(inside[1:-1].split()) if inside.startswith('"') else ''

    def method_of(self, name):
        """The number of the token that declares the method CLASS.METHOD."""
        cls, _, own = name.partition('.')
        inside = None
        for number, token in enumerate(self.tokens[:-1]):
            before, after = self.tokens[number - 1].text, self.tokens[number + 1].text
            if token.mode == 'code' and before == 'class':
                inside = token.text
            is_declared = after == '(' and re.fullmatch(WORD, before) and before not in ('new', 'return', 'else')
            if token.mode == 'code' and inside == cls and token.text == own and is_declared:
                return number
        return None


def tokens(text):
    """The tokens of a source in their modes, quotes among them. What begins no token is one by itself."""
    place = 0
    while place < len(text):
        if text.startswith(('/*:', '//:'), place):
            end = spec_end(text, place)
            yield from spec_tokens(text, place + 3, end)
            place = end
        elif text.startswith('/*', place):
            end = text.find('*/', place + 2)
            place = len(text) if end < 0 else end + 2
        elif text.startswith('//', place):
            end = text.find('\n', place)
            place = len(text) if end < 0 else end
        else:
            token = token_at('code', text, place)
            place = token.end
            if not token.text.isspace():
                yield token


def spec_end(text, place):
    """Where the specification ends that begins at a place."""
    end = text.find('*/' if text[place + 1] == '*' else '\n', place + 3)
    return len(text) if end < 0 else end + (2 if text[place + 1] == '*' else 0)


def spec_tokens(text, place, end):
    """The tokens of a specification."""
    end -= 2 if text[end - 2:end] == '*/' else 0
    mode = 'spec'
    while place < end:
        if text[place] == '"':
            yield Token(mode, '"', place, place + 1)
            mode = 'formula' if mode == 'spec' else 'spec'
            place += 1
        else:
            token = token_at(mode, text, place)
            place = token.end
            if not token.text.isspace():
                yield token


def token_at(mode, text, place):
    """The token at a place, or the character there."""
    found = FORMS[mode].match(text, place)
    end = found.end() if found else place + 1
    return Token(mode, text[place:end], place, end)
