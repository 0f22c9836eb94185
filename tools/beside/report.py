"""What the program prints: the lines of its report, and its refusals."""
import re
from collections import namedtuple

# `causes` are the two lines below an unproved one, without the spaces before them.
Sequent = namedtuple('Sequent', 'method number kind line column verdict causes')
Refusal = namedtuple('Refusal', 'text number rule line column name count')

LINE = re.compile(r'(\S+\.\S+) (\d+) (\w+) (\d+):(\d+) (trivial|bapa|local|unproved)')
REFUSED = re.compile(r'refused (\d+)(?: rule (\d+))?(?: at (\d+):(\d+)| (\S+)(?: (\d+))?)')


def sequents(text):
    """The sequents of a report, and its last line."""
    found, last = [], ''
    for line in text.splitlines():
        if line.startswith('  '):
            found[-1].causes.append(line.strip())
        elif parts := LINE.fullmatch(line):
            method, number, kind, row, column, verdict = parts.groups()
            found.append(Sequent(method, int(number), kind, int(row), int(column), verdict, []))
        else:
            last = line
    return found, last


def refusal(text):
    """The refusal that the first line of a text tells, or nothing."""
    line = next(iter(text.splitlines()), '')
    parts = REFUSED.fullmatch(line)
    if not parts:
        return None
    number, rule, row, column, name, count = parts.groups()
    return Refusal(line, int(number), rule and int(rule), row and int(row), column and int(column), name, count)
