"""jahob-why FILE CLASS.METHOD [K]    says of line K of a method in the report why it is as it is

    --heap       looks for a heap of at most four objects from which a run of the method breaks its contract, and shows
                 the run step by step. That it finds none proves nothing.
    --version    which program is run

The status is 0 where all that was asked for is proved, 1 where something isn't, and else that of `jahob verify FILE`.
With --heap it is 1 where a heap was found, and else 0.
"""
import argparse
import sys

from . import program, report, words
from .findings import Findings, hint_text, title
from .heaps import Search
from .words import KINDS

# How many seconds the report may take before heaps are made without it.
LIMIT = 10
TESTED = 'That the asserts round the call say what the contract says is tested only.'


def words_of(arguments):
    parser = argparse.ArgumentParser(prog='jahob-why', usage='jahob-why FILE CLASS.METHOD [K] [--heap]',
                                     description=__doc__, formatter_class=argparse.RawDescriptionHelpFormatter,
                                     add_help=False)
    parser.add_argument('file', help=argparse.SUPPRESS)
    parser.add_argument('method', help=argparse.SUPPRESS)
    parser.add_argument('number', nargs='?', type=int, help=argparse.SUPPRESS)
    parser.add_argument('--heap', action='store_true', help=argparse.SUPPRESS)
    parser.add_argument('-h', '--help', action='help', help=argparse.SUPPRESS)
    parser.add_argument('--version', action='version', version=program.about(), help=argparse.SUPPRESS)
    return parser.parse_args(arguments)


def lines_of(finding, source):
    """What is known of a line of the report."""
    lines = [title(finding), f'  line {finding.line}, column {finding.column}: {KINDS[finding.kind]}']
    formula = source.formula(finding.span)
    lines += [f'  formula: {formula}'] if formula else []
    lines += [f'  {it}' for it in finding.causes]
    return lines + ([f'  hint: {hint_text(finding)}'] if finding.hint else [])


def equations(path, name, number):
    """The equations of the ground model of the line, or of the first line of the method that has one; none where the
    report takes long."""
    run = program.Run('verify', '--', path, limit=LIMIT)
    for it in report.sequents(run.out)[0] if run.status == 1 else []:
        if it.method == name and number in (None, it.number):
            for cause in it.causes:
                what, _, told = cause.partition(': ')
                if what == 'local open':
                    return words.distinct(told)
    return []


def held(lines):
    """What each static, parameter and field holds in the lines of a heap, and the class of each object."""
    values = {}
    for line in lines:
        what, *words = line.split(' ', 3 if line.startswith('field') else 2)
        if what == 'class':
            values.update({(place,): words[0] for place in line.split()[2:]})
        elif what == 'field':
            values[words[1], words[0].partition('.')[2]] = words[2]
        elif what in ('static', 'arg', 'result', 'this'):
            values[' '.join(words[:-1]) or what] = words[-1]
    return values


def picture(values):
    """A heap as a picture in text: what statics and parameters hold, and a line for each object."""
    lines = [f'{name} = {value}' for name, value in values.items() if isinstance(name, str) and not is_default(value)]
    for key, cls in values.items():
        if len(key) == 1 and not isinstance(key, str):
            fields = [f'{name[1]} = {value}' for name, value in values.items()
                      if not isinstance(name, str) and len(name) == 2 and name[0] == key[0] and not is_default(value)]
            lines.append(f'object {key[0]}: {cls}' + (f' with {", ".join(fields)}' if fields else ''))
    return lines


def is_default(value):
    return value in ('0', 'false', '{}')


def changes(before, after):
    """What changed from one heap to the next. What isn't told is 0, false or empty."""
    lines = []
    for key in [*after, *(it for it in before if it not in after)]:
        old, new = before.get(key), after.get(key)
        if old != new and not (is_default(old or '0') and is_default(new or '0')):
            name = key if isinstance(key, str) else ' '.join(('object', '.'.join(key)))
            lines.append(f'{name}: {old or "0"} -> {new or "0"}' if len(key) > 1 else f'{name}: a new {new}')
    return lines


def story(search, found):
    """The run from a heap, step by step: for each statement what it changed."""
    before = held(found.heap.splitlines())
    lines = ['at the start', *(f'    {it}' for it in picture(before))]
    started = {key: value for key, value in before.items() if not is_default(value)}
    before = {key: value for key, value in started.items() if '.' in key or not isinstance(key, str)}
    for statement, shown in search.steps(found.heap):
        if shown is None:
            break
        after = held(shown)
        result = after.pop('result', None)
        changed = changes(before, after) + ([f'result = {result}'] if result else [])
        lines += [statement or 'return'] if statement or changed else []
        lines += [f'    {it}' for it in changed]
        before = after
    return lines + [found.broken]


def seek_heap(asked):
    """Looks for a heap, and says what was found."""
    search = Search(asked.file, asked.method, equations(asked.file, asked.method, asked.number))
    if not search.method:
        print(f'jahob-why: {asked.file} has no method {asked.method}', file=sys.stderr)
        return 2
    found = search.found()
    if isinstance(found, str):
        print(f'jahob-why: the asserts cannot be written round this method: {found.strip()}', file=sys.stderr)
        return 0
    tried = f'{found.tried} heaps of at most four objects were tried, of which {found.passed} break what is required'
    if found.heap is None:
        print(f'No heap was found: {tried}. That proves nothing.')
        return 0
    print(f'A run of {asked.method} breaks its contract: {found.broken}', '', found.heap, *story(search, found),
          '', f'{tried}. {TESTED}', sep='\n')
    return 1


def explain(asked):
    """Says what is known of a line, or of all lines of a method that aren't proved."""
    findings = Findings(asked.file, patient=True)
    if findings.status not in (0, 1):
        sys.stderr.write(findings.error)
        return findings.status
    chosen = [it for it in findings.sequents if it.name == asked.method and asked.number in (None, it.number)]
    if not chosen:
        print(f'jahob-why: the report has no line {asked.method} {asked.number or ""}'.rstrip(), file=sys.stderr)
        return 2
    told = [it for it in chosen if it.verdict == 'unproved' or asked.number]
    for it in told:
        print('\n'.join(lines_of(it, findings.source)))
    if not told:
        print(f'{asked.method}: {len(chosen)} of {len(chosen)} proved')
    return 1 if any(it.verdict == 'unproved' for it in chosen) else 0


def main(arguments):
    asked = words_of(arguments)
    return seek_heap(asked) if asked.heap else explain(asked)
