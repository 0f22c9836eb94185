"""jahob-show FILE    shows a source with the verdicts of the program under its lines

    --short         a line for each that isn't proved, as compilers print them
    --json          a line of JSON for each proof obligation
    --html          one page of HTML that needs nothing else
    --color WHEN    always, never, or auto: where the output is a terminal
    --rounds r, --leaves k, --workers n    as `jahob verify` takes them
    --version       which program is run

The status is that of `jahob verify FILE`.
"""
import argparse
import os
import sys

from . import program
from .findings import Findings
from .page import html
from .text import as_json, page, short


def words_of(arguments):
    """What the words ask for."""
    parser = argparse.ArgumentParser(prog='jahob-show', usage='jahob-show FILE [--short | --json | --html]',
                                     description=__doc__, formatter_class=argparse.RawDescriptionHelpFormatter,
                                     add_help=False)
    parser.add_argument('file', metavar='FILE', help=argparse.SUPPRESS)
    forms = parser.add_mutually_exclusive_group()
    for form in ('short', 'json', 'html'):
        forms.add_argument(f'--{form}', dest='form', action='store_const', const=form, help=argparse.SUPPRESS)
    parser.add_argument('--color', choices=['always', 'never', 'auto'], default='auto', help=argparse.SUPPRESS)
    for option in ('rounds', 'leaves', 'workers'):
        parser.add_argument(f'--{option}', help=argparse.SUPPRESS)
    parser.add_argument('-h', '--help', action='help', help=argparse.SUPPRESS)
    parser.add_argument('--version', action='version', version=program.about(), help=argparse.SUPPRESS)
    return parser.parse_args(arguments)


def has_colours(when):
    """Whether colours are wanted."""
    if when == 'auto':
        return sys.stdout.isatty() and not os.environ.get('NO_COLOR') and os.environ.get('TERM') != 'dumb'
    return when == 'always'


def shown(asked):
    """The findings on a file, by the options of `verify`."""
    options = [f'--{it}={value}' for it in ('rounds', 'leaves', 'workers') if (value := getattr(asked, it)) is not None]
    return Findings(asked.file, options, patient=True)


def main(arguments):
    asked = words_of(arguments)
    findings = shown(asked)
    if findings.status not in (0, 1, 3):
        sys.stderr.write(findings.error)
        return findings.status
    if program.is_unproved():
        print('jahob-show: the program that says this is not proved itself', file=sys.stderr)
    forms = {'short': short, 'json': as_json, 'html': html}
    form = forms.get(asked.form) or (lambda it: page(it, has_colours(asked.color)))
    sys.stdout.reconfigure(encoding='utf-8', errors='replace')
    sys.stdout.write(form(findings))
    return findings.status
