#!/usr/bin/env python3
"""The one front of the tools beside `jahob`: does what the name asks for by which it is called, or its first word.

    jahob-show FILE                  a source with the verdicts under its lines
    jahob-why FILE CLASS.METHOD K    why a line of the report is as it is
    jahob-lsp                        a language server over its standard input and output
"""
import importlib
import os
import sys

sys.dont_write_bytecode = True
sys.path.insert(0, os.path.dirname(os.path.dirname(os.path.realpath(__file__))))
COMMANDS = {'show': 'show', 'why': 'why', 'lsp': 'lsp'}


def main(words):
    name, *rest = words
    command = os.path.basename(name).removeprefix('jahob-')
    if command not in COMMANDS and rest:
        command, *rest = rest
    if command not in COMMANDS:
        print(__doc__, file=sys.stderr)
        return 2
    try:
        return importlib.import_module(f'beside.{COMMANDS[command]}').main(rest)
    except BrokenPipeError:
        os.dup2(os.open(os.devnull, os.O_WRONLY), sys.stdout.fileno())
        return 5
    except KeyboardInterrupt:
        return 130


if __name__ == '__main__':
    sys.exit(main(sys.argv))
