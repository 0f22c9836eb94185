#!/usr/bin/env python3
"""Looks whether each program and each report that README.md or a page of docs/ shows is one of a case of `jahob_cases`,
and each program of `examples/` the file of one. A page may show some lines of a program or a report; `..` stands for
what is left out, at the end of a line or as a line. Shown are fenced blocks of java, and indented ones with a line of a
report or one that begins a class; what `jahob-show` prints is tried by its own tests. Prints what has no case, and ends
with 1 where something has none.
"""
import glob
import os
import re
import sys

TOP = os.path.dirname(os.path.dirname(os.path.abspath(__file__)))
CASES = f'{TOP}/crates/jahob_cases/data/*.cases'
PAGES = ['README.md', *sorted(os.path.relpath(path, TOP) for path in glob.glob(f'{TOP}/docs/*.md'))]
CLASS = re.compile(r'class \w+ \{')
REPORT = re.compile(r'\S+\.\S+ \d+ [a-z]+ \d+:\d+ (trivial|bapa|local|unproved)$|(accepted|rejected): methods [0-9]')


def text_of(path):
    with open(path, encoding='utf-8') as file:
        return file.read()


def cases():
    """The files and the outputs of all cases, each as a text."""
    for path in glob.glob(CASES):
        for case in re.split(r'^== .*\n', text_of(path), flags=re.MULTILINE)[1:]:
            for part in re.split(r'^-- (?=file|out|err)', case, flags=re.MULTILINE)[1:]:
                yield re.split(r'^-- ', part.partition('\n')[2], flags=re.MULTILINE)[0]


def blocks(page):
    """The programs and reports of a page, each as its lines without the blanks round them."""
    fenced = re.findall(r'^```java\n(.*?)^```$', page, flags=re.MULTILINE | re.DOTALL)
    indented = re.findall(r'(?:^ {4}.*\n)+', re.sub(r'^```.*?^```$', '', page, flags=re.MULTILINE | re.DOTALL),
                          flags=re.MULTILINE)
    for block in fenced + indented:
        lines = [line.strip() for line in block.splitlines()]
        if lines[0].startswith('--> '):
            continue
        if block in fenced or any(REPORT.match(line) or CLASS.match(line) for line in lines):
            yield lines


def pieces(lines):
    """The lines of a block between those that stand for what is left out."""
    piece = []
    for line in [*lines, '..']:
        if line == '..':
            if piece:
                yield piece
            piece = []
        else:
            piece.append(line)


def stands(piece, lines, start):
    """Whether a piece stands in a text from a line on. A line that ends in `..` is the front of one."""
    there = lines[start:start + len(piece)]
    return len(there) == len(piece) and all(
        line.startswith(shown[:-2].rstrip()) if shown.endswith(' ..') else line == shown
        for shown, line in zip(piece, there))


def is_shown(lines, texts):
    """Whether all pieces of a block stand in one of the texts, one behind the other."""
    for text in texts:
        start, found = 0, True
        for piece in pieces(lines):
            places = (at for at in range(start, len(text)) if stands(piece, text, at))
            start = next(places, None)
            if start is None:
                found = False
                break
        if found:
            return True
    return False


def main():
    whole = list(cases())
    texts = [[line.strip() for line in text.splitlines()] for text in whole]
    missing, count = [], 0
    for path in sorted(glob.glob(f'{TOP}/examples/**/*.j', recursive=True)):
        count += 1
        if text_of(path) not in whole:
            missing.append(path[len(TOP) + 1:])
    for name in PAGES:
        for lines in blocks(text_of(f'{TOP}/{name}')):
            count += 1
            if not is_shown(lines, texts):
                missing.append(f'{name}: {lines[0]}')
    for it in missing:
        print(f'{it} has no case')
    print(f'{count} programs and reports, {len(missing)} without a case')
    return 1 if missing or not count else 0


if __name__ == '__main__':
    sys.exit(main())
