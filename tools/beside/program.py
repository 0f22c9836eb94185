"""Finds the program `jahob`, and runs it."""
import functools
import importlib.machinery
import importlib.util
import os
import subprocess
import sys
import time

TOP = os.path.dirname(os.path.dirname(os.path.dirname(os.path.abspath(__file__))))
# Where `make install` puts the program; what it is stands beside it.
INSTALLED = f'{TOP}/jahob_main'
PATIENCE = 2
PROVED, UNPROVED = 'proved', 'a build without proofs'


def script():
    """The script `jahob` of the repository as a module."""
    loader = importlib.machinery.SourceFileLoader('jahob_script', f'{TOP}/jahob')
    module = importlib.util.module_from_spec(importlib.util.spec_from_loader('jahob_script', loader))
    loader.exec_module(module)
    return module


@functools.cache
def found():
    """The words that start the program, and what it is, in lines of which the first says whether it is proved."""
    if os.environ.get('JAHOB'):
        return [os.environ['JAHOB']], ['the program that the variable JAHOB names']
    if os.path.exists(INSTALLED):
        with open(f'{TOP}/about', encoding='utf-8') as file:
            return [INSTALLED], file.read().splitlines()
    kept = script()
    proved = kept.built('proved') if kept.has_proved() else None
    path = proved or kept.built('unproved') or f'{TOP}/jahob'
    return [path], [PROVED if proved else UNPROVED, commit()]


def commit():
    """The line of the commit that is checked out."""
    try:
        words = ['git', '-C', TOP, 'log', '-1', '--format=commit %h of %cs']
        run = subprocess.run(words, capture_output=True, text=True)
    except OSError:
        return 'no commit is known'
    return run.stdout.strip() or 'no commit is known'


def is_unproved():
    return found()[1][:1] == [UNPROVED]


def about():
    """What is run."""
    words, lines = found()
    return '\n'.join([f'runs {words[0]}', *lines])


class Run:
    """What came of the program: its status, and the texts on standard output and standard error. Where it takes longer
    than so many seconds it is ended, and has no status."""

    def __init__(self, *words, patient=False, limit=None):
        process = subprocess.Popen([*found()[0], *words], stdin=subprocess.DEVNULL, stdout=subprocess.PIPE,
                                   stderr=subprocess.PIPE)
        try:
            out, err = waited_for(process) if patient else process.communicate(timeout=limit)
            self.status = process.returncode
        except subprocess.TimeoutExpired:
            process.kill()
            out, err = process.communicate()
            self.status = None
        self.out, self.err = told(out), told(err)


def told(data):
    return data.decode('utf-8', 'replace')


def waited_for(process):
    """What a program prints. Where it takes longer than some seconds it is said on a terminal, with the seconds."""
    start = time.time()
    while True:
        try:
            wait = PATIENCE if time.time() - start < PATIENCE else 1
            texts = process.communicate(timeout=wait)
            break
        except subprocess.TimeoutExpired:
            tell(f'jahob is working, {time.time() - start:.0f} s')
    if time.time() - start >= PATIENCE:
        tell('')
    return texts


def tell(text):
    """Says on a terminal what is being done, in the place of what was said before."""
    if sys.stderr.isatty():
        print(f'\r\033[K{text}', end='', file=sys.stderr, flush=True)
