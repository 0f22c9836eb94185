"""Tests of the tools beside the program."""
import os
import subprocess
import sys
import tempfile
import unittest

TOP = os.path.dirname(os.path.dirname(os.path.dirname(os.path.dirname(os.path.abspath(__file__)))))
CASES = f'{TOP}/cases/show'


def read(path):
    with open(path, encoding='utf-8') as file:
        return file.read()


def call(command, *words, input=None, folder=TOP, **variables):
    """A call of a tool: its status, and the texts on standard output and standard error."""
    run = subprocess.run([sys.executable, f'{TOP}/tools/beside/front.py', command, *words], input=input, cwd=folder,
                         capture_output=True, text=True, env={**os.environ, **variables})
    return run.returncode, run.stdout, run.stderr


class Case(unittest.TestCase):
    """A test with a folder of its own."""
    maxDiff = None

    def setUp(self):
        place = tempfile.TemporaryDirectory(prefix='beside-')
        self.addCleanup(place.cleanup)
        self.folder = os.path.realpath(place.name)

    def put(self, name, text):
        """Writes a file of the folder, and answers its path."""
        path = f'{self.folder}/{name}'
        data = text if isinstance(text, bytes) else text.encode()
        with open(path, 'wb') as file:
            file.write(data)
        return path
