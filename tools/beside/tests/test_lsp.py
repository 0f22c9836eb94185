"""The language server, by messages and by a real client."""
import json
import os
import shutil
import subprocess
import sys

from beside.lsp import uri_of

from . import CASES, TOP, Case, read

FRONT = f'{TOP}/tools/beside/front.py'


class Client:
    """A client that writes messages to the server and reads its answers."""

    def __init__(self):
        self.server = subprocess.Popen([sys.executable, FRONT, 'lsp'], stdin=subprocess.PIPE, stdout=subprocess.PIPE)

    def send(self, **message):
        data = json.dumps({'jsonrpc': '2.0', **message}).encode()
        self.server.stdin.write(b'Content-Length: %d\r\n\r\n' % len(data) + data)
        self.server.stdin.flush()

    def read(self):
        length = 0
        while (line := self.server.stdout.readline()).strip():
            length = int(line.split(b':')[1])
        return json.loads(self.server.stdout.read(length))

    def ask(self, method, **params):
        """The answer to a request."""
        self.send(id=1, method=method, params=params)
        return self.until(lambda it: it.get('id') == 1 and 'method' not in it)

    def until(self, holds):
        while True:
            message = self.read()
            if holds(message):
                return message

    def diagnostics(self):
        """The next diagnostics."""
        return self.until(lambda it: it.get('method') == 'textDocument/publishDiagnostics')['params']['diagnostics']

    def note(self, method, path):
        self.send(method=f'textDocument/{method}', params={'textDocument': {'uri': uri_of(path)}})

    def end(self):
        self.ask('shutdown')
        self.send(method='exit')
        self.server.stdin.close()
        self.server.stdout.close()
        return self.server.wait(20)


class Messages(Case):
    def setUp(self):
        super().setUp()
        self.client = Client()
        self.client.ask('initialize', capabilities={})

    def tearDown(self):
        self.assertEqual(self.client.end(), 0)

    def test_columns_are_units_of_utf_16(self):
        path = self.put('a b.j', 'class A { static int n; /* 😀é */ static void m() /*: ensures "n = 0" */ { } }\n')
        self.client.note('didOpen', path)
        self.assertEqual(self.client.diagnostics()[0]['range'],
                         {'start': {'line': 0, 'character': 62}, 'end': {'line': 0, 'character': 69}})

    def test_closing_takes_the_diagnostics_away(self):
        path = self.put('a.j', read(f'{CASES}/stores.j'))
        self.client.note('didOpen', path)
        self.assertEqual(len(self.client.diagnostics()), 1)
        self.client.note('didClose', path)
        self.assertEqual(self.client.diagnostics(), [])

    def test_a_file_that_is_not_there_is_told(self):
        self.client.note('didOpen', f'{self.folder}/none.j')
        told = self.client.until(lambda it: it.get('method') == 'window/showMessage')
        self.assertIn('file failed', told['params']['message'])

    def test_what_is_not_known_is_answered(self):
        self.assertEqual(self.client.ask('textDocument/rename')['error']['code'], -32601)
        self.assertEqual(self.client.ask('textDocument/hover')['error']['code'], -32602)


class Neovim(Case):
    def test_neovim_shows_it(self):
        if not shutil.which('nvim'):
            self.skipTest('Neovim is missing')
        path, result = self.put('stores.j', read(f'{CASES}/stores.j')), f'{self.folder}/result'
        shown = {'SHOWN': path, 'SERVER': FRONT, 'RESULT': result, 'PYTHON': sys.executable, 'HOME': self.folder}
        subprocess.run(['nvim', '--headless', '--clean', '-S', f'{CASES}/client.lua'], timeout=300, check=True,
                       capture_output=True, env={**os.environ, **shown})
        known = json.loads(read(result))
        self.assertEqual([it[:5] for it in known['opened']], [[4, 33, 4, 45, 2]])
        self.assertTrue(known['opened'][0][5].startswith('T.m 3 assert: not proved\n'))
        self.assertEqual([it['command']['title'] for it in known['lenses']], ['3 of 4 proved'])
        self.assertEqual(known['lenses'][0]['range']['start'], {'line': 2, 'character': 14})
        self.assertIn('where b is a', known['hover']['contents']['value'])
        self.assertEqual(known['mended'], [])
        self.assertEqual([it['command']['title'] for it in known['proved']], ['4 of 4 proved'])
        self.assertEqual([it[4] for it in known['refused']], [1])
        self.assertIn('`requires`, then `modifies`, then `ensures`', known['refused'][0][5])
