"""jahob-lsp    a language server over its standard input and output

It says what `jahob verify` says of a file when that is opened and when it is saved: what is refused or isn't proved as
diagnostics, all verdicts at the cursor as a hover, and for each method how much of it is proved as a code lens.
"""
import json
import os
import sys
import threading
from urllib.parse import unquote, urlparse
from urllib.request import pathname2url

from . import program
from .findings import Findings, hint_text, title

ERROR, WARNING = 1, 2
CAPABILITIES = {
    'textDocumentSync': {'openClose': True, 'change': 0, 'save': {'includeText': False}},
    'hoverProvider': True,
    'codeLensProvider': {'resolveProvider': False},
}


class Wire:
    """Messages to and from the client."""

    def __init__(self, reader, writer):
        self.reader, self.writer, self.lock = reader, writer, threading.Lock()

    def read(self):
        """The next message, or nothing at the end."""
        length = None
        while (line := self.reader.readline()) not in (b'\r\n', b'\n', b''):
            name, _, value = line.partition(b':')
            if name.lower() == b'content-length':
                length = int(value)
        return json.loads(self.reader.read(length)) if length is not None else None

    def write(self, **message):
        data = json.dumps({'jsonrpc': '2.0', **message}).encode()
        with self.lock:
            self.writer.write(b'Content-Length: %d\r\n\r\n%s' % (len(data), data))
            self.writer.flush()


class Server:
    """What is known of the files that are open. Findings are sought in threads, so that the server always answers."""

    def __init__(self, wire):
        self.wire = wire
        self.found, self.asked = {}, {}
        self.lock = threading.Lock()
        self.is_shut = False

    def serve(self):
        """Answers messages until the client is done. Answers the status that is due."""
        while (message := self.wire.read()) is not None:
            method, number = message.get('method'), message.get('id')
            if method == 'exit':
                break
            if method and number is not None:
                self.answer(number, method, message.get('params') or {})
            elif method:
                self.note(method, message.get('params') or {})
        return 0 if self.is_shut else 1

    def answer(self, number, method, params):
        """Answers a request."""
        answers = {
            'initialize': lambda _: {'capabilities': CAPABILITIES, 'serverInfo': {'name': 'jahob-lsp'}},
            'shutdown': self.shutdown,
            'textDocument/hover': self.hover,
            'textDocument/codeLens': self.lenses,
        }
        if method not in answers:
            self.wire.write(id=number, error={'code': -32601, 'message': f'{method} is not known'})
            return
        try:
            self.wire.write(id=number, result=answers[method](params))
        except (KeyError, TypeError, AttributeError) as fault:
            self.wire.write(id=number, error={'code': -32602, 'message': f'{method}: {fault!r}'})

    def note(self, method, params):
        """Takes a note of the client."""
        uri = params.get('textDocument', {}).get('uri')
        if method in ('textDocument/didOpen', 'textDocument/didSave'):
            self.ask(uri)
        elif method == 'textDocument/didClose':
            with self.lock:
                self.asked[uri] = self.asked.get(uri, 0) + 1
                self.found.pop(uri, None)
            self.publish(uri, [])

    def shutdown(self, _):
        self.is_shut = True

    def ask(self, uri):
        """Begins to seek the findings on a file."""
        with self.lock:
            turn = self.asked[uri] = self.asked.get(uri, 0) + 1
        threading.Thread(target=self.seek, args=(uri, turn), daemon=True).start()

    def seek(self, uri, turn):
        """Seeks the findings on a file, and publishes them where nothing newer was asked for."""
        path = path_of(uri)
        try:
            found = Findings(path) if path else None
        except (OSError, ValueError) as fault:
            self.say(f'{path}: {fault}')
            return
        with self.lock:
            if found is None or self.asked[uri] != turn:
                return
            self.found[uri] = found
        if found.status in (0, 1, 3):
            self.publish(uri, [diagnostic(found, it) for it in found.open()])
            self.wire.write(id=f'lenses-{uri}-{turn}', method='workspace/codeLens/refresh')
        else:
            self.publish(uri, [])
            self.say(f'{path}: status {found.status}: {found.error.strip()}')

    def publish(self, uri, diagnostics):
        params = {'uri': uri, 'diagnostics': diagnostics}
        self.wire.write(method='textDocument/publishDiagnostics', params=params)

    def say(self, text):
        self.wire.write(method='window/showMessage', params={'type': ERROR, 'message': f'jahob-lsp: {text}'})

    def hover(self, params):
        """The verdicts at a place."""
        found = self.found.get(params['textDocument']['uri'])
        if not found:
            return None
        place = offset(found.source, params['position'])
        here = [it for it in found.all() if it.span.start <= place < it.span.end]
        if not here:
            return None
        return {'contents': {'kind': 'plaintext', 'value': '\n'.join(told(it) for it in here)},
                'range': range_of(found.source, here[0].span)}

    def lenses(self, params):
        """For each method how much of it is proved."""
        found = self.found.get(params['textDocument']['uri'])
        if not found:
            return []
        lenses = []
        for name, sequents in found.methods().items():
            number = found.source.method_of(name)
            if number is not None:
                proved = sum(it.verdict != 'unproved' for it in sequents)
                command = {'title': f'{proved} of {len(sequents)} proved', 'command': ''}
                lenses.append({'range': range_of(found.source, found.source.tokens[number][2:]), 'command': command})
        return lenses


def path_of(uri):
    """The path of a file that is named by its URI, or nothing."""
    parts = urlparse(uri)
    return unquote(parts.path) if parts.scheme == 'file' else None


def uri_of(path):
    return 'file://' + pathname2url(os.path.abspath(path))


def position(source, place):
    """A position of the protocol: line and column from 0, in units of UTF-16."""
    line, _ = source.place(place)
    before = source.text[source.starts[line - 1]:place]
    return {'line': line - 1, 'character': len(before.encode('utf-16-le', 'surrogatepass')) // 2}


def offset(source, position):
    """The offset of a position of the protocol."""
    if position['line'] >= len(source.lines):
        return len(source.text)
    line = source.lines[position['line']].encode('utf-16-le', 'surrogatepass')[:2 * position['character']]
    return source.starts[position['line']] + len(line.decode('utf-16-le', 'surrogatepass'))


def range_of(source, span):
    return {'start': position(source, span[0]), 'end': position(source, span[1])}


def told(finding):
    """A finding in a few lines."""
    lines = [title(finding), *finding.causes] + ([f'hint: {hint_text(finding)}'] if finding.hint else [])
    return '\n  '.join(lines)


def diagnostic(found, it):
    """A finding as a diagnostic."""
    severity = ERROR if it.verdict == 'refused' else WARNING
    return {'range': range_of(found.source, it.span), 'severity': severity, 'source': 'jahob', 'message': told(it)}


def main(arguments):
    if arguments:
        print(program.about() if arguments == ['--version'] else __doc__)
        return 0 if arguments in (['--version'], ['--help']) else 2
    return Server(Wire(sys.stdin.buffer, sys.stdout.buffer)).serve()
