"""What the program found in a source, with what it means: all that is shown."""
import os
from collections import Counter, namedtuple

from . import hints, mistakes, program, report, words
from .source import Source

# `span` is a range of offsets; `hint` is an entry of the cookbook, or nothing, and what to do.
Finding = namedtuple('Finding', 'name number kind span line column verdict causes hint')


class Findings:
    """The findings on a file, each with its place, and how the program ended."""

    def __init__(self, path, options=(), shown=None, patient=False):
        self.shown = shown or path
        run = program.Run('verify', *options, '--', path, patient=patient)
        self.status, self.error, self.last = run.status, run.err, ''
        self.sequents, self.refused, self.source = [], None, Source(b'')
        if run.status in (0, 1, 3):
            with open(path, 'rb') as file:
                self.source = Source(file.read())
        if run.status in (0, 1):
            found, self.last = report.sequents(run.out)
            counts = Counter((it.method, it.line, it.column) for it in found)
            self.sequents = [self.finding(it, counts[it.method, it.line, it.column]) for it in found]
        elif run.status == 3:
            self.refused = self.refusal(report.refusal(last_line(run.err)))

    def finding(self, sequent, alike):
        """A sequent with what it means."""
        span = self.source.range_of(sequent.kind, sequent.line, sequent.column)
        causes = [words.cause(it) for it in sequent.causes]
        hint = hints.hint(self.source.formula(span), sequent, alike) if sequent.verdict == 'unproved' else None
        return Finding(sequent.method, sequent.number, sequent.kind, span, sequent.line, sequent.column,
                       sequent.verdict, causes, hint)

    def refusal(self, refusal):
        """A refusal with what it means. One that tells a name alone is shown where that stands."""
        line, column = refusal.line, refusal.column
        if line is None:
            line, column = self.place_of(refusal.name)
        span = self.source.range_of('', line, column)
        hint = mistakes.hint(self.source, refusal, rules())
        return Finding(refusal.name or '', refusal.number, 'refused', span, line, column, 'refused',
                       [refusal.text, words.refused(refusal)], (None, hint))

    def place_of(self, name):
        """The place of a method or of the definition of a variable."""
        number = self.source.method_of(name)
        if number is None:
            texts = [it.text for it in self.source.tokens]
            places = [at for at, text in enumerate(texts) if text == name and texts[at - 2:at] == ['vardefs', '"']]
            number = places[0] if places else 0
        return self.source.place(self.source.tokens[number].start)

    def all(self):
        return [self.refused] if self.refused else self.sequents

    def open(self):
        """What is refused or not proved."""
        return [it for it in self.all() if it.verdict in ('unproved', 'refused')]

    def methods(self):
        """For each method of the report its findings."""
        found = {}
        for it in self.sequents:
            found.setdefault(it.name, []).append(it)
        return found


def last_line(text):
    """The last line of a text that says a refusal. What the script `jahob` says stands before it."""
    return next((it for it in reversed(text.splitlines()) if it.startswith('refused ')), '')


def rules():
    """What docs/LANGUAGE.md says of the rules of types."""
    for path in (f'{program.TOP}/docs/LANGUAGE.md', f'{program.TOP}/../../share/doc/jahob/LANGUAGE.md'):
        if os.path.exists(path):
            with open(path, encoding='utf-8') as file:
                return mistakes.rules_of(file.read())
    return {}


def title(finding):
    """What a finding speaks of, in a few words."""
    if finding.verdict == 'refused':
        return finding.causes[1]
    return f'{finding.name} {finding.number} {finding.kind}: {words.VERDICTS[finding.verdict]}'


def hint_text(finding):
    """The hint of a finding, with the entry of the cookbook that shows it."""
    entry, told = finding.hint
    return f'{told} (docs/COOKBOOK.md, "{entry}")' if entry else told


def summary(findings):
    """How many are proved, and how."""
    counts = Counter(it.verdict for it in findings.sequents)
    ways = [f'{counts[it]} {words.VERDICTS[it].split(" ", 1)[1]}' for it in ('trivial', 'bapa', 'local') if counts[it]]
    proved = len(findings.sequents) - counts['unproved']
    told = f'{proved} of {len(findings.sequents)} proved'
    return told + (f' ({", ".join(ways)})' if ways else '')
