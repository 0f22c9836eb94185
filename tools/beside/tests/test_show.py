"""What `jahob-show` prints, and its status."""
import json
import os
import re
import shutil
import subprocess
import sys
import unittest
from html.parser import HTMLParser

from .. import hints
from . import CASES, TOP, Case, call, read

STATUSES = {'stores': 1, 'fresh': 1, 'chain': 1, 'refused': 3}
SLOW = '#!/bin/sh\nsleep 3\necho "accepted: methods 0, sequents 0"\n'


class Show(Case):
    def test_texts(self):
        for name, status in STATUSES.items():
            with self.subTest(name):
                got = call('show', f'cases/show/{name}.j')
                self.assertEqual(got[:2], (status, read(f'{CASES}/{name}.txt')))

    def test_short_lines(self):
        for name, status in STATUSES.items():
            with self.subTest(name):
                got = call('show', '--short', f'cases/show/{name}.j')
                self.assertEqual(got[:2], (status, read(f'{CASES}/{name}.short')))

    def test_a_line_of_json_for_each(self):
        status, out, _ = call('show', '--json', 'cases/show/fresh.j')
        entries = [json.loads(line) for line in out.splitlines()]
        self.assertEqual((status, [it['number'] for it in entries]), (1, [1, 2, 3, 4, 5, 6, 7]))
        post = entries[2]
        self.assertEqual((post['method'], post['kind'], post['verdict']), ('List.grow', 'post', 'unproved'))
        self.assertEqual(post['range'], {'start': {'line': 10, 'column': 14}, 'end': {'line': 10, 'column': 83}})
        self.assertEqual((post['hint']['cookbook'], len(post['cause'])), ('Return the new object', 2))
        self.assertEqual((entries[0]['cause'], entries[0]['hint']), ([], None))

    def test_the_first_page_shows_what_is_printed(self):
        shown = re.search(r'(?:^ {4}.*\n)*^ {4}--> .*\n(?:^ {4}.*\n)+', read(f'{TOP}/README.md'), re.MULTILINE)[0]
        lines = [line[4:] for line in shown.splitlines()]
        printed = call('show', lines[0].removeprefix('--> '))[1].splitlines()
        self.assertEqual(len(printed), len(lines))
        for line, whole in zip(lines, printed):
            self.assertEqual(line, f'{whole[:len(line) - 3]} ..' if line.endswith(' ..') else whole)

    def test_the_cookbook_has_each_entry_that_a_hint_names(self):
        headings = {line.lstrip('#').strip() for line in read(f'{TOP}/docs/COOKBOOK.md').splitlines()
                    if line.startswith('#')}
        self.assertEqual(set(hints.ENTRIES) - headings, set())

    def test_json_of_a_refusal(self):
        status, out, _ = call('show', '--json', 'cases/show/refused.j')
        entry = json.loads(out)
        self.assertEqual((status, entry['verdict'], entry['cause'][0]), (3, 'refused', 'refused 6 at 5:7'))

    def test_a_proved_file(self):
        status, out, _ = call('show', 'examples/swap.j')
        self.assertEqual(status, 0)
        self.assertTrue(out.endswith('2 of 2 proved (2 at sight)\naccepted: methods 1, sequents 2\n'))
        self.assertEqual(call('show', '--short', 'examples/swap.j')[:2], (0, ''))

    def test_colours_only_where_they_are_wanted(self):
        self.assertNotIn('\033', call('show', 'cases/show/stores.j')[1])
        self.assertIn('\033[1;33m', call('show', '--color', 'always', 'cases/show/stores.j')[1])
        plain = re.sub(r'\033\[[\d;]*m', '', call('show', '--color', 'always', 'cases/show/stores.j')[1])
        self.assertEqual(plain, read(f'{CASES}/stores.txt'))

    def test_other_ends_have_the_status_and_the_text_of_the_program(self):
        status, out, error = call('show', f'{self.folder}/none.j')
        self.assertEqual((status, out), (4, ''))
        self.assertIn('file failed', error)
        self.assertEqual(call('show', '--rounds', '9', 'examples/swap.j')[0], 2)
        self.assertEqual(call('show')[0], 2)

    def test_options_reach_the_program(self):
        way = 'class A { A f;\n static void way(A x, A a, A b)\n' \
              ' /*: requires "(x = a | x = b) & a..f = b..f" ensures "x..f = a..f" */ { } }\n'
        path = self.put('way.j', way)
        self.assertEqual(call('show', path)[0], 0)
        status, out, _ = call('show', '--leaves', '1', path)
        self.assertEqual(status, 1)
        self.assertIn('the search was stopped after 1 cases', out)

    def test_version_says_what_is_run(self):
        status, out, _ = call('show', '--version')
        self.assertEqual(status, 0)
        self.assertRegex(out, r'^runs .*/out/\w+proved-\S+\n(proved|a build without proofs)\ncommit \w+ of [\d-]+')

    def test_a_slow_program_is_waited_for_with_the_seconds(self):
        slow = self.put('slow', SLOW)
        os.chmod(slow, 0o755)
        path = self.put('a.j', 'class A { }')
        command = f'{sys.executable} {TOP}/tools/beside/front.py show {path} --color never'
        if not shutil.which('script'):
            self.skipTest('`script` is missing')
        run = subprocess.run(['script', '-qec', command, '/dev/null'], stdin=subprocess.DEVNULL, capture_output=True,
                             text=True, env={**os.environ, 'JAHOB': slow})
        self.assertEqual(run.returncode, 0)
        self.assertIn('jahob is working, 2 s', run.stdout)
        quiet = call('show', path, JAHOB=slow)
        self.assertNotIn('working', quiet[2])


class Marks(HTMLParser):
    """The texts of a page by the tags round them, and the tags that were not closed."""

    def __init__(self, page):
        super().__init__()
        self.open, self.ids, self.links, self.marked = [], [], [], []
        self.feed(page)

    def handle_starttag(self, tag, attributes):
        attributes = dict(attributes)
        self.ids += [attributes['id']] if 'id' in attributes else []
        self.links += [attributes['href']] if 'href' in attributes else []
        if tag != 'meta':
            self.open.append((tag, attributes.get('class')))

    def handle_endtag(self, tag):
        assert self.open.pop()[0] == tag

    def handle_data(self, data):
        if self.open and self.open[-1][0] == 'mark':
            self.marked.append((self.open[-1][1], data))


class Page(Case):
    def test_the_page_has_the_source_and_a_panel_for_each(self):
        status, out, _ = call('show', '--html', 'cases/show/fresh.j')
        page = Marks(out)
        self.assertEqual((status, page.open), (1, []))
        self.assertEqual(sorted(page.ids), [f'f{number}' for number in range(7)])
        self.assertEqual(sorted(page.links), [f'#f{number}' for number in range(7)])
        formula = '"EX n. n ~: old nodes & nodes = old nodes Un {n} & n..Node.data = é"'
        self.assertIn(('unproved', formula), page.marked)
        self.assertIn(('local', '"tree [Node.next]"'), page.marked)
        self.assertNotIn('http', out)

    def test_a_formula_over_several_lines_is_marked_on_each(self):
        path = self.put('a.j', 'class A { /* <b> */ static int n;\n public void m()\n'
                        ' /*: ensures "n = 0 |\n 0 <= n & n < 1" */ { } }\n')
        page = Marks(call('show', '--html', path)[1])
        self.assertEqual((page.open, page.marked[:2]),
                         ([], [('unproved', '"n = 0 |'), ('unproved', ' 0 <= n & n < 1"')]))

    def test_chromium_draws_it(self):
        browser = next((found for name in ('chromium', 'google-chrome') if (found := shutil.which(name))), None)
        if not browser:
            self.skipTest('Chromium is missing')
        path = self.put('a.html', call('show', '--html', 'cases/show/fresh.j')[1])
        picture = f'{self.folder}/a.png'
        words = ['--headless', '--no-sandbox', '--disable-gpu', '--window-size=1400,800', f'--screenshot={picture}']
        subprocess.run([browser, *words, f'file://{path}'], capture_output=True, timeout=120)
        with open(picture, 'rb') as file:
            self.assertEqual(file.read(4), b'\x89PNG')


if __name__ == '__main__':
    unittest.main()
