"""What usually causes a refusal: each mistake has the hint that mends it."""
import re

from beside.findings import Findings, rules

from . import CASES, TOP, Case, read


class Mistakes(Case):
    def findings(self, text):
        return Findings(self.put('a.j', text))

    def test_each_mistake_has_its_hint(self):
        blocks = re.findall(r'^broken: (.*)\nmended: (.*)\nhint: (.*)$', read(f'{CASES}/mistakes.txt'), re.M)
        self.assertGreater(len(blocks), 50)
        for broken, mended, hint in blocks:
            with self.subTest(broken):
                found = self.findings(broken)
                self.assertEqual(found.status, 3)
                self.assertIn(hint, found.refused.hint[1])
                self.assertIn(self.findings(mended).status, (0, 1))

    def test_each_rule_has_the_program_that_keeps_it(self):
        rows = re.findall(r'^\| (\d+) \| .*? \| `(.*?)`.*? \| (.*) \|$', read(f'{TOP}/docs/LANGUAGE.md'), re.M)
        self.assertEqual([int(row[0]) for row in rows], list(range(1, 33)))
        for rule, broken, instead in rows[:-1]:
            with self.subTest(rule):
                found = self.findings(broken)
                self.assertEqual((found.status, found.refused.causes[1]), (3, f'rule {rule} of types is broken'))
                self.assertIn(instead, found.refused.hint[1])
                self.assertIn(self.findings(instead.strip('`')).status, (0, 1))

    def test_a_method_with_too_many_statements(self):
        found = self.findings('class A { void m() { ' + '; ' * 257 + '} }')
        self.assertEqual(found.refused.causes[1], 'rule 32 of types is broken')
        self.assertIn(rules()[32][0], found.refused.hint[1])

    def test_the_range_is_the_token_at_the_place(self):
        found = self.findings('class A { static void m() {\n  é = 1 && && 2; } }')
        start, end = found.refused.span
        self.assertEqual((found.refused.line, found.source.text[start:end]), (2, '&&'))

    def test_refusals_without_a_place(self):
        cyclic = 'class A {\n /*: static specvar p :: int;\n vardefs "p == q";\n' \
                 ' static specvar q :: int; vardefs "q == p"; */ }'
        found = self.findings(cyclic)
        self.assertEqual((found.refused.causes[0], found.refused.line), ('refused 8 p', 3))
        many = 'class B { static boolean c;\n static void m() {' + ' if (c) { } else { }' * 11 + ' } }'
        found = self.findings(many)
        self.assertEqual((found.refused.causes[0], found.refused.line), ('refused 12 B.m 2048', 2))
        self.assertIn('move branches into methods', found.refused.hint[1])

    def test_bytes_that_are_no_text(self):
        found = self.findings(b'class A { }\n// \xff')
        self.assertEqual((found.refused.causes[0], found.refused.line), ('refused 1 at 2:4', 2))
        self.assertEqual(found.refused.hint[1], 'save the file as UTF-8')
