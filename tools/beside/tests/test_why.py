"""What `jahob-why` says of a line, and the heaps that it finds."""
from beside import program
from beside.heaps import Heaps as Heap
from beside.heaps import Search
from beside.model import Model
from beside.source import Source
from beside.wrapper import closed, substituted

from . import CASES, TOP, Case, call, read

TREE = '''class Pair {
  Pair left; Pair right; int n;
  /*: ghost specvar seen :: objset;
      static specvar both :: objset;
      vardefs "both == {x. EX p. p..left = x}";
      invariant "ALL n. n..right = null | n..Pair.n = 0";
      invariant kept: "n = 0 & this : seen & left ~= right"; */
  Pair other(Pair p, int k, boolean b) /*: requires "k = 1" modifies both, "Pair.n"
    ensures "result = p & n..result = k" */ { return p; }
}
'''


class Models(Case):
    def setUp(self):
        super().setUp()
        self.model = Model(Source(TREE.encode()))

    def test_what_a_source_declares(self):
        names = [(it.name, it.kind, it.type, it.fixed, it.ghost) for it in self.model.variables]
        self.assertEqual(names, [('left', 'obj', 'Pair', False, False), ('right', 'obj', 'Pair', False, False),
                                 ('n', 'int', None, False, False), ('seen', 'set', None, False, True),
                                 ('both', 'set', None, True, False)])
        method = self.model.method('Pair.other')
        self.assertEqual(method.params, [('Pair', 'p'), ('int', 'k'), ('boolean', 'b')])
        self.assertEqual((method.requires, method.modifies), ('k = 1', ['both', 'Pair.n']))
        self.assertEqual({it.name for it in self.model.may_change(method)}, {'both', 'left', 'n'})

    def test_an_invariant_of_one_object_is_said_of_all(self):
        self.assertEqual([closed(self.model, it) for it in self.model.invariants], [
            'ALL n. n..right = null | n..Pair.n = 0',
            'ALL jahob_it. jahob_it : Pair --> (jahob_it..Pair.n = 0 & jahob_it : jahob_it..Pair.seen & '
            'jahob_it..Pair.left ~= jahob_it..Pair.right)'])

    def test_words_behind_dots_stay(self):
        self.assertEqual(substituted('result = p & n.. result = k', {'result': 'r'}), 'r = p & n.. result = k')


class Made(Case):
    def test_heaps_are_heaps(self):
        """Each heap that is made is one: the program refuses none of them."""
        text = TREE.replace('n..result = k', 'k = 1').replace('return p', 'Object o = new Object(); return p')
        text = text.replace('int n;', 'int n; static Object any; /*: static ghost specvar g :: obj; */', 1)
        path = self.put('a.j', text)
        search = Search(path, 'Pair.other', [('p', 'this'), ('Pair.any', 'null')])
        heaps = list(Heap(search.model, search.method, search.equations).all())
        self.assertEqual((len(heaps), len(set(heaps))), (len(heaps), len(heaps)))
        for heap in heaps[::100]:
            run = program.Run('run', path, 'Pair.other', self.put('a.heap', heap))
            self.assertEqual((run.status, run.err), (0, ''), heap)


class Heaps(Case):
    """Each heap that is shown is confirmed here by a run of the program on the source itself."""

    def why(self, file, method, *words):
        return call('why', file, method, *words, '--heap')

    def heap_of(self, out):
        """The heap in what is printed."""
        lines = out.split('\n\n')[1].splitlines()
        return self.put('a.heap', '\n'.join(lines) + '\n'), lines

    def test_two_names_for_one_object(self):
        status, out, _ = self.why('cases/show/stores.j', 'T.m')
        self.assertEqual((status, out.splitlines()[0]),
                         (1, 'A run of T.m breaks its contract: what it says of itself is false: assert at 5:34'))
        path, lines = self.heap_of(out)
        self.assertEqual([it.split()[-1] for it in lines if it.startswith('arg')], ['1', '1'])
        run = program.Run('run', f'{TOP}/cases/show/stores.j', 'T.m', path)
        self.assertEqual((run.status, run.err), (11, 'assert at 5:34\n'))
        self.assertIn('b.f = 2;\n    object 1.f: 1 -> 2\n', out)

    def test_a_cycle(self):
        status, out, _ = self.why('cases/show/cycle.j', 'List.add')
        self.assertIn('at its end the invariant "tree [Node.next]" of List is false', out)
        path, _ = self.heap_of(out)
        run = program.Run('run', f'{TOP}/cases/show/cycle.j', 'List.add', path)
        self.assertEqual((status, run.status), (1, 0))
        self.assertIn('field Node.next 1 1\n', run.out)

    def test_an_invariant_of_an_object(self):
        status, out, _ = self.why('cases/show/counter.j', 'Counter.back')
        self.assertEqual(status, 1)
        self.assertIn('the invariant "0 <= n" of Counter is false', out)
        self.assertIn('n = n - 1;\n    object 1.n: 0 -> -1\n', out)
        self.assertIn('return\n    result = -1\n', out)

    def test_what_modifies_does_not_name(self):
        status, out, _ = self.why('cases/show/counter.j', 'Counter.touch')
        self.assertEqual(status, 1)
        self.assertIn("at its end Counter.n changed, which `modifies` doesn't name", out)

    def test_what_is_right_has_none(self):
        self.assertEqual(Search(f'{TOP}/examples/swap.j', 'Swap.swap').found().heap, None)
        status, out, _ = self.why('examples/swap.j', 'Swap.swap')
        self.assertEqual(status, 0)
        self.assertTrue(out.startswith('No heap was found: ') and out.endswith('That proves nothing.\n'))

    def test_what_breaks_an_invariant_or_requires_is_passed_over(self):
        path = self.put('a.j', 'class A { static int n; /*: invariant "0 <= n"; */\n public static int get()\n'
                        ' /*: requires "n ~= 3" ensures "0 <= result & result ~= 3" */ { return n; } }\n')
        found = Search(path, 'A.get').found()
        self.assertEqual(found.heap, None)
        self.assertTrue(0 < found.passed < found.tried)

    def test_null(self):
        path = self.put('a.j', 'class A { A f; static A m(A a) { return a.f; } }')
        status, out, _ = self.why(path, 'A.m')
        self.assertEqual(status, 1)
        self.assertIn('it dereferences null: null at 1:41', out)

    def test_that_a_method_is_not_there(self):
        self.assertEqual(self.why('examples/swap.j', 'Swap.none')[0], 2)


class Lines(Case):
    def test_a_line(self):
        status, out, _ = call('why', 'cases/show/stores.j', 'T.m', '3')
        self.assertEqual((status, out.splitlines()[:3]),
                         (1, ['T.m 3 assert: not proved', '  line 5, column 34: the assert', '  formula: a..C.f = 1']))
        self.assertEqual(call('why', 'cases/show/stores.j', 'T.m', '1')[0], 0)
        self.assertEqual(call('why', 'cases/show/stores.j', 'T.m', '9')[0], 2)
        self.assertEqual(call('why', 'cases/show/refused.j', 'A.m')[0], 3)

    def test_the_example_of_the_first_page(self):
        page = read(f'{TOP}/README.md').split('    --> examples/wrong_swap.j\n')[1].split('\n\n')[0]
        shown = call('show', 'examples/wrong_swap.j')[1].splitlines()[1:]
        for wanted, line in zip(page.splitlines(), shown, strict=True):
            wanted = wanted[4:]
            self.assertTrue(line.startswith(wanted[:-2]) if wanted.endswith('..') else line == wanted, line)
