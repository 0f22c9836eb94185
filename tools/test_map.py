"""Tests of tools/map.py."""
import os
import sys
import tempfile
import unittest

sys.dont_write_bytecode = True
sys.path.insert(0, os.path.dirname(os.path.abspath(__file__)))
import map as maps

LISTED = '# A remark.\nlow:\nmid: std low\nhigh: mid  # and another\nside: low\n'
README = '''# {0}

What {0} is about.

- Contract: {0} does what
  it says.
- Group: {1}.
- Layer: above {2}; below {3}.
- Nothing here is written by a script.

## Modules

- `part`: a part.
'''
PAGE = '''# The crates

```mermaid
flowchart TD
  ground["Ground"]
  top["Top"]
  ground -- "names" --> top
```

## The way of one line

1. `low`: names.
2. `high` (above `low`): lines.
3. `mid` (below `high`): words.

## The table of crates

<!-- Written by tools/map.py. -->
<!-- To here. -->

Behind it `jh_low::any` is cited.
'''
CRATES = {'low': ('Ground', 'no crate', '`high`'), 'mid': ('Ground', '`low`', '`high`'),
          'high': ('Top', '`mid`, `low`', 'none'), 'side': ('Top', '`low`', 'none')}


class Room(unittest.TestCase):
    """A repository of four crates, in which all is so."""

    def setUp(self):
        folder = tempfile.TemporaryDirectory()
        self.addCleanup(folder.cleanup)
        self.top = folder.name
        self.put('crates.txt', LISTED)
        self.put('README.md', '# A page\n')
        self.put('docs/MAP.md', PAGE)
        for name, (group, down, up) in CRATES.items():
            self.put(f'crates/{name}/README.md', README.format(name, group, down, up))
            self.put(f'crates/{name}/src/lib.rt', 'pub mod part;\n')
            self.put(f'crates/{name}/src/part.rt', 'pub fn work() {}\n')
        maps.write(self.top)

    def put(self, path, text):
        os.makedirs(os.path.dirname(f'{self.top}/{path}'), exist_ok=True)
        with open(f'{self.top}/{path}', 'w', encoding='utf-8') as file:
            file.write(text)

    def change(self, path, old, new):
        text = maps.text_of(f'{self.top}/{path}')
        self.assertIn(old, text)
        self.put(path, text.replace(old, new, 1))

    def assert_fault(self, part):
        self.assertIn(part, '\n'.join(maps.faults_of(self.top)))

    def test_what_is_so_has_no_fault(self):
        self.assertEqual(maps.faults_of(self.top), [])

    def test_the_table_has_the_first_line_the_contract_and_the_libraries(self):
        page = maps.text_of(f'{self.top}/docs/MAP.md')
        self.assertIn('### Top\n\n| Crate | What it is about |\n|---|---|\n| `high` | What high is about. |', page)
        self.assertIn('- `high`: high does what it says. *Uses* `mid`.', page)
        self.assertIn('Behind it', page)

    def test_a_changed_table_is_refused(self):
        self.change('docs/MAP.md', '| `mid` | What mid', '| `mid` | What another')
        self.assert_fault('another table of crates')

    def test_a_crate_more_wants_another_table(self):
        self.put('crates.txt', LISTED + 'more: low\n')
        self.put('crates/more/README.md', README.format('more', 'Top', '`low`', 'none'))
        self.put('crates/more/src/part.rt', '')
        self.assert_fault('another table of crates')

    def test_a_step_in_the_wrong_direction_is_refused(self):
        self.change('docs/MAP.md', '(above `low`)', '(below `low`)')
        self.assert_fault('`high` is not below `low`')

    def test_a_step_that_is_no_dependency_is_refused(self):
        self.change('docs/MAP.md', '3. `mid` (below `high`)', '3. `side` (below `high`)')
        self.assert_fault('`side` is not below `high`')

    def test_a_step_names_the_one_before_it(self):
        self.change('docs/MAP.md', '3. `mid` (below `high`)', '3. `mid` (above `low`)')
        self.assert_fault('does not name the crate of the step before it')

    def test_a_step_is_not_left_out(self):
        self.change('docs/MAP.md', '2. `high` (above `low`): lines.\n', '')
        self.assert_fault('step 3 of the walk has another number')

    def test_a_line_that_is_no_step_is_refused(self):
        self.change('docs/MAP.md', '3. `mid` (below `high`)', '3. `mid` (beside `high`)')
        self.assert_fault('the walk has lines that are no steps')

    def test_a_step_has_a_direction(self):
        self.change('docs/MAP.md', ' (above `low`)', '')
        self.assert_fault('does not name the crate of the step before it')

    def test_an_arrow_downwards_is_refused(self):
        self.change('docs/MAP.md', 'ground -- "names" --> top', 'top -- "names" --> ground')
        self.assert_fault('the drawing leads from Top to Ground')

    def test_a_group_that_is_not_drawn_is_refused(self):
        self.change('crates/side/README.md', 'Group: Top', 'Group: Side')
        self.assert_fault('the drawing has no group Side')

    def test_an_untrue_layer_is_refused(self):
        self.change('crates/mid/README.md', 'above `low`', 'above `side`')
        self.assert_fault("mid/README.md tells a layer that isn't so: side")
        self.change('crates/low/README.md', 'below `high`', 'below `high`, `jh_low`')
        self.assert_fault("low/README.md tells a layer that isn't so: jh_low")

    def test_a_module_and_a_script_that_are_not_told_are_refused(self):
        self.put('crates/mid/src/other.rt', '// Written by tools/some.py.\n')
        self.assert_fault('mid/README.md tells other modules than src has: other')
        self.assert_fault('mid/README.md tells other scripts than files name: tools/some.py')

    def test_proofs_that_others_cite_are_listed(self):
        self.put('crates/low/proofs/part/Steps.antt', '-- Written by tools/some.py.\n-- Each step\n-- is one. More.\n')
        self.put('crates/mid/proofs/Lib.antt', 'pub use Rattle.low.proofs as of_low\n')
        self.put('crates/high/proofs/Uses.antt', 'use Rattle.mid.proofs.of_low.part.Steps.{step}\n')
        self.change('crates/low/README.md', '- Nothing here', '- Scripts: `tools/some.py`. Nothing here')
        self.assert_fault('low/README.md has another list of proofs')
        maps.write(self.top)
        self.assertEqual(maps.faults_of(self.top), [])
        self.assertIn('- `part/Steps`: Each step is one.\n', maps.text_of(f'{self.top}/crates/low/README.md'))
        self.put('crates/high/proofs/Uses.antt', '')
        self.assert_fault('low/README.md has another list of proofs')
        maps.write(self.top)
        self.assertNotIn('given out', maps.text_of(f'{self.top}/crates/low/README.md'))

    def test_what_is_cited_has_to_be_there(self):
        self.put('crates/jh_it/src/part.rt', 'pub fn work() {}\n')
        self.put('README.md', '`jh_it::part::work`, `jh_it::work` and `jh_it/src/part.rt`\n')
        self.assertEqual(maps.faults_of(self.top), [])
        self.put('README.md', '`jh_it::part::rest`, `jh_it::other::work`, `jh_it/specs/Part` and `jh_none`\n')
        for cited in ('jh_it::part::rest', 'jh_it::other::work', 'jh_it/specs/Part', 'jh_none'):
            self.assert_fault(f"`{cited}` isn't there")

    def test_a_wide_line_is_refused_and_a_row_is_not(self):
        self.put('README.md', f'| {"row " * 40} |\n')
        self.assertEqual(maps.faults_of(self.top), [])
        self.put('README.md', 'word ' * 40 + '\n')
        self.assert_fault('README.md: a line has 200 columns')

    def test_paths_are_counted(self):
        self.assertEqual(maps.paths_of(maps.libraries_of(LISTED)), 1 + 2 + 3 + 2)


if __name__ == '__main__':
    unittest.main()
