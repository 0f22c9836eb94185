"""Tests of tools/minutes.py."""
import os
import subprocess
import sys
import tempfile
import unittest

sys.dont_write_bytecode = True
sys.path.insert(0, os.path.dirname(os.path.abspath(__file__)))
import minutes

LISTED = '# A remark.\nlow:\nhigh: std low  # and another\nside: low\n'


class Reading(unittest.TestCase):
    def test_crates_list_those_of_the_same_text(self):
        self.assertEqual(minutes.libraries_of(LISTED), {'low': [], 'high': ['low'], 'side': ['low']})

    def test_a_name_with_brackets_and_blanks_is_passed_over(self):
        line = '7 (a ) b) S 3 ' + '0 ' * 9 + '250 50 ' + '0 ' * 6 + '99 0'
        self.assertEqual(minutes.stat_of(line), (3, 300 / minutes.TICKS, '99'))

    def test_a_check_is_told_from_what_stands_beside_it(self):
        proof = ['/bin/rattle', 'build', '--crate-name', 'low', '-o', '/room/crates/low/out/rlib/low.rlib']
        edit = ['/bin/rattle', 'check', '--crate-name', 'low', 'src/lib.rt']
        self.assertEqual(minutes.kind_of(proof), 'low')
        self.assertEqual(minutes.kind_of(edit), 'beside low')
        self.assertEqual(minutes.kind_of(['clang', '-o', 'low']), 'other')


class Counting(unittest.TestCase):
    def test_the_longest_chain_goes_through_the_dearest(self):
        libraries = minutes.libraries_of(LISTED)
        self.assertEqual(minutes.chain_of(libraries, {'low': 2, 'high': 1, 'side': 3}), (5, ['low', 'side']))

    def test_the_table_says_what_was_not_seen(self):
        told = minutes.table(minutes.libraries_of(LISTED), {'low': 120, 'high': 30, 'beside low': 60, 'other': 60})
        self.assertIn('| 2 | `low` |', told)
        self.assertNotIn('| `high`', told)
        self.assertIn('Not seen: `side`.', told)
        self.assertIn('2 crates take 2 minutes together; must-fail edits, and what is compiled again, 1;', told)

    def test_what_a_command_takes_is_seen(self):
        with tempfile.TemporaryDirectory() as folder:
            busy = [sys.executable, '-c', 'import time\nend = time.time() + 3\nwhile time.time() < end: pass']
            self.assertEqual(minutes.run(f'{folder}/took', busy), 0)
            self.assertIn('other', minutes.joined([f'{folder}/took']))

    def test_a_process_that_has_ended_is_refused(self):
        ended = subprocess.Popen(['true'])
        ended.wait()
        with tempfile.TemporaryDirectory() as folder:
            told = subprocess.run([sys.executable, minutes.__file__, 'beside', str(ended.pid), f'{folder}/took'],
                                  stderr=subprocess.PIPE)
            self.assertEqual((told.returncode, os.listdir(folder)), (1, []))

    def test_an_unknown_word_is_refused(self):
        told = subprocess.run([sys.executable, minutes.__file__, 'what'], stderr=subprocess.PIPE)
        self.assertEqual(told.returncode, 1)


if __name__ == '__main__':
    unittest.main()
