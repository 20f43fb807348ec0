"""Rows of made-up programs."""
import os
import unittest

from scratch import Scratch, printed

import row_files
import rows

ROWS = '''## A remark above both.
# first: What it shows
file a
> 1
>
> 2
run a
    one

    two

# second
run b
    three
'''
# Says that a row is wrong where it is given the name of one.
PROGRAM = '''#!/bin/sh
case "$*" in
*--name*) echo "some.rows:6: first"; echo "1 rows, 1 wrong"; exit 1;;
*) echo "2 rows, 0 wrong";;
esac
'''
# A kit that tells what it was asked to run, with the text of its data, and that one row of it is wrong.
KIT = r'''#!/bin/sh
case "$*" in
*--name*) echo "asked for: $*"; echo "1 rows, 0 wrong"; echo "run=ended status=0"; exit 0;;
esac
for word in "$@"; do case "$word" in some.rows=*) cat "${word#some.rows=}";; esac; done
echo "some.rows:13: second"
echo "1 rows, 1 wrong"
echo "checked: ended status=1"
exit 1
'''


class Rows(Scratch):
    def setUp(self):
        super().setUp()
        self.write({
            'crates/good/stdin': 'a\nb\n', 'crates/good/stdout': 'a\nb\nmore\n', 'crates/good/data/more': 'more\n',
            'crates/good/out/good': '#!/bin/sh\ncat - more\n',
            'crates/rows_some/data/some.rows': ROWS, 'crates/rows_some/args': 'some.rows\n',
            'crates/rows_some/stdout': '2 rows, 0 wrong\n', 'crates/rows_some/out/rows_some': PROGRAM,
            'crates/none/src/lib.rt': ''})
        for name in 'good', 'rows_some':
            (self.top / f'crates/{name}/out/{name}').chmod(0o755)

    def test_all(self):
        self.assertEqual(printed(rows.main, []), (0, [
            'good: right, by the program that is built', '2 rows, 0 wrong', 'rows_some: right, by the program that is built']))

    def test_a_stored_run_that_differs(self):
        self.write({'crates/good/stdout': 'a\nc\nmore\n'})
        self.assertEqual(printed(rows.main, ['--crate', 'good']), (1, [
            'crates/good/stdout:2', '  wanted: c', '  got:    b', 'good: WRONG, by the program that is built']))

    def test_rows_of_a_name(self):
        self.assertEqual(printed(rows.main, ['--file', 'some', '--name', 'fir']), (1, [
            'crates/rows_some/data/some.rows:6: first', '1 rows, 1 wrong', 'rows_some: WRONG, by the program that is built']))

    def test_no_row(self):
        self.assertEqual(printed(rows.main, ['--name', 'third']), (1, ['no such row']))

    def unbuilt(self, slow):
        """No program of rows is built, and these of its rows are slow."""
        (self.top / 'crates/rows_some/out/rows_some').unlink()
        self.write({'bin/rt': KIT})
        (self.top / 'bin/rt').chmod(0o755)
        self.addCleanup(os.environ.__setitem__, 'PATH', os.environ['PATH'])
        os.environ['PATH'] = f'{self.top}/bin:{os.environ["PATH"]}'
        self.addCleanup(setattr, rows, 'SLOW', rows.SLOW)
        rows.SLOW = {'rows_some': slow}

    def test_slow_rows_are_left_out(self):
        self.unbuilt(['first'])
        status, lines = printed(rows.main, ['--crate', 'rows_some'])
        self.assertEqual((status, lines), (1, [
            '## A remark above both.', *[''] * 10, '# second', 'run b', '    three',
            'crates/rows_some/data/some.rows:13: second', '1 rows, 1 wrong',
            'rows_some: left out, as rt try is slow at them: first (FILE= or NAME= runs them)', 'rows_some: WRONG, by rt try']))

    def test_slow_rows_that_are_asked_for(self):
        self.unbuilt(['first'])
        self.assertEqual(printed(rows.main, ['--name', 'fir']), (0, [
            'asked for: try --seconds 1800 --data some.rows=data/some.rows -- some.rows --name fir', '1 rows, 0 wrong',
            'rows_some: right, by rt try']))

    def test_a_slow_row_that_is_gone(self):
        self.addCleanup(setattr, rows, 'SLOW', rows.SLOW)
        rows.SLOW = {'rows_some': ['first', 'third'], 'not_here': ['none']}
        status, lines = printed(rows.main, ['--crate', 'rows_some'])
        self.assertEqual((status, lines[:2]), (1, ['tools/rows.py: rows_some has no row third', '2 rows, 0 wrong']))

    def test_what_a_file_says(self):
        first, second = row_files.rows_in(self.top / 'crates/rows_some/data/some.rows')
        self.assertEqual((first.name, first.number, second.name, second.number), ('first', 2, 'second', 12))
        file, run = first.calls
        self.assertEqual((file.head, file.lines, file.wanted), ('file a', ['1', '', '2'], []))
        self.assertEqual((run.number, run.head, run.lines, run.wanted), (7, 'run a', [], ['one', '', 'two']))

    def test_what_is_wrong_with_files(self):
        self.assertEqual(printed(row_files.check_rows), (0, []))
        self.write({'crates/rows_some/data/some.rows': ROWS + '# second\nrun c\n#third\n', 'crates/rows_some/data/other.rows': ROWS})
        self.assertEqual(printed(row_files.check_rows), (5, [
            'crates/rows_some/data/other.rows: stands not in crates/rows_some/args',
            'crates/rows_some/data/some.rows:12: the name second stands here 2 times',
            'crates/rows_some/data/some.rows:15: the name second stands here 2 times',
            'crates/rows_some/data/some.rows:17: neither a row, `# NAME`, nor a remark, `## WORDS`',
            'crates/rows_some/stdout: is to be 3 rows, 0 wrong']))


if __name__ == '__main__':
    unittest.main()
