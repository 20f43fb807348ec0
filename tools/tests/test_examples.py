"""Examples of made-up documents, run with a stand-in for the program."""
import os
import unittest

from scratch import Scratch, printed

import examples

PROGRAM = '''#!/bin/sh
case $1 in
    say) shift; for word; do echo "$word"; done ;;
    read) cat "$2" ;;
    warn) echo said; echo warned >&2; exit 1 ;;
    write) echo kept > "$2"; echo "wrote $2" ;;
    hang) sleep 30 ;;
esac
'''


class Examples(Scratch):
    def setUp(self):
        super().setUp()
        self.write({'stand-in': PROGRAM, 'examples/one.txt': 'first\n', 'notes.txt': 'noted\n'})
        os.chmod('stand-in', 0o755)

    def run_on(self, text):
        self.write({'README.md': text})
        return printed(examples.main, ['stand-in'])

    def test_what_is_right(self):
        self.assertEqual(self.run_on(
            'Text.\n\n    $ kmipctl say a b\n    a\n    b\n    $ kmipctl say c | tr c d\n    d\n\n'
            '```\n$ kmipctl say e\ne\n```\nMore.\n'), (0, ['3 examples, 0 wrong']))

    def test_what_is_wrong_is_a_diff(self):
        self.assertEqual(self.run_on('\n    $ kmipctl say a b\n    a\n    c\n'), (1, [
            'README.md:2: wrong: kmipctl say a b', '--- wanted', '+++ got', '@@ -1,2 +1,2 @@', ' a', '-c', '+b',
            '1 examples, 1 wrong']))

    def test_lines_that_lack_and_lines_too_many(self):
        self.assertEqual(self.run_on('    $ kmipctl say a b\n    a\n')[0], 1)
        self.assertEqual(self.run_on('    $ kmipctl say a\n    a\n    b\n')[0], 1)
        self.assertEqual(self.run_on('    $ kmipctl say a\n')[0], 1)

    def test_a_block_that_a_command_prints(self):
        block = '<!-- $ kmipctl say a b -->\n```mermaid\na\n%s\n```\n\n    $ kmipctl say c\n    c\n'
        self.assertEqual(self.run_on(block % 'b'), (0, ['2 examples, 0 wrong']))
        self.assertEqual(self.run_on('Text.\n\n' + block % 'd')[1][0], 'README.md:3: wrong: kmipctl say a b')

    def test_any_lines(self):
        self.assertEqual(self.run_on('    $ kmipctl say a b c\n    ...\n    c\n')[0], 0)
        self.assertEqual(self.run_on('    $ kmipctl say c\n    ...\n    c\n    ...\n')[0], 0)
        self.assertEqual(self.run_on('    $ kmipctl say a b c\n    ...\n    b\n')[0], 1)

    def test_a_block_ends_with_the_next_paragraph(self):
        self.assertEqual(self.run_on('    $ kmipctl say a\n    a\n\nText.\n\n    no output\n')[0], 0)
        self.assertEqual(self.run_on('    $ kmipctl say a "" b\n    a\n\n    b\n\nText.\n')[0], 0)

    def test_exit_statuses(self):
        self.assertEqual(self.run_on('    $ kmipctl warn\n    said\n    exit status 1\n')[0], 0)
        self.assertEqual(self.run_on('    $ kmipctl warn\n    said\n')[0], 0)
        self.assertEqual(self.run_on('    $ kmipctl warn\n    said\n    exit status 2\n'), (1, [
            'README.md:1: wrong: kmipctl warn', 'wanted exit status 2, got 1', '1 examples, 1 wrong']))

    def test_standard_error_is_shown_by_the_command(self):
        self.assertEqual(self.run_on('    $ kmipctl warn 2>&1\n    said\n    warned\n')[0], 0)

    def test_files_are_copies(self):
        self.assertEqual(self.run_on(
            '    $ kmipctl read examples/one.txt\n    first\n    $ kmipctl read notes.txt\n    noted\n'
            '    $ kmipctl write notes.txt\n    wrote notes.txt\n    $ cat notes.txt\n    kept\n'), (0, ['4 examples, 0 wrong']))
        self.assertEqual((self.top / 'notes.txt').read_text(), 'noted\n')

    def test_temporary_files_are_in_the_scratch_folder(self):
        name = f'/tmp/kept-by-a-test-{os.getpid()}'
        self.assertEqual(self.run_on(f'    $ kmipctl write {name}\n    wrote {name}\n    $ cat {name}\n    kept\n')[0], 0)
        self.assertFalse(os.path.exists(name))

    def test_the_path_of_the_build_is_the_program(self):
        self.assertEqual(self.run_on('    $ crates/kmipctl/out/kmipctl say a\n    a\n')[0], 0)

    def test_lines_that_continue_a_command(self):
        self.assertEqual(self.run_on('    $ cat <<END\n    > a\n    > END\n    a\n')[0], 0)

    def test_lines_with_no_prompt_are_no_examples(self):
        self.assertEqual(self.run_on('    kmipctl say a\n\nAs `$ kmipctl` says.\n'), (0, ['0 examples, 0 wrong']))

    def test_what_is_not_run(self):
        self.assertEqual(self.run_on('    $ make demo\n    anything\n'), (0, [
            'README.md:1: not run: make demo', '0 examples, 0 wrong, 1 not run']))

    def test_what_takes_too_long(self):
        self.addCleanup(setattr, examples, 'SECONDS', examples.SECONDS)
        examples.SECONDS = 0.2
        self.assertEqual(self.run_on('    $ kmipctl hang\n')[1], [
            'README.md:1: wrong: kmipctl hang', 'it took over 0.2 s', '1 examples, 1 wrong'])

    def test_no_program(self):
        self.assertEqual(printed(examples.main, ['nothing']), (1, ['there is no program nothing; make builds it']))


if __name__ == '__main__':
    unittest.main()
