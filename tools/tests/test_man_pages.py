"""The man pages, and what they are made of."""
import os
import shutil
import sys
import unittest

from scratch import Scratch, TOOLS, printed

import man_pages
from man_pages import Command, Option

TOP = TOOLS.parent
# The widest line that the program may print in a help or a usage.
COLUMNS = 80
LINE = Option('limit', 'Number("N", 0, MOST_COUNT)', 'Means("10")', 'How many')
PLAN = Option('plan', 'Text("PATH")', 'WrongUnlessSaid(Setting::Plan)', 'The file')
SOCKET = Option('socket', 'Text("PATH")', 'Fine', 'The socket')
SHELL = Option('shell', 'Word("SHELL", &SHELLS)', 'Wrong', 'Which one', {'SHELLS': ['a', 'b']})
LOOPBACK = Option('loopback', 'FlagWith("progress")', 'Fine', 'A new server')


class Texts(unittest.TestCase):
    def test_a_text_of_a_source(self):
        self.assertEqual(man_pages.unquoted('\\\n    one \\"word\\"\n  two \\\n  three\\n\\\\'), 'one "word"\n  two three\n\\')

    def test_what_groff_would_take(self):
        self.assertEqual(man_pages.escaped(".x --y 'z' `-w` `"), r"\&.x \-\-y \(aqz\(aq \fB\-w\fR \(ga")
        self.assertEqual(man_pages.escaped("a\\b ^~"), r'a\eb \(ha\(ti')

    def test_paragraphs_and_blocks(self):
        self.assertEqual(man_pages.body('One:\n  a\n    b\ntwo.\n\nThree.'), [
            'One:', '.RS 4', '.nf', 'a', '  b', '.fi', '.RE', 'two.', '.PP', 'Three.'])

    def test_a_section_of_a_document(self):
        text = '\nSee [it](x.md#y). So *is* it.\n\n- one\n- two\n\n    $ a\n\n| h | k |\n|---|---|\n| `1` | One. Two |\n'
        self.assertEqual(man_pages.document_body(text), [
            '.PP', 'See it.', r'So \fBis\fR it.', r'.IP \(bu 2', 'one', r'.IP \(bu 2', 'two', '.PP', '.RS 4', '.nf',
            '$ a', '.fi', '.RE', '.TP', r'\fIh\fR', r'\fIk\fR', '.TP', r'\fB1\fR', 'One.', 'Two'])

    def test_a_table_of_three_columns(self):
        self.assertEqual(man_pages.table(['| `a` b | c | |', '|---|---|---|', '| 1 | | 3 |']), [
            '.TP', r'\fIa b\fR', r'\fIc\fR', '.TP', '1', '3'])

    def test_what_is_below_a_title(self):
        help = 'First.\n\nEnvironment: here:\n  X  y\n\nExit status:\n  0  all is done\n\nLast.'
        self.assertEqual(man_pages.titled(help, 'Environment:')[0], 'Here:')
        self.assertEqual(man_pages.titled(help, 'Exit status:'), ['.RS 4', '.nf', '0  all is done', '.fi', '.RE'])
        self.assertEqual(man_pages.untitled(help), ['First.', '.PP', 'Last.'])
        with self.assertRaises(SystemExit):
            man_pages.titled(help, 'Files:')


class Options(unittest.TestCase):
    def test_usage(self):
        command = Command('run', 'Runs', 'It runs.', [PLAN, SOCKET, LOOPBACK, LINE], True)
        self.assertEqual(command.usage(), '[OPTIONS] --plan <PATH> <--socket <PATH>|--loopback>')
        self.assertEqual(man_pages.typed(command.usage()), r'[\fIOPTIONS\fR] \fB\-\-plan\fR \fIPATH\fR '
                         r'{\fB\-\-socket\fR \fIPATH\fR | \fB\-\-loopback\fR}')

    def test_longest_usage(self):
        command = Command('run', 'Runs', 'It runs.', [PLAN, SOCKET, LOOPBACK, LINE], True)
        self.assertEqual(command.longest_usage(), '--plan <PATH> --limit <N> <--socket <PATH>|--loopback>')

    def test_a_usage_that_the_sources_give(self):
        command = Command('run', 'Runs', 'It runs.', [PLAN], True, 'kmipctl run\n       --plan <PATH>')
        for help in command.help('other'), command.short_help('other'):
            self.assertIn('\n\nUsage: kmipctl run\n       --plan <PATH>\n\nOptions:\n', help)

    def test_help(self):
        command = Command('list', 'Lists', 'It lists.', [LINE], False)
        self.assertEqual(command.help('kmipctl'), '''It lists.

Usage: kmipctl list [OPTIONS]

Options:
      --limit <N>
          How many
          
          [default: 10]

  -h, --help
          Print help (see a summary with '-h')
''')

    def test_short_help(self):
        command = Command('list', 'Lists', 'It lists.', [LINE, PLAN, SHELL], False)
        self.assertEqual(command.short_help('kmipctl'), '''Lists

Usage: kmipctl list [OPTIONS] --plan <PATH> <SHELL>

Arguments:
  <SHELL>  Which one [possible values: a, b]

Options:
      --limit <N>    How many [default: 10]
      --plan <PATH>  The file
  -h, --help         Print help (see more with '--help')
''')

    def test_a_word_that_stands_by_itself(self):
        command = Command('other', 'Does', 'It does.', [SHELL], False)
        self.assertEqual(command.help('kmipctl'), '''It does.

Usage: kmipctl other <SHELL>

Arguments:
  <SHELL>
          Which one
          
          [possible values: a, b]

Options:
  -h, --help
          Print help (see a summary with '-h')
''')

    def test_an_option(self):
        self.assertEqual(man_pages.option_lines(LINE), ['.TP', r'\fB\-\-limit\fR \fIN\fR', 'How many.', r'The default is \fB10\fR.'])
        self.assertEqual(man_pages.option_lines(LOOPBACK)[2:], ['A new server.', r'Needs \fB\-\-progress\fR.'])
        self.assertEqual(Option('json', 'FlagUnless(&["trace", "diagram"])', 'Fine', '').beside(), 'Not with `--trace` or `--diagram`.')
        self.assertEqual(man_pages.option_lines(SHELL), ['.TP', r'\fISHELL\fR', 'Which one.', 'One of a, b.'])
        self.assertEqual(Option('schema', 'FlagAlone', 'Fine', '').beside(), 'Not with another option.')


class Pages(Scratch):
    def setUp(self):
        super().setUp()
        sources = [man_pages.SOURCES / name for name in man_pages.FILES]
        documents = man_pages.COMMANDS, man_pages.OPERATING, man_pages.AUTOMATION
        for path in [*documents, man_pages.EXAMPLE, man_pages.SHELLS, *sources]:
            (self.top / path).parent.mkdir(parents=True, exist_ok=True)
            shutil.copy(TOP / path, self.top / path)

    def test_what_is_not_as_the_sources(self):
        man_pages.write_pages()
        self.assertEqual(printed(man_pages.check_man_pages), (0, []))
        (self.top / 'docs/man/kmipctl.1').write_text('other\n')
        (self.top / 'docs/man/kmipctl-run.1').unlink()
        self.write({'docs/man/kmipctl-gone.1': ''})
        count, lines = printed(man_pages.check_man_pages)
        self.assertEqual((count, [line.split(':')[0] for line in lines]), (3, [
            'docs/man/kmipctl-gone.1', 'docs/man/kmipctl-run.1', 'docs/man/kmipctl.1']))
        man_pages.write_pages()
        self.assertEqual(printed(man_pages.check_man_pages), (0, []))

    def test_the_details_of_each_command(self):
        for command in man_pages.Texts().commands:
            titles = [title for title, _ in man_pages.details(f'kmipctl {command.name}', man_pages.ADDED.get(command.name, ()))]
            self.assertTrue(titles, command.name)
            self.assertEqual(len(titles), len(set(titles)), command.name)
        self.assertEqual([title for title, _ in man_pages.details('kmipctl')], ['OUTPUT', 'INPUT'])

    def test_details_that_cannot_be_read(self):
        for text in '## kmipctl\n', '## kmipctl run\n\nA text.\n\n### Output\n\nMore.\n':
            self.write({'docs/COMMANDS.md': text})
            with self.assertRaises(SystemExit):
                man_pages.details('kmipctl run')

    def test_each_command_says_its_exit_statuses(self):
        for command in man_pages.Texts().commands:
            for title in man_pages.EXAMPLES, man_pages.EXIT_STATUS:
                self.assertTrue(man_pages.titled(command.text, title), command.name)

    def test_each_line_of_a_help_fits(self):
        texts = man_pages.Texts()
        pages = [page for command in texts.commands for page in (command.help('kmipctl'), command.short_help('kmipctl'))]
        pages += [texts.texts['ABOUT'], texts.texts['AFTER_HELP']]
        pages.append(man_pages.columns([(f'  {command.name}', command.about) for command in texts.commands]))
        self.assertEqual([line for page in pages for line in page.split('\n') if len(line) > COLUMNS], [])
        # Programs that read a help take such a line for an option.
        self.assertEqual([command.name for command in texts.commands if '\n      --' in command.text], [])

    def test_each_usage_after_an_error_fits(self):
        commands = man_pages.Texts().commands
        lines = [f'Usage: kmipctl {command.name} {command.longest_usage()}' for command in commands if not command.own_usage]
        self.assertEqual([line for line in lines if len(line) > COLUMNS], [])

    def test_a_usage_of_the_sources_has_the_words_of_the_parser(self):
        commands = [command for command in man_pages.Texts().commands if command.own_usage]
        self.assertTrue(commands)
        for command in commands:
            self.assertEqual(command.own_usage.replace('\n       ', ' '), f'kmipctl {command.name} {command.usage()}')

    def test_each_option_of_the_sources_is_read(self):
        source = (self.top / man_pages.SOURCES / 'command_option.rt').read_text()
        self.assertEqual(len(man_pages.OPTION.findall(source)), source.count('CommandOption = CommandOption('))
        commands = [command.name for command in man_pages.Texts().commands]
        self.assertEqual(commands[:2] + commands[-1:], ['check', 'sim', 'completions'])

    def test_an_option_that_is_not_read(self):
        source = man_pages.SOURCES / 'command_option.rt'
        self.write({str(source): (self.top / source).read_text().replace('CommandOption("stream", Flag,', 'other("stream", Flag,')})
        with self.assertRaises(SystemExit):
            man_pages.Texts()

    def test_a_program_that_says_something_else(self):
        self.write({'program': f'#!{sys.executable}\nprint("help")\n'})
        os.chmod('program', 0o755)
        status, lines = printed(man_pages.compare, './program')
        self.assertEqual((status, lines[-1], len(lines)), (1, '10 commands, 10 wrong', 21))


if __name__ == '__main__':
    unittest.main()
