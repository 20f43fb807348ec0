#!/usr/bin/env python3
"""Writes the man pages: kmipctl(1), one a command, and kmip-plan(5) for the plan and the progress file.

    tools/man_pages.py             writes docs/man (`make man`)
    tools/man_pages.py PROGRAM     compares what the sources say with the help that the program prints (-h and --help)

It runs at the top of the repository. The page of a command has its help (kmip_command_line: help.rt,
command_option.rt, subcommand.rt; the words of the shells are those of kmip_choices), its section of docs/COMMANDS.md,
and the sections of ADDED. kmip-plan(5) has what the help of `check` says of a plan, what OPERATING says of changes and
of the progress file, and examples/plan.toml. `make documents` compares docs/man with these. In a help text an indented
line stays as it is, and the lines of a paragraph are filled. A table of a document keeps its head. The last line of a
comparison is `N commands, M wrong`.
"""
import pathlib
import re
import subprocess
import sys

sys.dont_write_bytecode = True

from sources import CRATES

SOURCES = CRATES / 'kmip_command_line/src'
FILES = 'help.rt', 'command_option.rt', 'subcommand.rt'
SHELLS = CRATES / 'kmip_choices/src/shell.rt'
PAGES = pathlib.Path('docs/man')
COMMANDS, OPERATING = pathlib.Path('docs/COMMANDS.md'), pathlib.Path('docs/OPERATING.md')
AUTOMATION, EXAMPLE = pathlib.Path('docs/AUTOMATION.md'), pathlib.Path('examples/plan.toml')
# Sections of other documents that the page of a command has too.
ADDED = {
    'run': [(OPERATING, 'What is printed'), (OPERATING, 'Trouble by symptom'), (OPERATING, 'Batches'), (AUTOMATION, 'Metrics')],
    'probe': [(OPERATING, 'What is asked of a server')],
}
# The parts of a help text that are sections of the page.
EXAMPLES, EXIT_STATUS, ENVIRONMENT = 'Examples:', 'Exit status:', 'Environment:'
TEXT = re.compile(r'const (\w+): &str =\s*"((?:[^"\\]|\\.)*)";', re.S)
OPTION = re.compile(r'const (\w+): CommandOption = CommandOption\(\s*"([\w-]+)",\s*(.+?),\s*'
                    r'(Fine|Wrong|WrongUnlessSaid\(Setting::\w+\)|Means\("[^"]*"\)),\s*(\w+),?\s*\);', re.S)
WORDS = re.compile(r'const (\w+): \[&str; \d+\] = \[(.*?)\];', re.S)
OPTIONS = re.compile(r'const (\w+_OPTIONS): \[CommandOption; (\d+)\] = \[(.*?)\];', re.S)
COMMAND = re.compile(r'Subcommand = Subcommand \{\s*name: "(\w+)",\s*about: (\w+),\s*long_about: (\w+),'
                     r'\s*usage: (?:None|Some\((\w+)\)),\s*options: &(\w+),\s*asks_a_server: (true|false),', re.S)
ORDER = re.compile(r'const COMMANDS: \[Subcommand; (\d+)\] = \[(.*?)\];', re.S)
VERSION = re.compile(r'const VERSION: &str = "([^"]+)";')
# The option that every command has, and its help as `-h` and as `--help` print it.
HELP = '-h, --help'
SHORT_HELP, LONG_HELP = "Print help (see more with '--help')", "Print help (see a summary with '-h')"
# The options of which one says where the server is.
SERVERS = 'connect', 'socket', 'loopback'


def unquoted(text):
    """The text that stands between the quotes of a source."""
    return re.sub(r'\\(\n\s*|.)', lambda found: '' if found[1].startswith('\n') else
                  {'n': '\n', '"': '"', '\\': '\\'}[found[1]], text)


class Option:
    """An option of a command: its word, the name of its value, what it means that it is absent, and its help."""

    def __init__(self, word, value, absent, help, words={}):
        self.word, self.help = word, help
        named = re.match(r'(?:Text|Path|Number|Word)\("(\w+)"', value)
        self.value = named[1] if named else None
        # Of a word that stands by itself: the list of those that it may be.
        self.words = words.get(value[len('Word('):-1].split('&')[1]) if value.startswith('Word') else None
        self.others = re.findall(r'"([\w-]+)"', value) if not named else []
        self.is_alone, self.needs_other = value == 'FlagAlone', value.startswith('FlagWith')
        self.is_needed = absent.startswith('Wrong')
        self.default = absent[len('Means("'):-len('")')] if absent.startswith('Means') else None

    def usage(self):
        """The option as a usage has it."""
        if self.words:
            return f'<{self.value}>'
        return f'--{self.word}' + (f' <{self.value}>' if self.value else '')

    def listed(self):
        """The option as a list of options has it."""
        return ('  ' if self.words else '      ') + self.usage()

    def summary(self):
        """The help of the option as `-h` has it."""
        said = self.help + (f' [possible values: {", ".join(self.words)}]' if self.words else '')
        return said + (f' [default: {self.default}]' if self.default else '')

    def printed(self):
        """The option as `--help` has it."""
        said = f'{self.listed()}\n          {self.help}'
        said += f'\n          \n          [possible values: {", ".join(self.words)}]' if self.words else ''
        return said + (f'\n          \n          [default: {self.default}]' if self.default else '')

    def beside(self):
        """Which options it needs or excludes, in a sentence; empty if it does neither."""
        others = ' or '.join(f'`--{other}`' for other in self.others)
        if self.is_alone:
            return 'Not with another option.'
        return f'Needs {others}.' if self.needs_other else f'Not with {others}.' if others else ''


class Command:
    """A command: its name, its help in a line and in full, its options, and the usage that the sources give it, if any."""

    def __init__(self, name, about, text, options, asks_a_server, own_usage=None):
        self.name, self.about, self.text, self.options, self.asks_a_server = name, about, text, options, asks_a_server
        self.own_usage = own_usage

    def names_server(self, option):
        """Whether the option is one of those that say where the server is."""
        return self.asks_a_server and option.word in SERVERS

    def servers(self):
        """The options that say where the server is, as a usage has them, in a list that is empty if there are none."""
        servers = [option.usage() for option in self.options if self.names_server(option)]
        return [f'<{"|".join(servers)}>'] if servers else []

    def usage(self):
        """What is after the command in the usage that the parser makes."""
        needed = [option.usage() for option in self.options if option.is_needed and not self.names_server(option)]
        has_options = any(not option.words for option in self.options)
        return ' '.join(['[OPTIONS]'] * has_options + needed + self.servers())

    def longest_usage(self):
        """The same after an error, if every option was given: the parser then lists them instead of [OPTIONS]."""
        return ' '.join([option.usage() for option in self.options if not self.names_server(option)] + self.servers())

    def printed_usage(self, called):
        """Its usage as the help has it, if the program is called so."""
        return 'Usage: ' + (self.own_usage or f'{called} {self.name} {self.usage()}')

    def help(self, called):
        """What `--help` prints, if the program is called so."""
        parts = [self.text, self.printed_usage(called)]
        words = [option.printed() for option in self.options if option.words]
        parts += ['Arguments:\n' + '\n\n'.join(words)] if words else []
        options = [option.printed() for option in self.options if not option.words]
        options.append(f'  {HELP}\n          {LONG_HELP}')
        return '\n\n'.join(parts) + '\n\nOptions:\n' + '\n\n'.join(options) + '\n'

    def short_help(self, called):
        """What `-h` prints, if the program is called so."""
        parts = [self.about, self.printed_usage(called)]
        words = [(option.listed(), option.summary()) for option in self.options if option.words]
        parts += ['Arguments:\n' + columns(words)] if words else []
        options = [(option.listed(), option.summary()) for option in self.options if not option.words]
        return '\n\n'.join([*parts, 'Options:\n' + columns([*options, (f'  {HELP}', SHORT_HELP)])]) + '\n'


def columns(rows):
    """Lines of two columns."""
    width = max(len(first) for first, _ in rows)
    return '\n'.join(f'{first:<{width}}  {second}' for first, second in rows)


class Texts:
    """The texts and the commands of the command line."""

    def __init__(self):
        help, options, commands = [(SOURCES / name).read_text() for name in FILES]
        shells = SHELLS.read_text()
        lists = {name: re.findall(r'"(\w+)"', words) for name, words in WORDS.findall(shells)}
        self.texts = {name: unquoted(text) for name, text in TEXT.findall(help)}
        self.version = VERSION.search(commands)[1]
        made = {name: Option(word, ' '.join(value.split()), absent, self.texts[text], lists)
                for name, word, value, absent, text in OPTION.findall(options)}
        lists = {name: self.listed(name, count, words, made) for name, count, words in OPTIONS.findall(options)}
        found = {name: Command(name, self.texts[about], self.texts[text], lists[of], asks == 'true',
                               self.texts[usage] if usage else None)
                 for name, about, text, usage, of, asks in COMMAND.findall(commands)}
        count, words = ORDER.search(commands).groups()
        self.commands = self.listed('COMMANDS', count, words.replace('_COMMAND', '').lower(), found)

    @staticmethod
    def listed(name, count, words, made):
        """What a list of a source names, of which it says how many they are."""
        named = re.findall(r'\w+', words)
        unknown = [word for word in named if word not in made]
        if unknown or len(named) != int(count):
            raise SystemExit(f'{SOURCES}: {name} cannot be read: {", ".join(unknown) or len(named)}')
        return [made[word] for word in named]


def escaped(text):
    """A line of text for groff, with what stands between two ` in bold."""
    for character, written in (('\\', r'\e'), ('-', r'\-'), ("'", r'\(aq'), ('^', r'\(ha'), ('~', r'\(ti')):
        text = text.replace(character, written)
    text = re.sub(r'`([^`]+)`', r'\\fB\1\\fR', text).replace('`', r'\(ga')
    return r'\&' + text if text.startswith('.') else text


def block(lines):
    """Lines that stay as they are, indented."""
    least = min(len(line) - len(line.lstrip()) for line in lines if line)
    return ['.RS 4', '.nf', *(escaped(line[least:]) if line else '.sp' for line in lines), '.fi', '.RE']


def body(text):
    """Paragraphs and indented blocks of a help text."""
    out = []
    for number, paragraph in enumerate(text.split('\n\n')):
        out += ['.PP'] if number else []
        for is_block, lines in groups(paragraph.split('\n'), lambda line: line.startswith('  ')):
            out += block(lines) if is_block else [escaped(line) for line in lines]
    return out


def groups(lines, kind):
    """The lines, where those of one kind that follow each other stand together."""
    found = []
    for line in lines:
        if not found or found[-1][0] != kind(line):
            found.append((kind(line), []))
        found[-1][1].append(line)
    return found


def plain(text):
    """A text of a document without its links; what is emphasized is between two `."""
    return re.sub(r'\*([^*\s][^*]*)\*', r'`\1`', re.sub(r'\[([^\]]*)\]\([^)]*\)', r'\1', text))


def kind_of(line):
    """What a line of a document is."""
    kinds = {'    ': 'block', '|': 'table', '- ': 'item'}
    return next((kind for begin, kind in kinds.items() if line.startswith(begin)), 'text')


def document_body(text):
    """The paragraphs, lists, tables and indented blocks of a section of a document."""
    out = []
    for paragraph in text.strip('\n').split('\n\n'):
        for kind, lines in groups(paragraph.split('\n'), kind_of):
            if kind == 'block':
                out += ['.PP', *block(lines)]
            elif kind == 'table':
                out += table(lines)
            elif kind == 'item':
                for line in lines:
                    out += [r'.IP \(bu 2', *sentences(line[2:])]
            else:
                out += ['.PP', *sentences(' '.join(lines))]
    return out


def table(lines):
    """A table: its head in italics, and then its rows. The second column and those after it stand below the first."""
    head, _, *rows = [[cell.strip() for cell in line[1:-1].split('|')] for line in lines]
    out = ['.TP', *(rf'\fI{escaped(plain(cell).replace("`", ""))}\fR' for cell in head if cell)]
    for first, *others in rows:
        out += ['.TP', escaped(plain(first)), *(line for cell in others if cell for line in sentences(cell))]
    return out


def sentences(text):
    """Each sentence in a line of its own."""
    return [escaped(sentence) for sentence in re.split(r'(?<=[.!?:]) (?=[A-Z])', plain(text))]


def section(path, heading):
    """What stands below a heading of a document."""
    found = re.search(rf'^## {re.escape(heading)}\n(.*?)(?=^## |\Z)', path.read_text(), re.M | re.S)
    if not found:
        raise SystemExit(f'{path} has no heading {heading}')
    return found[1]


def details(called, added=()):
    """What docs/COMMANDS.md says below `kmipctl` or `kmipctl COMMAND`, and these sections of documents, as parts of a page."""
    first, *rest = re.split(r'^### (.*)\n', section(COMMANDS, called), flags=re.M)
    if first.strip():
        raise SystemExit(f'{COMMANDS}: below {called} is a text without a heading of its own')
    found = [*zip(rest[::2], rest[1::2]), *((title, section(path, title)) for path, title in added)]
    return [(title.upper(), document_body(text)) for title, text in found]


def page(name, number, version, about, parts):
    """A man page: its sections by their titles."""
    lines = [r'.\" made by tools/man_pages.py: edit what it is made of, and run make man',
             f'.TH {name.upper()} {number} "" "kmipctl {version}" "kmipctl"'.replace('-', r'\-'),
             '.nh', '.ad l', '.SH NAME', rf'{escaped(name)} \- {escaped(about)}']
    for title, part in parts:
        lines += [f'.SH {title}', *part]
    return '\n'.join(lines) + '\n'


def small(text):
    """The text with a small first letter."""
    return text[0].lower() + text[1:]


def typed(usage):
    """A usage, with what is typed in bold and what is put in in italics."""
    usage = re.sub(r'<(--[^ ].*)>', lambda found: '{' + found[1].replace('|', ' | ') + '}', usage)
    usage = re.sub(r'<(\w+)>', r'\\fI\1\\fR', usage.replace('[OPTIONS]', r'[\fIOPTIONS\fR]'))
    return re.sub(r'--([\w-]+)', lambda found: r'\fB\-\-' + found[1].replace('-', r'\-') + r'\fR', usage)


def option_lines(option):
    """An option with its help, for a page."""
    said = [escaped(option.help), *([escaped(option.beside())] if option.beside() else [])]
    said += [f'One of {escaped(", ".join(option.words))}.'] if option.words else []
    said += [rf'The default is \fB{escaped(option.default)}\fR.'] if option.default else []
    said[0] += '' if len(said) == 1 or said[0].endswith(']') else '.'
    return ['.TP', typed(option.usage()), *said]


def titled(text, title):
    """What a help text says after a title, as `Exit status:`."""
    for paragraph in text.split('\n\n'):
        if paragraph.startswith(title):
            said = paragraph[len(title) + 1:]
            return body(said[0].upper() + said[1:])
    raise SystemExit(f'a help text has no paragraph {title} {text[:60]} ..')


def untitled(text):
    """The paragraphs of a help text that are not sections of their own."""
    paragraphs = text.split('\n\n')
    return body('\n\n'.join(part for part in paragraphs if not part.startswith((EXAMPLES, EXIT_STATUS, ENVIRONMENT))))


def see_also(names):
    return ',\n'.join(rf'\fB{escaped(name)}\fR({number})' for name, number in names).split('\n')


def command_page(command, texts):
    """The page of a command."""
    words = {option.word for option in command.options}
    options = [line for option in command.options for line in option_lines(option)]
    parts = [('SYNOPSIS', [rf'\fBkmipctl {command.name}\fR {typed(command.usage())}']),
             ('DESCRIPTION', untitled(command.text)),
             ('OPTIONS', [*options, '.TP', r'\fB\-h\fR, \fB\-\-help\fR', escaped('Print help')]),
             *details(f'kmipctl {command.name}', ADDED.get(command.name, ()))]
    if words & {'plan', 'progress', *SERVERS}:
        parts.append(('ENVIRONMENT', titled(texts.texts['AFTER_HELP'], ENVIRONMENT)))
    parts += [('EXIT STATUS', titled(command.text, EXIT_STATUS)), ('EXAMPLES', titled(command.text, EXAMPLES)),
              ('SEE ALSO', see_also([('kmipctl', 1), ('kmip-plan', 5)]))]
    return page(f'kmipctl-{command.name}', 1, texts.version, small(command.about), parts)


def program_page(texts):
    """The page of the program."""
    about, after = texts.texts['ABOUT'], texts.texts['AFTER_HELP']
    commands = [line for command in texts.commands
                for line in ('.TP', rf'\fBkmipctl\-{command.name}\fR(1)', escaped(command.about) + '.')]
    parts = [('SYNOPSIS', [r'\fBkmipctl\fR [\fICOMMAND\fR [\fIOPTIONS\fR]]', '.br',
                           r'\fBkmipctl\fR {\fB\-\-help\fR | \fB\-\-version\fR}']),
             ('DESCRIPTION', [*body(about), '.PP', *untitled(after)]), ('COMMANDS', commands), *details('kmipctl'),
             ('ENVIRONMENT', titled(after, ENVIRONMENT)), ('EXIT STATUS', titled(after, EXIT_STATUS)),
             ('SEE ALSO', see_also([*((f'kmipctl-{command.name}', 1) for command in texts.commands), ('kmip-plan', 5)]))]
    first = ' '.join(about.split(';')[0].split()).replace('kmipctl makes', 'make', 1)
    return page('kmipctl', 1, texts.version, first, parts)


def plan_page(texts):
    """The page of the plan and the progress file."""
    check = texts.texts['CHECK_LONG']
    found = re.search(r'^A plan is a TOML file.*?(?=^For each key)', check, re.M | re.S)
    if not found:
        raise SystemExit(f'{SOURCES}: the help of check does not say what a plan is')
    parts = [('DESCRIPTION', body(found[0].rstrip('\n'))),
             ('CHANGING A PLAN', document_body(section(OPERATING, 'Changing a plan'))),
             ('THE PROGRESS FILE', document_body(section(OPERATING, 'The progress file'))),
             ('EXAMPLE', block(EXAMPLE.read_text().rstrip('\n').split('\n'))),
             ('SEE ALSO', see_also([('kmipctl', 1), ('kmipctl-check', 1), ('kmipctl-run', 1), ('kmipctl-list', 1)]))]
    return page('kmip-plan', 5, texts.version, 'the plan of keys of kmipctl, and its progress file', parts)


def pages():
    """The pages by their names."""
    texts = Texts()
    made = {f'kmipctl-{command.name}.1': command_page(command, texts) for command in texts.commands}
    return {'kmipctl.1': program_page(texts), **made, 'kmip-plan.5': plan_page(texts)}


def check_man_pages():
    """Prints which pages are not what they are made of, and returns how many."""
    made, there, faults = pages(), {path.name: path.read_text() for path in PAGES.glob('*')}, 0
    for name in sorted(made.keys() | there.keys()):
        if made.get(name) != there.get(name):
            faults += 1
            print(f'{PAGES}/{name}: it is not what the sources and documents say: run make man')
    return faults


def write_pages():
    PAGES.mkdir(parents=True, exist_ok=True)
    made = pages()
    for path in PAGES.glob('*'):
        if path.name not in made:
            path.unlink()
    for name, text in made.items():
        (PAGES / name).write_text(text)


def compare(program):
    """Compares the help of each command with the one that the sources give, and returns the exit status."""
    texts, called, wrong = Texts(), pathlib.Path(program).name, set()
    for command in texts.commands:
        for word, wanted in ('-h', command.short_help(called)), ('--help', command.help(called)):
            words = [str(program), command.name, word]
            said = subprocess.run(words, capture_output=True, text=True, stdin=subprocess.DEVNULL).stdout
            if said != wanted:
                wrong.add(command.name)
                print(f'{command.name}: what {word} prints is not what the sources say')
    print(f'{len(texts.commands)} commands, {len(wrong)} wrong')
    return 1 if wrong else 0


def main(words):
    if words:
        return compare(words[0])
    write_pages()
    return 0


if __name__ == '__main__':
    sys.exit(main(sys.argv[1:]))
