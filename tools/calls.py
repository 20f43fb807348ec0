"""Which functions the program calls: those that `kmip_program::run_program` reaches by their names, through all crates.

docs/PROOF.md has a table of the commands, with the calls that each makes. Each call there has to be one that the
program reaches, and each command of the program needs a row. So no sentence is said of a call that only tests make.
"""
import pathlib
import re

from items import reexports_of
from mistakes import functions_of
from sources import CRATES

PAGE = pathlib.Path('docs/PROOF.md')
HEADING = '## What this says of the commands'
FIRST = 'kmip_program', 'run_program'
COMMANDS = pathlib.Path('crates/kmip_command_line/src/subcommand.rt')
NAME = re.compile(r'^    name: "(\w+)",$', re.M)
CALL = re.compile(r'`(?:(\w+)::)?(\w+)`')
CALLED = re.compile(r'(?<![.\w])(?:(\w+)::)?([a-z_]\w*)(?:::<[^>]*>)?\(|[(,]\s*(?:(\w+)::)?([a-z_]\w*)\s*(?=[,)])')
COMMENT = re.compile(r'//.*|\bfn \w+')


class Crates:
    """The functions of the crates by their names, and what each crate brings in from others."""

    def __init__(self, names):
        self.names, self.known, self.brought = names, {}, {}

    def functions(self, crate):
        if crate not in self.known:
            self.known[crate] = functions_of(crate)
        return self.known[crate]

    def imports(self, crate):
        """Each name that the `use` lines of a crate bring in from another, with that crate."""
        if crate not in self.brought:
            found = self.brought[crate] = {}
            for path in sorted((CRATES / crate / 'src').glob('*.rt')):
                for other, names in re.findall(r'^use (\w+)::(\{[^}]*\}|\w+);', path.read_text(), re.M):
                    if other in self.names:
                        found.update({name: other for name in re.findall(r'\w+', names)})
        return self.brought[crate]

    def home(self, crate, name):
        """The crate that makes the function which this crate shows by the name; none where it shows none."""
        if name in self.functions(crate):
            return crate
        return next((other for other, names in reexports_of(crate, self.names) if name in names), None)

    def meant(self, crate, qualifier, name):
        """The function that a call in a crate means: its crate and its name; none where it is no function of a crate."""
        if qualifier in self.names:
            home = self.home(qualifier, name)
        elif qualifier:
            return None
        else:
            other = self.imports(crate).get(name)
            home = self.home(other, name) if other else crate if name in self.functions(crate) else None
        return (home, name) if home else None

    def reached(self, first):
        """All functions that one reaches, itself among them."""
        seen, waiting = set(), [first]
        while waiting:
            crate, name = one = waiting.pop()
            if one in seen:
                continue
            seen.add(one)
            for function in self.functions(crate).get(name, []):
                for qualifier, called, other, handed in CALLED.findall(COMMENT.sub('', function.body)):
                    meant = self.meant(crate, qualifier or other, called or handed)
                    waiting += [meant] if meant else []
        return seen


def rows_of(text):
    """The rows of the table: the commands of each row's first cell, and the calls of its second."""
    part = text.partition(HEADING)[2].partition('\n## ')[0]
    for line in part.splitlines():
        if line.startswith('| `'):
            commands, calls = line.split('|')[1:3]
            yield re.findall(r'`(\w+)`', commands), CALL.findall(calls)


def faults_of(text, commands, reached):
    rows = list(rows_of(text))
    said = [command for names, _ in rows for command in names]
    for command in commands:
        if said.count(command) != 1:
            yield f'{PAGE}: `{command}` has {said.count(command)} rows below "{HEADING[3:]}"'
    for command in said:
        if command not in commands:
            yield f'{PAGE}: the program has no command {command}'
    for _, calls in rows:
        for crate, name in calls:
            if not any(called == name and crate in ('', home) for home, called in reached):
                yield f'{PAGE}: the program does not call {crate + "::" * bool(crate)}{name}'


def check_calls(repository):
    """Prints what the table of commands says that is not so, and returns how many places there are."""
    if not PAGE.exists() or not COMMANDS.exists():
        return 0
    reached = Crates(repository.crates).reached(FIRST)
    faults = list(faults_of(PAGE.read_text(), NAME.findall(COMMANDS.read_text()), reached))
    for fault in faults:
        print(fault)
    return len(faults)
