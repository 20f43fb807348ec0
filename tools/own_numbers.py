#!/usr/bin/env python3
"""The numbers that are this project's own, as a table in docs/DECISIONS.md: the constants whose docstring says (own).

    tools/own_numbers.py            writes the table
    tools/own_numbers.py --check    says whether it is up to date; the exit status is 1 where it is not

Run it at the top of the repository. The crates of tests have none.
"""
import pathlib
import re
import sys

sys.dont_write_bytecode = True

from made import made_part
from sources import CRATES

PAGE = pathlib.Path('docs/DECISIONS.md')
TOOL = 'tools/own_numbers.py'
CONSTANT = re.compile(r'((?: *///[^\n]*\n)+)(?: *#\[[^\n]*\n)* *(?:pub |pub\(crate\) )?const (\w+): [^=]+= ((?:\[[^\]]*\]|[^;[])+);')
OWN = re.compile(r'\s*\(own\)')


def own_numbers():
    """Each constant that is the project's own: its crate, its value, what it says, its name and its file."""
    for path in sorted(CRATES.glob('*/src/*.rt')):
        for docs, name, value in CONSTANT.findall(path.read_text()):
            said = ' '.join(line.strip()[3:].strip() for line in docs.splitlines())
            if OWN.search(said):
                yield path, name, ' '.join(value.split()), re.split(r'(?<=\.)\s', OWN.sub('', said))[0].rstrip('.')


def table():
    lines = ['| number | what it is | constant |', '|---|---|---|']
    for path, name, value, said in own_numbers():
        lines.append(f'| {value.replace("_", ",")} | {said} | [`{name}`](../{path}) of {path.parts[1]} |')
    return '\n'.join(lines) + '\n'


def check_own_numbers():
    """Says whether the table is out of date; returns 1 then."""
    if not PAGE.exists() or made_part(PAGE, TOOL, table()) == PAGE.read_text():
        return 0
    print(f'{PAGE}: its table of numbers is out of date: run {TOOL}')
    return 1


def main(words):
    if words == ['--check']:
        return check_own_numbers()
    PAGE.write_text(made_part(PAGE, TOOL, table()))
    return 0


if __name__ == '__main__':
    sys.exit(main(sys.argv[1:]))
