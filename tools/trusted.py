#!/usr/bin/env python3
"""The ported crates that the program and its tests stand on, as a list in docs/PROOF.md.

    tools/trusted.py            writes the list
    tools/trusted.py --check    says whether it is up to date; the exit status is 1 if it is not

Run it at the top of the repository. A ported crate is one that a line of crates.txt names after its colon and that has
no line of its own. The toolchain brings it, with its contracts.
"""
import pathlib
import sys

sys.dont_write_bytecode = True

from made import made_part
from package import crates_of

PAGE = pathlib.Path('docs/PROOF.md')
TOOL = 'tools/trusted.py'
PROGRAM = 'kmipctl'


def ported(text):
    """The ported crates of the program, and those of the tests alone."""
    names = [line.split(':')[0] for line in text.splitlines() if ':' in line and not line.startswith('#')]
    of_program = crates_of(text, PROGRAM)[1]
    of_all = set().union(*(crates_of(text, name)[1] for name in names))
    return of_program, sorted(of_all - set(of_program))


def list_of(text):
    of_program, of_tests = ported(text)
    lines = [f'- The contracts of the ported crates that it brings: {joined(of_program)}.']
    if of_tests:
        lines.append(f'- The tests also use {joined(of_tests)}.')
    return '\n'.join(lines) + '\n'


def joined(names):
    return ', '.join(names[:-1]) + ' and ' + names[-1] if len(names) > 1 else ''.join(names)


def page():
    return made_part(PAGE, TOOL, list_of(pathlib.Path('crates.txt').read_text()))


def check_trusted():
    """Says whether the list is out of date; returns 1 then."""
    if not PAGE.exists() or page() == PAGE.read_text():
        return 0
    print(f'{PAGE}: its list of ported crates is out of date: run {TOOL}')
    return 1


def main(words):
    if words == ['--check']:
        return check_trusted()
    PAGE.write_text(page())
    return 0


if __name__ == '__main__':
    sys.exit(main(sys.argv[1:]))
