#!/usr/bin/env python3
"""The definitions that the headline rests on, as a list in docs/PROOF.md, in the order in which to read them.

    tools/headline.py            writes the list
    tools/headline.py --check    says whether it is up to date; the exit status is 1 where it is not

Run it at the top of the repository. The headline is the clause *safe* of `kmip_runs::campaign`. The list has three parts,
each with its count: what the conclusion of the clause rests on, what its premises add, and what the methods of a link
owe. A part has an entry for each file of specs/, with what the file says of itself and the definitions that count.
"""
import pathlib
import re
import sys

sys.dont_write_bytecode = True

from made import made_part
from sources import Repository
from traits import Spoken, counted

PAGE = pathlib.Path('docs/PROOF.md')
TOOL = 'tools/headline.py'
CALL, CLAUSE = 'kmip_runs::campaign', 'safe'
FIRST = 'Headline'
NAMED = re.compile(r'^--     (\w+)  ', re.M)


def headline_list(repository):
    """The parts, and the entries of each, crate by crate."""
    lines = []
    for number, (title, things) in enumerate(spoken(repository).parts()):
        lines += ['', f'**{title}**: {counted(repository.in_order(things), "more " if number else "")}.']
        crate = ''
        for file, definitions in by_file(repository, things):
            if file.crate != crate:
                crate = file.crate
                lines += ['', f'{crate}', '']
            names = ', '.join(f'`{name}`' for one in definitions for name in one.names)
            lines.append(f'- [{file.path.stem}](../{file.path}): {" ".join(file.says)}')
            lines += [f'  {part}' for part in wrapped(names)]
    return '\n'.join(lines[1:] + ['', ''])


def spoken(repository):
    """What the clause speaks of."""
    function = next(one for one in repository.functions if one.path == CALL)
    return Spoken(repository, function, next(one for one in function.promises if one[1] == CLAUSE))


def by_file(repository, things):
    """The files that have these definitions, each below those that it uses, with their definitions."""
    files = []
    for one in repository.in_order(things):
        if not files or files[-1][0] is not one.file:
            files.append((one.file, []))
        files[-1][1].append(one)
    return files


def wrapped(names, most=110):
    """The names in lines of at most so many characters."""
    lines = ['']
    for name in names.split(', '):
        if lines[-1] and len(lines[-1]) + len(name) > most:
            lines.append('')
        lines[-1] += (', ' if lines[-1] else '') + name
    return [line + ',' for line in lines[:-1]] + lines[-1:]


def check_headline(repository):
    """Says whether the list is out of date; returns 1 then."""
    if not PAGE.exists():
        return 0
    faults = [*first_faults(repository)]
    if made_part(PAGE, TOOL, headline_list(repository)) != PAGE.read_text():
        faults.append(f'{PAGE}: its list of definitions is out of date: run {TOOL}')
    for fault in faults:
        print(fault)
    return len(faults)


def first_faults(repository):
    """The files that a reader opens first and that do not name the other files of their crate, in their order."""
    files = [file for file, _ in by_file(repository, repository.behind(spoken(repository).roots))]
    for first in files:
        if first.path.stem == FIRST:
            others = [file.path.stem for file in files if file.crate == first.crate and file is not first]
            if NAMED.findall(first.path.read_text()) != others:
                yield f'{first.path}: it has to name, in this order: {", ".join(others)}'


def main(words):
    repository = Repository()
    if words == ['--check']:
        return check_headline(repository)
    PAGE.write_text(made_part(PAGE, TOOL, headline_list(repository)))
    return 0


if __name__ == '__main__':
    sys.exit(main(sys.argv[1:]))
