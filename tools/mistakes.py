"""Compares docs/MISTAKES.md with the edits, the tests and the clauses that it names."""
import pathlib
import re

from row_files import files_of, rows_in
from sources import CRATES, Crate, imports_of

MISTAKES = pathlib.Path('docs/MISTAKES.md')
START = re.compile(r'(\s*)(?:pub )?(?:pub\(crate\) )?(?:const )?fn (\w+)')
OWNER = re.compile(r'(?:impl|(?:pub(?:\(crate\))? )?trait)\b.*?(\w+)(?:<[^{]*>)? \{$')


class Known:
    """A function of a crate, public or private: the names of its clauses, its lines, and whether it has a loop.

    The fields of a record that is its only promise count as clauses.
    """

    def __init__(self, clauses, promises, body):
        self.named = {name for _, name, _, _ in promises if name}
        self.ensured = [name for kind, name, _, _ in clauses if kind == 'ensures']
        self.body = body
        self.has_loop = bool(re.search(r'^\s*(?:while|for|loop)\b.*\{$', body, re.M))


def check_mistakes(repository):
    """What docs/MISTAKES.md names that is not there: an edit, a test, a row, a function or a clause of one."""
    faults, crates, rows = 0, {}, 0
    for number, line in enumerate(MISTAKES.read_text().splitlines(), 1):
        if not line.startswith('|') or line.startswith(('| the mistake |', '|---')):
            continue
        rows += 1
        cells = [cell.strip() for cell in line.strip('|').split('|')]
        if len(cells) != 3:
            faults += 1
            print(f'{MISTAKES}:{number}: a row of another number of cells than three')
            continue
        crate = cells[1].partition(':')[0]
        if crate not in crates:
            crates[crate] = functions_of(crate, repository)
        for fault in faults_of(crate, crates[crate], cells[1], cells[2]):
            faults += 1
            print(f'{MISTAKES}:{number}: {fault}')
    if not rows:
        faults += 1
        print(f'no mistake in {MISTAKES}')
    return faults


def functions_of(crate, repository=None):
    """The functions of a crate by their names, and also by the type or trait in whose block they stand."""
    known = {}
    for path in sorted((CRATES / crate / 'src').glob('*.rt')):
        lines, owner, imports = path.read_text().splitlines(), None, imports_of(path.read_text(), 'ghost ')
        for number, line in enumerate(lines):
            opened, start = OWNER.match(line), START.match(line)
            owner = opened.group(1) if opened else None if line == '}' else owner
            if start:
                ends = start.group(1) + '}'
                last = next((at for at in range(number, len(lines)) if lines[at] == ends), number)
                clauses = Crate.contract(lines, number)[2]
                promises = repository.opened(clauses, imports) if repository else clauses
                function = Known(clauses, promises, '\n'.join(lines[number:last]))
                for name in [start.group(2)] + [f'{owner}::{start.group(2)}'] * bool(owner):
                    known.setdefault(name, []).append(function)
    return known


def faults_of(crate, functions, tried, refused):
    """What is wrong with a row: how the mistake is tried, and what refuses it."""
    edit = re.fullmatch(r'\w+: `(\w+\.edit)`', tried)
    test = re.fullmatch(r'\w+: the test `(\w+)`', tried)
    row = re.fullmatch(r'\w+: the row `([^`]+)` of (\w+)', tried)
    if not functions:
        yield f'no crate has the name {crate}'
    elif edit:
        if not (CRATES / crate / 'must-fail' / edit.group(1)).is_file():
            yield f'{crate} has no edit {edit.group(1)}'
        for part in refused.split('; '):
            yield from faults_of_part(crate, functions, part)
    elif test:
        pattern = re.compile(r'#\[test\]\n(?:\s*#\[.*\]\n)*\s*fn ' + test.group(1) + r'\b')
        if not any(pattern.search(path.read_text()) for path in (CRATES / crate / 'src').glob('*.rt')):
            yield f'{crate} has no test {test.group(1)}'
    elif row:
        name, file = row.groups()
        if not any(name == one.name for path in files_of(crate) if path.stem == file for one in rows_in(path)):
            yield f'{crate} has no row {name} in {file}'
    else:
        yield f'neither an edit nor a test nor a row: {tried}'


def faults_of_part(crate, functions, part):
    """What is wrong with a function, or a type, and the clauses that are to refuse a body."""
    said = re.fullmatch(r'`([\w:]+)`, (its one clause|its loop|its invariant|\*\w+\*(?:, \*\w+\*)*)', part)
    if not said:
        yield f'neither a function with its clauses nor a type with its invariant: {part}'
        return
    name, what = said.groups()
    found = functions.get(name, [])
    if what == 'its invariant':
        sources = '\n'.join(path.read_text() for path in (CRATES / crate / 'src').glob('*.rt'))
        block = re.search(rf'^impl[^\n]* Model for {name}\b[^\n]*\{{\n(.*?)^\}}', sources, re.M | re.S)
        if not block or 'ghost invariant' not in block.group(1):
            yield f'{crate} has no type {name} with an invariant'
    elif not found:
        yield f'{crate} has no function {name}'
    elif what == 'its loop':
        if not any(one.has_loop for one in found):
            yield f'{crate}::{name} has no loop'
    elif what == 'its one clause':
        if not any(len(one.ensured) == 1 for one in found):
            yield f'{crate}::{name} has another number of clauses than one'
    else:
        clauses = set().union(*(one.named for one in found))
        for clause in re.findall(r'\*(\w+)\*', what):
            if clause not in clauses:
                yield f'{crate}::{name} has no clause {clause}'
