"""The files of rows of the crates: what they say, and what is wrong with them as files.

How such a file is written is said at the head of crates/test_support/src/rows.rt.
"""
import collections
import pathlib

CRATES = pathlib.Path('crates')
MARGIN = '    '


class Call:
    """A call: the number of its first line, that line, its other lines, and the lines that it has to tell."""

    def __init__(self, number, head):
        self.number, self.head, self.lines, self.wanted = number, head, [], []


class Row:
    """A row: the number of its first line, its name, and its calls."""

    def __init__(self, number, name):
        self.number, self.name, self.calls = number, name, []


def files_of(crate):
    """The files of rows of a crate, in the order in which its program runs them."""
    args = CRATES / crate / 'args'
    return [CRATES / crate / 'data' / name for name in args.read_text().split()] if args.exists() else []


def crates_with_rows():
    return [path.parent.name for path in sorted(CRATES.glob('*/args')) if list((path.parent / 'data').glob('*.rows'))]


def rows_in(path):
    """The rows of a file."""
    rows, gap = [], 0
    for number, line in enumerate(path.read_text().splitlines(), 1):
        if line.startswith('# '):
            rows.append(Row(number, line[2:].partition(': ')[0]))
        elif line.startswith('##') or not rows:
            continue
        elif not line:
            gap += 1
            continue
        elif line.startswith(MARGIN) and rows[-1].calls:
            wanted = rows[-1].calls[-1].wanted
            wanted += [''] * (gap if wanted else 0) + [line[len(MARGIN):]]
        elif line.startswith('>') and rows[-1].calls:
            rows[-1].calls[-1].lines.append(line[1:].removeprefix(' '))
        else:
            rows[-1].calls.append(Call(number, line))
        gap = 0
    return rows


def check_rows():
    """Prints what is wrong with the files of rows, and returns how much: names that stand twice in a file, files that
    are not run, and another count of rows than stdout says."""
    faults = []
    for crate in crates_with_rows():
        paths, count = files_of(crate), 0
        faults += [f'{path}: stands not in crates/{crate}/args' for path in sorted((CRATES / crate / 'data').glob('*.rows'))
                   if path not in paths]
        for path in paths:
            rows = rows_in(path)
            count += len(rows)
            names = collections.Counter(row.name for row in rows)
            faults += [f'{path}:{row.number}: the name {row.name} stands here {names[row.name]} times'
                       for row in rows if names[row.name] > 1]
            faults += [f'{path}:{row.number}: no name is {row.name}' for row in rows if ' ' in row.name or not row.name]
            faults += [f'{path}:{call.number}: neither a row, `# NAME`, nor a remark, `## WORDS`'
                       for row in rows for call in row.calls if call.head.startswith('#')]
        said = (CRATES / crate / 'stdout').read_text()
        if said != f'{count} rows, 0 wrong\n':
            faults.append(f'crates/{crate}/stdout: is to be {count} rows, 0 wrong')
    for fault in faults:
        print(fault)
    return len(faults)
