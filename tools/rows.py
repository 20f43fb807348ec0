#!/usr/bin/env python3
"""The rows, without a proof: the programs carry them out, and say which of them are wrong.

    tools/rows.py [--crate NAME] [--file NAME] [--name WORD]

Run it at the top of the repository (`make rows` does, with CRATE, FILE and NAME): it runs all rows, or those of a
crate, of a file (`sim` is data/sim.rows), and those whose names begin with a word. A program that is built is run as
it is; else `rt try` runs its sources. Crates are tried at once, as many as there
are processors. A stored run that has no rows, as that of kmipctl, is
compared with its stdout. For each row that is wrong its file, line and name are printed, what was wanted, and what it
got. The exit status is 1 where one is wrong, or there is none.
"""
import argparse
import concurrent.futures
import os
import pathlib
import re
import shutil
import subprocess
import sys
import tempfile

sys.dont_write_bytecode = True

from row_files import CRATES, check_rows, files_of, rows_in

MOST_SECONDS = 1800
# Rows that are left out where nothing is built. `rt try` compiles without optimizing, with a check of each access to memory,
# so that a row with many thousand messages or runs takes many times as long as in the program that is built.
SLOW = {
    'rows_client': ['taken-locate-k1', 'taken-create-k1', 'taken-create-k1-reply', 'taken-locate-k1-found',
                    'kept-through-changes', 'kept-through-changes-2', 'kept-through-changes-3', 'learnt-from-changes'],
    'rows_campaign': ['creates-cut-at-each-place', 'pairs-of-plans-1', 'pairs-of-plans-8', 'thousand-keys'],
    'rows_kmipctl': ['ten-thousand-lines', 'name-no-object-refused-then', 'thousand-keys'],
}
OWN_LINE = re.compile(r'^(?:checked: ended status=|run=ended status=)', re.M)


def programs():
    """The crates that have a stored run."""
    return [path.parent.name for path in sorted(CRATES.glob('*/stdout'))]


def program_of(crate):
    """Where the program of a crate stands, once it is built."""
    return CRATES / crate / 'out' / crate


def run(crate, words, changed=None):
    """What the program prints for its stdin and these words, how it ended, and how it was run. `changed` says which files
    of its data have another text under `rt try`, each with the path of that text."""
    folder, built = CRATES / crate, program_of(crate)
    data = sorted((folder / 'data').glob('*'))
    given = (folder / 'stdin').read_bytes() if (folder / 'stdin').exists() else b''
    kept = {'input': given, 'stdout': subprocess.PIPE, 'stderr': subprocess.PIPE, 'timeout': MOST_SECONDS}
    if built.exists():
        with tempfile.TemporaryDirectory() as there:
            for file in data:
                shutil.copy(file, there)
            done = subprocess.run([built.resolve(), *words], cwd=there, **kept)
        return done.stdout.decode('utf-8', 'replace'), done, 'the program that is built'
    command = ['rt', 'try', '--seconds', str(MOST_SECONDS)]
    for file in data:
        command += ['--data', f'{file.name}={(changed or {}).get(file, file.relative_to(folder))}']
    done = subprocess.run([*command, *(['--', *words] if words else [])], cwd=folder, **kept)
    text = done.stdout.decode('utf-8', 'replace')
    found = OWN_LINE.search(text)
    return text[:found.start()] if found else text, done, 'rt try'


def run_rows(crate, files, name, slow=()):
    """Runs the rows of these files but the slow ones: whether all are right, and what the program says of them."""
    with tempfile.TemporaryDirectory() as there:
        changed = {file: pathlib.Path(there) / file.name for file in files
                   if any(row.name in slow for row in rows_in(file))}
        for file, path in changed.items():
            path.write_text(without(file, slow))
        text, done, how = run(crate, [file.name for file in files] + (['--name', name] if name else []), changed)
    told = re.sub(r'^(\w+\.rows:)', rf'crates/{crate}/data/\1', text, flags=re.M)
    if not re.search(r'^\d+ rows, \d+ wrong$', text, re.M):
        told += done.stderr.decode('utf-8', 'replace')[-600:].strip() + '\n'
    if slow:
        told += f'{crate}: left out, as rt try is slow at them: {" ".join(slow)} (FILE= or NAME= runs them)\n'
    return done.returncode == 0, f'{told}{crate}: {"right" if done.returncode == 0 else "WRONG"}, by {how}'


def without(path, names):
    """The text of a file, with empty lines in the place of the rows of these names, so that each other line keeps its
    number."""
    lines, rows = path.read_text().splitlines(), rows_in(path)
    ends = [row.number - 1 for row in rows[1:]] + [len(lines)]
    for row, end in zip(rows, ends):
        if row.name in names:
            lines[row.number - 1:end] = [''] * (end - row.number + 1)
    return '\n'.join(lines) + '\n'


def run_stored(crate):
    """Runs a stored run that has no rows: whether it prints what is stored, and the first line that it does not."""
    wanted = (CRATES / crate / 'stdout').read_text()
    text, _, how = run(crate, [])
    place = difference(wanted, text)
    told = ''
    if place:
        number, one, other = place
        told = f'crates/{crate}/stdout:{number}\n  wanted: {one}\n  got:    {other}\n'
    return not place, f'{told}{crate}: {"WRONG" if place else "right"}, by {how}'


def difference(wanted, got):
    """The first line that differs, from 1: what was wanted there and what came; none where there is no such line."""
    wanted, got = wanted.splitlines(), got.splitlines()
    for number in range(max(len(wanted), len(got))):
        one, other = (lines[number] if number < len(lines) else 'the end' for lines in (wanted, got))
        if one != other:
            return number + 1, one, other
    return None


def chosen(crate, file, name):
    """The files of a crate with rows that are asked for."""
    files = [path for path in files_of(crate) if not file or path.stem == file.removesuffix('.rows')]
    return [path for path in files if not name or any(row.name.startswith(name) for row in rows_in(path))]


def left_out(crate, asked):
    """The names of the rows of a crate that are not run: the slow ones, where nothing is built and no word asks for them."""
    return [] if asked.file or asked.name or program_of(crate).exists() else SLOW.get(crate, [])


def gone():
    """Prints which slow rows a crate has no longer, and returns how many these are."""
    faults = [f'tools/rows.py: {crate} has no row {name}' for crate, names in SLOW.items() if (CRATES / crate).exists()
              for name in names if not any(row.name == name for path in files_of(crate) for row in rows_in(path))]
    for fault in faults:
        print(fault)
    return len(faults)


def tasks(crate, asked):
    """What is to be run of a crate: a function and its arguments, or nothing."""
    if files_of(crate):
        files = chosen(crate, asked.file, asked.name)
        return [(run_rows, crate, files, asked.name, left_out(crate, asked))] if files else []
    return [] if asked.file or asked.name else [(run_stored, crate)]


def main(words):
    parser = argparse.ArgumentParser(description='Runs the rows without a proof.')
    for option in '--crate', '--file', '--name':
        parser.add_argument(option, default='')
    asked = parser.parse_args(words)
    right, wrong = 0, check_rows() + gone()
    crates = [asked.crate] if asked.crate else programs()
    with concurrent.futures.ThreadPoolExecutor(os.cpu_count()) as pool:
        tried = [pool.submit(*task) for crate in crates for task in tasks(crate, asked)]
        for good, told in (one.result() for one in tried):
            print(told, flush=True)
            right, wrong = right + good, wrong + (not good)
    if not right + wrong:
        print('no such row')
    return 0 if right and not wrong else 1


if __name__ == '__main__':
    sys.exit(main(sys.argv[1:]))
