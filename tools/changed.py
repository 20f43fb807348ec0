#!/usr/bin/env python3
"""Works on the crates whose files changed, lowest first.

    tools/changed.py list [REVISION]     prints their names
    tools/changed.py check [REVISION]    proves each, and runs its tests without a proof
    tools/changed.py fmt                 lays out the files of all crates, and prints which of them it changed

Run it at the top of the repository (`make check` and `make fmt` do). Changed is what differs from the revision, HEAD
where none is given, and each file that git does not track yet. A crate that stands on a changed one is not checked:
`rt ci` does that. `check` stops at the first crate that fails, prints what `rt` printed, and ends with status 1.
"""
import pathlib
import subprocess
import sys
import time

sys.dont_write_bytecode = True

CRATES = pathlib.Path('crates')


def crates():
    """The names of all crates, lowest first, as crates.txt has them."""
    lines = pathlib.Path('crates.txt').read_text().splitlines()
    return [line.split(':')[0].split()[0] for line in lines if line.strip() and not line.startswith('#')]


def printed(*command):
    return subprocess.run(command, stdout=subprocess.PIPE, text=True, check=True).stdout


def changed(revision):
    """The names of the crates that changed, lowest first."""
    paths = printed('git', 'diff', '--name-only', revision, '--', 'crates').splitlines()
    paths += printed('git', 'ls-files', '--others', '--exclude-standard', '--', 'crates').splitlines()
    names = {pathlib.PurePath(path).parts[1] for path in paths}
    return [name for name in crates() if name in names]


def has_tests(name):
    return any('#[test]' in path.read_text() for path in (CRATES / name / 'src').rglob('*.rt'))


def succeeds(name, *command):
    """Runs a command in a crate's folder, prints a line of it, and returns whether it passed."""
    start = time.monotonic()
    done = subprocess.run(command, cwd=CRATES / name, stdin=subprocess.DEVNULL, stdout=subprocess.PIPE,
                          stderr=subprocess.STDOUT, text=True, errors='replace')
    if done.returncode:
        print(done.stdout, end='')
    word = 'FAILED' if done.returncode else 'ok'
    print(f'{name}: {" ".join(command)}: {word}, {time.monotonic() - start:.0f} s', flush=True)
    return not done.returncode


def check(revision):
    names = changed(revision)
    if not names:
        print('no crate changed')
    return 0 if all(succeeds(name, 'rt', 'check') and (not has_tests(name) or succeeds(name, 'rt', 'try', '--test'))
                    for name in names) else 1


def lay_out():
    for name in crates():
        done = subprocess.run(['rt', 'fmt'], cwd=CRATES / name, stdout=subprocess.PIPE, stderr=subprocess.STDOUT, text=True)
        if done.stdout or done.returncode:
            print(f'{name}:\n{done.stdout}', end='', flush=True)
        if done.returncode:
            return 1
    return 0


def main(words):
    if words == ['fmt']:
        return lay_out()
    if words[:1] not in (['list'], ['check']) or len(words) > 2:
        print(__doc__.strip())
        return 2
    revision = (words[1:] or ['HEAD'])[0]
    if words[0] == 'check':
        return check(revision)
    print(*changed(revision), sep='\n')
    return 0


if __name__ == '__main__':
    sys.exit(main(sys.argv[1:]))
