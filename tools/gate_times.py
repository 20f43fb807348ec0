#!/usr/bin/env python3
"""Says how many minutes of a processor each crate took in a gate.

    tools/gate_times.py [SECONDS]

It runs beside `make test` or `rt ci`, reads /proc every second, and prints a line for each crate once no check
has run for SECONDS (120), or at an interrupt. A proof has what is built with it, tests have a proof of their
own, and wrong bodies begin with one more, of the crate as it stands. What ends between two looks is cut by a
second at most.
"""
import collections
import os
import pathlib
import sys
import time

KINDS = ('proof', 'tests', 'beginning', 'wrong bodies')
TICKS = os.sysconf('SC_CLK_TCK')


def crate_of(words):
    """Returns the crate that a command of the prover is about, if it is one."""
    prover = words and words[0].endswith('/rattle')
    return words[words.index('--crate-name') + 1] if prover and '--crate-name' in words[:-1] else None


def kind_of(words):
    """Returns what a command of the prover does of a gate."""
    if '--test' in words:
        return 'tests'
    kept = words[words.index('--incremental') + 1] if '--incremental' in words[:-1] else ''
    # a program is checked before it is built
    if words[1] == 'build' or 'src/main.rt' in words and not kept:
        return 'proof'
    return 'beginning' if kept.endswith('/seed') else 'wrong bodies'


def seconds_of(stat):
    """Returns the seconds of a processor that a process took, by its line in /proc."""
    fields = stat[stat.rindex(')') + 2:].split()
    return (int(fields[11]) + int(fields[12])) / TICKS


def look(seen):
    """Notes what each process of the prover took until now. Returns whether there is one."""
    found = False
    for folder in pathlib.Path('/proc').glob('[0-9]*'):
        try:
            words = (folder / 'cmdline').read_text(errors='replace').split('\0')
            crate = crate_of(words)
            if crate:
                stat = (folder / 'stat').read_text(errors='replace')
                start = stat[stat.rindex(')') + 2:].split()[19]
                seen[folder.name, start] = crate, kind_of(words), seconds_of(stat)
                found = True
        except (OSError, IndexError, ValueError):
            # it ended meanwhile
            continue
    return found


def lines_of(seen):
    """Returns the lines, those of the crates that took most first, and the sum of all."""
    minutes = collections.defaultdict(collections.Counter)
    for crate, kind, seconds in seen:
        minutes[crate][kind] += seconds / 60
        minutes['all crates'][kind] += seconds / 60
    order = sorted(minutes, key=lambda crate: -sum(minutes[crate].values()))
    return [f'{crate}: ' + ', '.join(f'{kind} {minutes[crate][kind]:.1f}' for kind in KINDS) + ' minutes' for crate in order]


def main(words):
    patience = float(words[0]) if words else 120.0
    seen, last = {}, time.monotonic()
    try:
        while time.monotonic() - last < patience:
            if look(seen):
                last = time.monotonic()
            time.sleep(1)
    except KeyboardInterrupt:
        pass
    print('\n'.join(lines_of(seen.values())))


if __name__ == '__main__':
    main(sys.argv[1:])
