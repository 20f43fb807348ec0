#!/usr/bin/env python3
"""Proves the crates that the program stands on, side by side and lowest first, and builds the program.

    tools/building.py [CRATE]

It runs at the top of the repository (`make` does). A crate for every two processors is proved at once; `rt` gives a
large one more. CRATE is kmipctl if it is not given. Each crate that is done has a line: the number of crates done, how
many there are, its name, and how long it took in minutes and seconds. What `rt` prints of it stands in
out/make/NAME.log. If a crate fails, that is printed too, no other crate is begun, and the exit status is 1. The last line
says what was built.
"""
import concurrent.futures
import functools
import os
import pathlib
import subprocess
import sys
import time

sys.dont_write_bytecode = True

CRATES, LOGS = pathlib.Path('crates'), pathlib.Path('out/make')


def crates_used():
    """Each crate, lowest first, with those of the repository that it names."""
    lines = [line.split(':') for line in pathlib.Path('crates.txt').read_text().splitlines() if ':' in line]
    named = {head.split()[0]: tail.split() for head, tail in lines if not head.startswith('#')}
    return {name: [other for other in others if other in named] for name, others in named.items()}


def needed_for(crate, used):
    """The crates that this one stands on, and itself, lowest first."""
    waiting, found = [crate], set()
    while waiting:
        name = waiting.pop()
        if name not in found:
            found.add(name)
            waiting += used[name]
    return [name for name in used if name in found]


def heights(names, used):
    """How many of these crates stand on each other above each, at most."""
    @functools.cache
    def height(name):
        return max((1 + height(other) for other in names if name in used[other]), default=0)
    return {name: height(name) for name in names}


def is_library(crate):
    return (CRATES / crate / 'src/lib.rt').exists()


def minutes(seconds):
    return f'{int(seconds) // 60}:{int(seconds) % 60:02}'


class Build:
    """The crates of a build, and which of them are done."""

    def __init__(self, crate):
        self.crate, self.used = crate, crates_used()
        self.names = needed_for(crate, self.used)
        self.heights = heights(self.names, self.used)
        self.begun, self.done, self.has_failed = set(), set(), False

    def ready(self):
        """The crates that can begin: first those below the longest chain of others."""
        found = [name for name in self.names if name not in self.begun and self.done.issuperset(self.used[name])]
        return sorted(found, key=lambda name: -self.heights[name])

    def prove(self, name):
        """Proves and builds a crate. Returns its name, the status of `rt`, and how long it took."""
        start = time.monotonic()
        verb = 'lib' if is_library(name) else 'run'
        with open(LOGS / f'{name}.log', 'w') as log:
            status = subprocess.run(['rt', verb], cwd=CRATES / name, stdin=subprocess.DEVNULL, stdout=log, stderr=log).returncode
        return name, status, time.monotonic() - start

    def tell(self, name, status, seconds):
        if status:
            self.has_failed = True
            print((LOGS / f'{name}.log').read_text(errors='replace'), end='')
            print(f'{name} FAILED after {minutes(seconds)}: {LOGS}/{name}.log', flush=True)
        else:
            self.done.add(name)
            width = len(str(len(self.names)))
            print(f'[{len(self.done):{width}}/{len(self.names)}] {name}  {minutes(seconds)}', flush=True)

    def run(self, most):
        """Proves all crates, at most so many at once. Returns whether none failed."""
        with concurrent.futures.ThreadPoolExecutor(most) as pool:
            running = set()
            while True:
                for name in [] if self.has_failed else self.ready()[:most - len(running)]:
                    self.begun.add(name)
                    running.add(pool.submit(self.prove, name))
                if not running:
                    return not self.has_failed
                ended, running = concurrent.futures.wait(running, return_when=concurrent.futures.FIRST_COMPLETED)
                for one in ended:
                    self.tell(*one.result())


def main(crate='kmipctl'):
    start = time.monotonic()
    LOGS.mkdir(parents=True, exist_ok=True)
    if not Build(crate).run(max(1, (os.cpu_count() or 1) // 2)):
        return 1
    built = f'rlib/{crate}.rlib' if is_library(crate) else crate
    print(f'built {CRATES}/{crate}/out/{built} in {minutes(time.monotonic() - start)}')
    return 0


if __name__ == '__main__':
    sys.exit(main(*sys.argv[1:]))
