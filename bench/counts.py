#!/usr/bin/env python3
"""Counts the allocations and the instructions of `kmipctl answer` a message, of the baseline too, and of `sim` an
exchange; how often `run`, `look` and `probe` read a reply; and how often each command parses a plan and a progress.

    bench/counts.py PROGRAM OUT

OUT is a folder that has `baseline` and `input`, as bench/bench.sh builds them. A program is run twice, the second time
with some messages more, and the difference is divided by their number. So what it does at its start does not count.
The counts do not depend on what else the machine does.

Each reply is to be read once, with --verbose too: it fails if callgrind counts more calls of `read_reply`, or of
`requests_in`, which reads what was asked.

Each command is to parse each of its plans once, and its progress once: it fails if callgrind counts other calls of
`read_plan` of kmip_plan and `read_text` of kmip_progress.

Allocations are calls of malloc, calloc and realloc, which bench/count.c counts; that needs cc. Instructions are those
that callgrind counts; that needs valgrind. What a machine lacks is not counted, and a line says so.
"""
import collections
import os
import re
import shutil
import struct
import subprocess
import sys

sys.dont_write_bytecode = True

from measuring import Server, fail, note_aim, ratio, remove_progress, run, write_plan

# What the messages are, how many the second run has more, and the words for bench/input.rs of both.
LOADS = [
    ('Locates of 5,000 names over 5,000 objects', 5000, 'locate 5000 5000', 'locate 5000 10000'),
    ('Creates of 5,000 objects, with 5,000 there', 5000, 'create 5000', 'create 10000'),
    ('a mix over 100 objects', 10000, 'mix 10000 100', 'mix 20000 100'),
]
# The keys of the plans of `sim`, with three exchanges each.
FEW, MANY = 500, 1000
# The keys of the plan of `run`, with three exchanges each.
RUN_KEYS = 20
# The exchanges of two runs of MANY keys, by whose difference an exchange of `run` is counted.
RUN_LIMITS = 100, 200
# The aims: allocations a message, by the baseline's, and allocations and instructions of an exchange.
ALLOCATIONS_AIM = 1.0
SIM_AIMS = {'allocations': 45, 'instructions': 25_000}
RUN_AIM = 150_000
# The functions that parse a plan and a progress: the crate, and the name.
PARSERS = [('kmip_plan', 'read_plan'), ('kmip_progress', 'read_text')]
# A function that a line of callgrind names, by a number, and with its name the first time; and how often it is called.
NAMED = re.compile(r'(c?fn)=\((\d+)\)(?: (.*))?$')
CALLED = re.compile(r'calls=(\d+)')
# The line of an exchange on standard error.
EXCHANGE = re.compile(r'^\d+\.\d{3} ', re.M)


class Allocations:
    """Counts the allocations of a program."""

    what, needs = 'allocations', 'cc'

    def __init__(self, out):
        self.number, self.told = (os.path.join(out, name) for name in ('number', 'told'))
        self.shim = os.path.realpath(os.path.join(out, 'count.so'))
        source = os.path.join(os.path.dirname(os.path.realpath(__file__)), 'count.c')
        subprocess.run(['cc', '-O2', '-Wall', '-Wextra', '-shared', '-fPIC', '-o', self.shim, source], check=True)

    def of(self, words, source):
        with open(self.number, 'w+b') as file:
            file.write(bytes(8))
            file.flush()
            given = os.environ | {'LD_PRELOAD': self.shim, 'COUNT_TO': str(file.fileno())}
            run(words, self.told, source, env=given, pass_fds=[file.fileno()])
            file.seek(0)
            return struct.unpack('@Q', file.read())[0]


class Instructions:
    """Counts the instructions of a program."""

    what, needs = 'instructions', 'valgrind'

    def __init__(self, out):
        self.counted, self.log, self.told = (os.path.join(out, name) for name in ('callgrind', 'callgrind.log', 'told'))

    def count(self, words, source, **options):
        """Runs a program, and returns what callgrind wrote."""
        tool = ['valgrind', '--tool=callgrind', f'--callgrind-out-file={self.counted}', f'--log-file={self.log}']
        run([*tool, *words], self.told, source, **options)
        with open(self.counted) as file:
            return file.read()

    def of(self, words, source, wanted=0):
        found = re.search(r'^totals: (\d+)', self.count(words, source, wanted=wanted), re.M)
        return int(found.group(1)) if found else fail(words, 'callgrind counts nothing')

    def calls(self, words, wanted):
        """How often a program calls each of its functions, which has to end with this status."""
        names, calls, called = {}, collections.Counter(), None
        for line in self.count(words, os.devnull, wanted=wanted, stderr=subprocess.DEVNULL).splitlines():
            if named := NAMED.match(line):
                kind, number, name = named.groups()
                names.setdefault(number, name)
                called = number if kind == 'cfn' else called
            elif count := CALLED.match(line):
                calls[called] += int(count.group(1))
        return {names[number]: count for number, count in calls.items()}


class Counts:
    def __init__(self, program, out):
        self.program, self.out = os.path.realpath(program), out

    def path(self, name):
        return os.path.join(self.out, name)

    def load(self, words):
        """The file of a load."""
        run([self.path('input'), *words.split()], self.path('count.hex'))
        return self.path('count.hex')

    def of_messages(self, counter, more, before, after):
        """The counts a message, of our program and of the baseline."""
        counts = []
        for words in before, after:
            source = self.load(words)
            counts.append([counter.of(program, source) for program in ([self.program, 'answer'], [self.path('baseline')])])
        return [(many - few) / more for few, many in zip(*counts)]

    def of_exchange(self, counter):
        """The count an exchange of `sim`."""
        counts, script = [], self.path('empty.script')
        open(script, 'w').close()
        for keys in FEW, MANY:
            plan = write_plan(self.path('plan.toml'), keys)
            counts.append(counter.of([self.program, 'sim', '--plan', plan, '--script', script], os.devnull))
        return (counts[1] - counts[0]) / (3 * (MANY - FEW))

    def of_run(self, counter):
        """The count an exchange of `run` of MANY keys, which writes the text of its progress."""
        plan, progress = write_plan(self.path('plan.toml'), MANY), self.path('run.progress')
        words = [self.program, 'run', '--plan', plan, '--progress', progress, '--loopback', '--limit']
        counts = []
        for limit in RUN_LIMITS:
            remove_progress(progress)
            counts.append(counter.of([*words, str(limit)], os.devnull, wanted=1))
        return (counts[1] - counts[0]) / (RUN_LIMITS[1] - RUN_LIMITS[0])

    def exchanges(self, words):
        """How many exchanges a command makes, by the lines of --verbose."""
        ended = subprocess.run([*words, '--verbose'], stdin=subprocess.DEVNULL, capture_output=True, text=True)
        return len(EXCHANGE.findall(ended.stderr))

    def tell_reading(self, counter, command, wanted, words):
        """Prints how often a command reads a reply, and what it asked, and fails if that is more than it has to."""
        progress = self.path('run.progress')
        remove_progress(progress)
        words = [self.program, command, *words, '--loopback', *(['--progress', progress] if command == 'run' else [])]
        exchanges = self.exchanges(words)
        for options in [], ['--verbose']:
            remove_progress(progress)
            calls = counter.calls([*words, *options], wanted)
            read, asked = (sum(count for name, count in calls.items() if name.endswith(f'::{word}'))
                           for word in ('read_reply', 'requests_in'))
            print(f'{command}{"".join(f" {option}" for option in options)}, {exchanges} exchanges: '
                  f'{read} replies read, {asked} requests read', flush=True)
            if not exchanges or (read, asked) != (exchanges, 0):
                fail([*words, *options], 'each reply is to be read once, and no request')

    def tell_readings(self):
        """Prints how often each command that asks a server reads a reply."""
        if not shutil.which(Instructions.needs):
            return
        counter, plan = Instructions(self.out), write_plan(self.path('plan.toml'), RUN_KEYS)
        # The server has no object, so a look ends with 1.
        for command, wanted, *words in ('run', 0, '--plan', plan), ('look', 1, '--plan', plan), ('probe', 0, '--name-prefix', 'p'):
            self.tell_reading(counter, command, wanted, words)
        self.tell_parsings(counter, plan)

    def tell_parsing(self, counter, what, wanted, words):
        """Prints how often a command parses a plan and a progress, and fails if the two numbers are not those wanted."""
        calls = counter.calls([self.program, *words], 0)
        counted = tuple(sum(count for name, count in calls.items() if name.startswith(f'{crate}::') and name.endswith(f'::{word}'))
                        for crate, word in PARSERS)
        print(f'{what}: {counted[0]} of a plan parsed, {counted[1]} of a progress', flush=True)
        if counted != wanted:
            fail([self.program, *words], f'{wanted[0]} of a plan is to be parsed, and {wanted[1]} of a progress')

    def tell_parsings(self, counter, plan):
        """Prints how often each command that has a plan parses it, and its progress."""
        progress, script, prolonging = (self.path(name) for name in ('run.progress', 'empty.script', 'prolonging.script'))
        open(script, 'w').close()
        with open(prolonging, 'w') as file:
            file.write('prolong\n')
        remove_progress(progress)
        given = ['--plan', plan]
        kept = [*given, '--progress', progress]
        with Server([self.program, 'serve', '--port', '0', '--connections', '1000000']) as server:
            address = ['--connect', f'127.0.0.1:{server.port}']
            for what, wanted, *words in (
                ('check', (1, 0), 'check', *given),
                ('check --after', (2, 0), 'check', *given, '--after', plan),
                ('sim', (1, 0), 'sim', *given, '--script', script),
                # The run of the second plan begins with what that of the first saved.
                ('sim --then', (2, 1), 'sim', *given, '--then', plan, '--script', prolonging),
                ('run that begins', (1, 0), 'run', *kept, *address),
                ('look', (1, 0), 'look', *given, *address),
                ('list', (1, 1), 'list', *kept),
                ('run that goes on', (1, 1), 'run', *kept, *address),
                ('run --refresh', (1, 1), 'run', *kept, '--refresh', *address),
            ):
                self.tell_parsing(counter, what, wanted, words)

    def tell(self, kind, digits):
        """Prints what a counter of this kind counts, or that the machine lacks what it needs."""
        if not shutil.which(kind.needs):
            print(f'{kind.needs} is not there, so no {kind.what} are counted')
            return
        counter = kind(self.out)
        for what, *load in LOADS:
            ours, theirs = self.of_messages(counter, *load)
            print(f'{kind.what} a message, {what}: kmipctl {ours:.{digits}f}, baseline {theirs:.{digits}f}, '
                  f'ratio {ratio(ours, theirs)}', flush=True)
            if kind is Allocations:
                note_aim(self.out, f'{what}: allocations, by plain Rust', ratio(ours, theirs), ALLOCATIONS_AIM)
        exchange = self.of_exchange(counter)
        print(f'{kind.what} an exchange of sim: {exchange:.{digits}f}', flush=True)
        note_aim(self.out, f'an exchange of sim: {kind.what}', f'{exchange:.0f}', SIM_AIMS[kind.what])
        if kind is Instructions:
            exchange = self.of_run(counter)
            print(f'{kind.what} an exchange of run, {MANY:,} keys: {exchange:.0f}', flush=True)
            note_aim(self.out, f'an exchange of run of {MANY:,} keys: {kind.what}', f'{exchange:.0f}', RUN_AIM)


def main():
    counts = Counts(*sys.argv[1:])
    counts.tell(Allocations, 2)
    counts.tell(Instructions, 0)
    counts.tell_readings()


if __name__ == '__main__':
    main()
