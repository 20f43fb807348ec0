#!/usr/bin/env python3
"""The gate: every proof, must-fail edit, test and stored run, and then the trials of the program that this built.

    tools/gate.py

It runs at the top of the repository. First comes `rt ci`; where that fails no trial is run. If it passes, a note next
to the program says which sources it was proved from (tools/proved.sh). Each trial has a line, and what it printed stands in out/gate/NAME.log, and is printed too where it fails. A trial is skipped,
by its name, where the machine lacks what it needs. At the end the lines of each trial that failed stand once more,
without the rows that are ok. The last line counts all: `N passed, N failed`, and how many were skipped where some
were. The exit status is 0 where nothing failed.
"""

import os
import re
import shutil
import subprocess
import sys
import time

TOP = os.path.realpath(os.path.join(os.path.dirname(os.path.realpath(__file__)), '..'))
PROGRAM = 'crates/kmipctl/out/kmipctl'
GROWTHS = 'crates/test_memory/out/test_memory'
LOGS = 'out/gate'
PROVED = os.path.join(TOP, 'tools/proved.sh')
COUNTS = re.compile(r'^(\d+) passed, (\d+) failed')
# How many lines of a trial that failed stand at the end, and how many characters of each: who has only the last 25
# lines of the gate finds there what was wrong.
MOST_LINES = 15
WIDEST = 300

# The name, the command, and the programs that it needs: of each inner list one.
TRIALS = [
    ('refuse', ['python3', 'bench/refuse.py', PROGRAM, GROWTHS, 'out/refuse'], [['cc']]),
    ('peers', ['python3', 'bench/peers.py', PROGRAM, 'out/peers'], []),
    ('turns', ['python3', 'bench/turns.py', PROGRAM], []),
    ('troubles', ['python3', 'bench/troubles.py', PROGRAM, 'out/troubles'], []),
    ('origin', ['python3', 'bench/origin.py', PROGRAM, 'out/origin'], []),
    ('refreshed', ['python3', 'bench/refreshed.py', PROGRAM, 'out/refreshed', '70'], []),
    ('largest', ['python3', 'bench/largest.py', PROGRAM, 'out/largest'], []),
    ('faults', ['python3', 'bench/plan_faults.py', PROGRAM, 'out/faults'], []),
    ('causes', ['python3', 'bench/causes.py', PROGRAM, 'out/causes'], []),
    ('reports', ['python3', 'bench/reports.py', PROGRAM, 'out/reports'], []),
    ('completions', ['python3', 'bench/completions.py', PROGRAM, 'out/completions'], []),
    ('installed', ['bench/install.sh', PROGRAM, 'out/installed'], [['make']]),
    ('hostile', ['bench/hostile.sh', PROGRAM], []),
    ('tls', ['examples/tls/tls.sh', PROGRAM], [['openssl'], ['stunnel4', 'stunnel']]),
    ('storm', ['bench/storm.sh', PROGRAM, '40'], [['rustc']]),
    ('pykmip', ['python3', 'bench/pykmip.py', PROGRAM, 'out/pykmip'], [['pykmip-server']]),
    ('examples', ['python3', 'tools/examples.py', PROGRAM], []),
    ('documents', ['python3', 'tools/reading.py', '--check'], []),
    ('tools', ['python3', '-B', '-m', 'unittest', 'discover', 'tools/tests'], []),
]


def prove():
    """Runs `rt ci`, prints what it prints, and returns how many passed and how many failed."""
    counts = None
    with subprocess.Popen(['rt', 'ci'], stdout=subprocess.PIPE, text=True, errors='replace') as running:
        for line in running.stdout:
            counts = COUNTS.match(line) or counts
            print(line, end='', flush=True)
    passed, failed = map(int, counts.groups()) if counts else (0, 1)
    return passed, max(failed, 1 if running.returncode else 0)


def sum_of_sources():
    """The sum of the sources, as they are now."""
    return subprocess.run([PROVED, 'sources'], stdout=subprocess.PIPE, text=True).stdout.strip()


def note_proof(before):
    """Notes that the program was proved from the sources that had this sum before the proof."""
    return subprocess.run([PROVED, 'note', PROGRAM, before]).returncode == 0


def lacks(needs):
    """Returns the first thing that the machine lacks, if it lacks one."""
    return next((words[0] for words in needs if not any(map(shutil.which, words))), None)


def succeeds(name, command):
    """Runs a trial, prints its line, and returns whether it passed."""
    log, start = f'{LOGS}/{name}.log', time.monotonic()
    with open(log, 'w') as written:
        status = subprocess.run(command, stdin=subprocess.DEVNULL, stdout=written, stderr=written).returncode
    took = f'{time.monotonic() - start:.0f} s'
    if status:
        with open(log, errors='replace') as written:
            print(written.read(), end='')
        print(f'{name} FAILED after {took}, with status {status}: {" ".join(command)}', flush=True)
    else:
        print(f'{name}: ok, {took}', flush=True)
    return not status


def wrong_lines(name):
    """What a trial printed beside rows that are ok; of many lines the first and the last ones."""
    with open(f'{LOGS}/{name}.log', errors='replace') as log:
        lines = [line.rstrip() for line in log]
    lines = [line[:WIDEST] for line in lines if line and not line.endswith(': ok')]
    if len(lines) <= MOST_LINES:
        return lines
    first, last = lines[:MOST_LINES // 2], lines[-(MOST_LINES // 2):]
    return [*first, f'({len(lines) - len(first) - len(last)} more lines in {LOGS}/{name}.log)', *last]


def tell_failed(names):
    """Prints once more what was wrong in the trials that failed."""
    for name in names:
        print(f'{name} FAILED:')
        for line in wrong_lines(name):
            print(f'    {line}')


def main():
    os.chdir(TOP)
    os.makedirs(LOGS, exist_ok=True)
    before = sum_of_sources()
    passed, failed = prove()
    skipped, wrong = 0, []
    if not failed and not note_proof(before):
        failed += 1
    if failed:
        print(f'no trial was run: {", ".join(name for name, _, _ in TRIALS)}')
    for name, command, needs in [] if failed else TRIALS:
        lacking = lacks(needs)
        if lacking:
            skipped += 1
            print(f'{name} skipped: this machine has no {lacking}', flush=True)
        elif succeeds(name, command):
            passed += 1
        else:
            wrong.append(name)
    tell_failed(wrong)
    failed += len(wrong)
    print(f'{passed} passed, {failed} failed' + (f', {skipped} skipped' if skipped else ''))
    return 1 if failed else 0


if __name__ == '__main__':
    sys.exit(main())
