#!/usr/bin/env python3
"""Runs `kmipctl` where files, sockets and standard streams fail, and compares what it prints and tells.

    bench/causes.py PROGRAM FOLDER

Of each case standard output, standard error and the exit status are compared with what is written here. If a command
prints a fault, it is run once more with --json: then its document has to say the same. All cases are run twice: as the
user who runs this, and as one to whom access can be denied. Each row has a case and `ok`, or what went wrong, or what
the machine lacks if the case is skipped. The last line has `0 wrong`, and the exit status is 0, if all is as it has to
be. Sockets on 127.0.0.1 only.
"""

import json
import os
import pty
import re
import resource
import shutil
import socket
import stat
import subprocess
import sys
import time

sys.dont_write_bytecode = True

from nine_keys import BATCHES, CASE, NINE, checked, looked, messages, plan, progress, report

PLAN, CHECKED, ALL_KNOWN = plan(), checked(), progress()
NONE_DONE = [0 for _ in NINE]
NOTHING_KNOWN = progress(done=NONE_DONE)
# What a run prints that has finished all keys on a new server.
FINISHED = {batch: report(f'AllFinished {len(messages(batch))}') for batch in BATCHES}
OTHER_ATTRIBUTES = (f' was saved for other attributes: key "{CASE.name}": the length is 256, and was 128; the '
                    'attributes of an object do not change: restore them in the plan, or give the key another name')
# What has not ended after so many seconds never does.
EVER = 150
# A Structure with nothing in it.
ITEM = '4200080100000000\n'

MISSING = 'No such file or directory (os error 2)'
FOLDER = 'Is a directory (os error 21)'
NO_DISK = 'Input/output error (os error 5)'
FULL = 'No space left on device (os error 28)'
READ_ONLY = 'Read-only file system (os error 30)'
NO_READER = 'Broken pipe (os error 32)'
CIRCLE = 'Too many levels of symbolic links (os error 40)'
TAKEN = 'Address already in use (os error 98)'
DENIED = 'Permission denied (os error 13)'
NO_FILE_LEFT = 'Too many open files (os error 24)'
NO_QUOTA = 'Disk quota exceeded (os error 122)'
UNKNOWN_EFFECT = 'the last request may have taken effect'
RESTORE = ('restore the file from a backup, or run with --afresh, which searches for each key and creates those that are '
           'missing')

FIX = 'fix the permissions and run again'
REMOVE = 'remove it, and the run checks the progress against the server'
BELIEVE = 'give --believe, which checks the progress against the server'

# The user and the group `nobody`.
NOBODY = 65534
# The commands that print documents.
WITH_JSON = ('check', 'sim', 'run', 'list', 'look', 'probe')

# The environment without the variables that stand for options.
AROUND = {name: value for name, value in os.environb.items() if not name.startswith(b'KMIPCTL_')}

CHECK = ('check', '--plan', 'plan.toml')
CHECK_AFTER = (*CHECK, '--after', 'plan.toml')
SIM = ('sim', '--plan', 'plan.toml', '--script', 'empty.script')
SIM_THEN = (*SIM, '--then', 'plan.toml')
RUN = ('run', '--plan', 'plan.toml', '--loopback')
RUN_ALL = (*RUN, '--batch', '8')
RUN_THERE = (*RUN[:-1], '--connect', '127.0.0.1:1')
LIST = ('list', '--plan', 'plan.toml')
PROBE = ('probe', '--name-prefix', 'p', '--loopback')
SERVE = ('serve', '--port', '0', '--connections', '0')

WANTED = '--connect wants an IPv4 address and a port, as 192.0.2.7:5696; '
NO_ADDRESS_AND_PORT = "error: the value of '--connect <ADDRESS>' is not an IPv4 address and a port, such as 127.0.0.1:5696\n"
NO_ADDRESS_IN_VARIABLE = 'error: the value of KMIPCTL_CONNECT is not an IPv4 address and a port, such as 127.0.0.1:5696\n'
TWO_SERVERS = ('error: KMIPCTL_CONNECT and KMIPCTL_SOCKET are both set: unset one, '
               'or give --connect, --socket or --loopback\n')
SERVERS = '<--connect <ADDRESS>|--socket <PATH>|--loopback>'
HELP = "\nFor more information, try '--help'.\n"
RUN_USAGE = f'\nUsage: kmipctl run [OPTIONS] --plan <PATH> --progress <PATH>\n       {SERVERS}\n{HELP}'
PROBE_USAGE = f'\nUsage: kmipctl probe [OPTIONS] --name-prefix <PREFIX>\n       {SERVERS}\n{HELP}'
LOOK_USAGE = f'\nUsage: kmipctl look [OPTIONS] --plan <PATH>\n       {SERVERS}\n{HELP}'
CHECK_USAGE = f'\nUsage: kmipctl check [OPTIONS] --plan <PATH>\n{HELP}'


def origin_of(keys=NINE):
    """Where, when and for which keys a progress was saved."""
    lines = [f'key {key.name} {key.algorithm} {key.length} {key.mask():08x}\n' for key in keys]
    return ''.join(['kmipctl origin 1\nserver tcp 127.0.0.1:1\nkept 1\n', *lines])


def simulated(batch):
    """What a simulation prints over a network that loses nothing. The keys are made in their order."""
    sent = messages(batch)
    asks = [', '.join(f'{operation} {NINE[place - 1].name}' for operation, place in questions) for questions in sent]
    lines = [f'run 1 AllFinished {len(sent)}', *report('AllFinished').splitlines()[:-1],
             *(f'ask {number} {ask}' for number, ask in enumerate(asks, 1)),
             *(f'record {number} {key.name} {key.state(key.steps())}' for number, key in enumerate(NINE, 1))]
    return '\n'.join([*lines, ''])


def document_of(printed, told):
    """The document that says what this line and the first line that is told say; none if the line is no fault."""
    why = told[0].split(': ', 1)[-1].split('; ')[0] if told else None
    if found := re.fullmatch(r'(cannot \w+) (.+)\n', printed):
        return fault(found[1], found[2], why)
    if found := re.fullmatch(r'longer than (\d+) bytes: (.+)\n', printed):
        return fault('too long', found[2], f'it has more than {found[1]} bytes')
    if found := re.fullmatch(r'progress refused: (\d) (\w+)\n', printed):
        # Why is known if it was saved for other attributes.
        at, saved, rest = re.match(r'([^: ]+)( was saved for other attributes: )?(.*)', told[0]).groups()
        return {**fault('progress refused', at, f'it{saved}{rest}'.split('; ')[0] if saved else None),
                'number': int(found[1]), 'name': found[2]}
    if found := re.fullmatch(r'plan refused: (\d) (\w+) (\w+) at key (\d)\n', printed):
        at, line, why = re.match(r'([^:]+):(\d+): key \d+: (.+)', told[0]).groups()
        return {**fault('plan refused', at, why), 'number': int(found[1]), 'name': found[2], 'field': found[3],
                'key': int(found[4]), 'line': int(line)}
    return None


def fault(what, at, why):
    return {'version': 1, 'fault': what, 'at': at, 'why': why, 'cause': None}


def documents(printed):
    """The documents that are printed, a line each; the text itself if it is none."""
    try:
        return [json.loads(line) for line in printed.splitlines()]
    except ValueError:
        return printed


class Causes:
    """The cases, run as this user: `before` stands before each command, and `whose` behind the name of each case."""

    def __init__(self, program, folder, user, before, whose):
        self.program, self.folder, self.user, self.before, self.whose = program, folder, user, before, whose
        self.cases, self.wrong, self.skipped = 0, 0, 0

    def path(self, name):
        return os.path.join(self.folder, name)

    def put(self, name, text, mode=0o644):
        with open(self.path(name), 'wb') as file:
            file.write(text.encode() if isinstance(text, str) else text)
        self.give(name, mode)

    def give(self, name, mode):
        """Gives a file this mode, and gives it to the user as whom the cases are run."""
        os.chown(self.path(name), self.user, self.user)
        os.chmod(self.path(name), mode)

    def make_folder(self, name):
        os.mkdir(self.path(name))
        self.give(name, 0o755)

    def text(self, name):
        with open(self.path(name)) as file:
            return file.read()

    def start(self):
        """A folder with the plan and an empty script, and nothing else."""
        shutil.rmtree(self.folder, ignore_errors=True)
        os.makedirs(self.folder)
        self.give('.', 0o755)
        self.put('plan.toml', PLAN)
        self.put('empty.script', '')

    def look(self, what, *facts):
        """Prints the row of a case; a fact is what was found, and what has to be."""
        wrong = [(found, wanted) for found, wanted in facts if found != wanted]
        print(f'{what}{self.whose}: ' + ('wrong' if wrong else 'ok'))
        for found, wanted in wrong:
            print(f'    {found!r}\n    in the place of {wanted!r}')
        self.cases += 1
        self.wrong += bool(wrong)

    def skip(self, what, lacking):
        print(f'{what}{self.whose}: skipped, {lacking}')
        self.skipped += 1

    def run(self, words, said=(), first=(), **more):
        """A run in an environment with these variables; the words `first` stand before it."""
        return subprocess.run([*first, *self.before, self.program, *words], cwd=self.folder, text=True, timeout=EVER, env=AROUND | dict(said),
                              stdin=more.pop('stdin', subprocess.DEVNULL), **more)

    def case(self, what, words, printed, told, status=1, formats=('text', 'JSON'), **more):
        """Standard output is a pipe unless it is given; what is told are whole lines. A fault is printed as a document too."""
        printing = {} if 'stdout' in more else {'stdout': subprocess.PIPE}
        told_text = ''.join(f'{line}\n' for line in told)
        if 'text' in formats:
            done = self.run(words, stderr=subprocess.PIPE, **printing, **more)
            self.look(what, (done.returncode, status), (done.stdout, printed), (done.stderr, told_text))
        document = document_of(printed, told) if printed and words and words[0] in WITH_JSON else None
        if document and 'JSON' in formats:
            if 'stdin' in more and not isinstance(more['stdin'], int):
                more['stdin'].seek(0)
            done = self.run((*words, '--json'), stderr=subprocess.PIPE, **printing, **more)
            self.look(f'{what}, in JSON', (done.returncode, status), (documents(done.stdout), [document]),
                      (done.stderr, told_text))

    def unread_plans(self):
        missing = f'plan.toml: {MISSING}'
        os.remove(self.path('plan.toml'))
        for words in (CHECK, CHECK_AFTER, SIM, SIM_THEN, (*RUN, '--progress', 'p')):
            self.case(f'{" ".join(words)}, of which the plan is missing', words, 'cannot read plan.toml\n', [missing])
        self.make_folder('plan.toml')
        self.case('a folder for a plan', CHECK, 'cannot read plan.toml\n', [f'plan.toml: {FOLDER}'])
        self.start()
        self.put('plan.toml', b'# \xff\n')
        self.case('a plan that is no text', CHECK, 'cannot read plan.toml\n', ['plan.toml: it is not UTF-8 text'])
        os.truncate(self.path('plan.toml'), 16_777_217)
        self.case('a plan that is too long', CHECK, 'longer than 16777216 bytes: plan.toml\n',
                  ['plan.toml: it has more than 16777216 bytes; check that it is the right file'])
        self.start()
        words = (*CHECK, '--after', 'earlier.toml')
        self.case('an earlier plan that is missing', words, 'cannot read earlier.toml\n', [f'earlier.toml: {MISSING}'])
        words = (*SIM, '--then', 'further.toml')
        self.case('a further plan that is missing', words, 'cannot read further.toml\n', [f'further.toml: {MISSING}'])
        os.remove(self.path('empty.script'))
        for words in (SIM, SIM_THEN):
            self.case(f'{" ".join(words)}, of which the script is missing', words, 'cannot read empty.script\n',
                      [f'empty.script: {MISSING}'])
        self.start()
        self.case('a plan that is read', CHECK, CHECKED, [], status=0)

    def progress(self, what, printed, told, path='plan.progress', **more):
        self.case(what, (*RUN, '--progress', path), printed, [f'{path}{told}'], **more)

    def unread_progress(self):
        unread = 'cannot read plan.progress\n'
        self.put('plan.progress', b'\xff')
        self.progress('a progress that is no text', unread, ': it is not UTF-8 text')
        os.truncate(self.path('plan.progress'), 1_048_577)
        self.progress('a progress that is too long', 'longer than 1048576 bytes: plan.progress\n',
                      ': it has more than 1048576 bytes; check that it is the right file')
        self.start()
        self.make_folder('plan.progress')
        self.progress('a folder for a progress', unread, f': {FOLDER}')
        self.look('no lock is left next to it', (os.path.exists(self.path('plan.progress.lock')), False))
        self.start()
        self.put('plan.progress', PLAN)
        self.case('the plan as a progress', (*RUN, '--progress', 'plan.progress'), 'progress refused: 2 Cut\n',
                  [f'plan.progress: cut off: the line "end" with the number of keys is missing after {len(PLAN)} bytes; {RESTORE}'])
        self.look('no lock is left next to that', (os.path.exists(self.path('plan.progress.lock')), False))
        self.start()
        os.symlink('plan.progress', self.path('plan.progress'))
        self.progress('a progress whose link leads to itself', unread, f': {CIRCLE}')

    def refused_progress(self):
        for what, text, fault, told in (
                ('cut off', ALL_KNOWN[:ALL_KNOWN.index('end')], '2 Cut',
                 ': cut off: the line "end" with the number of keys is missing after '
                 f'{ALL_KNOWN.index("end")} bytes'),
                ('cut off within the line of a key', ALL_KNOWN[:ALL_KNOWN.index(CASE.name) + len(CASE.name)], '2 Cut',
                 ': cut off: the line "end" with the number of keys is missing after '
                 f'{ALL_KNOWN.index(CASE.name) + len(CASE.name)} bytes'),
                ('another first line', ALL_KNOWN.removeprefix('kmip-'), '1 BadText',
                 ':1: "progress 2" is not the first line of a progress file'),
                ('a bad line', ALL_KNOWN.replace(' - 2 37\n', ' - many 37\n'), '1 BadText',
                 ':8: "k~7! active - many 37" is not a line of a progress file'),
                # Of a text 64 characters are shown at most, as many as the name has.
                ('a bad line that is longer than what is shown', ALL_KNOWN.replace(' - 2 39\n', ' - many 39\n'),
                 '1 BadText', f':10: "{CASE.name}".. is not a line of a progress file'),
                ('another count', ALL_KNOWN.replace('end 9', 'end 8'), '1 BadText',
                 ': the last line counts another number of keys')):
            self.start()
            self.put('plan.progress', text.encode())
            for words in (RUN, LIST):
                self.case(f'a progress with {what}, {words[0]}', (*words, '--progress', 'plan.progress'),
                          f'progress refused: {fault}\n', [f'plan.progress{told}; {RESTORE}'])

    def unwritten_progress(self):
        self.start()
        self.progress('a progress whose folder is missing', 'cannot write missing/plan.progress\n',
                      f'.lock: {MISSING}; check that its folder exists and run again', 'missing/plan.progress')
        self.make_folder('plan.progress.lock')
        self.progress('a folder for a lock', 'cannot write plan.progress\n', f'.lock: {FOLDER}')
        self.start()
        self.make_folder('plan.progress.new')
        self.progress('a folder in the way of a progress', 'cannot write plan.progress\n',
                      f'.new: {FOLDER}; {UNKNOWN_EFFECT}: run again')
        self.start()
        os.symlink('there', self.path('plan.progress'))
        self.make_folder('there.new')
        self.case('a folder in the way of a progress behind a link', (*RUN, '--progress', 'plan.progress'),
                  'cannot write plan.progress\n', [f'./there.new: {FOLDER}; {UNKNOWN_EFFECT}: run again'])
        self.start()

    def refused_origins(self):
        """What is beside a progress says of another key, or nothing. The same is told of it in JSON."""
        self.start()
        self.put('plan.progress', ALL_KNOWN)
        path = self.path('plan.progress.origin')
        other = origin_of([*NINE[:-1], CASE.but(length=128)])
        for what, text, printed, told, commands in (
                ('of other attributes', other, 'progress refused: 3 OtherPlan\n', f'plan.progress{OTHER_ATTRIBUTES}',
                 (RUN_THERE, LIST)),
                ('that is none', 'something else\n', 'cannot read plan.progress\n',
                 f'{path}: it does not say where a progress was saved; {REMOVE}', (RUN, RUN_THERE))):
            self.put('plan.progress.origin', text)
            for words in commands:
                self.case(f'an origin {what}, {words[0]}', (*words, '--progress', 'plan.progress'), printed, [told])
            self.look(f'nothing is changed by an origin {what}', (self.text('plan.progress'), ALL_KNOWN))

    def kept_files(self):
        """The progress is a file of its owner alone, and a file that a kill left beside it is removed, whatever both were."""
        for state in ('new', 'there', 'there with mode 644', 'put aside', 'behind a link', 'behind a link, new'):
            for leftover in ('nothing', 'a file', 'a file of mode 644', 'a link', 'a link to nothing'):
                self.start()
                real = 'far.progress' if 'link' in state else 'p'
                if 'link' in state:
                    os.symlink(real, self.path('p'))
                if 'new' not in state:
                    self.put(real, NOTHING_KNOWN, 0o644 if '644' in state else 0o600)
                if leftover.startswith('a file'):
                    self.put(f'{real}.new', 'left', 0o644 if '644' in leftover else 0o600)
                if 'link' in leftover:
                    os.symlink('target', self.path(f'{real}.new'))
                if leftover == 'a link':
                    self.put('target', 'kept')
                more = ('--afresh',) if state == 'put aside' else ()
                done = self.run((*RUN_ALL, '--progress', 'p', *more), capture_output=True)
                self.look(f'a progress that is {state}, and beside it {leftover}', (done.returncode, 0),
                          (done.stdout, FINISHED['8']), (done.stderr, ''), (self.is_kept(real), True),
                          (os.path.islink(self.path('p')), 'link' in state),
                          (os.path.lexists(self.path(f'{real}.new')), False),
                          (self.text('target') if os.path.exists(self.path('target')) else None,
                           'kept' if leftover == 'a link' else None),
                          (self.text('p.before') if more else None, NOTHING_KNOWN if more else None))

    def is_kept(self, name):
        """Whether all is known in this file, which is none but its owner's."""
        status = os.lstat(self.path(name))
        return self.text(name) == ALL_KNOWN and stat.S_ISREG(status.st_mode) and stat.S_IMODE(status.st_mode) == 0o600

    def order_of_calls(self, batch):
        """The bytes of a text are on the disk before it takes the place of the old one. The folder is brought to the
        disk if the file is new, once it was put aside, and at the end of a run. A text is written after the first
        exchange, and after each later one that changes it: on a new server, if it has another question than Locate."""
        what = f'the order of what is done to files, {batch} keys a message'
        tracing = ['strace', '-f', '-qq', '-o', self.path('trace'), '-e', 'trace=openat,fdatasync,fsync,rename,renameat,renameat2']
        if not shutil.which('strace') or subprocess.run([*tracing, 'true'], capture_output=True).returncode:
            self.skip(what, 'as no strace can be had')
            return
        text = ['make p.new', 'sync p.new', 'rename p.new p']
        texts = text * sum(any(operation != 'Locate' for operation, _ in questions) for questions in messages(batch))
        origin = ['make p.origin.new', 'sync p.origin.new', 'rename p.origin.new p.origin', 'sync .']
        for state, known, more, wanted in (
                ('a new progress', None, (), [*origin, *text, 'sync .', *texts, 'sync .']),
                ('an old progress', NOTHING_KNOWN, (), [*origin, *text, *texts, 'sync .']),
                ('a progress that is put aside', NOTHING_KNOWN, ('--afresh',),
                 ['rename p p.before', 'sync .', *origin, *text, 'sync .', *texts, 'sync .'])):
            self.start()
            self.put('trace', '')
            if known:
                self.put('p', known, 0o600)
            done = self.run((*RUN, '--progress', 'p', '--batch', batch, *more), first=tracing, capture_output=True)
            self.look(f'{what}: {state}', (done.stdout, FINISHED[batch]),
                      (calls_in(self.text('trace'), self.folder), wanted))

    def denied(self):
        """What may not be read is never taken as missing: a run that cannot read its progress does not begin with nothing."""
        if os.geteuid() == 0 and not self.before:
            return
        run, listing = (*RUN, '--progress', 'plan.progress'), (*LIST, '--progress', 'plan.progress')
        look, unread = ('look', '--plan', 'plan.toml', '--loopback'), 'cannot read plan.progress\n'
        whole = self.path('plan.progress')
        for name, printed, told, commands in (
                ('plan.progress', unread, f'plan.progress: {DENIED}', (run, (*run, '--refresh'), (*run, '--believe'), listing)),
                ('plan.progress.origin', unread, f'{whole}.origin: {DENIED}; fix that, or {BELIEVE}', (run, (*run, '--refresh'))),
                ('plan.progress.lock', 'cannot write plan.progress\n', f'{whole}.lock: {DENIED}; {FIX}', (run,)),
                ('plan.toml', 'cannot read plan.toml\n', f'plan.toml: {DENIED}', (run, listing, look, CHECK, SIM)),
                ('empty.script', 'cannot read empty.script\n', f'empty.script: {DENIED}', (SIM,))):
            self.start()
            self.put('plan.progress', ALL_KNOWN, 0o600)
            self.put('plan.progress.origin', origin_of(), 0o600)
            self.put('plan.progress.lock', '', 0o600)
            before = sorted(os.listdir(self.folder))
            os.chmod(self.path(name), 0)
            for words in commands:
                self.case(f'{" ".join(words)}, which may not read {name}', words, printed, [told])
            os.chmod(self.path(name), 0o600)
            self.look(f'nothing is changed if {name} may not be read', (self.text('plan.progress'), ALL_KNOWN),
                      (sorted(os.listdir(self.folder)), before))
        self.denied_folders(run, listing, unread)

    def denied_folders(self, run, listing, unread):
        """A folder in which no file may be made, and one in which none may be found."""
        self.start()
        os.chmod(self.folder, 0o555)
        self.case('a progress in a folder that may not be written', run, 'cannot write plan.progress\n',
                  [f'plan.progress.lock: {DENIED}; {FIX}'])
        os.chmod(self.folder, 0o755)
        self.make_folder('closed')
        self.put('closed/plan.progress', ALL_KNOWN, 0o600)
        os.chmod(self.path('closed'), 0o600)
        for words in (run, listing):
            self.case(f'{words[0]} of a progress in a folder that may not be searched', (*words[:-1], 'closed/plan.progress'),
                      unread.replace('plan', 'closed/plan'), [f'closed/plan.progress: {DENIED}'])
        os.chmod(self.path('closed'), 0o700)
        self.look('nothing is changed in it', (os.listdir(self.path('closed')), ['plan.progress']),
                  (self.text('closed/plan.progress'), ALL_KNOWN))
        self.start()

    def unsynced_folder(self, batch):
        """At the end of a run the folder of a progress that was there before is not brought to the disk."""
        what = f'a folder that cannot be brought to the disk, {batch} keys a message'
        # The first fsync is that of the folder for the origin: the bytes of files are brought there by fdatasync.
        failing = ['strace', '-f', '-qq', '-o', '/dev/null', '-e', 'inject=fsync:error=EIO:when=2']
        if not shutil.which('strace') or subprocess.run([*failing, 'true'], capture_output=True).returncode:
            self.skip(what, 'as no strace can be had')
            return
        self.start()
        words = (*RUN, '--progress', 'p', '--batch', batch)
        self.run((*words, '--limit', '1'), stdout=subprocess.PIPE, stderr=subprocess.PIPE)
        done = self.run(words, first=failing, capture_output=True)
        self.look(what, (done.returncode, 0), (done.stdout, FINISHED[batch]), (self.text('p'), ALL_KNOWN),
                  (done.stderr, f'p: {NO_DISK}; saved, but a power failure may restore the previous version, which is also correct\n'))
        self.start()

    def failing(self, what, inject):
        """The words before a command some calls of which fail so; none, and the row is skipped, if no strace can be had."""
        words = ['strace', '-f', '-qq', '-o', '/dev/null', '-e', f'inject={inject}']
        if not shutil.which('strace') or subprocess.run([*words, 'true'], capture_output=True).returncode:
            self.skip(what, 'as no strace can be had')
            return None
        return words

    def unmade_calls(self):
        """What the system refuses though no file, disk or port of these rows is in its way: a quota, and any port at all."""
        run, unwritten = (*RUN, '--progress', 'p'), 'cannot write p\n'
        no_port = f'127.0.0.1:0: {TAKEN}'
        for what, inject, words, printed, told in (
                ('a quota that is used up before the run', 'fdatasync:error=EDQUOT', run, unwritten,
                 f'p.origin: {NO_QUOTA}; free some space and run again'),
                ('a quota that is used up in the run', 'fdatasync:error=EDQUOT:when=2', run, unwritten,
                 f'p: {NO_QUOTA}; {UNKNOWN_EFFECT}: free some space and run again'),
                ('no port is free, run', 'bind:error=EADDRINUSE', run, 'cannot listen\n', no_port),
                ('no port is free, look', 'bind:error=EADDRINUSE', ('look', '--plan', 'plan.toml', '--loopback'),
                 'cannot listen\n', no_port),
                ('no port is free, probe', 'bind:error=EADDRINUSE', PROBE, 'cannot listen\n', no_port)):
            self.start()
            if before := self.failing(what, inject):
                self.case(what, words, printed, [told], first=before)
        self.start()

    def on_disk(self, what, options, left, printed, told):
        """A case whose progress lies on a small disk, on which so many bytes are left, where that is asked for."""
        for form in ('text', 'JSON'):
            disk = self.path('disk')
            os.mkdir(disk)
            mounting = ['mount', '-t', 'tmpfs', '-o', options, 'tmpfs', disk]
            if not shutil.which('mount') or subprocess.run(mounting, capture_output=True).returncode:
                self.skip(what, 'as no disk can be mounted')
            else:
                try:
                    if left is not None:
                        with open('/dev/zero', 'rb') as zeros, open(f'{disk}/zeros', 'wb', buffering=0) as file:
                            fill_up(zeros, file)
                        os.truncate(f'{disk}/zeros', os.path.getsize(f'{disk}/zeros') - left)
                    self.progress(what, printed, told, 'disk/plan.progress', formats=(form,))
                finally:
                    subprocess.run(['umount', disk], check=True)
            os.rmdir(disk)

    def disks(self):
        # Such a disk belongs to the user who mounts it.
        if self.before:
            return
        self.on_disk('a full disk, where nothing is asked', 'size=16k', 0, 'cannot write disk/plan.progress\n',
                     f'.origin: {FULL}; free some space and run again')
        self.on_disk('a progress on a disk with room for its origin alone', 'size=16k', 4096,
                     'cannot write disk/plan.progress\n', f': {FULL}; {UNKNOWN_EFFECT}: free some space and run again')
        self.on_disk('a lock on a disk with no file left', 'nr_inodes=1', None,
                     'cannot write disk/plan.progress\n', f'.lock: {FULL}; free some space and run again')
        self.on_disk('a lock on a disk that is not to be written', 'ro', None,
                     'cannot write disk/plan.progress\n', f'.lock: {READ_ONLY}; mount the file system for writing and run again')

    def sockets(self):
        self.start()
        path = 's' * 108
        for words in ((*RUN[:-1], '--progress', 'p'), PROBE[:-1]):
            self.case(f'{words[0]} with a path that is too long for a socket', (*words, '--socket', path),
                      f'cannot connect {path}\n', [f'{path}: path must be shorter than SUN_LEN; give a shorter path'])
        with socket.socket() as taken:
            taken.bind(('127.0.0.1', 0))
            taken.listen()
            port = taken.getsockname()[1]
            self.case('a port where somebody listens', ('serve', '--port', str(port), '--connections', '1'),
                      'cannot listen\n', [f'127.0.0.1:{port}: {TAKEN}'])
        self.few_files()

    def few_files(self):
        """The only file that may be opened beside the standard streams is what listens."""
        def limit():
            resource.setrlimit(resource.RLIMIT_NOFILE, (4, 4))

        done = self.run(('serve', '--port', '0', '--connections', '1'), capture_output=True, preexec_fn=limit)
        listening, _, rest = done.stdout.partition('\n')
        port = listening.removeprefix('listening ')
        self.look('a server that can open no connection', (done.returncode, 1),
                  (rest, f'cannot accept a connection on port {port}: 100 failures in a row\n'),
                  (done.stderr, f'127.0.0.1:{port}: {NO_FILE_LEFT}\n'))
        self.failing_accepts()

    def failing_accepts(self):
        """Failures to accept a connection count only in a row: a hundred of them with connections between end no server."""
        # It takes two seconds, and no file is asked for.
        for at_once in () if self.before else (1, 2):
            what = f'a server that fails to accept a connection every second time, {at_once} at once'
            if not (before := self.failing(what, 'accept4:error=EMFILE:when=1+2')):
                continue
            words = [*before, *self.before, self.program, 'serve', '--port', '0', '--connections', '150', '--at-once', str(at_once)]
            with subprocess.Popen(words, stdin=subprocess.DEVNULL, stdout=subprocess.PIPE, stderr=subprocess.PIPE, text=True) as server:
                port = int(server.stdout.readline().split()[1])
                served = sum(is_ended_by(port) for _ in range(150))
                if served < 150:
                    server.terminate()
                printed, told = server.communicate(timeout=EVER)
            self.look(what, (served, 150), (printed, ''), (told, ''), (server.returncode, 0))

    def outputs(self):
        """Each command where standard output takes nothing."""
        self.start()
        self.put('item', ITEM)
        commands = [
            ('answer',), ('answer', '--stream'), ('show',), ('show', '--canon'), CHECK, CHECK_AFTER, SIM, SIM_THEN,
            (*RUN, '--progress', 'p'), PROBE, SERVE, ('--help',), ('run', '--help'), ('--version',),
            ('completions', 'zsh'),
        ]
        for words in commands:
            self.on_full(words)
        self.on_full(('nothing',))
        self.on_full(('check', '--plan', 'missing.toml'), f'missing.toml: {MISSING}')
        self.put('bad.toml', '[[key]]\n')
        missing = 'bad.toml:1: key 1: there is no name: a key needs name, algorithm, length, usage and target'
        with open('/dev/full', 'w') as full:
            words = ('run', '--plan', 'bad.toml', '--progress', 'p', '--loopback')
            self.case(f'{" ".join(words)} on a full disk', words, None, [missing, f'standard output: {FULL}'], stdout=full)
        reading, writing = os.pipe()
        os.close(reading)
        with os.fdopen(writing) as pipe:
            self.case('check into a closed pipe', CHECK, None, [f'standard output: {NO_READER}'], stdout=pipe)

    def on_full(self, words, *told):
        with open('/dev/full', 'w') as full, open(self.path('item')) as item:
            self.case(f'{" ".join(words)} on a full disk', words, None, [*told, f'standard output: {FULL}'],
                      stdin=item, stdout=full)

    def inputs(self):
        for words in (('answer',), ('answer', '--stream'), ('show',)):
            folder = os.open(self.folder, os.O_RDONLY)
            self.case(f'{" ".join(words)} from a folder', words, 'cannot read input\n',
                      [f'standard input: {FOLDER}'], stdin=folder)
            os.close(folder)

    def plans_of_input(self, batch):
        """Plans on standard input."""
        self.start()
        many = ('--batch', batch)
        rows = [
            (('check', '--plan', '-'), CHECKED, [], 0),
            (('check', '--plan', '-', '--after', 'plan.toml'), f'{CHECKED}prolongs\n', [], 0),
            ((*CHECK, '--after', '-'), f'{CHECKED}prolongs\n', [], 0),
            (('sim', '--plan', '-', '--script', 'empty.script', *many), simulated(batch), [], 0),
            (('run', '--plan', '-', '--progress', 'p', '--loopback', *many), FINISHED[batch], [], 0),
            (('look', '--plan', '-', '--loopback', *many), ''.join([*looked(done=NONE_DONE), 'finished 0 of 9\n']),
             [], 1),
        ]
        for words, printed, told, status in rows:
            with open(self.path('plan.toml')) as given:
                self.case(' '.join(words), words, printed, told, status=status, stdin=given)
        words = ('list', '--plan', '-', '--progress', 'p')
        with open(self.path('plan.toml')) as given:
            done = self.run(words, stdin=given, capture_output=True)
        lines = [f'{key.line(key.steps())[:-1]} {number}\n' for number, key in enumerate(NINE, 1)]
        self.look(' '.join(words), (done.returncode, 0), (done.stdout, ''.join([*lines, 'finished 9 of 9\n'])))

    def refused_input(self):
        """Standard input that is no plan, and files that are called as it is."""
        self.start()
        self.unread_input()
        self.named_as_input()

    def unread_input(self):
        words, unread = ('check', '--plan', '-'), 'cannot read standard input\n'
        folder = os.open(self.folder, os.O_RDONLY)
        self.case('a plan from a folder', words, unread, [f'standard input: {FOLDER}'], stdin=folder)
        os.close(folder)
        self.put('input', b'# \xff\n')
        with open(self.path('input')) as given:
            self.case('input that is no text', words, unread, ['standard input: it is not UTF-8 text'], stdin=given)
        os.truncate(self.path('input'), 16_777_217)
        for more in (words, ('run', '--plan', '-', '--progress', 'p', '--loopback')):
            with open(self.path('input')) as given:
                self.case(f'{" ".join(more)} of too much', more, 'longer than 16777216 bytes: standard input\n',
                          ['standard input: it has more than 16777216 bytes; check that it is the right file'], stdin=given)
        self.put('input', '[[key]]\n')
        missing = 'standard input:1: key 1: there is no name: a key needs name, algorithm, length, usage and target'
        for more in (words, (*words, '--after', 'plan.toml'), ('sim', '--plan', '-', '--script', 'empty.script'),
                     ('list', '--plan', '-', '--progress', 'p'), ('look', '--plan', '-', '--loopback')):
            with open(self.path('input')) as given:
                self.case(f'{" ".join(more)} of no plan', more, 'plan refused: 4 Missing name at key 1\n', [missing],
                          stdin=given)
        others = [*NINE[:-1], CASE.but(name='other')]
        self.put('input', plan(others))
        with open(self.path('input')) as given:
            self.case('input that does not prolong a file', (*words, '--after', 'plan.toml'),
                      f'{checked(others)}prolongs not\n',
                      [f'standard input: "{CASE.name}" of plan.toml is missing: the earlier keys must come first, in '
                       'the same order'], stdin=given)

    def named_as_input(self):
        """A file that is called as standard input is read by another path, and by this one where it is no plan's."""
        self.put('-', PLAN)
        self.case('check --plan ./-', ('check', '--plan', './-'), CHECKED, [], status=0)
        self.case('check --after ./-', (*CHECK, '--after', './-'), f'{CHECKED}prolongs\n', [], status=0)
        self.put('-', '')
        self.case('sim --script -', ('sim', '--plan', 'plan.toml', '--script', '-'), simulated('1'), [], status=0)
        os.remove(self.path('-'))
        self.case('run --progress -', (*RUN_ALL, '--progress', '-'), FINISHED['8'], [], status=0)
        self.look('a progress of that name', (self.text('-'), ALL_KNOWN))

    def variables(self):
        """Variables in the place of options."""
        self.start()
        wrong = 'KMIPCTL_CONNECT wants an IPv4 address and a port, as 192.0.2.7:5696; '
        name = '"kms:5696" has a name: look it up first, or name a tunnel\'s --socket'
        run = ('run', '--plan', 'plan.toml', '--progress', 'p')
        both = {b'KMIPCTL_CONNECT': b'127.0.0.1:1', b'KMIPCTL_SOCKET': b's'}
        rows = [
            (('check',), {b'KMIPCTL_PLAN': b'plan.toml'}, CHECKED, [], 0),
            (('check', '--plan', 'plan.toml'), {b'KMIPCTL_PLAN': b'\xff'}, CHECKED, [], 0),
            ((*RUN_ALL, '--progress', 'p'), {**both, b'KMIPCTL_PROGRESS': b'q'}, FINISHED['8'], [], 0),
            (('check',), {b'KMIPCTL_PLAN': b'\xff'}, f'error: the value of KMIPCTL_PLAN is not UTF-8\n{CHECK_USAGE}', [], 2),
            (run, both, TWO_SERVERS + RUN_USAGE, [], 2),
            (run, {b'KMIPCTL_CONNECT': b'kms:5696'}, NO_ADDRESS_IN_VARIABLE + RUN_USAGE, [wrong + name], 2),
            (PROBE[:-1], {b'KMIPCTL_CONNECT': b'192.0.2.7'}, NO_ADDRESS_IN_VARIABLE + PROBE_USAGE,
             [f'{wrong}"192.0.2.7" has no port: add one, as :5696'], 2),
            (PROBE[:-1], {b'KMIPCTL_SOCKET': b's' * 108}, f'cannot connect {"s" * 108}\n',
             [f'{"s" * 108}: path must be shorter than SUN_LEN; give a shorter path'], 1),
        ]
        for words, said, printed, told, status in rows:
            shown = ' '.join(f'{name.decode()}={value!r}' for name, value in said.items())
            self.case(f'{shown} {" ".join(words)}', words, printed, told, status=status, said=said)
        self.look('no file of the progress in its variable', (os.path.exists(self.path('q')), False))

    def closed_streams(self):
        """Nothing that is printed may land in a file that is opened."""
        for what in ('0<&-', '1>&-', '2>&-', '0<&- 1>&- 2>&-'):
            self.start()
            command = f'exec "$0" run --plan plan.toml --progress p --loopback --batch 8 --verbose {what}'
            done = subprocess.run([*self.before, 'sh', '-c', command, self.program], cwd=self.folder, text=True, timeout=EVER,
                                  stdin=subprocess.DEVNULL, capture_output=True)
            self.look(f'run with {what}', (done.returncode, 0), (self.text('p.lock'), ''), (self.text('p'), ALL_KNOWN),
                      (done.stdout, '' if '1>' in what else FINISHED['8']),
                      (len(done.stderr.splitlines()), 0 if '2>' in what else sum(map(len, messages('8')))))

    def addresses(self):
        self.start()
        rows = [
            ('kms.example.org:5696', "has a name: look it up first, or name a tunnel's --socket"),
            ('localhost', "has a name: look it up first, or name a tunnel's --socket"),
            ('[2001:db8::7]:5696', "is of IPv6: give the server's IPv4 address, or name a tunnel's --socket"),
            ('2001:db8::7', "is of IPv6: give the server's IPv4 address, or name a tunnel's --socket"),
            ('192.0.2.7', 'has no port: add one, as :5696'),
            ('192.0.2.7:0', "has the port 0: give the server's port, as 5696"),
            ('192.0.2.7:99999', 'is no such address'),
            ('', 'is no such address'),
        ]
        run = ('run', '--plan', 'plan.toml', '--progress', 'p')
        for value, why in rows:
            for words in ((*run, '--connect', value), (*run, f'--connect={value}')):
                self.case(' '.join(words), words, NO_ADDRESS_AND_PORT + RUN_USAGE,
                          [f'{WANTED}"{value}" {why}'], status=2)
        words = (*run, '--loopback', '--identifiers', '--json')
        self.case(' '.join(words), words, f"error: the argument '--identifiers' cannot be used with '--json'\n{RUN_USAGE}",
                  ['--json prints the identifiers too: leave out --identifiers'], status=2)
        value, why = rows[0]
        for words, usage in ((('probe', '--name-prefix', 'p', '--connect', value), PROBE_USAGE),
                             (('look', '--plan', 'plan.toml', '--connect', value), LOOK_USAGE)):
            self.case(' '.join(words), words, NO_ADDRESS_AND_PORT + usage, [f'{WANTED}"{value}" {why}'], status=2)
        for words in (('check', '--plan', b'\xff'), (b'\xff',)):
            self.case(f'{" ".join(map(str, words))}, a command line that is not UTF-8', words, '',
                      ['the command line is not UTF-8'], status=2)

    def terminals(self):
        """What a command that reads from a terminal says before it does."""
        rows = [
            ((), 'one request in hexadecimal a line'),
            (('answer',), 'one request in hexadecimal a line'),
            (('answer', '--stream'), 'a stream of requests in hexadecimal, in lines cut anywhere'),
            (('show',), 'one item in hexadecimal a line'),
            (('show', '--canon'), 'one item in hexadecimal a line'),
        ]
        for words, what in rows:
            self.at_terminal(words, '', [f'reading from the terminal: {what}; end with Ctrl-D'], status=0)
        self.at_terminal(('check', '--plan', '-'), 'plan refused: 2 NoKeys\n',
                         ['reading from the terminal: a plan; end with Ctrl-D',
                          'standard input: there is no key: a plan has at least one [[key]]'], status=1)

    def all(self):
        self.start()
        for batch in BATCHES:
            for part in (self.order_of_calls, self.unsynced_folder, self.plans_of_input):
                part(batch)
        for part in (self.unread_plans, self.unread_progress, self.refused_progress, self.unwritten_progress,
                     self.refused_origins, self.kept_files, self.denied, self.unmade_calls, self.disks, self.sockets,
                     self.outputs, self.inputs, self.refused_input, self.variables, self.closed_streams,
                     self.addresses, self.terminals):
            part()

    def at_terminal(self, words, printed, told, status):
        """A command at a terminal at which nothing is typed."""
        master, slave = pty.openpty()
        # Ctrl-D at the beginning of a line.
        os.write(master, b'\x04')
        with os.fdopen(slave) as terminal:
            self.case(f'{" ".join(words) or "no word"} at a terminal', words, printed, told, status=status,
                      stdin=terminal)
        os.close(master)


def fill_up(zeros, file):
    """Writes until the disk is full."""
    while True:
        try:
            file.write(zeros.read(1024))
        except OSError:
            return


def is_ended_by(port):
    """Whether the server at a port accepts a connection over which nothing comes, and ends it. Before the connection ends,
    and after, it has time to wait for something."""
    try:
        with socket.create_connection(('127.0.0.1', port), timeout=EVER) as connection:
            time.sleep(0.002)
            connection.shutdown(socket.SHUT_WR)
            is_ended = connection.recv(1) == b''
        time.sleep(0.002)
        return is_ended
    except OSError:
        return False


def calls_in(trace, folder):
    """What is done to files by the calls of a trace: each name is that in the folder."""
    done, open_files = [], {}
    named = lambda path: os.path.relpath(os.path.join(folder, path), folder)
    for line in trace.splitlines():
        if found := re.search(r'openat\(AT_FDCWD, "([^"]*)", (\S+?)(?:, 0\d+)?\) = (\d+)$', line):
            open_files[found[3]] = named(found[1])
            done += [f'make {named(found[1])}'] if 'O_EXCL' in found[2] else []
        elif found := re.search(r'(?:fdatasync|fsync)\((\d+)\) += 0$', line):
            done.append(f'sync {open_files[found[1]]}')
        elif found := re.search(r'rename\w*\((.*)\) += 0$', line):
            done.append(' '.join(['rename', *map(named, re.findall(r'"([^"]*)"', found[1]))]))
    return done


def users(program, folder):
    """The users as whom the cases are run, each with the words before its commands, and what is said of its cases."""
    yield -1, (), ''
    nobody = ('setpriv', f'--reuid={NOBODY}', f'--regid={NOBODY}', '--clear-groups')
    trying = [*nobody, 'sh', '-c', 'test -x "$0" && "$1" --version', os.path.dirname(folder), program]
    if os.geteuid() == 0 and shutil.which('setpriv') and not subprocess.run(trying, capture_output=True).returncode:
        yield NOBODY, nobody, ', as nobody'
    else:
        print('the cases as nobody: skipped, as nobody cannot be had, or cannot run the program')


def main():
    program, folder = map(os.path.realpath, sys.argv[1:3])
    total = []
    for user, before, whose in users(program, folder):
        causes = Causes(program, folder, user, before, whose)
        total.append(causes)
        causes.all()
    cases, wrong, skipped = (sum(getattr(one, name) for one in total) for name in ('cases', 'wrong', 'skipped'))
    print(f'{cases} cases: {wrong} wrong, {skipped} skipped')
    return 1 if wrong else 0


if __name__ == '__main__':
    sys.exit(main())
