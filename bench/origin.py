#!/usr/bin/env python3
"""Runs `kmipctl run` on progress files that were kept elsewhere: against other servers, for other keys, or by
a version that did not note where. It also looks at the metrics that runs write.

    bench/origin.py PROGRAM FOLDER

Each row prints what it looks at and `ok`, or what went wrong. Sockets on 127.0.0.1 and in the folder only.
The exit status is 0 where all is as it has to be.
"""

import hashlib
import json
import os
import re
import shutil
import socket
import subprocess
import sys
import threading
import time

sys.dont_write_bytecode = True

from messages import ACTIVATE, CREATE, Picky, objects_of
from nine_keys import BATCHES, CASE, NINE, plan as plan_of, report

KEY = '''[[key]]
name = "{}"
algorithm = "{}"
length = {}
usage = [{}]
target = "{}"
'''
PLAN = KEY.format('k1', 'AES', 256, '"encrypt", "decrypt"', 'active')
FINISHED = 'k1 active 2/2 finished\nfinished 1 of 1\nstop AllFinished {}\n'
ALONE = 'the server was not asked: {0} ({2}, {1}) says that the key is finished; kmipctl look asks the server\n'
GONE = 'a server in the process of its run (--loopback)'
# What the metrics of each run have, beside how long it took and when a run last finished.
COUNTED = ['keys{verdict="finished"}', 'keys{verdict="working"}', 'keys{verdict="conflict"}',
           'exchanges{outcome="answered"}', 'exchanges{outcome="lost"}', 'exchanges{outcome="unreadable"}',
           'refused', 'steps', 'run_in_progress']
TIME = 'last_finish_timestamp_seconds'
# So many seconds ago, in words.
AGES = ((60, '1 minute ago'), (61, '1 minute ago'), (3600, '1 hour ago'), (5400, '1 hour ago'), (2 * 3600 + 5, '2 hours ago'),
        (86400, '1 day ago'), (3 * 86400 + 5, '3 days ago'))
UNWRITTEN = '{}: {}; the metrics are not written, and nothing else changes; {}\n'
# The questions about the nine keys on a new server: a Locate of each, and its steps. The fewest messages about up to eight
# keys are as many as the questions about one key: to destroy it takes five.
EXCHANGES = {'1': len(NINE) + sum(key.steps() for key in NINE), '8': 5}
# A whole Response Message with nothing in it.
NO_REPLY = bytes.fromhex('42007b0100000000')
BELIEVE = '--believe: use {}, if {} agrees with what it says about each key\n'
REHEARSAL = 'it is of a rehearsal, whose server is gone: give another --progress\n'
AFRESH = '--afresh: start over, create each key that this server does not have, and keep {0} as {0}.before\n'


class Origins:
    def __init__(self, program, folder):
        self.program, self.folder, self.wrong = program, folder, 0
        self.plan, self.progress = os.path.join(folder, 'plan.toml'), os.path.join(folder, 'progress')
        self.servers = []

    def begin(self, text=PLAN):
        """An empty folder but for a plan."""
        shutil.rmtree(self.folder, ignore_errors=True)
        os.makedirs(self.folder)
        self.write('plan.toml', text)

    def write(self, name, text):
        with open(os.path.join(self.folder, name), 'w') as file:
            file.write(text)

    def read(self, name):
        path = os.path.join(self.folder, name)
        if not os.path.exists(path):
            return None
        with open(path) as file:
            return file.read()

    def run(self, *more, plan=None):
        words = [self.program, 'run', '--plan', plan or self.plan, '--progress', self.progress, '--wait', '0', *more]
        done = subprocess.run(words, capture_output=True, text=True)
        return done.returncode, done.stdout, re.sub(r', \d+ seconds? ago\)', ', a moment ago)', done.stderr)

    def list(self, plan=None):
        words = [self.program, 'list', '--plan', plan or self.plan, '--progress', self.progress]
        done = subprocess.run(words, capture_output=True, text=True)
        return done.returncode, done.stdout, re.sub(r', \d+ seconds? ago', ', a moment ago', done.stderr)

    def serve(self):
        """The port of a new server."""
        words = [self.program, 'serve', '--port', '0', '--connections', '1000']
        server = subprocess.Popen(words, stdout=subprocess.PIPE, text=True)
        self.servers.append(server)
        return int(server.stdout.readline().split()[1])

    def look(self, what, said, wanted):
        is_right = said == wanted
        print(f'{what}: ' + ('ok' if is_right else 'wrong'))
        if not is_right:
            print(f'    said   {said!r}\n    wanted {wanted!r}')
        self.wrong += not is_right

    def refused(self, before, now, more=''):
        """What a run prints at another server."""
        told = f'{self.progress} was saved against {before}; this run is to use {now}\n'
        told += REHEARSAL if before == GONE else BELIEVE.format(self.progress, now)
        return 1, f'progress of another server: {self.progress}\n', told + AFRESH.format(self.progress) + more

    def contradicted(self, server, *lines):
        """What a run prints if the server contradicts its progress, with these lines about keys."""
        told = ''.join(line.format(self.progress, server) + '\n' for line in lines)
        told += f'{self.progress} does not match {server}, and nothing was changed there: check the address, or the progress file\n'
        return 1, f'progress of another server: {self.progress}\n', told + AFRESH.format(self.progress)

    def rehearsal(self):
        self.begin()
        self.look('a rehearsal', self.run('--loopback'), (0, FINISHED.format(3), ''))
        known = self.read('progress')
        port = self.serve()
        where = ('--connect', f'127.0.0.1:{port}')
        self.look('its file at a server', self.run(*where), self.refused(GONE, f'127.0.0.1:{port}'))
        self.look('its file at one more rehearsal', self.run('--loopback'), self.refused(GONE, GONE))
        self.look('nor is it believed', self.run(*where, '--believe'), self.refused(GONE, f'127.0.0.1:{port}'))
        self.look('nothing was changed', (self.read('progress'), self.read('progress.before')), (known, None))
        self.look('from nothing', self.run(*where, '--afresh'), (0, FINISHED.format(3), ''))
        self.look('the file of before is kept', self.read('progress.before'), known)
        self.look('all is known to be done', self.run(*where),
                  (0, FINISHED.format(0), ALONE.format(self.progress, 'a moment ago', f'127.0.0.1:{port}')))
        origin = self.read('progress.origin')
        for seconds, age in AGES:
            self.write('progress.origin', re.sub(r'kept \d+', f'kept {int(time.time()) - seconds}', origin))
            self.look(age, self.run(*where), (0, FINISHED.format(0), ALONE.format(self.progress, age, f'127.0.0.1:{port}')))
        self.look('and looked at once more', self.run(*where, '--afresh'), (0, FINISHED.format(2), ''))
        self.look('the older file of before is kept too', self.read('progress.before.1'), known)

    def other_port(self):
        self.begin()
        first, second = self.serve(), self.serve()
        self.look('a run', self.run('--connect', f'127.0.0.1:{first}'), (0, FINISHED.format(3), ''))
        where = ('--connect', f'127.0.0.1:{second}')
        self.look('its file at another port', self.run(*where),
                  self.refused(f'127.0.0.1:{first}', f'127.0.0.1:{second}'))
        known, origin = self.read('progress'), self.read('progress.origin')
        self.look('nor is it believed there, as the server has no such key', self.run(*where, '--believe'),
                  self.contradicted(f'127.0.0.1:{second}', 'k1: {} has object 1 after 2 of 2 steps; {} has no object of this name'))
        self.look('both files stay', (self.read('progress'), self.read('progress.origin')), (known, origin))
        # The same server under another address.
        with Peer(lambda number, request: asked(first, request)) as peer:
            self.look('its file at the same server by another address', self.run('--connect', peer.address),
                      self.refused(f'127.0.0.1:{first}', peer.address))
            self.look('is believed, as the server agrees', self.run('--connect', peer.address, '--believe'),
                      (0, FINISHED.format(0), ''))
            self.look('and from then on', self.run('--connect', peer.address),
                      (0, FINISHED.format(0), ALONE.format(self.progress, 'a moment ago', peer.address)))
            self.look('but not where it was before', self.run('--connect', f'127.0.0.1:{first}'),
                      self.refused(peer.address, f'127.0.0.1:{first}'))

    def other_attributes(self):
        self.begin()
        where = ('--connect', f'127.0.0.1:{self.serve()}')
        self.look('a run of a plan', self.run(*where, '--limit', '2'),
                  (1, 'k1 active 1/2 working\nfinished 0 of 1\nstop Limit 2\n',
                   'k1: last reply to Create: created as 1\n'))
        for field, now, was, key in [
                ('length', '128', '256', KEY.format('k1', 'AES', 128, '"encrypt", "decrypt"', 'active')),
                ('usage', 'encrypt', 'encrypt decrypt', KEY.format('k1', 'AES', 256, '"encrypt"', 'active')),
                ('algorithm', 'HMAC-SHA256', 'AES', KEY.format('k1', 'HMAC-SHA256', 256, '"mac-generate"', 'active'))]:
            self.write('other.toml', key)
            told = (f'{self.progress} was saved for other attributes: key "k1": the {field} is {now}, and was {was}; '
                    'the attributes of an object do not change: restore them in the plan, or give the key another name\n')
            for more in ((), ('--believe',)):
                self.look(f'another {field} {" ".join(more)}'.strip(),
                          self.run(*where, *more, plan=os.path.join(self.folder, 'other.toml')),
                          (1, 'progress refused: 3 OtherPlan\n', told))
        # A mask of no usage, and one with a bit that has no word, are told in hexadecimal.
        origin = self.read('progress.origin')
        for mask, was in (('00000000', 'of mask 00000000'), ('00000201', 'sign of mask 00000201')):
            self.write('progress.origin', origin.replace('0000000c', mask))
            told = (f'{self.progress} was saved for other attributes: key "k1": the usage is encrypt decrypt, and was {was}; '
                    'the attributes of an object do not change: restore them in the plan, or give the key another name\n')
            self.look(f'a progress of a key whose usage is {mask}', self.run(*where), (1, 'progress refused: 3 OtherPlan\n', told))
        self.write('progress.origin', origin)
        self.write('longer.toml', PLAN + KEY.format('k2', 'AES', 128, '"encrypt"', 'created'))
        self.look('a plan that prolongs it', self.run(*where, plan=os.path.join(self.folder, 'longer.toml')),
                  (0, 'k1 active 2/2 finished\nk2 created 1/1 finished\nfinished 2 of 2\nstop AllFinished 4\n', ''))

    def destroyed(self):
        self.begin(KEY.format('k1', 'AES', 256, '"encrypt"', 'discarded'))
        finished = 'k1 discarded 2/2 finished\nfinished 1 of 1\nstop AllFinished {}\n'
        first, second = self.serve(), self.serve()
        self.look('a key is made and destroyed', self.run('--connect', f'127.0.0.1:{first}'), (0, finished.format(3), ''))
        more = 'k1 is known to be destroyed: with --afresh a server that forgets destroyed objects would create it again\n'
        self.look('at another server it would be made again', self.run('--connect', f'127.0.0.1:{second}'),
                  self.refused(f'127.0.0.1:{first}', f'127.0.0.1:{second}', more))

    def taken_further(self):
        """Another client destroys a key."""
        self.begin()
        where = ('--connect', f'127.0.0.1:{self.serve()}')
        self.look('a key is made', self.run(*where), (0, FINISHED.format(3), ''))
        self.write('other.toml', PLAN.replace('"active"', '"destroyed"'))
        done = subprocess.run([self.program, 'run', '--plan', os.path.join(self.folder, 'other.toml'), '--progress',
                               os.path.join(self.folder, 'other'), *where], capture_output=True, text=True)
        self.look('another client destroys it', done.stdout, 'k1 destroyed 4/4 finished\nfinished 1 of 1\nstop AllFinished 4\n')
        self.look('a look from nothing finds that', self.run(*where, '--afresh'),
                  (1, 'k1 active 0/2 conflict state\nfinished 0 of 1\nstop Conflict 2\n',
                   'k1: 1 is Destroyed, AES 256 encrypt decrypt; the plan wants it active\n'))

    def unknown_origin(self):
        self.begin()
        where = ('--connect', f'127.0.0.1:{self.serve()}')
        self.run(*where, '--limit', '2')
        os.remove(os.path.join(self.folder, 'progress.origin'))
        self.look('a file of which nothing is told goes on', self.run(*where), (0, FINISHED.format(2), ''))
        lines = (self.read('progress.origin') or '').splitlines()
        self.look('and where it is kept is told', (lines[0:2], lines[3:]),
                  (['kmipctl origin 1', f'server tcp {where[1]}'], ['key k1 AES 256 0000000c']))
        os.remove(os.path.join(self.folder, 'progress.origin'))
        self.look('all done, by a file of which nothing is told, as the server agrees', self.run(*where),
                  (0, FINISHED.format(0), ''))
        self.look('and where it is kept is told again', (self.read('progress.origin') or '').splitlines()[1],
                  f'server tcp {where[1]}')
        for what, key in ('no key', ''), ('a key in other words', 'key  k1 AES 256 0000000c\n'):
            self.write('progress.origin', f'kmipctl origin 1\nserver tcp {where[1]}\nkept 1\n{key}')
            self.look(f'all done, by a file that was saved for {what}, as the server agrees', self.run(*where), (0, FINISHED.format(0), ''))
            self.look('and for which key it is kept is told again', (self.read('progress.origin') or '').splitlines()[3:],
                      ['key k1 AES 256 0000000c'])
        os.remove(os.path.join(self.folder, 'progress.origin'))
        other = f'127.0.0.1:{self.serve()}'
        self.look('but not at a server that has no such key', self.run('--connect', other),
                  self.contradicted(other, 'k1: {} has object 1 after 2 of 2 steps; {} has no object of this name'))
        self.look('where it is kept is not told then', self.read('progress.origin'), None)
        self.look('with no exchange it is listed', self.run('--connect', other, '--limit', '0')[:2], (0, FINISHED.format(0)))
        for what, text in self.no_origins(where[1]):
            self.write('progress.origin', text)
            status, printed, _ = self.run(*where)
            self.look(f'an origin that {what}', (status, printed), (1, f'cannot read {self.progress}\n'))
        self.look('believed all the same', self.run(*where, '--believe')[:2], (0, FINISHED.format(0)))

    def no_origins(self, address):
        """Texts that do not say where, when and for which keys a progress was saved, each with what is wrong with it."""
        key = 'key k1 AES 256 0000000c\n'
        return [('is none', 'something else\n'),
                ('has no server', f'kmipctl origin 1\nkept 1\n{key}'),
                ('has no time', f'kmipctl origin 1\nserver tcp {address}\n{key}'),
                ('has a time that is no number', f'kmipctl origin 1\nserver tcp {address}\nkept soon\n{key}'),
                ('has a line of something else', f'kmipctl origin 1\nserver tcp {address}\nkept 1\n{key}soon\n')]

    def refreshed(self):
        """Runs that first ask the server about what the file knows."""
        self.begin(PLAN + KEY.format('k2', 'HMAC-SHA256', 256, '"mac-generate"', 'revoked'))
        report = 'k1 active {} {}\nk2 revoked {} {}\nfinished {} of 2\nstop {}\n'
        done = ('2/2', 'finished', '3/3', 'finished', 2)
        port = self.serve()
        where = ('--connect', f'127.0.0.1:{port}', '--refresh')
        self.look('a first run looks at nothing', self.run(*where), (0, report.format(*done, 'AllFinished 7'), ''))
        origin = self.read('progress.origin')
        self.look('a finished file is looked up', self.run(*where), (0, report.format(*done, 'AllFinished 0'), ''))
        self.look('with several keys in a message', self.run(*where, '--batch', '8'),
                  (0, report.format(*done, 'AllFinished 0'), ''))
        status, printed, _ = self.run(*where, '--limit', '0')
        self.look('not without an exchange', (status, printed.splitlines()[0]),
                  (2, "error: '--limit 0' cannot be used with '--refresh' or '--believe', which ask the server first"))
        finished = self.read('progress')
        self.run('--connect', where[1], '--afresh', '--limit', '3')
        self.look('what the file does not know is done, and counted alone', self.run(*where, '--limit', '9')[:2],
                  (0, report.format(*done, 'AllFinished 1')))
        other = f'127.0.0.1:{self.serve()}'
        self.write('progress', finished)
        self.write('progress.origin', origin.replace(f'127.0.0.1:{port}', other))
        lines = ['k1: {} has object 1 after 2 of 2 steps; {} has no object of this name',
                 'k2: {} has object 2 after 3 of 3 steps; {} has no object of this name']
        self.look('a server that was exchanged contradicts', self.run('--connect', other, '--refresh'),
                  self.contradicted(other, *lines))
        self.write('half.toml', PLAN)
        subprocess.run([self.program, 'run', '--plan', os.path.join(self.folder, 'half.toml'), '--progress',
                        os.path.join(self.folder, 'half'), '--connect', other], capture_output=True)
        self.look('so does one that has lost the last key', self.run('--connect', other, '--refresh'),
                  self.contradicted(other, lines[1]))
        status, printed, _ = self.run('--connect', other, '--refresh', '--json')
        self.look('in JSON the keys are named', (status, printed),
                  (1, f'{{"version":1,"fault":"progress of another server","at":"{self.progress}",'
                      f'"why":"{other} contradicts what it says","cause":null,"keys":["k2"]}}\n'))
        self.write('gone.toml', PLAN.replace('"active"', '"revoked"'))
        subprocess.run([self.program, 'run', '--plan', os.path.join(self.folder, 'gone.toml'), '--progress',
                        os.path.join(self.folder, 'gone'), '--connect', where[1]], capture_output=True)
        self.write('progress.origin', origin)
        self.look('a key that others revoked contradicts', self.run(*where),
                  self.contradicted(where[1], 'k1: {} has object 1 after 2 of 2 steps; '
                                    '{} has object 1 in the state Deactivated, which does not lead to active'))
        fourth = f'127.0.0.1:{self.serve()}'
        self.write('progress', finished.replace(' 2 31', ' 1 31'))
        self.write('progress.origin', origin.replace(f'127.0.0.1:{port}', fourth))
        self.look('without a look, an object that is not there is told at once and at the end',
                  self.run('--connect', fourth, '--limit', '2'),
                  (1, report.format('1/2', 'working', '3/3', 'finished', 1, 'Limit 2'),
                   f'k1: {fourth} does not have the object that {self.progress} has; --refresh checks the file\n'
                   'k1: GetAttributes refused 2 times, last reason 1 (Item Not Found)\n'
                   f'{fourth} is not as {self.progress} says: check the address, and run with --refresh\n'))
        # A server that was set back: it has the object, but before its second step.
        self.write('half.toml', KEY.format('k1', 'AES', 256, '"encrypt", "decrypt"', 'created'))
        fifth = f'127.0.0.1:{self.serve()}'
        subprocess.run([self.program, 'run', '--plan', os.path.join(self.folder, 'half.toml'), '--progress',
                        os.path.join(self.folder, 'set-back'), '--connect', fifth], capture_output=True)
        plan, known = self.read('plan.toml'), 'kmip-progress 2\nk1 revoked 1 2 31\nend 1\n'
        self.write('plan.toml', PLAN.replace('"active"', '"revoked"'))
        self.write('progress', known)
        self.write('progress.origin', self.read('set-back.origin'))
        self.look('nor one with an earlier state', self.run('--connect', fifth, '--limit', '2'),
                  (1, 'k1 revoked 2/3 working\nfinished 0 of 1\nstop Limit 2\n',
                   f'k1: {fifth} has an earlier state of the object than {self.progress} has; --refresh checks the file\n'
                   'k1: last reply to GetAttributes: 1 is PreActive, AES 256 encrypt decrypt\n'
                   f'{fifth} is not as {self.progress} says: check the address, and run with --refresh\n'))
        self.look('which a look finds', self.run('--connect', fifth, '--refresh'), self.contradicted(
            fifth, 'k1: {} has object 1 after 2 of 3 steps; {} has object 1 in the state PreActive'))
        self.write('plan.toml', plan)
        self.write('progress', finished)
        with socket.create_server(('127.0.0.1', 0)) as free:
            nobody = f'127.0.0.1:{free.getsockname()[1]}'
        self.write('progress.origin', origin.replace(f'127.0.0.1:{port}', nobody))
        status, printed, told = self.run('--connect', nobody, '--refresh', '--give-up', '1')
        self.look('no answer is no agreement', (status, printed, re.sub('(no reply|not asked)$', 'WHY', told, flags=re.M)),
                  (1, report.format(*done, 'Limit 0'),
                   f'no reply from {nobody}: the connection was refused; trying again\ngave up: no answer came for 1 s\n'
                   'k1: not told: WHY\nk2: not told: WHY\n'
                   'the progress file could not be checked, and nothing was changed: run again\n'))
        self.look('nothing was changed', self.read('progress'), finished)

    def refreshed_gone(self):
        """A server that forgets destroyed objects."""
        keys = [KEY.format(name, 'AES', 256, '"encrypt"', target) for name, target in (('k1', 'discarded'), ('k2', 'active'))]
        self.begin(''.join(keys))
        old, new = f'127.0.0.1:{self.serve()}', f'127.0.0.1:{self.serve()}'
        self.run('--connect', old)
        self.write('second.toml', keys[1])
        # On the new server k2 has the identifier that it has on the old one, and k1 is not there.
        self.write('first.toml', keys[1].replace('k2', 'other'))
        for plan in ('first', 'second'):
            subprocess.run([self.program, 'run', '--plan', os.path.join(self.folder, plan + '.toml'), '--progress',
                            os.path.join(self.folder, plan), '--connect', new], capture_output=True)
        known = self.read('progress')
        self.write('progress.origin', self.read('progress.origin').replace(old, new))
        report = 'k1 discarded 2/2 finished\nk2 active 2/2 finished\nfinished 2 of 2\nstop AllFinished 0\n'
        self.look('a destroyed key is forgotten, and the other agrees', self.run('--connect', new, '--refresh'),
                  (0, report, 'k1: destroyed by the progress file; the server has no object of this name '
                              '(some servers forget destroyed objects)\n'))
        self.begin(keys[0])
        self.run('--connect', old, '--limit', '3')
        self.write('progress', known.replace('\nk2', '\nk2').split('\n')[0] + '\n' + known.split('\n')[1] + '\nend 1\n')
        other = f'127.0.0.1:{self.serve()}'
        self.write('progress.origin', self.read('progress.origin').replace(old, other))
        self.look('nothing else agrees', self.run('--connect', other, '--refresh'),
                  self.contradicted(other, 'k1: {} has object 1, destroyed; {} has no object of this name '
                                    '(some servers forget destroyed objects)'))

    def refused_progress(self):
        """A file that is no progress is refused, wherever it was kept."""
        self.begin()
        self.run('--loopback')
        none = 'kmip-progress 2\nk1 active - many 31\nend 1\n'
        for text, why in (('', '2 Cut'), (none, '1 BadText')):
            for more in ((), ('--believe',), ('--refresh',)):
                self.write('progress', text)
                status, printed, _ = self.run('--loopback', *more)
                self.look(f'{why} {" ".join(more)}'.strip(), (status, printed, self.read('progress')),
                          (1, f'progress refused: {why}\n', text))
        self.look('but from nothing', self.run('--loopback', '--afresh')[:2], (0, FINISHED.format(3)))
        self.look('it is kept', self.read('progress.before'), none)

    def killed(self):
        """What a kill leaves between two files: the old one put aside, and where it was kept still told."""
        self.begin()
        first, second = self.serve(), self.serve()
        self.run('--connect', f'127.0.0.1:{first}')
        known = self.read('progress')
        os.rename(self.progress, self.progress + '.before')
        self.look('killed behind putting aside', self.run('--connect', f'127.0.0.1:{second}'), (0, FINISHED.format(3), ''))
        self.look('the old one stands', self.read('progress.before'), known)

    def socket_links(self):
        """A Unix socket is one server by all paths to it."""
        self.begin()
        path = os.path.join(self.folder, 'socket')
        status, printed, told = self.run('--socket', path, '--limit', '1')
        self.look('a socket that is not there', (status, printed), (1, 'k1 active 0/2 working\nfinished 0 of 1\nstop Limit 1\n'))
        told = self.read('progress.origin').splitlines()[1]
        self.look('is told by its path', told, f'server unix {path}')
        link = os.path.join(self.folder, 'link')
        os.symlink('.', link)
        self.run('--socket', os.path.join(link, 'socket'), '--limit', '1')
        self.look('also behind a link', self.read('progress.origin').splitlines()[1], told)

    def nothing_known(self):
        """A file that knows no object is no other server's."""
        self.begin()
        first, second = self.serve(), self.serve()
        self.look('a run that finds nothing', self.run('--connect', f'127.0.0.1:{first}', '--limit', '1'),
                  (1, 'k1 active 0/2 working\nfinished 0 of 1\nstop Limit 1\n',
                   'k1: last reply to Locate: found none\n'))
        self.look('goes on elsewhere', self.run('--connect', f'127.0.0.1:{second}'), (0, FINISHED.format(3), ''))

    def listings(self):
        """What `list` tells of where a file was kept."""
        self.begin()
        listed = 'k1 active 2/2 finished 1\nfinished 1 of 1\n'
        unread = f'{self.progress}: No such file or directory (os error 2)\n'
        self.look('a listing of no file', self.list(), (1, f'cannot read {self.progress}\n', unread))
        self.run('--loopback')
        self.look('a listing of a rehearsal', self.list(),
                  (0, listed, 'a rehearsal: saved by a run with --loopback, a moment ago\n'))
        port = self.serve()
        self.run('--connect', f'127.0.0.1:{port}', '--afresh')
        kept = f'saved against 127.0.0.1:{port}, '
        self.look('of a file that was saved against a server', self.list(), (0, listed, kept + 'a moment ago\n'))
        origin = self.read('progress.origin')
        for seconds, age in AGES:
            self.write('progress.origin', re.sub(r'kept \d+', f'kept {int(time.time()) - seconds}', origin))
            self.look(age, self.list(), (0, listed, f'{kept}{age}\n'))
        self.write('progress.origin', re.sub(r'kept \d+', f'kept {int(time.time()) + 3600}', origin))
        self.look('by a clock that was set back', self.list(), (0, listed, f'saved against 127.0.0.1:{port}\n'))
        self.write('progress.origin', origin.replace(f'tcp 127.0.0.1:{port}', 'unix /run/kmip.socket'))
        self.look('behind a socket', self.list(), (0, listed, 'saved against the socket /run/kmip.socket, a moment ago\n'))
        self.write('other.toml', KEY.format('k1', 'AES', 128, '"encrypt", "decrypt"', 'active'))
        told = (f'{self.progress} was saved for other attributes: key "k1": the length is 128, and was 256; '
                'the attributes of an object do not change: restore them in the plan, or give the key another name\n')
        self.look('for a key with another length', self.list(os.path.join(self.folder, 'other.toml')),
                  (1, 'progress refused: 3 OtherPlan\n', told))
        useless = 'it does not say where a progress was saved; run needs --believe to use the progress'
        for what, text in self.no_origins(f'127.0.0.1:{port}'):
            self.write('progress.origin', text)
            self.look(f'beside an origin that {what}', self.list(), (0, listed, f'{self.progress}.origin: {useless}\n'))
        os.remove(self.progress + '.origin')
        self.look('of a file of which nothing is told', self.list(),
                  (0, listed, f'the server of {self.progress} is not known\n'))
        os.rename(self.progress, self.progress + '.file')
        os.symlink('progress.file', self.progress)
        self.write('progress.file.origin', origin)
        self.look('through a symbolic link', self.list(), (0, listed, kept + 'a moment ago\n'))
        self.look('and nothing lies beside it', sorted(os.listdir(self.folder)),
                  ['other.toml', 'plan.toml', 'progress', 'progress.before', 'progress.file', 'progress.file.origin',
                   'progress.lock'])

    def no_room(self):
        """Where it can't be told where the file is kept, nothing is asked."""
        self.begin()
        os.mkdir(self.progress + '.origin.new')
        status, printed, _ = self.run('--loopback')
        self.look('an origin that cannot be written', (status, printed, self.read('progress')),
                  (1, f'cannot write {self.progress}\n', None))

    def metrics(self, *words, name='run.prom', **more):
        """What a run prints and its status, and the metrics that it leaves: what is counted, and the last finish."""
        path = os.path.join(self.folder, name)
        status, printed, _ = self.run('--metrics', path, *words, **more)
        return (status, printed.splitlines()[-1]), *self.measured(name)

    def measured(self, name='run.prom'):
        """What is counted in a file of metrics, and the last finish; none where it is not whole."""
        lines = (self.read(name) or '').splitlines()
        label = f'plan="{self.plan}"'
        values = dict(line.removeprefix('kmipctl_').replace(f'{{{label}}}', '').replace(label + ',', '').rsplit(' ', 1)
                      for line in lines if not line.startswith('#'))
        digest = hashlib.sha256(self.read('plan.toml').encode()).hexdigest()[:16]
        heads = [f'# {word} kmipctl_{name}' for name in dict.fromkeys(key.split('{')[0] for key in values)
                 for word in ('HELP', 'TYPE')]
        is_whole = values.pop(f'plan_info{{digest="{digest}"}}', '') == '1' and \
            re.fullmatch(r'\d+\.\d{3}', values.pop('run_seconds', ''))
        time_of, self.answered = values.pop(TIME, None), values.pop('last_answer_timestamp_seconds', None)
        if not is_whole or list(values) != COUNTED or [' '.join(line.split()[:3]) for line in lines if line[0] == '#'] != heads:
            return None, lines
        return [int(value) for value in values.values()], time_of and int(time_of)

    def measured_runs(self):
        """The metrics of runs that finish, and of runs that do not."""
        self.begin()
        where = ('--connect', f'127.0.0.1:{self.serve()}')
        self.look('metrics of a run that does not finish', self.metrics(*where, '--limit', '2'),
                  ((1, 'stop Limit 2'), [0, 1, 0, 2, 0, 0, 0, 1, 0], None))
        start = int(time.time())
        done, counted, finish = self.metrics(*where)
        self.look('of one that goes on from there: a step is its own', (done, counted),
                  ((0, 'stop AllFinished 2'), [1, 0, 0, 2, 0, 0, 0, 1, 0]))
        self.look('it tells when it finished', finish is not None and start <= finish <= time.time(), True)
        self.look('and when the server answered', start <= int(self.answered or 0) <= time.time(), True)
        path = os.path.join(self.folder, 'run.prom')
        self.look('anyone may read it', os.stat(path).st_mode & 0o777, 0o644 & ~self.mask())
        self.look('and nothing lies beside it', [name for name in os.listdir(self.folder) if 'run.prom' in name], ['run.prom'])
        self.write('run.prom', re.sub(r'^(kmipctl_last_finish\S*) \d+', r'\1 1000000000', self.read('run.prom'), flags=re.M))
        self.look('a run that does not finish keeps the time', self.metrics(*where, '--afresh', '--limit', '1'),
                  ((1, 'stop Limit 1'), [0, 1, 0, 1, 0, 0, 0, 0, 0], 1000000000))
        self.look('one that finds all done took no step', self.metrics(*where, '--afresh')[:2],
                  ((0, 'stop AllFinished 2'), [1, 0, 0, 2, 0, 0, 0, 0, 0]))
        self.write('run.prom', re.sub(r' \d{10}$', ' 1000000000', self.read('run.prom'), flags=re.M))
        self.look('one that asks nothing keeps both times', (*self.metrics(*where), self.answered),
                  ((0, 'stop AllFinished 0'), [1, 0, 0, 0, 0, 0, 0, 0, 0], 1000000000, '1000000000'))
        finish = self.metrics(*where, '--refresh')
        self.look('one that looks first has new ones', (finish[:2], finish[2] >= start, int(self.answered) >= start),
                  (((0, 'stop AllFinished 0'), [1, 0, 0, 2, 0, 0, 0, 0, 0]), True, True))
        plan = os.path.join(self.folder, 'a "b"\\c.toml')
        self.write(os.path.basename(plan), PLAN)
        self.run('--loopback', '--afresh', '--metrics', os.path.join(self.folder, 'odd.prom'), plan=plan)
        label = plan.replace('\\', '\\\\').replace('"', '\\"')
        self.look('the path of a plan is escaped', f'kmipctl_refused{{plan="{label}"}} 0\n' in (self.read('odd.prom') or ''), True)
        for text in ('', 'something else\n', f'kmipctl_{TIME} soon\n'):
            self.write('run.prom', text)
            self.look('no time is kept of no such file', self.metrics(*where, '--afresh', '--limit', '1'),
                      ((1, 'stop Limit 1'), [0, 1, 0, 1, 0, 0, 0, 0, 0], None))
        self.write('progress', 'something else\n')
        self.look('a run that refuses its progress leaves the file', self.metrics(*where),
                  ((1, 'progress refused: 2 Cut'), [0, 1, 0, 1, 0, 0, 0, 0, 0], None))

    def mask(self):
        mask = os.umask(0)
        os.umask(mask)
        return mask

    def measured_trouble(self):
        """The metrics of runs whose replies are lost, or are none."""
        self.begin()
        with socket.create_server(('127.0.0.1', 0)) as free:
            nobody = f'127.0.0.1:{free.getsockname()[1]}'
        self.look('metrics of a run where nobody listens', self.metrics('--connect', nobody, '--limit', '2'),
                  ((1, 'stop Limit 2'), [0, 1, 0, 0, 2, 0, 0, 0, 0], None))
        with Peer(lambda number, request: NO_REPLY) as peer:
            self.look('of one whose replies cannot be read', self.metrics('--connect', peer.address, '--limit', '2'),
                      ((1, 'stop Limit 2'), [0, 1, 0, 0, 0, 2, 0, 0, 0], None))
        server = self.serve()
        with Peer(lambda number, request: asked(server, request, is_lost=number == 1)) as peer:
            self.look('a Create whose reply is lost is a step', self.metrics('--connect', peer.address)[:2],
                      ((0, 'stop AllFinished 5'), [1, 0, 0, 4, 1, 0, 0, 2, 0]))

    def measured_kill(self):
        """What a run leaves that is killed while it waits for a reply."""
        self.begin()
        self.write('run.prom', f'kmipctl_{TIME} 1000000000\n')
        heard = threading.Event()
        with Peer(lambda number, request: heard.set() or b'') as peer:
            words = [self.program, 'run', '--plan', self.plan, '--progress', self.progress, '--connect', peer.address,
                     '--metrics', os.path.join(self.folder, 'run.prom')]
            running = subprocess.Popen(words, stdout=subprocess.DEVNULL, stderr=subprocess.DEVNULL)
            is_heard = heard.wait(150)
            running.kill()
            running.wait()
        self.look('a run was killed while it waited', is_heard, True)
        self.look('its metrics say that it goes on', self.measured(), ([0, 1, 0, 0, 0, 0, 0, 0, 1], 1000000000))
        self.look('the next run ends', self.metrics('--loopback', '--afresh')[:2],
                  ((0, 'stop AllFinished 3'), [1, 0, 0, 3, 0, 0, 0, 2, 0]))

    def unmeasured(self):
        """Metrics that cannot be written change nothing else."""
        self.begin()
        os.mkdir(os.path.join(self.folder, 'folder'))
        for name, why, remedy in (('none/run.prom', 'No such file or directory (os error 2)', 'check that its folder exists'),
                                  ('folder', 'this is not a regular file', 'name another file')):
            path = os.path.join(self.folder, name)
            self.look(f'metrics to {name}', self.run('--loopback', '--afresh', '--metrics', path),
                      (0, FINISHED.format(3), UNWRITTEN.format(path, why, remedy)))
        known = self.read('progress')
        why = 'this is the plan, the progress or a file next to it'
        for name in ('plan.toml', 'progress', 'progress.origin', 'progress.lock', 'progress.before', 'progress.new'):
            path = os.path.join(self.folder, name)
            self.look(f'metrics to {name}', self.run('--loopback', '--afresh', '--metrics', path),
                      (0, FINISHED.format(3), UNWRITTEN.format(path, why, 'name another file')))
        self.look('both stay', (self.read('plan.toml'), self.read('progress')), (PLAN, known))
        os.mkdir(os.path.join(self.folder, 'run.prom.new'))
        status, printed, told = self.run('--loopback', '--afresh', '--limit', '2', '--metrics', os.path.join(self.folder, 'run.prom'))
        self.look('a run that does not finish', (status, printed, told.count('the metrics are not written')),
                  (1, 'k1 active 1/2 working\nfinished 0 of 1\nstop Limit 2\n', 1))

    def measured_look(self):
        """The metrics of looks."""
        self.begin(PLAN + KEY.format('k2', 'AES', 256, '"encrypt"', 'created'))
        where = ('--connect', f'127.0.0.1:{self.serve()}')

        def looked(*words):
            path = os.path.join(self.folder, 'look.prom')
            done = subprocess.run([self.program, 'look', '--plan', self.plan, '--metrics', path, *words],
                                  capture_output=True, text=True)
            lines = (self.read('look.prom') or '').splitlines()
            values = dict(line.removeprefix('kmipctl_look_').rsplit(' ', 1) for line in lines if line[0] != '#')
            label = f'plan="{self.plan}"'
            counts = [values.get(f'keys{{{label},verdict="{word}"}}') for word in ('finished', 'working', 'conflict', 'not_told')]
            counts += [values.get(f'exchanges{{{label},outcome="{word}"}}') for word in ('answered', 'lost')]
            times = [values.get(f'last_{word}_timestamp_seconds{{{label}}}') for word in ('answer', 'finish')]
            return done.returncode, done.stdout.splitlines()[-1:], counts, [time is not None for time in times]
        self.look('metrics of a look that finds nothing', looked(*where),
                  (1, ['finished 0 of 2'], ['0', '2', '0', '0', '2', '0'], [True, False]))
        self.run(*where)
        for more in (), ('--json',):
            self.look(f'of one that finds all {" ".join(more)}'.strip(), looked(*where, *more)[2:],
                      (['2', '0', '0', '0', '4', '0'], [True, True]))
        with socket.create_server(('127.0.0.1', 0)) as free:
            nobody = f'127.0.0.1:{free.getsockname()[1]}'
        self.look('of one where nobody listens', looked('--connect', nobody, '--batch', '8'),
                  (1, ['finished 0 of 2'], ['0', '0', '0', '2', '0', '4'], [True, True]))
        done = subprocess.run([self.program, 'look', '--plan', self.plan, '--metrics', self.plan, *where], capture_output=True, text=True)
        self.look('not over the plan', (done.returncode, done.stderr), (0, UNWRITTEN.format(
            self.plan, 'this is the plan, the progress or a file next to it', 'name another file')))

    def nine_other_attributes(self, batch):
        """The attributes of each key are compared, and not of the first alone."""
        self.begin(plan_of())
        where = ('--connect', f'127.0.0.1:{self.serve()}', '--batch', batch)
        self.look(f'nine keys, {batch} a message', self.run(*where), (0, report(f'AllFinished {EXCHANGES[batch]}'), ''))
        for place, changed, why in (
                (1, {'length': 128}, 'the length is 128, and was 256'),
                (8, {'length': 192}, 'the length is 192, and was 256'),
                (8, {'usage': ('encrypt',)}, 'the usage is encrypt, and was encrypt decrypt'),
                (8, {'algorithm': 'HMAC-SHA256'}, 'the algorithm is HMAC-SHA256, and was AES'),
                (1, {'usage': ('wrap-key',)}, 'the usage is wrap-key, and was encrypt decrypt wrap-key unwrap-key'),
                (2, {'usage': ('mac-generate',)}, 'the usage is mac-generate, and was mac-generate mac-verify'),
                (2, {'usage': ('mac-verify',)}, 'the usage is mac-verify, and was mac-generate mac-verify')):
            key = NINE[place].but(**changed)
            self.write('other.toml', plan_of([*NINE[:place], key, *NINE[place + 1:]]))
            told = (f'{self.progress} was saved for other attributes: key "{key.name}": {why}; '
                    'the attributes of an object do not change: restore them in the plan, or give the key another name\n')
            self.look(f'key {place + 1} of nine with another {next(iter(changed))}',
                      self.run(*where, plan=os.path.join(self.folder, 'other.toml')),
                      (1, 'progress refused: 3 OtherPlan\n', told))

    def nine_other_port(self, batch):
        """A file that knows one identifier and no step is of its server alone; so is a file with keys that are destroyed."""
        self.begin(plan_of())
        first, second = (f'127.0.0.1:{self.serve()}' for _ in range(2))
        self.run('--connect', first, '--batch', batch, '--limit', '1')
        nothing = self.read('progress')
        line = f'{CASE.name} active - 0 '
        known = nothing.replace(f'{line}-\n', f'{line}31\n')
        self.look('a file that knows nothing of the last key, and one that knows its identifier alone',
                  (nothing.count(f'{line}-\n'), known.count('31\n')), (1, 1))
        self.write('progress', known)
        self.look('the last key has an identifier and no step: its file at another port',
                  self.run('--connect', second, '--batch', batch), self.refused(first, second))
        self.look('nothing is made there', objects_of(int(second.split(':')[1]), [CASE.name]), {CASE.name: []})
        self.write('progress', nothing)
        self.run('--connect', first, '--batch', batch)
        last = CASE.but(name='destroyed-last', target='discarded')
        for keys, destroyed in ((NINE, NINE[3]), ([*NINE[:3], last], last)):
            self.begin(plan_of(keys))
            self.run('--connect', first, '--batch', batch)
            self.look(f'key {keys.index(destroyed) + 1} of {len(keys)} is known to be destroyed: its file at another port',
                      self.run('--connect', second, '--batch', batch), self.refused(first, second, (
                          f'{destroyed.name} is known to be destroyed: with --afresh a server that forgets destroyed objects '
                          'would create it again\n')))

    def nine_refused(self, batch):
        """What a run counts of its keys is what the server was asked, refused and holds: in JSON, in metrics and in words."""
        for limit in {'1': (9, 15, 60), '8': (1, 2, 3, 4, 12)}[batch]:
            self.begin(plan_of())
            port = self.serve()
            picky = Picky(port, refuses)
            with Peer(lambda number, request: picky.reply_to(request)) as peer:
                path = os.path.join(self.folder, 'run.prom')
                status, printed, told = self.run('--connect', peer.address, '--batch', batch, '--limit', str(limit),
                                                 '--json', '--metrics', path)
            objects = objects_of(port, [key.name for key in NINE])
            done = [key.done(objects[key.name]) for key in NINE]
            refused, finished = sum(picky.refused.values()), sum(map(is_finished, NINE, done))
            what = f'a server that refuses some of nine keys, {batch} a message, {limit} messages'
            self.look(f'{what}: in JSON', (status, documents(printed)), (1, [*map(document, NINE, done, objects.values()), {
                'version': 1, 'end': 'Limit', 'finished': finished, 'of': 9, 'exchanges': picky.messages, 'lost': 0,
                'refused': refused, 'unreadable': 0, 'steps': sum(done), 'milliseconds': 'T',
                'cause': 'refused' if refused else None}]))
            self.look(f'{what}: in metrics', self.measured(), (
                [finished, 9 - finished, 0, limit, 0, 0, refused, sum(done), 0], None))
            wanted = [f'{name}: Create refused {count} time{"" if count == 1 else "s"}, last reason 12 (Permission Denied)'
                      for (operation, name), count in sorted(picky.refused.items(), key=place_of) if operation == CREATE]
            self.look(f'{what}: in words', [line for line in told.splitlines() if ': Create refused' in line], wanted)

    def all(self):
        for batch in BATCHES:
            self.nine_other_attributes(batch)
            self.nine_other_port(batch)
            self.nine_refused(batch)
        for case in (self.rehearsal, self.other_port, self.other_attributes, self.destroyed, self.taken_further,
                     self.refreshed, self.refreshed_gone, self.measured_look, self.unknown_origin, self.refused_progress, self.killed, self.socket_links, self.nothing_known,
                     self.listings, self.no_room, self.measured_runs, self.measured_trouble, self.measured_kill,
                     self.unmeasured):
            case()
        for server in self.servers:
            server.kill()
            server.wait()
        print(f'{self.wrong} wrong')
        return 1 if self.wrong else 0


def refuses(operation, name, time):
    """What a server refuses of the nine keys: the Create of three keys for ever, and the Activate of another one twice."""
    if operation == CREATE and name in (NINE[1].name, NINE[4].name, CASE.name):
        return 12
    return 7 if operation == ACTIVATE and name == NINE[7].name and time <= 2 else None


def place_of(refused):
    """The place in the plan of a key that was refused."""
    (_, name), _ = refused
    return [key.name for key in NINE].index(name)


def is_finished(key, done):
    return done == key.steps()


def document(key, done, objects):
    """What a run prints of a key in JSON, of which all that is done is done by this run."""
    return {'version': 1, 'key': key.name, 'target': key.target, 'done': done, 'of': key.steps(),
            'verdict': 'finished' if is_finished(key, done) else 'working',
            'identifier': objects[0][0].decode() if objects else None, 'steps': done}


def documents(printed):
    """The documents that are printed, a line each; `milliseconds` as T."""
    found = [json.loads(line) for line in printed.splitlines()]
    return [one | {'milliseconds': 'T'} if 'milliseconds' in one else one for one in found]


class Peer:
    """A server on 127.0.0.1 that answers each message by what a call gives for its number and its bytes; where that
    is nothing it closes the connection, but of `b''`, after which it only waits."""

    def __init__(self, answer):
        self.answer, self.count = answer, 0
        self.socket = socket.create_server(('127.0.0.1', 0))
        self.address = f'127.0.0.1:{self.socket.getsockname()[1]}'

    def __enter__(self):
        threading.Thread(target=self.serve, daemon=True).start()
        return self

    def __exit__(self, *_):
        self.socket.close()

    def serve(self):
        try:
            while True:
                connection = self.socket.accept()[0]
                threading.Thread(target=self.answer_all, args=(connection,), daemon=True).start()
        except OSError:
            pass

    def answer_all(self, connection):
        with connection:
            while request := message_of(connection):
                reply = self.answer(self.count, request)
                self.count += 1
                if reply is None:
                    return
                connection.sendall(reply)


def message_of(connection):
    """The next message of a connection; nothing where it has ended."""
    message, size = b'', 8
    while len(message) < size:
        piece = connection.recv(size - len(message))
        if not piece:
            return b''
        message += piece
        if len(message) == 8:
            size += int.from_bytes(message[4:], 'big')
    return message


def asked(port, request, is_lost=False):
    """What the server at a port replies; none where that is to be lost."""
    with socket.create_connection(('127.0.0.1', port)) as connection:
        connection.sendall(request)
        reply = message_of(connection)
    return None if is_lost else reply


def main():
    program, folder = sys.argv[1:]
    return Origins(os.path.realpath(program), os.path.realpath(folder)).all()


if __name__ == '__main__':
    sys.exit(main())
