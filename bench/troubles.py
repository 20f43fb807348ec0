#!/usr/bin/env python3
"""Runs `kmipctl run`, `look` and `probe` against servers that give trouble, and compares what standard error says.

    bench/troubles.py PROGRAM FOLDER

The peers refuse connections, hang, close, speak TLS, HTTP or KMIP 1.0, refuse a Create, or have other objects
of the plan's names. Of each case the lines of standard error, the last line of standard output and the exit
status are compared with what is written here, where times are written as T. Each row has a case and `ok`, or
what went wrong. The last line has `0 wrong`, and the exit status is 0, where all is as it has to be. Sockets
on 127.0.0.1 and in the folder only.
"""

import json
import os
import pty
import re
import shutil
import socket
import struct
import subprocess
import sys
import threading
import time

sys.dont_write_bytecode = True

from messages import ACTIVATE, CREATE, DESTROY, Picky, located, message, objects_of, questions_in, refusal, reply
from nine_keys import BATCHES, CASE, NINE, Key

# What takes longer than so many seconds never ends, or is not given up. A busy machine takes seconds to start a
# program, or to bring a file to the disk.
LONGEST = 60
# What has not ended after so many seconds never does.
EVER = 150

TUNNEL = ' (if there is a tunnel, see its log)'
TLS_ALERT = bytes.fromhex('15030300020228')
TLS_HANDSHAKE = bytes.fromhex('160303004a0200004603036b')
NO_KMIP = 'the server did not reply in KMIP'


def key(name, length=256, target='active'):
    return (f'[[key]]\nname = "{name}"\nalgorithm = "AES"\nlength = {length}\n'
            f'usage = ["encrypt", "decrypt"]\ntarget = "{target}"\n\n')


def silent(peer):
    time.sleep(60)


def saying(words, then=None):
    """What a peer does that says this to a request, and closes, or does something else then."""
    def behaviour(peer):
        message(peer)
        if words:
            peer.sendall(words)
        if then:
            then(peer)
        peer.close()

    return behaviour


def resetting(peer):
    """Resets the connection once a request has come."""
    message(peer)
    peer.setsockopt(socket.SOL_SOCKET, socket.SO_LINGER, struct.pack('ii', 1, 0))
    peer.close()


def answering(answer):
    """What a peer does that answers each request by the replies that are made of its questions."""
    def behaviour(peer):
        while True:
            peer.sendall(reply([answer(*question) for question in questions_in(message(peer))]))

    return behaviour


def of_version_one(peer):
    while True:
        questions = questions_in(message(peer))
        peer.sendall(reply([located(identity) for _, identity in questions], version=(1, 0)))


def refusing_create(reason):
    def answer(operation, identity):
        return refusal(operation, identity, reason) if operation == CREATE else located(identity)

    return answering(answer)


def refusing_all(operation, identity):
    return refusal(operation, identity, 12)


def having_two(operation, identity):
    return located(identity, '12', '13')


def stranger(operation, identity):
    return located(b'\x08other')


def picking(picky):
    """What a peer does that refuses some questions, and has the others answered."""
    def behaviour(peer):
        while True:
            peer.sendall(picky.reply_to(message(peer)))

    return behaviour


def handing_on(port):
    """What a peer does that hands requests on to the server at this port."""
    def behaviour(peer):
        with peer, socket.create_connection(('127.0.0.1', port)) as server:
            while True:
                server.sendall(message(peer))
                peer.sendall(message(server))

    return behaviour


def handing_on_slowly(port, seconds):
    """What a peer does that hands requests on to the server at this port, and takes so long for each."""
    def behaviour(peer):
        with peer, socket.create_connection(('127.0.0.1', port)) as server:
            while True:
                server.sendall(message(peer))
                time.sleep(seconds)
                peer.sendall(message(server))

    return behaviour


def serving(listener, behaviour):
    """Lets each connection that comes behave so."""
    def behave(peer):
        try:
            behaviour(peer)
        except OSError:
            pass
        finally:
            peer.close()

    def accept():
        while True:
            peer, _ = listener.accept()
            threading.Thread(target=behave, args=(peer,), daemon=True).start()

    listener.listen(50)
    threading.Thread(target=accept, daemon=True).start()


def bound():
    """A port where nobody listens yet."""
    listener = socket.socket()
    listener.bind(('127.0.0.1', 0))
    return listener, listener.getsockname()[1]


def peer_with(behaviour):
    """A port whose connections each behave so."""
    listener, port = bound()
    serving(listener, behaviour)
    return port


def until(condition):
    """Waits until this holds, for ever at most."""
    end = time.monotonic() + EVER
    while not condition() and time.monotonic() < end:
        time.sleep(0.01)


def within(value, least, most=LONGEST):
    """A fact: that this number is within these bounds."""
    return value, min(max(value, least), most)


def number_in(pattern, text):
    """The number that a pattern finds in a text; -1 if it finds none."""
    found = re.search(pattern, text, re.M)
    return float(found[1]) if found else -1


def without_times(line):
    """A line of standard error without its times: seconds since the start, of silence, and of an exchange."""
    line = re.sub(r'^\d+\.\d{3} ', 'T ', line)
    line = re.sub(r'answers again after \d+ s$', 'answers again after T s', line)
    line = re.sub(r'(waiting for|times in|giving up in) \d+ s', r'\1 T s', line)
    line = re.sub(r' \d+ times in', ' N times in', line)
    return re.sub(r' \(\d+ ms\)$', ' (T ms)', line)


class Troubles:
    def __init__(self, program, folder):
        self.program, self.folder = program, folder
        self.cases, self.wrong, self.skipped = 0, 0, 0
        self.servers = []

    def path(self, name):
        return os.path.join(self.folder, name)

    def put(self, name, text):
        with open(self.path(name), 'w') as file:
            file.write(text)

    def text(self, name):
        with open(self.path(name)) as file:
            return file.read()

    def words(self, where, more):
        return [self.program, 'run', '--plan', 'plan.toml', '--progress', 'progress', *where, *more]

    def start(self, *keys):
        """A folder with this plan and nothing else."""
        shutil.rmtree(self.folder, ignore_errors=True)
        os.makedirs(self.folder)
        self.put('plan.toml', ''.join(keys or [key('k1')]))

    def look(self, what, *facts):
        """Prints the row of a case; a fact is what was found, and what has to be."""
        wrong = [(found, wanted) for found, wanted in facts if found != wanted]
        print(f'{what}: ' + ('wrong' if wrong else 'ok'), flush=True)
        for found, wanted in wrong:
            print(f'    {found!r}\n    in the place of {wanted!r}')
        self.cases += 1
        self.wrong += bool(wrong)

    def case(self, what, port, told, stop, *more, status=1, where=None):
        """A run against a port; the lines that are told have PEER in the place of the address."""
        address = f'127.0.0.1:{port}'
        ending, printed, said = self.ended(where or ('--connect', address), *more)
        lines = [without_times(line.replace(address, 'PEER')) for line in said.splitlines()]
        self.look(what, (lines, told), (printed.splitlines()[-1:], [stop]), (ending, status))

    def ended(self, where, *more, first=None, then=None):
        """What comes of a run: its exit status, or that it does not end, and what is printed and told. Once it has
        told a line that begins so, something else is done."""
        with open(self.path('told'), 'w') as told, subprocess.Popen(
                self.words(where, more), cwd=self.folder, text=True, stdin=subprocess.DEVNULL, stdout=subprocess.PIPE,
                stderr=told) as running:
            if then:
                until(lambda: self.text('told').startswith(first) and '\n' in self.text('told') or running.poll() is not None)
                then()
            try:
                printed, _ = running.communicate(timeout=EVER)
                status = running.returncode
            except subprocess.TimeoutExpired:
                running.kill()
                printed, _ = running.communicate()
                status = f'killed, as it had not ended after {EVER} s'
        return status, printed, self.text('told')

    def no_reply(self, what, behaviour, reason, *more):
        """A peer that never gives a reply: why is told once, and at the end that no key was answered. `look` and
        `probe` say the same."""
        self.start()
        why = f'no reply from PEER: {reason}; trying again'
        port = peer_with(behaviour)
        self.case(what, port, [why, 'no reply in 3 exchanges'], 'stop Limit 3',
                  '--limit', '3', '--wait', '0', *more)
        for command, words, last in (
                ('look', ('--plan', 'plan.toml'), 'finished 0 of 1'),
                ('probe', ('--name-prefix', 'p'), None)):
            address = f'127.0.0.1:{port}'
            done = subprocess.run([self.program, command, *words, '--connect', address, *more], cwd=self.folder,
                                  capture_output=True, text=True)
            lines = [without_times(line.replace(address, 'PEER')) for line in done.stderr.splitlines()]
            printed = done.stdout.splitlines()[-1:]
            self.look(f'{what}, by {command}', (lines, [why]), (done.returncode, 1),
                      (printed, [last] if last else printed))

    def told_in_many_words(self):
        """With --verbose, the line of an exchange without a reply that can be read has the reason, for each command."""
        for what, behaviour, reason in (('closes', saying(b''), f'no reply, the connection was closed before a reply{TUNNEL}'),
                                        ('speaks KMIP 1.0', of_version_one, 'an unreadable reply (Version: KMIP 1.0)')):
            self.start()
            address = f'127.0.0.1:{peer_with(behaviour)}'
            for command, words in (('look', ('--plan', 'plan.toml')), ('probe', ('--name-prefix', 'k1'))):
                done = subprocess.run([self.program, command, *words, '--connect', address, '--verbose'], cwd=self.folder,
                                      capture_output=True, text=True)
                lines = [without_times(line) for line in done.stderr.splitlines() if ' Locate ' in line]
                name = 'k1' if command == 'look' else 'k1-1'
                self.look(f'a peer that {what}, by {command} in many words', (done.returncode, 1), (len(lines) > 0, True),
                          (set(lines), {f'T Locate {name}: {reason} (T ms)'}))

    def serve(self):
        server = subprocess.Popen([self.program, 'serve', '--port', '0', '--connections', '1000000'],
                                  stdout=subprocess.PIPE, text=True)
        self.servers.append(server)
        return int(server.stdout.readline().split()[1])

    def without_reply(self):
        closed = f'the connection was closed before a reply{TUNNEL}'
        self.no_reply('a peer that hangs', silent, 'timed out after 1 s', '--timeout', '1')
        self.no_reply('a peer that closes', saying(b''), closed)
        self.no_reply('a peer that resets', resetting, closed)
        self.no_reply('a peer that closes within a reply', saying(bytes.fromhex('42007b010000009042007a')),
                      'the connection was closed within a reply')
        self.no_reply('a peer that closes behind one byte of a reply', saying(b'\x42'),
                      'the connection was closed within a reply')
        for what, words in [('an alert of TLS', TLS_ALERT), ('a handshake of TLS', TLS_HANDSHAKE),
                            ('the first byte of an alert of TLS', TLS_ALERT[:1])]:
            self.no_reply(f'a peer that says {what}', saying(words), f'{NO_KMIP}: it answers in TLS')
        # So long that the alert comes before, also from a peer on a busy machine.
        self.no_reply('a peer that says an alert of TLS and hangs', saying(TLS_ALERT, silent),
                      f'{NO_KMIP}: it answers in TLS', '--timeout', '4')
        for what, words in [('a reply', b'HTTP/1.1 400 Bad Request\r\n\r\n'), ('the first word', b'HTTP/')]:
            self.no_reply(f'a peer that says {what} of HTTP', saying(words), f'{NO_KMIP}: it answers in HTTP')
        self.no_reply('a peer that says something else', saying(b'220 mail.example.org\r\n'), NO_KMIP)
        self.no_reply('a peer that begins a long reply', saying(bytes.fromhex('42007b0100003000')),
                      'the reply is too long: 12296 bytes, limit 8192')
        self.no_reply('a peer that says nearly the head of a reply', saying(bytes.fromhex('42007b0100000004')), NO_KMIP)
        self.no_reply('a peer that speaks KMIP 1.0', of_version_one, 'an unreadable reply (Version: KMIP 1.0)')

    def refused_connections(self):
        listener, port = bound()
        refused = 'no reply from PEER: the connection was refused'
        self.start()
        self.case('a port where nobody listens', port,
                  [f'{refused}; trying again', 'no reply in 3 exchanges'], 'stop Limit 3',
                  '--limit', '3', '--wait', '0')
        self.start()
        self.case('it, asked once', port, [refused, 'no reply in 1 exchange'], 'stop Limit 1',
                  '--limit', '1')
        self.start()
        self.case('it, in many words', port,
                  [f'{refused}; trying again', 'T Locate k1: no reply, the connection was refused (T ms)',
                   'T Locate k1: no reply, the connection was refused (T ms)', 'no reply in 2 exchanges'],
                  'stop Limit 2', '--limit', '2', '--wait', '0', '--verbose')
        self.start()
        start = time.monotonic()
        self.case('it, with a first wait of 500 ms', port, [f'{refused}; trying again', 'no reply in 3 exchanges'],
                  'stop Limit 3', '--limit', '3', '--wait', '500')
        # One wait of 500 ms and one that is twice as long.
        self.look('it waits for 1.5 s in all', within(time.monotonic() - start, 1.4))
        self.start()
        self.case('it, asked more often than by default', port, [f'{refused}; trying again', 'no reply in 10001 exchanges'],
                  'stop Limit 10001', '--limit', '10001', '--wait', '0')
        listener.close()
        self.start()
        missing = 'No such file or directory (os error 2)'
        self.case('a socket that is not there', 0,
                  [f'no reply from kms.sock: {missing}; trying again', 'no reply in 2 exchanges'],
                  'stop Limit 2', '--limit', '2', '--wait', '0', where=('--socket', 'kms.sock'))

    def still_silent(self):
        """What is told of a server that is silent for long: within an exchange, and from one to the next."""
        listener, refusing = bound()
        rows = [('a peer that hangs for long', peer_with(silent), ('--timeout', '40', '--limit', '1'), 300, 'stop Limit 1',
                 ['still no reply from PEER (waiting for T s); giving up in T s',
                  'no reply from PEER: timed out after 40 s', 'no reply in 1 exchange']),
                ('a port where nobody listens for long', refusing, ('--give-up', '36'), 36, 'stop Limit',
                 ['no reply from PEER: the connection was refused; trying again',
                  'still no reply from PEER (connection refused N times in T s); giving up in T s',
                  'no reply in N exchanges', 'gave up: nothing new for 36 s'])]
        looks = [('a look at a peer that hangs for long', peer_with(silent), ('--timeout', '33', '--give-up', '10'),
                  ['still no reply from PEER (waiting for T s); giving up in T s',
                   'no reply from PEER: timed out after 33 s; trying again', 'gave up: no answer came for 10 s'])]
        self.start()
        running = []
        for what, port, words, give_up, stop, told in rows:
            command = [self.program, 'run', '--plan', 'plan.toml', '--progress', what.replace(' ', '-')]
            running.append((what, port, [*command, *words], give_up, stop, told))
        for what, port, words, told in looks:
            running.append((what, port, [self.program, 'look', '--plan', 'plan.toml', *words], 10, 'finished 0 of 1', told))
        started = [subprocess.Popen([*words, '--connect', f'127.0.0.1:{port}'], cwd=self.folder, text=True,
                                    stdin=subprocess.DEVNULL, stdout=subprocess.PIPE, stderr=subprocess.PIPE)
                   for _, port, words, *_ in running]
        for (what, port, _, give_up, stop, told), one in zip(running, started):
            printed, said = one.communicate(timeout=EVER)
            lines = [without_times(line.replace(f'127.0.0.1:{port}', 'PEER')) for line in said.splitlines()]
            lines = [re.sub(r'in \d+ exchanges', 'in N exchanges', line) for line in lines]
            # It is told after 30 s of silence, and when the run is given up: so long after nothing new became known.
            waited, left = number_in(r'(?:waiting for|times in) (\d+) s', said), number_in(r'giving up in (\d+) s', said)
            self.look(what, (lines, told), (printed.splitlines()[-1].startswith(stop), True), (one.returncode, 1),
                      within(waited, 30, 40), within(left, max(give_up - waited - 2, 0), max(give_up - waited, 0)))
        listener.close()

    def gives_up(self):
        """A port where nobody listens, which is given up after four seconds and not before."""
        listener, port = bound()
        self.start()
        start = time.monotonic()
        status, printed, said = self.ended(('--connect', f'127.0.0.1:{port}'), '--give-up', '4')
        took = time.monotonic() - start
        found = re.fullmatch(r'k1 active 0/2 working\nfinished 0 of 1\nstop Limit (\d+)\n', printed)
        exchanges = int(found[1]) if found else 0
        told = [f'no reply from 127.0.0.1:{port}: the connection was refused; trying again',
                f'no reply in {exchanges} exchanges', 'gave up: nothing new for 4 s']
        # 100 ms, and twice as long each time: five waits go into four seconds, and what is left of the last one. On a
        # busy machine they are fewer.
        self.look('a run that gives up', (status, 1), (said.splitlines(), told),
                  (exchanges, min(max(exchanges, 2), 8)), (took, min(max(took, 3.9), LONGEST)))
        listener.close()

    def answers_again(self):
        """A server that listens a second after it was told that nobody does."""
        listener, port = bound()
        behind = self.serve()
        self.start()
        refused = 'no reply from PEER: the connection was refused; trying again'

        def listen():
            time.sleep(1)
            serving(listener, handing_on(behind))

        status, printed, said = self.ended(('--connect', f'127.0.0.1:{port}'), first='no reply from', then=listen)
        lines = [without_times(line.replace(f'127.0.0.1:{port}', 'PEER')) for line in said.splitlines()]
        # By the waits of a run the last refusal is less than a second before the reply: the time is since the first one.
        self.look('a server that comes late', (lines, [refused, 'PEER answers again after T s']), (status, 0),
                  (printed.splitlines()[1:2], ['finished 1 of 1']), within(number_in(r'after (\d+) s$', said), 1))

    def is_slow(self):
        """A run that gets on all the time ends well, however long it takes: longer than `--give-up`, and than the time limit of
        an exchange. Its times are those of the whole run: in each line, in JSON and in the metrics."""
        self.start(*(key(f'k{number}') for number in range(1, 6)))
        port = peer_with(handing_on_slowly(self.serve(), 0.4))
        start = time.monotonic()
        status, printed, said = self.ended(('--connect', f'127.0.0.1:{port}'), '--give-up', '5', '--timeout', '4', '--verbose',
                                           '--json', '--metrics', 'run.prom')
        took = time.monotonic() - start
        end = json.loads(printed.splitlines()[-1])
        counts = [end[name] for name in ('end', 'finished', 'exchanges', 'lost')]
        lines = [re.fullmatch(r'(\d+\.\d{3}) \w+ k\d: .* \((\d+) ms\)', line) for line in said.splitlines()]
        self.look('a slow server', (status, 0), (counts, ['AllFinished', 5, 15, 0]), (took > 5, True),
                  (len(lines), 15), (all(lines), True))
        times = [float(line[1]) for line in lines if line]
        self.look('each line of an exchange has the time since the start of the run', (times, sorted(times)),
                  *(within(seconds, 0.4 * number, took) for number, seconds in enumerate(times, 1)))
        self.look('and how long the exchange took', *(within(int(line[2]), 400, 4000) for line in lines if line))
        self.look('in JSON and in the metrics is how long the run took', within(end['milliseconds'], 6000, 1000 * took),
                  within(number_in(r'^kmipctl_run_seconds\S* (\S+)$', self.text('run.prom')), 6, took))

    def other_reasons(self):
        """A peer that refuses connections, then speaks TLS: each reason is told."""
        listener, port = bound()
        self.start()
        told = ['no reply from PEER: the connection was refused; trying again',
                f'no reply from PEER: {NO_KMIP}: it answers in TLS; trying again']
        status, _, said = self.ended(('--connect', f'127.0.0.1:{port}'), '--give-up', '5', first='no reply from',
                                     then=lambda: serving(listener, saying(TLS_ALERT)))
        lines = [line.replace(f'127.0.0.1:{port}', 'PEER') for line in said.splitlines()]
        self.look('a server with one trouble after another', (lines[:2], told), (status, 1),
                  (lines[3:], ['gave up: nothing new for 5 s']))

    def refused_keys(self):
        refused = 'Create refused {}, last reason 7 (Invalid Field)'
        self.start(key('backup-seal'))
        self.case('a Create that is refused', peer_with(refusing_create(7)),
                  ['backup-seal: ' + refused.format('3 times')], 'stop Limit 6', '--limit', '6', '--wait', '0')
        self.start()
        self.case('it, in many words', peer_with(refusing_create(7)),
                  ['T Locate k1: found none (T ms)', 'T Create k1: refused, reason 7 (Invalid Field) (T ms)',
                   'k1: ' + refused.format('1 time')], 'stop Limit 2', '--limit', '2', '--wait', '0', '--verbose')
        for reason, text in [(67, ', last reason 67 (Wrong Key Lifecycle State)'), (256, ', last reason 256 (General Failure)'),
                             (11, ', last reason 11'), (4096, ', last reason 4096'), (None, '')]:
            self.start()
            self.case(f'a Create that is refused for {reason}', peer_with(refusing_create(reason)),
                      [f'k1: Create refused 1 time{text}'], 'stop Limit 2', '--limit', '2', '--wait', '0')
        names = [f'k{place}' for place in range(1, 24)]
        self.start(*map(key, names))
        told = [f'{name}: ' + refused.format('1 time') for name in names[:20]]
        self.case('23 keys, each of which is refused', peer_with(refusing_create(7)), [*told, 'and 3 more'],
                  'stop Limit 46', '--limit', '46', '--wait', '0')
        self.start(*map(key, names))
        self.case('them, in few messages', peer_with(refusing_create(7)), [*told, 'and 3 more'],
                  'stop Limit 6', '--limit', '6', '--wait', '0', '--batch', '8')
        self.start(key('k1'), key('k2'), key('k3'))
        self.case('a run that ends on its way', self.serve(),
                  ['k1: last reply to Locate: found none', 'k2: last reply to Locate: found none',
                   'k3: not requested yet'], 'stop Limit 2', '--limit', '2')
        self.start()
        self.case('answers to what was not asked', peer_with(answering(stranger)), ['k1: Locate not answered 2 times'],
                  'stop Limit 2', '--limit', '2', '--wait', '0')

    def told(self, port, *more):
        """The lines that a run against a port tells, the last one that it prints, and its status."""
        status, printed, said = self.ended(('--connect', f'127.0.0.1:{port}'), '--wait', '0', *more)
        return said.splitlines(), printed.splitlines()[-1], status

    def beside_finished(self, batch):
        """Nothing is told of a key that was finished before, also where the run asked nothing about it."""
        for keys in [Key('k1', 'active'), Key('k2', 'active'), CASE], [*NINE[:7], Key('k8', 'active'), CASE]:
            port, first = self.serve(), [key.text() for key in keys[:-2]]
            self.start(*first)
            self.ended(('--connect', f'127.0.0.1:{port}'))
            self.put('plan.toml', ''.join([*first, *(key.text() for key in keys[-2:])]))
            last = 'not requested yet' if batch == '1' else 'last reply to Locate: found none'
            self.look(f'a run of one exchange, {len(first)} of {len(keys)} keys finished before, {batch} keys a message',
                      (self.told(port, '--batch', batch, '--limit', '1'), (
                          [f'{keys[-2].name}: last reply to Locate: found none', f'{CASE.name}: {last}'], 'stop Limit 1', 1)))

    def refused_destroys(self, batch):
        """A Destroy that is refused is told with how often, and a refusal that the server contradicts later is not told."""
        limit = {'1': '60', '8': '12'}[batch]
        refuses = {'is refused': lambda operation, name, time: 12 if operation == DESTROY else None,
                   'is refused, and found to be done': lambda operation, name, time: 12 if operation == DESTROY or (
                       operation == ACTIVATE and name == CASE.name) else None}
        for what, rule in refuses.items():
            picky = Picky(self.serve(), rule, done=() if what == 'is refused' else (DESTROY,))
            self.start(*map(Key.text, NINE))
            told = self.told(peer_with(picking(picky)), '--batch', batch, '--limit', limit)
            often = {(operation, name): count for (operation, name), count in picky.refused.items()
                     if operation not in picky.done}
            words = {ACTIVATE: 'Activate', DESTROY: 'Destroy'}
            lines = [f'{key.name}: {words[operation]} refused {count} times, last reason 12 (Permission Denied)'
                     for key in NINE for (operation, name), count in often.items() if name == key.name]
            self.look(f'a Destroy that {what}, {batch} keys a message', (told, (lines, f'stop Limit {limit}', 1)),
                      (min(often.values()) > 1, True), (len(lines), 1 if picky.done else 2))

    def found_after_refusal(self, batch):
        """A Create that was refused is not told once a Locate finds the object: what the server says last is."""
        rule = lambda operation, name, time: 100 if operation == CREATE and name == CASE.name else None
        port = self.serve()
        self.start(Key('k1', 'active').text(), CASE.text())
        # Of both keys a Locate and a Create; then an Activate of the first, and a Locate of the second one.
        limit = {'1': '6', '8': '3'}[batch]
        told = self.told(peer_with(picking(Picky(port, rule, done=(CREATE,)))), '--batch', batch, '--limit', limit)
        [(uid, _)] = objects_of(port, [CASE.name])[CASE.name]
        self.look(f'a Create that is refused, and found to be done, {batch} keys a message',
                  (told, ([f'{CASE.name}: last reply to Locate: found {uid.decode()}'], f'stop Limit {limit}', 1)))

    def conflicts(self):
        port = self.serve()
        first = [key('disk-array-1'), key('disk-array-2', 128), key('disk-array-3', target='destroyed')]
        self.start(*first)
        self.case('a server of which all is wanted', port, [], 'stop AllFinished 11', status=0)
        self.start(key('disk-array-1', 128), key('disk-array-2', 192), key('disk-array-3'))
        self.case('objects that are not what the plan wants', port,
                  ['disk-array-1: 1 is Active, AES 256 encrypt decrypt; the plan wants AES 128 encrypt decrypt',
                   'disk-array-2: 2 is Active, AES 128 encrypt decrypt; the plan wants AES 192 encrypt decrypt',
                   'disk-array-3: 3 is Destroyed, AES 256 encrypt decrypt; the plan wants it active'],
                  'stop Conflict 6')
        self.start(key('disk-array-4'))
        self.case('two objects of a name', peer_with(answering(having_two)),
                  ['disk-array-4: found 12 13; the plan wants one object of this name'], 'stop Conflict 1')

    def many_words(self):
        self.start()
        self.case('a run in many words', self.serve(),
                  ['T Locate k1: found none (T ms)', 'T Create k1: created as 1 (T ms)',
                   'T Activate k1: activated 1 (T ms)'], 'stop AllFinished 3', '--verbose', status=0)
        self.start()
        self.case('a run in this process, in many words', 0,
                  ['T Locate k1: found none (T ms)', 'T Create k1: created as 1 (T ms)',
                   'T Activate k1: activated 1 (T ms)'], 'stop AllFinished 3', '--verbose', status=0, where=('--loopback',))

    def at_terminal(self, term, *more, **how):
        """What a run writes to a terminal that is called so, without its times."""
        return re.sub(r', \d+ s\x1b', ', T s\x1b', self.written(term, *more, **how))

    def written(self, term, *more, before=(), words=None):
        """What a run, behind these words, writes to a terminal that is called so, as it comes."""
        environment = {name: value for name, value in os.environ.items() if name != 'TERM'}
        if term is not None:
            environment['TERM'] = term
        master, slave = pty.openpty()
        running = subprocess.Popen([*before, *(words or self.words(*more))], cwd=self.folder, stdin=subprocess.DEVNULL,
                                   stdout=subprocess.DEVNULL, stderr=slave, env=environment)
        os.close(slave)
        written = b''
        while True:
            try:
                piece = os.read(master, 4096)
            except OSError:
                break
            if not piece:
                break
            written += piece
        os.close(master)
        running.wait()
        return written.decode()

    def terminals(self):
        """The line of progress: it begins at the start of a line, erases what stands behind it, and no more."""
        wanted = ('\r0 of 2 steps, 0 exchanges, at most 5 more, T s\x1b[K'
                  '\r0 of 2 steps, 1 exchange, at most 5 more, T s\x1b[K'
                  '\r1 of 2 steps, 2 exchanges, at most 3 more, T s\x1b[K'
                  '\r2 of 2 steps, 3 exchanges, at most 0 more, T s\x1b[K\r\n')
        port = self.serve()
        where = ('--connect', f'127.0.0.1:{port}')
        self.start()
        self.look('the line of progress', (self.at_terminal('xterm', where, ()), wanted))
        self.start()
        self.look('all is done already', (self.at_terminal('xterm', ('--connect', f'127.0.0.1:{self.serve()}'), ('--limit', '0')), ''))
        for term in ('dumb', '', None):
            self.start(key('k2'))
            self.look(f'a terminal that is called {term!r}', (self.at_terminal(term, where, ()), ''))
        self.start()
        self.ended(where)
        looked = '\r1 of 1 keys looked up, T s\x1b[K'
        self.look('a look at a terminal', (self.at_terminal('xterm', where, (), words=[
            self.program, 'look', '--plan', 'plan.toml', *where]), looked * 2 + '\r\n'))
        self.look('a run that first looks, at a terminal',
                  (self.at_terminal('xterm', where, ('--refresh',)), looked * 2 + '\r\n'))
        self.start()
        wanted = ('\r0 of 2 steps, 0 exchanges, at most 5 more, T s\x1b[K'
                  '\r0 of 2 steps, 1 exchange, at most 5 more, T s\x1b[K'
                  '\r0 of 2 steps, 1 refused, 2 exchanges, T s\x1b[K\r\n'
                  'k1: Create refused 1 time, last reason 7 (Invalid Field)\r\n')
        where = ('--connect', f'127.0.0.1:{peer_with(refusing_create(7))}')
        self.look('the line of progress, of a refusal', (self.at_terminal('xterm', where, ('--limit', '2')), wanted))
        listener, port = bound()
        self.start()
        wanted = ('\r0 of 2 steps, 0 exchanges, at most 5 more, T s\x1b[K\r\n'
                  f'no reply from 127.0.0.1:{port}: the connection was refused; trying again\r\n'
                  '\r0 of 2 steps, 1 lost, 1 exchange, T s\x1b[K'
                  '\r0 of 2 steps, 2 lost, 2 exchanges, T s\x1b[K\r\n'
                  'no reply in 2 exchanges\r\n')
        where = ('--connect', f'127.0.0.1:{port}')
        self.look('the line of progress, of losses', (self.at_terminal('xterm', where, ('--limit', '2')), wanted))
        listener.close()

    def slow_terminal(self):
        """At a server that takes 0.7 s for each reply."""
        self.start()
        slow = ('--connect', f'127.0.0.1:{peer_with(handing_on_slowly(self.serve(), 0.7))}')
        times = [int(seconds) for seconds in re.findall(r', (\d+) s\x1b', self.written('xterm', slow, ()))]
        self.look('the line of progress has the time since the start of the run', (len(times), 4),
                  *(within(seconds, int(0.7 * number)) for number, seconds in enumerate(times)))

    def writes(self):
        """The line of progress is written at once each time, so that a kill leaves no half of a sequence."""
        what = 'each line of progress is one write'
        self.start()
        trace = self.path('trace')
        tracing = ['strace', '-f', '-e', 'trace=write', '-s', '200', '-o', trace]
        if not shutil.which('strace') or subprocess.run([*tracing, 'true'], capture_output=True).returncode:
            print(f'{what}: skipped, as no strace can be had')
            self.skipped += 1
            return
        self.at_terminal('xterm', ('--loopback',), (), before=tracing)
        with open(trace) as traced:
            written = re.findall(r'write\(2, "(.*)", (\d+)\) += \2$', traced.read(), re.M)
        lines = [re.sub(r', \d+ s', ', T s', text) for text, _ in written]
        self.look(what, (lines, [r'\r0 of 2 steps, 0 exchanges, at most 5 more, T s\33[K',
                                 r'\r0 of 2 steps, 1 exchange, at most 5 more, T s\33[K',
                                 r'\r1 of 2 steps, 2 exchanges, at most 3 more, T s\33[K',
                                 r'\r2 of 2 steps, 3 exchanges, at most 0 more, T s\33[K', r'\n']))

    def unanswered_looks(self):
        """A run that first looks gives up if the look gets no answer, whatever is replied. The last document says what stood
        in the way."""
        known = 'kmip-progress 2\nk1 active - 1 31\nend 1\n'
        for what, behaviour, counted, cause in [
                ('no reply to the look before a run', silent, 'lost', 'unreachable'),
                ('a look before a run that is refused', answering(refusing_all), 'refused', 'refused'),
                ('replies to it that answer something else', answering(stranger), None, 'unreachable')]:
            self.start()
            self.put('progress', known)
            where = ('--connect', f'127.0.0.1:{peer_with(behaviour)}', '--refresh', '--timeout', '1', '--give-up', '2')
            status, printed, _ = self.ended(where, '--json')
            last = json.loads(printed.splitlines()[-1])
            wanted = {name: last['exchanges'] if name == counted else 0 for name in ('lost', 'refused', 'unreadable')}
            self.look(f'{what}, in JSON', (status, 1), (self.text('progress'), known), (last['exchanges'] > 0, True),
                      (last, last | wanted | {'end': 'GaveUp', 'finished': 0, 'steps': 0, 'cause': cause}))

    def end(self):
        for server in self.servers:
            server.kill()
            server.wait()


def main():
    troubles = Troubles(os.path.realpath(sys.argv[1]), os.path.realpath(sys.argv[2]))
    try:
        troubles.without_reply()
        troubles.told_in_many_words()
        troubles.refused_connections()
        troubles.still_silent()
        troubles.gives_up()
        troubles.answers_again()
        troubles.is_slow()
        troubles.other_reasons()
        troubles.refused_keys()
        for batch in BATCHES:
            troubles.beside_finished(batch)
            troubles.refused_destroys(batch)
            troubles.found_after_refusal(batch)
        troubles.conflicts()
        troubles.many_words()
        troubles.terminals()
        troubles.slow_terminal()
        troubles.writes()
        troubles.unanswered_looks()
    finally:
        troubles.end()
    print(f'{troubles.cases} cases: {troubles.wrong} wrong, {troubles.skipped} skipped')
    return 1 if troubles.wrong else 0


if __name__ == '__main__':
    sys.exit(main())
