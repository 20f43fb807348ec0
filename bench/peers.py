#!/usr/bin/env python3
"""Runs `kmipctl run`, `look` and `probe` against peers that do not do what a server does, and `kmipctl serve` with
clients that do not do what a client does.

    bench/peers.py PROGRAM FOLDER

Each row prints what it looks at and `ok`, or what went wrong. Sockets on 127.0.0.1 only. The exit status
is 0 where all is as it has to be.
"""

import concurrent.futures
import contextlib
import json
import os
import re
import shutil
import socket
import struct
import subprocess
import sys
import threading
import time

sys.dont_write_bytecode = True

from messages import CREATE, LOCATE, objects_of, questions_in
from nine_keys import BATCHES, CASE, NINE, looked, messages, numbers_by, plan as plan_of, progress, report

NONE_DONE, ALL_DONE = [0 for _ in NINE], [key.steps() for key in NINE]
NOTHING_KNOWN, ALL_KNOWN = progress(done=NONE_DONE), progress()
UNTOLD = 'no reply: whether p-1 is free could not be told; nothing was made\n'
UNREADABLE = ("the server's reply can't be read ({}): whether p-1 is free could not be told; "
              'nothing was made\n')
MAKING = 'making two keys: p-1 and p-2\n'
KEPT = MAKING + '''names are unique: yes
names stay used after Destroy: yes
a step made twice changes nothing: yes
an active object is not destroyed: yes
Locate finds objects by their names: yes
Locate finds destroyed objects: yes
Get Attributes tells all six attributes: yes
the batch id is echoed: yes
reasons seen: 53, 67
the promise holds here: each key is made once, and its steps are made once and in order
'''
# The most seconds that a run, look or probe may take that is to give up, or to go on, after 1 to 5 seconds. It tells
# that from one that waits for ever, for as long as a reply drips (45 s), or for the time limit of `PATIENT`. It is
# no less, as a busy machine may take seconds to start a program, or to bring a file to the disk.
LONGEST = 30
# Peers that say something have so much time for it: a busy machine does not make them silent ones.
PATIENT = ('--timeout', '60')
# The time limit of exchanges with a peer that holds its reply until it is let go.
HELD = ('--timeout', '3600')
# What has not ended or come after so many seconds never does.
EVER = 150
# The numbers of all messages, from 1.
ALL_MESSAGES = range(1, 2 ** 32)
# The head of a reply of 144 bytes, and a Locate that found nothing of the name k2.
HEAD = bytes.fromhex('42007b0100000090')
OF_ANOTHER = HEAD + bytes.fromhex(
    '42007a0100000048420069010000002042006a0200000004000000020000000042006b02000000040000000100000000'
    '4200920900000008000000000000000042000d0200000004000000010000000042000f010000003842005c0500000004'
    '00000008000000004200930800000003086b32000000000042007f0500000004000000000000000042007c0100000000')


def silent(peer):
    time.sleep(60)


def dripping(peer):
    message(peer)
    for byte in HEAD + bytes(0x90):
        peer.send(bytes([byte]))
        time.sleep(0.3)


def talking_rubbish(peer):
    message(peer)
    peer.sendall(b'HTTP/1.1 400 Bad Request\r\n\r\n')
    peer.close()


def closing_in_the_middle(peer):
    message(peer)
    peer.sendall(HEAD + bytes(20))
    peer.close()


def answering_another_question(peer):
    while message(peer):
        peer.sendall(OF_ANOTHER)


def answering_in_version_1_0(peer):
    message(peer)
    peer.sendall(OF_ANOTHER[:35] + bytes([1]) + OF_ANOTHER[36:51] + bytes([0]) + OF_ANOTHER[52:])


def answering_without_a_count(peer):
    """The Batch Count of the reply is that of another message: two, where one reply stands."""
    message(peer)
    peer.sendall(OF_ANOTHER[:83] + bytes([2]) + OF_ANOTHER[84:])


def message(stream):
    """The next message: the last four bytes of its head say how long the rest is."""
    head = stream.recv(8, socket.MSG_WAITALL)
    return head + stream.recv(int.from_bytes(head[4:], 'big'), socket.MSG_WAITALL)


def closing_behind_the_reply(port):
    """What a peer does that hands one request on to the server at this port, and closes behind the reply."""
    def behaviour(peer):
        with peer, socket.create_connection(('127.0.0.1', port)) as server:
            server.sendall(message(peer))
            peer.sendall(message(server))

    return behaviour


class Losing:
    """A peer that hands each request on to the server at this port, one a connection. The replies to those of
    these numbers, from 1, are lost; at that of the number `hangs_at` it does nothing more."""

    def __init__(self, port, lost=(), hangs_at=None):
        self.port, self.lost, self.hangs_at, self.count = port, lost, hangs_at, 0

    def __call__(self, peer):
        self.count += 1
        number = self.count
        if number == self.hangs_at:
            time.sleep(60)
        with peer, socket.create_connection(('127.0.0.1', self.port)) as server:
            server.sendall(message(peer))
            reply = message(server)
            if number not in self.lost:
                peer.sendall(reply)


class Holding:
    """A peer that holds the reply to each request until it is let go, and then closes without one."""

    def __init__(self):
        self.is_asked, self.is_let_go = threading.Event(), threading.Event()

    def __call__(self, peer):
        with peer:
            message(peer)
            self.is_asked.set()
            self.is_let_go.wait()


class Listed:
    """A peer whose behaviour is a list: what it does with each message in turn, and the last one for ever. Replies are those
    of the server at this port. The connection ends after a message of which the behaviour does not say that it goes on."""

    def __init__(self, port, *behaviours):
        self.port, self.behaviours, self.messages = port, behaviours, []

    def __call__(self, peer):
        with peer:
            while request := message(peer):
                behaviour = self.behaviour(request)
                self.messages.append(request)
                if not behaviour(self, peer, request):
                    return

    def behaviour(self, request):
        return self.behaviours[min(len(self.messages), len(self.behaviours) - 1)]

    def reply_to(self, request):
        with socket.create_connection(('127.0.0.1', self.port)) as server:
            server.sendall(request)
            return message(server)


class AtLast(Listed):
    """A server that is bad at messages about the last key: at those of these numbers among them, from 1."""

    def __init__(self, port, bad, numbers):
        super().__init__(port)
        self.bad, self.numbers, self.count = bad, numbers, 0

    def behaviour(self, request):
        if not any(CASE.name.encode() in identity for _, identity in questions_in(request)):
            return answered
        self.count += 1
        return self.bad if self.count in self.numbers else answered


def answered(listed, peer, request):
    peer.sendall(listed.reply_to(request))
    return True


def closed(listed, peer, request):
    """The message has no effect, and the connection ends."""
    return False


def left_silent(listed, peer, request):
    silent(peer)


def reset(listed, peer, request):
    """The message has no effect, and the connection ends with a failure."""
    peer.setsockopt(socket.SOL_SOCKET, socket.SO_LINGER, struct.pack('ii', 1, 0))


def dripped(listed, peer, request):
    """Bytes of a reply come all the time, and not its end. So the time limit ends between two reads, which both succeed."""
    peer.setsockopt(socket.IPPROTO_TCP, socket.TCP_NODELAY, 1)
    for byte in bytes.fromhex('42007b0100001000') + bytes(0x1000):
        peer.send(bytes([byte]))
        time.sleep(0.002)


def cut(listed, peer, request):
    """The message takes effect, and half of its reply comes."""
    reply = listed.reply_to(request)
    peer.sendall(reply[:len(reply) // 2])


def answered_in_http(listed, peer, request):
    peer.sendall(b'HTTP/1.1 400 Bad Request\r\n\r\n')


def answered_about_another(listed, peer, request):
    peer.sendall(OF_ANOTHER)


def answered_without_a_count(listed, peer, request):
    """The Batch Count of the reply is nine, and no reply to a request of up to eight questions has so many."""
    reply = listed.reply_to(request)
    place = reply.index(bytes.fromhex('42000d0200000004'))
    peer.sendall(reply[:place + 11] + bytes([9]) + reply[place + 12:])


def going_on(behaviour):
    """The same over a connection that stays open."""
    def goes_on(listed, peer, request):
        behaviour(listed, peer, request)
        return True
    goes_on.__name__ = f'{behaviour.__name__} over a connection that stays open'
    return goes_on


def answered_in_version_1_0(listed, peer, request):
    """The message takes effect, and the reply is of another version than the request."""
    reply = listed.reply_to(request)
    place = reply.index(bytes.fromhex('42006a0200000004'))
    peer.sendall(reply[:place + 11] + bytes([1]) + reply[place + 12:place + 27] + bytes([0]) + reply[place + 28:])
    return True


def answered_late(listed, peer, request):
    """The message takes effect, and the reply comes once the time limit of `SHORT` is over."""
    reply = listed.reply_to(request)
    time.sleep(4)
    peer.sendall(reply)
    return True


def in_words(behaviour):
    return behaviour.__name__.replace('_', ' ')


# A time limit that a busy machine keeps, and that is waited for.
SHORT = ('--timeout', '3')
CLOSED = 'the connection was closed before a reply (if there is a tunnel, see its log)'
WITHOUT_A_COUNT = 'an unreadable reply (BatchCount)'
CUT = 'the connection was closed within a reply'
IN_HTTP = 'the server did not reply in KMIP: it answers in HTTP'
IN_VERSION_1_0 = 'an unreadable reply (Version: KMIP 1.0)'


def listening(behaviour):
    """A port whose connections each behave so."""
    listener = socket.socket()
    listener.bind(('127.0.0.1', 0))
    accept_at(listener, behaviour)
    return listener.getsockname()[1]


def listening_at(path, behaviour):
    """Listens at a Unix socket whose connections each behave so."""
    listener = socket.socket(socket.AF_UNIX)
    listener.bind(path)
    accept_at(listener, behaviour)


def accept_at(listener, behaviour):
    """Lets each connection of what listens behave so."""
    listener.listen(50)

    def behave(peer):
        try:
            behaviour(peer)
        except OSError:
            pass

    def accept():
        while True:
            peer, _ = listener.accept()
            threading.Thread(target=behave, args=(peer,), daemon=True).start()

    threading.Thread(target=accept, daemon=True).start()


def time_limit(behaviour):
    """The time limit for exchanges with this peer: a second where the peer never gets to the end of a reply."""
    return ('--timeout', '1') if behaviour in (silent, dripping) else PATIENT


def until(condition):
    """Waits until this holds, for ever at most, and says whether it does."""
    end = time.monotonic() + EVER
    while not condition() and time.monotonic() < end:
        time.sleep(0.01)
    return condition()


def told_of(port, told):
    """The lines that are told about the peer at a port, without times."""
    told = told.replace(f'127.0.0.1:{port}', 'PEER')
    return re.sub(r'again after \d+ s$', 'again after T s', told, flags=re.M).splitlines()


def working(count):
    """What a run prints that knows nothing of any key after so many messages."""
    return report(f'Limit {count}', done=NONE_DONE)


def finished(sent):
    """What a run prints that has finished all keys by these messages."""
    return report(f'AllFinished {len(sent)}')


def untold(key, identifier, why):
    """What a look prints of a key of which nothing is told."""
    return f'{key.name} {key.target} {identifier} not told: {why}\n'


def looks_of(lines):
    """What a look prints whose keys have these lines."""
    return ''.join([*lines, f'finished {sum(line.split()[-1] == "finished" for line in lines)} of {len(lines)}\n'])


def rounds(batch):
    """How often a look asks about up to so many keys: each time by a Locate and a Get Attributes."""
    return -(-len(NINE) // int(batch))


def soon(took):
    """The fact that this took no longer than it may."""
    return took < LONGEST, f'it took {took:.2f} s, and may take {LONGEST}'


class Peers:
    def __init__(self, program, folder):
        self.program, self.folder, self.wrong = program, folder, 0
        self.plan, self.progress = os.path.join(folder, 'plan.toml'), os.path.join(folder, 'progress')

    def words(self, where, *more, known=None):
        """The words of a run with this progress, or with the one of the rows."""
        return [self.program, 'run', '--plan', self.plan, '--progress', known or self.progress, *where, '--wait', '0',
                *more]

    def ended(self, words):
        """The exit status of a command, or that it does not end; what is printed and told; and the seconds that it
        takes."""
        start = time.monotonic()
        with subprocess.Popen(words, stdout=subprocess.PIPE, stderr=subprocess.PIPE, text=True) as running:
            try:
                printed, told = running.communicate(timeout=EVER)
                status = running.returncode
            except subprocess.TimeoutExpired:
                running.kill()
                printed, told = running.communicate()
                status = f'killed, as it had not ended after {EVER} s'
        return status, printed, told, time.monotonic() - start

    def run(self, where, *more):
        """The exit status, what is printed, and the seconds that it takes; what is told meanwhile is kept."""
        status, printed, self.told, took = self.ended(self.words(where, *more))
        return status, printed, took

    def written(self, name):
        return open(os.path.join(self.folder, name), 'w')

    def read(self, name):
        with open(os.path.join(self.folder, name)) as file:
            return file.read()

    def forget(self):
        if os.path.exists(self.progress):
            os.remove(self.progress)

    def known(self):
        return self.read('progress')

    def look(self, what, *facts):
        is_right = all(fact for fact, _ in facts)
        print(f'{what}: ' + ('ok' if is_right else 'wrong'), flush=True)
        for fact, said in facts:
            if not fact:
                print(f'    {said!r}', flush=True)
        self.wrong += not is_right

    def serve(self, *more):
        """A server, and its port. What it tells is kept beside the progress, out of the way of the rows."""
        with open(os.path.join(self.folder, 'server.told'), 'a') as told:
            server = subprocess.Popen([self.program, 'serve', '--port', '0', *more], stdout=subprocess.PIPE, stderr=told,
                                      text=True)
        return server, int(server.stdout.readline().split()[1])

    def bad_peers(self, batch):
        for behaviour in (silent, dripping, talking_rubbish, closing_in_the_middle, answering_another_question):
            self.forget()
            port = listening(behaviour)
            status, printed, took = self.run(('--connect', f'127.0.0.1:{port}'), '--limit', '3', '--batch', batch,
                                             *time_limit(behaviour))
            self.look(f'a peer that is {in_words(behaviour)}, {batch} keys a message', (status == 1, status),
                      (printed == working(3), printed), soon(took), (self.known() == NOTHING_KNOWN, self.known()))
        server, port = self.serve('--connections', '1')
        status, printed, _ = self.run(('--connect', f'127.0.0.1:{port}'), '--batch', batch)
        self.look(f'a server behind them, {batch} keys a message', (status == 0, status),
                  (printed == finished(messages(batch)), printed), (self.known() == ALL_KNOWN, self.known()),
                  (server.wait() == 0, server.returncode))

    def closing_peer(self, batch):
        """A peer that closes behind each reply costs the second message, and no other."""
        server, behind = self.serve('--connections', '1000000')
        port = listening(closing_behind_the_reply(behind))
        self.forget()
        status, printed, _ = self.run(('--connect', f'127.0.0.1:{port}'), '--limit', '50', '--batch', batch)
        sent = messages(batch, ['pass', 'lose-request'])
        self.look(f'a peer that is closing behind each reply, {batch} keys a message', (status == 0, status),
                  (printed == finished(sent), printed),
                  (self.known() == progress(numbers=numbers_by(sent)), self.known()),
                  (told_of(port, self.told) == [f'no reply from PEER: {CLOSED}; trying again',
                                                'PEER answers again after T s'], self.told))
        self.closing_costs_little(port, batch, looks_of(looked(numbers=numbers_by(sent))))
        server.kill()
        server.wait()

    def closing_costs_little(self, port, batch, finished):
        """A peer that closes behind each reply costs a look one message that is sent again. It costs a probe none, since
        each of its questions has a stream of its own."""
        path = os.path.join(self.folder, f'closing-{batch}')
        listening_at(path, closing_behind_the_reply(port))
        for over, words in ('TCP', ('--connect', f'127.0.0.1:{port}')), ('a Unix socket', ('--socket', path)):
            status, printed, told, _ = self.ended([self.program, 'look', '--plan', self.plan, *words, '--batch', batch])
            self.look(f'a look over such a peer, over {over}, {batch} keys a message', (status == 0, status),
                      (printed == finished, printed),
                      (told_of(port, told.replace(words[1], 'PEER')) == [
                          f'no reply from PEER: {CLOSED}; trying again', 'PEER answers again after T s'], told))
            prefix = f'{over.split()[-1]}-{batch}'
            status, printed, told, _ = self.ended([self.program, 'probe', '--name-prefix', prefix, *words])
            self.look(f'a probe over such a peer, over {over}, the {prefix} one', (status == 0, status),
                      (printed.count(': yes\n') == 8, printed), (told == '', told))

    def no_peer(self, batch):
        self.forget()
        with socket.socket() as closed:
            closed.bind(('127.0.0.1', 0))
            port = closed.getsockname()[1]
            status, printed, _ = self.run(('--connect', f'127.0.0.1:{port}'), '--limit', '3', '--batch', batch)
        self.look(f'a port where nobody listens, {batch} keys a message', (status == 1, status),
                  (printed == working(3), printed), (self.known() == NOTHING_KNOWN, self.known()),
                  (self.told.splitlines() == [
                      f'no reply from 127.0.0.1:{port}: the connection was refused; trying again',
                      'no reply in 3 exchanges'], self.told))

    def full_socket(self):
        """A Unix socket that nobody takes a connection from, with no room for one more that waits."""
        self.forget()
        path = os.path.join(self.folder, 'full')
        waiting = []
        with socket.socket(socket.AF_UNIX) as listener:
            listener.bind(path)
            listener.listen(0)
            try:
                for _ in range(100):
                    one = socket.socket(socket.AF_UNIX)
                    one.setblocking(False)
                    waiting.append(one)
                    one.connect(path)
            except BlockingIOError:
                pass
            status, printed, took = self.run(('--socket', path), '--limit', '3', '--timeout', '1')
            for one in waiting:
                one.close()
        self.look('a Unix socket with no room for one more', (status == 1, status), (printed == working(3), printed),
                  (len(waiting) < 100, len(waiting)), (2.9 < took, took), soon(took))

    def look_at(self, port, *more):
        """The exit status, what is printed and told, and the seconds that it takes."""
        return self.ended([self.program, 'look', '--plan', self.plan, '--connect', f'127.0.0.1:{port}', *more])

    def looks(self, batch):
        """A look sends each question four times at most, and says why nothing is reported of a key.

        A stream that brought a whole reply is held. So if the peer closes it then, the second of the four messages goes
        into a closed stream: the peer gets three of them, and the person is told of it."""
        server, behind = self.serve('--connections', '1000000')
        without_a_count = f'no reply from PEER: {WITHOUT_A_COUNT}; trying again'
        closed_once = f'no reply from PEER: {CLOSED}; trying again'
        for bad, why, got, lines in (
                (answered_in_http, 'no reply', 4, [f'no reply from PEER: {IN_HTTP}; trying again']),
                (cut, 'no reply', 4, [f'no reply from PEER: {CUT}; trying again']),
                (going_on(answered_about_another), 'no reply', 4, []),
                (answered_about_another, 'no reply', 3, [closed_once, 'PEER answers again after T s']),
                (answered_in_version_1_0, 'unreadable reply', 4, [f'no reply from PEER: {IN_VERSION_1_0}; trying again']),
                (going_on(answered_without_a_count), 'unreadable reply', 4, [without_a_count]),
                (answered_without_a_count, 'unreadable reply', 3, [without_a_count, closed_once, without_a_count])):
            peer = AtLast(behind, bad, ALL_MESSAGES)
            port = listening(peer)
            status, printed, told, took = self.look_at(port, '--batch', batch, *PATIENT)
            wanted = looks_of([*looked(done=NONE_DONE)[:-1], untold(CASE, '-', why)])
            self.look(f'a look, of which messages about the last key are {in_words(bad)}, {batch} keys a message',
                      (status == 1, status), (printed == wanted, printed), (peer.count == got, peer.count), soon(took),
                      (told_of(port, told) == lines, told))
        server.kill()
        server.wait()
        for behaviour in (silent, dripping):
            port = listening(behaviour)
            status, printed, told, took = self.look_at(port, '--give-up', '1', '--batch', batch, *time_limit(behaviour))
            wanted = looks_of([untold(key, '-', 'no reply' if place < int(batch) else 'not asked')
                               for place, key in enumerate(NINE)])
            self.look(f'a look that gives up at a peer that is {behaviour.__name__}, {batch} keys a message',
                      (status == 1, status), (printed == wanted, printed), soon(took),
                      (told == f'no reply from 127.0.0.1:{port}: timed out after 1 s; trying again\n'
                               'gave up: no answer came for 1 s\n', told))

    def looks_amid_losses(self, batch):
        """Over a server of which replies about the last key are lost: what is asked, and what is told of it."""
        server, port = self.serve('--connections', '1000000', '--verbose')
        status, printed, told, _ = self.look_at(port, '--batch', batch, *PATIENT)
        self.look(f'a look at a new server, {batch} keys a message', (status == 1, status), (told == '', told),
                  (printed == looks_of(looked(done=NONE_DONE)), printed))
        self.forget()
        # Of each key a Locate and a Create.
        self.run(('--connect', f'127.0.0.1:{port}'), '--limit', str(2 * len(NINE)))
        status, printed, told, _ = self.look_at(port, '--verbose', '--batch', batch, *PATIENT)
        lines = [re.sub(r'^\d+\.\d{3} | \(\d+ ms\)$', '', line) for line in told.splitlines()]
        wanted = [line for number, key in enumerate(NINE, 1)
                  for line in (f'Locate {key.name}: found {number}', f'GetAttributes {number}: {number} is PreActive')]
        # The keys of a message come first, and then the last key alone.
        wanted = wanted[0 if batch == '1' else -2:]
        self.look(f'a look at keys on their way, {batch} keys a message', (status == 1, status),
                  (printed == looks_of(looked(done=[1 for _ in NINE])), printed),
                  (len(lines) == 2 * rounds(batch), lines), (lines[-len(wanted):] == wanted, lines))
        self.run(('--connect', f'127.0.0.1:{port}'))
        for lost in ((), (1, 2, 3), (2, 3, 4), (1, 3)):
            losing = AtLast(port, closed, lost)
            peer = listening(losing)
            status, printed, told, _ = self.look_at(peer, '--batch', batch, *PATIENT)
            spells = {(): 0, (1, 2, 3): 1, (2, 3, 4): 1, (1, 3): 2}[lost]
            asked = len(losing.messages)
            self.look(f'a look at finished keys, {len(lost)} replies about the last one lost, {batch} keys a message',
                      (status == 0, status), (printed == looks_of(looked()), printed),
                      (asked == 2 * rounds(batch) + len(lost), asked),
                      (told_of(peer, told) == [f'no reply from PEER: {CLOSED}; trying again',
                                               'PEER answers again after T s'] * spells, told))
        losing = AtLast(port, closed, (2, 3, 4, 5))
        status, printed, told, took = self.look_at(listening(losing), '--batch', batch, *PATIENT)
        # It waits for 100 ms before it asks again, and twice as long each further time.
        self.look(f'a look whose last question gets no reply, {batch} keys a message', (status == 1, status),
                  (printed == looks_of([*looked()[:-1], untold(CASE, len(NINE), 'no reply')]), printed),
                  (losing.count == 5, losing.count), (0.7 <= took, took))
        self.ids_of_looks(port, batch)
        server.kill()
        server.wait()

    def ids_of_looks(self, port, batch):
        """No question of a look has the id of a question of another look: a late reply to one answers no other."""
        listed, asked = Listed(port, answered), []
        between = listening(listed)
        for _ in range(3):
            status, printed, _, _ = self.look_at(between, '--batch', batch, *PATIENT)
            asked.append([identity for request in listed.messages for _, identity in questions_in(request)])
            del listed.messages[:]
        ids = [identity for some in asked for identity in some]
        self.look(f'the ids of the questions of three looks, {batch} keys a message', (status == 0, status),
                  ([len(some) for some in asked] == [2 * len(NINE)] * 3, asked), (len(set(ids)) == len(ids), ids))

    def probes(self):
        for behaviour in (silent, dripping, talking_rubbish, closing_in_the_middle):
            words = [self.program, 'probe', '--name-prefix', 'p', '--connect', f'127.0.0.1:{listening(behaviour)}']
            status, printed, _, took = self.ended([*words, *time_limit(behaviour)])
            self.look(f'a probe of a peer that is {in_words(behaviour)}', (status == 1, status),
                      (printed == UNTOLD, printed), soon(took))
        server, port = self.serve('--connections', '1000000')
        status, printed, _ = self.probe(('--connect', f'127.0.0.1:{listening(closing_behind_the_reply(port))}'))
        self.look('a probe of a peer that is closing behind each reply', (status == 0, status),
                  (printed.count(': yes\n') == 8, printed))
        server.kill()
        server.wait()

    def probe(self, where, *more):
        """What comes of a probe: the exit status, and what is printed and told."""
        return self.ended([self.program, 'probe', '--name-prefix', 'p', *where, *more])[:3]

    def unreadable_peers(self):
        """A reply that can't be read is told from none, and its question is not asked again."""
        for behaviour, why in ((answering_in_version_1_0, 'Version: it answers in KMIP 1.0'),
                               (answering_without_a_count, 'BatchCount')):
            status, printed, _ = self.probe(('--connect', f'127.0.0.1:{listening(behaviour)}'))
            self.look(f'a probe of a peer that is {in_words(behaviour)}', (status == 1, status),
                      (printed == UNREADABLE.format(why), printed))

    def lost_looks(self):
        """A lost Locate is asked up to three times, and nothing else is."""
        for lost, count, wanted in (((1, 2), 27, KEPT), ((1, 2, 3), 3, UNTOLD)):
            server, port = self.serve('--connections', '1000000')
            losing = Losing(port, lost)
            status, printed, _ = self.probe(('--connect', f'127.0.0.1:{listening(losing)}'))
            self.look(f'a probe whose first {len(lost)} replies are lost', (status == int(wanted == UNTOLD), status),
                      (printed == wanted, printed), (losing.count == count, losing.count))
            server.kill()
            server.wait()
        server, port = self.serve('--connections', '1000000')
        losing = Losing(port, (4, 10))
        status, printed, _ = self.probe(('--connect', f'127.0.0.1:{listening(losing)}'))
        self.look('a probe whose replies to a second Create and a first Activate are lost', (status == 1, status),
                  (printed.startswith(MAKING + 'names are unique: could not be told\n'), printed),
                  (losing.count == 25, losing.count))
        server.kill()
        server.wait()

    def hanging_probes(self):
        """Each line is there once it is told, while the next question waits for its reply."""
        for number, lines in ((3, [MAKING]), (9, [MAKING, 'names are unique: yes\n'])):
            server, port = self.serve('--connections', '1000000')
            where = f'127.0.0.1:{listening(Losing(port, hangs_at=number))}'
            words = [self.program, 'probe', '--name-prefix', 'p', *PATIENT, '--connect', where]
            with subprocess.Popen(words, stdout=subprocess.PIPE, text=True) as probe:
                told = [probe.stdout.readline() for _ in lines]
                is_asking = probe.poll() is None
                probe.kill()
            self.look(f'a probe that hangs at its question {number}', (told == lines, told),
                      (is_asking, 'it has ended'))
            server.kill()
            server.wait()

    def told_probe(self):
        """With --verbose, a probe tells each exchange in a line."""
        status, printed, told = self.probe(('--loopback',), '--verbose')
        lines = [re.sub(r'^\d+\.\d{3} | \(\d+ ms\)$', '', line) for line in told.splitlines()]
        self.look('a probe that tells its exchanges', (status == 0, status), (printed == KEPT, printed),
                  (lines[:4] == ['Locate p-1: found none', 'Locate p-2: found none', 'Create p-1: created as 1',
                                 'Create p-1: refused, reason 53 (Non Unique Name Attribute)'], lines[:4]),
                  (lines[-2:] == ['Revoke 2: revoked 2', 'Destroy 2: destroyed 2'], lines[-2:]),
                  (len(lines) == 25, len(lines)))

    def told_messages(self, batch):
        """With --verbose, a server tells each message in a line: what it is asked, and what it replies. The replies are
        looked at in messages about one key. The numbers of objects are those of the plan's places."""
        self.forget()
        words = [self.program, 'serve', '--port', '0', '--connections', '1', '--verbose']
        with subprocess.Popen(words, stdout=subprocess.PIPE, stderr=subprocess.PIPE, text=True) as server:
            port = server.stdout.readline().split()[1]
            self.run(('--connect', f'127.0.0.1:{port}'), '--batch', batch)
            told = server.stderr.read().splitlines()
            status = server.wait()
        replies = {'Locate': 'found none', 'Create': 'created as {}', 'Activate': 'activated {}',
                   'Revoke': 'revoked {}', 'Destroy': 'destroyed {}'}
        asked = lambda word, number: f'{word} {NINE[number - 1].name if word in ("Locate", "Create") else number}'
        wanted = [', '.join(asked(*question) for question in questions) for questions in messages(batch)]
        if batch == '1':
            wanted = [f'{line}: {replies[word].format(number)}'
                      for line, [(word, number)] in zip(wanted, messages(batch))]
        else:
            told = [line.split(': ')[0] for line in told]
        self.look(f'a server that tells its exchanges, {batch} keys a message', (status == 0, status),
                  (told == wanted, told))

    def files(self):
        self.forget()
        with self.held_run() as (first, _):
            status, printed, _ = self.run(('--loopback',))
            is_at_work = first.poll() is None
        wanted = f'progress in use: {self.progress}\n'
        self.look('two runs on one progress', (is_at_work, 'the other has ended'), (status == 1, status),
                  (printed == wanted, printed))
        for text in ('', ALL_KNOWN[:-1]):
            with open(self.progress, 'w') as progress:
                progress.write(text)
            status, printed, _ = self.run(('--loopback',))
            self.look(f'a progress of {len(text)} bytes', (status == 1, status),
                      (printed == 'progress refused: 2 Cut\n', printed), (self.known() == text, self.known()))
        self.forget()
        beside = self.progress + '.new'
        os.mkdir(beside)
        status, printed, _ = self.run(('--loopback',))
        os.rmdir(beside)
        wanted = f'cannot write {self.progress}\n'
        self.look('a progress that cannot be written', (status == 1, status), (printed == wanted, printed),
                  (not os.path.exists(self.progress), 'there is a progress'),
                  (f'{beside}: File exists' in self.told or f'{beside}: Is a directory' in self.told, self.told))
        status, printed, _ = self.run(('--loopback',))
        self.look('and that can', (status == 0, status), (printed == finished(messages('1')), printed),
                  (self.known() == ALL_KNOWN, self.known()))

    @contextlib.contextmanager
    def held_run(self):
        """A run that has its progress and waits for a reply, until it is let go by the call that comes with it."""
        peer = Holding()
        words = self.words(('--connect', f'127.0.0.1:{listening(peer)}'), '--limit', '1', *HELD)
        with subprocess.Popen(words, stdout=subprocess.DEVNULL, stderr=subprocess.DEVNULL) as first:
            try:
                peer.is_asked.wait(EVER)
                yield first, peer.is_let_go.set
            finally:
                peer.is_let_go.set()
                until(lambda: first.poll() is not None)
                first.kill()

    def waiting_runs(self):
        """A run that is to wait for the one that has its progress waits so long, or until that one has ended."""
        self.forget()
        waiting, in_use = f'waiting for {self.progress}: another run has it\n', f'progress in use: {self.progress}\n'
        using = f'{self.progress}: another run is using it: wait for its end, or give --lock-wait\n'
        server, port = self.serve('--connections', '1000000')
        with self.held_run() as (first, let_go):
            status, printed, took = self.run(('--loopback',), '--lock-wait', '0')
            self.look('a run that is not to wait for another', (status == 1, status), (printed == in_use, printed),
                      (self.told == using, self.told), soon(took))
            status, printed, took = self.run(('--loopback',), '--lock-wait', '1')
            self.look('a run that waits for another for a second', (status == 1, status), (printed == in_use, printed),
                      (self.told == waiting + using, self.told), (1 <= took, took), soon(took))
            words = self.words(('--connect', f'127.0.0.1:{port}'), '--lock-wait', '3600')
            with self.written('printed') as printed, self.written('told') as told, subprocess.Popen(
                    words, stdout=printed, stderr=told) as second:
                until(lambda: self.read('told') != '' or second.poll() is not None)
                # A run that does not wait for the other ends meanwhile.
                time.sleep(0.5)
                is_at_work, is_waiting = first.poll() is None, second.poll() is None
                let_go()
                start = time.monotonic()
                until(lambda: second.poll() is not None)
                took = time.monotonic() - start
                second.kill()
            until(lambda: first.poll() is not None)
            printed, told = self.read('printed'), self.read('told')
            self.look('a run that waits for the end of another', (is_at_work, 'the other has ended'),
                      (is_waiting, 'it has not waited'), (second.returncode == 0, second.returncode),
                      (printed == finished(messages('1')), printed), (told == waiting, told), soon(took),
                      (first.returncode == 1, first.returncode))
        status, printed, _ = self.run(('--connect', f'127.0.0.1:{port}'), '--lock-wait', '3600', '--verbose')
        self.look('a run that need not wait', (status == 0, status), (printed == finished([]), printed),
                  ('waiting' not in self.told, self.told))
        server.kill()
        server.wait()

    def bad_then_silent(self, batch):
        """A peer that fails early and is silent then: the next exchange has its time limit all the same, and its own
        reason. As each run waits for its time limit, they are made at once, with a progress each."""
        server, behind = self.serve('--connections', '1000000')
        peers = [(first, reason, then, listening(Listed(behind, first, then))) for first, reason, then in (
            (closed, CLOSED, left_silent), (reset, CLOSED, left_silent), (cut, CUT, left_silent),
            (answered_in_http, IN_HTTP, left_silent), (reset, CLOSED, dripped),
            (answered_in_version_1_0, IN_VERSION_1_0, left_silent))]
        runs = [self.words(('--connect', f'127.0.0.1:{port}'), *SHORT, '--limit', '2', '--batch', batch,
                           known=f'{self.progress}.{port}') for *_, port in peers]
        with concurrent.futures.ThreadPoolExecutor(len(runs)) as pool:
            ends = list(pool.map(self.ended, runs))
        for (first, reason, then, port), (status, printed, told, took) in zip(peers, ends):
            self.look(f'a peer whose first message is {in_words(first)}, and each further one is {in_words(then)}, '
                      f'{batch} keys a message', (status == 1, status), (printed == working(2), printed),
                      (3 <= took, took), soon(took), (told_of(port, told) == [
                          f'no reply from PEER: {reason}; trying again', 'no reply from PEER: timed out after 3 s',
                          'no reply in 2 exchanges'], told))
        server.kill()
        server.wait()

    def good_then_silent(self, batch):
        """A server that answers the first message about nine keys, and is silent then: what it said of a key is told, and of the
        keys of the second message that it was not answered."""
        server, behind = self.serve('--connections', '1000000')
        self.forget()
        listed = Listed(behind, answered, left_silent)
        port = listening(listed)
        status, printed, took = self.run(('--connect', f'127.0.0.1:{port}'), *SHORT, '--limit', '2', '--batch', batch)
        words = {LOCATE: 'Locate', CREATE: 'Create'}
        last = {identity[1:].decode(): f'{words[operation]} not answered 1 time' for operation, identity
                in questions_in(listed.messages[-1])}
        located = {identity[1:].decode(): 'last reply to Locate: found none' for _, identity in questions_in(listed.messages[0])}
        wanted = [f'{key.name}: {(located | last).get(key.name, "not requested yet")}' for key in NINE]
        self.look(f'a server that answers once and is silent then, {batch} keys a message', (status == 1, status),
                  (printed == working(2), printed), soon(took), (len(last) == int(batch), last),
                  (told_of(port, self.told) == ['no reply from PEER: timed out after 3 s', *wanted], self.told))
        server.kill()
        server.wait()

    def bad_then_good(self, batch):
        """A peer that is bad at one message, the first or a later one, and good before and after it: all is carried out, in
        one exchange more, or in the few that find out what the message did; and each object is made once."""
        for bad, reason, counted in ((closed, CLOSED, 'lost'), (cut, CUT, 'lost'), (answered_in_http, IN_HTTP, 'lost'),
                                     (answered_in_version_1_0, IN_VERSION_1_0, 'unreadable'),
                                     (answered_late, 'timed out after 3 s', 'lost')):
            # A late reply takes seconds: it is tried at one message.
            for before in [int(batch) // 4] if bad == answered_late else [0, 2]:
                server, behind = self.serve('--connections', '1000000')
                self.forget()
                listed = Listed(behind, *[answered] * before, bad, answered)
                port = listening(listed)
                status, printed, _ = self.run(('--connect', f'127.0.0.1:{port}'), '--batch', batch, '--json',
                                              *(SHORT if bad == answered_late else PATIENT))
                *told, end = map(json.loads, printed.splitlines())
                counts = [end[name] for name in ('end', 'finished', 'exchanges', 'refused', 'steps', 'cause', counted)]
                wanted = ['AllFinished', 9, len(listed.messages), 0, sum(ALL_DONE), None, 1]
                objects = objects_of(behind, [key.name for key in NINE])
                keys = [{'version': 1, 'key': key.name, 'target': key.target, 'done': key.done([found]), 'of': key.steps(),
                         'verdict': 'finished', 'identifier': found[0].decode(), 'steps': key.steps()}
                        for key in NINE for found in objects[key.name]]
                self.look(f'a server whose message {before + 1} is {in_words(bad)}, {batch} keys a message',
                          (status == 0, status), (counts == wanted, counts), (end['lost'] + end['unreadable'] == 1, end),
                          (told == keys, told), ([key['done'] for key in told] == ALL_DONE, told),
                          (told_of(port, self.told) == [f'no reply from PEER: {reason}; trying again',
                                                        'PEER answers again after T s'], self.told))
                server.kill()
                server.wait()

    def no_client(self):
        words = [self.program, 'serve', '--port', '0', '--connections', '0']
        status, printed, _, _ = self.ended(words)
        said, _, port = printed.partition(' ')
        is_port = port[-1:] == '\n' and port[:-1].isdecimal() and 0 < int(port) < 65536
        self.look('a server of no connections', (status == 0, status), (said == 'listening' and is_port, printed))
        # The number of connections is one of four bytes.
        status, printed, _, _ = self.ended([*words[:-1], str(2 ** 32)])
        self.look('a server of more connections than it may have', (status == 2, status),
                  (printed.startswith(f"error: invalid value '{2 ** 32}' for '--connections <N>'"), printed))

    def taken_port(self):
        with socket.socket() as taken:
            taken.bind(('127.0.0.1', 0))
            taken.listen()
            words = [self.program, 'serve', '--port', str(taken.getsockname()[1]), '--connections', '1']
            status, printed, _, _ = self.ended(words)
        self.look('a port where somebody listens already', (status == 1, status), (printed == 'cannot listen\n', printed))

    def bad_clients(self):
        self.forget()
        # So much time that a run which the disk holds up between two exchanges is no silent client.
        server, port = self.serve('--connections', '1000000', '--timeout', '5')

        def files():
            return len(os.listdir(f'/proc/{server.pid}/fd'))

        def memory():
            """The kilobytes of its own that it holds; pages of its file, which the system takes and gives, are not."""
            with open(f'/proc/{server.pid}/smaps_rollup') as said:
                return sum(int(line.split()[1]) for line in said if line.startswith(('Anonymous:', 'Swap:')))

        at_rest = files()
        with socket.create_connection(('127.0.0.1', port)):
            status, printed, took = self.run(('--connect', f'127.0.0.1:{port}'))
        self.look('a server behind a silent client', (status == 0, status),
                  (printed == finished(messages('1')), printed), soon(took))
        # The server sees the end of a connection a little later than the run that has ended it.
        is_settled = until(lambda: files() <= at_rest)
        before = memory()
        for _ in range(10_000):
            socket.create_connection(('127.0.0.1', port)).close()
        self.forget()
        status, printed, _ = self.run(('--connect', f'127.0.0.1:{port}'))
        is_settled = until(lambda: files() <= at_rest) and is_settled
        after = memory()
        # The server may touch a page meanwhile; the least that could leak by connection is 160 KB in all.
        self.look('ten thousand connections one after the other', (status == 0, status),
                  (printed == finished(messages('1', done=ALL_DONE)), printed), (is_settled, (at_rest, files())),
                  (after - before < 64, (before, after)))
        server.kill()
        server.wait()


def main():
    program, folder = os.path.realpath(sys.argv[1]), os.path.realpath(sys.argv[2])
    shutil.rmtree(folder, ignore_errors=True)
    os.makedirs(folder)
    peers = Peers(program, folder)
    with open(peers.plan, 'w') as plan:
        plan.write(plan_of())
    for batch in BATCHES:
        peers.bad_peers(batch)
        peers.bad_then_silent(batch)
        peers.good_then_silent(batch)
        peers.bad_then_good(batch)
        peers.closing_peer(batch)
        peers.no_peer(batch)
        peers.looks(batch)
        peers.looks_amid_losses(batch)
        peers.told_messages(batch)
    peers.full_socket()
    peers.probes()
    peers.unreadable_peers()
    peers.lost_looks()
    peers.hanging_probes()
    peers.told_probe()
    peers.files()
    peers.waiting_runs()
    peers.no_client()
    peers.taken_port()
    peers.bad_clients()
    return 1 if peers.wrong else 0


if __name__ == '__main__':
    sys.exit(main())
