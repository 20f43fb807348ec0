#!/usr/bin/env python3
"""Several clients at once of `kmipctl serve --at-once N`: messages in turn, and clients that stall, close or read nothing.

    bench/turns.py PROGRAM

The replies are compared with those of `kmipctl answer` to the same messages in the same order: one server answers
all. Each row prints what it looks at and `ok`, or what went wrong. The last line counts what is wrong, and the exit
status is 0 where nothing is. Sockets on 127.0.0.1 only.
"""

import os
import select
import socket
import subprocess
import sys
import threading
import time

sys.dont_write_bytecode = True

import messages as kmip
from messages import RESPONSE_HEADER, TIME_STAMP, items_in

TOP = os.path.join(os.path.dirname(os.path.realpath(__file__)), '..')
with open(os.path.join(TOP, 'examples', 'answer-life.hex')) as file:
    MESSAGES = [bytes.fromhex(line) for line in file.read().split()]
# What has not come after so many seconds never does. A server closes a silent client after 60: who is held up by one
# waits longer than this, and a busy machine does not.
LONGEST = 40
# The time limit of the server that is to close a silent client: longer than a busy machine holds up the other one.
SILENCE = 5
# More messages than the network holds of a client that reads no reply: it may keep 4 MB in each direction.
MANY = 60_000


# A Unique Batch Item ID has at most so many bytes, and a name so many.
LONGEST_ID, LONGEST_NAME = 128, 64
OBJECT_TYPE, SYMMETRIC_KEY, ALGORITHM, AES, LENGTH, MASK = 0x420057, 2, 0x420028, 3, 0x42002a, 0x42002c


class Server:
    def __init__(self, program, at_once, connections, *more):
        words = [program, 'serve', '--port', '0', '--connections', str(connections), '--at-once', str(at_once), *more]
        self.process = subprocess.Popen(words, stdout=subprocess.PIPE, stderr=subprocess.PIPE, text=True)
        self.port = int(self.process.stdout.readline().split()[1])

    def client(self, room=None):
        """A client. With room, the network keeps about so many bytes for it in each direction."""
        client = socket.socket()
        if room:
            client.setsockopt(socket.SOL_SOCKET, socket.SO_RCVBUF, room)
            client.setsockopt(socket.SOL_SOCKET, socket.SO_SNDBUF, room)
        client.setsockopt(socket.IPPROTO_TCP, socket.TCP_NODELAY, 1)
        client.settimeout(LONGEST * 6 if room else LONGEST)
        client.connect(('127.0.0.1', self.port))
        return client

    def end(self):
        """How it ended, and what it told; it is stopped where it does not end by itself."""
        try:
            told = self.process.communicate(timeout=LONGEST)[1]
        except subprocess.TimeoutExpired:
            self.process.kill()
            self.process.communicate()
            return 'it did not end', ''
        return self.process.returncode, told


def some(client, size):
    """As many bytes as this, or those up to the end."""
    data = b''
    while len(data) < size:
        more = client.recv(size - len(data))
        if not more:
            break
        data += more
    return data


def reply(client):
    """The next reply, empty where the connection has ended."""
    head = some(client, 8)
    return head + some(client, int.from_bytes(head[4:8], 'big'))


def asked(client, message):
    client.sendall(message)
    return reply(client)


def longest_messages():
    """A Create of eight keys, and a Get Attributes of them: names and ids are as long as they may be, and so is the second reply."""
    names, ids = ([letter * most for letter in 'abcdefgh'] for most in (LONGEST_NAME, LONGEST_ID))
    return [batch(kmip.CREATE, ids, map(created, names)), batch(kmip.GET_ATTRIBUTES, ids, map(identified, range(1, 9)))]


def batch(operation, ids, payloads):
    """A request with a question of each payload."""
    questions = [kmip.item(kmip.BATCH_ITEM, kmip.STRUCTURE, kmip.number(kmip.OPERATION, kmip.ENUMERATION, operation)
                           + kmip.item(kmip.ITEM_ID, kmip.BYTES, identity.encode())
                           + kmip.item(kmip.REQUEST_PAYLOAD, kmip.STRUCTURE, payload)) for identity, payload in zip(ids, payloads)]
    return kmip.request_of(b''.join(questions), len(questions))


def created(name):
    value = kmip.item(kmip.NAME_VALUE, kmip.TEXT, name.encode()) + kmip.number(kmip.NAME_TYPE, kmip.ENUMERATION, 1)
    attributes = kmip.number(ALGORITHM, kmip.ENUMERATION, AES) + kmip.number(LENGTH, kmip.INTEGER, 256)
    attributes += kmip.number(MASK, kmip.INTEGER, 12) + kmip.item(kmip.NAME, kmip.STRUCTURE, value)
    kind = kmip.number(OBJECT_TYPE, kmip.ENUMERATION, SYMMETRIC_KEY)
    return kind + kmip.item(kmip.ATTRIBUTES, kmip.STRUCTURE, attributes)


def identified(number):
    return kmip.item(kmip.UNIQUE_IDENTIFIER, kmip.TEXT, str(number).encode())


def time_stamp(message):
    """The seconds of the Time Stamp in the header of a reply."""
    [(_, parts)] = items_in(message)
    return int.from_bytes(dict(dict(parts)[RESPONSE_HEADER])[TIME_STAMP], 'big')


def is_closed(client):
    try:
        return client.recv(1) == b''
    except ConnectionResetError:
        return True


class Turns:
    def __init__(self, program):
        self.program, self.rows, self.wrong = program, 0, 0

    def look(self, what, got, wanted):
        self.rows += 1
        if got == wanted:
            print(f'{what}: ok')
        else:
            self.wrong += 1
            print(f'{what}: wrong\n    said   {got}\n    wanted {wanted}')

    def answers(self, messages):
        """The replies of one server to these messages in turn."""
        text = ''.join(message.hex() + '\n' for message in messages)
        done = subprocess.run([self.program, 'answer'], input=text, capture_output=True, text=True, check=True)
        return [bytes.fromhex(line) for line in done.stdout.split()]

    def interleaved(self):
        server = Server(self.program, 3, 3)
        clients = [server.client() for _ in range(3)]
        said = [asked(clients[number % 3], message) for number, message in enumerate(MESSAGES)]
        self.look('messages of three clients in turn', said, self.answers(MESSAGES))
        for client in clients:
            client.close()
        self.look('it ends after its connections', server.end(), (0, ''))

    def stalling(self):
        server = Server(self.program, 4, 4)
        stalled, hasty, other = server.client(), server.client(), server.client()
        first, rest = MESSAGES[0], MESSAGES[1:]
        stalled.sendall(first[:20])
        hasty.sendall(first[:9])
        time.sleep(0.2)
        hasty.close()
        begin = time.monotonic()
        said = [asked(other, message) for message in rest]
        self.look('beside a client that stalls in a message, and one that closes in one', said, self.answers(rest))
        took = time.monotonic() - begin
        self.look('they do not hold it up', 'no' if took < LONGEST else f'{took:.1f} s', 'no')
        stalled.sendall(first[20:-1])
        later = server.client()
        said.append(asked(later, MESSAGES[0]))
        stalled.sendall(first[-1:])
        said.append(reply(stalled))
        self.look('the one that stalled is answered once its message is whole', said,
                  self.answers([*rest, MESSAGES[0], first]))
        for client in stalled, other, later:
            client.close()
        self.look('it ends then', server.end(), (0, ''))

    def silent(self):
        server = Server(self.program, 2, 3, '--timeout', str(SILENCE))
        silent, other = server.client(), server.client()
        silent.sendall(MESSAGES[0][:10])
        begin, asked_at_all, said = time.monotonic(), 0, 0
        is_over, took = False, 0
        while not is_over and took < LONGEST:
            asked_at_all += 1
            said += asked(other, MESSAGES[0])[:4] == bytes.fromhex('42007b01')
            is_over = bool(select.select([silent], [], [], 0.1)[0])
            took = time.monotonic() - begin
        self.look('a client that is silent for longer than the timeout is closed', is_over and is_closed(silent), True)
        self.look('and not before', 'not' if took > SILENCE - 0.1 else f'after {took:.2f} s', 'not')
        self.look('and the other one was answered meanwhile', (said, said > 1), (asked_at_all, True))
        third = server.client()
        self.look('one that comes then is answered', len(asked(third, MESSAGES[0])) > 8, True)
        other.close()
        third.close()
        self.look('it ends then, too', server.end(), (0, ''))

    def not_reading(self):
        """A client that reads no reply, so that the network takes no more of its messages."""
        server = Server(self.program, 2, 2)
        deaf, other = server.client(room=4096), server.client()
        messages = MESSAGES[:1] * MANY
        sending = threading.Thread(target=deaf.sendall, args=(b''.join(messages),), daemon=True)
        sending.start()
        time.sleep(3)
        self.look('a client that reads nothing can send no more', sending.is_alive(), True)
        said = [asked(other, message) for message in MESSAGES]
        self.look('and the other is answered', said, self.answers(MESSAGES))
        replies = [reply(deaf) for _ in messages]
        sending.join()
        self.look('once it reads, its replies are whole', {len(one) for one in replies} <= {len(said[0]), len(said[-1])}, True)
        self.look('and as many as its messages', len(replies), MANY)
        deaf.close()
        other.close()
        self.look('it ends after both', server.end(), (0, ''))

    def wrong_head(self):
        server = Server(self.program, 2, 2)
        wrong, other = server.client(), server.client()
        wrong.sendall(b'GET / HTTP/1.1\r\n\r\n')
        self.look('a client that sends no message is closed', is_closed(wrong), True)
        self.look('and the other is answered', [asked(other, message) for message in MESSAGES], self.answers(MESSAGES))
        other.close()
        self.look('it ends after these', server.end(), (0, ''))

    def together(self):
        """Two messages at once, and a reply before the client closes its half."""
        server = Server(self.program, 2, 1)
        client = server.client()
        client.sendall(MESSAGES[0] + MESSAGES[1])
        client.shutdown(socket.SHUT_WR)
        self.look('two messages in one piece, and the end', [reply(client), reply(client), client.recv(1)],
                  [*self.answers(MESSAGES[:2]), b''])
        client.close()
        self.look('it ends after one', server.end(), (0, ''))

    def crowded(self):
        server = Server(self.program, 2, 3)
        first, second, third = server.client(), server.client(), server.client()
        said = [asked(first, MESSAGES[0]), asked(second, MESSAGES[1])]
        third.sendall(MESSAGES[2])
        third.settimeout(0.5)
        try:
            got = third.recv(1)
        except TimeoutError:
            got = 'nothing'
        third.settimeout(LONGEST)
        self.look('a third client of two at once waits', got, 'nothing')
        first.close()
        said.append(reply(third))
        self.look('until one of them has ended', said, self.answers(MESSAGES[:3]))
        second.close()
        third.close()
        self.look('it ends after three', server.end(), (0, ''))

    def alone(self):
        server = Server(self.program, 1, 2)
        first, second = server.client(), server.client()
        said = [asked(first, MESSAGES[0])]
        second.sendall(MESSAGES[1])
        second.settimeout(0.5)
        try:
            got = second.recv(1)
        except TimeoutError:
            got = 'nothing'
        second.settimeout(LONGEST)
        self.look('of one at once the second waits', got, 'nothing')
        said.append(asked(first, MESSAGES[2]))
        first.close()
        said.append(reply(second))
        self.look('until the first has ended', said, self.answers([MESSAGES[0], MESSAGES[2], MESSAGES[1]]))
        second.close()
        self.look('it ends after two', server.end(), (0, ''))

    def many(self):
        server = Server(self.program, 64, 64, '--verbose')
        clients = [server.client() for _ in range(64)]
        said, messages = [], [MESSAGES[0]] * 64
        for client in clients:
            client.sendall(MESSAGES[0][:30])
        for client in reversed(clients):
            client.sendall(MESSAGES[0][30:])
            said.append(reply(client))
        self.look('64 clients with a message half sent', said, self.answers(messages))
        for client in clients:
            client.close()
        status, told = server.end()
        self.look('it ends after 64', status, 0)
        self.look('and has told each exchange in a line', len(told.splitlines()), 64)

    def longest(self):
        """The longest reply of the server is whole, whichever way clients are served."""
        messages = longest_messages()
        for at_once in 1, 2:
            server = Server(self.program, at_once, 1)
            client = server.client()
            said = [asked(client, message) for message in messages]
            self.look(f'the longest reply, {at_once} at once', (len(said[1]), said), (3160, self.answers(messages)))
            client.close()
            self.look('it ends after it', server.end(), (0, ''))

    def clocks(self):
        """The Time Stamp of each reply is the time of `--now`, whichever way clients are served."""
        for at_once in 1, 2:
            for more, wanted in ((), 0), (('--now', '5'), 5), (('--now', str(2 ** 63 - 1)), 2 ** 63 - 1):
                server = Server(self.program, at_once, 1, *more)
                client = server.client()
                said = [time_stamp(asked(client, message)) for message in MESSAGES[:2]]
                self.look(f'the time of replies, {" ".join(more) or "no --now"}, {at_once} at once', said, [wanted] * 2)
                client.close()
                server.end()

    def end(self):
        print(f'{self.rows} rows, {self.wrong} wrong')
        return 1 if self.wrong else 0


def main():
    turns = Turns(os.path.realpath(sys.argv[1]))
    for part in (turns.interleaved, turns.stalling, turns.silent, turns.not_reading, turns.wrong_head, turns.together,
                 turns.crowded, turns.alone, turns.many, turns.longest, turns.clocks):
        part()
    return turns.end()


if __name__ == '__main__':
    sys.exit(main())
