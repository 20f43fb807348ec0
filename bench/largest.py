#!/usr/bin/env python3
"""Carries out the largest plan: 1,000 keys with names of 64 characters, at a server whose identifiers are UUIDs.

    bench/largest.py PROGRAM FOLDER

A message asks about one key. The server is this file's own. What `run`, `look` and `list` print, and the progress file, are
compared with what that server holds. The longest item is shown too. Each row has a sentence and `ok`, or what went wrong.
The last line counts what is wrong, and the exit status is 0 if nothing is. Sockets on 127.0.0.1 only.
"""

import json
import os
import re
import shutil
import socket
import subprocess
import sys
import threading
import uuid

sys.dont_write_bytecode = True

import messages as kmip
from nine_keys import LONGEST_NAME, STEPS, Key

# The most keys of a plan.
MOST_KEYS = 1000
OBJECT_TYPE, SYMMETRIC_KEY = 0x420057, 2
ITEM_NOT_FOUND, WRONG_STATE, USED_NAME = 1, 12, 100
KEYS = [Key(f'{number:04}-'.ljust(LONGEST_NAME, 'x'), target) for number, target in zip(range(MOST_KEYS), 200 * list(STEPS))]
STATES = {kmip.PRE_ACTIVE: 'PreActive', kmip.ACTIVE: 'Active', kmip.DEACTIVATED: 'Deactivated', kmip.DESTROYED: 'Destroyed'}
# A Locate of each key, and its steps.
EXCHANGES = MOST_KEYS + sum(key.steps() for key in KEYS)
# The number that a progress file has for the reason of a Revoke: unspecified.
UNSPECIFIED = '1'


class Uuids:
    """A KMIP server in memory whose identifiers are UUIDs, of 36 characters."""

    def __init__(self):
        # The identifier of each name; and the attributes and the state of each identifier.
        self.names, self.attributes, self.states = {}, {}, {}
        self.listener = socket.create_server(('127.0.0.1', 0))
        self.address = f'127.0.0.1:{self.listener.getsockname()[1]}'
        threading.Thread(target=self.accept, daemon=True).start()

    def accept(self):
        while True:
            peer, _ = self.listener.accept()
            threading.Thread(target=self.serve, args=(peer,), daemon=True).start()

    def serve(self, peer):
        peer.setsockopt(socket.IPPROTO_TCP, socket.TCP_NODELAY, 1)
        try:
            while True:
                peer.sendall(kmip.reply([self.answer(item) for item in kmip.batch_items(kmip.message(peer))]))
        except OSError:
            peer.close()

    def answer(self, question):
        """The Batch Item that answers a Batch Item."""
        parts = dict(kmip.pieces_of(question[8:]))
        operation, identity = int.from_bytes(value_of(parts[kmip.OPERATION])[:4], 'big'), value_of(parts[kmip.ITEM_ID])
        payload = dict(kmip.pieces_of(parts[kmip.REQUEST_PAYLOAD][8:]))
        found = self.done(operation, payload)
        if isinstance(found, int):
            return kmip.refusal(operation, identity, found)
        head = kmip.number(kmip.OPERATION, kmip.ENUMERATION, operation) + kmip.item(kmip.ITEM_ID, kmip.BYTES, identity)
        head += kmip.number(kmip.STATUS, kmip.ENUMERATION, 0)
        return kmip.item(kmip.BATCH_ITEM, kmip.STRUCTURE, head + kmip.item(kmip.PAYLOAD, kmip.STRUCTURE, found))

    def done(self, operation, payload):
        """Does what is asked: the payload of its reply, or the reason of a refusal."""
        if operation in (kmip.LOCATE, kmip.CREATE):
            attributes = payload[kmip.ATTRIBUTES]
            name = dict(kmip.items_in(attributes)[0][1])[kmip.NAME][0][1].decode()
            return self.located(name) if operation == kmip.LOCATE else self.created(name, attributes[8:])
        uid = value_of(payload[kmip.UNIQUE_IDENTIFIER]).decode()
        if uid not in self.states:
            return ITEM_NOT_FOUND
        if operation == kmip.GET_ATTRIBUTES:
            held = kmip.number(OBJECT_TYPE, kmip.ENUMERATION, SYMMETRIC_KEY) + self.attributes[uid]
            held += kmip.number(kmip.STATE, kmip.ENUMERATION, self.states[uid])
            return identifier(uid) + kmip.item(kmip.ATTRIBUTES, kmip.STRUCTURE, held)
        return self.moved(operation, uid)

    def uid(self, key):
        """The identifier of a key; of one that was not made, a word that says so."""
        return self.names.get(key.name, 'not-made')

    def located(self, name):
        return identifier(self.names[name]) if name in self.names else b''

    def created(self, name, attributes):
        if name in self.names:
            return USED_NAME
        uid = str(uuid.uuid4())
        self.names[name], self.attributes[uid], self.states[uid] = uid, attributes, kmip.PRE_ACTIVE
        return kmip.number(OBJECT_TYPE, kmip.ENUMERATION, SYMMETRIC_KEY) + identifier(uid)

    def moved(self, operation, uid):
        """Changes the state of an object."""
        before, after = {kmip.ACTIVATE: ([kmip.PRE_ACTIVE], kmip.ACTIVE), kmip.REVOKE: ([kmip.ACTIVE], kmip.DEACTIVATED),
                         kmip.DESTROY: ([kmip.PRE_ACTIVE, kmip.DEACTIVATED], kmip.DESTROYED)}[operation]
        if self.states[uid] not in before:
            return WRONG_STATE
        self.states[uid] = after
        return identifier(uid)


def value_of(piece):
    """The value of an item."""
    return piece[8:8 + int.from_bytes(piece[4:8], 'big')]


def identifier(uid):
    return kmip.item(kmip.UNIQUE_IDENTIFIER, kmip.TEXT, uid.encode())


class Largest:
    def __init__(self, program, folder):
        self.program, self.folder, self.rows, self.wrong = program, folder, 0, 0
        shutil.rmtree(folder, ignore_errors=True)
        os.makedirs(folder)
        self.plan = self.path('plan.toml')
        with open(self.plan, 'w') as file:
            file.write(''.join(key.text() for key in KEYS))

    def path(self, name):
        return os.path.join(self.folder, name)

    def start(self, command, *words):
        return subprocess.Popen([self.program, command, '--plan', self.plan, *words], stdout=subprocess.PIPE,
                                stderr=subprocess.PIPE, text=True)

    def look(self, what, *facts):
        wrong = [(found, wanted) for found, wanted in facts if found != wanted]
        print(f'{what}: ' + ('wrong' if wrong else 'ok'), flush=True)
        for found, wanted in wrong:
            print(f'    {str(found)[:600]!r}\n    in the place of {str(wanted)[:600]!r}')
        self.rows += 1
        self.wrong += bool(wrong)

    def runs(self):
        """A run in text and one in JSON, each at a server of its own, at the same time."""
        servers = {'text': Uuids(), 'json': Uuids()}
        started = {form: self.start('run', '--progress', self.path(form), '--connect', server.address,
                                    *(['--json'] if form == 'json' else [])) for form, server in servers.items()}
        for form, running in started.items():
            printed, told = running.communicate()
            server = servers[form]
            wanted = report() if form == 'text' else documents(server)
            found = printed if form == 'text' else [without_time(json.loads(line)) for line in printed.splitlines()]
            self.look(f'a run of 1,000 keys, each message about one key, in {form}', (running.returncode, 0), (told, ''),
                      (found, wanted), (reached(server), [STEPS[key.target][-1][1] for key in KEYS]))
            with open(self.path(form)) as file:
                self.look(f'the progress file of the run in {form}', (file.read(), progress(server)))
            self.others(form, server)
        self.identifiers(servers['text'])

    def identifiers(self, server):
        """A run that finds all done, and prints the identifier of each key: the longest report that there is."""
        running = self.start('run', '--progress', self.path('text'), '--connect', server.address, '--identifiers')
        printed, _ = running.communicate()
        wanted = ''.join(f'{line_of("list", key, server)}\n' for key in KEYS) + 'finished 1000 of 1000\nstop AllFinished 0\n'
        self.look('the report of 1,000 keys with their identifiers', (running.returncode, 0), (printed, wanted))

    def longest_item(self):
        """The canonical form of the longest item has all its bytes: a Structure of 511 Integers and an empty Byte String."""
        integers, empty = kmip.number(kmip.OPERATION, kmip.INTEGER, 7) * 511, kmip.item(kmip.ITEM_ID, kmip.BYTES, b'')
        item = kmip.item(kmip.REQUEST, kmip.STRUCTURE, integers + empty)
        line = f'{item.hex()}\n'
        done = subprocess.run([self.program, 'show', '--canon'], input=line, capture_output=True, text=True)
        self.look('an item of 8,192 bytes in its canonical form', (len(item), 8192), (done.returncode, 0), (done.stdout, line))

    def others(self, form, server):
        """`look` and `list` about these keys."""
        for command, words in (('look', ('--connect', server.address)), ('list', ('--progress', self.path(form)))):
            running = self.start(command, *words, *(['--json'] if form == 'json' else []))
            printed, told = running.communicate()
            lines = printed.splitlines()
            if form == 'json':
                found = [[one[name] for name in ('key', 'identifier', 'verdict')] for one in map(json.loads, lines[:-1])]
                wanted = [[key.name, server.uid(key), 'finished'] for key in KEYS]
            else:
                found, wanted = lines[:-1], [line_of(command, key, server) for key in KEYS]
            last = '{"version":1,"finished":1000,"of":1000}' if form == 'json' else 'finished 1000 of 1000'
            told = re.sub(r'\d+ (second|minute)s? ago', 'T ago', told)
            self.look(f'{command} of 1,000 keys in {form}', (running.returncode, 0), (found, wanted), (lines[-1], last),
                      (told, f'saved against {server.address}, T ago\n' if command == 'list' else ''))


def reached(server):
    return [server.states.get(server.uid(key)) for key in KEYS]


def report():
    """What a run prints once all is done."""
    return ''.join(key.line(key.steps()) for key in KEYS) + f'finished 1000 of 1000\nstop AllFinished {EXCHANGES}\n'


def documents(server):
    """What a run prints in JSON once all is done."""
    lines = [{'version': 1, 'key': key.name, 'target': key.target, 'done': key.steps(), 'of': key.steps(),
              'verdict': 'finished', 'identifier': server.uid(key), 'steps': key.steps()} for key in KEYS]
    return [*lines, {'version': 1, 'end': 'AllFinished', 'finished': 1000, 'of': 1000, 'exchanges': EXCHANGES, 'lost': 0,
                     'refused': 0, 'unreadable': 0, 'steps': EXCHANGES - MOST_KEYS, 'cause': None}]


def without_time(document):
    return {name: value for name, value in document.items() if name != 'milliseconds'}


def progress(server):
    """The text of a progress file once all is done."""
    lines = [f'{key.name} {key.target} {UNSPECIFIED if key.target in ("revoked", "destroyed") else "-"} {key.steps()} '
             f'{server.uid(key).encode().hex()}\n' for key in KEYS]
    return 'kmip-progress 2\n' + ''.join(lines) + 'end 1000\n'


def line_of(command, key, server):
    """What `look` or `list` prints of a key that is finished."""
    uid, state = server.uid(key), STATES[STEPS[key.target][-1][1]]
    if command == 'look':
        return f'{key.name} {key.target} {uid} {state} finished'
    return f'{key.name} {key.target} {key.steps()}/{key.steps()} finished {uid}'


def main():
    largest = Largest(os.path.realpath(sys.argv[1]), os.path.realpath(sys.argv[2]))
    largest.runs()
    largest.longest_item()
    print(f'{largest.rows} rows, {largest.wrong} wrong')
    return 1 if largest.wrong else 0


if __name__ == '__main__':
    sys.exit(main())
