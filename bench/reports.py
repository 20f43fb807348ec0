#!/usr/bin/env python3
"""Runs each command with `--json`, and reads what it prints by the json of Python.

    bench/reports.py PROGRAM FOLDER

Each line has to be one JSON object, which begins with the version, with no member twice. The values are compared with what is written here, and
exit statuses with those of the text. The members of each document have to be those of a row of docs/AUTOMATION.md,
in its order, and each row of that page has to be seen. Each row prints what it looks at and `ok`, or what went wrong.
The last line counts what is wrong, and the exit status is 0 if nothing is. Sockets on 127.0.0.1 and in the folder only.
"""

import fcntl
import json
import os
import pathlib
import re
import shutil
import socket
import subprocess
import sys

sys.dont_write_bytecode = True

from nine_keys import BATCHES, CASE, LONGEST_NAME, NINE, messages, numbers_by, plan, progress, report

# The name of the last key has characters that JSON writes in another way.
LAST = CASE.but(name='a"b\\c' + 'x' * (LONGEST_NAME - 5))
KEYS = [*NINE[:-1], LAST]
NUMBERS = range(1, len(KEYS) + 1)
NONE_DONE, ALL_DONE = [0 for _ in KEYS], [key.steps() for key in KEYS]
NO_NUMBERS = [None for _ in KEYS]
# The number of a symmetric key among the Object Types of the standard.
SYMMETRIC_KEY = 2
PREMISES = ['names are unique', 'names stay used after Destroy', 'a step made twice changes nothing',
            'an active object is not destroyed', 'Locate finds objects by their names',
            'Locate finds destroyed objects', 'Get Attributes tells all six attributes', 'the batch id is echoed']

# What the rows of the commands want.
ROOT = pathlib.Path(__file__).resolve().parent.parent
STORED = ROOT / 'crates' / 'rows_kmipctl' / 'data'
PAGE = ROOT / 'docs' / 'AUTOMATION.md'
HEAD = '| command | of | members |'
HOLDS = 'the promise holds here: each key is made once, and its steps are made once and in order'


def checked(key):
    return {'key': key.name, 'algorithm': key.algorithm, 'length': key.length, 'usage': key.mask(),
            'target': key.target, 'steps': key.words()}


def verdict_of(key, done):
    return 'finished' if done == key.steps() else 'working'


def listed(key, done, number, steps=None, verdict=None):
    line = {'key': key.name, 'target': key.target, 'done': done, 'of': key.steps(),
            'verdict': verdict or verdict_of(key, done), 'identifier': None if number is None else str(number)}
    return line if steps is None else {**line, 'steps': steps}


def ended(end, finished, of, exchanges, steps, cause=None, lost=0, refused=0, unreadable=0):
    return {'end': end, 'finished': finished, 'of': of, 'exchanges': exchanges, 'lost': lost, 'refused': refused,
            'unreadable': unreadable, 'steps': steps, 'milliseconds': 'T', 'cause': cause}


def looked(key, done, number, verdict=None, made=None):
    """What a look says of a key whose object was made as another one, or as itself, and had so many steps."""
    told = made or key
    return {'key': key.name, 'target': key.target, 'identifier': None if number is None else str(number),
            'state': told.state(done) if done else None, 'verdict': verdict or verdict_of(key, done),
            'to_do': [] if verdict else key.words()[done:], 'type': SYMMETRIC_KEY if done else None,
            'algorithm': told.algorithm if done else None, 'length': told.length if done else None,
            'usage': told.mask() if done else None, 'not_told': None}


def untold(key, why):
    return {**looked(key, 0, None), 'to_do': [], 'not_told': why}


def fault(what, at=None, why=None, cause=None):
    return {'fault': what, 'at': at, 'why': why, 'cause': cause}


def no_plan(number, name, field, key, line, at, why):
    return {**fault('plan refused', at, why), 'number': number, 'name': name, 'field': field, 'key': key, 'line': line}


def no_progress(number, name, at, why=None):
    return {**fault('progress refused', at, why), 'number': number, 'name': name}


def versioned(document):
    return {'version': 1, **document}


def named_in(text):
    """The names that a text has in backticks."""
    return re.findall(r'`([^`]+)`', text)


def page_rows():
    """The rows of the page: the commands of each, none if it is of all, and the members of its document after the version."""
    commands, lines = [], PAGE.read_text().splitlines()
    for line in lines[lines.index(HEAD) + 2:]:
        if not line.startswith('|'):
            return
        command, _, members = [cell.strip() for cell in line.strip('|').split('|')]
        commands = named_in(command) or ([] if command else commands)
        short, more, rest = members.partition('also')
        yield tuple(commands), ('version', *named_in(short))
        if more:
            yield tuple(commands), ('version', *named_in(short), *named_in(rest))


def one_document(line):
    """The object that a line is: its first member is the version, and no member is there twice."""
    def pairs_of(pairs):
        names = [name for name, _ in pairs]
        if len(set(names)) != len(names):
            raise ValueError(f'a member twice: {names}')
        return dict(pairs)
    value = json.loads(line, object_pairs_hook=pairs_of)
    if not isinstance(value, dict):
        raise ValueError(f'no object: {line}')
    if next(iter(value.items()), None) != ('version', 1):
        raise ValueError(f'no version first: {line}')
    return value


def is_document(line):
    """Whether a line is such an object."""
    try:
        one_document(line)
    except ValueError:
        return False
    return True


class Reports:
    def __init__(self, program, folder):
        self.program, self.folder, self.wrong, self.rows = program, folder, 0, 0
        self.servers, self.seen = [], set()
        shutil.rmtree(folder, ignore_errors=True)
        os.makedirs(folder)
        self.plan = self.write('plan.toml', plan(KEYS))
        self.progress = os.path.join(folder, 'progress')

    def write(self, name, text):
        path = os.path.join(self.folder, name)
        with open(path, 'wb') as file:
            file.write(text if isinstance(text, bytes) else text.encode())
        return path

    def serve(self):
        words = [self.program, 'serve', '--port', '0', '--connections', '1000']
        server = subprocess.Popen(words, stdout=subprocess.PIPE, text=True)
        self.servers.append(server)
        return f'127.0.0.1:{server.stdout.readline().split()[1]}'

    def documents(self, *words):
        """The exit status and what is printed, as documents; `milliseconds` as T where it is a whole number."""
        done = subprocess.run([self.program, *words, '--json'], capture_output=True)
        text = done.stdout.decode()
        try:
            if text and not text.endswith('\n'):
                raise ValueError('no line feed at the end')
            documents = [one_document(line) for line in text.split('\n')[:-1]]
        except ValueError as error:
            return done.returncode, f'{error}: {text!r}'
        for document in documents:
            self.seen.add((words[0], tuple(document)))
            if isinstance(document.get('milliseconds'), int):
                document['milliseconds'] = 'T'
        return done.returncode, documents

    def look(self, what, words, status, *wanted):
        said = self.documents(*words)
        self.compare(what, said, (status, [versioned(document) for document in wanted]))
        return said

    def compare(self, what, said, wanted):
        is_right = said == wanted
        print(f'{what}: ' + ('ok' if is_right else 'wrong'))
        if not is_right:
            print(f'    said   {said!r}\n    wanted {wanted!r}')
        self.wrong += not is_right
        self.rows += 1

    def plans(self):
        keys, last = [checked(key) for key in KEYS], LAST.but(target='destroyed')
        path = self.write('further.toml', plan([*KEYS[:-1], last]))
        self.look('check', ['check', '--plan', self.plan], 0, *keys)
        self.look('check of a plan that prolongs', ['check', '--plan', path, '--after', self.plan], 0, *keys[:-1],
                  checked(last), {'prolongs': True})
        self.look('check of one that does not', ['check', '--plan', self.plan, '--after', path], 1, *keys,
                  {'prolongs': False})
        short = self.write('short.toml', plan([*KEYS[:-1], LAST.but(length=100)]))
        # Each key has six lines, and its length is in the fourth.
        refused = no_plan(7, 'BadLength', None, 9, 6 * 8 + 4, short, 'the length is 100: for AES it must be 128, 192 or 256')
        for words in (['check'], ['run', '--loopback', '--progress', self.progress], ['look', '--loopback'],
                      ['list', '--progress', self.progress], ['sim', '--script', self.write('script', '')]):
            self.look(f'{words[0]} of a plan with a wrong length', [*words, '--plan', short], 1, refused)
        self.look('check after a wrong one', ['check', '--plan', self.plan, '--after', short], 1,
                  refused)

    def runs(self, batch):
        saved, where = f'{self.progress}.{batch}', ['--connect', self.serve(), '--batch', batch]
        run = ['run', '--plan', self.plan, '--progress', saved, '--wait', '0', *where]
        look, what = ['look', '--plan', self.plan, *where], f', {batch} keys a message'
        count = {'finished': 9, 'of': 9}
        self.look(f'look before{what}', look, 1, *map(looked, KEYS, NONE_DONE, NO_NUMBERS), {'finished': 0, 'of': 9})
        self.look(f'a run of one exchange{what}', [*run, '--limit', '1'], 1,
                  *map(listed, KEYS, NONE_DONE, NO_NUMBERS, NONE_DONE), ended('Limit', 0, 9, 1, 0))
        self.look(f'a run{what}', run, 0, *map(listed, KEYS, ALL_DONE, NUMBERS, ALL_DONE),
                  ended('AllFinished', 9, 9, len(messages(batch)), sum(ALL_DONE)))
        self.look(f'a run once more changed nothing{what}', run, 0, *map(listed, KEYS, ALL_DONE, NUMBERS, NONE_DONE),
                  ended('AllFinished', 9, 9, 0, 0))
        self.look(f'list{what}', ['list', '--plan', self.plan, '--progress', saved], 0,
                  *map(listed, KEYS, ALL_DONE, NUMBERS), count)
        self.look(f'look after{what}', look, 0, *map(looked, KEYS, ALL_DONE, NUMBERS), count)
        other = LAST.but(length=128)
        path = self.write('other.toml', plan([*KEYS[:-1], other]))
        self.look(f'a look for other attributes{what}', ['look', '--plan', path, *where], 1,
                  *map(looked, KEYS[:-1], ALL_DONE, NUMBERS),
                  looked(other, LAST.steps(), 9, 'conflict attributes', LAST), {'finished': 8, 'of': 9})
        self.look(f'a run for other attributes{what}',
                  ['run', '--plan', path, '--progress', f'{saved}.2', *where], 1,
                  *map(listed, KEYS[:-1], ALL_DONE, NUMBERS, NONE_DONE), listed(other, 0, 9, 0, 'conflict attributes'),
                  ended('Conflict', 8, 9, len(messages(batch, done=ALL_DONE)), 0, 'conflict'))
        self.look(f'its progress with other attributes{what}', ['list', '--plan', path, '--progress', saved], 1,
                  no_progress(3, 'OtherPlan', saved, f'it was saved for other attributes: key "{LAST.name}": '
                              'the length is 128, and was 256'))
        second = self.serve()
        self.look(f'its progress at another server{what}',
                  ['run', '--plan', self.plan, '--progress', saved, '--connect', second, '--batch', batch], 1,
                  fault('progress of another server', saved,
                        f'it was saved against {where[1]}; this run is to use {second}'))

        empty = self.serve()
        os.remove(f'{saved}.origin')
        self.look(f'its progress at a server without its keys{what}',
                  ['run', '--plan', self.plan, '--progress', saved, '--connect', empty, '--batch', batch, '--believe'], 1,
                  {**fault('progress of another server', saved, f'{empty} contradicts what it says'),
                   'keys': [key.name for key in KEYS]})

    def passing(self, batch):
        """Troubles that pass, and those that last."""
        what = f', {batch} keys a message'
        with socket.socket() as free:
            free.bind(('127.0.0.1', 0))
            closed = f'127.0.0.1:{free.getsockname()[1]}'
        words = ['run', '--plan', self.plan, '--progress', f'{self.progress}.{batch}.3', '--connect', closed, '--limit',
                 '2', '--wait', '0', '--batch', batch]
        self.look(f'a run that reaches nobody{what}', words, 1, *map(listed, KEYS, NONE_DONE, NO_NUMBERS, NONE_DONE),
                  ended('Limit', 0, 9, 2, 0, 'unreachable', lost=2))
        # It gives up once the first message is not answered, and asks nothing about the other keys.
        with socket.create_server(('127.0.0.1', 0)) as silent:
            words = ['look', '--plan', self.plan, '--connect', f'127.0.0.1:{silent.getsockname()[1]}', '--timeout', '1',
                     '--give-up', '1', '--batch', batch]
            self.look(f'a look that is not answered{what}', words, 1,
                      *(untold(key, 'no reply') for key in KEYS[:int(batch)]),
                      *(untold(key, 'not asked') for key in KEYS[int(batch):]), {'finished': 0, 'of': 9})

    def faults(self):
        none = os.path.join(self.folder, 'none')
        gone = 'No such file or directory (os error 2)'
        run = ['run', '--loopback', '--progress', self.progress + '.4']
        for words in (['check'], run, ['look', '--loopback'], ['list', '--progress', none]):
            self.look(f'{words[0]} of no file', [*words, '--plan', none], 1, fault('cannot read', none, gone))
        bytes_of = self.write('bytes.toml', b'\xff\xfe')
        self.look('a plan that is no text', ['check', '--plan', bytes_of], 1,
                  fault('cannot read', bytes_of, 'it is not UTF-8 text'))
        long = os.path.join(self.folder, 'long.toml')
        with open(long, 'wb') as file:
            file.truncate(16_777_217)
        self.look('a plan that is too long', ['check', '--plan', long], 1,
                  fault('too long', long, 'it has more than 16777216 bytes'))
        used = self.progress + '.6'
        with open(used + '.lock', 'w') as lock:
            fcntl.flock(lock, fcntl.LOCK_EX)
            self.look('a progress that is in use', ['run', '--loopback', '--plan', self.plan, '--progress', used], 1,
                      fault('progress in use', used))
        self.look('a listing of no progress', ['list', '--plan', self.plan, '--progress', none], 1,
                  fault('cannot read', none, gone))
        whole = progress(KEYS)
        for text, number, name in ((whole[:-1], 2, 'Cut'), (whole.replace(' 2 39\n', ' many 39\n'), 1, 'BadText')):
            path = self.write('bad', text)
            said = no_progress(number, name, path)
            self.look(f'a run of a progress that is {name}', ['run', '--loopback', '--plan', self.plan, '--progress', path],
                      1, said)
            self.look(f'a listing of a progress that is {name}', ['list', '--plan', self.plan, '--progress', path], 1, said)
        folder = os.path.join(none, 'progress')
        self.look('a progress in no folder', ['run', '--loopback', '--plan', self.plan, '--progress', folder], 1,
                  fault('cannot write', folder, gone))
        long = os.path.join(self.folder, 's' * 200)
        self.look('a path that is too long for a socket', ['run', '--plan', self.plan, '--progress', self.progress + '.5',
                                                           '--socket', long], 1,
                  fault('cannot connect', long, 'path must be shorter than SUN_LEN'))

    def simulations(self, batch):
        """The reply to the Create of the last key is lost."""
        before = next(place for place, questions in enumerate(messages(batch)) if ('Create', len(KEYS)) in questions)
        words = [*['pass'] * before, 'lose-reply']
        script, sent = self.write('script', '\n'.join([*words, ''])), messages(batch, words)
        asks = [[f'{operation} {KEYS[place - 1].name}' for operation, place in questions] for questions in sent]
        records = sorted(zip(numbers_by(sent), KEYS), key=lambda record: record[0])
        self.look(f'sim, {batch} keys a message', ['sim', '--plan', self.plan, '--script', script, '--batch', batch], 0,
                  {'run': 1, 'end': 'AllFinished', 'exchanges': len(sent),
                   'report': report('AllFinished', KEYS).splitlines()[:-1]},
                  *({'ask': place, 'requests': ask} for place, ask in enumerate(asks, 1)),
                  *({'record': str(number), 'name': key.name, 'state': key.state(key.steps())}
                    for number, key in records))
        bad = self.write('bad.script', 'pass\nsomething\n')
        self.look(f'a script that is refused, {batch} keys a message',
                  ['sim', '--plan', self.plan, '--script', bad, '--batch', batch], 1,
                  {**fault('script refused'), 'line': 2})
        early = self.write('early.script', 'crash 90 new\n')
        self.look(f'a crash after calls that are not made, {batch} keys a message',
                  ['sim', '--plan', self.plan, '--script', early, '--batch', batch], 1,
                  {**fault('crash refused'), 'run': 1})

    def probes(self):
        where = ['--connect', self.serve()]
        making = {'making': ['p-1', 'p-2']}
        kept = [{'premise': premise, 'finding': 'kept', 'flaw': None, 'risk': None} for premise in PREMISES]
        self.look('probe', ['probe', '--name-prefix', 'p', *where], 0, making, *kept, {'reasons': [53, 67], 'sum': HOLDS})
        self.look('probe once more', ['probe', '--name-prefix', 'p', *where], 1,
                  {'making': [], 'name': 'p-1', 'object': '1', 'not_told': None})

    def stored(self):
        """The documents among what the rows want."""
        texts = [path.read_text() for path in sorted(STORED.glob('*.rows'))]
        lines = [line[4:] for text in texts for line in text.splitlines() if line.startswith('    {"')]
        wrong = [line for line in lines if not is_document(line)]
        self.compare(f'{len(lines)} documents of rows', (len(lines) > 0, wrong), (True, []))

    def page(self):
        """The documents that were printed, and the rows of the page."""
        rows = list(page_rows())
        unlisted = sorted(seen for seen in self.seen
                          if not any(seen[0] in (commands or seen) and seen[1] == members for commands, members in rows))
        unseen = [row for row in rows
                  if not any((command, row[1]) in self.seen for command in row[0] or {seen for seen, _ in self.seen})]
        self.compare(f'{len(rows)} rows of {PAGE.name}', (len(rows) > 0, unlisted, unseen), (True, [], []))

    def end(self):
        for server in self.servers:
            server.kill()
        print(f'{self.rows} rows, {self.wrong} wrong')
        return 1 if self.wrong else 0


def main():
    reports = Reports(os.path.realpath(sys.argv[1]), os.path.realpath(sys.argv[2]))
    try:
        for batch in BATCHES:
            for part in (reports.runs, reports.passing, reports.simulations):
                part(batch)
        for part in (reports.plans, reports.faults, reports.probes, reports.stored, reports.page):
            part()
    finally:
        status = reports.end()
    return status


if __name__ == '__main__':
    sys.exit(main())
