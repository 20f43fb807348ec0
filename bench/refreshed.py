#!/usr/bin/env python3
"""Runs `kmipctl run --refresh` against servers that are not as the progress file says, and asks them itself.

    bench/refreshed.py PROGRAM FOLDER [CASES [SEED]]

Each case has a random plan, carried out on a server behind a Unix socket, wholly or in part. Then the server behind the
socket is exchanged for one that has lost all, half or the last of its keys, or that never had them; or another client
revokes or destroys keys; or nothing happens. A run with `--refresh` follows. What the server has is found out by
messages that are written and read here: the state of the object of each name. A case is wrong if the run says
`finished` of a key that is not at its target, if it ends with 0 and some key is not, if it contradicts a server that is
as the file says, if a contradicted server has changed in anything, or if a name has two objects. The last line has the
numbers of cases, and the exit status is 0 if none is wrong.
"""

import os
import random
import shutil
import socket
import subprocess
import sys
import threading

sys.dont_write_bytecode = True

from messages import ACTIVE, DEACTIVATED, DESTROYED, PRE_ACTIVE, message, objects_of

TARGETS = {'created': PRE_ACTIVE, 'active': ACTIVE, 'revoked': DEACTIVATED, 'destroyed': DESTROYED, 'discarded': DESTROYED}
CHAINS = {'created': [PRE_ACTIVE], 'active': [PRE_ACTIVE, ACTIVE], 'revoked': [PRE_ACTIVE, ACTIVE, DEACTIVATED],
          'destroyed': [PRE_ACTIVE, ACTIVE, DEACTIVATED, DESTROYED], 'discarded': [PRE_ACTIVE, DESTROYED]}
CHANGES = ('nothing', 'loses all', 'loses half', 'loses the last', 'never had them', 'others revoke', 'others destroy')


def plan_text(keys):
    return ''.join(f'[[key]]\nname = "{name}"\nalgorithm = "AES"\nlength = 256\nusage = ["encrypt"]\ntarget = "{target}"\n\n'
                   for name, target in keys)


class Behind:
    """A Unix socket, and the port that each connection to it is handed on to."""

    def __init__(self, path):
        self.port, self.listener = None, socket.socket(socket.AF_UNIX)
        self.listener.bind(path)
        self.listener.listen(50)
        threading.Thread(target=self.accept, daemon=True).start()

    def accept(self):
        while True:
            peer, _ = self.listener.accept()
            threading.Thread(target=self.hand_on, args=(peer, self.port), daemon=True).start()

    @staticmethod
    def hand_on(peer, port):
        try:
            with peer, socket.create_connection(('127.0.0.1', port)) as server:
                while True:
                    server.sendall(message(peer))
                    peer.sendall(message(server))
        except OSError:
            pass


class Refreshed:
    def __init__(self, program, folder, seed):
        self.program, self.folder, self.random = program, folder, random.Random(seed)
        self.servers, self.wrong, self.counts = [], 0, {}
        shutil.rmtree(folder, ignore_errors=True)
        os.makedirs(folder)
        self.socket = os.path.join(folder, 'socket')
        self.behind = Behind(self.socket)

    def path(self, name):
        return os.path.join(self.folder, name)

    def serve(self):
        words = [self.program, 'serve', '--port', '0', '--connections', '1000000', '--at-once', '8']
        server = subprocess.Popen(words, stdout=subprocess.PIPE, stderr=subprocess.DEVNULL, text=True)
        self.servers.append(server)
        return int(server.stdout.readline().split()[1])

    def run(self, progress, keys, *where):
        with open(self.path('plan.toml'), 'w') as file:
            file.write(plan_text(keys))
        done = subprocess.run([self.program, 'run', '--plan', self.path('plan.toml'), '--progress', self.path(progress), *where],
                              capture_output=True, text=True)
        return done.returncode, done.stdout, done.stderr

    def others(self, port, keys, target):
        """Another client takes these keys to this target."""
        if keys:
            self.run(f'others-{self.random.random()}', [(name, target) for name, _ in keys], '--connect', f'127.0.0.1:{port}')

    def changed(self, change, port, keys):
        """The port of the server behind the socket after this change."""
        if change in ('nothing', 'others revoke', 'others destroy'):
            if change != 'nothing':
                some = [key for key in keys if key[1] in ('created', 'active')]
                self.others(port, self.random.sample(some, min(len(some), 2)),
                            'revoked' if change == 'others revoke' else 'destroyed')
            return port
        other = self.serve()
        left = {'loses all': [], 'loses half': keys[:len(keys) // 2], 'loses the last': keys[:-1],
                'never had them': [(f'z{place}', 'active') for place in range(len(keys))]}[change]
        if left:
            self.run(f'other-{self.random.random()}', left, '--connect', f'127.0.0.1:{other}')
        return other

    def case(self, number):
        for server in self.servers:
            server.kill()
            server.wait()
        self.servers = []
        for name in os.listdir(self.folder):
            if name not in ('socket',):
                os.remove(self.path(name))
        keys = [(f'k{place}', self.random.choice(list(TARGETS))) for place in range(self.random.randint(1, 9))]
        names = [name for name, _ in keys]
        port = self.serve()
        self.behind.port = port
        limit = self.random.choice(('1', '2', '5', '8', '10000', '10000', '10000'))
        batch = str(self.random.choice((1, 2, 8)))
        self.run('progress', keys, '--socket', self.socket, '--limit', limit)
        with open(self.path('progress')) as file:
            known = {line.split()[0]: line.split()[-1] != '-' for line in file if not line.startswith(('kmip-progress', 'end'))}
        change = CHANGES[number % len(CHANGES)]
        self.behind.port = self.changed(change, port, keys)
        before = objects_of(self.behind.port, names)
        status, printed, told = self.run('progress', keys, '--socket', self.socket, '--refresh', '--batch', batch)
        after = objects_of(self.behind.port, names)
        contradicted = printed.startswith('progress of another server')
        faults = []
        if any(len(found) > 1 for found in after.values()):
            faults.append('a name has two objects')
        if contradicted and after != before:
            faults.append('a contradicted server has changed')
        at_target = {name: [state for _, state in after[name]] == [TARGETS[target]] for name, target in keys}
        gone = {name for name, target in keys if TARGETS[target] == DESTROYED and not before[name] and known.get(name)}
        for line in printed.splitlines():
            words = line.split()
            if words[-1:] == ['finished'] and words[0] in at_target and not at_target[words[0]] and words[0] not in gone:
                faults.append(f'{words[0]} is not finished')
        if status == 0 and not all(at_target[name] or name in gone for name in names):
            faults.append('0, and not all is finished')
        lost = [name for name in names if known.get(name) and not before[name]]
        if lost and not gone.issuperset(lost) and not contradicted:
            faults.append(f'the server has lost {lost}, and does not contradict')
        if any(known.get(name) and not before[name] and after[name] for name in names):
            faults.append('a key was made anew')
        if change == 'nothing' and (contradicted or status):
            faults.append('the server is as the file says')
        if faults:
            self.wrong += 1
            print(f'case {number}, {change}, limit {limit}, batch {batch}: {"; ".join(faults)}\n{keys}\n{before}\n{after}\n'
                  f'{status} {printed}{told}', flush=True)
        kind = 'contradicted' if contradicted else 'finished' if status == 0 else 'not finished'
        self.counts[kind] = self.counts.get(kind, 0) + 1

    def end(self):
        for server in self.servers:
            server.kill()
            server.wait()


def main():
    program, folder = map(os.path.realpath, sys.argv[1:3])
    cases = int(sys.argv[3]) if len(sys.argv) > 3 else 140
    trial = Refreshed(program, folder, int(sys.argv[4]) if len(sys.argv) > 4 else 1)
    try:
        for number in range(cases):
            trial.case(number)
    finally:
        trial.end()
    counts = ', '.join(f'{count} {kind}' for kind, count in sorted(trial.counts.items()))
    print(f'{cases} cases ({counts}): {trial.wrong} wrong')
    return 1 if trial.wrong else 0


if __name__ == '__main__':
    sys.exit(main())
