#!/usr/bin/env python3
"""Probes PyKMIP's engine, a server that others wrote, and carries a plan out against it.

    bench/pykmip.py PROGRAM OUT

It needs Debian's python3-pykmip. What the program says of the engine is compared with what stands in the engine's
own database, which sqlite3 reads. docs/SERVERS.md has the results. The exit status is 0 where nothing is wrong.
"""
import os
import shutil
import sqlite3
import subprocess
import sys
import tomllib

HERE = os.path.dirname(os.path.realpath(__file__))
PLAN = os.path.join(HERE, '..', 'examples', 'plan.toml')
# The states of KMIP 2.1, Object Attributes, State, by the target that they belong to.
STATES = {'created': 1, 'active': 2, 'revoked': 3}
UNREADABLE = "the server's reply can't be read (Version: it answers in KMIP 1.0): "


class Engine:
    """A server of the engine, with a database of its own."""

    def __init__(self, folder, *words):
        self.database = os.path.join(folder, 'objects')
        self.server = subprocess.Popen(['/usr/bin/python3', os.path.join(HERE, 'pykmip_server.py'), self.database, *words],
                                       stdout=subprocess.PIPE, stderr=subprocess.DEVNULL, text=True)
        self.address = '127.0.0.1:' + self.server.stdout.readline().split()[1]

    def objects(self):
        """The name and the state of each object that the engine has, by its identifier."""
        with sqlite3.connect(self.database) as database:
            return {str(uid): (name, state) for uid, name, state in database.execute(
                'select o.uid, n.name, c.state from managed_objects o join managed_object_names n on n.mo_uid = o.uid '
                'join crypto_objects c on c.uid = o.uid')}

    def end(self):
        self.server.kill()
        self.server.wait()
        self.server.stdout.close()


class Trial:
    def __init__(self, program, folder):
        self.program, self.folder = program, folder
        self.rows, self.wrong = 0, 0

    def engine(self, *words):
        """A server with no object."""
        shutil.rmtree(self.folder, ignore_errors=True)
        os.makedirs(self.folder)
        return Engine(self.folder, *words)

    def run(self, *words):
        """The lines that the program prints, and its status."""
        done = subprocess.run([self.program, *words, '--give-up', '10'] if words[0] != 'probe' else [self.program, *words],
                              cwd=self.folder, stdin=subprocess.DEVNULL, capture_output=True, text=True, timeout=120)
        return done.stdout.splitlines(), done.returncode

    def look(self, what, found, wanted):
        print(f'{what}: {"ok" if found == wanted else "wrong"}')
        if found != wanted:
            print(f'    {found!r}\n    in the place of {wanted!r}')
        self.rows += 1
        self.wrong += found != wanted

    def as_it_is(self):
        """An engine that speaks no KMIP 2.1 is told as such, and nothing is made."""
        engine = self.engine()
        lines, status = self.run('probe', '--name-prefix', 'p', '--connect', engine.address)
        self.look('as it is: it answers in another version', (lines[0].startswith(UNREADABLE), status), (True, 1))
        self.look('as it is: it has no object', engine.objects(), {})
        engine.end()

    def probed(self):
        """Each rule that is told as broken is broken in the database."""
        engine = self.engine('--raised')
        lines, status = self.run('probe', '--name-prefix', 'p', '--connect', engine.address)
        told = dict(line.split(': ', 1) for line in lines if ': ' in line)
        self.look('raised: the promise does not hold', (lines[-1], status), ('the promise does not hold here', 1))
        for rule in ('names are unique', 'names stay used after Destroy'):
            uid = told[rule].removeprefix('no (a second object ').removesuffix(' was made)')
            self.look(f'raised: {rule}: no', engine.objects().get(uid, ('', 0))[0], 'p-1')
        self.look('raised: Locate finds destroyed objects', told['Locate finds destroyed objects'][:2], 'no')
        for rule in ('a step made twice changes nothing', 'an active object is not destroyed', 'the batch id is echoed',
                     'Locate finds objects by their names', 'Get Attributes tells all six attributes'):
            self.look(f'raised: {rule}', told[rule], 'yes')
        engine.end()

    def carried_out(self):
        """Each key that is told as finished has one object in its state, or none once it is destroyed."""
        engine = self.engine('--raised')
        lines, status = self.run('run', '--plan', PLAN, '--progress', 'progress', '--connect', engine.address, '--wait', '1')
        with open(PLAN, 'rb') as plan:
            keys = {key['name']: key for key in tomllib.load(plan)['key']}
        told = {line.split()[0]: line.split()[-1] for line in lines if line.split()[0] in keys}
        for name, key in keys.items():
            if key['algorithm'] == 'HMAC-SHA256':
                self.look(f'run: {name} is refused', told[name], 'working')
                continue
            wanted = [STATES[key['target']]] if key['target'] in STATES else []
            found = [state for named, state in engine.objects().values() if named == name]
            self.look(f'run: {name} is finished', (told[name], found), ('finished', wanted))
        self.look('run: not all is finished', status, 1)
        engine.end()


def main():
    trial = Trial(os.path.realpath(sys.argv[1]), os.path.realpath(sys.argv[2]))
    trial.as_it_is()
    trial.probed()
    trial.carried_out()
    print(f'{trial.rows} rows, {trial.wrong} wrong')
    return 1 if trial.wrong else 0


if __name__ == '__main__':
    sys.exit(main())
