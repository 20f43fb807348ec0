#!/usr/bin/env python3
"""Sets `kmipctl run` and `kmipctl serve` beside a plain loop over sockets of the same bytes, bench/sockets.rs.

    bench/sockets.py PROGRAM OUT

OUT is a folder that has `sockets`, as bench/bench.sh builds it. First a relay records what a run of 1,000 keys and a
server say to each other. Then `run` and a plain client ask a plain server, which answers what was recorded. At last
the plain client asks `kmipctl serve`, and the plain server. In each comparison the programs take turns, and the least
time of each counts. Processor times are of the client, or of the server, alone. The wall time is that of the client,
from its start to its end, with all that it waits for.

`run` writes its progress after each exchange that teaches something. To see it without waits for the disk, its file
lies on a tmpfs, and then on the disk. A second plain client writes texts of the same sizes as often, to the same
place. The first one writes none, so no aim stands for it.

The exit status is 1 where a run against the plain server does not finish all keys in as many exchanges, or a reply of
`serve` is another one than before. It is 0 whatever the times are.
"""
import contextlib
import os
import sys
import tempfile

sys.dont_write_bytecode = True

from measuring import KEYS, RUNS, Server, Spent, fail, least, note_aim, ratio, remove_progress, run, write_plan

EXCHANGES = 3 * KEYS
# How much more a run may take than a plain client that writes as many texts: of processor, and of time.
AIMS = {'a tmpfs': (1.5, 1.3), 'the disk': (1.3, 1.1)}
# How much longer than the plain server ours may take, the waits included.
SERVE_AIM = 1.0
# A run over the disk takes seconds.
DISK_RUNS = 3
TMPFS = '/dev/shm'


class Sockets:
    def __init__(self, program, out):
        self.program, self.out = os.path.realpath(program), out
        self.plain, self.told, self.recording = (os.path.join(out, name) for name in ('sockets', 'told', 'recording'))
        self.plan = write_plan(os.path.join(out, 'plan.toml'), KEYS)
        self.sizes = []

    def serve(self):
        """Our server, for one connection."""
        return Server([self.program, 'serve', '--port', '0', '--connections', '1'])

    def plain_server(self):
        return Server([self.plain, 'server', self.recording])

    def run_at(self, port, folder, *more, stop=f'stop AllFinished {EXCHANGES}', wanted=0):
        """What a run takes that begins with nothing, at this port, with its progress in this folder."""
        remove_progress(progress_in(folder))
        words = [self.program, 'run', '--plan', self.plan, '--progress', progress_in(folder),
                 '--connect', f'127.0.0.1:{port}', '--give-up', '10', *more]
        took = run(words, self.told, wanted=wanted)
        with open(self.told) as told:
            last = told.read().splitlines()[-1:]
        if last != [stop]:
            fail(words, f'its last line is {last}, and not: {stop}')
        return took

    def client_at(self, port, *texts):
        """What the plain client takes at this port; with texts it writes them too."""
        return run([self.plain, 'client', port, self.recording, *texts], self.told)

    def record(self, folder):
        """Records what a run and our server say to each other, and the sizes of the first and the last text of the run."""
        with self.serve() as server, Server([self.plain, 'record', server.port, self.recording]) as relay:
            self.run_at(relay.port, folder)
            relay.end()
            server.end()
        last = os.path.getsize(progress_in(folder))
        self.at_plain_server(lambda port: self.run_at(port, folder, '--limit', '1', stop='stop Limit 1', wanted=1))
        self.sizes = [str(os.path.getsize(progress_in(folder))), str(last)]
        remove_progress(progress_in(folder))

    def at_plain_server(self, ask):
        """What a client takes that asks a new plain server."""
        with self.plain_server() as server:
            took = ask(server.port)
            server.end()
        return took

    def compare_runs(self, where, folder, runs):
        """Prints what a run takes with its progress in this folder, beside a plain client without texts and one with them."""
        path = progress_in(folder)
        ours, bare, writing = [], [], []
        for _ in range(runs):
            ours.append(self.at_plain_server(lambda port: self.run_at(port, folder)))
            bare.append(self.at_plain_server(self.client_at))
            remove_progress(path)
            writing.append(self.at_plain_server(lambda port: self.client_at(port, path, *self.sizes)))
        remove_progress(path)
        head = f'run of {KEYS:,} keys, {EXCHANGES} exchanges, progress on {where}'
        tell(f'{head}, beside a plain client', ours, bare)
        processor, wall = tell(f'{head}, beside a plain client that writes as many texts', ours, writing)
        note_aim(self.out, f'run of {KEYS:,} keys, progress on {where}: processor, by a plain client', processor, AIMS[where][0])
        note_aim(self.out, f'run of {KEYS:,} keys, progress on {where}: time, by a plain client', wall, AIMS[where][1])

    def compare_serve(self):
        """Prints what our server takes for the plain client, beside the plain server."""
        ours, theirs = [], []
        for _ in range(RUNS):
            for new, took in (self.serve, ours), (self.plain_server, theirs):
                with new() as server:
                    client = self.client_at(server.port)
                    took.append(Spent(server.end().processor, client.wall))
        _, wall = tell(f'serve, {EXCHANGES} exchanges, beside a plain server', ours, theirs)
        note_aim(self.out, 'serve: time, by a plain server', wall, SERVE_AIM)


def progress_in(folder):
    return os.path.join(folder, 'sockets.progress')


def tell(what, ours, theirs):
    """Prints the least processor time and the least wall time of our runs, and of those of the plain program. Returns
    the two ratios."""
    ours, theirs = least(ours), least(theirs)
    processor, wall = ratio(ours.processor, theirs.processor), ratio(ours.wall, theirs.wall)
    print(f'{what}: processor {ours.processor:.1f} ms, plain {theirs.processor:.1f} ms, ratio {processor}; '
          f'wall {ours.wall:.1f} ms, plain {theirs.wall:.1f} ms, ratio {wall}', flush=True)
    return processor, wall


@contextlib.contextmanager
def folder_on_tmpfs():
    """A folder on a tmpfs, for some time; none where the machine has no tmpfs that one can write to."""
    with open('/proc/mounts') as mounts:
        is_there = any(line.split()[1:3] == [TMPFS, 'tmpfs'] for line in mounts)
    if is_there and os.access(TMPFS, os.W_OK):
        with tempfile.TemporaryDirectory(dir=TMPFS) as folder:
            yield folder
    else:
        yield None


def main():
    sockets = Sockets(*sys.argv[1:])
    with folder_on_tmpfs() as folder:
        sockets.record(folder or sockets.out)
        if folder:
            sockets.compare_runs('a tmpfs', folder, RUNS)
        else:
            print(f'no tmpfs is at {TMPFS}, so no run is measured without waits for the disk')
    sockets.compare_runs('the disk', sockets.out, DISK_RUNS)
    sockets.compare_serve()


if __name__ == '__main__':
    main()
