#!/usr/bin/env python3
"""Prints the processor time of `kmipctl check`, `look` and `probe`, for a plan of 1,000 keys.

    bench/commands.py PROGRAM OUT

Each time is the least of seven runs. With `--loopback` it has that of the server in the same process. A probe has two
keys of its own, and no plan. The exit status is 1 where a command ends in another way than it has to.
"""
import os
import sys

sys.dont_write_bytecode = True

from measuring import KEYS, RUNS, Server, least, note_aim, remove_progress, run, write_plan

# How many milliseconds of processor a look at all keys may take.
LOOK_AIM = 60


def main():
    program, out = os.path.realpath(sys.argv[1]), sys.argv[2]
    told, progress = os.path.join(out, 'told'), os.path.join(out, 'commands.progress')
    plan = ['--plan', write_plan(os.path.join(out, 'plan.toml'), KEYS)]

    def tell(what, *words, wanted=0):
        took = least([run([program, *words], told, wanted=wanted) for _ in range(RUNS)])
        print(f'{what}: {took.processor:.1f} ms of processor', flush=True)
        return took.processor

    tell(f'check, {KEYS:,} keys', 'check', *plan)
    tell(f'look --loopback, {KEYS:,} keys, none there', 'look', *plan, '--loopback', wanted=1)
    # The server is for more connections than are needed, and is stopped at the end.
    with Server([program, 'serve', '--port', '0', '--connections', '1000000']) as server:
        address = ['--connect', f'127.0.0.1:{server.port}']
        remove_progress(progress)
        run([program, 'run', *plan, '--progress', progress, *address], told)
        look = tell(f'look, {KEYS:,} keys, all there', 'look', *plan, *address)
        note_aim(out, f'look at {KEYS:,} keys: ms of processor', f'{look:.0f}', LOOK_AIM)
    tell('probe --loopback, two keys', 'probe', '--name-prefix', 'probe', '--loopback')


if __name__ == '__main__':
    main()
