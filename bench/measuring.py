"""What the measurements of bench/ in Python share: programs that are run, what they spend, and plans."""
import glob
import os
import re
import subprocess
import time
from dataclasses import dataclass

# The least of so many runs counts.
RUNS = 7
KEYS = 1000
KEY = '''[[key]]
name = "k{}"
algorithm = "AES"
length = 256
usage = ["encrypt", "decrypt"]
target = "active"

'''


@dataclass(frozen=True)
class Spent:
    """The milliseconds of processor that a program took, the system's included, and those from its start to its end."""

    processor: float
    wall: float


def least(runs):
    """The least of each of both, among some runs."""
    return Spent(min(one.processor for one in runs), min(one.wall for one in runs))


def fail(words, why):
    raise SystemExit(f'{" ".join(words)}: {why}')


def ended(process, begun, wanted=0):
    """What a program took that began at this time, once it has ended; with another exit status all ends here."""
    _, status, usage = os.wait4(process.pid, 0)
    wall = time.monotonic() - begun
    process.returncode = os.waitstatus_to_exitcode(status)
    if process.returncode != wanted:
        fail(process.args, f'exit status {process.returncode}')
    return Spent(1000 * (usage.ru_utime + usage.ru_stime), 1000 * wall)


def run(words, told, source=os.devnull, wanted=0, **more):
    """What a program takes whose input is a file; what it prints goes to the file `told`.

    Where it has to end with a status that is not 0, what it says of that is not shown.
    """
    errors = more.pop('stderr', subprocess.DEVNULL if wanted else None)
    with open(source, 'rb') as given, open(told, 'wb') as output:
        begun = time.monotonic()
        return ended(subprocess.Popen(words, stdin=given, stdout=output, stderr=errors, **more), begun, wanted)


class Server:
    """A program that prints `listening PORT` first. At the end of its block it is stopped, if it still runs."""

    def __init__(self, words):
        self.begun = time.monotonic()
        self.process = subprocess.Popen(words, stdin=subprocess.DEVNULL, stdout=subprocess.PIPE, text=True)
        found = re.fullmatch(r'listening (\d+)\n', self.process.stdout.readline())
        if not found:
            self.process.kill()
            fail(words, 'it does not listen')
        self.port = found.group(1)

    def __enter__(self):
        return self

    def __exit__(self, *_):
        if self.process.returncode is None:
            self.process.kill()
        self.process.__exit__(None, None, None)

    def end(self):
        """What it took, once it has served its connections."""
        return ended(self.process, self.begun)


def write_plan(path, keys):
    """Writes a plan of so many keys, which are all to become active: a look and two steps each."""
    with open(path, 'w') as file:
        file.write(''.join(KEY.format(key) for key in range(1, keys + 1)))
    return path


def remove_progress(path):
    """Removes a progress file, and what stands beside it."""
    for one in glob.glob(glob.escape(path) + '*'):
        os.remove(one)


def note_aim(out, what, measured, aim):
    """Notes what was measured beside its aim, for the table at the end of bench/bench.sh."""
    with open(os.path.join(out, 'aims.tsv'), 'a') as aims:
        aims.write(f'{what}\t{measured}\t{aim}\n')


def ratio(ours, theirs):
    return f'{ours / theirs if theirs else 0:.2f}'
