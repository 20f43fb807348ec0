#!/usr/bin/env python3
"""Runs the examples of the documents, and compares what they print with what stands below them.

    tools/examples.py [PROGRAM [DOCUMENT..]]

It runs at the top of the repository (`make examples` does). The documents are README.md and docs/*.md unless
some are named. An example is a line that begins with `$ `, in an indented or a fenced block. What it prints on
standard output stands below it, up to the next `$ ` or the end of the block:

    $ kmipctl check --plan plan.toml
    plan refused: 3 NoKeys
    exit status 1

- `...` alone in a line stands for any lines, none included.
- `exit status N` as the last line wants that status; where no such line stands, any status will do.
- Standard error is not compared: a command that is to show it ends with `2>&1`.
- Lines that begin with `> ` directly below the command continue it.
- A command that begins with a word of NOT_RUN is listed and not run.
- A fenced block right below a line `<!-- $ COMMAND -->` is all that this command prints, as a diagram is.

The examples of a document run in their order, in a scratch folder of its own: a copy of examples/ and of the
files that the commands name, with PROGRAM as `kmipctl` on the path. There `/tmp/` is a folder of that scratch
too. The last line is `N examples, M wrong`, and the exit status 1 where one is.
"""
import difflib
import os
import pathlib
import re
import shutil
import signal
import subprocess
import sys
import tempfile

sys.dont_write_bytecode = True

PROGRAM = 'crates/kmipctl/out/kmipctl'
NOT_RUN = 'apt-get', 'cd', 'git', 'make', 'rt', 'sudo'
SECONDS = 60


PRINTED = re.compile(r'^<!-- \$ (.+) -->\n(```+)[^\n]*\n(.*?)^\2$', re.M | re.S)


class Example:
    """A command with the line that it stands in, and what it is to print."""

    def __init__(self, line, command):
        self.line, self.command, self.wanted, self.status = line, command, [], None

    def close(self):
        """Takes the exit status from the wanted lines, and the empty lines behind them away."""
        self.wanted = without_end(self.wanted)
        told = re.fullmatch(r'exit status (\d+)', self.wanted[-1]) if self.wanted else None
        if told:
            self.status = int(told.group(1))
            self.wanted.pop()

    def is_run(self):
        return self.command.split()[0] not in NOT_RUN


def without_end(lines):
    lines = list(lines)
    while lines and not lines[-1].strip():
        lines.pop()
    return lines


def blocks_of(text):
    """The indented and fenced blocks of a document: each a list of line numbers with lines."""
    block, fence = [], None
    for number, line in enumerate(text.splitlines(), 1):
        mark = re.match(r' {0,3}(```+|~~~+)', line)
        if fence:
            if mark and line.strip() == fence:
                yield block
                block, fence = [], None
            else:
                block.append((number, line))
        elif mark or line.strip() and not line.startswith('    '):
            yield block
            block, fence = [], mark.group(1) if mark else None
        elif line.startswith('    '):
            block.append((number, line[4:]))
        elif block:
            block.append((number, ''))
    yield block


def examples_of(text):
    """The examples of a document, in their order."""
    found = []
    for block in blocks_of(text):
        current = None
        for number, line in block:
            if line.startswith('$ ') and line[2:].strip():
                current = Example(number, line[2:])
                found.append(current)
            elif current and line.startswith('> ') and not current.wanted:
                current.command += '\n' + line[2:]
            elif current:
                current.wanted.append(line)
    for block in PRINTED.finditer(text):
        example = Example(text.count('\n', 0, block.start()) + 1, block.group(1))
        example.wanted = block.group(3).splitlines()
        found.append(example)
    found.sort(key=lambda example: example.line)
    for example in found:
        example.close()
    return found


def fits(wanted, got):
    """Whether the lines are those that are wanted, where `...` is any lines."""
    pattern = ''.join(r'(?:.*\n)*?' if line == '...' else re.escape(line) + r'\n' for line in wanted)
    return re.fullmatch(pattern, ''.join(line + '\n' for line in got)) is not None


class Stage:
    """A scratch folder, in which the examples of one document run."""

    def __init__(self, folder, program):
        self.folder = pathlib.Path(os.path.realpath(folder))
        self.work, self.temporary, bin = self.folder / 'work', self.folder / 'tmp', self.folder / 'bin'
        self.program = pathlib.Path(program).resolve()
        for each in self.work, self.temporary, bin:
            each.mkdir()
        (bin / 'kmipctl').symlink_to(self.program)
        self.around = dict(os.environ, PATH=f'{bin}:{os.environ["PATH"]}', HOME=str(self.temporary),
                           LC_ALL='C.UTF-8', TZ='UTC')
        if pathlib.Path('examples').is_dir():
            shutil.copytree('examples', self.work / 'examples')

    def bring(self, command):
        """Copies the files of the repository that the command names and that are not there yet."""
        for name in re.findall(r'[\w.-]+(?:/[\w.-]+)*', command):
            source, place = pathlib.Path(name), self.work / name
            if place.exists() or '..' in source.parts or not (name == PROGRAM or source.exists()):
                continue
            place.parent.mkdir(parents=True, exist_ok=True)
            if name == PROGRAM:
                place.symlink_to(self.program)
            elif source.is_file():
                shutil.copy(source, place)
            elif source.parts:
                shutil.copytree(source, place, ignore=shutil.ignore_patterns('out', '.git'))

    def run(self, command):
        """What the command prints, and its exit status; no status where it takes too long."""
        self.bring(command)
        command = re.sub(r'(?<![\w./-])/tmp/', f'{self.temporary}/', command)
        running = subprocess.Popen(['sh', '-c', command], cwd=self.work, env=self.around, text=True,
                                   errors='replace', stdin=subprocess.DEVNULL, stdout=subprocess.PIPE,
                                   stderr=subprocess.DEVNULL, start_new_session=True)
        try:
            printed, _ = running.communicate(timeout=SECONDS)
            status = running.returncode
        except subprocess.TimeoutExpired:
            os.killpg(running.pid, signal.SIGKILL)
            printed, _ = running.communicate()
            status = None
        return printed.replace(f'{self.temporary}/', '/tmp/').splitlines(), status


def check_example(path, example, stage):
    """Runs an example, prints where it is wrong, and returns whether it is right."""
    got, status = stage.run(example.command)
    got = without_end(got)
    right = fits(example.wanted, got)
    if status is None or example.status not in (None, status) or not right:
        print(f'{path}:{example.line}: wrong: {example.command}')
        if not right:
            print('\n'.join(list(difflib.unified_diff(example.wanted, got, 'wanted', 'got', lineterm=''))))
        if status is None:
            print(f'it took over {SECONDS} s')
        elif example.status not in (None, status):
            print(f'wanted exit status {example.status}, got {status}')
        return False
    return True


def check_documents(program, paths):
    """Runs the examples of these documents, and returns the exit status."""
    count = wrong = left = 0
    for path in paths:
        with tempfile.TemporaryDirectory() as folder:
            stage = Stage(folder, program)
            for example in examples_of(path.read_text()):
                if not example.is_run():
                    left += 1
                    print(f'{path}:{example.line}: not run: {example.command}')
                    continue
                count += 1
                wrong += not check_example(path, example, stage)
    print(f'{count} examples, {wrong} wrong' + (f', {left} not run' if left else ''))
    return 1 if wrong else 0


def main(words):
    program = words[0] if words else PROGRAM
    if not os.access(program, os.X_OK):
        print(f'there is no program {program}; make builds it')
        return 1
    paths = [pathlib.Path(word) for word in words[1:]]
    return check_documents(program, paths or [pathlib.Path('README.md')] + sorted(pathlib.Path('docs').glob('*.md')))


if __name__ == '__main__':
    sys.exit(main(sys.argv[1:]))
