"""Which tests and rows exercise a public call, by the names in the sources.

A test or a driver of rows exercises what it names, and what that names in turn. A name is looked for in the crate
itself and in those below it: `Type::name` at this type, `.name(` at each type, and a name alone among functions. So
more may be found than is called, and what is not found is called by none.

A row exercises what the driver does for the first words of its calls: what is named in an arm of a `match` on that
word, or behind a test for it, and what that names in turn.
"""
import collections
import re

from row_files import crates_with_rows, files_of, rows_in
from sources import CRATES

START = re.compile(r'(\s*)(?:pub(?:\(crate\))? )?(?:const )?fn (\w+)')
OWNER = re.compile(r'(?:impl|(?:pub(?:\(crate\))? )?trait)\b(?:<[^{]*?>)?.*?(\w+)(?:<[^{]*>)? \{$')
ARM = re.compile(r'(\s*)((?:"[^"]*"(?: \| )?)+) => (.*)$')
BEGINS = re.compile(r'(?:starts_with|strip_prefix)\("([^"]+) "\)')
USED = re.compile(r'(?:\b([A-Z]\w*)(?:::<[^()]*?>)?::)?(\.?)\b([a-z_]\w*)\b')


class Body:
    """A function with its body: its crate, file, owner and name, whether it is a test, and what it names."""

    def __init__(self, crate, module, owner, name, is_test):
        self.crate, self.module, self.owner, self.name, self.is_test = crate, module, owner, name, is_test
        self.used, self.arms = set(), []

    def path(self):
        return f'{self.crate}::{self.module}::{self.name}'


def bodies_of(crate):
    """The functions of a crate with what their bodies name."""
    found = []
    for path in sorted((CRATES / crate / 'src').glob('*.rt')):
        lines, owner, is_test = path.read_text().splitlines(), None, False
        for number, line in enumerate(lines):
            opened, start = OWNER.match(line), START.match(line)
            owner = opened.group(1) if opened else None if line == '}' else owner
            if start:
                body = Body(crate, path.stem, owner, start.group(2), is_test)
                end = next((at for at in range(number + 1, len(lines)) if lines[at] == start.group(1) + '}'), number)
                text = '\n'.join(re.sub(r'//.*', '', it) for it in lines[number:end])
                body.used = set(USED.findall(text.replace(f'fn {body.name}', '', 1)))
                body.arms = arms_in(text.splitlines()) if crate.startswith('rows_') else []
                found.append(body)
            is_test = line.strip() == '#[test]' or is_test and line.strip().startswith('#[')
    return found


def arms_in(lines):
    """What the lines of a body name for a word, each as the word and the names."""
    arms = []
    for number, line in enumerate(lines):
        if arm := ARM.match(line):
            last = number
            if arm.group(3) == '{':
                last = next((at for at in range(number, len(lines)) if lines[at] == arm.group(1) + '}'), number)
            used = set(USED.findall('\n'.join([arm.group(3), *lines[number + 1:last]])))
            arms += [(word, used) for word in re.findall(r'"([^"]*)"', arm.group(2))]
        for word in BEGINS.findall(line):
            arms.append((word.split()[0], set(USED.findall('\n'.join(lines[number:number + 4])))))
    return arms


def rows_by_word(crate):
    """For each word with which a call of the rows of a crate begins, the rows that have one, by file and name."""
    found = collections.defaultdict(list)
    for path in files_of(crate):
        for row in rows_in(path):
            for word in {call.head.split()[0] for call in row.calls}:
                found[word].append(f'{path.name}: {row.name}')
    return found


def below(repository):
    """For each crate itself and those below it, by crates.txt."""
    direct = {}
    for line in (CRATES.parent / 'crates.txt').read_text().splitlines():
        name, _, others = line.partition('#')[0].partition(':')
        if name.strip():
            direct[name.split()[0]] = others.split()
    reached = {}

    def reach(crate):
        if crate not in reached:
            reached[crate] = {crate}.union(*(reach(other) for other in direct.get(crate, []) if other in direct))
        return reached[crate]
    return {crate: reach(crate) for crate in direct}


class Exercised:
    """For each public call the tests and the drivers of rows that name it, or from which it is reached."""

    def __init__(self, repository):
        self.below = below(repository)
        self.bodies = {crate: bodies_of(crate) for crate in self.below}
        self.named = collections.defaultdict(list)
        for bodies in self.bodies.values():
            for body in bodies:
                self.named[body.name].append(body)
        self.direct = collections.defaultdict(set)
        self.reached = collections.defaultdict(set)
        self.rows = collections.defaultdict(dict)
        self.follow_rows()
        for body in [one for bodies in self.bodies.values() for one in bodies]:
            if body.is_test or body.crate.startswith(('test_', 'rows_')) or body.name == 'main':
                self.follow(body)

    def called(self, body, used=None):
        """The functions that a body may call, or that it may call by these names."""
        for owner, dot, name in body.used if used is None else used:
            for one in self.named.get(name, ()):
                # A parameter, as `F`, may be any type, as `Self` may.
                is_type = owner and owner != 'Self' and len(owner) > 1
                fits = one.owner == owner if is_type else (one.owner is not None) == bool(dot or owner)
                if fits and one.crate in self.below[body.crate]:
                    yield one

    def follow_rows(self):
        """Notes for each function the words of rows from which it is reached, each with how many calls lie between, and
        its rows."""
        for program in filter(self.below.get, crates_with_rows()):
            drivers = [body for crate in self.below[program] for body in self.bodies[crate] if body.arms]
            for word, rows in rows_by_word(program).items():
                level = {one for body in drivers for arm, used in body.arms if arm == word
                         for one in self.called(body, used)}
                seen, depth = set(), 0
                while level:
                    seen |= level
                    for one in level:
                        self.rows[one][f'{program} {word}'] = (depth, rows)
                    level = {other for one in level for other in self.called(one)} - seen
                    depth += 1

    def follow(self, root):
        """Notes what a root calls, and what is reached from it."""
        kind = 'rows' if root.crate.startswith('rows_') else 'tests'
        for one in self.called(root):
            if one.crate != root.crate:
                self.direct[one].add(root.path())
        waiting, seen = [root], {root}
        while waiting:
            for one in self.called(waiting.pop()):
                if one not in seen:
                    seen.add(one)
                    waiting.append(one)
                    self.reached[one].add(kind)

    def of(self, function):
        """The tests and drivers that name a public call, the kinds of those from which it is reached, and the rows by
        the words from which it is."""
        crate, *_, name = function.path.split('::')
        owner = re.match(r'\w+::([A-Z]\w*)::', function.path)
        found = [one for one in self.named.get(name, ()) if one.crate == crate and one.module == function.file.stem
                 and (one.owner == owner.group(1) if owner else one.owner is None)]
        direct = sorted(set().union(*(self.direct[one] for one in found)))
        rows = {word: rows for one in found for word, rows in self.rows[one].items()}
        return direct, sorted(set().union(*(self.reached[one] for one in found))), rows
