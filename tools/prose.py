#!/usr/bin/env python3
"""Long sentences, long lines and long documents.

    tools/prose.py [DOCUMENT..]

Prints what is over the limits in these documents, or in all of the repository, with a line of counts for each.
The exit status is 1 where something is. `make documents` asks the same of all but those of NOT_REWRITTEN.

A sentence ends at one of `.!?:;` that a space follows, and at the end of its line or its cell of a table.
Fenced and indented blocks have no sentences; an indented line may have any length, and one that is fenced too.
What a tool made is left out: the lines from `<!-- made by ..` to `<!-- end of what is made -->`.
"""
import pathlib
import re
import sys

sys.dont_write_bytecode = True

MOST_WORDS, MOST_CHARACTERS = 35, 600

# The most that a document may have: bytes, and lines where they are limited.
SIZES = {
    'README.md': (10_000, 170),
    'CHANGELOG.md': (4_000, None),
    'CONTRIBUTING.md': (13_200, None),
    'SECURITY.md': (3_400, None),
    'docs/ARCHITECTURE.md': (13_100, None),
    'docs/AUTOMATION.md': (6_000, None),
    'docs/COMMANDS.md': (24_000, None),
    'docs/DECISIONS.md': (16_000, None),
    'docs/INSTALLING.md': (6_500, None),
    'docs/MEASURED.md': (12_000, None),
    'docs/MISTAKES.md': (11_500, None),
    'docs/OPERATING.md': (19_000, None),
    'docs/PROFILE.md': (12_000, None),
    'docs/PROOF-GUIDE.md': (18_000, None),
    'docs/PROOF.md': (15_500, None),
    'docs/SERVERS.md': (3_000, None),
    'docs/TESTING.md': (9_300, None),
}

# What is over the limits and is only reported, with the reason. Who rewrites a document takes its line away.
NOT_REWRITTEN = {}

FENCED = re.compile(r'```.*?```', re.S)
MADE = re.compile(r'^<!-- made by .*?^<!-- end of what is made -->\n', re.M | re.S)


def documents():
    """The documents of the repository, those at its top first."""
    return sorted(pathlib.Path().glob('*.md')) + sorted(pathlib.Path('docs').glob('*.md'))


def without_fences(text):
    """The text with empty lines in the place of its fenced blocks."""
    return emptied(FENCED, text)


def emptied(blocks, text):
    """The text with empty lines in the place of these blocks."""
    return blocks.sub(lambda block: '\n' * block.group().count('\n'), text)


def faults_of(text):
    """The long lines and sentences of a document: each with the number of its line."""
    for number, line in enumerate(emptied(MADE, without_fences(text)).split('\n'), 1):
        if line.startswith('    '):
            continue
        if len(line) > MOST_CHARACTERS:
            yield number, f'a line of {len(line)} characters'
        for part in line.strip('|').split('|') if line.startswith('|') else [line]:
            for sentence in sentences(part):
                words = len(sentence.split())
                if words > MOST_WORDS:
                    yield number, f'{words} words: {sentence[:60]} ..'


def sentences(text):
    """The sentences of a text of one line."""
    return re.split(r'(?<=[.!?:;])\s+', text)


def size_of(text):
    """How many bytes and lines a document has by hand."""
    by_hand = MADE.sub('', text)
    return len(by_hand.encode()), by_hand.count('\n')


def size_faults(path, text):
    """Where the document is longer than its place in the table allows, or has none."""
    if path.as_posix() not in SIZES:
        return ['no size is set for it (SIZES of tools/prose.py)']
    (size, lines), (most_size, most_lines) = size_of(text), SIZES[path.as_posix()]
    faults = [f'{size} bytes, and at most {most_size} are allowed'] if size > most_size else []
    if most_lines and lines > most_lines:
        faults.append(f'{lines} lines, and at most {most_lines} are allowed')
    return faults


def all_faults(path):
    text = path.read_text()
    return [f'{path}: {fault}' for fault in size_faults(path, text)] + \
        [f'{path}:{number}: {fault}' for number, fault in faults_of(text)]


def check_prose():
    """Prints what is over the limits, a line alone of a document that is not rewritten yet; returns how many count."""
    faults, there = 0, set()
    for path in documents():
        found, name = all_faults(path), path.as_posix()
        there.add(name)
        if name in NOT_REWRITTEN and found:
            print(f'{path}: {NOT_REWRITTEN[name]}: {size_of(path.read_text())[0]} bytes, {len(found)} over the limits')
            continue
        if name in NOT_REWRITTEN:
            found = [f'{path}: nothing is over the limits: take its line out of NOT_REWRITTEN of tools/prose.py']
        faults += len(found)
        for fault in found:
            print(fault)
    for name in sorted(set(NOT_REWRITTEN) - there):
        faults += 1
        print(f'{name}: it is not there: take its line out of NOT_REWRITTEN of tools/prose.py')
    return faults


def main(words):
    total = 0
    for path in [pathlib.Path(word) for word in words] or documents():
        text, found = path.read_text(), all_faults(path)
        total += len(found)
        for fault in found:
            print(fault)
        print(f'{path}: {len(text.encode())} bytes, {len(text.split())} words, {len(found)} to look at')
    print(f'{total} to look at')
    return 1 if total else 0


if __name__ == '__main__':
    sys.exit(main(sys.argv[1:]))
