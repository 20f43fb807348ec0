"""Counts that the documents name, in words or in digits, compared with what is counted in the sources."""
import operator
import re

import man_pages
from prose import documents, without_fences
from sources import CRATES

NUMBERS = ('zero one two three four five six seven eight nine ten eleven twelve thirteen fourteen fifteen sixteen '
           'seventeen eighteen nineteen twenty').split()
NUMBER = r'(\d+|' + '|'.join(NUMBERS) + r')'


def commands():
    return len(man_pages.Texts().commands)


def commands_with_json():
    return sum(any(option.word == 'json' for option in command.options) for command in man_pages.Texts().commands)


def most_edits():
    """How many edits the crate has that has most of them."""
    return max((len(list(folder.glob('*.edit'))) for folder in CRATES.glob('*/must-fail')), default=0)


# What a document says, how it is counted, and how the number that it says has to compare with the count.
COUNTED = [
    (re.compile(rf'\b{NUMBER} commands\b', re.I), commands, operator.eq),
    (re.compile(rf'`--json`,? {NUMBER} of (?:them|the commands)\b', re.I), commands_with_json, operator.eq),
    (re.compile(rf'\babout {NUMBER} (?:edits )?a crate\b', re.I), most_edits, operator.ge),
]


def value_of(word):
    return int(word) if word.isdigit() else NUMBERS.index(word.lower())


def check_counts():
    """Prints each count of a document that is not so, and returns how many there are."""
    faults, known = 0, {}
    for document in documents():
        for number, line in enumerate(without_fences(document.read_text()).splitlines(), 1):
            for pattern, count, fits in COUNTED:
                for found in pattern.finditer(line):
                    if count not in known:
                        known[count] = count()
                    if not fits(value_of(found.group(1)), known[count]):
                        faults += 1
                        print(f'{document}:{number}: "{found.group()}", and there are {known[count]}')
    return faults
