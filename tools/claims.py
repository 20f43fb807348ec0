"""Sentences of the documents that rest on one place of the code, compared with that place.

CLAIMS has words that a document may have, the file that they rest on, and a text. A document that has the words needs
the text in the file. If the text stands there after `not`, the words are not so while the file has it. Whoever changes
such a place of the code is told which sentence to change. Whoever writes such a sentence adds a line.
"""
import pathlib
import re

from prose import documents, without_fences

NAMED_KEYS = 'crates/kmip_plan/src/named_keys.rt'
DOING = 'crates/kmip_program/src/doing.rt'
COURSES = 'crates/kmip_tally/specs/Courses.antt'
MACHINE_DISK = 'crates/kmip_files/src/machine_disk.rt'

# The words, the file, and the text that it has to have, or not.
CLAIMS = [
    (r'compared each with each', NAMED_KEYS, 'not HashSet<String>'),
    (r'`NamedKeys`', NAMED_KEYS, 'HashSet<String>'),
    (r'[Ss]tandard output has the promised (?:texts|lines) (?:alone|only)', DOING, 'not rt.print(PLAN_SCHEMA)'),
    (r'(?:which steps a|that this) run took', COURSES, 'not has_asked course.asked'),
    (r'\bfsync\(?\)?[^.]*\bof (?:the|its|a) file', MACHINE_DISK, 'not file.sync_data()'),
    (r'\bfdatasync\b', MACHINE_DISK, 'file.sync_data()'),
]


def fault_of(path, text):
    """Why the words are not so; None if they are."""
    file, wanted = pathlib.Path(path), text.removeprefix('not ')
    code = file.read_text() if file.exists() else ''
    has = wanted in code
    if text.startswith('not ') and has:
        return f'{path} has {wanted}'
    if not text.startswith('not ') and not has:
        return f'{path} does not have {wanted}'
    return None


def check_claims():
    """Prints the sentences that are not so, and returns how many there are."""
    faults = 0
    for document in documents():
        for number, line in enumerate(without_fences(document.read_text()).splitlines(), 1):
            for words, path, text in CLAIMS:
                found = re.search(words, line)
                why = fault_of(path, text) if found else None
                if why:
                    faults += 1
                    print(f'{document}:{number}: "{found.group()}" is not so: {why}')
    return faults
