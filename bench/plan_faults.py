#!/usr/bin/env python3
"""Gives `kmipctl` plans with each fault, and wants the line on standard error that says where and why.

    bench/plan_faults.py PROGRAM FOLDER

Each row is a plan and what has to come of it: standard output, the exit status, and standard error whole.
What is wanted was written by hand from the rules of a plan. The schema of `check --json-schema` has to refuse
the same plans, but for what a schema cannot say. The last line counts the rows, and those that went wrong. The
exit status is 0 where none did.
"""

import json
import os
import re
import shutil
import subprocess
import sys
import tomllib

sys.dont_write_bytecode = True
sys.path.insert(0, os.path.join(os.path.dirname(os.path.realpath(__file__)), '../tools'))

from plan_schema import Validator

NAMES = 'a string of 1 to 64 printing ASCII characters, without spaces'
ALGORITHMS = '"AES" or "HMAC-SHA256"'
USAGES = ('one or more of "sign", "verify", "encrypt", "decrypt", "wrap-key", "unwrap-key", "mac-generate" and '
          '"mac-verify", each once')
TARGETS = '"created", "active", "revoked", "destroyed" or "discarded"'
REASONS = '"unspecified", "affiliation-changed", "superseded", "cessation-of-operation" or "privilege-withdrawn"'
NEEDED = 'a key needs name, algorithm, length, usage and target'
FIELDS = 'the fields are name, algorithm, length, usage, target and reason'
ONE = 'a plan has at least one [[key]]'
STAYS = 'the earlier keys must come first, in the same order'

# A usage over 42 lines.
LONG_USAGE = '[\n' + 40 * '\n' + '"sign"]'

# The fields of a key that has no fault, in the order in which they are written.
SOUND = {'name': '"a"', 'algorithm': '"AES"', 'length': '256', 'usage': '["encrypt", "decrypt"]', 'target': '"active"'}
def key(**fields):
    """The text of a key, six lines long: a sound one with these fields in the place of its own; None is no field."""
    return ''.join(f'{name} = {value}\n' for name, value in (SOUND | fields).items() if value is not None)


def printed(name, suite='AES 256', usage='0000000c', way='active: Create Activate'):
    """What `check` prints of a key, by default of a sound one."""
    return f'{name} {suite} {usage} {way}\n'


def plan(*keys):
    """The text of a plan of these keys."""
    return ''.join('[[key]]\n' + text for text in keys)


def long_plan(count, wrong=None, **fields):
    """A plan of so many keys, k1 and so on; the one at the place `wrong` has these fields."""
    return plan(*(key(name=f'"k{place}"', **(fields if place == wrong else {})) for place in range(1, count + 1)))


B = key(name='"b"')

# The name of the row, the plan, what stands behind `plan refused: `, and what stands behind the path.
REFUSED = [
    # The line feed is the first character that cannot stand in the string.
    ('a string without its end', '[[key]]\n# a name\nname = "b\n', '1 Toml', ':3:10: invalid string'),
    ('a field twice', '[[key]]\nname = "b"\nname = "c"\n', '1 Toml', ':3:1: duplicate key'),
    ('an empty plan', '', '2 NoKeys', f': there is no key: {ONE}'),
    ('only a comment', '# nothing\n', '2 NoKeys', f': there is no key: {ONE}'),
    ('keys that are a number', '\nkey = 5\n', '2 NoKeys', f':2: "key" is 5: {ONE}'),
    ('keys that are a table', '\n\n[key]\n' + key(), '2 NoKeys', f':3: "key" is a table: {ONE}'),
    ('keys that are an empty array', 'key = [\n]\n', '2 NoKeys', f':1: "key" is []: {ONE}'),
    ('1,001 keys', long_plan(1001), '3 TooMany', ':6001: there are 1001 keys: a plan has at most 1000'),
    ('a key with nothing', '[[key]]\n', '4 Missing name at key 1', f':1: key 1: there is no name: {NEEDED}'),
    ('no name', plan(key(name=None)), '4 Missing name at key 1', f':1: key 1: there is no name: {NEEDED}'),
    ('no algorithm', plan(key(algorithm=None)), '4 Missing algorithm at key 1',
     f':1: key 1 "a": there is no algorithm: {NEEDED}'),
    ('no length', plan(key(), key(name='"b"', length=None)), '4 Missing length at key 2',
     f':7: key 2 "b": there is no length: {NEEDED}'),
    ('no usage', plan(key(), key(name='"b"', usage=None)), '4 Missing usage at key 2',
     f':7: key 2 "b": there is no usage: {NEEDED}'),
    ('no target, and comments before', '# one\n\n# three\n' + plan(key(target=None)), '4 Missing target at key 1',
     f':4: key 1 "a": there is no target: {NEEDED}'),
    ('a key that is a number', 'key = [5]\n', '4 Missing name at key 1', f':1: key 1: it is 5: {NEEDED}'),
    ('a key of several lines that is a number', 'key = [\n5\n]\n', '4 Missing name at key 1',
     f': key 1: it is 5: {NEEDED}'),
    ('another field of the plan', 'keys = 1\n' + plan(key()), '5 Unknown keys at key 0',
     ':1: "keys" is not a field of a plan, which has only [[key]]'),
    ('another table behind the keys', plan(key()) + '\n[other]\na = 1\n', '5 Unknown other at key 0',
     ':8: "other" is not a field of a plan, which has only [[key]]'),
    ('an array of several lines before the keys', 'other = [\n1,\n]\n' + plan(key()), '5 Unknown other at key 0',
     ':1: "other" is not a field of a plan, which has only [[key]]'),
    ('another array of several lines behind the keys', plan(key()) + '[[other]]\na = [\n1,\n]\n',
     '5 Unknown other at key 0', ':7: "other" is not a field of a plan, which has only [[key]]'),
    ('another field of a key', plan(key(), key(name='"b"', traget='"active"')), '5 Unknown traget at key 2',
     f':13: key 2 "b": "traget" is not a field of a key: {FIELDS}'),
    ('a table within a key', plan(key()) + '[key.extra]\n', '5 Unknown extra at key 1',
     f':7: key 1 "a": "extra" is not a field of a key: {FIELDS}'),
    ('another field that does not print', plan(key(**{r'"a\u0007\"b"': '1'})), r'5 Unknown a\07\22b at key 1',
     rf':7: key 1 "a": "a\u{{7}}\"b" is not a field of a key: {FIELDS}'),
    ('a name with a space', plan(key(), key(name='"b c"')), '6 BadName at key 2',
     f':8: key 2: the name is "b c": it must be {NAMES}'),
    ('an empty name', plan(key(name='""')), '6 BadName at key 1', f':2: key 1: the name is "": it must be {NAMES}'),
    ('a name that is a number', plan(key(name='7')), '6 BadName at key 1',
     f':2: key 1: the name is 7: it must be {NAMES}'),
    ('a name of 65 characters', plan(key(name='"' + 65 * 'x' + '"')), '6 BadName at key 1',
     f':2: key 1: the name is "{64 * "x"}"..: it must be {NAMES}'),
    ('a name of 64 letters that are none of ASCII', plan(key(name='"' + 64 * 'é' + '"')), '6 BadName at key 1',
     f':2: key 1: the name is "{64 * "é"}": it must be {NAMES}'),
    ('a name with a line feed', plan(key(name=r'"b\n"')), '6 BadName at key 1',
     rf':2: key 1: the name is "b\n": it must be {NAMES}'),
    ('an unknown algorithm', plan(key(), key(name='"b"', algorithm='"aes"')), '7 BadLength at key 2',
     f':9: key 2 "b": the algorithm is "aes": it must be {ALGORITHMS}'),
    ('an algorithm that is true', plan(key(algorithm='true')), '7 BadLength at key 1',
     f':3: key 1 "a": the algorithm is true: it must be {ALGORITHMS}'),
    ('a length of 129 for AES', plan(key(), key(name='"backup"', length='129')), '7 BadLength at key 2',
     ':10: key 2 "backup": the length is 129: for AES it must be 128, 192 or 256'),
    ('a length of 128 for HMAC-SHA256', plan(key(algorithm='"HMAC-SHA256"', length='128')), '7 BadLength at key 1',
     ':4: key 1 "a": the length is 128: for HMAC-SHA256 it must be 256'),
    ('a length that is a text', plan(key(length='"256"')), '7 BadLength at key 1',
     ':4: key 1 "a": the length is "256": for AES it must be 128, 192 or 256'),
    ('a length that is a float', plan(key(length='256.0')), '7 BadLength at key 1',
     ':4: key 1 "a": the length is 256.0: for AES it must be 128, 192 or 256'),
    ('a length that is a date', plan(key(length='2026-01-31')), '7 BadLength at key 1',
     ':4: key 1 "a": the length is 2026-01-31: for AES it must be 128, 192 or 256'),
    ('a length that is negative', plan(key(length='-1')), '7 BadLength at key 1',
     ':4: key 1 "a": the length is -1: for AES it must be 128, 192 or 256'),
    ('a length that is an array', plan(key(length='[1, [2], {a = 3}]')), '7 BadLength at key 1',
     ':4: key 1 "a": the length is [1, [..], {..}]: for AES it must be 128, 192 or 256'),
    ('a length that is an array of 64', plan(key(length=str([1] * 64))), '7 BadLength at key 1',
     f':4: key 1 "a": the length is {[1] * 64}: for AES it must be 128, 192 or 256'),
    # Of an array no more than 64 elements are shown.
    ('a length that is an array of 65', plan(key(length=str([1] * 65))), '7 BadLength at key 1',
     f':4: key 1 "a": the length is {str([1] * 64)[:-1]}, ..]: for AES it must be 128, 192 or 256'),
    ('a usage that is a text', plan(key(usage='"sign"')), '8 BadUsage at key 1',
     f':5: key 1 "a": the usage is "sign": it must be {USAGES}'),
    ('no usage in the array', plan(key(usage='[]')), '8 BadUsage at key 1',
     f':5: key 1 "a": the usage is []: it must be {USAGES}'),
    ('an unknown usage', plan(key(usage='["sign", "crypt", "scramble"]')), '8 BadUsage at key 1',
     f':5: key 1 "a": the usage has "crypt": use {USAGES}'),
    ('a usage twice', plan(key(usage='["sign", "verify", "verify", "sign"]')), '8 BadUsage at key 1',
     f':5: key 1 "a": the usage has "verify" twice: use {USAGES}'),
    ('a usage twice, and another between', plan(key(usage='["sign", "verify", "sign"]')), '8 BadUsage at key 1',
     f':5: key 1 "a": the usage has "sign" twice: use {USAGES}'),
    ('a usage twice, and an unknown one', plan(key(usage='["sign", "sign", 5]')), '8 BadUsage at key 1',
     f':5: key 1 "a": the usage has 5: use {USAGES}'),
    ('an unknown usage in an array of several lines', plan(key(), key(name='"b"', usage='[\n"sign",\n"crypt"\n]')),
     '8 BadUsage at key 2', f':13: key 2 "b": the usage has "crypt": use {USAGES}'),
    ('a usage twice in an array of several lines', plan(key(usage='[\n"sign", "verify", # ]\n\n"sign",\n]')),
     '8 BadUsage at key 1', f':8: key 1 "a": the usage has "sign" twice: use {USAGES}'),
    ('no usage, over several lines', plan(key(), key(name='"b"', usage='[\n5]')), '8 BadUsage at key 2',
     f':12: key 2 "b": the usage has 5: use {USAGES}'),
    ('an unknown usage in an array that begins the key', plan(key(), 'usage = [\n"sign",\n"crypt",\n"verify"]\n'
     + key(name='"b"', usage=None)), '8 BadUsage at key 2', f':10: key 2 "b": the usage has "crypt": use {USAGES}'),
    ('an unknown usage in a text over two lines', plan(key(usage='[\n"""a\nb""", "sign"]')), '8 BadUsage at key 1',
     f':7: key 1 "a": the usage has "a\\nb": use {USAGES}'),
    ('an unknown usage in a key in one array of several lines',
     'key = [\n{' + key(usage='["sign",@"crypt"]').replace('\n', ', ')[:-2].replace('@', '\n') + '},\n]\n',
     '8 BadUsage at key 1', f': key 1 "a": the usage has "crypt": use {USAGES}'),
    ('an unknown target', plan(key(target='"gone"')), '9 BadTarget at key 1',
     f':6: key 1 "a": the target is "gone": it must be {TARGETS}'),
    ('a reason that is a compromise', plan(key(target='"revoked"', reason='"key-compromise"')), '10 BadReason at key 1',
     f':7: key 1 "a": the reason is "key-compromise": it must be {REASONS}'),
    ('a reason that is a number', plan(key(target='"destroyed"', reason='1')), '10 BadReason at key 1',
     f':7: key 1 "a": the reason is 1: it must be {REASONS}'),
    ('a reason without a Revoke', plan(key(reason='"superseded"')), '10 BadReason at key 1',
     ':7: key 1 "a": the reason is "superseded": a key whose target is "active" must not have one'),
    ('a reason of a discarded key', plan(key(target='"discarded"', reason='"superseded"')), '10 BadReason at key 1',
     ':7: key 1 "a": the reason is "superseded": a key whose target is "discarded" must not have one'),
    ('a name twice', plan(key(), B, key(name='"c"'), B), '11 SameName at key 4',
     ':20: key 4 "b": key 2 has the same name: each key needs its own'),
    ('a fault far behind', long_plan(1000, 613, algorithm='"aes"'), '7 BadLength at key 613',
     f':3675: key 613 "k613": the algorithm is "aes": it must be {ALGORITHMS}'),
    ('a fault in the first of many keys', long_plan(1000, 1, target='"gone"'), '9 BadTarget at key 1',
     f':6: key 1 "k1": the target is "gone": it must be {TARGETS}'),
    ('a fault in the last of many keys', long_plan(1000, 1000, target='"gone"'), '9 BadTarget at key 1000',
     f':6000: key 1000 "k1000": the target is "gone": it must be {TARGETS}'),
    ('a fault before an array of many lines', plan(key(length='64'), key(name='"b"', usage=LONG_USAGE)),
     '7 BadLength at key 1', ':4: key 1 "a": the length is 64: for AES it must be 128, 192 or 256'),
    ('a fault behind an array of many lines', plan(key(usage=LONG_USAGE), key(name='"b"', length='64')),
     '7 BadLength at key 2', ':51: key 2 "b": the length is 64: for AES it must be 128, 192 or 256'),
    ('keys in one array of several lines', 'key = [\n{' + key(length='64').replace('\n', ', ')[:-2] + '},\n]\n',
     '7 BadLength at key 1', ': key 1 "a": the length is 64: for AES it must be 128, 192 or 256'),
    ('lines that end in two characters', plan(key(), key(name='"b"', length='64')).replace('\n', '\r\n'),
     '7 BadLength at key 2', ':10: key 2 "b": the length is 64: for AES it must be 128, 192 or 256'),
    ('a last line without its end', plan(key(target='"gone"'))[:-1], '9 BadTarget at key 1',
     f':6: key 1 "a": the target is "gone": it must be {TARGETS}'),
]

# What a schema cannot say: that a text is no TOML, that a name is there twice, and that 256.0 is no 256.
BEYOND_A_SCHEMA = {'a string without its end', 'a field twice', 'a name twice', 'a length that is a float'}

REVOKED = 'revoked: Create Activate Revoke'

# The name of the row, the new plan, the old one, what is printed of the new one, and what stands behind its path.
PROLONGS_NOT = [
    ('another algorithm', plan(key(algorithm='"HMAC-SHA256"')), plan(key()), printed('a', suite='HMAC-SHA256 256'),
     ':3: key 1 "a": the algorithm is "HMAC-SHA256", and was "AES" in OLD: it must not change'),
    ('another length', plan(key(length='128')), plan(key()), printed('a', suite='AES 128'),
     ':4: key 1 "a": the length is 128, and was 256 in OLD: it must not change'),
    ('another usage', plan(key(), key(name='"b"', usage='["encrypt"]')), plan(key(), B),
     printed('a') + printed('b', usage='00000004'),
     ':11: key 2 "b": the usage is ["encrypt"], and was ["encrypt", "decrypt"] in OLD: it must not change'),
    ('a target that lies before', plan(key(), key(name='"b"', target='"created"')), plan(key(), B),
     printed('a') + printed('b', way='created: Create'),
     ':12: key 2 "b": the target is "created", and was "active" in OLD: "active" does not lead to it'),
    ('another reason', plan(key(target='"revoked"', reason='"superseded"')), plan(key(target='"revoked"')),
     printed('a', way=REVOKED),
     ':7: key 1 "a": the reason is "superseded", and was "unspecified" in OLD: it must not change'),
    ('a reason that is no more', plan(key(target='"revoked"')), plan(key(target='"revoked"', reason='"superseded"')),
     printed('a', way=REVOKED),
     ':1: key 1 "a": the reason is "unspecified", and was "superseded" in OLD: it must not change'),
    ('the last key is gone', plan(key()), plan(key(), B), printed('a'), f': "b" of OLD is missing: {STAYS}'),
    ('the first key is gone', plan(B), plan(key(), B), printed('b'), f': "a" of OLD is missing: {STAYS}'),
    ('two keys have changed their places', plan(B, key()), plan(key(), B), printed('b') + printed('a'),
     f':2: key 1 "b": it was key 2 in OLD: {STAYS}'),
    ('a key stands before', plan(B, key()), plan(key()), printed('b') + printed('a'),
     f':8: key 2 "a": it was key 1 in OLD: {STAYS}'),
]

# The name of the row, the plan, what the lines of a progress say of its keys, and what stands behind the plan's path.
OF_ANOTHER_PLAN = [
    ('a progress of a further target', plan(key(target='"created"')), ['a active - 2 31'],
     ':6: key 1 "a": the target is "created", and was "active" in OLD: "active" does not lead to it'),
    ('a progress with a finished key before one of a further target', plan(key(), key(name='"b"', target='"created"')),
     ['a active - 2 31', 'b active - 0 -'],
     ':12: key 2 "b": the target is "created", and was "active" in OLD: "active" does not lead to it'),
    ('a progress with a revoked key before one of a further target',
     plan(key(), key(name='"b"', target='"revoked"'), key(name='"c"', target='"created"')),
     ['a active - 2 31', 'b revoked 1 3 32', 'c active - 0 -'],
     ':18: key 3 "c": the target is "created", and was "active" in OLD: "active" does not lead to it'),
    ('a progress of another reason', plan(key(target='"revoked"', reason='"superseded"')), ['a revoked 4 3 31'],
     ':7: key 1 "a": the reason is "superseded", and was "affiliation-changed" in OLD: it must not change'),
    ('a progress of a reason, and none is given', plan(key(target='"revoked"')), ['a revoked 7 3 31'],
     ':1: key 1 "a": the reason is "unspecified", and was "privilege-withdrawn" in OLD: it must not change'),
    ('a progress in another order', plan(B, key()), ['a active - 0 -', 'b active - 0 -'],
     f':8: key 2 "a": it was key 1 in OLD: {STAYS}'),
    ('a progress of another key', plan(key()), ['c active - 0 -'], f': "c" of OLD is missing: {STAYS}'),
    ('a progress of more keys', plan(key()), ['a active - 0 -', 'b active - 0 -'],
     f': "b" of OLD is missing: {STAYS}'),
    ('a progress of too many steps', plan(key()), ['a created - 2 31'],
     ':6: key 1 "a": 2 of its steps are done in OLD: that is more than lead to "created"'),
]

# The name of the row, a plan with several faults, what stands behind `plan refused: `, and what stands behind the path
# in each line.
SEVERAL = [
    ('two faults in a key and one in another', plan(key(name='"b c"', length='129'), key(target='"x"')), '6 BadName at key 1',
     [f':2: key 1: the name is "b c": it must be {NAMES}',
      ':4: key 1 "b c": the length is 129: for AES it must be 128, 192 or 256',
      f':12: key 2 "a": the target is "x": it must be {TARGETS}']),
    ('a key with nothing, and a name twice', plan('', key(), key()), '4 Missing name at key 1',
     [f':1: key 1: there is no name: {NEEDED}', ':9: key 3 "a": key 2 has the same name: each key needs its own']),
    ('a wrong target with a reason', plan(key(target='"x"', reason='"y"')), '9 BadTarget at key 1',
     [f':6: key 1 "a": the target is "x": it must be {TARGETS}', f':7: key 1 "a": the reason is "y": it must be {REASONS}']),
    ('25 wrong lengths', plan(*(key(name=f'"k{place}"', length='129') for place in range(1, 26))), '7 BadLength at key 1',
     [f':{6 * place - 2}: key {place} "k{place}": the length is 129: for AES it must be 128, 192 or 256' for place in range(1, 21)]
     + [': there are more faults']),
]

# The name of the row, a plan with keys that cannot be used, what `check` prints, and its warnings behind the path.
UNSUITED = [
    ('an HMAC key that is to encrypt', plan(key(algorithm='"HMAC-SHA256"')), printed('a', 'HMAC-SHA256 256'),
     [':5: key 1 "a": the usage "encrypt" does not suit HMAC-SHA256: use mac-generate or mac-verify']),
    ('an AES key that is to authenticate', plan(key(), key(name='"b"', usage='["decrypt", "mac-verify"]')),
     printed('a') + printed('b', usage='00000108'),
     [':11: key 2 "b": the usage "mac-verify" does not suit AES: use encrypt, decrypt, wrap-key or unwrap-key']),
    ('an AES key that is to authenticate, over several lines',
     plan(key(), key(name='"b"', usage='[\n"decrypt",\n"mac-verify", "sign"\n]')), printed('a') + printed('b', usage='00000109'),
     [':13: key 2 "b": the usage "mac-verify" does not suit AES: use encrypt, decrypt, wrap-key or unwrap-key']),
]

# A fault, for the commands beside `check`.
FAULTY = plan(key(length='129'))
FAULT = '7 BadLength at key 1'
WHY = ':4: key 1 "a": the length is 129: for AES it must be 128, 192 or 256'


class Trial:
    def __init__(self, program, folder):
        self.program, self.folder, self.rows, self.wrong = program, folder, 0, 0

    def written(self, name, text):
        """The path of a new file with this text."""
        path = os.path.join(self.folder, name)
        with open(path, 'w', newline='') as file:
            file.write(text)
        return path

    def look(self, row, words, printed, told, status=1):
        """Runs the program with these words, and compares what it does with what it has to do."""
        done = subprocess.run([self.program, *words], stdin=subprocess.DEVNULL, capture_output=True, timeout=150)
        self.rows += 1
        pairs = [('exit status', done.returncode, status), ('standard output', done.stdout, printed.encode()),
                 ('standard error', done.stderr, told.encode())]
        for what, is_so, wanted in pairs:
            if is_so != wanted:
                print(f'{row}: {what}\n    is     {is_so!r}\n    wanted {wanted!r}')
        self.wrong += any(is_so != wanted for _, is_so, wanted in pairs)

    def faults(self):
        for row, text, fault, why in REFUSED:
            path = self.written('plan.toml', text)
            self.look(row, ['check', '--plan', path], f'plan refused: {fault}\n', f'{path}{why}\n')

    def several(self):
        for row, text, fault, whys in SEVERAL:
            path = self.written('plan.toml', text)
            self.look(row, ['check', '--plan', path], f'plan refused: {fault}\n', ''.join(f'{path}{why}\n' for why in whys))

    def unsuited(self):
        for row, text, said, whys in UNSUITED:
            path = self.written('plan.toml', text)
            self.look(row, ['check', '--plan', path], said, ''.join(f'warning: {path}{why}\n' for why in whys), 0)

    def schema(self):
        """The schema refuses what `check` refuses, and no plan that is one."""
        done = subprocess.run([self.program, 'check', '--json-schema'], stdin=subprocess.DEVNULL, capture_output=True)
        self.note('check --json-schema', (done.returncode, done.stderr), (0, b''))
        validator = Validator(json.loads(done.stdout))
        plans = [(row, text, row not in BEYOND_A_SCHEMA) for row, text, _, _ in REFUSED]
        plans += [(row, text, False) for row, new, old, _, _ in PROLONGS_NOT for text in (new, old)]
        plans += [(row, text, False) for row, text, _, _ in OF_ANOTHER_PLAN]
        for row, text, is_refused in plans:
            try:
                value = tomllib.loads(text)
            except tomllib.TOMLDecodeError:
                self.note(f'{row}, no TOML', row in BEYOND_A_SCHEMA, True)
            else:
                self.note(f'{row}, by the schema', not validator.fits(value, validator.whole), is_refused)

    def note(self, row, is_so, wanted):
        """Compares what is so with what has to be."""
        self.rows += 1
        if is_so != wanted:
            print(f'{row}:\n    is     {is_so!r}\n    wanted {wanted!r}')
            self.wrong += 1

    def prolongings(self):
        for row, new, old, printed_keys, why in PROLONGS_NOT:
            new, old = self.written('new.toml', new), self.written('old.toml', old)
            why = why.replace('OLD', old)
            self.look(row, ['check', '--plan', new, '--after', old], f'{printed_keys}prolongs not\n', f'{new}{why}\n')

    def progresses(self):
        for row, text, lines, why in OF_ANOTHER_PLAN:
            path = self.written('plan.toml', text)
            for number in (2, 1) if ' - ' in lines[0] else (2,):
                # Format 1 has no reasons: of each line the third word is left out.
                said = lines if number == 2 else [re.sub(r'^(\S+ \S+) \S+', r'\1', line) for line in lines]
                known = '\n'.join([f'kmip-progress {number}', *said, f'end {len(said)}', ''])
                progress = self.written('plan.progress', known)
                self.look(f'{row}, format {number}', ['run', '--plan', path, '--progress', progress, '--loopback'],
                          'progress refused: 3 OtherPlan\n', f'{path}{why.replace("OLD", progress)}\n')

    def commands(self):
        """The same line comes from each command that reads a plan, and from none where nothing is wrong."""
        sound, faulty = self.written('sound.toml', plan(key())), self.written('faulty.toml', FAULTY)
        script, other = self.written('script', 'pass\n'), self.written('other.toml', plan(B))
        further = self.written('further.script', 'prolong\n')
        refused, told = f'plan refused: {FAULT}\n', f'{faulty}{WHY}\n'
        gone = f'{other}: "a" of {sound} is missing: {STAYS}\n'
        progress = os.path.join(self.folder, 'progress')
        self.look('a sound plan', ['check', '--plan', sound], printed('a'), '', 0)
        self.look('a plan that prolongs itself', ['check', '--plan', sound, '--after', sound],
                  printed('a') + 'prolongs\n', '', 0)
        self.look('check --after, the first is wrong', ['check', '--plan', faulty, '--after', sound], refused, told)
        self.look('check --after, the second is wrong', ['check', '--plan', sound, '--after', faulty], refused, told)
        self.look('sim', ['sim', '--plan', faulty, '--script', script], refused, told)
        self.look('sim --then, the first is wrong', ['sim', '--plan', faulty, '--then', sound, '--script', further],
                  refused, told)
        self.look('sim --then, the second is wrong', ['sim', '--plan', sound, '--then', faulty, '--script', further],
                  refused, told)
        self.look('sim --then, another plan', ['sim', '--plan', sound, '--then', other, '--script', further],
                  'plan refused: prolongs not\n', gone)
        self.look('run', ['run', '--plan', faulty, '--progress', progress, '--loopback'], refused, told)


def main():
    program, folder = os.path.realpath(sys.argv[1]), os.path.realpath(sys.argv[2])
    shutil.rmtree(folder, ignore_errors=True)
    os.makedirs(folder)
    trial = Trial(program, folder)
    trial.faults()
    trial.several()
    trial.unsuited()
    trial.schema()
    trial.prolongings()
    trial.progresses()
    trial.commands()
    shutil.rmtree(folder)
    print(f'{trial.rows} rows, {trial.wrong} wrong')
    return 1 if trial.wrong else 0


if __name__ == '__main__':
    sys.exit(main())
