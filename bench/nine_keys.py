"""A plan for the trials: nine keys of all five targets, with names up to 64 characters. The key of a case is the last.

A plan of one key does not show what goes wrong at the second key, in a message about several keys, or beside a key that
is finished. The trials carry this one out with one key a message and with eight: BATCHES."""

import json

from messages import ACTIVE, DEACTIVATED, DESTROYED, PRE_ACTIVE

BATCHES = ('1', '8')
# The steps to each target, and the state of the object after each of them.
STEPS = {'created': [('Create', PRE_ACTIVE)],
         'active': [('Create', PRE_ACTIVE), ('Activate', ACTIVE)],
         'revoked': [('Create', PRE_ACTIVE), ('Activate', ACTIVE), ('Revoke', DEACTIVATED)],
         'destroyed': [('Create', PRE_ACTIVE), ('Activate', ACTIVE), ('Revoke', DEACTIVATED), ('Destroy', DESTROYED)],
         'discarded': [('Create', PRE_ACTIVE), ('Destroy', DESTROYED)]}
# The words of the states that an object has after its steps.
STATES = {PRE_ACTIVE: 'PreActive', ACTIVE: 'Active', DEACTIVATED: 'Deactivated', DESTROYED: 'Destroyed'}
# The bits of a Cryptographic Usage Mask, by the standard.
MASKS = {'encrypt': 4, 'decrypt': 8, 'wrap-key': 0x10, 'unwrap-key': 0x20, 'mac-generate': 0x80, 'mac-verify': 0x100}
# What is asked if it is not known how far a key is: if nothing is known of it, if no object has its name, and if its
# identifier is known.
ASKED = {None: 'Locate', 'none': 'Create', 'found': 'GetAttributes'}
# The longest name that a key may have.
LONGEST_NAME = 64


class Key:
    def __init__(self, name, target, algorithm='AES', length=256, usage=('encrypt', 'decrypt')):
        self.name, self.target, self.algorithm, self.length, self.usage = name, target, algorithm, length, usage

    def but(self, **changed):
        """A key that is as this one, but for these members."""
        return Key(**{**vars(self), **changed})

    def steps(self):
        return len(STEPS[self.target])

    def words(self):
        """The names of its steps."""
        return [word for word, _ in STEPS[self.target]]

    def state(self, done):
        """The word of the state of its object after so many steps."""
        return STATES[STEPS[self.target][done - 1][1]]

    def mask(self):
        return sum(MASKS[word] for word in self.usage)

    def done(self, objects):
        """How many steps are done by the objects that the server has of this name."""
        return max((place for _, state in objects for place, (_, reached) in enumerate(STEPS[self.target], 1)
                    if reached == state), default=0)

    def text(self):
        usage = ', '.join(f'"{word}"' for word in self.usage)
        return (f'[[key]]\nname = {json.dumps(self.name)}\nalgorithm = "{self.algorithm}"\nlength = {self.length}\n'
                f'usage = [{usage}]\ntarget = "{self.target}"\n')

    def line(self, done):
        """What a run prints of it once so many steps are done."""
        return f'{self.name} {self.target} {done}/{self.steps()} {"finished" if done == self.steps() else "working"}\n'


CASE = Key('the-key-of-the-case-' + 'x' * (LONGEST_NAME - 20), 'active')
NINE = [
    Key('a', 'created', length=128),
    Key('disk-2', 'active', usage=('encrypt', 'decrypt', 'wrap-key', 'unwrap-key')),
    Key('seal/2026', 'revoked', 'HMAC-SHA256', usage=('mac-generate', 'mac-verify')),
    Key('n' * (LONGEST_NAME - 1), 'destroyed', length=192),
    Key('discarded:' + 'y' * (LONGEST_NAME - 10), 'discarded'),
    Key('seal/2027', 'created', 'HMAC-SHA256', usage=('mac-generate',)),
    Key('k~7!', 'active', length=192, usage=('decrypt',)),
    Key('z' * 33, 'revoked'),
    CASE,
]


def plan(keys=NINE):
    return ''.join(key.text() for key in keys)


def report(stop, keys=NINE, done=None):
    """What a run prints of these keys, where so many steps of each are done: all of them unless it is said."""
    done = [key.steps() for key in keys] if done is None else done
    finished = sum(key.steps() == count for key, count in zip(keys, done))
    return ''.join(map(Key.line, keys, done)) + f'finished {finished} of {len(keys)}\nstop {stop}\n'


def checked(keys=NINE):
    """What `check` prints of these keys."""
    return ''.join(f'{key.name} {key.algorithm} {key.length} {key.mask():08x} {key.target}: {" ".join(key.words())}\n'
                   for key in keys)


def progress(keys=NINE, done=None, numbers=None):
    """The text of a progress file that knows so many steps of each key: all of them unless it is said. The objects have
    these numbers, or those of the places of their keys. A Revoke without a reason has the reason 1."""
    done = [key.steps() for key in keys] if done is None else done
    lines = [f'{key.name} {key.target} {1 if "Revoke" in key.words() else "-"} {count} '
             f'{str(number).encode().hex() if count else "-"}'
             for key, count, number in zip(keys, done, numbers or range(1, len(keys) + 1))]
    return '\n'.join(['kmip-progress 2', *lines, f'end {len(keys)}', ''])


def looked(done=None, numbers=None):
    """The line that `look` prints of each key, after so many steps on the server: all of them unless it is said. The
    objects have these numbers, or those of the places of their keys."""
    lines = []
    for place, (key, number) in enumerate(zip(NINE, numbers or range(1, len(NINE) + 1))):
        count = key.steps() if done is None else done[place]
        left = ' '.join(key.words()[count:])
        lines.append(f'{key.name} {key.target} {f"{number} {key.state(count)}" if count else "- none"} '
                     f'{f"to do: {left}" if left else "finished"}\n')
    return lines


def messages(batch, script=(), done=None):
    """The messages of a run, each a list of its questions: the operation, and the place of the key in the plan, from 1.

    Keys take turns, up to so many in a message. What is asked about a key follows from what is known of it, which is
    nothing at the start. A message has the fate of its word in the script: `pass`, `lose-request` or `lose-reply`.
    Those after its end pass. So many steps of each key are done on the server before: none unless it is said."""
    count = len(NINE)
    done = [0] * count if done is None else list(done)
    known, sent, turn = [None] * count, [], 0
    while left := [place for place in (*range(turn, count), *range(turn)) if known[place] != NINE[place].steps()]:
        word = script[len(sent)] if len(sent) < len(script) else 'pass'
        sent.append([])
        for place in left[:int(batch)]:
            operation = ASKED.get(known[place]) or NINE[place].words()[known[place]]
            sent[-1].append((operation, place + 1))
            if operation in NINE[place].words() and word != 'lose-request':
                done[place] += 1
            if word != 'pass':
                known[place] = None if operation in ('Locate', 'Create') else 'found'
            elif operation == 'Locate':
                known[place] = 'found' if done[place] else 'none'
            else:
                known[place] = done[place]
        turn = (place + 1) % count
    return sent


def numbers_by(sent):
    """The numbers that the test server gives to the objects of the keys by these messages of a run that finishes them.
    It counts objects as they are made, and of the Creates of a key the last one makes it."""
    creates = [place for questions in sent for operation, place in questions if operation == 'Create']
    order = sorted(set(creates), key=lambda place: len(creates) - creates[::-1].index(place))
    return [order.index(place) + 1 for place in sorted(order)]
