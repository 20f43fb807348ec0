#!/usr/bin/env python3
"""How many orders there are in which several clients of a plan make their exchanges, for the tests of test_company.

    tools/orders.py

It prints a line for each test: its name, and the number that the test has to come to. A test of the tools compares
these with the tests. The model is written from
the rules of a client alone: what it asks in each phase, and what each reply makes of the phase. It shares no code
with kmip_client. Each order is counted once, as a way through the choices who asks next and what becomes of it.
"""
import functools
import sys

sys.dont_write_bytecode = True

CHAINS = {
    'created': ['Create'],
    'active': ['Create', 'Activate'],
    'revoked': ['Create', 'Activate', 'Revoke'],
    'destroyed': ['Create', 'Activate', 'Revoke', 'Destroy'],
}
# The state of an object of which so many steps were done, from 1.
STATES = ['PreActive', 'Active', 'Deactivated', 'Destroyed']
ALL = ('RequestLost', 'ReplyLost', 'Delayed', 'Killed', 'Restarted')

# The name of a test, the plan of each client as the targets of its keys, how many exchanges may be disturbed, and
# how.
TESTS = [
    ('two_clients_activate_one_key', (('active',),) * 2, 1, ALL),
    ('two_clients_destroy_one_key', (('destroyed',),) * 2, 0, ()),
    ('two_clients_make_one_key', (('created',),) * 2, 2, ('ReplyLost', 'Delayed')),
    ('three_clients_make_one_key', (('created',),) * 3, 0, ()),
    ('two_clients_activate_two_keys', (('active', 'created'),) * 2, 0, ()),
    ('two_clients_of_an_old_plan_and_a_new_one', (('active',), ('revoked',)), 1, ('ReplyLost',)),
]


def fresh(targets):
    """A client that knows nothing: of each key its phase, whether its object is known, how many steps are done;
    and whose turn is next."""
    return tuple(('look', False, 0) for _ in targets), 0


def resumed(saved, targets):
    """A client that begins with what was saved, or with nothing."""
    if saved is None:
        return fresh(targets)
    return tuple(('check' if known else 'look', known, done) for _, known, done in saved), 0


def is_worked_on(key, target):
    phase, _, done = key
    return phase != 'conflict' and done < len(CHAINS[target])


def is_working(client, targets):
    return any(map(is_worked_on, client[0], targets))


def asked(client, targets):
    """The place and the operation that are asked next, and the client after it."""
    keys, turn = client
    for step in range(len(keys)):
        place = (turn + step) % len(keys)
        phase, _, done = keys[place]
        if is_worked_on(keys[place], targets[place]):
            operation = {'look': 'Locate', 'make': 'Create', 'check': 'GetAttributes'}.get(phase)
            return (place, operation or CHAINS[targets[place]][done]), (keys, (place + 1) % len(keys))
    raise ValueError('no key is worked on')


def served(objects, question):
    """The objects after a question, and its reply: None is a refusal. An object is how many steps it has had."""
    place, operation = question
    here = objects[place]
    if operation == 'Locate':
        return objects, here > 0
    if operation == 'GetAttributes':
        return objects, STATES[here - 1]
    if [operation] != CHAINS['destroyed'][here:here + 1]:
        return objects, None
    return objects[:place] + (here + 1,) + objects[place + 1:], True


def heard(client, question, reply, targets):
    """The client after the reply; None is a refusal, and also that nothing came. A state beyond the target is a
    conflict."""
    (keys, turn), (place, operation) = client, question
    phase, known, done = keys[place]
    if reply is None:
        key = 'check' if known else 'look', known, done
    elif operation == 'Locate':
        key = ('check', True, done) if reply else ('make', False, done)
    elif operation == 'GetAttributes':
        steps = STATES.index(reply) + 1
        beyond = steps > len(CHAINS[targets[place]])
        key = ('conflict', True, done) if beyond else ('go', True, max(done, steps))
    else:
        key = 'go', True, done + 1
    return keys[:place] + (key,) + keys[place + 1:], turn


@functools.cache
def orders(plans, clients, objects, late, saved, disturbed, events):
    """How many orders lead from here to the end. `late` is a question under way, `disturbed` how many exchanges
    may be disturbed."""
    working = [place for place, client in enumerate(clients) if is_working(client, plans[place])]
    if not working:
        return 1
    found = 0
    for place in working:
        targets = plans[place]
        for event in ('Served',) + (events if disturbed else ()):
            question, client = asked(clients[place], targets)
            now = served(objects, late)[0] if late else objects
            reply = None
            if event not in ('RequestLost', 'Delayed'):
                now, reply = served(now, question)
            client = heard(client, question, reply if event == 'Served' else None, targets)
            kept = saved if event in ('Killed', 'Restarted') else client[0]
            if event == 'Killed':
                client = fresh(targets)
            elif event == 'Restarted':
                client = resumed(saved, targets)
            others = clients[:place] + (client,) + clients[place + 1:]
            left = disturbed - (event != 'Served')
            found += orders(plans, others, now, question if event == 'Delayed' else None, kept, left, events)
    return found


def count(plans, disturbed, events):
    return orders(plans, tuple(map(fresh, plans)), (0,) * len(plans[0]), None, None, disturbed, events)


def main():
    for name, *scene in TESTS:
        print(name, count(*scene))


if __name__ == '__main__':
    main()
