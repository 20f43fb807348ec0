"""KMIP messages as the trials write and read them. None of the program's code is behind them."""

import socket

CREATE, LOCATE, GET_ATTRIBUTES, ACTIVATE, REVOKE, DESTROY = 1, 8, 11, 18, 19, 20
REQUEST, REQUEST_HEADER, REQUEST_PAYLOAD = 0x420078, 0x420077, 0x420079
RESPONSE, RESPONSE_HEADER, VERSION, MAJOR, MINOR = 0x42007b, 0x42007a, 0x420069, 0x42006a, 0x42006b
TIME_STAMP, BATCH_COUNT, BATCH_ITEM, OPERATION, ITEM_ID = 0x420092, 0x42000d, 0x42000f, 0x42005c, 0x420093
STATUS, REASON, PAYLOAD, UNIQUE_IDENTIFIER = 0x42007f, 0x42007e, 0x42007c, 0x420094
ATTRIBUTES, NAME, NAME_VALUE, NAME_TYPE = 0x420125, 0x420053, 0x420055, 0x420054
STORAGE_MASK, STATE = 0x42008e, 0x42008d
STRUCTURE, INTEGER, ENUMERATION, TEXT, BYTES, DATE = 1, 2, 5, 7, 8, 9
# Objects that are not destroyed, and destroyed ones.
EVERY_OBJECT = 1 | 4
PRE_ACTIVE, ACTIVE, DEACTIVATED, DESTROYED = 1, 2, 3, 5


def item(tag, kind, value):
    """An item of TTLV."""
    return tag.to_bytes(3, 'big') + bytes([kind]) + len(value).to_bytes(4, 'big') + value + bytes(-len(value) % 8)


def number(tag, kind, value):
    return item(tag, kind, value.to_bytes(4, 'big'))


def pieces_of(data):
    """The items that some bytes are, each with its tag and its bytes."""
    found = []
    while data:
        size = int.from_bytes(data[4:8], 'big')
        end = 8 + size + -size % 8
        found.append((int.from_bytes(data[:3], 'big'), data[:end]))
        data = data[end:]
    return found


def items_in(data):
    """The items that some bytes are, each with its tag and its value: items too where it is a Structure."""
    found = []
    for tag, piece in pieces_of(data):
        value = piece[8:8 + int.from_bytes(piece[4:8], 'big')]
        found.append((tag, items_in(value) if piece[3] == STRUCTURE else value))
    return found


def batch_items(message):
    """The bytes of each Batch Item of a message."""
    return [piece for tag, piece in pieces_of(message[8:]) if tag == BATCH_ITEM]


def questions_in(request):
    """The operation and the id of each question of a request."""
    batch = [dict(items_in(piece)[0][1]) for piece in batch_items(request)]
    return [(int.from_bytes(part[OPERATION], 'big'), part[ITEM_ID]) for part in batch]


def request_of(questions, count=1):
    """A request with these Batch Items: with one alone unless it is said."""
    header = item(VERSION, STRUCTURE, number(MAJOR, INTEGER, 2) + number(MINOR, INTEGER, 1)) + number(BATCH_COUNT, INTEGER, count)
    return item(REQUEST, STRUCTURE, item(REQUEST_HEADER, STRUCTURE, header) + questions)


def reply(items, version=(2, 1)):
    """The bytes of a reply with these Batch Items."""
    numbers = number(MAJOR, INTEGER, version[0]) + number(MINOR, INTEGER, version[1])
    header = item(VERSION, STRUCTURE, numbers) + item(TIME_STAMP, DATE, bytes(8)) + number(BATCH_COUNT, INTEGER, len(items))
    return item(RESPONSE, STRUCTURE, item(RESPONSE_HEADER, STRUCTURE, header) + b''.join(items))


def refusal(operation, identity, reason):
    parts = number(OPERATION, ENUMERATION, operation) + item(ITEM_ID, BYTES, identity)
    parts += number(STATUS, ENUMERATION, 1)
    if reason is not None:
        parts += number(REASON, ENUMERATION, reason)
    return item(BATCH_ITEM, STRUCTURE, parts)


def located(identity, *uids):
    parts = number(OPERATION, ENUMERATION, LOCATE) + item(ITEM_ID, BYTES, identity) + number(STATUS, ENUMERATION, 0)
    found = b''.join(item(UNIQUE_IDENTIFIER, TEXT, uid.encode()) for uid in uids)
    return item(BATCH_ITEM, STRUCTURE, parts + item(PAYLOAD, STRUCTURE, found))


def message(stream):
    """The next message: the last four bytes of its head say how long the rest is."""
    head = stream.recv(8, socket.MSG_WAITALL)
    if len(head) < 8:
        raise OSError('the stream has ended')
    return head + stream.recv(int.from_bytes(head[4:], 'big'), socket.MSG_WAITALL)


def asked(connection, operation, payload):
    """The payload of the reply to a request, as its items; none if it is refused."""
    parts = number(OPERATION, ENUMERATION, operation) + item(REQUEST_PAYLOAD, STRUCTURE, payload)
    connection.sendall(request_of(item(BATCH_ITEM, STRUCTURE, parts)))
    [piece] = batch_items(message(connection))
    answer = dict(items_in(piece)[0][1])
    return answer.get(PAYLOAD) if int.from_bytes(answer[STATUS][:4], 'big') == 0 else None


def objects_of(port, names):
    """Of each name, the states of the objects that have it, with their identifiers, by the server itself."""
    found = {}
    with socket.create_connection(('127.0.0.1', port)) as connection:
        for name in names:
            value = item(NAME_VALUE, TEXT, name.encode()) + number(NAME_TYPE, ENUMERATION, 1)
            sought = item(ATTRIBUTES, STRUCTURE, item(NAME, STRUCTURE, value))
            answer = asked(connection, LOCATE, number(STORAGE_MASK, INTEGER, EVERY_OBJECT) + sought) or []
            found[name] = []
            for uid in [value for tag, value in answer if tag == UNIQUE_IDENTIFIER]:
                told = asked(connection, GET_ATTRIBUTES, item(UNIQUE_IDENTIFIER, TEXT, uid)) or []
                attributes = dict(next((value for tag, value in told if tag == ATTRIBUTES), []))
                found[name].append((uid, int.from_bytes(attributes.get(STATE, b'')[:4], 'big')))
    return found


class Picky:
    """Answers the questions of a request by the server at a port, but for those that it refuses.

    `refuses` is given the operation of a question, the name of its key, and how often this was asked about the key, from 1.
    It gives the Result Reason of a refusal, or none. Of the operations of `done` a question that is refused takes effect
    all the same."""

    def __init__(self, port, refuses, done=()):
        self.port, self.refuses, self.done = port, refuses, done
        # How many messages came, and how often each operation was asked about each key, and refused.
        self.messages, self.asked, self.refused = 0, {}, {}

    def reply_to(self, request):
        self.messages += 1
        with socket.create_connection(('127.0.0.1', self.port)) as server:
            return reply([self.answer(server, question, *told) for question, told
                          in zip(batch_items(request), questions_in(request))])

    def answer(self, server, question, operation, identity):
        """The Batch Item that answers a question."""
        what = operation, identity[1:].decode()
        self.asked[what] = self.asked.get(what, 0) + 1
        reason = self.refuses(*what, self.asked[what])
        if reason is None or operation in self.done:
            server.sendall(request_of(question))
            [answer] = batch_items(message(server))
        if reason is None:
            return answer
        self.refused[what] = self.refused.get(what, 0) + 1
        return refusal(operation, identity, reason)
