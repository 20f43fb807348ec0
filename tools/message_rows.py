#!/usr/bin/env python3
"""The messages of the calls `request` and `reply` in the rows of rows_client.

The name in a call says its bytes: a message that is laid out below, and changes in it. So

    tools/message_rows.py 'request create, without name'

prints the call with its bytes, to be put into a file of crates/rows_client/data. Without a name all calls
there are compared with their names, which `make documents` does too. Run it at the top of the repository. A change concerns the first item of its tag, and is one of

    without TAG    TAG twice    TAG is VALUE    TAG under TAG    TAG, VALUE, before TAG

with ` and ` between several. A value is `integer 8`, `enumeration 8` (hexadecimal), `text k1`, `no text`,
`a text of 65` (digits), `text in bytes 6b2031`, `bytes 6b31`, `128 bytes` (zeros) or `a structure`.

Source: KMIP 2.1, TTLV Encoding, Message Structure and Tags.
"""
import re
import sys

from row_files import files_of, rows_in

CRATE = 'rows_client'

TAGS = {
    'batch count': 0x42000D, 'option': 0x42000E, 'batch item': 0x42000F, 'algorithm': 0x420028,
    'length': 0x42002A, 'usage': 0x42002C, 'name': 0x420053, 'name type': 0x420054,
    'name value': 0x420055, 'object type': 0x420057, 'operation': 0x42005C, 'version': 0x420069,
    'major': 0x42006A, 'minor': 0x42006B, 'header': 0x420077, 'request': 0x420078,
    'payload': 0x420079, 'response header': 0x42007A, 'response': 0x42007B,
    'response payload': 0x42007C, 'reason': 0x42007E, 'status': 0x42007F,
    'revocation reason': 0x420081, 'revocation code': 0x420082, 'state': 0x42008D,
    'mask': 0x42008E, 'time stamp': 0x420092, 'id': 0x420093, 'identifier': 0x420094,
    'attributes': 0x420125,
    # Two tags that the standard leaves to others.
    'other': 0x540001, 'another': 0x540002,
}

REQUEST_HEAD = '''request: a structure
  header: a structure
    version: a structure
      major: integer 2
      minor: integer 1
    OPTION
    batch count: integer COUNT
'''

REPLY_HEAD = '''response: a structure
  response header: a structure
    version: a structure
      major: integer 2
      minor: integer 1
    batch count: integer COUNT
'''

NAME = '''        name: a structure
          name value: text k1
          name type: enumeration 1
'''

KEY = '''        algorithm: enumeration 3
        length: integer 256
        usage: integer 12
'''

LOCATE = '''    operation: enumeration OPERATION
    id: bytes 086b31
    payload: a structure
      mask: integer 5
      attributes: a structure
''' + NAME

CREATE = '''    operation: enumeration 1
    id: bytes 016b31
    payload: a structure
      object type: enumeration 2
      attributes: a structure
''' + NAME + KEY

STEP = '''    operation: enumeration OPERATION
    payload: a structure
      identifier: text 1
'''

REVOKE = STEP + '''      revocation reason: a structure
        revocation code: enumeration 1
'''

DONE = '''    operation: enumeration OPERATION
    id: bytes 016b31
    status: enumeration 0
    response payload: a structure
      object type: enumeration 2
      identifier: text 1
'''

FOUND = '''    operation: enumeration 8
    status: enumeration 0
    response payload: a structure
      identifier: text 1
'''

DESCRIBED = '''    operation: enumeration b
    status: enumeration 0
    response payload: a structure
      identifier: text 1
      attributes: a structure
        object type: enumeration 2
''' + NAME + KEY + '''        state: enumeration 1
'''

FAILED = '''    operation: enumeration 1
    status: enumeration 1
    reason: enumeration 35
'''


def message(head, items, option=''):
    """The lines of a message of these Batch Items."""
    text = head.replace('COUNT', str(len(items))).replace('    OPTION\n', option)
    return text + ''.join('  batch item: a structure\n' + it for it in items)


def one(head, item, operation=''):
    return message(head, [item.replace('OPERATION', operation)])


GOES_ON = '    option: enumeration 1\n'
TWO = [LOCATE.replace('OPERATION', '8'), CREATE]
MESSAGES = {
    'request locate': one(REQUEST_HEAD, LOCATE, '8'),
    'request operation 2': one(REQUEST_HEAD, LOCATE, '2'),
    'request create': one(REQUEST_HEAD, CREATE),
    'request get attributes': one(REQUEST_HEAD, STEP, 'b'),
    'request activate': one(REQUEST_HEAD, STEP, '12'),
    'request destroy': one(REQUEST_HEAD, STEP, '14'),
    'request revoke': one(REQUEST_HEAD, REVOKE, '13'),
    'request two': message(REQUEST_HEAD, TWO, GOES_ON),
    'reply create': one(REPLY_HEAD, DONE, '1'),
    'reply activate': one(REPLY_HEAD, DONE, '12'),
    'reply revoke': one(REPLY_HEAD, DONE, '13'),
    'reply destroy': one(REPLY_HEAD, DONE, '14'),
    'reply locate': one(REPLY_HEAD, FOUND),
    'reply get attributes': one(REPLY_HEAD, DESCRIBED),
    'reply failed create': one(REPLY_HEAD, FAILED),
    'reply two': message(REPLY_HEAD, [FOUND, FAILED]),
}


def lines_of(text):
    """The items of a layout: how deep each stands, its tag and its value."""
    for line in text.splitlines():
        tag, value = line.strip().split(': ')
        yield (len(line) - len(line.lstrip())) // 2, tag, value


def changed(lines, change):
    """The items with a change in them."""
    if match := re.fullmatch(r'(.+), (.+), before (.+)', change):
        new, value, tag = match.groups()
    elif match := re.fullmatch(r'without (.+)|(.+) twice|(.+) (?:is|under) .+', change):
        tag = next(it for it in match.groups() if it)
    start = next(at for at, it in enumerate(lines) if it[1] == tag)
    level, _, own = lines[start]
    end = start + 1
    while end < len(lines) and lines[end][0] > level:
        end += 1
    item, held = lines[start:start + 1], lines[start + 1:end]
    if change.startswith('without '):
        made = []
    elif change.endswith(' twice'):
        made = 2 * (item + held)
    elif ' before ' in change:
        made = [(level, new, value)] + item + held
    elif ' under ' in change:
        made = [(level, change.split(' under ')[1], own)] + held
    else:
        made = [(level, tag, change.split(' is ', 1)[1])]
    return lines[:start] + made + lines[end:]


def value_of(text):
    """The type of an item that is no Structure, and its bytes without padding."""
    kind, _, rest = text.partition(' ')
    if kind == 'integer':
        return 0x02, int(rest).to_bytes(4, 'big', signed=True)
    if kind == 'enumeration':
        return 0x05, int(rest, 16).to_bytes(4, 'big')
    if text == 'no text':
        return 0x07, b''
    if match := re.fullmatch(r'a text of (\d+)', text):
        return 0x07, (b'0123456789' * 10)[:int(match[1])]
    if match := re.fullmatch(r'text in bytes (.+)', text):
        return 0x07, bytes.fromhex(match[1])
    if kind == 'text':
        return 0x07, rest.encode()
    if match := re.fullmatch(r'(\d+) bytes', text):
        return 0x08, bytes(int(match[1]))
    return 0x08, bytes.fromhex(rest)


def bytes_of(lines):
    """The bytes of items, one behind the other."""
    out, at = b'', 0
    while at < len(lines):
        level, tag, text = lines[at]
        at += 1
        if text == 'a structure':
            end = at
            while end < len(lines) and lines[end][0] > level:
                end += 1
            kind, value = 0x01, bytes_of(lines[at:end])
            at = end
        else:
            kind, value = value_of(text)
        padding = bytes(-len(value) % 8)
        out += TAGS[tag].to_bytes(3, 'big') + bytes([kind]) + len(value).to_bytes(4, 'big') + value + padding
    return out


def digits_of(name):
    """The bytes that a row's name says, in hexadecimal; none where it is no such name."""
    base, _, changes = name.partition(', ')
    if base not in MESSAGES:
        return None
    lines = list(lines_of(MESSAGES[base]))
    if changes != 'as it is':
        for change in changes.split(' and '):
            lines = changed(lines, change)
    return bytes_of(lines).hex()


def check_messages():
    """Prints the names in calls that have other bytes than these say, and returns how many there are."""
    wrong = 0
    for path in files_of(CRATE):
        for call in [call for row in rows_in(path) for call in row.calls]:
            name, _, digits = call.head.partition(': ')
            wanted = digits_of(name) if ', ' in name else None
            if wanted not in (None, digits):
                print(f'{path}:{call.number}: other bytes than its name says: {name}')
                wrong += 1
    return wrong


def main():
    if len(sys.argv) == 1:
        return 1 if check_messages() else 0
    print(f'{sys.argv[1]}: {digits_of(sys.argv[1])}')
    return 0


if __name__ == '__main__':
    sys.exit(main())
