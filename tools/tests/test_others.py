"""The tools that say what a stored run is to have, and what a check took."""
import os
import time
import unittest

from scratch import Scratch, printed

import check_times
import message_rows


class MessageRows(unittest.TestCase):
    """The bytes are worked out by hand from the standard's layout: a tag, a type, a length, a value and padding."""

    LINES = 'payload: a structure\n  batch count: integer 1\n  identifier: text k1\n'
    COUNT, NAME = '42000d02 00000004 00000001 00000000', '42009407 00000002 6b31000000000000'

    def digits(self, *changes):
        lines = list(message_rows.lines_of(self.LINES))
        for change in changes:
            lines = message_rows.changed(lines, change)
        return message_rows.bytes_of(lines).hex()

    def joined(self, *parts):
        return ''.join(parts).replace(' ', '')

    def test_items_in_bytes(self):
        self.assertEqual(self.digits(), self.joined('42007901 00000020', self.COUNT, self.NAME))

    def test_changes(self):
        self.assertEqual(self.digits('without identifier'), self.joined('42007901 00000010', self.COUNT))
        self.assertEqual(self.digits('identifier twice'), self.joined('42007901 00000030', self.COUNT, self.NAME, self.NAME))
        self.assertEqual(self.digits('without batch count', 'identifier is enumeration 1f'),
                         self.joined('42007901 00000010', '42009405 00000004 0000001f 00000000'))

    def test_a_name_that_says_no_message(self):
        self.assertIsNone(message_rows.digits_of('request nothing, as it is'))


class CheckTimes(Scratch):
    def write_at(self, name, seconds):
        self.write({f'crates/low/out/incremental/{name}': ''})
        os.utime(f'crates/low/out/incremental/{name}', (self.now + seconds, self.now + seconds))

    def test_what_lies_between_two_files(self):
        self.now = time.time() - 100
        self.write_at('Rattle-low-proofs.carrying.first.Lts.oantt', 0)
        self.write_at('Rattle-low-proofs.carrying.first.Proof.oantt', 4)
        self.write_at('Rattle-low-proofs.carrying.second.Lts.oantt', 7)
        lines = printed(check_times.main, 'low')[1]
        self.assertEqual(lines, ['7 seconds: Proof 4, Lts 3', '   4.0  carrying.first', '   3.0  carrying.second'])


if __name__ == '__main__':
    unittest.main()
