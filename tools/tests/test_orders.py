"""How many orders several clients have, and whether the tests of test_company have these numbers."""
import re
import unittest

from scratch import TOOLS

import orders

TESTS = TOOLS.parent / 'crates/test_company/src/orders.rt'
TEST = re.compile(r'^#\[test\]\nfn (\w+)\(.*?^    run_all\(.*?, ([\d_]+)\)\n}', re.S | re.M)


class Orders(unittest.TestCase):
    def test_one_client(self):
        self.assertEqual(orders.count((('active',),), 0, ()), 1)

    def test_two_clients_by_hand(self):
        """One of the two asks its Locate first. Where its Create comes next, the other finds the key: one order.
        Where the other's Locate comes next, both find nothing: either Create may be the first."""
        self.assertEqual(orders.count((('created',),) * 2, 0, ()), 2 * (1 + 2))

    def test_one_client_and_a_lost_reply(self):
        """The reply to Locate, to Create or to Activate is lost, or none is."""
        self.assertEqual(orders.count((('active',),), 1, ('ReplyLost',)), 4)

    def test_what_the_tests_have(self):
        found = {name: int(number.replace('_', '')) for name, number in TEST.findall(TESTS.read_text())}
        self.assertEqual(found, {name: orders.count(*scene) for name, *scene in orders.TESTS})
