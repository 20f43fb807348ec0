"""Links of made-up documents."""
import unittest

from scratch import Scratch, printed

import links


class Links(Scratch):
    def check(self, text):
        self.write({'docs/B.md': '# The head\n\n## Twice `x`\n\n## Twice x\n\n```\n# no head\n```\n',
                    'crates/one/specs/A.antt': '-- a\nabbrev pub is_a : Type 0\nis_a = A\n',
                    'examples/plan.toml': '', 'docs/A.md': text})
        return printed(links.check_links)[1]

    def test_what_leads_somewhere(self):
        self.assertEqual(self.check(
            '# Own\n\n[b](B.md), [b](B.md#the-head), [x](B.md#twice-x) and [x](B.md#twice-x-1), [own](#own),\n'
            '[a](../crates/one/specs/A.antt), [`is_a`](../crates/one/specs/A.antt#L2), [`one::is_a`](../crates/one/specs/A.antt#L1-L3),\n'
            '[a line](../crates/one/specs/A.antt#L1), [*abbrev*](../crates/one/specs/A.antt#L2), ![picture](../examples/plan.toml "a title"), [there](https://x.org/y),\n'
            '`examples/plan.toml`, `crates/one/out/one`, `crates/NAME/src` and [c][ref].\n\n[ref]: B.md#the-head\n'), [])

    def test_files(self):
        self.assertEqual(self.check('a\n[b](C.md)\n\n`tools/none.py`\n\n[ref]: D.md\n'), [
            'docs/A.md:2: leads nowhere: C.md: no such file', 'docs/A.md:6: leads nowhere: D.md: no such file',
            'docs/A.md:4: leads nowhere: tools/none.py'])

    def test_headings(self):
        self.assertEqual(self.check('[b](B.md#no-head) [b](B.md#twice-x-2)\n'), [
            'docs/A.md:1: leads nowhere: B.md#no-head: no such heading',
            'docs/A.md:1: leads nowhere: B.md#twice-x-2: no such heading'])

    def test_lines(self):
        self.assertEqual(self.check(
            '[a](../crates/one/specs/A.antt#L4)\n[a](../crates/one/specs/A.antt#L0)\n'
            '[`is_a`](../crates/one/specs/A.antt#L1)\n[*is*](../crates/one/specs/A.antt#L2)\n'), [
            'docs/A.md:1: leads nowhere: ../crates/one/specs/A.antt#L4: the file has 3 lines',
            'docs/A.md:2: leads nowhere: ../crates/one/specs/A.antt#L0: the file has 3 lines',
            'docs/A.md:3: leads nowhere: ../crates/one/specs/A.antt#L1: is_a does not stand there',
            'docs/A.md:4: leads nowhere: ../crates/one/specs/A.antt#L2: is does not stand there'])

    def test_names_are_declared_where_a_link_leads(self):
        self.write({'crates/one/src/a.rt': '/// Uses `is_b`.\npub fn is_c() -> bool {\n    is_b()\n}\n'})
        self.assertEqual(self.check(
            '[`is_c`](../crates/one/src/a.rt), [`one::is_c`](../crates/one/src/a.rt), [is_b](../crates/one/src/a.rt)\n'
            '[`is_b`](../crates/one/src/a.rt)\n[`A`](../crates/one/specs/A.antt)\n'), [
            'docs/A.md:2: leads nowhere: ../crates/one/src/a.rt: is_b is not declared there',
            'docs/A.md:3: leads nowhere: ../crates/one/specs/A.antt: A is not declared there'])

    def test_fenced_blocks_have_no_links(self):
        self.assertEqual(self.check('```\n[b](C.md)\n```\n'), [])


if __name__ == '__main__':
    unittest.main()
