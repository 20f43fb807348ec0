"""The reference of made-up crates."""
import pathlib
import unittest

from scratch import Scratch, printed
from made_up import CRATES
from html_links import dead_links, read

import markup
import reference


class Reference(Scratch):
    def setUp(self):
        super().setUp()
        self.write(CRATES)
        self.result = printed(reference.main, ['out/reference'])
        self.folder = pathlib.Path('out/reference')

    def page(self, name):
        return (self.folder / f'{name}.html').read_text()

    def between(self, name, first, last):
        """The part of a page from one piece of text to the next that ends it."""
        return first + self.page(name).split(first, 1)[1].split(last, 1)[0]

    def test_the_pages(self):
        self.assertEqual(self.result, (0, ['3 pages, from out/reference/index.html on']))
        self.assertEqual(sorted(path.name for path in self.folder.iterdir()), ['high.html', 'index.html', 'low.html'])

    def test_every_link_leads_somewhere(self):
        self.assertEqual(dead_links(self.folder), [])

    def test_the_index_has_a_line_for_each_crate(self):
        self.assertIn('<tr><td><a href="low.html">low</a></td><td>A line that carries numbers.</td></tr>\n'
                      '<tr><td><a href="high.html">high</a></td><td>Who calls a carrier.</td></tr>', self.page('index'))

    def test_the_index_ends_with_what_nothing_is_said_of(self):
        text = read(self.folder / 'index.html').text.split('Public calls with neither a docstring nor a clause')[1]
        text = text.split('Public calls that no test')[0]
        self.assertEqual(text.split(), ['low::Carrier::bare', 'low::Load::undocumented'])

    def test_what_exercises_a_call(self):
        lacking = 'Public calls that no test and no row exercises'
        self.assertIn('high::send', read(self.folder / 'index.html').text.split(lacking)[1].split())
        self.write({'crates.txt': CRATES['crates.txt'] + 'test_high: high\n', 'crates/test_high/src/lib.rt': (
            '//! Tests.\n\nmod tests {\n    #[test]\n    fn sends() {\n        send(&mut carrier, 1);\n    }\n}\n')})
        printed(reference.main, ['out/reference'])
        self.assertNotIn('high::send', read(self.folder / 'index.html').text.split(lacking)[1].split())
        self.assertIn('Exercised by test_high::lib::sends', self.page('high'))

    def test_the_rows_that_exercise_a_call(self):
        self.write({
            'crates.txt': CRATES['crates.txt'] + 'rows_high: high\n', 'crates/rows_high/args': 'some.rows\n',
            'crates/rows_high/stdout': '2 rows, 0 wrong\n', 'crates/rows_high/data/some.rows': '# first\ngive 1\n    yes\n\n# second\ngive 2\n    no\n',
            'crates/rows_high/src/main.rt': (
                '//! Rows.\n\nfn take(word: &str) {\n    match word {\n        "give" => send(&mut carrier, 1),\n'
                '        "take" => nothing(),\n    }\n}\n')})
        printed(reference.main, ['out/reference'])
        self.assertIn('Exercised by rows_high::main::take. Rows with rows_high give (2, as some.rows: first)', self.page('high'))

    def test_a_clause(self):
        self.assertEqual(self.between('high', '<div class="clause" id="send.safe">', '<details>'), (
            '<div class="clause" id="send.safe">\n<p>What was sent is carried.</p>\n'
            '<pre>ensures <b>safe</b> { C.careful carrier.old → <a href="#Calls.Sent">Sent</a> '
            '(C.history carrier.old) (C.history carrier.new) }</pre>\n'
            '<p class="rests">Of Carrier: <a href="low.html#Carrier.careful">careful</a>, '
            '<a href="low.html#Carrier.history">history</a></p>\n'))
        self.assertEqual(self.between('high', '<summary>Definitions that it rests on: 4', '</details>'), (
            '<summary>Definitions that it rests on: 4</summary><a href="low.html#Start.History">History</a>, '
            '<a href="low.html#Carried.Carried">Carried</a>, <a href="low.html#Carried.Worn">Worn</a>, '
            '<a href="#Calls.Sent">Sent</a>'))

    def test_a_premise_may_have_the_name_of_a_promise(self):
        text = (self.top / 'crates/high/src/calling.rt').read_text()
        self.write({'crates/high/src/calling.rt': text.replace('requires {', 'requires safe {')})
        printed(reference.main, ['out/reference'])
        self.assertEqual(dead_links(self.folder), [])
        self.assertIn('id="send.requires.safe"', self.page('high'))

    def test_a_function(self):
        self.assertEqual(self.between('high', '<h3 id="send">', '<div'), (
            '<h3 id="send">send<small>high/src/calling.rt:9</small></h3>\n'
            '<pre>pub fn send&lt;C: <a href="low.html#Carrier">Carrier</a>&gt;(carrier: &amp;mut C, load: u32) -&gt; bool</pre>\n'
            '<p>Sends a load, and says whether it came.</p>\n<p><b>Errors</b></p>\n<p>None.</p>\n'))

    def test_types(self):
        self.assertIn('pub weight: u32,\n    <span class="comment">// private fields</span>\n}</pre>\n<p>A load.</p>\n', self.page('low'))
        self.assertNotIn('hidden', self.page('low'))
        self.assertIn('<h3 id="Load">struct Load<small>low/src/carrying.rt:11</small></h3>\n<pre>pub struct Load {\n', self.page('low'))
        self.assertIn('<p class="rests">Implements <a href="#Carrier">Carrier</a></p>\n'
                      '<p class="rests">Derives Clone, Copy</p>', self.page('low'))
        self.assertIn('<pre>pub const LIMIT: u32 = 8;</pre>\n<p>The most that a load may be.</p>', self.page('low'))
        self.assertIn('<pre>careful : Self → Type 0</pre>\n<p>It drops nothing.</p>', self.page('low'))

    def test_definitions(self):
        self.assertEqual(self.between('low', '<h2 id="specs.Carried">', '<h4 id="Carried.Worn">'), (
            '<h2 id="specs.Carried">specs/Carried<small>low/specs/Carried.antt:1</small></h2>\n'
            '<p>What carrying is.</p>\n<p class="rests">Source: the standard of carrying, section 3.</p>\n'
            '<h4 id="Carried.Carried">Carried<small>low/specs/Carried.antt:7</small></h4>\n<p>The load is at the end.</p>\n'
            '<pre>abbrev pub Carried : ℕ → <a href="#Start.History">History</a> → <a href="#Start.History">History</a> → Type 0\n'
            'Carried load old new = new ≡ old ++ load ∷ []</pre>\n'))

    def test_types_and_constants_of_the_code_in_definitions(self):
        self.assertIn('<pre>abbrev pub IsFull : <a href="low.html#Load">Load</a> → Type 0\n'
                      'IsFull load = load.weight ≡ <a href="low.html#LIMIT">LIMIT</a></pre>', self.page('high'))

    def test_a_list_of_the_code(self):
        self.assertIn('<p>Code: <a href="#LIMIT">LIMIT</a>, <a href="#Load">Load</a>, <a href="#Wear">Wear</a>, '
                      '<a href="#Carrier">Carrier</a></p>', self.page('low'))
        self.assertIn('<p>Code: <a href="#send">send</a></p>\n', self.page('high'))

    def test_the_files_stand_in_the_order_of_their_list(self):
        text = self.page('low')
        self.assertLess(text.index('id="specs.Start"'), text.index('id="specs.Carried"'))
        self.assertIn('<p>what there is at the start</p>\n<p>The start.</p>', text)

    def test_it_is_the_same_again_and_old_pages_go(self):
        before = {path.name: path.read_text() for path in self.folder.iterdir()}
        self.write({'out/reference/gone.html': 'old'})
        printed(reference.main, ['out/reference'])
        self.assertEqual({path.name: path.read_text() for path in self.folder.iterdir()}, before)


class Markup(unittest.TestCase):
    def test_a_docstring(self):
        self.assertEqual(markup.docstring(['One `a < b`', 'line.', '', '- first', '- second', 'goes on', '', '```', 'x < y', '```']), (
            '<p>One <code>a &lt; b</code> line.</p>\n<ul><li>first</li><li>second goes on</li></ul>\n<pre>x &lt; y</pre>'))

    def test_words_and_signs_lead_somewhere(self):
        target = {'name': '#n', '>>=': '#bind', 'other': '#o'}.get
        self.assertEqual(markup.linked('record { name = name } >>= a.other -- other', target), (
            'record { name = <a href="#n">name</a> } <a href="#bind">&gt;&gt;=</a> a.other '
            '<span class="comment">-- other</span>'))


if __name__ == '__main__':
    unittest.main()
