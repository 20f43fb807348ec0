"""What `make reading` prints of made-up crates."""
import unittest

from scratch import Scratch, printed
from made_up import CRATES

import reading


class Reading(Scratch):
    def setUp(self):
        super().setUp()
        self.write(CRATES)

    def names(self, lines):
        """The definitions that are printed, in their order."""
        return [line.split()[0] for line in lines if line.startswith('  ') and '  (line ' in line
                and ' : ' not in line and 'ensures' not in line]

    def test_a_list_of_functions(self):
        status, lines = printed(reading.main, [])
        self.assertEqual(status, 0)
        self.assertEqual(lines, [
            'low::Carrier::carry  (careful, quick, worn)', 'low::Carrier::bare  (no clause)',
            'low::Load::undocumented  (no clause)', 'low::Load::is_nothing  (no clause)', 'high::send  (requires, safe, told)'])

    def test_a_function_rests_on_all_its_clauses(self):
        status, lines = printed(reading.main, ['high::send'])
        self.assertEqual(status, 0)
        self.assertEqual(self.names(lines), ['History', 'IsLight', 'Sent', 'IsTold', 'Carried', 'Worn', 'Quick'])
        self.assertEqual([line for line in lines if line.startswith('crates/')], [
            'crates/low/specs/Start.antt: The start.', 'crates/high/specs/Calls.antt: What a call is.',
            'crates/low/specs/Carried.antt: What carrying is.'])
        self.assertEqual([line for line in lines if ' rests on ' in line], [
            'What it promises rests on 4 definitions (8 lines), each below those that it is made of.',
            'What Carrier owes rests on 3 more definitions (6 lines), each below those that it is made of.'])
        self.assertIn('What the methods of Carrier promise (crates/low/src/carrying.rt):', lines)
        self.assertIn('  carry, ensures quick { quick self.old → Quick (history self.new) }  (line 43)', lines)
        self.assertIn('  std.specs.Prelude: Bool, IsTrue, List, ◌≤◌', lines)

    def test_a_clause_rests_on_less(self):
        status, lines = printed(reading.main, ['high::send', 'told'])
        self.assertEqual(status, 0)
        self.assertEqual(self.names(lines), ['IsTold'])
        self.assertNotIn('Carrier', ' '.join(lines))

    def test_the_ghosts_of_a_trait_are_followed(self):
        status, lines = printed(reading.main, ['high::send', 'safe'])
        self.assertEqual(status, 0)
        self.assertEqual(self.names(lines), ['History', 'Sent', 'Carried', 'Worn'])
        self.assertIn('  careful : Self → Type 0  (line 30)', lines)
        self.assertIn('      It drops nothing.', lines)
        self.assertIn('  A careful one stays so.', lines)
        self.assertIn('  carry, ensures worn { careful self.old → Worn (wear self.old) (wear self.new) }  (line 44)', lines)
        self.assertIn('  wear : Self → ℕ  (line 36)', lines)
        self.assertNotIn('quick', ' '.join(lines))
        self.assertEqual(lines[5:7], ['  (asked of the caller; its definitions are left out)', '  requires { IsLight load.now }'])

    def test_what_is_promised_and_what_is_asked_are_two_lists(self):
        self.write({'crates/high/src/calling.rt': CRATES['crates/high/src/calling.rt'].replace(
            'ensures told { IsTold result }', 'ensures told { IsLight load.now → IsFull load.now → IsTold result }').replace(
            'IsLight, IsTold}', 'IsLight, IsTold, IsFull}')})
        lines = printed(reading.main, ['high::send', 'told'])[1]
        self.assertEqual(self.names(lines), ['IsTold', 'IsLight', 'IsFull'])
        self.assertEqual([line for line in lines if ' rests on ' in line], [
            'What is promised rests on 1 definition (2 lines), each below those that it is made of.',
            'What its premises say rests on 2 more definitions (4 lines), each below those that it is made of.'])

    def test_a_method_of_a_type_stands_for_that_of_its_trait(self):
        for wanted in 'low::Load::carry', 'low::Carrier::carry', 'low::carry':
            status, lines = printed(reading.main, [wanted, 'quick'])
            self.assertEqual((status, lines[0]), (0, 'low::Carrier::carry, of crates/low/src/carrying.rt:39'), wanted)
        self.assertEqual(printed(reading.main, ['low::Wear::carry'])[0], 1)

    def test_a_crate_may_show_a_trait_of_another(self):
        self.write({'crates/high/src/lib.rt': CRATES['crates/high/src/lib.rt'] + 'pub use low::{Carrier, Load};\n'})
        self.assertEqual(printed(reading.main, ['high::Carrier::carry', 'quick'])[1][0], 'low::Carrier::carry, of crates/low/src/carrying.rt:39')

    def test_a_method_of_the_trait_names_its_ghosts_bare(self):
        status, lines = printed(reading.main, ['low::Carrier::carry', 'quick'])
        self.assertEqual(status, 0)
        self.assertEqual(self.names(lines), ['History', 'Quick'])

    def test_the_view_of_a_type_leads_to_a_ghost_too(self):
        self.write({'crates/high/src/lib.rt': '//! A.\nmod holding;\npub use holding::Holder;\n', 'crates/high/src/holding.rt': (
            'ghost use Rattle.high.specs.Calls.{IsTold};\n\npub struct Holder<C> {\n    carrier: C,\n}\n\n'
            'impl<C: Carrier> Model for Holder<C> {\n    ghost view = { λ h. C.wear h.carrier };\n}\n\n'
            'impl<C: Carrier, W: Write> Holder<C> {\n    /// Holds.\n    pub fn hold(&self, out: W) -> bool\n'
            '        ensures held { self.now ≡ W.contents out }\n        ensures told { IsTold result }\n    {\n    }\n}\n')})
        status, lines = printed(reading.main, ['high::Holder::hold', 'held'])
        self.assertEqual((status, self.names(lines)), (0, ['Worn']))
        self.assertIn('  wear : Self → ℕ  (line 36)', lines)
        self.assertIn('Ghosts of traits from elsewhere: W.contents of Write', lines)
        self.assertNotIn('ghosts of Carrier', ' '.join(printed(reading.main, ['high::Holder::hold', 'told'])[1]))

    def test_types_are_seen_where_the_clause_names_them(self):
        self.write({'crates/high/src/lib.rt': '//! A.\nmod seeing;\npub use seeing::see;\n', 'crates/high/src/seeing.rt': (
            'impl Model for Held {\n    ghost use Rattle.high.specs.Calls.{IsTold};\n\n    ghost view = { λ h. IsTold h.told };\n}\n\n'
            'impl Model for Given {\n    ghost use Rattle.high.specs.Calls.{IsLight};\n\n    ghost view = { λ g. IsLight g.load };\n}\n\n'
            'pub fn see(held: &Held, count: u32) -> Given\n    ensures first { held.now ≡ count }\n'
            '    ensures second { count ≡ result }\n    ensures third { count ≡ x.held }\n{\n}\n')})
        for clause, wanted in ('first', ['IsTold']), ('second', ['IsLight']), ('third', []):
            status, lines = printed(reading.main, ['high::see', clause])
            self.assertEqual((status, self.names(lines)), (0, wanted))

    def write_records(self):
        """A call whose only promise is a record, over a trait whose one ghost is a record."""
        self.write({
            'crates/high/src/lib.rt': '//! A.\nmod moving;\npub use moving::{Mover, move_on};\n',
            'crates/high/src/moving.rt': (
                'ghost use Rattle.high.specs.Calls.{IsTold};\nghost use Rattle.high.specs.Moves.{Moves, Saw, Steps};\n\n'
                '/// Moves.\npub trait Mover {\n    /// What is seen of it.\n    ghost saw: { Self → Saw };\n\n'
                '    fn step(&mut self)\n        ensures { Steps (saw self.old) (saw self.new) };\n}\n\n'
                '/// Moves on.\npub fn move_on<M: Mover>(mover: &mut M, far: u32) -> bool\n'
                '    // It is far.\n    requires { IsTold far }\n'
                '    ensures { Moves (M.saw mover.old) far result\n        (M.saw mover.new) }\n{\n}\n'),
            'crates/high/specs/Lib.antt': '-- what a call is\npub mod Calls\n-- what moving is\npub mod Moves\n',
            'crates/high/specs/Moves.antt': (
                '-- What moving is.\n-- Source: own.\nuse Rattle.low.specs.Start.{History}\nuse Rattle.low.specs.Carried.{Worn}\n\n'
                '-- what is seen\npub record Saw : Type 1 where\n  -- All that was.\n  pub all : History\n'
                '  -- It is sure.\n  pub sure : Type 0\n  -- It is swift.\n  pub swift : Type 0\n\n'
                '-- what a step is\npub record Steps (old new : Saw) : Type 0 where\n  -- A sure one stays so.\n'
                '  pub surely : old.sure → new.sure\n  -- A swift one stays so.\n  pub swiftly : old.swift → new.swift\n\n'
                '-- it has moved\npub record Safely (far : ℕ) (new : Saw) : Type 0 where\n  -- It is safe.\n  pub safe : Worn far new.all\n\n'
                '-- it moves\npub record Moves (old : Saw) (far : ℕ) (is : Bool) (new : Saw) : Type 0 where\n'
                '  -- Where it was sure.\n  pub well : old.sure → Safely far new\n'
                '  -- It is as it was,\n  -- or moved.\n  pub other : old.swift →\n      is ≡ far\n')})

    def test_the_fields_of_a_lone_record_are_clauses(self):
        self.write_records()
        self.assertIn('high::move_on  (requires, safe, other)', printed(reading.main, [])[1])
        status, lines = printed(reading.main, ['high::move_on', 'other'])
        self.assertEqual((status, self.names(lines)), (0, []))
        self.assertIn('  It is as it was, or moved.', lines)
        self.assertIn('  ensures other { (M.saw mover.old).swift → result ≡ far }', lines)

    def test_a_record_below_has_its_premise(self):
        self.write_records()
        status, lines = printed(reading.main, ['high::move_on', 'safe'])
        self.assertEqual((status, self.names(lines)), (0, ['Worn', 'History']))
        self.assertIn('  ensures safe { (M.saw mover.old).sure → Worn far (M.saw mover.new).all }', lines)

    def test_the_fields_of_a_ghost_are_ghosts(self):
        self.write_records()
        lines = printed(reading.main, ['high::move_on', 'safe'])[1]
        self.assertIn('  sure : Type 0  (line 7)', lines)
        self.assertIn('  step, ensures surely { (saw self.old).sure → (saw self.new).sure }  (line 10)', lines)
        self.assertNotIn('swift', ' '.join(lines))

    def test_a_record_that_says_that_something_is_there_is_one_clause(self):
        self.write_records()
        self.write({'crates/high/specs/Moves.antt': (
            '-- What moving is.\n-- Source: own.\n\n-- it moves\npub record Moves (old : Saw) (far : ℕ) (is : Bool) (new : Saw) : Type 0 where\n'
            '  -- How often.\n  pub often : ℕ\n  -- So often.\n  pub so : often ≡ far\n')})
        self.assertIn('high::move_on  (requires, ensures)', printed(reading.main, [])[1])

    def test_a_lone_record_is_a_clause_too(self):
        self.write_records()
        status, lines = printed(reading.main, ['high::move_on', 'ensures'])
        self.assertEqual(status, 0)
        self.assertIn('Moves', self.names(lines))

    def test_a_clause_without_a_name(self):
        status, lines = printed(reading.main, ['high::send', 'requires'])
        self.assertEqual((status, self.names(lines)), (0, ['IsLight']))
        self.assertNotIn('asked of the caller', ' '.join(lines))

    def test_an_unknown_clause(self):
        self.assertEqual(printed(reading.main, ['high::send', 'sound']),
                         (1, ['high::send has no clause sound; its clauses: requires, safe, told']))

    def test_an_unknown_function(self):
        status, lines = printed(reading.main, ['high::nothing'])
        self.assertEqual((status, len(lines)), (1, 1))


if __name__ == '__main__':
    unittest.main()
