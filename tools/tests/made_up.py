"""Two made-up crates: a line that carries numbers, and a caller over any line."""

CRATES = {
    'crates.txt': '# A crate, and the crates that it stands on.\nlow:\nhigh: low\n',
    'crates/low/src/lib.rt': (
        '//! A line that carries\n//! numbers.\n//!\n//! More of it.\n#![tactic(auto)]\n\n'
        'mod carrying;\n\npub use carrying::{Carrier, LIMIT, Load, Wear};\n'),
    'crates/low/src/carrying.rt': '''//! What carries.
ghost use Rattle.std.specs.Prelude.{◌≡◌, ◌≤◌, ℕ};
ghost use Rattle.low.specs.Start.{History};
ghost use Rattle.low.specs.Carried.{Carried, Worn, Quick};

/// The most that a load may be.
pub const LIMIT: u32 = 8;

/// A load.
#[derive(Clone, Copy)]
pub struct Load {
    /// How heavy it is, in pounds.
    pub weight: u32,
    hidden: u32,
}

/// How worn it is.
pub enum Wear {
    New,
    /// With a count.
    Old(u32),
}

/// What carries loads.
pub trait Carrier {
    /// All that was carried so far.
    ghost history: { Self → History };

    /// It drops nothing.
    ghost careful: { Self → Type 0 };

    /// The same, and it is never late.
    ghost quick: { Self → Type 0 };

    /// How worn it is.
    ghost wear: { Self → ℕ };

    /// Carries a load.
    fn carry(&mut self, load: u32) -> bool
        // A careful one stays so.
        ensures careful { careful self.old → careful self.new
            × Carried load.now (history self.old) (history self.new) }
        ensures quick { quick self.old → Quick (history self.new) }
        ensures worn { careful self.old → Worn (wear self.old) (wear self.new) };

    fn bare(&self);
}

impl Load {
    pub fn undocumented(self) -> u32 {
        self.weight
    }

    /// Whether it weighs nothing.
    pub fn is_nothing(self) -> bool {
        self.weight == 0
    }
}

impl Carrier for Load {
    ghost wear = { λ load. load.weight };
}
''',
    'crates/low/specs/Lib.antt': '-- what there is at the start\npub mod Start\npub mod Carried\n',
    'crates/low/specs/Start.antt': (
        '-- The start.\n-- Source: own.\nuse Rattle.std.specs.Prelude.{ℕ, List}\n\n'
        '-- what was carried, the first one first\nabbrev pub History : Type 0\nHistory = List ℕ\n'),
    'crates/low/specs/Carried.antt': '''-- What carrying is.
-- Source: the standard of carrying, section 3.
use Rattle.std.specs.Prelude.{◌≡◌, ◌++◌, ◌∷◌, [], ℕ}
use Rattle.low.specs.Start.{History}

-- The load is at the end.
abbrev pub Carried : ℕ → History → History → Type 0
Carried load old new = new ≡ old ++ load ∷ []

-- it is no less worn
abbrev pub Worn : ℕ → ℕ → Type 0
Worn old new = old ≤ new

abbrev pub Quick : History → Type 0
Quick history = history ≡ history
''',
    'crates/high/src/lib.rt': (
        '//! Who calls a carrier.\n#![tactic(auto)]\n\nmod calling;\n\npub use calling::send;\n'),
    'crates/high/src/calling.rt': '''//! Calls.
ghost use Rattle.std.specs.Prelude.{◌≤◌, IsTrue};
ghost use Rattle.high.specs.Calls.{Sent, IsLight, IsTold};

/// Sends a load, and says whether it came.
///
/// # Errors
/// None.
pub fn send<C: Carrier>(carrier: &mut C, load: u32) -> bool
    requires { IsLight load.now }
    // What was sent is carried.
    ensures safe { C.careful carrier.old
        → Sent (C.history carrier.old) (C.history carrier.new) }
    ensures told { IsTold result }
{
    carrier.carry(load)
}
''',
    'crates/high/specs/Lib.antt': 'pub mod Calls\n',
    'crates/high/specs/Calls.antt': '''-- What a call is.
-- Source: own.
use Rattle.std.specs.Prelude.{◌≤◌, ℕ, Bool, IsTrue}
use Rattle.low.specs.Start.{History}
use Rattle.low.specs.declared.carrying.Load.{Load}
use Rattle.low.specs.declared.carrying.TheConstants.{LIMIT}

-- the load is light
abbrev pub IsLight : ℕ → Type 0
IsLight load = load ≤ 8

-- what was carried later
pub record Sent (old : History) (new : History) : Type 0 where
  pub later : old ≤ new

-- it was told
abbrev pub IsTold : Bool → Type 0
IsTold told = IsTrue told

-- no load is heavier
abbrev pub IsFull : Load → Type 0
IsFull load = load.weight ≡ LIMIT
''',
}
