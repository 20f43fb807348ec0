//! A server that breaks one rule, by what is changed in the messages to and from one that keeps all.

use std::io;

/// A rule that is broken for the objects of a probe, and the line that tells it.
#[derive(Clone, Copy, Debug, PartialEq, Eq)]
pub enum Breach {
    /// A Create of a used name makes another object, until one is destroyed.
    SecondObject,
    /// A Create of the name of a destroyed object makes another.
    FreedName,
    /// Activate succeeds again.
    SecondActivate,
    /// Destroy of an active object succeeds.
    ActiveDestroyed,
    /// No Locate finds the first object, until it is destroyed.
    Unfound,
    /// No Locate finds the first object from then on.
    DestroyedUnfound,
    /// Get Attributes tells half the length.
    HalfLength,
    /// No reply has the id of its request.
    NoId,
}

pub const BREACHES: [(Breach, &str); 8] = [
    (Breach::SecondObject, "names are unique"),
    (Breach::FreedName, "names stay used after Destroy"),
    (Breach::SecondActivate, "a step made twice changes nothing"),
    (Breach::ActiveDestroyed, "an active object is not destroyed"),
    (Breach::Unfound, "Locate finds objects by their names"),
    (Breach::DestroyedUnfound, "Locate finds destroyed objects"),
    (Breach::HalfLength, "Get Attributes tells all six attributes"),
    (Breach::NoId, "the batch id is echoed"),
];

const CREATE: u8 = 0x01;
const LOCATE: u8 = 0x08;
const ACTIVATE: u8 = 0x12;
const DESTROY: u8 = 0x14;

/// The heads of items: Operation, Result Status and Cryptographic Length, each with its type and length.
const OPERATION: [u8; 8] = [0x42, 0x00, 0x5c, 0x05, 0, 0, 0, 4];
const STATUS: [u8; 8] = [0x42, 0x00, 0x7f, 0x05, 0, 0, 0, 4];
const LENGTH: [u8; 8] = [0x42, 0x00, 0x2a, 0x02, 0, 0, 0, 4];

/// The tag and the type of a Unique Batch Item ID.
const ID: [u8; 4] = [0x42, 0x00, 0x93, 0x08];

/// What a server does that breaks a rule, or none.
pub struct Breaker {
    breach: Option<Breach>,
    /// The first name of the probe.
    name: Vec<u8>,
    /// Whether an object was destroyed.
    has_destroyed: bool,
    /// How many other objects were made.
    made: u8,
    /// The last reply to an Activate that succeeded.
    activated: Option<Vec<u8>>,
}

impl Breaker {
    pub fn new(breach: Option<Breach>, prefix: &str) -> Breaker {
        Breaker {
            breach,
            name: format!("{prefix}-1").into_bytes(),
            has_destroyed: false,
            made: 0,
            activated: None,
        }
    }

    /// The reply to a request, by what the server that keeps the rules replies.
    pub fn answer(
        &mut self,
        request: &[u8],
        serve: impl Fn(&[u8]) -> io::Result<Vec<u8>>,
    ) -> io::Result<Vec<u8>> {
        let Some(breach) = self.breach else {
            return serve(request);
        };
        let operation = operation_of(request);
        let is_hidden = match breach {
            Breach::Unfound => !self.has_destroyed,
            Breach::DestroyedUnfound => self.has_destroyed,
            _ => false,
        };
        let mut reply = if is_hidden && operation == Some(LOCATE) {
            serve(&self.renamed(request, b'~'))?
        } else {
            serve(request)?
        };
        let is_freed = match breach {
            Breach::SecondObject => !self.has_destroyed,
            Breach::FreedName => self.has_destroyed,
            _ => false,
        };
        if is_freed && operation == Some(CREATE) && !has_succeeded(&reply) {
            self.made += 1;
            reply = serve(&self.renamed(request, b'A' + self.made))?;
        }
        let again = match breach {
            Breach::SecondActivate => ACTIVATE,
            Breach::ActiveDestroyed => DESTROY,
            _ => 0,
        };
        if operation == Some(again) && !has_succeeded(&reply) {
            if let Some(activated) = &self.activated {
                reply = with_operation(&with_id_of(activated, request), again);
            }
        }
        if has_succeeded(&reply) {
            match operation {
                Some(ACTIVATE) => self.activated = Some(reply.clone()),
                Some(DESTROY) => self.has_destroyed = true,
                _ => {}
            }
        }
        match breach {
            Breach::HalfLength => set_behind(&mut reply, &LENGTH, &[0, 0, 0, 128]),
            Breach::NoId => clear_id(&mut reply),
            _ => {}
        }
        Ok(reply)
    }

    /// A request about another name of as many characters.
    fn renamed(&self, request: &[u8], first: u8) -> Vec<u8> {
        let mut renamed = request.to_vec();
        if let Some(place) = place_of(request, &self.name) {
            renamed[place] = first;
        }
        renamed
    }
}

/// Where a part stands first.
fn place_of(bytes: &[u8], part: &[u8]) -> Option<usize> {
    bytes.windows(part.len()).position(|window| window == part)
}

/// The number in the item of this head.
fn number_behind(message: &[u8], head: &[u8]) -> Option<u8> {
    place_of(message, head).map(|place| message[place + head.len() + 3])
}

fn operation_of(message: &[u8]) -> Option<u8> {
    number_behind(message, &OPERATION)
}

fn has_succeeded(reply: &[u8]) -> bool {
    number_behind(reply, &STATUS) == Some(0)
}

/// Sets the number in the item of this head, where there is one.
fn set_behind(message: &mut [u8], head: &[u8], number: &[u8; 4]) {
    if let Some(place) = place_of(message, head) {
        let start = place + head.len();
        message[start..start + 4].copy_from_slice(number);
    }
}

fn with_operation(reply: &[u8], operation: u8) -> Vec<u8> {
    let mut changed = reply.to_vec();
    set_behind(&mut changed, &OPERATION, &[0, 0, 0, operation]);
    changed
}

/// The bytes of the id's value, by its length.
fn id_in(message: &[u8]) -> Option<std::ops::Range<usize>> {
    let place = place_of(message, &ID)?;
    Some(place + 8..place + 8 + message[place + 7] as usize)
}

/// A reply with the id of a request: both are of one probe, so the ids are as long.
fn with_id_of(reply: &[u8], request: &[u8]) -> Vec<u8> {
    let mut changed = reply.to_vec();
    if let (Some(to), Some(from)) = (id_in(reply), id_in(request)) {
        changed[to].copy_from_slice(&request[from]);
    }
    changed
}

fn clear_id(reply: &mut [u8]) {
    if let Some(place) = id_in(reply) {
        reply[place].fill(0);
    }
}
