//! A baseline for `kmipctl answer`: the same work in plain Rust, with std alone and without contracts.
//!
//! It prints the bytes that `kmipctl answer` prints for the same input. The objects are in a `Vec`, and
//! every look-up goes by one of two maps, from the names and from the identifiers, as in `kmipctl`. The
//! maps are std's. Key material, which no reply shows, is zeros here and not drawn from ChaCha20.

use std::collections::HashMap;
use std::io::{self, BufRead, BufReader, BufWriter, Read, Write};
use std::process::ExitCode;

const MOST_DIGITS: usize = 16_384;
const MAX_DEPTH: usize = 16;
const MAX_SIZE: usize = 8_192;
const ROOM: usize = 10_000;
const SYMMETRIC_KEY: u32 = 2;
const UNINTERPRETED_TEXT: u32 = 1;
const AES: u32 = 3;
const HMAC_SHA256: u32 = 9;

mod tag {
    pub const BATCH_COUNT: u32 = 0x42000D;
    pub const BATCH_ITEM: u32 = 0x42000F;
    pub const ALGORITHM: u32 = 0x420028;
    pub const LENGTH: u32 = 0x42002A;
    pub const USAGE_MASK: u32 = 0x42002C;
    pub const NAME: u32 = 0x420053;
    pub const NAME_TYPE: u32 = 0x420054;
    pub const NAME_VALUE: u32 = 0x420055;
    pub const OBJECT_TYPE: u32 = 0x420057;
    pub const OPERATION: u32 = 0x42005C;
    pub const VERSION: u32 = 0x420069;
    pub const VERSION_MAJOR: u32 = 0x42006A;
    pub const VERSION_MINOR: u32 = 0x42006B;
    pub const REQUEST_HEADER: u32 = 0x420077;
    pub const REQUEST_MESSAGE: u32 = 0x420078;
    pub const REQUEST_PAYLOAD: u32 = 0x420079;
    pub const RESPONSE_HEADER: u32 = 0x42007A;
    pub const RESPONSE_MESSAGE: u32 = 0x42007B;
    pub const RESPONSE_PAYLOAD: u32 = 0x42007C;
    pub const RESULT_REASON: u32 = 0x42007E;
    pub const RESULT_STATUS: u32 = 0x42007F;
    pub const REVOCATION_REASON: u32 = 0x420081;
    pub const REVOCATION_CODE: u32 = 0x420082;
    pub const STATE: u32 = 0x42008D;
    pub const STORAGE_MASK: u32 = 0x42008E;
    pub const TIME_STAMP: u32 = 0x420092;
    pub const BATCH_ITEM_ID: u32 = 0x420093;
    pub const UNIQUE_IDENTIFIER: u32 = 0x420094;
    pub const ATTRIBUTES: u32 = 0x420125;
}

// Operations.
const CREATE: u32 = 0x01;
const LOCATE: u32 = 0x08;
const GET_ATTRIBUTES: u32 = 0x0B;
const ACTIVATE: u32 = 0x12;
const REVOKE: u32 = 0x13;
const DESTROY: u32 = 0x14;

/// A Result Reason.
type Reason = u32;
const NOT_FOUND: Reason = 0x01;
const INVALID_MESSAGE: Reason = 0x04;
const NOT_SUPPORTED: Reason = 0x05;
const MISSING_DATA: Reason = 0x06;
const INVALID_FIELD: Reason = 0x07;
const FEATURE_NOT_SUPPORTED: Reason = 0x08;
const SAME_NAME: Reason = 0x35;
const WRONG_STATE: Reason = 0x43;
const SERVER_FULL: Reason = 0x100;

// Items from bytes.

struct Item {
    tag: u32,
    value: Value,
}

/// A value; those of the types that no request uses are read too, and never looked at.
#[expect(dead_code)]
enum Value {
    Structure(Vec<Item>),
    Integer(i32),
    LongInteger(i64),
    BigInteger(Vec<u8>),
    Enumeration(u32),
    Boolean(bool),
    TextString(String),
    ByteString(Vec<u8>),
    DateTime(i64),
    Interval(u32),
    DateTimeExtended(i64),
}

/// The item at the front of the bytes and its size, or `None` for any fault.
fn read_item(bytes: &[u8], levels: usize) -> Option<(Item, usize)> {
    let levels = levels.checked_sub(1)?;
    let ([t0, t1, t2, kind, l0, l1, l2, l3], rest) = bytes.split_first_chunk()?;
    let tag = u32::from_be_bytes([0, *t0, *t1, *t2]);
    let len = u32::from_be_bytes([*l0, *l1, *l2, *l3]) as usize;
    let padded = len.next_multiple_of(8);
    if padded > rest.len() || padded + 8 > MAX_SIZE {
        return None;
    }
    let bytes = &rest[..len];
    let four = || <[u8; 4]>::try_from(bytes).ok();
    let eight = || <[u8; 8]>::try_from(bytes).ok();
    let value = match kind {
        1 if bytes.len() % 8 == 0 => {
            let (mut items, mut rest) = (Vec::new(), bytes);
            while !rest.is_empty() {
                let (item, size) = read_item(rest, levels)?;
                items.push(item);
                rest = &rest[size..];
            }
            Value::Structure(items)
        }
        2 => Value::Integer(i32::from_be_bytes(four()?)),
        3 => Value::LongInteger(i64::from_be_bytes(eight()?)),
        4 if !bytes.is_empty() && bytes.len() % 8 == 0 => Value::BigInteger(bytes.to_vec()),
        5 => Value::Enumeration(u32::from_be_bytes(four()?)),
        6 => match u64::from_be_bytes(eight()?) {
            0 => Value::Boolean(false),
            1 => Value::Boolean(true),
            _ => return None,
        },
        7 => Value::TextString(str::from_utf8(bytes).ok()?.to_owned()),
        8 => Value::ByteString(bytes.to_vec()),
        9 => Value::DateTime(i64::from_be_bytes(eight()?)),
        10 => Value::Interval(u32::from_be_bytes(four()?)),
        11 => Value::DateTimeExtended(i64::from_be_bytes(eight()?)),
        _ => return None,
    };
    Some((Item { tag, value }, padded + 8))
}

// The items of a Structure, found by their tags.

/// A method that gives what is inside a value of one type, and `None` for another type.
macro_rules! inside {
    ($name:ident, $variant:ident, $type:ty) => {
        fn $name(&self) -> Option<&$type> {
            match self {
                Value::$variant(inside) => Some(inside),
                _ => None,
            }
        }
    };
}

impl Value {
    inside!(structure, Structure, [Item]);
    inside!(integer, Integer, i32);
    inside!(enumeration, Enumeration, u32);
    inside!(text, TextString, str);
    inside!(bytes, ByteString, [u8]);
}

/// A look into a value, by one of these methods.
type Look<T> = fn(&Value) -> Option<&T>;

/// What the item with this tag has inside, where there is one; two, or another type, are a fault.
fn maybe<T: ?Sized>(items: &[Item], tag: u32, look: Look<T>) -> Result<Option<&T>, Reason> {
    let mut found = items.iter().filter(|item| item.tag == tag);
    match (found.next(), found.next()) {
        (None, _) => Ok(None),
        (Some(item), None) => look(&item.value).map(Some).ok_or(INVALID_FIELD),
        (Some(_), Some(_)) => Err(INVALID_FIELD),
    }
}

/// What the one item with this tag has inside.
fn the<T: ?Sized>(items: &[Item], tag: u32, look: Look<T>) -> Result<&T, Reason> {
    maybe(items, tag, look)?.ok_or(MISSING_DATA)
}

fn check(test: bool, reason: Reason) -> Result<(), Reason> {
    if test { Ok(()) } else { Err(reason) }
}

fn only(tags: &[u32], items: &[Item]) -> Result<(), Reason> {
    let is_known = |item: &Item| tags.contains(&item.tag);
    check(items.iter().all(is_known), INVALID_FIELD)
}

// Requests.

/// The Batch Item of a request, its Unique Batch Item ID and its Operation.
type Batch<'a> = (&'a [Item], Option<&'a [u8]>, u32);

fn read_batch(item: &Item) -> Result<Batch<'_>, Reason> {
    let message = item.value.structure().ok_or(INVALID_MESSAGE)?;
    check(item.tag == tag::REQUEST_MESSAGE, INVALID_MESSAGE)?;
    let header = the(message, tag::REQUEST_HEADER, Value::structure)?;
    let version = the(header, tag::VERSION, Value::structure)?;
    let major = the(version, tag::VERSION_MAJOR, Value::integer)?;
    let minor = the(version, tag::VERSION_MINOR, Value::integer)?;
    check((*major, *minor) == (2, 1), INVALID_MESSAGE)?;
    let count = the(header, tag::BATCH_COUNT, Value::integer)?;
    check(*count == 1, INVALID_MESSAGE)?;
    let mut found = message.iter().filter(|item| item.tag == tag::BATCH_ITEM);
    let (Some(item), None) = (found.next(), found.next()) else {
        return Err(INVALID_MESSAGE);
    };
    let batch = item.value.structure().ok_or(INVALID_FIELD)?;
    let id = maybe(batch, tag::BATCH_ITEM_ID, Value::bytes)?;
    check(id.is_none_or(|id| id.len() <= 128), INVALID_FIELD)?;
    Ok((batch, id, *the(batch, tag::OPERATION, Value::enumeration)?))
}

fn read_uid(payload: &[Item]) -> Result<&str, Reason> {
    let uid = the(payload, tag::UNIQUE_IDENTIFIER, Value::text)?;
    check((1..=64).contains(&uid.len()), INVALID_FIELD)?;
    Ok(uid)
}

fn read_name(attrs: &[Item]) -> Result<&str, Reason> {
    let parts = the(attrs, tag::NAME, Value::structure)?;
    let name = the(parts, tag::NAME_VALUE, Value::text)?;
    let is_lawful = (1..=64).contains(&name.len()) && name.bytes().all(|b| b.is_ascii_graphic());
    check(is_lawful, INVALID_FIELD)?;
    let kind = the(parts, tag::NAME_TYPE, Value::enumeration)?;
    check(*kind == UNINTERPRETED_TEXT, INVALID_FIELD)?;
    Ok(name)
}

// The server.

#[derive(Clone, Copy, PartialEq)]
enum State {
    PreActive = 1,
    Active = 2,
    Deactivated = 3,
    Destroyed = 5,
}

struct Row {
    uid: String,
    name: String,
    algorithm: u32,
    length: i32,
    usage: i32,
    state: State,
    material: Vec<u8>,
}

/// The row that an operation is about; only a Locate may have none.
type Outcome<'a> = Result<Option<&'a Row>, Reason>;

#[derive(Default)]
struct Server {
    rows: Vec<Row>,
    /// From the name of each row to its place.
    names: HashMap<String, usize>,
    /// From its identifier.
    uids: HashMap<String, usize>,
}

impl Server {
    fn handle(&mut self, message: &[u8]) -> Vec<u8> {
        let item = read_item(message, MAX_DEPTH).filter(|(_, size)| *size == message.len());
        let read = item.as_ref().ok_or(INVALID_MESSAGE);
        match read.and_then(|(item, _)| read_batch(item)) {
            Err(reason) => write_reply(None, None, Err(reason)),
            Ok((batch, id, operation)) => {
                write_reply(Some(operation), id, self.serve(operation, batch))
            }
        }
    }

    fn serve(&mut self, operation: u32, batch: &[Item]) -> Outcome<'_> {
        use State::*;
        let payload = the(batch, tag::REQUEST_PAYLOAD, Value::structure);
        match operation {
            CREATE => self.create(payload?),
            LOCATE => self.locate(payload?),
            GET_ATTRIBUTES => {
                let uid = read_uid(payload?)?;
                let place = *self.uids.get(uid).ok_or(NOT_FOUND)?;
                Ok(Some(&self.rows[place]))
            }
            ACTIVATE => self.step(read_uid(payload?)?, &[PreActive], Active),
            REVOKE => {
                let uid = read_uid(payload?)?;
                let reason = the(payload?, tag::REVOCATION_REASON, Value::structure)?;
                match *the(reason, tag::REVOCATION_CODE, Value::enumeration)? {
                    // The key, or its authority, is compromised.
                    2 | 3 => Err(FEATURE_NOT_SUPPORTED),
                    1..=7 => self.step(uid, &[Active], Deactivated),
                    _ => Err(INVALID_FIELD),
                }
            }
            DESTROY => self.step(read_uid(payload?)?, &[PreActive, Deactivated], Destroyed),
            _ => Err(NOT_SUPPORTED),
        }
    }

    fn create(&mut self, payload: &[Item]) -> Outcome<'_> {
        use tag::*;
        let object_type = the(payload, OBJECT_TYPE, Value::enumeration)?;
        check(*object_type == SYMMETRIC_KEY, INVALID_FIELD)?;
        let attrs = the(payload, ATTRIBUTES, Value::structure)?;
        only(&[NAME, ALGORITHM, LENGTH, USAGE_MASK], attrs)?;
        let name = read_name(attrs)?;
        let algorithm = *the(attrs, ALGORITHM, Value::enumeration)?;
        check(matches!(algorithm, AES | HMAC_SHA256), INVALID_FIELD)?;
        let length = *the(attrs, LENGTH, Value::integer)?;
        let is_lawful = length == 256 || algorithm == AES && matches!(length, 128 | 192);
        check(is_lawful, INVALID_FIELD)?;
        let usage = *the(attrs, USAGE_MASK, Value::integer)?;
        check((1..=0x1FF).contains(&usage), INVALID_FIELD)?;
        check(!self.names.contains_key(name), SAME_NAME)?;
        let place = self.rows.len();
        check(place < ROOM, SERVER_FULL)?;
        let uid = (place + 1).to_string();
        self.names.insert(name.to_owned(), place);
        self.uids.insert(uid.clone(), place);
        self.rows.push(Row {
            uid,
            name: name.to_owned(),
            algorithm,
            length,
            usage,
            state: State::PreActive,
            material: vec![0; length as usize / 8],
        });
        Ok(self.rows.last())
    }

    fn locate(&self, payload: &[Item]) -> Outcome<'_> {
        use tag::*;
        let mask = maybe(payload, STORAGE_MASK, Value::integer)?.unwrap_or(&1);
        let attrs = the(payload, ATTRIBUTES, Value::structure)?;
        let known = [OBJECT_TYPE, NAME, ALGORITHM, LENGTH, USAGE_MASK, STATE];
        only(&known, attrs)?;
        let object_type = maybe(attrs, OBJECT_TYPE, Value::enumeration)?;
        let name = read_name(attrs)?;
        let algorithm = maybe(attrs, ALGORITHM, Value::enumeration)?;
        let length = maybe(attrs, LENGTH, Value::integer)?;
        let usage = maybe(attrs, USAGE_MASK, Value::integer)?;
        let state = maybe(attrs, STATE, Value::enumeration)?;
        let found = self.names.get(name).map(|place| &self.rows[*place]);
        Ok(found.filter(|row| {
            let bit = if row.state == State::Destroyed { 4 } else { 1 };
            mask & bit != 0
                && object_type.is_none_or(|given| *given == SYMMETRIC_KEY)
                && algorithm.is_none_or(|given| *given == row.algorithm)
                && length.is_none_or(|given| *given == row.length)
                && usage.is_none_or(|given| *given == row.usage)
                && state.is_none_or(|given| *given == row.state as u32)
        }))
    }

    fn step(&mut self, uid: &str, from: &[State], to: State) -> Outcome<'_> {
        let place = *self.uids.get(uid).ok_or(NOT_FOUND)?;
        let row = &mut self.rows[place];
        check(from.contains(&row.state), WRONG_STATE)?;
        row.state = to;
        if to == State::Destroyed {
            row.material = Vec::new();
        }
        Ok(Some(row))
    }
}

// Replies to bytes.

struct Writer(Vec<u8>);

impl Writer {
    fn item(&mut self, tag: u32, kind: u8, value: &[u8]) {
        let [_, t0, t1, t2] = tag.to_be_bytes();
        let [l0, l1, l2, l3] = (value.len() as u32).to_be_bytes();
        self.0.extend([t0, t1, t2, kind, l0, l1, l2, l3]);
        self.0.extend_from_slice(value);
        self.0.resize(self.0.len().next_multiple_of(8), 0);
    }

    /// A Structure of the items that `fill` writes; its length is put in afterwards.
    fn structure(&mut self, tag: u32, fill: impl FnOnce(&mut Self)) {
        self.item(tag, 1, &[]);
        let start = self.0.len();
        fill(self);
        let len = (self.0.len() - start) as u32;
        self.0[start - 4..start].copy_from_slice(&len.to_be_bytes());
    }

    fn integer(&mut self, tag: u32, number: i32) {
        self.item(tag, 2, &number.to_be_bytes());
    }

    fn enumeration(&mut self, tag: u32, number: u32) {
        self.item(tag, 5, &number.to_be_bytes());
    }

    /// The payload of a success.
    fn payload(&mut self, operation: Option<u32>, row: Option<&Row>) {
        let Some(row) = row else { return };
        if operation == Some(CREATE) {
            self.enumeration(tag::OBJECT_TYPE, SYMMETRIC_KEY);
        }
        self.item(tag::UNIQUE_IDENTIFIER, 7, row.uid.as_bytes());
        if operation == Some(GET_ATTRIBUTES) {
            self.structure(tag::ATTRIBUTES, |attrs| {
                attrs.enumeration(tag::OBJECT_TYPE, SYMMETRIC_KEY);
                attrs.structure(tag::NAME, |name| {
                    name.item(tag::NAME_VALUE, 7, row.name.as_bytes());
                    name.enumeration(tag::NAME_TYPE, UNINTERPRETED_TEXT);
                });
                attrs.enumeration(tag::ALGORITHM, row.algorithm);
                attrs.integer(tag::LENGTH, row.length);
                attrs.integer(tag::USAGE_MASK, row.usage);
                attrs.enumeration(tag::STATE, row.state as u32);
            });
        }
    }
}

fn write_reply(operation: Option<u32>, id: Option<&[u8]>, outcome: Outcome) -> Vec<u8> {
    let mut writer = Writer(Vec::new());
    writer.structure(tag::RESPONSE_MESSAGE, |message| {
        message.structure(tag::RESPONSE_HEADER, |header| {
            header.structure(tag::VERSION, |version| {
                version.integer(tag::VERSION_MAJOR, 2);
                version.integer(tag::VERSION_MINOR, 1);
            });
            header.item(tag::TIME_STAMP, 9, &[0; 8]);
            header.integer(tag::BATCH_COUNT, 1);
        });
        message.structure(tag::BATCH_ITEM, |batch| {
            if let Some(operation) = operation {
                batch.enumeration(tag::OPERATION, operation);
            }
            if let Some(id) = id {
                batch.item(tag::BATCH_ITEM_ID, 8, id);
            }
            batch.enumeration(tag::RESULT_STATUS, u32::from(outcome.is_err()));
            match &outcome {
                Ok(row) => {
                    batch.structure(tag::RESPONSE_PAYLOAD, |out| out.payload(operation, *row))
                }
                Err(reason) => batch.enumeration(tag::RESULT_REASON, *reason),
            }
        });
    });
    writer.0
}

// Lines.

fn from_hex(digits: &[u8]) -> Option<Vec<u8>> {
    let (pairs, []) = digits.as_chunks() else {
        return None;
    };
    let digit = |byte: u8| char::from(byte).to_digit(16);
    let mut bytes = vec![0; pairs.len()];
    for (byte, [high, low]) in bytes.iter_mut().zip(pairs) {
        *byte = (digit(*high)? << 4 | digit(*low)?) as u8;
    }
    Some(bytes)
}

fn to_hex_line(bytes: &[u8]) -> Vec<u8> {
    let digit = |number: u8| b"0123456789abcdef"[usize::from(number)];
    let mut line = Vec::with_capacity(2 * bytes.len() + 1);
    let digits = |byte: &u8| [byte >> 4, byte & 15].map(digit);
    line.extend(bytes.iter().flat_map(digits));
    line.push(b'\n');
    line
}

fn main() -> io::Result<ExitCode> {
    let mut reader = BufReader::new(io::stdin().lock());
    let mut writer = BufWriter::new(io::stdout().lock());
    let mut server = Server::default();
    let mut line = Vec::new();
    let mut status = ExitCode::SUCCESS;
    loop {
        // What was written goes out before the reader waits for input.
        if !reader.buffer().contains(&b'\n') {
            writer.flush()?;
        }
        line.clear();
        let mut kept = reader.by_ref().take(MOST_DIGITS as u64 + 1);
        if kept.read_until(b'\n', &mut line)? == 0 {
            break;
        }
        if line.pop_if(|byte| *byte == b'\n').is_none() && line.len() > MOST_DIGITS {
            reader.skip_until(b'\n')?;
        }
        let message = match line.len() {
            0 => continue,
            1..=MOST_DIGITS => from_hex(&line).ok_or("refused: hex\n"),
            _ => Err("refused: length\n"),
        };
        match message {
            Ok(message) => writer.write_all(&to_hex_line(&server.handle(&message)))?,
            Err(refusal) => {
                writer.write_all(refusal.as_bytes())?;
                status = ExitCode::FAILURE;
            }
        }
    }
    writer.flush()?;
    Ok(status)
}
