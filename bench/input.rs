//! Writes requests for `kmipctl answer`, one message in hexadecimal a line.
//!
//! `mix REQUESTS KEYS` writes so many requests about so many keys. The keys come into play one after
//! the other, each by its Create, evenly over the whole input. Every other request is about a key
//! that is in play, and of ten such requests three are a Locate, three a Get Attributes, and one each
//! a Create (of a used name), an Activate, a Revoke and a Destroy, drawn by a simple generator.
//!
//! `create ROWS` writes the Creates of so many keys. The others write them, and then so many requests
//! about keys that are drawn among them: `locate ROWS REQUESTS` a Locate of the key's name each, `miss`
//! a Locate of a name that no key has, `get` a Get Attributes, `activate` an Activate (only the first
//! of a key takes effect), and `again` a Create of its name, which is used.

use std::io::{self, BufWriter, Write};

fn item(tag: u32, kind: u8, value: &[u8]) -> Vec<u8> {
    let mut bytes = ((tag << 8) | u32::from(kind)).to_be_bytes().to_vec();
    bytes.extend((value.len() as u32).to_be_bytes());
    bytes.extend(value);
    bytes.resize(bytes.len().next_multiple_of(8), 0);
    bytes
}

fn structure(tag: u32, items: &[Vec<u8>]) -> Vec<u8> {
    item(tag, 1, &items.concat())
}

fn integer(tag: u32, number: i32) -> Vec<u8> {
    item(tag, 2, &number.to_be_bytes())
}

fn enumeration(tag: u32, number: u32) -> Vec<u8> {
    item(tag, 5, &number.to_be_bytes())
}

/// A Request Message with this operation and payload; its batch item id is the operation's number.
fn request(operation: u8, payload: &[Vec<u8>]) -> Vec<u8> {
    let version = structure(0x420069, &[integer(0x42006A, 2), integer(0x42006B, 1)]);
    let header = structure(0x420077, &[version, integer(0x42000D, 1)]);
    let batch = [
        enumeration(0x42005C, u32::from(operation)),
        item(0x420093, 8, &[operation]),
        structure(0x420079, payload),
    ];
    structure(0x420078, &[header, structure(0x42000F, &batch)])
}

fn name(key: usize) -> Vec<u8> {
    let value = item(0x420055, 7, format!("key-{key:05}").as_bytes());
    structure(0x420053, &[value, enumeration(0x420054, 1)])
}

fn uid(key: usize) -> Vec<u8> {
    item(0x420094, 7, key.to_string().as_bytes())
}

/// A Create of an AES key of 256 bits, to encrypt and decrypt. The keys are counted from 1, so a key's
/// number is also the identifier that the server gives it.
fn create(key: usize) -> Vec<u8> {
    let attrs = [
        name(key),
        enumeration(0x420028, 3),
        integer(0x42002A, 256),
        integer(0x42002C, 12),
    ];
    request(1, &[enumeration(0x420057, 2), structure(0x420125, &attrs)])
}

/// A Locate among all objects, the destroyed ones too.
fn locate(key: usize) -> Vec<u8> {
    let attrs = structure(0x420125, &[name(key)]);
    request(8, &[integer(0x42008E, 5), attrs])
}

fn get_attributes(key: usize) -> Vec<u8> {
    request(0x0B, &[uid(key)])
}

fn activate(key: usize) -> Vec<u8> {
    request(0x12, &[uid(key)])
}

fn revoke(key: usize) -> Vec<u8> {
    let reason = structure(0x420081, &[enumeration(0x420082, 1)]);
    request(0x13, &[uid(key), reason])
}

fn destroy(key: usize) -> Vec<u8> {
    request(0x14, &[uid(key)])
}

/// A number below `bound`, by the generator splitmix64.
fn draw(state: &mut u64, bound: usize) -> usize {
    *state = state.wrapping_add(0x9E37_79B9_7F4A_7C15);
    let mixed = (*state ^ (*state >> 30)).wrapping_mul(0xBF58_476D_1CE4_E5B9);
    let mixed = (mixed ^ (mixed >> 27)).wrapping_mul(0x94D0_49BB_1331_11EB);
    ((mixed ^ (mixed >> 31)) % bound as u64) as usize
}

fn mix(requests: usize, keys: usize) -> Vec<Vec<u8>> {
    let mut state = 0;
    let mut in_play = 0;
    let mut messages = Vec::new();
    for place in 0..requests {
        if place * keys / requests >= in_play {
            in_play += 1;
            messages.push(create(in_play));
            continue;
        }
        let key = draw(&mut state, in_play) + 1;
        messages.push(match draw(&mut state, 10) {
            0..=2 => locate(key),
            3..=5 => get_attributes(key),
            6 => create(key),
            7 => activate(key),
            8 => revoke(key),
            _ => destroy(key),
        });
    }
    messages
}

/// The Creates of so many keys, and then so many messages about keys that are drawn among them.
fn after_creates(rows: usize, requests: usize, message: fn(usize) -> Vec<u8>) -> Vec<Vec<u8>> {
    let mut state = 1;
    let mut messages: Vec<_> = (1..=rows).map(create).collect();
    messages.extend((0..requests).map(|_| message(draw(&mut state, rows) + 1)));
    messages
}

fn main() -> io::Result<()> {
    let words: Vec<String> = std::env::args().skip(1).collect();
    let words: Vec<&str> = words.iter().map(String::as_str).collect();
    let number = |word: &str| word.parse::<usize>().map_err(io::Error::other);
    let messages = match words[..] {
        ["mix", requests, keys] => mix(number(requests)?, number(keys)?),
        ["create", rows] => (1..=number(rows)?).map(create).collect(),
        [word, rows, requests] => {
            let message = match word {
                "locate" => locate,
                "miss" => |key| locate(key + 50_000),
                "get" => get_attributes,
                "activate" => activate,
                "again" => create,
                _ => return Err(io::Error::other("see the head of bench/input.rs")),
            };
            after_creates(number(rows)?, number(requests)?, message)
        }
        _ => return Err(io::Error::other("see the head of bench/input.rs")),
    };
    let mut out = BufWriter::new(io::stdout().lock());
    for message in messages {
        for byte in message {
            write!(out, "{byte:02x}")?;
        }
        writeln!(out)?;
    }
    out.flush()
}
