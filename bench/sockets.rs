//! A plain loop over sockets, to stand beside `kmipctl run` and `kmipctl serve`: the same bytes, by std alone.
//!
//!     sockets record PORT RECORDING     carries one connection to the server at PORT, and keeps what was said
//!     sockets server RECORDING          answers one connection as was recorded
//!     sockets client PORT RECORDING [PATH FIRST LAST]
//!                                       asks what was recorded, one message after the other over one connection
//!
//! All ports are of 127.0.0.1. The first two listen at one that the system picks, and print `listening PORT`. A
//! recording has the bytes of each request, and behind them those of its reply. An exchange that is another one
//! than was recorded ends the program with exit status 1.
//!
//! With PATH the client also replaces the file there by texts, as `run` does its progress (bench/replacing.rs). It
//! does so after the first exchange, and after each that is no Locate. Their sizes go from FIRST to LAST bytes.
//!
//! As `kmipctl`, it reads the head of a message by one read and the rest by another, and writes a message by one
//! write. Neither of them sets an option of a socket that would change when bytes go.

mod replacing;

use crate::replacing::Texts;
use std::error::Error;
use std::fs;
use std::io::{self, Read, Write};
use std::net::{Ipv4Addr, TcpListener, TcpStream};

/// The bytes of the head of a message: a tag, a type and the length of the rest.
const HEAD: usize = 8;
/// A longer message is no message of this profile.
const LONGEST: usize = 1 << 20;
/// The item that says that a request is a Locate.
const LOCATE: [u8; 12] = [0x42, 0x00, 0x5C, 5, 0, 0, 0, 4, 0, 0, 0, 8];

/// A request and its reply.
struct Exchange {
    request: Vec<u8>,
    reply: Vec<u8>,
}

type Outcome<T> = Result<T, Box<dyn Error>>;

/// Reads a message in the place of the one that was there; false where the stream has ended before it.
fn receive(stream: &mut impl Read, message: &mut Vec<u8>) -> io::Result<bool> {
    message.resize(HEAD, 0);
    let begun = stream.read(message)?;
    if begun == 0 {
        return Ok(false);
    }
    stream.read_exact(&mut message[begun..])?;
    let rest = u32::from_be_bytes([message[4], message[5], message[6], message[7]]) as usize;
    if rest > LONGEST {
        return Err(io::Error::other("a message is too long"));
    }
    message.resize(HEAD + rest, 0);
    stream.read_exact(&mut message[HEAD..])?;
    Ok(true)
}

/// The exchanges of a recording.
fn recorded(path: &str) -> Outcome<Vec<Exchange>> {
    let bytes = fs::read(path)?;
    let mut rest = bytes.as_slice();
    let mut exchanges = Vec::new();
    let (mut request, mut reply) = (Vec::new(), Vec::new());
    while receive(&mut rest, &mut request)? {
        if !receive(&mut rest, &mut reply)? {
            return Err("the last request of the recording has no reply".into());
        }
        exchanges.push(Exchange {
            request: request.clone(),
            reply: reply.clone(),
        });
    }
    Ok(exchanges)
}

/// The next connection of a port that the system picks, which is printed.
fn accepted() -> io::Result<TcpStream> {
    let listener = TcpListener::bind((Ipv4Addr::LOCALHOST, 0))?;
    println!("listening {}", listener.local_addr()?.port());
    Ok(listener.accept()?.0)
}

/// Carries a connection to a server, and keeps the bytes of each exchange.
fn record(port: u16, path: &str) -> Outcome<()> {
    let mut client = accepted()?;
    let mut server = TcpStream::connect((Ipv4Addr::LOCALHOST, port))?;
    let (mut bytes, mut message) = (Vec::new(), Vec::new());
    while receive(&mut client, &mut message)? {
        bytes.extend_from_slice(&message);
        server.write_all(&message)?;
        if !receive(&mut server, &mut message)? {
            return Err("the server gave no reply".into());
        }
        bytes.extend_from_slice(&message);
        client.write_all(&message)?;
    }
    Ok(fs::write(path, bytes)?)
}

/// Answers a connection with the replies that were recorded, in turn.
fn server(exchanges: &[Exchange]) -> Outcome<()> {
    let mut client = accepted()?;
    let mut request = Vec::new();
    let mut left = exchanges.iter();
    while receive(&mut client, &mut request)? {
        let next = left.next().filter(|exchange| exchange.request == request);
        let exchange = next.ok_or("a request is not the one that was recorded")?;
        client.write_all(&exchange.reply)?;
    }
    Ok(())
}

/// Whether a run learns something by this exchange that it keeps.
fn teaches(number: usize, exchange: &Exchange) -> bool {
    number == 0
        || !exchange
            .request
            .windows(LOCATE.len())
            .any(|item| item == LOCATE)
}

/// The texts that the client keeps after the exchanges that teach.
fn texts(exchanges: &[Exchange], path: &str, first: &str, last: &str) -> Outcome<Texts> {
    let count = exchanges
        .iter()
        .enumerate()
        .filter(|(number, exchange)| teaches(*number, exchange))
        .count();
    Ok(Texts::new(path, count, first.parse()?, last.parse()?))
}

/// Asks all that was recorded, and keeps texts, where there are some.
fn client(port: u16, exchanges: &[Exchange], mut texts: Option<Texts>) -> Outcome<()> {
    let mut server = TcpStream::connect((Ipv4Addr::LOCALHOST, port))?;
    let mut reply = Vec::new();
    for (number, exchange) in exchanges.iter().enumerate() {
        server.write_all(&exchange.request)?;
        if !receive(&mut server, &mut reply)? || reply != exchange.reply {
            return Err(format!(
                "the reply to request {} is not the one that was recorded",
                number + 1
            )
            .into());
        }
        if let Some(texts) = &mut texts
            && teaches(number, exchange)
        {
            texts.replace()?;
        }
    }
    Ok(())
}

fn main() -> Outcome<()> {
    let words: Vec<String> = std::env::args().skip(1).collect();
    let words: Vec<&str> = words.iter().map(String::as_str).collect();
    match words[..] {
        ["record", port, path] => record(port.parse()?, path),
        ["server", path] => server(&recorded(path)?),
        ["client", port, path] => client(port.parse()?, &recorded(path)?, None),
        ["client", port, path, kept, first, last] => {
            let exchanges = recorded(path)?;
            let texts = texts(&exchanges, kept, first, last)?;
            client(port.parse()?, &exchanges, Some(texts))
        }
        _ => Err("see the head of bench/sockets.rs".into()),
    }
}
