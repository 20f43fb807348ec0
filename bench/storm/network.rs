//! A network that loses, repeats, delays and cuts messages: a proxy before a server.

use crate::breaker::{Breach, Breaker};
use std::collections::HashMap;
use std::io::{self, Read, Write};
use std::net::{Shutdown, TcpListener, TcpStream};
use std::sync::atomic::{AtomicBool, AtomicU16, AtomicU64, AtomicUsize, Ordering};
use std::sync::{Arc, Mutex};
use std::thread;
use std::time::Duration;

/// A generator of numbers: xorshift.
pub struct Random(u64);

impl Random {
    pub fn new(seed: u64) -> Random {
        Random(seed | 1)
    }

    fn next(&mut self) -> u64 {
        self.0 ^= self.0 << 13;
        self.0 ^= self.0 >> 7;
        self.0 ^= self.0 << 17;
        self.0
    }

    pub fn below(&mut self, most: u64) -> u64 {
        (self.next() >> 16) % most
    }
}

/// What the network does with an exchange.
#[derive(Clone, Copy, Debug, PartialEq, Eq, Hash)]
pub enum Weather {
    Pass,
    LoseRequest,
    LoseReply,
    Delay,
    Double,
    CutRequest,
    CutReply,
    Reset,
}

/// What the proxy and the storm share.
pub struct Shared {
    /// The port of the server behind the proxy.
    server: AtomicU16,
    pub is_calm: AtomicBool,
    /// Of how many exchanges nine are disturbed in a storm.
    sides: AtomicU64,
    /// How many connections are carried.
    pub carried: AtomicUsize,
    random: Mutex<Random>,
    /// Requests whose delivery is still to come.
    delayed: Mutex<Vec<Vec<u8>>>,
    /// The replies of the server, in the order in which it gave them.
    pub replies: Mutex<Vec<Vec<u8>>>,
    /// How often each thing happened.
    pub counts: Mutex<HashMap<Weather, u64>>,
    /// The rule that the server seems to break.
    breaker: Mutex<Breaker>,
}

impl Shared {
    pub fn new(server: u16, seed: u64) -> Shared {
        Shared {
            server: AtomicU16::new(server),
            is_calm: AtomicBool::new(false),
            sides: AtomicU64::new(16),
            carried: AtomicUsize::new(0),
            random: Mutex::new(Random::new(seed)),
            delayed: Mutex::new(Vec::new()),
            replies: Mutex::new(Vec::new()),
            counts: Mutex::new(HashMap::new()),
            breaker: Mutex::new(Breaker::new(None, "")),
        }
    }

    /// The port of the server behind the proxy.
    pub fn server(&self) -> u16 {
        self.server.load(Ordering::SeqCst)
    }

    /// Another server is behind the proxy. Nothing may be under way.
    pub fn exchange(&self, server: u16) {
        self.server.store(server, Ordering::SeqCst);
    }

    /// A storm that disturbs nine exchanges of so many, over which the server seems to break a rule
    /// where the names of a probe are concerned.
    pub fn begin_probe(&self, sides: u64, breach: Option<Breach>, prefix: &str) {
        self.sides.store(sides, Ordering::SeqCst);
        self.is_calm.store(false, Ordering::SeqCst);
        *self.breaker.lock().unwrap() = Breaker::new(breach, prefix);
    }

    /// Waits until no connection is carried, and delivers or drops what was delayed. The proxy listens at this port.
    pub fn end_storm(&self, proxy: u16) -> io::Result<()> {
        // Connections are taken in the order in which they came: once this one has ended, those of runs that were
        // killed are taken, too.
        let mut last = TcpStream::connect(("127.0.0.1", proxy))?;
        last.shutdown(Shutdown::Write)?;
        last.read_to_end(&mut Vec::new())?;
        while self.carried.load(Ordering::SeqCst) > 0 {
            thread::sleep(Duration::from_millis(1));
        }
        self.deliver_delayed(true)
    }

    /// How many seconds an exchange may take. No reply is lost in a calm, so that a busy machine costs no exchange there.
    pub fn patience(&self) -> u64 {
        if self.is_calm.load(Ordering::SeqCst) { 60 } else { 2 }
    }

    pub fn below(&self, most: u64) -> u64 {
        self.random.lock().unwrap().below(most)
    }

    /// What becomes of the next exchange: all pass when it is calm.
    fn weather(&self) -> Weather {
        if self.is_calm.load(Ordering::SeqCst) {
            return Weather::Pass;
        }
        let weather = match self.below(self.sides.load(Ordering::SeqCst)) {
            0 | 1 => Weather::LoseRequest,
            2 | 3 => Weather::LoseReply,
            4 => Weather::Delay,
            5 => Weather::Double,
            6 => Weather::CutRequest,
            7 => Weather::CutReply,
            8 => Weather::Reset,
            _ => Weather::Pass,
        };
        *self.counts.lock().unwrap().entry(weather).or_insert(0) += 1;
        weather
    }

    /// Delivers a request to the server over a connection of its own, and notes the reply.
    fn deliver(&self, request: &[u8]) -> io::Result<Vec<u8>> {
        // One delivery at a time, so that the replies are noted in the order in which they were given.
        let mut replies = self.replies.lock().unwrap();
        let reply = self.breaker.lock().unwrap().answer(request, |asked| self.served(asked))?;
        replies.push(reply.clone());
        Ok(reply)
    }

    /// The server's reply to a request.
    fn served(&self, request: &[u8]) -> io::Result<Vec<u8>> {
        let mut stream = TcpStream::connect(("127.0.0.1", self.server()))?;
        stream.write_all(request)?;
        read_message(&mut stream)?.ok_or_else(|| io::Error::from(io::ErrorKind::UnexpectedEof))
    }

    /// Lets only a part of a request come to the server.
    fn deliver_part(&self, part: &[u8]) -> io::Result<()> {
        let _replies = self.replies.lock().unwrap();
        let mut stream = TcpStream::connect(("127.0.0.1", self.server()))?;
        stream.write_all(part)?;
        stream.shutdown(Shutdown::Write)?;
        let mut rest = Vec::new();
        stream.read_to_end(&mut rest)?;
        Ok(())
    }

    /// Delivers some of what was delayed, or all of it, in any order; in the end some of it is dropped.
    fn deliver_delayed(&self, is_end: bool) -> io::Result<()> {
        loop {
            let request = {
                let mut delayed = self.delayed.lock().unwrap();
                if delayed.is_empty() || (!is_end && self.below(3) > 0) {
                    return Ok(());
                }
                let place = self.below(delayed.len() as u64) as usize;
                delayed.swap_remove(place)
            };
            if !is_end || self.below(4) > 0 {
                self.deliver(&request)?;
            }
        }
    }
}

/// The next message of a stream; none at its end.
pub fn read_message(stream: &mut TcpStream) -> io::Result<Option<Vec<u8>>> {
    let mut head = [0; 8];
    let mut held = 0;
    while held < 8 {
        match stream.read(&mut head[held..])? {
            0 => return Ok(None),
            count => held += count,
        }
    }
    let size = u32::from_be_bytes([head[4], head[5], head[6], head[7]]) as usize;
    let mut message = head.to_vec();
    message.resize(8 + size, 0);
    stream.read_exact(&mut message[8..])?;
    Ok(Some(message))
}

/// Carries the messages of one connection, until the weather ends it.
fn carry(shared: &Shared, stream: &mut TcpStream) -> io::Result<()> {
    while let Some(request) = read_message(stream)? {
        shared.deliver_delayed(false)?;
        let reply = match shared.weather() {
            Weather::Pass => shared.deliver(&request)?,
            Weather::LoseRequest => return Ok(()),
            Weather::LoseReply => return shared.deliver(&request).map(|_| ()),
            Weather::Delay => {
                shared.delayed.lock().unwrap().push(request);
                return Ok(());
            }
            Weather::Double => {
                let first = shared.deliver(&request)?;
                let second = shared.deliver(&request)?;
                if shared.below(2) == 0 { first } else { second }
            }
            Weather::CutRequest => {
                let count = shared.below(request.len() as u64) as usize;
                return shared.deliver_part(&request[..count]);
            }
            Weather::CutReply => {
                let reply = shared.deliver(&request)?;
                let count = shared.below(reply.len() as u64) as usize;
                return stream.write_all(&reply[..count]);
            }
            Weather::Reset => {
                // More than a reply, and no message: the client has to see that.
                shared.deliver(&request)?;
                return stream.write_all(&[0xff; 64]);
            }
        };
        stream.write_all(&reply)?;
    }
    Ok(())
}

/// Accepts connections, each in a thread of its own.
pub fn proxy(shared: Arc<Shared>) -> io::Result<u16> {
    let listener = TcpListener::bind(("127.0.0.1", 0))?;
    let port = listener.local_addr()?.port();
    thread::spawn(move || {
        for stream in listener.incoming().flatten() {
            let shared = Arc::clone(&shared);
            shared.carried.fetch_add(1, Ordering::SeqCst);
            thread::spawn(move || {
                let mut stream = stream;
                let _ = carry(&shared, &mut stream);
                drop(stream);
                shared.carried.fetch_sub(1, Ordering::SeqCst);
            });
        }
    });
    Ok(port)
}
