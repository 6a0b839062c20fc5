//! A relay on plain mio: one thread, edge-triggered, with one buffer for each direction of a connection.
//!
//!     relay_mio PORT TO CONNECTIONS [SIZE [rounds]]
//!
//! It accepts at 127.0.0.1 at PORT, dials TO for each connection, and passes bytes between the two, until CONNECTIONS connections have ended.
//! The buffers have SIZE bytes, 4096 where none is named. Once the end of either side came it reads no more, and the connection is over once
//! what it read is written.
//!
//! With the word `rounds` it goes on as the relay of this repository does: in rounds, each of which looks once at what is ready, accepts one
//! connection, and makes one read or one write at most for each direction of each connection. So its figures tell what that order costs by
//! itself.

use mio::net::{TcpListener, TcpStream};
use mio::{Events, Interest, Poll, Token};
use std::env;
use std::io::{self, ErrorKind, Read, Write};
use std::time::Duration;

const LISTENER: Token = Token(usize::MAX);

/// What one side sent that the other hasn't: the bytes from `start` to `end`.
struct Direction {
    buffer: Vec<u8>,
    start: usize,
    end: usize,
}

struct Connection {
    near: TcpStream,
    far: TcpStream,
    forth: Direction,
    back: Direction,
    is_ending: bool,
    // Of the near side, and of the far one, with the word `rounds`.
    ready: [Ready; 2],
}

/// What a side was reported ready for, until a call on it would have blocked.
#[derive(Clone, Copy, Default)]
struct Ready {
    read: bool,
    write: bool,
}

impl Direction {
    fn new(size: usize) -> Direction {
        Direction { buffer: vec![0; size], start: 0, end: 0 }
    }

    // Reads and writes until either would block. It answers whether the end came.
    fn pump(&mut self, mut from: &TcpStream, mut to: &TcpStream, reads: bool) -> io::Result<bool> {
        loop {
            if self.start < self.end {
                match to.write(&self.buffer[self.start..self.end]) {
                    Ok(count) => self.start += count,
                    Err(error) if error.kind() == ErrorKind::WouldBlock => return Ok(false),
                    Err(error) => return Err(error),
                }
                continue;
            }
            if !reads {
                return Ok(false);
            }
            match from.read(&mut self.buffer) {
                Ok(0) => return Ok(true),
                Ok(count) => (self.start, self.end) = (0, count),
                Err(error) if error.kind() == ErrorKind::WouldBlock => return Ok(false),
                Err(error) => return Err(error),
            }
        }
    }

    // Reads once, or writes once, where that was reported. It answers whether the end came.
    fn step(&mut self, mut from: &TcpStream, mut to: &TcpStream, reads: bool, read: &mut bool, write: &mut bool) -> io::Result<bool> {
        if self.start < self.end {
            if *write {
                match to.write(&self.buffer[self.start..self.end]) {
                    Ok(count) => self.start += count,
                    Err(error) if error.kind() == ErrorKind::WouldBlock => *write = false,
                    Err(error) => return Err(error),
                }
            }
        } else if reads && *read {
            match from.read(&mut self.buffer) {
                Ok(0) => return Ok(true),
                Ok(count) => (self.start, self.end) = (0, count),
                Err(error) if error.kind() == ErrorKind::WouldBlock => *read = false,
                Err(error) => return Err(error),
            }
        }
        Ok(false)
    }

    fn is_empty(&self) -> bool {
        self.start == self.end
    }

    // Its next step makes a call.
    fn is_at_hand(&self, reads: bool, read: bool, write: bool) -> bool {
        if self.is_empty() { reads && read } else { write }
    }
}

impl Connection {
    // It answers whether the connection is over.
    fn pump(&mut self) -> bool {
        let reads = !self.is_ending;
        let forth = self.forth.pump(&self.near, &self.far, reads);
        let back = self.back.pump(&self.far, &self.near, reads);
        match (forth, back) {
            (Ok(one), Ok(other)) => {
                self.is_ending |= one | other;
                self.is_ending && self.forth.is_empty() && self.back.is_empty()
            }
            _ => true,
        }
    }

    // A step of each direction. It answers whether the connection is over.
    fn step(&mut self) -> bool {
        let [near, far] = &mut self.ready;
        let forth = self.forth.step(&self.near, &self.far, !self.is_ending, &mut near.read, &mut far.write);
        self.is_ending |= matches!(forth, Ok(true));
        let back = self.back.step(&self.far, &self.near, !self.is_ending, &mut far.read, &mut near.write);
        self.is_ending |= matches!(back, Ok(true));
        forth.is_err() || back.is_err() || self.is_ending && self.forth.is_empty() && self.back.is_empty()
    }

    fn is_at_hand(&self) -> bool {
        let [near, far] = self.ready;
        let reads = !self.is_ending;
        self.forth.is_at_hand(reads, near.read, far.write) || self.back.is_at_hand(reads, far.read, near.write)
    }
}

// Makes rounds until so many connections have ended.
fn make_rounds(mut poll: Poll, listener: TcpListener, to: usize, mut left: usize, size: usize) -> io::Result<()> {
    let both = Interest::READABLE | Interest::WRITABLE;
    let mut events = Events::with_capacity(1024);
    let mut open: Vec<Option<Connection>> = Vec::new();
    let (mut free, mut arriving) = (Vec::new(), false);
    while left > 0 {
        let at_hand = arriving || open.iter().flatten().any(Connection::is_at_hand);
        poll.poll(&mut events, at_hand.then_some(Duration::ZERO))?;
        for event in &events {
            if event.token() == LISTENER {
                arriving = true;
            } else if let Some(conn) = &mut open[event.token().0 / 2] {
                let side = &mut conn.ready[event.token().0 % 2];
                side.read |= event.is_readable() || event.is_read_closed();
                side.write |= event.is_writable();
            }
        }
        if arriving {
            match listener.accept() {
                Ok((mut near, _)) => {
                    let mut far = TcpStream::connect(format!("127.0.0.1:{to}").parse().unwrap())?;
                    let at = free.pop().unwrap_or(open.len());
                    poll.registry().register(&mut near, Token(2 * at), both)?;
                    poll.registry().register(&mut far, Token(2 * at + 1), both)?;
                    let (forth, back) = (Direction::new(size), Direction::new(size));
                    let conn = Connection { near, far, forth, back, is_ending: false, ready: Default::default() };
                    if at == open.len() {
                        open.push(Some(conn));
                    } else {
                        open[at] = Some(conn);
                    }
                }
                Err(_) => arriving = false,
            }
        }
        for (at, slot) in open.iter_mut().enumerate() {
            if slot.as_mut().is_some_and(Connection::step) {
                *slot = None;
                free.push(at);
                left -= 1;
            }
        }
    }
    Ok(())
}

fn main() -> io::Result<()> {
    let mut args: Vec<String> = env::args().skip(1).collect();
    let rounds = args.last().is_some_and(|word| word == "rounds");
    args.truncate(args.len() - rounds as usize);
    let words: Vec<usize> = args.iter().map(|word| word.parse().unwrap()).collect();
    let (port, to, mut left) = (words[0], words[1], words[2]);
    let size = words.get(3).copied().unwrap_or(4096);
    let mut poll = Poll::new()?;
    let mut events = Events::with_capacity(1024);
    let mut listener = TcpListener::bind(format!("127.0.0.1:{port}").parse().unwrap())?;
    poll.registry().register(&mut listener, LISTENER, Interest::READABLE)?;
    if rounds {
        return make_rounds(poll, listener, to, left, size);
    }
    let both = Interest::READABLE | Interest::WRITABLE;
    let mut open: Vec<Option<Connection>> = Vec::new();
    let mut free = Vec::new();
    while left > 0 {
        poll.poll(&mut events, None)?;
        for event in &events {
            if event.token() == LISTENER {
                while let Ok((mut near, _)) = listener.accept() {
                    let mut far = TcpStream::connect(format!("127.0.0.1:{to}").parse().unwrap())?;
                    let at = free.pop().unwrap_or(open.len());
                    poll.registry().register(&mut near, Token(at), both)?;
                    poll.registry().register(&mut far, Token(at), both)?;
                    let (forth, back) = (Direction::new(size), Direction::new(size));
                    let conn = Connection { near, far, forth, back, is_ending: false, ready: Default::default() };
                    if at == open.len() {
                        open.push(Some(conn));
                    } else {
                        open[at] = Some(conn);
                    }
                }
                continue;
            }
            let at = event.token().0;
            if let Some(conn) = &mut open[at] {
                if conn.pump() {
                    open[at] = None;
                    free.push(at);
                    left -= 1;
                }
            }
        }
    }
    Ok(())
}
