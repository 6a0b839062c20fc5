//! A line server on plain mio: one thread, edge-triggered, with buffers of its own, and each line answered in capitals.
//!
//!     lines_mio PORT CONNECTIONS [short] [nodelay]
//!
//! It serves whoever dials 127.0.0.1 at PORT until CONNECTIONS connections have ended. A connection is read until the read would block, and the
//! answers to what it read are written together; with the word `short`, a read that does not fill the buffer is taken to have emptied the
//! socket, which saves a call of the system for each request. With the word `nodelay`, the sockets are told not to hold back small segments
//! (TCP_NODELAY).
//!
//! It deals in bytes: it does not ask whether a line is UTF-8.

use mio::net::{TcpListener, TcpStream};
use mio::{Events, Interest, Poll, Token};
use std::env;
use std::io::{self, ErrorKind, Read, Write};

const LISTENER: Token = Token(usize::MAX);

struct Connection {
    stream: TcpStream,
    /// The start of a line whose end has not come.
    input: Vec<u8>,
    /// Answers, of which so many bytes have been written.
    output: Vec<u8>,
    written: usize,
    /// The peer is known to send no more than the socket holds already.
    is_closing: bool,
    /// The peer's end of stream has been read.
    is_at_end: bool,
}

impl Connection {
    fn new(stream: TcpStream) -> Connection {
        Connection {
            stream,
            input: Vec::new(),
            output: Vec::new(),
            written: 0,
            is_closing: false,
            is_at_end: false,
        }
    }

    // Answers the lines that end in these bytes, and keeps the rest.
    fn take(&mut self, mut bytes: &[u8]) {
        while let Some(at) = memchr::memchr(b'\n', bytes) {
            let (line, rest) = bytes.split_at(at + 1);
            let start = self.output.len();
            self.output.append(&mut self.input);
            self.output.extend_from_slice(line);
            self.output[start..].make_ascii_uppercase();
            bytes = rest;
        }
        self.input.extend_from_slice(bytes);
    }

    // Answers a last line that has no newline.
    fn take_end(&mut self) {
        self.is_at_end = true;
        let start = self.output.len();
        self.output.append(&mut self.input);
        self.output[start..].make_ascii_uppercase();
    }

    // Writes the answers: whether they have all been written.
    fn flush(&mut self) -> io::Result<bool> {
        while self.written < self.output.len() {
            match self.stream.write(&self.output[self.written..]) {
                Ok(0) => return Err(ErrorKind::WriteZero.into()),
                Ok(count) => self.written += count,
                Err(error) if error.kind() == ErrorKind::WouldBlock => return Ok(false),
                Err(error) if error.kind() == ErrorKind::Interrupted => {}
                Err(error) => return Err(error),
            }
        }
        self.output.clear();
        self.written = 0;
        Ok(true)
    }

    // Does what can be done without waiting: whether the connection has ended. It reads until the read would block, and then writes; but first
    // it writes what it has where that is much, and it reads nothing while an answer waits to be written, so that a peer that reads nothing
    // cannot make the server keep ever more.
    fn turn(&mut self, chunk: &mut [u8], is_short: bool) -> io::Result<bool> {
        let mut is_dry = false;
        loop {
            if !self.flush()? {
                return Ok(false);
            }
            if self.is_at_end || is_dry {
                return Ok(self.is_at_end);
            }
            while !self.is_at_end && !is_dry && self.output.len() < chunk.len() {
                match self.stream.read(chunk) {
                    Ok(0) => self.take_end(),
                    Ok(count) => {
                        self.take(&chunk[..count]);
                        is_dry = is_short && count < chunk.len() && !self.is_closing;
                    }
                    Err(error) if error.kind() == ErrorKind::WouldBlock => is_dry = true,
                    Err(error) if error.kind() == ErrorKind::Interrupted => {}
                    Err(error) => return Err(error),
                }
            }
        }
    }
}

fn main() -> io::Result<()> {
    let words: Vec<String> = env::args().skip(1).collect();
    let [port, connections, options @ ..] = words.as_slice() else {
        eprintln!("usage: lines_mio PORT CONNECTIONS [short] [nodelay]");
        std::process::exit(2);
    };
    let (port, connections): (u16, u64) = (port.parse().unwrap(), connections.parse().unwrap());
    let is_short = options.iter().any(|option| option == "short");
    let is_nodelay = options.iter().any(|option| option == "nodelay");

    let mut poll = Poll::new()?;
    let mut events = Events::with_capacity(1024);
    let mut listener = TcpListener::bind(([127, 0, 0, 1], port).into())?;
    poll.registry().register(&mut listener, LISTENER, Interest::READABLE)?;
    // The token of a connection is its place; the place of one that has ended is given to another.
    let mut open: Vec<Option<Connection>> = Vec::new();
    let mut free: Vec<usize> = Vec::new();
    let mut chunk = vec![0; 64 * 1024];
    let mut ended = 0;

    while ended < connections {
        match poll.poll(&mut events, None) {
            Err(error) if error.kind() == ErrorKind::Interrupted => continue,
            polled => polled?,
        }
        for event in &events {
            if event.token() == LISTENER {
                loop {
                    let mut stream = match listener.accept() {
                        Ok((stream, _)) => stream,
                        Err(error) if error.kind() == ErrorKind::WouldBlock => break,
                        Err(error) => return Err(error),
                    };
                    stream.set_nodelay(is_nodelay)?;
                    let place = free.pop().unwrap_or(open.len());
                    let interest = Interest::READABLE | Interest::WRITABLE;
                    poll.registry().register(&mut stream, Token(place), interest)?;
                    if place == open.len() {
                        open.push(None);
                    }
                    open[place] = Some(Connection::new(stream));
                }
                continue;
            }
            let place = event.token().0;
            let Some(connection) = open[place].as_mut() else {
                continue;
            };
            connection.is_closing |= event.is_read_closed();
            // A connection that failed has ended, too.
            if connection.turn(&mut chunk, is_short).unwrap_or(true) {
                open[place] = None;
                free.push(place);
                ended += 1;
            }
        }
    }
    Ok(())
}
