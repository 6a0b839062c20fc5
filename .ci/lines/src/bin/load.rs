//! The clients of a line server, on one thread, and a check of each byte that they are answered.
//!
//!     load PORT [CONNECTIONS [LINES [LENGTH [TOGETHER [SPINS [ECHO]]]]]]
//!
//! CONNECTIONS connections (64) are opened first. Then each sends LINES lines (1000) of LENGTH bytes and a newline (80), in requests of TOGETHER
//! lines (1): a request is sent when the one before has been answered. With 1, a line goes and comes; with 16, sixteen lines are under way. When
//! a connection has its last answer it ends its stream, and waits for the server's end. It prints how many lines there were, and how long they
//! took, from the first request to the last end. Where ECHO is 1, each line is to come back as it was sent.

use mio::net::TcpStream;
use mio::{Events, Interest, Poll, Token};
use std::env;
use std::io::{self, ErrorKind, Read, Write};
use std::net::Shutdown;
use std::process::exit;
use std::time::{Duration, Instant};

/// Requests that differ are made once, before the clock starts: at most so many, of so many bytes in all (but at least one).
const REQUESTS: usize = 64;
const REQUEST_BYTES: usize = 4 << 20;

/// A server that has nothing to say for so long has stopped.
const PATIENCE: Duration = Duration::from_secs(60);

/// What is sent, and what it has to be answered.
struct Request {
    says: Vec<u8>,
    answer: Vec<u8>,
}

struct Load {
    requests: Vec<Request>,
    /// How many requests a connection sends, and how many bytes of the last.
    count: usize,
    last: usize,
}

struct Connection {
    stream: TcpStream,
    /// Which request is under way, how much of it is sent, and how much of its answer has come.
    at: usize,
    sent: usize,
    got: usize,
    is_shut: bool,
    has_ended: bool,
}

// Letters of both cases, digits and signs, always the same.
fn make_requests(length: usize, together: usize, is_echo: bool) -> Vec<Request> {
    let alphabet = b"abcdefghijklmnopqrstuvwxyzabcdefghijklmnopqrstuvwxyzABCDEFGH0123456789 .,:;@[`{~";
    let size = together * (length + 1);
    let mut state = 0x9e37_79b9_7f4a_7c15_u64;
    (0..(REQUEST_BYTES / size).clamp(1, REQUESTS))
        .map(|_| {
            let mut says = Vec::with_capacity(size);
            for _ in 0..together {
                for _ in 0..length {
                    state ^= state << 13;
                    state ^= state >> 7;
                    state ^= state << 17;
                    says.push(alphabet[(state >> 32) as usize % alphabet.len()]);
                }
                says.push(b'\n');
            }
            let answer = if is_echo { says.clone() } else { says.to_ascii_uppercase() };
            Request { says, answer }
        })
        .collect()
}

fn fail(number: usize, what: &str) -> ! {
    eprintln!("connection {number}: {what}");
    exit(1)
}

impl Connection {
    // Writes, reads and compares what can be without waiting: whether the connection has just ended.
    fn turn(&mut self, number: usize, load: &Load, chunk: &mut [u8]) -> io::Result<bool> {
        while self.at < load.count {
            // Connections say different things at the same time.
            let request = &load.requests[(self.at + 7 * number) % load.requests.len()];
            let is_last = self.at + 1 == load.count;
            let length = if is_last { load.last } else { request.says.len() };
            let is_new = self.sent == 0;
            while self.sent < length {
                match self.stream.write(&request.says[self.sent..length]) {
                    Ok(count) => self.sent += count,
                    Err(error) if error.kind() == ErrorKind::WouldBlock => break,
                    Err(error) => return Err(error),
                }
            }
            if is_new && self.sent == length {
                // An answer that has come already makes an event of its own: to read now would be a call for nothing, mostly.
                return Ok(false);
            }
            let count = match self.stream.read(chunk) {
                Ok(0) => fail(number, "the server ended the stream before its answer"),
                Ok(count) => count,
                Err(error) if error.kind() == ErrorKind::WouldBlock => return Ok(false),
                Err(error) => return Err(error),
            };
            if chunk[..count] != request.answer[self.got..length.min(self.got + count)] {
                fail(number, &format!("the answer to request {} is wrong", self.at));
            }
            self.got += count;
            if self.got == length {
                self.at += 1;
                self.sent = 0;
                self.got = 0;
            }
        }
        if !self.is_shut {
            self.is_shut = true;
            self.stream.shutdown(Shutdown::Write)?;
        }
        match self.stream.read(&mut chunk[..1]) {
            Ok(0) => Ok(!std::mem::replace(&mut self.has_ended, true)),
            Ok(_) => fail(number, "there is more than was to be answered"),
            Err(error) if error.kind() == ErrorKind::WouldBlock => Ok(false),
            Err(error) => Err(error),
        }
    }
}

fn main() -> io::Result<()> {
    let words: Vec<usize> = env::args().skip(1).map(|word| word.parse().unwrap()).collect();
    let word = |at: usize, otherwise: usize| words.get(at).copied().unwrap_or(otherwise);
    if words.is_empty() {
        eprintln!("usage: load PORT [CONNECTIONS [LINES [LENGTH [TOGETHER [SPINS [ECHO]]]]]]");
        exit(2);
    }
    let port = word(0, 0) as u16;
    let (connections, lines, length, together) = (word(1, 64), word(2, 1000), word(3, 80), word(4, 1).max(1));
    let together = together.min(lines.max(1));
    // It looks for answers again and again, and never sleeps, so that no server pays for waking it.
    let patience = if word(5, 0) != 0 { Duration::ZERO } else { PATIENCE };
    let count = lines.div_ceil(together);
    let load = Load {
        requests: make_requests(length, together, word(6, 0) != 0),
        count,
        last: (lines - together * count.saturating_sub(1)) * (length + 1),
    };

    let mut poll = Poll::new()?;
    let mut events = Events::with_capacity(1024);
    let mut open = Vec::with_capacity(connections);
    for number in 0..connections {
        let stream = std::net::TcpStream::connect(("127.0.0.1", port))?;
        stream.set_nodelay(true)?;
        stream.set_nonblocking(true)?;
        let mut stream = TcpStream::from_std(stream);
        let interest = Interest::READABLE | Interest::WRITABLE;
        poll.registry().register(&mut stream, Token(number), interest)?;
        open.push(Connection {
            stream,
            at: 0,
            sent: 0,
            got: 0,
            is_shut: false,
            has_ended: false,
        });
    }

    let mut chunk = vec![0; 64 * 1024];
    let mut turn = |number: usize| {
        let ended: io::Result<bool> = open[number].turn(number, &load, &mut chunk);
        usize::from(ended.unwrap_or_else(|error| fail(number, &error.to_string())))
    };
    let start = Instant::now();
    let mut came = start;
    let mut ended: usize = (0..connections).map(&mut turn).sum();
    while ended < connections {
        match poll.poll(&mut events, Some(patience)) {
            Err(error) if error.kind() == ErrorKind::Interrupted => continue,
            polled => polled?,
        }
        if !events.is_empty() {
            came = Instant::now();
        } else if came.elapsed() >= PATIENCE {
            eprintln!("nothing came for {PATIENCE:?}: {ended} of {connections} connections have ended");
            exit(1);
        }
        ended += events.iter().map(|event| turn(event.token().0)).sum::<usize>();
    }
    println!("{} lines, {:.6} s", connections * lines, start.elapsed().as_secs_f64());
    Ok(())
}
