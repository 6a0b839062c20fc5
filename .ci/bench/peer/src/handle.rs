//! Handles in memory, buffers, and the calls on them.

use crate::line::{BufferText, Kind, What, VALUES};
use std::collections::VecDeque;

/// The most bytes that one request asks for, and the end of a file that a write may reach.
const MOST_ASKED: usize = 2147483647;
const MOST_FILE: usize = 16777216;

/// The errors of a call that is made at once: its handle is of another kind, or it writes behind the end of a file.
const INVALID: u16 = 22;
const TOO_BIG: u16 = 27;

/// A handle: whether its user holds it, how many operations do, and what is there.
pub struct Handle { pub is_users: bool, pub ops: u32, body: Body }

// Of a stream's input so many bytes were taken.
enum Body { Stream { input: Vec<u8>, taken: usize, sent: Vec<u8> }, Datagram(Box<Messages>), File(Vec<u8>), Listener }

#[derive(Default)]
struct Messages { came: VecDeque<(u64, Vec<u8>)>, sent: Vec<(u64, Vec<u8>)> }

/// What an operation ended with; an accept, with the number of the handle that it made.
#[derive(Clone, Copy)]
pub enum Outcome { Count(u32), From(u32, u64), Made(u32), Fail(u16) }

/// A buffer of a total, with the range that is read into or sent.
pub struct Buffer { pub begin: u32, pub total: usize, pub end: usize, pub bytes: Vec<u8> }

// The bytes that digits stand for join the end of others.
fn decode(digits: &[u8], to: &mut Vec<u8>) {
    to.extend(digits.chunks_exact(2).map(|pair| VALUES[pair[0] as usize] << 4 | VALUES[pair[1] as usize]));
}

impl Buffer {
    /// None where memory runs out.
    pub fn new(text: &BufferText) -> Option<Buffer> {
        let mut bytes = Vec::new();
        bytes.try_reserve_exact(text.total as usize).ok()?;
        decode(text.digits, &mut bytes);
        Some(Buffer { begin: text.begin as u32, total: text.total as usize, end: text.end as usize, bytes })
    }

    fn room(&self) -> usize {
        (self.end - self.begin as usize).min(MOST_ASKED)
    }

    fn shown(&self) -> &[u8] {
        &self.bytes[self.begin as usize..self.end.min(self.bytes.len())]
    }

    // Bytes come, and what was behind the start of the range is gone.
    fn store(&mut self, bytes: &[u8]) {
        self.bytes.truncate(self.begin as usize);
        self.bytes.extend_from_slice(bytes);
    }
}

impl Handle {
    /// A handle of its user, or of the operation that made it.
    pub fn new(kind: Kind, is_users: bool) -> Handle {
        let body = match kind {
            Kind::Stream => Body::Stream { input: Vec::new(), taken: 0, sent: Vec::new() },
            Kind::Datagram => Body::Datagram(Box::default()),
            Kind::File => Body::File(Vec::new()),
            Kind::Listener => Body::Listener,
        };
        Handle { is_users, ops: !is_users as u32, body }
    }

    pub fn is_unheld(&self) -> bool {
        self.ops == 0 && !self.is_users
    }

    /// Bytes arrive, or a message from an address; it answers whether they may. What was taken is let go once it is most of the input.
    pub fn feed(&mut self, from: Option<u64>, digits: &[u8]) -> bool {
        match (&mut self.body, from) {
            (Body::Stream { input, taken, .. }, None) => {
                if *taken > input.len() / 2 {
                    input.drain(..std::mem::take(taken));
                }
                decode(digits, input);
            }
            (Body::File(bytes), None) => decode(digits, bytes),
            (Body::Datagram(messages), Some(from)) => {
                let mut bytes = Vec::new();
                decode(digits, &mut bytes);
                messages.came.push_back((from, bytes));
            }
            _ => return false,
        }
        true
    }

    /// What a look shows: the bytes, or the messages that were sent.
    pub fn look(&self) -> Result<&[u8], &[(u64, Vec<u8>)]> {
        match &self.body {
            Body::Stream { sent: bytes, .. } | Body::File(bytes) => Ok(bytes),
            Body::Datagram(messages) => Err(&messages.sent),
            Body::Listener => Ok(&[]),
        }
    }

    /// A call would block: it reads where nothing came yet.
    pub fn blocks(&self, what: What) -> bool {
        matches!(what, What::Recv | What::RecvMsg | What::Read(_) | What::Accept)
            && match &self.body {
                Body::Stream { input, taken, .. } => *taken == input.len(),
                Body::Datagram(messages) => messages.came.is_empty(),
                Body::File(_) | Body::Listener => false,
            }
    }

    /// The greatest count of a call, or the error that it fails with.
    pub fn most(&self, what: What, buffer: &Option<Buffer>) -> Result<usize, u16> {
        let (room, shown) = buffer.as_ref().map_or((0, 0), |buffer| (buffer.room(), buffer.shown().len()));
        match (what, &self.body) {
            (What::Recv, Body::Stream { input, taken, .. }) => Ok(room.min(input.len() - taken)),
            (What::Send, Body::Stream { .. }) => Ok(shown),
            (What::RecvMsg, Body::Datagram(messages)) => messages.came.front().map(|first| room.min(first.1.len())).ok_or(INVALID),
            (What::SendMsg(_), Body::Datagram(_)) => Ok(shown),
            (What::Read(position), Body::File(bytes)) => Ok(room.min(bytes.len().saturating_sub(position as usize))),
            (What::Write(position), Body::File(_)) if shown > 0 && position >= MOST_FILE as u64 => Err(TOO_BIG),
            (What::Write(position), Body::File(_)) => Ok(shown.min(MOST_FILE.saturating_sub(position as usize))),
            (What::Accept, Body::Listener) => Ok(0),
            _ => Err(INVALID),
        }
    }

    /// A call ends with a count, and its bytes move; None where the count isn't allowed.
    pub fn call(&mut self, what: What, buffer: &mut Option<Buffer>, count: u32) -> Option<Outcome> {
        let (k, most) = (count as usize, self.most(what, buffer).ok()?);
        let is_whole = matches!(what, What::RecvMsg | What::SendMsg(_) | What::Accept);
        if k > most || k < most && (is_whole || k == 0) {
            return None;
        }
        let Some(buffer) = buffer else { return Some(Outcome::Made(0)) };
        match (what, &mut self.body) {
            (What::Recv, Body::Stream { input, taken, .. }) => {
                if k == 0 && buffer.room() > 0 {
                    return None;
                }
                buffer.store(&input[*taken..*taken + k]);
                *taken += k;
            }
            (What::Send, Body::Stream { sent, .. }) => sent.extend_from_slice(&buffer.shown()[..k]),
            (What::RecvMsg, Body::Datagram(messages)) => {
                let (from, bytes) = messages.came.pop_front()?;
                buffer.store(&bytes[..k]);
                return Some(Outcome::From(count, from));
            }
            (What::SendMsg(to), Body::Datagram(messages)) => messages.sent.push((to, buffer.shown().to_vec())),
            (What::Read(position), Body::File(bytes)) => buffer.store(bytes.get(position as usize..).map_or(&[], |rest| &rest[..k])),
            (What::Write(position), Body::File(bytes)) if k > 0 => {
                let at = position as usize;
                if bytes.len() < at + k {
                    bytes.resize(at + k, 0);
                }
                bytes[at..at + k].copy_from_slice(&buffer.shown()[..k]);
            }
            _ => {}
        }
        Some(Outcome::Count(count))
    }
}
