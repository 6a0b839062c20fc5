//! Events, read from their lines. Nothing is copied: bytes stay the digits that they are written with.

/// What an execution reports: a count, or an error.
pub type Told = Result<u32, u16>;

pub enum Event<'a> {
    // A message comes from an address, bytes from none. A request is under a cancel handle, or under none.
    Give(Kind), Feed(u64, Option<u64>, &'a [u8]), Look(u64), Close(u64), Submit(Option<u64>, Request<'a>),
    Poll(u64, u64), Drop(u64), Cancel(u64), Canceller, NewHandle(u64), CancelAll(u64), Turn, Exec(u64, Told),
}

#[derive(Clone, Copy)]
pub enum Kind { Stream, Datagram, File, Listener }

/// What is asked for, with the address of a message or the position in a file.
#[derive(Clone, Copy)]
pub enum What { Recv, Send, RecvMsg, SendMsg(u64), Read(u64), Write(u64), Accept }

/// A request. An accept has no buffer.
pub struct Request<'a> { pub handle: u64, pub what: What, pub buffer: Option<BufferText<'a>> }

/// A buffer of the kind `v`.
pub struct BufferText<'a> { pub total: u64, pub begin: u64, pub end: u64, pub digits: &'a [u8] }

/// The value of each digit of bytes, and 16 for what is none.
pub const VALUES: [u8; 256] = {
    let (mut table, mut at) = ([16; 256], 0);
    while at < 16 {
        table[b"0123456789abcdef"[at as usize] as usize] = at;
        at += 1;
    }
    table
};

/// The text of the lines that weren't read yet.
pub struct Lines<'a>(pub &'a [u8]);

impl<'a> Lines<'a> {
    /// The event of the next line; None where the line is wrong, and behind the last one.
    #[inline(always)]
    pub fn event(&mut self) -> Option<Event<'a>> {
        let event = match self.0.first()? {
            b's' if self.eats(b"submit ") => Event::Submit(None, self.request()?),
            b't' if self.eats(b"turn") => Event::Turn,
            b'p' if self.eats(b"poll ") => Event::Poll(self.number()?, self.next()?),
            b'e' if self.eats(b"exec ") => Event::Exec(self.number()?, self.told()?),
            b'f' if self.eats(b"feed ") => Event::Feed(self.number()?, None, self.digits()?),
            b'c' if self.eats(b"cancel ") => Event::Cancel(self.number()?),
            b'c' if self.eats(b"close ") => Event::Close(self.number()?),
            b'c' if self.eats(b"canceller") => Event::Canceller,
            b'c' if self.eats(b"cancelall ") => Event::CancelAll(self.number()?),
            b'd' if self.eats(b"drop ") => Event::Drop(self.number()?),
            b'g' if self.eats(b"give stream") => Event::Give(Kind::Stream),
            b'g' if self.eats(b"give datagram") => Event::Give(Kind::Datagram),
            b'g' if self.eats(b"give file") => Event::Give(Kind::File),
            b'g' if self.eats(b"give listener") => Event::Give(Kind::Listener),
            b'l' if self.eats(b"look ") => Event::Look(self.number()?),
            b'm' if self.eats(b"message ") => Event::Feed(self.number()?, Some(self.next()?), self.digits()?),
            b'n' if self.eats(b"newhandle ") => Event::NewHandle(self.number()?),
            b'u' if self.eats(b"under ") => Event::Submit(Some(self.number()?), self.eats(b" ").then(|| self.request())??),
            _ => return None,
        };
        (self.0.is_empty() || self.eats(b"\n")).then_some(event)
    }

    fn request(&mut self) -> Option<Request<'a>> {
        let (handle, what) = match self.0.first()? {
            b'r' if self.eats(b"recv ") => (self.number()?, What::Recv),
            b's' if self.eats(b"send ") => (self.number()?, What::Send),
            b'r' if self.eats(b"recvmsg ") => (self.number()?, What::RecvMsg),
            b's' if self.eats(b"sendmsg ") => (self.number()?, What::SendMsg(self.next()?)),
            b'r' if self.eats(b"read ") => (self.number()?, What::Read(self.next()?)),
            b'w' if self.eats(b"write ") => (self.number()?, What::Write(self.next()?)),
            b'a' if self.eats(b"accept ") => return Some(Request { handle: self.number()?, what: What::Accept, buffer: None }),
            _ => return None,
        };
        self.eats(b" v ").then_some(())?;
        let (total, begin, end, digits) = (self.number()?, self.next()?, self.next()?, self.digits()?);
        let len = digits.len() as u64 / 2;
        let fits = begin <= end && end <= total && begin <= len && len <= total;
        fits.then_some(Request { handle, what, buffer: Some(BufferText { total, begin, end, digits }) })
    }

    fn told(&mut self) -> Option<Told> {
        if self.eats(b" ok ") {
            return Some(Ok(self.number()?.try_into().ok()?));
        }
        self.eats(b" err ").then_some(())?;
        Some(Err(self.number()?.try_into().ok()?))
    }

    // The text begins with these bytes, which are read then.
    #[inline(always)]
    fn eats(&mut self, bytes: &[u8]) -> bool {
        let rest = self.0.strip_prefix(bytes);
        self.0 = rest.unwrap_or(self.0);
        rest.is_some()
    }

    // A number with no leading zero.
    fn number(&mut self) -> Option<u64> {
        let (text, mut value, mut len) = (self.0, 0u64, 0);
        while let Some(digit @ b'0'..=b'9') = text.get(len) {
            value = value.checked_mul(10)?.checked_add((digit - b'0') as u64)?;
            len += 1;
        }
        self.0 = &text[len..];
        (len == 1 || len > 1 && text[0] != b'0').then_some(value)
    }

    fn next(&mut self) -> Option<u64> {
        self.eats(b" ").then(|| self.number())?
    }

    // A space, and the digits of bytes: none where a dash stands for them.
    fn digits(&mut self) -> Option<&'a [u8]> {
        if self.eats(b" -") {
            return Some(&[]);
        }
        let text = self.0.strip_prefix(b" ")?;
        let len = text.iter().position(|byte| VALUES[*byte as usize] == 16).unwrap_or(text.len());
        self.0 = &text[len..];
        (len > 0 && len % 2 == 0).then_some(&text[..len])
    }
}
