//! The text of replies, written in pieces.

use crate::handle::Buffer;
use std::io::{self, Write};
use std::{fs::File, os::fd::AsFd};

const PIECE: usize = 65536;

pub struct Replies { text: Vec<u8>, to: File }

// The two digits of each byte, and those of each number below 100.
const HEX: [[u8; 2]; 256] = pairs(16);
const DECIMAL: [[u8; 2]; 256] = pairs(10);

const fn pairs(base: usize) -> [[u8; 2]; 256] {
    let (mut table, mut at) = ([[0; 2]; 256], 0);
    while at < base * base {
        table[at] = [b"0123456789abcdef"[at / base], b"0123456789abcdef"[at % base]];
        at += 1;
    }
    table
}

impl Replies {
    pub fn new() -> io::Result<Replies> {
        let to = File::from(io::stdout().as_fd().try_clone_to_owned()?);
        Ok(Replies { text: Vec::with_capacity(2 * PIECE), to })
    }

    pub fn end_line(&mut self) -> io::Result<()> {
        self.text.push(b'\n');
        if self.text.len() < PIECE { Ok(()) } else { self.flush() }
    }

    pub fn flush(&mut self) -> io::Result<()> {
        self.to.write_all(&self.text)?;
        self.text.clear();
        Ok(())
    }

    pub fn text(&mut self, text: &[u8]) {
        self.text.extend_from_slice(text);
    }

    pub fn refused(&mut self, name: &[u8]) {
        self.text(b"refused ");
        self.text(name);
    }

    /// A name and a number.
    pub fn named(&mut self, name: &[u8], number: u64) {
        self.text(name);
        self.number(number);
    }

    fn number(&mut self, number: u64) {
        if number < 10 {
            return self.text.push(b'0' + number as u8);
        }
        let (mut digits, mut at, mut rest) = ([0u8; 20], 20, number);
        while rest > 0 {
            at -= 2;
            digits[at..at + 2].copy_from_slice(&DECIMAL[(rest % 100) as usize]);
            rest /= 100;
        }
        at += (digits[at] == b'0') as usize;
        self.text.extend_from_slice(&digits[at..]);
    }

    /// A list, with what stands before it.
    pub fn list(&mut self, name: &[u8], numbers: impl IntoIterator<Item = u64>) {
        self.text(name);
        let from = self.text.len();
        for number in numbers {
            if self.text.len() > from {
                self.text.push(b',');
            }
            self.number(number);
        }
        if self.text.len() == from {
            self.text.push(b'-');
        }
    }

    pub fn bytes(&mut self, bytes: &[u8]) {
        if bytes.is_empty() {
            return self.text.push(b'-');
        }
        let from = self.text.len();
        self.text.resize(from + 2 * bytes.len(), 0);
        for (pair, byte) in self.text[from..].chunks_exact_mut(2).zip(bytes) {
            pair.copy_from_slice(&HEX[*byte as usize]);
        }
    }

    /// What a look shows.
    pub fn shown(&mut self, shown: Result<&[u8], &[(u64, Vec<u8>)]>) {
        match shown {
            Ok(_) => self.text(b"output "),
            Err(messages) => self.named(b"messages ", messages.len() as u64),
        }
        shown.iter().for_each(|bytes| self.bytes(bytes));
        for (to, bytes) in shown.err().unwrap_or(&[]) {
            self.named(b" ", *to);
            self.text(b" ");
            self.bytes(bytes);
        }
    }

    /// A buffer behind a space, or the dash of none.
    pub fn buffer(&mut self, buffer: &Option<Buffer>) {
        let Some(buffer) = buffer else { return self.text(b" -") };
        self.named(b" v ", buffer.total as u64);
        self.named(b" ", buffer.begin as u64);
        self.named(b" ", buffer.end as u64);
        self.text.push(b' ');
        self.bytes(&buffer.bytes);
    }
}
