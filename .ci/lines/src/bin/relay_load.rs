//! The two sides of a relay, which compare each byte that came through it.
//!
//!     relay_load PORT TO bytes CONNECTIONS MIB     each connection sends so many MiB, all at once
//!     relay_load PORT TO short COUNT               so many connections, one after another: 64 bytes go to the far side, and come back
//!
//! It listens at TO, dials PORT, and prints the seconds that it took. A byte that differs, is lost or comes twice ends it with status 1.

use std::env;
use std::io::{Read, Write};
use std::net::{Shutdown, TcpListener, TcpStream};
use std::process::exit;
use std::thread;
use std::time::Instant;

const LONG: usize = 1 << 20;

// Bytes without a period that a piece could hide in.
fn text() -> Vec<u8> {
    let mut state = 1u64;
    (0..LONG)
        .map(|_| {
            state = state.wrapping_mul(6364136223846793005).wrapping_add(1442695040888963407);
            (state >> 56) as u8
        })
        .collect()
}

fn fail(why: &str) -> ! {
    eprintln!("{why}");
    exit(1)
}

// Reads what the connection of a number sends, and compares it.
fn take(mut far: TcpStream, text: &[u8], total: usize) {
    let mut head = [0; 8];
    far.read_exact(&mut head).unwrap_or_else(|_| fail("no number came"));
    let mut at = u64::from_le_bytes(head) as usize * 7919 % LONG;
    let (mut piece, mut got) = (vec![0; 1 << 16], 0);
    loop {
        let count = far.read(&mut piece).unwrap_or_else(|error| fail(&error.to_string()));
        if count == 0 {
            break;
        }
        let mut rest = &piece[..count];
        while !rest.is_empty() {
            let step = rest.len().min(LONG - at);
            if rest[..step] != text[at..at + step] {
                fail("a byte differs");
            }
            at = (at + step) % LONG;
            rest = &rest[step..];
        }
        got += count;
    }
    if got != total {
        fail(&format!("{got} bytes of {total} came"));
    }
}

// Sends what the connection of a number has.
fn give(port: u16, number: usize, text: &[u8], total: usize) {
    let mut near = TcpStream::connect(("127.0.0.1", port)).unwrap_or_else(|error| fail(&error.to_string()));
    near.write_all(&(number as u64).to_le_bytes()).unwrap();
    let (mut at, mut left) = (number * 7919 % LONG, total);
    while left > 0 {
        let step = left.min(LONG - at).min(1 << 16);
        near.write_all(&text[at..at + step]).unwrap_or_else(|error| fail(&error.to_string()));
        at = (at + step) % LONG;
        left -= step;
    }
    near.shutdown(Shutdown::Write).unwrap();
    let _ = near.read(&mut [0; 1]);
}

fn bytes(port: u16, listener: TcpListener, connections: usize, mib: usize) {
    let text = text();
    let total = mib << 20;
    thread::scope(|scope| {
        let text = &text;
        scope.spawn(move || {
            thread::scope(|inner| {
                for _ in 0..connections {
                    let (far, _) = listener.accept().unwrap();
                    inner.spawn(move || take(far, text, total));
                }
            });
        });
        for number in 0..connections {
            scope.spawn(move || give(port, number, text, total));
        }
    });
}

fn short(port: u16, listener: TcpListener, count: usize) {
    thread::spawn(move || {
        for far in listener.incoming() {
            let mut far = far.unwrap();
            let mut piece = [0; 64];
            if far.read_exact(&mut piece).is_ok() {
                let _ = far.write_all(&piece);
                let _ = far.read(&mut piece);
            }
        }
    });
    for number in 0..count {
        let mut near = TcpStream::connect(("127.0.0.1", port)).unwrap_or_else(|error| fail(&error.to_string()));
        let piece = [number as u8; 64];
        let mut back = [0; 64];
        near.write_all(&piece).unwrap();
        near.read_exact(&mut back).unwrap_or_else(|_| fail("less came back"));
        if back != piece {
            fail("a byte differs");
        }
    }
}

fn main() {
    let words: Vec<String> = env::args().skip(1).collect();
    let number = |at: usize| words[at].parse::<usize>().unwrap();
    let port = number(0) as u16;
    let listener = TcpListener::bind(("127.0.0.1", number(1) as u16)).unwrap_or_else(|error| fail(&error.to_string()));
    let start = Instant::now();
    match words[2].as_str() {
        "bytes" => bytes(port, listener, number(3), number(4)),
        "short" => short(port, listener, number(3)),
        _ => fail("bytes or short"),
    }
    println!("{:.3}", start.elapsed().as_secs_f64());
}
