//! A plain program that answers lines of events as `run CAP` and `ready` of `session_run` do. It proves nothing, and is there to be
//! measured beside it. It has the lines of the loads (../loads): any other one is wrong. The statuses are those of docs/FORMATS.md.
//!
//!     peer run CAP
//!     peer ready

mod flying;
mod handle;
mod line;
mod machine;
mod reply;

use line::{Event, Lines};
use machine::{Machine, No};
use reply::Replies;
use std::io::{self, Read, Write};
use std::{env, fs::File, mem::ManuallyDrop, os::fd::AsFd, process};

const MOST_INPUT: usize = 16777216;

/// Runs all lines of a text: the first pass looks whether each is an event, and the second one runs them. To keep the events would cost
/// more memory, and with it more time, than to read their lines twice.
fn run(text: &[u8], cap: usize) -> io::Result<i32> {
    let (mut lines, mut number) = (Lines(text), 0);
    while !lines.0.is_empty() {
        number += 1;
        if lines.event().map_or(true, |event| cap == 0 && matches!(event, Event::Turn | Event::Exec(..))) {
            writeln!(io::stdout(), "line {number}")?;
            return Ok(2);
        }
    }
    // The process ends behind the run, so nothing of the machine is let go by itself.
    let (mut lines, mut machine, mut replies) = (Lines(text), ManuallyDrop::new(Machine::new(cap)), Replies::new()?);
    while let Some(event) = lines.event() {
        match machine.apply(event, &mut replies) {
            Ok(()) => {}
            Err(No::Refused(name)) => replies.refused(name),
            Err(No::Memory) => return replies.flush().and(Ok(6)),
        }
        replies.end_line()?;
    }
    replies.flush().and(Ok(0))
}

fn main() {
    let words: Vec<String> = env::args().skip(1).collect();
    let cap = match words.iter().map(|word| word.as_str()).collect::<Vec<_>>()[..] {
        ["run", cap] => cap.parse::<u32>().ok().filter(|cap| *cap > 0),
        ["ready"] => Some(0),
        _ => None,
    };
    // One byte more than the input may have is read, where it is too long.
    let mut text = Vec::new();
    let read = io::stdin().as_fd().try_clone_to_owned().and_then(|it| File::from(it).take(MOST_INPUT as u64 + 1).read_to_end(&mut text));
    process::exit(match (cap, read) {
        (None, _) => 1,
        (_, Err(_)) => 4,
        (_, Ok(len)) if len > MOST_INPUT => 3,
        (Some(cap), _) => run(&text, cap as usize).unwrap_or(5),
    })
}
