//! Starts a program and tells what it took: a process begins with the memory of the one that starts it, so that has to be a small one.
//! It prints the status with which the program ended (or 128 and the signal), its processor time of user and system in microseconds, and
//! the most memory that it had in KiB.
//!
//!     start INPUT OUTPUT PROGRAM [WORD ..]

use std::fs::File;
use std::process::Command;

#[repr(C)]
#[derive(Default)]
struct Usage { user: [i64; 2], system: [i64; 2], most: i64, others: [i64; 13] }

extern "C" {
    fn wait4(pid: i32, status: *mut i32, options: i32, usage: *mut Usage) -> i32;
}

fn main() -> std::io::Result<()> {
    let words: Vec<_> = std::env::args_os().skip(1).collect();
    let [input, output, program, rest @ ..] = &words[..] else {
        panic!("start INPUT OUTPUT PROGRAM [WORD ..]");
    };
    let child = Command::new(program).args(rest).stdin(File::open(input)?).stdout(File::create(output)?).spawn()?;
    let (mut status, mut usage) = (0, Usage::default());
    // Nobody else waits for the child, and both places are as large as what the system writes to them.
    assert!(unsafe { wait4(child.id() as i32, &mut status, 0, &mut usage) } > 0);
    let ended = if status & 127 == 0 { status >> 8 & 255 } else { 128 + (status & 127) };
    let micros = |time: [i64; 2]| time[0] * 1000000 + time[1];
    println!("{ended} {} {} {}", micros(usage.user), micros(usage.system), usage.most);
    Ok(())
}
