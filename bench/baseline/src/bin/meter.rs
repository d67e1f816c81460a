//! Runs a program, and says what it took.
//!
//!     meter FILE PROGRAM [WORD ...]
//!
//! Standard input, output and error are the program's. FILE gets one line: wall time in nanoseconds, peak memory in
//! kilobytes, and the exit status. It stands between the runner and the program since a process that is forked by an
//! interpreter would count the interpreter's own memory as its peak.

use std::fs;
use std::os::raw::{c_int, c_long};
use std::process::{Command, ExitCode};
use std::time::Instant;

/// `struct rusage` of Linux on 64 bits: two times of two words each, the peak, and thirteen counts.
#[repr(C)]
#[derive(Default)]
struct Usage {
    times: [c_long; 4],
    peak: c_long,
    counts: [c_long; 13],
}

extern "C" {
    fn wait4(process: c_int, status: *mut c_int, options: c_int, usage: *mut Usage) -> c_int;
}

fn main() -> ExitCode {
    let words: Vec<String> = std::env::args().skip(1).collect();
    let [file, program, words @ ..] = &words[..] else {
        eprintln!("usage: meter FILE PROGRAM [WORD ...]");
        return ExitCode::FAILURE;
    };
    let began = Instant::now();
    let child = match Command::new(program).args(words).spawn() {
        Ok(child) => child,
        Err(why) => {
            eprintln!("meter: {program}: {why}");
            return ExitCode::FAILURE;
        }
    };
    let (mut status, mut usage) = (0, Usage::default());
    // SAFETY: both pointers are to live values of the types that the C library wants, and the child is waited for here alone.
    let waited = unsafe { wait4(child.id() as c_int, &mut status, 0, &mut usage) };
    let nanoseconds = began.elapsed().as_nanos();
    let ended = if status & 0x7f == 0 { status >> 8 & 0xff } else { 128 + (status & 0x7f) };
    if waited < 0 || fs::write(file, format!("{nanoseconds} {} {ended}\n", usage.peak)).is_err() {
        eprintln!("meter: the program's end could not be told");
        return ExitCode::FAILURE;
    }
    ExitCode::SUCCESS
}
