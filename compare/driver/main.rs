//! Times this library's streams, Rust's standard ones, those of the original crate and the toolchain's own on the same
//! work, and counts their instructions: `driver WORD` prints the cases in whose names it stands, and `driver` all. With
//! `count` behind the word it is what it runs below `callgrind`.
#![feature(seek_stream_len)]

mod cases;
mod clients;
mod counting;
mod list;
mod table;

// What `dialect` made of compare/calls, over Rust's std::io and over the original crate.
#[allow(unused, clippy::all)]
mod std_side {
    include!(concat!(env!("SIDES"), "/std.rs"));
    include!("apart.rs");
    use std::io::*;

    fn reader<const S: usize>(source: &[u8]) -> BufReader<&[u8]> {
        BufReader::with_capacity(S, source)
    }

    fn writer(device: Counter) -> BufWriter<Counter> {
        BufWriter::with_capacity(8192, device)
    }

    // Its buffer has 8192 bytes.
    fn pass<R: Read, W: Write>(reader: &mut R, writer: &mut W) -> Result<u64> {
        copy(reader, writer)
    }
}

#[cfg(original)]
#[allow(unused, clippy::all)]
mod original_side {
    include!(concat!(env!("SIDES"), "/original.rs"));
    include!("apart.rs");
    use no_std_io2::io::*;

    fn reader<const S: usize>(source: &[u8]) -> BufReader<&[u8], S> {
        BufReader::new(source)
    }

    fn writer(device: Counter) -> BufWriter<Counter, 8192> {
        BufWriter::new(device)
    }

    fn pass<R: Read, W: Write>(reader: &mut R, writer: &mut W) -> Result<u64> {
        copy::<_, _, 8192>(reader, writer)
    }
}

use cases::Case;
use std::process::ExitCode;
use std::time::Instant;

// Functions of one signature: a source, a room whose length is the case's size, and how many calls.
macro_rules! calls {
    ($($name:ident($source:ident, $room:ident, $calls:ident) $body:block)*) => {$(
        #[inline(never)]
        #[allow(unused_variables, unused_mut)]
        pub fn $name(mut $source: &[u8], $room: &mut [u8], $calls: u64) -> u64 $body
    )*};
}
pub(crate) use calls;

// The original crate's side of a call, if its text was given.
#[cfg(original)]
macro_rules! original {
    ($name:ident) => {
        Some(crate::original_side::$name)
    };
}
#[cfg(not(original))]
macro_rules! original {
    ($name:ident) => {
        None
    };
}
pub(crate) use original;

/// How many sides a case has at most: this library's, std's, the original crate's and the toolchain's.
pub const SIDES: usize = 4;

/// Of each case what was measured on each side.
pub type Measured = Vec<[Option<f64>; SIDES]>;

// Nanoseconds a call: the best of some rounds, in which the sides take turns, so that a busy machine slows them alike.
fn time(case: &Case) -> [Option<f64>; SIDES] {
    let mut best = [None::<f64>; SIDES];
    for _ in 0..15 {
        for (side, best) in best.iter_mut().enumerate() {
            if case.has(side) {
                let start = Instant::now();
                std::hint::black_box(case.run(side, case.calls));
                let nanoseconds = start.elapsed().as_nanos() as f64 / case.calls as f64;
                *best = Some(best.map_or(nanoseconds, |best| best.min(nanoseconds)));
            }
        }
    }
    best
}

fn measure(cases: &[Case], word: &str) -> Result<(), String> {
    for case in cases {
        case.check()?;
    }
    let times = cases.iter().map(time).collect();
    table::print(cases, &times, &counting::count(cases, word)?);
    Ok(())
}

fn main() -> ExitCode {
    let word = std::env::args().nth(1).unwrap_or_default();
    let cases = cases::with(&word);
    if std::env::args().nth(2).as_deref() == Some("count") {
        counting::count_below_callgrind(&cases);
        return ExitCode::SUCCESS;
    }
    match measure(&cases, &word) {
        Ok(()) => ExitCode::SUCCESS,
        Err(text) => {
            eprintln!("{text}");
            ExitCode::FAILURE
        }
    }
}
