//! The cases of the list, each on up to four sides.
use crate::SIDES;
use crate::list::listed;
use std::sync::OnceLock;

/// The sum of a run in which a call failed.
pub const FAILED: u64 = u64::MAX;

// What compare/calls/lib.rt.txt has, for the sides in Rust.

/// A sum of a slice's length and of some of its bytes, with the same work whatever the length.
pub fn sample(bytes: &[u8]) -> u64 {
    let mut sum = bytes.len() as u64;
    for part in [7, 5, 3, 2, 1] {
        if let Some(byte) = bytes.get(bytes.len() / part) {
            sum = sum.wrapping_mul(31).wrapping_add(u64::from(*byte));
        }
    }
    if let Some(byte) = bytes.last() {
        sum = sum.wrapping_mul(31).wrapping_add(u64::from(*byte));
    }
    sum
}

/// As many bytes of the source as the room has.
pub fn front<'a>(source: &'a [u8], room: &[u8]) -> &'a [u8] {
    &source[..room.len()]
}

/// An empty vector that has the room for so many bytes of each call.
pub fn vector(each: usize, calls: u64) -> Vec<u8> {
    Vec::with_capacity(each * calls as usize)
}

/// So many calls on one side, over a source and with a room: the answer is a sum that each side must give.
type Call = fn(&[u8], &mut [u8], u64) -> u64;

pub struct Case {
    /// The name of the call in the list, and the words of the table.
    pub call: &'static str,
    pub name: String,
    pub class: &'static str,
    pub size: usize,
    source: &'static [u8],
    /// How many calls a timed run makes.
    pub calls: u64,
    /// This library's, std's, the original crate's and the toolchain's.
    sides: [Option<Call>; SIDES],
}

impl Case {
    pub fn has(&self, side: usize) -> bool {
        self.sides[side].is_some()
    }

    pub fn run(&self, side: usize, calls: u64) -> u64 {
        let mut room = vec![0; self.size];
        self.sides[side].map_or(FAILED, |call| call(self.source, &mut room, calls))
    }

    /// That all sides give the same sum, and none fails.
    pub fn check(&self) -> Result<(), String> {
        let sides = (0..SIDES).filter(|side| self.has(*side));
        let sums: Vec<u64> = sides.map(|side| self.run(side, self.calls)).collect();
        if sums.iter().any(|sum| *sum != sums[0] || *sum == FAILED) {
            return Err(format!("{}: the sums differ or failed: {sums:?}", self.name));
        }
        Ok(())
    }
}

const MEBIBYTE: usize = 1 << 20;

// Bytes that no compiler knows.
fn source() -> &'static [u8] {
    static SOURCE: OnceLock<Vec<u8>> = OnceLock::new();
    SOURCE.get_or_init(|| {
        let byte = |at: usize| (at.wrapping_mul(2_654_435_761) >> 13) as u8;
        (0..17 * MEBIBYTE).map(byte).collect()
    })
}

// So many lines, each of so many bytes with its newline.
fn lines_of(len: usize, lines: usize) -> &'static [u8] {
    let letter = |at: usize| b'a' + source()[at] % 26;
    let line = |at: usize| (1..len).map(move |of| letter(at + of)).chain([b'\n']);
    Vec::leak((0..lines).flat_map(line).collect())
}

// So many lines, each of five fields.
fn rows_of(len: usize, rows: usize) -> &'static [u8] {
    let mut text = lines_of(len, rows).to_vec();
    for row in text.chunks_mut(len) {
        (1..5).for_each(|field| row[field * len / 5] = b',');
    }
    Vec::leak(text)
}

// So many frames, each with a payload of so many bytes.
fn frames_of(len: usize, frames: usize) -> &'static [u8] {
    let header = (len as u32).to_le_bytes();
    Vec::leak((0..frames).flat_map(|at| header.iter().chain(&source()[at..at + len])).copied().collect())
}

// Letters, each of which is also a digit of base64.
fn letters() -> &'static [u8] {
    static LETTERS: OnceLock<Vec<u8>> = OnceLock::new();
    LETTERS.get_or_init(|| source().iter().map(|it| b'a' + it % 26).collect())
}

// An archive of so many members, each with so many bytes.
fn archive_of(len: usize, members: usize) -> &'static [u8] {
    let size = format!("{len:011o}");
    let mut header = [0u8; 512];
    for (at, text) in [
        (0, "folder/member"),
        (100, "0000644"),
        (124, size.as_str()),
        (136, "14524757200"),
        (148, "        0"),
        (257, "ustar\x0000"),
    ] {
        header[at..at + text.len()].copy_from_slice(text.as_bytes());
    }
    let sum: u32 = header.iter().map(|byte| u32::from(*byte)).sum();
    header[148..156].copy_from_slice(format!("{sum:06o}\0 ").as_bytes());
    let padding = vec![0u8; len.next_multiple_of(512) - len];
    let member = |at: usize| header.iter().chain(&source()[at..at + len]).chain(&padding);
    Vec::leak((0..members).flat_map(member).copied().collect())
}

// A number of bytes, as the table shows it.
fn size_text(size: usize) -> String {
    match size {
        MEBIBYTE.. => format!("{} MiB", size / MEBIBYTE),
        1024.. => format!("{} KiB", size / 1024),
        _ => size.to_string(),
    }
}

// This library's side and the toolchain's: the symbol of each call is its name behind `io_` and `kit_`.
macro_rules! declare {
    ($($name:ident: $source:ident $class:ident $text:literal $sizes:tt $(| $missing:ident)?;)*) => {
        mod ours {$(declare!("io_" $name);)*}
        // A call that the toolchain does not have is declared too.
        #[allow(dead_code)]
        mod kit {$(declare!("kit_" $name);)*}
    };
    ($side:literal $name:ident) => {
        pub fn $name(source: &[u8], room: &mut [u8], calls: u64) -> u64 {
            unsafe extern "C" {
                #[link_name = concat!($side, stringify!($name))]
                fn call(source: *const u8, len: usize, room: *mut u8, size: usize, calls: u64) -> u64;
            }
            unsafe { call(source.as_ptr(), source.len(), room.as_mut_ptr(), room.len(), calls) }
        }
    };
}

listed!(declare);

macro_rules! sides {
    ($name:ident) => {
        [Some(ours::$name), Some(crate::std_side::$name), crate::original!($name), Some(kit::$name)]
    };
    ($name:ident original) => {
        [Some(ours::$name), Some(crate::std_side::$name), None, Some(kit::$name)]
    };
    ($name:ident kit) => {
        [Some(ours::$name), Some(crate::std_side::$name), crate::original!($name), None]
    };
    ($name:ident original_kit) => {
        [Some(ours::$name), Some(crate::std_side::$name), None, None]
    };
    ($name:ident none) => {
        [Some(ours::$name), Some(crate::clients::$name), None, None]
    };
    // A crate whose text may be missing.
    ($name:ident $peer:ident) => {{
        #[cfg($peer)]
        let sides: [Option<Call>; SIDES] = sides!($name none);
        #[cfg(not($peer))]
        let sides: [Option<Call>; SIDES] = [None; SIDES];
        sides
    }};
}

/// A case for each size of each line of the list, if its name has this word.
pub fn with(word: &str) -> Vec<Case> {
    let mut cases = Vec::new();
    macro_rules! add {
        ($($name:ident: $source:ident $class:ident $text:literal [$($size:literal)*] $(| $missing:ident)?;)*) => {$(
            for size in [$($size),*] {
                let name = $text.replace("{}", &size_text(size));
                if !name.contains(word) {
                    continue;
                }
                let kind = stringify!($source);
                let calls = (4 * MEBIBYTE / size).clamp(1, if kind == "bytes" { 1 << 16 } else { 1 << 13 });
                // The longer of two runs makes twice as many calls.
                let source = match kind {
                    "lines" => lines_of(size, 2 * calls),
                    "rows" => rows_of(size, 2 * calls),
                    "frames" => frames_of(size, 2 * calls),
                    "letters" => letters(),
                    "archive" => archive_of(size, 2 * calls),
                    _ => source(),
                };
                let case = Case {
                    call: stringify!($name),
                    name,
                    class: stringify!($class),
                    size,
                    source,
                    calls: calls as u64,
                    sides: sides!($name $($missing)?),
                };
                if case.has(0) {
                    cases.push(case);
                } else {
                    eprintln!("skipped: {} (no text of the crate)", case.name);
                }
            }
        )*};
    }
    listed!(add);
    cases
}
