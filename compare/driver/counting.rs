//! Instructions a call, counted by callgrind: the difference of two runs, of which one makes twice
//! as many calls, so that what is made before and after the calls isn't counted.
use crate::{Measured, SIDES};
use crate::cases::Case;
use std::arch::asm;
use std::ffi::CString;
use std::fs;
use std::path::Path;
use std::process::{Command, Stdio};

// Callgrind's requests, as its C header numbers them.
const ZERO: usize = 0x4354_0001;

const DUMP: usize = 0x4354_0003;

// Asks callgrind for something; outside of it this does nothing.
fn request(code: usize, argument: usize) {
    let words = [code, argument, 0, 0, 0, 0];
    // The rotations together turn the register round twice, so that it stays as it is.
    unsafe {
        asm!(
            "rol rdi, 3",
            "rol rdi, 13",
            "rol rdi, 61",
            "rol rdi, 51",
            "xchg rbx, rbx",
            inout("rax") words.as_ptr() => _,
            inout("rdx") 0usize => _,
        );
    }
}

// How many calls the shorter run makes: fewer than a timed one.
fn calls_of(case: &Case) -> u64 {
    (case.calls / 8).max(1)
}

/// Runs each case on each side twice, below callgrind, and has it dump the count of each run under
/// a name of three numbers.
pub fn count_below_callgrind(cases: &[Case]) {
    // The C library maps a large block apart until the first such block is freed, so the first side would be alone in that.
    drop(std::hint::black_box(vec![1u8; 24 << 20]));
    for (at, case) in cases.iter().enumerate() {
        for side in (0..SIDES).filter(|side| case.has(*side)) {
            for times in [1, 2] {
                let name = CString::new(format!("{at} {side} {times}")).unwrap();
                request(ZERO, 0);
                std::hint::black_box(case.run(side, calls_of(case) * times));
                request(DUMP, name.as_ptr() as usize);
            }
        }
    }
}

/// Runs this program below callgrind on the cases of this word, and gives for each case the instructions a call on each
/// side that it has.
pub fn count(cases: &[Case], word: &str) -> Result<Measured, String> {
    let program = std::env::current_exe().map_err(|error| error.to_string())?;
    let folder = program.with_file_name("callgrind");
    let _ = fs::remove_dir_all(&folder);
    fs::create_dir_all(&folder).map_err(|error| error.to_string())?;
    let status = Command::new("valgrind")
        .arg("--tool=callgrind")
        .arg(format!("--callgrind-out-file={}/out", folder.display()))
        .arg(&program)
        .args([word, "count"])
        // Callgrind counts each byte of a `rep movsb` as an instruction, so no copy is to use it.
        .env("GLIBC_TUNABLES", "glibc.cpu.hwcaps=-ERMS")
        .stderr(Stdio::null())
        .status()
        .map_err(|error| format!("valgrind: {error}"))?;
    if !status.success() {
        return Err(format!("valgrind ended with {status}"));
    }
    read_dumps(&folder, cases).map_err(|error| error.to_string())
}

// The two counts of each case and side, by their difference.
fn read_dumps(folder: &Path, cases: &[Case]) -> std::io::Result<Measured> {
    let mut totals = vec![[[None::<f64>; 2]; SIDES]; cases.len()];
    for entry in fs::read_dir(folder)? {
        if let Some((at, side, times, total)) = read_dump(&entry?.path()) {
            totals[at][side][times - 1] = Some(total);
        }
    }
    let each = |case: &Case, [once, twice]: [Option<f64>; 2]| Some((twice? - once?) / calls_of(case) as f64);
    let counts = cases.iter().zip(totals);
    Ok(counts.map(|(case, sides)| sides.map(|totals| each(case, totals))).collect())
}

// A dump's three numbers, and its count.
fn read_dump(path: &Path) -> Option<(usize, usize, usize, f64)> {
    let text = fs::read_to_string(path).ok()?;
    let after = |start: &str| text.lines().find_map(|line| line.strip_prefix(start));
    let mut name = after("desc: Trigger: Client Request: ")?.split(' ');
    let mut number = || name.next()?.parse().ok();
    let (at, side, times) = (number()?, number()?, number()?);
    let total = after("totals: ")?.trim().parse().ok()?;
    Some((at, side, times, total))
}
