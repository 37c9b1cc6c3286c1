//! The same programs over Rust's `std::io`, with its usual buffers; `list` and `extract`, which are `tar_list`'s two; and
//! `cat`. `encode` and `decode` use the crate `base64`, and `make` the crate `tar`.
use std::fs::File;
use std::io::{self, BufRead, BufReader, BufWriter, Error, ErrorKind, Result, Write};
use std::os::unix::fs::{MetadataExt as _, PermissionsExt as _};

const RECORDS: u64 = 1_000_000;

fn lines(input: impl BufRead) -> Result<u64> {
    let mut sum = 0;
    for line in input.lines() {
        sum += line?.len() as u64;
    }
    Ok(sum)
}

fn read_line(mut input: impl BufRead) -> Result<u64> {
    let (mut sum, mut line) = (0, String::new());
    loop {
        line.clear();
        match input.read_line(&mut line)? {
            0 => return Ok(sum),
            n => sum += n as u64,
        }
    }
}

fn read_until(mut input: impl BufRead) -> Result<u64> {
    let (mut sum, mut piece) = (0, Vec::new());
    loop {
        piece.clear();
        match input.read_until(b'\n', &mut piece)? {
            0 => return Ok(sum),
            n => sum += n as u64,
        }
    }
}

fn frames_in(mut input: impl BufRead) -> Result<u64> {
    let (mut sum, mut header, mut room) = (0, [0; 4], [0; 65_536]);
    while !input.fill_buf()?.is_empty() {
        input.read_exact(&mut header)?;
        let payload = room.get_mut(..u32::from_le_bytes(header) as usize).ok_or(ErrorKind::InvalidInput)?;
        input.read_exact(payload)?;
        sum += payload.len() as u64;
    }
    Ok(sum)
}

fn frames_out(mut output: impl Write) -> Result<u64> {
    let mut payload = [b'x'; 100];
    for at in 0..RECORDS {
        payload[0] = at as u8;
        output.write_all(&(payload.len() as u32).to_le_bytes())?;
        output.write_all(&payload)?;
    }
    output.flush().map(|()| 0)
}

fn log_text(mut output: impl Write) -> Result<u64> {
    for at in 0..RECORDS {
        writeln!(output, "{at} a line of a log, of some sixty bytes, with its number in front")?;
    }
    output.flush().map(|()| 0)
}

fn pass(input: &mut impl BufRead, mut left: u64) -> Result<()> {
    while left > 0 {
        let n = (input.fill_buf()?.len() as u64).min(left);
        if n == 0 {
            return Err(ErrorKind::UnexpectedEof.into());
        }
        input.consume(n as usize);
        left -= n;
    }
    Ok(())
}

// Lists the members of a tar archive, or copies the one of this name.
fn list(mut input: impl BufRead, mut output: impl Write, name: Option<&str>) -> Result<u64> {
    let mut header = [0; 512];
    loop {
        input.read_exact(&mut header)?;
        let of_name = &header[..100];
        let len = of_name.iter().position(|byte| *byte == 0).unwrap_or(100);
        if len == 0 {
            output.flush()?;
            return Ok(0);
        }
        let summed = |(at, byte): (usize, &u8)| if (148..156).contains(&at) { 32 } else { u64::from(*byte) };
        let sum: u64 = header.iter().enumerate().map(summed).sum();
        let number = |field: &[u8]| {
            let digits = field.iter().filter(|byte| (b'0'..b'8').contains(byte));
            digits.fold(0, |number, digit| number * 8 + u64::from(digit - b'0'))
        };
        if number(&header[148..156]) != sum {
            return Err(Error::new(ErrorKind::InvalidData, "a header's sum"));
        }
        let size = number(&header[124..136]);
        let member_name = &header[..len];
        if name.is_some_and(|name| name.as_bytes() == member_name) {
            io::copy(&mut input.take(size), &mut output)?;
            output.flush()?;
            return Ok(0);
        }
        if name.is_none() {
            write!(output, "{size} ")?;
            output.write_all(member_name)?;
            output.write_all(b"\n")?;
        }
        pass(&mut input, size.next_multiple_of(512))?;
    }
}

fn cat(names: &[String], mut output: impl Write) -> Result<u64> {
    let mut sum = 0;
    for name in names {
        sum += io::copy(&mut File::open(name)?, &mut output)?;
    }
    output.flush().map(|()| sum)
}

#[cfg(base64)]
fn encode(mut input: impl BufRead, output: impl Write) -> Result<u64> {
    let mut encoder = base64::write::EncoderWriter::new(output, base64::STANDARD);
    io::copy(&mut input, &mut encoder)?;
    encoder.finish()?.flush().map(|()| 0)
}

#[cfg(base64)]
fn decode(mut input: impl BufRead, mut output: impl Write) -> Result<u64> {
    io::copy(&mut base64::read::DecoderReader::new(&mut input, base64::STANDARD), &mut output)?;
    output.flush().map(|()| 0)
}

// What `tar_make` keeps of a file: its name, its size, its permissions and its time.
#[cfg(tar)]
fn make(names: &[String], output: impl Write) -> Result<u64> {
    let mut builder = tar::Builder::new(output);
    for name in names {
        let file = File::open(name)?;
        let found = file.metadata()?;
        let mut header = tar::Header::new_ustar();
        header.set_path(name)?;
        header.set_size(found.len());
        header.set_mode(found.permissions().mode() & 0o7777);
        header.set_entry_type(tar::EntryType::Regular);
        header.set_uid(0);
        header.set_gid(0);
        header.set_device_major(0)?;
        header.set_device_minor(0)?;
        header.set_mtime(found.mtime() as u64);
        header.set_cksum();
        // Six digits, as tar_make and GNU tar write them.
        let sum = format!("{:06o}\0 ", header.cksum()?);
        header.as_old_mut().cksum.copy_from_slice(sum.as_bytes());
        builder.append(&header, file)?;
    }
    builder.into_inner()?.flush().map(|()| 0)
}

fn main() -> Result<()> {
    let words: Vec<String> = std::env::args().collect();
    let word = words[1].as_str();
    let input = BufReader::new(io::stdin().lock());
    let stdout = || BufWriter::new(io::stdout().lock());
    let sum = match word {
        "lines" => lines(input)?,
        "read_line" => read_line(input)?,
        "read_until" => read_until(input)?,
        "frames_in" => frames_in(input)?,
        "frames_out" => frames_out(stdout())?,
        "log_text" => log_text(io::stdout().lock())?,
        "cat" => cat(&words[2..], io::stdout().lock())?,
        #[cfg(base64)]
        "encode" => encode(input, stdout())?,
        #[cfg(base64)]
        "decode" => decode(input, stdout())?,
        #[cfg(tar)]
        "make" => make(&words[2..], stdout())?,
        "list" => list(input, stdout(), None)?,
        "extract" => list(input, stdout(), words.get(2).map(String::as_str))?,
        _ => return Err(Error::new(ErrorKind::InvalidInput, "no such program")),
    };
    eprintln!("{sum}");
    Ok(())
}
