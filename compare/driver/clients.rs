//! The crates beside which the clients of this library are measured, over the streams of the standard library. A crate
//! whose text is not there has no module here, and its cases are skipped.
pub use super::std_side::*;
use crate::calls;
use crate::cases::{FAILED, sample};
use std::io::{BufReader, BufWriter, LineWriter, Read, Result, Write};

// What a vector has after some calls that must not fail.
fn written<const N: usize>(calls: u64, write: impl Fn(&mut Vec<u8>) -> Result<()>) -> u64 {
    let mut content = Vec::with_capacity(N * calls as usize);
    if write(&mut content).is_err() { FAILED } else { sample(&content) }
}

#[cfg(base64)]
mod texts {
    use super::*;
    use base64::{STANDARD, read::DecoderReader, write::EncoderWriter};

    calls! {
        base64_encode(source, room, calls) {
            let size = room.len() * calls as usize;
            let mut w = EncoderWriter::new(Vec::with_capacity(size + size / 2), STANDARD);
            let sum = write_all_often(&mut w, &source[..room.len()], calls);
            w.finish().map_or(FAILED, |content| sum.wrapping_add(sample(&content)))
        }
        base64_to_end(source, room, calls) {
            let mut sum = 0u64;
            for _ in 0..calls {
                let (mut text, mut content) = (&source[..room.len() / 3 * 4], Vec::new());
                if DecoderReader::new(&mut text, STANDARD).read_to_end(&mut content).is_err() {
                    return FAILED;
                }
                sum = sum.wrapping_add(sample(&content));
            }
            sum
        }
        base64_exact(source, room, calls) { exact_often(&mut DecoderReader::new(&mut source, STANDARD), room, calls) }
    }
}
#[cfg(base64)]
pub use texts::*;

#[cfg(tar)]
mod archives {
    use super::*;
    use tar::{Archive, Builder, Entry, Header};

    fn append_file(builder: &mut Builder<BufWriter<Vec<u8>>>, content: &[u8]) -> Result<()> {
        let mut header = Header::new_ustar();
        header.set_path("folder/member")?;
        header.set_size(content.len() as u64);
        header.set_mode(0o644);
        header.set_mtime(1_700_000_000);
        header.set_cksum();
        builder.append(&header, content)
    }

    // The sum of what is told of so many members.
    fn members(source: &[u8], calls: u64, mut tell: impl FnMut(Entry<'_, BufReader<&[u8]>>) -> Result<u64>) -> u64 {
        let mut archive = Archive::new(BufReader::with_capacity(8192, source));
        let Ok(entries) = archive.entries() else {
            return FAILED;
        };
        let mut entries = entries.take(calls as usize);
        entries.try_fold(0u64, |sum, entry| Result::Ok(sum.wrapping_add(tell(entry?)?))).unwrap_or(FAILED)
    }

    calls! {
        tar_append(source, room, calls) {
            let content = Vec::with_capacity((room.len() + 1024) * calls as usize + 1024);
            let mut builder = Builder::new(BufWriter::with_capacity(8192, content));
            for _ in 0..calls {
                if append_file(&mut builder, &source[..room.len()]).is_err() {
                    return FAILED;
                }
            }
            let content = builder.into_inner().map(|w| w.into_inner());
            content.map_or(FAILED, |content| content.map_or(FAILED, |it| it.len() as u64))
        }
        tar_read(source, room, calls) {
            members(source, calls, |mut entry| {
                entry.read_exact(room)?;
                Ok(sample(room))
            })
        }
    }
}
#[cfg(tar)]
pub use archives::*;

// A text as a line of its own.
fn print_line<W: Write>(w: &mut W, text: std::fmt::Arguments<'_>) -> Result<()> {
    w.write_fmt(format_args!("{text}\n"))
}

calls! {
    log_text(source, room, calls) {
        written::<32>(calls, |content| {
            let mut w = LineWriter::with_capacity(256, content);
            (0..calls).try_for_each(|n| print_line(&mut w, format_args!("{}={}", "volts", n)))
        })
    }
}

#[cfg(log)]
mod logs {
    use super::*;
    use log::{Level, Log, Metadata, Record};
    use std::sync::Mutex;

    struct Sink(Mutex<LineWriter<Vec<u8>>>);

    impl Log for Sink {
        fn enabled(&self, _: &Metadata<'_>) -> bool {
            true
        }

        fn log(&self, record: &Record<'_>) {
            let mut w = self.0.lock().unwrap();
            writeln!(w, "[{:<5} {}] {}", record.level(), record.target(), record.args()).unwrap();
        }

        fn flush(&self) {}
    }

    calls! {
        log_info(source, room, calls) {
            let content = Vec::with_capacity(64 * calls as usize);
            let sink = Sink(Mutex::new(LineWriter::with_capacity(256, content)));
            let logger: &dyn Log = std::hint::black_box(&sink);
            for n in 0..calls {
                let text = format_args!("{n}");
                logger.log(&Record::builder().level(Level::Info).target("sensor").args(text).build());
            }
            sample(sink.0.lock().unwrap().get_ref())
        }
    }
}
#[cfg(log)]
pub use logs::*;
