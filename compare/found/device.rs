//! A device that fails once, for the programs of this folder.
use std::io::{ErrorKind, Read, Result, Write};

/// Gives `data` and takes what is written. The first call after `calm` bytes fails with `kind`; a write before that
/// takes at most the bytes that are left until then.
pub struct Once {
    pub data: Vec<u8>,
    pub at: usize,
    pub calm: usize,
    pub kind: Option<ErrorKind>,
}

impl Once {
    /// A reader of `data` that fails once, after `calm` bytes.
    pub fn of(data: &[u8], calm: usize, kind: ErrorKind) -> Once {
        Once { data: data.to_vec(), at: 0, calm, kind: Some(kind) }
    }

    /// How many bytes of a buffer of `len` bytes the next call moves, or its error.
    fn room(&mut self, len: usize) -> Result<usize> {
        match self.kind {
            Some(_) if self.at < self.calm => Ok(len.min(self.calm - self.at)),
            Some(kind) => {
                self.kind = None;
                Err(kind.into())
            }
            None => Ok(len),
        }
    }
}

impl Read for Once {
    fn read(&mut self, buf: &mut [u8]) -> Result<usize> {
        let n = self.room(buf.len())?.min(self.data.len() - self.at);
        buf[..n].copy_from_slice(&self.data[self.at..self.at + n]);
        self.at += n;
        Ok(n)
    }
}

impl Write for Once {
    fn write(&mut self, buf: &[u8]) -> Result<usize> {
        let n = self.room(buf.len())?;
        self.data.extend(&buf[..n]);
        self.at += n;
        Ok(n)
    }

    fn flush(&mut self) -> Result<()> {
        Ok(())
    }
}
