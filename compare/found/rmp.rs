//! Bugs of `rmp` 0.8.11.
use rmp::{Marker, decode, encode};
use std::io::{Cursor, Result, Write};

/// Counts the bytes, and keeps the first five.
struct Count(Vec<u8>, u64);

impl Write for Count {
    fn write(&mut self, buf: &[u8]) -> Result<usize> {
        let room = 5 - self.0.len();
        self.0.extend(&buf[..buf.len().min(room)]);
        self.1 += buf.len() as u64;
        Ok(buf.len())
    }

    fn flush(&mut self) -> Result<()> {
        Ok(())
    }
}

fn main() {
    let mut count = Count(Vec::new(), 0);
    let is_ok = encode::write_bin(&mut count, &vec![0; (1 << 32) + 3]).is_ok();
    println!("rmp-1 {is_ok}, head {}, bytes {}", decode::read_bin_len(&mut &count.0[..]).unwrap(), count.1 - 2);
    println!("rmp-2 {:?}", Marker::from_u8(Marker::FixPos(200).to_u8()));
    let mut text = Cursor::new(b"\xa3abc");
    let first = decode::read_str(&mut text, &mut [0; 2]).is_ok();
    let second = decode::read_str(&mut text, &mut [0; 8]).is_ok();
    println!("rmp-3 {first}, {second}");
}
