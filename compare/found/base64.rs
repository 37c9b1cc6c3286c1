//! A bug of `base64` 0.13.0.
#[path = "device.rs"]
mod device;

use base64::write::EncoderWriter;
use device::Once;
use std::io::{ErrorKind, Write};

fn main() {
    let mut device = Once::of(&[], 4, ErrorKind::WouldBlock);
    let mut encoder = EncoderWriter::new(&mut device, base64::STANDARD);
    encoder.write_all(b"abcd").unwrap();
    let replies: Vec<bool> = (0..2).map(|_| encoder.finish().is_ok()).collect();
    drop(encoder);
    println!("base64-1 {}, {}, {}", replies[0], replies[1], String::from_utf8_lossy(&device.data));
}
