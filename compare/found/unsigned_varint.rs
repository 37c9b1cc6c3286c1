//! Bugs of `unsigned-varint` 0.5.1.
#[path = "device.rs"]
mod device;

use device::Once;
use std::io::ErrorKind;
use unsigned_varint::{decode, io::read_u64};

fn main() {
    let mut bytes = [0x80; 10];
    bytes[9] = 0x02;
    println!("varint-1 {:?}", decode::u64(&bytes).map(|it| it.0).ok());
    let mut device = Once::of(&[0xac, 0x02], 1, ErrorKind::Interrupted);
    println!("varint-2 {:?}, {:?}", read_u64(&mut device).ok(), read_u64(&mut device).ok());
}
