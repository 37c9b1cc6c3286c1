//! Bugs of `tar` 0.4.38.
#[path = "device.rs"]
mod device;

use device::Once;
use std::io::ErrorKind;
use tar::{Archive, Builder, Header};

fn main() {
    let mut builder = Builder::new(Once::of(&[], 0, ErrorKind::WouldBlock));
    let replies: Vec<bool> = (0..2).map(|_| builder.finish().is_ok()).collect();
    println!("tar-1 {}, {}, {} bytes", replies[0], replies[1], builder.get_ref().data.len());

    let mut builder = Builder::new(Vec::new());
    let mut header = Header::new_gnu();
    header.set_size(2);
    builder.append_data(&mut header, "a", &b"hi"[..]).unwrap();
    let made = builder.into_inner().unwrap();
    let mut archive = Archive::new(Once::of(&made, 100, ErrorKind::Interrupted));
    let found: Vec<String> = archive
        .entries()
        .unwrap()
        .map(|entry| entry.map_or("Err".to_string(), |it| String::from_utf8_lossy(&it.path_bytes()).into_owned()))
        .collect();
    println!("tar-2 {}", found.join(", "));
}
