//! Bugs of `ar` 0.9.0. Each line of the output is the number of a row of docs/FOUND.md, and what the crate gives.
#[path = "device.rs"]
mod device;

use ar::{Archive, Builder, GnuBuilder, Header};
use device::Once;
use std::io::{Cursor, ErrorKind, Read, Seek, SeekFrom};
use std::panic::{AssertUnwindSafe, catch_unwind};

/// The 60 bytes in front of a member.
fn header(name: &str, size: usize) -> String {
    format!("{name:<16}{:<12}{:<6}{:<6}{:<8}{size:<10}`\n", 0, 0, 0, 0)
}

/// An archive of these members; the size of a header is that of its content.
fn archive(members: &[(&str, &str)]) -> Vec<u8> {
    let mut bytes = "!<arch>\n".to_string();
    for (name, content) in members {
        bytes += &header(name, content.len());
        bytes += content;
        bytes += if content.len() % 2 == 1 { "\n" } else { "" };
    }
    bytes.into_bytes()
}

/// The names of an archive's members, or the errors in their places.
fn names<R: Read>(mut archive: Archive<R>) -> String {
    let mut found = Vec::new();
    while let Some(entry) = archive.next_entry() {
        found.push(match entry {
            Ok(entry) => String::from_utf8_lossy(entry.header().identifier()).into_owned(),
            Err(e) => format!("Err({})", e.to_string().split(" (").next().unwrap_or_default()),
        });
    }
    found.join(", ")
}

/// Prints what a call gives, or that it panics.
fn show(row: &str, call: impl FnOnce() -> String) {
    println!("{row} {}", catch_unwind(AssertUnwindSafe(call)).unwrap_or("panics".to_string()));
}

/// What a builder made of members that have these names and the content `hi`.
fn built(names_of: &[&str]) -> Vec<u8> {
    let mut builder = Builder::new(Vec::new());
    for name in names_of {
        builder.append(&Header::new(name.as_bytes().to_vec(), 2), &b"hi"[..]).unwrap();
    }
    builder.into_inner().unwrap()
}

fn faults() {
    let hidden = header("evil.txt", 2) + "ok";
    let outer = archive(&[("outer", &("x".repeat(40) + &hidden))]);
    show("ar-1", || names(Archive::new(Once::of(&outer, 8 + 60 + 40, ErrorKind::WouldBlock))));
    let two = archive(&[("a", "hi"), ("b", "hi")]);
    show("ar-2", || names(Archive::new(Once::of(&two, 8 + 62, ErrorKind::Interrupted))));
    show("ar-3", || {
        let mut builder = Builder::new(Once::of(&[], 4, ErrorKind::WouldBlock));
        let of_a = Header::new(b"a".to_vec(), 2);
        let first = builder.append(&of_a, &b"hi"[..]).is_ok();
        let second = builder.append(&of_a, &b"hi"[..]).is_ok();
        let made = builder.into_inner().unwrap().data;
        format!("{first}, {second}, {}", String::from_utf8_lossy(&made[..12]).replace('\n', "\\n"))
    });
    show("ar-4", || {
        let bytes = format!("!<arch>\n{}hi", header("a", 200));
        let mut archive = Archive::new(bytes.as_bytes());
        let mut content = Vec::new();
        format!("{:?} of 200", archive.next_entry().unwrap().unwrap().read_to_end(&mut content).unwrap())
    });
}

fn tables() {
    show("ar-5", || names(Archive::new(&archive(&[("/99", "")])[..])));
    show("ar-6", || {
        let mut archive = Archive::new(Cursor::new(archive(&[("a", "abc"), ("b", "hi")])));
        archive.next_entry().unwrap().unwrap();
        archive.count_entries().unwrap();
        names(archive)
    });
    show("ar-7", || {
        let symbols = "\0\0\0\x01\0\0\0\x58foobar\0\n";
        let mut archive = Archive::new(Cursor::new(archive(&[("/", symbols), ("foo.o/", "hi")])));
        while archive.next_entry().is_some() {}
        format!("{} symbols", archive.symbols().unwrap().len())
    });
    show("ar-8", || {
        let mut archive = Archive::new(Cursor::new(archive(&[("a", "hi")])));
        let mut entry = archive.next_entry().unwrap().unwrap();
        format!("{:?}", entry.seek(SeekFrom::End(i64::MAX)).is_ok())
    });
}

fn made() {
    show("ar-9", || {
        let mut builder = Builder::new(Vec::new());
        let mut header = Header::new(b"a".to_vec(), 2);
        header.set_uid(4_294_967_294);
        builder.append(&header, &b"hi"[..]).unwrap();
        names(Archive::new(&builder.into_inner().unwrap()[..]))
    });
    show("ar-10", || {
        let [one, two] = [b"one_long_name_of_many".to_vec(), b"two_long_name_of_many".to_vec()];
        let mut builder = GnuBuilder::new(Vec::new(), vec![one.clone(), one.clone(), two.clone()]);
        builder.append(&Header::new(one, 2), &b"hi"[..]).unwrap();
        builder.append(&Header::new(two, 2), &b"hi"[..]).unwrap();
        names(Archive::new(&builder.into_inner().unwrap()[..]))
    });
    show("ar-11", || names(Archive::new(&built(&["x/"])[..])));
    show("ar-12", || {
        let mut builder = Builder::new(Vec::new());
        let first = builder.append(&Header::new(b"a".to_vec(), 3), &b"hi"[..]).is_ok();
        builder.append(&Header::new(b"b".to_vec(), 2), &b"ho"[..]).unwrap();
        format!("{first}; {}", names(Archive::new(&builder.into_inner().unwrap()[..])))
    });
}

fn main() {
    std::panic::set_hook(Box::new(|_| ()));
    faults();
    tables();
    made();
}
