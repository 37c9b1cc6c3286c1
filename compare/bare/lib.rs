//! The calls of crates/bare in Rust, over the Rust crate.
#![no_std]

use core::slice::{from_raw_parts, from_raw_parts_mut};
use no_std_io2::io::{BufReader, BufWriter, Error, ErrorKind, LineWriter, Read, Result, Write, copy};

const CAPACITY: usize = 64;
const DONE: u32 = 0;
const KEPT: u32 = 1;
const FULL: u32 = 2;
const PARTIAL: u32 = 3;
const REFUSED: u32 = 4;

#[panic_handler]
fn panic(_: &core::panic::PanicInfo) -> ! {
    loop {}
}

#[repr(C)]
#[derive(Clone, Copy)]
pub struct Queue {
    bytes: [u8; 64],
    len: usize,
}

impl Queue {
    fn new() -> Queue {
        Queue { bytes: [0; 64], len: 0 }
    }

    fn waiting(&self) -> &[u8] {
        &self.bytes[..self.len.min(CAPACITY)]
    }

    #[inline(never)]
    fn advance(&mut self, n: usize) {
        let end = self.len.min(CAPACITY);
        let start = n.min(end);
        self.bytes.copy_within(start..end, 0);
        self.len = end - start;
    }
}

impl Write for Queue {
    #[inline(never)]
    fn write(&mut self, buf: &[u8]) -> Result<usize> {
        let n = put(self, buf);
        if n == 0 && !buf.is_empty() {
            return Err(Error::from(ErrorKind::WouldBlock));
        }
        Ok(n)
    }

    fn flush(&mut self) -> Result<()> {
        Ok(())
    }
}

#[inline(never)]
fn put(queue: &mut Queue, bytes: &[u8]) -> usize {
    let start = queue.len.min(CAPACITY);
    let n = bytes.len().min(CAPACITY - start);
    queue.bytes[start..start + n].copy_from_slice(&bytes[..n]);
    queue.len = start + n;
    n
}

#[unsafe(no_mangle)]
pub unsafe extern "C" fn bare_put(queue: &mut Queue, bytes: *const u8, count: usize) -> usize {
    put(queue, unsafe { from_raw_parts(bytes, count) })
}

#[unsafe(no_mangle)]
pub unsafe extern "C" fn bare_take(queue: &mut Queue, room: *mut u8, size: usize) -> usize {
    let room = unsafe { from_raw_parts_mut(room, size) };
    let n = queue.waiting().len().min(room.len());
    room[..n].copy_from_slice(&queue.waiting()[..n]);
    queue.advance(n);
    n
}

fn print<W: Write>(w: &mut W, readings: &[u32]) -> Result<()> {
    for i in 0..readings.len() {
        let reading = readings[i];
        write!(w, "sensor {i} = {reading}\n")?;
    }
    w.flush()
}

#[unsafe(no_mangle)]
pub unsafe extern "C" fn bare_report(kept: &mut Queue, port: &mut Queue, readings: *const u32, count: usize) -> u32 {
    let mut w = LineWriter::<Queue, 32>::new(Queue::new());
    if print(&mut w, unsafe { from_raw_parts(readings, count) }).is_err() {
        return REFUSED;
    }
    append(w.get_ref(), kept, port)
}

// Sends what is kept, as `write_rest` does here.
fn send(kept: &mut Queue, port: &mut Queue) -> Result<()> {
    let mut sent = Ok(());
    let mut rest = kept.waiting();
    while !rest.is_empty() {
        match port.write(rest) {
            Ok(0) => sent = Err(Error::from(ErrorKind::WriteZero)),
            Ok(n) => rest = &rest[n..],
            Err(e) if e.kind() == ErrorKind::Interrupted => {}
            Err(e) => sent = Err(e),
        }
        if sent.is_err() {
            break;
        }
    }
    let gone = kept.waiting().len() - rest.len();
    kept.advance(gone);
    sent
}

#[inline(never)]
#[unsafe(no_mangle)]
pub extern "C" fn bare_resume(kept: &mut Queue, port: &mut Queue) -> u32 {
    match send(kept, port) {
        Ok(()) => DONE,
        Err(_full) => KEPT,
    }
}

// Puts all bytes of a queue behind those that wait for the port, and behind what is kept.
#[inline(never)]
fn append(text: &Queue, kept: &mut Queue, port: &mut Queue) -> u32 {
    let _ = bare_resume(kept, port);
    let bytes = text.waiting();
    if kept.waiting().len() + port.waiting().len() + bytes.len() > CAPACITY {
        return FULL;
    }
    put(port, bytes);
    DONE
}

#[unsafe(no_mangle)]
pub unsafe extern "C" fn bare_log(kept: &mut Queue, port: &mut Queue, text: *const u8, count: usize) -> u32 {
    let text = unsafe { from_raw_parts(text, count) };
    if text.len() >= CAPACITY || text.contains(&b'\n') {
        return REFUSED;
    }
    let _ = bare_resume(kept, port);
    if kept.waiting().len() + text.len() >= CAPACITY {
        return FULL;
    }
    put(kept, text);
    put(kept, b"\n");
    bare_resume(kept, port)
}

#[unsafe(no_mangle)]
pub unsafe extern "C" fn bare_message(port: &mut Queue, room: *mut u8, size: usize, len: &mut usize) -> u32 {
    let room = unsafe { from_raw_parts_mut(room, size) };
    let mut rest = port.waiting();
    let mut head = [0u8; 1];
    if rest.read_exact(&mut head).is_err() {
        return PARTIAL;
    }
    let n = usize::from(head[0]);
    if n >= CAPACITY {
        return REFUSED;
    }
    if n > room.len() {
        *len = n;
        return FULL;
    }
    if rest.read_exact(&mut room[..n]).is_err() {
        return PARTIAL;
    }
    *len = n;
    port.advance(1 + n);
    DONE
}

fn send_whole<W: Write>(w: &mut W, payload: &[u8]) -> Result<()> {
    w.write_all(&(payload.len() as u32).to_le_bytes())?;
    w.write_all(payload)?;
    w.flush()
}

#[unsafe(no_mangle)]
pub unsafe extern "C" fn bare_send(kept: &mut Queue, port: &mut Queue, payload: *const u8, count: usize) -> u32 {
    let mut w = BufWriter::<Queue, 65>::new(Queue::new());
    if send_whole(&mut w, unsafe { from_raw_parts(payload, count) }).is_err() {
        return REFUSED;
    }
    append(w.get_ref(), kept, port)
}

fn told_len(mut bytes: &[u8]) -> Option<usize> {
    let mut header = [0; 4];
    bytes.read_exact(&mut header).ok()?;
    Some(u32::from_le_bytes(header) as usize)
}

#[unsafe(no_mangle)]
pub unsafe extern "C" fn bare_receive(port: &mut Queue, room: *mut u8, size: usize, len: &mut usize) -> u32 {
    let room = unsafe { from_raw_parts_mut(room, size) };
    let Some(n) = told_len(port.waiting()) else {
        return PARTIAL;
    };
    if n > CAPACITY - 4 {
        return REFUSED;
    }
    if n > room.len() {
        return FULL;
    }
    let mut rest = &port.waiting()[4..];
    if rest.read_exact(&mut room[..n]).is_err() {
        return PARTIAL;
    }
    *len = n;
    port.advance(4 + n);
    DONE
}

#[unsafe(no_mangle)]
pub unsafe extern "C" fn bare_skip(port: &mut Queue, left: &mut usize) -> u32 {
    if *left == 0 {
        let Some(told) = told_len(port.waiting()) else {
            return PARTIAL;
        };
        *left = 4 + told;
    }
    let gone = port.waiting().len().min(*left);
    port.advance(gone);
    *left -= gone;
    if *left > 0 { PARTIAL } else { DONE }
}

fn print_event<W: Write>(w: &mut W, number: u32) -> Result<()> {
    write!(w, "event {number}\n")?;
    w.flush()
}

#[unsafe(no_mangle)]
pub unsafe extern "C" fn bare_event(kept: &mut Queue, port: &mut Queue, number: u32) -> u32 {
    let mut w = LineWriter::<Queue, 32>::new(Queue::new());
    if print_event(&mut w, number).is_err() {
        return REFUSED;
    }
    append(w.get_ref(), kept, port)
}

fn copy_whole<W: Write>(from: &[u8], w: &mut W) -> Result<()> {
    let mut r = BufReader::<&[u8], 16>::new(from);
    copy::<_, _, 16>(&mut r, w)?;
    w.flush()
}

#[unsafe(no_mangle)]
pub unsafe extern "C" fn bare_copy(kept: &mut Queue, port: &mut Queue, from: *const u8, count: usize) -> u32 {
    let mut w = BufWriter::<Queue, 32>::new(Queue::new());
    if copy_whole(unsafe { from_raw_parts(from, count) }, &mut w).is_err() {
        return REFUSED;
    }
    append(w.get_ref(), kept, port)
}
