//! Bugs of `no_std_io2` 0.9.4.
use no_std_io2::io::{BufWriter, Cursor, LineWriter, Result, Write};
use std::panic::catch_unwind;

/// Takes as many bytes of each write as the next number says, then everything.
struct Takes(Vec<u8>, Vec<usize>);

impl Write for Takes {
    fn write(&mut self, buf: &[u8]) -> Result<usize> {
        let n = if self.1.is_empty() { buf.len() } else { self.1.remove(0).min(buf.len()) };
        self.0.extend(&buf[..n]);
        Ok(n)
    }

    fn flush(&mut self) -> Result<()> {
        Ok(())
    }
}

fn main() {
    std::panic::set_hook(Box::new(|_| ()));
    let mut w = BufWriter::<Takes, 3>::new(Takes(Vec::new(), vec![1, 0]));
    w.write(b"ab").unwrap();
    let replies = [w.flush().is_ok(), w.flush().is_ok()];
    println!("no_std_io2-1 {}, {}, {}", replies[0], replies[1], String::from_utf8_lossy(&w.get_ref().0));

    let mut w = BufWriter::<Vec<u8>, 8>::new(Vec::new());
    w.write(b"abc").unwrap();
    println!("no_std_io2-2 {} bytes", w.buffer().len());

    let mut w = LineWriter::<Takes, 8>::new(Takes(Vec::new(), vec![1]));
    w.write(b"a\nb").unwrap();
    w.write(b"b").unwrap();
    println!("no_std_io2-3 {}", String::from_utf8_lossy(&w.get_ref().0).replace('\n', "\\n"));

    let end = catch_unwind(|| {
        let mut cursor = Cursor::new(Vec::new());
        cursor.set_position(u64::MAX);
        cursor.write(b"a").is_ok()
    });
    println!("no_std_io2-4 {}", end.map_or("panics".to_string(), |it| it.to_string()));
}
