// Plays files of rows over Rust's std::io: the same answers of the device, the same calls, the same columns. It prints each row that
// comes out otherwise, with what std has in brackets, behind the streams of its table for which it does so alike, and for each file
// how many rows did not and how many it has no stream or call for.
use std::{cell::RefCell, collections::VecDeque, env, fs, io, io::*, panic, rc::Rc};

#[derive(Default)]
struct Journal { answers: VecDeque<String>, pending: Vec<u8>, out: Vec<u8>, calls: Vec<String> }

// A device that answers as it is told and notes each call; if it is noted, also those that the traits could make of others.
#[derive(Clone, Default)]
struct Device { journal: Rc<RefCell<Journal>>, lent: Vec<u8>, is_noted: bool, is_second: bool }

fn kind_of(name: &str) -> ErrorKind {
    use ErrorKind::*;
    [BrokenPipe, WouldBlock, TimedOut, Interrupted, Other, NotFound, InvalidInput, InvalidData, WriteZero, UnexpectedEof, OutOfMemory]
        .into_iter().find(|kind| format!("{kind:?}") == name).unwrap()
}

// Long runs of letters, each following the one before it, or of dots are a count and the first byte.
fn bytes(bytes: &[u8]) -> String {
    let next = |b: u8| match b { b'a'..=b'v' => b + 1, b'w' => b'a', b'.' => b, _ => 0 };
    let one = |b: u8| match b {
        b'\n' => "\\n".into(), b'\\' => "\\\\".into(), 32..=126 => (b as char).to_string(), _ => format!("\\x{b:02x}") };
    let (mut text, mut at) = (String::new(), 0);
    while at < bytes.len() {
        let mut end = at + 1;
        while end < bytes.len() && bytes[end] == next(bytes[end - 1]) { end += 1; }
        if end - at >= 24 { text += &format!("\\*{}", end - at); }
        text.extend(bytes[at..if end - at >= 24 { at + 1 } else { end }].iter().map(|b| one(*b)));
        at = end;
    }
    if text.is_empty() { "-".into() } else { text }
}

fn unescape(text: &str) -> Vec<u8> {
    let (mut rest, mut found) = (text.as_bytes(), vec![]);
    while let [b, after @ ..] = rest {
        rest = after;
        if *b != b'\\' { found.push(*b); continue; }
        let (mark, after) = (rest[0], &rest[1..]);
        match mark {
            b'n' => { found.push(b'\n'); rest = after; }
            b'x' => { found.push(u8::from_str_radix(std::str::from_utf8(&after[..2]).unwrap(), 16).unwrap()); rest = &after[2..]; }
            b'*' => {
                let digits = after.iter().take_while(|b| b.is_ascii_digit()).count();
                let count: usize = std::str::from_utf8(&after[..digits]).unwrap().parse().unwrap();
                let first = after[digits];
                found.extend((0..count).map(|i| if first == b'.' { first } else { b'a' + ((usize::from(first - b'a') + i) % 23) as u8 }));
                rest = &after[digits + 1..];
            }
            _ => { found.push(b'\\'); rest = after; }
        }
    }
    found
}

fn error(e: &Error) -> String {
    let kind = format!("{:?}", e.kind());
    if e.get_ref().is_some() || e.to_string() != e.kind().to_string() { format!("!{kind}: {e}") } else { format!("!{kind}") }
}
fn number<T: ToString>(r: &io::Result<T>) -> String { match r { Ok(n) => n.to_string(), Err(e) => error(e) } }
fn done(r: &io::Result<()>) -> String { match r { Ok(()) => "ok".into(), Err(e) => error(e) } }
fn told(words: &str) -> VecDeque<String> { words.trim().split(", ").filter(|w| !w.is_empty()).map(String::from).collect() }

impl Device {
    fn note(&self, call: String) { self.journal.borrow_mut().calls.push(call) }
    fn name(&self, call: String) { if self.is_noted { self.note(call) } }
    fn answer(&self) -> io::Result<(String, String)> {
        let answer = self.journal.borrow_mut().answers.pop_front().unwrap_or("all".into());
        let (word, rest) = answer.split_once(' ').unwrap_or((&answer, ""));
        if word != "fail" { return Ok((word.into(), rest.into())); }
        let (kind, text) = rest.split_once(' ').unwrap_or((rest, ""));
        Err(if text.is_empty() { kind_of(kind).into() } else { Error::new(kind_of(kind), text) })
    }
    fn give(&self, room: usize) -> io::Result<Vec<u8>> {
        if room == 0 { return Ok(vec![]); }
        let mut all = std::mem::take(&mut self.journal.borrow_mut().pending);
        if all.is_empty() { all = match self.answer()? { (word, rest) if word == "give" => unescape(&rest), _ => vec![] }; }
        let rest = all.split_off(room.min(all.len()));
        self.journal.borrow_mut().pending = rest;
        Ok(all)
    }
    fn lend(&mut self) -> io::Result<&[u8]> {
        if self.lent.is_empty() { self.lent = self.ask("fill", 4)?; }
        Ok(&self.lent)
    }
    fn called(&self, call: &str) -> String { format!("{call}{}", if self.is_second { " second" } else { "" }) }
    fn ask(&self, call: &str, room: usize) -> io::Result<Vec<u8>> {
        let answer = self.give(room);
        self.note(format!("{} {room} = {}", self.called(call), match &answer { Ok(b) => bytes(b), Err(e) => error(e) }));
        answer
    }
}
impl Write for Device {
    fn write(&mut self, buf: &[u8]) -> io::Result<usize> {
        let answer = self.answer().map(|(word, n)| match word.as_str() {
            "take" => buf.len().min(n.parse().unwrap()), "zero" => 0, _ => buf.len() });
        if let Ok(n) = answer { self.journal.borrow_mut().out.extend(&buf[..n]); }
        self.note(format!("write {} = {}", bytes(buf), number(&answer)));
        answer
    }
    fn write_all(&mut self, mut buf: &[u8]) -> io::Result<()> {
        self.name(format!("write_all {}", bytes(buf)));
        while !buf.is_empty() {
            match self.write(buf) {
                Ok(0) => return Err(Error::new(ErrorKind::WriteZero, "failed to write whole buffer")),
                Ok(n) => buf = &buf[n..],
                Err(e) if e.kind() == ErrorKind::Interrupted => {}
                Err(e) => return Err(e),
            }
        }
        Ok(())
    }
    fn flush(&mut self) -> io::Result<()> {
        let answer = self.answer().map(|_| ());
        self.note(format!("flush = {}", done(&answer)));
        answer
    }
}
impl Read for Device {
    fn read(&mut self, buf: &mut [u8]) -> io::Result<usize> {
        let n = buf.len().min(self.lent.len());
        let given = if self.lent.is_empty() { self.ask("read", buf.len())? } else { self.lent.drain(..n).collect() };
        buf[..given.len()].copy_from_slice(&given);
        Ok(given.len())
    }
    fn read_exact(&mut self, buf: &mut [u8]) -> io::Result<()> {
        self.name(format!("read_exact {}", buf.len()));
        Unnamed(self).read_exact(buf)
    }
    fn read_to_end(&mut self, buf: &mut Vec<u8>) -> io::Result<usize> { self.name("read_to_end".into()); Unnamed(self).read_to_end(buf) }
}
impl BufRead for Device {
    fn fill_buf(&mut self) -> io::Result<&[u8]> { self.name("fill_buf".into()); self.lend() }
    fn consume(&mut self, n: usize) { self.note(format!("{} {n}", self.called("consume"))); self.lent.drain(..n); }
    fn read_until(&mut self, delim: u8, buf: &mut Vec<u8>) -> io::Result<usize> {
        self.name(format!("read_until {}", bytes(&[delim])));
        Unnamed(self).read_until(delim, buf)
    }
    fn read_line(&mut self, buf: &mut String) -> io::Result<usize> { self.name("read_line".into()); Unnamed(self).read_line(buf) }
}
// The device by the bodies that the traits have.
struct Unnamed<'a>(&'a mut Device);
impl Read for Unnamed<'_> { fn read(&mut self, buf: &mut [u8]) -> io::Result<usize> { self.0.read(buf) } }
impl BufRead for Unnamed<'_> {
    fn fill_buf(&mut self) -> io::Result<&[u8]> { self.0.lend() }
    fn consume(&mut self, n: usize) { self.0.consume(n) }
}
impl Seek for Device {
    fn seek(&mut self, pos: SeekFrom) -> io::Result<u64> {
        let answer = self.answer().map(|(_, n)| n.parse().unwrap());
        let (from, n) = match pos { SeekFrom::Start(n) => ("start", n.to_string()), SeekFrom::End(n) => ("end", n.to_string()),
            SeekFrom::Current(n) => ("current", n.to_string()) };
        self.note(format!("seek {from} {n} = {}", number(&answer)));
        answer
    }
    fn rewind(&mut self) -> io::Result<()> { self.name("rewind".into()); self.seek(SeekFrom::Start(0)).map(|_| ()) }
    fn stream_position(&mut self) -> io::Result<u64> { self.name("stream_position".into()); self.seek(SeekFrom::Current(0)) }
    fn seek_relative(&mut self, n: i64) -> io::Result<()> {
        self.name(format!("seek_relative {n}"));
        self.seek(SeekFrom::Current(n)).map(|_| ())
    }
}

fn write_call<W: Write + ?Sized>(w: &mut W, word: &str, rest: &str) -> Option<String> {
    if word == "run" {
        let calls = rest.split(", ").filter(|call| !call.is_empty());
        let words = calls.map(|it| it.split_once(' ').unwrap_or((it, "")));
        let replies: Option<Vec<_>> = words.map(|(word, rest)| write_call(w, word, rest)).collect();
        return replies.map(|it| if it.is_empty() { "-".into() } else { it.join(", ") });
    }
    let b = unescape(rest);
    Some(match word {
        "write" => number(&w.write(&b)), "write_all" => done(&w.write_all(&b)), "flush" => done(&w.flush()),
        "print" => done(&w.write_fmt(format_args!("{}", String::from_utf8(b).ok()?))), _ => return None })
}
fn seek_call<S: Seek + ?Sized>(s: &mut S, word: &str, rest: &str) -> Option<String> {
    Some(match word {
        "seek" => {
            let (from, n) = rest.split_once(' ')?;
            number(&s.seek(match from { "start" => SeekFrom::Start(n.parse().ok()?), "end" => SeekFrom::End(n.parse().ok()?),
                _ => SeekFrom::Current(n.parse().ok()?) }))
        }
        "seek_relative" => done(&s.seek_relative(rest.parse().ok()?)),
        "stream_position" | "position" => number(&s.stream_position()), "rewind" => done(&s.rewind()), _ => return None })
}
fn copy_call<R: Read + ?Sized>(r: &mut R, rest: &str) -> Option<String> {
    let mut to = Device::default();
    to.journal.borrow_mut().answers = told(rest.split_once(' ')?.1);
    let answer = number(&io::copy(r, &mut to));
    let out = bytes(&to.journal.borrow().out);
    Some(format!("{answer} | {out}"))
}
fn read_call<R: BufRead + ?Sized>(r: &mut R, word: &str, rest: &str) -> Option<String> {
    let count = rest.parse().unwrap_or(0);
    let mut room = vec![b'.'; count];
    let mut all = unescape(rest);
    let (answer, given) = match word {
        "read" => (number(&r.read(&mut room)), room),
        "read_exact" => (done(&r.read_exact(&mut room)), room),
        "read_to_end" => (number(&r.read_to_end(&mut all)), all),
        "read_into" => { let mut all = Vec::with_capacity(count); (number(&r.read_to_end(&mut all)), all) }
        "next" => return r.bytes().next().map_or(Some("-".into()), |it| Some(it.map_or_else(|e| error(&e), |b| bytes(&[b])))),
        "take" | "read_at_most" => { all.clear(); (number(&Read::by_ref(&mut &mut *r).take(count as u64).read_to_end(&mut all)), all) }
        "fill_buf" => match r.fill_buf() { Ok(b) => (b.len().to_string(), b.to_vec()), Err(e) => (error(&e), vec![]) },
        "pass" => { let n = r.fill_buf().map(|b| b.len().min(count)); if let Ok(n) = n { r.consume(n) } (number(&n), vec![]) }
        "read_until" => { let d = all.first().copied().unwrap_or(b'\n'); all.clear(); (number(&r.read_until(d, &mut all)), all) }
        "skip_until" => (number(&r.skip_until(all.first().copied().unwrap_or(b'\n'))), vec![]),
        "copy" => return copy_call(r, rest),
        "read_line" | "read_to_string" => {
            let mut text = String::from_utf8(all).unwrap();
            (number(&if word == "read_line" { r.read_line(&mut text) } else { r.read_to_string(&mut text) }), text.into_bytes())
        }
        _ => return None };
    Some(format!("{answer} | {}", bytes(&given)))
}

// A level of a tower of writers. std shows no buffer of a `LineWriter`, so the bytes that one holds are not compared.
trait Level: Write {
    fn taken(&self, journal: &Journal) -> String { bytes(&journal.out) }
    fn held(&self) -> String { String::new() }
    fn below(&mut self) -> Option<&mut Box<dyn Level>> { None }
    fn place(&mut self, place: u64) { if let Some(below) = self.below() { below.place(place) } }
    fn seeker(&mut self) -> io::Result<&mut dyn Seek> { Err(ErrorKind::Unsupported.into()) }
    fn reads(&mut self, _word: &str, _rest: &str) -> Option<String> { None }
    // A new level with so much room on the one below; or the error, what a refusal prints, and the old one.
    fn end(self: Box<Self>, _room: usize) -> (Option<(Error, String)>, Box<dyn Level>) { unreachable!() }
}
impl Seek for Box<dyn Level> {
    fn seek(&mut self, pos: SeekFrom) -> io::Result<u64> { self.seeker()?.seek(pos) }
    fn rewind(&mut self) -> io::Result<()> { self.seeker()?.rewind() }
    fn stream_position(&mut self) -> io::Result<u64> { self.seeker()?.stream_position() }
    fn seek_relative(&mut self, n: i64) -> io::Result<()> { self.seeker()?.seek_relative(n) }
}
impl Level for Device {
    fn seeker(&mut self) -> io::Result<&mut dyn Seek> { Ok(self) }
    fn reads(&mut self, word: &str, rest: &str) -> Option<String> { read_call(self, word, rest) }
}
impl<T: AsRef<[u8]>> Level for Cursor<T> where Cursor<T>: Write {
    fn taken(&self, _: &Journal) -> String { format!("{} | {}", bytes(self.get_ref().as_ref()), self.position()) }
    fn place(&mut self, place: u64) { self.set_position(place) }
    fn seeker(&mut self) -> io::Result<&mut dyn Seek> { Ok(self) }
    fn reads(&mut self, word: &str, rest: &str) -> Option<String> { read_call(self, word, rest) }
}
impl Level for VecDeque<u8> {
    fn taken(&self, _: &Journal) -> String { bytes(&self.iter().copied().collect::<Vec<_>>()) }
    fn reads(&mut self, word: &str, rest: &str) -> Option<String> { read_call(self, word, rest) }
}
macro_rules! buffers { ($writer:ident, $held:expr, $($seeker:tt)*) => {
    impl Level for $writer<Box<dyn Level>> {
        fn taken(&self, journal: &Journal) -> String { self.get_ref().taken(journal) }
        fn held(&self) -> String { format!(" | {}{}", $held(self), self.get_ref().held()) }
        fn below(&mut self) -> Option<&mut Box<dyn Level>> { Some(self.get_mut()) }
        $($seeker)*
        fn end(self: Box<Self>, room: usize) -> (Option<(Error, String)>, Box<dyn Level>) {
            match (*self).into_inner() {
                Ok(inner) => (None, Box::new($writer::with_capacity(room, inner))),
                Err(e) => { let whole = e.to_string(); let (e, w) = e.into_parts(); (Some((e, whole)), Box::new(w)) }
            }
        }
    }
} }
buffers!(BufWriter, |w: &BufWriter<_>| bytes(w.buffer()), fn seeker(&mut self) -> io::Result<&mut dyn Seek> { Ok(self) });
buffers!(LineWriter, |_| "?",);
// A tower of these names: over the device, or over a cursor on these bytes.
fn level(names: &[&str], device: Device, content: Option<Vec<u8>>) -> Option<Box<dyn Level>> {
    Some(match (names, content) {
        (["Vec"] | [], Some(content)) => Box::new(Cursor::new(content)),
        (["VecDeque"], Some(content)) => Box::new(VecDeque::from(content)),
        (["[u8]" | "&[u8]" | "&Vec" | "&str" | "&[u8;6]"], Some(content)) => Box::new(Cursor::new(content.into_boxed_slice())),
        (["[u8;2]"], Some(content)) => Box::new(Cursor::new(<[u8; 2]>::try_from(content).ok()?)),
        (["BufWriter", n, rest @ ..], content) => Box::new(BufWriter::with_capacity(n.parse().ok()?, level(rest, device, content)?)),
        (["LineWriter", n, rest @ ..], content) => Box::new(LineWriter::with_capacity(n.parse().ok()?, level(rest, device, content)?)),
        (["Box" | "&mut", rest @ ..], content) => level(rest, device, content)?,
        (["Device" | "Vec" | "Faulty"] | ["dyn", "Write" | "Seek"] | ["dyn"] | [], None) => Box::new(device),
        _ => return None })
}

// A stream under test: a call gives its answer, and the columns stand between that and the calls of the device.
trait Stream { fn call(&mut self, word: &str, rest: &str) -> Option<String>; fn columns(&self) -> String { String::new() } }
struct Tower<'a> { names: Vec<&'a str>, device: Device, top: Option<Box<dyn Level>> }
impl Tower<'_> {
    fn anew(&self) -> Option<Box<dyn Level>> { level(&self.names[1..], self.device.clone(), None) }
    fn end(&mut self, word: &str) -> Option<String> {
        let old = self.top.take()?;
        let room = self.names.get(2)?.parse().ok()?;
        if word == "drop" { drop(old); self.top = self.anew(); return Some("-".into()); }
        let (refusal, new) = old.end(room);
        self.top = if word == "into_error" { drop(new); self.anew() } else { Some(new) };
        Some(match refusal {
            None => "ok".into(),
            Some((e, _)) if word == "into_error" => error(&e),
            Some((e, whole)) => format!("{} ({whole})", error(&e)) })
    }
}
impl Stream for Tower<'_> {
    fn call(&mut self, word: &str, rest: &str) -> Option<String> {
        if ["into_inner", "drop", "into_error"].contains(&word) { return self.end(word); }
        let top = self.top.as_mut()?;
        match word {
            "below" => Some(done(&top.below()?.write_all(&unescape(rest)))),
            "place" => { top.place(rest.parse().ok()?); Some("-".into()) }
            _ => write_call(top, word, rest).or_else(|| seek_call(top, word, rest)).or_else(|| top.reads(word, rest)),
        }
    }
    fn columns(&self) -> String {
        let (top, journal) = (self.top.as_ref().unwrap(), self.device.journal.borrow());
        if self.device.is_noted { String::new() } else { format!(" | {}{}", top.taken(&journal), top.held()) }
    }
}
// A vector with so much room, at its end or through a cursor.
struct Room(Cursor<Vec<u8>>, bool);
impl Stream for Room {
    fn call(&mut self, word: &str, rest: &str) -> Option<String> {
        if word == "place" { self.0.set_position(rest.parse().ok()?); return Some("-".into()); }
        if self.1 { write_call(self.0.get_mut(), word, rest) } else { write_call(&mut self.0, word, rest) }
    }
    fn columns(&self) -> String { format!(" | {} | {}", self.0.get_ref().len(), self.0.get_ref().capacity()) }
}
// A level of a tower of readers. std shows no bytes behind a `BufReader`, so these are not compared.
trait Source: BufRead {
    // A copy is the type's own: std has bodies for slices and for long buffers.
    fn copies(&mut self, rest: &str) -> Option<String> { copy_call(self, rest) }
    fn shown(&self) -> String { String::new() }
    fn limit(&mut self, _: u64) {}
    fn seeker(&mut self) -> io::Result<&mut dyn Seek> { Err(ErrorKind::Unsupported.into()) }
    fn place(&mut self, _: u64) {}
    fn is_feed(&self) -> bool { false }
}
type Any = Box<dyn Source>;
impl Seek for Any {
    fn seek(&mut self, pos: SeekFrom) -> io::Result<u64> { self.seeker()?.seek(pos) }
    fn seek_relative(&mut self, n: i64) -> io::Result<()> { self.seeker()?.seek_relative(n) }
}
impl Source for Device { fn seeker(&mut self) -> io::Result<&mut dyn Seek> { Ok(self) } }
impl Source for &'static [u8] { fn shown(&self) -> String { format!(" | {}", bytes(self)) } }
impl Source for Cursor<Vec<u8>> {
    fn shown(&self) -> String { format!(" | {}", self.position()) }
    fn seeker(&mut self) -> io::Result<&mut dyn Seek> { Ok(self) }
    fn place(&mut self, place: u64) { self.set_position(place) }
}
// A text whose reads nobody sees.
struct Text(&'static [u8]);
impl Read for Text { fn read(&mut self, buf: &mut [u8]) -> io::Result<usize> { self.0.read(buf) } }
impl BufRead for Text {
    fn fill_buf(&mut self) -> io::Result<&[u8]> { self.0.fill_buf() }
    fn consume(&mut self, n: usize) { self.0.consume(n) }
}
impl Source for Text {}
// What is only read: a byte that is repeated, or a feed.
struct Unlent<R>(R);
impl<R: Read> Read for Unlent<R> { fn read(&mut self, buf: &mut [u8]) -> io::Result<usize> { self.0.read(buf) } }
impl<R: Read> BufRead for Unlent<R> {
    fn fill_buf(&mut self) -> io::Result<&[u8]> { unimplemented!() }
    fn consume(&mut self, _: usize) { unimplemented!() }
}
impl Source for Unlent<Take<Repeat>> {}
// Bytes and failures, at most so many bytes at a time.
struct Feed(VecDeque<String>, usize);
impl Read for Feed {
    fn read(&mut self, buf: &mut [u8]) -> io::Result<usize> {
        if buf.is_empty() { return Ok(0); }
        if self.0.front().is_some_and(|it| unescape(it).len() > 1) { return Err(kind_of(&self.0.pop_front().unwrap()).into()); }
        let n = self.0.iter().take_while(|it| unescape(it).len() == 1).count().min(self.1).min(buf.len());
        for (to, from) in buf.iter_mut().zip(self.0.drain(..n)) { *to = unescape(&from)[0]; }
        Ok(n)
    }
}
impl Source for Unlent<Feed> {
    fn shown(&self) -> String {
        let left = Vec::from(self.0.0.clone()).join(", ");
        format!(" | {}", if left.is_empty() { "-" } else { &left })
    }
    fn is_feed(&self) -> bool { true }
}
impl Source for Chain<Any, Any> {
    fn shown(&self) -> String { format!("{}{}", self.get_ref().0.shown(), self.get_ref().1.shown()) }
    fn limit(&mut self, n: u64) { self.get_mut().0.limit(n) }
}
impl Source for Take<Any> {
    fn shown(&self) -> String { format!(" | {}{}", Take::limit(self), self.get_ref().shown()) }
    fn limit(&mut self, n: u64) { self.set_limit(n) }
    fn seeker(&mut self) -> io::Result<&mut dyn Seek> { Ok(self) }
}
impl Source for BufReader<Any> {
    fn shown(&self) -> String {
        format!("{} | {}{}", if self.get_ref().is_feed() { " | ?" } else { "" }, bytes(self.buffer()), self.get_ref().shown())
    }
    fn seeker(&mut self) -> io::Result<&mut dyn Seek> { Ok(self) }
    fn place(&mut self, place: u64) { self.get_mut().place(place) }
}
// A tower of these names: over devices, or over texts on both sides of a plus.
fn source(names: &[&str], device: &Device, words: &str) -> Option<Any> {
    let second = Device { is_second: true, ..device.clone() };
    let (first, behind) = words.split_once(" + ").unwrap_or((words, ""));
    Some(match names {
        [] | ["Device"] | ["dyn", ..] => Box::new(device.clone()),
        ["Text"] => Box::new(Text(b"456789")),
        ["Cursor"] => Box::new(Cursor::new(unescape(words))),
        ["&[u8]"] => Box::new(&*unescape(words).leak()),
        ["Feed"] => { let (most, events) = words.split_once(": ")?; Box::new(Unlent(Feed(told(events), most.parse().ok()?))) }
        ["Repeat"] => { let (byte, len) = words.split_once(' ')?; Box::new(Unlent(repeat(byte.as_bytes()[0]).take(len.parse().ok()?))) }
        ["Box" | "&mut", rest @ ..] => source(rest, device, words)?,
        ["BufReader", n, rest @ ..] => Box::new(BufReader::with_capacity(n.parse().ok()?, source(rest, device, words)?)),
        ["Take", rest @ ..] => {
            let (limit, words) = words.split_once(" of ").filter(|it| it.0.parse::<u64>().is_ok()).unwrap_or(("2", words));
            Box::new(source(rest, device, words)?.take(limit.parse().ok()?))
        }
        ["Chain", "of", _, "&[u8]"] =>
            words.split(" + ").map(|it| Box::new(&*unescape(it).leak()) as Any).reduce(|a, b| Box::new(a.chain(b)))?,
        ["Chain"] => Box::new(source(&[], device, "")?.chain(source(&[], &second, "")?)),
        ["Chain", "Text"] => Box::new(source(&[], device, "")?.chain(source(&["Text"], device, "")?)),
        ["Chain", "Take"] => Box::new(source(&["Take"], device, "")?.chain(source(&[], &second, "")?)),
        ["Chain", "Chain"] => Box::new(source(&[], device, "")?.chain(source(&["Chain"], &second, "")?)),
        ["Chain", one, two] => Box::new(source(&[one], device, first)?.chain(source(&[two], device, behind)?)),
        _ => return None })
}
struct Reader { top: Any, shows: fn(&Any) -> String }
impl Stream for Reader {
    fn call(&mut self, word: &str, rest: &str) -> Option<String> {
        match word {
            "copy" => self.top.copies(rest),
            "limit" => { self.top.limit(rest.parse().ok()?); Some("-".into()) }
            "place" => { self.top.place(rest.parse().ok()?); Some("-".into()) }
            _ => self.top.seeker().ok().and_then(|it| seek_call(it, word, rest)).or_else(|| read_call(&mut self.top, word, rest)),
        }
    }
    fn columns(&self) -> String { (self.shows)(&self.top) }
}
// Copies of a text, of three pieces or of the device through a buffer of 64 bytes at each end, or of a text through none. They go
// to the device, or to a vector, which is then a column.
struct Copies { device: Device, is_to_vector: bool }
fn flush_copy(from: Box<dyn Read>, mut to: impl Write) -> io::Result<u64> {
    let count = io::copy(&mut BufReader::with_capacity(64, from), &mut to)?;
    to.flush().map(|_| count)
}
impl Stream for Copies {
    fn call(&mut self, word: &str, rest: &str) -> Option<String> {
        let mut to = if self.is_to_vector { Device::default() } else { self.device.clone() };
        let (journal, text) = (to.journal.clone(), unescape(rest));
        let (from, form): (Box<dyn Read>, _) = match word {
            "copy" => return Some(number(&io::copy(&mut &*text, &mut to))),
            "buf" | "line" => (Box::new(Cursor::new(text)), word),
            "pieces" => (Box::new(Feed(told("a, b, \\n, c, d, \\n, e, \\n, f"), 4)), rest),
            "from" => (Box::new(self.device.clone()), rest),
            _ => return None };
        let answer = number(&match form {
            "line" => flush_copy(from, LineWriter::with_capacity(64, to)), _ => flush_copy(from, BufWriter::with_capacity(64, to)) });
        Some(if self.is_to_vector { format!("{answer} | {}", bytes(&journal.borrow().out)) } else { answer })
    }
}
// Readings that `write!` prints through a buffer of 64 bytes.
struct Readings(BufWriter<Device>);
impl Stream for Readings {
    fn call(&mut self, word: &str, rest: &str) -> Option<String> {
        let (w, name) = (&mut self.0, "t");
        let mut values = rest.split(' ').filter_map(|it| it.parse::<u32>().ok());
        Some(done(&match word {
            "write_readings" => values.try_for_each(|value| write!(w, "{name}={value}\n")),
            "send_reading" => values.next().map(|value| write!(w, "{name}={value}\n").and_then(|_| w.flush()))?,
            "flush" => w.flush(), _ => return None }))
    }
    fn columns(&self) -> String { format!(" | {}", bytes(&self.0.get_ref().journal.borrow().out)) }
}
// Single bytes, pieces or lines, with a word in front; of those of texts the room is a column, which is not compared.
struct Items(Box<dyn Iterator<Item = io::Result<Vec<u8>>>>, &'static str, bool);
impl Stream for Items {
    fn call(&mut self, _: &str, _: &str) -> Option<String> {
        Some(match self.0.next() { None => "-".into(), Some(Ok(b)) => format!("{}{}", self.1, bytes(&b)), Some(Err(e)) => error(&e) })
    }
    fn columns(&self) -> String { if self.2 { " | ?".into() } else { String::new() } }
}

fn make<'a>(name: &'a str, device: Device, words: &str) -> Option<Box<dyn Stream + 'a>> {
    let names: Vec<&str> = name.split(' ').collect();
    Some(match (names[0], &names[1..]) {
        ("bench", [.., "&mut", _] | [.., "dyn", _]) => return None,
        ("copy" | "copy_through", kind) => Box::new(Copies { device, is_to_vector: *kind == ["Vec"] }),
        ("write_readings", []) => Box::new(Readings(BufWriter::with_capacity(64, device))),
        ("grown", [kind]) => Box::new(Room(Cursor::new(Vec::with_capacity(words.parse().ok()?)), *kind == "Vec")),
        ("bytes", rest) => Box::new(Items(Box::new(source(rest, &device, words)?.bytes().map(|it| it.map(|b| vec![b]))), "", false)),
        ("split", rest) => Box::new(Items(
            Box::new(source(rest, &device, words)?.split(if *rest == ["Cursor"] { b'3' } else { b',' })), "piece ", *rest != ["Device"])),
        ("lines", rest) => Box::new(Items(
            Box::new(source(rest, &device, words)?.lines().map(|it| it.map(String::into_bytes))), "line ", *rest != ["Device"])),
        ("reader", rest @ ["Box", "BufReader", ..]) | ("answers", rest)
            | ("noted", rest @ ([.., "dyn", "Read" | "BufRead"] | ["Take"] | ["Chain"] | ["BufReader", _])) =>
            Box::new(Reader { top: source(rest, &device, words)?, shows: |_| String::new() }),
        ("reader", rest) | ("seeker", rest @ ["BufReader" | "Take" | "Cursor", ..]) =>
            Box::new(Reader { top: source(rest, &device, words)?, shows: |r| r.shown() }),
        ("moved", rest) => Box::new(Reader { top: source(rest, &device, words)?, shows: |r| format!(" | ?{}", r.shown()) }),
        ("cursor" | "queue" | "writer" | "seeker" | "noted" | "bench", rest) => {
            let content = ["cursor", "queue"].contains(&names[0]).then(|| unescape(words));
            let top = Some(level(rest, device.clone(), content)?);
            Box::new(Tower { names, device, top })
        }
        _ => return None })
}
// Plays a row, and gives it as it comes out; `None` where there is no such call. std may panic where it would want too much memory.
fn play(stream: &mut dyn Stream, journal: &Rc<RefCell<Journal>>, call: &str, notes_calls: bool) -> Option<String> {
    let (word, rest) = call.split_once(' ').unwrap_or((call, ""));
    let answer = if word == "expect" { journal.borrow_mut().answers = told(rest); "-".into() } else {
        panic::catch_unwind(panic::AssertUnwindSafe(|| stream.call(word, rest))).unwrap_or(Some("panics".into()))? };
    let calls = std::mem::take(&mut journal.borrow_mut().calls).join(", ");
    let calls = match calls.as_str() { _ if !notes_calls => String::new(), "" => " | -".into(), _ => format!(" | {calls}") };
    Some(format!("{call} | {answer}{}{calls}", stream.columns()))
}
// The reads of a read of all without their lengths: how much room each is offered is open, and std asks with other lengths.
fn without_lengths(row: &str) -> String {
    let read = |call: &str| match call.split_once(" = ") {
        Some((head, answer)) if head.contains("read ") => format!("{} = {answer}", head.trim_end_matches(|c: char| c.is_ascii_digit())),
        _ => call.into() };
    row.split(", ").map(read).collect::<Vec<_>>().join(", ")
}
fn is_met(row: &str, got: &str) -> bool {
    let of = |it: &str| if row.starts_with("read_to_end") { without_lengths(it) } else { it.into() };
    let (row, got) = (of(row), of(got));
    let (row, got): (Vec<_>, Vec<_>) = (row.split(" | ").collect(), got.split(" | ").collect());
    row.len() == got.len() && row.iter().zip(got).all(|(row, got)| got == "?" || *row == got)
}
// A row, with what std has in the columns that differ.
fn beside(row: &str, got: &str) -> String {
    let both = |(row, got): (&str, &str)| if got == "?" || row == got { row.into() } else { format!("{row} [std: {got}]") };
    row.split(" | ").zip(got.split(" | ")).map(both).collect::<Vec<_>>().join(" | ")
}
// Plays the rows of a group over a new stream.
fn play_group<'a>(name: &'a str, group: &'a str) -> Vec<(&'a str, Option<String>)> {
    let (words, rows) = group.split_once('\n').unwrap();
    let device = Device { is_noted: name == "copy" || name.starts_with("noted"), ..Device::default() };
    let journal = device.journal.clone();
    journal.borrow_mut().answers = told(words);
    let mut stream = make(name, device, words.trim());
    let silent = ["bench", "cursor", "queue", "grown", "answers", "copy_through Vec"];
    let notes_calls = !silent.iter().any(|it| name.starts_with(it))
        && !["Cursor", "&[u8]", "Repeat", "Feed"].iter().any(|it| name.contains(it));
    let rows = rows.lines().filter(|row| row.contains(" | ") && !row.starts_with('#'));
    let call = |row: &'a str| row.split(" | ").next().unwrap();
    rows.map(|row| (row, stream.as_mut().and_then(|it| play(&mut **it, &journal, call(row), notes_calls)))).collect()
}
fn main() {
    panic::set_hook(Box::new(|_| {}));
    for file in env::args().skip(1) {
        let (mut same, mut differing, mut left) = (0, 0, 0);
        let text = fs::read_to_string(&file).unwrap();
        for table in text.split("\nstream ").skip(1) {
            let mut found: Vec<(String, Vec<&str>)> = vec![];
            let names = table.lines().next().unwrap().split(", ");
            for (name, group) in names.flat_map(|name| table.split("\nnew").skip(1).map(move |group| (name, group))) {
                for (row, got) in play_group(name, group) {
                    let Some(got) = got else { left += 1; continue };
                    if is_met(row, &got) { same += 1; continue; }
                    differing += 1;
                    let pair = beside(row, &got);
                    match found.iter_mut().find(|it| it.0 == pair && !it.1.contains(&name)) {
                        Some(it) => it.1.push(name), None => found.push((pair, vec![name])) }
                }
            }
            for (pair, names) in found { println!("{}: {pair}", names.join(", ")); }
        }
        println!("{file}: {same} rows the same, {differing} differ, {left} not played");
    }
}
