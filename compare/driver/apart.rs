// Copies and frames, for which this library has calls that the others lack: a part of the module of each side.
use crate::calls;
use crate::cases::{FAILED, sample};

// Reads so many frames, each a length and a payload.
fn next_often<R: Read>(r: &mut R, room: &mut [u8], calls: u64) -> u64 {
    let (mut sum, mut header) = (0u64, [0; 4]);
    for _ in 0..calls {
        if r.read_exact(&mut header).is_err() {
            return FAILED;
        }
        let len = u32::from_le_bytes(header) as usize;
        if len > room.len() || r.read_exact(&mut room[..len]).is_err() {
            return FAILED;
        }
        sum = sum.wrapping_add(len as u64).wrapping_add(first_byte(room));
    }
    sum
}

calls! {
    copy_to_vec(source, room, calls) {
        let mut sum = 0u64;
        for _ in 0..calls {
            let mut content = Vec::new();
            if pass(&mut &source[..room.len()], &mut content).is_err() {
                return FAILED;
            }
            sum = sum.wrapping_add(sample(&content));
        }
        sum
    }
    copy_short(source, room, calls) {
        let mut sum = 0u64;
        for _ in 0..calls {
            let mut w = Counter::new();
            match pass(&mut Read::take(source, room.len() as u64), &mut w) {
                Ok(n) => sum = sum.wrapping_add(n).wrapping_add(w.sum()),
                Err(_) => return FAILED,
            }
        }
        sum
    }
    frame_send(source, room, calls) {
        let mut w = writer(Counter::new());
        let payload = &source[..room.len()];
        for _ in 0..calls {
            if w.write_all(&(payload.len() as u32).to_le_bytes()).is_err() || w.write_all(payload).is_err() {
                return FAILED;
            }
        }
        // The sides make other writes, so their sums differ.
        if w.flush().is_err() || w.get_ref().sum() == 0 {
            return FAILED;
        }
        calls
    }
    frame_next(source, room, calls) { next_often(&mut reader::<8192>(source), room, calls) }
    frame_past(source, room, calls) { next_often(&mut reader::<64>(source), room, calls) }
}
