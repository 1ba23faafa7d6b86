//! One head: three bytes for n, f and its number, then twelve for each action, for a
//! change of the record's memory, or for a counter.

use reference::board::{all_spoken, edges, same_counter, with_vote, Both, InputNumbers};

/// A byte as a number: mostly below the limit, else any byte, or beyond a byte.
fn number(byte: u8, limit: u32) -> u32 {
    match byte {
        0xF0.. => 1 << (16 + (byte & 15)),
        0xE0.. => u32::from(byte & 15) * 17,
        _ => u32::from(byte) % limit.max(1),
    }
}

fn word(bytes: &[u8]) -> u32 {
    u32::from_be_bytes([bytes[0], bytes[1], bytes[2], bytes[3]])
}

/// A reading after the record's last, one near the end of 28 bits, or any.
fn reading(chunk: &[u8], last: u32) -> u32 {
    let near = u32::from(chunk[6]) << 8 | u32::from(chunk[7]);
    match chunk[5] & 7 {
        0 => word(&chunk[8..]),
        1 => (1 << 28) - (1 << 15) + near,
        _ => last.wrapping_add(near),
    }
}

fn input_numbers(chunk: &[u8], n: u32, last: u32) -> InputNumbers {
    let carried = word(&chunk[8..]);
    let carried = if chunk[5] & 8 == 0 {
        carried >> 4
    } else {
        carried
    };
    let action = u32::from(chunk[0] & 15);
    let reading = reading(chunk, last);
    let (sender, serial) = (number(chunk[1], n), number(chunk[2], 16));
    let (choice, none) = (number(chunk[3], n), number(chunk[4], 2));
    match action {
        // What the action does not use is 0, unless the chunk says otherwise.
        _ if chunk[5] & 0x70 == 0x70 => [action, reading, sender, serial, choice, carried, none],
        5 if none == 1 => [action, reading, sender, serial, choice, 0, 1],
        5 | 8 => [action, reading, sender, serial, choice, carried, 0],
        2 => [action, reading, sender, 0, 0, 0, 0],
        _ => [action, reading, 0, 0, 0, 0, 0],
    }
}

/// One number of the record's memory is changed, or a sender's vote reading together
/// with its latest vote, or all heads have spoken.
fn damage(both: &Both, chunk: &[u8]) -> Both {
    let mut head = both.head;
    match chunk[0] & 0x60 {
        0x20 => return both.damaged(all_spoken(&head, 5)),
        0x40 => return both.damaged(all_spoken(&head, 8)),
        0x60 => {
            let (sender, named) = (chunk[1] as usize % 16, number(chunk[2], 17));
            return both.damaged(with_vote(&head, sender, word(&chunk[8..]) >> 4, named));
        }
        _ => {}
    }
    let index = chunk[1] as usize % head.len();
    head[index] = match (chunk[2] & 3, &both.record) {
        (0, _) => head[index] ^ 1 << (chunk[3] & 31),
        (1, _) => word(&chunk[8..]),
        (_, Some(record)) => edges(index, record)[chunk[3] as usize % 9],
        (_, None) => chunk[3].into(),
    };
    both.damaged(head)
}

/// The sequence that the bytes are: any difference is given back.
fn run(data: &[u8]) -> Result<(), String> {
    let [n, f, own, chunks @ ..] = data else {
        return Ok(());
    };
    let n = number(n.wrapping_add(2), 17);
    let f = number(*f, n.div_ceil(2));
    let mut both = match Both::fresh(n, f, number(*own, n))? {
        Ok(both) => both,
        Err(cause) => {
            crate::count(cause);
            return Ok(());
        }
    };
    // The last head whose memory was not damaged.
    let mut whole = None;
    for chunk in chunks.chunks_exact(12) {
        if chunk[0] & 0x80 != 0 {
            let other = damage(&both, chunk);
            let before = std::mem::replace(&mut both, other);
            whole = whole.or(Some(before));
            continue;
        }
        if chunk[0] & 0x60 == 0x60 {
            same_counter(word(&chunk[4..]), word(&chunk[8..]))?;
            continue;
        }
        if chunk[0] & 0x40 != 0 {
            both = whole.take().unwrap_or(both);
        }
        let last = both.head[0];
        crate::count(both.act(&input_numbers(chunk, n, last))?);
    }
    Ok(())
}

/// # Safety
/// Called by the fuzzer, with `data` to `size` bytes.
#[no_mangle]
pub unsafe extern "C" fn LLVMFuzzerTestOneInput(data: *const u8, size: usize) -> i32 {
    if let Err(what) = run(unsafe { crate::lent(data, size) }) {
        panic!("difference: {what}");
    }
    0
}
