//! Damaged files.

use crate::generate::{day, Day, Style};
use crate::record::{Draft, KINDS};
use crate::rng::Rng;

/// A short day with something wrong in it.
pub fn damaged(seed: u64) -> Vec<u8> {
    let mut rng = Rng::new(seed ^ 0x00da_3a6e_d000);
    if rng.percent(2) {
        let length = rng.below(200);
        return (0..length).map(|_| rng.next() as u8).collect();
    }
    let length = if rng.percent(90) { rng.between(50, 2500) } else { rng.between(2500, 12_000) };
    let mut day = day(rng.next(), Style::Busy, length as usize);
    let mut bytes = std::mem::take(&mut day.bytes);
    for _ in 0..*rng.pick(&[1, 1, 1, 2, 3, 6]) {
        damage(&mut rng, &mut bytes, &day);
    }
    bytes
}

/// Do one damage; the offsets of records are those of the file before the first damage.
fn damage(rng: &mut Rng, bytes: &mut Vec<u8>, day: &Day) {
    if bytes.is_empty() {
        return;
    }
    let length = bytes.len() as u64;
    let any = rng.below(length) as usize;
    // A record's first byte, where it still is one; the later ones are reached through the earlier ones.
    let record = rng.below(day.offsets.len() as u64) as usize;
    let offset = day.offsets[record].min(bytes.len() - 1);
    let next = day.offsets.get(record + 1).map_or(bytes.len(), |&next| next.min(bytes.len()));
    let end = next.max(offset + 1);
    match rng.below(16) {
        // Bytes and bits anywhere.
        0 => bytes[any] = rng.next() as u8,
        1 => bytes[any] ^= 1 << rng.below(8),
        2 => bytes[any] = *rng.pick(b"BSLOMKCYN\0\xff "),
        // Cuts and insertions.
        3 => bytes.truncate(any),
        4 => {
            let to = (any + rng.between(1, 12) as usize).min(bytes.len());
            bytes.drain(any..to);
        }
        5 => {
            let new: Vec<u8> = (0..rng.between(1, 12)).map(|_| rng.next() as u8).collect();
            bytes.splice(any..any, new);
        }
        // Within a record: kind, map, contents.
        6 => bytes[offset] = *rng.pick(KINDS),
        7 => {
            let high = rng.percent(50) as usize;
            if offset + 2 < bytes.len() {
                bytes[offset + 1 + high] ^= 1 << rng.below(8);
            }
        }
        8 | 9 if end - offset > 3 => {
            let at = rng.between(offset as u64 + 3, end as u64 - 1) as usize;
            bytes[at] = *rng.pick(b"BSLOMKCYN\0\x01\x3f\x40\xff ");
        }
        10 if end - offset > 3 => {
            let at = rng.between(offset as u64 + 3, end as u64 - 1) as usize;
            bytes[at] ^= 1 << rng.below(8);
        }
        // Whole records: left out, doubled, moved.
        11 => {
            bytes.drain(offset..end);
        }
        12 => {
            let copy = bytes[offset..end].to_vec();
            bytes.splice(offset..offset, copy);
        }
        13 => {
            let copy = bytes[offset..end].to_vec();
            let to = day.offsets[rng.below(day.offsets.len() as u64) as usize].min(bytes.len());
            bytes.splice(to..to, copy);
        }
        // A bare record of any kind with any map.
        14 => {
            let mut draft = Draft::new(*rng.pick(KINDS));
            if rng.percent(30) {
                draft.foreign = 1 << rng.below(16);
            }
            bytes.splice(offset..offset, draft.bytes());
        }
        // A byte more or less at the end.
        _ => {
            if rng.percent(50) {
                bytes.pop();
            } else {
                bytes.push(*rng.pick(KINDS));
            }
        }
    }
}
