//! Damage to logs. Each function gives a new byte string and leaves the log alone.

use super::Rng;
use crate::reference::log::{Trailer, MARK};

/// One kind of damage, by chance.
pub fn damage(log: &[u8], rng: &mut Rng) -> Vec<u8> {
    match rng.below(5) {
        0 => flip_bits(log, rng),
        1 => change_bytes(log, rng),
        2 => truncate(log, rng),
        3 => splice(log, log, rng),
        _ => near_miss_trailer(log, rng),
    }
}

/// One to four bits flipped, anywhere.
pub fn flip_bits(log: &[u8], rng: &mut Rng) -> Vec<u8> {
    change_some(log, rng, |byte, rng| byte ^ 1 << rng.below(8))
}

/// One to four bytes made anything.
pub fn change_bytes(log: &[u8], rng: &mut Rng) -> Vec<u8> {
    change_some(log, rng, |_, rng| rng.draw() as u8)
}

fn change_some(log: &[u8], rng: &mut Rng, change: fn(u8, &mut Rng) -> u8) -> Vec<u8> {
    let mut bytes = log.to_vec();
    if bytes.is_empty() {
        return bytes;
    }
    for _ in 0..rng.between(1, 4) {
        let index = rng.below(bytes.len() as u64) as usize;
        bytes[index] = change(bytes[index], rng);
    }
    bytes
}

/// The end cut off.
pub fn truncate(log: &[u8], rng: &mut Rng) -> Vec<u8> {
    log[..place(log, rng)].to_vec()
}

/// The beginning of one log and the end of another.
pub fn splice(first: &[u8], second: &[u8], rng: &mut Rng) -> Vec<u8> {
    let (end, start) = (place(first, rng), place(second, rng));
    [&first[..end], &second[start..]].concat()
}

fn place(log: &[u8], rng: &mut Rng) -> usize {
    rng.below(log.len() as u64 + 1) as usize
}

/// A trailer that is nearly right, or right for other records.
pub fn near_miss_trailer(log: &[u8], rng: &mut Rng) -> Vec<u8> {
    let (in_front, good) = match Trailer::split_off(log) {
        Some(parts) => parts,
        None => return log.to_vec(),
    };
    let len = in_front.len() as u32;
    let near = match rng.below(6) {
        0 => Trailer {
            mark: rng.pick(&[[0x4D, 0x51], [0x51, 0x4C], [0x50, 0x4D], [0, 0]]),
            ..good
        },
        1 => Trailer {
            edition: rng.pick(&[0, 1, 2, 3, 4, 5, 0x100, 0x101, 0xFFFF]),
            ..good
        },
        2 => Trailer {
            distance: good.distance.wrapping_add(rng.pick(&[1, 8, 15, 16, 32])),
            ..good
        },
        3 => Trailer {
            distance: good.distance.wrapping_sub(rng.pick(&[1, 8, 15, 16, 32])),
            ..good
        },
        4 => Trailer {
            distance: rng.pick(&[len, len + 1, len / 16 * 16 + 16, u32::MAX, 0xFFFF_FFF0]),
            ..good
        },
        _ => Trailer {
            distance: good.distance.swap_bytes() | u32::from(rng.chance(50)) << 31,
            mark: MARK,
            ..good
        },
    };
    [in_front, &near.to_bytes()].concat()
}
