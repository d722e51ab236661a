//! Damage without regard to meaning, and damage to metadata.

use super::rng::Rng;

/// Flips, cuts, inserts, removes, swaps, repeats or changes a byte or a few.
pub fn damage(rng: &mut Rng, bytes: &mut Vec<u8>) {
    for _ in 0..rng.pick(&[1, 1, 1, 2, 3]) {
        damage_once(rng, bytes);
    }
}

fn damage_once(rng: &mut Rng, bytes: &mut Vec<u8>) {
    if bytes.is_empty() {
        bytes.push(rng.bits() as u8);
        return;
    }
    // Most of what can go wrong is near the front: headers, counts, lengths.
    let length = bytes.len();
    let at = if rng.percent(50) { rng.below(length.min(12)) } else { rng.below(length) };
    match rng.below(9) {
        0 | 1 => bytes[at] ^= 1 << rng.below(8),
        2 => bytes[at] = rng.pick(&[0, 1, 2, 3, 0x7F, 0x80, 0xFF]),
        3 => bytes[at] = bytes[at].wrapping_add(rng.pick(&[1, 0xFF])),
        4 => bytes.truncate(at),
        5 => bytes.insert(at, rng.pick(&[0, 1, 0xFF])),
        6 => drop(bytes.remove(at)),
        7 => bytes.swap(at, rng.below(length)),
        _ => bytes.push(rng.pick(&[0, 1, 0xFF])),
    }
}

/// Breaks metadata in a place that has a meaning; rarely it stays good.
pub fn spoil_metadata(rng: &mut Rng, metadata: &mut Vec<u8>) {
    let size = usize::from(metadata[0] >> 6) + 1;
    let offsets = 1 + size;
    match rng.below(8) {
        0 => metadata[0] = metadata[0] & 0xF0 | rng.pick(&[0, 2, 9, 15]),
        1 => metadata[0] |= 0x20,
        2 => metadata[0] ^= 0x10,
        3 => metadata[1] = metadata[1].wrapping_add(rng.pick(&[1, 0xFF])),
        4 => metadata[offsets] = 1,
        5 => metadata.push(b'a'),
        6 if metadata.len() > offsets + 2 * size => metadata[offsets + size] ^= 0xFF,
        _ => drop(metadata.pop()),
    }
}
