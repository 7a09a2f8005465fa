//! Bits of a slice of octets, most significant first.

/// At least 57 bits from a place on, the first of them leftmost. Past the end
/// there are zeros.
#[inline(always)]
pub fn window(octets: &[u8], place: usize) -> u64 {
    let first = place / 8;
    let word = match octets.get(first..first + 8) {
        Some(eight) => word_of(eight),
        None => window_near_end(octets, first),
    };
    word << (place % 8)
}

/// The same with all 64 bits.
#[inline(always)]
pub fn full_window(octets: &[u8], place: usize) -> u64 {
    // The bits that the first may lack are among those of the second.
    window(octets, place) | window(octets, place + 8) >> 8
}

/// Eight octets as a number. A shorter slice gives 0; none is passed.
#[inline(always)]
fn word_of(eight: &[u8]) -> u64 {
    match eight.first_chunk() {
        Some(eight) => u64::from_be_bytes(*eight),
        None => 0,
    }
}

/// The octets from `first` on, fewer than eight, with zeros after them.
#[cold]
fn window_near_end(octets: &[u8], first: usize) -> u64 {
    if first >= octets.len() {
        return 0;
    }
    match octets.last_chunk() {
        Some(eight) => u64::from_be_bytes(*eight) << (8 * (first + 8 - octets.len())),
        None => (octets[first..].iter().rev()).fold(0, |word, &o| (word >> 8) | (o as u64) << 56),
    }
}

/// The 64 bits from a place on, where nine octets are there to take them from.
#[inline(always)]
fn word_at(octets: &[u8], place: usize) -> Option<u64> {
    let nine = octets.get(place / 8..place / 8 + 9)?;
    let (eight, ninth) = nine.split_at(8);
    let ninth = ninth.first().map_or(0, |&octet| octet as u64);
    let shift = place % 8;
    Some(word_of(eight) << shift | ninth >> (8 - shift))
}

/// Overwrites `width` bits, 1 to 17, at a place.
#[inline(always)]
pub fn put(octets: &mut [u8], place: usize, width: usize, value: u32) {
    let shift = 32 - width - place % 8;
    let mask = (((1u32 << width) - 1) << shift).to_be_bytes();
    let bits = (value << shift).to_be_bytes();
    let touched = (place % 8 + width).div_ceil(8);
    let from = place / 8;
    for (k, octet) in octets[from..from + touched].iter_mut().enumerate() {
        *octet = *octet & !mask[k] | bits[k];
    }
}

/// Moves `count` bits within a slice, like `copy_within`.
pub fn move_bits(octets: &mut [u8], from: usize, to: usize, count: usize) {
    if to < from {
        move_left(octets, from, to, count);
    } else if to > from {
        move_right(octets, from, to, count);
    }
}

/// From the front to the back, so that no bit is overwritten before it moves.
fn move_left(octets: &mut [u8], mut from: usize, mut to: usize, mut count: usize) {
    let head = (to.wrapping_neg() % 8).min(count);
    if head > 0 {
        let bits = window(octets, from) >> (64 - head);
        put(octets, to, head, bits as u32);
        from += head;
        to += head;
        count -= head;
    }
    while count >= 64 {
        let Some(word) = word_at(octets, from) else {
            break;
        };
        octets[to / 8..to / 8 + 8].copy_from_slice(&word.to_be_bytes());
        from += 64;
        to += 64;
        count -= 64;
    }
    while count >= 8 {
        octets[to / 8] = (window(octets, from) >> 56) as u8;
        from += 8;
        to += 8;
        count -= 8;
    }
    if count > 0 {
        let bits = window(octets, from) >> (64 - count);
        put(octets, to, count, bits as u32);
    }
}

/// From the back to the front, for the same reason.
fn move_right(octets: &mut [u8], from: usize, to: usize, mut count: usize) {
    let tail = ((to + count) % 8).min(count);
    if tail > 0 {
        count -= tail;
        let bits = window(octets, from + count) >> (64 - tail);
        put(octets, to + count, tail, bits as u32);
    }
    while count >= 64 {
        let Some(word) = word_at(octets, from + count - 64) else {
            break;
        };
        count -= 64;
        let first = (to + count) / 8;
        octets[first..first + 8].copy_from_slice(&word.to_be_bytes());
    }
    while count >= 8 {
        count -= 8;
        octets[(to + count) / 8] = (window(octets, from + count) >> 56) as u8;
    }
    if count > 0 {
        let bits = window(octets, from) >> (64 - count);
        put(octets, to, count, bits as u32);
    }
}
