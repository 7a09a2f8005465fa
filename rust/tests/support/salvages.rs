//! Broken packs: cut, spoilt, spliced, with a message inside another, or of noise.

use super::packs::{self, Made, LARGEST_PACK};
use super::rng::Rng;
use super::tones::{self, Bounds};
use super::worst;

/// The smallest message that there is: a part of one scale, in eight octets.
pub fn smallest() -> Vec<u8> {
    tones::written(2, false, &[], &[1, 131_072])
}

/// Octets out of which messages are to be gotten. Few are about as long as counts.
pub fn broken(rng: &mut Rng) -> Vec<u8> {
    match rng.below(300) {
        0 | 1 => at_bound(rng),
        2 | 3 => nearly_too_many(rng),
        4 => too_long(rng),
        5..=30 => packs::pack(rng),
        _ => small(rng),
    }
}

/// The same, but none of them long.
pub fn small(rng: &mut Rng) -> Vec<u8> {
    match rng.below(7) {
        0 => cut(rng),
        1 => spoilt(rng),
        2 => spliced(rng),
        3 => with_message_inside(rng),
        4 => among_noise(rng),
        5 => dense(rng),
        _ => noise(rng),
    }
}

fn message(rng: &mut Rng) -> Vec<u8> {
    let bounds = Bounds::small(rng);
    tones::tone(rng, bounds).message
}

fn messages(rng: &mut Rng) -> Vec<Vec<u8>> {
    (0..rng.below(5)).map(|_| message(rng)).collect()
}

fn whole(rng: &mut Rng) -> Vec<u8> {
    Made::of(&messages(rng)).pack()
}

/// A pack that stops anywhere, often in its rows or its last four octets.
fn cut(rng: &mut Rng) -> Vec<u8> {
    let mut pack = whole(rng);
    let length = pack.len();
    let left = match rng.below(2) {
        0 => rng.below(length),
        _ => length - 1 - rng.below(length.min(12)),
    };
    pack.truncate(left);
    pack
}

/// A pack with a few octets changed, more or less.
fn spoilt(rng: &mut Rng) -> Vec<u8> {
    let mut pack = whole(rng);
    for _ in 0..rng.pick(&[1, 1, 2, 4]) {
        let at = rng.below(pack.len());
        match rng.below(6) {
            0 | 1 => pack[at] ^= 1 << rng.below(8),
            2 => pack[at] = rng.octet(),
            3 => pack[at] = rng.pick(&[0, 2, 3, 0x4A]),
            4 => pack.insert(at, rng.pick(&[0, 2, 3, 0x4A])),
            _ if pack.len() > 1 => {
                pack.remove(at);
            }
            _ => {}
        }
    }
    pack
}

/// The front of one pack and the back of another.
fn spliced(rng: &mut Rng) -> Vec<u8> {
    let (one, two) = (whole(rng), whole(rng));
    let (end, start) = (rng.within(0, one.len()), rng.within(0, two.len()));
    [&one[..end], &two[start..]].concat()
}

/// A message that is broken off, or whose title has a character that is refused, and
/// goes on as a whole one.
fn with_message_inside(rng: &mut Rng) -> Vec<u8> {
    let (outer, inner) = (message(rng), message(rng));
    let at = rng.within(1, outer.len());
    let ahead = match rng.below(3) {
        0 => untitled(rng),
        _ => outer[..at].to_vec(),
    };
    [&ahead[..], &inner, &outer[at..]].concat()
}

/// A message that would be sound if its title had no refused character.
fn untitled(rng: &mut Rng) -> Vec<u8> {
    let mut title = tones::characters_of_title(rng, false, 3);
    title[rng.below(3)] = tones::refused_character(rng) as u8;
    tones::written(1, false, &title, &[1, 131_072])
}

/// Messages with some octets ahead of each and behind.
fn among_noise(rng: &mut Rng) -> Vec<u8> {
    let mut octets = noise(rng);
    for message in messages(rng) {
        octets.extend(message);
        octets.extend(noise(rng));
    }
    octets
}

/// A few octets, with many fronts among them.
fn noise(rng: &mut Rng) -> Vec<u8> {
    let mut octets = Vec::new();
    for _ in 0..rng.below(6) {
        match rng.below(4) {
            0 => octets.extend([2, 0x4A, 0x3A]),
            1 => octets.extend([3, 0x4A, 0x44, 0x3A]),
            2 => octets.extend([2, 0x4A, 0x3A, 0x80, 0x40]),
            _ => octets.push(rng.octet()),
        }
    }
    octets
}

/// Many fronts of messages that go on for long. One of them may end with what is behind.
fn dense(rng: &mut Rng) -> Vec<u8> {
    let (number, count) = (rng.below(100), rng.within(1, 200));
    let mut octets = worst::first_octets(number, count);
    if rng.one_in(2) {
        let at = rng.below(count);
        octets[at] = rng.pick(&[0, 1, 0x28, 0xFF]);
    }
    octets.extend(vec![0; rng.below(4)]);
    octets.extend(message(rng));
    octets
}

/// A message that ends at the last octet that counts, or an octet or two beside it, and
/// then more octets or none.
fn at_bound(rng: &mut Rng) -> Vec<u8> {
    let message = message(rng);
    let end = LARGEST_PACK - 1 + rng.below(4);
    let mut octets = vec![0; end - message.len()];
    octets.extend(message);
    octets.extend(match rng.below(3) {
        0 => vec![],
        1 => smallest(),
        _ => vec![0; rng.below(5000)],
    });
    octets
}

/// Messages whose pack has as many octets as it may, or one less or more.
fn nearly_too_many(rng: &mut Rng) -> Vec<u8> {
    // 5,460 of them, of 12 octets each with its row, and four make 65,524. Two scales take
    // nine octets.
    let longer = rng.within(10, 12);
    let two_scales = tones::written(2, false, &[], &[2, 131_072, 131_072]);
    let mut messages = vec![smallest(); 5460 - longer];
    messages.extend(vec![two_scales; longer]);
    messages.rotate_left(rng.below(5460));
    messages.concat()
}

/// A tone of 4,096 octets or one more.
fn too_long(rng: &mut Rng) -> Vec<u8> {
    // One instruction more than 81 in the last part takes one octet more.
    let last = rng.pick(&[81, 82]);
    let mut octets = noise(rng);
    octets.extend(super::largest::temporary(&super::largest::parts(last)));
    octets.extend(noise(rng));
    octets
}
