//! Icons and logos: sound ones, and some that are not quite right.

use super::codecs::LogoParts;
use super::inputs;
use super::rng::Rng;

/// What a logo is made of.
#[derive(Clone, Debug)]
pub struct Made {
    pub mcc: Vec<u8>,
    pub mnc: Vec<u8>,
    pub date: Vec<u8>,
    pub width: u32,
    pub height: u32,
    pub image: Vec<u8>,
}

impl Made {
    pub fn parts(&self) -> LogoParts<'_> {
        LogoParts {
            mcc: &self.mcc,
            mnc: &self.mnc,
            date: &self.date,
            width: self.width,
            height: self.height,
            image: &self.image,
        }
    }

    /// The message of sound parts.
    pub fn message(&self) -> Vec<u8> {
        let header = [0, self.width as u8, self.height as u8, 1];
        let codes = [b"0", &self.mcc[..], &self.mnc].concat();
        [&codes, &self.date[..], b"\n", &header, &self.image].concat()
    }
}

/// A logo that is sound by its making.
pub fn sound(rng: &mut Rng) -> Made {
    let (width, height) = match rng.below(40) {
        0 => (248, 255),
        _ => (8 * rng.within(1, 12) as u32, rng.within(1, 20) as u32),
    };
    let form = rng.below(3);
    Made {
        mcc: digits(rng, 3),
        mnc: digits(rng, 2),
        date: date(rng, form),
        width,
        height,
        image: inputs::image(rng, width, height),
    }
}

/// Parts of a logo, any of which may be wrong.
pub fn parts(rng: &mut Rng) -> Made {
    let (width, height, image) = inputs::bitmap_parts(rng);
    let form = rng.below(3);
    let mut made = Made {
        mcc: digits(rng, 3),
        mnc: digits(rng, 2),
        date: date(rng, form),
        width,
        height,
        image,
    };
    match rng.below(16) {
        0 => made.mcc = digits_but(rng, 3),
        1 => made.mnc = digits_but(rng, 2),
        2 => spoil(rng, &mut made.mcc),
        3 => spoil(rng, &mut made.mnc),
        4 => made.date = date_of_any_length(rng),
        5 => spoil(rng, &mut made.date),
        _ => {}
    }
    made
}

/// A logo message that is sound, damaged, of another kind or of random octets.
pub fn logo(rng: &mut Rng) -> Vec<u8> {
    match rng.below(14) {
        0 => some_octets(rng, 60),
        1 => icon(rng),
        2 | 3 => front(rng),
        4..=9 => {
            let made = sound(rng);
            damaged(rng, made.message(), 7 + made.date.len())
        }
        _ => sound(rng).message(),
    }
}

/// An icon message that is sound, damaged, of another kind or of random octets.
pub fn icon(rng: &mut Rng) -> Vec<u8> {
    match rng.below(12) {
        0 => some_octets(rng, 12),
        1 => inputs::bitmap(rng),
        2 => sound(rng).message(),
        3..=6 => {
            let message = sound_icon(rng);
            damaged(rng, message, 1)
        }
        _ => sound_icon(rng),
    }
}

/// The front of a logo, cut about where its header ends. What tells the form of
/// its date, and with it how much is due, may be anything there.
fn front(rng: &mut Rng) -> Vec<u8> {
    let mut message = sound(rng).message();
    message.resize(27, 0);
    for at in [14, 21, 22] {
        if rng.one_in(2) {
            message[at] = rng.pick(b"TZ\n\r0");
        }
    }
    message.truncate(rng.within(14, 27));
    message
}

fn sound_icon(rng: &mut Rng) -> Vec<u8> {
    let made = sound(rng);
    let front = [b'0', 0, made.width as u8, made.height as u8, 1];
    [&front[..], &made.image].concat()
}

/// The date in one of its three forms, counted from the shortest.
fn date(rng: &mut Rng, form: usize) -> Vec<u8> {
    let mut date = digits(rng, 8);
    if form > 0 {
        date.push(b'T');
        date.extend(digits(rng, 6));
    }
    if form > 1 {
        date.push(b'Z');
    }
    date
}

/// The longest date cut short, one octet longer or just so long. Only three of
/// the lengths are those of a date.
fn date_of_any_length(rng: &mut Rng) -> Vec<u8> {
    let mut date = date(rng, 2);
    date.push(rng.pick(b"Z0"));
    date.truncate(rng.within(0, 17));
    date
}

fn digits(rng: &mut Rng, count: usize) -> Vec<u8> {
    (0..count).map(|_| rng.pick(b"0123456789")).collect()
}

/// Digits, but not as many as are due.
fn digits_but(rng: &mut Rng, due: usize) -> Vec<u8> {
    let count = rng.pick(&[0, 1, due - 1, due + 1, 6, 20]);
    digits(rng, count)
}

/// Puts another octet in one's place, mostly no digit, often one next to them.
fn spoil(rng: &mut Rng, octets: &mut [u8]) {
    if octets.is_empty() {
        return;
    }
    let at = rng.below(octets.len());
    octets[at] = match rng.below(4) {
        0 => octets[at] ^ 1 << rng.below(8),
        1 => rng.octet(),
        _ => rng.pick(b"/:09TZtz \n\r\0\xB0\xFF"),
    };
}

/// A message with one to three kinds of damage. So many octets are ahead of its
/// bitmap.
fn damaged(rng: &mut Rng, mut message: Vec<u8>, ahead: usize) -> Vec<u8> {
    for _ in 0..rng.pick(&[1, 1, 1, 2, 3]) {
        damage(rng, &mut message, ahead);
    }
    message
}

fn damage(rng: &mut Rng, message: &mut Vec<u8>, ahead: usize) {
    let length = message.len();
    let front = ahead.min(length);
    let header = (ahead + 4).min(length);
    match rng.below(14) {
        0..=3 => spoil(rng, &mut message[..front]),
        4 | 5 => spoil(rng, &mut message[front..header]),
        // The places that tell the form of a date.
        6 => {
            let at = rng.pick(&[14, 21, ahead - 1]);
            if let Some(octet) = message.get_mut(at) {
                *octet = rng.pick(b"TZ\n\r");
            }
        }
        7 if front == ahead => message[ahead - 1] = b'\r',
        // One digit more or less, and all behind it moves on.
        8 => message.insert(rng.within(0, front), b'0'),
        9 if front > 0 => {
            message.remove(rng.below(front));
        }
        10 => message.truncate(rng.within(0, length)),
        11 => message.truncate(rng.within(0, ahead + 5)),
        12 => message.truncate(length.saturating_sub(1)),
        _ => message.push(rng.octet()),
    }
}

fn some_octets(rng: &mut Rng, below: usize) -> Vec<u8> {
    let count = rng.below(below);
    rng.octets(count)
}
