//! The kinds of message that have more ahead of a bitmap: CLI icons and
//! operator logos.
//!
//! A logo's date has one of three lengths, and each has code of its own. Digits
//! are tested eight at a time.

use ohakelm_answers::{Bitmap, Logo, Written};

use crate::bitmap::{judge_parts, read_answer, write_behind, written_answer};

const VERSION: u8 = b'0';
const LINE_FEED: u8 = b'\n';

/// Where T and Z stand in a logo if its date has them.
const T_AT: usize = 14;
const Z_AT: usize = 21;

/// Reads an icon. The image is a stretch of the message.
pub fn icon_read(message: &[u8]) -> Bitmap {
    read_answer(judge_icon(message))
}

fn judge_icon(message: &[u8]) -> Result<Bitmap, u32> {
    match message.split_first_chunk() {
        Some((&[VERSION, info, width, height, depth], image)) => {
            judge_parts([info, width, height, depth], image, 5)
        }
        Some(_) => Err(20),
        None => Err(2),
    }
}

/// Writes an icon to a lent buffer.
pub fn icon_write(width: u32, height: u32, image: &[u8], out: &mut [u8]) -> Written {
    let put_version = |ahead: &mut [u8; 1]| *ahead = [VERSION];
    written_answer(write_behind(put_version, width, height, image, out))
}

/// Reads a logo. Codes, date and image are stretches of the message.
pub fn logo_read(message: &[u8]) -> Logo {
    match judge_logo(message) {
        Ok(answer) => answer,
        Err(refusal) => Logo {
            refusal,
            ..Logo::default()
        },
    }
}

fn judge_logo(message: &[u8]) -> Result<Logo, u32> {
    let parts = if message.get(T_AT) != Some(&b'T') {
        parts(message, is_day)
    } else if message.get(Z_AT) != Some(&b'Z') {
        parts(message, is_time)
    } else {
        parts(message, is_time_z)
    };
    let (date_length, header, image) = parts?;
    // Ahead of the image are six octets, the date and five octets.
    let bitmap = judge_parts(header, image, 6 + date_length + 5)?;
    Ok(Logo {
        refusal: 0,
        place: 0,
        width: bitmap.width,
        height: bitmap.height,
        black: bitmap.black,
        start: bitmap.start,
        length: bitmap.length,
        mcc_start: 1,
        mcc_length: 3,
        mnc_start: 4,
        mnc_length: 2,
        date_start: 6,
        date_length,
    })
}

/// The length of the date, the bitmap's header, and what is behind it.
type Parts<'a> = (usize, [u8; 4], &'a [u8]);

#[inline(always)]
fn parts<const DATE: usize>(
    message: &[u8],
    is_date: impl Fn(&[u8; DATE]) -> bool,
) -> Result<Parts<'_>, u32> {
    let (codes, rest) = message.split_first_chunk().ok_or(2u32)?;
    let (date, rest) = rest.split_first_chunk().ok_or(2u32)?;
    let (&[end, info, width, height, depth], image) = rest.split_first_chunk().ok_or(2u32)?;
    if are_codes(codes) && is_date(date) && end == LINE_FEED {
        Ok((DATE, [info, width, height, depth], image))
    } else {
        Err(20)
    }
}

/// Writes a logo to a lent buffer.
pub fn logo_write(
    mcc: &[u8],
    mnc: &[u8],
    date: &[u8],
    width: u32,
    height: u32,
    image: &[u8],
    out: &mut [u8],
) -> Written {
    let written = match date.len() {
        8 => ahead::<8, 15>(mcc, mnc, date, is_day)
            .and_then(|put| write_behind(put, width, height, image, out)),
        15 => ahead::<15, 22>(mcc, mnc, date, is_time)
            .and_then(|put| write_behind(put, width, height, image, out)),
        16 => ahead::<16, 23>(mcc, mnc, date, is_time_z)
            .and_then(|put| write_behind(put, width, height, image, out)),
        _ => Err(20),
    };
    written_answer(written)
}

/// What puts codes and date ahead of the bitmap, if they are what they should.
#[inline(always)]
fn ahead<'a, const DATE: usize, const AHEAD: usize>(
    mcc: &[u8],
    mnc: &[u8],
    date: &'a [u8],
    is_date: impl Fn(&[u8; DATE]) -> bool,
) -> Result<impl FnOnce(&mut [u8; AHEAD]) + 'a, u32> {
    let (&[a, b, c], &[d, e]) = (mcc, mnc) else {
        return Err(20);
    };
    let codes = [VERSION, a, b, c, d, e];
    let date = date.first_chunk().ok_or(20u32)?;
    if !are_codes(&codes) || !is_date(date) {
        return Err(20);
    }
    Ok(move |ahead: &mut [u8; AHEAD]| {
        ahead[..6].copy_from_slice(&codes);
        ahead[6..6 + DATE].copy_from_slice(date);
        ahead[6 + DATE] = LINE_FEED;
    })
}

/// Whether this is the version and five digits.
#[inline(always)]
fn are_codes(codes: &[u8; 6]) -> bool {
    let &[version, a, b, c, d, e] = codes;
    let eight = [version, a, b, c, d, e, b'0', b'0'];
    version == VERSION && no_digits(u64::from_le_bytes(eight)) == 0
}

#[inline(always)]
fn is_day(date: &[u8; 8]) -> bool {
    no_digits(u64::from_le_bytes(*date)) == 0
}

/// The time's six digits are tested behind the day's last one and the T, which
/// turns into a 0.
#[inline(always)]
fn is_time(date: &[u8; 15]) -> bool {
    let t_to_0 = ((b'T' ^ b'0') as u64) << 8;
    let (day, time) = (word(date, 0), word(date, 7) ^ t_to_0);
    date[8] == b'T' && no_digits(day) | no_digits(time) == 0
}

#[inline(always)]
fn is_time_z(date: &[u8; 16]) -> bool {
    match date.first_chunk() {
        Some(time) => is_time(time) && date[15] == b'Z',
        None => false,
    }
}

/// Eight octets, the first one lowest.
#[inline(always)]
fn word(date: &[u8; 15], at: usize) -> u64 {
    let mut eight = [0; 8];
    eight.copy_from_slice(&date[at..at + 8]);
    u64::from_le_bytes(eight)
}

/// Not 0 if one of eight octets is no digit. The sum sets the highest bit of an
/// octet from 3A to B9, the difference that of one below 30 or from B0 on. The
/// digits below the lowest such octet carry nothing into it.
#[inline(always)]
fn no_digits(word: u64) -> u64 {
    const EACH: u64 = 0x0101_0101_0101_0101;
    let above = word.wrapping_add(0x46 * EACH);
    let below = word.wrapping_sub(0x30 * EACH);
    (above | below) & (0x80 * EACH)
}
