//! The kinds of message that have more ahead of a bitmap: CLI icons and
//! operator logos.
//!
//! What stands ahead is held against a form, sign by sign. In a form, 9 stands
//! for any digit and every other sign for itself.

use ohakelm_answers::{Bitmap, Logo, Written};

use crate::bitmap::{judge, read_answer, write_behind, HEADER};
use crate::{refuse, written_answer, Refusal};

/// Both kinds begin with the version.
const VERSION: &str = "0";
const MCC: &str = "999";
const MNC: &str = "99";
const LINE_FEED: &str = "\n";

/// A common date: the day alone, with a time, and with a time and a Z.
const DAY: &str = "99999999";
const TIME: &str = "99999999T999999";
const TIME_Z: &str = "99999999T999999Z";

/// Reads an icon. The image is a stretch of the message.
pub fn icon_read(message: &[u8]) -> Bitmap {
    read_answer(judge_icon(message))
}

/// Writes an icon to a lent buffer.
pub fn icon_write(width: u32, height: u32, image: &[u8], out: &mut [u8]) -> Written {
    let ahead = VERSION.as_bytes();
    written_answer(write_behind(ahead, width, height, image, out))
}

/// Reads a logo. Codes, date and image are stretches of the message.
pub fn logo_read(message: &[u8]) -> Logo {
    match judge_logo(message) {
        Ok(answer) => answer,
        Err(refusal) => Logo {
            refusal: refusal.number,
            place: refusal.place,
            ..Logo::default()
        },
    }
}

/// Writes a logo to a lent buffer.
pub fn logo_write(
    mcc: &[u8],
    mnc: &[u8],
    date: &[u8],
    width: u32,
    height: u32,
    image: &[u8],
    out: &mut [u8],
) -> Written {
    let ahead = ahead_of_logo(mcc, mnc, date);
    written_answer(ahead.and_then(|ahead| write_behind(&ahead, width, height, image, out)))
}

fn judge_icon(message: &[u8]) -> Result<Bitmap, Refusal> {
    let bitmap = judge_behind(message, VERSION)?;
    Ok(Bitmap {
        start: VERSION.len() + bitmap.start,
        ..bitmap
    })
}

fn judge_logo(message: &[u8]) -> Result<Logo, Refusal> {
    let date = date_form(message);
    let form = [VERSION, MCC, MNC, date, LINE_FEED].concat();
    let bitmap = judge_behind(message, &form)?;
    let mcc_start = VERSION.len();
    let mnc_start = mcc_start + MCC.len();
    let date_start = mnc_start + MNC.len();
    Ok(Logo {
        refusal: 0,
        place: 0,
        width: bitmap.width,
        height: bitmap.height,
        black: bitmap.black,
        start: form.len() + bitmap.start,
        length: bitmap.length,
        mcc_start,
        mcc_length: MCC.len(),
        mnc_start,
        mnc_length: MNC.len(),
        date_start,
        date_length: date.len(),
    })
}

/// The form of a logo's date, told by the octets where T and Z may stand. An
/// octet that is not there is neither.
fn date_form(message: &[u8]) -> &'static str {
    if message.get(14) != Some(&b'T') {
        DAY
    } else if message.get(21) != Some(&b'Z') {
        TIME
    } else {
        TIME_Z
    }
}

/// The bitmap behind what a form says, its start counted from its own header.
/// First all up to the image must be there.
fn judge_behind(message: &[u8], form: &str) -> Result<Bitmap, Refusal> {
    if message.len() < form.len() + HEADER {
        return refuse(2);
    }
    let (ahead, bitmap) = message.split_at(form.len());
    if !has_form(ahead, form) {
        return refuse(20);
    }
    judge(bitmap)
}

fn ahead_of_logo(mcc: &[u8], mnc: &[u8], date: &[u8]) -> Result<Vec<u8>, Refusal> {
    let is_date = [DAY, TIME, TIME_Z].iter().any(|form| has_form(date, form));
    if !has_form(mcc, MCC) || !has_form(mnc, MNC) || !is_date {
        return refuse(20);
    }
    let (version, line_feed) = (VERSION.as_bytes(), LINE_FEED.as_bytes());
    Ok([version, mcc, mnc, date, line_feed].concat())
}

fn has_form(octets: &[u8], form: &str) -> bool {
    let signs = form.as_bytes();
    let mut pairs = octets.iter().zip(signs);
    octets.len() == signs.len() && pairs.all(|(&octet, &sign)| stands_for(sign, octet))
}

fn stands_for(sign: u8, octet: u8) -> bool {
    match sign {
        b'9' => (0x30..=0x39).contains(&octet),
        _ => octet == sign,
    }
}
