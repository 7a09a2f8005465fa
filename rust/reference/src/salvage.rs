//! Getting the messages out of a broken pack.

use ohakelm_answers::Salvage;

use crate::packs::{packed, rows_of_lengths, Row, LARGEST_PACK};
use crate::reading::tone_of;
use crate::{put_first, refuse, Refusal, LARGEST_TONE};

/// Writes a new pack of the messages that are found, and a report of where each was.
pub fn pack_salvage(pack: &[u8], out: &mut [u8], report: &mut [u32]) -> Salvage {
    match salvage_into(pack, out, report) {
        Ok(answer) => answer,
        Err(refusal) => Salvage {
            refusal: refusal.number,
            place: refusal.place,
            ..Salvage::default()
        },
    }
}

fn salvage_into(pack: &[u8], out: &mut [u8], report: &mut [u32]) -> Result<Salvage, Refusal> {
    // Nothing behind these octets counts.
    let octets = &pack[..pack.len().min(LARGEST_PACK)];
    let (kept, skipped) = found(octets);
    let new = new_pack(octets, &kept);
    let numbers = report_of(&kept, skipped);
    if new.len() > LARGEST_PACK {
        return refuse(1);
    }
    if new.len() > out.len() || numbers.len() > report.len() {
        return refuse(11);
    }
    put_first(&new, out);
    put_first(&numbers, report);
    Ok(Salvage {
        refusal: 0,
        place: 0,
        messages: kept.len(),
        octets: new.len(),
        skipped,
    })
}

/// The messages that are kept, and how many octets are skipped.
fn found(octets: &[u8]) -> (Vec<Row>, usize) {
    let mut kept = Vec::new();
    let (mut start, mut skipped) = (0, 0);
    while start < octets.len() {
        match message_at_front(&octets[start..]) {
            Some(length) => {
                kept.push(Row { start, length });
                start += length;
            }
            None => {
                start += 1;
                skipped += 1;
            }
        }
    }
    (kept, skipped)
}

/// How many octets the message has that starts with these octets, if one does.
fn message_at_front(octets: &[u8]) -> Option<usize> {
    // One that goes on behind these would be too long.
    let octets = &octets[..octets.len().min(LARGEST_TONE)];
    let length = match tone_of(octets) {
        Ok(_) => octets.len(),
        // All is well up to the end octet, and here are octets behind it.
        Err(refusal) if refusal.number == 10 => refusal.place / 8,
        Err(_) => return None,
    };
    tone_of(&octets[..length]).is_ok().then_some(length)
}

fn new_pack(octets: &[u8], kept: &[Row]) -> Vec<u8> {
    let messages = kept.iter().map(|row| &octets[row.start..][..row.length]);
    let messages = messages.collect::<Vec<_>>().concat();
    packed(&messages, &new_rows(kept))
}

/// The rows of the new pack.
fn new_rows(kept: &[Row]) -> Vec<Row> {
    let lengths: Vec<u32> = kept.iter().map(|row| row.length as u32).collect();
    rows_of_lengths(&lengths)
}

/// Old start, new start and length of each, and then what was skipped.
fn report_of(kept: &[Row], skipped: usize) -> Vec<u32> {
    let mut report = Vec::new();
    for (old, new) in kept.iter().zip(new_rows(kept)) {
        report.extend([old.start, new.start, old.length].map(|number| number as u32));
    }
    report.push(skipped as u32);
    report
}
