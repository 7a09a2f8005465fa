//! Getting the messages out of a broken pack.
//!
//! Most octets are told by themselves and the next one. Only where a front may be is
//! the message judged, once, by the walk that tells those of packs. What is kept is
//! noted, so that the outputs are filled when no refusal is left.

use std::ops::Range;

use ohakelm_answers::Salvage;

use crate::codes::LARGEST_TONE;
use crate::judge::{refusal, Refusal};
use crate::packs::{fill_rows, LARGEST_PACK, LAST, ROW};
use crate::within::{end_of_sound, SMALLEST_TONE};

/// Numbers of the report for each message.
const NUMBERS: usize = 3;

/// Writes a new pack of the messages that are found, and a report of where each was.
pub fn pack_salvage(pack: &[u8], out: &mut [u8], report: &mut [u32]) -> Salvage {
    match salvage_into(pack, out, report) {
        Ok(answer) => answer,
        Err(refusal) => Salvage {
            refusal: refusal.number,
            place: refusal.place,
            ..Salvage::default()
        },
    }
}

#[inline(always)]
fn salvage_into(pack: &[u8], out: &mut [u8], report: &mut [u32]) -> Result<Salvage, Refusal> {
    let octets = &pack[..pack.len().min(LARGEST_PACK)];
    let (kept, first_row) = found(octets);
    let messages = kept.len();
    let whole = first_row + ROW * messages + LAST;
    if whole > LARGEST_PACK {
        return Err(refusal(1, 0));
    }
    let numbers = report.get_mut(..NUMBERS * messages + 1);
    let (Some(new), Some(numbers)) = (out.get_mut(..whole), numbers) else {
        return Err(refusal(11, 0));
    };
    let skipped = octets.len() - first_row;
    let (front, behind) = new.split_at_mut(first_row);
    fill_messages(octets, &kept, front);
    fill_rows(behind, kept.iter().map(|it| it.length as u32), first_row);
    fill_report(&kept, skipped, numbers);
    Ok(Salvage {
        refusal: 0,
        place: 0,
        messages,
        octets: whole,
        skipped,
    })
}

/// A message that is kept. Both numbers are of the first 65,535 octets.
#[derive(Clone, Copy)]
struct Kept {
    start: u16,
    length: u16,
}

impl Kept {
    fn octets(self) -> Range<usize> {
        let start = self.start as usize;
        start..start + self.length as usize
    }
}

/// The messages that are kept, and how many octets they have.
#[inline(always)]
fn found(octets: &[u8]) -> (Vec<Kept>, usize) {
    // There is room for all that there can be, so it never moves.
    let mut kept = Vec::with_capacity(octets.len() / SMALLEST_TONE);
    let (mut start, mut sum) = (0, 0);
    while let Some(front) = next_front(octets, start) {
        let last_end = octets.len().min(front + LARGEST_TONE);
        start = match end_of_sound(octets, front, last_end) {
            Some(end) => {
                let length = end - front;
                kept.push(Kept {
                    start: front as u16,
                    length: length as u16,
                });
                sum += length;
                end
            }
            None => front + 1,
        };
    }
    (kept, sum)
}

/// So many octets are looked at together.
const CHUNK: usize = 64;

/// Where the next message may start, by its first two octets.
#[inline(always)]
fn next_front(octets: &[u8], mut start: usize) -> Option<usize> {
    // Mostly one message is behind another.
    if is_front(*octets.get(start)?, *octets.get(start + 1)?) {
        return Some(start);
    }
    while let Some(chunk) = octets.get(start..start + CHUNK + 1) {
        // No branch for each of them, so that vectors can be used.
        let pairs = chunk[..CHUNK].iter().zip(&chunk[1..]);
        if pairs.fold(false, |any, (&one, &two)| any | is_front(one, two)) {
            break;
        }
        start += CHUNK;
    }
    let mut pairs = octets[start..].windows(2);
    Some(start + pairs.position(|pair| is_front(pair[0], pair[1]))?)
}

/// 02 or 03, and then 4A.
#[inline(always)]
fn is_front(one: u8, two: u8) -> bool {
    (one | 1 == 3) & (two == 0x4A)
}

/// Copies the messages. Those that were back to back are so again, and are copied as one.
#[inline(always)]
fn fill_messages(octets: &[u8], kept: &[Kept], mut front: &mut [u8]) {
    let mut run = 0..0;
    for message in kept.iter().map(|it| it.octets()) {
        if message.start != run.end {
            front = put_run(&octets[run], front);
            run = message;
        } else {
            run.end = message.end;
        }
    }
    put_run(&octets[run], front);
}

/// Copies octets to the front of others. Answers what is left of these.
#[inline(always)]
fn put_run<'a>(run: &[u8], front: &'a mut [u8]) -> &'a mut [u8] {
    let (here, left) = front.split_at_mut(run.len());
    here.copy_from_slice(run);
    left
}

/// Old start, new start and length of each message, and then what was skipped.
#[inline(always)]
fn fill_report(kept: &[Kept], skipped: usize, report: &mut [u32]) {
    let mut new = 0;
    for (numbers, message) in report.chunks_exact_mut(NUMBERS).zip(kept) {
        let (start, length) = (message.start as u32, message.length as u32);
        numbers.copy_from_slice(&[start, new, length]);
        new += length;
    }
    if let Some(last) = report.last_mut() {
        *last = skipped as u32;
    }
}
