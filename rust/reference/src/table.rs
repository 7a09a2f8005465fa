//! Writing a tone message from a table.

use ohakelm_answers::Written;

use crate::tone::{may_be_in_title, Instruction, Pattern, Tone, BASIC, TEMPORARY};
use crate::{put_first, refuse, written_answer, Refusal, LARGEST_TONE};

/// Writes a tone to a lent buffer.
pub fn write(song: u32, unicode: bool, title: &[u8], table: &[u32], out: &mut [u8]) -> Written {
    written_answer(write_into(song, unicode, title, table, out))
}

fn write_into(
    song: u32,
    unicode: bool,
    title: &[u8],
    table: &[u32],
    out: &mut [u8],
) -> Result<usize, Refusal> {
    judge_song(song)?;
    judge_title(song, unicode, title)?;
    let patterns = patterns_of(table)?;
    let tone = Tone {
        song,
        unicode,
        title: title.to_vec(),
        patterns,
    };
    let octets = tone.octets();
    if octets.len() > LARGEST_TONE {
        return refuse(1);
    }
    if octets.len() > out.len() {
        return refuse(11);
    }
    put_first(&octets, out);
    Ok(octets.len())
}

fn judge_song(song: u32) -> Result<(), Refusal> {
    if song == BASIC || song == TEMPORARY {
        Ok(())
    } else {
        refuse(4)
    }
}

fn judge_title(song: u32, unicode: bool, title: &[u8]) -> Result<(), Refusal> {
    let octets_each = if unicode { 2 } else { 1 };
    let whole = title.len() % octets_each == 0;
    let short = title.len() / octets_each <= 15;
    let in_place = song == BASIC || title.is_empty();
    if !(whole && short && in_place) {
        return refuse(17);
    }
    for octets in title.chunks(octets_each) {
        let character = octets
            .iter()
            .fold(0, |sum, &octet| sum * 256 + octet as u32);
        if !may_be_in_title(character) {
            return refuse(21);
        }
    }
    Ok(())
}

/// The patterns that a table holds, its entries judged in turn.
fn patterns_of(table: &[u32]) -> Result<Vec<Pattern>, Refusal> {
    let mut patterns: Vec<Pattern> = Vec::new();
    let mut instructions_due = 0;
    let mut defined = [false; 4];
    for &entry in table {
        let (kind, payload) = (entry / 65536, entry % 65536);
        if kind == 0 {
            if payload >= 4 * 4096 {
                return refuse(6);
            }
            if instructions_due > 0 {
                return refuse(18);
            }
            let part = payload / 4096;
            instructions_due = payload % 256;
            if instructions_due == 0 && !defined[part as usize] {
                return refuse(7);
            }
            defined[part as usize] = true;
            patterns.push(Pattern {
                part,
                repeats: payload / 256 % 16,
                body: Vec::new(),
            });
        } else {
            let Some(instruction) = Instruction::from_codes(kind, payload) else {
                return refuse(6);
            };
            if instructions_due == 0 {
                return refuse(18);
            }
            instructions_due -= 1;
            if let Some(pattern) = patterns.last_mut() {
                pattern.body.push(instruction);
            }
        }
    }
    if instructions_due > 0 {
        return refuse(18);
    }
    if patterns.is_empty() {
        return refuse(5);
    }
    if patterns.len() > 255 {
        return refuse(18);
    }
    Ok(patterns)
}
