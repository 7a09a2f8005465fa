//! Reading a tone message, element by element, and the label of its title.

use ohakelm_answers as answers;

use crate::bits::BitReader;
use crate::tone::{
    may_be_in_title, payload_width, Instruction, Pattern, Tone, BASIC, RINGING_TONE_PROGRAMMING,
    SOUND, TEMPORARY, UNICODE,
};
use crate::{put_first, refuse, refuse_at, Refusal, LARGEST_TONE};

/// Reads a tone into a lent table and title.
pub fn read(message: &[u8], table: &mut [u32], title: &mut [u8]) -> answers::Tone {
    match read_into(message, table, title) {
        Ok(answer) => answer,
        Err(refusal) => answers::Tone {
            refusal: refusal.number,
            place: refusal.place,
            ..answers::Tone::default()
        },
    }
}

fn read_into(
    message: &[u8],
    table: &mut [u32],
    title: &mut [u8],
) -> Result<answers::Tone, Refusal> {
    let tone = tone_of(message)?;
    let entries = tone.table();
    if tone.title.len() > title.len() || entries.len() > table.len() {
        return refuse(11);
    }
    put_first(&entries, table);
    put_first(&tone.title, title);
    Ok(answers::Tone {
        refusal: 0,
        place: 0,
        song: tone.song,
        unicode: tone.unicode,
        characters: tone.characters(),
        patterns: tone.patterns.len(),
        entries: entries.len(),
    })
}

/// The tone that a message holds.
pub(crate) fn tone_of(message: &[u8]) -> Result<Tone, Refusal> {
    if message.len() > LARGEST_TONE {
        return refuse(1);
    }
    let mut reader = BitReader::new(message);
    let unicode = take_front(&mut reader)?;
    let song = take_song_type(&mut reader)?;
    let title = if song == BASIC {
        take_title(&mut reader, unicode)?
    } else {
        Vec::new()
    };
    let patterns = take_patterns(&mut reader)?;
    take_end(&mut reader)?;
    Ok(Tone {
        song,
        unicode,
        title,
        patterns,
    })
}

/// Takes an element that must have one certain value.
fn take_exactly(
    reader: &mut BitReader,
    width: usize,
    value: u32,
    refusal: u32,
) -> Result<(), Refusal> {
    let place = reader.place();
    if reader.take(width)? == value {
        Ok(())
    } else {
        refuse_at(refusal, place)
    }
}

/// Command length and command parts. Answers whether UNICODE is among them.
fn take_front(reader: &mut BitReader) -> Result<bool, Refusal> {
    let place = reader.place();
    let unicode = match reader.take(8)? {
        2 => false,
        3 => true,
        _ => return refuse_at(3, place),
    };
    take_exactly(reader, 7, RINGING_TONE_PROGRAMMING, 3)?;
    take_exactly(reader, 1, 0, 8)?;
    if unicode {
        take_exactly(reader, 7, UNICODE, 3)?;
        take_exactly(reader, 1, 0, 8)?;
    }
    take_exactly(reader, 7, SOUND, 3)?;
    Ok(unicode)
}

fn take_song_type(reader: &mut BitReader) -> Result<u32, Refusal> {
    let place = reader.place();
    let song = reader.take(3)?;
    if song == BASIC || song == TEMPORARY {
        Ok(song)
    } else {
        refuse_at(4, place)
    }
}

fn take_title(reader: &mut BitReader, unicode: bool) -> Result<Vec<u8>, Refusal> {
    let mut title = Vec::new();
    for _ in 0..reader.take(4)? {
        let place = reader.place();
        let character = reader.take(if unicode { 16 } else { 8 })?;
        if !may_be_in_title(character) {
            return refuse_at(21, place);
        }
        if unicode {
            title.push((character / 256) as u8);
        }
        title.push((character % 256) as u8);
    }
    Ok(title)
}

fn take_patterns(reader: &mut BitReader) -> Result<Vec<Pattern>, Refusal> {
    let place = reader.place();
    let count = reader.take(8)?;
    if count == 0 {
        return refuse_at(5, place);
    }
    let mut patterns = Vec::new();
    for _ in 0..count {
        let pattern = take_pattern(reader, &patterns)?;
        patterns.push(pattern);
    }
    Ok(patterns)
}

fn take_pattern(reader: &mut BitReader, earlier: &[Pattern]) -> Result<Pattern, Refusal> {
    take_exactly(reader, 3, 0, 6)?;
    let place = reader.place();
    let rest = reader.take(14)?;
    let (part, repeats, specifier) = (rest / 4096, rest / 256 % 16, rest % 256);
    if specifier == 0 && !is_defined(part, earlier) {
        return refuse_at(7, place);
    }
    let mut body = Vec::new();
    for _ in 0..specifier {
        body.push(take_instruction(reader)?);
    }
    Ok(Pattern {
        part,
        repeats,
        body,
    })
}

/// Whether any of these patterns has a body for the part. A recall is accepted
/// only where the part is defined, so any pattern of the part will do.
fn is_defined(part: u32, earlier: &[Pattern]) -> bool {
    earlier.iter().any(|pattern| pattern.part == part)
}

fn take_instruction(reader: &mut BitReader) -> Result<Instruction, Refusal> {
    let place = reader.place();
    let kind = reader.take(3)?;
    let Some(width) = payload_width(kind) else {
        return refuse_at(6, place);
    };
    let place = reader.place();
    let payload = reader.take(width)?;
    match Instruction::from_codes(kind, payload) {
        Some(instruction) => Ok(instruction),
        None => refuse_at(6, place),
    }
}

/// Filler, the end octet, and nothing after it.
fn take_end(reader: &mut BitReader) -> Result<(), Refusal> {
    let filler = reader.bits_to_boundary();
    take_exactly(reader, filler, 0, 8)?;
    take_exactly(reader, 8, 0, 9)?;
    if reader.is_at_end() {
        Ok(())
    } else {
        refuse_at(10, reader.place())
    }
}

/// Which buffer supplies the label for the screen, and which stretch of it.
pub fn label(title: &[u8], unicode: bool, stand_in: &[u8]) -> answers::Label {
    let trimmed = match unicode {
        false => without_trailing(title, &[32]),
        true if title.len() % 2 == 0 => without_trailing(title, &[0, 32]),
        true => &[],
    };
    answers::Label {
        stand_in: trimmed.is_empty(),
        start: 0,
        length: if trimmed.is_empty() {
            stand_in.len()
        } else {
            trimmed.len()
        },
    }
}

fn without_trailing<'a>(title: &'a [u8], space: &[u8]) -> &'a [u8] {
    let mut characters: Vec<&[u8]> = title.chunks(space.len()).collect();
    while characters.last() == Some(&space) {
        characters.pop();
    }
    &title[..characters.len() * space.len()]
}
