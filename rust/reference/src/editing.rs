//! Edits: change the tone, write it afresh, list it afresh.

use ohakelm_answers::Edited;

use crate::playing::Playing;
use crate::reading::tone_of;
use crate::tone::{Instruction, Tone};
use crate::{put_first, refuse, Refusal, LARGEST_TONE};

/// Replaces an instruction by the one that the entry holds.
pub fn replace(
    buffer: &mut [u8],
    used: usize,
    pattern: usize,
    instruction: usize,
    entry: u32,
    list: &mut [u32],
) -> Edited {
    let change = Change::Replace(entry);
    answer(edit(buffer, used, pattern, instruction, change, list))
}

/// Inserts the instruction that the entry holds before another, or at the end.
pub fn insert(
    buffer: &mut [u8],
    used: usize,
    pattern: usize,
    instruction: usize,
    entry: u32,
    list: &mut [u32],
) -> Edited {
    let change = Change::Insert(entry);
    answer(edit(buffer, used, pattern, instruction, change, list))
}

/// Deletes an instruction.
pub fn delete(
    buffer: &mut [u8],
    used: usize,
    pattern: usize,
    instruction: usize,
    list: &mut [u32],
) -> Edited {
    let change = Change::Delete;
    answer(edit(buffer, used, pattern, instruction, change, list))
}

/// A change that carries its new instruction, as an entry or already judged.
enum Change<T> {
    Replace(T),
    Insert(T),
    Delete,
}

impl Change<u32> {
    fn judged(self) -> Result<Change<Instruction>, Refusal> {
        match self {
            Change::Replace(entry) => Ok(Change::Replace(instruction_of(entry)?)),
            Change::Insert(entry) => Ok(Change::Insert(instruction_of(entry)?)),
            Change::Delete => Ok(Change::Delete),
        }
    }
}

fn instruction_of(entry: u32) -> Result<Instruction, Refusal> {
    match Instruction::from_entry(entry) {
        Some(instruction) => Ok(instruction),
        None => refuse(6),
    }
}

fn answer(done: Result<Edited, Refusal>) -> Edited {
    done.unwrap_or_else(|refusal| Edited {
        refusal: refusal.number,
        place: refusal.place,
        ..Edited::default()
    })
}

fn edit(
    buffer: &mut [u8],
    used: usize,
    pattern: usize,
    instruction: usize,
    change: Change<u32>,
    list: &mut [u32],
) -> Result<Edited, Refusal> {
    if used > buffer.len() {
        return refuse(1);
    }
    let mut tone = tone_of(&buffer[..used])?;
    change_tone(&mut tone, pattern, instruction, change.judged()?)?;
    let octets = tone.octets();
    if octets.len() > LARGEST_TONE {
        return refuse(1);
    }
    if octets.len() > buffer.len() {
        return refuse(11);
    }
    let playing = Playing::of(&tone);
    let cells = playing.cells();
    if cells.len() > list.len() {
        return refuse(11);
    }
    // What the old message leaves behind the new one is cleared.
    buffer[..used].fill(0);
    put_first(&octets, buffer);
    put_first(&cells, list);
    Ok(Edited {
        refusal: 0,
        place: 0,
        length: octets.len(),
        entries: playing.entries.len(),
        mark: playing.mark(),
        change: octets.len() as i32 - used as i32,
    })
}

fn change_tone(
    tone: &mut Tone,
    pattern: usize,
    instruction: usize,
    change: Change<Instruction>,
) -> Result<(), Refusal> {
    // A recall has no instructions of its own and takes no edit.
    let body = match tone.patterns.get_mut(pattern) {
        Some(pattern) if !pattern.is_recall() => &mut pattern.body,
        _ => return refuse(12),
    };
    let count = body.len();
    match change {
        Change::Replace(_) if instruction >= count => refuse(12),
        Change::Insert(_) if instruction > count => refuse(12),
        Change::Delete if instruction >= count => refuse(12),
        Change::Delete if count == 1 => refuse(13),
        Change::Insert(_) if count == 255 => refuse(14),
        Change::Replace(new) => {
            body[instruction] = new;
            Ok(())
        }
        Change::Insert(new) => {
            body.insert(instruction, new);
            Ok(())
        }
        Change::Delete => {
            body.remove(instruction);
            Ok(())
        }
    }
}
