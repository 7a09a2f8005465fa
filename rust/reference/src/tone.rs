//! What a tone is, and its writing.

use crate::bits::BitWriter;

pub const BASIC: u32 = 1;
pub const TEMPORARY: u32 = 2;

pub const RINGING_TONE_PROGRAMMING: u32 = 0b0100101;
pub const UNICODE: u32 = 0b0100010;
pub const SOUND: u32 = 0b0011101;

pub struct Tone {
    pub song: u32,
    pub unicode: bool,
    pub title: Vec<u8>,
    pub patterns: Vec<Pattern>,
}

/// A pattern with an empty body is a recall.
pub struct Pattern {
    /// 0 to 3, for A to D.
    pub part: u32,
    /// The loop value as it is written.
    pub repeats: u32,
    pub body: Vec<Instruction>,
}

#[derive(Clone, Copy, PartialEq, Eq)]
pub enum Instruction {
    Note {
        note: u32,
        duration: u32,
        specifier: u32,
    },
    Scale(u32),
    Style(u32),
    Tempo(u32),
    Volume(u32),
}

impl Instruction {
    /// The instruction of a kind and payload, if the instruction table has it.
    pub fn from_codes(kind: u32, payload: u32) -> Option<Instruction> {
        match kind {
            1 => Instruction::note(payload / 32, payload / 4 % 8, payload % 4),
            2 if payload <= 3 => Some(Instruction::Scale(payload)),
            3 if payload <= 2 => Some(Instruction::Style(payload)),
            4 if payload <= 31 => Some(Instruction::Tempo(payload)),
            5 if payload <= 15 => Some(Instruction::Volume(payload)),
            _ => None,
        }
    }

    fn note(note: u32, duration: u32, specifier: u32) -> Option<Instruction> {
        let allowed = note <= 12 && duration <= 5;
        allowed.then_some(Instruction::Note {
            note,
            duration,
            specifier,
        })
    }

    /// The instruction of a table entry.
    pub fn from_entry(entry: u32) -> Option<Instruction> {
        Instruction::from_codes(entry / 65536, entry % 65536)
    }

    pub fn kind(self) -> u32 {
        match self {
            Instruction::Note { .. } => 1,
            Instruction::Scale(_) => 2,
            Instruction::Style(_) => 3,
            Instruction::Tempo(_) => 4,
            Instruction::Volume(_) => 5,
        }
    }

    pub fn payload(self) -> u32 {
        match self {
            Instruction::Note {
                note,
                duration,
                specifier,
            } => note * 32 + duration * 4 + specifier,
            Instruction::Scale(code)
            | Instruction::Style(code)
            | Instruction::Tempo(code)
            | Instruction::Volume(code) => code,
        }
    }

    pub fn entry(self) -> u32 {
        self.kind() * 65536 + self.payload()
    }
}

/// How many bits follow an instruction's id, if the id is an instruction's.
pub fn payload_width(kind: u32) -> Option<usize> {
    match kind {
        1 => Some(4 + 3 + 2),
        2 => Some(2),
        3 => Some(2),
        4 => Some(5),
        5 => Some(4),
        _ => None,
    }
}

/// Whether a title may have a character of this number.
pub fn may_be_in_title(character: u32) -> bool {
    let refused = (0..=31).contains(&character) || (127..=159).contains(&character);
    !refused
}

impl Tone {
    pub fn characters(&self) -> usize {
        if self.unicode {
            self.title.len() / 2
        } else {
            self.title.len()
        }
    }

    /// The tone table: a header's entry, then those of its body, and so on.
    pub fn table(&self) -> Vec<u32> {
        let mut table = Vec::new();
        for pattern in &self.patterns {
            table.push(pattern.part * 4096 + pattern.repeats * 256 + pattern.body.len() as u32);
            for instruction in &pattern.body {
                table.push(instruction.entry());
            }
        }
        table
    }

    /// The message, whatever its length.
    pub fn octets(&self) -> Vec<u8> {
        let mut bits = BitWriter::new();
        self.put_front(&mut bits);
        if self.song == BASIC {
            self.put_title(&mut bits);
        }
        bits.put(8, self.patterns.len() as u32);
        for pattern in &self.patterns {
            pattern.put(&mut bits);
        }
        bits.fill();
        bits.put(8, 0);
        bits.octets()
    }

    fn put_front(&self, bits: &mut BitWriter) {
        bits.put(8, if self.unicode { 3 } else { 2 });
        bits.put(7, RINGING_TONE_PROGRAMMING);
        bits.put(1, 0);
        if self.unicode {
            bits.put(7, UNICODE);
            bits.put(1, 0);
        }
        bits.put(7, SOUND);
        bits.put(3, self.song);
    }

    fn put_title(&self, bits: &mut BitWriter) {
        bits.put(4, self.characters() as u32);
        for &octet in &self.title {
            bits.put(8, octet as u32);
        }
    }
}

impl Pattern {
    pub fn is_recall(&self) -> bool {
        self.body.is_empty()
    }

    fn put(&self, bits: &mut BitWriter) {
        bits.put(3, 0);
        bits.put(2, self.part);
        bits.put(4, self.repeats);
        bits.put(8, self.body.len() as u32);
        for instruction in &self.body {
            bits.put(3, instruction.kind());
            // Every instruction has an instruction's id.
            let width = payload_width(instruction.kind()).unwrap_or(0);
            bits.put(width as u32, instruction.payload());
        }
    }
}
