//! The tones that are measured.

/// A basic song as its title, table and message.
pub struct Tone {
    pub unicode: bool,
    pub title: Vec<u8>,
    pub table: Vec<u32>,
    pub message: Vec<u8>,
    /// A pattern with a body in the middle of the message, and how long it is.
    pub middle: usize,
    pub middle_count: usize,
}

pub const BASIC: u32 = 1;

/// A part of this many instructions is about as long as tones have them.
const BODY: usize = 40;

/// A basic song of just so many octets: parts of notes with a setting among
/// them here and there, now and then a recall.
pub fn of_octets(octets: usize) -> Tone {
    // One title or another makes the octets come out even.
    let mut tone = filled(octets, b"Ohm");
    for title in [&b"Ring"[..], b"Chime", b"Signal", b"Ohakelm"] {
        if tone.message.len() < octets {
            tone = filled(octets, title);
        }
    }
    tone
}

/// The longest title that there is.
const TITLE: &[u8; 15] = b"Ohakelm, a tune";

/// The same small table without a title, with the longest one, and with that one
/// under UNICODE. What differs is what the title costs.
pub fn of_titles() -> [Tone; 3] {
    let bare = filled(28, b"");
    let wide: Vec<u8> = TITLE.iter().flat_map(|&octet| [0, octet]).collect();
    [
        titled(false, &[], &bare.table),
        titled(false, TITLE, &bare.table),
        titled(true, &wide, &bare.table),
    ]
}

fn titled(unicode: bool, title: &[u8], table: &[u32]) -> Tone {
    let (middle, middle_count) = middle_pattern(table);
    Tone {
        unicode,
        title: title.to_vec(),
        table: table.to_vec(),
        message: written(unicode, title, table),
        middle,
        middle_count,
    }
}

/// A tone with a title and as many instructions as the octets hold.
fn filled(octets: usize, title: &[u8]) -> Tone {
    filled_from(7, octets, title)
}

/// The same with other instructions for each number.
fn filled_from(state: u64, octets: usize, title: &[u8]) -> Tone {
    let mut instructions = Instructions::from(state);
    let mut parts: Vec<Vec<u32>> = vec![Vec::new()];
    while written(false, title, &table(&parts)).len() <= octets {
        if parts[parts.len() - 1].len() == BODY {
            parts.push(Vec::new());
        }
        let last = parts.len() - 1;
        parts[last].push(instructions.next());
    }
    // The last one was too long.
    let last = parts.len() - 1;
    parts[last].pop();
    titled(false, title, &table(&parts))
}

/// The tone of 255 headers, loop 14, one part of ten notes and 254 recalls. Ahead
/// of the notes there may be a setting.
pub fn of_recalls(setting: Option<u32>) -> Vec<u8> {
    let mut body = Vec::from_iter(setting);
    body.extend((1..=10).map(|note| 65536 + note * 32 + 8));
    let mut table = vec![14 * 256 + body.len() as u32];
    table.append(&mut body);
    table.extend([14 * 256; 254]);
    written(false, b"", &table)
}

/// So many notes and nothing else, or with a tempo ahead of every tenth.
pub fn of_notes(notes: usize, with_tempos: bool) -> Vec<u8> {
    let mut instructions = Instructions::from(7);
    let mut all = Vec::new();
    for position in 0..notes {
        if with_tempos && position % 10 == 0 {
            all.push(instructions.tempo());
        }
        all.push(instructions.note());
    }
    let parts: Vec<Vec<u32>> = all.chunks(BODY).map(<[u32]>::to_vec).collect();
    written(false, b"", &table_of_parts(&parts))
}

/// The tone of one full part that sounds for ever.
pub fn of_endless_part() -> Vec<u8> {
    let mut instructions = Instructions::from(7);
    let mut table = vec![15 * 256 + 255];
    table.extend((0..255).map(|_| instructions.next()));
    written(false, b"Chime", &table)
}

/// The messages of a pack, back to back, and their lengths: so many, none of them
/// longer than so many octets. No two have the same instructions, and none has those of
/// another first number, if that is far enough.
pub fn of_pack(first: u64, messages: usize, octets: usize) -> (Vec<u8>, Vec<u32>) {
    let titles = [&b"Ring"[..], b"", b"Chime", TITLE, b"Signal"];
    let tones = (0..messages).map(|position| {
        let title = titles[position % titles.len()];
        filled_from(first + position as u64, octets, title).message
    });
    let tones: Vec<Vec<u8>> = tones.collect();
    let lengths = tones.iter().map(|tone| tone.len() as u32).collect();
    (tones.concat(), lengths)
}

/// Headers and bodies, each sounding once.
fn table_of_parts(parts: &[Vec<u32>]) -> Vec<u32> {
    let mut table = Vec::new();
    for (position, body) in parts.iter().enumerate() {
        table.push((position % 4) as u32 * 4096 + body.len() as u32);
        table.extend(body);
    }
    table
}

/// Headers and bodies. After every third part comes a recall of the first one
/// of the same id. The last part may still be empty.
fn table(parts: &[Vec<u32>]) -> Vec<u32> {
    let mut table = Vec::new();
    for (position, body) in parts.iter().enumerate() {
        if body.is_empty() {
            continue;
        }
        let part = (position % 4) as u32 * 4096;
        let repeats = (position % 2) as u32 * 256;
        table.push(part + repeats + body.len() as u32);
        table.extend(body);
        if position % 3 == 2 {
            table.push(part);
        }
    }
    table
}

/// The message of a table. An empty table has none, and one that is too long
/// counts as longer than any message.
fn written(unicode: bool, title: &[u8], table: &[u32]) -> Vec<u8> {
    let mut out = vec![0; 4097];
    let answer = ohakelm_fast::write(BASIC, unicode, title, table, &mut out);
    if answer.refusal != 1 {
        out.truncate(answer.octets);
    }
    out
}

/// The pattern with a body that is nearest to the middle of the table.
fn middle_pattern(table: &[u32]) -> (usize, usize) {
    let mut found = (0, (table[0] & 255) as usize);
    let headers = table.iter().enumerate().filter(|(_, &e)| e < 65536);
    for (pattern, (cell, &header)) in headers.enumerate() {
        let count = (header & 255) as usize;
        if count > 0 && cell <= table.len() / 2 {
            found = (pattern, count);
        }
    }
    found
}

/// A stream of instructions, four in five of them notes.
struct Instructions {
    numbers: Numbers,
}

impl Instructions {
    fn from(state: u64) -> Instructions {
        Instructions {
            numbers: Numbers::from(state),
        }
    }

    fn next(&mut self) -> u32 {
        match self.below(20) {
            0 => 2 * 65536 + self.below(4),
            1 => 3 * 65536 + self.below(3),
            2 => self.tempo(),
            3 => 5 * 65536 + self.below(16),
            _ => self.note(),
        }
    }

    fn tempo(&mut self) -> u32 {
        4 * 65536 + self.below(32)
    }

    fn note(&mut self) -> u32 {
        65536 + self.below(13) * 32 + self.below(6) * 4 + self.below(4)
    }

    fn below(&mut self, bound: u32) -> u32 {
        self.numbers.below(bound)
    }
}

/// A stream of numbers.
pub struct Numbers {
    state: u64,
}

impl Numbers {
    /// Another one for each number.
    pub fn from(state: u64) -> Numbers {
        Numbers { state }
    }

    /// The high bits of a linear congruential generator.
    pub fn below(&mut self, bound: u32) -> u32 {
        self.state = self
            .state
            .wrapping_mul(6_364_136_223_846_793_005)
            .wrapping_add(1_442_695_040_888_963_407);
        (self.state >> 33) as u32 % bound
    }
}
