//! The playing list of a tone, in both forms.

use ohakelm_answers::{Entry, Listed, NO_MARK};

use crate::reading::tone_of;
use crate::tone::{Instruction, Pattern, Tone};
use crate::{put_first, refuse, Refusal};

/// Beats a minute of the tempo codes 0 to 31.
const BEATS: [u32; 32] = [
    25, 28, 31, 35, 40, 45, 50, 56, 63, 70, 80, 90, 100, 112, 125, 140, 160, 180, 200, 225, 250,
    285, 320, 355, 400, 450, 500, 565, 635, 715, 800, 900,
];

/// The loop value of a part that sounds for ever.
const ENDLESS: u32 = 15;

/// Makes the list, three numbers an entry.
pub fn list(message: &[u8], list: &mut [u32]) -> Listed {
    answer(list_into(message, list))
}

/// Makes the list in both forms.
pub fn rows(message: &[u8], list: &mut [u32], rows: &mut [Entry]) -> Listed {
    answer(rows_into(message, list, rows))
}

fn answer(made: Result<Playing, Refusal>) -> Listed {
    match made {
        Ok(playing) => Listed {
            refusal: 0,
            place: 0,
            entries: playing.entries.len(),
            mark: playing.mark(),
        },
        Err(refusal) => Listed {
            refusal: refusal.number,
            place: refusal.place,
            entries: 0,
            mark: 0,
        },
    }
}

fn list_into(message: &[u8], list: &mut [u32]) -> Result<Playing, Refusal> {
    let playing = Playing::of(&tone_of(message)?);
    let cells = playing.cells();
    if cells.len() > list.len() {
        return refuse(11);
    }
    put_first(&cells, list);
    Ok(playing)
}

fn rows_into(message: &[u8], list: &mut [u32], rows: &mut [Entry]) -> Result<Playing, Refusal> {
    let playing = Playing::of(&tone_of(message)?);
    let cells = playing.cells();
    if cells.len() > list.len() || playing.entries.len() > rows.len() {
        return refuse(11);
    }
    put_first(&cells, list);
    put_first(&playing.entries, rows);
    Ok(playing)
}

/// What a tone sounds like.
pub(crate) struct Playing {
    pub entries: Vec<Entry>,
    return_to: Option<usize>,
}

/// What a tone carries on from one instruction to the next.
struct State {
    scale: u32,
    style: u32,
    tempo: u32,
    volume: u32,
    /// What the durations since the last restart left over, in beats-ths of a
    /// microsecond. It is below the beats of the tempo.
    fraction: u32,
}

impl Playing {
    pub fn of(tone: &Tone) -> Playing {
        let mut playing = Playing {
            entries: Vec::new(),
            return_to: None,
        };
        let mut state = State {
            scale: 1,
            style: 0,
            tempo: 8,
            volume: 7,
            fraction: 0,
        };
        for (header, pattern) in tone.patterns.iter().enumerate() {
            let body = body_of(pattern, &tone.patterns[..header]);
            if pattern.repeats == ENDLESS {
                playing.sound_endlessly(header, body, &mut state);
                break;
            }
            for _ in 0..=pattern.repeats {
                playing.sound(header, body, &mut state);
            }
        }
        playing
    }

    /// Adds two passes and marks where the second one begins. The first one starts
    /// with whatever was set ahead of it. Each pass leaves the same settings, and
    /// each starts without a fraction, so all later ones are like the second.
    fn sound_endlessly(&mut self, header: usize, body: &[Instruction], state: &mut State) {
        state.fraction = 0;
        self.sound(header, body, state);
        let second = self.entries.len();
        state.fraction = 0;
        self.sound(header, body, state);
        if self.entries.len() > second {
            self.return_to = Some(second);
        }
    }

    /// Adds one pass of a body. The header is the one that sounds, so for a recall
    /// the recall and not the definition.
    fn sound(&mut self, header: usize, body: &[Instruction], state: &mut State) {
        for (position, &instruction) in body.iter().enumerate() {
            match instruction {
                Instruction::Note {
                    note,
                    duration,
                    specifier,
                } => {
                    let units = units(duration, specifier);
                    self.add(header, position, note, units, state);
                }
                Instruction::Scale(code) => state.scale = code,
                Instruction::Style(code) => state.style = code,
                Instruction::Tempo(code) => {
                    state.tempo = code;
                    // Also where this tempo was set already.
                    state.fraction = 0;
                }
                Instruction::Volume(code) => state.volume = code,
            }
        }
    }

    /// Adds the entry of a note or a pause.
    fn add(&mut self, header: usize, position: usize, note: u32, units: u32, state: &mut State) {
        let beats = BEATS[state.tempo as usize];
        let (microseconds, fraction) = lasting(state.fraction, units, beats);
        state.fraction = fraction;
        self.entries.push(Entry {
            note,
            scale: state.scale,
            style: state.style,
            volume: state.volume,
            microseconds,
            header: header as u32,
            position: position as u32,
        });
    }

    /// The list in the form of three numbers.
    pub fn cells(&self) -> Vec<u32> {
        let mut cells = Vec::new();
        for entry in &self.entries {
            cells.push(entry.note * 1024 + entry.scale * 256 + entry.style * 16 + entry.volume);
            cells.push(entry.microseconds);
            cells.push(entry.header * 256 + entry.position);
        }
        cells
    }

    pub fn mark(&self) -> u32 {
        self.return_to.map_or(NO_MARK, |position| position as u32)
    }
}

/// A pattern's own body, or for a recall that of the nearest earlier definition.
fn body_of<'a>(pattern: &'a Pattern, earlier: &'a [Pattern]) -> &'a [Instruction] {
    if !pattern.is_recall() {
        return &pattern.body;
    }
    let definition = earlier
        .iter()
        .rfind(|other| other.part == pattern.part && !other.is_recall());
    // A tone has no recall without a definition.
    definition.map_or(&[], |other| &other.body)
}

/// A duration in microseconds, and the new fraction. It takes the fraction left
/// over, so that all durations since the last restart come to their exact sum,
/// rounded down once. At most 672 units, so the sum fits 32 bits.
fn lasting(fraction: u32, units: u32, beats: u32) -> (u32, u32) {
    let whole = fraction + units * 625_000;
    (whole / beats, whole % beats)
}

/// A full note is 384 units, and each duration code halves it.
fn units(duration: u32, specifier: u32) -> u32 {
    let plain = 384 / 2u32.pow(duration);
    match specifier {
        1 => plain * 3 / 2,
        2 => plain * 7 / 4,
        3 => plain * 2 / 3,
        _ => plain,
    }
}
