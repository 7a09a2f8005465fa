//! Random cases of every export, with many buffers of nothing among them.

use ohakelm::ENTRY_CELLS;

use super::calls::{Call, Case, Room};
use super::codecs::{Edit, Spot};
use super::inputs;
use super::lent::{lent_message, lent_octets, lent_rows, lent_words, Lent};
use super::logos;
use super::packs::{self, Parts};
use super::rng::Rng;
use super::salvages;
use super::tones;

/// One case of each export.
pub fn of_each(rng: &mut Rng) -> Vec<Case> {
    let entry = tones::instruction(rng);
    vec![
        read(rng),
        write(rng),
        label(rng),
        list(rng),
        rows(rng),
        edit(rng, Edit::Replace(entry)),
        edit(rng, Edit::Insert(entry)),
        edit(rng, Edit::Delete),
        read_alone(rng, Call::PackRead, packs::pack),
        pack_message(rng),
        pack_write(rng),
        pack_salvage(rng),
        read_alone(rng, Call::BitmapRead, inputs::bitmap),
        read_alone(rng, Call::IconRead, logos::icon),
        read_alone(rng, Call::LogoRead, logos::logo),
        bitmap_write(rng, false),
        bitmap_write(rng, true),
        logo_write(rng),
    ]
}

fn read(rng: &mut Rng) -> Case {
    let message = message(rng);
    let (table, title) = (rng.pick(&[0, 3, 40, 7000]), rng.pick(&[0, 0, 15, 30]));
    Case {
        call: Call::Read,
        inputs: vec![input(rng, &message)],
        table: vec![],
        room: Room {
            octets: vec![lent_octets(rng, title)],
            words: vec![lent_words(rng, table)],
            rows: vec![],
        },
    }
}

fn write(rng: &mut Rng) -> Case {
    let unicode = rng.one_in(3);
    let call = Call::Write {
        song: rng.pick(&[0, 1, 1, 2, 2, 2]),
        unicode,
    };
    let title = match rng.below(3) {
        0 => inputs::title_octets(rng, unicode),
        _ => vec![],
    };
    let entries = match rng.below(4) {
        0 => vec![],
        _ => inputs::table(rng),
    };
    let mut table = lent_words(rng, entries.len());
    table.lend().copy_from_slice(&entries);
    let room = rng.pick(&[0, 20, 4096]);
    Case {
        call,
        inputs: vec![input(rng, &title)],
        table: vec![table],
        room: Room {
            octets: vec![lent_octets(rng, room)],
            ..Room::default()
        },
    }
}

fn label(rng: &mut Rng) -> Case {
    let (title, stand_in) = (inputs::label_octets(rng), inputs::label_octets(rng));
    Case {
        call: Call::Label {
            unicode: rng.one_in(2),
        },
        inputs: vec![input(rng, &title), input(rng, &stand_in)],
        table: vec![],
        room: Room::default(),
    }
}

fn list(rng: &mut Rng) -> Case {
    let message = message(rng);
    let room = list_room(rng);
    Case {
        call: Call::List,
        inputs: vec![input(rng, &message)],
        table: vec![],
        room: Room {
            words: vec![lent_words(rng, room)],
            ..Room::default()
        },
    }
}

/// None, for one entry, for some with cells left over, or for many.
fn list_room(rng: &mut Rng) -> usize {
    let entries = rng.pick(&[0, 0, 1, 20, 1000]);
    let left_over = if entries == 20 { 2 } else { 0 };
    ENTRY_CELLS * entries + left_over
}

fn rows(rng: &mut Rng) -> Case {
    let records = rng.pick(&[0, 0, 1, 20, 1000]);
    let mut case = list(rng);
    case.call = Call::Rows;
    case.room.rows.push(lent_rows(rng, records));
    case
}

fn edit(rng: &mut Rng, edit: Edit) -> Case {
    let message = message(rng);
    let spot = Spot {
        used: message.len(),
        pattern: rng.pick(&[0, 0, 0, 1, 255]),
        instruction: rng.pick(&[0, 0, 1, 1, 2, usize::MAX]),
    };
    // Now and then there is nothing lent for a message that is used.
    let buffer = match rng.below(10) {
        0 => 0,
        _ => message.len() + rng.pick(&[0, 2, 3]),
    };
    let list = list_room(rng);
    Case {
        call: Call::Edit(spot, edit),
        inputs: vec![],
        table: vec![],
        room: Room {
            octets: vec![lent_message(rng, &message, buffer)],
            words: vec![lent_words(rng, list)],
            rows: vec![],
        },
    }
}

fn pack_message(rng: &mut Rng) -> Case {
    let n = rng.pick(&[0, 0, 1, 2, u32::MAX]);
    read_alone(rng, Call::PackMessage { n }, packs::pack)
}

fn pack_write(rng: &mut Rng) -> Case {
    let parts = match rng.below(4) {
        0 => Parts::default(),
        _ => packs::parts(rng),
    };
    let mut lengths = lent_words(rng, parts.lengths.len());
    lengths.lend().copy_from_slice(&parts.lengths);
    let room = rng.pick(&[0, 4, parts.octets()]);
    Case {
        call: Call::PackWrite,
        inputs: vec![input(rng, &parts.messages)],
        table: vec![lengths],
        room: Room {
            octets: vec![lent_octets(rng, room)],
            ..Room::default()
        },
    }
}

fn pack_salvage(rng: &mut Rng) -> Case {
    let (octets, numbers) = (rng.pick(&[0, 4, 2000]), rng.pick(&[0, 1, 1000]));
    let mut case = read_alone(rng, Call::PackSalvage, salvages::small);
    case.room.octets.push(lent_octets(rng, octets));
    case.room.words.push(lent_words(rng, numbers));
    case
}

/// A call that reads one input, now and then of nothing.
fn read_alone(rng: &mut Rng, call: Call, make: fn(&mut Rng) -> Vec<u8>) -> Case {
    let message = match rng.below(4) {
        0 => vec![],
        _ => make(rng),
    };
    Case {
        call,
        inputs: vec![input(rng, &message)],
        table: vec![],
        room: Room::default(),
    }
}

fn bitmap_write(rng: &mut Rng, icon: bool) -> Case {
    let (width, height, image) = inputs::bitmap_parts(rng);
    let image = some(rng, image);
    let room = rng.pick(&[0, 5 + image.len(), 8000]);
    let call = match icon {
        false => Call::BitmapWrite { width, height },
        true => Call::IconWrite { width, height },
    };
    Case {
        call,
        inputs: vec![input(rng, &image)],
        table: vec![],
        room: Room {
            octets: vec![lent_octets(rng, room)],
            ..Room::default()
        },
    }
}

fn logo_write(rng: &mut Rng) -> Case {
    let made = logos::parts(rng);
    let (width, height) = (made.width, made.height);
    let parts = [made.mcc, made.mnc, made.date, made.image];
    let parts = parts.map(|part| some(rng, part));
    let room = rng.pick(&[0, 27 + parts[3].len(), 8000]);
    Case {
        call: Call::LogoWrite { width, height },
        inputs: parts.iter().map(|part| input(rng, part)).collect(),
        table: vec![],
        room: Room {
            octets: vec![lent_octets(rng, room)],
            ..Room::default()
        },
    }
}

/// Nothing, a tone without a note, or any other message.
fn message(rng: &mut Rng) -> Vec<u8> {
    match rng.below(5) {
        0 => vec![],
        1 => silent(rng),
        _ => inputs::message(rng),
    }
}

/// A sound tone whose list is empty, now and then for ever.
fn silent(rng: &mut Rng) -> Vec<u8> {
    let count = rng.within(1, 5);
    let mut table = vec![rng.pick(&[0, 14, 15]) * 256 + count as u32];
    table.extend((0..count).map(|_| 4 * 65536 + rng.below(32) as u32));
    tones::written(2, false, &[], &table)
}

/// The octets, or now and then none.
fn some(rng: &mut Rng, octets: Vec<u8>) -> Vec<u8> {
    match rng.below(4) {
        0 => vec![],
        _ => octets,
    }
}

/// An input at an address of its own, with other octets on both sides.
fn input(rng: &mut Rng, octets: &[u8]) -> Lent<u8> {
    lent_message(rng, octets, octets.len())
}
