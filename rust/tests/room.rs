//! Each `LARGEST_` constant is reached: there is a case that needs so much
//! room, and it is refused 11 with one cell less. Put to each codec.

mod support;

use ohakelm::{entry, Entry};
use ohakelm::{
    LARGEST_BITMAP, LARGEST_ICON, LARGEST_LIST, LARGEST_LOGO, LARGEST_PACK, LARGEST_REPORT,
    LARGEST_ROWS, LARGEST_TABLE, LARGEST_TITLE, LARGEST_TONE,
};
use ohakelm_answers::{Edited, Listed, Salvage, Tone, Written, ENTRY_CELLS, NO_MARK};
use support::codecs::{each, Edit, LogoParts, Spot};
use support::largest::{
    behind, fullest, longest, origin_in_longest, parts, temporary, IMAGE, NOTE_C,
};
use support::origins::apart;
use support::packs::{of_octets, Made};
use support::salvages::smallest;
use support::tones::written;

/// What lies in a lent cell before a call, and in a lent octet.
const OLD: u32 = 7;
const OLD_OCTET: u8 = 7;

// ---- A table and a tone.

#[test]
fn the_largest_table_is_read() {
    let (made, message) = (fullest(), temporary(&fullest()));
    assert_eq!((made.len(), message.len()), (26 + 6456, 4096));
    assert_eq!(made.len(), LARGEST_TABLE);
    each(|codec| {
        let mut table = vec![OLD; LARGEST_TABLE];
        let answer = codec.read(&message, &mut table[1..], &mut []);
        let refused = Tone {
            refusal: 11,
            ..Tone::default()
        };
        assert_eq!(answer, refused);
        assert!(table.iter().all(|&cell| cell == OLD));
        let answer = codec.read(&message, &mut table, &mut []);
        let read = Tone {
            song: 2,
            patterns: 26,
            entries: 6482,
            ..Tone::default()
        };
        assert_eq!(answer, read);
        assert_eq!(table, made);
    });
}

#[test]
fn the_largest_tone_is_written() {
    let message = temporary(&fullest());
    assert_eq!(message.len(), LARGEST_TONE);
    each(|codec| {
        let write = |table: &[u32], out: &mut [u8]| codec.write(2, false, &[], table, out);
        let table = fullest();
        assert_written(LARGEST_TONE, &message, |out| write(&table, out));
        // One scale more would be 32,761 bits.
        let answer = write(&parts(82), &mut [OLD_OCTET; 2 * LARGEST_TONE]);
        assert_eq!((answer.refusal, answer.octets), (1, 0));
    });
}

/// One scale fewer is 32,751 bits and so one octet fewer. It is put in again.
#[test]
fn the_largest_tone_is_made_by_an_edit() {
    let (old, new) = (temporary(&parts(80)), temporary(&fullest()));
    assert_eq!(old.len(), LARGEST_TONE - 1);
    each(|codec| {
        let insert = |buffer: &mut [u8]| {
            let spot = Spot {
                used: LARGEST_TONE - 1,
                pattern: 25,
                instruction: 80,
            };
            codec.edit(buffer, spot, Edit::Insert(entry::scale(3)), &mut [])
        };
        let mut buffer = old.clone();
        assert_eq!(insert(&mut buffer), refused_edit());
        assert_eq!(buffer, old);
        buffer.push(OLD_OCTET);
        let answer = insert(&mut buffer);
        assert_eq!((answer.refusal, answer.length), (0, LARGEST_TONE));
        assert_eq!((answer.change, &buffer), (1, &new));
    });
}

// ---- A title.

#[test]
fn the_largest_title_is_read() {
    let title: Vec<u8> = (101..131).collect();
    let message = written(1, true, &title, &[1, NOTE_C]);
    each(|codec| {
        let (mut table, mut lent) = ([0; 2], [OLD_OCTET; LARGEST_TITLE]);
        let answer = codec.read(&message, &mut table, &mut lent[1..]);
        assert_eq!((answer.refusal, answer.characters), (11, 0));
        assert_eq!((table, lent), ([0; 2], [OLD_OCTET; LARGEST_TITLE]));
        let answer = codec.read(&message, &mut table, &mut lent);
        assert_eq!((answer.refusal, answer.characters), (0, 15));
        assert_eq!(lent, title[..]);
    });
}

// ---- Lists.

const LISTED: Listed = Listed {
    refusal: 0,
    place: 0,
    entries: 975_375,
    mark: NO_MARK,
};

fn refused_list() -> Listed {
    Listed {
        refusal: 11,
        ..Listed::default()
    }
}

fn refused_edit() -> Edited {
    Edited {
        refusal: 11,
        ..Edited::default()
    }
}

/// How long a quarter at 63 beats is with so many ahead of it. It is 96 * 625,000 /
/// 63 or 952,380 20/21 microseconds, so 21 of them are 20 seconds. One of the 21 is
/// rounded down, the first.
fn quarter(ahead: usize) -> u32 {
    match ahead % 21 {
        0 => 952_380,
        _ => 952_381,
    }
}

/// Whether each entry is the note C with the settings at the start.
fn is_full(list: &[u32]) -> bool {
    let mut entries = list.chunks(ENTRY_CELLS).enumerate();
    entries.all(|(position, numbers)| {
        let origin = origin_in_longest(position);
        numbers == [1024 + 256 + 7, quarter(position), origin]
    })
}

/// The same entry as a record.
fn row(position: usize) -> Entry {
    let (header, in_body) = apart(origin_in_longest(position));
    Entry {
        note: 1,
        scale: 1,
        style: 0,
        volume: 7,
        microseconds: quarter(position),
        header: header as u32,
        position: in_body as u32,
    }
}

fn is_old(list: &[u32]) -> bool {
    list.iter().all(|&cell| cell == OLD)
}

#[test]
fn the_largest_list_is_made() {
    assert_eq!(LARGEST_LIST, 2_926_125);
    let message = longest();
    each(|codec| {
        let mut list = vec![OLD; LARGEST_LIST];
        assert_eq!(codec.list(&message, &mut list[1..]), refused_list());
        assert!(is_old(&list));
        assert_eq!(codec.list(&message, &mut list), LISTED);
        assert!(is_full(&list));
    });
}

#[test]
fn the_largest_rows_are_made() {
    assert_eq!(LARGEST_ROWS, 975_375);
    let message = longest();
    each(|codec| {
        let old = Entry::default();
        let mut list = vec![OLD; LARGEST_LIST];
        let mut rows = vec![old; LARGEST_ROWS];
        let answer = codec.rows(&message, &mut list, &mut rows[1..]);
        assert_eq!(answer, refused_list());
        let answer = codec.rows(&message, &mut list[1..], &mut rows);
        assert_eq!(answer, refused_list());
        assert!(is_old(&list) && rows.iter().all(|row| *row == old));
        assert_eq!(codec.rows(&message, &mut list, &mut rows), LISTED);
        let expected = (0..LARGEST_ROWS).map(row);
        assert!(is_full(&list) && rows.iter().copied().eq(expected));
    });
}

/// A pause becomes the note C, so that the list is the longest one.
#[test]
fn the_largest_list_is_made_by_an_edit() {
    let new = longest();
    each(|codec| {
        let mut buffer = new.clone();
        let spot = Spot {
            used: new.len(),
            pattern: 0,
            instruction: 254,
        };
        let mut list = vec![OLD; LARGEST_LIST];
        let pause = Edit::Replace(entry::note(0, 2, 0));
        assert_eq!(codec.edit(&mut buffer, spot, pause, &mut list).refusal, 0);
        let (old, note) = (buffer.clone(), Edit::Replace(NOTE_C));
        list.fill(OLD);
        let answer = codec.edit(&mut buffer, spot, note, &mut list[1..]);
        assert_eq!((answer, &buffer), (refused_edit(), &old));
        assert!(is_old(&list));
        let answer = codec.edit(&mut buffer, spot, note, &mut list);
        assert_eq!((answer.refusal, answer.entries), (0, LARGEST_ROWS));
        assert!(is_full(&list) && buffer == new);
    });
}

// ---- Bitmaps, icons, logos and packs.

/// Writes to just the room that is needed, and to one octet less.
fn assert_written(room: usize, expected: &[u8], write: impl Fn(&mut [u8]) -> Written) {
    let mut out = vec![OLD_OCTET; room];
    let refused = Written {
        refusal: 11,
        ..Written::default()
    };
    assert_eq!(write(&mut out[1..]), refused);
    assert!(out.iter().all(|&octet| octet == OLD_OCTET));
    let answer = write(&mut out);
    assert_eq!((answer.refusal, answer.octets), (0, room));
    assert_eq!(out, expected);
}

#[test]
fn the_largest_bitmap_is_written() {
    assert_eq!(LARGEST_BITMAP, 4 + 31 * 255);
    each(|codec| {
        assert_written(LARGEST_BITMAP, &behind(b""), |out| {
            codec.bitmap_write(248, 255, &IMAGE, out)
        });
    });
}

#[test]
fn the_largest_icon_is_written() {
    assert_eq!(LARGEST_ICON, 1 + LARGEST_BITMAP);
    each(|codec| {
        assert_written(LARGEST_ICON, &behind(b"0"), |out| {
            codec.icon_write(248, 255, &IMAGE, out)
        });
    });
}

#[test]
fn the_largest_logo_is_written() {
    assert_eq!(LARGEST_LOGO, 23 + LARGEST_BITMAP);
    let parts = LogoParts {
        mcc: b"244",
        mnc: b"05",
        date: b"19991231T235958Z",
        width: 248,
        height: 255,
        image: &IMAGE,
    };
    let expected = behind(b"02440519991231T235958Z\n");
    each(|codec| {
        assert_written(LARGEST_LOGO, &expected, |out| codec.logo_write(parts, out));
    });
}

/// 15 messages of 4,096 octets, one of 4,027, their rows and four octets.
#[test]
fn the_largest_pack_is_written() {
    assert_eq!(LARGEST_PACK, 15 * 4096 + 4027 + 16 * 4 + 4);
    let made = Made::of(&of_octets(LARGEST_PACK));
    let lengths = [[4096; 15].to_vec(), vec![4027]].concat();
    each(|codec| {
        assert_written(LARGEST_PACK, &made.pack(), |out| {
            codec.pack_write(&made.octets, &lengths, out)
        });
    });
}

/// 15 messages of 4,096 octets and one of 4,027, with no rows behind them.
#[test]
fn the_largest_pack_is_salvaged() {
    let made = Made::of(&of_octets(LARGEST_PACK));
    each(|codec| {
        let mut report = [OLD; 3 * 16 + 1];
        let mut out = vec![OLD_OCTET; LARGEST_PACK];
        let answer = codec.pack_salvage(&made.octets, &mut out[1..], &mut report);
        assert_eq!(answer, refused_salvage());
        assert!(out.iter().all(|&octet| octet == OLD_OCTET) && is_old(&report));
        let answer = codec.pack_salvage(&made.octets, &mut out, &mut report);
        assert_eq!((answer.refusal, answer.messages), (0, 16));
        assert!(out == made.pack());
    });
}

/// Messages of eight octets, as many as fit in a pack with their rows.
#[test]
fn the_largest_report_is_made() {
    let most = (LARGEST_PACK - 4) / (8 + 4);
    assert_eq!(LARGEST_REPORT, 3 * most + 1);
    let input = smallest().repeat(most);
    let moved = (0..most as u32).flat_map(|n| [8 * n, 8 * n, 8]);
    let expected: Vec<u32> = moved.chain([0]).collect();
    each(|codec| {
        let mut report = vec![OLD; LARGEST_REPORT];
        let mut out = vec![OLD_OCTET; LARGEST_PACK];
        let answer = codec.pack_salvage(&input, &mut out, &mut report[1..]);
        assert_eq!(answer, refused_salvage());
        assert!(out.iter().all(|&octet| octet == OLD_OCTET) && is_old(&report));
        let answer = codec.pack_salvage(&input, &mut out, &mut report);
        assert_eq!((answer.refusal, answer.messages), (0, most));
        assert!(report == expected);
    });
}

fn refused_salvage() -> Salvage {
    Salvage {
        refusal: 11,
        ..Salvage::default()
    }
}
