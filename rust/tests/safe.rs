//! The safe functions of the package, as a caller uses them.

use ohakelm::{Edit, Edited, Entry, Kind, Playing, Refusal, Salvage, Tone, ENTRY_CELLS};

const P1: [u8; 10] = [0x02, 0x4A, 0x3A, 0x80, 0x40, 0x00, 0x51, 0xC6, 0x90, 0x00];

#[test]
fn a_tone_is_read_and_written() {
    let (mut table, mut title) = ([0; 3], [0; 0]);
    let tone = ohakelm::read(&P1, &mut table, &mut title);
    let expected = Tone {
        song: 2,
        unicode: false,
        characters: 0,
        patterns: 1,
        entries: 3,
    };
    assert_eq!(tone, Ok(expected));
    let mut out = [0; 10];
    assert_eq!(ohakelm::write(2, false, &title, &table, &mut out), Ok(10));
    assert_eq!(out, P1);
}

#[test]
fn a_refusal_has_a_number_and_a_place() {
    let refused = ohakelm::read(&P1[..9], &mut [0; 3], &mut []);
    let refusal = Refusal {
        number: 2,
        place: 72,
    };
    assert_eq!(refused, Err(refusal));
    assert_eq!(refusal.kind(), Kind::CutShort);
    assert_eq!(
        refusal.to_string(),
        "refused 2 at 72: the input stops inside or before a due element"
    );
    let refused = ohakelm::write(2, false, b"title", &[], &mut []);
    let refusal = Refusal {
        number: 17,
        place: 0,
    };
    assert_eq!(refused, Err(refusal));
}

/// A basic song whose title is A and a tab, with one quarter note. The A is at
/// 30 and the tab at 38.
#[test]
fn a_title_with_a_tab_is_refused() {
    let mut message = [
        0x02, 0x4A, 0x3A, 0x49, 0x04, 0x24, 0x04, 0x00, 0x02, 0x45, 0x00, 0x00,
    ];
    let refusal = Refusal {
        number: 21,
        place: 38,
    };
    assert_eq!(refusal.kind(), Kind::Character);
    assert_eq!(
        refusal.to_string(),
        "refused 21 at 38: a title character 0 to 31 or 127 to 159"
    );
    let (mut list, mut rows) = ([0; ENTRY_CELLS], [Entry::default(); 1]);
    let read = ohakelm::read(&message, &mut [0; 2], &mut [0; 2]);
    assert_eq!(read, Err(refusal));
    assert_eq!(ohakelm::list(&message, &mut list), Err(refusal));
    assert_eq!(ohakelm::rows(&message, &mut list, &mut rows), Err(refusal));
    for edit in [Edit::Replace(65864), Edit::Insert(65864), Edit::Delete] {
        let edited = ohakelm::edit(&mut message, 12, 0, 0, edit, &mut list);
        assert_eq!(edited, Err(refusal));
    }
    let written = ohakelm::write(1, false, b"A\t", &[1, 65864], &mut [0; 12]);
    assert_eq!(number(written), 21);
    assert_eq!(ohakelm::label(b"A\t", false, b"Tone"), b"A\t");
}

#[test]
fn both_forms_of_the_list() {
    let one = Playing {
        entries: 1,
        mark: None,
    };
    let (mut list, mut rows) = ([0; ENTRY_CELLS], [Entry::default(); 1]);
    assert_eq!(ohakelm::list(&P1, &mut list), Ok(one));
    assert_eq!(ohakelm::rows(&P1, &mut list, &mut rows), Ok(one));
    assert_eq!(list, [10503, 480_000, 1]);
    assert_eq!((rows[0].note, rows[0].microseconds), (10, 480_000));
    assert_eq!((rows[0].header, rows[0].position), (0, 1));
    // The same part for ever has two passes and returns to the second.
    let mut endless = P1;
    endless[4] |= 1;
    endless[5] |= 0xE0;
    let two = Playing {
        entries: 2,
        mark: Some(1),
    };
    assert_eq!(number(ohakelm::list(&endless, &mut list)), 11);
    let mut list = [0; 2 * ENTRY_CELLS];
    assert_eq!(ohakelm::list(&endless, &mut list), Ok(two));
    assert_eq!(number(ohakelm::rows(&endless, &mut list, &mut rows)), 11);
    let mut rows = [Entry::default(); 2];
    assert_eq!(ohakelm::rows(&endless, &mut list, &mut rows), Ok(two));
    assert_eq!(list, [10503, 480_000, 1, 10503, 480_000, 1]);
    assert_eq!(rows[0], rows[1]);
}

/// A temporary song whose only part sounds for ever: the note C, a quarter, and
/// then volume 2. The first round has volume 7, that of the start.
#[test]
fn a_chime_changes_after_its_first_round() {
    let mut buffer = [0; 10];
    buffer.copy_from_slice(&[0x02, 0x4A, 0x3A, 0x80, 0x41, 0xE0, 0x44, 0x51, 0x48, 0x00]);
    let mut list = [0; 2 * ENTRY_CELLS];
    let playing = ohakelm::list(&buffer, &mut list);
    let two = Playing {
        entries: 2,
        mark: Some(1),
    };
    assert_eq!(playing, Ok(two));
    assert_eq!(list, [1287, 952_380, 0, 1282, 952_380, 0]);
    // Without the volume both rounds are alike.
    let done = ohakelm::edit(&mut buffer, 10, 0, 1, Edit::Delete, &mut list);
    let expected = Edited {
        length: 9,
        entries: 2,
        mark: Some(1),
        change: -1,
    };
    assert_eq!(done, Ok(expected));
    assert_eq!(list, [1287, 952_380, 0, 1287, 952_380, 0]);
    // With a scale for the note nothing is heard.
    let done = ohakelm::edit(&mut buffer, 9, 0, 0, Edit::Replace(131_072), &mut list);
    assert_eq!(done.map(|done| (done.entries, done.mark)), Ok((0, None)));
}

#[test]
fn edits_change_the_buffer_and_the_list() {
    let mut buffer = [0; 12];
    buffer[..10].copy_from_slice(&P1);
    let mut list = [0; 2 * ENTRY_CELLS];
    let done = ohakelm::edit(&mut buffer, 10, 0, 1, Edit::Insert(131_072), &mut list);
    let expected = Edited {
        length: 11,
        entries: 1,
        mark: None,
        change: 1,
    };
    assert_eq!(done, Ok(expected));
    assert_eq!(buffer[6..], [0x71, 0xC8, 0x34, 0x80, 0, 0]);
    assert_eq!(list, [10247, 480_000, 2, 0, 0, 0]);
    let done = ohakelm::edit(&mut buffer, 11, 0, 1, Edit::Replace(65864), &mut list);
    assert_eq!(done.map(|done| (done.entries, done.change)), Ok((2, 1)));
    let done = ohakelm::edit(&mut buffer, 12, 0, 2, Edit::Delete, &mut list);
    assert_eq!(done.map(|done| (done.length, done.change)), Ok((10, -2)));
    assert_eq!(buffer[..10], P1);
    assert_eq!(buffer[10..], [0, 0]);
}

#[test]
fn the_label_is_a_stretch_of_the_buffer_that_supplied_it() {
    let (title, stand_in) = (*b"Tune  ", *b"Tune");
    let label = ohakelm::label(&title, false, &stand_in);
    assert_eq!((label, label.as_ptr()), (&b"Tune"[..], title.as_ptr()));
    let label = ohakelm::label(b"  ", false, &stand_in);
    assert_eq!((label, label.as_ptr()), (&b"Tune"[..], stand_in.as_ptr()));
    assert!(ohakelm::label_stretch(b"  ", false, &stand_in).stand_in);
}

#[test]
fn the_image_is_a_stretch_of_the_message() {
    let message = [0, 8, 2, 1, 0xFF, 0x01];
    let Ok(bitmap) = ohakelm::read_bitmap(&message) else {
        panic!("a good bitmap was refused");
    };
    assert_eq!((bitmap.width, bitmap.height, bitmap.black), (8, 2, 9));
    assert_eq!(bitmap.image.as_ptr(), message[4..].as_ptr());
    assert_eq!(bitmap.image, [0xFF, 0x01]);
    let mut out = [0; 6];
    let written = ohakelm::write_bitmap(8, 2, bitmap.image, &mut out);
    assert_eq!((written, out), (Ok(6), message));
    let refused = ohakelm::read_bitmap(&message[..5]);
    assert_eq!(refused.map_err(|refusal| refusal.number), Err(16));
}

#[test]
fn the_image_of_an_icon_is_a_stretch_of_the_message() {
    let message = [b'0', 0, 8, 2, 1, 0xFF, 0x01];
    let Ok(bitmap) = ohakelm::read_icon(&message) else {
        panic!("a good icon was refused");
    };
    assert_eq!((bitmap.width, bitmap.height, bitmap.black), (8, 2, 9));
    assert_eq!(bitmap.image.as_ptr(), message[5..].as_ptr());
    assert_eq!(bitmap.image, [0xFF, 0x01]);
    let mut out = [0; 7];
    let written = ohakelm::write_icon(8, 2, bitmap.image, &mut out);
    assert_eq!((written, out), (Ok(7), message));
    assert_eq!(number(ohakelm::read_icon(&message[1..])), 20);
    assert_eq!(
        number(ohakelm::write_icon(8, 2, &[0; 2], &mut out[1..])),
        11
    );
}

#[test]
fn the_parts_of_a_logo_are_stretches_of_the_message() {
    for (message, date) in [
        (&b"02440519991231\n\0\x08\x02\x01\xFF\x01"[..], 8),
        (b"02440519991231T235958\n\0\x08\x02\x01\xFF\x01", 15),
        (b"02440519991231T235958Z\n\0\x08\x02\x01\xFF\x01", 16),
    ] {
        let Ok(logo) = ohakelm::read_logo(message) else {
            panic!("a good logo was refused");
        };
        assert!(is_part(logo.mcc, message, 1, 3));
        assert!(is_part(logo.mnc, message, 4, 2));
        assert!(is_part(logo.date, message, 6, date));
        // A line feed and four octets of header are between date and image.
        let bitmap = logo.bitmap;
        assert!(is_part(bitmap.image, message, 6 + date + 5, 2));
        assert_eq!((bitmap.width, bitmap.height, bitmap.black), (8, 2, 9));
        let mut out = vec![0; message.len()];
        let written = ohakelm::write_logo(
            logo.mcc,
            logo.mnc,
            logo.date,
            bitmap.width,
            bitmap.height,
            bitmap.image,
            &mut out,
        );
        assert_eq!((written, &out[..]), (Ok(message.len()), message));
        assert_eq!(number(ohakelm::read_logo(&message[..18])), 2);
        assert_eq!(number(ohakelm::read_logo(&out[1..])), 20);
    }
    let refused = ohakelm::write_logo(b"244", b"5", b"19991231", 8, 1, &[0], &mut [0; 20]);
    assert_eq!(number(refused), 20);
}

#[test]
fn the_messages_of_a_pack_are_stretches_of_it() {
    let p3 = [0x02, 0x4A, 0x3A, 0x80, 0x40, 0x00, 0x26, 0x90, 0x00];
    let messages = [&P1[..], &p3].concat();
    let mut pack = [7; 32];
    let written = ohakelm::write_pack(&messages, &[10, 9], &mut pack);
    assert_eq!((written, pack[31]), (Ok(31), 7));
    let pack = &mut pack[..31];
    assert_eq!(pack[19..], [0, 0, 0, 10, 0, 10, 0, 9, 0, 2, 0, 19]);
    assert_eq!(ohakelm::read_pack(pack), Ok(2));
    for (n, start, length) in [(0, 0, 10), (1, 10, 9)] {
        let Ok(message) = ohakelm::pack_message(pack, n) else {
            panic!("message {n} is there");
        };
        assert!(is_part(message, pack, start, length));
        assert!(ohakelm::list(message, &mut [0; ENTRY_CELLS]).is_ok());
    }
    assert_eq!(number(ohakelm::pack_message(pack, 2)), 12);
    assert_eq!(number(ohakelm::pack_message(pack, u32::MAX)), 12);
    assert_eq!(number(ohakelm::read_pack(&pack[1..])), 26);
    assert_eq!(
        number(ohakelm::write_pack(&messages, &[10, 9], &mut pack[1..])),
        11
    );
    assert_eq!(number(ohakelm::write_pack(&messages, &[9, 9], pack)), 27);
    assert_eq!(ohakelm::read_pack(&[0; 4]), Ok(0));
}

/// The place of a message at fault is counted from the pack's first bit.
#[test]
fn a_refusal_in_a_pack_has_its_place_there() {
    let cut = [&P1[..], &P1[..9]].concat();
    let refusal = Refusal {
        number: 2,
        place: 80 + 72,
    };
    let written = ohakelm::write_pack(&cut, &[10, 9], &mut [0; 31]);
    assert_eq!(written, Err(refusal));
    let pack = [&cut[..], &[0, 0, 0, 10, 0, 10, 0, 9, 0, 2, 0, 19]].concat();
    assert_eq!(ohakelm::read_pack(&pack), Err(refusal));
    assert_eq!(ohakelm::pack_message(&pack, 0), Err(refusal));
    let refused = ohakelm::read_pack(&[0xFF, 0, 0, 0, 1]);
    let refusal = Refusal {
        number: 27,
        place: 0,
    };
    assert_eq!(refused, Err(refusal));
    assert_eq!(refusal.kind(), Kind::PackRows);
}

/// The report leads to the same octets in the broken pack and in the new one.
#[test]
fn messages_are_gotten_out_of_a_broken_pack() {
    // P1 behind two octets of another, and what is left of the rows.
    let broken = [&P1[..2], &P1, &[0, 0, 0, 10, 0]].concat();
    let (mut out, mut report) = ([7; 20], [7; 5]);
    let salvage = ohakelm::salvage_pack(&broken, &mut out, &mut report);
    let expected = Salvage {
        messages: 1,
        octets: 18,
        skipped: 7,
    };
    assert_eq!(salvage, Ok(expected));
    assert_eq!(report, [2, 0, 10, 7, 7]);
    assert_eq!((&out[..10], &out[18..]), (&P1[..], &[7, 7][..]));
    assert_eq!(ohakelm::pack_message(&out[..18], 0), Ok(&broken[2..12]));
    for (octets, numbers) in [(17, 4), (18, 3)] {
        let (mut out, mut report) = ([7; 20], [7; 5]);
        let refused = ohakelm::salvage_pack(&broken, &mut out[..octets], &mut report[..numbers]);
        let refusal = Refusal {
            number: 11,
            place: 0,
        };
        assert_eq!(refused, Err(refusal));
        assert_eq!((out, report), ([7; 20], [7; 5]));
    }
}

/// Whether a part is just this stretch of the message, and no copy of it.
fn is_part(part: &[u8], message: &[u8], start: usize, length: usize) -> bool {
    std::ptr::eq(part, &message[start..start + length])
}

/// A refusal's number, 0 for acceptance.
fn number<T>(answer: Result<T, Refusal>) -> u32 {
    answer.err().map_or(0, |refusal| refusal.number)
}
