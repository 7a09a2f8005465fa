//! Icons and logos whose answers were worked out by hand, put to each codec.

mod support;

use ohakelm_answers::{Bitmap, Logo, Written};
use support::codecs::{each, Codec, LogoParts};
use support::octets;

// ---- Icons.

/// The version and the bitmap of P11.
const ICON: &str = "30 00 08 02 01 FF 01";

/// The refusal of an icon that is given in hexadecimal digits.
fn refused_icon(codec: &dyn Codec, message: &str) -> u32 {
    let answer = codec.icon_read(&octets(message));
    assert_ne!(answer.refusal, 0, "{answer:?}");
    let expected = Bitmap {
        refusal: answer.refusal,
        ..Bitmap::default()
    };
    assert_eq!(answer, expected, "all other numbers are 0");
    answer.refusal
}

#[test]
fn an_icon_is_a_version_and_a_bitmap() {
    each(|codec| {
        let expected = Bitmap {
            refusal: 0,
            place: 0,
            width: 8,
            height: 2,
            black: 9,
            start: 5,
            length: 2,
        };
        assert_eq!(codec.icon_read(&octets(ICON)), expected);
        let mut out = [7; 8];
        let answer = codec.icon_write(8, 2, &[0xFF, 0x01], &mut out);
        assert_eq!((answer.refusal, answer.place, answer.octets), (0, 0, 7));
        assert_eq!((&out[..7], out[7]), (&octets(ICON)[..], 7));
        // Without its version it is a plain bitmap and no icon. With it, its
        // version is no info octet.
        assert_eq!(refused_icon(codec, "00 08 02 01 FF 01"), 20);
        assert_eq!(codec.bitmap_read(&octets(ICON)[1..]).refusal, 0);
        assert_eq!(codec.bitmap_read(&octets(ICON)).refusal, 15);
    });
}

#[test]
fn icons_refuse_in_order() {
    each(|codec| {
        for (message, refusal) in [
            ("", 2),
            ("30", 2),
            ("30 00 08 02", 2),
            // Another version, and too short.
            ("31 00 08 02", 2),
            ("00 08 02 01", 2),
            // Another version, and another info octet.
            ("31 01 08 02 01", 20),
            ("2F 00 08 02 01 FF 01", 20),
            ("31 00 08 02 01 FF 01", 20),
            ("00 00 08 02 01 FF 01", 20),
            // A header outside the rules, and no image.
            ("30 01 08 02 01", 15),
            ("30 00 09 02 01", 15),
            ("30 00 08 00 01", 15),
            ("30 00 08 02 02", 15),
            ("30 30 08 02 01 FF 01", 15),
            ("30 00 08 02 01", 16),
            ("30 00 08 02 01 FF", 16),
            ("30 00 08 02 01 FF 01 00", 16),
        ] {
            assert_eq!(refused_icon(codec, message), refusal, "{message}");
        }
    });
}

#[test]
fn icons_are_written_or_refused_in_order() {
    each(|codec| {
        for (width, height, image, room, expected) in [
            (7, 2, 1, 0, (15, 0)),
            (8, 0, 1, 0, (15, 0)),
            (8, 256, 1, 0, (15, 0)),
            (8 + 256, 2, 2, 7, (15, 0)),
            (8, 2, 1, 0, (16, 0)),
            (8, 2, 3, 8, (16, 0)),
            (8, 2, 2, 0, (11, 0)),
            (8, 2, 2, 6, (11, 0)),
            (8, 2, 2, 7, (0, 7)),
        ] {
            let mut out = vec![7; room];
            let answer = codec.icon_write(width, height, &vec![1; image], &mut out);
            assert_eq!((answer.refusal, answer.octets), expected);
            assert_eq!(answer.place, 0);
            assert!(answer.refusal == 0 || out.iter().all(|&octet| octet == 7));
        }
    });
}

// ---- Logos.

/// MCC 244, MNC 05, until the last day of 1999, the bitmap of P11.
const LOGO: &str = "30 323434 3035 3139393931323331 0A 00080201 FF01";
/// The same with a time of that day.
const LOGO_TIME: &str = "30 323434 3035 3139393931323331 54 323335393538 0A 00080201 FF01";
const LOGO_TIME_Z: &str = "30 323434 3035 3139393931323331 54 323335393538 5A 0A 00080201 FF01";

/// Each with its date, and with what stands ahead of its bitmap.
const LOGOS: [(&str, &[u8], usize); 3] = [
    (LOGO, b"19991231", 15),
    (LOGO_TIME, b"19991231T235958", 22),
    (LOGO_TIME_Z, b"19991231T235958Z", 23),
];

/// The parts of `LOGO`.
const PARTS: LogoParts = LogoParts {
    mcc: b"244",
    mnc: b"05",
    date: b"19991231",
    width: 8,
    height: 2,
    image: &[0xFF, 0x01],
};

fn refused_logo(codec: &dyn Codec, message: &[u8]) -> u32 {
    let answer = codec.logo_read(message);
    assert_ne!(answer.refusal, 0, "{answer:?}");
    let expected = Logo {
        refusal: answer.refusal,
        ..Logo::default()
    };
    assert_eq!(answer, expected, "all other numbers are 0");
    answer.refusal
}

/// The refusal and the octets of a logo that is written to so much room.
fn logo_written(codec: &dyn Codec, parts: LogoParts, room: usize) -> (u32, usize) {
    let mut out = vec![7; room];
    let answer = codec.logo_write(parts, &mut out);
    assert_eq!(answer.place, 0);
    assert!(out[answer.octets..].iter().all(|&octet| octet == 7));
    (answer.refusal, answer.octets)
}

#[test]
fn logos_are_read_with_each_form_of_date() {
    each(|codec| {
        for (message, date, ahead) in LOGOS {
            let expected = Logo {
                refusal: 0,
                place: 0,
                width: 8,
                height: 2,
                black: 9,
                start: ahead + 4,
                length: 2,
                mcc_start: 1,
                mcc_length: 3,
                mnc_start: 4,
                mnc_length: 2,
                date_start: 6,
                date_length: date.len(),
            };
            assert_eq!(codec.logo_read(&octets(message)), expected);
        }
    });
}

#[test]
fn logos_are_written_with_each_form_of_date() {
    each(|codec| {
        for (message, date, ahead) in LOGOS {
            let mut out = [7; 40];
            let answer = codec.logo_write(LogoParts { date, ..PARTS }, &mut out);
            let expected = Written {
                refusal: 0,
                place: 0,
                octets: ahead + 6,
            };
            assert_eq!(answer, expected);
            assert_eq!(out[..ahead + 6], octets(message));
            assert_eq!(out[ahead + 6..], [7; 40][ahead + 6..]);
        }
    });
}

#[test]
fn a_logo_has_its_own_sign_at_each_place() {
    each(|codec| {
        for (message, _, ahead) in LOGOS {
            let message = octets(message);
            for at in 0..ahead {
                // The neighbours of the digits, and what is far from all.
                for other in [0x2F, 0x3A, 0x00, 0xB0, 0xFF] {
                    let mut spoilt = message.clone();
                    spoilt[at] = other;
                    assert_eq!(refused_logo(codec, &spoilt), 20, "{other:02X} at {at}");
                }
            }
        }
        // Each place of a digit takes all ten.
        for digit in b'0'..=b'9' {
            for at in (1..14).chain(15..21) {
                let mut other = octets(LOGO_TIME_Z);
                other[at] = digit;
                assert_eq!(codec.logo_read(&other).refusal, 0);
            }
        }
    });
}

#[test]
fn signs_that_nearly_fit() {
    each(|codec| {
        let with = |message: &str, at: usize, other: u8| {
            let mut message = octets(message);
            message[at] = other;
            refused_logo(codec, &message)
        };
        // Another version.
        assert_eq!(with(LOGO, 0, b'1'), 20);
        // A carriage return.
        assert_eq!(with(LOGO, 14, b'\r'), 20);
        assert_eq!(with(LOGO_TIME, 21, b'\r'), 20);
        assert_eq!(with(LOGO_TIME_Z, 22, b'\r'), 20);
        // Small letters, and the letters next to the right ones.
        for other in [b't', b'S', b'U'] {
            assert_eq!(with(LOGO_TIME, 14, other), 20);
        }
        for other in [b'z', b'Y', b'['] {
            assert_eq!(with(LOGO_TIME_Z, 21, other), 20);
        }
        // A line feed makes a shorter date. What was due behind it is then
        // the bitmap, and begins with no info octet.
        assert_eq!(with(LOGO_TIME, 14, b'\n'), 15);
        assert_eq!(with(LOGO_TIME_Z, 21, b'\n'), 15);
        // A T tells that a time is due. There are 21 octets, not 26.
        assert_eq!(with(LOGO, 14, b'T'), 2);
        // A Z tells that a line feed is due behind it.
        assert_eq!(with(LOGO_TIME, 21, b'Z'), 20);
        // Both ends of a line.
        let mut both = octets(LOGO);
        both.insert(14, b'\r');
        assert_eq!(refused_logo(codec, &both), 20);
    });
}

#[test]
fn a_network_code_has_two_digits() {
    each(|codec| {
        // MNC 051, so that octet 14 is the date's last digit.
        for (message, ..) in LOGOS {
            let mut message = octets(message);
            message.insert(6, b'1');
            assert_eq!(refused_logo(codec, &message), 20);
        }
        // MNC 5, so that octet 14 is the info octet.
        let mut message = octets(LOGO);
        message.remove(4);
        assert_eq!(refused_logo(codec, &message), 20);
    });
}

/// A later edition has the codes in half octets, F for a digit that is not
/// there, and no date.
#[test]
fn a_logo_of_the_later_edition_is_refused() {
    each(|codec| {
        // 11 octets. Octet 14 is not there, so 15 and four of header are due.
        let short = octets("30 42 F4 50 0A 00 08 02 01 FF 01");
        assert_eq!(refused_logo(codec, &short), 2);
        // Ten rows of image make 19 octets. Then the octet 42 is no digit.
        let mut long = octets("30 42 F4 50 0A 00 08 0A 01");
        long.extend([0xFF; 10]);
        assert_eq!(refused_logo(codec, &long[..18]), 2);
        assert_eq!(refused_logo(codec, &long), 20);
        // An image whose sixth octet is a T makes it 22 and four of header.
        long[14] = b'T';
        assert_eq!(refused_logo(codec, &long), 2);
        long.resize(26, 0xFF);
        assert_eq!(refused_logo(codec, &long), 20);
        // Padded with zeros it is no better.
        let padded = [&short[..], &[0; 20]].concat();
        assert_eq!(refused_logo(codec, &padded), 20);
    });
}

#[test]
fn a_logo_can_be_cut_anywhere() {
    each(|codec| {
        for (message, _, ahead) in LOGOS {
            let mut message = octets(message);
            for length in 0..ahead + 4 {
                assert_eq!(refused_logo(codec, &message[..length]), 2);
            }
            assert_eq!(refused_logo(codec, &message[..ahead + 4]), 16);
            assert_eq!(refused_logo(codec, &message[..ahead + 5]), 16);
            message.push(0);
            assert_eq!(refused_logo(codec, &message), 16);
        }
    });
}

#[test]
fn logos_refuse_in_order() {
    each(|codec| {
        for (message, _, ahead) in LOGOS {
            let mut message = octets(message);
            // All four faults at once, and one fewer each time.
            message[0] = b'1';
            message[ahead] = 1;
            assert_eq!(refused_logo(codec, &message[..ahead + 3]), 2);
            assert_eq!(refused_logo(codec, &message[..ahead + 4]), 20);
            message[0] = b'0';
            assert_eq!(refused_logo(codec, &message[..ahead + 4]), 15);
            message[ahead] = 0;
            assert_eq!(refused_logo(codec, &message[..ahead + 4]), 16);
            for (at, other) in [(1, 0), (1, 7), (1, 255), (2, 0), (3, 0), (3, 2)] {
                let mut message = message.clone();
                message[ahead + at] = other;
                assert_eq!(refused_logo(codec, &message), 15, "{other} at {at}");
            }
        }
    });
}

#[test]
fn writing_a_logo_refuses_in_order() {
    each(|codec| {
        let short = &PARTS.image[..1];
        for (mnc, width, image, room, expected) in [
            (&b"0A"[..], 7, short, 0, (20, 0)),
            (b"05", 7, short, 0, (15, 0)),
            (b"05", 8, short, 0, (16, 0)),
            (b"05", 8, PARTS.image, 0, (11, 0)),
            (b"05", 8, PARTS.image, 20, (11, 0)),
            (b"05", 8, PARTS.image, 21, (0, 21)),
            (b"05", 8 + 256, PARTS.image, 21, (15, 0)),
        ] {
            let parts = LogoParts {
                mnc,
                width,
                image,
                ..PARTS
            };
            assert_eq!(logo_written(codec, parts, room), expected);
        }
        for (_, date, ahead) in LOGOS {
            let parts = LogoParts { date, ..PARTS };
            assert_eq!(logo_written(codec, parts, ahead + 5), (11, 0));
        }
    });
}

#[test]
fn codes_are_three_digits_and_two() {
    each(|codec| {
        for mcc in ["", "2", "24", "2444", "24405", "24A", "/44", "2:4", "24 "] {
            let mcc = mcc.as_bytes();
            let parts = LogoParts { mcc, ..PARTS };
            assert_eq!(logo_written(codec, parts, 40), (20, 0), "{mcc:?}");
        }
        for mnc in ["", "5", "051", "0501", "A5", "0/", "0:", " 5"] {
            let mnc = mnc.as_bytes();
            let parts = LogoParts { mnc, ..PARTS };
            assert_eq!(logo_written(codec, parts, 40), (20, 0), "{mnc:?}");
        }
        // Five digits in all, but not three and two.
        let (mcc, mnc) = (&b"24"[..], &b"405"[..]);
        let parts = LogoParts { mcc, mnc, ..PARTS };
        assert_eq!(logo_written(codec, parts, 40), (20, 0));
    });
}

#[test]
fn dates_have_three_forms() {
    each(|codec| {
        let written = |date: &[u8]| logo_written(codec, LogoParts { date, ..PARTS }, 60);
        let longer = b"19991231T235958ZZ";
        for length in 0..=17 {
            let expected = match length {
                8 => (0, 21),
                15 => (0, 28),
                16 => (0, 29),
                _ => (20, 0),
            };
            assert_eq!(written(&longer[..length]), expected, "{length} octets");
        }
        for date in [
            "1999123A",
            "1999-1-1",
            "199912311235958",
            "19991231t235958",
            "19991231S235958",
            "19991231U235958",
            "19991231 235958",
            "19991231T23595Z",
            "19991231T2359580",
            "19991231T235958z",
            "19991231T235958Y",
            "19991231T235958[",
            "T9991231T235958Z",
        ] {
            assert_eq!(written(date.as_bytes()), (20, 0), "{date}");
        }
        // There is no calendar.
        assert_eq!(written(b"00000000"), (0, 21));
        assert_eq!(written(b"99999999T999999Z"), (0, 29));
    });
}

#[test]
fn the_largest_logo() {
    each(|codec| {
        let image = vec![0x81; 31 * 255];
        let parts = LogoParts {
            date: b"19991231T235958Z",
            width: 248,
            height: 255,
            image: &image,
            ..PARTS
        };
        let mut out = vec![7; 7933];
        let answer = codec.logo_write(parts, &mut out);
        assert_eq!((answer.refusal, answer.octets), (0, 7932));
        assert_eq!(out.pop(), Some(7));
        assert_eq!(out[..23], octets(LOGO_TIME_Z)[..23]);
        assert_eq!(out[23..27], [0, 248, 255, 1]);
        assert_eq!(out[27..], image);
        let answer = codec.logo_read(&out);
        assert_eq!((answer.refusal, answer.black), (0, 2 * 31 * 255));
        assert_eq!((answer.start, answer.length), (27, 7905));
        assert_eq!(logo_written(codec, parts, 7931), (11, 0));
        assert_eq!(refused_logo(codec, &out[..7931]), 16);
    });
}
