//! The inputs out of which it takes longest to get messages, for there is none.
//!
//! At each octet a reading may begin and go on for 4,096 octets. Here about one octet in
//! seven begins one, and each of these readings is sound as far as it may go, or nearly
//! so. Then it is found to be too long, and the next octet is tried.
//!
//! How it is built. All readings go through the same octets. One that begins has its own
//! front, pattern count and header, and the others pass these as instructions: 02 4A 3A
//! from its bit 5, 6 or 9 on, and all of them leave it at its bit 22; 03 4A 44 3A from its
//! bit 4, 9 or 11 on, and they leave it at bit 30 or 34. So soon after it began a reading
//! comes to the same bit as those before it, where an instruction is due. From there on it
//! is as one with them, if both have as many instructions left up to the next header. The
//! number in its own header is just so large. The next header is one for all of them, and
//! each pattern count is large enough for 4,096 octets.
//!
//! How dense it can be. By all that a reading can meet, the next front is at least so many
//! octets behind its own: seven, where both are 02 4A 3A and the song is temporary; eight,
//! where it is basic; four, where it is basic and the next is 03 4A 44 3A; five, where its
//! own is that and it has a title, for 16-bit characters pass over other fronts. (8-bit
//! ones do not: one would be 146.) That is for one reading and the next; those before them
//! must pass both too. A search that went from front to front, and kept the states of all
//! readings with the most fronts and elements so far, up to a state that it had met, found
//! the periods below: up to five fronts in 36 octets. It did not try everything, so there
//! may be denser ones.

/// What repeats itself. The readings of one go on from its end to its start.
pub const PERIODS: [&str; 8] = [
    "024A3A48E1C7E426416E024A3ABC81034A443A6E3A3E024A3AB900A18A2358034A443A4D",
    "034A443A43E446436A024A3ABC85034A443A6C1C024A3AB907A1CB38034A443A524A0A38",
    "024A3A9100A5902454B929034A443A6BCEDD6D034A443A5A98034A443A4D024A3AA1C4A190341346 \
     024A3A4D07034A443A7A8BCA30034A443A6B3A024A3AA9C2258A25034A443A4E024A3A4A89CBD874 \
     3CC9034A443A6A3AF1034A443AB584A18951034A443A4A024A3A426875A7377ACD034A443A950459 \
     11AE65034A443A6B5A6471034A443A5A91034A443A4E024A3A914635504550871C49034A443A66BD \
     034A443A5A706E38034A443A4A024A3A41A45517769449034A443A6EF9034A443A629D034A443A54 \
     E9034A443A49024A3A42843AD0C978034A443A66888E85034A443A56A8034A443A484AED034A443A \
     9504490B20034A443A69DD3959034A443A5A98034A443A4E",
    "034A443A5A726921034A443A49024A3A42FC5A532E56E704D9034A443A5AD8034A443A4E5E024A3A \
     46B5145020D9034A443A49024A3A41D026068B8C034A443A7EA1034A443A726AFD39034A443A622A \
     94A1034A443A522EF9034A443A7169544ADC89034A443A5CE9034A443A9300CBAE51024A3A417048 \
     A688034A443AACC32925E11499034A443A6BCF1C7D",
    "034A443A4E024A3A95072588425142024A3A41D066417E024A3AACC1034A443A64951CE719024A3A \
     B586212871034A443AA141B84582E9D8034A443A6F269C49034A443A5E36024A3AB143352C49034A \
     443A41A4573ED9034A443A685E2B034A443A954131CA39034A443A49024A3A412447031F7DCC3103 \
     4A443A6F1A49034A443A91C4ADC838034A443A4CD289024A3A41502CBD3956024A3ABC450AB1E851 \
     024A3A91C7296EACD9034A443A69DC8027034A443A58B8",
    "024A3A41C84AD1758E26034A443A6D392B4D034A443A5D4A024A3AB94629AA39034A443A9D044889 \
     2698034A443A4A024A3A41B0646CC6CA919D034A443AAAC4252820034A443A5B51CB59034A443A4A \
     024A3A41D06624D69A024A3AA901A12935034A443A5541034A443A4A024A3AA504533124A932C839 \
     034A443A6CDA31034A443A9B45D08D2B034A443A4E2691024A3A41B006EA8B16200E",
    "024A3A412842557A024A3A413026452F72024A3AAC85034A443A61A31CE8034A443A52C868034A44 \
     3A930240460332034A443A6E402145CCE8034A443A5888034A443A4E5E6E",
    // Few instructions to a pattern, so that a reading has many headers.
    "024A3ABB84622562716E3729034A443A6D2E91024A3ABB82E1EEB53312E9034A443A4A",
];

/// As many octets as count.
pub const OCTETS: usize = 65_535;

/// One of these inputs. Each number has another one, as long as there are any.
pub fn of_number(number: usize) -> Vec<u8> {
    first_octets(number, OCTETS)
}

/// So many octets of one.
pub fn first_octets(number: usize, count: usize) -> Vec<u8> {
    let mut period = octets(PERIODS[number % PERIODS.len()]);
    // Another octet is the first one.
    let turn = number / PERIODS.len() * 7 % period.len();
    period.rotate_left(turn);
    period.into_iter().cycle().take(count).collect()
}

fn octets(digits: &str) -> Vec<u8> {
    let digits: Vec<u32> = digits.chars().filter_map(|c| c.to_digit(16)).collect();
    let octet = |pair: &[u32]| (pair[0] * 16 + pair[1]) as u8;
    digits.chunks(2).map(octet).collect()
}
