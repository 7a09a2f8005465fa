//! Calls that are put to every codec with the same inputs and the same lent
//! buffers. Answers and every lent cell must be alike.

use std::collections::BTreeMap;
use std::fmt::Debug;

use ohakelm::{LARGEST_LIST, LARGEST_TITLE};
use ohakelm_answers::{Bitmap, Edited, Entry, Label, Listed, Tone, Written, ENTRY_CELLS};

use super::codecs::{Codec, Edit, Spot};
use super::hex;
use super::inputs;
use super::largest;
use super::lent::{lent_message, lent_octets, lent_rows, lent_words, Lent};
use super::lists::cells_of;
use super::origins::{apart, Patterns};
use super::rng::Rng;
use super::tones::{self, Bounds, Made};

pub struct Comparison {
    codecs: Vec<&'static dyn Codec>,
    pub rng: Rng,
    seed: u64,
    /// How many calls were compared.
    pub cases: usize,
    /// How often each call gave each refusal, 0 for acceptance.
    pub tally: BTreeMap<(&'static str, u32), usize>,
    /// A list as long as any here, to find out how much room a call needs.
    scratch: Vec<u32>,
}

impl Comparison {
    pub fn new(codecs: &[&'static dyn Codec], seed: u64) -> Comparison {
        Comparison {
            codecs: codecs.to_vec(),
            rng: Rng::new(seed),
            seed,
            cases: 0,
            tally: BTreeMap::new(),
            scratch: vec![0; LARGEST_LIST],
        }
    }

    // ---- Each call, compared.

    pub fn read(&mut self, message: &[u8], table_room: usize, title_room: usize) -> Read {
        let table = lent_words(&mut self.rng, table_room);
        let title = lent_octets(&mut self.rng, title_room);
        let outcomes = self.each(|codec| {
            let (mut table, mut title) = (table.clone(), title.clone());
            let answer = codec.read(message, table.lend(), title.lend());
            (answer, table, title)
        });
        let inputs = || {
            let message = hex(message);
            format!("message {message}, table of {table_room}, title of {title_room}")
        };
        let (answer, filled, named) = self.alike("read", outcomes, inputs);
        if answer.refusal != 0 {
            let untouched = filled == table && named == title;
            self.expect(untouched, "read", "a refusal changes nothing", inputs);
        }
        self.count("read", answer.refusal);
        Read {
            answer,
            table: filled.cells().to_vec(),
            title: named.cells().to_vec(),
        }
    }

    pub fn write(
        &mut self,
        song: u32,
        unicode: bool,
        title: &[u8],
        table: &[u32],
        room: usize,
    ) -> (Written, Vec<u8>) {
        let out = lent_octets(&mut self.rng, room);
        let outcomes = self.each(|codec| {
            let mut out = out.clone();
            let answer = codec.write(song, unicode, title, table, out.lend());
            (answer, out)
        });
        let inputs = || {
            let title = hex(title);
            format!("song {song}, unicode {unicode}, title {title}, table {table:?}, room {room}")
        };
        let (answer, filled) = self.alike("write", outcomes, inputs);
        if answer.refusal != 0 {
            self.expect(filled == out, "write", "a refusal changes nothing", inputs);
        }
        self.count("write", answer.refusal);
        (answer, filled.cells().to_vec())
    }

    pub fn label(&mut self, title: &[u8], unicode: bool, stand_in: &[u8]) -> Label {
        let outcomes = self.each(|codec| (codec.label(title, unicode, stand_in),));
        let inputs = || {
            let (title, stand_in) = (hex(title), hex(stand_in));
            format!("title {title}, unicode {unicode}, stand-in {stand_in}")
        };
        let (answer,) = self.alike("label", outcomes, inputs);
        // A label never refuses. The tally tells the two buffers apart.
        self.count("label", answer.stand_in as u32);
        answer
    }

    pub fn list(&mut self, message: &[u8], room: usize) -> (Listed, Vec<u32>) {
        let list = lent_words(&mut self.rng, room);
        let outcomes = self.each(|codec| {
            let mut list = list.clone();
            let answer = codec.list(message, list.lend());
            (answer, list)
        });
        let inputs = || format!("message {}, list of {room}", hex(message));
        let (answer, filled) = self.alike("list", outcomes, inputs);
        self.same_by_copying(message, &list, &answer, &filled);
        if answer.refusal != 0 {
            self.expect(filled == list, "list", "a refusal changes nothing", inputs);
        }
        self.count("list", answer.refusal);
        (answer, filled.cells().to_vec())
    }

    /// The optimised list has a second form, which the benchmark shows too.
    fn same_by_copying(
        &self,
        message: &[u8],
        list: &Lent<u32>,
        answer: &Listed,
        filled: &Lent<u32>,
    ) {
        let mut copied = list.clone();
        let other = ohakelm_fast::list_by_copying(message, copied.lend());
        let alike = other == *answer && copied == *filled;
        let inputs = || format!("message {}", hex(message));
        self.expect(alike, "list_by_copying", "both forms are alike", inputs);
    }

    pub fn rows(
        &mut self,
        message: &[u8],
        list_room: usize,
        rows_room: usize,
    ) -> (Listed, Vec<u32>, Vec<Entry>) {
        let list = lent_words(&mut self.rng, list_room);
        let rows = lent_rows(&mut self.rng, rows_room);
        let outcomes = self.each(|codec| {
            let (mut list, mut rows) = (list.clone(), rows.clone());
            let answer = codec.rows(message, list.lend(), rows.lend());
            (answer, list, rows)
        });
        let inputs = || {
            let message = hex(message);
            format!("message {message}, list of {list_room}, rows of {rows_room}")
        };
        let (answer, cells, records) = self.alike("rows", outcomes, inputs);
        if answer.refusal != 0 {
            let untouched = cells == list && records == rows;
            self.expect(untouched, "rows", "a refusal changes nothing", inputs);
        }
        self.count("rows", answer.refusal);
        (answer, cells.cells().to_vec(), records.cells().to_vec())
    }

    /// Edits a message at the front of a buffer of a certain length.
    pub fn edit(
        &mut self,
        message: &[u8],
        buffer_room: usize,
        spot: Spot,
        edit: Edit,
        list_room: usize,
    ) -> (Edited, Vec<u8>, Vec<u32>) {
        let buffer = lent_message(&mut self.rng, message, buffer_room);
        let list = lent_words(&mut self.rng, list_room);
        let outcomes = self.each(|codec| {
            let (mut buffer, mut list) = (buffer.clone(), list.clone());
            let answer = codec.edit(buffer.lend(), spot, edit, list.lend());
            (answer, buffer, list)
        });
        let inputs = || {
            let octets = hex(buffer.cells());
            format!("{edit:?} at {spot:?}, list of {list_room}, buffer {octets}")
        };
        let name = edit_name(edit);
        let (answer, octets, cells) = self.alike(name, outcomes, inputs);
        if answer.refusal != 0 {
            let untouched = octets == buffer && cells == list;
            self.expect(untouched, name, "a refusal changes nothing", inputs);
        }
        self.count(name, answer.refusal);
        (answer, octets.cells().to_vec(), cells.cells().to_vec())
    }

    pub fn bitmap_read(&mut self, message: &[u8]) -> Bitmap {
        let outcomes = self.each(|codec| (codec.bitmap_read(message),));
        let inputs = || format!("message {}", hex(message));
        let (answer,) = self.alike("bitmap_read", outcomes, inputs);
        self.count("bitmap_read", answer.refusal);
        answer
    }

    pub fn bitmap_write(
        &mut self,
        width: u32,
        height: u32,
        image: &[u8],
        room: usize,
    ) -> (Written, Vec<u8>) {
        let out = lent_octets(&mut self.rng, room);
        let outcomes = self.each(|codec| {
            let mut out = out.clone();
            let answer = codec.bitmap_write(width, height, image, out.lend());
            (answer, out)
        });
        let inputs = || format!("{width} by {height}, image {}, room {room}", hex(image));
        let (answer, filled) = self.alike("bitmap_write", outcomes, inputs);
        if answer.refusal != 0 {
            let untouched = filled == out;
            self.expect(
                untouched,
                "bitmap_write",
                "a refusal changes nothing",
                inputs,
            );
        }
        self.count("bitmap_write", answer.refusal);
        (answer, filled.cells().to_vec())
    }

    // ---- Random cases.

    /// Compares at least so many calls.
    pub fn run(&mut self, cases: usize) {
        while self.cases < cases {
            self.random_case();
        }
    }

    fn random_case(&mut self) {
        match self.rng.below(110) {
            0..=5 => self.read_sound_tone(),
            6..=19 => self.read_any(),
            20..=25 => self.list_any(),
            26..=31 => self.rows_any(),
            32..=41 => self.write_any(),
            42..=47 => self.edit_any(),
            48 => self.edit_chain(),
            49..=51 => self.label_any(),
            52..=55 => self.bitmap_read_any(),
            56..=59 => self.bitmap_write_any(),
            60..=63 => self.icon_read_any(),
            64..=67 => self.icon_write_any(),
            68..=69 => self.logo_read_sound(),
            70..=74 => self.logo_read_any(),
            75..=79 => self.logo_write_any(),
            80..=82 => self.edit_at_origin(),
            83..=85 => self.pack_sound(),
            86..=94 => self.pack_read_any(),
            95..=102 => self.pack_write_any(),
            103 => self.pack_salvage_sound(),
            _ => self.pack_salvage_any(),
        }
    }

    /// A tone that is sound by its making gives its table and title back.
    fn read_sound_tone(&mut self) {
        let made = self.tone();
        let table_room = self.room(made.table.len());
        let title_room = self.room(made.title.len());
        let read = self.read(&made.message, table_room, title_room);
        let inputs = || format!("{made:?}");
        if table_room < made.table.len() || title_room < made.title.len() {
            let refused = read.answer.refusal == 11;
            self.expect(refused, "read", "too little room is 11", inputs);
            return;
        }
        let sound = read.answer.refusal == 0
            && read.answer.song == made.song
            && read.answer.unicode == made.unicode
            && read.answer.patterns == made.counts().len()
            && read.table[..read.answer.entries] == made.table
            && read.title[..made.title.len()] == made.title;
        self.expect(sound, "read", "a sound tone is read", inputs);
        let (answer, out) = self.write(
            made.song,
            made.unicode,
            &made.title,
            &made.table,
            made.message.len(),
        );
        let again = answer.refusal == 0 && out == made.message;
        self.expect(again, "write", "what was read is written again", inputs);
    }

    fn read_any(&mut self) {
        let message = inputs::message(&mut self.rng);
        // A message has at most a table entry for each five bits.
        let table_room = self.rng.pick(&[0, 3, 40, 2 * message.len() + 1]);
        let title_room = self.rng.pick(&[0, 8, 15, 30, 31]);
        self.read(&message, table_room, title_room);
    }

    fn list_any(&mut self) {
        let message = inputs::message(&mut self.rng);
        let needed = ENTRY_CELLS * self.entries_of(&message);
        let room = self.room(needed);
        let (answer, list) = self.list(&message, room);
        if answer.refusal == 0 {
            self.origins_lead_to_notes(&message, &list[..needed]);
        }
    }

    /// Each entry's origin leads through the table to the note that is listed.
    fn origins_lead_to_notes(&mut self, message: &[u8], list: &[u32]) {
        let table = self.table_of(message);
        let patterns = Patterns::of(&table);
        let all = list.chunks(ENTRY_CELLS).all(|entry| {
            let instruction = patterns.leads_to(entry[2]).map(|place| table[place]);
            // Of kind 1, with the note listed.
            instruction.is_some_and(|it| it / 65536 == 1 && note_of(it) == entry[0] / 1024)
        });
        let inputs = || format!("message {}", hex(message));
        self.expect(all, "list", "an origin leads to the note listed", inputs);
    }

    /// The table of a message that is sound.
    fn table_of(&mut self, message: &[u8]) -> Vec<u32> {
        // At most an entry for each five bits.
        let mut read = self.read(message, 2 * message.len(), LARGEST_TITLE);
        read.table.truncate(read.answer.entries);
        read.table
    }

    fn rows_any(&mut self) {
        let message = inputs::message(&mut self.rng);
        let entries = self.entries_of(&message);
        let list_room = self.room(ENTRY_CELLS * entries);
        let rows_room = self.room(entries);
        let (answer, list, rows) = self.rows(&message, list_room, rows_room);
        let packed: Vec<u32> = rows[..answer.entries].iter().flat_map(cells_of).collect();
        let agree = packed == list[..packed.len()];
        let inputs = || format!("message {}", hex(&message));
        self.expect(agree, "rows", "the two forms agree", inputs);
    }

    fn write_any(&mut self) {
        let table = inputs::table(&mut self.rng);
        let song = match self.rng.below(12) {
            0 => self.rng.pick(&[0, 3, 4, 7, 4_000_000_000]),
            1..=5 => 2,
            _ => 1,
        };
        let unicode = self.rng.one_in(3);
        let title = match self.rng.below(8) {
            0 | 1 => inputs::title_octets(&mut self.rng, unicode),
            2 => inputs::refused_title(&mut self.rng, unicode),
            _ if song == 1 => tones::title(&mut self.rng, unicode),
            _ => Vec::new(),
        };
        let octets = self.octets_written(song, unicode, &title, &table);
        let room = self.room(octets);
        self.write(song, unicode, &title, &table, room);
    }

    /// One edit of a message that need not be sound.
    fn edit_any(&mut self) {
        let message = inputs::message(&mut self.rng);
        let spot = Spot {
            used: message.len(),
            pattern: self.rng.pick(&[0, 0, 0, 1, 2, 5, 254, 255, usize::MAX]),
            instruction: self.rng.pick(&[0, 0, 0, 1, 2, 3, 255, 256, usize::MAX]),
        };
        let edit = self.random_edit();
        self.edit_with_some_room(&message, spot, edit);
    }

    /// Edits one after the other, each on what the one before has left.
    fn edit_chain(&mut self) {
        let mut message = self.tone_to_edit().message;
        let edits = if message.len() > 1000 {
            5
        } else {
            self.rng.within(5, 60)
        };
        for _ in 0..edits {
            let counts = tones::counts(&self.table_of(&message));
            let spot = self.spot_in(&message, &counts);
            let edit = self.random_edit();
            let (answer, octets, cells) = self.edit_with_some_room(&message, spot, edit);
            if answer.refusal == 0 {
                message = octets[..answer.length].to_vec();
                self.list_is(&message, &answer, &cells);
            }
        }
    }

    /// The list that an edit gave is the list of the octets that it left.
    fn list_is(&mut self, message: &[u8], edited: &Edited, cells: &[u32]) {
        let (answer, list) = self.list(message, ENTRY_CELLS * edited.entries);
        let same = answer.refusal == 0
            && (answer.entries, answer.mark) == (edited.entries, edited.mark)
            && list == cells[..ENTRY_CELLS * edited.entries];
        let inputs = || format!("message {}", hex(message));
        self.expect(same, "edit", "the list is that of the new octets", inputs);
    }

    /// An edit at the origin of some entry.
    fn edit_at_origin(&mut self) {
        let message = self.tone_to_edit().message;
        let room = ENTRY_CELLS * self.entries_of(&message);
        let (listed, list) = self.list(&message, room);
        if listed.entries > 0 {
            let entry = self.rng.below(listed.entries);
            let origin = list[ENTRY_CELLS * entry + 2];
            self.replace_at_origin(&message, listed.mark, &list, origin);
        }
    }

    /// Another note takes the place of the one that sounds. At a recall that is
    /// refused. Else just the entries that play the note change: those of each pass,
    /// and those of recalls.
    fn replace_at_origin(&mut self, message: &[u8], mark: u32, list: &[u32], origin: u32) {
        let table = self.table_of(message);
        let patterns = Patterns::of(&table);
        let note = patterns.leads_to(origin);
        let other = note.map_or(0, |place| another_note(table[place]));
        let (pattern, instruction) = apart(origin);
        let spot = Spot {
            used: message.len(),
            pattern,
            instruction,
        };
        let edit = Edit::Replace(other);
        let (answer, _, new) = self.edit(message, message.len(), spot, edit, list.len());
        let right = if patterns.is_recall(pattern) {
            answer.refusal == 12
        } else {
            let expected = with_note(list, other, |it| patterns.leads_to(it) == note);
            (answer.refusal, answer.mark) == (0, mark) && new == expected
        };
        let inputs = || format!("{edit:?} at {spot:?}, message {}", hex(message));
        self.expect(right, "edit", "an origin is where to edit", inputs);
    }

    fn edit_with_some_room(
        &mut self,
        message: &[u8],
        spot: Spot,
        edit: Edit,
    ) -> (Edited, Vec<u8>, Vec<u32>) {
        let needed = self.edited_size(message, spot, edit);
        let longer = needed.length.max(message.len());
        let buffer_room = match self.rng.below(8) {
            0 => message.len(),
            1 => longer,
            // A used length beyond the buffer.
            2 if self.rng.one_in(6) => message.len().saturating_sub(1),
            3 => longer + self.rng.below(4200),
            _ => longer + self.rng.below(20),
        };
        let list_room = self.room(ENTRY_CELLS * needed.entries);
        self.edit(message, buffer_room, spot, edit, list_room)
    }

    fn label_any(&mut self) {
        let title = inputs::label_octets(&mut self.rng);
        let stand_in = inputs::label_octets(&mut self.rng);
        let unicode = self.rng.one_in(2);
        self.label(&title, unicode, &stand_in);
    }

    fn bitmap_read_any(&mut self) {
        let message = if self.rng.one_in(10) {
            let length = self.rng.below(12);
            self.rng.octets(length)
        } else {
            inputs::bitmap(&mut self.rng)
        };
        self.bitmap_read(&message);
    }

    fn bitmap_write_any(&mut self) {
        let (width, height, image) = inputs::bitmap_parts(&mut self.rng);
        let room = self.room(4 + image.len());
        self.bitmap_write(width, height, &image, room);
    }

    // ---- Inputs of the random cases.

    fn tone(&mut self) -> Made {
        let bounds = Bounds::random(&mut self.rng);
        tones::tone(&mut self.rng, bounds)
    }

    /// Tones with full bodies or hardly any room to grow come up more often.
    fn tone_to_edit(&mut self) -> Made {
        let bounds = match self.rng.below(30) {
            0 => Bounds {
                octets: tones::LARGEST_TONE,
                ..Bounds::large(&mut self.rng)
            },
            1 | 2 => Bounds {
                octets: 450,
                patterns: 3,
                body: 255,
                repeats: 1,
                endless: 5,
            },
            _ => Bounds::small(&mut self.rng),
        };
        let mut made = tones::tone(&mut self.rng, bounds);
        if bounds.octets == 450 {
            // A body of 255, which takes no insertion.
            let mut table = vec![255];
            table.extend((0..255).map(|_| tones::instruction(&mut self.rng)));
            made.message = tones::written(made.song, made.unicode, &made.title, &table);
        }
        if bounds.octets == tones::LARGEST_TONE && self.rng.one_in(2) {
            // Such bodies in a message that can grow by one octet or by none, so
            // that an insertion has two grounds against it.
            let last = self.rng.pick(&[80, 81]);
            made.message = largest::temporary(&largest::parts(last));
        }
        made
    }

    /// A position that is mostly there.
    fn spot_in(&mut self, message: &[u8], counts: &[usize]) -> Spot {
        let mut pattern = self.rng.below(counts.len());
        if self.rng.one_in(20) {
            pattern = counts.len();
        }
        // A recall takes no edit, so most of the time look on.
        while counts.get(pattern) == Some(&0) && !self.rng.one_in(8) {
            pattern = self.rng.below(counts.len());
        }
        let count = counts.get(pattern).copied().unwrap_or(0);
        let mut instruction = self.rng.within(0, count);
        if self.rng.one_in(40) {
            instruction = self.rng.pick(&[count + 1, 300, 1 << 32, usize::MAX]);
        }
        Spot {
            used: message.len(),
            pattern,
            instruction,
        }
    }

    fn random_edit(&mut self) -> Edit {
        let entry = if self.rng.one_in(12) {
            inputs::odd_entry(&mut self.rng)
        } else {
            tones::instruction(&mut self.rng)
        };
        match self.rng.below(3) {
            0 => Edit::Replace(entry),
            1 => Edit::Insert(entry),
            _ => Edit::Delete,
        }
    }

    /// Too little, just enough or more than enough.
    pub(super) fn room(&mut self, needed: usize) -> usize {
        match self.rng.below(10) {
            0 => needed.saturating_sub(1),
            1 => self.rng.within(0, needed),
            2..=4 => needed,
            5 => needed + 1,
            _ => needed + self.rng.below(12),
        }
    }

    /// Entries of a message's list, 0 if it is refused.
    fn entries_of(&mut self, message: &[u8]) -> usize {
        ohakelm_fast::list(message, &mut self.scratch).entries
    }

    fn octets_written(&self, song: u32, unicode: bool, title: &[u8], table: &[u32]) -> usize {
        let mut out = [0; tones::LARGEST_TONE];
        ohakelm_fast::write(song, unicode, title, table, &mut out).octets
    }

    fn edited_size(&mut self, message: &[u8], spot: Spot, edit: Edit) -> Edited {
        let mut buffer = message.to_vec();
        buffer.resize(message.len() + 2, 0);
        let optimised = super::codecs::Optimised;
        optimised.edit(&mut buffer, spot, edit, &mut self.scratch)
    }

    // ---- Comparing.

    pub(super) fn each<R>(&self, call: impl FnMut(&&'static dyn Codec) -> R) -> Vec<R> {
        self.codecs.iter().map(call).collect()
    }

    /// The outcome that all have, or a report of who had another.
    pub(super) fn alike<R: Outcome>(
        &self,
        call: &str,
        mut outcomes: Vec<R>,
        inputs: impl Fn() -> String,
    ) -> R {
        let first = outcomes.remove(0);
        for (position, other) in outcomes.iter().enumerate() {
            if first != *other {
                let names = (self.codecs[0].name(), self.codecs[1..][position].name());
                panic!(
                    "{call} differs, seed {}, case {}\n{}\n{}: {}\n{}: {}{}",
                    self.seed,
                    self.cases,
                    inputs(),
                    names.0,
                    first.answer(),
                    names.1,
                    other.answer(),
                    first.cells_differ(other),
                );
            }
        }
        first
    }

    pub(super) fn expect(&self, held: bool, call: &str, rule: &str, inputs: impl Fn() -> String) {
        assert!(
            held,
            "{call}: {rule}: does not hold, seed {}, case {}\n{}",
            self.seed,
            self.cases,
            inputs(),
        );
    }

    pub(super) fn count(&mut self, call: &'static str, refusal: u32) {
        self.cases += 1;
        *self.tally.entry((call, refusal)).or_default() += 1;
    }
}

/// What reading gave, with the lent buffers.
pub struct Read {
    pub answer: Tone,
    pub table: Vec<u32>,
    pub title: Vec<u8>,
}

/// The note that an instruction of kind 1 sounds.
fn note_of(instruction: u32) -> u32 {
    instruction % 65536 / 32
}

/// The next note, as long as this one. Behind H comes the pause.
fn another_note(instruction: u32) -> u32 {
    match note_of(instruction) {
        12 => instruction - 12 * 32,
        _ => instruction + 32,
    }
}

/// A list in which some entries, told by their origins, sound another note.
fn with_note(list: &[u32], instruction: u32, plays_it: impl Fn(u32) -> bool) -> Vec<u32> {
    let mut list = list.to_vec();
    for entry in list.chunks_mut(ENTRY_CELLS) {
        if plays_it(entry[2]) {
            entry[0] = note_of(instruction) * 1024 + entry[0] % 1024;
        }
    }
    list
}

pub fn edit_name(edit: Edit) -> &'static str {
    match edit {
        Edit::Replace(_) => "replace",
        Edit::Insert(_) => "insert",
        Edit::Delete => "delete",
    }
}

/// An answer with the lent buffers after the call.
pub(super) trait Outcome: PartialEq {
    fn answer(&self) -> String;
    /// Where the lent buffers differ, if they do.
    fn cells_differ(&self, other: &Self) -> String;
}

impl<A: PartialEq + Debug> Outcome for (A,) {
    fn answer(&self) -> String {
        format!("{:?}", self.0)
    }

    fn cells_differ(&self, _: &Self) -> String {
        String::new()
    }
}

impl<A, T> Outcome for (A, Lent<T>)
where
    A: PartialEq + Debug,
    T: Clone + PartialEq + Debug,
{
    fn answer(&self) -> String {
        format!("{:?}", self.0)
    }

    fn cells_differ(&self, other: &Self) -> String {
        self.1.difference(&other.1)
    }
}

impl<A, T, U> Outcome for (A, Lent<T>, Lent<U>)
where
    A: PartialEq + Debug,
    T: Clone + PartialEq + Debug,
    U: Clone + PartialEq + Debug,
{
    fn answer(&self) -> String {
        format!("{:?}", self.0)
    }

    fn cells_differ(&self, other: &Self) -> String {
        self.1.difference(&other.1) + &self.2.difference(&other.2)
    }
}
