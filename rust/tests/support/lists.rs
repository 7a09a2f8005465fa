//! A playing list in both its forms.

use ohakelm_answers::{Entry, ENTRY_CELLS};

use super::codecs::Codec;

/// Entries that a list has room for here.
const ROOM: usize = 70_000;

/// A message's list and its mark. Both forms of it are made and agree.
pub fn listed(codec: &dyn Codec, message: &[u8]) -> (Vec<u32>, u32) {
    let mut list = vec![0; ENTRY_CELLS * ROOM];
    let (mut again, mut rows) = (list.clone(), vec![Entry::default(); ROOM]);
    let answer = codec.list(message, &mut list);
    assert_eq!(answer.refusal, 0, "{answer:?}");
    assert_eq!(codec.rows(message, &mut again, &mut rows), answer);
    assert!(again == list, "both calls make the same numbers");
    list.truncate(ENTRY_CELLS * answer.entries);
    for (row, entry) in rows.iter().zip(list.chunks(ENTRY_CELLS)) {
        assert_eq!(cells_of(row), entry);
    }
    (list, answer.mark)
}

/// An entry's record in the form of numbers.
pub fn cells_of(row: &Entry) -> [u32; ENTRY_CELLS] {
    let first = row.note * 1024 + row.scale * 256 + row.style * 16 + row.volume;
    [first, row.microseconds, row.header * 256 + row.position]
}
