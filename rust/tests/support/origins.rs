//! Where an origin leads, told from a sound table and from nothing else.

/// The patterns of a table, by their positions.
pub struct Patterns<'a> {
    table: &'a [u32],
    /// The place of each header in the table.
    headers: Vec<usize>,
    /// The position of the header whose body each one plays.
    definitions: Vec<usize>,
}

impl Patterns<'_> {
    pub fn of(table: &[u32]) -> Patterns<'_> {
        let (mut headers, mut definitions) = (Vec::new(), Vec::new());
        let mut nearest = [None; 4];
        for (place, &entry) in table.iter().enumerate() {
            if entry >= 65536 {
                continue;
            }
            let known = &mut nearest[(entry / 4096) as usize];
            if entry % 256 > 0 {
                *known = Some(headers.len());
            }
            match *known {
                Some(header) => definitions.push(header),
                None => panic!("a recall of nothing: {table:?}"),
            }
            headers.push(place);
        }
        Patterns {
            table,
            headers,
            definitions,
        }
    }

    /// Where a header stands in the table.
    pub fn place(&self, header: usize) -> usize {
        self.headers[header]
    }

    pub fn is_recall(&self, header: usize) -> bool {
        self.table[self.place(header)] % 256 == 0
    }

    /// The position of the header whose body is played: the header's own, or for a
    /// recall that of the nearest earlier definition of its id.
    pub fn definition(&self, header: usize) -> usize {
        self.definitions[header]
    }

    /// Where the instruction that an origin names stands in the table, if there is
    /// one.
    pub fn leads_to(&self, origin: u32) -> Option<usize> {
        let (header, position) = apart(origin);
        let definition = *self.definitions.get(header)?;
        let place = self.place(definition);
        let count = self.table[place] as usize % 256;
        (position < count).then_some(place + 1 + position)
    }
}

/// The header and the position of an origin.
pub fn apart(origin: u32) -> (usize, usize) {
    (origin as usize / 256, origin as usize % 256)
}
