//! Why a call refused.

use core::fmt;

/// Why a call refused, by the number that the rules give it, and where.
#[derive(Clone, Copy, Debug, PartialEq, Eq)]
pub struct Refusal {
    /// 1 to 27, as in the rules' table, but for 19 and for 22 to 25 ([`Kind`] says
    /// why).
    pub number: u32,
    /// The bit of the tone message where the faulty element begins, for the
    /// numbers 2 to 10 and 21 met in a tone message. In a pack it is counted from
    /// the pack's first bit, and 1 for a message in a pack has the bit where the
    /// message starts. Else 0.
    pub place: usize,
}

impl Refusal {
    /// What the number means, to match on.
    ///
    /// ```
    /// use ohakelm::Kind;
    /// // A header of a bitmap, and no image.
    /// let Err(refusal) = ohakelm::read_bitmap(&[0, 8, 2, 1]) else {
    ///     panic!("it has no image");
    /// };
    /// assert_eq!(refusal.kind(), Kind::ImageLength);
    /// assert_eq!(
    ///     refusal.to_string(),
    ///     "refused 16 at 0: bitmap image of another length",
    /// );
    /// ```
    pub const fn kind(&self) -> Kind {
        Kind::of(self.number)
    }
}

impl fmt::Display for Refusal {
    fn fmt(&self, f: &mut fmt::Formatter) -> fmt::Result {
        let Refusal { number, place } = self;
        write!(f, "refused {number} at {place}: {}", self.kind())
    }
}

impl core::error::Error for Refusal {}

/// Makes `Kind` of its lines, each a number, a name and words. The words are the
/// documentation too.
macro_rules! kinds {
    ($($number:literal $name:ident $words:literal)*) => {
        /// What a refusal's number means.
        ///
        /// A later version may have more of them. 19 is no longer given, and no
        /// other refusal takes it: it stood for a duration above 32 bits, and it
        /// is proved that no duration exceeds 16,800,000 microseconds. 22 to 25
        /// are not given yet.
        ///
        /// ```
        /// use ohakelm::Kind;
        /// assert_eq!(Kind::of(11), Kind::NoRoom);
        /// assert_eq!(Kind::NoRoom.number(), 11);
        /// assert_eq!(Kind::NoRoom.to_string(), "a lent output is too small");
        /// ```
        #[derive(Clone, Copy, Debug, PartialEq, Eq, Hash)]
        #[non_exhaustive]
        pub enum Kind {
            $(
                #[doc = concat!($number, ": ", $words, ".")]
                $name,
            )*
            /// A number that this version does not have. The archive of the same
            /// version gives none such.
            Unknown(u32),
        }

        impl Kind {
            /// Those of this version, in the order of their numbers.
            pub const ALL: &'static [Kind] = &[$(Kind::$name),*];

            /// The kind that has this number.
            pub const fn of(number: u32) -> Kind {
                match number {
                    $($number => Kind::$name,)*
                    _ => Kind::Unknown(number),
                }
            }

            /// The number that the rules give it.
            pub const fn number(self) -> u32 {
                match self {
                    $(Kind::$name => $number,)*
                    Kind::Unknown(number) => number,
                }
            }

            /// What is wrong, in words. They are for a log: match on the kind.
            pub const fn words(self) -> &'static str {
                match self {
                    $(Kind::$name => $words,)*
                    Kind::Unknown(_) => "no refusal of this version",
                }
            }
        }
    };
}

kinds! {
    1 TooLong "an edit's used length beyond its lent buffer, a tone above 4,096 octets, or a \
        pack above 65,535 octets"
    2 CutShort "the input stops inside or before a due element"
    3 Command "command length not 2 or 3, or not the part due"
    4 SongType "another song type"
    5 NoPattern "pattern count zero"
    6 Code "an id not due, or a code not in the instruction table"
    7 NoRecall "a recall with nothing earlier of that id"
    8 Filler "a filler bit is 1"
    9 EndOctet "end octet not 00"
    10 AfterEnd "octets after the end"
    11 NoRoom "a lent output is too small"
    12 NotThere "no such pattern, instruction or message, or a recall"
    13 OnlyOne "deleting a part's only instruction"
    14 FullPart "inserting into a part of 255"
    15 BitmapHeader "bitmap header outside the rules"
    16 ImageLength "bitmap image of another length"
    17 Title "written title above 15 characters, odd octets under UNICODE, or not empty in a \
        temporary song"
    18 TableShape "table shape: a header where an instruction is due or the reverse, a body \
        cut short, more than 255 patterns"
    20 Ahead "an octet ahead of a bitmap that its kind does not have there: version, \
        network code digit, date, line feed"
    21 Character "a title character 0 to 31 or 127 to 159"
    26 PackSize "first row start, rows and four octets do not add up to the pack"
    27 PackRows "a row that does not continue the one before, or lengths that do not add up"
}

impl fmt::Display for Kind {
    fn fmt(&self, f: &mut fmt::Formatter) -> fmt::Result {
        f.write_str(self.words())
    }
}
