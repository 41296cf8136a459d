//! What is refused, and where.

/// A byte position in the image or the roll.
pub type Place = usize;

/// Why an act refuses. Refusals 1 to 16 and 20 carry the place of the fault.
#[derive(Clone, Copy, Debug, PartialEq, Eq)]
pub enum Refusal {
    /// 1: the length of the image is out of range.
    ImageLength(Place),
    /// 2: the first four bytes are wrong.
    Magic(Place),
    /// 3: the version is wrong.
    Version(Place),
    /// 4: the start of the index is out of range.
    IndexStart(Place),
    /// 5: an index entry runs past the end of the index.
    IndexEnd(Place),
    /// 6: a key is too short or too long.
    KeyLength(Place),
    /// 7: a kind is not carried.
    Kind(Place),
    /// 8: a key has no block.
    NoBlocks(Place),
    /// 9: a key is not above the one before.
    KeyOrder(Place),
    /// 10: min is above max, or not above the max before.
    TimeOrder(Place),
    /// 11: a block does not lie where it must.
    BlockPlace(Place),
    /// 12: the checksum is wrong.
    Checksum(Place),
    /// 13: the head of a block is wrong: its kind, or T.
    BlockHead(Place),
    /// 14: the timestamps section is wrong.
    Timestamps(Place),
    /// 15: the values section is wrong, or its n differs.
    Values(Place),
    /// 16: the first or last time differs from the index.
    BlockTimes(Place),
    /// 17: there is no such key.
    NoSuchKey,
    /// 18: the key is known, but no entry covers the time.
    NoEntry,
    /// 19: a lent output is too short for the whole result.
    ShortOutput,
    /// 20: the roll breaks its rules.
    Roll(Place),
    /// 21: a key has two kinds.
    TwoKinds,
    /// 22: the written image would be too long.
    ImageTooLong,
    /// 23: an entry covers the time, but no point is there.
    NoPoint,
}

impl Refusal {
    /// The number in the table of document 01.
    pub fn number(self) -> u8 {
        self.number_and_place().0
    }

    /// Where the fault is, if the refusal has a place.
    pub fn place(self) -> Option<Place> {
        self.number_and_place().1
    }

    fn number_and_place(self) -> (u8, Option<Place>) {
        use Refusal::*;
        match self {
            ImageLength(place) => (1, Some(place)),
            Magic(place) => (2, Some(place)),
            Version(place) => (3, Some(place)),
            IndexStart(place) => (4, Some(place)),
            IndexEnd(place) => (5, Some(place)),
            KeyLength(place) => (6, Some(place)),
            Kind(place) => (7, Some(place)),
            NoBlocks(place) => (8, Some(place)),
            KeyOrder(place) => (9, Some(place)),
            TimeOrder(place) => (10, Some(place)),
            BlockPlace(place) => (11, Some(place)),
            Checksum(place) => (12, Some(place)),
            BlockHead(place) => (13, Some(place)),
            Timestamps(place) => (14, Some(place)),
            Values(place) => (15, Some(place)),
            BlockTimes(place) => (16, Some(place)),
            NoSuchKey => (17, None),
            NoEntry => (18, None),
            ShortOutput => (19, None),
            Roll(place) => (20, Some(place)),
            TwoKinds => (21, None),
            ImageTooLong => (22, None),
            NoPoint => (23, None),
        }
    }
}
