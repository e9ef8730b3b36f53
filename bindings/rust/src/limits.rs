//! What compression may choose from.

/// An encoding that compression may use.
#[derive(Clone, Copy, Debug, PartialEq, Eq, Hash)]
#[non_exhaustive]
pub enum Encoding {
    /// One item, if all are equal.
    Constant = 1,
    /// Items of few bits, at one width or at one for each block.
    Bitpacked = 2,
    /// A frame of reference, for the array or for each chunk.
    For = 4,
    /// Differences of items.
    Delta = 8,
    /// Runs of equal items.
    Rle = 16,
    /// A dictionary for each chunk.
    Dict = 32,
}

impl Encoding {
    const ALL: [Encoding; 6] =
        [Encoding::Constant, Encoding::Bitpacked, Encoding::For, Encoding::Delta, Encoding::Rle, Encoding::Dict];
}

/// Which encodings [`Array::compress_within`] may use, and how many of them may stand in one another. By default three of
/// all, as [`Array::compress`] has them.
///
/// [`Array::compress`]: crate::Array::compress
/// [`Array::compress_within`]: crate::Array::compress_within
#[derive(Clone, Copy, Debug, PartialEq, Eq, Hash)]
pub struct Limits {
    encodings: u8,
    depth: u8,
}

impl Limits {
    /// These encodings alone, three in one another.
    pub fn of(encodings: &[Encoding]) -> Limits {
        Limits { encodings: encodings.iter().fold(0, |bits, encoding| bits | *encoding as u8), depth: 3 }
    }

    /// The same without an encoding.
    #[must_use]
    pub fn without(self, encoding: Encoding) -> Limits {
        Limits { encodings: self.encodings & !(encoding as u8), ..self }
    }

    /// The same with another depth: 0 leaves plain and constant arrays, 1 allows packed ones, 2 frames of reference over
    /// packed ones, 3 deltas, runs and dictionaries over those, and 4 run values that are deltas.
    #[must_use]
    pub fn with_depth(self, depth: u8) -> Limits {
        Limits { depth, ..self }
    }

    pub(crate) fn encodings(self) -> u8 {
        self.encodings
    }

    pub(crate) fn depth(self) -> u8 {
        self.depth
    }
}

impl Default for Limits {
    fn default() -> Limits {
        Limits::of(&Encoding::ALL)
    }
}
