//! A bit for each item.

use crate::bitmap::{operators, Bitmap, Join};
use crate::error::{checked, Error};
use crate::ffi;
use crate::indexed::{ByIndex, Indexed};

/// Booleans that may be null, as a comparison answers them: a bit for each item, and null where the item is.
///
/// `&`, `|`, `^`, `!` and the forms that assign join them by SQL's logic, where a null stands for an answer that isn't
/// known: false and a null is false, true or a null is true, and else a null makes a null.
///
/// ```
/// use flcol::Answers;
///
/// let known: Answers = [true, false].into_iter().collect();
/// let unknown: Answers = [None, None].into_iter().collect();
/// assert_eq!((&known & &unknown).iter().collect::<Vec<_>>(), [None, Some(false)]);
/// assert_eq!((&known | &unknown).iter().collect::<Vec<_>>(), [Some(true), None]);
/// assert_eq!((!known).iter().collect::<Vec<_>>(), [Some(false), Some(true)]);
/// ```
///
/// # Panics
/// An operator does so where there are more of the one than of the other, and where the linked library is of another
/// version.
#[derive(Clone, Debug, PartialEq, Eq, Hash, Default)]
pub struct Answers {
    /// A bit is set only where the answer is valid.
    bits: Bitmap,
    validity: Bitmap,
}

impl Answers {
    /// These bits as answers, of which those are null whose bits of validity are not set.
    ///
    /// # Errors
    /// `ValidityLength` if the two have different lengths; `LibraryVersion`.
    pub fn new(bits: Bitmap, validity: Bitmap) -> Result<Answers, Error> {
        if bits.len() != validity.len() {
            return Err(Error::ValidityLength);
        }
        let mut answers = Answers { bits, validity };
        answers.clear_nulls()?;
        Ok(answers)
    }

    /// Answers whose validity has all bits set.
    pub(crate) fn without_nulls(bits: Bitmap, validity: Bitmap) -> Answers {
        Answers { bits, validity }
    }

    /// Clears the bits at nulls, which say nothing.
    fn clear_nulls(&mut self) -> Result<(), Error> {
        self.bits.join(&self.validity, ffi::flcol_and)
    }

    /// How many answers there are.
    pub fn len(&self) -> usize {
        self.bits.len()
    }

    /// Whether there are no answers.
    pub fn is_empty(&self) -> bool {
        self.bits.is_empty()
    }

    /// The answer of an item, `None` at a null.
    ///
    /// # Panics
    /// If the index is not below the length.
    pub fn get(&self, index: usize) -> Option<bool> {
        self.validity.get(index).then(|| self.bits.get(index))
    }

    /// The answers, one by one.
    pub fn iter(&self) -> Indexed<&Answers> {
        Indexed::new(self, self.len())
    }

    /// How many answers are yes, neither no nor null.
    ///
    /// # Panics
    /// If the linked library is of another version.
    pub fn count_true(&self) -> usize {
        self.bits.count_ones()
    }

    /// How many answers are no, neither yes nor null.
    ///
    /// # Panics
    /// If the linked library is of another version.
    pub fn count_false(&self) -> usize {
        self.validity.count_ones() - self.bits.count_ones()
    }

    /// How many answers are null.
    ///
    /// # Panics
    /// If the linked library is of another version.
    pub fn null_count(&self) -> usize {
        self.len() - self.validity.count_ones()
    }

    /// The items of which the answer is yes, neither no nor null.
    pub fn as_mask(&self) -> &Bitmap {
        &self.bits
    }

    /// The items of which the answer is yes, neither no nor null.
    pub fn into_mask(self) -> Bitmap {
        self.bits
    }

    /// The items that are not null.
    pub fn validity(&self) -> &Bitmap {
        &self.validity
    }

    /// Joins other answers to these.
    fn join(&mut self, other: &Answers, call: Join) -> Result<(), Error> {
        assert_eq!(self.len(), other.len(), "answers of two lengths");
        let (bits, validity) = (self.bits.as_mut_bytes().as_mut_ptr(), self.validity.as_mut_bytes());
        let (bytes, validity) = (validity.len(), validity.as_mut_ptr());
        let (other, other_validity) = (other.bits.as_bytes().as_ptr(), other.validity.as_bytes().as_ptr());
        checked(|| unsafe { call(bits, bytes, validity, bytes, other, bytes, other_validity, bytes) })?;
        self.clear_nulls()
    }

    /// Turns each answer that is not null.
    fn turn(&mut self) -> Result<(), Error> {
        self.bits.turn()?;
        self.clear_nulls()
    }
}

operators!(Answers);

/// Answers of which none is null.
impl From<Bitmap> for Answers {
    fn from(bits: Bitmap) -> Answers {
        let validity = !Bitmap::zeros(bits.len());
        Answers::without_nulls(bits, validity)
    }
}

impl ByIndex for &Answers {
    type Item = Option<bool>;

    fn at(self, index: usize) -> Option<bool> {
        self.get(index)
    }
}

impl<'a> IntoIterator for &'a Answers {
    type Item = Option<bool>;
    type IntoIter = Indexed<&'a Answers>;

    fn into_iter(self) -> Indexed<&'a Answers> {
        self.iter()
    }
}

impl FromIterator<Option<bool>> for Answers {
    fn from_iter<I: IntoIterator<Item = Option<bool>>>(answers: I) -> Answers {
        let mut made = Answers::default();
        for answer in answers {
            made.bits.extend([answer == Some(true)]);
            made.validity.extend([answer.is_some()]);
        }
        made
    }
}

impl FromIterator<bool> for Answers {
    fn from_iter<I: IntoIterator<Item = bool>>(answers: I) -> Answers {
        Bitmap::from_iter(answers).into()
    }
}
