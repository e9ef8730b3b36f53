//! Lists of bits.

use crate::array::Array;
use crate::error::{checked, Error};
use crate::ffi;
use crate::indexed::{ByIndex, Indexed};
use crate::memory::{filled, push};
use std::fmt;
use std::ptr;

/// A list of bits, in Arrow's order: bit i is bit `i % 8` of byte `i / 8`, the lowest first. The bits behind the last one
/// are 0.
///
/// ```
/// use flcol::Bitmap;
///
/// let mask: Bitmap = [true, false, true].into_iter().collect();
/// assert_eq!((mask.len(), mask.count_ones(), mask.as_bytes()), (3, 2, &[0b101][..]));
/// let other: Bitmap = [true, true, false].into_iter().collect();
/// assert_eq!((&mask & &other).as_bytes(), [0b001]);
/// assert_eq!((&mask | &other).as_bytes(), [0b111]);
/// assert_eq!((mask ^ !other).as_bytes(), [0b001]);
/// ```
///
/// `&`, `|`, `^`, `!` and the forms that assign, as `&=`, join lists of one length.
///
/// # Panics
/// An operator does so where one list is longer than the other, and where the linked library is of another version.
#[derive(Clone, PartialEq, Eq, Hash, Default)]
pub struct Bitmap {
    bytes: Vec<u8>,
    len: usize,
}

/// A call that joins two bitmaps with their validities.
pub(crate) type Join = unsafe extern "C" fn(*mut u8, usize, *mut u8, usize, *const u8, usize, *const u8, usize) -> i32;

impl Bitmap {
    /// So many bits, none of them set.
    ///
    /// # Panics
    /// As `Vec` does where there is no memory for them; [`Bitmap::try_zeros`] answers an error.
    pub fn zeros(len: usize) -> Bitmap {
        Bitmap { bytes: vec![0; len.div_ceil(8)], len }
    }

    /// So many bits, none of them set.
    ///
    /// # Errors
    /// `OutOfMemory`.
    pub fn try_zeros(len: usize) -> Result<Bitmap, Error> {
        Ok(Bitmap { bytes: filled(0, len.div_ceil(8))?, len })
    }

    /// The first `len` bits of these bytes.
    ///
    /// # Errors
    /// `WrongLength` if there are fewer bits than `len`.
    pub fn from_bytes(bytes: Vec<u8>, len: usize) -> Result<Bitmap, Error> {
        if bytes.len() < len.div_ceil(8) {
            return Err(Error::WrongLength);
        }
        let mut bitmap = Bitmap { bytes, len };
        bitmap.truncate(len);
        Ok(bitmap)
    }

    /// How many bits there are.
    pub fn len(&self) -> usize {
        self.len
    }

    /// Whether there are no bits.
    pub fn is_empty(&self) -> bool {
        self.len == 0
    }

    /// Whether a bit is set.
    ///
    /// # Panics
    /// If the index is not below the length.
    pub fn get(&self, index: usize) -> bool {
        assert!(index < self.len, "bit {index} of {}", self.len);
        self.bytes[index / 8] >> (index % 8) & 1 == 1
    }

    /// Sets a bit, or clears it.
    ///
    /// # Panics
    /// If the index is not below the length.
    pub fn set(&mut self, index: usize, bit: bool) {
        assert!(index < self.len, "bit {index} of {}", self.len);
        let mask = 1 << (index % 8);
        if bit {
            self.bytes[index / 8] |= mask;
        } else {
            self.bytes[index / 8] &= !mask;
        }
    }

    /// How many bits are set.
    ///
    /// # Panics
    /// If the linked library is of another version.
    pub fn count_ones(&self) -> usize {
        let (bits, bytes, mut count) = (self.bytes.as_ptr(), self.bytes.len(), 0);
        sound(checked(|| unsafe { ffi::flcol_count_bits(bits, bytes, ptr::null(), 0, self.len, &mut count) }));
        count
    }

    /// The positions of the bits that are set, in their order: an array of `u64`.
    ///
    /// ```
    /// # use flcol::Bitmap;
    /// let mask: Bitmap = [true, false, true].into_iter().collect();
    /// assert_eq!(mask.indices()?.to_vec::<u64>()?, [0, 2]);
    /// # Ok::<(), flcol::Error>(())
    /// ```
    ///
    /// # Errors
    /// `OutOfMemory`.
    pub fn indices(&self) -> Result<Array, Error> {
        let (bits, bytes) = (self.bytes.as_ptr(), self.bytes.len());
        Array::make(|out| unsafe { ffi::flcol_indices_of(bits, bytes, self.len, out) })
    }

    /// The bits, one by one.
    pub fn iter(&self) -> Indexed<&Bitmap> {
        Indexed::new(self, self.len)
    }

    /// The bytes, as many as the bits need.
    pub fn as_bytes(&self) -> &[u8] {
        &self.bytes
    }

    /// The bytes, as many as the bits need.
    pub fn into_bytes(self) -> Vec<u8> {
        self.bytes
    }

    pub(crate) fn as_mut_bytes(&mut self) -> &mut [u8] {
        &mut self.bytes
    }

    /// Keeps the first `len` bits, of so many at least.
    pub(crate) fn truncate(&mut self, len: usize) {
        self.bytes.truncate(len.div_ceil(8));
        if len % 8 != 0 {
            self.bytes[len / 8] &= (1 << (len % 8)) - 1;
        }
        self.len = len;
    }

    /// Adds a bit, where there is memory for it.
    pub(crate) fn try_push(&mut self, bit: bool) -> Result<(), Error> {
        if self.len % 8 == 0 {
            push(&mut self.bytes, 0)?;
        }
        self.len += 1;
        self.set(self.len - 1, bit);
        Ok(())
    }

    /// Joins another list to this one.
    pub(crate) fn join(&mut self, other: &Bitmap, call: Join) -> Result<(), Error> {
        assert_eq!(self.len, other.len, "lists of bits of two lengths");
        let (bits, bytes, other) = (self.bytes.as_mut_ptr(), self.bytes.len(), other.bytes.as_ptr());
        checked(|| unsafe { call(bits, bytes, ptr::null_mut(), 0, other, bytes, ptr::null(), 0) })
    }

    /// Turns each bit.
    pub(crate) fn turn(&mut self) -> Result<(), Error> {
        checked(|| unsafe { ffi::flcol_not(self.bytes.as_mut_ptr(), self.bytes.len(), self.len) })
    }
}

/// Panics after a call whose lengths are right, so that only a library of another version refuses it.
pub(crate) fn sound(outcome: Result<(), Error>) {
    if let Err(error) = outcome {
        panic!("{error}");
    }
}

/// Writes the operators of lists that have `join` and `turn`.
macro_rules! operators {
    ($list:ident: $($operator:ident $name:ident $assigning:ident $assigning_name:ident $call:ident;)+) => {
        $(impl std::ops::$assigning<&$list> for $list {
            fn $assigning_name(&mut self, other: &$list) {
                crate::bitmap::sound(self.join(other, crate::ffi::$call));
            }
        }

        impl std::ops::$assigning for $list {
            fn $assigning_name(&mut self, other: $list) {
                crate::bitmap::sound(self.join(&other, crate::ffi::$call));
            }
        }

        impl std::ops::$operator<&$list> for $list {
            type Output = $list;

            fn $name(mut self, other: &$list) -> $list {
                crate::bitmap::sound(self.join(other, crate::ffi::$call));
                self
            }
        }

        impl std::ops::$operator for $list {
            type Output = $list;

            fn $name(self, other: $list) -> $list {
                std::ops::$operator::$name(self, &other)
            }
        }

        impl std::ops::$operator<&$list> for &$list {
            type Output = $list;

            fn $name(self, other: &$list) -> $list {
                std::ops::$operator::$name(self.clone(), other)
            }
        }

        impl std::ops::$operator<$list> for &$list {
            type Output = $list;

            fn $name(self, other: $list) -> $list {
                std::ops::$operator::$name(self.clone(), &other)
            }
        })+

        impl std::ops::Not for $list {
            type Output = $list;

            fn not(mut self) -> $list {
                crate::bitmap::sound(self.turn());
                self
            }
        }

        impl std::ops::Not for &$list {
            type Output = $list;

            fn not(self) -> $list {
                !self.clone()
            }
        }
    };
    ($list:ident) => {
        crate::bitmap::operators! {
            $list:
            BitAnd bitand BitAndAssign bitand_assign flcol_and;
            BitOr bitor BitOrAssign bitor_assign flcol_or;
            BitXor bitxor BitXorAssign bitxor_assign flcol_xor;
        }
    };
}

pub(crate) use operators;

operators!(Bitmap);

impl ByIndex for &Bitmap {
    type Item = bool;

    fn at(self, index: usize) -> bool {
        self.get(index)
    }
}

impl<'a> IntoIterator for &'a Bitmap {
    type Item = bool;
    type IntoIter = Indexed<&'a Bitmap>;

    fn into_iter(self) -> Indexed<&'a Bitmap> {
        self.iter()
    }
}

impl Extend<bool> for Bitmap {
    fn extend<I: IntoIterator<Item = bool>>(&mut self, bits: I) {
        bits.into_iter().for_each(|bit| self.try_push(bit).expect("there is memory for a bit"));
    }
}

impl FromIterator<bool> for Bitmap {
    fn from_iter<I: IntoIterator<Item = bool>>(bits: I) -> Bitmap {
        let mut bitmap = Bitmap::default();
        bitmap.extend(bits);
        bitmap
    }
}

impl fmt::Debug for Bitmap {
    fn fmt(&self, f: &mut fmt::Formatter<'_>) -> fmt::Result {
        f.write_str("Bitmap(")?;
        self.iter().try_for_each(|bit| f.write_str(if bit { "1" } else { "0" }))?;
        f.write_str(")")
    }
}
