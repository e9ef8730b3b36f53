//! Columns of nullable integers in light encodings over blocks of 1024 items: bit-packing with patches, frame of
//! reference, delta and run-length encoding, which nest. Each function of the library below is proved to answer what its
//! contract says.
//!
//! ```
//! use flcol::{Array, Op, PType};
//!
//! let array = Array::from_options(&[Some(7_i32), None, Some(9), Some(-2)])?;
//! let packed = array.encode("for(bitpacked:4)")?;
//! assert_eq!(packed.to_options::<i32>()?, [Some(7), None, Some(9), Some(-2)]);
//! assert_eq!(packed.get::<i32>(2)?, Some(9));
//! assert_eq!(packed.dtype(), PType::I32.nullable());
//!
//! let large = packed.compare(Op::Gt, 5)?;
//! assert_eq!(large.iter().collect::<Vec<_>>(), [Some(true), None, Some(true), Some(false)]);
//!
//! let kept = Array::from_bytes(&packed.to_bytes()?)?;
//! assert_eq!(kept.between(..0)?.count_true(), 1);
//! # Ok::<(), flcol::Error>(())
//! ```
//!
//! An [`Array`] owns its items and does not change. Each call that makes one takes new memory, but for what is packed,
//! which slices and copies share. After an [`Error`] nothing has changed.
//!
//! A [`File`] of chunks has a column that may be longer than memory, and is read as far as an answer needs it; a [`Writer`]
//! writes one.
//!
//! # Containers from strangers
//! Any bytes make an array or an error. A few bytes may claim any number of items: no call panics or aborts for that, and
//! what needs more memory than there is answers [`Error::OutOfMemory`]. [`Array::len`] says the number before.
//!
//! # The version of the library
//! Before the first call of the library the crate asks it for the version of its interface. With another one each call
//! answers [`Error::LibraryVersion`], and the operators of [`Bitmap`] and [`Answers`], which answer no `Result`, panic.
//!
//! # Features
//! `arrow` adds the module `arrow` for Arrow's C Data Interface. `dynamic` links `libflcol.so` in place of `libflcol.a`.

#![warn(missing_docs)]

mod answers;
mod array;
#[cfg(feature = "arrow")]
pub mod arrow;
mod bitmap;
pub mod blocks;
mod chunks;
mod error;
mod ffi;
mod file;
mod indexed;
mod item;
mod iter;
mod limits;
mod memory;
mod types;

pub use answers::Answers;
pub use array::{Array, Element, Sorted};
pub use bitmap::Bitmap;
pub use chunks::{Chunk, Chunks};
pub use error::Error;
pub use file::{File, FileChunk, WriteError, Writer};
pub use indexed::Indexed;
pub use item::{Integer, Item};
pub use iter::Iter;
pub use limits::{Encoding, Limits};
pub use types::{DType, Op, PType};

/// The examples of the README, which are tested as those of these pages.
#[cfg(doctest)]
#[doc = include_str!("../README.md")]
struct Readme;
