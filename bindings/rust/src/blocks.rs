//! The kernels over whole blocks of 1024 words, for stores with a format of their own. They hold no array and take no
//! memory.
//!
//! A word has `T` bits, and a block `1024 / T` lanes. The item at row `r` of lane `l` stands at position
//! `l + 128 * (r % 8) + 16 * [0, 4, 2, 6, 1, 5, 3, 7][r / 8]`; packed at a width, its bits are the bits
//! `r * width .. (r + 1) * width` of the lane's words, and word `k` of lane `l` is word `k * lanes + l` of the block.
//!
//! ```
//! use flcol::blocks::{self, Word};
//!
//! let mut items = [[0_u32; 1024]; 2];
//! for (i, item) in items.iter_mut().flatten().enumerate() {
//!     *item = i as u32 % 100;
//! }
//! let mut packed = vec![0; 2 * 7 * u32::LANES];
//! blocks::pack(7, &items, &mut packed)?;
//! let mut again = [[0; 1024]; 2];
//! blocks::unpack(7, &packed, &mut again)?;
//! assert_eq!(again, items);
//! # Ok::<(), flcol::Error>(())
//! ```

use crate::error::{checked, Error};
use crate::ffi;

/// How many items a block has.
pub const BLOCK: usize = 1024;

mod calls {
    pub type Pack<W> = unsafe extern "C" fn(usize, *const W, usize, *mut W, usize) -> i32;
    pub type UnforPack<W> = unsafe extern "C" fn(usize, *const W, usize, W, *mut W, usize) -> i32;
    pub type Move<W> = unsafe extern "C" fn(*const W, usize, *mut W, usize) -> i32;
    pub type Delta<W> = unsafe extern "C" fn(*const W, usize, *const W, usize, *mut W, usize) -> i32;

    /// The calls of `flcol.h` that have a type of words in their names.
    pub trait Calls: Sized {
        const PACK: Pack<Self>;
        const UNPACK: Pack<Self>;
        const UNFOR_PACK: UnforPack<Self>;
        const TRANSPOSE: Move<Self>;
        const UNTRANSPOSE: Move<Self>;
        const DELTA: Delta<Self>;
        const UNDELTA: Delta<Self>;
    }
}

/// A type of words: `u8` to `u64`. Integers with a sign are packed as the words of their bits.
pub trait Word: Copy + calls::Calls + 'static {
    /// How many lanes a block has, and so how many words a bit of the width takes.
    const LANES: usize;
}

macro_rules! words {
    ($($word:ident: $pack:ident $unpack:ident $unfor_pack:ident $transpose:ident $untranspose:ident $delta:ident $undelta:ident;)+) => {
        $(impl Word for $word {
            const LANES: usize = BLOCK / $word::BITS as usize;
        }

        impl calls::Calls for $word {
            const PACK: calls::Pack<$word> = ffi::$pack;
            const UNPACK: calls::Pack<$word> = ffi::$unpack;
            const UNFOR_PACK: calls::UnforPack<$word> = ffi::$unfor_pack;
            const TRANSPOSE: calls::Move<$word> = ffi::$transpose;
            const UNTRANSPOSE: calls::Move<$word> = ffi::$untranspose;
            const DELTA: calls::Delta<$word> = ffi::$delta;
            const UNDELTA: calls::Delta<$word> = ffi::$undelta;
        })+
    };
}

words! {
    u8: flcol_pack_u8 flcol_unpack_u8 flcol_unfor_pack_u8 flcol_transpose_u8 flcol_untranspose_u8
        flcol_delta_u8 flcol_undelta_u8;
    u16: flcol_pack_u16 flcol_unpack_u16 flcol_unfor_pack_u16 flcol_transpose_u16 flcol_untranspose_u16
        flcol_delta_u16 flcol_undelta_u16;
    u32: flcol_pack_u32 flcol_unpack_u32 flcol_unfor_pack_u32 flcol_transpose_u32 flcol_untranspose_u32
        flcol_delta_u32 flcol_undelta_u32;
    u64: flcol_pack_u64 flcol_unpack_u64 flcol_unfor_pack_u64 flcol_transpose_u64 flcol_untranspose_u64
        flcol_delta_u64 flcol_undelta_u64;
}

/// The first word of blocks, and how many blocks there are.
fn from<W>(blocks: &[[W; BLOCK]]) -> (*const W, usize) {
    (blocks.as_ptr().cast(), blocks.len())
}

/// The first word of blocks that are written, and how many blocks there are.
fn to<W>(blocks: &mut [[W; BLOCK]]) -> (*mut W, usize) {
    (blocks.as_mut_ptr().cast(), blocks.len())
}

/// Packs the low `width` bits of each item, block after block, into `width * LANES` words a block.
///
/// # Errors
/// `WidthTooLarge` where the width is above the bits of the type, `WrongLength` where there are more or fewer words.
pub fn pack<W: Word>(width: usize, items: &[[W; BLOCK]], packed: &mut [W]) -> Result<(), Error> {
    let (items, blocks) = from(items);
    checked(|| unsafe { W::PACK(width, items, blocks, packed.as_mut_ptr(), packed.len()) })
}

/// Writes the items of packed blocks, with their bits from `width` on 0.
///
/// # Errors
/// Those of `pack`.
pub fn unpack<W: Word>(width: usize, packed: &[W], items: &mut [[W; BLOCK]]) -> Result<(), Error> {
    let (items, blocks) = to(items);
    checked(|| unsafe { W::UNPACK(width, packed.as_ptr(), packed.len(), items, blocks) })
}

/// Writes the items of packed blocks plus a reference, modulo 2 to the bits of the type.
///
/// # Errors
/// Those of `pack`.
pub fn unfor_pack<W: Word>(width: usize, packed: &[W], reference: W, items: &mut [[W; BLOCK]]) -> Result<(), Error> {
    let (items, blocks) = to(items);
    checked(|| unsafe { W::UNFOR_PACK(width, packed.as_ptr(), packed.len(), reference, items, blocks) })
}

/// Moves the items of each block to the rows at which deltas are taken: runs of as many items as a word has bits become
/// the lanes.
///
/// # Errors
/// `WrongLength` where there is not room for a block each.
pub fn transpose<W: Word>(items: &[[W; BLOCK]], stored: &mut [[W; BLOCK]]) -> Result<(), Error> {
    let ((items, blocks), (stored, room)) = (from(items), to(stored));
    checked(|| unsafe { W::TRANSPOSE(items, blocks, stored, room) })
}

/// Moves the items of each block back.
///
/// # Errors
/// `WrongLength` where there is not room for a block each.
pub fn untranspose<W: Word>(stored: &[[W; BLOCK]], items: &mut [[W; BLOCK]]) -> Result<(), Error> {
    let ((stored, blocks), (items, room)) = (from(stored), to(items));
    checked(|| unsafe { W::UNTRANSPOSE(stored, blocks, items, room) })
}

/// The difference of each item from the one a row before in its lane, at row 0 from the lane's base, modulo 2 to the bits
/// of the type. There are `LANES` bases for each block.
///
/// # Errors
/// `WrongLength` where there are more or fewer bases, or not room for a block each.
pub fn delta<W: Word>(items: &[[W; BLOCK]], bases: &[W], deltas: &mut [[W; BLOCK]]) -> Result<(), Error> {
    let ((items, blocks), (deltas, room)) = (from(items), to(deltas));
    checked(|| unsafe { W::DELTA(items, blocks, bases.as_ptr(), bases.len(), deltas, room) })
}

/// The items of such differences: at each row the lane's base and the differences up to it.
///
/// # Errors
/// `WrongLength` where there are more or fewer bases, or not room for a block each.
pub fn undelta<W: Word>(deltas: &[[W; BLOCK]], bases: &[W], items: &mut [[W; BLOCK]]) -> Result<(), Error> {
    let ((deltas, blocks), (items, room)) = (from(deltas), to(items));
    checked(|| unsafe { W::UNDELTA(deltas, blocks, bases.as_ptr(), bases.len(), items, room) })
}
