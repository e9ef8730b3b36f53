//! Why a call gives no result.

use crate::ffi;
use std::fmt;
use std::sync::OnceLock;

macro_rules! errors {
    ($($(#[doc = $doc:literal])+ $name:ident = $number:literal, $text:literal;)+) => {
        /// Why a call gives no result. After an error all that was passed to the call is as it was.
        #[derive(Clone, Copy, Debug, PartialEq, Eq, Hash)]
        #[non_exhaustive]
        pub enum Error {
            $($(#[doc = $doc])+ $name,)+
            /// The library that is linked has this version of its interface, which is not the one of this crate.
            LibraryVersion(u32),
            /// The items are not sorted, and only sorted ones are searched.
            NotSorted,
            /// A status that this crate has no name for.
            Other(i32),
        }

        impl Error {
            /// The status of `flcol.h` that stands for it, -1 for `LibraryVersion` and `NotSorted`, which are no status.
            pub fn number(self) -> i32 {
                match self {
                    $(Error::$name => $number,)+
                    Error::LibraryVersion(_) | Error::NotSorted => -1,
                    Error::Other(number) => number,
                }
            }

            fn of(status: i32) -> Error {
                match status {
                    $($number => Error::$name,)+
                    _ => Error::Other(status),
                }
            }
        }

        impl fmt::Display for Error {
            fn fmt(&self, f: &mut fmt::Formatter<'_>) -> fmt::Result {
                match self {
                    $(Error::$name => f.write_str($text),)+
                    Error::LibraryVersion(found) => {
                        write!(f, "libflcol has version {found} of its interface, and {} is needed", ffi::ABI_VERSION)
                    }
                    Error::NotSorted => f.write_str("the items are not sorted, and only sorted ones are searched"),
                    Error::Other(number) => write!(f, "status {number}"),
                }
            }
        }
    };
}

errors! {
    /// A request for memory was refused.
    OutOfMemory = 1, "a request for memory was refused";
    /// The array or the type is of booleans, where integers are needed.
    NotInteger = 2, "the array or the type is of booleans, where integers are needed";
    /// An item is below 0.
    NegativeValue = 3, "an item is below 0";
    /// A width is too large for the type of the items.
    WidthTooLarge = 4, "a width is too large for the type of the items";
    /// Each block needs all bits of the type, so that nothing can be packed.
    AllBlocksNative = 5, "each block needs all bits of the type, so that nothing can be packed";
    /// There is not one width for each block of 1024 items.
    BlockCount = 6, "there is not one width for each block of 1024 items";
    /// An offset into the first block is not below 1024.
    OffsetTooLarge = 7, "an offset into the first block is not below 1024";
    /// There would be more items than a length can count.
    LengthOverflow = 8, "there would be more items than a length can count";
    /// The validity bitmap is too short for the items, or is missing where an item is null.
    ValidityLength = 9, "the validity bitmap is too short for the items, or is missing where an item is null";
    /// The indices or the chunk offsets of patches are not unsigned without nulls, or their values are of another type.
    PatchType = 10, "the indices or the chunk offsets of patches are not unsigned without nulls, or their values are of another type";
    /// The indices, values and chunk offsets of patches have lengths that don't fit one another.
    PatchLength = 11, "the indices, values and chunk offsets of patches have lengths that don't fit one another";
    /// The indices of patches don't rise or lie outside of the array, a value is null, or a chunk offset is wrong.
    PatchContent = 12, "the indices of patches don't rise or lie outside of the array, a value is null, or a chunk offset is wrong";
    /// A packed buffer doesn't have the length that its items need.
    PackedLength = 13, "a packed buffer doesn't have the length that its items need";
    /// Block boundaries or run offsets are not unsigned integers without nulls.
    BlockOffsetsType = 14, "block boundaries or run offsets are not unsigned integers without nulls";
    /// There is not one more block boundary than blocks, or not one run offset for each chunk.
    BlockOffsetsCount = 15, "there is not one more block boundary than blocks, or not one run offset for each chunk";
    /// Two neighbouring block boundaries enclose no block of any width.
    BlockBoundary = 16, "two neighbouring block boundaries enclose no block of any width";
    /// The block boundaries don't span the packed buffer.
    BlockSpan = 17, "the block boundaries don't span the packed buffer";
    /// Two types of items differ that have to be the same.
    TypeMismatch = 18, "two types of items differ that have to be the same";
    /// A reference is null.
    NullReference = 19, "a reference is null";
    /// There is not one reference for each chunk.
    ReferenceCount = 20, "there is not one reference for each chunk";
    /// A column without an item that is not null has no minimum.
    NoMinimum = 21, "a column without an item that is not null has no minimum";
    /// A child may have nulls where none are allowed.
    ChildNullable = 22, "a child may have nulls where none are allowed";
    /// A child's length is no multiple of 1024, or doesn't fit that of another child.
    ChildLength = 23, "a child's length is no multiple of 1024, or doesn't fit that of another child";
    /// The items of the array reach beyond the end of its child.
    RangeBeyondChild = 24, "the items of the array reach beyond the end of its child";
    /// The run indices are neither of 8 nor of 16 unsigned bits.
    RunIndexType = 25, "the run indices are neither of 8 nor of 16 unsigned bits";
    /// The run offsets fall, or give a chunk no run or more than 1024.
    RunOffsets = 26, "the run offsets fall, or give a chunk no run or more than 1024";
    /// A run index is not below the number of runs of its chunk.
    RunIndex = 27, "a run index is not below the number of runs of its chunk";
    /// A histogram of widths has more than 255 entries.
    TooManyWidths = 28, "a histogram of widths has more than 255 entries";
    /// The array has a width for each block, where one for all is needed.
    NotGlobal = 29, "the array has a width for each block, where one for all is needed";
    /// An index is not below the number of items.
    IndexOutOfBounds = 30, "an index is not below the number of items";
    /// A range reaches beyond the last item, or starts behind its end.
    RangeOutOfBounds = 31, "a range reaches beyond the last item, or starts behind its end";
    /// The mask is not as long as the array.
    MaskLength = 32, "the mask is not as long as the array";
    /// An item is null, and the type that is asked for has no nulls.
    CastNull = 33, "an item is null, and the type that is asked for has no nulls";
    /// An item doesn't fit the type that is asked for, or two items differ where a constant is asked for.
    CastOutOfRange = 34, "an item doesn't fit the type that is asked for, or two items differ where a constant is asked for";
    /// The container names an encoding that is not known.
    UnknownId = 35, "the container names an encoding that is not known";
    /// The metadata of an array in the container are malformed.
    BadMetadata = 36, "the metadata of an array in the container are malformed";
    /// The type of items is not known.
    UnknownType = 37, "the type of items is not known";
    /// An array in the container has more or fewer buffers than its encoding.
    BufferCount = 38, "an array in the container has more or fewer buffers than its encoding";
    /// An array in the container has more or fewer children than its encoding.
    ChildCount = 39, "an array in the container has more or fewer children than its encoding";
    /// A child in the container doesn't have the type or the length that its place needs.
    ChildMismatch = 40, "a child in the container doesn't have the type or the length that its place needs";
    /// The bytes are no container, or the array is nested too deep for one.
    BadContainer = 42, "the bytes are no container, or the array is nested too deep for one";
    /// There is no array.
    NoArray = 100, "there is no array";
    /// The items of the array are of another type.
    WrongType = 101, "the items of the array are of another type";
    /// A buffer doesn't have the length that is needed.
    WrongLength = 102, "a buffer doesn't have the length that is needed";
    /// The text says no scheme, or nests too deep.
    BadScheme = 103, "the text says no scheme, or nests too deep";
    /// The operator of comparison is not known.
    BadOperator = 104, "the operator of comparison is not known";
    /// The stream failed.
    Stream = 105, "the stream failed";
    /// A bit stands for no encoding.
    BadEncodings = 106, "a bit stands for no encoding";
    /// The file has fewer bytes than a file of chunks.
    FileTooShort = 107, "the file has fewer bytes than a file of chunks";
    /// The file doesn't begin or end as a file of chunks does, or was not finished.
    BadMark = 108, "the file doesn't begin or end as a file of chunks does, or was not finished";
    /// The foot of the file can't have the length that stands there.
    BadFootLength = 109, "the foot of the file can't have the length that stands there";
    /// The bytes of the file's foot are not those that its checksum is of.
    BadFootChecksum = 110, "the bytes of the file's foot are not those that its checksum is of";
    /// A field of the foot is out of its range, or the foot names no type.
    BadField = 111, "a field of the foot is out of its range, or the foot names no type";
    /// A chunk doesn't lie where chunks of the file can lie.
    BadPlace = 112, "a chunk doesn't lie where chunks of the file can lie";
    /// The bytes of a chunk are not those that its checksum is of.
    BadChunk = 113, "the bytes of a chunk are not those that its checksum is of";
    /// The file would have 2^63 bytes or more.
    FileTooLong = 114, "the file would have 2^63 bytes or more";
    /// The statistics of a chunk are not those of its items.
    BadStatistics = 115, "the statistics of a chunk are not those of its items";
}

impl std::error::Error for Error {}

/// Whether the linked library has the version of the interface that this crate is written for. It is asked once.
fn check_version() -> Result<(), Error> {
    static FOUND: OnceLock<u32> = OnceLock::new();
    // SAFETY: the call asks for nothing.
    match *FOUND.get_or_init(|| unsafe { ffi::flcol_abi_version() }) {
        ffi::ABI_VERSION => Ok(()),
        found => Err(Error::LibraryVersion(found)),
    }
}

/// What the status of a call says. Nothing is called of a library of another version.
pub(crate) fn checked(call: impl FnOnce() -> i32) -> Result<(), Error> {
    check_version()?;
    match call() {
        0 => Ok(()),
        status => Err(Error::of(status)),
    }
}
