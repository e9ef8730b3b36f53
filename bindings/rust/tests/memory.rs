//! Memory that is refused is an error: what the crate asks for by a length that others say never ends the program.

use flcol::{Array, Bitmap, Error, Op};
use std::alloc::{GlobalAlloc, Layout, System};
use std::ptr;

/// How many bytes are given at once.
const MOST: usize = 1 << 20;

/// The memory of the system, of which no more is given.
struct Limited;

// SAFETY: what it gives is the system's.
unsafe impl GlobalAlloc for Limited {
    unsafe fn alloc(&self, layout: Layout) -> *mut u8 {
        if layout.size() > MOST {
            return ptr::null_mut();
        }
        System.alloc(layout)
    }

    unsafe fn dealloc(&self, memory: *mut u8, layout: Layout) {
        System.dealloc(memory, layout);
    }
}

#[global_allocator]
static MEMORY: Limited = Limited;

const REFUSED: Option<Error> = Some(Error::OutOfMemory);

#[test]
fn what_is_refused_is_an_error() {
    for len in (24..64).map(|bit| 1 << bit) {
        let array = Array::constant(Some(7_u64), len).unwrap();
        assert_eq!(array.to_vec::<u64>().err(), REFUSED);
        assert_eq!(array.to_options::<u64>().err(), REFUSED);
        assert_eq!(array.compare(Op::Lt, 9).err(), REFUSED);
        assert_eq!(array.compare(Op::Lt, -9).err(), REFUSED);
        assert_eq!(array.between(3..9).err(), REFUSED);
        assert_eq!(Bitmap::try_zeros(len).err(), REFUSED);
        assert_eq!(Array::try_from_iter((0..len).map(|_| true)).err(), REFUSED);
        assert_eq!(array.split(len).err(), REFUSED);
        assert_eq!(array.iter::<u64>().nth(len - 1), Some(Ok(Some(7))));
        assert_eq!(array.chunks::<u64>().next_chunk().unwrap().unwrap().values()[0], 7);
    }
}

#[test]
fn what_is_long_is_written_nowhere() {
    let array = Array::constant(Some(7_u8), 2 * MOST).unwrap().encode("primitive").unwrap();
    assert_eq!(array.to_bytes().err(), REFUSED);
    assert_eq!(array.slice(..MOST / 2).unwrap().to_bytes().map(|bytes| bytes.len() > MOST / 2), Ok(true));
    assert_eq!(Array::try_from_iter((0..2 * MOST).filter(|_| true).map(|i| i as u8)).err(), REFUSED);
}
