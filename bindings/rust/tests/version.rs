//! A library of another version is refused, and nothing else of it is called. What is linked statically can't be one.
#![cfg(feature = "dynamic")]

use flcol::blocks;
use flcol::{Array, Bitmap, Error};
use std::panic;

/// Stands before the library's own.
#[no_mangle]
extern "C" fn flcol_abi_version() -> u32 {
    7
}

#[test]
fn another_version_is_refused() {
    let refused = Error::LibraryVersion(7);
    assert_eq!(Array::new(&[1_u8]).err(), Some(refused));
    assert_eq!(Array::from_bytes(b"FLC1").err(), Some(refused));
    assert_eq!(Array::try_from(vec![Some(true)]).err(), Some(refused));
    assert_eq!(blocks::pack(0, &[[0_u8; 1024]], &mut []), Err(refused));
    assert!(refused.to_string().starts_with("libflcol has version 7 of its interface, and "));
    assert_eq!(refused.number(), -1);
    let panicked = panic::catch_unwind(|| Bitmap::zeros(3).count_ones()).unwrap_err();
    assert_eq!(panicked.downcast_ref::<String>(), Some(&refused.to_string()));
}
