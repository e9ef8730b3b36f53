//! Errors beside what the library says of their statuses.

use flcol::{Array, Error, PType};
use std::ffi::{c_char, CStr};

extern "C" {
    fn flcol_status_name(status: i32) -> *const c_char;
    fn flcol_status_message(status: i32) -> *const c_char;
}

/// The name and the sentence of an error's status.
fn said(error: Error) -> (String, String) {
    // SAFETY: the calls take any number, and answer texts that stay.
    let texts = unsafe { [flcol_status_name(error.number()), flcol_status_message(error.number())] };
    let [name, message] = texts.map(|text| unsafe { CStr::from_ptr(text) }.to_str().unwrap().to_string());
    (name, message)
}

#[test]
fn errors_have_the_names_and_sentences_of_their_statuses() {
    let array = Array::new(&[1_u32, 2, 3]).unwrap();
    let refused = [
        array.slice(2..9).unwrap_err(),
        array.take(&[3]).unwrap_err(),
        array.encode("fore").unwrap_err(),
        array.encode("constant").unwrap_err(),
        array.encode("bitpacked:33").unwrap_err(),
        array.to_vec::<u8>().unwrap_err(),
        Array::from_bytes(b"FLC").unwrap_err(),
        Array::from_options(&[None::<u32>]).and_then(|nulls| nulls.cast(PType::U32)).unwrap_err(),
    ];
    for error in refused.into_iter().chain([Error::OutOfMemory, Error::NoArray, Error::BadOperator, Error::Stream]) {
        assert_eq!((format!("{error:?}"), error.to_string()), said(error));
    }
}
