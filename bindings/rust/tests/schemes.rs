//! Texts of schemes from strangers: however deep, none exhausts the stack.

use flcol::{Array, Error};
use std::thread;

/// Encodings with what stands behind their first child.
const WORDS: [(&str, &str); 5] =
    [("for", ")"), ("forc", ",_)"), ("delta", ",_)"), ("rle", ",_,_)"), ("dict", ",_,_)")];

/// So many words in one another.
fn nested((word, rest): (&str, &str), words: usize) -> String {
    format!("{}{word}{}", format!("{word}(").repeat(words - 1), rest.repeat(words - 1))
}

#[test]
fn the_fifteenth_word_is_refused() {
    let array = Array::try_from([Some(1_u32), None, Some(3)]).unwrap();
    for word in WORDS {
        for words in [15, 16, 17, 300, 200_000] {
            assert_eq!(array.encode(&nested(word, words)).err(), Some(Error::BadScheme), "{word:?}, {words} words");
        }
    }
}

#[test]
fn the_deepest_texts_need_little_stack() {
    let ask = || {
        let plain = Array::try_from_iter((0..3000_u32).map(|i| i % 700)).unwrap();
        for text in (1..=14).flat_map(|words| WORDS.map(|word| nested(word, words))) {
            let array = plain.encode(&text).unwrap_or_else(|error| panic!("{text}: {error}"));
            assert!(array.equals(&plain).unwrap());
            let bytes = array.to_bytes().unwrap_or_else(|error| panic!("{text}: {error}"));
            assert!(Array::from_bytes(&bytes).unwrap().equals(&plain).unwrap());
        }
    };
    thread::Builder::new().stack_size(1 << 20).spawn(ask).unwrap().join().unwrap();
}
