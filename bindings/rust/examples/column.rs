//! Columns of text to containers and back, with the words of the program `flcol`:
//!
//!     column encode i32? 'for(bitpacked)' < lines > container
//!     column decode < container > lines
//!
//! and to files of chunks of so many items, which are decoded in the same way:
//!
//!     column write i32? 1000 < lines > file

use flcol::{Array, DType, File, Item, PType, Writer};
use std::error::Error;
use std::fmt::{Display, Write as _};
use std::io::{self, Read, Write};
use std::num::NonZeroUsize;
use std::str::FromStr;

type Outcome<T> = Result<T, Box<dyn Error>>;

/// Calls a function at the type that a name says.
macro_rules! at_type {
    ($ptype:expr, $call:ident($($argument:expr),*)) => {
        match $ptype {
            PType::U8 => $call::<u8>($($argument),*),
            PType::U16 => $call::<u16>($($argument),*),
            PType::U32 => $call::<u32>($($argument),*),
            PType::U64 => $call::<u64>($($argument),*),
            PType::I8 => $call::<i8>($($argument),*),
            PType::I16 => $call::<i16>($($argument),*),
            PType::I32 => $call::<i32>($($argument),*),
            PType::I64 => $call::<i64>($($argument),*),
            _ => Err("not a column of integers".into()),
        }
    };
}

/// The array of lines of decimal digits, or `null` where items may be null.
fn parse<T: Item + FromStr>(lines: &str, nullable: bool) -> Outcome<Array>
where
    T::Err: Error + 'static,
{
    let item = |line: &str| match line {
        "null" if nullable => Ok(None),
        digits => digits.parse().map(Some),
    };
    let items = lines.lines().map(item).collect::<Result<Vec<Option<T>>, T::Err>>()?;
    if nullable {
        return Ok(Array::from_options(&items)?);
    }
    Ok(Array::new(&items.into_iter().flatten().collect::<Vec<T>>())?)
}

fn print<T: Item + Display>(array: &Array) -> Outcome<String> {
    let mut lines = String::new();
    for item in array.iter::<T>() {
        match item? {
            Some(value) => writeln!(lines, "{value}")?,
            None => lines.push_str("null\n"),
        }
    }
    Ok(lines)
}

fn run(words: &[String]) -> Outcome<Vec<u8>> {
    let mut input = Vec::new();
    io::stdin().read_to_end(&mut input)?;
    match words.iter().map(String::as_str).collect::<Vec<_>>()[..] {
        ["encode", word, scheme] => {
            let (dtype, lines) = (word.parse::<DType>()?, String::from_utf8(input)?);
            let array = at_type!(dtype.ptype, parse(&lines, dtype.nullable))?;
            Ok(array.encode(scheme)?.to_bytes()?)
        }
        ["write", word, chunk] => {
            let (dtype, lines, chunk) =
                (word.parse::<DType>()?, String::from_utf8(input)?, chunk.parse::<NonZeroUsize>()?.get());
            let array = at_type!(dtype.ptype, parse(&lines, dtype.nullable))?;
            let mut writer = Writer::new(Vec::new(), dtype)?;
            for start in (0..array.len()).step_by(chunk) {
                writer.append(&array.slice(start..array.len().min(start + chunk))?.compress()?)?;
            }
            Ok(writer.finish()?)
        }
        ["decode"] => {
            let file = File::new(&input)?;
            let parts = file.arrays().map(|array| at_type!(file.dtype().ptype, print(&array?)));
            Ok(parts.collect::<Outcome<String>>()?.into_bytes())
        }
        _ => Err("usage: column encode TYPE SCHEME | column write TYPE CHUNK | column decode".into()),
    }
}

fn main() -> Outcome<()> {
    let words: Vec<String> = std::env::args().skip(1).collect();
    Ok(io::stdout().write_all(&run(&words)?)?)
}
