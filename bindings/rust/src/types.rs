//! What an array's items are.

use crate::error::Error;
use crate::item::Item;
use std::fmt;
use std::str::FromStr;

/// A type of items. The number is that of `flcol.h` and of containers. It is printed as in Rust, and read so.
///
/// ```
/// # use flcol::PType;
/// assert_eq!((PType::U32.to_string(), "i64".parse()), ("u32".into(), Ok(PType::I64)));
/// ```
#[derive(Clone, Copy, Debug, PartialEq, Eq, Hash)]
#[non_exhaustive]
#[allow(missing_docs)]
pub enum PType {
    U8 = 0,
    U16 = 1,
    U32 = 2,
    U64 = 3,
    I8 = 4,
    I16 = 5,
    I32 = 6,
    I64 = 7,
    /// Booleans: [`Array::from_bools`](crate::Array::from_bools) makes arrays of them.
    Bool = 8,
}

/// The types by their numbers, with their names.
const TYPES: [(PType, &str); 9] = {
    use PType::*;
    [
        (U8, "u8"),
        (U16, "u16"),
        (U32, "u32"),
        (U64, "u64"),
        (I8, "i8"),
        (I16, "i16"),
        (I32, "i32"),
        (I64, "i64"),
        (Bool, "bool"),
    ]
};

impl PType {
    /// The type without nulls of the items of Rust.
    pub fn of<T: Item>() -> PType {
        T::PTYPE
    }

    /// The type with nulls.
    pub fn nullable(self) -> DType {
        DType { ptype: self, nullable: true }
    }

    fn name(self) -> &'static str {
        TYPES[self as usize].1
    }
}

impl fmt::Display for PType {
    fn fmt(&self, f: &mut fmt::Formatter<'_>) -> fmt::Result {
        f.pad(self.name())
    }
}

/// Refuses what is no name of a type with `UnknownType`.
impl FromStr for PType {
    type Err = Error;

    fn from_str(text: &str) -> Result<PType, Error> {
        TYPES.iter().find(|(_, name)| *name == text).map(|(ptype, _)| *ptype).ok_or(Error::UnknownType)
    }
}

/// A type of items, and whether they may be null. It is printed as `u32` or `u32?`, and read so.
///
/// ```
/// # use flcol::{DType, PType};
/// assert_eq!("u32?".parse(), Ok(PType::U32.nullable()));
/// assert_eq!(DType::from(PType::I8).to_string(), "i8");
/// ```
#[derive(Clone, Copy, Debug, PartialEq, Eq, Hash)]
pub struct DType {
    /// The type of the items that aren't null.
    pub ptype: PType,
    /// Whether items may be null.
    pub nullable: bool,
}

/// What is added to the number of a type where items may be null.
const NULLABLE: u8 = 16;

impl DType {
    pub(crate) fn number(self) -> u8 {
        self.ptype as u8 + if self.nullable { NULLABLE } else { 0 }
    }

    pub(crate) fn of(number: u8) -> Result<DType, Error> {
        let (ptype, _) = TYPES.get(usize::from(number & !NULLABLE)).ok_or(Error::UnknownType)?;
        Ok(DType { ptype: *ptype, nullable: number & NULLABLE != 0 })
    }
}

/// The type without nulls.
impl From<PType> for DType {
    fn from(ptype: PType) -> DType {
        DType { ptype, nullable: false }
    }
}

impl fmt::Display for DType {
    fn fmt(&self, f: &mut fmt::Formatter<'_>) -> fmt::Result {
        match self.nullable {
            true => f.pad(&format!("{}?", self.ptype)),
            false => self.ptype.fmt(f),
        }
    }
}

/// Refuses what is no name of a type with `UnknownType`.
impl FromStr for DType {
    type Err = Error;

    fn from_str(text: &str) -> Result<DType, Error> {
        match text.strip_suffix('?') {
            Some(name) => Ok(name.parse::<PType>()?.nullable()),
            None => Ok(text.parse::<PType>()?.into()),
        }
    }
}

/// How items are compared with a constant, the item on the left. The number is that of `flcol.h`. It is printed as in
/// Rust, and read so or as in SQL.
///
/// ```
/// # use flcol::Op;
/// assert_eq!((Op::NotEq.to_string(), "<>".parse(), "=".parse()), ("!=".into(), Ok(Op::NotEq), Ok(Op::Eq)));
/// ```
#[derive(Clone, Copy, Debug, PartialEq, Eq, Hash)]
#[non_exhaustive]
pub enum Op {
    /// `==`
    Eq = 0,
    /// `!=`
    NotEq = 1,
    /// `>`
    Gt = 2,
    /// `>=`
    Gte = 3,
    /// `<`
    Lt = 4,
    /// `<=`
    Lte = 5,
}

impl fmt::Display for Op {
    fn fmt(&self, f: &mut fmt::Formatter<'_>) -> fmt::Result {
        f.pad(match self {
            Op::Eq => "==",
            Op::NotEq => "!=",
            Op::Gt => ">",
            Op::Gte => ">=",
            Op::Lt => "<",
            Op::Lte => "<=",
        })
    }
}

/// Refuses what is no operator with `BadOperator`.
impl FromStr for Op {
    type Err = Error;

    fn from_str(text: &str) -> Result<Op, Error> {
        match text {
            "==" | "=" => Ok(Op::Eq),
            "!=" | "<>" => Ok(Op::NotEq),
            ">" => Ok(Op::Gt),
            ">=" => Ok(Op::Gte),
            "<" => Ok(Op::Lt),
            "<=" => Ok(Op::Lte),
            _ => Err(Error::BadOperator),
        }
    }
}
