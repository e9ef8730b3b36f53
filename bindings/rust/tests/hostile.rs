//! Containers from strangers: whatever they claim, the answer is an array that can be asked, or an error. No call aborts,
//! and what needs memory for more items than there is memory for answers `OutOfMemory`.

mod common;

use common::{constant, container, number, Node};
use flcol::{Answers, Array, Bitmap, DType, Error, Item, Op, PType};
use std::ops::{Bound, Range};

const LENGTHS: [u64; 3] = [u64::MAX, 1 << 62, 1 << 50];
const INTEGERS: [PType; 8] =
    [PType::U8, PType::U16, PType::U32, PType::U64, PType::I8, PType::I16, PType::I32, PType::I64];
const SCHEMES: [&str; 8] = [
    "primitive",
    "constant",
    "bitpacked",
    "blocked",
    "for(bitpacked)",
    "forc(blocked,_)",
    "delta",
    "rle(_,bitpacked,_)",
];

/// Nodes of few bytes that claim to have so many items.
fn claims(dtype: DType, len: u64) -> Vec<Vec<u8>> {
    let plain = DType::from(dtype.ptype);
    let unsigned = |len| constant(PType::U32.into(), len);
    let chunks = len.div_ceil(1024);
    let node = |id, metadata: &[u8], buffers: &[&[u8]], children: &[Vec<u8>]| {
        Node { id, dtype: number(dtype), len, metadata, buffers, children }.bytes()
    };
    let packed = node("fastlanes.bitpacked", &[], &[&[]], &[]);
    let blocked = node("fastlanes.bitpacked.v2", &[16, 2], &[&[]], &[unsigned(chunks.saturating_add(1))]);
    let lanes = 128 >> (number(plain) % 4);
    let mut delta_metadata = vec![8];
    delta_metadata.extend(varint(len / 1024 * 1024));
    vec![
        constant(dtype, len),
        node("fastlanes.for", &[24, 2, 32, 1], &[], &[constant(dtype, len)]),
        node("fastlanes.for", &[24, 2, 32, 1], &[], std::slice::from_ref(&packed)),
        node("fastlanes.for.v2", &[], &[], &[packed.clone(), constant(plain, chunks)]),
        node(
            "fastlanes.delta",
            &delta_metadata,
            &[],
            &[constant(plain, (len / 1024).saturating_mul(lanes)), constant(plain, len / 1024 * 1024)],
        ),
        packed,
        blocked,
    ]
}

fn varint(mut number: u64) -> Vec<u8> {
    let mut bytes = Vec::new();
    while number > 127 {
        bytes.push(number as u8 | 128);
        number >>= 7;
    }
    bytes.push(number as u8);
    bytes
}

/// Calls a function at the type of an array's items.
macro_rules! at_type {
    ($array:expr, $call:ident) => {
        match $array.dtype().ptype {
            PType::U8 => $call::<u8>($array),
            PType::U16 => $call::<u16>($array),
            PType::U32 => $call::<u32>($array),
            PType::U64 => $call::<u64>($array),
            PType::I8 => $call::<i8>($array),
            PType::I16 => $call::<i16>($array),
            PType::I32 => $call::<i32>($array),
            PType::I64 => $call::<i64>($array),
            _ => assert_eq!($array.to_answers().map(|answers| answers.len()), Ok($array.len())),
        }
    };
}

/// Asks an array of more items than there is memory for.
fn ask_huge<T: Item>(array: &Array) {
    let (len, last) = (array.len(), array.len() as u64 - 1);
    assert_eq!(array.to_vec::<T>().err(), Some(Error::OutOfMemory));
    assert_eq!(array.to_options::<T>().err(), Some(Error::OutOfMemory));
    assert_eq!(array.compare(Op::Lt, 3), Err(Error::OutOfMemory));
    assert_eq!(array.compare(Op::Lt, -1_000_000), Err(Error::OutOfMemory));
    assert_eq!(array.between(1..3), Err(Error::OutOfMemory));
    assert_eq!(array.take_ranges(&[0..len, 0..0]).err(), Some(Error::OutOfMemory));
    assert_eq!(array.to_answers(), Err(Error::WrongType));
    assert_eq!(Answers::try_from(array), Err(Error::WrongType));
    assert_eq!(array.read_into::<T>(&mut []), Err(Error::WrongLength));
    assert_eq!(array.read_with_validity(&mut [T::MIN; 9]), Err(Error::WrongLength));
    assert_eq!(array.filter(&Bitmap::zeros(9)).err(), Some(Error::MaskLength));
    assert_eq!(array.get::<T>(len).err(), Some(Error::IndexOutOfBounds));

    let first = array.get::<T>(0).unwrap();
    assert_eq!(array.get::<T>(len - 1).unwrap().is_some(), first.is_some());
    assert_eq!(array.slice(len - 7..).unwrap().to_options::<T>().unwrap().len(), 7);
    assert_eq!(array.split(3).unwrap().iter().map(Array::len).sum::<usize>(), len);
    assert_eq!(array.take(&[0, last]).unwrap().get::<T>(0).unwrap(), first);
    assert_eq!(array.take_options(&[None, Some(last)]).unwrap().get::<T>(0), Ok(None));
    assert!(array.iter::<T>().next() == Some(Ok(first)));
    assert!(array.iter::<T>().nth(20_000).is_some());
    assert!(array.chunks::<T>().next_chunk().unwrap().is_some_and(|chunk| chunk.iter().next() == Some(first)));
    assert_eq!(array.equals(&array.slice(1..).unwrap()), Ok(false));
    assert_eq!(format!("{array:?}"), format!("Array({}, {len})", array.dtype()));

    ask_huge_totals(array, first);
    let again = Array::from_bytes(&array.to_bytes().unwrap()).unwrap();
    assert_eq!((again.len(), again.to_string()), (len, array.to_string()));
    let _ = (array.nbytes(), array.null_count(), array.is_constant(), array.is_sorted(), array.is_strictly_sorted());
    let _ = (array.cast(PType::U64.nullable()), array.to_blocked(), array.compress());
    let _ = SCHEMES.map(|scheme| array.encode(scheme));
}

/// What is gathered of all items is known of a constant, and the items of any other array have no room. Chosen ones have none
/// of either.
fn ask_huge_totals<T: Item>(array: &Array, first: Option<T>) {
    let valid = if first.is_some() { array.len() } else { 0 };
    let refused = |error: Option<Error>| error == Some(Error::OutOfMemory);
    if array.to_string() == "constant" {
        assert_eq!(array.min_max(), Ok(first.zip(first)));
        assert_eq!(array.count_where(Op::Gte, T::MIN), Ok(valid));
        assert_eq!(array.count_between(T::MIN..), Ok(valid));
        assert_eq!(array.count_where(Op::Lt, T::MIN), Ok(0));
        assert!(array.sum::<T>().is_ok());
        assert_eq!(array.lower_bound(i128::MAX), Ok(array.len()));
        assert!(array.lower_bound(T::MIN).is_ok());
    } else {
        assert!(refused(array.min_max::<T>().err()) && refused(array.sum::<T>().err()));
        assert!(refused(array.count_where(Op::Lt, 3).err()) && refused(array.count_between(1..3).err()));
    }
    assert!(refused(array.is_in(&[3]).err()));
    assert_eq!(array.count_under(&Bitmap::zeros(9), Op::Lt, 3).err(), Some(Error::MaskLength));
    assert_eq!(array.compare_under(&Bitmap::zeros(9), Op::Lt, 3).err(), Some(Error::MaskLength));
    assert!(valid == 0 || refused(array.filter_by(Op::Gte, T::MIN).err()));
    assert!(valid == 0 || refused(array.filter_between(T::MIN..).err()));
}

/// Asks an array of few items for all that it can do.
fn ask_few<T: Item>(array: &Array) {
    let items = array.to_options::<T>().unwrap();
    assert_eq!(array.null_count(), Ok(items.iter().filter(|item| item.is_none()).count()));
    assert!(array.iter::<T>().eq(items.iter().copied().map(Ok)));
    assert!(array.equals(&Array::from_bytes(&array.to_bytes().unwrap()).unwrap()).unwrap());
    let threes = array.compare(Op::Eq, 3).unwrap();
    assert_eq!(threes.null_count(), array.null_count().unwrap());
    assert_eq!(array.filter(threes.as_mask()).unwrap().len(), threes.count_true());
    assert_eq!(array.count_where(Op::Eq, 3), Ok(threes.count_true()));
    assert_eq!(array.filter_by(Op::Eq, 3).unwrap().len(), threes.count_true());
    let mask = threes.as_mask();
    assert_eq!(array.count_under(mask, Op::Eq, 3), Ok(mask.count_ones()));
    assert_eq!(array.compare_under(mask, Op::Lte, 3).as_ref(), Ok(mask));
    assert_eq!(array.between_under(mask, 4..), Ok(Bitmap::zeros(mask.len())));
    assert_eq!(array.is_in(&[3]).unwrap(), threes);
    assert_eq!(mask.indices().unwrap().len(), mask.count_ones());
    assert_eq!(array.min_max_under::<T>(mask).unwrap().is_some(), mask.count_ones() > 0);
    assert!(array.sum_under::<T>(mask).is_ok() && array.lower_bound(3).map_or(true, |index| index <= items.len()));
    let known = || items.iter().flatten().copied();
    assert_eq!(array.min_max(), Ok(known().min().zip(known().max())));
    let _ = (array.nbytes(), array.is_constant(), array.is_sorted(), array.to_blocked(), array.to_string());
    let _ = (array.encode("for(bitpacked)"), array.sum::<T>());
}

/// Asks the array of a container, if the bytes are one. Those in between might get their memory, and take long.
fn ask(container: &[u8]) {
    let Ok(array) = Array::from_bytes(container) else { return };
    match array.len() {
        0..0x800 => at_type!(&array, ask_few),
        len if len >= 1 << 48 && array.dtype().ptype != PType::Bool => at_type!(&array, ask_huge),
        _ => (),
    }
}

#[test]
fn few_bytes_claim_any_length() {
    let mut arrays = 0;
    for dtype in INTEGERS.into_iter().flat_map(|ptype| [ptype.into(), ptype.nullable()]) {
        for claim in LENGTHS.into_iter().flat_map(|len| claims(dtype, len)) {
            arrays += usize::from(Array::from_bytes(&container(&claim)).is_ok());
            ask(&container(&claim));
        }
    }
    assert!(arrays >= 16 * LENGTHS.len(), "{arrays} arrays");
}

#[test]
fn constants_of_any_length() {
    let array = Array::constant(Some(7_u16), usize::MAX).unwrap();
    assert_eq!(container(&constant(PType::I64.into(), u64::MAX)).len(), 37);
    ask_huge::<u16>(&array);
    ask_huge::<i32>(&Array::constant(None::<i32>, usize::MAX).unwrap());
}

/// The containers of a few items by each scheme.
fn worked() -> Vec<Vec<u8>> {
    let items = [Some(3_i32), None, Some(3), Some(90), None, Some(7), Some(0)];
    let arrays = [Array::from_options(&items), Array::try_from([5_u8, 5, 5]), Array::try_from_iter([Some(true), None])];
    let arrays: Vec<Array> = arrays.into_iter().map(Result::unwrap).collect();
    let encoded = arrays.iter().flat_map(|array| SCHEMES.iter().filter_map(|scheme| array.encode(scheme).ok()));
    encoded.chain([arrays[2].try_clone().unwrap()]).map(|array| array.to_bytes().unwrap()).collect()
}

#[test]
fn every_length_changed() {
    for container in worked() {
        // A length of the container is some byte and seven of 0.
        for at in (4..container.len() - 8).filter(|at| container[*at] != 0 && container[at + 1..at + 8] == [0; 7]) {
            for len in LENGTHS {
                let mut changed = container.clone();
                changed[at..at + 8].copy_from_slice(&len.to_le_bytes());
                ask(&changed);
            }
        }
    }
}

#[test]
fn every_byte_changed_and_every_cut() {
    for container in worked() {
        ask(&container);
        for at in 0..container.len() {
            assert_eq!(Array::from_bytes(&container[..at]).err(), Some(Error::BadContainer));
            if container[at] == 0 && at % 16 != 0 {
                continue; // most of them items behind the last one
            }
            for byte in [container[at] ^ 255, container[at].wrapping_add(1)] {
                let mut changed = container.clone();
                changed[at] = byte;
                ask(&changed);
            }
        }
    }
}

#[test]
fn ranges_and_indices_that_no_array_has() {
    let array = Array::try_from([1_u8, 2, 3]).unwrap();
    let out_of_bounds = Some(Error::RangeOutOfBounds);
    assert_eq!(array.slice(..usize::MAX).err(), out_of_bounds);
    assert_eq!(array.slice(..=usize::MAX).err(), out_of_bounds);
    assert_eq!(array.slice((Bound::Excluded(usize::MAX), Bound::Unbounded)).err(), out_of_bounds);
    assert_eq!(array.slice(Range { start: 2, end: 1 }).err(), out_of_bounds);
    assert_eq!(array.take_ranges(&[0..1, 1..usize::MAX]).err(), out_of_bounds);
    assert_eq!(array.take_ranges(&[usize::MAX - 1..usize::MAX, 7..7]).err(), out_of_bounds);
    assert_eq!(array.take(&[u64::MAX]).err(), Some(Error::IndexOutOfBounds));
    assert_eq!(array.take_options(&[Some(0), Some(1 << 63)]).err(), Some(Error::IndexOutOfBounds));
    assert_eq!(array.get::<u8>(usize::MAX).err(), Some(Error::IndexOutOfBounds));
    assert_eq!(array.iter::<u8>().nth(usize::MAX), None);
}

#[test]
fn schemes_that_are_none() {
    let array = Array::try_from([1_u8, 2, 3]).unwrap();
    for scheme in
        ["", " ", "for(", "for)", "for()", "bitpacked:", "bitpacked:-1", "for\0", "F\u{fc}r", "for(bitpacked) "]
    {
        assert_eq!(array.encode(scheme).err(), Some(Error::BadScheme), "{scheme:?}");
    }
}

#[test]
fn lengths_that_no_memory_has() {
    assert_eq!(Bitmap::try_zeros(usize::MAX), Err(Error::OutOfMemory));
    assert_eq!(Bitmap::from_bytes(vec![255; 2], usize::MAX), Err(Error::WrongLength));
    assert_eq!(Array::try_from_iter(0..u64::MAX).err(), Some(Error::OutOfMemory));
}
