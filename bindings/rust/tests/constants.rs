//! Comparisons with integers of every type, which are compared as numbers, beside plain lists.

use flcol::{Array, Error, Integer, Item, Op};
use std::ops::Bound;

const OPERATORS: [Op; 6] = [Op::Eq, Op::NotEq, Op::Gt, Op::Gte, Op::Lt, Op::Lte];

fn holds(op: Op, item: i128, constant: i128) -> bool {
    match op {
        Op::Eq => item == constant,
        Op::NotEq => item != constant,
        Op::Gt => item > constant,
        Op::Gte => item >= constant,
        Op::Lt => item < constant,
        _ => item <= constant,
    }
}

/// The greatest and the least of each type, and what lies beside them.
fn constants() -> Vec<i128> {
    let bits = [0, 7, 8, 15, 16, 31, 32, 63, 64, 100];
    let powers = bits.map(|bit| 1_i128 << bit);
    let around = powers.iter().flat_map(|power| [power - 1, *power, power + 1, -power - 1, -power, 1 - power]);
    around.chain([i128::MIN, i128::MAX, 3]).collect()
}

fn column<T: Item + TryFrom<u8>>() -> (Array, Vec<Option<T>>) {
    let small = |n| T::try_from(n).ok();
    let items = vec![Some(T::MIN), None, small(0), small(3), small(17), small(127), Some(T::MAX)];
    (Array::from_options(&items).unwrap(), items)
}

fn compares<T: Item + TryFrom<u8> + Into<i128>>() {
    let (array, items) = column::<T>();
    for constant in constants() {
        for op in OPERATORS {
            let expected = items.iter().map(|item| item.map(|item| holds(op, item.into(), constant))).collect();
            assert_eq!(array.compare(op, constant), Ok(expected), "{op} {constant}");
            let met: Vec<T> = items.iter().flatten().copied().filter(|it| holds(op, (*it).into(), constant)).collect();
            assert_eq!(array.count_where(op, constant), Ok(met.len()), "{op} {constant}");
            assert_eq!(array.filter_by(op, constant).unwrap().to_vec::<T>(), Ok(met), "{op} {constant}");
        }
    }
}

fn lies_between<T: Item + TryFrom<u8> + Into<i128>>() {
    let (array, items) = column::<T>();
    let bounds = [i128::MIN, -1 << 63, -(1 << 31) - 1, -1, 0, 3, 127, 128, 1 << 32, u64::MAX.into(), i128::MAX];
    for (lower, upper) in bounds.into_iter().flat_map(|lower| bounds.map(|upper| (lower, upper))) {
        let ranges = [
            (Bound::Included(lower), Bound::Included(upper)),
            (Bound::Excluded(lower), Bound::Excluded(upper)),
            (Bound::Included(lower), Bound::Unbounded),
            (Bound::Unbounded, Bound::Excluded(upper)),
        ];
        for range in ranges {
            let inside = |item: i128| {
                let above = match range.0 {
                    Bound::Included(lower) => item >= lower,
                    Bound::Excluded(lower) => item > lower,
                    Bound::Unbounded => true,
                };
                above
                    && match range.1 {
                        Bound::Included(upper) => item <= upper,
                        Bound::Excluded(upper) => item < upper,
                        Bound::Unbounded => true,
                    }
            };
            let expected = items.iter().map(|item| item.map(|item| inside(item.into()))).collect();
            assert_eq!(array.between(range), Ok(expected), "{range:?}");
            let lying: Vec<T> = items.iter().flatten().copied().filter(|it| inside((*it).into())).collect();
            assert_eq!(array.count_between(range), Ok(lying.len()), "{range:?}");
            assert_eq!(array.filter_between(range).unwrap().to_vec::<T>(), Ok(lying), "{range:?}");
        }
    }
}

macro_rules! for_each_type {
    ($($item:ident),+) => {
        $(mod $item {
            #[test]
            fn compares() { super::compares::<$item>() }
            #[test]
            fn lies_between() { super::lies_between::<$item>() }
        })+
    };
}

for_each_type!(u8, u16, u32, u64, i8, i16, i32, i64);

fn is_above_all(array: &Array, constant: impl Integer) -> bool {
    array.compare(Op::Lt, constant).unwrap().count_true() == array.len()
}

#[test]
fn a_constant_is_of_any_type() {
    let array = Array::new(&[-128_i8, 0, 127]).unwrap();
    assert!(is_above_all(&array, 128_u8) && is_above_all(&array, 128_u16) && is_above_all(&array, u32::MAX));
    assert!(is_above_all(&array, u64::MAX) && is_above_all(&array, u128::MAX) && is_above_all(&array, usize::MAX));
    assert!(is_above_all(&array, 128_i16) && is_above_all(&array, 128) && is_above_all(&array, 128_i64));
    assert!(is_above_all(&array, i128::MAX) && is_above_all(&array, 128_isize) && !is_above_all(&array, 127_i8));
    assert_eq!(array.between(-1000_i64..=-128).unwrap().count_true(), 1);
    assert_eq!(array.between(0..u128::MAX).unwrap().count_true(), 2);
}

#[test]
fn booleans_have_no_constants() {
    let array = Array::try_from([true]).unwrap();
    assert_eq!(array.compare(Op::Eq, 1), Err(Error::NotInteger));
    assert_eq!(array.between(0..2), Err(Error::NotInteger));
}
