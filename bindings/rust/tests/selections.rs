//! What is asked under a mask, which items are among others, where a value stands in sorted ones, beside plain lists.

use flcol::{Array, Bitmap, Error, Item, Op, PType};

const SCHEMES: [&str; 6] =
    ["primitive", "bitpacked", "for(bitpacked)", "delta(bitpacked,_)", "rle", "dict(for(bitpacked),bitpacked,_)"];
const LENGTHS: [usize; 4] = [0, 1, 1025, 3000];
const OPS: [(Op, [bool; 3]); 6] = [
    (Op::Eq, [false, true, false]),
    (Op::NotEq, [true, false, true]),
    (Op::Gt, [false, false, true]),
    (Op::Gte, [false, true, true]),
    (Op::Lt, [true, false, false]),
    (Op::Lte, [true, true, false]),
];

/// Small items in runs, of which some are null.
fn items<T: Item + From<u8>>(len: usize) -> Vec<Option<T>> {
    (0..len).map(|i| (i / 3 % 7 != 2).then(|| T::from((i * i / 5 % 90) as u8))).collect()
}

/// The array of some items in each scheme.
fn arrays<T: Item>(items: &[Option<T>]) -> Vec<Array> {
    let plain = Array::from_options(items).unwrap();
    SCHEMES.iter().filter_map(|scheme| plain.encode(scheme).ok()).chain([plain.compress().unwrap()]).collect()
}

fn masks(len: usize) -> Vec<Bitmap> {
    let every: [fn(usize) -> bool; 5] =
        [|_| true, |_| false, |i| i % 3 == 1, |i| i / 1024 == 1, |i| (1000..1040).contains(&i)];
    every.iter().map(|is_set| (0..len).map(is_set).collect()).collect()
}

fn asks<T: Item + From<u8>>(array: &Array, items: &[Option<T>]) {
    for mask in masks(items.len()) {
        let kept: Vec<T> = items.iter().zip(&mask).filter_map(|(item, is_kept)| item.filter(|_| is_kept)).collect();
        let chosen = array.filter(&mask).unwrap();
        assert_eq!(array.sum_under::<T>(&mask), chosen.sum::<T>());
        assert_eq!(array.min_max_under(&mask), Ok(kept.iter().copied().min().zip(kept.iter().copied().max())));
        for (op, met) in OPS {
            // Whether it holds of an item that is below the constant, equal, or above.
            let count = kept
                .iter()
                .filter(|item| met[(**item >= T::from(30)) as usize + (**item > T::from(30)) as usize])
                .count();
            assert_eq!(array.count_under(&mask, op, 30), Ok(count), "{op}");
            let holds = |item: T| met[(item >= T::from(30)) as usize + (item > T::from(30)) as usize];
            assert_eq!(array.compare_under(&mask, op, 30), Ok(passing(items, &mask, holds)), "{op}");
        }
        ranges(array, items, &mask);
        assert_eq!(array.compare_under(&mask, Op::Gte, i128::MIN), Ok(passing(items, &mask, |_| true)));
        assert_eq!(array.compare_under(&mask, Op::Gt, i128::MAX), Ok(Bitmap::zeros(items.len())));
        assert_eq!(array.count_under(&mask, Op::Lt, i128::MAX), Ok(kept.len()));
        assert_eq!(array.count_under(&mask, Op::Lt, i128::MIN), Ok(0));
        let positions: Vec<u64> = (0..items.len()).filter(|i| mask.get(*i)).map(|i| i as u64).collect();
        assert_eq!(mask.indices().and_then(|indices| indices.to_vec::<u64>()), Ok(positions));
    }
}

/// The bits of the items that a mask keeps, that are not null and that meet a test.
fn passing<T: Item>(items: &[Option<T>], mask: &Bitmap, test: impl Fn(T) -> bool) -> Bitmap {
    items.iter().zip(mask).map(|(item, is_kept)| is_kept && item.is_some_and(&test)).collect()
}

fn ranges<T: Item + From<u8>>(array: &Array, items: &[Option<T>], mask: &Bitmap) {
    assert_eq!(array.between_under(mask, 5..=30), Ok(passing(items, mask, |item| (5..=30).contains(&wide(item)))));
    assert_eq!(array.between_under(mask, 5..30), Ok(passing(items, mask, |item| (5..30).contains(&wide(item)))));
    assert_eq!(array.between_under(mask, -1000..), Ok(passing(items, mask, |_| true)));
    assert_eq!(array.between_under(mask, i128::MAX..), Ok(Bitmap::zeros(items.len())));
}

fn lists<T: Item + From<u8>>(array: &Array, items: &[Option<T>]) {
    for list in [&[] as &[i64], &[7], &[30, 7, 30, -5, i64::MAX], &[i64::MIN]] {
        let answers = array.is_in(list).unwrap();
        let expected = items.iter().map(|item| item.map(|item| list.iter().any(|it| i128::from(*it) == wide(item))));
        assert!(answers.iter().eq(expected));
    }
}

/// An item as an integer that has all of them.
fn wide<T: Item>(item: T) -> i128 {
    item.to_string().parse().unwrap()
}

fn every_column<T: Item + From<u8>>() {
    for len in LENGTHS {
        let items = items::<T>(len);
        for array in arrays(&items) {
            asks(&array, &items);
            lists(&array, &items);
            let (from, to) = (len / 5, len - len / 7);
            asks(&array.slice(from..to).unwrap(), &items[from..to]);
            lists(&array.slice(from..to).unwrap(), &items[from..to]);
        }
        finds::<T>(items);
    }
}

fn finds<T: Item + From<u8>>(mut items: Vec<Option<T>>) {
    items.sort();
    for array in arrays(&items) {
        let sorted = array.as_sorted().unwrap();
        for value in [i128::MIN, -1, 0, 1, 30, 89, 90, 300, i128::MAX] {
            let below = items.iter().filter(|item| item.map_or(true, |item| wide(item) < value)).count();
            let upto = items.iter().filter(|item| item.map_or(true, |item| wide(item) <= value)).count();
            assert_eq!((sorted.lower_bound(value), sorted.upper_bound(value)), (Ok(below), Ok(upto)), "{value}");
            assert_eq!(array.lower_bound(value), Ok(below));
        }
    }
}

#[test]
fn each_type() {
    every_column::<u8>();
    every_column::<u16>();
    every_column::<u32>();
    every_column::<u64>();
    every_column::<i16>();
    every_column::<i32>();
    every_column::<i64>();
}

#[test]
fn items_below_zero() {
    let items = [-128_i8, -3, -3, 0, 5, 127];
    let array = Array::new(&items).unwrap();
    let mask: Bitmap = [true, true, false, false, true, false].into_iter().collect();
    assert_eq!((array.sum_under::<i8>(&mask), array.min_max_under::<i8>(&mask)), (Ok(-126), Ok(Some((-128, 5)))));
    let sorted = array.as_sorted().unwrap();
    assert_eq!([-129, -128, -3, -2, 127, 128].map(|value| sorted.lower_bound(value).unwrap()), [0, 0, 1, 3, 5, 6]);
    assert_eq!(array.is_in(&[-3_i128, 127, 255, 1 << 100]).unwrap().count_true(), 3);
}

#[test]
fn sums_beyond_64_bits() {
    let mask = !Bitmap::zeros(3000);
    let array = Array::new(&[u64::MAX; 3000]).unwrap().compress().unwrap();
    assert_eq!(array.sum_under::<u64>(&mask), Ok(3000 * u128::from(u64::MAX)));
    let array = Array::new(&[i64::MIN; 3000]).unwrap().compress().unwrap();
    assert_eq!(array.sum_under::<i64>(&mask), Ok(3000 * i128::from(i64::MIN)));
}

#[test]
fn what_is_refused() {
    let array = Array::new(&[3_u8, 2, 1]).unwrap();
    let long = Bitmap::zeros(4);
    assert_eq!(array.count_under(&long, Op::Lt, 3), Err(Error::MaskLength));
    assert_eq!(array.compare_under(&long, Op::Lt, 3), Err(Error::MaskLength));
    assert_eq!(array.between_under(&long, 1..3), Err(Error::MaskLength));
    assert_eq!(array.sum_under::<u8>(&long), Err(Error::MaskLength));
    assert_eq!(array.min_max_under::<u8>(&long), Err(Error::MaskLength));
    assert_eq!(array.sum_under::<u16>(&long), Err(Error::WrongType));
    assert_eq!(array.min_max_under::<i8>(&long), Err(Error::WrongType));
    assert_eq!((array.lower_bound(2), array.as_sorted().map(|_| ())), (Err(Error::NotSorted), Err(Error::NotSorted)));
    assert_eq!(array.slice(2..).unwrap().lower_bound(2), Ok(1));
    assert_eq!(Error::NotSorted.to_string(), "the items are not sorted, and only sorted ones are searched");

    let bools = Array::try_from([true, false, true]).unwrap();
    assert_eq!(bools.dtype(), PType::Bool.into());
    assert_eq!(bools.count_under(&Bitmap::zeros(3), Op::Lt, 3), Err(Error::NotInteger));
    assert_eq!(bools.compare_under(&Bitmap::zeros(3), Op::Lt, 3), Err(Error::NotInteger));
    assert_eq!(bools.between_under(&Bitmap::zeros(3), 0..1), Err(Error::NotInteger));
    assert_eq!(bools.sum_under::<u8>(&Bitmap::zeros(3)), Err(Error::WrongType));
    assert_eq!(bools.is_in(&[1]).err(), Some(Error::NotInteger));
    assert_eq!(bools.lower_bound(1), Err(Error::NotInteger));
}
