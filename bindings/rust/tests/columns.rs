//! Each call beside plain lists, for every type of items, with and without nulls, in every encoding.

use flcol::{Array, Bitmap, Error, Item, Op, PType};
use std::fmt::Debug;

const SCHEMES: [&str; 8] =
    ["primitive", "bitpacked", "blocked", "for", "for(bitpacked)", "forc(blocked,_)", "delta", "rle(_,bitpacked,_)"];
const LENGTHS: [usize; 5] = [0, 1, 1023, 1025, 5000];

/// Numbers that look random, the same at each run.
struct Random(u64);

impl Random {
    fn below(&mut self, end: u64) -> u64 {
        self.0 = self.0.wrapping_mul(6364136223846793005).wrapping_add(1442695040888963407);
        (self.0 >> 33) % end
    }
}

/// The columns that a test asks: small numbers of which a few are large, some of them null or none.
fn columns<T: Item + TryFrom<u64>>(mut check: impl FnMut(&Array, &[Option<T>])) {
    let mut random = Random(7);
    for (len, nulls) in LENGTHS.into_iter().flat_map(|len| [(len, false), (len, true)]) {
        let items: Vec<Option<T>> = (0..len)
            .map(|_| match random.below(50) {
                0..=6 if nulls => None,
                7 => Some(T::MAX),
                _ => T::try_from(random.below(30)).ok(),
            })
            .collect();
        let values: Vec<T> = items.iter().map(|item| item.unwrap_or_default()).collect();
        let plain = if nulls { Array::from_options(&items) } else { Array::new(&values) }.unwrap();
        let smallest = plain.compress().unwrap();
        assert!(smallest.nbytes() <= plain.nbytes());
        check(&smallest, &items);
        for array in SCHEMES.iter().filter_map(|scheme| encoded(&plain, scheme)) {
            check(&array, &items);
        }
    }
}

/// The array by a scheme; `None` where there is nothing that the scheme can keep.
fn encoded(plain: &Array, scheme: &str) -> Option<Array> {
    match plain.encode(scheme) {
        Ok(array) => Some(array),
        Err(Error::NegativeValue | Error::NoMinimum | Error::WidthTooLarge | Error::AllBlocksNative) => None,
        Err(error) => panic!("{scheme}: {error}"),
    }
}

fn options<T: Item>(array: Result<Array, Error>) -> Vec<Option<T>> {
    array.and_then(|it| it.to_options()).unwrap()
}

fn reads<T: Item + TryFrom<u64> + Debug>() {
    columns::<T>(|array, items| {
        assert_eq!((array.len(), array.dtype().ptype), (items.len(), T::PTYPE));
        assert_eq!(array.null_count(), Ok(items.iter().filter(|item| item.is_none()).count()));
        assert_eq!(array.to_options::<T>().unwrap(), items);
        assert_eq!(array.iter::<T>().collect::<Result<Vec<_>, _>>().unwrap(), items);
        assert_eq!(array.get::<T>(items.len()), Err(Error::IndexOutOfBounds));
        for index in (0..items.len()).step_by(97) {
            assert_eq!(array.get::<T>(index), Ok(items[index]));
        }
        let again = Array::from_bytes(&array.to_bytes().unwrap()).unwrap();
        assert_eq!(again.scheme(), array.scheme());
        assert_eq!(again.to_options::<T>().unwrap(), items);
    });
}

fn picks<T: Item + TryFrom<u64> + Debug>() {
    columns::<T>(|array, items| {
        let (third, len) = (items.len() / 3, items.len());
        assert_eq!(options::<T>(array.slice(third..)), items[third..]);
        assert_eq!(
            options::<T>(array.take_ranges(&[third..len, 0..third])),
            [&items[third..], &items[..third]].concat()
        );
        assert_eq!(array.slice(third..len + 1).unwrap_err(), Error::RangeOutOfBounds);
        assert_eq!(array.take(&[len as u64]).unwrap_err(), Error::IndexOutOfBounds);

        let indices: Vec<Option<u64>> = (0..third as u64).map(|i| (i % 5 != 0).then_some(2 * i)).collect();
        let taken: Vec<Option<T>> = indices.iter().map(|index| index.and_then(|at| items[at as usize])).collect();
        assert_eq!(options::<T>(array.take_options(&indices)), taken);

        let mask: Bitmap = (0..len).map(|i| i % 3 == 1).collect();
        let kept: Vec<Option<T>> = items.iter().skip(1).step_by(3).copied().collect();
        assert_eq!(options::<T>(array.filter(&mask)), kept);
        assert_eq!(array.filter(&Bitmap::zeros(len + 1)).unwrap_err(), Error::MaskLength);
    });
}

fn answers<T: Item + TryFrom<u64> + Debug>() {
    let (five, twenty) = (T::try_from(5).ok().unwrap(), T::try_from(20).ok().unwrap());
    columns::<T>(|array, items| {
        let holds = |test: &dyn Fn(T) -> bool| items.iter().map(|item| item.map(test)).collect::<Vec<_>>();
        let asked = |op| array.compare(op, five).unwrap().iter().collect::<Vec<_>>();
        assert_eq!(asked(Op::Eq), holds(&|it| it == five));
        assert_eq!(asked(Op::NotEq), holds(&|it| it != five));
        assert_eq!(asked(Op::Gt), holds(&|it| it > five));
        assert_eq!(asked(Op::Gte), holds(&|it| it >= five));
        assert_eq!(asked(Op::Lt), holds(&|it| it < five));
        assert_eq!(asked(Op::Lte), holds(&|it| it <= five));
        assert_eq!(
            array.between(five..twenty).unwrap().iter().collect::<Vec<_>>(),
            holds(&|it| it >= five && it < twenty)
        );
        assert_eq!(array.between(..=five).unwrap().iter().collect::<Vec<_>>(), holds(&|it| it <= five));
    });
}

/// The sum of items as text, which both signs have.
fn sum_of<T: Item + Into<i128>>(items: &[Option<T>]) -> String {
    items.iter().flatten().map(|item| (*item).into()).sum::<i128>().to_string()
}

fn totals<T: Item + TryFrom<u64> + Into<i128> + Debug>() {
    let (five, twenty) = (T::try_from(5).ok().unwrap(), T::try_from(20).ok().unwrap());
    columns::<T>(|array, items| {
        let (from, to) = (items.len() / 3, items.len() - items.len() / 7);
        for (array, items) in [(array, items), (&array.slice(from..to).unwrap(), &items[from..to])] {
            let known: Vec<T> = items.iter().flatten().copied().collect();
            let chosen = |test: &dyn Fn(T) -> bool| known.iter().copied().filter(|it| test(*it)).collect::<Vec<_>>();
            let (least, greatest) = (known.iter().min().copied(), known.iter().max().copied());
            assert_eq!(array.sum::<T>().unwrap().to_string(), sum_of(items));
            assert_eq!((array.min(), array.max(), array.min_max()), (Ok(least), Ok(greatest), Ok(least.zip(greatest))));
            let below = chosen(&|it| it < twenty);
            assert_eq!(array.count_where(Op::Lt, 20), Ok(below.len()));
            assert_eq!(array.filter_by(Op::Lt, 20).unwrap().to_vec::<T>().unwrap(), below);
            let between = chosen(&|it| it >= five && it < twenty);
            assert_eq!(array.count_between(5..20), Ok(between.len()));
            assert_eq!(array.filter_between(5..20).unwrap().to_vec::<T>().unwrap(), between);
        }
    });
}

macro_rules! for_each_type {
    ($($item:ident),+) => {
        $(mod $item {
            #[test]
            fn reads() { super::reads::<$item>() }
            #[test]
            fn picks() { super::picks::<$item>() }
            #[test]
            fn answers() { super::answers::<$item>() }
            #[test]
            fn totals() { super::totals::<$item>() }
        })+
    };
}

for_each_type!(u8, u16, u32, u64, i8, i16, i32, i64);

#[test]
fn sums_beyond_64_bits() {
    let sum = |item: u64| 3000 * u128::from(item);
    assert_eq!(Array::new(&[u64::MAX; 3000]).unwrap().compress().unwrap().sum::<u64>(), Ok(sum(u64::MAX)));
    assert_eq!(Array::constant(Some(u64::MAX), 3000).unwrap().sum::<u64>(), Ok(sum(u64::MAX)));
    assert_eq!(Array::new(&[i64::MIN; 3000]).unwrap().sum::<i64>(), Ok(3000 * i128::from(i64::MIN)));
    assert_eq!(Array::new(&[-1_i8, 1, -1]).unwrap().sum::<i8>(), Ok(-1));
}

#[test]
fn totals_of_nothing_and_of_other_types() {
    for array in [Array::new::<i32>(&[]), Array::constant(None::<i32>, 2000)].map(Result::unwrap) {
        assert_eq!((array.sum::<i32>(), array.min_max::<i32>()), (Ok(0), Ok(None)));
        assert_eq!((array.count_where(Op::NotEq, 5), array.filter_by(Op::Gte, -9).unwrap().len()), (Ok(0), 0));
        assert_eq!((array.sum::<u32>(), array.sum::<i64>()), (Err(Error::WrongType), Err(Error::WrongType)));
        assert_eq!((array.min::<i16>(), array.max::<u32>()), (Err(Error::WrongType), Err(Error::WrongType)));
    }
    let booleans = Array::try_from([true, false]).unwrap();
    assert_eq!((booleans.sum::<u8>(), booleans.min::<u8>()), (Err(Error::WrongType), Err(Error::WrongType)));
    assert_eq!(booleans.count_where(Op::Eq, 1), Err(Error::NotInteger));
    assert_eq!(booleans.count_between(0..1), Err(Error::NotInteger));
    assert_eq!(booleans.filter_by(Op::Eq, 1).unwrap_err(), Error::NotInteger);
    assert_eq!(booleans.filter_between(0..1).unwrap_err(), Error::NotInteger);
}

#[test]
fn casts_keep_the_items_or_are_refused() {
    let array = Array::from_options(&[Some(200_u16), None]).unwrap();
    assert_eq!(options::<u8>(array.cast(PType::U8.nullable())), [Some(200), None]);
    assert_eq!(array.cast(PType::I8.nullable()).unwrap_err(), Error::CastOutOfRange);
    assert_eq!(array.cast(PType::U8).unwrap_err(), Error::CastNull);
    assert_eq!(array.cast(PType::Bool).unwrap_err(), Error::NotInteger);
}

#[test]
fn wrong_calls_are_refused_and_change_nothing() {
    let array = Array::new(&[1_u32, 2, 3]).unwrap();
    assert_eq!(array.to_vec::<i32>(), Err(Error::WrongType));
    assert_eq!(array.get::<u64>(0), Err(Error::WrongType));
    assert_eq!(array.iter::<u8>().collect::<Vec<_>>(), [Err(Error::WrongType)]);
    assert_eq!(array.read_into(&mut [0_u32; 2]), Err(Error::WrongLength));
    assert_eq!(array.encode("fore").unwrap_err(), Error::BadScheme);
    assert_eq!(array.encode("constant").unwrap_err(), Error::CastOutOfRange);
    assert_eq!(Array::new(&[-1_i8]).unwrap().encode("bitpacked").unwrap_err(), Error::NegativeValue);
    assert_eq!(Array::from_bytes(b"FLC2").unwrap_err(), Error::BadContainer);
    assert_eq!(Array::with_validity(&[1_u8], &Bitmap::zeros(2)).unwrap_err(), Error::ValidityLength);
    assert_eq!(Array::from_options(&[None::<u8>]).unwrap().to_vec::<u8>(), Err(Error::ValidityLength));
    assert_eq!(array.to_vec::<u32>().unwrap(), [1, 2, 3]);
}

#[test]
fn booleans_of_a_container() {
    let bytes = b"FLC1\x0bvortex.bool\x08\x03\0\0\0\0\0\0\0\0\0\0\0\x01\x01\0\0\0\0\0\0\0\x05\0";
    let array = Array::from_bytes(bytes).unwrap();
    assert_eq!((array.len(), array.dtype(), array.to_string()), (3, PType::Bool.into(), "bool".into()));
    assert_eq!((array.scheme(), array.is_constant()), (Err(Error::NotInteger), Err(Error::NotInteger)));
    assert_eq!(array.compress().unwrap_err(), Error::NotInteger);
    assert_eq!(array.to_vec::<u8>(), Err(Error::WrongType));
    assert_eq!(array.to_bytes().unwrap(), bytes);
}

#[test]
fn constants_and_order() {
    let sevens = Array::constant(Some(7_i64), 3).unwrap();
    assert_eq!((sevens.to_vec::<i64>().unwrap(), sevens.is_constant()), (vec![7, 7, 7], Ok(true)));
    assert_eq!((sevens.is_sorted(), sevens.is_strictly_sorted()), (Ok(true), Ok(false)));
    let nulls = Array::constant(None::<i64>, 2).unwrap();
    assert_eq!((nulls.to_options::<i64>().unwrap(), nulls.dtype().nullable), (vec![None, None], true));
}

#[test]
fn arrays_and_errors_are_printed() {
    let array = Array::new(&[1_u32, 2, 3]).unwrap();
    assert_eq!(format!("{array:?}"), "Array(u32, 3)");
    assert_eq!(
        (array.to_string(), array.encode("rle(for,bitpacked,_)").unwrap().to_string()),
        ("primitive".into(), "rle(for,bitpacked:2,_)".into())
    );
    assert_eq!(Error::MaskLength.to_string(), "the mask is not as long as the array");
    assert_eq!((Error::MaskLength.number(), Error::BadContainer.number()), (32, 42));
}
