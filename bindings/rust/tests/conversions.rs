//! What becomes an array, and what is read from text.

use flcol::{Answers, Array, Bitmap, DType, Error, Op, PType};
use std::collections::BTreeSet;

const TYPES: [PType; 9] =
    [PType::U8, PType::U16, PType::U32, PType::U64, PType::I8, PType::I16, PType::I32, PType::I64, PType::Bool];
const OPERATORS: [Op; 6] = [Op::Eq, Op::NotEq, Op::Gt, Op::Gte, Op::Lt, Op::Lte];

#[test]
fn lists_become_arrays() {
    let list = vec![3_i16, -4, 5];
    let arrays = [
        Array::try_from(&list),
        Array::try_from(&list[..]),
        Array::try_from([3_i16, -4, 5]),
        Array::try_from(&[3_i16, -4, 5]),
        Array::try_from_iter(list.iter().copied()),
        Array::try_from_iter(list.iter().copied().filter(|_| true)),
        Array::try_from(list.clone()),
    ];
    for array in arrays.map(Result::unwrap) {
        assert_eq!((array.to_vec::<i16>().unwrap(), array.dtype()), (list.clone(), PType::I16.into()));
    }
    let empty = Array::try_from(Vec::<Option<u64>>::new()).unwrap();
    assert_eq!((empty.len(), empty.dtype()), (0, PType::U64.nullable()));
}

#[test]
fn options_become_nulls() {
    let list = vec![Some(3_u32), None];
    let arrays = [
        Array::try_from(&list),
        Array::try_from(&list[..]),
        Array::try_from([Some(3_u32), None]),
        Array::try_from_iter(list.clone()),
        Array::try_from(list.clone()),
    ];
    for array in arrays.map(Result::unwrap) {
        assert_eq!((array.to_options::<u32>().unwrap(), array.dtype()), (list.clone(), PType::U32.nullable()));
    }
}

#[test]
fn booleans_become_arrays() {
    let plain = Array::try_from([true, false, true]).unwrap();
    let bits: Bitmap = [true, false, true].into_iter().collect();
    assert_eq!((plain.len(), plain.dtype(), plain.to_string()), (3, PType::Bool.into(), "bool".into()));
    assert_eq!(plain.to_answers().unwrap(), Answers::from(bits.clone()));
    assert!(plain.equals(&Array::try_from(&bits).unwrap()).unwrap());

    let answers: Answers = [Some(true), None, Some(false)].into_iter().collect();
    let nullable = Array::try_from_iter(&answers).unwrap();
    assert_eq!((nullable.dtype(), nullable.null_count()), (PType::Bool.nullable(), Ok(1)));
    assert_eq!(Answers::try_from(&nullable).unwrap(), answers);
    assert!(nullable.equals(&Array::try_from(&answers).unwrap()).unwrap());
    assert!(!nullable.equals(&plain).unwrap());
}

#[test]
fn types_and_operators_are_read_as_they_are_printed() {
    for ptype in TYPES {
        assert_eq!(ptype.to_string().parse(), Ok(ptype));
        for dtype in [DType::from(ptype), ptype.nullable()] {
            assert_eq!(dtype.to_string().parse(), Ok(dtype));
        }
    }
    for op in OPERATORS {
        assert_eq!(op.to_string().parse(), Ok(op));
    }
    assert_eq!(
        (PType::of::<i8>().to_string(), format!("{:>5}|", PType::U8.nullable())),
        ("i8".into(), "  u8?|".into())
    );
    for text in ["", "u", "U8", "u8 ", "u128", "bool??", "?"] {
        assert_eq!((text.parse::<PType>(), text.parse::<DType>()), (Err(Error::UnknownType), Err(Error::UnknownType)));
    }
    for text in ["", "=>", "lt", "< ", "==="] {
        assert_eq!(text.parse::<Op>(), Err(Error::BadOperator));
    }
}

#[test]
fn each_error_has_a_text_of_its_own() {
    let errors = [Error::OutOfMemory, Error::BadContainer, Error::UnknownType, Error::BadOperator, Error::WrongLength];
    let texts: BTreeSet<String> = errors.iter().map(Error::to_string).collect();
    assert_eq!(texts.len(), errors.len());
}

/// More arrays in one another than a container has.
#[test]
fn what_has_no_container_is_refused() {
    let deep = format!("{}for{}", "for(".repeat(17), ")".repeat(17));
    match Array::new(&[1_u8, 2]).unwrap().encode(&deep) {
        Ok(array) => assert_eq!(array.to_bytes(), Err(Error::BadContainer)),
        Err(error) => assert_eq!(error, Error::BadScheme),
    }
}
