//! Bitmaps and answers beside plain lists.

use flcol::{Answers, Array, Bitmap, Error, Op};
use std::iter::FusedIterator;

const LENGTHS: [usize; 8] = [0, 1, 7, 8, 9, 64, 1023, 1025];
const THREE: [Option<bool>; 3] = [Some(false), Some(true), None];

fn bits(len: usize, seed: usize) -> Vec<bool> {
    (0..len).map(|i| (i * i + seed) * 7919 % 13 < 6).collect()
}

fn answers(len: usize, seed: usize) -> Vec<Option<bool>> {
    (0..len).map(|i| THREE[(i * i + seed) * 7919 % 13 % 3]).collect()
}

#[test]
fn bitmaps_are_joined() {
    for len in LENGTHS {
        let (left, right) = (bits(len, 1), bits(len, 5));
        let (a, b): (Bitmap, Bitmap) = (left.iter().copied().collect(), right.iter().copied().collect());
        let joined =
            |join: fn(bool, bool) -> bool| left.iter().zip(&right).map(|(x, y)| join(*x, *y)).collect::<Bitmap>();
        let (and, or, xor) = (joined(|x, y| x & y), joined(|x, y| x | y), joined(|x, y| x ^ y));
        assert_eq!([&a & &b, &a & b.clone(), a.clone() & &b, a.clone() & b.clone()], [(); 4].map(|_| and.clone()));
        assert_eq!((&a | &b, &a ^ &b), (or.clone(), xor.clone()));
        assert_eq!(!&a, left.iter().map(|bit| !bit).collect::<Bitmap>());
        let mut assigned = a.clone();
        assigned &= &b;
        assert_eq!(assigned, and);
        assigned |= a.clone() | &b;
        assert_eq!(assigned, or);
        assigned ^= &and;
        assert_eq!(assigned, xor);
        assert_eq!(
            (&a.count_ones(), (!!a.clone()).as_bytes()),
            (&left.iter().filter(|bit| **bit).count(), a.as_bytes())
        );
        assert_eq!(Bitmap::from_bytes(a.clone().into_bytes(), len), Ok(a));
    }
}

/// SQL's logic, of two answers.
fn known(left: Option<bool>, right: Option<bool>, decisive: bool) -> Option<bool> {
    match (left, right) {
        (Some(x), _) | (_, Some(x)) if x == decisive => Some(decisive),
        _ => left.and(right),
    }
}

#[test]
fn answers_are_joined_by_the_logic_of_sql() {
    for len in LENGTHS {
        let (left, right) = (answers(len, 2), answers(len, 9));
        let (a, b): (Answers, Answers) = (left.iter().copied().collect(), right.iter().copied().collect());
        let pairs = || left.iter().copied().zip(right.iter().copied());
        assert_eq!(&a & &b, pairs().map(|(x, y)| known(x, y, false)).collect());
        assert_eq!(&a | &b, pairs().map(|(x, y)| known(x, y, true)).collect());
        assert_eq!(&a ^ &b, pairs().map(|(x, y)| Some(x? ^ y?)).collect());
        assert_eq!(!&a, left.iter().map(|x| x.map(|x| !x)).collect());
        let mut assigned = a.clone();
        assigned &= &b;
        assigned |= &a;
        assigned ^= b.clone();
        assert_eq!(assigned, ((&a & &b) | &a) ^ &b);
        let count = |answer| left.iter().filter(|it| **it == answer).count();
        assert_eq!((a.count_true(), a.count_false()), (count(Some(true)), count(Some(false))));
        assert_eq!((a.null_count(), a.len()), (count(None), len));
        assert_eq!(Array::from_answers(&a).unwrap().to_answers(), Ok(a));
    }
}

#[test]
fn lengths_that_differ_are_refused() {
    let (two, three) = (Bitmap::zeros(2), Bitmap::zeros(3));
    assert_eq!(Answers::new(two.clone(), three.clone()), Err(Error::ValidityLength));
    assert!(std::panic::catch_unwind(|| &two & &three).is_err());
    assert!(std::panic::catch_unwind(|| Answers::from(Bitmap::zeros(2)) | Answers::from(Bitmap::zeros(3))).is_err());
}

/// A bit at a null says nothing, so it makes no difference.
#[test]
fn answers_are_equal_where_they_say_the_same() {
    let validity: Bitmap = [true, false, true].into_iter().collect();
    let made = |bits: [bool; 3]| Answers::new(bits.into_iter().collect(), validity.clone()).unwrap();
    assert_eq!(made([true, true, false]), made([true, false, false]));
    assert_ne!(made([true, true, false]), made([true, true, true]));
    let array = Array::from_options(&[Some(4_u8), None, Some(2)]).unwrap();
    assert_eq!(array.compare(Op::Gt, 3), Ok(made([true, true, false])));
    assert_eq!(made([true, true, false]).as_mask().as_bytes(), [0b001]);
    assert_eq!(made([true, true, false]).into_mask().count_ones(), 1);
}

fn goes_from_both_ends<I>(mut iter: I, items: &[I::Item])
where
    I: ExactSizeIterator + DoubleEndedIterator + FusedIterator + Clone,
    I::Item: PartialEq + Copy + std::fmt::Debug,
{
    assert_eq!((iter.len(), iter.clone().collect::<Vec<_>>()), (items.len(), items.to_vec()));
    assert!(iter.clone().rev().eq(items.iter().rev().copied()));
    assert!(iter.clone().skip(5).step_by(3).eq(items.iter().skip(5).step_by(3).copied()));
    if let [first, .., last] = items {
        assert_eq!((iter.next(), iter.next_back(), iter.len()), (Some(*first), Some(*last), items.len() - 2));
    }
}

#[test]
fn lists_are_gone_over_from_both_ends() {
    for len in LENGTHS {
        let bitmap: Bitmap = bits(len, 3).into_iter().collect();
        goes_from_both_ends(bitmap.iter(), &bits(len, 3));
        goes_from_both_ends((&bitmap).into_iter(), &bits(len, 3));
        let list: Answers = answers(len, 3).into_iter().collect();
        goes_from_both_ends(list.iter(), &answers(len, 3));
        goes_from_both_ends((&list).into_iter(), &answers(len, 3));
    }
}
