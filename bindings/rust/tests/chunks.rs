//! Windows of decoded items, and iterators over them.

use flcol::{Array, Error};

const LENGTHS: [usize; 7] = [0, 1, 1024, 16_383, 16_384, 16_385, 50_000];

fn columns() -> impl Iterator<Item = (Array, Vec<Option<u32>>)> {
    LENGTHS.into_iter().flat_map(|len| [(len, false), (len, true)]).map(|(len, nulls)| {
        let items: Vec<Option<u32>> =
            (0..len as u32).map(|i| (!nulls || i % 7 != 3).then_some(i.wrapping_mul(2_654_435_761) >> 20)).collect();
        let values: Vec<u32> = items.iter().map(|item| item.unwrap_or_default()).collect();
        let plain = if nulls { Array::from_options(&items) } else { Array::new(&values) }.unwrap();
        (plain.encode("bitpacked").unwrap(), items)
    })
}

#[test]
fn windows_have_all_items_in_one_memory() {
    for (array, items) in columns() {
        let (mut chunks, mut seen, mut places) = (array.chunks::<u32>(), 0, Vec::new());
        while let Some(chunk) = chunks.next_chunk().unwrap() {
            assert_eq!(chunk.range(), seen..seen + chunk.len());
            assert!(chunk.iter().eq(items[chunk.range()].iter().copied()));
            assert!(chunk.into_iter().rev().eq(items[chunk.range()].iter().rev().copied()));
            assert_eq!((chunk.values().len(), chunk.validity().is_some()), (chunk.len(), array.dtype().nullable));
            seen += chunk.len();
            places.push(chunk.values().as_ptr());
        }
        assert_eq!(seen, items.len());
        assert!(places.windows(2).all(|pair| pair[0] == pair[1]));
        assert!(chunks.next_chunk().unwrap().is_none());
    }
}

#[test]
fn behind_an_error_nothing_follows() {
    let array = Array::new(&[1_u32, 2]).unwrap();
    let mut chunks = array.chunks::<i64>();
    assert_eq!(chunks.next_chunk().err(), Some(Error::WrongType));
    assert!(chunks.next_chunk().unwrap().is_none());
    assert_eq!(array.iter::<i64>().collect::<Vec<_>>(), [Err(Error::WrongType)]);
}

#[test]
fn iterators_skip_without_decoding_all() {
    for (array, items) in columns() {
        assert!(array.iter::<u32>().map(Result::unwrap).eq(items.iter().copied()));
        for step in [1, 3, 1000, 16_384, 20_011] {
            let every = |from: usize| items.iter().copied().skip(from).step_by(step);
            assert!(array.iter::<u32>().skip(5).step_by(step).map(Result::unwrap).eq(every(5)), "{step}");
        }
        let mut iter = array.iter::<u32>();
        assert_eq!(iter.size_hint(), (items.len().min(1), Some(items.len())));
        assert_eq!(iter.nth(17_000), items.get(17_000).map(|item| Ok(*item)));
        assert_eq!(iter.size_hint().1, Some(items.len().saturating_sub(17_001)));
        assert_eq!(iter.next(), items.get(17_001).map(|item| Ok(*item)));
        assert_eq!((iter.nth(usize::MAX), iter.next(), iter.size_hint()), (None, None, (0, Some(0))));
    }
}

#[test]
fn columns_are_compared() {
    for (array, items) in columns() {
        assert_eq!(array.equals(&Array::from_options(&items).unwrap()), Ok(true));
        if let Some(last) = items.len().checked_sub(1) {
            let mut other = items.clone();
            other[last] = if items[last] == Some(9) { None } else { Some(9) };
            assert_eq!(array.equals(&Array::from_options(&other).unwrap()), Ok(false));
            assert_eq!(array.equals(&array.slice(..last).unwrap()), Ok(false));
        }
    }
    let (unsigned, signed) = (Array::new(&[1_u8]).unwrap(), Array::new(&[1_i8]).unwrap());
    assert_eq!(unsigned.equals(&signed), Ok(false));
}

#[test]
fn workers_get_slices_of_whole_blocks() {
    for (array, items) in columns() {
        for count in [0, 1, 3, 7, 64] {
            let parts = array.split(count).unwrap();
            let lengths: Vec<usize> = parts.iter().map(Array::len).collect();
            let blocks: Vec<usize> = lengths.iter().map(|len| len.div_ceil(1024)).collect();
            assert_eq!(parts.len(), count);
            assert!(blocks.iter().max().unwrap_or(&0) - blocks.iter().min().unwrap_or(&0) <= 1, "{lengths:?}");
            let read: Vec<Option<u32>> = parts.iter().flat_map(|part| part.to_options().unwrap()).collect();
            assert_eq!(read, if count == 0 { &[] } else { &items[..] });
        }
    }
    assert_eq!(Array::try_from([1_u8]).unwrap().split(usize::MAX).err(), Some(Error::OutOfMemory));
}
