//! Files of chunks: what is written is read, and no other answer comes of bytes that were changed or cut.

use flcol::{Array, Encoding, Error, File, Limits, Op, PType, WriteError, Writer};
use std::io::{self, Write};

const OPS: [Op; 6] = [Op::Eq, Op::NotEq, Op::Gt, Op::Gte, Op::Lt, Op::Lte];

/// Small integers in runs, some of them null.
fn items(len: usize) -> Vec<Option<i16>> {
    (0..len).map(|i| (i % 11 != 3).then_some((i / 3 * 7919 % 53) as i16 - 9)).collect()
}

/// A file of items, of which each chunk has so many.
fn written(items: &[Option<i16>], chunk: usize) -> Vec<u8> {
    let mut writer = Writer::new(Vec::new(), PType::I16.nullable()).unwrap().with_chunk(chunk);
    writer.extend(items.iter().copied()).unwrap();
    writer.finish().unwrap()
}

fn holds(op: Op, item: i128, constant: i128) -> bool {
    match op {
        Op::Eq => item == constant,
        Op::NotEq => item != constant,
        Op::Gt => item > constant,
        Op::Gte => item >= constant,
        Op::Lt => item < constant,
        _ => item <= constant,
    }
}

/// Asks a file for all that it can do, beside its items.
fn ask(file: &File<impl AsRef<[u8]>>, items: &[Option<i16>]) -> Result<(), Error> {
    let known: Vec<i16> = items.iter().copied().flatten().collect();
    assert_eq!(
        (file.len(), file.is_empty(), file.dtype()),
        (items.len() as u64, items.is_empty(), PType::I16.nullable())
    );
    assert_eq!(file.null_count()?, (items.len() - known.len()) as u64);
    assert_eq!(file.sum()?, known.iter().map(|item| i128::from(*item)).sum());
    let extremes = known.iter().min().zip(known.iter().max());
    assert_eq!(file.min_max()?, extremes.map(|(least, greatest)| (i128::from(*least), i128::from(*greatest))));
    for (op, constant) in OPS.into_iter().flat_map(|op| [-300_i128, -9, 0, 20, i128::MAX, i128::MIN].map(|it| (op, it)))
    {
        let passing: Vec<i16> = known.iter().copied().filter(|item| holds(op, i128::from(*item), constant)).collect();
        assert_eq!(file.count_where(op, constant)?, passing.len() as u64, "{op} {constant}");
        assert_eq!(file.filter_by(op, constant)?.to_vec::<i16>()?, passing, "{op} {constant}");
    }
    let passing: Vec<i16> = known.iter().copied().filter(|item| (-2..20).contains(item)).collect();
    assert_eq!(file.count_between(-2..20)?, passing.len() as u64);
    assert_eq!(file.filter_between(-2..20)?.to_vec::<i16>()?, passing);
    assert_eq!(file.count_between(5..5)?, 0);
    let mut all = Vec::new();
    for array in file.arrays() {
        all.extend(array?.to_options::<i16>()?);
    }
    assert_eq!((all, file.slice(..)?.to_options::<i16>()?), (items.to_vec(), items.to_vec()));
    Ok(())
}

#[test]
fn what_is_written_is_read() {
    for (len, chunk) in [(0, 10), (1, 10), (10, 10), (3000, 1000), (3001, 1024), (70_000, 65_536)] {
        let items = items(len);
        let bytes = written(&items, chunk);
        let file = File::new(&bytes).unwrap();
        ask(&file, &items).unwrap();
        file.verify().unwrap();
        let lengths: Vec<u64> = file.chunks().unwrap().iter().map(|chunk| chunk.len).collect();
        assert_eq!(lengths, items.chunks(chunk).map(|some| some.len() as u64).collect::<Vec<_>>());
        for (chunk, some) in file.chunks().unwrap().iter().zip(items.chunks(chunk)) {
            assert_eq!(
                (chunk.offset % 64, chunk.null_count),
                (0, some.iter().filter(|item| item.is_none()).count() as u64)
            );
            assert_eq!(chunk.sum, some.iter().flatten().map(|item| i128::from(*item)).sum());
            assert_eq!(chunk.min_max.map(|it| it.0), some.iter().flatten().min().map(|item| i128::from(*item)));
        }
    }
}

#[test]
fn parts_are_read() {
    let items = items(2500);
    let bytes = written(&items, 512);
    let file = File::new(bytes.as_slice()).unwrap();
    for (start, end) in [(0, 0), (0, 1), (511, 513), (512, 1024), (100, 2400), (2499, 2500), (2500, 2500)] {
        let part = file.slice(start..end).unwrap();
        assert_eq!(
            (part.dtype(), part.to_options::<i16>().unwrap()),
            (file.dtype(), items[start as usize..end as usize].to_vec())
        );
    }
    assert_eq!(file.slice(512..=1023).unwrap().scheme(), file.chunk(1).unwrap().scheme());
    for (start, end) in [(0, 2501), (5, 4), (2501, 2501)] {
        assert_eq!(file.slice(start..end).err(), Some(Error::RangeOutOfBounds));
    }
    for indices in [&[][..], &[0], &[2499, 0, 512, 511, 0, 2499, 1024]] {
        let taken = file.take(indices).unwrap().to_options::<i16>().unwrap();
        assert_eq!(taken, indices.iter().map(|at| items[*at as usize]).collect::<Vec<_>>());
        assert_eq!(taken, indices.iter().map(|at| file.get::<i16>(*at).unwrap()).collect::<Vec<_>>());
    }
    assert_eq!(file.take(&[0, 2500]).err(), Some(Error::IndexOutOfBounds));
    assert_eq!(
        (file.get::<i16>(2500).err(), file.chunk(5).err()),
        (Some(Error::IndexOutOfBounds), Some(Error::IndexOutOfBounds))
    );
    assert_eq!(file.get::<u16>(0).err(), Some(Error::WrongType));
    assert_eq!(format!("{file:?}"), "File(i16?, 2500 in 5 chunks)");
}

#[test]
fn a_container_is_a_file_of_one_chunk() {
    for items in [items(0), items(3000), vec![None; 5]] {
        let bytes = Array::from_options(&items).unwrap().compress().unwrap().to_bytes().unwrap();
        for file in [File::new(&bytes).unwrap(), File::recovered(&bytes).unwrap()] {
            ask(&file, &items).unwrap();
            file.verify().unwrap();
            let chunk = file.chunks().unwrap()[0];
            assert_eq!((file.chunk_count(), chunk.offset, chunk.size), (1, 0, bytes.len() as u64));
            assert!(matches!(Writer::resume(Vec::new(), &file), Err(WriteError::Column(Error::BadMark))));
        }
    }
    let bools = Array::try_from_iter([true, false]).unwrap().to_bytes().unwrap();
    assert_eq!(File::new(bools).err(), Some(Error::NotInteger));
}

#[test]
fn arrays_are_chunks_as_they_are_encoded() {
    let array = Array::new(&[100_u16, 101, 107]).unwrap().encode("for(bitpacked)").unwrap();
    let mut writer = Writer::new(Vec::new(), PType::U16.nullable()).unwrap();
    writer.extend([Some(5_u16), None]).unwrap();
    writer.append(&array).unwrap();
    writer.append(&array.slice(..0).unwrap()).unwrap();
    writer.extend([7_u64, 8]).unwrap();
    for wrong in [Array::new(&[1_u8]), Array::new(&[1_i16]), Array::try_from_iter([true])] {
        assert!(matches!(writer.append(&wrong.unwrap()), Err(WriteError::Column(Error::TypeMismatch))));
    }
    assert!(matches!(writer.extend([70_000]), Err(WriteError::Column(Error::CastOutOfRange))));
    assert!(matches!(writer.extend([true]), Err(WriteError::Column(Error::NotInteger))));
    let bytes = writer.finish().unwrap();
    let file = File::new(&bytes).unwrap();
    assert_eq!(
        file.slice(..).unwrap().to_options::<u16>().unwrap(),
        [Some(5), None, Some(100), Some(101), Some(107), Some(7), Some(8)]
    );
    assert_eq!((file.chunk_count(), file.chunk(1).unwrap().to_options::<u16>().unwrap().len()), (3, 3));

    let mut writer = Writer::new(Vec::new(), PType::U16).unwrap().with_limits(Limits::of(&[Encoding::Bitpacked]));
    assert!(matches!(writer.extend([Some(1_u16), None]), Err(WriteError::Column(Error::CastNull))));
    writer.extend([3_u16, 1000].repeat(1000)).unwrap();
    assert_eq!(File::new(writer.finish().unwrap()).unwrap().chunk(0).unwrap().scheme().unwrap(), "bitpacked:10");
    assert!(matches!(Writer::new(Vec::new(), PType::Bool), Err(WriteError::Column(Error::NotInteger))));
}

/// A file, and the same with more items.
fn added() -> (Vec<u8>, Vec<u8>) {
    let old = written(&items(30), 20);
    let mut writer = Writer::resume(old.clone(), &File::new(&old).unwrap()).unwrap().with_chunk(20);
    writer.extend(items(60)[30..].iter().copied()).unwrap();
    let new = writer.finish().unwrap();
    (old, new)
}

#[test]
fn what_is_added_and_cut_is_the_old_column_or_the_new_one() {
    let (old, new) = added();
    assert_eq!(new[..old.len()], old);
    ask(&File::new(&new).unwrap(), &items(60)).unwrap();
    for end in 0..new.len() {
        let cut = &new[..end];
        assert_eq!(File::new(cut).is_ok(), end == old.len(), "{end}");
        match File::recovered(cut) {
            Ok(file) => {
                assert_eq!((file.slice(..).unwrap().to_options::<i16>().unwrap(), end >= old.len()), (items(30), true))
            }
            Err(_) => assert!(end < old.len(), "{end}"),
        }
    }
    for end in [old.len() + 1, new.len() - 1] {
        let mut lost = new[..end].to_vec();
        let file = File::recovered(lost.clone()).unwrap();
        let mut writer = Writer::resume(Vec::new(), &file).unwrap();
        writer.extend([5_i16]).unwrap();
        lost.extend(writer.finish().unwrap());
        assert_eq!(
            File::new(&lost).unwrap().slice(..).unwrap().to_options::<i16>().unwrap(),
            [items(30), vec![Some(5)]].concat()
        );
    }
}

/// Takes so many bytes, a few at a time, and then fails.
struct Full(Vec<u8>, usize);

impl Write for Full {
    fn write(&mut self, bytes: &[u8]) -> io::Result<usize> {
        let some = bytes.len().min(self.1 - self.0.len()).min(7);
        self.0.extend(&bytes[..some]);
        match some {
            0 if !bytes.is_empty() => Err(io::Error::other("full")),
            _ => Ok(some),
        }
    }

    fn flush(&mut self) -> io::Result<()> {
        Ok(())
    }
}

#[test]
fn a_writer_that_is_stopped_at_every_byte() {
    let (old, new) = added();
    for most in old.len()..=new.len() {
        let mut sink = Full(old.clone(), most);
        let done = Writer::resume(&mut sink, &File::new(&old).unwrap()).and_then(|writer| {
            let mut writer = writer.with_chunk(20);
            if let Err(error) = writer.extend(items(60)[30..].iter().copied()) {
                assert!(matches!(error, WriteError::Io(_)));
                assert!(matches!(writer.append(&Array::from_options(&[Some(1_i16)])?), Err(WriteError::Io(_))));
                return Err(error);
            }
            writer.finish().map(|_| ())
        });
        assert_eq!((done.is_ok(), &sink.0[..]), (most == new.len(), &new[..most]));
        let wanted = items(if most == new.len() { 60 } else { 30 });
        assert_eq!(File::recovered(&sink.0).unwrap().slice(..).unwrap().to_options::<i16>().unwrap(), wanted);
    }
}

#[test]
fn a_byte_that_is_changed_gives_an_error_or_the_true_answer() {
    let (bytes, items) = (written(&items(40), 25), items(40));
    for at in 0..bytes.len() {
        for other in [bytes[at] ^ 1, bytes[at] ^ 128, !bytes[at]] {
            let mut changed = bytes.clone();
            changed[at] = other;
            let Ok(file) = File::new(&changed) else { continue };
            match ask(&file, &items) {
                Ok(()) => file.verify().unwrap(),
                Err(error) => assert_eq!((error, file.verify()), (Error::BadChunk, Err(Error::BadChunk)), "{at}"),
            }
        }
    }
    for content in [&b""[..], b"FLC1", b"FLC2", &[0; 4096], &b"FLC2".repeat(7)] {
        assert!(File::new(content).is_err() && File::recovered(content).is_err());
    }
}

#[test]
fn a_container_of_many_items() {
    let bytes = Array::constant(Some(5_u8), 1 << 60).unwrap().to_bytes().unwrap();
    let file = File::new(&bytes).unwrap();
    assert_eq!((file.len(), file.sum().unwrap(), file.min_max().unwrap()), (1 << 60, 5 << 60, Some((5, 5))));
    assert_eq!((file.get::<u8>(1 << 59).unwrap(), file.count_where(Op::Gt, 5).unwrap()), (Some(5), 0));
    assert_eq!(file.filter_by(Op::Lt, 6).err(), Some(Error::OutOfMemory));
    let bytes = Array::constant(Some(u64::MAX), usize::MAX).unwrap().to_bytes().unwrap();
    assert_eq!(File::new(&bytes).unwrap().sum(), Err(Error::LengthOverflow));
}

#[test]
fn threads_share_a_file() {
    let items = items(20_000);
    let bytes = written(&items, 1500);
    let file = File::new(&bytes).unwrap();
    std::thread::scope(|scope| {
        for _ in 0..4 {
            scope.spawn(|| ask(&file, &items).unwrap());
        }
    });
}
