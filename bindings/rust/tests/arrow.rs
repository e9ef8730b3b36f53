//! Columns of Arrow beside plain lists, with structs, a consumer and a producer that are written here from the text of the
//! interface alone.
#![cfg(feature = "arrow")]

use flcol::arrow::{ArrowArray, ArrowArrayStream, ArrowSchema};
use flcol::{Answers, Array, Error, Item, PType};
use std::ffi::{c_char, c_int, c_void, CStr};
use std::ptr;
use std::rc::Rc;

#[repr(C)]
struct Schema {
    format: *const c_char,
    name: *const c_char,
    metadata: *const c_char,
    flags: i64,
    n_children: i64,
    children: *mut *mut Schema,
    dictionary: *mut Schema,
    release: Option<unsafe extern "C" fn(*mut Schema)>,
    private_data: *mut c_void,
}

#[repr(C)]
struct Column {
    length: i64,
    null_count: i64,
    offset: i64,
    n_buffers: i64,
    n_children: i64,
    buffers: *mut *const c_void,
    children: *mut *mut Column,
    dictionary: *mut Column,
    release: Option<unsafe extern "C" fn(*mut Column)>,
    private_data: *mut c_void,
}

#[repr(C)]
struct Stream {
    get_schema: unsafe extern "C" fn(*mut Stream, *mut Schema) -> c_int,
    get_next: unsafe extern "C" fn(*mut Stream, *mut Column) -> c_int,
    get_last_error: unsafe extern "C" fn(*mut Stream) -> *const c_char,
    release: Option<unsafe extern "C" fn(*mut Stream)>,
    private_data: *mut c_void,
}

const FORMATS: [(PType, &CStr); 9] = [
    (PType::U8, c"C"),
    (PType::U16, c"S"),
    (PType::U32, c"I"),
    (PType::U64, c"L"),
    (PType::I8, c"c"),
    (PType::I16, c"s"),
    (PType::I32, c"i"),
    (PType::I64, c"l"),
    (PType::Bool, c"b"),
];

fn format(ptype: PType) -> &'static CStr {
    FORMATS.iter().find(|(it, _)| *it == ptype).unwrap().1
}

// ---- A consumer ----

/// The items of a column of Arrow, as its buffers have them.
fn consumed<T: Item>(array: &ArrowArray) -> Vec<Option<T>> {
    let column = unsafe { &*(array as *const ArrowArray).cast::<Column>() };
    assert_eq!((column.n_buffers, column.n_children, column.dictionary.is_null()), (2, 0, true));
    let (validity, values) = unsafe { (*column.buffers, *column.buffers.add(1)) };
    let bit = |at: usize| unsafe { *validity.cast::<u8>().add(at / 8) } >> (at % 8) & 1 == 1;
    let item = |at: usize| (validity.is_null() || bit(at)).then(|| unsafe { *values.cast::<T>().add(at) });
    (column.offset as usize..(column.offset + column.length) as usize).map(item).collect()
}

fn exports<T: Item + TryFrom<u8>>() {
    let items: Vec<Option<T>> =
        (0..3000).map(|i| (i % 7 != 2).then(|| T::try_from((i % 50) as u8).ok().unwrap())).collect();
    let values: Vec<T> = items.iter().map(|item| item.unwrap_or_default()).collect();
    let plain: Vec<Option<T>> = values.iter().copied().map(Some).collect();
    for (array, items, nulls) in [(Array::try_from(&items), &items, 429), (Array::try_from(&values), &plain, 0)] {
        for scheme in ["primitive", "for(bitpacked)", "delta", "rle(_,bitpacked,_)"] {
            let encoded = array.as_ref().unwrap().encode(scheme).unwrap();
            let (column, schema) = encoded.to_arrow().unwrap();
            assert_eq!(schema.format(), Some(format(T::PTYPE)));
            assert_eq!(schema.is_nullable(), encoded.dtype().nullable);
            assert_eq!((column.len(), column.null_count().unwrap_or(nulls)), (3000, nulls));
            assert_eq!(&consumed::<T>(&column), items);
            let again = unsafe { Array::from_arrow(column, schema) }.unwrap();
            assert_eq!((again.dtype(), &again.to_options::<T>().unwrap()), (encoded.dtype(), items));
        }
    }
}

// ---- A producer ----

/// What a column and its schema have together, and how many of them there are.
struct Shared {
    buffers: Vec<*const c_void>,
    _owner: Rc<()>,
}

unsafe extern "C" fn release_schema(schema: *mut Schema) {
    drop(Rc::from_raw((*schema).private_data.cast::<()>()));
    (*schema).release = None;
}

unsafe extern "C" fn release_column(column: *mut Column) {
    drop(Box::from_raw((*column).private_data.cast::<Shared>()));
    (*column).release = None;
}

fn schema(format: &'static CStr, flags: i64, owner: &Rc<()>) -> Schema {
    Schema {
        format: format.as_ptr(),
        name: c"".as_ptr(),
        metadata: ptr::null(),
        flags,
        n_children: 0,
        children: ptr::null_mut(),
        dictionary: ptr::null_mut(),
        release: Some(release_schema),
        private_data: Rc::into_raw(owner.clone()) as *mut c_void,
    }
}

fn column(length: i64, null_count: i64, offset: i64, buffers: &[*const c_void], owner: &Rc<()>) -> Column {
    let shared = Box::into_raw(Box::new(Shared { buffers: buffers.to_vec(), _owner: owner.clone() }));
    Column {
        length,
        null_count,
        offset,
        n_buffers: buffers.len() as i64,
        n_children: 0,
        buffers: unsafe { (*shared).buffers.as_mut_ptr() },
        children: ptr::null_mut(),
        dictionary: ptr::null_mut(),
        release: Some(release_column),
        private_data: shared.cast(),
    }
}

/// What the crate makes of structs, which it has released in any case.
fn imported(mut column: Column, mut schema: Schema, owner: Rc<()>) -> Result<Array, Error> {
    let array = unsafe {
        let taken = ArrowArray::from_raw((&mut column as *mut Column).cast());
        let taken_schema = ArrowSchema::from_raw((&mut schema as *mut Schema).cast());
        assert!(column.release.is_none() && schema.release.is_none());
        Array::from_arrow(taken, taken_schema)
    };
    assert_eq!(Rc::strong_count(&owner), 1);
    array
}

fn imports<T: Item + TryFrom<u8>>() {
    let values: Vec<T> = (0..40).map(|i| T::try_from(i).ok().unwrap()).collect();
    let bits = [0b1101_0110_u8, 0b0111_1011, 0b1110_1110, 0xff, 0x0f];
    let valid = |at: usize| bits[at / 8] >> (at % 8) & 1 == 1;
    let places = [bits.as_ptr().cast(), values.as_ptr().cast()];
    for (offset, length) in [(0, 40), (0, 0), (3, 20), (8, 9), (13, 27), (40, 0)] {
        let owner = Rc::new(());
        let items: Vec<Option<T>> = (offset..offset + length).map(|at| valid(at).then_some(values[at])).collect();
        let part = column(length as i64, -1, offset as i64, &places, &owner);
        let array = imported(part, schema(format(T::PTYPE), 2, &owner), owner).unwrap();
        assert_eq!((array.to_options::<T>().unwrap(), array.dtype()), (items, T::PTYPE.nullable()));

        let owner = Rc::new(());
        let part = column(length as i64, 0, offset as i64, &[ptr::null(), places[1]], &owner);
        let array = imported(part, schema(format(T::PTYPE), 0, &owner), owner).unwrap();
        assert_eq!(
            (array.to_vec::<T>().unwrap(), array.dtype()),
            (values[offset..offset + length].to_vec(), T::PTYPE.into())
        );
    }
}

macro_rules! for_each_type {
    ($($item:ident),+) => {
        $(mod $item {
            #[test]
            fn exports() { super::exports::<$item>() }
            #[test]
            fn imports() { super::imports::<$item>() }
        })+
    };
}

for_each_type!(u8, u16, u32, u64, i8, i16, i32, i64);

#[test]
fn booleans() {
    let answers: Answers = (0..1000).map(|i| (i % 5 != 1).then_some(i % 3 == 0)).collect();
    let (column, schema) = Array::from_answers(&answers).unwrap().to_arrow().unwrap();
    assert_eq!((schema.format(), column.len()), (Some(c"b"), 1000));
    let again = unsafe { Array::from_arrow(column, schema) }.unwrap();
    assert_eq!(again.to_answers(), Ok(answers));
}

#[test]
fn what_is_no_integer_is_refused_and_released() {
    for format in [c"g", c"u", c"+s", c"", c"ii", c"tdD"] {
        let owner = Rc::new(());
        let part = column(1, 0, 0, &[ptr::null(), [1_u64].as_ptr().cast()], &owner);
        assert_eq!(imported(part, schema(format, 0, &owner), owner).err(), Some(Error::WrongType), "{format:?}");
    }
    let released = unsafe { Array::from_arrow(ArrowArray::empty(), ArrowSchema::empty()) };
    assert_eq!(released.err(), Some(Error::NoArray));
}

// ---- Streams ----

#[test]
fn streams_there_and_back() {
    let chunks: Vec<Vec<Option<i32>>> = vec![vec![Some(3), None], vec![], vec![Some(-7); 5000]];
    let arrays = chunks.iter().map(|chunk| Array::try_from(chunk).unwrap()).collect::<Vec<_>>();
    let mut stream = ArrowArrayStream::new(arrays).unwrap();
    assert_eq!(stream.schema().unwrap().format(), Some(c"i"));
    for chunk in &chunks {
        assert_eq!(stream.next_array().unwrap().unwrap().to_options::<i32>().unwrap(), *chunk);
    }
    assert!(stream.next_array().unwrap().is_none() && !stream.is_released());
    assert!(stream.next().is_none() && stream.is_released() && stream.next().is_none());
    assert_eq!((stream.last_error(), stream.schema().err()), (None, Some(Error::Stream)));
}

#[test]
fn streams_of_two_types_or_of_nothing_are_refused() {
    let arrays = vec![Array::try_from([1_u8]).unwrap(), Array::try_from([1_i8]).unwrap()];
    assert_eq!(ArrowArrayStream::new(arrays).err(), Some(Error::TypeMismatch));
    assert_eq!(ArrowArrayStream::try_from(Vec::new()).err(), Some(Error::NoArray));
}

unsafe extern "C" fn schema_of_u8(stream: *mut Stream, out: *mut Schema) -> c_int {
    let owner = &*(*stream).private_data.cast::<Rc<()>>();
    out.write(schema(c"C", 2, owner));
    0
}

unsafe extern "C" fn fails(_: *mut Stream, _: *mut Column) -> c_int {
    5
}

unsafe extern "C" fn says(_: *mut Stream) -> *const c_char {
    c"the disk is gone".as_ptr()
}

unsafe extern "C" fn release_stream(stream: *mut Stream) {
    drop(Box::from_raw((*stream).private_data.cast::<Rc<()>>()));
    (*stream).release = None;
}

#[test]
fn a_stream_that_fails_says_why() {
    let owner = Rc::new(());
    let made = || Stream {
        get_schema: schema_of_u8,
        get_next: fails,
        get_last_error: says,
        release: Some(release_stream),
        private_data: Box::into_raw(Box::new(owner.clone())).cast(),
    };
    let taken = |mut stream: Stream| unsafe { ArrowArrayStream::from_raw((&mut stream as *mut Stream).cast()) };
    let mut stream = taken(made());
    assert_eq!(stream.next_array().err(), Some(Error::Stream));
    assert_eq!(stream.last_error().as_deref(), Some("the disk is gone"));
    drop(stream);
    assert_eq!(Rc::strong_count(&owner), 1);
    assert_eq!(taken(made()).map(Result::err).collect::<Vec<_>>(), [Some(Error::Stream)]);
    assert_eq!(Rc::strong_count(&owner), 1);
}

#[test]
fn structs_go_to_another_thread_and_place() {
    let (column, schema) = Array::try_from([1_u16, 2]).unwrap().to_arrow().unwrap();
    let mut place = ArrowArray::empty();
    unsafe { column.into_raw(&mut place) };
    let read = std::thread::spawn(move || unsafe { Array::from_arrow(place, schema) }.unwrap().to_vec::<u16>());
    assert_eq!(read.join().unwrap(), Ok(vec![1, 2]));
    assert!(ArrowSchema::default().format().is_none());
}
