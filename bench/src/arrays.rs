//! Arrays as the exports make them, and how long they take to encode and to answer.
//!
//! An export makes its array, and then encodes it or asks it as often as it is told: the difference of two counts is
//! what one time takes. Times are those of the thread's processor, so that other work on the machine counts less.
use crate::port;
use std::hint::black_box;

/// The places of the names in `Encoding`, in `crates/fastlanes_ffi/src/arrays.rt`.
#[derive(Clone, Copy, PartialEq)]
pub enum Encoding { Primitive, BitPacked, BestWidth, BestWidths, FoR, PackedFoR, ChunkedFoR, Delta, RLE, PackedDelta, PackedRLE }

/// The places of the names in `Question`, in `crates/fastlanes_ffi/src/questions.rt`.
#[derive(Clone, Copy, PartialEq, Debug)]
pub enum Question { Decode, Reads, StoredReads, Slice, Compare, Between, Take, Filter, Cast, IsSorted, IsConstant, Serialize, Deserialize }

/// A type of items, with its exports.
pub trait Word: Copy {
    const BITS: usize;
    fn to_u64(self) -> u64;
    /// The low bits of a number.
    fn of(number: u64) -> Self;
    fn encode(array: &Array<Self>, rounds: usize) -> usize;
    fn ask(array: &Array<Self>, rounds: usize, question: Question, numbers: &[u64], answers: &mut [u64]) -> usize;
}

macro_rules! word {
    ($t:ident) => {
        impl Word for $t {
            const BITS: usize = $t::BITS as usize;
            fn to_u64(self) -> u64 { self as u64 }
            fn of(number: u64) -> $t { number as $t }
            fn encode(it: &Array<$t>, rounds: usize) -> usize {
                unsafe { port::$t::ENCODE_ARRAY_ALL[0].1(rounds, it.encoding as usize, it.width as u8, it.null_every, it.items.as_ptr(), it.items.len()) }
            }
            fn ask(it: &Array<$t>, rounds: usize, question: Question, numbers: &[u64], answers: &mut [u64]) -> usize {
                let (items, len) = (it.items.as_ptr(), it.items.len());
                unsafe { port::$t::ASK_ARRAY_ALL[0].1(rounds, it.encoding as usize, it.width as u8, it.null_every, items, len, question as usize, numbers.as_ptr(), numbers.len(), answers.as_mut_ptr(), answers.len()) }
            }
        }
    };
}

word!(u8);
word!(u16);
word!(u32);
word!(u64);

/// Items in an encoding, at a width where it takes one. Those at the multiples of `null_every` are null, none where
/// that is 0.
#[derive(Clone, Copy)]
pub struct Array<'a, W> { pub encoding: Encoding, pub width: usize, pub null_every: usize, pub items: &'a [W] }

impl<W: Word> Array<'_, W> {
    /// The array of the first items, as many as are checked.
    fn part(&self) -> Array<'_, W> { Array { items: &self.items[..self.items.len().min(1 << 16)], ..*self } }

    fn column(&self) -> Vec<Option<u64>> {
        let is_null = |i: usize| self.null_every != 0 && i % self.null_every == 0;
        self.items.iter().enumerate().map(|(i, x)| if is_null(i) { None } else { Some(x.to_u64()) }).collect()
    }

    /// What a question is answered with: the result, and its items, of which a null is `u64::MAX`.
    fn expected(&self, question: Question, numbers: &[u64]) -> (usize, Vec<u64>) {
        let column = self.column();
        let stored = |place: &u64| column[*place as usize].unwrap_or(0) & if self.width == 0 { 0 } else { u64::MAX >> (64 - self.width) };
        let number = |sum: u64| (sum as usize, Vec::new());
        let items = match question {
            Question::Decode | Question::Cast | Question::Deserialize => column,
            Question::Reads => return number(numbers.iter().map(|place| column[*place as usize].unwrap_or(0)).fold(0, u64::wrapping_add)),
            Question::StoredReads => return number(numbers.iter().map(stored).fold(0, u64::wrapping_add)),
            Question::Slice => column[numbers[0] as usize..numbers[1] as usize].to_vec(),
            Question::Compare => column.iter().map(|x| x.map(|x| (x < numbers[0]) as u64)).collect(),
            Question::Between => column.iter().map(|x| x.map(|x| (x >= numbers[0] && x < numbers[1]) as u64)).collect(),
            Question::Take => numbers.iter().map(|place| column[*place as usize]).collect(),
            Question::Filter => (0..column.len()).filter(|i| numbers[i / 64] >> (i % 64) & 1 == 1).map(|i| column[i]).collect(),
            Question::IsSorted => return number(column.windows(2).all(|it| it[0] <= it[1]) as u64),
            Question::IsConstant => return number(column.iter().all(|x| *x == column[0]) as u64),
            Question::Serialize => return number(column.len() as u64),
        };
        (items.len(), items.iter().map(|x| x.unwrap_or(u64::MAX)).collect())
    }

    /// Panics unless the first items are answered as they should be.
    fn check(&self, question: Question, numbers: &[u64]) {
        let part = self.part();
        let len = part.items.len() as u64;
        let numbers: Vec<u64> = match question {
            Question::Take | Question::Reads | Question::StoredReads => numbers.iter().take(1 << 16).map(|place| place % len).collect(),
            Question::Slice => vec![len / 4 + 1, len / 2 + 1],
            _ => numbers.to_vec(),
        };
        let (result, items) = part.expected(question, &numbers);
        let mut answers = vec![0u64; items.len()];
        let came = W::ask(&part, 1, question, &numbers, &mut answers);
        assert!(came == result && answers == items, "{question:?} of encoding {} of u{}: {came} for {result}", self.encoding as usize, W::BITS);
    }

    /// The length of an answer, or the number that it is.
    pub fn result(&self, question: Question, numbers: &[u64]) -> usize { W::ask(self, 1, question, numbers, &mut []) }

    /// Seconds of an answer.
    pub fn ask(&self, question: Question, numbers: &[u64]) -> f64 {
        self.check(question, numbers);
        best_round(|rounds| { black_box(W::ask(black_box(self), rounds, question, black_box(numbers), &mut [])); })
    }

    pub fn decode(&self) -> f64 { self.ask(Question::Decode, &[]) }

    /// Seconds of an encoding.
    pub fn encode(&self) -> f64 {
        self.check(Question::Decode, &[]);
        best_round(|rounds| { black_box(W::encode(black_box(self), rounds)); })
    }
}

#[repr(C)]
struct Timespec { seconds: i64, nanoseconds: i64 }

extern "C" { fn clock_gettime(clock: i32, time: *mut Timespec) -> i32; }

/// The seconds that this thread has had a processor.
fn seconds() -> f64 {
    const THREAD: i32 = 3;
    let mut time = Timespec { seconds: 0, nanoseconds: 0 };
    unsafe { clock_gettime(THREAD, &mut time) };
    time.seconds as f64 + time.nanoseconds as f64 * 1e-9
}

fn time(mut call: impl FnMut()) -> f64 {
    let start = seconds();
    call();
    seconds() - start
}

const TRIES: usize = 5;

/// The least seconds of one of several rounds, less what the call takes beside them. The rounds together take a tenth
/// of a second at least.
fn best_round(mut call: impl FnMut(usize)) -> f64 {
    call(1);
    let mut one = time(|| call(1));
    let mut rounds = 2;
    while time(|| call(1 + rounds)) < one + 0.1 && rounds < 1 << 22 { rounds *= 4; }
    let mut all = f64::MAX;
    for _ in 0..TRIES {
        one = one.min(time(|| call(1)));
        all = all.min(time(|| call(1 + rounds)));
    }
    (all - one) / rounds as f64
}

/// The least seconds of a call.
pub fn best(mut call: impl FnMut()) -> f64 {
    call();
    (0..TRIES).map(|_| time(&mut call)).fold(f64::MAX, f64::min)
}
