//! The obvious loops over slices of `u32`. Where items may be null, a bit for each is carried along.
use crate::arrays::{Encoding, Question};
use baseline::kernels::k32;
use std::hint::black_box;

/// Items, and the bits of those that are not null.
pub struct Slice<'a> { pub items: &'a [u32], pub valid: Option<&'a [u64]> }

pub fn bit(words: &[u64], i: usize) -> bool { words[i / 64] >> (i % 64) & 1 == 1 }

/// The bits of the answers for each item.
fn bits_of(items: &[u32], test: impl Fn(u32) -> bool) -> Vec<u64> {
    items.chunks(64).map(|chunk| chunk.iter().enumerate().map(|(j, x)| (test(*x) as u64) << j).fold(0, |a, b| a | b)).collect()
}

fn set(bits: &mut [u64], i: usize, is_set: bool) { bits[i / 64] |= (is_set as u64) << (i % 64); }

impl Slice<'_> {
    fn validity(&self) -> Option<Vec<u64>> { self.valid.map(|it| it.to_vec()) }

    /// The item at `i`, or none where it is null.
    fn get(&self, valid: &[u64], i: usize) -> Option<u32> { if bit(valid, i) { Some(self.items[i]) } else { None } }

    fn take(&self, places: &[u64]) -> usize {
        let mut bits = vec![0u64; if self.valid.is_some() { places.len().div_ceil(64) } else { 0 }];
        let taken: Vec<u32> = match self.valid {
            None => places.iter().map(|place| self.items[*place as usize]).collect(),
            Some(valid) => places.iter().enumerate().map(|(k, place)| { set(&mut bits, k, bit(valid, *place as usize)); self.items[*place as usize] }).collect(),
        };
        black_box(&bits);
        black_box(taken).len()
    }

    /// The items at the mask's set bits, by its words: a word of ones is one copy, others are stepped through by their lowest set bits.
    fn filter(&self, mask: &[u64]) -> usize {
        let mut bits = vec![0u64; if self.valid.is_some() { self.items.len().div_ceil(64) } else { 0 }];
        let mut kept: Vec<u32> = Vec::with_capacity(mask.iter().map(|word| word.count_ones() as usize).sum());
        for (k, chunk) in self.items.chunks(64).enumerate() {
            let mut word = mask[k] & u64::MAX >> (64 - chunk.len());
            if word == u64::MAX && self.valid.is_none() {
                kept.extend_from_slice(chunk);
                continue;
            }
            while word != 0 {
                let j = word.trailing_zeros() as usize;
                if let Some(valid) = self.valid { set(&mut bits, kept.len(), bit(valid, 64 * k + j)); }
                kept.push(chunk[j]);
                word &= word - 1;
            }
        }
        black_box(&bits);
        black_box(kept).len()
    }

    /// Answers a question. The result is the answer's length, or 1 for yes.
    pub fn ask(&self, question: Question, numbers: &[u64]) -> usize {
        let n = self.items.len();
        match question {
            Question::Take => self.take(numbers),
            Question::Filter => self.filter(numbers),
            Question::Cast => { black_box(self.validity()); black_box(self.items.iter().map(|x| *x as u64).collect::<Vec<u64>>()).len() }
            Question::Compare => { let bound = black_box(numbers[0] as u32); black_box(self.validity()); black_box(bits_of(self.items, |x| x < bound)); n }
            Question::Between => { let (low, high) = black_box((numbers[0] as u32, numbers[1] as u32)); black_box(self.validity()); black_box(bits_of(self.items, |x| (x >= low) & (x < high))); n }
            Question::IsSorted => match self.valid {
                None => self.items.windows(2).all(|it| it[0] <= it[1]) as usize,
                Some(valid) => (1..n).all(|i| self.get(valid, i - 1) <= self.get(valid, i)) as usize,
            },
            Question::IsConstant => match self.valid {
                None => self.items.iter().all(|x| *x == self.items[0]) as usize,
                Some(valid) => (1..n).all(|i| self.get(valid, 0) == self.get(valid, i)) as usize,
            },
            _ => unreachable!(),
        }
    }

    /// These items less the least of those that are not null.
    fn differences(items: &[u32], valid: Option<&[u64]>, start: usize, out: &mut Vec<u32>) -> u32 {
        match valid {
            None => {
                let least = items.iter().copied().min().unwrap_or(0);
                out.extend(items.iter().map(|x| x.wrapping_sub(least)));
                least
            }
            Some(valid) => {
                let least = (0..items.len()).filter(|i| bit(valid, start + i)).map(|i| items[i]).min().unwrap_or(0);
                out.extend((0..items.len()).map(|i| if bit(valid, start + i) { items[i].wrapping_sub(least) } else { 0 }));
                least
            }
        }
    }

    fn for_by(&self, chunk: usize) {
        let mut out: Vec<u32> = Vec::with_capacity(self.items.len());
        let references: Vec<u32> = self.items.chunks(chunk).enumerate().map(|(c, items)| Self::differences(items, self.valid, c * chunk, &mut out)).collect();
        black_box((references, out, self.validity()));
    }

    /// A copy of the items with each null replaced by the item before it.
    fn filled(&self, items: &[u32], start: usize, out: &mut [u32; 1024]) {
        match self.valid {
            None => out.copy_from_slice(items),
            Some(valid) => { let mut last = 0; for i in 0..1024 { if bit(valid, start + i) { last = items[i]; } out[i] = last; } }
        }
    }

    fn delta(&self) {
        let (mut bases, mut deltas) = (Vec::with_capacity(self.items.len() / 32), Vec::with_capacity(self.items.len()));
        let (mut block, mut turned, mut differences) = ([0u32; 1024], [0u32; 1024], [0u32; 1024]);
        for (b, items) in self.items.chunks_exact(1024).enumerate() {
            self.filled(items, 1024 * b, &mut block);
            k32::transpose(&block, &mut turned);
            let first: [u32; k32::LANES] = turned[..k32::LANES].try_into().unwrap();
            k32::delta(&turned, &first, &mut differences);
            bases.extend_from_slice(&first);
            deltas.extend_from_slice(&differences);
        }
        black_box((bases, deltas, self.validity()));
    }

    fn rle(&self) {
        let (mut values, mut indices, mut offsets) = (Vec::with_capacity(self.items.len() / 4), Vec::with_capacity(self.items.len()), Vec::new());
        let (mut block, mut found, mut places) = ([0u32; 1024], [0u32; 1024], [0u16; 1024]);
        for (b, items) in self.items.chunks_exact(1024).enumerate() {
            self.filled(items, 1024 * b, &mut block);
            let count = k32::rle_encode(&block, &mut found, &mut places);
            offsets.push(values.len() as u64);
            values.extend_from_slice(&found[..count]);
            indices.extend_from_slice(&places);
        }
        black_box((values, indices, offsets, self.validity()));
    }

    /// The width that costs the least bits, where an exception costs its value and a position.
    fn best_width(&self) -> usize {
        let mut counts = [0usize; 33];
        match self.valid {
            None => for x in self.items { counts[32 - x.leading_zeros() as usize] += 1; },
            Some(valid) => for i in 0..self.items.len() { if bit(valid, i) { counts[32 - self.items[i].leading_zeros() as usize] += 1; } },
        }
        let above = |w: usize| counts[w + 1..].iter().sum::<usize>();
        (0..33).min_by_key(|w| w * self.items.len() + above(*w) * 96).unwrap()
    }

    fn packed(&self, width: usize) {
        let size = width * k32::LANES;
        let mut words = vec![0u32; size * self.items.len() / 1024];
        for (b, items) in self.items.chunks_exact(1024).enumerate() { k32::pack_w(width, items.try_into().unwrap(), &mut words[size * b..size * (b + 1)]); }
        let (mut positions, mut values) = (Vec::new(), Vec::new());
        for (i, x) in self.items.iter().enumerate() {
            if 32 - x.leading_zeros() as usize > width && self.valid.is_none_or(|valid| bit(valid, i)) { positions.push(i as u64); values.push(*x); }
        }
        black_box((words, positions, values, self.validity()));
    }

    /// Encodes whole blocks, at a width where the encoding takes one.
    pub fn encode(&self, encoding: Encoding, width: usize) {
        match encoding {
            Encoding::FoR => self.for_by(self.items.len()),
            Encoding::ChunkedFoR => self.for_by(1024),
            Encoding::Delta => self.delta(),
            Encoding::RLE => self.rle(),
            Encoding::BestWidth => self.packed(self.best_width()),
            Encoding::BitPacked => self.packed(width),
            _ => unreachable!(),
        }
    }
}
