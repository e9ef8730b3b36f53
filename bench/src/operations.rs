//! Operations and questions: on long bit-packed arrays beside the same on what they decode to, and on plain arrays
//! beside the obvious loop over a slice.
use crate::arrays::{best, Array, Encoding, Question};
use crate::loops::{bit, Slice};
use crate::{port, random};
use baseline::kernels::k32;
use std::hint::black_box;

const WIDTH: usize = 10;
/// What is added to the items of ten bits, where they are the differences of a FoR array.
const REFERENCE: u32 = 1_000_000;

/// `u32`s of ten bits, of which every `patch_every`-th has all bits.
fn ten_bits(len: usize, patch_every: usize) -> Vec<u32> {
    let noise = random(65536);
    (0..len).map(|i| if patch_every != 0 && i % patch_every == 1 { u32::MAX } else { (noise[(i * 7 + i / 65536) % 65536] & 1023) as u32 }).collect()
}

/// Seconds of the kernel on whole blocks: compare and turn the bits to item order.
fn kernel(items: &[u32], bound: u32) -> f64 {
    let (blocks, size) = (items.len() / 1024, WIDTH * k32::LANES);
    let mut words = vec![0u32; size * blocks];
    for (b, block) in items.chunks_exact(1024).enumerate() { k32::pack_w(WIDTH, block.try_into().unwrap(), &mut words[size * b..size * (b + 1)]); }
    let mut bits = vec![1u64; 16 * blocks];
    best(|| { let (from, to) = (black_box(&words[..]), black_box(&mut bits[..])); unsafe { port::u32::COMPARE_LT_ALL[0].1(WIDTH, from.as_ptr(), from.len(), bound, to.as_mut_ptr(), to.len()) } })
}

/// Seconds of a binary search of the patches for each place.
fn searches(items: &[u32], places: &[u64]) -> f64 {
    let patches: Vec<u64> = (0..items.len()).filter(|i| items[*i] == u32::MAX).map(|i| i as u64).collect();
    best(|| { black_box(black_box(places).iter().filter(|place| black_box(&patches[..]).binary_search(place).is_ok()).count()); })
}

/// The bits of a tenth of so many items.
fn tenth(noise: &[u64], len: usize) -> Vec<u64> {
    (0..len / 64).map(|k| (0..64).map(|j| ((noise[(64 * k + j) * 7 % noise.len()] % 10 == 0) as u64) << j).fold(0, |a, b| a | b)).collect()
}

fn milliseconds(seconds: f64) -> String {
    if seconds < 1e-4 { format!("{:.4}", seconds * 1e3) } else { format!("{:.2}", seconds * 1e3) }
}

/// Times questions of a bit-packed array of so many megabytes, and of the plain one that it decodes to.
fn encoded(megabytes: usize) {
    let len = (megabytes << 20) / 4;
    let noise = random(1 << 20);
    let places: Vec<u64> = (0..len / 100).map(|i| (noise[i % noise.len()] >> 20) % len as u64).collect();
    let runs: Vec<u64> = (0..len / 100).map(|i| (places[i / 64] / 64 * 64 + i as u64 % 64).min(len as u64 - 1)).collect();
    let mask = tenth(&noise, len);
    for patch_every in [0, 100] {
        let items = ten_bits(len, patch_every);
        let array = Array { encoding: Encoding::BitPacked, width: WIDTH, null_every: 0, items: &items };
        let plain = Array { encoding: Encoding::Primitive, ..array };
        let decode = array.decode();
        let patches = if patch_every == 0 { "no patches" } else { "1 % patches" };
        println!("\n{megabytes} MB of u32 at width 10, {patches}: milliseconds; decode takes {}\n", milliseconds(decode));
        println!("| question | on the array | decoded first | times faster |\n|---|---|---|---|");
        let cases: [(&str, Question, &[u64]); 7] = [
            ("compare", Question::Compare, &[500]), ("between", Question::Between, &[100, 500]), ("compare, decided by the width", Question::Compare, &[1 << 12]), ("between, decided by the width", Question::Between, &[0, 1 << 12]),
            ("take of 1 % random", Question::Take, &places), ("take of 1 % in runs of 64", Question::Take, &runs), ("filter of a tenth", Question::Filter, &mask),
        ];
        for (name, question, numbers) in cases {
            let (ours, other) = (array.ask(question, numbers), decode + plain.ask(question, numbers));
            println!("| {name} | {} | {} | {:.1} |", milliseconds(ours), milliseconds(other), other / ours);
        }
        println!("\nThe comparison kernel on the packed words alone: {} ms", milliseconds(kernel(&items, 500)));
        let sums: Vec<u32> = items.iter().map(|x| x.saturating_add(REFERENCE)).collect();
        let over = Array { encoding: Encoding::PackedFoR, items: &sums, ..array };
        let (ours, child) = (over.ask(Question::Compare, &[u64::from(REFERENCE) + 500]), array.ask(Question::Compare, &[500]));
        println!("FoR over it: compare {} ms, {:.2} times the bit-packed array alone; decode {} ms", milliseconds(ours), ours / child, milliseconds(over.decode()));
        let per_read = 1e9 / places.len() as f64;
        let (reads, stored) = (array.ask(Question::Reads, &places) * per_read, array.ask(Question::StoredReads, &places) * per_read);
        println!("A read: {reads:.0} ns; unpack_single: {stored:.0} ns; a binary search of the patches: {:.0} ns", searches(&items, &places) * per_read);
        let slice = array.ask(Question::Slice, &[len as u64 / 4 + 1, len as u64 / 2 + 1]);
        println!("slice: {} ms; serialize: {} ms; deserialize: {} ms", milliseconds(slice), milliseconds(array.ask(Question::Serialize, &[])), milliseconds(array.ask(Question::Deserialize, &[])));
    }
}

/// Times questions of so many megabytes of `u64` in encodings over bit-packed parts, and of FoR by chunks.
fn nested(megabytes: usize) {
    let len = (megabytes << 20) / 8;
    let noise = random(1 << 16);
    let mut sum = 0u64;
    let rising: Vec<u64> = (0..len).map(|i| { sum += noise[(i * 7 + i / 65536) % 65536] & 7; sum }).collect();
    let runs: Vec<u64> = (0..len).map(|i| noise[(i / 16) % 65536] >> 32).collect();
    let places: Vec<u64> = (0..len / 100).map(|i| (i * 100) as u64 / 64 * 64 + i as u64 % 64).map(|place| place.min(len as u64 - 1)).collect();
    let mask = tenth(&random(1 << 20), len);
    let mut to = vec![0u64; len];
    let memcpy = best(|| black_box(&mut to[..]).copy_from_slice(black_box(&rising)));
    println!("\n{megabytes} MB of u64: milliseconds; in parentheses the time of memcpy into memory that is there, {} ms, by ours\n", milliseconds(memcpy));
    println!("| array | decode | compare | filter of a tenth | take of 1 %, rising | is_sorted | is_constant |\n|---|---|---|---|---|---|---|");
    let cases: [(&str, Encoding, &[u64]); 4] = [
        ("delta over bit-packed deltas", Encoding::PackedDelta, &rising), ("RLE over bit-packed run indices", Encoding::PackedRLE, &runs),
        ("delta", Encoding::Delta, &rising), ("FoR by chunks", Encoding::ChunkedFoR, &rising),
    ];
    for (name, encoding, items) in cases {
        let array = Array { encoding, width: 0, null_every: 0, items };
        let decode = array.decode();
        let middle = [items[len / 2]];
        let rest: [(Question, &[u64]); 5] = [(Question::Compare, &middle), (Question::Filter, &mask), (Question::Take, &places), (Question::IsSorted, &[]), (Question::IsConstant, &[])];
        let cells: Vec<String> = rest.iter().map(|(question, numbers)| milliseconds(array.ask(*question, numbers))).collect();
        println!("| {name} | {} ({:.2}) | {} |", milliseconds(decode), memcpy / decode, cells.join(" | "));
    }
}

/// Nanoseconds an item of ours and of the loop, for items without nulls and with one in seven.
fn beside_the_loop(name: &str, len: usize, mut pair: impl FnMut(usize) -> (f64, f64)) {
    let mut row = format!("| {name} |");
    for null_every in [0, 7] {
        let (ours, other) = pair(null_every);
        row += &format!(" {:.1} | {:.1} | {:.1} |", ours / len as f64 * 1e9, other / len as f64 * 1e9, ours / other);
    }
    println!("{row}");
}

/// Times operations and encoders on 4 Mi items of `u32` beside the loops.
fn plain() {
    let len = 4usize << 20;
    let noise = random(len);
    let items: Vec<u32> = noise.iter().map(|x| (*x >> 32) as u32).collect();
    let (sorted, equal): (Vec<u32>, Vec<u32>) = ((0..len as u32).collect(), vec![7; len]);
    let runs: Vec<u32> = (0..len).map(|i| (noise[i / 16] >> 32) as u32).collect();
    let places: Vec<u64> = random(len).iter().map(|x| (x >> 20) % len as u64).collect();
    let in_runs: Vec<u64> = (0..len).map(|i| places[i / 64] / 64 * 64 + i as u64 % 64).collect();
    let (half, tenth) = (random(len / 64), tenth(&noise, len));
    let valid: Vec<u64> = (0..len / 64).map(|k| (0..64).map(|j| (((64 * k + j) % 7 != 0) as u64) << j).fold(0, |a, b| a | b)).collect();
    assert!(!bit(&valid, 7) && bit(&valid, 8));
    let valid_of = |null_every| if null_every == 0 { None } else { Some(&valid[..]) };
    println!("\n4 Mi items of u32: nanoseconds an item, beside the obvious loop\n\n| call | ours | the loop | times | ours, 1 in 7 null | the loop | times |\n|---|---|---|---|---|---|---|");
    let bounds = [1u64 << 30, 1 << 31];
    let cases: [(&str, Question, &[u32], &[u64]); 9] = [
        ("take of as many random places", Question::Take, &items, &places), ("take in runs of 64", Question::Take, &items, &in_runs),
        ("filter of half", Question::Filter, &items, &half), ("filter of a tenth", Question::Filter, &items, &tenth), ("cast to nullable u64", Question::Cast, &items, &[]),
        ("compare", Question::Compare, &items, &bounds), ("between", Question::Between, &items, &bounds), ("is_sorted", Question::IsSorted, &sorted, &[]), ("is_constant", Question::IsConstant, &equal, &[]),
    ];
    for (name, question, items, numbers) in cases {
        beside_the_loop(name, len, |null_every| {
            let slice = Slice { items, valid: valid_of(null_every) };
            let array = Array { encoding: Encoding::Primitive, width: 0, null_every, items };
            assert_eq!(array.result(question, numbers), slice.ask(question, numbers), "{name}");
            let ours = array.ask(question, numbers);
            (ours, best(|| { black_box(black_box(&slice).ask(question, black_box(numbers))); }))
        });
    }
    let (patched, half_patched) = (ten_bits(len, 100), ten_bits(len, 2));
    let cases: [(&str, Encoding, usize, &[u32]); 6] = [
        ("encode FoR", Encoding::FoR, 0, &items), ("encode FoR by chunks", Encoding::ChunkedFoR, 0, &items), ("encode delta", Encoding::Delta, 0, &sorted),
        ("encode RLE, runs of 16", Encoding::RLE, 0, &runs), ("encode at the best width, 1 % patches", Encoding::BestWidth, 0, &patched),
        ("encode at width 31, half of the items patches", Encoding::BitPacked, 31, &half_patched),
    ];
    for (name, encoding, width, items) in cases {
        beside_the_loop(name, len, |null_every| {
            let slice = Slice { items, valid: valid_of(null_every) };
            let ours = Array { encoding, width, null_every, items }.encode();
            (ours, best(|| black_box(&slice).encode(encoding, width)))
        });
    }
}

/// Times what is asked of arrays, and prints the tables.
pub fn run(megabytes: usize) {
    encoded(megabytes);
    nested(megabytes);
    plain();
}
