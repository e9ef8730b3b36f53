//! Encoders and decoders of long arrays, beside a `memcpy` of the decoded size.
use crate::arrays::{best, Array, Encoding, Word};
use crate::random;
use std::hint::black_box;

struct Row { name: String, to_memcpy: f64, to_new: f64 }

/// Long arrays of one type, and memory for a copy of their items.
struct Columns<W> { noise: Vec<u64>, len: usize, items: Vec<W>, copy: Vec<W>, rows: Vec<Row> }

impl<W: Word> Columns<W> {
    fn new(megabytes: usize) -> Columns<W> {
        let len = (megabytes << 20) / (W::BITS / 8);
        let noise = random(65536);
        let items = (0..len).map(|i| W::of(noise[i % 65536])).collect();
        Columns { noise, len, items, copy: vec![W::of(1); len], rows: Vec::new() }
    }

    fn noise(&self, i: usize) -> u64 { self.noise[(i * 7 + i / 65536) % 65536] }

    /// Numbers of `width` bits above `least`, of which every `patch_every`-th has all bits of the type.
    fn numbers(&self, width: usize, least: u64, patch_every: usize) -> Vec<W> {
        let mask = u64::MAX >> (64 - width);
        (0..self.len).map(|i| W::of(if patch_every != 0 && i % patch_every == 3 { u64::MAX } else { least + (self.noise(i) & mask) })).collect()
    }

    /// Takes the time of a `memcpy` beside that of a call, since what else runs on the machine slows both.
    fn push(&mut self, name: String, seconds: f64) {
        let (from, to) = (&self.items[..], &mut self.copy[..]);
        let memcpy = best(|| black_box(&mut *to).copy_from_slice(black_box(from)));
        let into_new = best(|| { black_box(black_box(from).to_vec()); });
        self.rows.push(Row { name, to_memcpy: memcpy / seconds, to_new: into_new / seconds });
    }

    fn decode(&mut self, name: String, array: Array<W>) -> f64 {
        let seconds = array.decode();
        self.push(format!("decode {name}"), seconds);
        seconds
    }

    fn bit_packed(&mut self) {
        for (width, at) in [(W::BITS / 4, "T/4"), (W::BITS / 2, "T/2")] {
            let plain = self.numbers(width, 0, 0);
            let patched = self.numbers(width, 0, 100);
            let array = |items| Array { encoding: Encoding::BitPacked, width, null_every: 0, items };
            let alone = self.decode(format!("bit-packed at {at}"), array(&plain));
            self.decode(format!("bit-packed at {at}, 1 % patches"), array(&patched));
            self.decode(format!("bit-packed at {at}, a bit for each item"), Array { null_every: 7, ..array(&plain) });
            self.decode(format!("blocked, widths up to {at}"), Array { encoding: Encoding::BestWidths, ..array(&plain) });
            let above = self.numbers(width, 5, 0);
            let fused = self.decode(format!("FoR over bit-packed at {at}"), Array { encoding: Encoding::PackedFoR, ..array(&above) });
            self.rows.push(Row { name: format!("the same, to bit-packed alone at {at}"), to_memcpy: alone / fused, to_new: 0.0 });
        }
    }

    fn encoders(&mut self) {
        let small = self.numbers(3, 0, 0);
        let mut sum = 0u64;
        let rising: Vec<W> = small.iter().map(|x| { sum = sum.wrapping_add(x.to_u64()); W::of(sum) }).collect();
        let runs: Vec<W> = (0..self.len).map(|i| W::of(self.noise[(i / 16) % 65536])).collect();
        let array = |encoding, items| Array { encoding, width: 0, null_every: 0, items };
        self.decode("delta".into(), array(Encoding::Delta, &rising));
        self.decode("RLE, runs of 16".into(), array(Encoding::RLE, &runs));
        self.decode("delta over bit-packed deltas".into(), array(Encoding::PackedDelta, &rising));
        self.decode("RLE over bit-packed run indices".into(), array(Encoding::PackedRLE, &runs));
        let patched = self.numbers(W::BITS / 4, 0, 100);
        let above = self.numbers(W::BITS / 2, 5, 0);
        let cases = [
            ("bit-packed at the best width", Encoding::BestWidth, &patched), ("blocked at the best widths", Encoding::BestWidths, &patched),
            ("FoR", Encoding::FoR, &above), ("FoR by chunks", Encoding::ChunkedFoR, &above), ("delta", Encoding::Delta, &rising), ("RLE, runs of 16", Encoding::RLE, &runs),
        ];
        for (name, encoding, items) in cases {
            for (null_every, nulls) in [(0, ""), (7, ", a bit for each item")] {
                let seconds = Array { null_every, ..array(encoding, items) }.encode();
                self.push(format!("encode {name}{nulls}"), seconds);
            }
        }
    }
}

fn rows<W: Word>(megabytes: usize) -> Vec<Row> {
    let mut columns = Columns::<W>::new(megabytes);
    columns.bit_packed();
    columns.encoders();
    columns.rows
}

/// Times encoders and decoders of so many megabytes of items, and prints their ratios to `memcpy`.
pub fn run(types: &str, megabytes: usize) {
    let mut columns: Vec<(&str, Vec<Row>)> = Vec::new();
    for t in types.split(',') {
        let rows = match t { "u8" => rows::<u8>(megabytes), "u16" => rows::<u16>(megabytes), "u32" => rows::<u32>(megabytes), "u64" => rows::<u64>(megabytes), _ => panic!("no type {t}") };
        columns.push((t, rows));
    }
    let heads: Vec<&str> = columns.iter().map(|it| it.0).collect();
    println!("\n{megabytes} MB of decoded items: the time of memcpy into memory that is there by ours; in parentheses that of memcpy into a new list\n");
    println!("| call | {} |\n|{}", heads.join(" | "), "---|".repeat(heads.len() + 1));
    for i in 0..columns[0].1.len() {
        let cell = |row: &Row| if row.to_new == 0.0 { format!("{:.2}", row.to_memcpy) } else { format!("{:.2} ({:.2})", row.to_memcpy, row.to_new) };
        let cells: Vec<String> = columns.iter().map(|it| cell(&it.1[i])).collect();
        println!("| {} | {} |", columns[0].1[i].name, cells.join(" | "));
    }
}
