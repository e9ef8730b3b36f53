//! Whole columns beside the kernels that they stand on and beside `memcpy`: packing into new bytes and into bytes that
//! are there, unpacking into a new array, and decoding into items that are there. A column in cache has 64 KB of
//! decoded items; a long one as many megabytes as are asked for.
use crate::port;
use crate::{random, race, Case};
use baseline::kernels::*;
use std::hint::black_box;
use std::time::Instant;

/// The ratios of one call at one type and place, a width each: to the kernels, to `memcpy`, and to `memcpy` into a
/// new list.
struct Ratios { name: String, rows: Vec<(usize, f64, f64, f64)> }

fn mean(rows: &[(usize, f64, f64, f64)], by: impl Fn(&(usize, f64, f64, f64)) -> f64) -> f64 {
    (rows.iter().map(|it| by(it).ln()).sum::<f64>() / rows.len() as f64).exp()
}

/// Best seconds of one of `rounds` rounds of a call, less what the call takes beside them.
fn best_round(call: &mut dyn FnMut(usize), rounds: usize, tries: usize) -> f64 {
    let mut timed = |k: usize| { let t = Instant::now(); call(k); t.elapsed().as_secs_f64() };
    timed(1);
    let (mut one, mut all) = (f64::MAX, f64::MAX);
    for _ in 0..tries {
        one = one.min(timed(1));
        all = all.min(timed(1 + rounds));
    }
    (all - one) / rounds as f64
}

macro_rules! case { ($name:expr, $f:expr) => { Case { name: $name.to_string(), run: Box::new($f), best: 0.0 } } }

macro_rules! columns_of {
    ($m:ident, $t:ident, $bytes:expr, $place:expr, $widths:expr, $out:expr) => {{
        use $m::{LANES, T};
        type W = $t;
        let bytes: usize = $bytes;
        let n = bytes / (T / 8);
        let blocks = n / 1024;
        let in_cache = bytes <= 1 << 20;
        let (tries, seconds, rounds) = if in_cache { (9, 0.0004, (1 << 24) / bytes) } else { (3, 0.0, 4) };
        let noise = random(4096);
        let source: Vec<W> = (0..n).map(|i| noise[(i * 7 + i / 4096) % 4096] as W).collect();
        let source = &source[..];
        let (mut pack_rows, mut into_rows, mut unpack_rows, mut decode_rows) = (Vec::new(), Vec::new(), Vec::new(), Vec::new());
        let widths: Vec<usize> = $widths(T);
        for w in widths {
            let size = w * LANES;
            let mut packed = vec![0 as W; size * blocks];
            for b in 0..blocks { $m::pack_w(w, source[1024 * b..1024 * b + 1024].try_into().unwrap(), &mut packed[size * b..size * (b + 1)]); }
            let raw: Vec<u8> = packed.iter().flat_map(|it| it.to_le_bytes()).collect();
            let mut low = vec![0 as W; n];
            for b in 0..blocks { $m::unpack_w(w, &packed[size * b..size * (b + 1)], (&mut low[1024 * b..1024 * b + 1024]).try_into().unwrap()); }
            let (mut d0, mut d1, mut d2, mut d3) = (vec![0 as W; n], vec![0 as W; n], vec![0 as W; n], vec![1 as W; packed.len()]);
            // each call answers as the harness's own kernels do
            let mut bytes_out = vec![1u8; raw.len()];
            assert_eq!(unsafe { port::$t::PACK_COLUMN_ALL[0].1(1, w as u8, source.as_ptr(), n, bytes_out.as_mut_ptr(), bytes_out.len()) }, raw.len());
            assert!(bytes_out == raw, "pack_column u{} width {w} differs", T);
            bytes_out.fill(1);
            assert_eq!(unsafe { port::$t::PACK_INTO_ALL[0].1(1, w as u8, source.as_ptr(), n, bytes_out.as_mut_ptr(), bytes_out.len()) }, raw.len());
            assert!(bytes_out == raw, "pack_into u{} width {w} differs", T);
            assert_eq!(unsafe { port::$t::UNPACK_COLUMN_ALL[0].1(1, w as u8, n, raw.as_ptr(), raw.len(), d1.as_mut_ptr(), n) }, n);
            assert!(d1 == low, "unpack_column u{} width {w} differs", T);
            assert_eq!(unsafe { port::$t::DECODE_COLUMN_ALL[0].1(w as u8, raw.as_ptr(), raw.len(), d2.as_mut_ptr(), n) }, n);
            assert!(d2 == low, "decode_column u{} width {w} differs", T);
            let (packed_words, raw) = (&packed[..], &raw[..]);
            let (memcpy, fresh, kernel_unpack, kernel_pack, decode) = {
                let mut cases = vec![
                    case!("memcpy", { let d0 = &mut d0; move || { black_box(&mut d0[..]).copy_from_slice(black_box(source)); } }),
                    case!("new", move || { black_box(black_box(source).to_vec()); }),
                    case!("unpack", { let d1 = &mut d1; move || { let (p, d) = (black_box(packed_words), black_box(&mut d1[..])); unsafe { port::$t::UNPACK_ALL[0].1(black_box(w), p.as_ptr(), p.len(), d.as_mut_ptr(), d.len()) } } }),
                    case!("pack", { let d3 = &mut d3; move || { let (s, d) = (black_box(source), black_box(&mut d3[..])); unsafe { port::$t::PACK_ALL[0].1(black_box(w), s.as_ptr(), s.len(), d.as_mut_ptr(), d.len()) } } }),
                    case!("decode", { let d2 = &mut d2; move || { let (p, d) = (black_box(raw), black_box(&mut d2[..])); unsafe { port::$t::DECODE_COLUMN_ALL[0].1(black_box(w as u8), p.as_ptr(), p.len(), d.as_mut_ptr(), d.len()) }; } }),
                ];
                race(&mut cases, tries, seconds);
                (cases[0].best, cases[1].best, cases[2].best, cases[3].best, cases[4].best)
            };
            let pack = best_round(&mut |k| { let s = black_box(source); unsafe { port::$t::PACK_COLUMN_ALL[0].1(k, black_box(w as u8), s.as_ptr(), s.len(), 8 as *mut u8, 0) }; }, rounds, tries);
            let into = best_round(&mut |k| { let (s, b) = (black_box(source), black_box(&mut bytes_out[..])); unsafe { port::$t::PACK_INTO_ALL[0].1(k, black_box(w as u8), s.as_ptr(), s.len(), b.as_mut_ptr(), b.len()) }; }, rounds, tries);
            let unpack = best_round(&mut |k| { let p = black_box(raw); unsafe { port::$t::UNPACK_COLUMN_ALL[0].1(k, black_box(w as u8), n, p.as_ptr(), p.len(), 8 as *mut W, 0) }; }, rounds, tries);
            pack_rows.push((w, kernel_pack / pack, memcpy / pack, fresh / pack));
            into_rows.push((w, kernel_pack / into, memcpy / into, fresh / into));
            unpack_rows.push((w, kernel_unpack / unpack, memcpy / unpack, fresh / unpack));
            decode_rows.push((w, kernel_unpack / decode, memcpy / decode, fresh / decode));
        }
        for (call, rows) in [("bitpack_unchecked", pack_rows), ("bitpack_into", into_rows), ("unpack_column", unpack_rows), ("decode_into", decode_rows)] {
            $out.push(Ratios { name: format!("{call} | u{} | {}", T, $place), rows });
        }
    }};
}

/// Races whole columns of these types, in cache and of so many megabytes, and prints their ratios.
pub fn run(types: &str, megabytes: usize, all_widths: bool) {
    let mut out: Vec<Ratios> = Vec::new();
    for (place, bytes) in [("64 KB", 1usize << 16), ("long", megabytes << 20)] {
        if bytes == 0 { continue; }
        let place = if place == "long" { format!("{megabytes} MB") } else { place.to_string() };
        let widths = |t: usize| -> Vec<usize> { if all_widths && bytes == 1 << 16 { (0..=t).collect() } else { vec![1, t / 4, t / 2, 3 * t / 4, t] } };
        for t in types.split(',') {
            match t {
                "u8" => columns_of!(k8, u8, bytes, place, widths, out),
                "u16" => columns_of!(k16, u16, bytes, place, widths, out),
                "u32" => columns_of!(k32, u32, bytes, place, widths, out),
                "u64" => columns_of!(k64, u64, bytes, place, widths, out),
                _ => panic!("no type {t}"),
            }
        }
    }
    println!("\n| call | type | column | to the kernels (geometric mean) | from width 1 on | least | to memcpy | to memcpy into a new list |\n|---|---|---|---|---|---|---|---|");
    for it in &out {
        let least = it.rows.iter().min_by(|a, b| a.1.total_cmp(&b.1)).unwrap();
        let above: Vec<_> = it.rows.iter().copied().filter(|r| r.0 > 0).collect();
        println!("| {} | {:.2} | {:.2} | {:.2} at width {} | {:.2} | {:.2} |", it.name, mean(&it.rows, |r| r.1), mean(&above, |r| r.1), least.1, least.0, mean(&it.rows, |r| r.2), mean(&it.rows, |r| r.3));
    }
}
