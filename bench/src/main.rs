//! Races the kernels of `fastlanes` against kernels in Rust and against `memcpy`: the cases take turns, the best of
//! several rounds counts, and each answer is checked before it is timed. The last table has, for each kernel and
//! type, the ratio to the Rust over the widths and to `memcpy`.
#![allow(non_camel_case_types, dead_code, clippy::all)]
use baseline::kernels::*;
use std::cell::RefCell;
use std::hint::black_box;
use std::time::Instant;

mod arrays;
mod codecs;
mod columns;
mod loops;
mod operations;

mod port {
    #![allow(unused, clippy::all)]
    include!(concat!(env!("OUT_DIR"), "/port.rs"));
}

struct Options { rounds: usize, only: String, types: String, stream_mb: usize, all_widths: bool, csv: bool, widths: String, tables: bool, sums: RefCell<Vec<Sum>> }

/// One measured case: the kernel, its variant and type, the width, and the ratios to the Rust and to `memcpy`.
struct Sum { kernel: String, width: String, to_rust: f64, to_memcpy: f64 }

struct Case<'a> { name: String, run: Box<dyn FnMut() + 'a>, best: f64 }

/// Best seconds a call of each case; the cases take turns.
fn race(cases: &mut [Case], rounds: usize, seconds: f64) {
    for c in cases.iter_mut() { (c.run)(); c.best = f64::MAX; }
    let mut reps: Vec<usize> = Vec::new();
    for c in cases.iter_mut() {
        let t = Instant::now();
        (c.run)();
        let one = t.elapsed().as_secs_f64().max(1e-9);
        let mut n = (seconds / one).max(1.0) as usize;
        if n > 1 {
            let t = Instant::now();
            for _ in 0..n { (c.run)(); }
            n = ((seconds / (t.elapsed().as_secs_f64() / n as f64)).max(1.0)) as usize;
        }
        reps.push(n);
    }
    for _ in 0..rounds {
        for (c, &n) in cases.iter_mut().zip(&reps) {
            let t = Instant::now();
            for _ in 0..n { (c.run)(); }
            c.best = c.best.min(t.elapsed().as_secs_f64() / n as f64);
        }
    }
}

fn show(o: &Options, key: &str, head: &str, bytes: f64, cases: &[Case], limit: f64, first: f64) -> String {
    let mut row = format!("| {head} ");
    for c in cases {
        let gb = bytes / c.best / 1e9;
        if c.name.starts_with("fl") {
            let parts: Vec<&str> = key.split(';').collect();
            let sum = |kernel: String, rust: f64| Sum { kernel, width: parts[3].to_string(), to_rust: rust / c.best, to_memcpy: limit / c.best };
            o.sums.borrow_mut().push(sum(format!("{} | u{}", parts[0], parts[1]), first));
            if let Some(lanes) = cases.iter().find(|it| it.name == "rust_lanes") {
                o.sums.borrow_mut().push(sum(format!("{}, to Rust in lanes | u{}", parts[0], parts[1]), lanes.best));
            }
        }
        if o.csv { println!("{head};{};{:.2};{:.3};{:.3}", c.name, gb, limit / c.best, first / c.best); }
        if c.name == "memcpy" { row += &format!("| {gb:.1} ") } else if c.name == "rust" { row += &format!("| {gb:.1} ({:.2}) ", limit / c.best) }
        else { row += &format!("| {gb:.1} ({:.2} / {:.2}r) ", limit / c.best, first / c.best) }
    }
    row + "|\n"
}

fn head(title: &str, cases: &[Case]) -> String {
    let names: Vec<&str> = cases.iter().map(|c| c.name.as_str()).collect();
    format!("\n{title}: GB/s of decoded bytes (ratio to memcpy / ratio to rust, 'r')\n| T, width | {} |\n|{}\n", names.join(" | "), "---|".repeat(names.len() + 1))
}

fn random(n: usize) -> Vec<u64> {
    let mut x = 0x9E3779B97F4A7C15u64;
    (0..n).map(|_| { x ^= x << 13; x ^= x >> 7; x ^= x << 17; x }).collect()
}

macro_rules! case { ($name:expr, $f:expr) => { Case { name: $name.to_string(), run: Box::new($f), best: 0.0 } } }

macro_rules! bench_type {
    ($fn:ident, $m:ident, $t:ident, $o:expr) => {{
        use $m::{LANES, T};
        let o: &Options = $o;
        type W = $t;
        let picked: Vec<usize> = if o.all_widths { (0..=T).collect() } else if !o.widths.is_empty() { o.widths.split(',').filter_map(|x| x.parse().ok()).filter(|w| *w <= T).collect() } else { vec![1, 3, T / 2, T - 1, T] };
        for (place, bytes) in [("L1", 8192usize), ("stream", o.stream_mb << 20)] {
            if bytes == 0 { continue; }
            let n = bytes / (T / 8);
            let blocks = n / 1024;
            let (rounds, seconds) = if place == "L1" { (o.rounds, 0.0004) } else { (o.rounds.min(7), 0.0) };
            let noise = random(4096);
            let source: Vec<W> = (0..n).map(|i| noise[(i * 7 + i / 4096) % 4096] as W).collect();
            let mut tables: Vec<(&str, String)> = Vec::new();
            macro_rules! row {
                ($kernel:expr, $w:expr, $bytes:expr, $cases:expr) => {{
                    if o.only.is_empty() || o.only.split(',').any(|x| x == $kernel) {
                        let mut cases: Vec<Case> = $cases;
                        if !tables.iter().any(|it| it.0 == $kernel) { tables.push(($kernel, head(&format!("{} u{} {}", $kernel, T, place), &cases))); }
                        race(&mut cases, rounds, seconds);
                        let limit = cases.iter().find(|c| c.name == "memcpy").unwrap().best;
                        let first = cases.iter().find(|c| c.name == "rust").unwrap().best;
                        let head = if o.csv { format!("{};{};{};{}", $kernel, T, place, $w) } else { format!("{}, {}", T, $w) };
                        let key = format!("{};{};{};{}", $kernel, T, place, $w);
                        let row = show(o, &key, &head, $bytes as f64, &cases, limit, first);
                        tables.iter_mut().find(|it| it.0 == $kernel).unwrap().1.push_str(&row);
                    }
                }};
            }
            // one buffer for each case, so that none writes what another just wrote; full of ones, so that a
            // kernel that writes nothing is seen
            let dst = || vec![1 as W; n];
            for &w in &picked {
                let size = w * LANES;
                let mut packed = vec![0 as W; size * blocks];
                for b in 0..blocks { $m::pack_w(w, source[1024 * b..1024 * b + 1024].try_into().unwrap(), &mut packed[size * b..size * (b + 1)]); }
                let packed = &packed[..];
                let source = &source[..];
                row!("unpack", w, bytes, {
                    let (mut d0, mut d1, mut d2) = (dst(), dst(), dst());
                    let mut stream = vec![0u8; bytes / 1 * w / T + 64];
                    $m::scalar_pack(w, &source[..], &mut stream);
                    let mut all = vec![
                        case!("memcpy", move || { black_box(&mut d0[..]).copy_from_slice(black_box(source)); }),
                        case!("rust", move || { let (p, d) = (black_box(packed), black_box(&mut d1[..])); let w = black_box(w);
                            for b in 0..blocks { $m::unpack_w(w, &p[size * b..size * (b + 1)], (&mut d[1024 * b..1024 * b + 1024]).try_into().unwrap()); } }),
                        case!("scalar", move || { $m::scalar_unpack(black_box(w), black_box(&stream), black_box(&mut d2[..])); }),
                    ];
                    for &(name, f) in port::$t::UNPACK_ALL {
                        let mut d = dst();
                        let mut want = dst();
                        for b in 0..blocks { $m::unpack_w(w, &packed[size * b..size * (b + 1)], (&mut want[1024 * b..1024 * b + 1024]).try_into().unwrap()); }
                        unsafe { f(w, packed.as_ptr(), packed.len(), d.as_mut_ptr(), d.len()) };
                        assert!(d == want, "{name} unpack u{} width {w} differs", T);
                        all.push(case!(name, move || { let (p, d) = (black_box(packed), black_box(&mut d[..])); unsafe { f(black_box(w), p.as_ptr(), p.len(), d.as_mut_ptr(), d.len()) } }));
                    }
                    all
                });
                row!("unfor_pack", w, bytes, {
                    let (mut d0, mut d1) = (dst(), dst());
                    let reference = noise[5] as W;
                    let mut all = vec![
                        case!("memcpy", move || { black_box(&mut d0[..]).copy_from_slice(black_box(source)); }),
                        case!("rust", move || { let (p, d) = (black_box(packed), black_box(&mut d1[..])); let w = black_box(w);
                            for b in 0..blocks { $m::unfor_pack_w(w, &p[size * b..size * (b + 1)], reference, (&mut d[1024 * b..1024 * b + 1024]).try_into().unwrap()); } }),
                    ];
                    for &(name, f) in port::$t::UNFOR_PACK_ALL {
                        let mut d = dst();
                        let mut want = dst();
                        for b in 0..blocks { $m::unfor_pack_w(w, &packed[size * b..size * (b + 1)], reference, (&mut want[1024 * b..1024 * b + 1024]).try_into().unwrap()); }
                        unsafe { f(w, packed.as_ptr(), packed.len(), reference, d.as_mut_ptr(), d.len()) };
                        assert!(d == want, "{name} unfor_pack u{} width {w} differs", T);
                        all.push(case!(name, move || { let (p, d) = (black_box(packed), black_box(&mut d[..])); unsafe { f(black_box(w), p.as_ptr(), p.len(), reference, d.as_mut_ptr(), d.len()) } }));
                    }
                    all
                });
                row!("pack", w, bytes, {
                    let mut d0 = dst();
                    let mut d1 = vec![0 as W; packed.len()];
                    let mut all = vec![
                        case!("memcpy", move || { black_box(&mut d0[..]).copy_from_slice(black_box(source)); }),
                        case!("rust", move || { let (s, d) = (black_box(source), black_box(&mut d1[..])); let w = black_box(w);
                            for b in 0..blocks { $m::pack_w(w, s[1024 * b..1024 * b + 1024].try_into().unwrap(), &mut d[size * b..size * (b + 1)]); } }),
                    ];
                    for &(name, f) in port::$t::PACK_ALL {
                        let mut d = vec![1 as W; packed.len()];
                        unsafe { f(w, source.as_ptr(), source.len(), d.as_mut_ptr(), d.len()) };
                        assert!(d == packed, "{name} pack u{} width {w} differs", T);
                        all.push(case!(name, move || { let (s, d) = (black_box(source), black_box(&mut d[..])); unsafe { f(black_box(w), s.as_ptr(), s.len(), d.as_mut_ptr(), d.len()) } }));
                    }
                    all
                });
                // Compare: bits in item order. 'rust' unpacks, compares and gathers the bits; 'rust_lanes' compares in lanes and turns the bits at the end.
                let rhs: W = if w == 0 { 1 } else { (1 as W) << (w - 1) };
                row!("compare", w, bytes, {
                    let mut d0 = dst();
                    let (mut b1, mut b2) = (vec![0u64; 16 * blocks], vec![0u64; 16 * blocks]);
                    let mut all = vec![
                        case!("memcpy", move || { black_box(&mut d0[..]).copy_from_slice(black_box(source)); }),
                        case!("rust", move || { let (p, d) = (black_box(packed), black_box(&mut b1[..])); let w = black_box(w);
                            for b in 0..blocks { $m::unpack_then_lt_w(w, &p[size * b..size * (b + 1)], rhs, (&mut d[16 * b..16 * b + 16]).try_into().unwrap()); } }),
                        case!("rust_lanes", move || { let (p, d) = (black_box(packed), black_box(&mut b2[..])); let w = black_box(w);
                            for b in 0..blocks {
                                let mut acc = [0 as W; LANES];
                                $m::unpack_lt_w(w, &p[size * b..size * (b + 1)], rhs, &mut acc);
                                let mut lane_bits = [0u64; 16];
                                for k in 0..16 { for j in 0..64 / T { lane_bits[k] |= (acc[k * (64 / T) + j] as u64) << (j * T % 64); } }
                                transpose_bits::<{ $m::T }>(&lane_bits, (&mut d[16 * b..16 * b + 16]).try_into().unwrap());
                            } }),
                    ];
                    for &(name, f) in port::$t::COMPARE_LT_ALL {
                        let mut d = vec![1u64; 16 * blocks];
                        let mut want = vec![0u64; 16 * blocks];
                        for b in 0..blocks { $m::unpack_then_lt_w(w, &packed[size * b..size * (b + 1)], rhs, (&mut want[16 * b..16 * b + 16]).try_into().unwrap()); }
                        unsafe { f(w, packed.as_ptr(), packed.len(), rhs, d.as_mut_ptr(), d.len()) };
                        assert!(d == want, "{name} compare u{} width {w} differs", T);
                        all.push(case!(name, move || { let (p, d) = (black_box(packed), black_box(&mut d[..])); unsafe { f(black_box(w), p.as_ptr(), p.len(), rhs, d.as_mut_ptr(), d.len()) } }));
                    }
                    all
                });
                row!("unpack_cmp", w, bytes, {
                    let mut d0 = dst();
                    let mut b1 = vec![0 as W; LANES * blocks];
                    let mut all = vec![
                        case!("memcpy", move || { black_box(&mut d0[..]).copy_from_slice(black_box(source)); }),
                        case!("rust", move || { let (p, d) = (black_box(packed), black_box(&mut b1[..])); let w = black_box(w);
                            for b in 0..blocks { $m::unpack_lt_w(w, &p[size * b..size * (b + 1)], rhs, (&mut d[LANES * b..LANES * b + LANES]).try_into().unwrap()); } }),
                    ];
                    for &(name, f) in port::$t::UNPACK_CMP_LT_ALL {
                        let mut d = vec![1u64; 16 * blocks];
                        unsafe { f(w, packed.as_ptr(), packed.len(), rhs, d.as_mut_ptr(), d.len()) };
                        let mut acc = [0 as W; LANES];
                        $m::unpack_lt_w(w, &packed[..size], rhs, &mut acc);
                        for l in 0..LANES { assert!((d[l * T / 64] >> (l * T % 64)) as W == acc[l], "{name} unpack_cmp u{} width {w} differs", T); }
                        all.push(case!(name, move || { let (p, d) = (black_box(packed), black_box(&mut d[..])); unsafe { f(black_box(w), p.as_ptr(), p.len(), rhs, d.as_mut_ptr(), d.len()) } }));
                    }
                    all
                });
                // Point reads: 4096 reads at random places; GB/s counts the items read.
                row!("unpack_single", w, 4096 * T / 8, {
                    let places: Vec<usize> = noise.iter().map(|x| (*x as usize) % n).collect();
                    let places: &'static [usize] = Box::leak(places.into_boxed_slice());
                    let mut all = vec![
                        case!("memcpy", { let mut d0 = vec![0 as W; 4096]; let s = &source[..4096.min(n)]; move || { let k = s.len(); black_box(&mut d0[..k]).copy_from_slice(black_box(s)); } }),
                        case!("rust", move || { let p = black_box(packed); let w = black_box(w); let mut sum: W = 0;
                            for &i in places { let b = i / 1024; sum = sum.wrapping_add(black_box($m::unpack_single_w as fn(usize, &[W], usize) -> W)(w, &p[size * b..size * (b + 1)], i % 1024)); } black_box(sum); }),
                    ];
                    for &(name, f) in port::$t::UNPACK_SINGLE_ALL {
                        for &i in places { let b = i / 1024; let got = unsafe { f(w, packed.as_ptr().cast::<u8>().add(128 * w * b), 128 * w, i % 1024) };
                            assert!(got == $m::unpack_single_w(w, &packed[size * b..size * (b + 1)], i % 1024), "{name} unpack_single u{} width {w} differs", T); }
                        all.push(case!(name, move || { let p = black_box(packed); let w = black_box(w); let mut sum: W = 0;
                            for &i in places { let b = i / 1024; sum = sum.wrapping_add(unsafe { f(w, p.as_ptr().cast::<u8>().add(128 * w * b), 128 * w, i % 1024) }); } black_box(sum); }));
                    }
                    all
                });
            }
            let source = &source[..];
            macro_rules! plain {
                ($kernel:expr, $all:ident, $rust:expr) => {
                    row!($kernel, "-", bytes, {
                        let (mut d0, mut d1) = (dst(), dst());
                        let mut all = vec![
                            case!("memcpy", move || { black_box(&mut d0[..]).copy_from_slice(black_box(source)); }),
                            case!("rust", move || { let (s, d) = (black_box(source), black_box(&mut d1[..]));
                                for b in 0..blocks { $rust(s[1024 * b..1024 * b + 1024].try_into().unwrap(), (&mut d[1024 * b..1024 * b + 1024]).try_into().unwrap()); } }),
                        ];
                        for &(name, f) in port::$t::$all {
                            let (mut d, mut want) = (dst(), dst());
                            for b in 0..blocks { $rust(source[1024 * b..1024 * b + 1024].try_into().unwrap(), (&mut want[1024 * b..1024 * b + 1024]).try_into().unwrap()); }
                            unsafe { f(source.as_ptr(), source.len(), d.as_mut_ptr(), d.len()) };
                            assert!(d == want, "{name} {} u{} differs", $kernel, T);
                            all.push(case!(name, move || { let (s, d) = (black_box(source), black_box(&mut d[..])); unsafe { f(s.as_ptr(), s.len(), d.as_mut_ptr(), d.len()) } }));
                        }
                        all
                    });
                };
            }
            plain!("transpose", TRANSPOSE_ALL, $m::transpose);
            plain!("untranspose", UNTRANSPOSE_ALL, $m::untranspose);
            let bases = vec![3 as W; LANES * blocks];
            let bases = &bases[..];
            macro_rules! based {
                ($kernel:expr, $all:ident, $rust:expr) => {
                    row!($kernel, "-", bytes, {
                        let (mut d0, mut d1) = (dst(), dst());
                        let mut all = vec![
                            case!("memcpy", move || { black_box(&mut d0[..]).copy_from_slice(black_box(source)); }),
                            case!("rust", move || { let (s, d) = (black_box(source), black_box(&mut d1[..]));
                                for b in 0..blocks { $rust(s[1024 * b..1024 * b + 1024].try_into().unwrap(), bases[LANES * b..LANES * b + LANES].try_into().unwrap(), (&mut d[1024 * b..1024 * b + 1024]).try_into().unwrap()); } }),
                        ];
                        for &(name, f) in port::$t::$all {
                            let (mut d, mut want) = (dst(), dst());
                            for b in 0..blocks { $rust(source[1024 * b..1024 * b + 1024].try_into().unwrap(), bases[LANES * b..LANES * b + LANES].try_into().unwrap(), (&mut want[1024 * b..1024 * b + 1024]).try_into().unwrap()); }
                            unsafe { f(source.as_ptr(), source.len(), bases.as_ptr(), bases.len(), d.as_mut_ptr(), d.len()) };
                            assert!(d == want, "{name} {} u{} differs", $kernel, T);
                            all.push(case!(name, move || { let (s, d) = (black_box(source), black_box(&mut d[..])); unsafe { f(s.as_ptr(), s.len(), bases.as_ptr(), bases.len(), d.as_mut_ptr(), d.len()) } }));
                        }
                        all
                    });
                };
            }
            based!("delta", DELTA_ALL, $m::delta);
            based!("undelta", UNDELTA_ALL, $m::undelta);
            row!("rle_decode", "-", bytes, {
                let (mut d0, mut d1) = (dst(), dst());
                let values: Vec<W> = noise[..100].iter().map(|x| *x as W).collect();
                let values: &'static [W] = Box::leak(values.into_boxed_slice());
                let indices: Vec<u16> = (0..n).map(|i| ((i % 1024) / 11) as u16).collect();
                let indices: &'static [u16] = Box::leak(indices.into_boxed_slice());
                let mut all = vec![
                    case!("memcpy", move || { black_box(&mut d0[..]).copy_from_slice(black_box(source)); }),
                    case!("rust", move || { let d = black_box(&mut d1[..]); let values = black_box(values);
                        for b in 0..blocks { $m::rle_decode(values, indices[1024 * b..1024 * b + 1024].try_into().unwrap(), (&mut d[1024 * b..1024 * b + 1024]).try_into().unwrap()); } }),
                ];
                for &(name, f) in port::$t::RLE_DECODE_ALL {
                    let mut d = dst();
                    unsafe { f(values.as_ptr(), values.len(), indices.as_ptr(), indices.len(), d.as_mut_ptr(), d.len()) };
                    for i in 0..n { assert!(d[i] == values[indices[i] as usize], "{name} rle_decode differs"); }
                    all.push(case!(name, move || { let d = black_box(&mut d[..]); unsafe { f(values.as_ptr(), values.len(), indices.as_ptr(), indices.len(), d.as_mut_ptr(), d.len()) } }));
                }
                all
            });
            if o.tables && !o.csv { for (_, text) in &tables { print!("{text}"); } }
        }
    }};
}

#[inline(never)]
fn bench_u8(o: &Options) { bench_type!(b, k8, u8, o) }
#[inline(never)]
fn bench_u16(o: &Options) { bench_type!(b, k16, u16, o) }
#[inline(never)]
fn bench_u32(o: &Options) { bench_type!(b, k32, u32, o) }
#[inline(never)]
fn bench_u64(o: &Options) { bench_type!(b, k64, u64, o) }

fn main() {
    let mut o = Options { rounds: 15, only: String::new(), types: "u8,u16,u32,u64".into(), stream_mb: 0, all_widths: false, csv: false, widths: String::new(), tables: false, sums: RefCell::new(Vec::new()) };
    let (mut arrays, mut columns) = (false, false);
    let mut words = std::env::args().skip(1);
    while let Some(it) = words.next() {
        let mut value = || words.next().expect("a value");
        match it.as_str() {
            "--rounds" => o.rounds = value().parse().unwrap(),
            "--only" => o.only = value(),
            "--types" => o.types = value(),
            "--stream" => o.stream_mb = value().parse().unwrap(),
            "--widths" => o.widths = value(),
            "--all-widths" => o.all_widths = true,
            "--csv" => o.csv = true,
            "--arrays" => arrays = true,
            "--columns" => columns = true,
            "--tables" => o.tables = true,
            _ => { eprintln!("bench [--rounds N] [--only unpack,pack,..] [--types u8,..] [--stream MB (0: none)] [--widths 1,3,..] [--all-widths] [--tables] [--csv] [--columns] [--arrays]"); std::process::exit(2) }
        }
    }
    for t in o.types.split(',').filter(|_| !columns && !arrays) {
        match t { "u8" => bench_u8(&o), "u16" => bench_u16(&o), "u32" => bench_u32(&o), "u64" => bench_u64(&o), _ => panic!("no type {t}") }
    }
    if !o.csv && !o.sums.borrow().is_empty() { summary(&o.sums.borrow()); }
    if columns { columns::run(&o.types, o.stream_mb, o.all_widths); }
    if arrays {
        let megabytes = if o.stream_mb == 0 { 64 } else { o.stream_mb };
        codecs::run(&o.types, megabytes);
        operations::run(megabytes);
    }
}

/// The ratios of each kernel and type, as a table.
fn summary(sums: &[Sum]) {
    println!("| kernel | type | to Rust (geometric mean) | least | most | to memcpy |\n|---|---|---|---|---|---|");
    let mut kernels: Vec<&str> = Vec::new();
    for it in sums { if !kernels.contains(&it.kernel.as_str()) { kernels.push(&it.kernel); } }
    for kernel in kernels {
        let of: Vec<&Sum> = sums.iter().filter(|it| it.kernel == kernel).collect();
        let mean = |by: &dyn Fn(&Sum) -> f64| (of.iter().map(|it| by(it).ln()).sum::<f64>() / of.len() as f64).exp();
        let least = of.iter().min_by(|a, b| a.to_rust.total_cmp(&b.to_rust)).unwrap();
        let most = of.iter().max_by(|a, b| a.to_rust.total_cmp(&b.to_rust)).unwrap();
        let at = |it: &Sum| if it.width == "-" { format!("{:.2}", it.to_rust) } else { format!("{:.2} at width {}", it.to_rust, it.width) };
        println!("| {kernel} | {:.2} | {} | {} | {:.2} |", mean(&|it| it.to_rust), at(least), at(most), mean(&|it| it.to_memcpy));
    }
}
