//! Kernels in Rust, specialised by width: what a user would otherwise pick.
pub mod kernels;

#[cfg(test)]
mod tests {
    use super::kernels::*;
    struct Rng(u64);
    impl Rng { fn next(&mut self) -> u64 { self.0 ^= self.0 << 13; self.0 ^= self.0 >> 7; self.0 ^= self.0 << 17; self.0 } }

    macro_rules! check {
        ($name:ident, $m:ident, $t:ty) => {
            #[test]
            fn $name() {
                use $m::*;
                let mut rng = Rng(0x9E3779B97F4A7C15);
                for w in 0..=T { for kind in 0..4 {
                    let mut items = [0 as $t; 1024];
                    for (p, it) in items.iter_mut().enumerate() {
                        *it = match kind { 0 => 0, 1 => <$t>::MAX, 2 => (p * p) as $t, _ => rng.next() as $t };
                    }
                    let mask: $t = if w == 0 { 0 } else { <$t>::MAX >> (T - w) };
                    let low = items.map(|x| x & mask);
                    let mut packed = vec![0 as $t; w * LANES];
                    pack_w(w, &items, &mut packed);
                    assert_eq!(packed, naive_pack(w, &items), "pack {w}");
                    assert_eq!(naive_unpack(w, &packed), low);
                    let mut out = [1 as $t; 1024];
                    unpack_w(w, &packed, &mut out);
                    assert_eq!(out, low, "unpack {w}");
                    let reference = rng.next() as $t;
                    unfor_pack_w(w, &packed, reference, &mut out);
                    assert_eq!(out, low.map(|x| x.wrapping_add(reference)), "unfor {w}");
                    let rhs = low[rng.next() as usize % 1024];
                    let mut acc = [0 as $t; LANES];
                    unpack_lt_w(w, &packed, rhs, &mut acc);
                    for l in 0..LANES { for r in 0..T { assert_eq!((acc[l] >> r) & 1 == 1, low[pos(r, l)] < rhs); } }
                    let mut lane_bits = [0u64; 16];
                    for l in 0..LANES { let i = l * T; lane_bits[i / 64] |= (acc[l] as u64) << (i % 64); }
                    let (mut a, mut b, mut c) = ([0u64; 16], [0u64; 16], [0u64; 16]);
                    transpose_bits_naive::<T>(&lane_bits, &mut a);
                    transpose_bits::<T>(&lane_bits, &mut b);
                    unpack_then_lt_w(w, &packed, rhs, &mut c);
                    assert_eq!(a, b); assert_eq!(a, c);
                    for i in 0..1024 { assert_eq!(unpack_single_w(w, &packed, i), low[i], "single {w} {i}"); }
                    let mut bytes = vec![0u8; 128 * w + 32];
                    scalar_pack(w, &items, &mut bytes);
                    scalar_unpack(w, &bytes, &mut out);
                    assert_eq!(out, low, "scalar {w}");
                    let (mut t, mut u) = ([0 as $t; 1024], [0 as $t; 1024]);
                    transpose(&items, &mut t); untranspose(&t, &mut u);
                    assert_eq!(u, items);
                    let mut bases = [0 as $t; LANES];
                    for l in 0..LANES { bases[l] = items[seg(l)]; for r in 0..T { assert_eq!(t[pos(r, l)], items[seg(l) + r]); } }
                    let mut d = [0 as $t; 1024];
                    delta(&t, &bases, &mut d); undelta(&d, &bases, &mut u);
                    assert_eq!(u, t);
                    for l in 0..LANES { assert_eq!(d[l], 0); }
                    let (mut v, mut ix) = ([0 as $t; 1024], [0u16; 1024]);
                    let n = rle_encode(&low, &mut v, &mut ix);
                    rle_decode(&v[..n], &ix, &mut u);
                    assert_eq!(u, low);
                } }
                let mut seen = [false; 1024];
                for l in 0..LANES { for r in 0..T { seen[pos(r, l)] = true; assert_eq!(row_lane(pos(r, l)), (r, l)); } }
                assert!(seen.iter().all(|x| *x));
            }
        };
    }
    check!(u8_all_widths, k8, u8);
    check!(u16_all_widths, k16, u16);
    check!(u32_all_widths, k32, u32);
    check!(u64_all_widths, k64, u64);
}
