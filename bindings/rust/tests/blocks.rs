//! The kernels over whole blocks beside plain loops, for every type of words, and what they refuse.

use flcol::blocks::{self, Word, BLOCK};
use flcol::Error;

const ORDER: [usize; 8] = [0, 4, 2, 6, 1, 5, 3, 7];

/// Where a block has the item at a row of a lane.
fn place(row: usize, lane: usize) -> usize {
    lane + 128 * (row % 8) + 16 * ORDER[row / 8]
}

/// Where a block has the first of the items that are moved to a lane.
fn segment(lane: usize) -> usize {
    64 * (lane % 16) + 8 * ORDER[lane / 16]
}

macro_rules! tests {
    ($($name:ident: $word:ident),+) => {
        $(mod $name {
            use super::*;

            const T: usize = $word::BITS as usize;
            const LANES: usize = <$word as Word>::LANES;

            fn items() -> [[$word; BLOCK]; 2] {
                let mut state = 7_u64;
                [[0; BLOCK]; 2].map(|block| {
                    block.map(|_: $word| {
                        state = state.wrapping_mul(6364136223846793005).wrapping_add(1442695040888963407);
                        (state >> (64 - T)) as $word
                    })
                })
            }

            #[test]
            fn packs() {
                let items = items();
                for width in [0, 1, T / 2 - 1, T - 1, T] {
                    let low = if width == T { $word::MAX } else { (1 << width) - 1 };
                    let mut packed = vec![0; 2 * width * LANES];
                    assert_eq!(blocks::pack(width, &items, &mut packed), Ok(()));
                    for (at, word) in packed.iter().enumerate() {
                        let (block, k, lane) = (&items[at / (width * LANES)], at % (width * LANES) / LANES, at % LANES);
                        for bit in 0..T {
                            let s = k * T + bit;
                            assert_eq!(word >> bit & 1, block[place(s / width, lane)] >> (s % width) & 1);
                        }
                    }
                    let mut again = [[1; BLOCK]; 2];
                    assert_eq!(blocks::unpack(width, &packed, &mut again), Ok(()));
                    assert_eq!(again, items.map(|block| block.map(|item| item & low)));
                    assert_eq!(blocks::unfor_pack(width, &packed, 5, &mut again), Ok(()));
                    assert_eq!(again, items.map(|block| block.map(|item| (item & low).wrapping_add(5))));
                    packed.push(9);
                    assert_eq!(blocks::pack(width, &items, &mut packed), Err(Error::WrongLength));
                    assert_eq!(blocks::unpack(width, &packed, &mut again), Err(Error::WrongLength));
                }
                assert_eq!(blocks::pack(T + 1, &items, &mut []), Err(Error::WidthTooLarge));
                assert_eq!(blocks::unfor_pack(T + 1, &[], 0, &mut [[0 as $word; BLOCK]]), Err(Error::WidthTooLarge));
            }

            #[test]
            fn moves_and_subtracts() {
                let (items, bases) = (items(), [3; 2 * LANES]);
                let (mut stored, mut deltas, mut again) = ([[0; BLOCK]; 2], [[0; BLOCK]; 2], [[0; BLOCK]; 2]);
                assert_eq!(blocks::transpose(&items, &mut stored), Ok(()));
                assert_eq!(blocks::delta(&stored, &bases, &mut deltas), Ok(()));
                for (k, (lane, row)) in (0..2).flat_map(|k| (0..BLOCK).map(move |i| (k, (i / T, i % T)))) {
                    assert_eq!(stored[k][place(row, lane)], items[k][segment(lane) + row]);
                    let before = if row == 0 { 3 } else { stored[k][place(row - 1, lane)] };
                    assert_eq!(deltas[k][place(row, lane)], stored[k][place(row, lane)].wrapping_sub(before));
                }
                assert_eq!(blocks::undelta(&deltas, &bases, &mut again), Ok(()));
                assert_eq!(again, stored);
                assert_eq!(blocks::untranspose(&stored, &mut again), Ok(()));
                assert_eq!(again, items);
                assert_eq!(blocks::transpose(&items, &mut stored[..1]), Err(Error::WrongLength));
                assert_eq!(blocks::undelta(&deltas, &bases[1..], &mut again), Err(Error::WrongLength));
            }
        })+
    };
}

tests!(of_u8: u8, of_u16: u16, of_u32: u32, of_u64: u64);
