//! The leaves beside the original's own, alternating in one process: nanoseconds a call, and the median of the rounds' ratios.
//!
//!     cargo run --release --offline --example speed

#[path = "../tests/common/mod.rs"]
mod common;
mod timing;

#[cfg(oracle)]
mod against_the_original {
    use super::{common::Random, timing::beside};
    use groatlantern::parts;
    use std::hint::black_box;

    /// src/utils.rs, unchanged.
    #[allow(dead_code)]
    mod utils {
        extern crate alloc;
        include!(concat!(env!("CRAWDAD_SRC"), "/src/utils.rs"));
    }

    /// The original's functions are called as ours are: not inlined.
    #[inline(never)]
    fn pack(out: &mut Vec<u8>, n: u32, nbytes: u8) {
        utils::pack_u32(out, n, nbytes);
    }

    #[inline(never)]
    fn unpack(slice: &[u8], nbytes: u8) -> u32 {
        utils::unpack_u32(slice, nbytes)
    }

    #[inline(never)]
    fn common(a: &[char], b: &[char]) -> (usize, std::cmp::Ordering) {
        utils::longest_common_prefix(a, b)
    }

    pub fn run() {
        let mut random = Random::new("speed", 1);
        let numbers: Vec<u32> = (0..4096).map(|_| random.number() >> (random.number() % 32)).collect();
        let widths: Vec<u8> = numbers.iter().map(|&n| parts::pack_size(n)).collect();
        let (mut bytes, mut grown) = (vec![0; 4 * numbers.len()], Vec::with_capacity(4 * numbers.len()));
        let passes = 50;
        beside(
            "pack_u32",
            passes * numbers.len(),
            || {
                for _ in 0..passes {
                    let mut at = 0;
                    for (&n, &w) in numbers.iter().zip(&widths) {
                        at = parts::pack_u32(&mut bytes, at, n, w).unwrap();
                    }
                }
            },
            || {
                for _ in 0..passes {
                    grown.clear();
                    numbers.iter().zip(&widths).for_each(|(&n, &w)| pack(&mut grown, n, w));
                }
            },
        );
        beside(
            "unpack_u32",
            passes * numbers.len(),
            || {
                for _ in 0..passes {
                    let mut at = 0;
                    for &w in &widths {
                        black_box(parts::unpack_u32(&bytes[at..], w).unwrap());
                        at += usize::from(w);
                    }
                }
            },
            || {
                for _ in 0..passes {
                    let mut at = 0;
                    for &w in &widths {
                        black_box(unpack(&bytes[at..], w));
                        at += usize::from(w);
                    }
                }
            },
        );
        let keys: Vec<Vec<u32>> = (0..64).map(|i| (0..64).map(|k| 0x4e00 + k + u32::from(k == i)).collect()).collect();
        let texts: Vec<Vec<char>> = keys.iter().map(|k| k.iter().map(|&c| char::from_u32(c).unwrap()).collect()).collect();
        beside(
            "longest_common_prefix",
            63 * passes * 10,
            || {
                for k in (0..passes * 10).flat_map(|_| keys.windows(2)) {
                    black_box(parts::longest_common_prefix(&k[0], &k[1]));
                }
            },
            || {
                for k in (0..passes * 10).flat_map(|_| texts.windows(2)) {
                    black_box(common(&k[0], &k[1]));
                }
            },
        );
    }
}

fn main() {
    #[cfg(oracle)]
    against_the_original::run();
    #[cfg(not(oracle))]
    println!("the original crate's source is not at hand: nothing to measure beside");
}
