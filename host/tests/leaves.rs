//! The leaves against the original's own source, through the C functions.

mod common;

use common::Random;
use groatlantern::parts;

const OFFSET_MASK: u32 = 0x7fff_ffff;

#[test]
fn element_parts_are_those_of_lib_rs() {
    let mut random = Random::new("element parts", 1);
    for _ in 0..200_000 {
        let (base, check) = (random.number(), random.number());
        let node = parts::node(base, check);
        assert_eq!(node.base, base & OFFSET_MASK);
        assert_eq!(node.check, check & OFFSET_MASK);
        assert_eq!(node.is_leaf, base & !OFFSET_MASK != 0);
        assert_eq!(node.has_leaf, check & !OFFSET_MASK != 0);
        assert_eq!(node.is_vacant, base == OFFSET_MASK && check == OFFSET_MASK);
    }
}

#[test]
fn characters_are_those_of_char() {
    for c in (0..0x12_0000).chain(u32::MAX - 9..=u32::MAX) {
        assert_eq!(parts::is_character(c), char::from_u32(c).is_some(), "{c:x}");
    }
}

#[test]
fn a_width_outside_1_to_4_and_a_short_run_are_refused() {
    let mut out = [7u8; 6];
    for nbytes in [0, 5, 6, 255] {
        assert_eq!(parts::pack_u32(&mut out, 0, 1, nbytes), None);
        assert_eq!(parts::unpack_u32(&out, nbytes), None);
    }
    for (at, nbytes) in [(6, 1), (5, 2), (3, 4), (usize::MAX, 1), (usize::MAX, 4), (7, 1)] {
        assert_eq!(parts::pack_u32(&mut out, at, 1, nbytes), None);
    }
    assert_eq!(parts::unpack_u32(&[], 1), None);
    assert_eq!(parts::unpack_u32(&[1, 2, 3], 4), None);
    assert_eq!(out, [7; 6]);
}

#[cfg(oracle)]
mod against_the_original {
    use super::*;
    use common::caught;

    /// src/utils.rs, unchanged.
    #[allow(dead_code)]
    mod utils {
        extern crate alloc;
        include!(concat!(env!("CRAWDAD_SRC"), "/src/utils.rs"));
    }

    /// src/mapper.rs, unchanged.
    #[allow(dead_code)]
    mod mapper {
        extern crate alloc;
        include!(concat!(env!("CRAWDAD_SRC"), "/src/mapper.rs"));
    }

    #[test]
    fn pack_size() {
        let mut random = Random::new("pack_size", 2);
        for _ in 0..200_000 {
            let n = random.number();
            assert_eq!(parts::pack_size(n), utils::pack_size(n), "{n}");
        }
    }

    #[test]
    fn packed_numbers() {
        let mut random = Random::new("packed numbers", 3);
        for _ in 0..200_000 {
            let (n, nbytes) = (random.number(), 1 + random.below(4) as u8);
            let mut theirs = vec![];
            utils::pack_u32(&mut theirs, n, nbytes);
            let (at, room) = (random.below(9) as usize, random.below(16) as usize);
            let before: Vec<u8> = (0..room).map(|_| random.next() as u8).collect();
            let mut ours = before.clone();
            let end = at + usize::from(nbytes);
            if room < end {
                assert_eq!(parts::pack_u32(&mut ours, at, n, nbytes), None);
                assert_eq!(ours, before);
            } else {
                assert_eq!(parts::pack_u32(&mut ours, at, n, nbytes), Some(end));
                assert_eq!(ours[at..end], theirs[..]);
                assert_eq!(ours[..at], before[..at]);
                assert_eq!(ours[end..], before[end..]);
                assert_eq!(parts::unpack_u32(&ours[at..], nbytes), Some(utils::unpack_u32(&theirs, nbytes)));
            }
        }
    }

    #[test]
    fn unpacked_numbers_and_panics() {
        let mut random = Random::new("unpacked numbers", 4);
        for _ in 0..20_000 {
            let slice: Vec<u8> = (0..random.below(7)).map(|_| random.next() as u8).collect();
            let nbytes = random.below(7) as u8;
            let theirs = caught(|| utils::unpack_u32(&slice, nbytes));
            // docs/DIFFERENCES.md: a width of 0, for which the original reads 0
            let theirs = if nbytes == 0 { None } else { theirs };
            assert_eq!(parts::unpack_u32(&slice, nbytes), theirs, "{slice:?} {nbytes}");
        }
    }

    #[test]
    fn common_prefixes() {
        let mut random = Random::new("common prefixes", 5);
        for _ in 0..100_000 {
            let letters = 1 + random.below(3);
            let key = |r: &mut Random| -> Vec<char> {
                (0..r.below(6)).map(|_| char::from_u32(0x4e00 + r.below(letters) as u32 * 0x8000).unwrap()).collect()
            };
            let (a, b) = (key(&mut random), key(&mut random));
            let numbers = |k: &[char]| -> Vec<u32> { k.iter().map(|&c| c.into()).collect() };
            assert_eq!(
                parts::longest_common_prefix(&numbers(&a), &numbers(&b)),
                utils::longest_common_prefix(&a, &b),
                "{a:?} {b:?}"
            );
        }
    }

    #[test]
    fn codes_of_characters() {
        let mut random = Random::new("codes", 6);
        for _ in 0..200 {
            let freqs: Vec<u32> = (0..random.below(300)).map(|_| random.below(4) as u32).collect();
            let theirs = mapper::CodeMapper::new(&freqs);
            let mut bytes = vec![];
            theirs.serialize_into_vec(&mut bytes);
            let table: Vec<u32> =
                bytes[4..bytes.len() - 4].chunks(4).map(|w| u32::from_le_bytes(w.try_into().unwrap())).collect();
            for c in 0..400u32 {
                let c = char::from_u32(c).unwrap();
                assert_eq!(parts::code_of(&table, c.into()), theirs.get(c));
            }
        }
    }
}
