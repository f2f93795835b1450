//! Lookups against the original, through the C functions.

mod common;

#[cfg(oracle)]
mod against_the_original {
    extern crate crawdad;

    use super::common::{caught, Arrays, Random};
    use groatlantern::mptrie::MpTrie;
    use groatlantern::trie::{Refused, Trie};
    use std::collections::BTreeSet;

    /// Keys over `alphabet` characters: some short, some long, some that begin with another.
    fn keys(random: &mut Random, alphabet: u32, count: usize) -> Vec<Vec<char>> {
        let first = [0x61, 0x4e00, 0x3042, 0x1_f300][random.below(4) as usize];
        let mut keys = BTreeSet::new();
        let mut last: Vec<char> = vec![];
        for _ in 0..count {
            let longest = if random.below(8) == 0 { 40 } else { 6 };
            let length = 1 + random.below(longest) as usize;
            let mut key: Vec<char> = if random.below(3) == 0 { last.clone() } else { vec![] };
            key.extend((0..length).map(|_| char::from_u32(first + random.below(u64::from(alphabet)) as u32).unwrap()));
            keys.insert(key.clone());
            last = key;
        }
        keys.into_iter().collect()
    }

    /// A query: a key, one with a character changed, added or taken away, or anything.
    fn query(random: &mut Random, keys: &[Vec<char>]) -> Vec<char> {
        let mut query = keys[random.below(keys.len() as u64) as usize].clone();
        let other = |random: &mut Random| {
            let key = &keys[random.below(keys.len() as u64) as usize];
            key[random.below(key.len() as u64) as usize]
        };
        match random.below(6) {
            0 => query.push(other(random)),
            1 => drop(query.pop()),
            2 | 3 => {
                let at = random.below(query.len() as u64) as usize;
                query[at] = other(random);
            }
            4 => {
                let length = random.below(5);
                query = (0..length).map(|_| char::from_u32(random.number() % 0xd800).unwrap()).collect();
            }
            _ => {}
        }
        query
    }

    fn points(query: &[char]) -> Vec<u32> {
        query.iter().map(|&c| u32::from(c)).collect()
    }

    fn texts(keys: &[Vec<char>]) -> Vec<String> {
        keys.iter().map(|k| k.iter().collect()).collect()
    }

    fn plain(arrays: &Arrays) -> Trie<'_> {
        Trie { table: &arrays.table, base: &arrays.base, check: &arrays.check }
    }

    fn minimal(arrays: &Arrays) -> MpTrie<'_> {
        let (code_width, value_width) = arrays.widths;
        MpTrie { table: &arrays.table, base: &arrays.base, check: &arrays.check, tails: &arrays.tails, code_width, value_width }
    }

    #[test]
    fn exact_match_of_both_forms() {
        let mut random = Random::new("exact match", 2);
        let (mut asked, mut found) = (0, 0);
        for round in 0..200 {
            let alphabet = [1, 2, 3, 5, 26, 300, 3000][round % 7];
            let count = 1 + random.below(400) as usize;
            let keys = keys(&mut random, alphabet, count);
            let trie = crawdad::Trie::from_keys(texts(&keys)).unwrap();
            let mptrie = crawdad::MpTrie::from_keys(texts(&keys)).unwrap();
            let (arrays, mp_arrays) = (Arrays::of(&trie.serialize_to_vec()), Arrays::of(&mptrie.serialize_to_vec()));
            assert_eq!(plain(&arrays).num_elems(), Ok(trie.num_elems()));
            assert_eq!(plain(&arrays).num_vacants(), Ok(trie.num_vacants()));
            assert_eq!(plain(&arrays).io_bytes(), Ok(trie.io_bytes()));
            for _ in 0..200 {
                let query = query(&mut random, &keys);
                let theirs = trie.exact_match(query.iter().copied());
                assert_eq!(plain(&arrays).exact_match(&points(&query)), Ok(theirs), "{query:?} of {keys:?}");
                let theirs = mptrie.exact_match(query.iter().copied());
                assert_eq!(minimal(&mp_arrays).exact_match(&points(&query)), Ok(theirs), "{query:?} of {keys:?}");
                asked += 1;
                found += usize::from(theirs.is_some());
            }
        }
        println!("{asked} queries of each form, {found} found");
        assert!(found * 5 > asked && found < asked);
    }

    /// What the original answers; a panic is refusal 22.
    fn or_outside<T>(run: impl FnOnce() -> T) -> Result<T, Refused> {
        caught(run).ok_or(Refused(22))
    }

    /// Our list, from runs that are longer by one; the rest of them stays.
    fn listed(search: impl FnOnce(&mut [u32], &mut [u32]) -> Result<usize, Refused>, room: usize) -> Result<Vec<(u32, usize)>, Refused> {
        let (mut values, mut lengths) = (vec![77; room + 1], vec![78; room]);
        let count = search(&mut values, &mut lengths);
        let kept = *count.as_ref().unwrap_or(&0);
        assert!(values[kept..].iter().all(|&v| v == 77) && lengths[kept..].iter().all(|&l| l == 78));
        count.map(|n| (0..n).map(|i| (values[i], lengths[i] as usize)).collect())
    }

    #[test]
    fn prefix_search_of_both_forms() {
        let mut random = Random::new("prefix search", 5);
        let (mut asked, mut matches, mut outside) = (0, [0; 2], [0; 2]);
        for round in 0..300 {
            let alphabet = [1, 2, 3, 5, 26, 300, 3000][round % 7];
            let count = 1 + random.below(300) as usize;
            let keys = keys(&mut random, alphabet, count);
            let mut arrays = Arrays::of(&crawdad::Trie::from_keys(texts(&keys)).unwrap().serialize_to_vec());
            let mut mp_arrays = Arrays::of(&crawdad::MpTrie::from_keys(texts(&keys)).unwrap().serialize_to_vec());
            for _ in 0..random.below(3) {
                arrays.damage(&mut random);
                match random.below(2) {
                    0 => mp_arrays.damage(&mut random),
                    _ => mp_arrays.damage_tails(&mut random),
                }
            }
            let (trie, _) = crawdad::Trie::deserialize_from_slice(&arrays.trie_bytes());
            let (mptrie, _) = crawdad::MpTrie::deserialize_from_slice(&mp_arrays.mptrie_bytes());
            for _ in 0..100 {
                let mut query = query(&mut random, &keys);
                query.extend(self::query(&mut random, &keys));
                let numbers = points(&query);
                let theirs = [
                    or_outside(|| trie.common_prefix_search(query.iter().copied()).collect::<Vec<_>>()),
                    or_outside(|| mptrie.common_prefix_search(query.iter().copied()).collect()),
                ];
                for (form, theirs) in theirs.iter().enumerate() {
                    let ours = |room| match form {
                        0 => listed(|v, l| plain(&arrays).common_prefix_search(&numbers, v, l), room),
                        _ => listed(|v, l| minimal(&mp_arrays).common_prefix_search(&numbers, v, l), room),
                    };
                    let room = theirs.as_ref().map_or(9, Vec::len);
                    assert_eq!(&ours(room), theirs, "form {form}, {query:?} on {arrays:?} or {mp_arrays:?}");
                    if let (Ok(list), 1..) = (theirs, room) {
                        assert_eq!(ours(room - 1), Err(Refused(23)), "{list:?}");
                    }
                    matches[form] += theirs.as_ref().map_or(0, Vec::len);
                    outside[form] += usize::from(theirs.is_err());
                }
                asked += 1;
            }
        }
        println!("{asked} queries of each form, {matches:?} matches, {outside:?} outside");
        assert!(matches.iter().all(|&m| m > asked / 2) && outside.iter().all(|&o| o > 100));
    }

    /// docs/DIFFERENCES.md: what the original answers where a query is refused here, or where a list has ended.
    #[test]
    fn where_the_original_differs() {
        let keys = ["世界", "世界中", "国民"];
        let trie = crawdad::Trie::from_keys(keys).unwrap();
        let arrays = Arrays::of(&trie.serialize_to_vec());
        let query: Vec<char> = "世界\u{ffff}".chars().collect();
        assert_eq!(trie.exact_match(query.iter().copied()), Some(0));
        assert_eq!(plain(&arrays).exact_match(&points(&query)), Err(Refused(2)));
        let query: Vec<char> = "世x界".chars().collect();
        let mut theirs = trie.common_prefix_search(query.iter().copied());
        assert_eq!((theirs.next(), theirs.next()), (None, Some((0, 2))));
        assert_eq!(listed(|v, l| plain(&arrays).common_prefix_search(&points(&query), v, l), 3), Ok(vec![]));
        let long = vec!['世'; 65_536];
        assert_eq!(trie.exact_match(long.iter().copied()), None);
        assert_eq!(plain(&arrays).exact_match(&points(&long)), Err(Refused(12)));
    }

    #[test]
    fn exact_match_on_damaged_arrays() {
        let mut random = Random::new("exact match, damaged", 3);
        let mut outside = (0, 0);
        for _ in 0..300 {
            let keys = keys(&mut random, 4, 60);
            let mut arrays = Arrays::of(&crawdad::Trie::from_keys(texts(&keys)).unwrap().serialize_to_vec());
            let mut mp_arrays = Arrays::of(&crawdad::MpTrie::from_keys(texts(&keys)).unwrap().serialize_to_vec());
            for _ in 0..1 + random.below(6) {
                arrays.damage(&mut random);
                match random.below(2) {
                    0 => mp_arrays.damage(&mut random),
                    _ => mp_arrays.damage_tails(&mut random),
                }
            }
            let (trie, _) = crawdad::Trie::deserialize_from_slice(&arrays.trie_bytes());
            let (mptrie, _) = crawdad::MpTrie::deserialize_from_slice(&mp_arrays.mptrie_bytes());
            for _ in 0..100 {
                let query = query(&mut random, &keys);
                let theirs = or_outside(|| trie.exact_match(query.iter().copied()));
                outside.0 += usize::from(theirs.is_err());
                assert_eq!(plain(&arrays).exact_match(&points(&query)), theirs, "{query:?} on {arrays:?}");
                let theirs = or_outside(|| mptrie.exact_match(query.iter().copied()));
                outside.1 += usize::from(theirs.is_err());
                assert_eq!(minimal(&mp_arrays).exact_match(&points(&query)), theirs, "{query:?} on {mp_arrays:?}");
            }
        }
        println!("{outside:?} outside");
        assert!(outside.0 > 100 && outside.1 > 100);
    }
}

#[test]
fn refusals_come_in_their_order() {
    use groatlantern::trie::{Refused, Trie};
    let table = vec![0xffff_ffff; 0x61];
    let (base, check) = ([0u32; 1], [0x7fff_ffffu32; 1]);
    let plain = Trie { table: &table, base: &base, check: &check };
    assert_eq!(plain.exact_match(&[0x61, 0xd800, 0xffff]), Err(Refused(11)));
    assert_eq!(plain.exact_match(&[0x61, 0xffff, 0xd800]), Err(Refused(2)));
    let prefixes = |query: &[u32]| plain.common_prefix_search(query, &mut [], &mut []);
    assert_eq!(prefixes(&[0x61, 0xd800, 0xffff]), Err(Refused(11)));
    assert_eq!(prefixes(&[0x61, 0xffff, 0xd800]), Err(Refused(2)));
    assert_eq!(prefixes(&vec![0xffff; 65_536]), Err(Refused(12)));
    assert_eq!(prefixes(&[0x61]), Ok(0));
    assert_eq!(plain.exact_match(&[0x61, 0x11_0000]), Err(Refused(11)));
    assert_eq!(plain.exact_match(&vec![0x61; 65_535]), Ok(None));
    assert_eq!(plain.exact_match(&vec![0xffff; 65_536]), Err(Refused(12)));
    let long = vec![0xffff_ffff; 1_114_113];
    assert_eq!(Trie { table: &long[1..], ..plain }.exact_match(&[0x61]), Ok(None));
    assert_eq!(Trie { table: &long, ..plain }.exact_match(&[0x61]), Err(Refused(12)));
    assert_eq!(Trie { table: &long, ..plain }.io_bytes(), Err(Refused(12)));
    assert_eq!(Trie { table: &long[1..], ..plain }.io_bytes(), Ok(4 * 1_114_112 + 8 + 8 + 4));
    let many = vec![0x7fff_ffff; 16_777_217];
    let full = Trie { table: &table, base: &many[1..], check: &many };
    assert_eq!((full.num_elems(), full.num_vacants()), (Ok(16_777_216), Ok(16_777_216)));
    let over = Trie { base: &many, ..full };
    assert_eq!((over.num_elems(), over.num_vacants(), over.io_bytes()), (Err(Refused(12)), Err(Refused(12)), Err(Refused(12))));
    assert_eq!(over.exact_match(&[0x61]), Err(Refused(12)));
    let none = Trie { table: &table, base: &[], check: &check };
    assert_eq!(none.exact_match(&[]), Err(Refused(22)));
    assert_eq!(none.exact_match(&[0x61]), Ok(None));
    assert_eq!(Trie { table: &[3; 0x62], ..none }.exact_match(&[0x61]), Err(Refused(22)));
    assert_eq!(Trie { table: &[3; 0x62], ..none }.exact_match(&[0x61, 0xffff]), Err(Refused(2)));
}

#[test]
fn the_minimal_prefix_form_refuses_too() {
    use groatlantern::{mptrie::MpTrie, trie::Refused};
    let table = vec![0xffff_ffff; 0x62];
    let (base, check) = ([0u32; 1], [0x7fff_ffffu32; 1]);
    let minimal = MpTrie { table: &table, base: &base, check: &check, tails: &[], code_width: 1, value_width: 1 };
    assert_eq!(minimal.exact_match(&[0x61, 0xd800, 0xffff]), Err(Refused(11)));
    assert_eq!(minimal.exact_match(&[0x61, 0xffff, 0xd800]), Err(Refused(2)));
    let prefixes = |query: &[u32]| minimal.common_prefix_search(query, &mut [], &mut []);
    assert_eq!(prefixes(&[0x61, 0xd800, 0xffff]), Err(Refused(11)));
    assert_eq!(prefixes(&[0x61, 0xffff, 0xd800]), Err(Refused(2)));
    assert_eq!(prefixes(&vec![0xffff; 65_536]), Err(Refused(12)));
    assert_eq!(prefixes(&[0x61]), Ok(0));
    assert_eq!(minimal.exact_match(&vec![0x61; 65_535]), Ok(None));
    assert_eq!(minimal.exact_match(&vec![0x61; 65_536]), Err(Refused(12)));
    let long = vec![0; 16_777_217];
    assert_eq!(MpTrie { tails: &long[1..], ..minimal }.exact_match(&[0x61]), Ok(None));
    assert_eq!(MpTrie { tails: &long, ..minimal }.exact_match(&[0x61]), Err(Refused(12)));
    let none = MpTrie { base: &[], ..minimal };
    assert_eq!(none.exact_match(&[]), Err(Refused(22)));
    assert_eq!(none.exact_match(&[0x61]), Err(Refused(22)));
    let mut codes = table.clone();
    codes[0x61] = 1;
    let leaf = MpTrie { table: &codes, base: &[0, 0x8000_0000], check: &[0x7fff_ffff, 0], tails: &[0, 7], ..minimal };
    assert_eq!(leaf.exact_match(&[0x61]), Ok(Some(7)));
    assert_eq!(MpTrie { value_width: 0, ..leaf }.exact_match(&[0x61]), Err(Refused(22)));
    assert_eq!(MpTrie { value_width: 0, ..leaf }.exact_match(&[0x61, 0x61]), Ok(None));
    assert_eq!(MpTrie { code_width: 0, ..leaf }.exact_match(&[0x61]), Ok(Some(7)));
}
