//! Lookups beside the original's, alternating in one process, on a generated list of 60,000 product-like names.
//!
//!     cargo run --release --offline --example lookups

#[path = "../tests/common/mod.rs"]
mod common;
mod timing;

#[cfg(oracle)]
mod against_the_original {
    extern crate crawdad;

    use super::{
        common::{Arrays, Random},
        timing::beside,
    };
    use groatlantern::{mptrie::MpTrie, trie::Trie};
    use std::collections::BTreeSet;
    use std::hint::black_box;

    fn pick<'a>(random: &mut Random, words: &[&'a str]) -> &'a str {
        words[random.below(words.len() as u64) as usize]
    }

    /// Names of about 17 characters in mixed scripts, of which many begin alike.
    fn names(random: &mut Random) -> Vec<String> {
        const MAKERS: [&str; 12] = ["ACME ", "Nordlys ", "Groat ", "Œuvre ", "大日本", "ひかり", "Фарма ", "Έλλη ", "Zion ", "Kvik ", "한빛", "Ümit "];
        const THINGS: [&str; 16] =
            ["Paracetamol", "Ibuprofen", "水性軟膏", "錠剤", "カプセル", "Таблетки", "σιρόπι", "Salve", "Drops", "Spray", "연고", "Pflaster", "Tea", "目薬", "Zinc", "B12"];
        const FORMS: [&str; 8] = [" mg", " ml", "錠", "g", " шт", " x", "%", " 포"];
        let mut names = BTreeSet::new();
        while names.len() < 60_000 {
            let (maker, thing, form) = (pick(random, &MAKERS), pick(random, &THINGS), pick(random, &FORMS));
            names.insert(format!("{maker}{thing} {}{form} {}", random.below(1000), random.below(100)));
        }
        names.into_iter().collect()
    }

    fn points(texts: &[Vec<char>]) -> Vec<Vec<u32>> {
        texts.iter().map(|t| t.iter().map(|&c| u32::from(c)).collect()).collect()
    }

    #[inline(never)]
    fn exact(trie: &crawdad::Trie, query: &[char]) -> Option<u32> {
        trie.exact_match(query.iter().copied())
    }

    #[inline(never)]
    fn exact_mp(trie: &crawdad::MpTrie, query: &[char]) -> Option<u32> {
        trie.exact_match(query.iter().copied())
    }

    fn keep(matches: impl Iterator<Item = (u32, usize)>, values: &mut [u32], lengths: &mut [u32]) -> usize {
        let mut n = 0;
        for (value, length) in matches {
            values[n] = value;
            lengths[n] = length as u32;
            n += 1;
        }
        n
    }

    #[inline(never)]
    fn prefixes(trie: &crawdad::Trie, query: &[char], values: &mut [u32], lengths: &mut [u32]) -> usize {
        keep(trie.common_prefix_search(query.iter().copied()), values, lengths)
    }

    #[inline(never)]
    fn prefixes_mp(trie: &crawdad::MpTrie, query: &[char], values: &mut [u32], lengths: &mut [u32]) -> usize {
        keep(trie.common_prefix_search(query.iter().copied()), values, lengths)
    }

    pub fn run() {
        let mut random = Random::new("lookups", 4);
        let names = names(&mut random);
        let trie = crawdad::Trie::from_keys(&names).unwrap();
        let arrays = Arrays::of(&trie.serialize_to_vec());
        let ours = Trie { table: &arrays.table, base: &arrays.base, check: &arrays.check };
        let mptrie = crawdad::MpTrie::from_keys(&names).unwrap();
        let mp_arrays = Arrays::of(&mptrie.serialize_to_vec());
        let (code_width, value_width) = mp_arrays.widths;
        let minimal = MpTrie { table: &mp_arrays.table, base: &mp_arrays.base, check: &mp_arrays.check, tails: &mp_arrays.tails, code_width, value_width };
        let mut hits: Vec<Vec<char>> = names.iter().map(|n| n.chars().collect()).collect();
        for i in (1..hits.len()).rev() {
            hits.swap(i, random.below(i as u64 + 1) as usize);
        }
        let changed = |at: fn(usize) -> usize| -> Vec<Vec<char>> {
            hits.iter()
                .map(|h| {
                    let mut h = h.clone();
                    let at = at(h.len());
                    h[at] = if h[at] == '7' { '錠' } else { '7' };
                    h
                })
                .collect()
        };
        let (last, middle, first) = (changed(|n| n - 1), changed(|n| n / 2), changed(|_| 0));
        for (what, queries) in [("hits", &hits), ("last changed", &last), ("middle changed", &middle), ("first changed", &first)] {
            let numbers = points(queries);
            for (q, n) in queries.iter().zip(&numbers) {
                assert_eq!(ours.exact_match(n), Ok(exact(&trie, q)));
                assert_eq!(minimal.exact_match(n), Ok(exact_mp(&mptrie, q)));
            }
            beside(
                &format!("exact match, plain, {what}"),
                queries.len(),
                || numbers.iter().for_each(|q| _ = black_box(ours.exact_match(q))),
                || queries.iter().for_each(|q| _ = black_box(exact(&trie, q))),
            );
            let (mut values, mut lengths) = ([0; 32], [0; 32]);
            let (mut their_values, mut their_lengths) = ([0; 32], [0; 32]);
            beside(
                &format!("prefix search, plain, {what}"),
                queries.len(),
                || numbers.iter().for_each(|q| _ = black_box(ours.common_prefix_search(q, &mut values, &mut lengths))),
                || queries.iter().for_each(|q| _ = black_box(prefixes(&trie, q, &mut their_values, &mut their_lengths))),
            );
            beside(
                &format!("prefix search, minimal-prefix, {what}"),
                queries.len(),
                || numbers.iter().for_each(|q| _ = black_box(minimal.common_prefix_search(q, &mut values, &mut lengths))),
                || queries.iter().for_each(|q| _ = black_box(prefixes_mp(&mptrie, q, &mut their_values, &mut their_lengths))),
            );
            beside(
                &format!("exact match, minimal-prefix, {what}"),
                queries.len(),
                || numbers.iter().for_each(|q| _ = black_box(minimal.exact_match(q))),
                || queries.iter().for_each(|q| _ = black_box(exact_mp(&mptrie, q))),
            );
        }
    }
}

fn main() {
    #[cfg(oracle)]
    against_the_original::run();
    #[cfg(not(oracle))]
    println!("the original crate's source is not at hand: nothing to measure beside");
}
