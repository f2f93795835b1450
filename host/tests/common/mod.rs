//! What the tests share: a source of random numbers whose seed is printed, and the original's panics, caught without noise.
#![allow(dead_code)]

use std::cell::Cell;
use std::panic::{catch_unwind, AssertUnwindSafe};
use std::sync::Once;

thread_local!(static QUIET: Cell<bool> = const { Cell::new(false) });

/// What `run` answers, or `None` if it panics; that panic prints nothing.
pub fn caught<T>(run: impl FnOnce() -> T) -> Option<T> {
    static HOOK: Once = Once::new();
    HOOK.call_once(|| {
        let before = std::panic::take_hook();
        std::panic::set_hook(Box::new(move |info| {
            if !QUIET.with(Cell::get) {
                before(info);
            }
        }));
    });
    QUIET.with(|q| q.set(true));
    let answer = catch_unwind(AssertUnwindSafe(run)).ok();
    QUIET.with(|q| q.set(false));
    answer
}

/// splitmix64.
pub struct Random(u64);

impl Random {
    /// The seed is `GROAT_SEED` or the one given; it is printed, so that a failing run can be repeated.
    pub fn new(what: &str, seed: u64) -> Self {
        let seed = std::env::var("GROAT_SEED").ok().and_then(|s| s.parse().ok()).unwrap_or(seed);
        println!("{what}: seed {seed}");
        Random(seed)
    }

    pub fn next(&mut self) -> u64 {
        self.0 = self.0.wrapping_add(0x9e37_79b9_7f4a_7c15);
        let mut z = self.0;
        z = (z ^ (z >> 30)).wrapping_mul(0xbf58_476d_1ce4_e5b9);
        z = (z ^ (z >> 27)).wrapping_mul(0x94d0_49bb_1331_11eb);
        z ^ (z >> 31)
    }

    /// A number below n (0 if n is 0).
    pub fn below(&mut self, n: u64) -> u64 {
        if n == 0 {
            0
        } else {
            self.next() % n
        }
    }

    /// A 32-bit number, often near a power of two.
    pub fn number(&mut self) -> u32 {
        let n = self.next() as u32;
        match self.below(4) {
            0 => n,
            1 => n >> self.below(32),
            2 => (1u32 << self.below(32)).wrapping_add(self.below(3) as u32).wrapping_sub(1),
            _ => [0, 0x7fff_ffff, 0x8000_0000, 0xffff_ffff, 0xffff, 0xd800][self.below(6) as usize],
        }
    }
}

/// The arrays of a dictionary, as its bytes have them.
#[derive(Clone, Debug)]
pub struct Arrays {
    pub table: Vec<u32>,
    pub alphabet: u32,
    pub base: Vec<u32>,
    pub check: Vec<u32>,
    pub tails: Vec<u8>,
    pub widths: (u8, u8),
}

fn number(bytes: &mut &[u8]) -> u32 {
    let (first, rest) = bytes.split_at(4);
    *bytes = rest;
    u32::from_le_bytes(first.try_into().unwrap())
}

impl Arrays {
    /// Those of either form.
    pub fn of(mut bytes: &[u8]) -> Self {
        let rest = &mut bytes;
        let length = number(rest);
        let table = (0..length).map(|_| number(rest)).collect();
        let alphabet = number(rest);
        let length = number(rest);
        let (base, check) = (0..length).map(|_| (number(rest), number(rest))).unzip();
        let mut arrays = Arrays { table, alphabet, base, check, tails: vec![], widths: (0, 0) };
        if !rest.is_empty() {
            let length = number(rest) as usize;
            arrays.tails = rest[..length].to_vec();
            arrays.widths = (rest[length], rest[length + 1]);
            assert_eq!(rest.len(), length + 2);
        }
        arrays
    }

    /// The bytes of the minimal-prefix form.
    pub fn mptrie_bytes(&self) -> Vec<u8> {
        let mut bytes = self.trie_bytes();
        bytes.extend_from_slice(&(self.tails.len() as u32).to_le_bytes());
        bytes.extend_from_slice(&self.tails);
        bytes.extend([self.widths.0, self.widths.1]);
        bytes
    }

    /// One byte of the tails or one width becomes another, or the tails are cut short. No width becomes 0: docs/DIFFERENCES.md.
    pub fn damage_tails(&mut self, random: &mut Random) {
        let at = random.below(self.tails.len() as u64) as usize;
        match random.below(6) {
            0 => self.tails.truncate(at),
            1 => self.widths.0 = [1, 2, 3, 4, 5, 255][random.below(6) as usize],
            2 => self.widths.1 = [1, 2, 3, 4, 5, 255][random.below(6) as usize],
            _ if !self.tails.is_empty() => self.tails[at] = random.number() as u8,
            _ => {}
        }
    }

    /// The bytes of the plain form.
    pub fn trie_bytes(&self) -> Vec<u8> {
        let mut bytes = vec![];
        let mut put = |n: u32| bytes.extend_from_slice(&n.to_le_bytes());
        put(self.table.len() as u32);
        self.table.iter().for_each(|&n| put(n));
        put(self.alphabet);
        put(self.base.len() as u32);
        self.base.iter().zip(&self.check).for_each(|(&b, &c)| {
            put(b);
            put(c);
        });
        bytes
    }

    /// One number of the table, base or check becomes another, or the elements are cut short.
    pub fn damage(&mut self, random: &mut Random) {
        let elements = self.base.len() as u32;
        let number = match random.below(4) {
            0 => random.number(),
            1 => random.number() % (2 * elements + 1),
            2 => random.number() % (elements + 1) | 0x8000_0000,
            _ => [0, 0xffff_ffff, 0x7fff_ffff, 0x8000_0000, 1][random.below(5) as usize],
        };
        let used: Vec<usize> = (0..self.table.len()).filter(|&c| self.table[c] != 0xffff_ffff).collect();
        match random.below(8) {
            0 => self.table[used[random.below(used.len() as u64) as usize]] = number,
            1 if elements > 1 => {
                let length = random.below(u64::from(elements)) as usize;
                self.base.truncate(length);
                self.check.truncate(length);
            }
            2 | 3 if elements > 0 => {
                let at = random.below(u64::from(elements)) as usize;
                self.check[at] = number;
            }
            _ if elements > 0 => {
                let at = random.below(u64::from(elements)) as usize;
                self.base[at] = number;
            }
            _ => {}
        }
    }
}
