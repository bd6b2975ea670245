// The rules written down once more, as plainly as can be and with nothing of the Rust: a third opinion beside it, and the whole opinion
// where the Rust cannot be asked.

pub const ID_MAX: u64 = 2_097_151;
pub const NONE: u32 = u32::MAX;
pub const EMPTY: u64 = u64::MAX;
pub const ROW_MAX: usize = 65_536;
pub const RULES_MAX: usize = 131_072;
pub const VOCAB_MAX: u64 = 2_097_152;
pub const CACHE_MAX: u64 = 2_097_152;
pub const ASKED_MAX: u64 = 1_048_576;
pub const SMALL: usize = 32;
pub const DISPLACED_MAX: usize = 64;
const FACTOR: u128 = 0x9E37_79B9_7F4A_7C15;

pub fn power_within(n: u64, least: u64, most: u64) -> bool {
    (0..64).any(|k| n == 1 << k) && least <= n && n <= most
}

pub fn shaped(slots: u64) -> bool {
    power_within(slots, 64, 262_144)
}

// The slots that so many rules want.
pub fn wanted(rules: usize) -> usize {
    let mut n = 64;
    while n < 2 * rules {
        n *= 2;
    }
    n
}

pub fn key(a: u32, b: u32) -> u64 {
    a as u64 * 2_097_152 + b as u64
}

// The home of a key among n slots, a power of two: the top bits of the product's low 64.
pub fn home(key: u64, n: usize) -> usize {
    let low = (key as u128 * FACTOR) % (1 << 64);
    ((low * n as u128) >> 64) as usize
}

// The merged id of a pair, in one round at most.
pub fn look(slots: &[u64], a: u32, b: u32) -> u32 {
    let key = key(a, b);
    let start = home(key, slots.len());
    for step in 0..slots.len() {
        let slot = slots[(start + step) % slots.len()];
        if slot / 2_097_152 == key {
            return (slot % 2_097_152) as u32;
        }
        if slot == EMPTY {
            return NONE;
        }
    }
    NONE
}

// Rules in list order, each in the first empty slot of its walk. A refusal is its number and the rule.
pub fn fill(list: &[u32], n: usize) -> Result<Vec<u64>, (u8, u64)> {
    let mut slots = vec![EMPTY; n];
    for (number, rule) in list.chunks(3).enumerate() {
        let key = key(rule[0], rule[1]);
        let start = home(key, n);
        let mut stored = false;
        for step in 0..=DISPLACED_MAX {
            let at = (start + step) % n;
            if slots[at] == EMPTY {
                slots[at] = key * 2_097_152 + rule[2] as u64;
                stored = true;
                break;
            }
            if slots[at] / 2_097_152 == key {
                return Err((4, number as u64));
            }
        }
        if !stored {
            return Err((5, number as u64));
        }
    }
    Ok(slots)
}

// Merging as the rule says it: the smallest merged id, leftmost among equals, until no neighbours have a rule.
pub fn merge(slots: &[u64], row: &[u32]) -> Vec<u32> {
    let mut row = row.to_vec();
    let mut ranks: Vec<u32> = row.windows(2).map(|p| look(slots, p[0], p[1])).collect();
    loop {
        let best = ranks.iter().copied().min().unwrap_or(NONE);
        if best == NONE {
            return row;
        }
        let at = ranks.iter().position(|&r| r == best).unwrap();
        row[at] = best;
        row.remove(at + 1);
        ranks.remove(at);
        if at > 0 {
            ranks[at - 1] = look(slots, row[at - 1], row[at]);
        }
        if at + 1 < row.len() {
            ranks[at] = look(slots, row[at], row[at + 1]);
        }
    }
}

#[derive(Clone, Copy, PartialEq, Eq, Debug)]
pub struct Name {
    pub high: u64,
    pub low: u64,
    pub h: u64,
}

impl Name {
    pub fn is_keyless(&self) -> bool {
        self.high == 0 && self.low == 0
    }
}

// Where a walk stopped.
#[derive(Clone, Copy, PartialEq, Eq, Debug)]
pub enum Stop {
    Hit(usize),
    Empty(usize),
    Full,
}

pub fn name_at(words: &[u64], slot: usize) -> Name {
    Name { high: words[5 * slot], low: words[5 * slot + 1], h: words[5 * slot + 4] }
}

pub fn put(words: &mut [u64], slot: usize, name: Name, val: u64, ext: u64) {
    words[5 * slot..5 * slot + 5].copy_from_slice(&[name.high, name.low, val, ext, name.h]);
}

// The walk over pairs of slots, for a match if one is sought, and for an empty slot.
pub fn walk(words: &[u64], name: Name, sought: bool) -> Stop {
    let n = words.len() / 5;
    let mut first = (name.h % n as u64) as usize / 2 * 2;
    for _ in 0..n / 2 {
        for slot in [first, first + 1] {
            if sought && name_at(words, slot) == name {
                return Stop::Hit(slot);
            }
        }
        for slot in [first, first + 1] {
            if name_at(words, slot).is_keyless() {
                return Stop::Empty(slot);
            }
        }
        first = (first + 2) % n;
    }
    Stop::Full
}

// The words of the larger table, and the entries.
pub fn grow(words: &[u64]) -> (Vec<u64>, u64) {
    let mut into = vec![0; 2 * words.len()];
    let mut count = 0;
    for slot in 0..words.len() / 5 {
        let name = name_at(words, slot);
        if name.is_keyless() {
            continue;
        }
        count += 1;
        if let Stop::Empty(at) = walk(&into, name, false) {
            put(&mut into, at, name, words[5 * slot + 2], words[5 * slot + 3]);
        }
    }
    (into, count)
}

pub fn cache_shaped(words: usize) -> bool {
    words.is_multiple_of(5) && power_within(words as u64 / 5, 2, CACHE_MAX)
}

pub fn laden(slots: u64, count: u64) -> bool {
    (count + 1) * 4 > slots * 3
}
