// The given Rust, asked. Only this file calls it.
use crate::bpe::pretoken_cache::{ProbeView, ShortPretokenCache};
use crate::bpe::tiktoken::{ids_of, parts_of, slots_of, table_over, utf8_byte};
use crate::bpe::{
    ByteRemapping, MergeScratch, PairRankTable, SHORT_MERGE_MAX, bpe_merge_symbols_by_rank,
    bpe_merge_symbols_short_scalar, simple_bpe_merge,
};
use crate::plain::{self, NONE, Name, Stop};
use crate::pretokenize::pretoken_key_hash;
use crate::token::TokenId;
use std::cell::{Cell, RefCell};
use std::collections::HashMap;
use std::hash::{BuildHasher, Hasher};
use std::mem::{ManuallyDrop, size_of, transmute_copy};
use std::rc::Rc;
use std::sync::OnceLock;

pub fn token(n: u32) -> u32 {
    TokenId::from(n).0
}

pub fn is_valid_utf8_byte(b: u8) -> bool {
    utf8_byte(b)
}

// The Rust's hash of a cache key.
pub fn key_hash(high: u64, low: u64) -> u64 {
    pretoken_key_hash((high as u128) << 64 | low as u128)
}

// ---- byte map

// The Rust's map and flag, or the byte that its error names.
pub fn byte_map(entries: &[&[u8]]) -> Result<(Vec<u32>, bool), u64> {
    match ByteRemapping::from_byte_vocab(entries) {
        // The Rust hands nothing back for the identity.
        Ok(None) => Ok(((0..256).collect(), false)),
        Ok(Some(map)) => Ok((ids_of(&map), true)),
        Err(why) => {
            let text = format!("{why:?}");
            let digits = text.rsplit("0x").next().unwrap_or("");
            Err(u64::from_str_radix(digits, 16).expect("the Rust's error names a byte"))
        }
    }
}

// ---- pair table

// Hands each key the number that stands in the cell. A map with room for all keys then has them in the order of these numbers.
#[derive(Clone)]
struct Counted(Rc<Cell<u64>>);

struct CountedHasher(u64);

impl BuildHasher for Counted {
    type Hasher = CountedHasher;

    fn build_hasher(&self) -> CountedHasher {
        CountedHasher(self.0.get())
    }
}

impl Hasher for CountedHasher {
    fn finish(&self) -> u64 {
        self.0
    }

    fn write(&mut self, _: &[u8]) {}
}

// What the Rust builds of a list with no pair twice, inserting in list order. The map's order is checked first.
pub fn build(list: &[u32], vocab: u64) -> Option<Built> {
    let number = Rc::new(Cell::new(0));
    let rules = list.len() / 3;
    let mut merges = HashMap::with_capacity_and_hasher(rules, Counted(number.clone()));
    for (k, rule) in list.chunks_exact(3).enumerate() {
        number.set(k as u64);
        merges.insert((TokenId(rule[0]), TokenId(rule[1])), TokenId(rule[2]));
    }
    let in_order = merges.iter().zip(list.chunks_exact(3)).all(|((a, m), rule)| [a.0.0, a.1.0, m.0] == rule[..]);
    assert!(in_order && merges.len() == rules, "the map is not in list order");
    PairRankTable::build(&merges, None, vocab as usize).map(Built)
}

pub struct Built(PairRankTable);

impl Built {
    // The Rust's own lookup, through its grid where that has the pair.
    pub fn rank(&self, a: u32, b: u32) -> u32 {
        self.0.rank(TokenId(a), TokenId(b))
    }

    pub fn finds(&self, list: &[u32]) -> bool {
        list.chunks_exact(3).all(|rule| self.rank(rule[0], rule[1]) == rule[2])
    }

    // Slots, mask and shift.
    pub fn parts(&self) -> (Vec<u64>, usize, u32) {
        parts_of(&self.0)
    }
}

// The Rust's table over lent slots.
pub struct Table {
    table: PairRankTable,
    // the slots again, only for a table with no empty slot
    full: Option<Vec<u64>>,
}

impl Table {
    // The slots have the shape of a table.
    pub fn new(slots: Vec<u64>, has_empty: bool) -> Table {
        // The Rust keeps the pair of 0 and 0 in its grid, which the rules do not have: that one lookup is the layer's.
        let of_zeros = plain::look(&slots, 0, 0);
        let full = (!has_empty).then(|| slots.clone());
        Table { table: table_over(slots, of_zeros), full }
    }

    // Rule: one round at most. The Rust's walk would not end where there is neither the key nor an empty slot, so it is not asked there.
    pub fn rank(&self, a: u32, b: u32) -> u32 {
        if let Some(slots) = &self.full {
            let key = plain::key(a, b);
            if slots.iter().all(|slot| slot >> 21 != key) {
                return NONE;
            }
        }
        self.table.rank(TokenId(a), TokenId(b))
    }

    pub fn slots(self) -> Vec<u64> {
        slots_of(self.table)
    }
}

// ---- merging

// The Rust's answer for a row: by its main function, and up to 15 ids by its short one too. Where these differ there is none.
pub fn merge(table: &Table, row: &[u32]) -> Option<Vec<u32>> {
    let get_rank = |a: TokenId, b: TokenId| table.rank(a.0, b.0);
    let mut symbols: Vec<TokenId> = row.iter().map(|&id| TokenId(id)).collect();
    thread_local! {
        static SCRATCH: RefCell<MergeScratch> = RefCell::default();
    }
    SCRATCH.with(|scratch| bpe_merge_symbols_by_rank(&get_rank, &mut symbols, &mut scratch.borrow_mut()));
    let answer: Vec<u32> = symbols.iter().map(|id| id.0).collect();
    if (2..SHORT_MERGE_MAX).contains(&row.len()) {
        let mut short = [TokenId(0); SHORT_MERGE_MAX];
        for (at, &id) in row.iter().enumerate() {
            short[at] = TokenId(id);
        }
        let count = bpe_merge_symbols_short_scalar(get_rank, |_, _| (), &mut short, row.len());
        let again: Vec<u32> = short[..count].iter().map(|id| id.0).collect();
        if again != answer {
            return None;
        }
    }
    Some(answer)
}

pub type Merges = HashMap<(TokenId, TokenId), TokenId>;

// The Rust's map of the rules that a lookup finds in these slots.
pub fn merges_of(slots: &[u64]) -> Merges {
    let mut merges = Merges::new();
    for &slot in slots {
        let (a, b) = ((slot >> 42) as u32, (slot >> 21 & plain::ID_MAX) as u32);
        if slot >> 63 == 0 {
            merges.insert((TokenId(a), TokenId(b)), TokenId(plain::look(slots, a, b)));
        }
    }
    merges
}

// The Rust's byte entry, whose ids are the bytes.
pub fn merge_bytes(merges: &Merges, bytes: &[u8]) -> Vec<u32> {
    simple_bpe_merge(merges, bytes).iter().map(|id| id.0).collect()
}

// ---- cache

// The Rust's cache keeps its parts to itself, so any words are given to it through its memory: the places of its count and of its slots
// are found by looking, once, and what is found is checked by its own `len` and `capacity`.
const _: () = assert!(size_of::<ShortPretokenCache>() == 32 && size_of::<ProbeView>() == 16);

struct Parts {
    len_at: usize,
}

fn cache_words(cache: &ShortPretokenCache) -> [usize; 4] {
    // SAFETY: the sizes are equal (above), and a cache is four words with no padding.
    unsafe { transmute_copy(cache) }
}

fn view_words(view: &ProbeView) -> [usize; 2] {
    // SAFETY: the sizes are equal (above), and a view is two words with no padding.
    unsafe { transmute_copy(view) }
}

fn new_cache(slots: usize) -> ShortPretokenCache {
    let mut cache = ShortPretokenCache::with_at_least(0, 0);
    cache.reset_to_capacity(slots);
    cache
}

fn parts() -> &'static Parts {
    static PARTS: OnceLock<Parts> = OnceLock::new();
    PARTS.get_or_init(|| {
        let mut cache = new_cache(8);
        for key in 1..=3 {
            cache.insert(key, key as u64, 0, 0);
        }
        let words = cache_words(&cache);
        let len_at = words.iter().position(|&w| w == 3).expect("the cache's count");
        set_len_at(&mut cache, len_at, 5);
        assert!(cache.len() == 5 && cache.capacity() == 8, "the cache is laid out in another way");
        Parts { len_at }
    })
}

fn set_len_at(cache: &mut ShortPretokenCache, at: usize, len: usize) {
    // SAFETY: the cache is four words, and the one at this place is its count.
    unsafe { *(cache as *mut ShortPretokenCache as *mut usize).add(at) = len };
}

// The mask that the Rust's view of a cache has, and where its slots begin.
fn base_of(cache: &ShortPretokenCache) -> (*mut [u64; 4], usize) {
    let mask = cache.capacity() - 2;
    let [a, b] = view_words(&cache.probe_view());
    match (a == mask, b == mask) {
        (false, true) => (a as *mut [u64; 4], mask),
        (true, false) => (b as *mut [u64; 4], mask),
        _ => panic!("the view is laid out in another way"),
    }
}

// The slots of a cache, as the Rust lays them out: low and high word of the key, val, ext.
fn entries(cache: &mut ShortPretokenCache) -> &mut [[u64; 4]] {
    let (base, _) = base_of(cache);
    // SAFETY: the allocation has exactly so many entries of four words, and the cache is borrowed as long.
    unsafe { std::slice::from_raw_parts_mut(base, cache.capacity()) }
}

pub struct Cache {
    cache: ManuallyDrop<ShortPretokenCache>,
}

// Larger caches are not kept.
const KEPT_MAX: usize = 131_072;

// Caches that were used, by their slots, to be used again.
thread_local! {
    static CACHES: RefCell<HashMap<usize, ShortPretokenCache>> = RefCell::default();
}

impl Drop for Cache {
    fn drop(&mut self) {
        // SAFETY: the value is not used again.
        let cache = unsafe { ManuallyDrop::take(&mut self.cache) };
        if cache.capacity() <= KEPT_MAX {
            CACHES.with(|kept| kept.borrow_mut().insert(cache.capacity(), cache));
        }
    }
}

// A slot's words as the Rust's. The Rust compares keys alone, the rules a name of key and h: a slot that has the sought key under another h gets
// another key here. The fifth word, which the Rust does not have, stays with the layer.
fn entry_of(w: &[u64], sought: Option<Name>) -> [u64; 4] {
    let mut low = w[1];
    if let Some(name) = sought
        && w[0] == name.high
        && w[1] == name.low
        && w[4] != name.h
        && !name.is_keyless()
    {
        low = if w[1] == 1 && w[0] == 0 { 2 } else { w[1] ^ 1 };
    }
    [low, w[0], w[2], w[3]]
}

fn take_cache(slots: usize) -> ShortPretokenCache {
    CACHES.with(|kept| kept.borrow_mut().remove(&slots)).unwrap_or_else(|| new_cache(slots))
}

impl Cache {
    // The Rust's cache with these words and this count.
    pub fn of(words: &[u64], count: u64, sought: Option<Name>) -> Cache {
        let mut cache = take_cache(words.len() / 5);
        for (entry, w) in entries(&mut cache).iter_mut().zip(words.chunks_exact(5)) {
            *entry = entry_of(w, sought);
        }
        set_len_at(&mut cache, parts().len_at, count as usize);
        Cache { cache: ManuallyDrop::new(cache) }
    }

    // Does it hold these words and this count?
    pub fn holds(&mut self, words: &[u64], count: u64, sought: Name) -> bool {
        self.len() == count
            && self.capacity() == words.len() as u64 / 5
            && entries(&mut self.cache)
                .iter()
                .zip(words.chunks_exact(5))
                .all(|(entry, w)| *entry == entry_of(w, Some(sought)))
    }

    pub fn len(&self) -> u64 {
        self.cache.len() as u64
    }

    pub fn capacity(&self) -> u64 {
        self.cache.capacity() as u64
    }

    // The Rust's lookup ends only where there is an empty slot or a match.
    fn ends(&mut self, name: Name) -> bool {
        entries(&mut self.cache).iter().any(|e| e[..2] == [0, 0] || e[..2] == [name.low, name.high])
    }

    // What the Rust finds: the value, or the first empty slot. Rule: none where the walk would not end.
    pub fn get(&mut self, name: Name) -> Option<Result<(u64, u64), u64>> {
        if !self.ends(name) {
            return None;
        }
        let got = self.cache.get_or_slot(key_of(name), name.h);
        Some(got.map_err(|slot| slot as u64))
    }

    // Where the Rust's lookup stops: the slots' numbers stand in for their values.
    pub fn stop(&mut self, name: Name) -> Stop {
        for (slot, entry) in entries(&mut self.cache).iter_mut().enumerate() {
            entry[2] = slot as u64;
        }
        match self.get(name) {
            None => Stop::Full,
            Some(Ok((slot, _))) => Stop::Hit(slot as usize),
            Some(Err(slot)) => Stop::Empty(slot as usize),
        }
    }

    pub fn insert(&mut self, name: Name, val: u64, ext: u64) {
        self.cache.insert(key_of(name), name.h, val, ext);
    }

    pub fn insert_at(&mut self, slot: u64, name: Name, val: u64, ext: u64) {
        self.cache.insert_at(slot as usize, key_of(name), name.h, val, ext);
    }

    pub fn replace(&mut self, name: Name, val: u64, ext: u64) {
        self.cache.replace(key_of(name), name.h, val, ext);
    }

    pub fn clear(&mut self) {
        self.cache.clear();
    }

    pub fn reset_to_capacity(&mut self, cap: u64) {
        self.cache.reset_to_capacity(cap as usize);
    }

    pub fn is_zero(&mut self) -> bool {
        entries(&mut self.cache).iter().all(|e| *e == [0; 4])
    }

    pub fn pair_mask(&self) -> u64 {
        base_of(&self.cache).1 as u64
    }

    pub fn probe(&self, name: Name) -> (u64, u64, bool) {
        self.cache.probe_view().probe_pair(key_of(name), name.h)
    }
}

fn key_of(name: Name) -> u128 {
    (name.high as u128) << 64 | name.low as u128
}

pub fn required_capacity(n: u64, min_slots: u64) -> u64 {
    ShortPretokenCache::required_capacity(n as usize, min_slots as usize) as u64
}

pub fn with_at_least(n: u64, min_slots: u64) -> Cache {
    Cache { cache: ManuallyDrop::new(ShortPretokenCache::with_at_least(n as usize, min_slots as usize)) }
}

// How many slots a table may have for keys to be sought that have given homes.
const SOUGHT_MAX: usize = 1024;

// Growing by the Rust, which hashes keys where the rules have the stored h: either the keys have these homes, or other keys that have them stand in.
// For each slot of the larger table, the old slot whose entry is there. None where the Rust is not asked: above SOUGHT_MAX, if h is no hash.
pub fn grow(words: &[u64]) -> Option<Vec<Option<usize>>> {
    let n = words.len() / 5;
    let mask = 2 * n as u64 - 2;
    let mut cache = take_cache(n);
    for slot in 0..n {
        let name = plain::name_at(words, slot);
        let mut entry = [0; 4];
        if !name.is_keyless() {
            entry = [name.low, name.high, slot as u64, 0];
            if (key_hash(name.high, name.low) ^ name.h) & mask != 0 {
                if n > SOUGHT_MAX {
                    return None;
                }
                let high = slot as u64 + 1;
                entry[0] = (0..).find(|&low| (key_hash(high, low) ^ name.h) & mask == 0).unwrap();
                entry[1] = high;
            }
        }
        entries(&mut cache)[slot] = entry;
    }
    // The Rust grows when one entry more would be too many, and then stores that one, here in a slot that is left empty again.
    set_len_at(&mut cache, parts().len_at, n);
    cache.insert(1, 0, u64::MAX, 0);
    let mut cache = Cache { cache: ManuallyDrop::new(cache) };
    assert!(cache.capacity() == 2 * n as u64, "the Rust grew to another size");
    let seats = entries(&mut cache.cache)
        .iter()
        .map(|e| (e[..2] != [0, 0] && e[2] != u64::MAX).then_some(e[2] as usize))
        .collect();
    Some(seats)
}
