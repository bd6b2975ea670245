// Answers the commands. What the Rust decides, the Rust decides; each place where the rules (docs/RULES.md) add or change something says "Rule:".
use crate::plain::{self, ID_MAX, NONE, Name, Stop};
use crate::rust::{self, Built, Cache, Merges, Table};
use std::collections::{HashMap, HashSet};
use std::fmt::Write;

// A lent row, with what is known of it as slots of a pair table until it is written again.
#[derive(Default)]
pub struct Row {
    pub items: Vec<u64>,
    has_empty: Option<bool>,
    merges: Option<Merges>,
    // the Rust's own table, where it built these slots
    built: Option<Built>,
}

impl Row {
    fn of(items: Vec<u64>) -> Row {
        Row { items, ..Row::default() }
    }

    fn set(&mut self, items: Vec<u64>) {
        *self = Row::of(items);
    }

    fn len(&self) -> usize {
        self.items.len()
    }

    // The Rust's table over these slots; `back` ends the loan.
    fn table(&mut self) -> Table {
        let items = &self.items;
        let has_empty = *self.has_empty.get_or_insert_with(|| items.contains(&plain::EMPTY));
        Table::new(std::mem::take(&mut self.items), has_empty)
    }

    fn back(&mut self, table: Table) {
        self.items = table.slots();
    }
}

// The checksum of a row.
pub fn sum(items: &[u64]) -> u64 {
    items.iter().fold(14695981039346656037, |sum, x| (sum ^ x).wrapping_mul(1099511628211))
}

// A longer row is not made.
const ROW_LENGTH_MAX: u64 = 1 << 25;

// Number and place of a refusal.
struct Refused(u8, u64);

// The values of a call, as they are written, or its refusal.
type Called = Result<String, Refused>;

// A line that is no command, and why, in the words of `ask`.
type Line<T> = Result<T, &'static str>;

const NO_COMMAND: &str = "no such command";
const WORD_MISSING: &str = "a word is missing";
const WORD_LEFT: &str = "a word too many";
const NO_NUMBER: &str = "not a number";
const TOO_LARGE: &str = "a number that is too large";
const NO_NAME: &str = "not a name";
const NO_ROW: &str = "no such row";
const SAME_ROW: &str = "one row twice";
const TOO_LONG: &str = "a row that is too long";

const DIFFERS: &str = "oracle differs";

// Stands for a merged id that the Rust and the third opinion differ in: it is no id, and not none.
const APART: u32 = NONE - 1;

fn yes(b: bool) -> &'static str {
    if b { "yes" } else { "no" }
}

fn or_none(merged: u32) -> String {
    match merged {
        NONE => "none".into(),
        APART => DIFFERS.into(),
        _ => merged.to_string(),
    }
}

fn name(word: &str) -> Line<&str> {
    let is_name = !word.is_empty() && word.bytes().all(|b| b.is_ascii_lowercase() || b.is_ascii_digit());
    if is_name { Ok(word) } else { Err(NO_NAME) }
}

fn number(word: &str) -> Line<u64> {
    if word.is_empty() || !word.bytes().all(|b| b.is_ascii_digit()) {
        return Err(NO_NUMBER);
    }
    word.parse().map_err(|_| TOO_LARGE)
}

fn number_to(word: &str, most: u64) -> Line<u64> {
    match number(word)? {
        x if x <= most => Ok(x),
        _ => Err(TOO_LARGE),
    }
}

// The numbers of a row as smaller ones, if they fit.
fn narrow<T: TryFrom<u64>>(row: &Row) -> Line<Vec<T>> {
    row.items.iter().map(|&x| T::try_from(x).map_err(|_| TOO_LARGE)).collect()
}

fn row32(row: &Row) -> Line<Vec<u32>> {
    narrow(row)
}

fn row8(row: &Row) -> Line<Vec<u8>> {
    narrow(row)
}

fn wide(items: Vec<u32>) -> Vec<u64> {
    items.into_iter().map(u64::from).collect()
}

// Rule: a number above the largest id is 3, at the first such index.
fn too_large(row: &[u32]) -> Result<(), Refused> {
    match row.iter().position(|&id| id as u64 > ID_MAX) {
        Some(at) => Err(Refused(3, at as u64)),
        None => Ok(()),
    }
}

pub fn runs(items: &[u64]) -> String {
    let mut text = String::new();
    for run in items.chunk_by(|a, b| a == b) {
        match run.len() {
            1 => write!(text, " {}", run[0]).unwrap(),
            n => write!(text, " {n}*{}", run[0]).unwrap(),
        }
    }
    text
}

// Each call with how its arguments are meant: r a row that is read, w a row that is written, m a row that is made, n a number of 64 bits,
// i one of 32, b a byte.
const CALLS: [(&str, &str); 29] = [
    ("new", "i"),
    ("none", ""),
    ("fits", "i"),
    ("first_too_large", "r"),
    ("is_power_within", "nnn"),
    ("low_product", "nn"),
    ("is_valid_utf8_byte", "b"),
    ("from_byte_vocab", "rrm"),
    ("shaped", "n"),
    ("build", "rnw"),
    ("rank", "rii"),
    ("rank_by_table", "rii"),
    ("rank_or_none", "rii"),
    ("table", "r"),
    ("table_rank", "rniii"),
    ("merge", "rwwww"),
    ("merge_bytes", "rrrwwww"),
    ("capacity", "r"),
    ("required_capacity", "nn"),
    ("with_at_least", "wnn"),
    ("clear", "nw"),
    ("reset_to_capacity", "nwn"),
    ("get_or_slot", "nrnnn"),
    ("insert", "nwnnnnn"),
    ("replace", "nwnnnnn"),
    ("insert_at", "nwnnnnnn"),
    ("grow", "nrw"),
    ("probe_view", "nr"),
    ("probe_pair", "nrnnn"),
];

#[derive(Default)]
pub struct Answerer {
    rows: HashMap<String, Row>,
}

impl Answerer {
    pub fn items(&self, name: &str) -> &[u64] {
        self.rows.get(name).map_or(&[], |row| &row.items)
    }

    pub fn line(&mut self, line: &str) -> String {
        if line.is_empty() {
            return String::new();
        }
        let words: Vec<&str> = line.split(' ').collect();
        let answer = match words[0] {
            "row" => self.row(&words),
            "show" | "sum" => self.shown(&words),
            _ => self.call(&words),
        };
        answer.unwrap_or_else(|why| format!("bad: {why}"))
    }

    fn row(&mut self, words: &[&str]) -> Line<String> {
        let name = name(words.get(1).ok_or(WORD_MISSING)?)?;
        let rest = &words[2..];
        let mut items = Vec::with_capacity(rest.len());
        for item in rest {
            let (count, x) = match item.split_once('*') {
                None => (1, number(item)?),
                Some((count, x)) => (number(count)?, number(x)?),
            };
            if count > ROW_LENGTH_MAX - items.len() as u64 {
                return Err(TOO_LONG);
            }
            items.resize(items.len() + count as usize, x);
        }
        let answer = format!("row {name} {}", items.len());
        self.rows.insert(name.into(), Row::of(items));
        Ok(answer)
    }

    fn shown(&mut self, words: &[&str]) -> Line<String> {
        let name = name(words.get(1).ok_or(WORD_MISSING)?)?;
        if words.len() > 2 {
            return Err(WORD_LEFT);
        }
        let row = self.rows.get(name).ok_or(NO_ROW)?;
        Ok(match words[0] {
            "show" => format!("{name} {}{}", row.len(), runs(&row.items)),
            _ => format!("{name} {} {}", row.len(), sum(&row.items)),
        })
    }

    fn call(&mut self, words: &[&str]) -> Line<String> {
        let (call, kinds) = CALLS.iter().find(|(call, _)| *call == words[0]).ok_or(NO_COMMAND)?;
        let mut numbers = Vec::new();
        let mut names: Vec<&str> = Vec::new();
        let mut rest = words[1..].iter();
        for kind in kinds.chars() {
            let word = rest.next().ok_or(WORD_MISSING)?;
            match kind {
                'n' => numbers.push(number(word)?),
                'i' => numbers.push(number_to(word, u32::MAX as u64)?),
                'b' => numbers.push(number_to(word, 255)?),
                _ => names.push(name(word)?),
            }
        }
        if rest.next().is_some() {
            return Err(WORD_LEFT);
        }
        if names.iter().enumerate().any(|(at, name)| names[..at].contains(name)) {
            return Err(SAME_ROW);
        }
        let lent = kinds.chars().filter(|kind| matches!(kind, 'r' | 'w' | 'm'));
        if lent.zip(&names).any(|(kind, name)| kind != 'm' && !self.rows.contains_key(*name)) {
            return Err(NO_ROW);
        }
        let here: Vec<bool> = names.iter().map(|name| self.rows.contains_key(*name)).collect();
        let mut rows: Vec<Row> = names.iter().map(|name| self.rows.remove(*name).unwrap_or_default()).collect();
        let called = called(call, &numbers, &mut rows);
        let mut text = match &called {
            Ok(Ok(values)) if values == DIFFERS => DIFFERS.into(),
            Ok(Ok(values)) if values.is_empty() => "ok".into(),
            Ok(Ok(values)) => format!("ok {values}"),
            Ok(Err(Refused(number, place))) => format!("refused {number} {place}"),
            Err(_) => String::new(),
        };
        let lent = kinds.chars().filter(|kind| matches!(kind, 'r' | 'w' | 'm'));
        for ((kind, name), row) in lent.zip(&names).zip(&rows) {
            if kind != 'r' && called.is_ok() {
                write!(text, " | {name} {} {}", row.len(), sum(&row.items)).unwrap();
            }
        }
        for ((name, row), here) in names.iter().zip(rows).zip(here) {
            if here || called.is_ok() {
                self.rows.insert(name.to_string(), row);
            }
        }
        called.map(|_| text)
    }
}

fn called(call: &str, n: &[u64], rows: &mut [Row]) -> Line<Called> {
    Ok(match (call, rows) {
        ("new", []) => Ok(rust::token(n[0] as u32).to_string()),
        // Rule: none has a name.
        ("none", []) => Ok(NONE.to_string()),
        // Rule: an id is at most 2,097,151.
        ("fits", []) => Ok(yes(rust::token(n[0] as u32) as u64 <= ID_MAX).into()),
        ("first_too_large", [row]) => Ok(too_large(&row32(row)?).err().map_or("none".into(), |r| r.1.to_string())),
        // The next three are the layer's: the Rust has the standard library's, or none.
        ("is_power_within", []) => Ok(yes(plain::power_within(n[0], n[1], n[2])).into()),
        ("low_product", []) => Ok((n[0] as u128 * n[1] as u128 % (1 << 64)).to_string()),
        ("shaped", []) => Ok(yes(plain::shaped(n[0])).into()),
        ("is_valid_utf8_byte", []) => Ok(yes(rust::is_valid_utf8_byte(n[0] as u8)).into()),
        ("from_byte_vocab", [bytes, ends, map]) => {
            let (bytes, ends) = (row8(bytes)?, row32(ends)?);
            // Rule: the map comes by value; it is answered through the lent row.
            let (ids, called) = match byte_map(&bytes, &ends) {
                Ok((ids, flag)) => (ids, Ok(yes(flag).to_string())),
                // Rule: a refused map is all 0.
                Err(refused) => (vec![0; 256], Err(refused)),
            };
            map.set(wide(ids));
            called
        }
        ("build", [list, slots]) => {
            let list = row32(list)?;
            build(&list, n[0], slots)
        }
        ("rank" | "rank_by_table", [slots]) => rank(slots, n[0] as u32, n[1] as u32).map(or_none),
        // Rule: the same as one number, none where it is refused.
        ("rank_or_none", [slots]) => {
            let merged = rank(slots, n[0] as u32, n[1] as u32).unwrap_or(NONE);
            Ok(if merged == APART { DIFFERS.into() } else { merged.to_string() })
        }
        ("table", [slots]) => {
            let (mask, shift) = mask_and_shift(slots.len());
            Ok(format!("{mask} {shift}"))
        }
        ("table_rank", [slots]) => {
            // Rule: a mask and shift that are not those of the slots are a wrong shape.
            if plain::shaped(slots.len() as u64) && (n[0], n[1]) != mask_and_shift(slots.len()) {
                Err(Refused(2, 0))
            } else {
                rank(slots, n[2] as u32, n[3] as u32).map(or_none)
            }
        }
        ("merge", [slots, row, next, prev, heap]) => {
            let (mut ids, _, _) = (row32(row)?, row32(next)?, row32(prev)?);
            let called = merge(slots, &mut ids, [next, prev, heap], None);
            row.set(wide(ids));
            called
        }
        ("merge_bytes", [slots, map, bytes, row, next, prev, heap]) => {
            let (map, bytes, mut ids) = (row32(map)?, row8(bytes)?, row32(row)?);
            let _ = (row32(next)?, row32(prev)?);
            let called = merge_bytes(slots, &map, &bytes, &mut ids, [next, prev, heap]);
            row.set(wide(ids));
            called
        }
        ("capacity", [words]) => tabled(0, words).map(|()| Cache::of(&words.items, 0, None).capacity().to_string()),
        ("required_capacity", []) => required(n[0], n[1]).map(|cap| cap.to_string()),
        ("with_at_least", [words]) => with_at_least(words, n[0], n[1]),
        ("clear", [words]) => tabled(n[0], words).map(|()| {
            let mut cache = Cache::of(&words.items, n[0], None);
            cache.clear();
            emptied(&mut cache, words)
        }),
        ("reset_to_capacity", [words]) => tabled(n[0], words).and_then(|()| {
            // Rule: the words have exactly these slots. The Rust takes other memory for another size.
            if words.len() as u64 / 5 != n[1] {
                return Err(Refused(2, 0));
            }
            let mut cache = Cache::of(&words.items, n[0], None);
            cache.reset_to_capacity(n[1]);
            Ok(emptied(&mut cache, words))
        }),
        ("get_or_slot", [words]) => named(n[0], words, &n[1..4]).and_then(|name| {
            let got = Cache::of(&words.items, n[0], Some(name)).get(name);
            let text = match got {
                Some(Ok((val, ext))) => format!("found {val} {ext}"),
                Some(Err(slot)) => format!("missing {slot}"),
                // Rule: a round with neither is 10.
                None => return Err(Refused(10, 0)),
            };
            let third = match plain::walk(&words.items, name, true) {
                Stop::Hit(s) => format!("found {} {}", words.items[5 * s + 2], words.items[5 * s + 3]),
                Stop::Empty(s) => format!("missing {s}"),
                Stop::Full => "full".into(),
            };
            Ok(if third == text { text } else { DIFFERS.into() })
        }),
        ("insert" | "replace", [words]) => {
            named(n[0], words, &n[1..4]).and_then(|name| place(call, n[0], words, None, name, [n[4], n[5]]))
        }
        ("insert_at", [words]) => {
            named(n[0], words, &n[2..5]).and_then(|name| place(call, n[0], words, Some(n[1]), name, [n[5], n[6]]))
        }
        ("grow", [words, into]) => tabled(n[0], words).and_then(|()| grow(words, into)),
        ("probe_view", [words]) => {
            tabled(n[0], words).map(|()| Cache::of(&words.items, n[0], None).pair_mask().to_string())
        }
        ("probe_pair", [words]) => probe(n[0], words, name_of(&n[1..4])),
        _ => unreachable!("a call that the table has"),
    })
}

// ---- byte map

fn byte_map(bytes: &[u8], ends: &[u32]) -> Result<(Vec<u32>, bool), Refused> {
    // Rule: the count of entries has a bound.
    if ends.len() as u64 > plain::VOCAB_MAX {
        return Err(Refused(1, 0));
    }
    // Rule: the vocabulary is lent as bytes and ends, which may not fall; the last one is the byte count.
    if !ends.is_sorted() || ends.last().map_or(0, |&end| end as usize) != bytes.len() {
        return Err(Refused(2, 0));
    }
    let mut entries = Vec::with_capacity(ends.len());
    let mut start = 0;
    for &end in ends {
        entries.push(&bytes[start as usize..end as usize]);
        start = end;
    }
    // Rule: the Rust's error is number 6.
    rust::byte_map(&entries).map_err(|byte| Refused(6, byte))
}

// ---- pair table

fn mask_and_shift(slots: usize) -> (u64, u64) {
    if !plain::shaped(slots as u64) {
        // Rule: slots that are no table. The value refuses every pair.
        return (0, 0);
    }
    (slots as u64 - 1, 64 - slots.trailing_zeros() as u64)
}

fn build(list: &[u32], vocab: u64, slots: &mut Row) -> Called {
    let rules = list.len() / 3;
    // Rule: the rules have a bound. The Rust tests the vocabulary's.
    if rules > plain::RULES_MAX || vocab > plain::VOCAB_MAX {
        return Err(Refused(1, 0));
    }
    // Rule: a list is a flat row, and the slots are lent.
    if !list.len().is_multiple_of(3) || slots.len() != plain::wanted(rules) {
        return Err(Refused(2, 0));
    }
    // Rule: the index is told, where the Rust builds none.
    too_large(list)?;
    let mut seen = HashSet::with_capacity(rules);
    let distinct = list.chunks_exact(3).all(|rule| seen.insert((rule[0], rule[1])));
    // Rule: list order decides, and a repeated pair, which no hash map has, is 4. The number of the first bad rule is the layer's.
    match plain::fill(list, slots.len()) {
        Err((number, rule)) => {
            let n = slots.len();
            slots.set(vec![plain::EMPTY; n]);
            // The Rust takes the rules before the bad one, and not the one that stands too far.
            let end = 3 * rule as usize;
            let before = rust_takes(&list[..end], &[], n, vocab);
            let with = number == 5 && rust_takes(&list[..end], &list[end..end + 3], n, vocab);
            if !before || with || number == 4 && distinct {
                return Ok(DIFFERS.into());
            }
            Err(Refused(number, rule))
        }
        Ok(third) => {
            let Some(built) = rust::build(list, vocab) else {
                return Ok(DIFFERS.into());
            };
            let found = built.finds(list);
            let (items, mask, shift) = built.parts();
            let same = items == third && found && distinct && items.len() == slots.len();
            if !same || (mask as u64, shift as u64) != mask_and_shift(items.len()) {
                return Ok(DIFFERS.into());
            }
            slots.set(items);
            slots.built = Some(built);
            Ok(String::new())
        }
    }
}

// Does the Rust build a table of n slots of these rules and the next one? It takes as many slots as the rules want, so harmless rules
// stand behind them: each has an empty home.
fn rust_takes(list: &[u32], next: &[u32], n: usize, vocab: u64) -> bool {
    let Ok(mut slots) = plain::fill(list, n) else {
        return false;
    };
    let mut list = [list, next].concat();
    let least = if n == 64 { 0 } else { n / 4 + 2 };
    let mut tried = 0u64;
    while list.len() / 3 < least {
        tried += 1;
        let (a, b) = ((tried >> 21) as u32, (tried & ID_MAX) as u32);
        let home = plain::home(plain::key(a, b), n);
        if slots[home] == plain::EMPTY && next.get(..2) != Some(&[a, b]) {
            slots[home] = 0;
            list.extend([a, b, 0]);
        }
    }
    rust::build(&list, vocab).is_some()
}

fn rank(slots: &mut Row, a: u32, b: u32) -> Result<u32, Refused> {
    // Rule: a slot count that no table has is 2.
    if !plain::shaped(slots.len() as u64) {
        return Err(Refused(2, 0));
    }
    // Rule: queried numbers are tested, where the Rust does not.
    too_large(&[a, b])?;
    let third = plain::look(&slots.items, a, b);
    let table = slots.table();
    let merged = table.rank(a, b);
    slots.back(table);
    // Over slots that the Rust built, its lookup goes by its grid too.
    let by_built = slots.built.as_ref().map_or(merged, |built| built.rank(a, b));
    Ok(if merged == third && merged == by_built { merged } else { APART })
}

// ---- merging

// Rule: a table's shape is tested, and scratch above 32 ids.
fn unfit(slots: &Row, n: usize, scratch: &[&mut Row; 3]) -> bool {
    let [next, prev, heap] = scratch;
    !plain::shaped(slots.len() as u64) || n > plain::SMALL && (next.len() < n || prev.len() < n || heap.len() < 2 * n)
}

fn merge(slots: &mut Row, ids: &mut [u32], scratch: [&mut Row; 3], bytes: Option<&[u8]>) -> Called {
    let n = ids.len();
    // Rule: 1 to 3, in this order.
    if n > plain::ROW_MAX {
        return Err(Refused(1, 0));
    }
    if unfit(slots, n, &scratch) {
        return Err(Refused(2, 0));
    }
    too_large(ids)?;
    let third = plain::merge(&slots.items, ids);
    let table = slots.table();
    let answer = rust::merge(&table, ids);
    slots.back(table);
    let mut differs = answer.as_ref() != Some(&third);
    let answer = answer.unwrap_or(third);
    if let Some(bytes) = bytes
        && slots.len() <= 4096
    {
        let items = &slots.items;
        let merges = slots.merges.get_or_insert_with(|| rust::merges_of(items));
        differs |= rust::merge_bytes(merges, bytes) != answer;
    }
    if differs {
        return Ok(DIFFERS.into());
    }
    // Rule: the answer stands in front and none behind it.
    ids[..answer.len()].copy_from_slice(&answer);
    ids[answer.len()..].fill(NONE);
    // Rule: scratch that was used ends zero.
    if n > plain::SMALL {
        for (row, used) in scratch.into_iter().zip([n, n, 2 * n]) {
            let mut items = std::mem::take(&mut row.items);
            items[..used].fill(0);
            row.set(items);
        }
    }
    Ok(answer.len().to_string())
}

fn merge_bytes(slots: &mut Row, map: &[u32], bytes: &[u8], ids: &mut [u32], scratch: [&mut Row; 3]) -> Called {
    // Rule: what merging tests, with n the byte count, and the row's length and the map's.
    if bytes.len() > plain::ROW_MAX || ids.len() > plain::ROW_MAX {
        return Err(Refused(1, 0));
    }
    if ids.len() != bytes.len() || map.len() != 256 || unfit(slots, bytes.len(), &scratch) {
        return Err(Refused(2, 0));
    }
    // Rule: the ids are those of a lent map. The Rust's are the bytes: with such a map its own byte entry is asked too.
    let through: Vec<u32> = bytes.iter().map(|&b| map[b as usize]).collect();
    too_large(&through)?;
    ids.copy_from_slice(&through);
    let identity = map.iter().enumerate().all(|(b, &id)| id as usize == b);
    merge(slots, ids, scratch, identity.then_some(bytes))
}

// ---- cache

// Rule: a count above its bound is 1, words that are no table 2.
fn tabled(count: u64, words: &Row) -> Result<(), Refused> {
    if count > plain::CACHE_MAX {
        return Err(Refused(1, 0));
    }
    if !plain::cache_shaped(words.len()) {
        return Err(Refused(2, 0));
    }
    Ok(())
}

fn name_of(n: &[u64]) -> Name {
    Name { high: n[0], low: n[1], h: n[2] }
}

// Rule: a zero key is 7. The Rust wants none.
fn named(count: u64, words: &Row, n: &[u64]) -> Result<Name, Refused> {
    tabled(count, words)?;
    let name = name_of(n);
    if name.is_keyless() { Err(Refused(7, 0)) } else { Ok(name) }
}

// Rule: the arguments have a bound.
fn required(n: u64, min_slots: u64) -> Result<u64, Refused> {
    if n > plain::ASKED_MAX || min_slots > plain::ASKED_MAX {
        return Err(Refused(1, 0));
    }
    Ok(rust::required_capacity(n, min_slots))
}

fn with_at_least(words: &mut Row, n: u64, min_slots: u64) -> Called {
    let cap = required(n, min_slots)?;
    // Rule: the words are lent, exactly as many as the Rust would take.
    if words.len() as u64 != 5 * cap {
        return Err(Refused(2, 0));
    }
    let mut cache = rust::with_at_least(n, min_slots);
    if cache.capacity() != cap {
        return Ok(DIFFERS.into());
    }
    Ok(emptied(&mut cache, words))
}

// The words of a cache that the Rust emptied, and its count. Rule: the fifth words are zero too.
fn emptied(cache: &mut Cache, words: &mut Row) -> String {
    if !cache.is_zero() || cache.capacity() != words.len() as u64 / 5 {
        return DIFFERS.into();
    }
    words.set(vec![0; words.len()]);
    cache.len().to_string()
}

fn place(call: &str, count: u64, words: &mut Row, spot: Option<u64>, name: Name, value: [u64; 2]) -> Called {
    let [val, ext] = value;
    let slots = words.len() as u64 / 5;
    let stop = Cache::of(&words.items, count, Some(name)).stop(name);
    if stop != plain::walk(&words.items, name, true) {
        return Ok(DIFFERS.into());
    }
    let (at, after) = match stop {
        Stop::Hit(s) if call == "replace" => (s, count),
        // Rule: the Rust would store a second entry.
        Stop::Hit(s) => return Err(Refused(8, s as u64)),
        // Rule: the Rust would grow by itself.
        _ if plain::laden(slots, count) => return Err(Refused(9, 0)),
        // Rule: the Rust's walk would not end.
        Stop::Full => return Err(Refused(10, 0)),
        // Rule: the Rust believes the slot that it is given.
        Stop::Empty(s) if spot.is_some_and(|spot| spot != s as u64) => return Err(Refused(11, s as u64)),
        Stop::Empty(s) => (s, count + 1),
    };
    let mut cache = Cache::of(&words.items, count, Some(name));
    match (call, spot) {
        ("replace", _) => cache.replace(name, val, ext),
        (_, Some(slot)) => cache.insert_at(slot, name, val, ext),
        (_, None) => cache.insert(name, val, ext),
    }
    // Rule: the fifth word is h.
    let mut items = std::mem::take(&mut words.items);
    plain::put(&mut items, at, name, val, ext);
    let same = cache.holds(&items, after, name);
    words.set(items);
    Ok(if same { cache.len().to_string() } else { DIFFERS.into() })
}

fn grow(words: &Row, into: &mut Row) -> Called {
    // Rule: the larger table is lent, exactly twice the slots, and within the bound.
    tabled(0, into)?;
    if into.len() != 2 * words.len() {
        return Err(Refused(2, 0));
    }
    let (third, count) = plain::grow(&words.items);
    // Where the Rust is not asked, the layer's own growing is the answer.
    if let Some(seats) = rust::grow(&words.items) {
        // Rule: the five words go over as they are.
        let mut items = vec![0; into.len()];
        for (new, old) in seats.iter().enumerate() {
            if let Some(old) = old {
                items[5 * new..5 * new + 5].copy_from_slice(&words.items[5 * old..5 * old + 5]);
            }
        }
        if items != third || seats.iter().flatten().count() as u64 != count {
            return Ok(DIFFERS.into());
        }
    }
    into.set(third);
    // Rule: the count is that of the old entries, whatever count was given.
    Ok(count.to_string())
}

fn probe(mask: u64, words: &Row, name: Name) -> Called {
    // Rule: the view is of these words.
    if mask > plain::CACHE_MAX || !plain::cache_shaped(words.len()) || words.len() as u64 != 5 * (mask + 2) {
        return Err(Refused(2, 0));
    }
    if name.is_keyless() {
        return Err(Refused(7, 0));
    }
    let (val, ext, found) = Cache::of(&words.items, 0, Some(name)).probe(name);
    // Rule: a miss shows nothing, where the Rust shows the second slot's.
    Ok(if found { format!("{val} {ext} yes") } else { "0 0 no".into() })
}
