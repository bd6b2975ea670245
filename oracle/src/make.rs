// Makes commands of a seed, in chunks that stand by themselves: a chunk uses no row that it did not make. It answers them as it goes,
// since a cache's next command wants the count that the last one left.
use crate::answer::{Answerer, runs};
use crate::plain::{self, ID_MAX};
use crate::{rust, text};
use std::collections::HashSet;

pub const CHUNK: usize = 20_000;

pub struct Random(u64);

impl Random {
    // splitmix64
    pub fn next(&mut self) -> u64 {
        self.0 = self.0.wrapping_add(0x9E37_79B9_7F4A_7C15);
        let mut z = self.0;
        z = (z ^ (z >> 30)).wrapping_mul(0xBF58_476D_1CE4_E5B9);
        z = (z ^ (z >> 27)).wrapping_mul(0x94D0_49BB_1331_11EB);
        z ^ (z >> 31)
    }

    pub fn below(&mut self, n: u64) -> u64 {
        ((self.next() as u128 * n as u128) >> 64) as u64
    }

    fn within(&mut self, least: u64, most: u64) -> u64 {
        least + self.below(most - least + 1)
    }

    // One time in n.
    fn once_in(&mut self, n: u64) -> bool {
        self.below(n) == 0
    }

    fn pick<T: Copy>(&mut self, items: &[T]) -> T {
        items[self.below(items.len() as u64) as usize]
    }

    fn shuffle<T>(&mut self, items: &mut [T]) {
        for i in (1..items.len()).rev() {
            items.swap(i, self.below(i as u64 + 1) as usize);
        }
    }
}

pub struct Maker {
    random: Random,
    answerer: Answerer,
    pub lines: Vec<String>,
    pub answers: Vec<String>,
}

// The commands of a chunk and their answers.
pub fn chunk(seed: u64, number: u64, most: usize) -> (Vec<String>, Vec<String>) {
    let mut random = Random(seed);
    let start = random.next() ^ number.wrapping_mul(0xD6E8_FEB8_6659_FD93);
    let mut maker =
        Maker { random: Random(start), answerer: Answerer::default(), lines: Vec::new(), answers: Vec::new() };
    while maker.lines.len() < most {
        match maker.random.below(100) {
            0..=33 => maker.merging(),
            34..=37 => maker.real_text(),
            38..=47 => maker.vocabularies(),
            48..=89 => maker.caching(),
            90..=95 => maker.small_calls(),
            96 => maker.bad_lines(),
            _ => maker.large(),
        }
    }
    maker.lines.truncate(most);
    maker.answers.truncate(most);
    (maker.lines, maker.answers)
}

// Lengths about which something changes.
const LENGTHS: [u64; 30] =
    [0, 1, 2, 3, 4, 5, 7, 8, 9, 12, 14, 15, 16, 17, 24, 30, 31, 32, 33, 34, 35, 40, 48, 62, 63, 64, 65, 66, 100, 130];

const TOO_LARGE: [u64; 5] = [ID_MAX + 1, ID_MAX + 2, ID_MAX + 6, 4_194_303, 4_294_967_295];

impl Maker {
    fn say(&mut self, line: String) -> &str {
        let answer = self.answerer.line(&line);
        self.lines.push(line);
        self.answers.push(answer);
        self.answers.last().unwrap()
    }

    fn row(&mut self, name: &str, items: &[u64]) {
        self.say(format!("row {name}{}", runs(items)));
    }

    fn filled(&mut self, name: &str, count: u64, x: u64) {
        let items = match count {
            0 => String::new(),
            1 => format!(" {x}"),
            _ => format!(" {count}*{x}"),
        };
        self.say(format!("row {name}{items}"));
    }

    // ---- pair tables and merging

    fn id(&mut self) -> u64 {
        match self.random.below(8) {
            0 => self.random.below(4),
            1 => ID_MAX - self.random.below(3),
            2 => self.random.within(2046, 2050),
            3 => self.random.below(256),
            _ => self.random.below(ID_MAX + 1),
        }
    }

    // Few ids, many rules: merged ids that are smaller than a part, equal to one, shared by two pairs.
    fn dense_list(&mut self) -> Vec<u64> {
        let k = self.random.within(1, 7);
        let base = match self.random.below(4) {
            0 => self.random.within(2040, 2050),
            1 => ID_MAX - k,
            _ => 0,
        };
        let mut rules = Vec::new();
        let density = self.random.within(1, 4);
        for a in 0..k {
            for b in 0..k {
                if self.random.below(4) < density && rules.len() < 32 {
                    rules.push([base + a, base + b, base + self.random.below(k + 1)]);
                }
            }
        }
        self.random.shuffle(&mut rules);
        rules.concat()
    }

    // As a trained vocabulary: each rule joins two symbols that are there, and its merged id is new.
    fn trained_list(&mut self, letters: u64, rules: u64) -> Vec<u64> {
        let first = self.random.pick(&[0, 0, 97, 3]);
        let mut symbols: Vec<u64> = (first..first + letters).collect();
        let mut seen = HashSet::new();
        let mut list = Vec::new();
        let mut next = 256 + self.random.below(3) * 1000;
        for _ in 0..rules {
            // Earlier symbols are likelier.
            let most = symbols.len() as u64;
            let near = |r: &mut Random| symbols[(r.below(most).min(r.below(most))) as usize];
            let (a, b) = (near(&mut self.random), near(&mut self.random));
            if seen.insert((a, b)) {
                list.extend([a, b, next]);
                symbols.push(next);
                next += 1;
            }
        }
        // Some ids lie below their parts: the order of ids is another than that of the rules.
        if self.random.once_in(4) {
            let least = first + letters;
            let turn = |id: u64| if id >= 256 { least.max(256) + next - id } else { id };
            list.iter_mut().for_each(|id| *id = turn(*id));
        }
        list
    }

    // Pairs of one home or its neighbours, so many that the last stand about 64 slots after it.
    fn crowded_list(&mut self) -> Vec<u64> {
        let n = self.random.pick(&[64usize, 128, 256, 256, 256, 512, 1024]);
        let most = n as u64 / 2;
        let crowd = match n {
            64 => self.random.within(10, 32),
            128 => self.random.within(40, 64),
            _ => self.random.within(62, 74),
        };
        let target = match self.random.below(3) {
            0 => n - 1 - self.random.below(20) as usize,
            _ => self.random.below(n as u64) as usize,
        };
        let spread = self.random.pick(&[1, 1, 1, 2, 3]);
        let mut seen = HashSet::new();
        let mut rules = Vec::new();
        while (rules.len() as u64) < crowd {
            let (a, b) = (self.random.below(ID_MAX + 1), self.random.below(ID_MAX + 1));
            let home = plain::home(plain::key(a as u32, b as u32), n);
            if (home + n - target) % n < spread && seen.insert((a, b)) {
                rules.push([a, b, self.random.below(ID_MAX + 1)]);
            }
        }
        // So many more that the list wants n slots.
        let least = if n == 64 { 0 } else { most / 2 + 1 };
        let rest = least.max(crowd).max(self.random.within(least, most));
        let late = self.random.once_in(2);
        let mut others = Vec::new();
        while ((rules.len() + others.len()) as u64) < rest {
            let (a, b) = (self.random.below(ID_MAX + 1), self.random.below(ID_MAX + 1));
            if seen.insert((a, b)) {
                others.push([a, b, self.random.below(ID_MAX + 1)]);
            }
        }
        match self.random.below(3) {
            0 => rules.extend(others),
            1 => {
                others.extend(rules);
                rules = others;
            }
            _ => {
                rules.extend(others);
                self.random.shuffle(&mut rules);
            }
        }
        if late && rules.len() > 1 {
            let last = rules.len() - 1;
            let at = self.random.below(last as u64) as usize;
            rules.swap(at, last);
        }
        // Often the rules that stand too far go, so that the farthest just do not.
        let mut list = rules.concat();
        if self.random.once_in(2) {
            let trimmed = |list: &[u64]| -> Vec<u32> { list.iter().map(|&id| id as u32).collect() };
            while let Err((5, rule)) = plain::fill(&trimmed(&list), n) {
                list.drain(3 * rule as usize..3 * rule as usize + 3);
            }
        }
        list
    }

    fn scattered_list(&mut self) -> Vec<u64> {
        let rules = self.random.pick(&[0, 1, 2, 5, 20, 31, 32, 33, 64, 65, 128, 129, 200]);
        let mut seen = HashSet::new();
        let mut list = Vec::new();
        while (seen.len() as u64) < rules {
            let (a, b, m) = (self.id(), self.id(), self.id());
            if seen.insert((a, b)) {
                list.extend([a, b, m]);
            }
        }
        list
    }

    fn list(&mut self) -> Vec<u64> {
        match self.random.below(20) {
            0..=7 => self.dense_list(),
            8..=12 => {
                let letters = self.random.within(2, 8);
                let rules = self.random.within(3, 120);
                self.trained_list(letters, rules)
            }
            13..=15 => self.crowded_list(),
            16..=17 => self.scattered_list(),
            18 => vec![1, 2, 10, 2, 3, 9, 1, 9, 12, 10, 3, 11, 5, 5, 8, 8, 5, 7],
            _ => {
                let rules = self.random.within(500, 4000);
                self.trained_list(26, rules)
            }
        }
    }

    // Mistakes in a list.
    fn spoil(&mut self, list: &mut Vec<u64>) {
        let rules = list.len() as u64 / 3;
        if rules > 1 && self.random.once_in(8) {
            let from = self.random.below(rules) as usize;
            let to = self.random.below(rules) as usize;
            list[3 * to] = list[3 * from];
            list[3 * to + 1] = list[3 * from + 1];
        }
        if rules > 0 && self.random.once_in(10) {
            for _ in 0..self.random.within(1, 2) {
                let at = self.random.below(list.len() as u64) as usize;
                list[at] = self.random.pick(&TOO_LARGE);
            }
        }
        if self.random.once_in(20) {
            for _ in 0..self.random.within(1, 2) {
                list.push(self.random.below(5));
            }
        }
    }

    fn merging(&mut self) {
        let good = self.list();
        let mut list = good.clone();
        // Mostly a mistaken list is followed by the good one.
        for turn in 0..2 {
            if turn == 0 {
                self.spoil(&mut list);
                if list == good {
                    continue;
                }
            } else {
                list = good.clone();
            }
            let wanted = plain::wanted(list.len() / 3) as u64;
            let slots = match self.random.below(24) {
                0 => wanted / 2,
                1 => wanted * 2,
                2 => wanted + 1,
                3 => self.random.pick(&[0, 1, 32, 63]),
                _ => wanted,
            };
            let before = self.random.pick(&[0, u64::MAX, 7]);
            self.row("l", &list);
            self.filled("s", slots, before);
            let vocab = match self.random.below(16) {
                0 => ID_MAX + 2,
                1 => self.random.next(),
                2 => 0,
                _ => ID_MAX + 1,
            };
            self.say(format!("build l {vocab} s"));
        }
        let mut ids: Vec<u64> = good.clone();
        ids.sort_unstable();
        ids.dedup();
        if ids.is_empty() {
            ids = vec![0, 1, 5, ID_MAX];
        }
        self.lookups(&good, &ids);
        self.merges(&good, &ids);
        for _ in 0..self.random.below(3) {
            if self.answerer.items("s").len() <= 1024 {
                self.damage(&good);
                self.lookups(&good, &ids);
                self.merges(&good, &ids);
            }
        }
    }

    // Slots that no list gives.
    fn damage(&mut self, list: &[u64]) {
        let mut slots = self.answerer.items("s").to_vec();
        let n = slots.len();
        if n == 0 {
            return;
        }
        let packed = |r: &mut Random, list: &[u64]| {
            let some = |r: &mut Random| if list.is_empty() { r.below(9) } else { r.pick(list) & ID_MAX };
            some(r) << 42 | some(r) << 21 | some(r)
        };
        match self.random.below(8) {
            // full
            0 | 1 => {
                for slot in &mut slots {
                    if *slot == u64::MAX {
                        *slot = packed(&mut self.random, list);
                    }
                }
            }
            // full of what is neither
            2 => slots.fill(self.random.pick(&[0, u64::MAX - 1, 1 << 63, u64::MAX >> 1, u64::MAX - ID_MAX - 1])),
            // holes in walks
            3 => {
                for slot in &mut slots {
                    if self.random.once_in(4) {
                        *slot = u64::MAX;
                    }
                }
            }
            // some words
            4 => {
                for slot in &mut slots {
                    if self.random.once_in(6) {
                        *slot = match self.random.below(4) {
                            0 => self.random.next(),
                            1 => u64::MAX - self.random.below(3),
                            2 => *slot ^ 1 << 63,
                            _ => packed(&mut self.random, list),
                        };
                    }
                }
            }
            // one slot free only
            5 => {
                let free = self.random.below(n as u64) as usize;
                for (at, slot) in slots.iter_mut().enumerate() {
                    if *slot == u64::MAX && at != free {
                        *slot = packed(&mut self.random, list);
                    }
                }
            }
            // moved round
            6 => slots.rotate_right(self.random.below(n as u64) as usize),
            // another length
            _ => {
                let length = self.random.pick(&[0, 1, 32, 63, 64, 65, 128, 200, 256]);
                slots.resize(length, u64::MAX);
            }
        }
        self.row("s", &slots);
    }

    fn lookups(&mut self, list: &[u64], ids: &[u64]) {
        let n = self.answerer.items("s").len();
        for _ in 0..self.random.within(4, 24) {
            let (mut a, mut b) = (self.random.pick(ids), self.random.pick(ids));
            if list.len() >= 3 && !self.random.once_in(3) {
                let rule = self.random.below(list.len() as u64 / 3) as usize;
                (a, b) = (list[3 * rule], list[3 * rule + 1]);
            }
            match self.random.below(16) {
                0 => (a, b) = (b, a),
                1 => a = self.id(),
                2 => b = self.id(),
                3 => a = self.random.pick(&TOO_LARGE),
                4 => b = self.random.pick(&TOO_LARGE),
                5 if a > 0 => (a, b) = (a - 1, (b + ID_MAX + 1).min(u32::MAX as u64)),
                6 => (a, b) = (0, 0),
                7 => (a, b) = (ID_MAX, ID_MAX),
                _ => {}
            }
            let line = match self.random.below(10) {
                0..=3 => format!("rank s {a} {b}"),
                4..=5 => format!("rank_by_table s {a} {b}"),
                6..=7 => format!("rank_or_none s {a} {b}"),
                8 => "table s".into(),
                _ => {
                    let mut mask = n.wrapping_sub(1);
                    let mut shift = 64 - n.checked_ilog2().unwrap_or(0);
                    match self.random.below(6) {
                        0 => mask = mask.wrapping_add(1),
                        1 => shift = shift.wrapping_sub(1),
                        2 => (mask, shift) = (0, 0),
                        _ => {}
                    }
                    format!("table_rank s {mask} {shift} {a} {b}")
                }
            };
            self.say(line);
        }
    }

    fn length(&mut self) -> u64 {
        match self.random.below(6000) {
            0 => self.random.pick(&[65_535, 65_536, 65_536]),
            1..=3 => 65_537,
            4..=60 => self.random.within(999, 1001),
            61..=1200 => self.random.below(70),
            _ => self.random.pick(&LENGTHS),
        }
    }

    // A row of ids that rules are about.
    fn ids(&mut self, n: u64, list: &[u64], ids: &[u64]) -> Vec<u64> {
        let few: Vec<u64> = (0..self.random.within(1, 4)).map(|_| self.random.pick(ids)).collect();
        let kind = self.random.below(5);
        let mut row = Vec::new();
        while (row.len() as u64) < n {
            match kind {
                0 => row.push(self.random.pick(&few)),
                1 => row.extend(&few),
                2 => row.push(self.random.pick(ids)),
                3 if list.len() >= 3 => {
                    let rule = self.random.below(list.len() as u64 / 3) as usize;
                    row.extend(&list[3 * rule..3 * rule + 2]);
                }
                _ => row.push(ids[self.random.below(ids.len().min(8) as u64) as usize]),
            }
        }
        row.truncate(n as usize);
        row
    }

    // Scratch for n ids, mostly long enough.
    fn scratch(&mut self, n: u64) {
        for (name, least) in [("n", n), ("p", n), ("h", 2 * n)] {
            let now = self.answerer.items(name).len() as u64;
            let enough = now >= least;
            if enough && !self.random.once_in(6) || n <= 32 && !self.random.once_in(6) {
                continue;
            }
            let length = match self.random.below(12) {
                0 if least > 0 => least - 1,
                1 => self.random.below(40),
                2..=4 => least,
                5 => least + 1,
                _ => least + self.random.below(40),
            };
            let x = self.random.pick(&[0, 1, 4_294_967_295]);
            self.filled(name, length, x);
        }
    }

    fn merges(&mut self, list: &[u64], ids: &[u64]) {
        for name in ["n", "p", "h"] {
            self.filled(name, 140, 9);
        }
        self.map();
        for _ in 0..self.random.within(2, 14) {
            let n = self.length();
            self.scratch(n);
            if self.random.once_in(4) {
                self.merge_bytes(n, ids);
                continue;
            }
            let mut row = self.ids(n, list, ids);
            if n > 0 && self.random.once_in(14) {
                for _ in 0..self.random.within(1, 2) {
                    let at = self.random.below(n) as usize;
                    row[at] = self.random.pick(&TOO_LARGE);
                }
            }
            self.row("r", &row);
            self.say("merge s r n p h".into());
            if n <= 40 && self.random.once_in(4) {
                self.say("show r".into());
            }
            // What a call left goes in again: none in it is no id.
            if n <= 40 && self.random.once_in(10) {
                self.say("merge s r n p h".into());
            }
        }
    }

    fn map(&mut self) {
        let mut map: Vec<u64> = (0..256).collect();
        match self.random.below(8) {
            0 => map.iter_mut().for_each(|id| *id += 3),
            1 => {
                for _ in 0..self.random.within(1, 60) {
                    let at = self.random.below(256) as usize;
                    map[at] = self.random.pick(&TOO_LARGE);
                }
            }
            2 => map.iter_mut().for_each(|id| *id = self.random.below(12)),
            3 => map.resize(self.random.pick(&[0, 255, 257]), 1),
            _ => {}
        }
        self.row("m", &map);
    }

    fn merge_bytes(&mut self, n: u64, ids: &[u64]) {
        let bytes: Vec<u64> = ids.iter().copied().filter(|&id| id < 256).collect();
        let few = if bytes.is_empty() { vec![97, 98, 255] } else { bytes };
        let mut row: Vec<u64> = (0..n).map(|_| self.random.pick(&few)).collect();
        if n > 0 && self.random.once_in(3) {
            let at = self.random.below(n) as usize;
            row[at] = self.random.below(256);
        }
        self.row("b", &row);
        let length = match self.random.below(16) {
            0 if n > 0 => n - 1,
            1 => n + 1,
            2 => self.random.pick(&[0, 65_537]),
            _ => n,
        };
        let before = self.random.pick(&[0, 4_294_967_295]);
        self.filled("r", length, before);
        if self.random.once_in(6) {
            self.map();
        }
        self.say("merge_bytes s m b r n p h".into());
        if n <= 40 && self.random.once_in(4) {
            self.say("show r".into());
        }
    }

    // Rules that were learnt from a text, and rows of that text.
    fn real_text(&mut self) {
        let learnt = text::learnt();
        let rules = match self.random.below(3) {
            0 => learnt.rules.len(),
            _ => self.random.below(learnt.rules.len() as u64 + 1) as usize,
        };
        let list: Vec<u64> = learnt.rules[..rules].concat();
        self.row("l", &list);
        self.filled("s", plain::wanted(rules) as u64, 0);
        self.say("build l 2097152 s".into());
        self.row("m", &(0..256).collect::<Vec<u64>>());
        for name in ["n", "p", "h"] {
            self.filled(name, 140, 0);
        }
        for _ in 0..self.random.within(10, 40) {
            let n = self.length().min(learnt.text.len() as u64);
            let from = self.random.below(learnt.text.len() as u64 - n + 1) as usize;
            let bytes: Vec<u64> = learnt.text[from..from + n as usize].iter().map(|b| *b as u64).collect();
            self.scratch(n);
            if self.random.once_in(2) {
                self.row("b", &bytes);
                self.filled("r", n, 4);
                self.say("merge_bytes s m b r n p h".into());
            } else {
                self.row("r", &bytes);
                self.say("merge s r n p h".into());
            }
        }
    }

    // ---- byte maps

    fn vocabularies(&mut self) {
        for _ in 0..self.random.within(1, 4) {
            self.vocabulary();
        }
    }

    fn vocabulary(&mut self) {
        let mut entries: Vec<Vec<u64>> = (0..256).map(|b| vec![b]).collect();
        if self.random.once_in(2) {
            self.random.shuffle(&mut entries);
        }
        // Bytes that UTF-8 does not use may be missing, others not.
        let missing = self.random.below(4);
        entries.retain(|entry| {
            let used = rust::is_valid_utf8_byte(entry[0] as u8);
            match missing {
                0 => true,
                1 => used,
                2 => used || self.random.once_in(2),
                _ => !self.random.once_in(if used { 60 } else { 3 }),
            }
        });
        for _ in 0..self.random.below(6) {
            let at = self.random.below(entries.len() as u64 + 1) as usize;
            let length = self.random.pick(&[0, 1, 1, 2, 3, 9]);
            let entry = (0..length).map(|_| self.random.below(256)).collect();
            entries.insert(at, entry);
        }
        if self.random.once_in(12) {
            entries.truncate(self.random.below(3) as usize);
        }
        let bytes: Vec<u64> = entries.concat();
        let mut end = 0;
        let mut ends: Vec<u64> = Vec::new();
        for entry in &entries {
            end += entry.len() as u64;
            ends.push(end);
        }
        let last = ends.len().wrapping_sub(1);
        match self.random.below(10) {
            0 if !ends.is_empty() => ends[last] += self.random.pick(&[1, u32::MAX as u64 - end]),
            1 if !ends.is_empty() && ends[last] > 0 => ends[last] -= 1,
            2 if ends.len() > 2 => {
                let at = self.random.below(last as u64) as usize;
                ends[at] = ends[at + 1] + 1;
            }
            3 if self.random.once_in(2) => ends.clear(),
            _ => {}
        }
        self.row("b", &bytes);
        self.row("e", &ends);
        if self.random.once_in(3) || self.answerer.items("m").is_empty() {
            let length = self.random.pick(&[0, 256, 256, 300]);
            self.filled("m", length, 5);
        }
        self.say("from_byte_vocab b e m".into());
    }

    // ---- caches

    // A name of few, so that they meet: keys that share a word, one key with several hashes, hashes that share a home.
    fn name(&mut self, slots: u64, kind: u64, names: u64) -> String {
        let low = self.random.below(names);
        let (high, low) = match self.random.below(6) {
            0 => (low, 0),
            1 => (1, low),
            2 => (u64::MAX, u64::MAX - low),
            _ => (0, low + 1),
        };
        let h = match kind {
            // the Rust's own hash
            0 => rust::key_hash(high, low),
            // crowded
            1 => self.random.below(3) + slots - 2,
            2 => (high ^ low) % 5 + (low << 32),
            _ => self.random.below(slots + 1) + (self.random.below(2) << 60),
        };
        if self.random.once_in(30) { format!("0 0 {h}") } else { format!("{high} {low} {h}") }
    }

    fn value(&mut self) -> u64 {
        if self.random.once_in(3) { self.random.next() } else { self.random.below(9) }
    }

    fn count_of(&self) -> Option<u64> {
        let answer = self.answers.last()?;
        answer.strip_prefix("ok ")?.split(' ').next()?.parse().ok()
    }

    fn caching(&mut self) {
        let mut slots = self.random.pick(&[2, 4, 4, 8, 8, 8, 16, 16, 32, 64]);
        if self.random.once_in(25) {
            slots = self.random.pick(&[128, 256, 512]);
        }
        let (mut now, mut other) = ("w", "v");
        let kind = self.random.below(5);
        // Few names meet more often.
        let names = self.random.pick(&[2, slots, 2 * slots + 2]);
        self.filled(now, 5 * slots, 0);
        let mut count = 0;
        if self.random.once_in(3) {
            self.damaged_words(now, slots);
            count = self.random.below(slots + 1);
        }
        for _ in 0..self.random.within(10, 80) {
            let name = self.name(slots, kind, names);
            // Mostly the count that the last call left.
            let given = match self.random.below(40) {
                0 => plain::CACHE_MAX,
                1 => plain::CACHE_MAX + 1,
                2 => self.random.below(slots + 1),
                3 => slots * 3 / 4,
                4 => u64::MAX,
                _ => count,
            };
            let (val, ext) = (self.value(), self.value());
            let changes = match self.random.below(32) {
                0..=6 => {
                    self.say(format!("insert {given} {now} {name} {val} {ext}"));
                    true
                }
                7..=10 => {
                    self.say(format!("replace {given} {now} {name} {val} {ext}"));
                    true
                }
                11..=14 => {
                    let missing = self.say(format!("get_or_slot {given} {now} {name}"));
                    let right = missing.strip_prefix("ok missing ").and_then(|s| s.parse().ok());
                    let slot = match self.random.below(6) {
                        0 => self.random.below(slots + 2),
                        1 => u64::MAX,
                        2 => right.unwrap_or(0) ^ 1,
                        _ => right.unwrap_or(1),
                    };
                    self.say(format!("insert_at {given} {now} {slot} {name} {val} {ext}"));
                    true
                }
                15..=20 => {
                    self.say(format!("get_or_slot {given} {now} {name}"));
                    false
                }
                21..=25 => {
                    let mask = match self.random.below(12) {
                        0 => slots - 1,
                        1 => slots,
                        2 => u64::MAX,
                        3 => 2 * slots - 2,
                        _ => slots - 2,
                    };
                    self.say(format!("probe_pair {mask} {now} {name}"));
                    false
                }
                26 => {
                    self.say(format!("probe_view {given} {now}"));
                    false
                }
                27 => {
                    self.say(format!("capacity {now}"));
                    false
                }
                28 => {
                    let few = slots <= 16;
                    self.say(format!("{} {now}", if few { "show" } else { "sum" }));
                    false
                }
                29 if self.random.once_in(3) => {
                    self.say(format!("clear {given} {now}"));
                    true
                }
                30 if self.random.once_in(3) => {
                    let cap = match self.random.below(4) {
                        0 => slots * 2,
                        1 => slots / 2,
                        2 => self.random.pick(&[0, 3, u64::MAX]),
                        _ => slots,
                    };
                    self.say(format!("reset_to_capacity {given} {now} {cap}"));
                    true
                }
                _ => {
                    let words = match self.random.below(10) {
                        0 => 5 * slots,
                        1 => 10 * slots + 1,
                        2 => self.random.pick(&[0, 5, 15]),
                        3 => 20 * slots,
                        _ => 10 * slots,
                    };
                    if slots >= 512 || slots >= 64 && !self.random.once_in(3) {
                        continue;
                    }
                    let before = self.random.pick(&[0, 3, u64::MAX]);
                    self.filled(other, words, before);
                    let grown = self.say(format!("grow {given} {now} {other}")).starts_with("ok");
                    if grown {
                        (now, other) = (other, now);
                        slots *= 2;
                    }
                    grown
                }
            };
            if changes && let Some(left) = self.count_of() {
                count = left;
            }
            if self.random.once_in(90) {
                self.misshapen(now);
                break;
            }
        }
    }

    // Words that no calls leave.
    fn damaged_words(&mut self, name: &str, slots: u64) {
        let mut words = Vec::new();
        let full = self.random.once_in(3);
        for _ in 0..slots {
            let low = self.random.below(slots * 2) + u64::from(full);
            let high = if self.random.once_in(6) { 1 } else { 0 };
            let h = self.random.below(slots + 1);
            words.extend([high, low, self.value(), self.value(), h]);
            if !full && self.random.once_in(3) {
                let at = words.len() - 5;
                words[at] = 0;
                words[at + 1] = 0;
            }
        }
        self.row(name, &words);
        if slots <= 16 {
            self.say(format!("show {name}"));
        }
    }

    // Words that are no table.
    fn misshapen(&mut self, name: &str) {
        let words = self.random.pick(&[0, 1, 5, 9, 11, 15, 19, 21, 30, 39, 41]);
        self.filled(name, words, 0);
        for call in
            ["insert 0 @ 0 1 1 2 3", "replace 0 @ 0 0 1 2 3", "insert_at 0 @ 0 0 1 1 2 3", "get_or_slot 0 @ 0 1 1"]
        {
            self.say(call.replace('@', name));
        }
        for call in ["capacity @", "clear 0 @", "probe_view 0 @", "probe_pair 0 @ 0 1 1", "reset_to_capacity 0 @ 2"] {
            self.say(call.replace('@', name));
        }
        self.filled("v", 10, 0);
        self.say(format!("grow 0 {name} v"));
        self.say(format!("grow 0 v {name}"));
    }

    // ---- the rest

    fn small_calls(&mut self) {
        for _ in 0..self.random.within(5, 25) {
            let edge = |r: &mut Random| {
                let base = r.pick(&[
                    0,
                    2,
                    63,
                    64,
                    65,
                    255,
                    65_536,
                    131_072,
                    262_144,
                    1_048_576,
                    2_097_152,
                    1 << 32,
                    1 << 63,
                    u64::MAX,
                ]);
                base.wrapping_add(r.below(3)).wrapping_sub(1)
            };
            let r = &mut self.random;
            let line = match r.below(10) {
                0 => format!("new {}", edge(r) as u32),
                1 => "none".into(),
                2 => format!("fits {}", edge(r) as u32),
                3 => {
                    let (n, least) = (edge(r), r.pick(&[0, 1, 2, 64]));
                    format!("is_power_within {n} {least} {}", edge(r))
                }
                4 => {
                    let (a, b) = (r.next() >> r.below(64), r.next() >> r.below(64));
                    format!("low_product {a} {b}")
                }
                5 => format!("low_product {} {}", edge(r), edge(r)),
                6 => format!(
                    "is_valid_utf8_byte {}",
                    r.pick(&[0, 0x7f, 0x80, 0xbf, 0xc0, 0xc1, 0xc2, 0xf4, 0xf5, 0xff]) as u8
                ),
                7 => format!("shaped {}", edge(r)),
                8 => {
                    let n = match r.below(3) {
                        0 => r.pick(&[
                            49_150, 49_151, 49_152, 98_303, 98_304, 786_431, 786_432, 1_048_575, 1_048_576, 1_048_577,
                        ]),
                        1 => edge(r),
                        _ => r.below(1_100_000),
                    };
                    let least = if r.once_in(2) { 0 } else { edge(r) };
                    format!("required_capacity {n} {least}")
                }
                _ => {
                    let n = r.below(5);
                    let mut row: Vec<u64> = (0..n).map(|_| r.below(ID_MAX + 1)).collect();
                    if n > 0 && r.once_in(2) {
                        let at = r.below(n) as usize;
                        row[at] = r.pick(&TOO_LARGE);
                    }
                    self.row("r", &row);
                    "first_too_large r".into()
                }
            };
            self.say(line);
        }
        if self.random.once_in(40) {
            for b in 0..256 {
                self.say(format!("is_valid_utf8_byte {b}"));
            }
        }
    }

    fn bad_lines(&mut self) {
        self.row("r", &[1, 2, 4_294_967_296]);
        self.filled("s", 64, u64::MAX);
        for line in [
            "",
            "nothing",
            "new 4294967296",
            "new",
            "new 1 2",
            "new -1",
            "rank s 1",
            "rank s 1 x",
            "rank nowhere 1 2",
            "show nowhere",
            "sum nowhere",
            "first_too_large r",
            "is_valid_utf8_byte 256",
            "grow 0 s s",
            "low_product 18446744073709551616 1",
            "row r 1 x",
            "rank s 4294967296 0",
        ] {
            self.say(line.into());
        }
    }

    // What is long, seldom.
    fn large(&mut self) {
        match self.random.below(90) {
            // the most rules, and one more
            0 => {
                let list = self.trained_list(200, 140_000);
                let rules = self.random.pick(&[131_071, 131_072, 131_072, 131_073]);
                self.row("l", &list[..3 * rules]);
                self.filled("s", 262_144, 0);
                self.say("build l 2097152 s".into());
                let mut ids = list[..3000].to_vec();
                ids.sort_unstable();
                ids.dedup();
                self.lookups(&list[..3 * rules], &ids);
                self.merges(&list[..9000], &ids);
            }
            1 => {
                let rules = self.random.pick(&[131_072, 131_073]);
                self.filled("l", 3 * rules, 1);
                self.filled("s", 262_144, 0);
                self.say("build l 2097152 s".into());
            }
            // the most entries, and one more
            2 => {
                let ends = self.random.pick(&[2_097_152, 2_097_153]);
                let bytes: Vec<u64> = (0..256).collect();
                self.row("b", &bytes);
                self.say(format!("row e {}*0{}", ends - 256, runs(&(1..=256).collect::<Vec<u64>>())));
                self.filled("m", 256, 1);
                self.say("from_byte_vocab b e m".into());
            }
            // the capacity rule's tables
            3..=14 => {
                let n = self.random.pick(&[0, 1000, 49_151, 49_152]);
                let slots = self.random.pick(&[65_536, 65_536, 131_072, 32_768]);
                self.filled("w", 5 * slots, 1);
                self.say(format!("with_at_least w {n} 70000"));
                let made = self.say(format!("with_at_least w {n} 0")).starts_with("ok");
                self.say("with_at_least w 1048577 0".into());
                for _ in 0..self.random.within(3, 12) {
                    let name = self.name(slots, 0, 9);
                    self.say(format!("insert 7 w {name} 1 2"));
                    self.say(format!("get_or_slot 7 w {name}"));
                }
                // A full table of one name would be walked over too often.
                if made && slots == 65_536 {
                    self.filled("v", 10 * slots, 3);
                    self.say("grow 7 w v".into());
                }
            }
            15 if self.random.once_in(8) => {
                // the most slots: they never grow
                self.filled("w", 5 * 2_097_152, 0);
                self.say("capacity w".into());
                self.say("grow 0 w v".into());
                self.filled("v", 10 * 2_097_152, 0);
                self.say("capacity v".into());
                self.say("grow 0 w v".into());
                self.filled("v", 5 * 1_048_576, 0);
                self.say("insert 0 v 0 1 1048575 4 5".into());
                self.say("grow 1 v w".into());
                self.filled("v", 0, 0);
                self.say("insert 1572863 w 0 1 2097151 4 5".into());
                self.say("insert 1572864 w 0 2 2097151 4 5".into());
                self.filled("w", 0, 0);
            }
            16..=18 => {
                let words = self.random.pick(&[65_536u64 * 5, 65_536 * 5 + 5, 4_194_304 / 8]);
                self.filled("w", words, 2);
                self.say("with_at_least w 1 65536".into());
                self.say("with_at_least w 1 65537".into());
            }
            19..=21 => {
                let slots = self.random.pick(&[262_144, 262_145, 524_288, 131_072]);
                self.filled("s", slots, u64::MAX);
                self.lookups(&[], &[0, 1, ID_MAX]);
            }
            _ => self.small_calls(),
        }
    }
}
