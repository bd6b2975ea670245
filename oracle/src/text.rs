// Rules as they are learnt from a text: again and again the pair that stands there most often gets an id of its own. The text is that of
// the file in the variable ORACLE_TEXT, and without one that of this package.
use std::cmp::Reverse;
use std::collections::HashMap;
use std::sync::OnceLock;

const OURS: [&str; 6] = [
    include_str!("../README.md"),
    include_str!("answer.rs"),
    include_str!("make.rs"),
    include_str!("rust.rs"),
    include_str!("plain.rs"),
    include_str!("compare.rs"),
];

const RULES_MAX: usize = 4000;

// Longer texts are cut.
const TEXT_MAX: usize = 200_000;

pub struct Learnt {
    pub text: Vec<u8>,
    pub rules: Vec<[u64; 3]>,
}

pub fn learnt() -> &'static Learnt {
    static LEARNT: OnceLock<Learnt> = OnceLock::new();
    LEARNT.get_or_init(|| {
        let given = std::env::var_os("ORACLE_TEXT").and_then(|path| std::fs::read(path).ok());
        let mut text = given.unwrap_or_else(|| OURS.concat().into_bytes());
        text.truncate(TEXT_MAX);
        let rules = learn(&text);
        Learnt { text, rules }
    })
}

fn learn(text: &[u8]) -> Vec<[u64; 3]> {
    // Words with the space before them, each with how often it stands there, in an order that does not change.
    let mut counts: HashMap<&[u8], u64> = HashMap::new();
    for word in text.split_inclusive(|b| b.is_ascii_whitespace()) {
        *counts.entry(word).or_default() += 1;
    }
    let mut words: Vec<(Vec<u64>, u64)> =
        counts.iter().map(|(w, n)| (w.iter().map(|b| *b as u64).collect(), *n)).collect();
    words.sort();
    let mut pairs: HashMap<(u64, u64), u64> = HashMap::new();
    for (word, n) in &words {
        count(&mut pairs, word, |old| old + n);
    }
    let mut rules = Vec::new();
    while rules.len() < RULES_MAX {
        let best = pairs.iter().max_by_key(|(pair, n)| (**n, Reverse(**pair)));
        let Some((&(a, b), 1..)) = best else {
            break;
        };
        let id = 256 + rules.len() as u64;
        rules.push([a, b, id]);
        for (word, n) in &mut words {
            if !word.windows(2).any(|pair| *pair == [a, b]) {
                continue;
            }
            count(&mut pairs, word, |old| old - *n);
            let mut at = 0;
            while at + 1 < word.len() {
                if word[at] == a && word[at + 1] == b {
                    word[at] = id;
                    word.remove(at + 1);
                }
                at += 1;
            }
            count(&mut pairs, word, |old| old + *n);
        }
        pairs.remove(&(a, b));
    }
    rules
}

// Changes the counts of a word's pairs.
fn count(pairs: &mut HashMap<(u64, u64), u64>, word: &[u64], change: impl Fn(u64) -> u64) {
    for pair in word.windows(2) {
        let now = pairs.entry((pair[0], pair[1])).or_default();
        *now = change(*now);
    }
}
