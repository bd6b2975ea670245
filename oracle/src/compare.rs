// Compares a program's answers with the oracle's: chunk by chunk, each in a run of the program of its own, by several threads.
use crate::make::{self, CHUNK};
use std::collections::BTreeMap;
use std::io::{self, BufWriter, Read, Write};
use std::process::{Command, Stdio};
use std::sync::Mutex;
use std::sync::atomic::{AtomicBool, AtomicU64, Ordering};
use std::thread;
use std::time::Instant;

// What was compared.
#[derive(Default)]
struct Counts {
    calls: BTreeMap<String, u64>,
    refusals: BTreeMap<(u8, String), u64>,
    lengths: BTreeMap<usize, (u64, u64)>,
    bad: u64,
    all: u64,
}

// Lengths of merged rows are counted in these classes, each up to its number.
const CLASSES: [(u64, &str); 20] = [
    (0, "0"),
    (1, "1"),
    (2, "2"),
    (7, "3 to 7"),
    (8, "8"),
    (14, "9 to 14"),
    (15, "15"),
    (16, "16"),
    (30, "17 to 30"),
    (31, "31"),
    (32, "32"),
    (33, "33"),
    (34, "34"),
    (62, "35 to 62"),
    (65, "63 to 65"),
    (998, "66 to 998"),
    (1001, "999 to 1001"),
    (65_535, "1002 to 65535"),
    (65_536, "65536"),
    (u64::MAX, "above"),
];

impl Counts {
    fn take(&mut self, line: &str, answer: &str) {
        self.all += 1;
        if answer.starts_with("bad: ") {
            self.bad += 1;
            return;
        }
        let call = line.split(' ').next().unwrap_or("");
        *self.calls.entry(call.into()).or_default() += 1;
        let refused = answer.strip_prefix("refused ").and_then(|a| a.split(' ').next()).and_then(|n| n.parse().ok());
        if let Some(number) = refused {
            *self.refusals.entry((number, call.into())).or_default() += 1;
        }
        if call == "merge" || call == "merge_bytes" {
            // the row's length stands behind its name, the first that is written
            let length: u64 =
                answer.split(' ').skip_while(|w| *w != "|").nth(2).and_then(|n| n.parse().ok()).unwrap_or(0);
            let class = CLASSES.iter().position(|(most, _)| length <= *most).unwrap();
            let (all, done) = self.lengths.entry(class).or_default();
            *all += 1;
            *done += u64::from(refused.is_none());
        }
    }

    fn join(&mut self, other: Counts) {
        self.all += other.all;
        self.bad += other.bad;
        for (call, n) in other.calls {
            *self.calls.entry(call).or_default() += n;
        }
        for (which, n) in other.refusals {
            *self.refusals.entry(which).or_default() += n;
        }
        for (class, (all, done)) in other.lengths {
            let sums = self.lengths.entry(class).or_default();
            sums.0 += all;
            sums.1 += done;
        }
    }

    fn print(&self) {
        let rows: u64 = ["row", "show", "sum", ""].iter().filter_map(|line| self.calls.get(*line)).sum();
        let calls = self.all - rows - self.bad;
        println!(
            "compared {} answers: {calls} to calls, {rows} to other lines, {} to lines that are no command",
            self.all, self.bad
        );
        println!("by call:");
        for (call, n) in &self.calls {
            println!("  {:<18} {n:>10}", if call.is_empty() { "(empty line)" } else { call });
        }
        println!("merged rows by length: all, and not refused");
        for (class, (all, done)) in &self.lengths {
            println!("  {:<18} {all:>10} {done:>10}", CLASSES[*class].1);
        }
        println!("by refusal:");
        for number in 1..=11u8 {
            let of: Vec<_> = self.refusals.iter().filter(|((n, _), _)| *n == number).collect();
            let all: u64 = of.iter().map(|(_, n)| **n).sum();
            let calls: Vec<String> = of.iter().map(|((_, call), n)| format!("{call} {n}")).collect();
            println!("  {number:<18} {all:>10}   {}", calls.join(", "));
        }
    }
}

struct Difference {
    line: u64,
    command: String,
    oracle: String,
    program: String,
}

// Two answers say the same. What is wrong with a bad line is each one's own to say.
fn same(oracle: &str, program: &str) -> bool {
    oracle == program || oracle.starts_with("bad: ") && program.starts_with("bad: ")
}

fn run(program: &str, lines: &[String]) -> io::Result<String> {
    let mut child = Command::new(program).stdin(Stdio::piped()).stdout(Stdio::piped()).spawn()?;
    let input = child.stdin.take().unwrap();
    let mut output = child.stdout.take().unwrap();
    let mut bytes = Vec::new();
    thread::scope(|scope| {
        scope.spawn(move || {
            let mut input = BufWriter::with_capacity(1 << 16, input);
            // A program that ends early is noticed by its answers.
            let _ = lines.iter().try_for_each(|line| writeln!(input, "{line}"));
            let _ = input.flush();
        });
        output.read_to_end(&mut bytes)
    })?;
    let ended = child.wait()?;
    let mut text = String::from_utf8_lossy(&bytes).into_owned();
    if !ended.success() {
        text.push_str(&format!("(the program ended with {ended})\n"));
    }
    Ok(text)
}

fn compare_chunk(program: &str, seed: u64, number: u64, most: usize) -> io::Result<(Counts, Option<Difference>)> {
    let (lines, answers) = make::chunk(seed, number, most);
    let text = run(program, &lines)?;
    let mut said = text.lines();
    let mut counts = Counts::default();
    for (at, (line, oracle)) in lines.iter().zip(&answers).enumerate() {
        let program = said.next().unwrap_or("(no answer)");
        if !same(oracle, program) || oracle.starts_with("oracle differs") {
            let shorter = |text: &str| match text.char_indices().nth(2000) {
                Some((end, _)) => format!("{} ..", &text[..end]),
                None => text.into(),
            };
            let difference = Difference {
                line: number * CHUNK as u64 + at as u64 + 1,
                command: shorter(line),
                oracle: shorter(oracle),
                program: shorter(program),
            };
            return Ok((counts, Some(difference)));
        }
        counts.take(line, oracle);
    }
    Ok((counts, None))
}

// Whether all answers agree.
pub fn compare(program: &str, seed: u64, commands: u64, threads: u64) -> io::Result<bool> {
    let chunks = commands.div_ceil(CHUNK as u64);
    let start = Instant::now();
    let next = AtomicU64::new(0);
    let stop = AtomicBool::new(false);
    let all = Mutex::new((Counts::default(), None::<Difference>));
    let work = || -> io::Result<()> {
        while !stop.load(Ordering::Relaxed) {
            let number = next.fetch_add(1, Ordering::Relaxed);
            if number >= chunks {
                break;
            }
            let most = (commands - number * CHUNK as u64).min(CHUNK as u64) as usize;
            let (counts, difference) = compare_chunk(program, seed, number, most)?;
            let mut all = all.lock().unwrap();
            all.0.join(counts);
            if let Some(new) = difference {
                stop.store(true, Ordering::Relaxed);
                if all.1.as_ref().is_none_or(|old| new.line < old.line) {
                    all.1 = Some(new);
                }
            }
        }
        Ok(())
    };
    thread::scope(|scope| {
        let workers: Vec<_> = (0..threads).map(|_| scope.spawn(work)).collect();
        workers.into_iter().try_for_each(|worker| worker.join().unwrap())
    })?;
    let (counts, difference) = all.into_inner().unwrap();
    counts.print();
    println!("in {} seconds", start.elapsed().as_secs());
    match difference {
        None => println!("no difference"),
        Some(d) => {
            println!("first difference: command {} of seed {seed}", d.line);
            println!("  command: {}", d.command);
            println!("  oracle:  {}", d.oracle);
            println!("  program: {}", d.program);
            let from = (d.line - 1) / CHUNK as u64 * CHUNK as u64;
            println!("  its rows: oracle make {seed} {} | tail -n +{} | PROGRAM", d.line, from + 1);
            return Ok(false);
        }
    }
    Ok(true)
}
