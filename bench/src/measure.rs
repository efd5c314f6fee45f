//! The measuring: rounds, best times and tables.

use crate::{Call, Options, CALLS};
use bench::files::{plain, scattered, worst, File};
use bench::lean::Lean;
use second::judge::Outcome;
use second::product::{Product, Second};
use second::proved::Proved;
use second::records::Refusal;
use second::sums::Sums;
use std::collections::BTreeMap;
use std::hint::black_box;
use std::time::{Duration, Instant};

/// Who is measured.
#[derive(Clone, Copy, PartialEq, Eq, PartialOrd, Ord)]
enum Who {
    Proved,
    Lean,
    Second,
}

const WHO: [Who; 3] = [Who::Proved, Who::Lean, Who::Second];

/// A call that takes longer is not repeated.
const TOO_LONG: Duration = Duration::from_secs(60);

/// Measures everything and prints it.
pub fn all(options: &Options) {
    let (megabytes, meshes) = if options.quick { (8, 2) } else { (400, 64) };
    println!("Best of {} rounds. MB is a million bytes.", options.rounds);
    one_file("The plain file", &plain(records_in(megabytes)), options);
    one_file("The worst file for nested scans", &worst(meshes), options);
    if options.only.is_none_or(|only| only == Call::Judge) {
        flat_cost(options);
    }
}

/// How many records so many megabytes have.
fn records_in(megabytes: usize) -> usize {
    megabytes * 1_000_000 / 74
}

// What is run.

/// Buffers of the right size for a file, used before they are measured with.
struct Buffers {
    table: Vec<u32>,
    measures: Vec<i64>,
    sums: Vec<i64>,
}

/// What a call answered; all contestants have to answer the same.
#[derive(Debug, PartialEq)]
enum Answer {
    Need(u64),
    /// The outcome, and the sums of both buffers; of the judge and of all sums.
    Judge(Outcome, u64, i64),
    Sums(Refusal, Sums, u64),
    Reader,
}

/// The proved judge accepts the file. The answer is buffers of the right size.
fn accepted(file: &File) -> Buffers {
    let need = Proved.need(&file.bytes) as usize;
    let mut buffers = Buffers { table: vec![1; need], measures: vec![1; need], sums: Vec::new() };
    let outcome = Proved.judge(&file.bytes, &mut buffers.table, &mut buffers.measures);
    assert_eq!(outcome.refusal, Refusal::default(), "the file is accepted");
    assert_eq!(outcome.counts.records as usize, file.records());
    buffers.measures.truncate(outcome.counts.areas as usize);
    buffers.sums = vec![1; 2 * outcome.counts.layers as usize];
    buffers
}

/// Runs one call of one contestant.
fn run(who: Who, call: Call, file: &File, buffers: &mut Buffers) -> (Duration, Answer) {
    match who {
        Who::Proved => run_as(&Proved, call, file, buffers),
        Who::Lean => run_as(&Lean, call, file, buffers),
        Who::Second => run_as(&Second, call, file, buffers),
    }
}

/// Runs one call and takes its time.
fn run_as<P: Product>(product: &P, call: Call, file: &File, buffers: &mut Buffers) -> (Duration, Answer) {
    let Buffers { table, measures, sums } = buffers;
    let bytes = black_box(&file.bytes[..]);
    let start = Instant::now();
    match call {
        Call::Need => {
            let need = product.need(bytes);
            (start.elapsed(), Answer::Need(need))
        }
        Call::Judge => {
            let outcome = product.judge(bytes, table, measures);
            (start.elapsed(), Answer::Judge(outcome, sum_of(table), measures.iter().sum()))
        }
        Call::Sums => {
            let (refusal, sums) = product.layer_sums(bytes, table, 1);
            (start.elapsed(), Answer::Sums(refusal, sums, sum_of(table)))
        }
        Call::All => {
            let outcome = product.all_sums(bytes, table, sums);
            (start.elapsed(), Answer::Judge(outcome, sum_of(table), sums.iter().sum()))
        }
        Call::Reader => {
            for (record, kind) in bytes.chunks_exact(74).zip(&file.kinds) {
                let (refusal, value) = product.read_record(u32::from(*kind), record);
                assert_eq!(refusal.number, 0);
                black_box(&value);
            }
            (start.elapsed(), Answer::Reader)
        }
    }
}

/// The sum of a table's words.
fn sum_of(table: &[u32]) -> u64 {
    table.iter().map(|word| u64::from(*word)).sum()
}

/// Reading every byte once: the sum of all words of eight bytes.
fn read_once(bytes: &[u8]) -> Duration {
    let start = Instant::now();
    let words = black_box(bytes).chunks_exact(8);
    let rest: u64 = words.remainder().iter().map(|byte| u64::from(*byte)).sum();
    let value = |word: &[u8]| u64::from_le_bytes(word.try_into().expect("eight bytes"));
    black_box(words.fold(rest, |sum, word| sum.wrapping_add(value(word))));
    start.elapsed()
}

// One file, all contestants.

/// The best times on one file.
struct Best {
    reading: Duration,
    times: BTreeMap<(Call, Who), Duration>,
}

/// Measures one file and prints its table.
fn one_file(title: &str, file: &File, options: &Options) {
    println!("\n{title}: {:.1} MB, {} records", file.megabytes(), file.records());
    let calls = CALLS.into_iter().filter(|(call, _)| options.only.is_none_or(|only| only == *call));
    let calls: Vec<(Call, &str)> = calls.collect();
    let best = rounds(file, &calls, options.rounds);
    print_table(file, &calls, &best);
}

/// In each round everything is run once, so that noise hits all alike.
fn rounds(file: &File, calls: &[(Call, &str)], rounds: usize) -> Best {
    let mut buffers = accepted(file);
    let mut best = Best { reading: Duration::MAX, times: BTreeMap::new() };
    for _ in 0..rounds {
        best.reading = best.reading.min(read_once(&file.bytes));
        for (call, _) in calls {
            let mut answers = Vec::new();
            for who in WHO {
                let before = best.times.get(&(*call, who)).copied().unwrap_or(Duration::MAX);
                if before > TOO_LONG && before < Duration::MAX {
                    continue;
                }
                let (time, answer) = run(who, *call, file, &mut buffers);
                best.times.insert((*call, who), time.min(before));
                answers.push(answer);
            }
            assert!(answers.iter().all(|answer| *answer == answers[0]), "all answer the same: {answers:?}");
        }
    }
    best
}

/// A line for each call, and one for reading.
fn print_table(file: &File, calls: &[(Call, &str)], best: &Best) {
    println!(
        "{:8} {:>23} {:>23} {:>23}   {:>9} {:>9} {:>9}",
        "", "proved library", "lean judge", "second program", "proved /", "proved /", "proved /"
    );
    println!("{:8} {} {} {}   {:>9} {:>9} {:>9}", "call", HEAD, HEAD, HEAD, "lean", "second", "reading");
    for (call, name) in calls {
        let [proved, lean, second] = WHO.map(|who| best.times[&(*call, who)]);
        print!("{name:8}");
        for time in [proved, lean, second] {
            print!(" {}", figures(file, time));
        }
        let ratio = |other: Duration| proved.as_secs_f64() / other.as_secs_f64();
        println!("   {:9.2} {:9.2} {:9.2}", ratio(lean), ratio(second), ratio(best.reading));
    }
    println!("reading {} (every byte once)", figures(file, best.reading));
    if best.times.values().any(|time| *time > TOO_LONG) {
        println!("A call that took over {} s was run once only.", TOO_LONG.as_secs());
    }
}

const HEAD: &str = "  ns/record        MB/s";

/// Nanoseconds a record, and megabytes a second.
fn figures(file: &File, time: Duration) -> String {
    format!("{:11.2} {:11.1}", per_record(file, time), file.megabytes() / time.as_secs_f64())
}

/// Nanoseconds a record.
fn per_record(file: &File, time: Duration) -> f64 {
    time.as_secs_f64() * 1e9 / file.records() as f64
}

// Flat cost.

/// A small file is judged again and again, until so many megabytes have gone by.
/// Otherwise small files would find quiet moments of the machine that large ones cannot find.
const MEGABYTES_A_ROUND: f64 = 64.0;

/// The mean time of the judge in one round.
fn mean_judge(who: Who, file: &File, buffers: &mut Buffers) -> Duration {
    let times = (MEGABYTES_A_ROUND / file.megabytes()).ceil() as u32;
    (0..times).map(|_| run(who, Call::Judge, file, buffers).0).sum::<Duration>() / times
}

/// The judge over files of rising size, by the proved library and the lean judge in turn.
fn flat_cost(options: &Options) {
    let sizes: &[usize] = if options.quick { &[1, 2, 4] } else { &[1, 4, 16, 64, 400] };
    let mut files: Vec<File> = sizes.iter().map(|size| plain(records_in(*size))).collect();
    files.extend(sizes.last().map(|size| scattered(records_in(*size))));
    let mut buffers: Vec<Buffers> = files.iter().map(accepted).collect();
    let mut best = vec![[Duration::MAX; 2]; files.len()];
    for _ in 0..options.rounds {
        for (index, file) in files.iter().enumerate() {
            for (best, who) in best[index].iter_mut().zip([Who::Proved, Who::Lean]) {
                *best = (*best).min(mean_judge(who, file, &mut buffers[index]));
            }
        }
    }
    println!("\nFlat cost: the judge on plain files of rising size, and, last, with numbers at random");
    println!("{:>8} {:>9}   {:>23}   {:>23}", "", "", "proved library", "lean judge");
    println!("{:>8} {:>9}   {FLAT_HEAD}   {FLAT_HEAD}", "MB", "records");
    for (file, times) in files.iter().zip(&best) {
        print!("{:8.1} {:9}", file.megabytes(), file.records());
        for (time, first) in times.iter().zip(&best[0]) {
            let (here, first) = (per_record(file, *time), per_record(&files[0], *first));
            print!("   {here:11.2} {:11.2}", here / first);
        }
        println!();
    }
}

const FLAT_HEAD: &str = "  ns/record to smallest";
