//! judge2 FILE: prints the answer and the counts. judge2 --sums FILE: prints the sums of each layer as well.

use second::judge::verdict;
use std::process::ExitCode;

fn main() -> ExitCode {
    let mut arguments: Vec<String> = std::env::args().skip(1).collect();
    let with_sums = arguments.first().is_some_and(|first| first == "--sums");
    if with_sums {
        arguments.remove(0);
    }
    let [path] = &arguments[..] else {
        eprintln!("judge2 [--sums] FILE");
        return ExitCode::from(2);
    };
    let file = match std::fs::read(path) {
        Ok(file) => file,
        Err(error) => {
            eprintln!("{path}: {error}");
            return ExitCode::from(2);
        }
    };
    let verdict = verdict(&file);
    let outcome = verdict.outcome(usize::MAX, usize::MAX);
    let (refusal, counts) = (outcome.refusal, outcome.counts);
    println!("number={} record={} column={}", refusal.number, refusal.record, refusal.column);
    println!(
        "meshes={} layers={} nodes={} lines={} areas={} records={} need={}",
        counts.meshes, counts.layers, counts.nodes, counts.lines, counts.areas, counts.records, verdict.need()
    );
    if with_sums {
        for (index, sums) in verdict.sums.iter().enumerate() {
            println!("layer={} areas={} outside={}", index + 1, sums.areas, sums.outside);
        }
    }
    ExitCode::SUCCESS
}
