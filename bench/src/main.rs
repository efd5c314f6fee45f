//! bench: the proved library, the lean judge, the second program and reading every byte once, on the same bytes.

#[cfg(product)]
mod measure;

use std::process::ExitCode;

const HELP: &str = "bench [--quick] [--rounds N] [--only need|judge|sums|all|reader]
--quick   small files and two rounds
--rounds  how often everything is run; the best run counts (5)
--only    one of the five calls";

/// The calls that are measured.
#[derive(Clone, Copy, PartialEq, Eq, PartialOrd, Ord)]
pub enum Call {
    Need,
    Judge,
    Sums,
    All,
    Reader,
}

pub const CALLS: [(Call, &str); 5] = [
    (Call::Need, "need"),
    (Call::Judge, "judge"),
    (Call::Sums, "sums"),
    (Call::All, "all"),
    (Call::Reader, "reader"),
];

pub struct Options {
    pub quick: bool,
    pub rounds: usize,
    pub only: Option<Call>,
}

fn options() -> Option<Options> {
    let (mut quick, mut rounds, mut only) = (false, None, None);
    let mut arguments = std::env::args().skip(1);
    while let Some(argument) = arguments.next() {
        match argument.as_str() {
            "--quick" => quick = true,
            "--rounds" => rounds = Some(arguments.next()?.parse().ok().filter(|rounds| *rounds > 0)?),
            "--only" => {
                let name = arguments.next()?;
                only = Some(CALLS.iter().find(|(_, call)| *call == name)?.0);
            }
            _ => return None,
        }
    }
    Some(Options { quick, rounds: rounds.unwrap_or(if quick { 2 } else { 5 }), only })
}

fn main() -> ExitCode {
    let Some(options) = options() else {
        eprintln!("{HELP}");
        return ExitCode::from(2);
    };
    run(&options)
}

#[cfg(product)]
fn run(options: &Options) -> ExitCode {
    measure::all(options);
    ExitCode::SUCCESS
}

#[cfg(not(product))]
fn run(options: &Options) -> ExitCode {
    let _ = (options.quick, options.rounds, options.only);
    eprintln!("The proved library is not linked. Build with STRAGUMELLA_LIB, or run bench/run.sh.");
    ExitCode::from(2)
}
