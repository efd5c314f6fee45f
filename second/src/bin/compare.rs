//! compare: the proved program against this one. Exit status 1 at the first disagreement.

use second::compare::{damages, every_code, every_field, every_letter, full_counts, full_totals, land_changes, large};
use second::compare::{numbers, odd_values, one_byte_changes, outside_sheet, positions, records_totals};
use second::compare::{unstructured_changes, walks_astray, Agreed, Compare, Disagreement, Reached};
use second::compare::{CALLS, LAND_BECAME, LINES_BECAME, NEVER, TOTALS_BECAME};
use second::numbers::{every_text, texts_in_files, Texts, TEXTS_BECAME, TEXTS_IN, WIDEST};
use second::piped::Pipe;
use second::product::{Product, Second};
use second::random::Random;
use std::io;
use std::path::{Path, PathBuf};
use std::process::{Command, ExitCode};
use std::thread::{available_parallelism, scope};
use std::time::Instant;

const HELP: &str = "compare [--quick] [--alone] [--through PROGRAM] [--sparing] [--parts DIGITS] [--damages N] [--seed N]
        [--sheets FOLDER] [--large] [--write PATH] [--before PATH]
--quick    about a minute; fewer files, and what is due at some records of a file alone
--sparing  about each file the need, the judge with just the room it needs, and of the further calls one of four
--parts    which parts to run (123456)
--alone    this program against itself, to try the parts
--through  the program that answers for the library over pipes, built from answer.c
--damages  how many damaged files (20000)
--seed     the first seed of the generated files (1)
--sheets   a folder of sheets from outside
--large    files of 6,399,936 records as well (474 megabytes each)
--write    where a file with a disagreement goes (disagreement.dat)
--before   where each file goes before it is compared, in case the linked program does not return";

const ALL: &str = "123456";

struct Options {
    quick: bool,
    alone: bool,
    through: Option<PathBuf>,
    sparing: bool,
    parts: String,
    damages: usize,
    seed: u64,
    sheets: Option<PathBuf>,
    large: bool,
    write: PathBuf,
    before: Option<PathBuf>,
}

fn options() -> Option<Options> {
    let mut options = Options {
        quick: false,
        alone: false,
        through: None,
        sparing: false,
        parts: ALL.into(),
        damages: 20_000,
        seed: 1,
        sheets: None,
        large: false,
        write: "disagreement.dat".into(),
        before: None,
    };
    let mut arguments = std::env::args().skip(1);
    while let Some(argument) = arguments.next() {
        match argument.as_str() {
            "--quick" => (options.quick, options.damages) = (true, 8000),
            "--alone" => options.alone = true,
            "--through" => options.through = Some(arguments.next()?.into()),
            "--sparing" => options.sparing = true,
            "--large" => options.large = true,
            "--parts" => options.parts = arguments.next()?,
            "--damages" => options.damages = arguments.next()?.parse().ok()?,
            "--seed" => options.seed = arguments.next()?.parse().ok()?,
            "--sheets" => options.sheets = Some(arguments.next()?.into()),
            "--before" => options.before = Some(arguments.next()?.into()),
            "--write" => options.write = arguments.next()?.into(),
            _ => return None,
        }
    }
    let both = options.through.is_some() && (options.alone || options.before.is_some());
    (!both).then_some(options)
}

fn main() -> ExitCode {
    let Some(options) = options() else {
        eprintln!("{HELP}");
        return ExitCode::from(2);
    };
    let linked = product(&options);
    let mut compares = match (&options.through, &linked) {
        (Some(program), _) => match side_by_side(program) {
            Ok(compares) => compares,
            Err(error) => {
                eprintln!("Nothing is compared: {} does not answer: {error}", program.display());
                return ExitCode::from(2);
            }
        },
        (None, Some(product)) => vec![Compare::new(product.as_ref())],
        (None, None) => {
            eprintln!("No other program is linked. Build with STRAGUMELLA_LIB, or try --through or --alone.");
            return ExitCode::from(2);
        }
    };
    compares[0].before = options.before.clone();
    for compare in &mut compares {
        compare.every_record = !options.quick;
    }
    if options.sparing {
        println!("Left out: three of four further calls about each file (other buffers, sums, what is due).");
        for (number, compare) in compares.iter_mut().enumerate() {
            compare.sparing = Some(Random::new(number as u64));
        }
    }
    let result = parts(&mut compares, &options).and_then(|()| each(&mut compares, |compare| compare.end()));
    let (reached, due, land, lines) = (reached(&compares), due(&compares), land(&compares), lines(&compares));
    let (totals, texts) = (totals(&compares), texts(&compares));
    print_reached(&reached);
    print_due(&due);
    print_land(&land);
    print_lines(&lines);
    print_totals(&totals);
    print_texts(&texts);
    let miscounted = texts.iter().find_map(Texts::miscounted);
    let missing = texts.iter().find_map(Texts::missing).filter(|_| options.parts == ALL);
    match result {
        Ok(()) if reached.iter().any(|call| call[NEVER] > 0) => {
            println!("{NEVER} was the answer, which it never is.");
            ExitCode::from(1)
        }
        Ok(()) if options.parts == ALL && !every_number(&reached) => {
            println!("A number was not reached.");
            ExitCode::from(1)
        }
        Ok(()) if options.parts == ALL && due.contains(&0) => {
            println!("A kind was never due.");
            ExitCode::from(1)
        }
        Ok(()) if options.parts == ALL && land.contains(&0) => {
            println!("Land spelled \" 0000\" was never accepted, refused, read or written back.");
            ExitCode::from(1)
        }
        Ok(()) if options.parts == ALL && lines.contains(&0) => {
            println!("An unstructured layer was never accepted, refused, read or written back in one of these ways.");
            ExitCode::from(1)
        }
        Ok(()) if options.parts == ALL && totals.contains(&0) => {
            println!("Records totals were never accepted or refused in one of these ways.");
            ExitCode::from(1)
        }
        Ok(()) => match miscounted.or(missing) {
            Some(word) => {
                println!("Number fields: {word}.");
                ExitCode::from(1)
            }
            None => {
                println!("No disagreement.");
                ExitCode::SUCCESS
            }
        },
        Err(disagreement) => {
            tell(&disagreement, &options);
            ExitCode::from(1)
        }
    }
}

/// One answering program for each processor.
fn side_by_side(program: &Path) -> io::Result<Vec<Compare<'static>>> {
    let shares = available_parallelism()?.get() as u64;
    (0..shares).map(|number| Ok(Compare::through(Pipe::start(&mut Command::new(program))?, number, shares))).collect()
}

/// Runs a part in all comparisons at the same time.
fn each(compares: &mut [Compare], part: impl Fn(&mut Compare) -> Agreed + Sync) -> Agreed {
    scope(|scope| {
        let part = &part;
        let threads: Vec<_> = compares.iter_mut().map(|compare| scope.spawn(move || part(compare))).collect();
        threads.into_iter().try_for_each(|thread| thread.join().expect("a comparison returns"))
    })
}

fn parts(compares: &mut [Compare], options: &Options) -> Agreed {
    let start = Instant::now();
    let told = |compares: &[Compare], part: &str| {
        let files: u64 = compares.iter().map(|compare| compare.files).sum();
        println!("{part}: {files} files so far, {} seconds", start.elapsed().as_secs());
    };
    let runs = |part| options.parts.contains(part);
    let few = |quick, slow| if options.quick { quick } else { slow };
    if runs('5') {
        each(compares, positions)?;
        told(compares, "positions");
    }
    if runs('1') {
        each(compares, one_byte_changes)?;
        each(compares, land_changes)?;
        each(compares, unstructured_changes)?;
        told(compares, "every one-byte change of sheet S, of codes in layer 5, and of what tells of areas under an H1");
        each(compares, records_totals)?;
        each(compares, full_totals)?;
        told(compares, "records totals");
    }
    if runs('2') {
        each(compares, |compare| every_field(compare, options.seed..options.seed + few(2, 40)))?;
        each(compares, every_code)?;
        each(compares, every_letter)?;
        told(compares, "every field, each interesting value, every mark, and letters");
        each(compares, |compare| every_text(compare, few(300_000, 2_000_000) as usize))?;
        each(compares, |compare| texts_in_files(compare, !options.quick))?;
        told(compares, "every text of a number field");
    }
    for path in sheet_paths(options).into_iter().filter(|_| runs('4')) {
        let sheet = std::fs::read(&path).expect("a sheet can be read");
        each(compares, |compare| outside_sheet(compare, &sheet, few(50, 1000) as usize))?;
        told(compares, &path.display().to_string());
    }
    if runs('3') {
        each(compares, |compare| odd_values(compare, options.seed, few(20_000, 200_000) as usize))?;
        each(compares, |compare| damages(compare, options.seed, options.damages))?;
        told(compares, "damages of generated sheets");
    }
    if runs('6') {
        each(compares, |compare| walks_astray(compare, options.seed, few(3000, 60_000) as usize))?;
        each(compares, |compare| full_counts(compare, few(10_001, 999_999) as i32))?;
        told(compares, "walks that go astray");
    }
    if options.large {
        each(compares, large)?;
        told(compares, "large files");
    }
    Ok(())
}

/// The files of the folder of sheets: those whose names end in ".dat".
fn sheet_paths(options: &Options) -> Vec<PathBuf> {
    let Some(folder) = &options.sheets else {
        return Vec::new();
    };
    let entries = std::fs::read_dir(folder).expect("the folder of sheets can be read");
    let mut paths: Vec<PathBuf> = entries.map(|entry| entry.expect("an entry of the folder").path()).collect();
    paths.retain(|path| path.extension().is_some_and(|end| end == "dat"));
    paths.sort();
    paths
}

/// How often each number was the answer of each call, in all comparisons.
fn reached(compares: &[Compare]) -> Reached {
    std::array::from_fn(|call| {
        std::array::from_fn(|number| compares.iter().map(|compare| compare.reached[call][number]).sum())
    })
}

/// How often nothing and each kind was told to be due, in all comparisons.
fn due(compares: &[Compare]) -> [u64; 8] {
    std::array::from_fn(|kind| compares.iter().map(|compare| compare.due[kind]).sum())
}

/// What became of land that is spelled " 0000", in all comparisons.
fn land(compares: &[Compare]) -> [u64; 5] {
    std::array::from_fn(|became| compares.iter().map(|compare| compare.land[became]).sum())
}

/// What became of unstructured layers, in all comparisons.
fn lines(compares: &[Compare]) -> [u64; 12] {
    std::array::from_fn(|became| compares.iter().map(|compare| compare.lines[became]).sum())
}

/// What became of records totals, in all comparisons.
fn totals(compares: &[Compare]) -> [u64; 15] {
    std::array::from_fn(|became| compares.iter().map(|compare| compare.totals[became]).sum())
}

/// What became of texts of number fields, in all comparisons.
fn texts(compares: &[Compare]) -> [Texts; 2] {
    std::array::from_fn(|within| Texts::sum(compares.iter().map(|compare| &compare.texts[within])))
}

fn print_reached(reached: &Reached) {
    print!("number");
    for call in CALLS {
        print!(" {call:>10}");
    }
    println!();
    for number in numbers() {
        print!("{number:6}");
        for call in reached {
            print!(" {:10}", call[number]);
        }
        println!();
    }
}

fn print_due(due: &[u64; 8]) {
    print_times("due", &["nothing", "M", "H", "N", "L", "coordinates", "A", "loop"], due);
}

fn print_land(land: &[u64; 5]) {
    print_times("land as \" 0000\"", &LAND_BECAME, land);
}

fn print_lines(lines: &[u64; 12]) {
    print_times("unstructured layers", &LINES_BECAME, lines);
}

fn print_totals(totals: &[u64; 15]) {
    print_times("records totals", &TOTALS_BECAME, totals);
}

fn print_texts(texts: &[Texts; 2]) {
    for (within, texts) in TEXTS_IN.iter().zip(texts) {
        let taken = |width: usize| format!("width {}: {} of {}", width + 1, texts.taken[width], texts.tried[width]);
        println!("texts taken of all in {within}: {}", (0..WIDEST).map(taken).collect::<Vec<_>>().join(", "));
        let times = texts.became.map(|became| became.iter().sum());
        print_times(&format!("number fields in {within}"), &TEXTS_BECAME.map(|(what, _)| what), &times);
    }
}

fn print_times(of: &str, names: &[&str], times: &[u64]) {
    let told: Vec<String> = names.iter().zip(times).map(|(name, times)| format!("{name} {times}")).collect();
    println!("{of}: {}", told.join(", "));
}

/// Acceptance and every refusal was the answer of some call.
fn every_number(reached: &Reached) -> bool {
    numbers().all(|number| reached.iter().any(|call| call[number] > 0))
}

fn tell(disagreement: &Disagreement, options: &Options) {
    println!("DISAGREEMENT: {}", disagreement.what);
    println!("second program: {}", disagreement.ours);
    println!("other program:  {}", disagreement.theirs);
    match std::fs::write(&options.write, &disagreement.bytes) {
        Ok(()) => println!("Its bytes are in {}", options.write.display()),
        Err(error) => println!("Its bytes could not be written: {error}"),
    }
}

#[cfg(not(product))]
fn product(options: &Options) -> Option<Box<dyn Product>> {
    options.alone.then(|| Box::new(Second) as Box<dyn Product>)
}

#[cfg(product)]
fn product(options: &Options) -> Option<Box<dyn Product>> {
    Some(if options.alone { Box::new(Second) } else { Box::new(second::proved::Proved) })
}
