//! Compares Sporebasket with quick-xml 0.42.0, call by call, its reader with its plain engine, its column reader with an account over quick-xml's events, its reading of
//! attributes and of references as characters with quick-xml's own, its scans fed in pieces with quick-xml's parsers, and what one program is told by quick-xml and by the Rust package in
//! its place. See `tools/compare` and `tools/record`.

#![forbid(unsafe_code)]

mod attributes;
mod check;
mod columns;
mod contents;
mod escape;
mod faults;
mod inputs;
mod layout;
mod listed;
mod ours;
mod pieces;
mod plain;
mod record;
mod rows;
mod run;
mod settings;
mod shrink;
mod strays;
mod summary;
mod swap;
mod theirs;
mod trace;

use inputs::Amount;
use std::path::PathBuf;
use std::process::ExitCode;

const USAGE: &str =
    "usage: compare [--reader | --columns | --attributes | --escape | --pieces | --swap] [--quick | --faults | --first | --record FOLDER] \
                     [--seed N] [FILE..]";

/// What is compared.
#[derive(Clone, Copy, PartialEq, Eq)]
enum Part {
    All,
    Reader,
    Columns,
    Attributes,
    Escape,
    Pieces,
    Swap,
}

impl Part {
    /// Whether a part is wished for.
    fn has(self, part: Part) -> bool {
        self == Part::All || self == part
    }
}

struct Wish {
    amount: Amount,
    seed: u64,
    files: Vec<PathBuf>,
    /// One part alone.
    part: Part,
    tags: bool,
    faults: bool,
    /// The first difference of the program over both by the quick inputs.
    first: bool,
    record: Option<PathBuf>,
}

fn wish() -> Option<Wish> {
    let mut wish =
        Wish { amount: Amount::Full, seed: 1, files: Vec::new(), part: Part::All, tags: false, faults: false, first: false, record: None };
    let mut arguments = std::env::args_os().skip(1);
    while let Some(argument) = arguments.next() {
        match argument.to_str().unwrap_or_default() {
            "--quick" => wish.amount = Amount::Quick,
            "--seed" => wish.seed = arguments.next()?.to_str()?.parse().ok()?,
            "--reader" => wish.part = Part::Reader,
            "--columns" => wish.part = Part::Columns,
            "--attributes" => wish.part = Part::Attributes,
            "--escape" => wish.part = Part::Escape,
            "--pieces" => wish.part = Part::Pieces,
            "--swap" => wish.part = Part::Swap,
            "--tags" => wish.tags = true,
            "--faults" => wish.faults = true,
            "--first" => wish.first = true,
            "--record" => wish.record = Some(arguments.next()?.into()),
            flag if flag.starts_with('-') => return None,
            _ => wish.files.push(argument.into()),
        }
    }
    Some(wish)
}

fn main() -> ExitCode {
    let Some(wish) = wish() else {
        eprintln!("{USAGE}");
        return ExitCode::from(2);
    };
    if wish.tags {
        listed::TAGS.iter().chain(&attributes::TAGS).chain(&escape::TAGS).chain(&pieces::TAGS).for_each(|tag| println!("{tag}"));
        return ExitCode::SUCCESS;
    }
    if wish.faults {
        let readers = !wish.part.has(Part::Reader) || faults::run(wish.seed);
        let columns = !wish.part.has(Part::Columns) || columns::faults(wish.seed);
        let attributes = !wish.part.has(Part::Attributes) || attributes::faults(wish.seed);
        let escape = !wish.part.has(Part::Escape) || escape::faults(wish.seed);
        let pieces = !wish.part.has(Part::Pieces) || pieces::faults(wish.seed);
        return ExitCode::from(!(readers && columns && attributes && escape && pieces) as u8);
    }
    if wish.first {
        return ExitCode::from(swap::notice(wish.seed) as u8);
    }
    if let Some(folder) = wish.record {
        let record = match wish.part {
            Part::Attributes => attributes::record,
            Part::Escape => escape::record,
            _ => record::record,
        };
        return match record(&folder, wish.seed) {
            Ok(covered) => ExitCode::from(!covered as u8),
            Err(error) => {
                eprintln!("record: {}: {error}", folder.display());
                ExitCode::FAILURE
            }
        };
    }
    compare(wish)
}

/// The reader, the column reader, attributes, references, pieces and the program over both, or one of these alone.
fn compare(wish: Wish) -> ExitCode {
    if let Some(file) = wish.files.iter().find(|file| !file.is_file() || std::fs::File::open(file).is_err()) {
        eprintln!("compare: cannot read {}", file.display());
        return ExitCode::from(2);
    }
    if ours::default_settings() != theirs::default_settings() || !settings::alike() {
        println!("compare: the default settings differ, or what the functions make of settings");
        return ExitCode::FAILURE;
    }
    let alike = !wish.part.has(Part::Reader) || readers(&wish);
    let columns = !wish.part.has(Part::Columns) || columns::compare(wish.amount, wish.seed, wish.files.clone());
    let attributes = !wish.part.has(Part::Attributes) || attributes::compare(wish.amount, wish.seed, wish.files.clone());
    let escape = !wish.part.has(Part::Escape) || escape::compare(wish.amount, wish.seed, wish.files.clone());
    let pieces = !wish.part.has(Part::Pieces) || pieces::compare(wish.amount, wish.seed, wish.files.clone());
    let swap = !wish.part.has(Part::Swap) || swap::compare(wish.amount, wish.seed, wish.files);
    ExitCode::from(!(alike && columns && attributes && escape && pieces && swap) as u8)
}

/// Runs every input, or those of the files, call by call: true if nothing differs but what is listed and everything was seen that should be.
fn readers(wish: &Wish) -> bool {
    let of_files = !wish.files.is_empty();
    let families = if of_files { inputs::of_files(wish.files.clone()) } else { inputs::all(wish.amount, wish.seed) };
    let (tallies, found) = run::run(&families, || check::Bench::new(ours::Archive));
    let named: Vec<_> = families.iter().map(|f| f.name).zip(tallies).collect();
    let all = summary::print(&named);
    for (kept, difference) in &found {
        let mut bench = check::Bench::new(ours::Archive);
        if *difference == check::PANIC {
            println!("a side panicked:");
            shrink::show_case(kept);
            continue;
        }
        let (kept, difference) = shrink::shrink(&mut bench, kept, *difference);
        shrink::show(&mut bench.engine, &kept, difference);
    }
    let mut missing = if of_files { Vec::new() } else { all.missing(&summary::REFUSALS) };
    if !of_files {
        missing.extend(all.beside.missing(all.calls));
    }
    missing.iter().for_each(|what| println!("never seen: {what}"));
    println!("{}", all.laid.line());
    println!("{}", all.rows.line());
    println!("{}", all.beside.line());
    println!("compare: {} inputs, {} calls, {} unlisted differences", all.inputs, all.calls, all.differences);
    all.differences == 0 && all.inputs > 0 && missing.is_empty()
}
