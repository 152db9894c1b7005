//! Measures Sporebasket beside quick-xml 0.42.0 and, where they are there, expat and libxml2. See `tools/speed`.

#![deny(unsafe_code)]

mod attributes;
mod check;
mod clock;
mod escape;
mod grid;
mod growth;
mod inputs;
mod large;
mod machine;
mod memory;
mod pieces;
mod plain;
mod runners;
mod table;
mod worst;

use runners::archive::{Archive, Linked};
use runners::shared::Shared;
use runners::slices::{Package, QuickXml};
use runners::Runner;
use std::path::{Path, PathBuf};
use std::process::ExitCode;
use std::{env, fs};

const USAGE: &str = "\
usage: speed [--quick | --rounds N] [--trim] [--beside NAME=PATH] [--also NAME=PATH].. | (--growth | --large) [--also NAME=PATH].. | --attributes | --escape | (--pieces | --plain) [--quick | --rounds N] | --plain --growth | --describe | --write FOLDER";

/// How many rounds there are: enough for the times to settle, and for a look.
const ROUNDS: usize = 1000;
const QUICK: usize = 200;

enum Wish {
    Table { trim: bool, rounds: usize, beside: Option<Build>, also: Vec<Build> },
    Growth { also: Vec<Build> },
    Large { also: Vec<Build> },
    Attributes,
    Escape,
    Pieces { rounds: Option<usize> },
    Plain { rounds: usize },
    PlainGrowth,
    Describe,
    Write(PathBuf),
}

/// Another build of the archive: its column's name, and the shared object.
struct Build {
    name: String,
    path: PathBuf,
}

fn build(argument: &str) -> Option<Build> {
    argument.split_once('=').map(|(name, path)| Build { name: name.into(), path: path.into() })
}

fn wish() -> Option<Wish> {
    let (mut trim, mut rounds, mut growth, mut large, mut pieces, mut plain, mut beside, mut also) =
        (false, None, false, false, false, false, None, Vec::new());
    let mut arguments = env::args().skip(1);
    while let Some(argument) = arguments.next() {
        match argument.as_str() {
            "--quick" => rounds = Some(QUICK),
            "--rounds" => rounds = Some(arguments.next()?.parse().ok().filter(|&rounds| rounds > 0)?),
            "--growth" => growth = true,
            "--large" => large = true,
            "--pieces" => pieces = true,
            "--plain" => plain = true,
            "--trim" => trim = true,
            "--beside" if beside.is_none() => beside = Some(build(&arguments.next()?)?),
            "--also" => also.push(build(&arguments.next()?)?),
            "--attributes" => return Some(Wish::Attributes),
            "--escape" => return Some(Wish::Escape),
            "--describe" => return Some(Wish::Describe),
            "--write" => return Some(Wish::Write(arguments.next()?.into())),
            _ => return None,
        }
    }
    if plain {
        let alone = !large && !pieces && !trim && beside.is_none() && also.is_empty() && !(growth && rounds.is_some());
        let wish = if growth { Wish::PlainGrowth } else { Wish::Plain { rounds: rounds.unwrap_or(ROUNDS) } };
        return alone.then_some(wish);
    }
    if pieces {
        return (!growth && !large && !trim && beside.is_none() && also.is_empty()).then_some(Wish::Pieces { rounds });
    }
    if growth || large {
        let wish = if growth { Wish::Growth { also } } else { Wish::Large { also } };
        return (growth != large && !trim && rounds.is_none() && beside.is_none()).then_some(wish);
    }
    Some(Wish::Table { trim, rounds: rounds.unwrap_or(ROUNDS), beside, also })
}

fn main() -> ExitCode {
    let Some(wish) = wish() else {
        eprintln!("{USAGE}");
        return ExitCode::from(2);
    };
    let done = match wish {
        Wish::Table { trim, rounds, beside, also } => table(trim, rounds, beside, also),
        Wish::Growth { also } => growth(also),
        Wish::Large { also } => large(also),
        Wish::Attributes => {
            machine::print();
            attributes::run()
        }
        Wish::Escape => {
            machine::print();
            escape::run()
        }
        Wish::Pieces { rounds } => {
            machine::print();
            pieces::run(rounds)
        }
        Wish::Plain { rounds } => {
            machine::print();
            plain::run(rounds)
        }
        Wish::PlainGrowth => {
            machine::print();
            plain::growing()
        }
        Wish::Describe => {
            inputs::describe();
            Ok(())
        }
        Wish::Write(folder) => write(&folder),
    };
    match done {
        Ok(()) => ExitCode::SUCCESS,
        Err(fault) => {
            eprintln!("speed: {fault}");
            ExitCode::FAILURE
        }
    }
}

/// The one that all others are held to, where it is not the crate; the crate, and our functions in each build.
fn builds(beside: Option<Build>, also: Vec<Build>) -> Result<Vec<Box<dyn Runner>>, String> {
    let mut runners: Vec<Box<dyn Runner>> = Vec::new();
    if let Some(build) = beside {
        runners.push(shared(build)?);
    }
    runners.push(Box::new(QuickXml));
    runners.push(Box::new(Archive::new("ours".into(), Linked)));
    for build in also {
        runners.push(shared(build)?);
    }
    Ok(runners)
}

fn shared(build: Build) -> Result<Box<dyn Runner>, String> {
    Ok(Box::new(Archive::new(build.name, Shared::open(&build.path)?)))
}

fn table(trim: bool, rounds: usize, beside: Option<Build>, also: Vec<Build>) -> Result<(), String> {
    let mut runners = builds(beside, also)?;
    runners.push(Box::new(Package));
    machine::print();
    if trim {
        return table::run(&table::trimmed(), &mut runners, rounds).map(|_| ());
    }
    #[cfg(feature = "expat")]
    runners.push(Box::new(runners::expat::Expat));
    #[cfg(feature = "libxml2")]
    runners.push(Box::new(runners::libxml2::LibXml2));
    table::run(&table::rows(), &mut runners, rounds).map(|_| ())
}

fn growth(also: Vec<Build>) -> Result<(), String> {
    let mut runners = builds(None, also)?;
    machine::print();
    growth::run(&mut runners, "ours")
}

fn large(also: Vec<Build>) -> Result<(), String> {
    let mut runners = builds(None, also)?;
    runners.push(Box::new(Package));
    machine::print();
    large::run(&mut runners)
}

/// Writes the inputs, each to a file of its name.
fn write(folder: &Path) -> Result<(), String> {
    fs::create_dir_all(folder).map_err(|error| format!("{}: {error}", folder.display()))?;
    inputs::TABLE.iter().chain(&inputs::WHITE).try_for_each(|input| {
        let path = folder.join(input.name).with_extension("xml");
        fs::write(&path, (input.make)(table::LENGTH)).map_err(|error| format!("{}: {error}", path.display()))
    })
}
