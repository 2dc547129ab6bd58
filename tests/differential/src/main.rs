//! The differential test: the proved archive beside the independent implementation.
//!
//! `differential [SEED [COUNT]]` goes through the edges, and makes up calls until COUNT are compared;
//! `differential replay SCRIPT...` takes them from scripts. On the first difference the case is
//! printed and written to a script, and the exit status is 1.

mod compare;
mod damage;
mod draft;
mod edge;
mod family;
mod limits;
mod proved;
mod random;
mod round;
mod summary;
mod sweep;
mod value;

use compare::{Comparison, Difference};
use independent::case::Case;
use independent::packed::Reader;
use random::Random;
use round::Round;
use std::path::Path;
use std::process::ExitCode;
use std::{env, fs, io};

const DEFAULT_SEED: u64 = 1;
const DEFAULT_COUNT: usize = 200_000;
const FAILING: &str = "target/differential/failing.bin";

/// Where the calls come from.
enum Task {
    MakeUp { seed: u64, count: usize },
    Replay { cases: Vec<Case> },
}

fn main() -> ExitCode {
    let words: Vec<String> = env::args().skip(1).collect();
    let task = match Task::read(&words) {
        Ok(task) => task,
        Err(why) => {
            eprintln!("{why}");
            eprintln!("usage: differential [SEED [COUNT]] | differential replay SCRIPT...");
            return ExitCode::from(2);
        }
    };
    let mut comparison = Comparison::new(&mut Random::new(DEFAULT_SEED));
    let compared = task.run(&mut comparison);
    println!("{}", comparison.summary);
    let calls = comparison.summary.calls();
    match compared {
        Ok(()) => {
            println!("{calls} calls compared, all agree");
            ExitCode::SUCCESS
        }
        Err(difference) => {
            println!("after {calls} calls: {difference}");
            tell_where(save(&difference));
            ExitCode::FAILURE
        }
    }
}

impl Task {
    fn read(words: &[String]) -> Result<Task, String> {
        let number = |word: &String| word.parse().map_err(|_| format!("{word} is no number"));
        Ok(match words {
            [word, names @ ..] if word == "replay" => Task::Replay {
                cases: names
                    .iter()
                    .map(read_script)
                    .collect::<Result<Vec<_>, _>>()?
                    .concat(),
            },
            [] | [_] | [_, _] => Task::MakeUp {
                seed: words.first().map_or(Ok(DEFAULT_SEED), number)?,
                count: match words.get(1) {
                    Some(word) => number(word)? as usize,
                    None => DEFAULT_COUNT,
                },
            },
            _ => return Err("too many words".into()),
        })
    }

    fn run(&self, comparison: &mut Comparison) -> Result<(), Difference> {
        match self {
            Task::MakeUp { seed, count } => make_up(*seed, *count, comparison),
            Task::Replay { cases } => run_all(cases, comparison),
        }
    }
}

fn read_script(name: &String) -> Result<Vec<Case>, String> {
    let script = fs::read(name).map_err(|error| format!("{name}: {error}"))?;
    let mut reader = Reader::new(&script);
    let mut cases = Vec::new();
    while !reader.is_at_end() {
        cases.push(Case::read(&mut reader).ok_or_else(|| format!("{name}: not a script"))?);
    }
    Ok(cases)
}

fn run_all(cases: &[Case], comparison: &mut Comparison) -> Result<(), Difference> {
    let mut cases = cases.iter();
    cases.try_for_each(|case| comparison.run(case).map(drop))
}

fn make_up(seed: u64, count: usize, comparison: &mut Comparison) -> Result<(), Difference> {
    println!("seed {seed}");
    run_all(&sweep::cases(), comparison)?;
    let mut random = Random::new(seed);
    while comparison.summary.calls() < count {
        Round::new(&mut random, comparison).run()?;
    }
    Ok(())
}

/// Writes the calls that differ as a script.
fn save(difference: &Difference) -> io::Result<()> {
    let script = Path::new(FAILING);
    fs::create_dir_all(script.parent().expect("a folder"))?;
    fs::write(script, difference.write())
}

fn tell_where(saved: io::Result<()>) {
    match saved {
        Ok(()) => println!("written to {FAILING}"),
        Err(error) => println!("not written to {FAILING}: {error}"),
    }
}
