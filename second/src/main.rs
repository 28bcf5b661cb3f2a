//! The commands of the second program.

use second::calls;
use second::cases::{self, orders, pads, saves, sweeps};
use second::committed;
use second::demand3;
use second::file::{self, LONGEST_NODE_FILE, LONGEST_PROGRAM};
use second::replay;
use second::rules::Rules;
use second::stream::{self, Call, Case, Next};
use second::sweep_sentences;
use second::verdict::Verdict;
use std::io::{self, BufReader, BufWriter, Write};
use std::path::Path;
use std::process::ExitCode;

const USAGE: &str = "usage: second show DIR | putback DIR | sweep DIR | replay | cases SEED COUNT \
                     | sweeps SEED COUNT | saves SEED COUNT | pads SEED COUNT | orders SEED COUNT \
                     | committed | check";

fn main() -> ExitCode {
    let arguments: Vec<String> = std::env::args().skip(1).collect();
    let words: Vec<&str> = arguments.iter().map(String::as_str).collect();
    let done = match words.as_slice() {
        ["show", folder] => one_call(Call::Show, Path::new(folder)),
        ["putback", folder] => one_call(Call::PutBack, Path::new(folder)),
        ["sweep", folder] => one_call(Call::Sweep, Path::new(folder)),
        ["replay"] => replay_input(),
        ["cases", seed, count] => write_seeded(cases::case, seed, count),
        ["sweeps", seed, count] => write_seeded(sweeps::case, seed, count),
        ["saves", seed, count] => write_seeded(saves::case, seed, count),
        ["pads", seed, count] => write_seeded(pads::case, seed, count),
        ["orders", seed, count] => write_seeded(orders::case, seed, count),
        ["committed"] => write_stream(committed::cases().into_iter()),
        ["check"] => check_input(),
        _ => usage(),
    };
    done.unwrap_or(ExitCode::FAILURE)
}

fn usage() -> io::Result<ExitCode> {
    eprintln!("{USAGE}");
    Ok(ExitCode::from(2))
}

fn one_call(call: Call, folder: &Path) -> io::Result<ExitCode> {
    let printed = match read_folder(call, folder) {
        Ok(case) => calls::answer(&case, &Rules::document()).printed(),
        Err(_) => b"FF00000000\n".to_vec(),
    };
    io::stdout().write_all(&printed)?;
    Ok(ExitCode::SUCCESS)
}

fn read_folder(call: Call, folder: &Path) -> io::Result<Case> {
    let master = file::read(folder, "master.hex", LONGEST_NODE_FILE)?;
    let program = match call {
        Call::Show | Call::PutBack => file::read(folder, "program.hex", LONGEST_PROGRAM)?,
        Call::Sweep => Vec::new(),
    };
    let view = match call {
        Call::PutBack => file::read(folder, "view.hex", LONGEST_NODE_FILE)?,
        Call::Show | Call::Sweep => Vec::new(),
    };
    Ok(Case::with_least_rooms(call, master, program, view))
}

fn replay_input() -> io::Result<ExitCode> {
    let mut input = BufReader::new(io::stdin());
    let mut output = BufWriter::new(io::stdout());
    replay::replay(&mut input, &mut output, &Rules::document())?;
    output.flush()?;
    Ok(ExitCode::SUCCESS)
}

/// Made one by one, as there may be more of them than fit into memory.
fn write_seeded(case: fn(u64, usize) -> Case, seed: &str, count: &str) -> io::Result<ExitCode> {
    match (seed.parse(), count.parse()) {
        (Ok(seed), Ok(count)) => write_stream((0..count).map(|index| case(seed, index))),
        _ => usage(),
    }
}

fn write_stream(cases: impl Iterator<Item = Case>) -> io::Result<ExitCode> {
    let mut output = BufWriter::new(io::stdout());
    for case in cases {
        let mut bytes = Vec::new();
        case.write(&mut bytes);
        output.write_all(&bytes)?;
    }
    output.flush()?;
    Ok(ExitCode::SUCCESS)
}

type Check = fn(&Case, &Rules) -> Verdict;

const CHECKS: [(&str, Check); 2] =
    [("demand 3", demand3::check), ("request #103", sweep_sentences::check)];

fn check_input() -> io::Result<ExitCode> {
    let rules = Rules::document();
    let mut input = BufReader::new(io::stdin());
    let (mut cases, mut checked) = (0, [0; CHECKS.len()]);
    loop {
        match stream::read(&mut input) {
            Next::Case(case) => {
                for ((name, check), checked) in CHECKS.iter().zip(&mut checked) {
                    match check(&case, &rules) {
                        Verdict::DoesNotApply => {}
                        Verdict::Holds => *checked += 1,
                        Verdict::Violated => {
                            println!("case {cases} violates {name}");
                            return Ok(ExitCode::FAILURE);
                        }
                    }
                }
            }
            Next::End => break,
            Next::Broken => {
                println!("the stream is broken behind {cases} cases");
                return Ok(ExitCode::FAILURE);
            }
        }
        cases += 1;
    }
    let counts: Vec<String> =
        CHECKS.iter().zip(checked).map(|((name, _), count)| format!("{name} on {count}")).collect();
    println!("{cases} cases, checked: {} of them", counts.join(", "));
    Ok(ExitCode::SUCCESS)
}
