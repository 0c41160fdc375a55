//! Runs two programs on the same random inputs and compares what they print, byte for byte. It stops at the first
//! difference and looks for the smallest input that shows one.

mod days;
mod pairs;
mod program;
mod roads;
mod shrink;
mod steps;
mod walks;

use generate::Kind;
use program::Program;
use std::{
    env,
    error::Error,
    fs,
    io::{self, Write},
    process::ExitCode,
    time::{Duration, Instant},
};

const USAGE: &str = "\
usage: compare [--seed S] [--count N] [--batch B] [--seconds T] [--from I] [--input FILE] KIND PROGRAM PROGRAM
KIND: what `oracle gen` makes, or days: arrivals and cancellations one after another, each sheet made of the second
program's last answer; or pairs: two plans that are the same to a caller, and the caller's views and moves, likewise; or
roads: roadworks, each with its plan weighed before and after; or walks: rebuilds, each also with its picks exchanged.
PROGRAM: a command with its arguments, which reads an input and prints answers.
N inputs are made from the seed S, from number I on, and handed over B at a time (job files one at a time).
A program that runs longer than T seconds is stopped, which is a difference. With --input only that file is compared.";

/// Days and pairs have no texts of their own: a sheet depends on the answers before it. Nor have roads and walks, whose sheets
/// belong together.
enum Inputs {
    Texts(Kind),
    Days,
    Pairs,
    Roads,
    Walks,
}

struct Options {
    seed: u64,
    count: u64,
    batch: u64,
    from: u64,
    input: Option<String>,
    inputs: Inputs,
    programs: [Program; 2],
}

fn main() -> ExitCode {
    match options().and_then(|options| run(&options)) {
        Ok(true) => ExitCode::SUCCESS,
        Ok(false) => ExitCode::FAILURE,
        Err(error) => {
            eprintln!("{error}");
            ExitCode::from(2)
        }
    }
}

fn options() -> Result<Options, Box<dyn Error>> {
    let mut numbers = [1, 1_000, 20, 60, 0];
    let mut input = None;
    let mut words = vec![];
    let mut arguments = env::args().skip(1);

    while let Some(argument) = arguments.next() {
        let names = ["--seed", "--count", "--batch", "--seconds", "--from"];

        if let Some(index) = names.iter().position(|name| *name == argument) {
            numbers[index] = arguments.next().ok_or(USAGE)?.parse()?;
        } else if argument == "--input" {
            input = Some(arguments.next().ok_or(USAGE)?);
        } else {
            words.push(argument);
        }
    }

    let [seed, count, batch, seconds, from] = numbers;
    let [kind, one, other] = &words[..] else {
        return Err(USAGE.into());
    };
    let inputs = match kind.as_str() {
        "days" => Inputs::Days,
        "pairs" => Inputs::Pairs,
        "roads" => Inputs::Roads,
        "walks" => Inputs::Walks,
        kind => Inputs::Texts(kind.parse()?),
    };
    let program = |command: &str| Program::new(command, Duration::from_secs(seconds));

    Ok(Options {
        seed,
        count,
        batch: match inputs {
            Inputs::Texts(kind) if kind.is_whole_input() => 1,
            _ => batch.max(1),
        },
        from,
        input,
        inputs,
        programs: [program(one)?, program(other)?],
    })
}

/// Whether the programs agree.
fn run(options: &Options) -> Result<bool, Box<dyn Error>> {
    if let Some(path) = &options.input {
        let input = fs::read(path)?;

        return if differ(options, &input)? {
            report(options, &input)
        } else {
            println!("the same on {path}");
            Ok(true)
        };
    }

    match options.inputs {
        Inputs::Texts(kind) => compare_texts(options, kind),
        Inputs::Days => days::run(options),
        Inputs::Pairs => pairs::run(options),
        Inputs::Roads => roads::run(options),
        Inputs::Walks => walks::run(options),
    }
}

fn compare_texts(options: &Options, kind: Kind) -> Result<bool, Box<dyn Error>> {
    let start = Instant::now();
    let mut shown = start;

    for first in (0..options.count).step_by(options.batch as usize) {
        let indexes = first..(first + options.batch).min(options.count);
        let texts = indexes
            .clone()
            .map(|index| generate::text(options.seed, options.from + index, kind))
            .collect::<Vec<_>>();
        let input = texts.concat();

        if differ(options, &input)? {
            for (index, text) in indexes.zip(&texts) {
                if differ(options, text)? {
                    println!(
                        "\ninput {} of seed {} differs",
                        options.from + index,
                        options.seed
                    );
                    return report(options, text);
                }
            }

            println!("\nonly several inputs one after another differ");
            return report(options, &input);
        }

        if shown.elapsed() > Duration::from_secs(1) || indexes.end == options.count {
            shown = Instant::now();
            eprint!(
                "\r{} of {} the same, {} s ",
                indexes.end,
                options.count,
                start.elapsed().as_secs()
            );
            io::stderr().flush()?;
        }
    }

    eprintln!();
    println!(
        "{} inputs the same: {} and {}",
        options.count, options.programs[0], options.programs[1]
    );

    Ok(true)
}

fn differ(options: &Options, input: &[u8]) -> io::Result<bool> {
    let answers = [
        options.programs[0].run(input)?,
        options.programs[1].run(input)?,
    ];

    Ok(answers[0] != answers[1] || !answers[0].is_complete())
}

/// Shows the smallest input found on which the programs differ.
fn report(options: &Options, input: &[u8]) -> Result<bool, Box<dyn Error>> {
    let mut tried = 0;
    let is_job = matches!(options.inputs, Inputs::Texts(kind) if kind.is_job());
    let input = shrink::shrink(input, is_job, |input| {
        tried += 1;
        differ(options, input)
    })?;

    println!("smallest input of {tried} tried:");
    println!("{}", String::from_utf8_lossy(&input));

    for program in &options.programs {
        println!("{program} prints:\n{}", program.run(&input)?);
    }

    let path = "difference.txt";

    fs::write(path, &input)?;
    println!("the input is in {path}");

    Ok(false)
}
