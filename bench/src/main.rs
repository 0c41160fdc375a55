//! Measures the proved planner, the solver's Rust and the plain rewrite on the same jobs in one process, compares them, and prints
//! tables.

mod arrivals;
mod calls;
mod clock;
mod fire;
mod proved;
mod rebuilds;
mod roads;
mod stack;
mod times;
mod vans;

use sheet::{answer_sheets_by, encode, Job, Planner, Routes, Run};
use std::{
    env,
    error::Error,
    io::{self, Read},
    process::ExitCode,
};

const USAGE: &str = "\
usage: bench times                     tables of times
       bench stack                     a table of the least stacks
       bench calls < SHEETS            the answers of call sheets by the static library
       bench fire COUNT SEED [FIRST]   calls of the static library with random arguments of every kind, from number FIRST
                                       (0) on, each compared with the table of refusals and the plain rewrite
       bench run SIDE V N L LIMIT      one run, to be looked at by other tools
       bench arrivals COUNT V N L      so many cancellations and arrivals of a stop, and as many weighings, likewise
       bench call CALL KIBIBYTES       one call on a stack of that size
SIDE: proved, oracle or plain";

/// One of the three programs that are measured.
#[derive(Clone, Copy)]
pub struct Side {
    pub name: &'static str,
    pub solve: fn(&Job) -> (Run, Vec<u32>),
}

pub const SIDES: [Side; 3] = [
    Side {
        name: "proved",
        solve: solve_proved,
    },
    Side {
        name: "oracle",
        solve: |job| planned(job, oracle::Original::solve),
    },
    Side {
        name: "plain",
        solve: |job| planned(job, plain::Plain::solve),
    },
];

fn solve_proved(job: &Job) -> (Run, Vec<u32>) {
    let mut plan = proved::unused(job);
    let run = proved::solve(job, &mut plan).expect("an accepted job");

    (run, plan)
}

/// A run of one of the others, with its plan in the same form.
fn planned(job: &Job, solve: fn(&Job) -> (Run, Routes)) -> (Run, Vec<u32>) {
    let (run, routes) = solve(job);

    (run, encode(&routes, job.stops.len()))
}

/// A job of these numbers of vehicles, stops and locations that does not settle within some thousand rounds.
pub fn job([vehicles, stops, locations]: [u64; 3], index: u64, limit: u32) -> Job {
    let random = &mut generate::Random::new(1, index);
    let sizes = generate::Sizes::new(vehicles, stops, locations);

    Job {
        limit,
        quadratic: 16 * (index % 2) as u32,
        ..generate::long_job(random, sizes)
    }
}

fn main() -> ExitCode {
    let arguments = env::args().skip(1).collect::<Vec<_>>();

    match run(&arguments) {
        Ok(text) => {
            print!("{text}");
            ExitCode::SUCCESS
        }
        Err(text) => {
            eprintln!("{text}");
            ExitCode::FAILURE
        }
    }
}

/// What a command prints, or what is wrong.
fn run(arguments: &[String]) -> Result<String, String> {
    let words = arguments.iter().map(String::as_str).collect::<Vec<_>>();

    match words[..] {
        ["times"] => Ok(times::tables()),
        ["stack"] => Ok(stack::table()),
        ["calls"] => answer_sheets().map_err(|error| error.to_string()),
        ["fire", count, seed] => fire::fire(number(count)?, number(seed)?, 0),
        ["fire", count, seed, first] => fire::fire(number(count)?, number(seed)?, number(first)?),
        ["call", call, size] => {
            stack::call(call, number(size)? as usize);
            Ok(String::new())
        }
        ["arrivals", count, vehicles, stops, locations] => {
            let sizes = [number(vehicles)?, number(stops)?, number(locations)?];

            Ok(arrivals::repeat(number(count)?, &job(sizes, 0, 1)))
        }
        ["run", side, vehicles, stops, locations, limit] => {
            let sizes = [number(vehicles)?, number(stops)?, number(locations)?];
            let side = SIDES.iter().find(|other| other.name == side);
            let side = side.ok_or(USAGE)?;
            let (run, _) = (side.solve)(&job(sizes, 0, number(limit)? as u32));

            Ok(format!("{run:?}\n"))
        }
        _ => Err(USAGE.to_string()),
    }
}

fn number(word: &str) -> Result<u64, String> {
    word.parse().map_err(|_| USAGE.to_string())
}

fn answer_sheets() -> Result<String, Box<dyn Error>> {
    let (mut input, mut output) = (vec![], vec![]);

    io::stdin().lock().read_to_end(&mut input)?;
    answer_sheets_by(calls::answer, &input, &mut output)?;

    Ok(String::from_utf8(output)?)
}
