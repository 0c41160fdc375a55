//! The oracle: what the shuttle program and the single calls must print, found by the solver's Rust.

mod record;

use oracle::Original;
use plain::Plain;
use sheet::{answer_sheets, shuttle};
use std::{
    env,
    error::Error,
    io::{self, BufWriter, Read, Write},
    process::ExitCode,
};

const USAGE: &str = "\
usage: oracle shuttle | calls | plain-shuttle | plain-calls < INPUT
       oracle gen SEED COUNT KIND
       oracle record DIRECTORY";

fn main() -> ExitCode {
    match run(&env::args().skip(1).collect::<Vec<_>>()) {
        Ok(()) => ExitCode::SUCCESS,
        Err(error) => {
            eprintln!("{error}");
            ExitCode::FAILURE
        }
    }
}

fn run(arguments: &[String]) -> Result<(), Box<dyn Error>> {
    let mut output = BufWriter::new(io::stdout().lock());

    match arguments
        .iter()
        .map(String::as_str)
        .collect::<Vec<_>>()
        .as_slice()
    {
        ["shuttle"] => output.write_all(shuttle::<Original>(&input()?).as_bytes())?,
        ["calls"] => answer_sheets::<Original>(&input()?, &mut output)?,
        ["plain-shuttle"] => output.write_all(shuttle::<Plain>(&input()?).as_bytes())?,
        ["plain-calls"] => answer_sheets::<Plain>(&input()?, &mut output)?,
        ["gen", seed, count, kind] => {
            for text in generate::texts(seed.parse()?, count.parse()?, kind.parse()?) {
                output.write_all(&text)?
            }
        }
        ["record", directory] => {
            output.write_all(record::record::<Original>(directory.as_ref())?.as_bytes())?
        }
        _ => return Err(USAGE.into()),
    }

    Ok(output.flush()?)
}

fn input() -> io::Result<Vec<u8>> {
    let mut input = vec![];

    io::stdin().lock().read_to_end(&mut input)?;

    Ok(input)
}
