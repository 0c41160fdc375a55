//! What days, pairs, roads and walks have in common. They are played step by step: the sheets of a step are made of the second
//! program's answers to the step before. All games go on side by side, so that a program is started once for a batch of sheets.
//! Besides comparing the two programs each game tests the answers by claims of its own.

use crate::{differ, report, Options};
use sheet::{decode, placed_stops, write_sheet, Job, Routes, Sheet};
use std::{
    collections::BTreeMap,
    error::Error,
    fs,
    io::{self, Write},
    str::{self, FromStr, SplitTerminator},
    time::Instant,
};

/// How wide a number is in a line of costs, sets or refusals, and in a line with a plan.
pub const NUMBER_WIDTH: usize = 20;
pub const PLAN_WIDTH: usize = 14;

/// How often each outcome came.
pub type Counts<T> = BTreeMap<T, u64>;

/// A game with so many sheets at each step.
pub trait Game<const SHEETS: usize> {
    type Answer;
    type Outcome: Ord;

    /// What a report calls the game, and how it begins to say where the sheets are.
    const NAME: &'static str;
    const SHEETS_ARE: &'static str;

    fn step_count(&self) -> usize;

    fn sheets(&self, step: usize) -> [Sheet; SHEETS];

    fn texts(&self, step: usize) -> [String; SHEETS] {
        self.sheets(step).map(|sheet| write_sheet(&sheet))
    }

    /// The answers that a program prints, one for each sheet, or none where they are out of form.
    fn answers(output: &[u8]) -> Option<Vec<Self::Answer>>;

    /// Goes on to what the answers leave, or answers the claim that they break.
    fn take(
        &mut self,
        step: usize,
        answers: [&Self::Answer; SHEETS],
    ) -> Result<Self::Outcome, String>;

    /// What was done up to a step, in lines of a report.
    fn history(&self, step: usize) -> String;
}

/// Plays games to their ends. The outcomes, or none where the programs differ or a claim is broken.
pub fn play_all<const SHEETS: usize, G: Game<SHEETS>>(
    options: &Options,
    games: &mut [G],
) -> Result<Option<Counts<G::Outcome>>, Box<dyn Error>> {
    let start = Instant::now();
    let longest = games.iter().map(G::step_count).max().unwrap_or(0);
    let mut outcomes = Counts::new();

    for step in 0..longest {
        let mut playing = games
            .iter_mut()
            .enumerate()
            .filter(|(_, game)| step < game.step_count())
            .collect::<Vec<_>>();

        for batch in playing.chunks_mut((options.batch as usize).div_ceil(SHEETS)) {
            if !play(options, step, batch, &mut outcomes)? {
                return Ok(None);
            }
        }

        eprint!(
            "\rstep {} of {longest} the same, {} s ",
            step + 1,
            start.elapsed().as_secs()
        );
        io::stderr().flush()?;
    }

    eprintln!();

    Ok(Some(outcomes))
}

/// One step of some games. Whether the programs agree and the claims hold.
fn play<const SHEETS: usize, G: Game<SHEETS>>(
    options: &Options,
    step: usize,
    batch: &mut [(usize, &mut G)],
    outcomes: &mut Counts<G::Outcome>,
) -> Result<bool, Box<dyn Error>> {
    let texts = batch.iter().flat_map(|(_, game)| game.texts(step));
    let input = texts.collect::<String>().into_bytes();
    let [one, other] = &options.programs;
    let (expected, given) = (one.run(&input)?, other.run(&input)?);

    if expected != given || !given.is_complete() {
        return show_difference(options, step, batch, &input);
    }

    let answers = G::answers(given.output())
        .filter(|answers| answers.len() == SHEETS * batch.len())
        .ok_or("the answers are not of the form")?;

    for ((index, game), answers) in batch.iter_mut().zip(answers.as_chunks().0) {
        match game.take(step, answers.each_ref()) {
            Ok(outcome) => *outcomes.entry(outcome).or_default() += 1,
            Err(claim) => {
                show(options, *index, *game, step, &claim)?;

                return Ok(false);
            }
        }
    }

    Ok(true)
}

/// Shows the first sheet on which the programs differ, or the whole input where they do on none alone.
fn show_difference<const SHEETS: usize, G: Game<SHEETS>>(
    options: &Options,
    step: usize,
    batch: &[(usize, &mut G)],
    input: &[u8],
) -> Result<bool, Box<dyn Error>> {
    for (index, game) in batch {
        for text in game.texts(step) {
            if differ(options, text.as_bytes())? {
                show(options, *index, *game, step, "the answers differ")?;

                return report(options, text.as_bytes());
            }
        }
    }

    println!("\nonly several inputs one after another differ");

    report(options, input)
}

/// Shows a game up to the step at which something is wrong: what was done, the sheets, and the answers of both programs.
fn show<const SHEETS: usize, G: Game<SHEETS>>(
    options: &Options,
    index: usize,
    game: &G,
    step: usize,
    claim: &str,
) -> Result<(), Box<dyn Error>> {
    let text = game.texts(step).concat();
    let path = "difference.txt";

    println!(
        "\n{} {} of seed {}, step {step}: {claim}",
        G::NAME,
        options.from + index as u64,
        options.seed
    );
    println!("{}", game.history(step));
    println!("{} in {path}:\n{text}", G::SHEETS_ARE);
    fs::write(path, &text)?;

    for program in &options.programs {
        println!("{program} prints:\n{}", program.run(text.as_bytes())?);
    }

    Ok(())
}

/// The lines that a program prints, or none where the last has no end.
pub fn lines(output: &[u8]) -> Option<SplitTerminator<'_, char>> {
    if !output.is_empty() && !output.ends_with(b"\n") {
        return None;
    }

    Some(str::from_utf8(output).ok()?.split_terminator('\n'))
}

/// The numbers of a line, each so many characters wide.
pub fn fields<T: FromStr>(line: &str, width: usize) -> Option<Vec<T>> {
    if !line.is_ascii() || !line.len().is_multiple_of(width) {
        return None;
    }

    (0..line.len())
        .step_by(width)
        .map(|start| line[start..start + width].trim_start().parse().ok())
        .collect()
}

/// The routes of a plan that a program has printed.
pub fn routes(job: &Job, plan: &[u32]) -> Result<Routes, String> {
    decode(plan, job.vehicles.len(), job.stops.len())
        .ok_or("it is no plan, or has a stop twice".into())
}

/// Routes with a stop taken out.
pub fn without(routes: &Routes, stop: usize) -> Routes {
    routes
        .iter()
        .map(|route| route.iter().copied().filter(|&other| other != stop))
        .map(Iterator::collect)
        .collect()
}

/// The cost of routes where only some stops are to be made.
pub fn weigh(job: &Job, routes: &Routes, stops: u64) -> u64 {
    let missed = stops & !placed_stops(routes);

    job.missed * missed.count_ones() as u64 + driving(job, routes)
}

/// The cost of the ways alone.
fn driving(job: &Job, routes: &Routes) -> u64 {
    let mut cost = 0;

    for (route, &[start, end]) in routes.iter().zip(&job.vehicles) {
        let mut places = vec![start];

        places.extend(route.iter().map(|&stop| job.stops[stop]));
        places.push(end);

        let length = places
            .windows(2)
            .map(|leg| job.distances[leg[0] as usize][leg[1] as usize] as u64)
            .sum::<u64>();

        cost += length * job.linear as u64 + length * length * job.quadratic as u64;
    }

    cost
}
