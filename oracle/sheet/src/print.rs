use crate::{
    decode, encode, read_job, read_sheet, refusal, write::numbers, Call, Changed, Malformed,
    Planner, Rebuilt, Routes, Run, Sheet,
};
use std::io::{self, Write};

const MALFORMED: u64 = 14;

/// What the shuttle program prints for its whole input.
pub fn shuttle<P: Planner>(input: &[u8]) -> String {
    let Ok((job, [])) = read_job(input) else {
        return costs([MALFORMED]);
    };
    let sheet = Sheet {
        call: Call::Solve,
        given: vec![],
        plan: vec![],
        job,
    };

    if let Some(number) = refusal(&sheet) {
        return costs([number]);
    }

    let (run, routes) = P::solve(&sheet.job);
    let vehicle = |stop| routes.iter().position(|route| route.contains(&stop));

    (0..sheet.job.stops.len())
        .map(|stop| match vehicle(stop) {
            Some(vehicle) => format!("{stop:4}{vehicle:4}\n"),
            None => format!("{stop:4}{:>4}\n", '-'),
        })
        .chain([run_line(run)])
        .collect()
}

/// Prints the answers of call sheets one after another, up to the end of the input or the first that is no sheet.
pub fn answer_sheets<P: Planner>(input: &[u8], output: impl Write) -> io::Result<()> {
    answer_sheets_by(answer::<P>, input, output)
}

/// The same with other answers.
pub fn answer_sheets_by(
    answer: fn(&Sheet) -> String,
    mut input: &[u8],
    mut output: impl Write,
) -> io::Result<()> {
    while !input.is_empty() {
        match read_sheet(input) {
            Ok((sheet, rest)) => {
                output.write_all(answer(&sheet).as_bytes())?;
                input = rest;
            }
            Err(Malformed) => {
                output.write_all(costs([MALFORMED]).as_bytes())?;
                break;
            }
        }
    }

    output.flush()
}

fn answer<P: Planner>(sheet: &Sheet) -> String {
    if let Some(number) = refusal(sheet) {
        return costs([number]);
    }

    let job = &sheet.job;
    let given = sheet
        .given
        .iter()
        .map(|&stop| stop as usize)
        .collect::<Vec<_>>();
    let routes = decode(&sheet.plan, job.vehicles.len(), job.stops.len()).unwrap_or_default();
    let plan_line = |routes: &Routes| numbers(&encode(routes, job.stops.len()));
    let weighed = |routes: Routes| costs([P::weigh(job, &routes)]) + &plan_line(&routes);
    let changed =
        |changed: Changed| costs([changed.live, changed.cost]) + &plan_line(&changed.routes);

    match sheet.call {
        Call::Weigh => costs([P::weigh(job, &routes)]),
        Call::StartPlan => plan_line(&P::start_plan(job)),
        Call::TwoOpt => weighed(P::two_opt(job, &routes, [given[0], given[1]])),
        Call::Rebuild => {
            let Rebuilt {
                begun,
                completed,
                routes,
            } = P::rebuild(job, &routes, &given);

            costs([P::weigh(job, &routes), begun, completed]) + &plan_line(&routes)
        }
        Call::Exhaustive => weighed(P::exhaustive(job)),
        Call::Pruned => weighed(P::pruned(job)),
        Call::Solve => {
            let (run, routes) = P::solve(job);

            run_line(run) + &plan_line(&routes)
        }
        Call::Arrive => changed(P::arrive(job, &routes, sheet.live(), given[0])),
        Call::Cancel => changed(P::cancel(job, &routes, sheet.live(), given[0])),
        Call::View => {
            let seen = P::view(job, &routes, sheet.vans());

            costs([seen.unplaced]) + &plan_line(&seen.routes)
        }
        Call::MoveStop => {
            let moved = P::move_stop(job, &routes, sheet.vans(), given[1], given[2], given[3]);

            change_line(moved.change) + &plan_line(&moved.routes)
        }
        Call::Roadworks => costs([P::roadworks(job, &routes, sheet.road())]),
    }
}

pub fn run_line(run: Run) -> String {
    costs([
        run.start_cost,
        run.end_cost,
        run.rounds,
        run.improving_rounds,
        run.settled as u64,
    ])
}

/// A line of a signed number in 20 columns, the sign of a negative one before its digits.
pub fn change_line(change: i64) -> String {
    format!("{change:20}\n")
}

/// A line of numbers in 20 columns each.
pub fn costs(numbers: impl IntoIterator<Item = u64>) -> String {
    let mut line = numbers
        .into_iter()
        .map(|number| format!("{number:20}"))
        .collect::<String>();

    line.push('\n');
    line
}
