use super::arguments::Arguments;
use plain::Plain;
use sheet::{decode, encode, Call, Changed, Moved, Planner, Rebuilt, Routes, Seen, Sheet};

/// What a call must do: the number of its refusal, with all that it was lent as it was, or what it must leave.
#[derive(Debug)]
pub enum Outcome {
    Refused(u32),
    Accepted(Left),
}

/// The plan and the results that a call leaves. What is none is to be as it was.
#[derive(Debug, Default)]
pub struct Left {
    pub plan: Option<Vec<u32>>,
    /// What a caller sees of the plan.
    pub seen: Option<Vec<u32>>,
    /// A cost, or start and end cost, as the bits of f64.
    pub costs: [Option<u64>; 2],
    pub counts: [Option<u32>; 3],
    /// Fillings begun, arrangements completed.
    pub walk: [Option<u64>; 2],
    /// The live stops, or those on no route.
    pub set: Option<u64>,
    pub change: Option<i64>,
    pub rise: Option<u64>,
}

impl Outcome {
    /// The table of refusals, and the plain rewrite.
    pub fn new(arguments: &Arguments) -> Self {
        match arguments.tested() {
            Ok(sheet) => Self::Accepted(left(&sheet)),
            Err(number) => Self::Refused(number),
        }
    }

    /// The number that the call must return.
    pub fn number(&self) -> u32 {
        match self {
            Self::Refused(number) => *number,
            Self::Accepted(_) => 0,
        }
    }
}

fn left(sheet: &Sheet) -> Left {
    let job = &sheet.job;
    let given = sheet.given.iter().map(|&stop| stop as usize);
    let given = given.collect::<Vec<_>>();
    let routes = || decode(&sheet.plan, job.vehicles.len(), job.stops.len()).expect("a plan");
    let weighed = |routes: Routes| Left {
        plan: plan(sheet, &routes),
        costs: alone(Plain::weigh(job, &routes)),
        ..Left::default()
    };

    match sheet.call {
        Call::Weigh => Left {
            costs: alone(Plain::weigh(job, &routes())),
            ..Left::default()
        },
        Call::StartPlan => Left {
            plan: plan(sheet, &Plain::start_plan(job)),
            ..Left::default()
        },
        Call::TwoOpt => weighed(Plain::two_opt(job, &routes(), [given[0], given[1]])),
        Call::Rebuild => rebuilt(sheet, Plain::rebuild(job, &routes(), &given)),
        Call::Exhaustive => weighed(Plain::exhaustive(job)),
        Call::Pruned => weighed(Plain::pruned(job)),
        Call::Solve => {
            let (run, routes) = Plain::solve(job);

            Left {
                plan: plan(sheet, &routes),
                costs: [run.start_cost, run.end_cost].map(|cost| Some(bits(cost))),
                counts: [run.rounds, run.improving_rounds, run.settled as u64]
                    .map(|count| Some(count as u32)),
                ..Left::default()
            }
        }
        Call::Arrive => changed(sheet, Plain::arrive(job, &routes(), sheet.live(), given[0])),
        Call::Cancel => changed(sheet, Plain::cancel(job, &routes(), sheet.live(), given[0])),
        Call::View => seen(sheet, Plain::view(job, &routes(), sheet.vans())),
        Call::MoveStop => {
            let [_, stop, van, place] = given[..] else {
                unreachable!("a move's numbers")
            };

            moved(
                sheet,
                Plain::move_stop(job, &routes(), sheet.vans(), stop, van, place),
            )
        }
        Call::Roadworks => Left {
            rise: Some(rise(sheet, &routes())),
            ..Left::default()
        },
    }
}

/// What a rebuild leaves.
fn rebuilt(sheet: &Sheet, rebuilt: Rebuilt) -> Left {
    Left {
        plan: plan(sheet, &rebuilt.routes),
        costs: alone(Plain::weigh(&sheet.job, &rebuilt.routes)),
        walk: [rebuilt.begun, rebuilt.completed].map(Some),
        ..Left::default()
    }
}

/// What an arrival or a cancellation leaves.
fn changed(sheet: &Sheet, changed: Changed) -> Left {
    Left {
        plan: plan(sheet, &changed.routes),
        costs: alone(changed.cost),
        set: Some(changed.live),
        ..Left::default()
    }
}

/// What a view leaves.
fn seen(sheet: &Sheet, seen: Seen) -> Left {
    Left {
        seen: plan(sheet, &seen.routes),
        set: Some(seen.unplaced),
        ..Left::default()
    }
}

/// What a move leaves.
fn moved(sheet: &Sheet, moved: Moved) -> Left {
    Left {
        plan: plan(sheet, &moved.routes),
        change: Some(moved.change),
        ..Left::default()
    }
}

/// The most by which roadworks can make routes dearer. The true rise, by the cost on both tables, is never above that.
fn rise(sheet: &Sheet, routes: &Routes) -> u64 {
    let (job, road) = (&sheet.job, sheet.road());
    let rise = Plain::roadworks(job, routes, road);

    assert!(Plain::weigh(&job.lengthened(road), routes) - Plain::weigh(job, routes) <= rise);
    rise
}

/// Routes as they cross.
fn plan(sheet: &Sheet, routes: &Routes) -> Option<Vec<u32>> {
    Some(encode(routes, sheet.job.stops.len()))
}

/// A cost, of a call that answers one.
fn alone(cost: u64) -> [Option<u64>; 2] {
    [Some(bits(cost)), None]
}

/// A cost as it crosses: exact in f64.
fn bits(cost: u64) -> u64 {
    assert!(cost < 1 << 53);

    (cost as f64).to_bits()
}
