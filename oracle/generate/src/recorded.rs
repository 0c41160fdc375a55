//! The recorded sheets: a fixed list over all calls in which every kind of table, price, plan, pair and limit has its
//! share.

use crate::{
    job::{largest_job, sufficient, table, Sizes, Table, MAX_MISSED_PRICE},
    recorded_live::recorded_live,
    recorded_refusals::recorded_refusals,
    recorded_roads::recorded_roads,
    recorded_vans::recorded_vans,
    recorded_walks::recorded_walks,
    Random,
};
use sheet::{all_stops, encode, given_live, placed_stops, Call, Job, Routes, Sheet};
use std::collections::BTreeMap;

const SEED: u64 = 1;

/// Sheets of a call that are not refused. Those of views, of moves and of roadworks are all made one by one.
const ACCEPTED: [(Call, usize); 9] = [
    (Call::Weigh, 30),
    (Call::StartPlan, 40),
    (Call::TwoOpt, 120),
    (Call::Rebuild, 120),
    (Call::Exhaustive, 40),
    (Call::Pruned, 40),
    (Call::Solve, 120),
    (Call::Arrive, 60),
    (Call::Cancel, 40),
];

/// All recorded sheets that are in form, in the order in which they joined: those for the counts of rebuilds last.
pub fn recorded_sheets() -> Vec<Sheet> {
    let accepted = ACCEPTED.into_iter().flat_map(|(call, count)| {
        let mut turns = Turns::new(call);

        (0..count)
            .map(move |_| accepted_sheet(&mut turns, call))
            .collect::<Vec<_>>()
    });

    accepted
        .chain(recorded_refusals())
        .chain(recorded_live())
        .chain([first_average_sheet()])
        .chain(largest_sheets())
        .chain(recorded_vans())
        .chain(recorded_roads())
        .chain(recorded_walks())
        .collect()
}

/// Options in turn: of each list, every option comes up once, in a random order, before any comes up again.
struct Turns {
    random: Random,
    left: BTreeMap<&'static str, Vec<usize>>,
}

impl Turns {
    fn new(call: Call) -> Self {
        Self {
            random: Random::new(SEED, call.number()),
            left: BTreeMap::new(),
        }
    }

    fn take<T: Clone>(&mut self, name: &'static str, options: &[T]) -> T {
        let left = self.left.entry(name).or_default();

        if left.is_empty() {
            left.extend(0..options.len());
            self.random.shuffle(left);
        }

        options[left.pop().expect("an option")].clone()
    }
}

#[derive(Clone, Copy, Eq, PartialEq)]
enum Missed {
    Free,
    Cheap,
    OneRoute,
    BelowSufficient,
    Sufficient,
    Highest,
}

/// Where the two stops of a call are, the first of which is also the one stop of a rebuild.
#[derive(Clone, Copy, Eq, PartialEq)]
enum Pair {
    OneRoute,
    TwoRoutes,
    FirstUnplaced,
    SecondUnplaced,
    Unplaced,
}

fn accepted_sheet(turns: &mut Turns, call: Call) -> Sheet {
    let pair = match call {
        // Only a stop that is on no route can arrive.
        Call::Arrive => turns.take("pair", &[Pair::FirstUnplaced, Pair::Unplaced]),
        _ => turns.take(
            "pair",
            &[
                Pair::OneRoute,
                Pair::OneRoute,
                Pair::TwoRoutes,
                Pair::TwoRoutes,
                Pair::FirstUnplaced,
                Pair::SecondUnplaced,
                Pair::Unplaced,
            ],
        ),
    };
    let job = accepted_job(turns, call, pair);
    let (routes, stops) = routes(turns, &job, pair);
    let given = match call {
        Call::TwoOpt => stops,
        Call::Rebuild => stops[..turns.take("picks", &[1, 2, 2])].to_vec(),
        Call::Arrive | Call::Cancel => {
            let live = live_stops(turns, &routes, job.stops.len());
            let stop = stops[0];

            given_live(
                stop,
                if call == Call::Arrive {
                    live & !(1 << stop)
                } else {
                    live | 1 << stop
                },
            )
        }
        _ => vec![],
    };

    Sheet {
        call,
        given,
        plan: if call.has_plan() {
            encode(&routes, job.stops.len())
        } else {
            vec![]
        },
        job,
    }
}

/// All placed stops and none, some or all of the others.
fn live_stops(turns: &mut Turns, routes: &Routes, stop_count: usize) -> u64 {
    let others = match turns.take("live", &[0, 0, 1, 2]) {
        0 => 0,
        1 => turns.random.number(),
        _ => u64::MAX,
    };

    placed_stops(routes) | (others & all_stops(stop_count))
}

fn accepted_job(turns: &mut Turns, call: Call, pair: Pair) -> Job {
    let (vehicle_count, stop_count, location_count) = size(turns, call, pair);
    let kind = turns.take(
        "table",
        &[
            Table::Zero,
            Table::Constant(5),
            Table::Uniform(2),
            Table::Uniform(9),
            Table::Uniform(200_000),
            Table::Plane(30),
            Table::Plane(200_000),
            Table::Bent(200_000),
        ],
    );
    let random = &mut turns.random;
    let mut location = || random.below(location_count) as u32;
    let vehicles = (0..vehicle_count)
        .map(|_| [location(), location()])
        .collect();
    let stops = (0..stop_count).map(|_| location()).collect();
    let mut job = Job {
        vehicles,
        stops,
        distances: table(random, location_count, kind),
        linear: turns.take("w", &[0, 1, 1, 7, 1_000_000]),
        quadratic: turns.take("q", &[0, 0, 1, 16]),
        missed: 0,
        smoothing: turns.take("c", &[1, 2, 20, 1_000]),
        limit: turns.take("limit", &[1, 9, 10, 50]),
        draws: vec![],
    };

    job.missed = missed(turns, &job);
    job.draws = draws(turns, call);
    job
}

/// The numbers of vehicles, stops and locations.
fn size(turns: &mut Turns, call: Call, pair: Pair) -> (usize, usize, usize) {
    let (tiny, small, middle) = (Sizes::TINY, Sizes::SMALL, Sizes::new(5, 14, 15));
    let sizes = match call {
        Call::Exhaustive | Call::Pruned => turns.take("sizes", &[tiny, small, small]),
        _ => turns.take(
            "sizes",
            &[
                tiny,
                small,
                small,
                middle,
                middle,
                middle,
                Sizes::new(8, 30, 24),
            ],
        ),
    };
    // Some jobs have no vehicle, no stop or one.
    let is_edge =
        !call.has_given_stops() && turns.take("edge", &[true, false, false, false, false, false]);
    let random = &mut turns.random;
    let (vehicles, stops) = if is_edge {
        (0..=2, call.has_live_stops() as u64..=1)
    } else {
        let least = if sizes.stops > 6 { sizes.stops / 2 } else { 2 };

        (
            1 + (pair == Pair::TwoRoutes) as u64..=sizes.vehicles,
            least..=sizes.stops,
        )
    };

    (
        random.within(vehicles) as usize,
        random.within(stops) as usize,
        random.within(1..=sizes.locations) as usize,
    )
}

fn missed(turns: &mut Turns, job: &Job) -> u64 {
    let longest = job.distances.iter().flatten().copied().max().unwrap_or(0) as u64;

    match turns.take(
        "M",
        &[
            Missed::Free,
            Missed::Cheap,
            Missed::OneRoute,
            Missed::BelowSufficient,
            Missed::Sufficient,
            Missed::Highest,
        ],
    ) {
        Missed::Free => 0,
        Missed::Cheap => turns.random.within(1..=5),
        Missed::OneRoute => 1 + turns.random.within(0..=2 * longest * job.linear as u64),
        Missed::BelowSufficient => sufficient(job).saturating_sub(1),
        Missed::Sufficient => sufficient(job),
        Missed::Highest => MAX_MISSED_PRICE,
    }
    .min(MAX_MISSED_PRICE)
}

/// One draw, some or many. Only a run has more than the one that the form asks for.
fn draws(turns: &mut Turns, call: Call) -> Vec<u32> {
    let count = if call == Call::Solve {
        turns.take("draws", &[1, 1, 3, 7, 40, 40, 150])
    } else {
        1
    };
    let most = turns.take("draw", &[u32::MAX, 100]);

    (0..count).map(|_| turns.random.small(0..=most)).collect()
}

/// A plan, and two stops that are placed in it as asked where the job has as many.
fn routes(turns: &mut Turns, job: &Job, pair: Pair) -> (Routes, Vec<u32>) {
    let unplaced = turns.take("unplaced", &[0, 0, 0, 2, 6, 10]);
    let used = turns.take("used", &[1, 2, 16, 16]).min(job.vehicles.len());
    let random = &mut turns.random;
    let mut routes = vec![vec![]; job.vehicles.len()];
    let mut stops = (0..job.stops.len()).collect::<Vec<_>>();

    random.shuffle(&mut stops);

    let given = stops.iter().take(2).copied().collect::<Vec<_>>();
    let stops_given = given.iter().map(|&stop| stop as u32).collect();

    if used == 0 {
        return (routes, stops_given);
    }

    let first = random.below(routes.len());

    for &stop in stops.iter().skip(2) {
        if random.below(10) >= unplaced {
            let vehicle = (first + random.below(used)) % routes.len();

            routes[vehicle].push(stop);
        }
    }

    for (index, &stop) in given.iter().enumerate() {
        if is_placed(pair, index) {
            let step = (pair == Pair::TwoRoutes) as usize * index;
            let vehicle = (first + step) % routes.len();
            let position = random.below(routes[vehicle].len() + 1);

            routes[vehicle].insert(position, stop);
        }
    }

    (routes, stops_given)
}

fn is_placed(pair: Pair, index: usize) -> bool {
    match pair {
        Pair::OneRoute | Pair::TwoRoutes => true,
        Pair::FirstUnplaced => index != 0,
        Pair::SecondUnplaced => index != 1,
        Pair::Unplaced => false,
    }
}

/// A run of which the last of fourteen rounds settles just because the first average is not divided by c.
fn first_average_sheet() -> Sheet {
    Sheet {
        call: Call::Solve,
        given: vec![],
        plan: vec![],
        job: Job {
            vehicles: vec![[0, 0], [1, 0]],
            stops: vec![0, 1, 0, 0],
            distances: vec![vec![1, 2], vec![1, 1]],
            linear: 0,
            quadratic: 1,
            missed: 0,
            smoothing: 3,
            limit: 14,
            draws: vec![0, 0, 0, 0, 0, 1],
        },
    }
}

/// Sheets with every list at its limit, of few rounds.
fn largest_sheets() -> Vec<Sheet> {
    let random = &mut Random::new(SEED, 8);
    let mut job = largest_job(random);
    let mut stops = (0..job.stops.len()).collect::<Vec<_>>();

    job.limit = 10;
    random.shuffle(&mut stops);

    let run = Sheet {
        call: Call::Solve,
        given: vec![],
        plan: vec![],
        job: job.clone(),
    };

    job.draws.truncate(1);

    let routes = stops.chunks(4).map(<[_]>::to_vec).collect();
    let pair = Sheet {
        call: Call::TwoOpt,
        given: vec![stops[1] as u32, stops[62] as u32],
        plan: encode(&routes, stops.len()),
        job,
    };

    vec![run, pair]
}

#[cfg(test)]
mod tests {
    use super::*;
    use sheet::refusal;

    #[test]
    fn refuses_no_accepted_sheet() {
        for (call, count) in ACCEPTED {
            let mut turns = Turns::new(call);

            for _ in 0..count {
                assert_eq!(refusal(&accepted_sheet(&mut turns, call)), None);
            }
        }
    }

    #[test]
    fn has_every_refusal_of_a_sheet() {
        let numbers = recorded_sheets()
            .iter()
            .filter_map(refusal)
            .collect::<std::collections::BTreeSet<_>>();

        assert_eq!(
            numbers.into_iter().collect::<Vec<_>>(),
            [4, 6, 7, 8, 9, 10, 11, 12, 13, 15, 16, 17]
        );
    }
}
