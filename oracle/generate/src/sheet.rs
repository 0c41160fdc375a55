use crate::{
    job::{any_job, job, live_job, road_job, run_job, small_job, vans_job, walk_job, Sizes},
    live::live_sheet,
    refused::refuse,
    roads::road_sheet,
    vans::vans_sheet,
    walks::walk_sheet,
    Random,
};
use sheet::{encode, Call, Job, Sheet};

/// A sheet of any call, mostly of those with many cases.
pub fn any_sheet(random: &mut Random) -> Sheet {
    let call = match random.below(32) {
        0 => Call::Weigh,
        1 | 2 => Call::StartPlan,
        3..=10 => Call::TwoOpt,
        11..=15 => Call::Rebuild,
        16 => Call::Exhaustive,
        17 => Call::Pruned,
        18 | 19 => Call::Solve,
        20..=22 => Call::Arrive,
        23 | 24 => Call::Cancel,
        25 | 26 => Call::View,
        27..=29 => Call::MoveStop,
        _ => Call::Roadworks,
    };

    some_sheet(random, call)
}

/// A sheet of a call, one in ten of them refused.
pub fn some_sheet(random: &mut Random, call: Call) -> Sheet {
    let mut sheet = accepted_sheet(random, call);

    if random.once_in(10) {
        refuse(random, &mut sheet);
    }

    sheet
}

pub fn accepted_sheet(random: &mut Random, call: Call) -> Sheet {
    let mut job = match call {
        Call::Exhaustive | Call::Pruned => job(random, Sizes::SMALL),
        Call::Solve => run_job(random),
        Call::Arrive | Call::Cancel => live_job(random),
        Call::Rebuild => walk_job(random),
        Call::View | Call::MoveStop => vans_job(random),
        Call::Roadworks => road_job(random),
        _ => any_job(random),
    };

    // A sheet has its draws for the sake of its form, except that of a run.
    if call != Call::Solve {
        job.draws.truncate(2);
    }

    sheet(random, call, job)
}

pub fn small_sheet(random: &mut Random) -> Sheet {
    let call = random.choose(&Call::ALL);
    let job = small_job(random);

    sheet(random, call, job)
}

/// A sheet of a job, with a plan and given stops where the call has them.
pub fn sheet(random: &mut Random, call: Call, job: Job) -> Sheet {
    if call.has_live_stops() {
        return live_sheet(random, call, job);
    }

    if call.has_vans() {
        return vans_sheet(random, call, job);
    }

    if call.has_road() {
        return road_sheet(random, job);
    }

    if call == Call::Rebuild {
        return walk_sheet(random, job);
    }

    let plan = if call.has_plan() {
        plan(random, job.vehicles.len(), job.stops.len())
    } else {
        vec![]
    };
    let given = if call.has_given_stops() {
        given(random, call, &job)
    } else {
        vec![]
    };

    Sheet {
        call,
        given,
        plan,
        job,
    }
}

/// A plan with all, most, some or no stops placed, on all vehicles or on few.
pub fn plan(random: &mut Random, vehicle_count: usize, stop_count: usize) -> Vec<u32> {
    let mut routes = vec![vec![]; vehicle_count];
    let mut stops = (0..stop_count).collect::<Vec<_>>();
    let unplaced = random.choose(&[0, 0, 0, 1, 5, 10]);
    let used = match random.below(3) {
        0 => 1,
        1 => 2,
        _ => routes.len(),
    }
    .min(routes.len());

    random.shuffle(&mut stops);
    random.shuffle(&mut routes);

    if used > 0 {
        let first = random.below(routes.len());

        for stop in stops {
            if random.below(10) >= unplaced {
                let vehicle = (first + random.below(used)) % routes.len();

                routes[vehicle].push(stop);
            }
        }
    }

    encode(&routes, stop_count)
}

/// Stops of a call. Where there are too few, some that are refused.
pub fn given(random: &mut Random, call: Call, job: &Job) -> Vec<u32> {
    let count = if call == Call::TwoOpt {
        2
    } else {
        1 + random.below(2)
    };
    let mut stops = (0..job.stops.len().max(count) as u32).collect::<Vec<_>>();

    random.shuffle(&mut stops);
    stops.truncate(count);
    stops
}
