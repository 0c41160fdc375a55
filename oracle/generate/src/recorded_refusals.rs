//! The recorded sheets with arguments to refuse, except those of views, of moves and of roadworks, which stand with the others of
//! these calls.

use sheet::{given_live, refusal, Call, Job, Sheet, UNUSED};

type Change = fn(&mut Sheet);

const CALLS: [Call; 9] = [
    Call::Weigh,
    Call::StartPlan,
    Call::TwoOpt,
    Call::Rebuild,
    Call::Exhaustive,
    Call::Pruned,
    Call::Solve,
    Call::Arrive,
    Call::Cancel,
];

/// Changes of the example by the number of their refusal. Numbers 1, 2, 3 and 5 speak of lists that no sheet holds.
const CHANGES: [(u64, &[Change]); 11] = [
    (
        4,
        &[
            |sheet| resize_plan(sheet, 6),
            |sheet| resize_plan(sheet, 4),
            |sheet| resize_plan(sheet, 0),
            |sheet| resize_plan(sheet, 96),
        ],
    ),
    (
        6,
        &[
            |sheet| sheet.job.vehicles[1][0] = 4,
            |sheet| sheet.job.vehicles[0][1] = u32::MAX,
            |sheet| sheet.job.stops[2] = 4,
            |sheet| sheet.job.stops[0] = u32::MAX,
            |sheet| sheet.job.distances.clear(),
        ],
    ),
    (
        7,
        &[
            |sheet| sheet.job.distances[3][3] = 200_001,
            |sheet| sheet.job.distances[0][0] = u32::MAX,
        ],
    ),
    (
        8,
        &[
            |sheet| sheet.job.linear = 1_000_001,
            |sheet| sheet.job.linear = u32::MAX,
            |sheet| sheet.job.quadratic = 17,
            |sheet| sheet.job.quadratic = u32::MAX,
            |sheet| sheet.job.missed = 10_000_000_000_001,
            |sheet| sheet.job.missed = 99_999_999_999_999,
        ],
    ),
    (
        9,
        &[
            |sheet| sheet.job.smoothing = 0,
            |sheet| sheet.job.smoothing = 1_001,
            |sheet| sheet.job.smoothing = u32::MAX,
        ],
    ),
    (
        10,
        &[
            |sheet| sheet.job.limit = 0,
            |sheet| sheet.job.limit = 1_000_001,
            |sheet| sheet.job.limit = u32::MAX,
        ],
    ),
    (
        11,
        &[
            |sheet| set_plan(sheet, [3, 1, 2, 0, 1]),
            |sheet| set_plan(sheet, [u32::MAX, 2, 2, UNUSED, UNUSED]),
            |sheet| set_plan(sheet, [1, 1, 2, 2, UNUSED]),
            |sheet| set_plan(sheet, [1, 1, 2, 3, UNUSED]),
            |sheet| set_plan(sheet, [1, 1, UNUSED, 0, UNUSED]),
            |sheet| set_plan(sheet, [1, 1, 2, 0, 1]),
            |sheet| set_live(sheet, 0b001),
            |sheet| set_live(sheet, 0b110),
            |sheet| set_live(sheet, 0),
            |sheet| set_live(sheet, 0b1101),
            |sheet| set_live(sheet, 0b101 | 1 << 31),
            |sheet| set_live(sheet, 0b101 | 1 << 32),
            |sheet| set_live(sheet, 0b101 | 1 << 63),
            |sheet| set_live(sheet, u64::MAX),
        ],
    ),
    (
        12,
        &[
            |sheet| set_given(sheet, &[0, 0]),
            |sheet| set_given(sheet, &[0, 3]),
            |sheet| set_given(sheet, &[u32::MAX, 1]),
            |sheet| set_picks(sheet, &[]),
            |sheet| set_picks(sheet, &[3]),
            |sheet| set_picks(sheet, &[0, 1, 2]),
            |sheet| set_picks(sheet, &[0, 1, 2, 0, 1, 2, 0, 1]),
            |sheet| set_stop(sheet, 3),
            |sheet| set_stop(sheet, 32),
            |sheet| set_stop(sheet, 64),
            |sheet| set_stop(sheet, 65),
            |sheet| set_stop(sheet, 256),
            |sheet| set_stop(sheet, u32::MAX),
        ],
    ),
    (
        16,
        &[
            |sheet| set_stop(sheet, 0),
            |sheet| set_stop(sheet, 2),
            |sheet| set_live(sheet, 0b111),
        ],
    ),
    (
        17,
        &[
            |sheet| set_stop(sheet, 1),
            |sheet| {
                if sheet.call.has_live_stops() {
                    set_plan(sheet, [1, 0, 2, UNUSED, UNUSED]);
                    set_live(sheet, 0b110);
                }
            },
        ],
    ),
    (
        13,
        &[
            |sheet| sheet.job.stops.resize(7, 1),
            |sheet| sheet.job.vehicles.resize(4, [0, 1]),
            |sheet| sheet.job.stops.resize(64, 3),
            |sheet| sheet.job.vehicles.resize(16, [2, 2]),
        ],
    ),
];

/// Numbers at their limits, which pass.
const LIMITS: [Change; 4] = [
    |sheet| sheet.job.distances[1][2] = 200_000,
    |sheet| {
        sheet.job.linear = 1_000_000;
        sheet.job.quadratic = 16;
        sheet.job.missed = 10_000_000_000_000;
    },
    |sheet| sheet.job.smoothing = 1_000,
    |sheet| sheet.job.limit = 1_000_000,
];

/// Live stops that lack one of the plan, and that name one which the job has not.
const LIVE: [Change; 2] = [
    |sheet| set_live(sheet, 0b001),
    |sheet| set_live(sheet, 0b1101),
];

/// For each of these calls the example, each change of it (refused or, where the call does not ask for the argument, not), every
/// two changes with refusals of their own, the lower of which is the answer, and numbers at their limits.
pub fn recorded_refusals() -> Vec<Sheet> {
    CALLS.into_iter().flat_map(sheets).collect()
}

fn sheets(call: Call) -> Vec<Sheet> {
    let single = CHANGES
        .iter()
        .flat_map(|(_, changes)| changes.iter())
        .chain(&LIMITS)
        .map(|&change| changed(call, &[change]))
        .filter(|sheet| *sheet != example(call));

    [example(call)]
        .into_iter()
        .chain(single)
        .chain(pairs(call))
        .collect()
}

/// The first changes of two numbers, where the call refuses either.
fn pairs(call: Call) -> Vec<Sheet> {
    let refused = CHANGES
        .iter()
        .filter_map(|(number, changes)| {
            changes
                .iter()
                .copied()
                .find(|&change| refusal(&changed(call, &[change])) == Some(*number))
        })
        .collect::<Vec<_>>();
    let pairs = (0..refused.len())
        .flat_map(|index| refused[..index].iter().map(move |&one| (one, index)))
        .map(|(one, index)| changed(call, &[refused[index], one]));
    // Live stops are refused as the plan is, also with any other argument.
    let live_pairs = LIVE
        .into_iter()
        .filter(|_| call.has_live_stops())
        .flat_map(|live| {
            refused
                .iter()
                .map(move |&other| changed(call, &[other, live]))
        });

    pairs.chain(live_pairs).collect()
}

fn changed(call: Call, changes: &[Change]) -> Sheet {
    let mut sheet = example(call);

    for change in changes {
        change(&mut sheet);
    }

    sheet
}

/// Two vehicles, three stops, and a plan of which one stop is left off.
fn example(call: Call) -> Sheet {
    Sheet {
        call,
        given: match call {
            Call::TwoOpt | Call::Rebuild => vec![2, 0],
            Call::Arrive => given_live(1, 0b101),
            Call::Cancel => given_live(0, 0b101),
            _ => vec![],
        },
        plan: if call.has_plan() {
            vec![1, 1, 2, 0, UNUSED]
        } else {
            vec![]
        },
        job: Job {
            vehicles: vec![[0, 0], [3, 0]],
            stops: vec![1, 2, 3],
            distances: vec![
                vec![0, 2, 3, 8],
                vec![2, 0, 9, 1],
                vec![9, 1, 0, 4],
                vec![5, 7, 6, 0],
            ],
            linear: 2,
            quadratic: 1,
            missed: 100,
            smoothing: 2,
            limit: 12,
            draws: vec![5, 0, 3],
        },
    }
}

fn resize_plan(sheet: &mut Sheet, length: usize) {
    if sheet.call.has_plan() {
        sheet.plan.resize(length, UNUSED);
    }
}

fn set_plan(sheet: &mut Sheet, plan: [u32; 5]) {
    if sheet.call.has_plan() {
        sheet.plan = plan.to_vec();
    }
}

fn set_given(sheet: &mut Sheet, given: &[u32]) {
    if sheet.call.has_given_stops() {
        sheet.given = given.to_vec();
    }
}

fn set_stop(sheet: &mut Sheet, stop: u32) {
    if sheet.call.has_live_stops() {
        sheet.given[0] = stop;
    }
}

fn set_live(sheet: &mut Sheet, live: u64) {
    if sheet.call.has_live_stops() {
        sheet.given = given_live(sheet.stop(), live);
    }
}

/// Only a rebuild has a number of given stops.
fn set_picks(sheet: &mut Sheet, given: &[u32]) {
    if sheet.call == Call::Rebuild {
        sheet.given = given.to_vec();
    }
}

#[cfg(test)]
mod tests {
    use super::*;

    #[test]
    fn refuses_each_change_on_some_call() {
        for (number, changes) in CHANGES {
            for change in changes {
                let refused = |call: &Call| refusal(&changed(*call, &[*change])) == Some(number);

                assert!(CALLS.iter().any(refused), "{number}");
            }
        }
    }

    #[test]
    fn refuses_no_number_at_its_limit() {
        for call in CALLS {
            for change in LIMITS {
                assert_eq!(refusal(&changed(call, &[change])), None);
            }
        }
    }
}
