use crate::{all_stops, contains, decode, holds, placed_stops, Call, Job, Road, Routes, Sheet};

const MAX_DISTANCE: u32 = 200_000;
const MAX_LINEAR_PRICE: u32 = 1_000_000;
const MAX_QUADRATIC_PRICE: u32 = 16;
const MAX_MISSED_PRICE: u64 = 10_000_000_000_000;
const MAX_SMOOTHING_COUNT: u32 = 1_000;
const MAX_ROUND_LIMIT: u32 = 1_000_000;
const MAX_EXHAUSTIVE_STOP_COUNT: usize = 6;
const MAX_EXHAUSTIVE_VEHICLE_COUNT: usize = 3;

/// The lowest refusal that applies to a call's arguments. Numbers 1, 2, 3 and 5 speak of lists that no file holds.
pub fn refusal(sheet: &Sheet) -> Option<u64> {
    let Sheet {
        call,
        given,
        plan,
        job,
    } = sheet;
    let vehicle_count = job.vehicles.len();
    let stop_count = job.stops.len();
    let is_exhaustive = matches!(call, Call::Exhaustive | Call::Pruned);
    let is_run = *call == Call::Solve;

    [
        (
            4,
            call.has_plan() && plan.len() != vehicle_count + stop_count,
        ),
        (
            6,
            call.has_table() && has_unknown_location(job)
                || call.has_road() && is_unknown_road(sheet),
        ),
        (
            7,
            call.has_table() && has_long_distance(job) || call.has_road() && is_long_road(sheet),
        ),
        (8, call.has_prices() && has_high_price(job)),
        (
            9,
            is_run && !(1..=MAX_SMOOTHING_COUNT).contains(&job.smoothing),
        ),
        (10, is_run && !(1..=MAX_ROUND_LIMIT).contains(&job.limit)),
        (11, call.has_plan() && !is_plan(sheet)),
        (
            12,
            (call.has_given_stops() && !are_given_stops(*call, given, stop_count))
                || ((call.has_live_stops() || *call == Call::MoveStop)
                    && sheet.stop() as usize >= stop_count),
        ),
        (15, call.has_vans() && !is_callers_own(sheet)),
        (
            16,
            *call == Call::Arrive && contains(sheet.live(), sheet.stop()),
        ),
        (
            17,
            *call == Call::Cancel && !contains(sheet.live(), sheet.stop()),
        ),
        (
            13,
            is_exhaustive
                && (stop_count > MAX_EXHAUSTIVE_STOP_COUNT
                    || vehicle_count > MAX_EXHAUSTIVE_VEHICLE_COUNT),
        ),
    ]
    .into_iter()
    .find_map(|(number, applies)| applies.then_some(number))
}

fn has_unknown_location(job: &Job) -> bool {
    job.vehicles
        .iter()
        .flatten()
        .chain(&job.stops)
        .any(|&location| location as usize >= job.distances.len())
}

/// Whether one of a road's two locations is not in the table.
fn is_unknown_road(sheet: &Sheet) -> bool {
    let Road { from, to, .. } = sheet.road();

    [from, to]
        .iter()
        .any(|&location| location as usize >= sheet.job.distances.len())
}

fn has_long_distance(job: &Job) -> bool {
    job.distances
        .iter()
        .flatten()
        .any(|&distance| distance > MAX_DISTANCE)
}

/// Whether a road that is in the table would become longer than a distance may be. The sum may have more than 32 bits.
fn is_long_road(sheet: &Sheet) -> bool {
    let Road { from, to, more } = sheet.road();
    let entry = sheet
        .job
        .distances
        .get(from as usize)
        .and_then(|row| row.get(to as usize));

    entry.is_some_and(|&distance| distance as u64 + more as u64 > MAX_DISTANCE as u64)
}

fn has_high_price(job: &Job) -> bool {
    job.linear > MAX_LINEAR_PRICE
        || job.quadratic > MAX_QUADRATIC_PRICE
        || job.missed > MAX_MISSED_PRICE
}

/// Whether the plan is one and, for an arrival or a cancellation, the live stops are stops and have all that are placed.
fn is_plan(sheet: &Sheet) -> bool {
    let stop_count = sheet.job.stops.len();

    match decode(&sheet.plan, sheet.job.vehicles.len(), stop_count) {
        None => false,
        Some(routes) if sheet.call.has_live_stops() => {
            placed_stops(&routes) & !sheet.live() == 0 && sheet.live() & !all_stops(stop_count) == 0
        }
        Some(_) => true,
    }
}

/// Whether a caller may ask for a view or a move of a plan in form: each of the caller's vans is one of the job's; of a move
/// also, its stop is on one of them or on none, its van is one of them, and its place is not beyond that van's route without
/// the stop.
fn is_callers_own(sheet: &Sheet) -> bool {
    let vans = sheet.vans();
    let vehicle_count = sheet.job.vehicles.len();
    let has_unknown_van = (vehicle_count..u32::BITS as usize).any(|van| holds(vans, van));

    match decode(&sheet.plan, vehicle_count, sheet.job.stops.len()) {
        Some(routes) if sheet.call == Call::MoveStop => {
            !has_unknown_van && is_own_move(sheet, vans, &routes)
        }
        _ => !has_unknown_van,
    }
}

fn is_own_move(sheet: &Sheet, vans: u32, routes: &Routes) -> bool {
    let stop = sheet.stop() as usize;
    let van = sheet.van() as usize;
    let is_stop_elsewhere = (0..routes.len())
        .filter(|&van| !holds(vans, van))
        .any(|van| routes[van].contains(&stop));

    if is_stop_elsewhere || !holds(vans, van) {
        return false;
    }

    let others = routes[van].iter().filter(|&&other| other != stop);

    sheet.place() as usize <= others.count()
}

fn are_given_stops(call: Call, given: &[u32], stop_count: usize) -> bool {
    let counts = if call == Call::TwoOpt { 2..=2 } else { 1..=2 };

    counts.contains(&given.len())
        && given.iter().all(|&stop| (stop as usize) < stop_count)
        && (given.len() == 1 || given[0] != given[1])
}

#[cfg(test)]
mod tests {
    use super::*;
    use crate::{given_live, job_a, sheet_a, UNUSED};

    /// A sheet with every number at its limit, so that no road can become longer.
    fn sheet(call: Call) -> Sheet {
        let example = sheet_a(call);

        Sheet {
            given: match call {
                Call::Roadworks => vec![1, 2, 0],
                _ => example.given.clone(),
            },
            job: Job {
                distances: vec![vec![200_000; 3]; 3],
                linear: 1_000_000,
                quadratic: 16,
                missed: 10_000_000_000_000,
                smoothing: 1_000,
                limit: 1_000_000,
                ..job_a()
            },
            ..example
        }
    }

    fn check(calls: &[Call], number: u64, damage: impl Fn(&mut Sheet)) {
        for call in Call::ALL {
            let mut sheet = sheet(call);

            assert_eq!(refusal(&sheet), None);
            damage(&mut sheet);
            assert_eq!(
                refusal(&sheet),
                calls.contains(&call).then_some(number),
                "{call:?}"
            );
        }
    }

    #[test]
    fn refuses_by_call() {
        use Call::*;

        let planned = [
            Weigh, TwoOpt, Rebuild, Arrive, Cancel, View, MoveStop, Roadworks,
        ];
        let priced = [
            Weigh, TwoOpt, Rebuild, Exhaustive, Pruned, Solve, Arrive, Cancel, MoveStop, Roadworks,
        ];
        // All but a view.
        let tabled = [&priced[..], &[StartPlan]].concat();

        check(&planned, 4, |sheet| sheet.plan.push(UNUSED));
        check(&tabled, 6, |sheet| sheet.job.vehicles[0][0] = 3);
        check(&tabled, 6, |sheet| sheet.job.vehicles[0][1] = 3);
        check(&tabled, 6, |sheet| sheet.job.stops[1] = 3);
        check(&tabled, 7, |sheet| sheet.job.distances[2][2] = 200_001);
        check(&priced, 8, |sheet| sheet.job.linear += 1);
        check(&priced, 8, |sheet| sheet.job.quadratic += 1);
        check(&priced, 8, |sheet| sheet.job.missed += 1);
        check(&[Solve], 9, |sheet| sheet.job.smoothing += 1);
        check(&[Solve], 9, |sheet| sheet.job.smoothing = 0);
        check(&[Solve], 10, |sheet| sheet.job.limit += 1);
        check(&[Solve], 10, |sheet| sheet.job.limit = 0);
        check(&planned, 11, |sheet| {
            if sheet.call.has_plan() {
                sheet.plan[2] = 0
            }
        });
        check(&[TwoOpt, Rebuild], 12, |sheet| {
            if sheet.call.has_given_stops() {
                sheet.given[0] = 1
            }
        });
        check(&[TwoOpt, Rebuild], 12, |sheet| {
            if sheet.call.has_given_stops() {
                sheet.given[1] = 2
            }
        });
        check(&[Exhaustive, Pruned], 13, |sheet| {
            sheet.job.vehicles = vec![[0, 0]; 4];

            if sheet.call.has_plan() {
                sheet.plan.splice(1..1, [0; 3]);
            }
        });
        check(&[Exhaustive, Pruned], 13, |sheet| {
            sheet.job.stops = vec![0; 7];

            if sheet.call.has_plan() {
                sheet.plan.resize(8, UNUSED)
            }
        });
        check(&[TwoOpt, Rebuild], 12, |sheet| {
            if sheet.call.has_given_stops() {
                sheet.given.push(0)
            }
        });
    }

    /// The refusals of an arrival and of a cancellation on Job A with a route, the live stops and a stop.
    fn live(stops: &[u32], live: u64, stop: u32) -> [Option<u64>; 2] {
        [Call::Arrive, Call::Cancel].map(|call| {
            let mut plan = [&[stops.len() as u32], stops].concat();

            plan.resize(3, UNUSED);

            refusal(&Sheet {
                given: given_live(stop, live),
                plan,
                ..sheet(call)
            })
        })
    }

    #[test]
    fn refuses_by_live_stops() {
        let (arrives, cancels) = ([None, Some(17)], [Some(16), None]);

        assert_eq!(live(&[], 0, 0), arrives);
        assert_eq!(live(&[], 1, 0), cancels);
        assert_eq!(live(&[], 1, 1), arrives);
        assert_eq!(live(&[0], 1, 0), cancels);
        assert_eq!(live(&[1], 3, 0), cancels);
        assert_eq!(live(&[1, 0], 3, 1), cancels);

        for stop in [0, 1, 2, u32::MAX] {
            assert_eq!(live(&[0], 0, stop), [Some(11); 2]);
            assert_eq!(live(&[0], 2, stop), [Some(11); 2]);
            assert_eq!(live(&[0], 5, stop), [Some(11); 2]);
            assert_eq!(live(&[], 1 << 32, stop), [Some(11); 2]);
            assert_eq!(live(&[], 1 << 63, stop), [Some(11); 2]);
            assert_eq!(live(&[0, 0], 3, stop), [Some(11); 2]);
        }

        for stop in [2, 32, 33, 64, 65, 256, u32::MAX] {
            assert_eq!(live(&[0], 1, stop), [Some(12); 2]);
            assert_eq!(live(&[0], 3, stop), [Some(12); 2]);
        }
    }

    #[test]
    fn takes_the_last_of_all_stops() {
        for (call, live) in [
            (Call::Arrive, u64::MAX >> 1),
            (Call::Arrive, 0),
            (Call::Cancel, u64::MAX),
            (Call::Cancel, 1 << 63),
        ] {
            let mut sheet = Sheet {
                given: given_live(63, live),
                plan: [vec![0], vec![UNUSED; 64]].concat(),
                ..sheet(call)
            };

            sheet.job.stops = vec![0; 64];
            assert_eq!(refusal(&sheet), None);
            sheet.given[0] = 64;
            assert_eq!(refusal(&sheet), Some(12));
        }
    }

    /// The refusals of a view and of a move with three vans, of which the first has stops 0 and 1 and the second stop 2.
    fn vans(given: [u32; 4]) -> [Option<u64>; 2] {
        [Call::View, Call::MoveStop].map(|call| {
            let mut sheet = Sheet {
                given: given[..if call == Call::View { 1 } else { 4 }].to_vec(),
                plan: vec![2, 1, 0, 0, 1, 2, UNUSED],
                ..sheet(call)
            };

            sheet.job.vehicles = vec![[0, 0]; 3];
            sheet.job.stops = vec![0; 4];
            refusal(&sheet)
        })
    }

    #[test]
    fn refuses_by_vans() {
        let own = [None, None];
        let not_own = [None, Some(15)];

        // Within a route, to another, to an empty one, and from no route.
        assert_eq!(vans([0b001, 0, 0, 1]), own);
        assert_eq!(vans([0b011, 0, 1, 1]), own);
        assert_eq!(vans([0b111, 2, 2, 0]), own);
        assert_eq!(vans([0b100, 3, 2, 0]), own);

        // The stop is elsewhere, or the van is.
        assert_eq!(vans([0b110, 0, 1, 0]), not_own);
        assert_eq!(vans([0b001, 2, 0, 0]), not_own);
        assert_eq!(vans([0b011, 0, 2, 0]), not_own);

        for van in [3, 31, 32, 33, 64, u32::MAX] {
            assert_eq!(vans([0b111, 0, van, 0]), not_own);
        }

        assert_eq!(vans([0, 3, 0, 0]), not_own);

        // The end of a route, without the stop, and one beyond.
        assert_eq!(vans([0b001, 0, 0, 2]), not_own);
        assert_eq!(vans([0b001, 3, 0, 2]), own);
        assert_eq!(vans([0b001, 3, 0, 3]), not_own);
        assert_eq!(vans([0b111, 0, 2, 1]), not_own);
        assert_eq!(vans([0b111, 0, 1, u32::MAX]), not_own);

        for vans_given in [0b1001, 1 << 3, 1 << 31, u32::MAX] {
            assert_eq!(vans([vans_given, 0, 0, 0]), [Some(15); 2]);
        }

        for stop in [4, 32, 64, 65, u32::MAX] {
            assert_eq!(vans([0b111, stop, 0, 0]), [None, Some(12)]);
            assert_eq!(vans([0b1111, stop, 9, 9]), [Some(15), Some(12)]);
        }
    }

    /// The refusal of roadworks on a table of two locations, of which the last distance is given.
    fn road(given: [u32; 3], last: u32) -> Option<u64> {
        let mut sheet = Sheet {
            given: given.to_vec(),
            ..sheet_a(Call::Roadworks)
        };

        sheet.job.vehicles = vec![[0, 1]];
        sheet.job.stops = vec![0, 1];
        sheet.job.distances = vec![vec![10, 10], vec![200_000, last]];
        refusal(&sheet)
    }

    #[test]
    fn refuses_by_road() {
        for more in [0, 1, 199_990] {
            assert_eq!(road([0, 1, more], 0), None);
        }

        assert_eq!(road([1, 0, 0], 0), None);
        assert_eq!(road([1, 1, 200_000], 0), None);

        // One beyond, and sums that wrap around to a small number, to the limit or to none.
        for more in [199_991, u32::MAX - 9, u32::MAX - 8, u32::MAX] {
            assert_eq!(road([0, 1, more], 0), Some(7));
        }

        assert_eq!(road([1, 0, 1], 0), Some(7));
        assert_eq!(road([1, 0, u32::MAX - 199_999], 0), Some(7));
        assert_eq!(road([1, 1, 200_001], 0), Some(7));

        // Another distance is beyond the limit.
        assert_eq!(road([0, 1, 0], 200_001), Some(7));

        for location in [2, 3, 80, u32::MAX] {
            for more in [0, 200_001, u32::MAX] {
                for last in [0, 200_001] {
                    assert_eq!(road([location, 1, more], last), Some(6));
                    assert_eq!(road([0, location, more], last), Some(6));
                    assert_eq!(road([location, location, more], last), Some(6));
                }
            }
        }
    }

    #[test]
    fn refuses_a_road_in_its_turn() {
        let longer = |sheet: &mut Sheet| sheet.given[2] = 1;
        let elsewhere = |sheet: &mut Sheet| sheet.given[0] = 3;
        let dear = |sheet: &mut Sheet| sheet.job.linear += 1;
        let twice = |sheet: &mut Sheet| sheet.plan[2] = 0;
        let short = |sheet: &mut Sheet| sheet.plan.truncate(2);
        let changes: [(u64, &dyn Fn(&mut Sheet)); 5] = [
            (4, &short),
            (6, &elsewhere),
            (7, &longer),
            (8, &dear),
            (11, &twice),
        ];

        for (index, (_, higher)) in changes.iter().enumerate() {
            for (number, lower) in &changes[..=index] {
                let mut sheet = sheet(Call::Roadworks);

                higher(&mut sheet);
                lower(&mut sheet);
                assert_eq!(refusal(&sheet), Some(*number));
            }
        }
    }

    fn rebuild(given: &[u32]) -> Option<u64> {
        refusal(&Sheet {
            given: given.to_vec(),
            ..sheet(Call::Rebuild)
        })
    }

    #[test]
    fn rebuilds_round_one_or_two_stops() {
        assert_eq!(rebuild(&[]), Some(12));
        assert_eq!(rebuild(&[1]), None);
        assert_eq!(rebuild(&[1, 0]), None);
        assert_eq!(rebuild(&[2]), Some(12));
        assert_eq!(rebuild(&[0, 1, 2]), Some(12));
    }
}
