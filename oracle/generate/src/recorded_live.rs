//! The recorded arrivals and cancellations that are made one by one: ties, the place that wins, prices on both sides of a
//! tie, no vehicle, and the ends of the set of stops.

use crate::{
    job::{largest_job, MAX_MISSED_PRICE},
    Random,
};
use sheet::{encode, given_live, job_a, placed_stops, Call, Job, Routes, Sheet};

const SEED: u64 = 1;

pub fn recorded_live() -> Vec<Sheet> {
    [
        arrivals_on_job_a(),
        arrivals_on_a_street(),
        arrivals_with_ties(),
        arrivals_by_prices(),
        arrivals_without_a_vehicle(),
        arrivals_of_many_stops(),
        cancellations(),
        cancellations_of_many_stops(),
        largest(),
    ]
    .concat()
}

/// A sheet of which the placed stops and some others are live.
fn sheet(call: Call, job: &Job, routes: &[&[usize]], others: &[u32], stop: u32) -> Sheet {
    let routes = routes
        .iter()
        .map(|route| route.to_vec())
        .collect::<Routes>();
    let live = others
        .iter()
        .fold(placed_stops(&routes), |set, &stop| set | 1 << stop);

    Sheet {
        call,
        given: given_live(stop, live),
        plan: encode(&routes, job.stops.len()),
        job: Job {
            draws: vec![0],
            ..job.clone()
        },
    }
}

fn arrive(job: &Job, routes: &[&[usize]], others: &[u32], stop: u32) -> Sheet {
    sheet(Call::Arrive, job, routes, others, stop)
}

fn cancel(job: &Job, routes: &[&[usize]], others: &[u32], stop: u32) -> Sheet {
    sheet(Call::Cancel, job, routes, others, stop)
}

/// Places along a street, at a price of 1 for each metre.
fn street(places: &[u32], vehicles: &[[u32; 2]], stops: &[u32]) -> Job {
    Job {
        vehicles: vehicles.to_vec(),
        stops: stops.to_vec(),
        distances: places
            .iter()
            .map(|&one| places.iter().map(|&other| one.abs_diff(other)).collect())
            .collect(),
        ..job_a()
    }
}

/// A job of which all legs are as long.
fn constant(distance: u32, vehicle_count: usize, stop_count: usize) -> Job {
    Job {
        vehicles: vec![[0, 0]; vehicle_count],
        stops: vec![0; stop_count],
        distances: vec![vec![distance]],
        ..job_a()
    }
}

/// A job on which the way through a stop is shorter than the way without it, so that even at no missed price it is placed,
/// and a cancellation makes the plan dearer.
fn shorter() -> Job {
    Job {
        vehicles: vec![[0, 1]],
        stops: vec![2, 2],
        distances: vec![vec![0, 90, 4], vec![90, 0, 4], vec![4, 5, 0]],
        missed: 0,
        ..job_a()
    }
}

/// A job at missed prices.
fn priced<const N: usize>(job: &Job, prices: [u64; N]) -> [Job; N] {
    prices.map(|missed| Job {
        missed,
        ..job.clone()
    })
}

/// The front wins for one of its stops, the end for the other. Placing the first costs 4.
fn arrivals_on_job_a() -> Vec<Sheet> {
    let job = job_a();
    let by_price = priced(&job, [0, 3, 4, 5]);

    [
        arrive(&job, &[&[]], &[], 0),
        arrive(&job, &[&[]], &[], 1),
        arrive(&job, &[&[]], &[1], 0),
        arrive(&job, &[&[0]], &[], 1),
        arrive(&job, &[&[1]], &[], 0),
    ]
    .into_iter()
    .chain(by_price.iter().map(|job| arrive(job, &[&[]], &[], 0)))
    .chain(by_price.iter().map(|job| arrive(job, &[&[]], &[1], 0)))
    .collect()
}

/// Front, middle and end of a route, on each vehicle, and a vehicle that is still empty.
fn arrivals_on_a_street() -> Vec<Sheet> {
    let job = street(
        &[0, 10, 20, 30, 40, 50, 100, 140],
        &[[0, 6], [7, 6]],
        &[1, 2, 3, 4, 5],
    );
    let one_way = Job {
        distances: vec![
            vec![0, 5, 9, 30],
            vec![7, 0, 2, 20],
            vec![30, 1, 0, 3],
            vec![4, 6, 50, 0],
        ],
        vehicles: vec![[0, 3], [3, 0]],
        stops: vec![1, 2, 3, 0],
        ..job_a()
    };

    vec![
        arrive(&job, &[&[1, 2, 3], &[]], &[], 0),
        arrive(&job, &[&[0, 2, 3], &[]], &[], 1),
        arrive(&job, &[&[0, 1, 3], &[]], &[4], 2),
        arrive(&job, &[&[0, 1, 2], &[]], &[4], 3),
        arrive(&job, &[&[0, 1, 2, 3], &[]], &[], 4),
        arrive(&job, &[&[], &[3, 2, 1]], &[], 0),
        arrive(&job, &[&[], &[3, 2, 1]], &[], 4),
        arrive(&job, &[&[3, 4], &[1]], &[], 2),
        arrive(&job, &[&[4], &[0]], &[1, 2], 3),
        arrive(&one_way, &[&[0], &[1]], &[], 2),
        arrive(&one_way, &[&[0, 1], &[]], &[], 2),
        arrive(&one_way, &[&[0, 1], &[]], &[], 3),
        arrive(&one_way, &[&[1, 0, 2], &[]], &[], 3),
        arrive(&one_way, &[&[], &[2, 0]], &[], 1),
        arrive(&one_way, &[&[3], &[2, 1]], &[], 0),
    ]
}

/// Places, vehicles, and placing or not at the same cost.
fn arrivals_with_ties() -> Vec<Sheet> {
    // Vehicles 1 and 2 stand where the stops are, vehicle 0 far off.
    let two_near = street(&[0, 500, 510], &[[0, 0], [1, 1], [1, 1]], &[1, 2, 1, 2]);
    // Of the places on the one route the two last tie.
    let late = street(&[0, 10, 20], &[[0, 2]], &[1, 2, 2]);
    // The end of vehicle 0's route and the front of vehicle 1's tie.
    let meeting = street(&[0, 50, 100], &[[0, 1], [1, 2]], &[0, 1, 2]);
    let mut sheets = vec![
        arrive(&two_near, &[&[], &[], &[]], &[], 0),
        arrive(&two_near, &[&[], &[1], &[3]], &[], 0),
        arrive(&two_near, &[&[0], &[], &[3]], &[], 1),
        arrive(&late, &[&[0, 1]], &[], 2),
        arrive(&late, &[&[1, 2]], &[], 0),
        arrive(&meeting, &[&[0], &[2]], &[], 1),
        arrive(&meeting, &[&[], &[2]], &[0], 1),
    ];

    for distance in [0, 5] {
        // At 5 missing a stop costs as much as placing it, at 4 less.
        for job in priced(&constant(distance, 3, 4), [0, 4, 5, 6]) {
            sheets.push(arrive(&job, &[&[], &[], &[]], &[], 2));
            sheets.push(arrive(&job, &[&[3, 0], &[1], &[]], &[], 2));
            sheets.push(arrive(&job, &[&[], &[0, 3], &[]], &[1], 2));
        }
    }

    sheets
}

/// Prices for each metre and squared metre, and missed prices just below, at and just above the dearer route.
fn arrivals_by_prices() -> Vec<Sheet> {
    // By metres the stop belongs on the long route, by squared metres on the empty one.
    let long = street(&[0, 40, 50, 10], &[[0, 0], [3, 3]], &[1, 2, 2]);
    let squared = Job {
        linear: 0,
        quadratic: 1,
        ..long.clone()
    };
    let both = Job {
        linear: 3,
        quadratic: 16,
        missed: 1_000_000,
        ..long.clone()
    };
    // From length 0 to 20 at 2 for a metre and 3 for a squared one: 1,240.
    let tied = Job {
        linear: 2,
        quadratic: 3,
        ..street(&[0, 10], &[[0, 0]], &[1, 1])
    };
    let shorter = shorter();
    let free = Job {
        linear: 0,
        ..long.clone()
    };
    let mut sheets = vec![
        arrive(&long, &[&[0], &[]], &[], 1),
        arrive(&squared, &[&[0], &[]], &[], 1),
        arrive(&squared, &[&[], &[0]], &[2], 1),
        arrive(&both, &[&[0], &[]], &[], 1),
        arrive(&both, &[&[0], &[2]], &[], 1),
        arrive(&shorter, &[&[]], &[], 0),
        arrive(&shorter, &[&[0]], &[], 1),
        arrive(&free, &[&[0], &[1]], &[], 2),
    ];

    // On the first, longest route the stop adds the fewest metres, on the last the fewest squared ones.
    for (linear, quadratic) in [(0, 1), (1, 1), (20, 16)] {
        let job = Job {
            linear,
            quadratic,
            missed: 1_000_000,
            ..street(
                &[0, 40, 50, 60, 30, 35],
                &[[0, 0], [4, 4], [5, 5]],
                &[2, 1, 1, 3],
            )
        };

        sheets.push(arrive(&job, &[&[0], &[], &[]], &[], 3));
        sheets.push(arrive(&job, &[&[0], &[1], &[]], &[2], 3));
        sheets.push(arrive(&job, &[&[0], &[1], &[2]], &[], 3));
    }

    for job in priced(&tied, [0, 1_239, 1_240, 1_241, MAX_MISSED_PRICE]) {
        sheets.push(arrive(&job, &[&[]], &[], 0));
        sheets.push(arrive(&job, &[&[]], &[1], 0));
    }

    sheets
}

fn arrivals_without_a_vehicle() -> Vec<Sheet> {
    let one = constant(0, 0, 1);
    let many = constant(5, 0, 64);

    priced(&one, [0, 100])
        .iter()
        .map(|job| arrive(job, &[], &[], 0))
        .chain([
            arrive(&many, &[], &[], 63),
            arrive(&many, &[], &[0, 31, 32, 62], 63),
            arrive(&many, &[], &(1..64).collect::<Vec<_>>(), 0),
            // There is no stop that could arrive: 12.
            arrive(&constant(0, 0, 0), &[], &[], 0),
            arrive(&constant(5, 2, 0), &[&[], &[]], &[], 0),
        ])
        .collect()
}

/// Both halves of the set, and its ends.
fn arrivals_of_many_stops() -> Vec<Sheet> {
    let job = Job {
        missed: 11,
        ..constant(5, 2, 64)
    };
    let others = |stop: u32| (0..64).filter(|&other| other != stop).collect::<Vec<_>>();
    let mut sheets = vec![];

    for stop in [0, 31, 32, 63] {
        let placed = others(stop)
            .iter()
            .map(|&other| other as usize)
            .collect::<Vec<_>>();

        sheets.push(arrive(&job, &[&[], &[]], &[], stop));
        sheets.push(arrive(&job, &[&[], &[]], &others(stop), stop));
        sheets.push(arrive(&job, &[&[], &placed], &[], stop));
    }

    // Already live: 16.
    sheets.push(arrive(&job, &[&[], &[63]], &[], 63));
    sheets.push(arrive(&job, &[&[], &[]], &others(64), 63));
    sheets
}

/// First, middle, last and only stops of a route, and stops on none.
fn cancellations() -> Vec<Sheet> {
    let a = job_a();
    let street = street(
        &[0, 10, 20, 30, 40, 50, 100],
        &[[0, 6], [6, 0]],
        &[1, 2, 3, 4, 5],
    );
    let squared = Job {
        quadratic: 2,
        ..street.clone()
    };
    let shorter = shorter();
    let none = constant(5, 0, 3);
    let mut sheets = vec![
        cancel(&a, &[&[1, 0]], &[], 1),
        cancel(&a, &[&[1, 0]], &[], 0),
        cancel(&a, &[&[0]], &[], 0),
        cancel(&a, &[&[0]], &[1], 1),
        cancel(&a, &[&[0]], &[1], 0),
        cancel(&a, &[&[]], &[1], 1),
        cancel(&a, &[&[]], &[0, 1], 0),
        cancel(&shorter, &[&[0]], &[], 0),
        cancel(&shorter, &[&[0, 1]], &[], 0),
        cancel(&none, &[], &[1], 1),
        cancel(&none, &[], &[0, 1, 2], 2),
        cancel(&constant(0, 2, 3), &[&[2, 0, 1], &[]], &[], 0),
        // Not live: 17, and no stop at all: 12.
        cancel(&none, &[], &[0, 2], 1),
        cancel(&a, &[&[0]], &[], 1),
        cancel(&constant(5, 2, 0), &[&[], &[]], &[], 0),
    ];

    for job in priced(&street, [0, 1, 100])
        .into_iter()
        .chain(priced(&squared, [0, 100]))
    {
        for stop in 0..4 {
            sheets.push(cancel(&job, &[&[0, 1, 2], &[3]], &[4], stop));
        }

        sheets.push(cancel(&job, &[&[0, 1, 2], &[3]], &[4], 4));
        sheets.push(cancel(&job, &[&[3], &[2, 4, 0]], &[1], 4));
    }

    sheets
}

fn cancellations_of_many_stops() -> Vec<Sheet> {
    let job = Job {
        missed: 11,
        ..constant(5, 2, 64)
    };
    let all = (0..64).collect::<Vec<_>>();
    let mut sheets = vec![];

    for stop in [0, 31, 32, 63] {
        sheets.push(cancel(&job, &[&[], &[]], &[stop], stop));
        sheets.push(cancel(&job, &[&[], &[]], &all, stop));
        sheets.push(cancel(&job, &[&[stop as usize], &[30]], &all, stop));
    }

    // Not live: 17.
    sheets.push(cancel(&job, &[&[], &[0, 31, 32, 62]], &[], 63));
    sheets
}

/// Every list and price at its limit, and the longest routes.
fn largest() -> Vec<Sheet> {
    let random = &mut Random::new(SEED, 9);
    let mut job = Job {
        quadratic: 16,
        ..largest_job(random)
    };
    let mut stops = (0..64).collect::<Vec<usize>>();

    random.shuffle(&mut stops);

    let last = stops[63];
    let routes = stops[..63].chunks(4).collect::<Vec<_>>();
    let mut sheets = vec![arrive(&job, &routes, &[], last as u32)];

    job = Job {
        linear: job.linear,
        quadratic: job.quadratic,
        ..constant(200_000, 16, 64)
    };

    // All stops on one vehicle, and none on any.
    let none = vec![&[][..]; 16];
    let mut one = none.clone();

    one[15] = &stops[..63];

    for job in priced(&job, [0, MAX_MISSED_PRICE]) {
        sheets.push(arrive(&job, &one, &[], last as u32));
        sheets.push(arrive(&job, &none, &(0..63).collect::<Vec<_>>(), 63));
        sheets.push(cancel(&job, &none, &(0..64).collect::<Vec<_>>(), 63));
    }

    one[15] = &stops;
    sheets.push(cancel(&job, &one, &[], 63));
    sheets
}

#[cfg(test)]
mod tests {
    use super::*;
    use sheet::refusal;

    #[test]
    fn has_many_of_both_calls() {
        for call in [Call::Arrive, Call::Cancel] {
            let count = recorded_live()
                .iter()
                .filter(|sheet| sheet.call == call && refusal(sheet).is_none())
                .count();

            assert!(count >= 40, "{count}");
        }
    }

    #[test]
    fn refuses_few() {
        let numbers = recorded_live()
            .iter()
            .filter_map(refusal)
            .collect::<Vec<_>>();

        assert_eq!(numbers, [12, 12, 16, 16, 17, 17, 12, 17]);
    }
}
