//! The recorded rebuilds for the sake of their counts, all made one by one: regions of every size, one and two of them, at the
//! front, within and at the end of routes, picks in both orders, on one vehicle and on none, and stops that cannot be told apart
//! by their place.

use crate::{
    job::{MAX_DISTANCE, MAX_MISSED_PRICE},
    recorded_vans::plan,
};
use sheet::{job_a, Call, Job, Sheet};

pub fn recorded_walks() -> Vec<Sheet> {
    [
        on_job_a(),
        of_the_most_stops(),
        of_short_routes(),
        of_one_short_route(),
        along_a_route(),
        along_two_routes(),
        around_unplaced_stops(),
        of_few(),
        at_one_place(),
        by_prices(),
        of_many(),
    ]
    .concat()
}

fn rebuild(job: &Job, routes: &[&[usize]], picks: &[u32]) -> Sheet {
    Sheet {
        call: Call::Rebuild,
        given: picks.to_vec(),
        plan: plan(job, routes),
        job: job.clone(),
    }
}

/// Every stop at a place of its own, with other ways there than back. Missing a stop is dearer than a detour, but not always.
fn town(vehicle_count: usize, stop_count: usize) -> Job {
    let leg = |from: usize, to: usize| ((31 * from + 17 * to + 7 * from * to) % 101) as u32;
    let places = 0..stop_count + 1;

    Job {
        vehicles: vec![[0, 0]; vehicle_count],
        stops: (1..=stop_count as u32).collect(),
        distances: places
            .clone()
            .map(|from| places.clone().map(|to| leg(from, to)).collect())
            .collect(),
        missed: 90,
        ..job_a()
    }
}

/// Both stops, in one region or in two.
fn on_job_a() -> Vec<Sheet> {
    let job = job_a();
    let two_vans = Job {
        vehicles: vec![[0, 0]; 2],
        ..job.clone()
    };

    vec![
        rebuild(&job, &[&[0, 1]], &[0]),
        rebuild(&job, &[&[0, 1]], &[0, 1]),
        rebuild(&job, &[&[0]], &[0]),
        rebuild(&two_vans, &[&[0], &[1]], &[0, 1]),
        rebuild(&two_vans, &[&[0], &[1]], &[1, 0]),
        rebuild(&two_vans, &[&[0], &[1]], &[1]),
        rebuild(&two_vans, &[&[1, 0], &[]], &[0, 1]),
    ]
}

/// Three stops of each of two routes, seven of one, and six of one where the other pick is not kept. The routes have stops
/// before and behind, and a third route has stops too.
fn of_the_most_stops() -> Vec<Sheet> {
    let job = town(3, 20);
    let routes: [&[usize]; 3] = [
        &[0, 1, 2, 3, 4, 5, 6, 7, 8],
        &[9, 10, 11, 12, 13],
        &[14, 15, 16],
    ];

    [
        &[3, 11][..],
        &[11, 3],
        &[15, 4],
        &[4, 15],
        &[10, 15],
        &[4],
        &[3, 5],
        &[5, 3],
        &[4, 17],
        &[17, 4],
        &[11],
        &[17],
        &[17, 18],
    ]
    .map(|picks| rebuild(&job, &routes, picks))
    .to_vec()
}

/// One to four stops on each of two routes, of which three at most are drained. The pick on the first is given first, and then
/// that on the second.
fn of_short_routes() -> Vec<Sheet> {
    let mut sheets = vec![];

    for one in 1..=4 {
        for other in 1..=4 {
            let job = town(2, one + other);
            let stops = (0..one + other).collect::<Vec<_>>();
            let (first, second) = stops.split_at(one);
            let picks = [0, one as u32];

            sheets.push(rebuild(&job, &[first, second], &picks));

            if one != other {
                sheets.push(rebuild(&job, &[first, second], &[picks[1], picks[0]]));
            }
        }
    }

    sheets
}

/// One to eight stops on the one route, of which seven at most are drained, and six where two are given.
fn of_one_short_route() -> Vec<Sheet> {
    let mut sheets = vec![];

    for count in 1..=8 {
        let job = town(1, count + 1);
        let stops = (0..count).collect::<Vec<_>>();

        sheets.push(rebuild(&job, &[&stops], &[0]));
        // The last of the stops is on no route.
        sheets.push(rebuild(&job, &[&stops], &[0, count as u32]));

        if count > 1 {
            sheets.push(rebuild(&job, &[&stops], &[1, 0]));
        }
    }

    sheets
}

/// Each stop of a route of ten: the region ends with the route.
fn along_a_route() -> Vec<Sheet> {
    let job = town(1, 10);
    let stops = (0..10).collect::<Vec<_>>();

    (0..10)
        .map(|pick| rebuild(&job, &[&stops], &[pick]))
        .collect()
}

/// The front, the middle and the end of each of two routes, whose vans have an empty one between them.
fn along_two_routes() -> Vec<Sheet> {
    let job = town(3, 9);
    let routes: [&[usize]; 3] = [&[4, 3, 2, 1, 0], &[], &[5, 6, 7, 8]];
    let mut sheets = vec![];

    for one in [4, 2, 0] {
        for other in [5, 6, 8] {
            sheets.push(rebuild(&job, &routes, &[other, one]));
        }
    }

    sheets
}

/// Stops on no route are not drained, so that they stay there and count for nothing, though placing them were cheaper.
fn around_unplaced_stops() -> Vec<Sheet> {
    let job = Job {
        missed: MAX_MISSED_PRICE,
        ..town(2, 9)
    };
    let some: [&[usize]; 2] = [&[0, 1], &[2]];
    let none: [&[usize]; 2] = [&[], &[]];

    vec![
        rebuild(&job, &some, &[0, 2]),
        rebuild(&job, &some, &[2, 1]),
        rebuild(&job, &some, &[8, 2]),
        rebuild(&job, &some, &[1, 8]),
        rebuild(&job, &some, &[8]),
        rebuild(&job, &some, &[8, 7]),
        rebuild(&job, &none, &[0]),
        rebuild(&job, &none, &[0, 1]),
    ]
}

/// No vehicle, and one stop alone.
fn of_few() -> Vec<Sheet> {
    vec![
        rebuild(&town(0, 1), &[], &[0]),
        rebuild(&town(0, 2), &[], &[1, 0]),
        rebuild(&town(1, 1), &[&[0]], &[0]),
        rebuild(&town(1, 1), &[&[]], &[0]),
        rebuild(&town(2, 1), &[&[], &[0]], &[0]),
    ]
}

/// Stops at one place, or at two: arrangements that look the same on a map are different ones. Where all ways are of no metre
/// all plans of as many stops cost the same.
fn at_one_place() -> Vec<Sheet> {
    let near = Job {
        vehicles: vec![[0, 0]; 2],
        stops: vec![0; 8],
        distances: vec![vec![0]],
        ..job_a()
    };
    let far = Job {
        stops: vec![1; 8],
        distances: vec![vec![0, 5], vec![6, 0]],
        ..near.clone()
    };
    let two = Job {
        stops: vec![1, 1, 0, 0, 1, 1, 0, 0],
        ..far.clone()
    };
    let mut sheets = vec![];

    for job in [near, far, two] {
        sheets.push(rebuild(&job, &[&[0, 1, 2, 3], &[4, 5, 6, 7]], &[1, 5]));
        sheets.push(rebuild(&job, &[&[0, 1], &[2]], &[2, 0]));
        sheets.push(rebuild(&job, &[&[0, 1, 2, 3, 4, 5, 6, 7], &[]], &[3]));
        sheets.push(rebuild(&job, &[&[0, 1, 2], &[]], &[1]));
    }

    sheets
}

/// Whatever a plan costs: nothing at all, nothing for a stop that is missed, much for it, and as much as can be.
fn by_prices() -> Vec<Sheet> {
    let job = town(2, 7);
    let dear = Job {
        vehicles: vec![[0, 0]; 2],
        stops: vec![0; 7],
        distances: vec![vec![MAX_DISTANCE]],
        linear: 1_000_000,
        quadratic: 16,
        missed: MAX_MISSED_PRICE,
        ..job_a()
    };
    let mut sheets = vec![];

    for (linear, quadratic, missed) in [
        (0, 0, 0),
        (1, 0, 0),
        (0, 0, 1),
        (1, 0, MAX_MISSED_PRICE),
        (3, 2, 5_000),
    ] {
        let job = Job {
            linear,
            quadratic,
            missed,
            ..job.clone()
        };

        sheets.push(rebuild(&job, &[&[0, 1, 2, 3], &[4, 5, 6]], &[1, 5]));
    }

    sheets.push(rebuild(&dear, &[&[0, 1, 2], &[3, 4, 5]], &[1, 4]));
    sheets.push(rebuild(&dear, &[&[0, 1, 2, 3, 4, 5, 6], &[]], &[3]));
    sheets
}

/// Sixteen vans of four stops each, at eight places; the last and the first in both orders; and all stops on the last.
fn of_many() -> Vec<Sheet> {
    let job = Job {
        stops: (0..64).map(|stop| 1 + stop % 8).collect(),
        missed: MAX_MISSED_PRICE,
        ..town(16, 8)
    };
    let stops = (0..64).collect::<Vec<_>>();
    let each = stops.chunks(4).collect::<Vec<_>>();
    let mut last = vec![&[][..]; 16];

    last[15] = &stops;

    vec![
        rebuild(&job, &each, &[62, 1]),
        rebuild(&job, &each, &[1, 62]),
        rebuild(&job, &each, &[63, 60]),
        rebuild(&job, &last, &[31]),
        rebuild(&job, &last, &[63, 0]),
    ]
}

#[cfg(test)]
mod tests {
    use super::*;
    use crate::walks::drained;
    use sheet::{decode, refusal};
    use std::collections::BTreeSet;

    #[test]
    fn has_regions_of_every_size() {
        let sheets = recorded_walks();
        let mut met = BTreeSet::new();

        for (index, sheet) in sheets.iter().enumerate() {
            let job = &sheet.job;
            let routes = decode(&sheet.plan, job.vehicles.len(), job.stops.len()).expect("a plan");

            assert_eq!(refusal(sheet), None, "{index}");
            assert!(!sheets[..index].contains(sheet), "{index}");

            let regions = drained(&routes, &sheet.given);

            met.insert(regions.iter().map(Vec::len).collect::<Vec<_>>());
        }

        let two = (1..=3).flat_map(|first| (1..=3).map(move |second| vec![first, second]));
        let one = (1..=7).map(|count| vec![count]);

        assert_eq!(met, two.chain(one).chain([vec![]]).collect());
        assert!(sheets.len() >= 100, "{}", sheets.len());
    }
}
