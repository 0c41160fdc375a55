//! The recorded roadworks, all made one by one: roads that a plan uses nowhere, once, several times on a route and on several
//! routes, each leg of a route, prices and metres at their ends, and each way to be refused.

use crate::{
    job::{MAX_DISTANCE, MAX_MISSED_PRICE},
    recorded_vans::{plan, two_places},
};
use sheet::{job_a, Call, Job, Road, Sheet, UNUSED};

pub fn recorded_roads() -> Vec<Sheet> {
    [
        on_job_a(),
        between_two_places(),
        there_and_back(),
        on_routes_without_stops(),
        of_few(),
        by_prices(),
        up_to_the_limit(),
        beyond_the_limit(),
        of_many(),
        largest(),
        refused(),
    ]
    .concat()
}

/// Makes the way from one location to another so much longer.
fn works(job: &Job, routes: &[&[usize]], [from, to, more]: [u32; 3]) -> Sheet {
    Sheet {
        call: Call::Roadworks,
        given: Road { from, to, more }.given(),
        plan: plan(job, routes),
        job: job.clone(),
    }
}

fn priced(job: &Job, linear: u32, quadratic: u32) -> Job {
    Job {
        linear,
        quadratic,
        ..job.clone()
    }
}

/// Every road, of which the plan of both stops uses three, and none of them the other way round; plans of one stop and of
/// none; and a second van, so that the ceiling is above the rise.
fn on_job_a() -> Vec<Sheet> {
    let job = job_a();
    let dearer = priced(&job, 2, 1);
    let two_vans = Job {
        vehicles: vec![[0, 0], [0, 1]],
        ..dearer.clone()
    };
    let mut sheets = vec![];

    for from in 0..3 {
        for to in 0..3 {
            sheets.push(works(&dearer, &[&[1, 0]], [from, to, 5]));
        }
    }

    sheets.push(works(&job, &[&[1, 0]], [2, 1, 5]));
    sheets.push(works(&job, &[&[1, 0]], [1, 2, 5]));
    sheets.push(works(&dearer, &[&[0]], [0, 1, 5]));
    sheets.push(works(&dearer, &[&[]], [0, 0, 5]));
    sheets.push(works(&dearer, &[&[]], [0, 1, 5]));

    sheets.push(works(&two_vans, &[&[0], &[1]], [0, 1, 5]));
    sheets.push(works(&two_vans, &[&[1, 0], &[]], [0, 1, 5]));
    sheets
}

/// Three stops at one place on a van, one on another, none on the third: there and back once on each of two routes, from stop
/// to stop twice on one, and the way of the third.
fn between_two_places() -> Vec<Sheet> {
    let job = priced(&two_places(3, 5), 3, 2);
    let by_metres = priced(&job, 1, 0);
    let routes: [&[usize]; 3] = [&[0, 1, 2], &[3], &[]];

    vec![
        works(&job, &routes, [0, 1, 7]),
        works(&job, &routes, [1, 0, 7]),
        works(&job, &routes, [1, 1, 7]),
        works(&job, &routes, [0, 0, 7]),
        works(&by_metres, &routes, [0, 1, 7]),
        works(&by_metres, &routes, [1, 1, 7]),
    ]
}

/// A van that goes there and back twice, one that stops where it starts and where it ends, and one that does so where it starts.
/// The way from a place to itself has a length. Where the first is alone, the ceiling is the rise.
fn there_and_back() -> Vec<Sheet> {
    let job = Job {
        vehicles: vec![[0, 0], [0, 1], [1, 0]],
        stops: vec![1, 0, 1, 0, 1, 1],
        distances: vec![vec![7, 5], vec![6, 9]],
        ..priced(&job_a(), 3, 2)
    };
    let alone = Job {
        vehicles: vec![[0, 0]],
        ..job.clone()
    };
    let mut sheets = vec![];

    for road in [[0, 1, 4], [1, 0, 4], [0, 0, 4], [1, 1, 4]] {
        sheets.push(works(&job, &[&[0, 1, 2], &[3, 4], &[5]], road));
    }

    // Also by a route without stops.
    sheets.push(works(&job, &[&[0, 1, 2], &[], &[5]], [0, 1, 4]));

    for road in [[0, 1, 4], [1, 0, 4], [0, 0, 4]] {
        sheets.push(works(&alone, &[&[0, 1, 2]], road));
    }

    sheets
}

/// Two vans whose one leg is the same, one at another place, and one from the one to the other.
fn on_routes_without_stops() -> Vec<Sheet> {
    let job = Job {
        vehicles: vec![[0, 0], [0, 0], [1, 1], [0, 1]],
        stops: vec![0, 1],
        distances: vec![vec![4, 5], vec![6, 0]],
        ..priced(&job_a(), 3, 2)
    };

    [[0, 0, 2], [1, 1, 2], [0, 1, 2], [1, 0, 2]]
        .map(|road| works(&job, &[&[][..]; 4], road))
        .to_vec()
}

/// Without a van nothing is used. Without a location there is no road: 6.
fn of_few() -> Vec<Sheet> {
    let nothing = Job {
        draws: vec![0],
        ..Job::default()
    };

    vec![
        works(&two_places(0, 3), &[], [0, 1, 7]),
        works(&two_places(0, 0), &[], [1, 1, 7]),
        works(&nothing, &[], [0, 0, 0]),
        works(&two_places(2, 0), &[&[], &[]], [0, 0, 7]),
        works(&two_places(1, 1), &[&[0]], [1, 0, 7]),
    ]
}

/// No prices, each at its end and beside the other; the missed price counts for nothing.
fn by_prices() -> Vec<Sheet> {
    let job = Job {
        missed: MAX_MISSED_PRICE,
        ..two_places(2, 3)
    };
    let mut sheets = vec![];

    for (linear, quadratic) in [(0, 0), (1_000_000, 0), (0, 16), (1_000_000, 16), (16, 1)] {
        let job = priced(&job, linear, quadratic);

        sheets.push(works(&job, &[&[0], &[1]], [0, 1, 9]));
    }

    sheets.push(works(&priced(&job, 16, 1), &[&[0, 1, 2], &[]], [1, 1, 9]));
    sheets
}

/// No metre more, one, all that there is room for, and roads that are as long as can be already; used and not.
fn up_to_the_limit() -> Vec<Sheet> {
    let job = priced(&two_places(2, 3), 3, 2);
    let long = Job {
        distances: vec![vec![0, MAX_DISTANCE], vec![MAX_DISTANCE - 1, 0]],
        ..job.clone()
    };
    let on_one: [&[usize]; 2] = [&[0, 1, 2], &[]];
    let none: [&[usize]; 2] = [&[], &[]];

    vec![
        works(&job, &on_one, [0, 1, 0]),
        works(&job, &on_one, [0, 1, 1]),
        works(&job, &on_one, [0, 1, 199_995]),
        works(&job, &on_one, [1, 1, 200_000]),
        works(&job, &none, [0, 1, 199_995]),
        works(&job, &none, [0, 0, 200_000]),
        works(&long, &on_one, [0, 1, 0]),
        works(&long, &on_one, [1, 0, 1]),
    ]
}

/// One metre more than there is room for, and numbers with which the sum has more than 32 bits: what is left of it is 0, one
/// less than the road, or the limit itself. All of these are refused as 7, also where the plan does not use the road.
fn beyond_the_limit() -> Vec<Sheet> {
    let job = two_places(2, 3);
    let long = Job {
        distances: vec![vec![0, MAX_DISTANCE], vec![MAX_DISTANCE - 1, 0]],
        ..job.clone()
    };
    let on_one: [&[usize]; 2] = [&[0, 1, 2], &[]];
    let none: [&[usize]; 2] = [&[], &[]];

    vec![
        works(&job, &on_one, [0, 1, 199_996]),
        works(&job, &on_one, [1, 1, 200_001]),
        works(&job, &none, [1, 0, 199_995]),
        works(&job, &on_one, [0, 1, u32::MAX - 4]),
        works(&job, &on_one, [0, 1, u32::MAX - 5]),
        works(&job, &none, [0, 1, u32::MAX]),
        works(&job, &on_one, [1, 1, u32::MAX]),
        works(&long, &on_one, [0, 1, 1]),
        works(&long, &on_one, [1, 0, 2]),
        works(&long, &none, [0, 1, u32::MAX - MAX_DISTANCE + 1]),
        works(&long, &on_one, [0, 1, u32::MAX]),
    ]
}

/// Sixteen vans of four stops each, and all stops on the last.
fn of_many() -> Vec<Sheet> {
    let job = priced(&two_places(16, 64), 1, 1);
    let stops = (0..64).collect::<Vec<_>>();
    let each = stops.chunks(4).collect::<Vec<_>>();
    let mut last = vec![&[][..]; 16];

    last[15] = &stops;

    vec![
        works(&job, &each, [0, 1, 3]),
        works(&job, &each, [1, 1, 3]),
        works(&job, &last, [1, 1, 3]),
        works(&job, &last, [0, 0, 3]),
    ]
}

/// Every price at its limit, and as many legs as there can be. Where all of them are the one road, and it becomes as long as
/// can be from nothing, no ceiling is higher. Then the last of as many locations as there can be.
fn largest() -> Vec<Sheet> {
    let one_place = |distance| Job {
        vehicles: vec![[0, 0]; 16],
        stops: vec![0; 64],
        distances: vec![vec![distance]],
        linear: 1_000_000,
        quadratic: 16,
        missed: MAX_MISSED_PRICE,
        ..job_a()
    };
    // Three of the five legs of each van, and back by the longest.
    let three_of_five = Job {
        vehicles: vec![[0, 1]; 16],
        stops: (0..64).map(|stop| (stop + 1) % 2).collect(),
        distances: vec![vec![0, 0], vec![MAX_DISTANCE, 0]],
        ..one_place(0)
    };
    let many_places = Job {
        vehicles: vec![[79, 78], [0, 79]],
        stops: vec![78, 0],
        distances: vec![vec![1; 80]; 80],
        ..one_place(0)
    };
    let stops = (0..64).collect::<Vec<_>>();
    let each = stops.chunks(4).collect::<Vec<_>>();
    let mut last = vec![&[][..]; 16];

    last[15] = &stops;

    vec![
        works(&one_place(0), &each, [0, 0, MAX_DISTANCE]),
        works(&one_place(0), &last, [0, 0, MAX_DISTANCE]),
        works(&one_place(0), &each, [0, 0, MAX_DISTANCE + 1]),
        works(&one_place(100_000), &each, [0, 0, 100_000]),
        works(&three_of_five, &each, [0, 1, MAX_DISTANCE]),
        works(&many_places, &[&[0], &[1]], [79, 78, 199_999]),
    ]
}

type Change = fn(&mut Sheet);

/// Changes of the example by the number of their refusal.
const CHANGES: [(u64, &[Change]); 5] = [
    (
        4,
        &[
            |sheet| sheet.plan.push(UNUSED),
            |sheet| sheet.plan.truncate(3),
        ],
    ),
    (
        6,
        &[
            |sheet| sheet.given[0] = 3,
            |sheet| sheet.given[1] = 3,
            |sheet| sheet.job.stops[1] = 3,
            |sheet| sheet.given[0] = u32::MAX,
            |sheet| sheet.given[1] = u32::MAX,
            |sheet| sheet.given[..2].fill(3),
            |sheet| sheet.job.vehicles[0][1] = u32::MAX,
            |sheet| sheet.job.distances.clear(),
        ],
    ),
    (
        7,
        &[
            |sheet| sheet.given[2] = 199_998,
            |sheet| sheet.job.distances[2][2] = 200_001,
            |sheet| sheet.given[2] = u32::MAX,
            |sheet| {
                sheet.job.distances[0][2] = 200_001;
                sheet.given[2] = 0;
            },
        ],
    ),
    (
        8,
        &[
            |sheet| sheet.job.linear = 1_000_001,
            |sheet| sheet.job.quadratic = 17,
            |sheet| sheet.job.missed = 10_000_000_000_001,
        ],
    ),
    (
        11,
        &[
            // A stop twice, one that the job has not, lengths whose sum wraps, a number behind the last.
            |sheet| sheet.plan[3] = 1,
            |sheet| sheet.plan[2] = 2,
            |sheet| sheet.plan[1] = u32::MAX,
            |sheet| sheet.plan[0] = 1,
        ],
    ),
];

/// How many changes of a number stand for it beside those of another: of 6 both ends of the road and a location of the job,
/// of 7 the road and another distance.
const KINDS: [usize; 5] = [1, 3, 2, 1, 1];

/// Smoothing count and limit, which the call does not read.
const UNREAD: Change = |sheet| {
    sheet.job.smoothing = 0;
    sheet.job.limit = 0;
};

/// The example, each change of it, and every two changes with refusals of their own, the lower of which is the answer.
fn refused() -> Vec<Sheet> {
    let single = CHANGES
        .iter()
        .flat_map(|(_, changes)| changes.iter())
        .chain([&UNREAD])
        .map(|&change| changed(&[change]));

    [changed(&[])]
        .into_iter()
        .chain(single)
        .chain(pairs().into_iter().map(|(_, sheet)| sheet))
        .collect()
}

/// The sheets of two changes, with the lower number.
fn pairs() -> Vec<(u64, Sheet)> {
    let kinds = CHANGES
        .iter()
        .zip(KINDS)
        .flat_map(|(&(number, changes), count)| {
            changes[..count].iter().map(move |&change| (number, change))
        })
        .collect::<Vec<_>>();
    let mut sheets = vec![];

    for &(number, change) in &kinds {
        for &(lower, other) in kinds.iter().filter(|(other, _)| *other < number) {
            sheets.push((lower, changed(&[change, other])));
        }
    }

    sheets
}

/// Job A with a second van, the first leg of the one route longer. The plan has all stops.
fn changed(changes: &[Change]) -> Sheet {
    let job = Job {
        vehicles: vec![[0, 0], [0, 1]],
        ..priced(&job_a(), 2, 1)
    };
    let mut sheet = works(&job, &[&[1, 0], &[]], [0, 2, 6]);

    for change in changes {
        change(&mut sheet);
    }

    sheet
}

#[cfg(test)]
mod tests {
    use super::*;
    use sheet::refusal;

    #[test]
    fn has_many() {
        let sheets = recorded_roads();
        let (no, yes) = sheets
            .iter()
            .partition::<Vec<_>, _>(|sheet| refusal(sheet).is_some());

        assert!(yes.len() >= 50, "{}", yes.len());
        assert!(no.len() >= 50, "{}", no.len());

        for (index, sheet) in sheets.iter().enumerate() {
            assert!(!sheets[..index].contains(sheet), "{index}");
        }
    }

    #[test]
    fn refuses_each_change() {
        assert_eq!(refusal(&changed(&[])), None);
        assert_eq!(refusal(&changed(&[UNREAD])), None);

        for (number, changes) in CHANGES {
            for &change in changes {
                assert_eq!(refusal(&changed(&[change])), Some(number));
            }
        }

        for sheet in beyond_the_limit() {
            assert_eq!(refusal(&sheet), Some(7), "{:?}", sheet.given);
        }

        for sheet in up_to_the_limit() {
            assert_eq!(refusal(&sheet), None, "{:?}", sheet.given);
        }
    }

    #[test]
    fn answers_the_lower_of_two_refusals() {
        for (number, sheet) in pairs() {
            assert_eq!(refusal(&sheet), Some(number));
        }
    }
}
