//! The recorded views and moves, all made one by one: every set of three vans, each place of a route, stops from everywhere,
//! each way to be refused, prices on both sides of a tie, and the ends of every number.

use crate::job::{MAX_DISTANCE, MAX_MISSED_PRICE};
use sheet::{encode, job_a, refusal, Call, Job, Routes, Sheet, UNUSED};
use std::cmp::Ordering;

pub fn recorded_vans() -> Vec<Sheet> {
    [
        views_on_a_street(),
        views_of_few(),
        views_of_many(),
        moves_within_a_route(),
        moves_between_vans(),
        moves_from_no_route(),
        moves_of_a_lone_stop(),
        moves_not_own(),
        moves_by_prices(),
        moves_of_few(),
        moves_of_many(),
        largest(),
        refused(Call::View),
        refused(Call::MoveStop),
    ]
    .concat()
}

/// Both ends of the street have a van of their own, and a third stands in the middle. Back is longer than there, and a stop
/// on the way costs a little.
fn street() -> Job {
    let places = 0..6u32;
    let leg = |from: u32, to: u32| match from.cmp(&to) {
        Ordering::Less => 10 * (to - from) + 1,
        Ordering::Equal => 0,
        Ordering::Greater => 13 * (from - to) + 2,
    };

    Job {
        vehicles: vec![[0, 0], [5, 0], [2, 2]],
        stops: vec![1, 2, 3, 4, 5, 2],
        distances: places
            .clone()
            .map(|from| places.clone().map(|to| leg(from, to)).collect())
            .collect(),
        ..job_a()
    }
}

/// Three stops on the first van, two on the second, none on the third; the last is on none.
const PLAN: [&[usize]; 3] = [&[0, 1, 2], &[4, 3], &[]];

/// Vans at one place and stops at another, 5 away and 6 back.
pub fn two_places(vehicle_count: usize, stop_count: usize) -> Job {
    Job {
        vehicles: vec![[0, 0]; vehicle_count],
        stops: vec![1; stop_count],
        distances: vec![vec![0, 5], vec![6, 0]],
        ..job_a()
    }
}

/// The plan form of a job's routes.
pub fn plan(job: &Job, routes: &[&[usize]]) -> Vec<u32> {
    let routes = routes
        .iter()
        .map(|route| route.to_vec())
        .collect::<Routes>();

    encode(&routes, job.stops.len())
}

fn view(job: &Job, routes: &[&[usize]], vans: u32) -> Sheet {
    Sheet {
        call: Call::View,
        given: vec![vans],
        plan: plan(job, routes),
        job: job.clone(),
    }
}

/// Moves a stop to a van at a place.
fn put(job: &Job, routes: &[&[usize]], vans: u32, [stop, van, place]: [u32; 3]) -> Sheet {
    Sheet {
        call: Call::MoveStop,
        given: vec![vans, stop, van, place],
        plan: plan(job, routes),
        job: job.clone(),
    }
}

/// Every set of its vans, with one stop on no route, with all and with none.
fn views_on_a_street() -> Vec<Sheet> {
    let job = street();
    let none = [&[][..]; 3];
    let all: [&[usize]; 3] = [&[5, 0], &[4], &[1, 3, 2]];
    let mut sheets = (0..8)
        .map(|vans| view(&job, &PLAN, vans))
        .collect::<Vec<_>>();

    for vans in [0, 0b010, 0b111] {
        sheets.push(view(&job, &none, vans));
        sheets.push(view(&job, &all, vans));
    }

    // A van that is none of the three: 15.
    for vans in [0b1000, 0b1111, 1 << 16, 0b001 | 1 << 31, u32::MAX] {
        sheets.push(view(&job, &PLAN, vans));
    }

    sheets
}

fn views_of_few() -> Vec<Sheet> {
    let no_van = two_places(0, 3);
    let no_stop = two_places(2, 0);

    vec![
        view(&no_van, &[], 0),
        view(&no_van, &[], 1),
        view(&no_stop, &[&[], &[]], 0b10),
        view(&no_stop, &[&[], &[]], 0b100),
        view(&two_places(0, 0), &[], 0),
        view(
            &Job {
                draws: vec![0],
                ..Job::default()
            },
            &[],
            0,
        ),
        view(&two_places(1, 1), &[&[0]], 1),
        view(&two_places(1, 1), &[&[0]], 0),
    ]
}

/// Both halves of the set of stops and its ends, and the last of the vans.
fn views_of_many() -> Vec<Sheet> {
    let stops = two_places(2, 64);
    let vans = two_places(16, 17);
    let singles = (0..17).map(|stop| [stop]).collect::<Vec<_>>();
    let one_each = singles[..16]
        .iter()
        .map(|stop| &stop[..])
        .collect::<Vec<_>>();
    let mut sheets = vec![view(&stops, &[&[], &[]], 0b01)];

    for unplaced in [&[63][..], &[0], &[31, 32], &[]] {
        let placed = (0..64)
            .filter(|stop| !unplaced.contains(stop))
            .collect::<Vec<_>>();

        sheets.push(view(&stops, &[&[], &placed], 0b01));
        sheets.push(view(&stops, &[&placed[..30], &placed[30..]], 0b10));
    }

    for set in [0x8000, 0x7fff, 0x5555, 0xffff, 0x1_0000, 0x1_ffff] {
        sheets.push(view(&vans, &one_each, set));
    }

    sheets
}

/// Each stop of a route to each place of it. Where the first stop is behind the others is place 2, and there is no place 3.
fn moves_within_a_route() -> Vec<Sheet> {
    let job = street();
    let mut sheets = vec![];

    for stop in 0..3 {
        for place in 0..3 {
            sheets.push(put(&job, &PLAN, 0b001, [stop, 0, place]));
        }
    }

    sheets.push(put(&job, &PLAN, 0b001, [0, 0, 3]));
    sheets.push(put(&job, &PLAN, 0b111, [2, 0, 3]));
    // The order that the street has is cheaper.
    sheets.push(put(&job, &[&[2, 0, 1], &[], &[]], 0b011, [2, 0, 2]));
    sheets.push(put(&job, &[&[], &[3, 4, 2], &[]], 0b110, [3, 1, 1]));
    sheets
}

/// To the front, between two stops, to the end and one beyond it, and to a van without stops.
fn moves_between_vans() -> Vec<Sheet> {
    let job = street();

    vec![
        put(&job, &PLAN, 0b011, [0, 1, 0]),
        put(&job, &PLAN, 0b011, [0, 1, 1]),
        put(&job, &PLAN, 0b111, [0, 1, 2]),
        put(&job, &PLAN, 0b111, [0, 1, 3]),
        put(&job, &PLAN, 0b011, [4, 0, 0]),
        put(&job, &PLAN, 0b011, [3, 0, 3]),
        put(&job, &PLAN, 0b011, [3, 0, 4]),
        put(&job, &PLAN, 0b101, [1, 2, 0]),
        put(&job, &PLAN, 0b101, [1, 2, 1]),
        put(&job, &PLAN, 0b110, [3, 2, 0]),
    ]
}

/// The missed part becomes less, also for a caller of one van.
fn moves_from_no_route() -> Vec<Sheet> {
    let job = street();

    vec![
        put(&job, &PLAN, 0b001, [5, 0, 0]),
        put(&job, &PLAN, 0b001, [5, 0, 2]),
        put(&job, &PLAN, 0b111, [5, 0, 3]),
        put(&job, &PLAN, 0b111, [5, 0, 4]),
        put(&job, &PLAN, 0b010, [5, 1, 1]),
        put(&job, &PLAN, 0b100, [5, 2, 0]),
        put(&job, &PLAN, 0b100, [5, 2, 1]),
        put(&job, &[&[], &[], &[]], 0b011, [4, 0, 0]),
    ]
}

/// The route that it leaves costs the way from start to end.
fn moves_of_a_lone_stop() -> Vec<Sheet> {
    let job = street();
    let lone: [&[usize]; 3] = [&[0, 1], &[3], &[]];

    vec![
        put(&job, &lone, 0b110, [3, 2, 0]),
        put(&job, &lone, 0b011, [3, 0, 1]),
        put(&job, &lone, 0b010, [3, 1, 0]),
        // Without it there is one place alone.
        put(&job, &lone, 0b010, [3, 1, 1]),
    ]
}

/// All of these are refused as 15.
fn moves_not_own() -> Vec<Sheet> {
    let job = street();

    [
        // The stop is on another van, the van is another's, or both.
        (0b101, [3, 0, 0]),
        (0b101, [4, 2, 0]),
        (0b101, [0, 1, 0]),
        (0b001, [5, 1, 0]),
        (0b001, [3, 1, 0]),
        (0b001, [0, 2, 0]),
        (0, [0, 0, 0]),
        (0, [5, 2, 0]),
        // There is no such van, also where 32 less were one.
        (0b111, [0, 3, 0]),
        (0b111, [0, 31, 0]),
        (0b111, [0, 32, 0]),
        (0b111, [5, 33, 0]),
        (0b111, [5, 64, 0]),
        (0b111, [5, u32::MAX, 0]),
        // The caller's vans are no vans of the job.
        (0b1111, [0, 0, 0]),
        (0b1111, [5, 3, 0]),
        (0b001 | 1 << 31, [5, 0, 0]),
        (1 << 31, [5, 31, 0]),
        (u32::MAX, [1, 1, 1]),
        // There is no such place.
        (0b111, [1, 1, u32::MAX]),
        (0b111, [5, 1, 1 << 31]),
    ]
    .into_iter()
    .map(|(vans, numbers)| put(&job, &PLAN, vans, numbers))
    .collect()
}

/// Missed prices on both sides of a tie, squared metres, no prices, and the highest missed price.
fn moves_by_prices() -> Vec<Sheet> {
    let job = street();
    // The way through the one stop is shorter than the way without it.
    let shorter = Job {
        vehicles: vec![[0, 1], [1, 0]],
        stops: vec![2, 2],
        distances: vec![vec![0, 90, 4], vec![90, 0, 4], vec![4, 5, 0]],
        missed: 0,
        ..job_a()
    };
    let priced = |linear, quadratic, missed| Job {
        linear,
        quadratic,
        missed,
        ..job.clone()
    };
    // Before all others the stop adds 25 metres.
    let mut sheets = [0, 24, 25, 26]
        .map(|missed| put(&priced(1, 0, missed), &PLAN, 0b001, [5, 0, 0]))
        .to_vec();

    // The squares of 74 and 99 metres differ by 4,325.
    for missed in [4_324, 4_325, 4_326, MAX_MISSED_PRICE] {
        let job = priced(0, 1, missed);

        sheets.push(put(&job, &PLAN, 0b001, [5, 0, 0]));
    }

    for job in [priced(0, 0, 0), priced(3, 2, 7), priced(1_000_000, 16, 0)] {
        sheets.push(put(&job, &PLAN, 0b011, [1, 1, 0]));
        sheets.push(put(&job, &PLAN, 0b111, [4, 2, 0]));
        sheets.push(put(&job, &PLAN, 0b010, [4, 1, 1]));
    }

    sheets.push(put(&shorter, &[&[0], &[]], 0b11, [0, 1, 0]));
    sheets.push(put(&shorter, &[&[0], &[]], 0b01, [1, 0, 1]));
    sheets.push(put(&shorter, &[&[], &[]], 0b10, [1, 1, 0]));
    sheets
}

/// No van is nobody's, and no stop is none.
fn moves_of_few() -> Vec<Sheet> {
    let no_van = two_places(0, 2);
    let no_stop = two_places(2, 0);

    vec![
        put(&no_van, &[], 0, [1, 0, 0]),
        put(&no_van, &[], 1, [1, 0, 0]),
        put(&no_van, &[], 0, [2, 0, 0]),
        put(&no_stop, &[&[], &[]], 0b11, [0, 0, 0]),
        put(&two_places(1, 1), &[&[]], 1, [0, 0, 0]),
        put(&two_places(1, 1), &[&[0]], 1, [0, 0, 0]),
        put(&two_places(1, 1), &[&[0]], 1, [0, 0, 1]),
    ]
}

/// The last of 64 stops, the last of 16 vans, and the end of the longest route.
fn moves_of_many() -> Vec<Sheet> {
    let stops = two_places(2, 64);
    let vans = two_places(16, 17);
    let singles = (0..17).map(|stop| [stop]).collect::<Vec<_>>();
    let one_each = singles[..16]
        .iter()
        .map(|stop| &stop[..])
        .collect::<Vec<_>>();
    let all = (0..64).collect::<Vec<_>>();

    vec![
        put(&stops, &[&all[..63], &[]], 0b01, [63, 0, 63]),
        put(&stops, &[&all[..63], &[]], 0b01, [63, 0, 64]),
        put(&stops, &[&[], &all], 0b10, [63, 1, 0]),
        put(&stops, &[&[], &all], 0b10, [0, 1, 63]),
        put(&stops, &[&[], &all], 0b10, [0, 1, 64]),
        put(&stops, &[&all[..32], &all[32..]], 0b11, [32, 0, 31]),
        put(&vans, &one_each, 0x8000, [16, 15, 1]),
        put(&vans, &one_each, 0x8001, [0, 15, 0]),
        put(&vans, &one_each, 0xffff, [15, 0, 1]),
        put(&vans, &one_each, 0x7fff, [15, 0, 1]),
        put(&vans, &one_each, 0x7fff, [16, 15, 1]),
        put(&vans, &one_each, 0x1_ffff, [16, 15, 1]),
        put(&vans, &one_each, 0xffff, [16, 16, 0]),
    ]
}

/// Every list and price at its limit. All stops are on one van. As they stand three legs are free that are of the longest
/// where stop 20 is behind stop 40: no move changes the cost by more. And back.
fn largest() -> Vec<Sheet> {
    let stops = (0..64).collect::<Vec<usize>>();
    let mut moved = stops.clone();
    let mut distances = vec![vec![MAX_DISTANCE; 80]; 80];

    for (place, row) in distances.iter_mut().enumerate() {
        row[place] = 0;
    }

    for from in [19, 20, 40] {
        distances[from][from + 1] = 0;
    }

    let stop = moved.remove(20);

    moved.insert(40, stop);

    let job = Job {
        vehicles: (64..80).map(|place| [place, (place + 1) % 80]).collect(),
        stops: (0..64).collect(),
        distances,
        linear: 1_000_000,
        quadratic: 16,
        missed: MAX_MISSED_PRICE,
        ..job_a()
    };
    let mut routes = [&[][..]; 16];

    routes[15] = &stops;

    let dearer = put(&job, &routes, 0xffff, [20, 15, 40]);

    routes[15] = &moved;

    let cheaper = put(&job, &routes, 0x8000, [20, 15, 20]);

    vec![dearer, cheaper]
}

type Change = fn(&mut Sheet);

/// Changes of the example by the number of their refusal. A view takes those of 6, 7 and 8.
const CHANGES: [(u64, &[Change]); 7] = [
    (
        4,
        &[
            |sheet| sheet.plan.push(UNUSED),
            |sheet| sheet.plan.truncate(8),
            |sheet| sheet.plan.clear(),
            |sheet| sheet.plan.resize(96, UNUSED),
        ],
    ),
    (
        6,
        &[
            |sheet| sheet.job.vehicles[2][0] = 6,
            |sheet| sheet.job.vehicles[0][1] = u32::MAX,
            |sheet| sheet.job.stops[5] = 6,
            |sheet| sheet.job.distances.clear(),
        ],
    ),
    (
        7,
        &[
            |sheet| sheet.job.distances[3][5] = 200_001,
            |sheet| sheet.job.distances[0][1] = u32::MAX,
        ],
    ),
    (
        8,
        &[
            |sheet| sheet.job.linear = 1_000_001,
            |sheet| sheet.job.quadratic = 17,
            |sheet| sheet.job.missed = 10_000_000_000_001,
        ],
    ),
    (
        11,
        &[
            // A stop twice, one that the job has not, a length too many, lengths whose sum wraps, a number behind the last.
            |sheet| sheet.plan[3] = 1,
            |sheet| sheet.plan[7] = 6,
            |sheet| sheet.plan[2] = 1,
            |sheet| sheet.plan[1] = u32::MAX,
            |sheet| sheet.plan[8] = 5,
        ],
    ),
    (
        12,
        &[
            |sheet| set_stop(sheet, 6),
            |sheet| set_stop(sheet, 64),
            |sheet| set_stop(sheet, u32::MAX),
        ],
    ),
    (15, &[|sheet| sheet.given[0] |= 0b1000]),
];

/// Other ways to be refused as 15, for a move beside 12.
const NOT_OWN: [Change; 3] = [
    |sheet| sheet.given[0] = 0b100,
    |sheet| sheet.given[2] = 3,
    |sheet| sheet.given[3] = 4,
];

/// Smoothing count and limit, which neither call reads.
const UNREAD: [Change; 1] = [|sheet| {
    sheet.job.smoothing = 0;
    sheet.job.limit = 0;
}];

/// The example, each change of it, every two changes with refusals of their own, the lower of which is the answer, and
/// several changes at once. What a view has no number for changes nothing, and is left out.
fn refused(call: Call) -> Vec<Sheet> {
    let single = CHANGES
        .iter()
        .flat_map(|(_, changes)| changes.iter())
        .chain(&UNREAD)
        .map(|&change| changed(call, &[change]));
    let mut sheets = vec![changed(call, &[])];

    for sheet in single.chain(pairs(call)).chain(several(call)) {
        if !sheets.contains(&sheet) {
            sheets.push(sheet);
        }
    }

    sheets
}

/// The first changes of two numbers, where the call refuses either.
fn pairs(call: Call) -> Vec<Sheet> {
    let firsts = CHANGES
        .iter()
        .map(|(number, changes)| (*number, changes[0]))
        .filter(|&(number, change)| refusal(&changed(call, &[change])) == Some(number))
        .map(|(_, change)| change)
        .collect::<Vec<_>>();

    (0..firsts.len())
        .flat_map(|index| firsts[..index].iter().map(move |&lower| (index, lower)))
        .map(|(index, lower)| changed(call, &[firsts[index], lower]))
        .collect()
}

/// Of a move each way to be refused as 15 beside 12; of a view all that it does not read beside 11 and beside 15.
fn several(call: Call) -> Vec<Sheet> {
    if call == Call::MoveStop {
        return NOT_OWN
            .map(|not_own| changed(call, &[|sheet| set_stop(sheet, 6), not_own]))
            .to_vec();
    }

    let first = |number| {
        let (_, changes) = CHANGES.iter().find(|(other, _)| *other == number)?;

        changes.first().copied()
    };

    [11, 15]
        .map(|number| {
            let changes = [6, 7, 8, number].into_iter().filter_map(first);

            changed(call, &changes.collect::<Vec<_>>())
        })
        .to_vec()
}

fn changed(call: Call, changes: &[Change]) -> Sheet {
    let mut sheet = match call {
        Call::View => view(&street(), &PLAN, 0b101),
        _ => put(&street(), &PLAN, 0b011, [1, 1, 2]),
    };

    for change in changes {
        change(&mut sheet);
    }

    sheet
}

fn set_stop(sheet: &mut Sheet, stop: u32) {
    if sheet.call == Call::MoveStop {
        sheet.given[1] = stop;
    }
}

#[cfg(test)]
mod tests {
    use super::*;

    #[test]
    fn has_many_of_both_calls() {
        for (call, most, refused) in [(Call::View, 40, 15), (Call::MoveStop, 60, 60)] {
            let sheets = recorded_vans();
            let sheets = sheets.iter().filter(|sheet| sheet.call == call);
            let (no, yes) = sheets.partition::<Vec<_>, _>(|sheet| refusal(sheet).is_some());

            assert!(yes.len() >= most, "{call:?} {}", yes.len());
            assert!(no.len() >= refused, "{call:?} {}", no.len());
        }
    }

    #[test]
    fn refuses_each_change() {
        for (number, changes) in CHANGES {
            for &change in changes {
                assert_eq!(refusal(&changed(Call::MoveStop, &[change])), Some(number));
            }
        }

        for change in NOT_OWN {
            assert_eq!(refusal(&changed(Call::MoveStop, &[change])), Some(15));
        }

        for sheet in moves_not_own() {
            assert_eq!(refusal(&sheet), Some(15), "{:?}", sheet.given);
        }
    }
}
