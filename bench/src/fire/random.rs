//! Random arguments of every kind. They depend on the generator alone.

use super::arguments::Arguments;
use crate::proved::MAX_DISTANCE;
use generate::{accepted_sheet, long_job, plan, refuse, sheet, small_job, Random, Sizes};
use sheet::{contains, Call, Job, Sheet};

/// Arguments of a call: those of a sheet, some of them changed, and then such lists as no sheet holds.
pub fn arguments(random: &mut Random, call: Call) -> Arguments {
    let mut sheet = match random.below(8) {
        0 | 1 => edge_sheet(random, call),
        2 => {
            let job = small_job(random);

            sheet(random, call, job)
        }
        _ => accepted_sheet(random, call),
    };

    for _ in 0..random.choose(&[0, 0, 0, 1, 2]) {
        refuse(random, &mut sheet);
    }

    let mut arguments = Arguments::new(sheet, || random.number() as u32);

    for _ in 0..random.choose(&[0, 0, 0, 1, 1, 2, 3]) {
        change(random, &mut arguments);
    }

    ration(random, &mut arguments);
    arguments
}

/// A sheet whose lists are as long as they may be or one longer, empty, or of the least sizes at which something happens.
fn edge_sheet(random: &mut Random, call: Call) -> Sheet {
    let sizes = match call {
        Call::Exhaustive | Call::Pruned if !random.once_in(4) => Sizes::new(
            random.choose(&[0, 1, 2, 3, 3, 4]),
            random.choose(&[0, 1, 5, 6, 7]),
            random.choose(&[1, 2, 9, 80, 81]),
        ),
        _ => Sizes::new(
            random.choose(&[0, 1, 2, 15, 16, 16, 17]),
            random.choose(&[0, 1, 2, 63, 64, 64, 65]),
            random.choose(&[1, 2, 79, 80, 80, 81]),
        ),
    };
    let mut job = Job {
        smoothing: random.choose(&[1, 2, 1_000]),
        limit: random.choose(&[1, 9, 10, 11, 20]),
        ..long_job(random, sizes)
    };

    job.draws.truncate(random.choose(&[1, 2, 1_024]));

    // The longest legs, for the highest costs.
    if random.once_in(3) {
        job.distances.iter_mut().for_each(|row| row.fill(200_000));
    }

    sheet(random, call, job)
}

/// Changes one argument: to a length or a number at a limit or beyond it, or to numbers without a meaning.
fn change(random: &mut Random, arguments: &mut Arguments) {
    if arguments.call.has_live_stops() && random.once_in(2) {
        return change_live(random, arguments);
    }

    if arguments.call.has_vans() && random.once_in(2) {
        return change_vans(random, arguments);
    }

    if arguments.call.has_road() && random.once_in(2) {
        return change_road(random, arguments);
    }

    let stop_count = arguments.stops.len() as u32;
    let locations = arguments.locations;
    let location = random.choose(&[0, locations.wrapping_sub(1), locations, u32::MAX]);
    let stop = random.choose(&[0, stop_count.wrapping_sub(1), stop_count, u32::MAX]);
    let noise = random.number() as u32;

    match random.below(22) {
        0 => {
            resize(random, &mut arguments.vehicles, &[0, 1, 2, 31, 32, 33, 34]);
            fit_plan(random, arguments);
        }
        1 => {
            resize(random, &mut arguments.stops, &[0, 1, 63, 64, 65, 128]);
            fit_plan(random, arguments);
        }
        2 => change_table(random, arguments),
        3 => resize(
            random,
            &mut arguments.distances,
            &[0, 6_399, 6_400, 6_401, 6_561],
        ),
        4 => resize(random, &mut arguments.plan, &[0, 80, 81, 96]),
        5 => resize(
            random,
            &mut arguments.draws,
            &[0, 1, 1_023, 1_024, 1_025, 2_048],
        ),
        6 => set(random, &mut arguments.vehicles, location),
        7 => set(random, &mut arguments.stops, location),
        8 => {
            let distance = random.choose(&[0, 199_999, 200_000, 200_001, u32::MAX]);

            set(random, &mut arguments.distances, distance);
        }
        9 => arguments.linear = random.choose(&[0, 1_000_000, 1_000_001, u32::MAX]),
        10 => arguments.quadratic = random.choose(&[0, 16, 17, u32::MAX]),
        11 => {
            arguments.missed = random.choose(&[0, 10_000_000_000_000, 10_000_000_000_001, u64::MAX])
        }
        12 => arguments.smoothing = random.choose(&[0, 1, 1_000, 1_001, u32::MAX]),
        13 => arguments.limit = random.choose(&[0, 1, 1_000_000, 1_000_001, u32::MAX]),
        14 => set(random, &mut arguments.plan, stop),
        15 => set(random, &mut arguments.plan, noise),
        16 => set(random, &mut arguments.given, stop),
        17 => {
            let same = arguments.given.first().copied().unwrap_or(0);

            arguments.given.fill(same);
        }
        18 => {
            if arguments.call == Call::Rebuild {
                resize(random, &mut arguments.given, &[0, 1, 2, 3, 8, 64, 65]);
            }
        }
        19 => fill(random, arguments),
        20 => std::mem::swap(&mut arguments.vehicles, &mut arguments.stops),
        _ => empty(random, arguments),
    }
}

/// Changes the stop or the live stops of an arrival or a cancellation.
fn change_live(random: &mut Random, arguments: &mut Arguments) {
    let stop_count = arguments.stops.len() as u32;
    let noise = random.number();
    let some = random.small(0..=stop_count);
    let stop = random.choose(&[0, some, stop_count.wrapping_sub(1), stop_count, 63, 64]);

    match random.below(4) {
        0 => arguments.stop = stop,
        1 => {
            arguments.stop =
                random.choose(&[65, stop.wrapping_add(64), 1 << 31, u32::MAX, noise as u32])
        }
        2 => {
            arguments.live =
                random.choose(&[0, u64::MAX, noise, arguments.all(), 1 << (noise % 64)])
        }
        _ => arguments.live = fitted_live(random, arguments),
    }
}

/// Live stops by the plan: its stops, some or all others with them, or such with one too few or too many.
fn fitted_live(random: &mut Random, arguments: &Arguments) -> u64 {
    let (placed, all) = (arguments.placed(), arguments.all());
    let some = placed | (random.number() & all);
    let live = random.choose(&[placed, some, all]);
    let mut one_of = |set: u64| {
        let stops = (0..u64::BITS).filter(|&stop| contains(set, stop));
        let stops = stops.collect::<Vec<_>>();

        match stops.is_empty() {
            true => 0,
            false => 1 << random.choose(&stops),
        }
    };
    let (missing, foreign) = (one_of(placed), one_of(!all));

    match random.below(4) {
        0 => live & !missing,
        1 => live | foreign,
        2 => live ^ 1 << (arguments.stop % u64::BITS),
        _ => live,
    }
}

/// Changes what a caller asks for: the vans, the list of a view, or the stop, the van or the place of a move.
fn change_vans(random: &mut Random, arguments: &mut Arguments) {
    let vehicle_count = arguments.vehicles.len() as u32 / 2;
    let stop_count = arguments.stops.len() as u32;
    let noise = random.number() as u32;
    let is_move = arguments.call == Call::MoveStop;

    match random.below(if is_move { 5 } else { 2 }) {
        0 => {
            let all = arguments.all_vans();
            let one = 1 << (noise % u32::BITS);
            let flipped = arguments.vans ^ one;

            arguments.vans = random.choose(&[0, all, noise & all, flipped, one, noise, u32::MAX]);
        }
        1 if is_move => {
            let some = random.small(0..=stop_count);

            arguments.stop = random.choose(&[
                some,
                some,
                stop_count.wrapping_sub(1),
                stop_count,
                64,
                some.wrapping_add(64),
                u32::MAX,
                noise,
            ]);
        }
        1 => resize(random, &mut arguments.seen, &[0, 80, 81, 96]),
        2 => {
            let some = random.small(0..=vehicle_count);

            arguments.van = random.choose(&[
                some,
                vehicle_count,
                31,
                32,
                some + 32,
                some + 64,
                u32::MAX,
                noise,
            ]);
        }
        3 => {
            let end = arguments.end().unwrap_or(0) as u32;

            arguments.place = random.choose(&[0, end, end.wrapping_sub(1), end + 1, end + 2]);
        }
        _ => arguments.place = random.choose(&[stop_count, 64, 1 << 31, u32::MAX, noise]),
    }
}

/// Changes the road of roadworks, or by how much it becomes longer.
fn change_road(random: &mut Random, arguments: &mut Arguments) {
    match random.below(6) {
        0 => arguments.road.from = road_end(random, arguments.locations),
        1 => arguments.road.to = road_end(random, arguments.locations),
        2 => {
            let legs = arguments.legs().concat();

            if !legs.is_empty() {
                [arguments.road.from, arguments.road.to] = random.choose(&legs);
                arguments.road.more = metres(random, arguments);
            }
        }
        3 => gather(random, arguments),
        _ => arguments.road.more = metres(random, arguments),
    }
}

/// A location, one that is none, or one with which a place in the table counted in 32 bits would be in the table again.
fn road_end(random: &mut Random, locations: u32) -> u32 {
    let some = random.small(0..=locations.saturating_sub(1));
    let noise = random.number() as u32;

    random.choose(&[
        0,
        some,
        some,
        locations.wrapping_sub(1),
        locations,
        locations.wrapping_add(1),
        (u32::MAX / locations.max(1)).wrapping_add(1),
        1 << 31,
        u32::MAX,
        noise,
    ])
}

/// Metres for the road: none, as many as it may become longer, one more, or so many that 32 bits do not hold its new length.
fn metres(random: &mut Random, arguments: &Arguments) -> u32 {
    let length = arguments.road_length().unwrap_or(0);
    let most = MAX_DISTANCE.saturating_sub(length);
    let some = random.small(0..=most);
    let round = length.wrapping_neg();
    let noise = random.number() as u32;

    random.choose(&[
        0,
        1,
        some,
        some,
        most,
        most,
        most + 1,
        MAX_DISTANCE,
        MAX_DISTANCE + 1,
        round.wrapping_sub(1),
        round,
        round.wrapping_add(some),
        u32::MAX,
        noise,
    ])
}

/// Puts all vehicles and stops at one location, so that each leg is the same road, which becomes as long as it may be: for the
/// highest rise.
fn gather(random: &mut Random, arguments: &mut Arguments) {
    let count = arguments.locations;
    let location = random.small(0..=count.saturating_sub(1));
    let place = location as usize * (count as usize + 1);

    arguments.vehicles.fill(location);
    arguments.stops.fill(location);
    [arguments.road.from, arguments.road.to] = [location; 2];

    if let Some(length) = arguments.distances.get_mut(place) {
        *length = random.choose(&[0, 0, 1, 100_000, MAX_DISTANCE]);
        arguments.road.more = MAX_DISTANCE - *length;
    }
}

/// Gives a list another length: one of these, one more or one less. New numbers are a copy of the last.
fn resize(random: &mut Random, list: &mut Vec<u32>, lengths: &[usize]) {
    let length = match random.below(4) {
        0 => list.len() + 1,
        1 => list.len().saturating_sub(1),
        _ => random.choose(lengths),
    };
    let last = list.last().copied().unwrap_or(0);

    list.resize(length, last);
}

/// Mostly gives the plan, and the list of a view, the length that vehicles and stops ask for, and then live stops by it.
fn fit_plan(random: &mut Random, arguments: &mut Arguments) {
    if !random.once_in(4) {
        arguments.plan = plan(random, arguments.vehicles.len() / 2, arguments.stops.len());
        arguments.live = fitted_live(random, arguments);

        if arguments.call == Call::View {
            arguments.seen = arguments.plan.iter().map(|number| !number).collect();
        }
    }
}

/// Gives another number of locations, in half of the cases with a table that fits. The square of 65,536 is 0 in 32 bits.
fn change_table(random: &mut Random, arguments: &mut Arguments) {
    let locations = arguments.locations;

    arguments.locations = random.choose(&[
        0,
        1,
        locations.wrapping_sub(1),
        locations.wrapping_add(1),
        79,
        80,
        81,
        65_536,
        u32::MAX,
    ]);

    if random.once_in(2) {
        let count = arguments.locations.wrapping_mul(arguments.locations) as usize;
        let distance = random.choose(&[0, 1, 200_000]);

        arguments.distances.resize(count.min(7_000), distance);
    }
}

/// Sets one number of a list, often the first or the last.
fn set(random: &mut Random, list: &mut [u32], number: u32) {
    if let Some(last) = list.len().checked_sub(1) {
        let place = random.choose(&[0, last, random.clone().below(last + 1)]);

        list[place] = number;
    }
}

/// Fills a list with numbers without a meaning.
fn fill(random: &mut Random, arguments: &mut Arguments) {
    let list = match random.below(7) {
        0 => &mut arguments.vehicles,
        1 => &mut arguments.stops,
        2 => &mut arguments.distances,
        3 => &mut arguments.draws,
        4 => &mut arguments.given,
        5 => &mut arguments.seen,
        _ => &mut arguments.plan,
    };
    let mask = random.choose(&[u32::MAX, 127, 3]);

    list.fill_with(|| random.number() as u32 & mask);
}

/// Empties lists, all of them in half of the cases.
fn empty(random: &mut Random, arguments: &mut Arguments) {
    let is_all = random.once_in(2);
    let mut chosen = || is_all || random.once_in(3);

    if chosen() {
        arguments.vehicles.clear();
    }

    if chosen() {
        arguments.stops.clear();
    }

    if chosen() {
        arguments.distances.clear();
        arguments.locations = 0;
    }

    if chosen() {
        arguments.plan.clear();
    }

    if chosen() {
        arguments.seen.clear();
    }

    // The pair of a two-opt is no list.
    if chosen() && arguments.call == Call::Rebuild {
        arguments.given.clear();
    }

    if chosen() && !is_all {
        arguments.draws.clear();
    }
}

/// Cuts runs short, so that a million calls take minutes. A run of few stops that settles by itself may have any limit.
fn ration(random: &mut Random, arguments: &mut Arguments) {
    let longest = match arguments.stops.len() {
        0 | 1 => return,
        2..=5 if arguments.smoothing <= 20 || random.once_in(50) => return,
        2..=5 => 100,
        6..=20 => 50,
        _ => 20,
    };

    if (1..=1_000_000).contains(&arguments.limit) && !arguments.vehicles.is_empty() {
        arguments.limit = arguments.limit.min(longest);
    }
}
