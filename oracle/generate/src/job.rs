use crate::Random;
use sheet::Job;

pub const MAX_DISTANCE: u32 = 200_000;
pub const MAX_MISSED_PRICE: u64 = 10_000_000_000_000;

/// Limits on the numbers of vehicles, stops and locations.
#[derive(Clone, Copy)]
pub struct Sizes {
    pub vehicles: u64,
    pub stops: u64,
    pub locations: u64,
}

impl Sizes {
    pub const TINY: Self = Self::new(2, 4, 4);
    pub const SMALL: Self = Self::new(3, 6, 9);
    pub const MEDIUM: Self = Self::new(6, 20, 30);
    pub const LARGE: Self = Self::new(16, 64, 80);

    pub const fn new(vehicles: u64, stops: u64, locations: u64) -> Self {
        Self {
            vehicles,
            stops,
            locations,
        }
    }
}

/// A job for a call that is no run.
pub fn any_job(random: &mut Random) -> Job {
    let sizes = random.choose(&[
        Sizes::TINY,
        Sizes::SMALL,
        Sizes::SMALL,
        Sizes::MEDIUM,
        Sizes::MEDIUM,
        Sizes::LARGE,
    ]);

    job(random, sizes)
}

/// A job for a run, with rounds as many as its size allows for a quick comparison.
pub fn run_job(random: &mut Random) -> Job {
    let sizes = random.choose(&[
        Sizes::TINY,
        Sizes::SMALL,
        Sizes::SMALL,
        Sizes::MEDIUM,
        Sizes::MEDIUM,
        Sizes::LARGE,
    ]);
    let mut job = job(random, sizes);

    job.limit = match job.stops.len() {
        0..=5 => random.choose(&[1, 9, 10, 50, 1_000, 1_000_000]),
        6..=20 => random.choose(&[1, 9, 10, 11, 50, 50]),
        _ => random.choose(&[1, 9, 10, 11, 20]),
    };

    // Idle rounds are bounded by the smoothing count, so that an unlimited run of a tiny job stays short.
    if job.limit > 50 {
        job.smoothing = random.choose(&[1, 2, 3, 20, 20, 100]);
    }

    job
}

pub fn small_job(random: &mut Random) -> Job {
    let mut job = job(random, Sizes::TINY);

    job.draws.truncate(5);
    job
}

/// A job with every list at its limit, which does not settle soon.
pub fn largest_job(random: &mut Random) -> Job {
    long_job(random, Sizes::LARGE)
}

/// A job of these sizes that places all stops and does not settle soon.
pub fn long_job(random: &mut Random, sizes: Sizes) -> Job {
    let last = sizes.locations as u32 - 1;

    Job {
        vehicles: (0..sizes.vehicles)
            .map(|_| [0; 2].map(|_| random.small(0..=last)))
            .collect(),
        stops: (0..sizes.stops).map(|_| random.small(0..=last)).collect(),
        distances: plane(random, sizes.locations as usize, MAX_DISTANCE),
        linear: 1_000_000,
        quadratic: random.choose(&[0, 16]),
        missed: MAX_MISSED_PRICE,
        smoothing: 1_000,
        limit: 50,
        draws: (0..1_024).map(|_| random.small(0..=u32::MAX)).collect(),
    }
}

/// A job for an arrival or a cancellation. Many have as many stops as there can be, few have none.
pub fn live_job(random: &mut Random) -> Job {
    let mut job = some_live_job(random);

    if job.stops.is_empty() && !random.once_in(10) {
        job = some_live_job(random);
    }

    job
}

fn some_live_job(random: &mut Random) -> Job {
    if random.once_in(8) {
        let sizes = Sizes {
            vehicles: random.within(0..=Sizes::LARGE.vehicles),
            stops: Sizes::LARGE.stops,
            locations: random.within(1..=Sizes::LARGE.locations),
        };

        sized_job(random, sizes)
    } else {
        any_job(random)
    }
}

/// A job for a view or a move. Many have as many vehicles or stops as there can be, few have none.
pub fn vans_job(random: &mut Random) -> Job {
    let Sizes {
        vehicles: most_vehicles,
        stops: most_stops,
        locations: most_locations,
    } = Sizes::LARGE;
    let vehicles = random.within(0..=most_vehicles);
    let stops = random.within(0..=most_stops);
    let locations = random.within(1..=most_locations);

    let mut job = match random.below(18) {
        0 => sized_job(random, Sizes::new(most_vehicles, most_stops, locations)),
        1 => sized_job(random, Sizes::new(most_vehicles, stops, 8)),
        2 => sized_job(random, Sizes::new(vehicles, most_stops, 8)),
        // Jobs with more than one vehicle and more than one stop.
        3..=8 => sized_job(
            random,
            Sizes::new(2 + vehicles / 4, 2 + stops / 4, 2 + locations / 8),
        ),
        _ => any_job(random),
    };

    put_price(random, &mut job);
    job
}

/// A job for roadworks. Many have few locations, so that a plan has one leg several times.
pub fn road_job(random: &mut Random) -> Job {
    if !random.once_in(3) {
        return vans_job(random);
    }

    let sizes = Sizes {
        vehicles: random.within(1..=4),
        stops: random.within(0..=20),
        locations: random.within(1..=3),
    };
    priced_job(random, sizes)
}

/// A job for a rebuild. Most have vehicles and stops for two regions.
pub fn walk_job(random: &mut Random) -> Job {
    if random.once_in(4) {
        return vans_job(random);
    }

    let sizes = Sizes {
        vehicles: random.within(2..=6),
        stops: random.within(2..=24),
        locations: random.within(1..=30),
    };
    priced_job(random, sizes)
}

/// A job of that size, which mostly has a price for driving.
fn priced_job(random: &mut Random, sizes: Sizes) -> Job {
    let mut job = sized_job(random, sizes);

    put_price(random, &mut job);
    job
}

/// Few jobs have no price at all for driving.
fn put_price(random: &mut Random, job: &mut Job) {
    if job.linear == 0 && job.quadratic == 0 && !random.once_in(4) {
        job.linear = 1;
    }
}

pub fn job(random: &mut Random, sizes: Sizes) -> Job {
    let sizes = if random.once_in(10) {
        sizes
    } else {
        Sizes {
            vehicles: random.within(0..=sizes.vehicles),
            stops: random.within(0..=sizes.stops),
            locations: random.within(1..=sizes.locations),
        }
    };

    sized_job(random, sizes)
}

/// A job of these numbers of stops and, where it has a place, locations.
fn sized_job(random: &mut Random, sizes: Sizes) -> Job {
    // Most jobs have a vehicle, and none without locations has a place.
    let vehicle_count = match sizes.vehicles {
        0 if !random.once_in(8) => 1,
        count => count,
    };
    let location_count = match vehicle_count + sizes.stops {
        0 => random.within(0..=sizes.locations),
        _ => sizes.locations,
    };
    let location = |random: &mut Random| random.below(location_count as usize) as u32;
    let vehicles = (0..vehicle_count)
        .map(|_| [location(random), location(random)])
        .collect();
    let stops = if sizes.stops <= location_count && random.once_in(2) {
        let mut locations = (0..location_count as u32).collect::<Vec<_>>();

        random.shuffle(&mut locations);
        locations.truncate(sizes.stops as usize);
        locations
    } else {
        (0..sizes.stops).map(|_| location(random)).collect()
    };

    let mut job = Job {
        vehicles,
        stops,
        distances: distances(random, location_count as usize),
        linear: match random.below(5) {
            0 => 0,
            1 | 2 => 1,
            3 => random.small(0..=100),
            _ => random.choose(&[1_000_000, 999_999, 12_345]),
        },
        quadratic: match random.below(4) {
            0 | 1 => 0,
            2 => 1,
            _ => random.small(0..=16),
        },
        missed: 0,
        smoothing: random.choose(&[1, 1, 2, 3, 20, 1_000]),
        limit: random.choose(&[1, 9, 10, 50]),
        draws: draws(random),
    };

    job.missed = missed(random, &job);
    job
}

/// A way to fill a table, with the largest distance.
#[derive(Clone, Copy)]
pub enum Table {
    Zero,
    Constant(u32),
    Uniform(u32),
    Plane(u32),
    /// Distances in a plane, some of them shortened.
    Bent(u32),
}

fn distances(random: &mut Random, count: usize) -> Vec<Vec<u32>> {
    let kind = match random.below(10) {
        0 => Table::Zero,
        1 => Table::Constant(random.choose(&[1, MAX_DISTANCE])),
        2..=4 => Table::Uniform(random.choose(&[1, 2, 5, 20])),
        5 | 6 => Table::Uniform(MAX_DISTANCE),
        7 => Table::Bent(MAX_DISTANCE),
        8 => Table::Plane(30),
        _ => Table::Plane(MAX_DISTANCE),
    };

    table(random, count, kind)
}

pub fn table(random: &mut Random, count: usize, kind: Table) -> Vec<Vec<u32>> {
    match kind {
        Table::Zero => vec![vec![0; count]; count],
        Table::Constant(distance) => vec![vec![distance; count]; count],
        Table::Uniform(max) => uniform(random, count, max),
        Table::Plane(max) => plane(random, count, max),
        Table::Bent(max) => {
            let mut distances = plane(random, count, max);

            for distance in distances.iter_mut().flatten() {
                *distance -= random.small(0..=*distance / 4);
            }

            distances
        }
    }
}

fn uniform(random: &mut Random, count: usize, max: u32) -> Vec<Vec<u32>> {
    (0..count)
        .map(|_| (0..count).map(|_| random.small(0..=max)).collect())
        .collect()
}

/// Distances between points of a plane, rounded.
fn plane(random: &mut Random, count: usize, max: u32) -> Vec<Vec<u32>> {
    let side = max as f64 / 2f64.sqrt();
    let points = (0..count)
        .map(|_| [0; 2].map(|_| random.below(1 << 20) as f64 / (1 << 20) as f64 * side))
        .collect::<Vec<_>>();
    let distance = |[a, b]: [f64; 2], [c, d]: [f64; 2]| {
        let square = (a - c) * (a - c) + (b - d) * (b - d);

        (square.sqrt().round() as u32).min(max)
    };

    points
        .iter()
        .map(|&one| points.iter().map(|&other| distance(one, other)).collect())
        .collect()
}

/// A missed price at which a run places every stop.
pub fn sufficient(job: &Job) -> u64 {
    let longest = job.distances.iter().flatten().copied().max().unwrap_or(0) as u64;
    let quadratic = job.quadratic as u64;

    2 * longest * job.linear as u64
        + 4 * (job.stops.len() as u64 + 1) * longest * longest * quadratic
}

fn missed(random: &mut Random, job: &Job) -> u64 {
    let longest = job.distances.iter().flatten().copied().max().unwrap_or(0) as u64;
    let sufficient = sufficient(job);

    match random.below(8) {
        0 => 0,
        1 => random.within(0..=5),
        2 => random.within(0..=longest * job.linear as u64),
        3 => random.within(0..=sufficient),
        4 => MAX_MISSED_PRICE,
        5 => sufficient.saturating_sub(1),
        _ => sufficient,
    }
    .min(MAX_MISSED_PRICE)
}

fn draws(random: &mut Random) -> Vec<u32> {
    let count = match random.below(6) {
        0 => 1,
        1 => random.within(2..=5),
        2 => random.choose(&[1_023, 1_024]),
        _ => random.within(1..=200),
    };
    let max = random.choose(&[u32::MAX, u32::MAX, 1_000, 1]);

    (0..count).map(|_| random.small(0..=max)).collect()
}
