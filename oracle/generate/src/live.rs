//! Arguments of arrivals and cancellations, and whole days of them.

use crate::{
    job::{live_job, MAX_MISSED_PRICE},
    sheet::plan,
    Random,
};
use sheet::{
    all_stops, contains, decode, encode, given_live, placed_stops, Call, Job, Routes, Sheet,
};

/// A sheet of a job that is accepted where the job has a stop.
pub fn live_sheet(random: &mut Random, call: Call, mut job: Job) -> Sheet {
    let stop_count = job.stops.len();
    let plan = plan(random, job.vehicles.len(), stop_count);
    let mut routes = decode(&plan, job.vehicles.len(), stop_count).expect("a plan");
    let stop = match stop_count {
        0 => 0,
        _ if random.once_in(4) => stop_count - 1,
        _ => random.below(stop_count),
    };

    if call == Call::Arrive || random.once_in(4) {
        for route in &mut routes {
            route.retain(|&other| other != stop);
        }
    }

    let live = live_stops(random, &routes, stop_count);
    let live = match call {
        _ if stop_count == 0 => 0,
        Call::Arrive => live & !(1 << stop),
        _ => live | 1 << stop,
    };

    if call == Call::Arrive && stop_count > 0 && random.once_in(4) {
        tie(random, &mut job, &routes, stop);
    }

    Sheet {
        call,
        given: given_live(stop as u32, live),
        plan: encode(&routes, stop_count),
        job,
    }
}

/// All placed stops and none, some, many or all of the others.
fn live_stops(random: &mut Random, routes: &Routes, stop_count: usize) -> u64 {
    let others = match random.below(5) {
        0 | 1 => 0,
        2 => random.number() & random.number(),
        3 => random.number() | random.number(),
        _ => u64::MAX,
    };

    placed_stops(routes) | (others & all_stops(stop_count))
}

/// Makes missing a stop as dear as placing it, or nearly so.
fn tie(random: &mut Random, job: &mut Job, routes: &Routes, stop: usize) {
    let rises = (0..routes.len()).flat_map(|vehicle| {
        let old = price(job, vehicle, &routes[vehicle]);
        let job = &*job;

        (0..=routes[vehicle].len()).map(move |place| {
            let mut route = routes[vehicle].clone();

            route.insert(place, stop);
            price(job, vehicle, &route) as i64 - old as i64
        })
    });

    if let Some(least) = rises.min() {
        let price = least + random.choose(&[-1, 0, 0, 1]);

        job.missed = price.clamp(0, MAX_MISSED_PRICE as i64) as u64;
    }
}

fn price(job: &Job, vehicle: usize, route: &[usize]) -> u64 {
    let [start, end] = job.vehicles[vehicle];
    let places = [start]
        .into_iter()
        .chain(route.iter().map(|&stop| job.stops[stop]))
        .chain([end])
        .map(|place| place as usize)
        .collect::<Vec<_>>();
    let length = places
        .windows(2)
        .map(|leg| job.distances[leg[0]][leg[1]] as u64)
        .sum::<u64>();

    length * (job.linear as u64 + length * job.quadratic as u64)
}

/// What happens on a day. A stop may be any number.
#[derive(Clone, Copy, Debug, Eq, PartialEq)]
pub enum Event {
    Arrival(u32),
    Cancellation(u32),
}

impl Event {
    pub fn stop(self) -> u32 {
        match self {
            Self::Arrival(stop) | Self::Cancellation(stop) => stop,
        }
    }
}

/// A job that no call refuses, and what happens from an empty plan and no live stop on.
#[derive(Clone, Debug, Eq, PartialEq)]
pub struct Day {
    pub job: Job,
    pub events: Vec<Event>,
}

/// A day of 5 to 40 events, one in fifty of up to 160. It depends on the seed and its number alone.
pub fn day(seed: u64, index: u64) -> Day {
    let random = &mut Random::new(seed, index);
    let mut job = live_job(random);

    job.draws.truncate(1);

    let count = if random.once_in(50) {
        random.within(41..=160)
    } else {
        random.within(5..=40)
    };
    // How many of ten events are arrivals, as far as there are stops to arrive.
    let arrivals = random.choose(&[5, 6, 7, 9, 10]);
    let stop_count = job.stops.len() as u32;
    let mut live = 0;
    let events = (0..count)
        .map(|_| event(random, stop_count, arrivals, &mut live))
        .collect();

    Day { job, events }
}

/// An event of a stop, three in four times one that is to be accepted where the day has a stop, and the live stops after
/// it.
fn event(random: &mut Random, stop_count: u32, arrivals: usize, live: &mut u64) -> Event {
    let all = all_stops(stop_count as usize);
    let is_arrival = match *live {
        0 if !random.once_in(4) => true,
        live if live == all && !random.once_in(4) => false,
        _ => random.below(10) < arrivals,
    };
    let stops = (0..stop_count)
        .filter(|&stop| contains(*live, stop) != is_arrival)
        .collect::<Vec<_>>();
    let stop = match random.below(12) {
        0 => random.choose(&[stop_count, stop_count + 1, 63, 64, 65, 256, u32::MAX]),
        1 | 2 if stop_count > 0 => random.small(0..=stop_count - 1),
        _ if !stops.is_empty() => random.choose(&stops),
        _ => random.small(0..=stop_count),
    };

    if stop < stop_count {
        if is_arrival {
            *live |= 1 << stop;
        } else {
            *live &= !(1 << stop);
        }
    }

    if is_arrival {
        Event::Arrival(stop)
    } else {
        Event::Cancellation(stop)
    }
}
