//! Stops that arrive and are cancelled while the day goes on. Nothing is kept between two candidates: each is a whole plan
//! that is weighed from the table, so that it can be compared with a computation that weighs only what changes.

use sheet::{Changed, Job, Routes};

/// Puts a stop that is not live where the plan then costs least.
pub fn arrive(job: &Job, routes: &Routes, live: u64, stop: usize) -> Changed {
    let live = live | 1 << stop;
    let unplaced = Changed {
        live,
        cost: cost(job, routes, live),
        routes: routes.clone(),
    };
    let mut best: Option<Changed> = None;

    for vehicle in 0..routes.len() {
        for place in 0..=routes[vehicle].len() {
            let mut routes = routes.clone();

            routes[vehicle].insert(place, stop);

            let cost = cost(job, &routes, live);

            // The first of equal places is the one on the lower vehicle, then the earlier one.
            if best.as_ref().is_none_or(|best| cost < best.cost) {
                best = Some(Changed { live, cost, routes });
            }
        }
    }

    match best {
        Some(best) if unplaced.cost < best.cost => unplaced,
        Some(best) => best,
        None => unplaced,
    }
}

/// Takes a live stop off its route, where it is on one, and out of the live stops.
pub fn cancel(job: &Job, routes: &Routes, live: u64, stop: usize) -> Changed {
    let live = live & !(1 << stop);
    let mut routes = routes.clone();

    for route in &mut routes {
        route.retain(|&other| other != stop);
    }

    Changed {
        live,
        cost: cost(job, &routes, live),
        routes,
    }
}

/// The price of driving, and the missed price for each live stop that is on no route.
fn cost(job: &Job, routes: &Routes, live: u64) -> u64 {
    let placed = routes.iter().map(|route| route.len() as u64).sum::<u64>();
    let missed = live.count_ones() as u64 - placed;
    let driving = (0..routes.len())
        .map(|vehicle| price(job, length(job, vehicle, &routes[vehicle])))
        .sum::<u64>();

    driving + job.missed * missed
}

pub fn price(job: &Job, length: u64) -> u64 {
    length * job.linear as u64 + length * length * job.quadratic as u64
}

/// Metres from a vehicle's start through its stops to its end.
pub fn length(job: &Job, vehicle: usize, stops: &[usize]) -> u64 {
    let [start, end] = job.vehicles[vehicle];
    let mut from = start;
    let mut length = 0;

    for to in stops.iter().map(|&stop| job.stops[stop]).chain([end]) {
        length += job.distances[from as usize][to as usize] as u64;
        from = to;
    }

    length
}

#[cfg(test)]
mod tests {
    use super::*;
    use sheet::job_a;

    fn job(missed: u64) -> Job {
        Job { missed, ..job_a() }
    }

    fn changed(live: u64, cost: u64, routes: &[&[usize]]) -> Changed {
        Changed {
            live,
            cost,
            routes: routes.iter().map(|route| route.to_vec()).collect(),
        }
    }

    #[test]
    fn puts_a_stop_where_the_cost_is_least() {
        assert_eq!(
            arrive(&job(100), &vec![vec![0]], 1, 1),
            changed(3, 6, &[&[1, 0]])
        );
    }

    #[test]
    fn leaves_a_stop_off_where_that_is_strictly_cheaper() {
        for (missed, answer) in [
            (0, changed(1, 0, &[&[]])),
            (3, changed(1, 3, &[&[]])),
            (4, changed(1, 4, &[&[0]])),
        ] {
            assert_eq!(arrive(&job(missed), &vec![vec![]], 0, 0), answer);
        }
    }

    #[test]
    fn places_nothing_without_a_vehicle() {
        let job = Job {
            vehicles: vec![],
            ..job(0)
        };

        assert_eq!(arrive(&job, &vec![], 0, 1), changed(2, 0, &[]));
    }

    #[test]
    fn takes_the_first_of_equal_places() {
        let job = Job {
            vehicles: vec![[0, 0]; 2],
            stops: vec![0; 3],
            distances: vec![vec![0]],
            ..job(0)
        };

        assert_eq!(
            arrive(&job, &vec![vec![1], vec![0]], 3, 2),
            changed(7, 0, &[&[2, 1], &[0]])
        );
    }

    #[test]
    fn forgets_a_cancelled_stop() {
        assert_eq!(
            cancel(&job(100), &vec![vec![1, 0]], 3, 1),
            changed(1, 4, &[&[0]])
        );
        assert_eq!(
            cancel(&job(100), &vec![vec![0]], 3, 1),
            changed(1, 4, &[&[0]])
        );
    }
}
