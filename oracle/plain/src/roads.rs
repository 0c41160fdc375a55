//! What a road that roadworks make longer can cost a plan at most, as the request words it: every leg of every route is looked
//! at, and every route is measured from the table.

use crate::live::length;
use sheet::{Job, Road, Routes};

/// k × S × (w + q × (2 × T + k × S)), where S counts the uses of the road and T is the length of all routes together.
pub fn ceiling(job: &Job, routes: &Routes, road: Road) -> u64 {
    let [linear, quadratic] = [job.linear, job.quadratic].map(u64::from);
    let added = road.more as u64 * uses(job, routes, road);
    let driven = (0..routes.len())
        .map(|vehicle| length(job, vehicle, &routes[vehicle]))
        .sum::<u64>();

    added * (linear + quadratic * (2 * driven + added))
}

/// How many legs of all routes go from the road's one location to its other.
fn uses(job: &Job, routes: &Routes, road: Road) -> u64 {
    let mut count = 0;

    for vehicle in 0..routes.len() {
        for leg in legs(job, vehicle, &routes[vehicle]) {
            if leg == [road.from, road.to] {
                count += 1;
            }
        }
    }

    count
}

/// The locations that each leg of a route goes between. A route without stops has the one leg from start to end.
fn legs(job: &Job, vehicle: usize, stops: &[usize]) -> Vec<[u32; 2]> {
    let [start, end] = job.vehicles[vehicle];
    let mut places = vec![start];

    places.extend(stops.iter().map(|&stop| job.stops[stop]));
    places.push(end);
    places.windows(2).map(|leg| [leg[0], leg[1]]).collect()
}

#[cfg(test)]
mod tests {
    use super::*;
    use crate::live::price;
    use sheet::job_a;

    fn priced(linear: u32, quadratic: u32) -> Job {
        Job {
            linear,
            quadratic,
            ..job_a()
        }
    }

    fn road(from: u32, to: u32, more: u32) -> Road {
        Road { from, to, more }
    }

    #[test]
    fn counts_each_leg_of_a_route() {
        let job = priced(1, 0);
        let both = vec![vec![1, 0]];

        // From 0 by 2 and by 1 back to 0, each leg once and none the other way round.
        for (from, to, ceiling_of_one) in [
            (0, 2, 1),
            (2, 1, 1),
            (1, 0, 1),
            (2, 0, 0),
            (1, 2, 0),
            (0, 1, 0),
            (0, 0, 0),
        ] {
            for more in [0, 1, 5] {
                assert_eq!(
                    ceiling(&job, &both, road(from, to, more)),
                    ceiling_of_one * more as u64
                );
            }
        }
    }

    #[test]
    fn has_the_figures_of_job_a() {
        let both = vec![vec![1, 0]];

        assert_eq!(ceiling(&priced(1, 0), &both, road(2, 1, 5)), 5);
        assert_eq!(ceiling(&priced(2, 1), &both, road(2, 1, 5)), 95);
        assert_eq!(ceiling(&priced(2, 1), &both, road(1, 2, 5)), 0);
        assert_eq!(ceiling(&priced(2, 1), &vec![vec![]], road(0, 0, 5)), 35);
    }

    #[test]
    fn adds_the_lengths_of_all_routes() {
        let job = Job {
            vehicles: vec![[0, 0], [0, 1]],
            ..priced(2, 1)
        };

        // 2 + 2 metres and 3 + 1, of which the road is one leg: 5 × (2 + 2 × 8 + 5). The first route alone rises by 75.
        assert_eq!(ceiling(&job, &vec![vec![0], vec![1]], road(0, 1, 5)), 115);
    }

    #[test]
    fn counts_a_road_as_often_as_it_is_used() {
        let job = Job {
            vehicles: vec![[0, 0]; 3],
            stops: vec![0; 4],
            distances: vec![vec![1]],
            ..priced(3, 2)
        };

        // Three legs, two, and the one of a route without stops; 6 metres before, and 4 × 6 more.
        assert_eq!(
            ceiling(&job, &vec![vec![0, 1], vec![2], vec![]], road(0, 0, 4)),
            24 * (3 + 2 * (2 * 6 + 24))
        );
        // A stop that is on no route adds no use.
        assert_eq!(
            ceiling(&job, &vec![vec![], vec![3], vec![]], road(0, 0, 1)),
            4 * (3 + 2 * (2 * 4 + 4))
        );
        assert_eq!(ceiling(&Job::default(), &vec![], road(0, 0, 1)), 0);
    }

    #[test]
    fn is_never_below_the_rise() {
        let cost = |job: &Job, routes: &Routes| {
            (0..routes.len())
                .map(|vehicle| price(job, length(job, vehicle, &routes[vehicle])))
                .sum::<u64>()
        };
        let job = Job {
            vehicles: vec![[0, 0], [0, 1], [2, 2]],
            ..priced(2, 1)
        };

        for routes in [
            vec![vec![0, 1], vec![], vec![]],
            vec![vec![0], vec![1], vec![]],
            vec![vec![], vec![1, 0], vec![]],
            vec![vec![], vec![], vec![]],
        ] {
            for from in 0..3 {
                for to in 0..3 {
                    for more in [0, 1, 7, 1_000] {
                        let road = road(from, to, more);
                        let rise = cost(&job.lengthened(road), &routes) - cost(&job, &routes);

                        assert!(ceiling(&job, &routes, road) >= rise);
                    }
                }
            }
        }
    }
}
