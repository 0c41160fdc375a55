//! A caller who holds some vans: what such a caller sees, and a move among those vans. Both plans of a move are weighed from
//! the table, so that it can be compared with a computation that weighs only what changes.

use crate::live::{length, price};
use sheet::{all_stops, holds, placed_stops, Job, Moved, Routes, Seen};

/// The stops on no route, and the routes of the caller's vans alone.
pub fn view(job: &Job, routes: &Routes, vans: u32) -> Seen {
    let mut seen = vec![vec![]; routes.len()];

    for van in 0..routes.len() {
        if holds(vans, van) {
            seen[van] = routes[van].clone();
        }
    }

    Seen {
        unplaced: all_stops(job.stops.len()) & !placed_stops(routes),
        routes: seen,
    }
}

/// Takes a stop off its route, where it is on one, and puts it at a place of a van.
pub fn move_stop(
    job: &Job,
    routes: &Routes,
    vans: u32,
    stop: usize,
    van: usize,
    place: usize,
) -> Moved {
    let mut new = routes.clone();

    for route in &mut new {
        route.retain(|&other| other != stop);
    }

    new[van].insert(place, stop);

    let change = cost(job, &new, vans) - cost(job, routes, vans);

    Moved {
        change: change as i64,
        routes: new,
    }
}

/// The price of the caller's routes, and the missed price for each stop that is on no route at all.
fn cost(job: &Job, routes: &Routes, vans: u32) -> i128 {
    let placed = routes.iter().map(Vec::len).sum::<usize>();
    let missed = job.stops.len() - placed;
    let driving = (0..routes.len())
        .filter(|&van| holds(vans, van))
        .map(|van| price(job, length(job, van, &routes[van])) as i128)
        .sum::<i128>();

    driving + job.missed as i128 * missed as i128
}

#[cfg(test)]
mod tests {
    use super::*;
    use sheet::job_a;

    fn routes(routes: &[&[usize]]) -> Routes {
        routes.iter().map(|route| route.to_vec()).collect()
    }

    /// Places 0, 10, 20, 30 and 40 along a street, with two vans from its ends and back.
    fn street() -> Job {
        Job {
            vehicles: vec![[0, 0], [4, 4]],
            stops: vec![1, 2, 3],
            distances: (0..5u32)
                .map(|one| (0..5).map(|other| 10 * one.abs_diff(other)).collect())
                .collect(),
            ..job_a()
        }
    }

    #[test]
    fn shows_own_routes_and_unplaced_stops() {
        let plan = routes(&[&[1], &[0]]);

        for (vans, seen) in [
            (0b00, routes(&[&[], &[]])),
            (0b01, routes(&[&[1], &[]])),
            (0b10, routes(&[&[], &[0]])),
            (0b11, plan.clone()),
        ] {
            assert_eq!(
                view(&street(), &plan, vans),
                Seen {
                    unplaced: 0b100,
                    routes: seen
                }
            );
        }
    }

    #[test]
    fn moves_to_a_place_counted_without_the_stop() {
        let plan = routes(&[&[0, 1, 2], &[]]);
        let moved = |stop, van, place| move_stop(&street(), &plan, 0b11, stop, van, place);

        for (place, new, change) in [(0, [0, 1, 2], 0), (1, [1, 0, 2], 20), (2, [1, 2, 0], 0)] {
            assert_eq!(
                moved(0, 0, place),
                Moved {
                    change,
                    routes: routes(&[&new, &[]])
                }
            );
        }

        // The first van drives 20 less, the other 20 there and back.
        assert_eq!(
            moved(2, 1, 0),
            Moved {
                change: 0,
                routes: routes(&[&[0, 1], &[2]])
            }
        );
    }

    #[test]
    fn counts_a_stop_as_missed_no_more() {
        assert_eq!(
            move_stop(&street(), &routes(&[&[0], &[]]), 0b10, 2, 1, 0),
            Moved {
                change: 20 - 100,
                routes: routes(&[&[0], &[2]])
            }
        );
    }
}
