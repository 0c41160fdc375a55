use crate::{Problem, Solution, Stop, Vehicle};
use allocator_api2::vec::Vec;
use core::{BasicProblem, BasicSolver, BasicStop, BasicVehicle, Router};
use ordered_float::OrderedFloat;
use std::collections::HashSet;

pub struct NearestNeighborSolver<R: Router> {
    router: R,
}

impl<R: Router> NearestNeighborSolver<R> {
    pub fn new(router: R) -> Self {
        Self { router }
    }
}

impl<R: Router> BasicSolver<Vehicle, Stop, Problem, Solution> for NearestNeighborSolver<R> {
    fn solve(&mut self, problem: &Problem) -> Solution {
        if problem.vehicle_count() == 0 {
            return Solution::new(Vec::new());
        }

        let mut solution = Solution::from_routes((0..problem.vehicle_count()).map(|_| []));
        let mut stops = HashSet::<usize>::from_iter(0..problem.stop_count());

        loop {
            for vehicle_index in 0..problem.vehicle_count() {
                if stops.is_empty() {
                    return solution;
                }

                let last_location = problem.location(
                    if let Some(&stop_index) = solution.routes()[vehicle_index].last() {
                        problem.stop(stop_index).location()
                    } else {
                        problem.vehicle(vehicle_index).start_location()
                    },
                );

                let stop_index = stops
                    .iter()
                    .copied()
                    .min_by_key(|index| {
                        (
                            OrderedFloat(self.router.route(
                                last_location,
                                problem.location(problem.stop(*index).location()),
                            )),
                            *index,
                        )
                    })
                    .expect("stop index");

                solution = solution.add_stop(vehicle_index, stop_index);
                stops.remove(&stop_index);
            }
        }
    }
}
