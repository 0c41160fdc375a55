use crate::{
    cost::CostCalculator,
    hash_map::HashMap,
    utility::{compare_solutions, permutations},
    Problem, Solution, Stop, Vehicle,
};
use allocator_api2::alloc::Global;
use bumpalo::Bump;
use core::{BasicProblem, BasicSolver, BasicStop, Router};
use itertools::Itertools;
use ordered_float::OrderedFloat;
use rand::{rngs::Draws, seq::IteratorRandom};
use std::ops::Range;

const MIN_ITERATION_COUNT: usize = 10;
const MAX_FACTORIAL_SUB_PROBLEM_SIZE: usize = 8;
const MAX_VEHICLE_REGION_SIZE: usize = 2;
const MIN_DELTA_RATIO: f64 = 0.01;
const TWO_OPT_MAX_STOP_COUNT: usize = 10;

#[derive(Debug)]
struct RouteRegion {
    vehicle_index: usize,
    stop_range: Range<usize>,
}

/// What a run has done: its costs, its rounds, and whether it settled or was cut at the limit.
#[derive(Clone, Copy, Debug, Default)]
pub struct Run {
    pub start_cost: f64,
    pub end_cost: f64,
    pub iteration_count: usize,
    pub improving_iteration_count: usize,
    pub settled: bool,
}

pub struct RuinAndRecreateSolver<
    C: CostCalculator,
    R: Router,
    S: BasicSolver<Vehicle, Stop, Problem, Solution>,
> {
    initial_solver: S,
    cost_calculator: C,
    router: R,
    moving_average_data_point_count: usize,
    max_iteration_count: usize,
    rng: Draws,
    run: Run,
}

impl<C: CostCalculator, R: Router, S: BasicSolver<Vehicle, Stop, Problem, Solution>>
    RuinAndRecreateSolver<C, R, S>
{
    pub fn new(
        cost_calculator: C,
        router: R,
        initial_solver: S,
        moving_average_data_point_count: usize,
        max_iteration_count: usize,
        rng: Draws,
    ) -> Self {
        Self {
            initial_solver,
            cost_calculator,
            router,
            moving_average_data_point_count,
            max_iteration_count,
            rng,
            run: Run::default(),
        }
    }

    pub fn run(&self) -> Run {
        self.run
    }

    fn run_dynamic_programming(
        &mut self,
        solution: &Solution,
        closest_stops: &[Vec<usize>],
    ) -> Solution {
        let stop_indexes = self.choose_stops(closest_stops);

        self.rebuild(solution, &stop_indexes)
    }

    pub fn rebuild(&mut self, solution: &Solution, stop_indexes: &[usize]) -> Solution {
        let regions = self.choose_regions(solution, stop_indexes);

        self.optimize_regions(solution, &regions)
    }

    fn choose_stops(&mut self, closest_stops: &[Vec<usize>]) -> Vec<usize> {
        let vehicle_count = (1..MAX_VEHICLE_REGION_SIZE + 1)
            .choose(&mut self.rng)
            .expect("vehicle count");

        let (stop_index, closest_stop_indexes) = closest_stops
            .iter()
            .enumerate()
            .choose(&mut self.rng)
            .expect("stop pair");

        [stop_index]
            .iter()
            .chain(closest_stop_indexes)
            .copied()
            .choose_multiple(&mut self.rng, vehicle_count)
    }

    fn choose_regions(&mut self, solution: &Solution, stop_indexes: &[usize]) -> Vec<RouteRegion> {
        let vehicle_count = stop_indexes.len();
        let pairs = stop_indexes
            .iter()
            .copied()
            .flat_map(|stop_index| {
                Self::find_vehicle(solution, stop_index)
                    .map(|vehicle_index| (vehicle_index, stop_index))
            })
            .unique_by(|(vehicle_index, _)| *vehicle_index)
            .collect::<Vec<_>>();

        pairs
            .iter()
            .map(|(vehicle_index, stop_index)| {
                self.choose_region(
                    solution,
                    *vehicle_index,
                    *stop_index,
                    (MAX_FACTORIAL_SUB_PROBLEM_SIZE - vehicle_count) / pairs.len(),
                )
            })
            .collect()
    }

    fn find_vehicle(solution: &Solution, stop_index: usize) -> Option<usize> {
        solution
            .routes()
            .iter()
            .enumerate()
            .find_map(|(vehicle_index, route)| route.contains(&stop_index).then_some(vehicle_index))
    }

    fn choose_region(
        &mut self,
        solution: &Solution,
        vehicle_index: usize,
        stop_index: usize,
        stop_region_size: usize,
    ) -> RouteRegion {
        let route = &solution.routes()[vehicle_index];
        let middle = route
            .iter()
            .position(|&other| other == stop_index)
            .expect("stop index");
        let start = middle.saturating_sub(stop_region_size / 2);

        RouteRegion {
            vehicle_index,
            stop_range: start..(start + stop_region_size).min(route.len()),
        }
    }

    fn optimize_regions(
        &mut self,
        initial_solution: &Solution,
        regions: &[RouteRegion],
    ) -> Solution {
        let bump = Bump::new();
        let mut solution = initial_solution.clone_in(&bump);

        for region in regions {
            solution = solution.drain_route(region.vehicle_index, region.stop_range.clone())
        }

        let cost = self.cost_calculator.calculate(&solution);

        let mut solutions = HashMap::default();
        solutions.insert(solution.clone(), cost);
        let mut new_solutions = vec![];

        for _ in regions.iter().flat_map(|region| region.stop_range.clone()) {
            for solution in solutions.keys() {
                for stop_index in regions
                    .iter()
                    .flat_map(|region| Self::region_stop_indexes(region, initial_solution))
                {
                    if solution.has_stop(stop_index) {
                        continue;
                    }

                    for region in regions {
                        let solution = solution.insert_stop(
                            region.vehicle_index,
                            region.stop_range.start,
                            stop_index,
                        );
                        let cost = self.cost_calculator.calculate(&solution);

                        if cost.is_finite() {
                            new_solutions.push((solution, cost));
                        }
                    }
                }
            }

            // Keep existing solutions with stops not assigned.
            solutions.extend(new_solutions.drain(..));
        }

        let (solution, _) = solutions
            .into_iter()
            .min_by(|one, other| compare_solutions((&one.0, one.1), (&other.0, other.1)))
            .expect("at least one solution");

        solution.clone_in(Global)
    }

    fn region_stop_indexes<'a>(
        region: &'a RouteRegion,
        solution: &'a Solution,
    ) -> impl Iterator<Item = usize> + 'a {
        region
            .stop_range
            .clone()
            .map(|index| solution.routes()[region.vehicle_index][index])
    }

    fn run_two_opt(
        &mut self,
        initial_solution: &Solution,
        closest_stops: &[Vec<usize>],
    ) -> Solution {
        let (stop_index, stops) = closest_stops
            .iter()
            .enumerate()
            .choose(&mut self.rng)
            .expect("at least one route");

        let mut solution = initial_solution.clone();

        for stop_indexes in [stop_index]
            .iter()
            .chain(stops)
            .take(TWO_OPT_MAX_STOP_COUNT)
            .copied()
            .combinations(2)
        {
            solution = self.run_pair_two_opt(&solution, &stop_indexes);
        }

        solution
    }

    pub fn run_pair_two_opt(
        &mut self,
        initial_solution: &Solution,
        stop_indexes: &[usize],
    ) -> Solution {
        let mut solution = initial_solution.clone();

        if !stop_indexes
            .iter()
            .all(|&stop_index| solution.has_stop(stop_index))
        {
            return solution;
        }

        let vehicle_indexes = stop_indexes
            .iter()
            .flat_map(|&stop_index| Self::find_vehicle(&solution, stop_index))
            .unique()
            .collect::<Vec<_>>();

        match vehicle_indexes.len() {
            1 => {
                solution = self.run_intra_route_two_opt(&solution, vehicle_indexes[0], stop_indexes)
            }
            2 => solution = self.run_inter_route_two_opt(&solution, &vehicle_indexes, stop_indexes),
            _ => {}
        }

        solution
    }

    /// A solution that no round is run on.
    fn settle(&mut self, solution: Solution) -> Solution {
        let cost = self.cost_calculator.calculate(&solution);

        self.run = Run {
            start_cost: cost,
            end_cost: cost,
            settled: true,
            ..Run::default()
        };

        solution
    }

    fn is_unsettled(delta: f64, update_delta: f64, iteration_index: usize) -> bool {
        delta > update_delta * MIN_DELTA_RATIO || iteration_index < MIN_ITERATION_COUNT
    }

    fn run_intra_route_two_opt(
        &mut self,
        initial_solution: &Solution,
        vehicle_index: usize,
        stop_indexes: &[usize],
    ) -> Solution {
        [
            initial_solution.clone(),
            initial_solution.reverse_route(vehicle_index),
        ]
        .into_iter()
        .map(|solution| {
            let route = &solution.routes()[vehicle_index];

            let mut positions = stop_indexes
                .iter()
                .map(|one| {
                    route
                        .iter()
                        .position(|other| one == other)
                        .expect("stop index")
                })
                .collect::<Vec<_>>();
            positions.sort();
            positions[0] += 1;

            solution
                .drain_route(vehicle_index, 0..route.len())
                .extend_route(vehicle_index, route[positions[1]..].iter().copied().rev())
                .extend_route(
                    vehicle_index,
                    route[positions[0]..positions[1]].iter().copied(),
                )
                .extend_route(vehicle_index, route[..positions[0]].iter().copied().rev())
        })
        .chain([initial_solution.clone()])
        .min_by_key(|solution| OrderedFloat(self.cost_calculator.calculate(solution)))
        .expect("at least one solution")
    }

    fn run_inter_route_two_opt(
        &mut self,
        initial_solution: &Solution,
        vehicle_indexes: &[usize],
        stop_indexes: &[usize],
    ) -> Solution {
        let mut solution = initial_solution.clone();
        let mut cost = self.cost_calculator.calculate(initial_solution);

        for initial_solution in permutations([false, true]).map(|flags| {
            let mut solution = initial_solution.clone();

            for (index, flag) in flags.into_iter().enumerate() {
                if flag {
                    solution = solution.reverse_route(vehicle_indexes[index]);
                }
            }

            solution
        }) {
            let vehicles = vehicle_indexes
                .iter()
                .zip(stop_indexes)
                .map(|(&vehicle_index, &stop_index)| {
                    (
                        vehicle_index,
                        initial_solution.routes()[vehicle_index]
                            .iter()
                            .position(|&other| other == stop_index)
                            .expect("existent stop index"),
                    )
                })
                .collect::<Vec<_>>();

            for vehicles in permutations(0..2).map(|offsets| {
                vehicles
                    .iter()
                    .enumerate()
                    .map(|(index, (vehicle_index, stop_index))| {
                        (*vehicle_index, stop_index + offsets[index])
                    })
                    .collect::<Vec<_>>()
            }) {
                let new_solution = {
                    let mut solution = initial_solution.clone();

                    for &(vehicle_index, _) in &vehicles {
                        solution = solution
                            .drain_route(vehicle_index, 0..solution.routes()[vehicle_index].len());
                    }

                    solution
                };

                for head_source in 0..2 {
                    for head_target in 0..2 {
                        let new_solution = Self::extend_routes(
                            &initial_solution,
                            &new_solution,
                            &vehicles,
                            head_source,
                            head_target,
                            false,
                        );

                        for tail_source in 0..2 {
                            for tail_target in 0..2 {
                                let new_solution = Self::extend_routes(
                                    &initial_solution,
                                    &new_solution,
                                    &vehicles,
                                    tail_source,
                                    tail_target,
                                    true,
                                );
                                let new_cost = self.cost_calculator.calculate(&new_solution);

                                if new_cost < cost {
                                    solution = new_solution;
                                    cost = new_cost;
                                }
                            }
                        }
                    }
                }
            }
        }

        solution
    }

    fn extend_routes(
        initial_solution: &Solution,
        solution: &Solution,
        vehicles: &[(usize, usize)],
        source: usize,
        target: usize,
        tail: bool,
    ) -> Solution {
        let mut solution = solution.clone();

        for (source, target) in [(source, target), (1 - source, 1 - target)] {
            let &(vehicle_index, stop_index) = &vehicles[source];
            let route = &initial_solution.routes()[vehicle_index];

            solution = solution.extend_route(
                vehicles[target].0,
                if tail {
                    &route[stop_index..]
                } else {
                    &route[..stop_index]
                }
                .iter()
                .copied(),
            );
        }

        solution
    }

    fn moving_average(&self, old: f64, new: f64) -> f64 {
        let count = self.moving_average_data_point_count as f64;

        if old == 0.0 {
            new
        } else {
            (old * (count - 1.0) + new) / count
        }
    }
}

impl<C: CostCalculator, R: Router, S: BasicSolver<Vehicle, Stop, Problem, Solution>>
    BasicSolver<Vehicle, Stop, Problem, Solution> for RuinAndRecreateSolver<C, R, S>
{
    fn solve(&mut self, problem: &Problem) -> Solution {
        if problem.vehicle_count() == 0 || problem.stop_count() == 0 {
            return self.settle(Solution::from_routes(
                (0..problem.vehicle_count()).map(|_| []),
            ));
        } else if problem.stop_count() == 1 {
            let solution = self.initial_solver.solve(problem);

            return self.settle(solution);
        }

        let closest_stops = ((0..problem.stop_count()).map(|one| {
            let mut stops = (0..problem.stop_count())
                .filter(|other| one != *other)
                .collect::<Vec<_>>();

            stops.sort_by_key(|&other| {
                OrderedFloat(self.router.route(
                    problem.location(problem.stop(one).location()),
                    problem.location(problem.stop(other).location()),
                ))
            });

            stops
        }))
        .collect::<Vec<_>>();

        let mut update_delta = 0.0;
        let mut delta = 0.0;
        let mut solution = self.initial_solver.solve(problem);
        let mut cost = self.cost_calculator.calculate(&solution);
        let mut iteration_index = 0;

        self.run = Run {
            start_cost: cost,
            ..Run::default()
        };

        while iteration_index < self.max_iteration_count
            && Self::is_unsettled(delta, update_delta, iteration_index)
        {
            solution = self.run_two_opt(&solution, &closest_stops);
            solution = self.run_dynamic_programming(&solution, &closest_stops);

            let new_cost = self.cost_calculator.calculate(&solution);
            let new_delta = cost - new_cost;

            delta = self.moving_average(delta, new_delta);

            if new_cost < cost {
                cost = new_cost;
                update_delta = self.moving_average(update_delta, new_delta);
                self.run.improving_iteration_count += 1;
            }

            iteration_index += 1;
        }

        self.run.end_cost = self.cost_calculator.calculate(&solution);
        self.run.iteration_count = iteration_index;
        self.run.settled = !Self::is_unsettled(delta, update_delta, iteration_index);

        solution
    }
}
