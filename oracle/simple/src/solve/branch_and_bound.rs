use crate::{
    cost::CostCalculator, hash_map::HashMap, utility::compare_solutions, Problem, Solution, Stop,
    Vehicle,
};
use allocator_api2::{alloc::Global, vec::Vec};
use bumpalo::Bump;
use core::{BasicProblem, BasicSolver};

pub struct BranchAndBoundSolver<C: CostCalculator> {
    cost_calculator: C,
}

impl<C: CostCalculator> BranchAndBoundSolver<C> {
    pub fn new(cost_calculator: C) -> Self {
        Self { cost_calculator }
    }
}

impl<C: CostCalculator> BasicSolver<Vehicle, Stop, Problem, Solution> for BranchAndBoundSolver<C> {
    fn solve(&mut self, problem: &Problem) -> Solution {
        let allocator = Bump::new();
        let mut solutions = HashMap::default();
        let solution = Solution::new({
            let mut routes = Vec::with_capacity_in(problem.vehicle_count(), &allocator);
            routes.extend((0..problem.vehicle_count()).map(|_| Vec::new_in(&allocator).into()));
            routes
        });
        let cost = self.cost_calculator.calculate(&solution);
        solutions.insert(solution, cost);
        let mut new_solutions = vec![];

        for _ in 0..problem.stop_count() {
            for (solution, upper_bound) in &solutions {
                for stop_index in 0..problem.stop_count() {
                    if solution.has_stop(stop_index) {
                        continue;
                    }

                    for vehicle_index in 0..solution.routes().len() {
                        let solution = solution.add_stop(vehicle_index, stop_index);
                        let lower_bound = self.cost_calculator.calculate_lower_bound(&solution);

                        if lower_bound < *upper_bound {
                            let cost = self.cost_calculator.calculate(&solution);
                            new_solutions.push((solution, cost));
                        }
                    }
                }
            }

            solutions.extend(new_solutions.drain(..));
        }

        let solution = solutions
            .into_iter()
            .min_by(|one, other| compare_solutions((&one.0, one.1), (&other.0, other.1)))
            .expect("at least one solution")
            .0;

        solution.clone_in(Global)
    }
}
