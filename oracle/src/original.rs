//! The calls, made of the solver's Rust.

use core::{BasicSolver, Location};
use rand::rngs::Draws;
use sheet::{Changed, Job, Moved, Planner, Rebuilt, Road, Routes, Run, Seen};
use simple::{
    cost::{CostCalculator, DeliveryCostCalculator, DistanceCostCalculator},
    route::TableRouter,
    solve::{
        BranchAndBoundSolver, DynamicProgrammingSolver, NearestNeighborSolver,
        RuinAndRecreateSolver,
    },
    Problem, Solution, Stop, Vehicle,
};
use std::{collections::HashSet, mem, ops::Range};

/// A vehicle and a stretch of its route.
type Region = (usize, Range<usize>);
type Calculator<'a> = DeliveryCostCalculator<&'a TableRouter, &'a Problem>;
type Solver<'a> =
    RuinAndRecreateSolver<Calculator<'a>, &'a TableRouter, NearestNeighborSolver<&'a TableRouter>>;

pub struct Original;

impl Planner for Original {
    fn weigh(job: &Job, routes: &Routes) -> u64 {
        whole(calculator(job, &problem(job), &router(job)).calculate(&solution(routes)))
    }

    fn start_plan(job: &Job) -> Routes {
        routes(&NearestNeighborSolver::new(&router(job)).solve(&problem(job)))
    }

    fn two_opt(job: &Job, plan: &Routes, stops: [usize; 2]) -> Routes {
        routes(&solver(job, &problem(job), &router(job)).run_pair_two_opt(&solution(plan), &stops))
    }

    // The solver keeps a plan and counts nothing, so that the counts are of what its steps make: the different plans, and the
    // different routes that these have for the first vehicle, of which only the region differs.
    fn rebuild(job: &Job, plan: &Routes, stops: &[usize]) -> Rebuilt {
        let kept = solver(job, &problem(job), &router(job)).rebuild(&solution(plan), stops);
        let regions = regions(plan, stops);
        let [begun, completed] = match regions.first() {
            None => [0; 2],
            Some(&(first, _)) => {
                let met = arrangements(plan, &regions);
                let fillings = met.iter().map(|plan| plan.routes()[first].to_vec());

                [fillings.collect::<HashSet<_>>().len(), met.len()]
            }
        };

        Rebuilt {
            begun: begun as u64,
            completed: completed as u64,
            routes: routes(&kept),
        }
    }

    fn exhaustive(job: &Job) -> Routes {
        let problem = problem(job);
        let router = router(job);

        routes(&DynamicProgrammingSolver::new(calculator(job, &problem, &router)).solve(&problem))
    }

    fn pruned(job: &Job) -> Routes {
        let problem = problem(job);
        let router = router(job);

        routes(&BranchAndBoundSolver::new(calculator(job, &problem, &router)).solve(&problem))
    }

    fn solve(job: &Job) -> (Run, Routes) {
        let problem = problem(job);
        let router = router(job);
        let mut solver = solver(job, &problem, &router);
        let solution = solver.solve(&problem);
        let run = solver.run();

        (
            Run {
                start_cost: whole(run.start_cost),
                end_cost: whole(run.end_cost),
                rounds: run.iteration_count as u64,
                improving_rounds: run.improving_iteration_count as u64,
                settled: run.settled,
            },
            routes(&solution),
        )
    }

    // The solver has no such call: its own cost decides, of a day on which only the live stops are to be made.
    fn arrive(job: &Job, plan: &Routes, live: u64, stop: usize) -> Changed {
        let live = live | 1 << stop;
        let old = solution(plan);
        let placed = (0..plan.len())
            .flat_map(|vehicle| (0..=plan[vehicle].len()).map(move |place| (vehicle, place)))
            .map(|(vehicle, place)| old.insert_stop(vehicle, place, stop));

        // Of plans at equal cost the first is kept, and the old one comes last.
        cheapest(job, live, placed.chain([old.clone()]))
    }

    fn cancel(job: &Job, plan: &Routes, live: u64, stop: usize) -> Changed {
        let others = plan
            .iter()
            .map(|route| route.iter().copied().filter(|&other| other != stop));

        cheapest(job, live & !(1 << stop), [Solution::from_routes(others)])
    }

    // Nor has it any of vans that a caller holds. A view needs no solver: this one goes from stop to stop.
    fn view(job: &Job, plan: &Routes, vans: u32) -> Seen {
        let mut seen = Seen {
            unplaced: 0,
            routes: vec![vec![]; plan.len()],
        };

        for stop in 0..job.stops.len() {
            if !plan.iter().any(|route| route.contains(&stop)) {
                seen.unplaced += 1 << stop;
            }
        }

        for (van, route) in plan.iter().enumerate() {
            let is_own = vans / (1 << van) % 2 == 1;

            seen.routes[van].extend(route.iter().filter(|_| is_own));
        }

        seen
    }

    // No other van's route changes, so that the change is that of the solver's cost of the whole plan.
    fn move_stop(
        job: &Job,
        plan: &Routes,
        _vans: u32,
        stop: usize,
        van: usize,
        place: usize,
    ) -> Moved {
        let problem = problem(job);
        let router = router(job);
        let mut calculator = calculator(job, &problem, &router);
        let others = plan
            .iter()
            .map(|route| route.iter().copied().filter(|&other| other != stop));
        let new = Solution::from_routes(others).insert_stop(van, place, stop);
        let [new_cost, old_cost] =
            [&new, &solution(plan)].map(|plan| whole(calculator.calculate(plan)) as i64);

        Moved {
            change: new_cost - old_cost,
            routes: routes(&new),
        }
    }

    // Nor has it any of roadworks. Its routes' lengths tell the uses too, on a table where only the road has a length, of 1.
    fn roadworks(job: &Job, plan: &Routes, road: Road) -> u64 {
        let location_count = job.distances.len();
        let nothing = Job {
            distances: vec![vec![0; location_count]; location_count],
            ..job.clone()
        };
        let uses = driven(&nothing.lengthened(Road { more: 1, ..road }), plan);
        let old = driven(job, plan);
        let new = old + road.more as u64 * uses;
        // One vehicle on all routes: what it pays more for the longer way is the ceiling, multiplied out.
        let price =
            |length: u64| length * job.linear as u64 + length * length * job.quadratic as u64;
        let ceiling = price(new) - price(old);
        let rise = Self::weigh(&job.lengthened(road), plan) - Self::weigh(job, plan);

        assert!(ceiling >= rise, "{ceiling} is below {rise}");

        ceiling
    }
}

/// The stretches around the picks that are on vehicles of their own, in the order of these. The solver does not show its own.
fn regions(plan: &Routes, picks: &[usize]) -> Vec<Region> {
    let mut places = Vec::<(usize, usize)>::new();

    for pick in picks {
        for (vehicle, route) in plan.iter().enumerate() {
            if let Some(position) = route.iter().position(|stop| stop == pick) {
                if places.iter().all(|&(other, _)| other != vehicle) {
                    places.push((vehicle, position));
                }
            }
        }
    }

    let size = (8 - picks.len()) / places.len().max(1);

    places
        .into_iter()
        .map(|(vehicle, position)| {
            let start = position.saturating_sub(size / 2);

            (vehicle, start..plan[vehicle].len().min(start + size))
        })
        .collect()
}

/// The different plans with none, some or all of the regions' stops put back, as the solver puts them: at a region's front.
fn arrangements(plan: &Routes, regions: &[Region]) -> HashSet<Solution> {
    let mut drained = solution(plan);
    let mut stops = vec![];

    for (vehicle, range) in regions {
        drained = drained.drain_route(*vehicle, range.clone());
        stops.extend_from_slice(&plan[*vehicle][range.clone()]);
    }

    let mut met = HashSet::new();
    let mut last = HashSet::from([drained]);

    // Each time those with one stop more.
    while !last.is_empty() {
        let mut next = HashSet::new();

        for plan in &last {
            for &stop in stops.iter().filter(|&&stop| !plan.has_stop(stop)) {
                for (vehicle, range) in regions {
                    next.insert(plan.insert_stop(*vehicle, range.start, stop));
                }
            }
        }

        met.extend(mem::replace(&mut last, next));
    }

    met
}

/// The length of all routes together, by the solver's own.
fn driven(job: &Job, routes: &Routes) -> u64 {
    let problem = problem(job);
    let router = router(job);
    let calculator = DistanceCostCalculator::new(&router, &problem);

    routes
        .iter()
        .enumerate()
        .map(|(vehicle, stops)| whole(calculator.calculate_route(vehicle, stops)))
        .sum()
}

/// The first of the cheapest plans where only live stops count.
fn cheapest(job: &Job, live: u64, plans: impl IntoIterator<Item = Solution>) -> Changed {
    let problem = problem(job);
    let router = router(job);
    let mut calculator = calculator_of(job, live.count_ones() as usize, &problem, &router);

    plans
        .into_iter()
        .map(|plan| Changed {
            live,
            cost: whole(calculator.calculate(&plan)),
            routes: routes(&plan),
        })
        .min_by_key(|changed| changed.cost)
        .expect("a plan")
}

fn problem(job: &Job) -> Problem {
    Problem::new(
        job.vehicles
            .iter()
            .map(|&[start, end]| Vehicle::new(start as usize, end as usize))
            .collect(),
        job.stops
            .iter()
            .map(|&location| Stop::new(location as usize))
            .collect(),
        (0..job.distances.len()).map(Location::new).collect(),
    )
}

fn router(job: &Job) -> TableRouter {
    TableRouter::new(job.distances.clone())
}

fn calculator<'a>(job: &Job, problem: &'a Problem, router: &'a TableRouter) -> Calculator<'a> {
    calculator_of(job, job.stops.len(), problem, router)
}

/// The cost of plans for a number of stops.
fn calculator_of<'a>(
    job: &Job,
    stop_count: usize,
    problem: &'a Problem,
    router: &'a TableRouter,
) -> Calculator<'a> {
    DeliveryCostCalculator::new(
        DistanceCostCalculator::new(router, problem),
        stop_count,
        job.missed as f64,
        job.linear as f64,
        job.quadratic as f64,
    )
}

fn solver<'a>(job: &Job, problem: &'a Problem, router: &'a TableRouter) -> Solver<'a> {
    RuinAndRecreateSolver::new(
        calculator(job, problem, router),
        router,
        NearestNeighborSolver::new(router),
        job.smoothing as usize,
        job.limit as usize,
        Draws::new(job.draws.clone()),
    )
}

fn solution(routes: &Routes) -> Solution {
    Solution::from_routes(routes.iter().map(|route| route.iter().copied()))
}

fn routes(solution: &Solution) -> Routes {
    solution
        .routes()
        .iter()
        .map(|route| route.to_vec())
        .collect()
}

/// A cost as the whole number that it is.
fn whole(cost: f64) -> u64 {
    assert!(cost >= 0.0 && cost.fract() == 0.0 && cost < 9007199254740992.0);

    cost as u64
}
