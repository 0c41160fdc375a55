//! The proved planner, called through the static library with the jobs of sheets.

use planner::{Move, Refusal, Running, Standing, Totals, Walk};
use sheet::{Job, Road, Run, UNUSED};

pub const MAX_DISTANCE: u32 = 200_000;

/// A job's lists as the calls take them.
pub struct Lists<'a> {
    vehicles: Vec<u32>,
    distances: Vec<u32>,
    job: &'a Job,
}

impl<'a> Lists<'a> {
    pub fn new(job: &'a Job) -> Self {
        Self {
            vehicles: job.vehicles.concat(),
            distances: job.distances.concat(),
            job,
        }
    }

    pub fn job(&self) -> planner::Job<'_> {
        planner::Job {
            vehicles: &self.vehicles,
            stops: &self.job.stops,
            locations: self.job.distances.len() as u32,
            distances: &self.distances,
            linear: self.job.linear,
            quadratic: self.job.quadratic,
            missed: self.job.missed,
        }
    }
}

pub fn weigh(job: &Job, plan: &[u32]) -> Result<f64, Refusal> {
    planner::weigh(&Lists::new(job).job(), plan)
}

pub fn start_plan(job: &Job, plan: &mut [u32]) -> Result<(), Refusal> {
    planner::start_plan(&Lists::new(job).job(), plan)
}

pub fn two_opt(job: &Job, plan: &mut [u32], stops: [u32; 2]) -> Result<f64, Refusal> {
    planner::two_opt(&Lists::new(job).job(), plan, stops)
}

pub fn rebuild(job: &Job, plan: &mut [u32], given: &[u32]) -> Result<Walk, Refusal> {
    planner::rebuild(&Lists::new(job).job(), plan, given)
}

pub fn exhaustive(job: &Job, plan: &mut [u32]) -> Result<f64, Refusal> {
    planner::exhaustive(&Lists::new(job).job(), plan)
}

pub fn pruned(job: &Job, plan: &mut [u32]) -> Result<f64, Refusal> {
    planner::pruned(&Lists::new(job).job(), plan)
}

pub fn solve(job: &Job, plan: &mut [u32]) -> Result<Run, Refusal> {
    let running = Running {
        smoothing: job.smoothing,
        limit: job.limit,
        draws: &job.draws,
    };

    planner::solve(&Lists::new(job).job(), &running, plan).map(run)
}

pub fn arrive(job: &Job, plan: &mut [u32], live: u64, stop: u32) -> Result<Standing, Refusal> {
    planner::arrive(&Lists::new(job).job(), plan, live, stop)
}

pub fn cancel(job: &Job, plan: &mut [u32], live: u64, stop: u32) -> Result<Standing, Refusal> {
    planner::cancel(&Lists::new(job).job(), plan, live, stop)
}

/// The stops on no route, and what is seen of the plan.
pub fn view(job: &Job, plan: &[u32], vans: u32) -> Result<(u64, Vec<u32>), Refusal> {
    let mut seen = unused(job);
    let unplaced = planner::view(&Lists::new(job).job(), plan, vans, &mut seen)?;

    Ok((unplaced, seen))
}

pub fn move_stop(job: &Job, plan: &mut [u32], vans: u32, to: Move) -> Result<i64, Refusal> {
    planner::move_stop(&Lists::new(job).job(), plan, vans, to)
}

pub fn roadworks(job: &Job, plan: &[u32], longer: Road) -> Result<u64, Refusal> {
    planner::roadworks(&Lists::new(job).job(), plan, road(longer))
}

/// A sheet's road as the calls take it.
pub fn road(Road { from, to, more }: Road) -> planner::Road {
    planner::Road { from, to, more }
}

/// A road made as long as a road may be.
pub fn longest(job: &Job, from: u32, to: u32) -> Road {
    Road {
        from,
        to,
        more: MAX_DISTANCE - job.distances[from as usize][to as usize],
    }
}

fn run(totals: Totals) -> Run {
    Run {
        start_cost: totals.start as u64,
        end_cost: totals.end as u64,
        rounds: totals.rounds as u64,
        improving_rounds: totals.improving as u64,
        settled: totals.settled,
    }
}

/// A plan to be written.
pub fn unused(job: &Job) -> Vec<u32> {
    vec![UNUSED; job.vehicles.len() + job.stops.len()]
}
