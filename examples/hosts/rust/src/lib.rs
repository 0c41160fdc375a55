//! The calls of include/planner.h for hosts in Rust.
//!
//! Each call tests its arguments itself, and either does what its line says or is refused: then the lent plan is as it was.
//! None can fail otherwise, and none takes memory but the stack. The functions here are safe, since what a call asks of its
//! host (addresses that hold, lengths that fit, no overlap of what is written) is what Rust's references give.
//!
//! A plan is a number for each vehicle and each stop: the lengths of the routes, then the stops of route 0, route 1 and so on,
//! then [`UNUSED`] in each place that is left.
//!
//! ```
//! use planner::{Job, Move, Refusal, Road, Running};
//!
//! let job = Job {
//!     vehicles: &[0, 0],
//!     stops: &[1, 2],
//!     locations: 3,
//!     distances: &[0, 2, 3, 2, 0, 9, 9, 1, 0],
//!     linear: 1,
//!     quadratic: 0,
//!     missed: 100,
//! };
//! let running = Running { smoothing: 1, limit: 50, draws: &[0] };
//! let mut plan = [planner::UNUSED; 3];
//! let totals = planner::solve(&job, &running, &mut plan)?;
//!
//! assert_eq!((totals.end, plan), (6.0, [2, 1, 0]));
//!
//! let refusal = planner::two_opt(&job, &mut plan, [0, 0]).unwrap_err();
//!
//! assert_eq!(refusal, Refusal(12));
//! eprintln!("{refusal}"); // refused, 12: a given stop does not exist, ..
//!
//! // A rebuild around stop 0 drains both stops, which can be put back in 5 ways: none, each alone, both in either order.
//! assert_eq!(planner::rebuild(&job, &mut plan, &[0])?.completed, 5);
//!
//! // A caller who holds van 0 moves stop 1 to the end of its route, which makes it 14 dearer, and looks at the plan.
//! let vans = 1;
//! let to_the_end = Move { stop: 1, van: 0, place: 1 };
//! let mut seen = [planner::UNUSED; 3];
//!
//! assert_eq!(planner::move_stop(&job, &mut plan, vans, to_the_end)?, 14);
//! assert_eq!(planner::view(&job, &plan, vans, &mut seen)?, 0); // no stop is on no route
//! assert_eq!(seen, [2, 0, 1]);
//!
//! // The road between the two stops is to be 5 metres longer for some time. The plan uses it once, so it can get 5 dearer.
//! let road = Road { from: 1, to: 2, more: 5 };
//!
//! assert_eq!(planner::roadworks(&job, &plan, road)?, 5);
//! # Ok::<(), Refusal>(())
//! ```

pub mod raw;
mod refusal;

use refusal::answer;
pub use refusal::Refusal;

/// What stands in each place of a plan that no stop takes.
pub const UNUSED: u32 = u32::MAX;

/// What is to be planned.
#[derive(Clone, Copy, Debug)]
pub struct Job<'a> {
    /// The location numbers of each vehicle's start and end, two for each vehicle.
    pub vehicles: &'a [u32],
    /// The location number of each stop.
    pub stops: &'a [u32],
    /// How many locations there are.
    pub locations: u32,
    /// Whole metres from each location to each, row after row: row = from, column = to.
    pub distances: &'a [u32],
    /// The price of a route's metre.
    pub linear: u32,
    /// The price of a route's squared metre.
    pub quadratic: u32,
    /// The price of a stop that is on no route.
    pub missed: u64,
}

/// What a run needs besides its job.
#[derive(Clone, Copy, Debug)]
pub struct Running<'a> {
    /// Over how many rounds the averages go that say whether a run has settled.
    pub smoothing: u32,
    /// How many rounds there are at most.
    pub limit: u32,
    /// The numbers that stand for chance, read in order and from the front again after the last.
    pub draws: &'a [u32],
}

/// What a run answers besides its plan.
#[derive(Clone, Copy, Debug, Default, PartialEq)]
pub struct Totals {
    /// The cost of the start plan. A cost is a whole number, exact in f64.
    pub start: f64,
    /// The cost of the plan that is left.
    pub end: f64,
    /// The rounds.
    pub rounds: u32,
    /// Those among the rounds that made the plan cheaper.
    pub improving: u32,
    /// Whether the run settled. If not, the limit cut it.
    pub settled: bool,
}

/// What a rebuild answers besides its plan.
#[derive(Clone, Copy, Debug, Default, PartialEq)]
pub struct Walk {
    /// The cost of the plan that is left.
    pub cost: f64,
    /// The fillings that were begun of the first region, that of the first given stop that has one.
    pub begun: u64,
    /// The arrangements that were completed, each different one counted once.
    pub completed: u64,
}

/// What an arrival or a cancellation answers besides its plan.
#[derive(Clone, Copy, Debug, Default, PartialEq)]
pub struct Standing {
    /// The stops that are live now, as one number: stop 0 is its lowest bit.
    pub live: u64,
    /// The cost of the plan that is left. Of the stops on no route it counts the live ones.
    pub cost: f64,
}

/// A stop, and the place where it is to go.
#[derive(Clone, Copy, Debug, Eq, PartialEq)]
pub struct Move {
    /// The stop.
    pub stop: u32,
    /// The van that is to take it.
    pub van: u32,
    /// The place on that van's route, counted from 0 after the stop has been taken out. The route's end is one.
    pub place: u32,
}

/// A road, which is an entry of the table, and by how much it is to be longer.
#[derive(Clone, Copy, Debug, Eq, PartialEq)]
pub struct Road {
    /// The location that it leads from.
    pub from: u32,
    /// The location that it leads to.
    pub to: u32,
    /// The metres that roadworks add to it.
    pub more: u32,
}

/// The cost of a plan.
#[rustfmt::skip]
pub fn weigh(job: &Job, plan: &[u32]) -> Result<f64, Refusal> {
    let mut cost = 0.0;
    let number = unsafe {
        raw::planner_weigh(
            job.vehicles.as_ptr(), job.vehicles.len(), job.stops.as_ptr(), job.stops.len(), job.locations,
            job.distances.as_ptr(), job.distances.len(), job.linear, job.quadratic, job.missed,
            plan.as_ptr(), plan.len(), &mut cost,
        )
    };

    answer(number, cost)
}

/// Writes the start plan: vehicles in turn, each to the nearest stop that is left. What the plan held is not read.
#[rustfmt::skip]
pub fn start_plan(job: &Job, plan: &mut [u32]) -> Result<(), Refusal> {
    let number = unsafe {
        raw::planner_start_plan(
            job.vehicles.as_ptr(), job.vehicles.len(), job.stops.as_ptr(), job.stops.len(), job.locations,
            job.distances.as_ptr(), job.distances.len(), plan.as_mut_ptr(), plan.len(),
        )
    };

    answer(number, ())
}

/// Improves a plan by the two-opt move of two stops, and answers its cost.
#[rustfmt::skip]
pub fn two_opt(job: &Job, plan: &mut [u32], [first, second]: [u32; 2]) -> Result<f64, Refusal> {
    let mut cost = 0.0;
    let number = unsafe {
        raw::planner_two_opt(
            job.vehicles.as_ptr(), job.vehicles.len(), job.stops.as_ptr(), job.stops.len(), job.locations,
            job.distances.as_ptr(), job.distances.len(), job.linear, job.quadratic, job.missed,
            plan.as_mut_ptr(), plan.len(), first, second, &mut cost,
        )
    };

    answer(number, cost)
}

/// Rebuilds a plan around one or two stops: the stops of a stretch around each are put back in the best way. Where none of these stops
/// is on a route nothing changes, and both counts are 0.
#[rustfmt::skip]
pub fn rebuild(job: &Job, plan: &mut [u32], given: &[u32]) -> Result<Walk, Refusal> {
    let mut walk = Walk::default();
    let number = unsafe {
        raw::planner_rebuild(
            job.vehicles.as_ptr(), job.vehicles.len(), job.stops.as_ptr(), job.stops.len(), job.locations,
            job.distances.as_ptr(), job.distances.len(), job.linear, job.quadratic, job.missed,
            plan.as_mut_ptr(), plan.len(), given.as_ptr(), given.len(),
            &mut walk.cost, &mut walk.begun, &mut walk.completed,
        )
    };

    answer(number, walk)
}

/// Writes the best of all plans, for at most 6 stops and 3 vehicles, and answers its cost. What the plan held is not read.
#[rustfmt::skip]
pub fn exhaustive(job: &Job, plan: &mut [u32]) -> Result<f64, Refusal> {
    let mut cost = 0.0;
    let number = unsafe {
        raw::planner_exhaustive(
            job.vehicles.as_ptr(), job.vehicles.len(), job.stops.as_ptr(), job.stops.len(), job.locations,
            job.distances.as_ptr(), job.distances.len(), job.linear, job.quadratic, job.missed,
            plan.as_mut_ptr(), plan.len(), &mut cost,
        )
    };

    answer(number, cost)
}

/// Writes the best of the plans that the pruned search reaches, for at most 6 stops and 3 vehicles, and answers its cost. What
/// the plan held is not read.
#[rustfmt::skip]
pub fn pruned(job: &Job, plan: &mut [u32]) -> Result<f64, Refusal> {
    let mut cost = 0.0;
    let number = unsafe {
        raw::planner_pruned(
            job.vehicles.as_ptr(), job.vehicles.len(), job.stops.as_ptr(), job.stops.len(), job.locations,
            job.distances.as_ptr(), job.distances.len(), job.linear, job.quadratic, job.missed,
            plan.as_mut_ptr(), plan.len(), &mut cost,
        )
    };

    answer(number, cost)
}

/// Runs the planner: the start plan, then rounds until the run settles or its limit cuts it. What the plan held is not read.
#[rustfmt::skip]
pub fn solve(job: &Job, running: &Running, plan: &mut [u32]) -> Result<Totals, Refusal> {
    let mut totals = Totals::default();
    let mut settled = 0;
    let number = unsafe {
        raw::planner_solve(
            job.vehicles.as_ptr(), job.vehicles.len(), job.stops.as_ptr(), job.stops.len(), job.locations,
            job.distances.as_ptr(), job.distances.len(), job.linear, job.quadratic, job.missed,
            running.smoothing, running.limit, running.draws.as_ptr(), running.draws.len(), plan.as_mut_ptr(), plan.len(),
            &mut totals.start, &mut totals.end, &mut totals.rounds, &mut totals.improving, &mut settled,
        )
    };

    answer(number, Totals { settled: settled != 0, ..totals })
}

/// Adds a stop while those of the set `live` are. It is put where the plan then costs least, on the lower vehicle and then at the
/// earlier place on ties, or stays on no route where that is strictly cheaper or there is no vehicle.
#[rustfmt::skip]
pub fn arrive(job: &Job, plan: &mut [u32], live: u64, stop: u32) -> Result<Standing, Refusal> {
    let mut standing = Standing::default();
    let number = unsafe {
        raw::planner_arrive(
            job.vehicles.as_ptr(), job.vehicles.len(), job.stops.as_ptr(), job.stops.len(), job.locations,
            job.distances.as_ptr(), job.distances.len(), job.linear, job.quadratic, job.missed,
            plan.as_mut_ptr(), plan.len(), live, stop, &mut standing.live, &mut standing.cost,
        )
    };

    answer(number, standing)
}

/// Cancels a stop of the set `live`. It leaves its route, where it is on one, and is no longer counted as missed.
#[rustfmt::skip]
pub fn cancel(job: &Job, plan: &mut [u32], live: u64, stop: u32) -> Result<Standing, Refusal> {
    let mut standing = Standing::default();
    let number = unsafe {
        raw::planner_cancel(
            job.vehicles.as_ptr(), job.vehicles.len(), job.stops.as_ptr(), job.stops.len(), job.locations,
            job.distances.as_ptr(), job.distances.len(), job.linear, job.quadratic, job.missed,
            plan.as_mut_ptr(), plan.len(), live, stop, &mut standing.live, &mut standing.cost,
        )
    };

    answer(number, standing)
}

/// Shows a plan to a caller who holds a set of vans, one number as well: van 0 is its lowest bit. Writes the plan with the routes of
/// other vans emptied to `seen`, and answers the set of the stops that are on no route. What `seen` held is not read; of the job,
/// only the vehicles and the stops are.
#[rustfmt::skip]
pub fn view(job: &Job, plan: &[u32], vans: u32, seen: &mut [u32]) -> Result<u64, Refusal> {
    let mut unplaced = 0;
    let number = unsafe {
        raw::planner_view(
            job.vehicles.as_ptr(), job.vehicles.len(), job.stops.as_ptr(), job.stops.len(),
            plan.as_ptr(), plan.len(), vans, seen.as_mut_ptr(), seen.len(), &mut unplaced,
        )
    };

    answer(number, unplaced)
}

/// Moves a stop for a caller who holds a set of vans: from the route of one of these, or from no route, to a place of one of these.
/// Answers the change in the cost of the caller's vans and of the missed stops, which is below 0 where the plan has become cheaper.
#[rustfmt::skip]
pub fn move_stop(job: &Job, plan: &mut [u32], vans: u32, Move { stop, van, place }: Move) -> Result<i64, Refusal> {
    let mut change = 0;
    let number = unsafe {
        raw::planner_move_stop(
            job.vehicles.as_ptr(), job.vehicles.len(), job.stops.as_ptr(), job.stops.len(), job.locations,
            job.distances.as_ptr(), job.distances.len(), job.linear, job.quadratic, job.missed,
            plan.as_mut_ptr(), plan.len(), vans, stop, van, place, &mut change,
        )
    };

    answer(number, change)
}

/// Answers the most by which a plan's cost can rise where roadworks lengthen a road: `more` × S × (w + q × (2 × T + `more` × S)), with
/// w and q the prices of a metre and of a squared metre, S the uses of the road by the routes (an empty one has the one leg from start
/// to end), and T the length of all routes together. The true rise is never above that.
#[rustfmt::skip]
pub fn roadworks(job: &Job, plan: &[u32], Road { from, to, more }: Road) -> Result<u64, Refusal> {
    let mut rise = 0;
    let number = unsafe {
        raw::planner_roadworks(
            job.vehicles.as_ptr(), job.vehicles.len(), job.stops.as_ptr(), job.stops.len(), job.locations,
            job.distances.as_ptr(), job.distances.len(), job.linear, job.quadratic, job.missed,
            plan.as_ptr(), plan.len(), from, to, more, &mut rise,
        )
    };

    answer(number, rise)
}
