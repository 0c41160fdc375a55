//! Job files and call sheets: reading them, refusing them and printing answers. The calls themselves are a `Planner`'s.

mod job;
mod plan;
mod print;
mod read;
mod refuse;
mod table;
mod write;

pub use job::{
    all_stops, contains, given_live, holds, job_a, placed_stops, sheet_a, Call, Job, Road, Sheet,
    CALL_COUNT,
};
pub use plan::{decode, encode, Routes, UNUSED};
pub use print::{answer_sheets, answer_sheets_by, change_line, costs, run_line, shuttle};
pub use read::{read_job, read_sheet, Malformed};
pub use refuse::refusal;
pub use table::call_table;
pub use write::{numbers, write_job, write_sheet};

/// What a run answers besides its plan.
#[derive(Clone, Copy, Debug, Eq, PartialEq)]
pub struct Run {
    pub start_cost: u64,
    pub end_cost: u64,
    pub rounds: u64,
    pub improving_rounds: u64,
    pub settled: bool,
}

/// What a rebuild answers besides its cost: how many fillings of the first region it begins and how many arrangements it
/// completes, each different one counted once, and the plan that it leaves.
#[derive(Clone, Debug, Eq, PartialEq)]
pub struct Rebuilt {
    pub begun: u64,
    pub completed: u64,
    pub routes: Routes,
}

/// What an arrival or a cancellation answers: the new live stops and the cost, and the plan that it leaves.
#[derive(Clone, Debug, Eq, PartialEq)]
pub struct Changed {
    pub live: u64,
    pub cost: u64,
    pub routes: Routes,
}

/// What a view answers: the stops on no route, and the routes with those of the other vans emptied.
#[derive(Clone, Debug, Eq, PartialEq)]
pub struct Seen {
    pub unplaced: u64,
    pub routes: Routes,
}

/// What a move answers: how much dearer the caller's vans and the missed part become, and the plan that it leaves.
#[derive(Clone, Debug, Eq, PartialEq)]
pub struct Moved {
    pub change: i64,
    pub routes: Routes,
}

/// The calls, on arguments that are not refused.
pub trait Planner {
    fn weigh(job: &Job, routes: &Routes) -> u64;
    fn start_plan(job: &Job) -> Routes;
    fn two_opt(job: &Job, routes: &Routes, stops: [usize; 2]) -> Routes;
    fn rebuild(job: &Job, routes: &Routes, stops: &[usize]) -> Rebuilt;
    fn exhaustive(job: &Job) -> Routes;
    fn pruned(job: &Job) -> Routes;
    fn solve(job: &Job) -> (Run, Routes);
    fn arrive(job: &Job, routes: &Routes, live: u64, stop: usize) -> Changed;
    fn cancel(job: &Job, routes: &Routes, live: u64, stop: usize) -> Changed;
    fn view(job: &Job, routes: &Routes, vans: u32) -> Seen;
    fn move_stop(
        job: &Job,
        routes: &Routes,
        vans: u32,
        stop: usize,
        van: usize,
        place: usize,
    ) -> Moved;
    fn roadworks(job: &Job, routes: &Routes, road: Road) -> u64;
}
