//! The functions of the static library as include/planner.h declares them: a list is its address and its length, a result the
//! address of a number. `tools/declarations` holds this text to the header.
//!
//! What a caller owes is what the header says: no address is null, each is aligned, as many numbers as a length says lie behind
//! its address, and what is written overlaps nothing else that is passed.

#[rustfmt::skip]
extern "C" {
    pub fn planner_weigh(
        vehicles: *const u32, vehicles_len: usize, stops: *const u32, stops_len: usize, locations: u32,
        distances: *const u32, distances_len: usize, linear: u32, quadratic: u32, missed: u64,
        plan: *const u32, plan_len: usize, cost: *mut f64,
    ) -> u32;
    pub fn planner_start_plan(
        vehicles: *const u32, vehicles_len: usize, stops: *const u32, stops_len: usize, locations: u32,
        distances: *const u32, distances_len: usize, plan: *mut u32, plan_len: usize,
    ) -> u32;
    pub fn planner_two_opt(
        vehicles: *const u32, vehicles_len: usize, stops: *const u32, stops_len: usize, locations: u32,
        distances: *const u32, distances_len: usize, linear: u32, quadratic: u32, missed: u64,
        plan: *mut u32, plan_len: usize, first: u32, second: u32, cost: *mut f64,
    ) -> u32;
    pub fn planner_rebuild(
        vehicles: *const u32, vehicles_len: usize, stops: *const u32, stops_len: usize, locations: u32,
        distances: *const u32, distances_len: usize, linear: u32, quadratic: u32, missed: u64,
        plan: *mut u32, plan_len: usize, given: *const u32, given_len: usize,
        cost: *mut f64, begun: *mut u64, completed: *mut u64,
    ) -> u32;
    pub fn planner_exhaustive(
        vehicles: *const u32, vehicles_len: usize, stops: *const u32, stops_len: usize, locations: u32,
        distances: *const u32, distances_len: usize, linear: u32, quadratic: u32, missed: u64,
        plan: *mut u32, plan_len: usize, cost: *mut f64,
    ) -> u32;
    pub fn planner_pruned(
        vehicles: *const u32, vehicles_len: usize, stops: *const u32, stops_len: usize, locations: u32,
        distances: *const u32, distances_len: usize, linear: u32, quadratic: u32, missed: u64,
        plan: *mut u32, plan_len: usize, cost: *mut f64,
    ) -> u32;
    pub fn planner_solve(
        vehicles: *const u32, vehicles_len: usize, stops: *const u32, stops_len: usize, locations: u32,
        distances: *const u32, distances_len: usize, linear: u32, quadratic: u32, missed: u64,
        smoothing: u32, limit: u32, draws: *const u32, draws_len: usize, plan: *mut u32, plan_len: usize,
        start: *mut f64, end: *mut f64, rounds: *mut u32, improving: *mut u32, settled: *mut u32,
    ) -> u32;
    pub fn planner_arrive(
        vehicles: *const u32, vehicles_len: usize, stops: *const u32, stops_len: usize, locations: u32,
        distances: *const u32, distances_len: usize, linear: u32, quadratic: u32, missed: u64,
        plan: *mut u32, plan_len: usize, live: u64, stop: u32, after: *mut u64, cost: *mut f64,
    ) -> u32;
    pub fn planner_cancel(
        vehicles: *const u32, vehicles_len: usize, stops: *const u32, stops_len: usize, locations: u32,
        distances: *const u32, distances_len: usize, linear: u32, quadratic: u32, missed: u64,
        plan: *mut u32, plan_len: usize, live: u64, stop: u32, after: *mut u64, cost: *mut f64,
    ) -> u32;
    pub fn planner_view(
        vehicles: *const u32, vehicles_len: usize, stops: *const u32, stops_len: usize,
        plan: *const u32, plan_len: usize, vans: u32, seen: *mut u32, seen_len: usize, unplaced: *mut u64,
    ) -> u32;
    pub fn planner_move_stop(
        vehicles: *const u32, vehicles_len: usize, stops: *const u32, stops_len: usize, locations: u32,
        distances: *const u32, distances_len: usize, linear: u32, quadratic: u32, missed: u64,
        plan: *mut u32, plan_len: usize, vans: u32, stop: u32, van: u32, place: u32, change: *mut i64,
    ) -> u32;
    pub fn planner_roadworks(
        vehicles: *const u32, vehicles_len: usize, stops: *const u32, stops_len: usize, locations: u32,
        distances: *const u32, distances_len: usize, linear: u32, quadratic: u32, missed: u64,
        plan: *const u32, plan_len: usize, from: u32, to: u32, more: u32, rise: *mut u64,
    ) -> u32;
}
