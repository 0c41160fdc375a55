//! A host in Rust: Job A, planned by each call, with the same lines as the hosts in C and Python.

use planner::{Job, Move, Refusal, Road, Running, Standing};

const JOB: Job = Job {
    vehicles: &[0, 0],
    stops: &[1, 2],
    locations: 3,
    distances: &[0, 2, 3, 2, 0, 9, 9, 1, 0],
    linear: 1,
    quadratic: 0,
    missed: 100,
};

/// A line: the call's name, its values or the number of its refusal, and the plan.
fn show(name: &str, answer: Result<String, Refusal>, plan: &[u32]) {
    let answer = answer.unwrap_or_else(|refusal| format!(" refused {}", refusal.0));

    println!("{name}{answer} plan {}", spaced(plan));
}

fn spaced(numbers: &[u32]) -> String {
    let words = numbers.iter().map(u32::to_string).collect::<Vec<_>>();

    words.join(" ")
}

fn show_cost(name: &str, answer: Result<f64, Refusal>, plan: &[u32]) {
    show(name, answer.map(|cost| format!(" cost {cost}")), plan);
}

fn show_start_plan(plan: &mut [u32]) {
    let answer = planner::start_plan(&JOB, plan);

    show("start_plan", answer.map(|()| String::new()), plan);
}

fn show_run(limit: u32, plan: &mut [u32]) {
    let running = Running {
        smoothing: 1,
        limit,
        draws: &[0],
    };
    let answer = planner::solve(&JOB, &running, plan).map(|totals| {
        format!(
            " start {} end {} rounds {} improving {} settled {}",
            totals.start, totals.end, totals.rounds, totals.improving, totals.settled as u32
        )
    });

    show("solve", answer, plan);
}

/// A rebuild also answers how many fillings of its first region it began, and how many arrangements it completed.
fn show_rebuild(given: &[u32], plan: &mut [u32]) {
    let answer = planner::rebuild(&JOB, plan, given).map(|walk| {
        format!(
            " cost {} begun {} completed {}",
            walk.cost, walk.begun, walk.completed
        )
    });

    show("rebuild", answer, plan);
}

/// Answers the live set, which is that from before where the call is refused.
fn show_change(name: &str, before: u64, answer: Result<Standing, Refusal>, plan: &[u32]) -> u64 {
    let live = answer.map_or(before, |standing| standing.live);

    show(
        name,
        answer.map(|standing| format!(" live {live} cost {}", standing.cost)),
        plan,
    );
    live
}

/// A view for a caller who holds a set of vans.
fn show_view(vans: u32, plan: &[u32]) {
    let mut seen = [7; 3];
    let answer = planner::view(&JOB, plan, vans, &mut seen);

    show(
        "view",
        answer.map(|unplaced| format!(" unplaced {unplaced} seen {}", spaced(&seen))),
        plan,
    );
}

/// A move of stop 1 to a place of van 0, for a caller who holds that van.
fn show_move(place: u32, plan: &mut [u32]) {
    let to = Move {
        stop: 1,
        van: 0,
        place,
    };
    let answer = planner::move_stop(&JOB, plan, 1, to);

    show(
        "move_stop",
        answer.map(|change| format!(" change {change}")),
        plan,
    );
}

/// Roadworks on the road from location 2 to location 1, of 1 metre, which the plan uses where stop 1 comes before stop 0.
fn show_roadworks(more: u32, plan: &[u32]) {
    let road = Road {
        from: 2,
        to: 1,
        more,
    };
    let answer = planner::roadworks(&JOB, plan, road);

    show(
        "roadworks",
        answer.map(|rise| format!(" rise {rise}")),
        plan,
    );
}

fn main() {
    let plan = &mut [5, 5, 5];

    show_run(0, plan); // no rounds allowed: refused, with the plan as it was
    show_run(50, plan);
    show_start_plan(plan);
    show_cost("weigh", planner::weigh(&JOB, plan), plan);
    show_cost("two_opt", planner::two_opt(&JOB, plan, [0, 0]), plan); // one stop twice: refused
    show_cost("two_opt", planner::two_opt(&JOB, plan, [0, 1]), plan);
    show_start_plan(plan);
    show_rebuild(&[], plan); // no stop: refused
    show_rebuild(&[0], plan);
    show_start_plan(plan);
    show_rebuild(&[0, 1], plan);
    show_cost("exhaustive", planner::exhaustive(&JOB, plan), plan);
    show_cost("pruned", planner::pruned(&JOB, plan), plan);

    let live = 3; // both stops
    let live = show_change("cancel", live, planner::cancel(&JOB, plan, live, 1), plan);
    let live = show_change("cancel", live, planner::cancel(&JOB, plan, live, 1), plan); // no longer live: refused
    let live = show_change("arrive", live, planner::arrive(&JOB, plan, live, 1), plan);
    show_change("arrive", live, planner::arrive(&JOB, plan, live, 1), plan); // live already: refused
    show_view(1, plan);
    show_move(1, plan); // to the end of its route
    show_move(2, plan); // beyond the end: refused
    show_change("cancel", live, planner::cancel(&JOB, plan, live, 1), plan);
    show_view(0, plan); // without a van: no route is seen
    show_view(2, plan); // there is no van 1: refused
    show_move(0, plan); // from no route
    show_roadworks(5, plan);
    show_roadworks(200_000, plan); // 1 metre too long: refused
}
