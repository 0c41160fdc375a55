//! A caller looks at a plan and moves its last stop to another van, through the static library.

use crate::{
    clock::call_time,
    job,
    proved::{unused, Lists},
};
use plain::Plain;
use planner::Move;
use sheet::{decode, encode, Job, Planner};

/// Microseconds of the calls, means of so many jobs of each of the sizes.
pub fn table(sizes: &[[u64; 3]], job_count: u64) -> String {
    let mut text = "### A view and a move\n\n\
        Microseconds of a call in which a caller who holds every second van looks at the start plan, of one in which a caller\n\
        who holds all vans moves the last stop to the front of another route, and of weighing the plan. Plain: the move in\n\
        the plain rewrite, which tests nothing, and weighs the caller's routes before and after.\n\n\
        | v, n, l | view | move_stop | weigh | plain |\n|---|---|---|---|---|\n"
        .to_string();

    for &sizes in sizes {
        let times = (0..job_count).map(|index| times(&job(sizes, index, 1)));
        let sums = times.fold([0.0; 4], |sums, times| {
            [0, 1, 2, 3].map(|column| sums[column] + times[column])
        });
        let [view, move_stop, weigh, plain] = sums.map(|sum| sum / job_count as f64);

        text += &format!(
            "| {} | {view:.2} | {move_stop:.2} | {weigh:.2} | {plain:.1} |\n",
            sizes.map(|size| size.to_string()).join(", "),
        );
    }

    text
}

/// Microseconds of a view, a move, weighing, and the plain rewrite's move.
fn times(job: &Job) -> [f64; 4] {
    let [v, n] = [job.vehicles.len(), job.stops.len()];
    let lists = Lists::new(job);
    let mut plan = unused(job);

    planner::start_plan(&lists.job(), &mut plan).expect("an accepted job");

    let routes = decode(&plan, v, n).expect("a plan");
    let own = routes.iter().position(|route| route.contains(&(n - 1)));
    let van = (own.expect("a placed stop") + 1) % v;
    let all = (1u32 << v) - 1;
    let to = Move {
        stop: n as u32 - 1,
        van: van as u32,
        place: 0,
    };

    // both answers and plans are the same
    let wanted = Plain::move_stop(job, &routes, all, n - 1, van, 0);
    let mut moved = plan.clone();
    let change = planner::move_stop(&lists.job(), &mut moved, all, to).expect("a stop to move");

    assert_eq!(change, wanted.change);
    assert_eq!(moved, encode(&wanted.routes, n));

    let mut seen = unused(job);

    [
        call_time(&plan, |plan| {
            planner::view(&lists.job(), plan, all & 0x5555, &mut seen)
        }),
        call_time(&plan, |plan| {
            planner::move_stop(&lists.job(), plan, all, to)
        }),
        call_time(&plan, |plan| planner::weigh(&lists.job(), plan)),
        call_time(&[], |_| {
            Plain::move_stop(job, &routes, all, n - 1, van, 0)
        }),
    ]
}
