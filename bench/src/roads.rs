//! Roadworks on a road that a plan uses, through the static library.

use crate::{
    clock::call_time,
    job,
    proved::{longest, road, unused, Lists},
};
use plain::Plain;
use sheet::{decode, Job, Planner};

/// Microseconds of the calls, means of so many jobs of each of the sizes.
pub fn table(sizes: &[[u64; 3]], job_count: u64) -> String {
    let mut text = "### Roadworks\n\n\
        Microseconds of a call that says how much dearer the start plan can get where the road from the first vehicle's start\n\
        to its first stop becomes as long as a road may be, and of weighing the plan. Plain: the first in the plain rewrite,\n\
        which tests nothing.\n\n\
        | v, n, l | roadworks | weigh | plain |\n|---|---|---|---|\n"
        .to_string();

    for &sizes in sizes {
        let times = (0..job_count).map(|index| times(&job(sizes, index, 1)));
        let sums = times.fold([0.0; 3], |sums, times| {
            [0, 1, 2].map(|column| sums[column] + times[column])
        });
        let [roadworks, weigh, plain] = sums.map(|sum| sum / job_count as f64);

        text += &format!(
            "| {} | {roadworks:.2} | {weigh:.2} | {plain:.2} |\n",
            sizes.map(|size| size.to_string()).join(", "),
        );
    }

    text
}

/// Microseconds of roadworks, weighing, and the plain rewrite's roadworks.
fn times(job: &Job) -> [f64; 3] {
    let lists = Lists::new(job);
    let mut plan = unused(job);

    planner::start_plan(&lists.job(), &mut plan).expect("an accepted job");

    let routes = decode(&plan, job.vehicles.len(), job.stops.len()).expect("a plan");
    let first = *routes[0].first().expect("a stop");
    let longer = longest(job, job.vehicles[0][0], job.stops[first]);

    // both answers are the same, and not below the true rise
    let rise = planner::roadworks(&lists.job(), &plan, road(longer)).expect("a road");
    let costs = [&job.lengthened(longer), job].map(|job| Plain::weigh(job, &routes));

    assert_eq!(rise, Plain::roadworks(job, &routes, longer));
    assert!(rise >= costs[0] - costs[1]);

    [
        call_time(&plan, |plan| {
            planner::roadworks(&lists.job(), plan, road(longer))
        }),
        call_time(&plan, |plan| planner::weigh(&lists.job(), plan)),
        call_time(&[], |_| Plain::roadworks(job, &routes, longer)),
    ]
}
