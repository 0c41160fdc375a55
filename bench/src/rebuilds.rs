//! Rebuilds that drain as many stops as can be, through the static library.

use crate::{clock::call_time, job, proved::Lists};
use sheet::{encode, Job};

/// Microseconds of the calls, means of so many jobs of each of the sizes.
pub fn table(sizes: &[[u64; 3]], job_count: u64) -> String {
    let mut text = "### A rebuild\n\n\
        Microseconds of a call that rebuilds a plan with all stops on two vehicles: around one stop, which completes 13,700\n\
        arrangements, and around one of each route, which completes 11,743; and of weighing the plan.\n\n\
        | v, n, l | rebuild, one region | rebuild, two regions | weigh |\n|---|---|---|---|\n"
        .to_string();

    for &sizes in sizes {
        let times = (0..job_count).map(|index| times(&job(sizes, index, 1)));
        let sums = times.fold([0.0; 3], |sums, times| {
            [0, 1, 2].map(|column| sums[column] + times[column])
        });
        let [one, two, weigh] = sums.map(|sum| sum / job_count as f64);

        text += &format!(
            "| {} | {one:.0} | {two:.0} | {weigh:.2} |\n",
            sizes.map(|size| size.to_string()).join(", "),
        );
    }

    text
}

/// Microseconds of a rebuild of one region, of two, and of weighing.
fn times(job: &Job) -> [f64; 3] {
    let lists = Lists::new(job);
    let half = job.stops.len() / 2;
    let mut routes = vec![vec![]; job.vehicles.len()];

    routes[0].extend(0..half);
    routes[1].extend(half..job.stops.len());

    let plan = encode(&routes, job.stops.len());
    let middle = half as u32 / 2;
    let picks = [middle, half as u32 + middle];
    let rebuild = |plan: &mut [u32], picks: &[u32]| {
        planner::rebuild(&lists.job(), plan, picks).expect("a plan and its stops")
    };

    for (picks, completed) in [(&picks[..1], 13_700), (&picks, 11_743)] {
        assert_eq!(rebuild(&mut plan.clone(), picks).completed, completed);
    }

    [
        call_time(&plan, |plan| rebuild(plan, &picks[..1])),
        call_time(&plan, |plan| rebuild(plan, &picks)),
        call_time(&plan, |plan| planner::weigh(&lists.job(), plan)),
    ]
}
