//! The last stop of a job is cancelled and arrives again, through the static library, beside other calls on the same plan.

use crate::{
    clock::call_time,
    job,
    proved::{unused, Lists},
};
use plain::Plain;
use planner::Standing;
use sheet::{all_stops, decode, encode, Changed, Job, Planner, Routes};

/// Microseconds of the calls, means of so many jobs of each of the sizes.
pub fn table(sizes: &[[u64; 3]], job_count: u64) -> String {
    let mut text = "### An arrival\n\n\
        Microseconds of a call in which the last stop arrives where all others are live and placed, of its cancellation after\n\
        that, of weighing the plan, and of two-opt of the stop with one on another route. Each of these tests its arguments\n\
        and fills the table of legs first. Plain: an arrival in the plain rewrite, which does neither, and weighs a whole plan\n\
        for each place.\n\n\
        | v, n, l | arrive | cancel | weigh | two_opt | arrive less weigh | plain |\n|---|---|---|---|---|---|---|\n"
        .to_string();

    for &sizes in sizes {
        let times = (0..job_count).map(|index| times(&job(sizes, index, 1)));
        let sums = times.fold([0.0; 5], |sums, times| {
            [0, 1, 2, 3, 4].map(|column| sums[column] + times[column])
        });
        let [arrive, cancel, weigh, two_opt, plain] = sums.map(|sum| sum / job_count as f64);

        text += &format!(
            "| {} | {arrive:.2} | {cancel:.2} | {weigh:.2} | {two_opt:.2} | {:.2} | {plain:.1} |\n",
            sizes.map(|size| size.to_string()).join(", "),
            arrive - weigh,
        );
    }

    text
}

/// Cancels the stop, adds it again and weighs the plan, so many times, for tools that count what a call does.
pub fn repeat(count: u64, job: &Job) -> String {
    let arrival = Arrival::new(job);
    let mut plan = arrival.start_plan();

    for _ in 0..count {
        arrival.cancel(&mut plan);
        assert_eq!(arrival.arrive(&mut plan).cost, arrival.weigh(&plan));
    }

    format!("{count} cancellations, arrivals and weighings\n")
}

/// Microseconds of arrival, cancellation, weighing, two-opt, and the plain rewrite's arrival.
fn times(job: &Job) -> [f64; 5] {
    let arrival = Arrival::new(job);
    let [before, after] = arrival.plans();
    let other = arrival.other(&after);
    let routes = arrival.routes(&before);
    let stop = arrival.stop as usize;

    [
        call_time(&before, |plan| arrival.arrive(plan)),
        call_time(&after, |plan| arrival.cancel(plan)),
        call_time(&after, |plan| arrival.weigh(plan)),
        call_time(&after, |plan| arrival.two_opt(plan, other)),
        call_time(&[], |_| Plain::arrive(job, &routes, arrival.others, stop)),
    ]
}

/// The calls on one job, its last stop and the others.
struct Arrival<'a> {
    job: &'a Job,
    lists: Lists<'a>,
    stop: u32,
    others: u64,
    all: u64,
}

impl<'a> Arrival<'a> {
    fn new(job: &'a Job) -> Self {
        let stop = job.stops.len() - 1;

        Self {
            job,
            lists: Lists::new(job),
            stop: stop as u32,
            others: all_stops(stop),
            all: all_stops(stop + 1),
        }
    }

    fn start_plan(&self) -> Vec<u32> {
        let mut plan = unused(self.job);

        planner::start_plan(&self.lists.job(), &mut plan).expect("an accepted job");
        plan
    }

    fn arrive(&self, plan: &mut [u32]) -> Standing {
        planner::arrive(&self.lists.job(), plan, self.others, self.stop).expect("a stop to add")
    }

    fn cancel(&self, plan: &mut [u32]) -> Standing {
        planner::cancel(&self.lists.job(), plan, self.all, self.stop).expect("a live stop")
    }

    fn weigh(&self, plan: &[u32]) -> f64 {
        planner::weigh(&self.lists.job(), plan).expect("a plan")
    }

    fn two_opt(&self, plan: &mut [u32], other: u32) -> f64 {
        planner::two_opt(&self.lists.job(), plan, [self.stop, other]).expect("two stops")
    }

    /// The start plan less the stop, and the plan after its arrival, both as the plain rewrite has them.
    fn plans(&self) -> [Vec<u32>; 2] {
        let stop = self.stop as usize;
        let mut plan = self.start_plan();
        let cancelled = Plain::cancel(self.job, &self.routes(&plan), self.all, stop);
        let standing = self.cancel(&mut plan);
        let before = plan.clone();

        self.check(&before, standing, &cancelled);

        let arrived = Plain::arrive(self.job, &cancelled.routes, self.others, stop);
        let standing = self.arrive(&mut plan);

        self.check(&plan, standing, &arrived);
        [before, plan]
    }

    fn check(&self, plan: &[u32], standing: Standing, wanted: &Changed) {
        assert_eq!(plan, encode(&wanted.routes, self.job.stops.len()));
        assert_eq!(standing.live, wanted.live);
        assert_eq!(standing.cost as u64, wanted.cost);
    }

    fn routes(&self, plan: &[u32]) -> Routes {
        decode(plan, self.job.vehicles.len(), self.job.stops.len()).expect("a plan")
    }

    /// The first stop that is on another route.
    fn other(&self, plan: &[u32]) -> u32 {
        let routes = self.routes(plan);
        let mut others = routes
            .iter()
            .filter(|route| !route.contains(&(self.stop as usize)));

        *others.find_map(|route| route.first()).expect("two routes") as u32
    }
}
