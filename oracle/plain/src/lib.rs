//! The same steps written anew for speed: whole numbers, route lengths kept and changed by differences, sets of stops as
//! bits, no maps. It shows how fast the steps can go; nothing is proved about it. What the call of a rebuild counts, no run
//! does: `walk.rs` counts it apart.

mod arrange;
mod day;
mod live;
mod plan;
mod pruned;
mod rebuild;
mod roads;
mod run;
mod start;
mod two_opt;
mod vans;
mod walk;

use day::Day;
use plan::Plan;
use sheet::{Changed, Job, Moved, Planner, Rebuilt, Road, Routes, Run, Seen};
use walk::Counts;

pub struct Plain;

impl Planner for Plain {
    fn weigh(job: &Job, routes: &Routes) -> u64 {
        let day = Day::new(job);

        Plan::from_routes(&day, routes).cost(&day)
    }

    fn start_plan(job: &Job) -> Routes {
        let day = Day::new(job);

        start::start_plan(&day).to_routes(&day)
    }

    fn two_opt(job: &Job, routes: &Routes, stops: [usize; 2]) -> Routes {
        let day = Day::new(job);
        let mut plan = Plan::from_routes(&day, routes);

        two_opt::two_opt(&day, &mut plan, stops[0], stops[1]);
        plan.to_routes(&day)
    }

    fn rebuild(job: &Job, routes: &Routes, stops: &[usize]) -> Rebuilt {
        let day = Day::new(job);
        let mut plan = Plan::from_routes(&day, routes);
        let regions = rebuild::regions(&plan, stops);
        let Counts { begun, completed } = walk::count(routes, &regions, |_| ());

        rebuild::rebuild(&day, &mut plan, stops);

        Rebuilt {
            begun,
            completed,
            routes: plan.to_routes(&day),
        }
    }

    fn exhaustive(job: &Job) -> Routes {
        let day = Day::new(job);
        let mut plan = Plan::new(&day);

        rebuild::exhaustive(&day, &mut plan);
        plan.to_routes(&day)
    }

    fn pruned(job: &Job) -> Routes {
        pruned::pruned(&Day::new(job))
    }

    fn solve(job: &Job) -> (Run, Routes) {
        let day = Day::new(job);
        let (run, plan) = run::run(&day, job.smoothing, job.limit, &job.draws);

        (run, plan.to_routes(&day))
    }

    fn arrive(job: &Job, routes: &Routes, live: u64, stop: usize) -> Changed {
        live::arrive(job, routes, live, stop)
    }

    fn cancel(job: &Job, routes: &Routes, live: u64, stop: usize) -> Changed {
        live::cancel(job, routes, live, stop)
    }

    fn view(job: &Job, routes: &Routes, vans: u32) -> Seen {
        vans::view(job, routes, vans)
    }

    fn move_stop(
        job: &Job,
        routes: &Routes,
        vans: u32,
        stop: usize,
        van: usize,
        place: usize,
    ) -> Moved {
        vans::move_stop(job, routes, vans, stop, van, place)
    }

    fn roadworks(job: &Job, routes: &Routes, road: Road) -> u64 {
        roads::ceiling(job, routes, road)
    }
}
