use crate::{
    day::Day,
    plan::Plan,
    rebuild::rebuild,
    start::{neighbours, start_plan},
    two_opt::two_opt,
};
use sheet::Run;

const MIN_ROUNDS: u64 = 10;
const MIN_DELTA_RATIO: f64 = 0.01;
const TWO_OPT_STOPS: usize = 10;

struct Draws<'a> {
    draws: &'a [u32],
    place: usize,
}

impl Draws<'_> {
    fn below(&mut self, count: usize) -> usize {
        let draw = self.draws[self.place] as usize;

        self.place += 1;

        if self.place == self.draws.len() {
            self.place = 0;
        }

        draw % count
    }
}

pub fn run(day: &Day, smoothing: u32, limit: u32, draws: &[u32]) -> (Run, Plan) {
    let mut plan = start_plan(day);
    let start_cost = plan.cost(day);
    let mut run = Run {
        start_cost,
        end_cost: start_cost,
        rounds: 0,
        improving_rounds: 0,
        settled: true,
    };

    if day.vehicle_count == 0 || day.stop_count < 2 {
        return (run, plan);
    }

    let near = neighbours(day);
    let mut draws = Draws { draws, place: 0 };
    let mut delta = 0.0;
    let mut update = 0.0;

    loop {
        run.settled = run.rounds >= MIN_ROUNDS && delta <= update * MIN_DELTA_RATIO;

        if run.settled || run.rounds == limit as u64 {
            return (run, plan);
        }

        two_opt_pass(day, &mut plan, &near[draws.below(day.stop_count)]);
        region_pass(day, &mut plan, &near, &mut draws);

        let cost = plan.cost(day);
        let saved = (run.end_cost - cost) as f64;

        delta = average(smoothing, delta, saved);
        run.rounds += 1;

        if cost < run.end_cost {
            update = average(smoothing, update, saved);
            run.improving_rounds += 1;
        }

        run.end_cost = cost;
    }
}

fn two_opt_pass(day: &Day, plan: &mut Plan, near: &[u8]) {
    let count = day.stop_count.min(TWO_OPT_STOPS);

    for one in 0..count {
        for other in one + 1..count {
            two_opt(day, plan, near[one] as usize, near[other] as usize);
        }
    }
}

fn region_pass(day: &Day, plan: &mut Plan, near: &[[u8; 64]], draws: &mut Draws) {
    let count = day.stop_count;
    let pick_count = 1 + draws.below(2);
    let near = &near[draws.below(count)];
    let first = draws.below(count);
    let mut picks = [near[first] as usize, 0];

    if pick_count == 2 {
        let second = draws.below(count - 1);

        picks[1] = near[second + (second >= first) as usize] as usize;
    }

    rebuild(day, plan, &picks[..pick_count]);
}

fn average(count: u32, old: f64, new: f64) -> f64 {
    if old == 0.0 {
        new
    } else {
        (old * (count as f64 - 1.0) + new) / count as f64
    }
}
