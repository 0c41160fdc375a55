//! The least stack on which a call of the proved planner ends, at its largest size.

use crate::{
    job,
    proved::{self, longest},
};
use planner::Move;
use sheet::{all_stops, encode, Job};
use std::{
    env,
    process::{Command, Stdio},
    thread,
};

const CALLS: [&str; 12] = [
    "weigh",
    "start_plan",
    "two_opt",
    "rebuild",
    "exhaustive",
    "pruned",
    "solve",
    "arrive",
    "cancel",
    "view",
    "move_stop",
    "roadworks",
];
const LARGEST: [u64; 3] = [16, 64, 80];
const EXHAUSTIVE: [u64; 3] = [3, 6, 80];

pub fn table() -> String {
    let mut text = "### Stack\n\nThe least stack of a thread, in KiB, on which the call ends.\n\n\
        | call | KiB |\n|---|---|\n"
        .to_string();

    text += &format!("| no call | {} |\n", least("nothing"));

    for call in CALLS {
        text += &format!("| {call} | {} |\n", least(call));
    }

    text
}

fn least(call: &str) -> usize {
    let (mut low, mut high) = (0, 4096);

    while high - low > 4 {
        let middle = (low + high) / 2;

        if ends(call, middle) {
            high = middle;
        } else {
            low = middle;
        }
    }

    high
}

/// Whether the call ends well on such a stack, in a process of its own.
fn ends(call: &str, size: usize) -> bool {
    Command::new(env::current_exe().expect("this program"))
        .args(["call", call, &size.to_string()])
        .stdout(Stdio::null())
        .stderr(Stdio::null())
        .status()
        .is_ok_and(|status| status.success())
}

/// Makes the call on a stack of so many KiB. Too small a stack ends the process.
pub fn call(call: &str, size: usize) {
    let job = match call {
        "exhaustive" | "pruned" => job(EXHAUSTIVE, 0, 1),
        _ => job(LARGEST, 0, 200),
    };
    let call = call.to_string();

    thread::Builder::new()
        .stack_size(size << 10)
        .spawn(move || make(&call, &job))
        .map(thread::JoinHandle::join)
        .expect("a thread")
        .expect("a call");
}

fn make(call: &str, job: &Job) {
    let mut plan = proved::unused(job);
    let mut full = on_two(job, None);
    let live = all_stops(job.stops.len());
    let answers = match call {
        "weigh" => [proved::weigh(job, &full).map(drop); 2],
        "start_plan" => [proved::start_plan(job, &mut plan); 2],
        "two_opt" => [[0, 63], [0, 1]].map(|pair| proved::two_opt(job, &mut full, pair).map(drop)),
        "rebuild" => {
            [&[0, 63][..], &[0]].map(|picks| proved::rebuild(job, &mut full, picks).map(drop))
        }
        "exhaustive" => [proved::exhaustive(job, &mut plan).map(drop); 2],
        "pruned" => [proved::pruned(job, &mut plan).map(drop); 2],
        "solve" => [proved::solve(job, &mut plan).map(drop); 2],
        "arrive" => [0, 63].map(|stop| {
            let mut others = on_two(job, Some(stop));

            proved::arrive(job, &mut others, live & !(1 << stop), stop as u32).map(drop)
        }),
        "cancel" => [(0, live), (63, live & !1)]
            .map(|(stop, live)| proved::cancel(job, &mut full, live, stop).map(drop)),
        "view" => [0, 3].map(|vans| proved::view(job, &full, vans).map(drop)),
        "move_stop" => [0, 1].map(|van| {
            let to = Move {
                stop: 63,
                van,
                place: 0,
            };

            proved::move_stop(job, &mut full, 3, to).map(drop)
        }),
        // On the way between two stops, and on that of a vehicle without any.
        "roadworks" => [[job.stops[0], job.stops[1]], job.vehicles[2]]
            .map(|[from, to]| proved::roadworks(job, &full, longest(job, from, to)).map(drop)),
        _ => [Ok(()); 2],
    };

    assert_eq!(answers, [Ok(()); 2]);
}

/// All stops, or all but one, on two vehicles where there are as many.
fn on_two(job: &Job, missing: Option<usize>) -> Vec<u32> {
    let mut routes = vec![vec![]; job.vehicles.len()];

    for stop in (0..job.stops.len()).filter(|&stop| Some(stop) != missing) {
        routes[stop / 32].push(stop);
    }

    encode(&routes, job.stops.len())
}
