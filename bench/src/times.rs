use crate::{arrivals, clock::least_time, job, rebuilds, roads, vans, Side, SIDES};

/// Rounds before those that are timed, so that reading the job, tables and start plan cancel out.
const FIRST: u32 = 10;
const ROUNDS: u32 = 50;
const JOBS: u64 = 4;
const SIZES: [[u64; 3]; 3] = [[4, 20, 24], [8, 40, 48], [16, 64, 80]];
const STOP_COUNTS: [u64; 6] = [8, 16, 24, 32, 48, 64];
const ROUND_COUNTS: [u32; 4] = [500, 1_000, 2_000, 4_000];

pub fn tables() -> String {
    for sizes in SIZES {
        (0..JOBS).for_each(|index| check(sizes, index));
    }

    let rebuilds = rebuilds::table(&SIZES, JOBS);
    let arrivals = arrivals::table(&SIZES, JOBS);
    let vans = vans::table(&SIZES, JOBS);
    let roads = roads::table(&SIZES, JOBS);

    [
        by_size(),
        by_stops(),
        by_rounds(),
        rebuilds,
        arrivals,
        vans,
        roads,
    ]
    .join("\n")
}

/// All sides give the same answer, and no run settles before its limit.
fn check(sizes: [u64; 3], index: u64) {
    let job = job(sizes, index, FIRST + ROUNDS);
    let answers = SIDES.map(|side| (side.solve)(&job));

    assert!(answers.iter().all(|answer| *answer == answers[0]));
    assert!(!answers[0].0.settled);
}

/// The time of a run in seconds.
fn run_time(side: &Side, sizes: [u64; 3], index: u64, limit: u32) -> f64 {
    let job = job(sizes, index, limit);

    least_time(|| {
        let (run, _) = (side.solve)(&job);

        assert_eq!(run.rounds, limit as u64);
    })
}

/// Microseconds of a round.
fn round_time(side: &Side, sizes: [u64; 3]) -> f64 {
    let seconds = (0..JOBS)
        .map(|index| {
            run_time(side, sizes, index, FIRST + ROUNDS) - run_time(side, sizes, index, FIRST)
        })
        .sum::<f64>();

    seconds * 1e6 / (JOBS * ROUNDS as u64) as f64
}

fn by_size() -> String {
    let mut text = "### A round\n\nMicroseconds of a round.\n\n\
        | v, n, l | proved | oracle | plain | oracle / proved | proved / plain |\n|---|---|---|---|---|---|\n"
        .to_string();

    for sizes in SIZES {
        let [proved, oracle, plain] = SIDES.map(|side| round_time(&side, sizes));

        text += &format!(
            "| {} | {proved:.1} | {oracle:.0} | {plain:.1} | {:.0} | {:.2} |\n",
            sizes.map(|size| size.to_string()).join(", "),
            oracle / proved,
            proved / plain,
        );
    }

    text
}

fn by_stops() -> String {
    let mut text = "### Growth with the number of stops\n\nMicroseconds of a round, v 8, l 80.\n\n\
        | n | proved | oracle | plain |\n|---|---|---|---|\n"
        .to_string();

    for count in STOP_COUNTS {
        let [proved, oracle, plain] = SIDES.map(|side| round_time(&side, [8, count, 80]));

        text += &format!("| {count} | {proved:.1} | {oracle:.0} | {plain:.1} |\n");
    }

    text
}

fn by_rounds() -> String {
    let mut text = "### Growth with the number of rounds\n\nMilliseconds of a whole run, v 16, n 64, l 80.\n\n\
        | rounds | proved | plain |\n|---|---|---|\n"
        .to_string();

    for rounds in ROUND_COUNTS {
        let [proved, _, plain] = SIDES;
        let [proved, plain] =
            [proved, plain].map(|side| run_time(&side, SIZES[2], 0, rounds) * 1e3);

        text += &format!("| {rounds} | {proved:.1} | {plain:.1} |\n");
    }

    text
}
