//! Examples of the scope, by the solver's Rust and by the plain rewrite.

use std::{
    env, fs,
    io::Write,
    process::{self, Command, Stdio},
};

const UNUSED: u64 = u32::MAX as u64;

fn print(mode: &str, input: &str) -> String {
    let mut child = Command::new(env!("CARGO_BIN_EXE_oracle"))
        .arg(mode)
        .stdin(Stdio::piped())
        .stdout(Stdio::piped())
        .spawn()
        .unwrap();

    child
        .stdin
        .take()
        .unwrap()
        .write_all(input.as_bytes())
        .unwrap();

    String::from_utf8(child.wait_with_output().unwrap().stdout).unwrap()
}

/// Checks what a mode prints, and its plain one.
fn check(mode: &str, input: &str, output: &str) {
    assert_eq!(print(mode, input), output);
    assert_eq!(print(&format!("plain-{mode}"), input), output);
}

fn line(numbers: &[u64]) -> String {
    columns(numbers, 14)
}

fn columns(numbers: &[u64], width: usize) -> String {
    numbers
        .iter()
        .map(|number| format!("{number:width$}"))
        .collect::<String>()
        + "\n"
}

fn lines(lines: &[&[u64]]) -> String {
    lines.iter().map(|numbers| line(numbers)).collect()
}

/// A job of the first line's numbers, at places of one location each, with one draw.
fn job(first: [u64; 8], vehicles: &[[u64; 2]], stops: &[u64], rows: &[&[u64]]) -> String {
    line(&first)
        + &vehicles
            .iter()
            .map(|vehicle| line(vehicle))
            .collect::<String>()
        + &stops.iter().map(|&stop| line(&[stop])).collect::<String>()
        + &lines(rows)
        + &lines(&[&[1], &[0]])
}

fn job_a(linear: u64, quadratic: u64, limit: u64) -> String {
    job(
        [1, 2, 3, linear, quadratic, 100, 1, limit],
        &[[0, 0]],
        &[1, 2],
        &[&[0, 2, 3], &[2, 0, 9], &[9, 1, 0]],
    )
}

#[test]
fn prints_job_a() {
    check(
        "shuttle",
        &job_a(1, 0, 50),
        "   0   0
   1   0
                  20                   6                  10                   1                   1
",
    );
}

#[test]
fn settles_job_a_at_ten_rounds_and_not_at_nine() {
    for (limit, rounds, settled) in [(9, 9, 0), (10, 10, 1), (11, 10, 1)] {
        check(
            "calls",
            &(line(&[7]) + &job_a(1, 0, limit)),
            &(columns(&[20, 6, rounds, 1, settled], 20) + &line(&[2, 1, 0])),
        );
    }
}

#[test]
fn weighs_plans_of_job_a() {
    for (plan, linear, quadratic, cost) in [
        ([2, 0, 1], 1, 0, 20),
        ([2, 1, 0], 1, 0, 6),
        ([1, 1, UNUSED], 1, 0, 112),
        ([0, UNUSED, UNUSED], 1, 0, 200),
        ([2, 1, 0], 2, 1, 48),
    ] {
        check(
            "calls",
            &(lines(&[&[1], &plan]) + &job_a(linear, quadratic, 50)),
            &columns(&[cost], 20),
        );
    }
}

/// Five stops on one route whose legs are free except for those of the routes that lose.
fn five_stops(rows: [[u64; 6]; 6]) -> String {
    job(
        [1, 5, 6, 1, 0, 0, 1, 1],
        &[[5, 5]],
        &[0, 1, 2, 3, 4],
        &rows.each_ref().map(|row| &row[..]),
    )
}

#[test]
fn tries_both_candidates_within_a_route() {
    let sheet = |rows| lines(&[&[3], &[0, 4], &[5, 0, 1, 2, 3, 4]]) + &five_stops(rows);
    let mut rows = [[0; 6]; 6];

    // All cost the same: the first candidate.
    check(
        "calls",
        &sheet(rows),
        &(columns(&[0], 20) + &line(&[5, 4, 1, 2, 3, 0])),
    );

    // The first candidate's leg from 4 to 1 is dear: the second, also as dear as the old plan.
    rows[4][1] = 1;
    check(
        "calls",
        &sheet(rows),
        &(columns(&[0], 20) + &line(&[5, 0, 3, 2, 1, 4])),
    );

    // The second candidate's leg from 3 to 2 is dear too: the old plan.
    rows[3][2] = 1;
    check(
        "calls",
        &sheet(rows),
        &(columns(&[0], 20) + &line(&[5, 0, 1, 2, 3, 4])),
    );
}

#[test]
fn decides_ties_by_the_plans_numbers() {
    let zero = |vehicles: usize, stops: usize, missed| {
        job(
            [vehicles as u64, stops as u64, 1, 1, 0, missed, 1, 1],
            &vec![[0, 0]; vehicles],
            &vec![0; stops],
            &[&[0]],
        )
    };
    let weighed = |plan: &[u64]| columns(&[0], 20) + &line(plan);
    let rebuilt = |count, plan: &[u64]| columns(&[0, count, count], 20) + &line(plan);

    check("calls", &(line(&[2]) + &zero(1, 2, 0)), &line(&[2, 0, 1]));
    check(
        "calls",
        &(lines(&[&[4], &[0], &[1, 0]]) + &zero(1, 1, 0)),
        &rebuilt(2, &[1, 0]),
    );
    check(
        "calls",
        &(lines(&[&[4], &[0], &[2, 1, 0]]) + &zero(1, 2, 1)),
        &rebuilt(5, &[2, 0, 1]),
    );
    check("calls", &(line(&[5]) + &zero(1, 1, 0)), &weighed(&[1, 0]));
    check(
        "calls",
        &(line(&[6]) + &zero(2, 1, 1)),
        &weighed(&[0, 1, 0]),
    );
}

/// A sheet of a rebuild (4) of stops at one place, where every plan of all stops that are placed costs the same.
fn walk_sheet(vehicles: usize, stops: usize, picks: &[u64], plan: &[u64]) -> String {
    lines(&[&[4], picks, plan])
        + &job(
            [vehicles as u64, stops as u64, 1, 1, 0, 1, 1, 1],
            &vec![[0, 0]; vehicles],
            &vec![0; stops],
            &[&[0]],
        )
}

#[test]
fn counts_fillings_and_arrangements() {
    let on_two = [4, 4, 0, 1, 2, 3, 4, 5, 6, 7];
    let one_missed = [4, 3, 0, 1, 2, 3, 4, 5, 6, UNUSED];
    let on_one = [0, 8, 0, 1, 2, 3, 4, 5, 6, 7];
    let short = [1, 2, 0, 1, 2, UNUSED, UNUSED, UNUSED, UNUSED, UNUSED];
    let none = [
        0, 0, UNUSED, UNUSED, UNUSED, UNUSED, UNUSED, UNUSED, UNUSED, UNUSED,
    ];

    for (picks, plan, counts) in [
        // Six stops of two routes, in both orders; as many of one; seven.
        (&[1, 5][..], on_two, [0, 1_957, 11_743]),
        (&[5, 1], on_two, [0, 1_957, 11_743]),
        (&[1, 3], on_one, [0, 1_957, 1_957]),
        (&[3], on_one, [0, 13_700, 13_700]),
        // A region ends with its route: four stops of one, then two and three of two routes, two and two.
        (&[7], on_one, [0, 65, 65]),
        (&[3, 4], on_two, [0, 326, 1_631]),
        (&[3, 7], on_two, [0, 65, 261]),
        // Short routes, and picks that are on one or on none.
        (&[0, 1], short, [5, 16, 49]),
        (&[2, 0], short, [5, 16, 49]),
        (&[0], short, [5, 2, 2]),
        (&[1, 2], short, [5, 5, 5]),
        (&[0, 3], short, [5, 2, 2]),
        (&[3, 2], short, [5, 5, 5]),
        (&[7, 4], one_missed, [1, 16, 16]),
        (&[7], one_missed, [1, 0, 0]),
        (&[3, 4], short, [5, 0, 0]),
        (&[0], none, [8, 0, 0]),
        (&[0, 1], none, [8, 0, 0]),
    ] {
        let sheet = walk_sheet(2, 8, picks, &plan);
        let answer = print("calls", &sheet);

        assert_eq!(answer.lines().next(), columns(&counts, 20).lines().next());
        assert_eq!(answer.lines().count(), 2);
        check("calls", &sheet, &answer);
    }

    check(
        "calls",
        &walk_sheet(0, 2, &[0, 1], &[UNUSED, UNUSED]),
        &(columns(&[2, 0, 0], 20) + &line(&[UNUSED, UNUSED])),
    );
    check(
        "calls",
        &walk_sheet(2, 2, &[1, 1], &[1, 1, 0, 1]),
        &columns(&[12], 20),
    );
}

#[test]
fn counts_on_job_a() {
    for (picks, plan, counts, new) in [
        (&[0][..], [2, 0, 1], [6, 5, 5], [2, 1, 0]),
        (&[0, 1], [2, 0, 1], [6, 5, 5], [2, 1, 0]),
        (&[0, 1], [1, 0, UNUSED], [104, 2, 2], [1, 0, UNUSED]),
        (&[1], [1, 0, UNUSED], [104, 0, 0], [1, 0, UNUSED]),
    ] {
        check(
            "calls",
            &(lines(&[&[4], picks, &plan]) + &job_a(1, 0, 50)),
            &(columns(&counts, 20) + &line(&new)),
        );
    }
}

#[test]
fn leaves_a_pair_with_one_stop_unplaced() {
    let job = job(
        [1, 2, 2, 1, 0, 1, 1, 10],
        &[[0, 0]],
        &[0, 1],
        &[&[0, 1], &[1, 0]],
    );

    check(
        "calls",
        &(lines(&[&[3], &[0, 1], &[1, 0, UNUSED]]) + &job),
        &(columns(&[1], 20) + &line(&[1, 0, UNUSED])),
    );
    check(
        "shuttle",
        &job,
        &("   0   0\n   1   -\n".to_string() + &columns(&[2, 1, 10, 1, 1], 20)),
    );
}

#[test]
fn runs_no_round_without_a_vehicle_or_with_one_stop() {
    let small = |first, vehicles: &[_], stops: &[_]| job(first, vehicles, stops, &[&[3]]);

    check(
        "calls",
        &[
            line(&[7]) + &small([0, 0, 1, 1, 0, 5, 1, 1], &[], &[]),
            line(&[7]) + &small([0, 2, 1, 1, 0, 5, 1, 1], &[], &[0, 0]),
            line(&[7]) + &small([1, 0, 1, 1, 0, 5, 1, 1], &[[0, 0]], &[]),
            line(&[7]) + &small([1, 1, 1, 1, 0, 5, 1, 1], &[[0, 0]], &[0]),
        ]
        .concat(),
        &[
            columns(&[0, 0, 0, 0, 1], 20),
            line(&[]),
            columns(&[10, 10, 0, 0, 1], 20),
            line(&[UNUSED, UNUSED]),
            columns(&[3, 3, 0, 0, 1], 20),
            line(&[0]),
            columns(&[6, 6, 0, 0, 1], 20),
            line(&[1, 0]),
        ]
        .concat(),
    );
}

#[test]
fn refuses_and_goes_on_up_to_a_sheet_out_of_form() {
    let good = job_a(1, 0, 50);

    check(
        "calls",
        &[
            lines(&[&[1], &[2, 0]]) + &good,
            lines(&[&[4], &[], &[2, 0, 1]]) + &good,
            lines(&[&[4], &[0, 1, 0], &[2, 0, 1]]) + &good,
            line(&[2]) + &job_a(1_000_001, 0, 50),
            line(&[5]) + &job_a(1_000_001, 0, 50),
            line(&[13]) + &good,
            line(&[2]) + &good,
        ]
        .concat(),
        &[
            columns(&[4], 20),
            columns(&[12], 20),
            columns(&[12], 20),
            line(&[2, 0, 1]),
            columns(&[8], 20),
            columns(&[14], 20),
        ]
        .concat(),
    );
    check("calls", "", "");
    check("shuttle", "", &columns(&[14], 20));
    check("shuttle", &(good.clone() + "\n"), &columns(&[14], 20));
    check("shuttle", &job_a(1, 17, 0), &columns(&[8], 20));
}

/// A sheet of an arrival (8) or a cancellation (9) on Job A.
fn live_sheet(call: u64, given: &[u64], plan: [u64; 3]) -> String {
    lines(&[&[call], given, &plan]) + &job_a(1, 0, 50)
}

#[test]
fn plays_a_day_of_job_a() {
    let none = [0, UNUSED, UNUSED];
    let one = [1, 0, UNUSED];
    let both = [2, 1, 0];
    let changed = |live: u64, cost, plan: [u64; 3]| columns(&[live, cost], 20) + &line(&plan);
    let refused = |number| columns(&[number], 20);

    check(
        "calls",
        &[
            // Stop 0 comes: 2 there and 2 back. Stop 1 comes before it: 3, 1 and 2, where behind it were 2, 9 and 9.
            live_sheet(8, &[0, 0, 0], none),
            live_sheet(8, &[1, 1, 0], one),
            live_sheet(8, &[1, 3, 0], both),
            live_sheet(8, &[2, 3, 0], both),
            // Stop 1 is cancelled, which is done once; then stop 0.
            live_sheet(9, &[1, 3, 0], both),
            live_sheet(9, &[1, 1, 0], one),
            live_sheet(9, &[0, 1, 0], one),
            live_sheet(9, &[0, 0, 0], none),
        ]
        .concat(),
        &[
            changed(1, 4, one),
            changed(3, 6, both),
            refused(16),
            refused(12),
            changed(1, 4, one),
            refused(17),
            changed(0, 0, none),
            refused(17),
        ]
        .concat(),
    );
}

#[test]
fn refuses_live_stops_as_the_plan() {
    let (none, one) = ([0, UNUSED, UNUSED], [1, 0, UNUSED]);

    for call in [8, 9] {
        for (given, plan) in [
            ([1, 0, 0], one),
            ([1, 2, 0], one),
            ([2, 5, 0], one),
            ([0, 0, 1], none),
            ([0, 0, 1 << 31], none),
            ([1, 3, 0], [2, 0, 0]),
            ([1, 1, 0], [1, 0, 0]),
            ([1, 1, 0], [1, 2, UNUSED]),
            ([1, 1, 0], [3, 0, 1]),
        ] {
            check(
                "calls",
                &live_sheet(call, &given, plan),
                &columns(&[11], 20),
            );
        }
    }
}

#[test]
fn counts_only_live_stops_as_missed() {
    let none = [0, UNUSED, UNUSED];

    check(
        "calls",
        &[
            live_sheet(9, &[1, 3, 0], none),
            live_sheet(9, &[1, 2, 0], none),
            live_sheet(8, &[0, 2, 0], none),
        ]
        .concat(),
        &[
            columns(&[1, 100], 20) + &line(&none),
            columns(&[0, 0], 20) + &line(&none),
            columns(&[3, 104], 20) + &line(&[1, 0, UNUSED]),
        ]
        .concat(),
    );
}

#[test]
fn leaves_an_arrival_off_only_where_that_is_cheaper() {
    // Placing the stop costs 4.
    let sheet = |missed| {
        lines(&[&[8], &[0, 0, 0], &[0, UNUSED]])
            + &job(
                [1, 1, 2, 1, 0, missed, 1, 1],
                &[[0, 0]],
                &[1],
                &[&[0, 2], &[2, 0]],
            )
    };

    for (missed, cost, plan) in [
        (0, 0, [0, UNUSED]),
        (3, 3, [0, UNUSED]),
        (4, 4, [1, 0]),
        (5, 4, [1, 0]),
    ] {
        check(
            "calls",
            &sheet(missed),
            &(columns(&[1, cost], 20) + &line(&plan)),
        );
    }
}

#[test]
fn takes_the_first_of_equal_places() {
    let zero = |vehicles: usize| {
        job(
            [vehicles as u64, 3, 1, 1, 0, 0, 1, 1],
            &vec![[0, 0]; vehicles],
            &[0, 0, 0],
            &[&[0]],
        )
    };
    let sheet = |plan: &[u64]| lines(&[&[8], &[2, 3, 0], plan]);

    check(
        "calls",
        &(sheet(&[1, 1, 1, 0, UNUSED]) + &zero(2)),
        &(columns(&[7, 0], 20) + &line(&[2, 1, 2, 1, 0])),
    );
    check(
        "calls",
        &(sheet(&[0, 2, 1, 0, UNUSED]) + &zero(2)),
        &(columns(&[7, 0], 20) + &line(&[1, 2, 2, 1, 0])),
    );
    check(
        "calls",
        &(sheet(&[UNUSED, UNUSED, UNUSED]) + &zero(0)),
        &(columns(&[7, 0], 20) + &line(&[UNUSED, UNUSED, UNUSED])),
    );
}

#[test]
fn reads_live_stops_as_two_numbers() {
    let many = |call, given: &[u64]| {
        lines(&[&[call], given, &[UNUSED; 64]])
            + &job([0, 64, 1, 1, 0, 5, 1, 1], &[], &[0; 64], &[&[0]])
    };
    let half = u32::MAX as u64;
    let plan = line(&[UNUSED; 64]);

    check(
        "calls",
        &[
            many(8, &[63, half, half >> 1]),
            many(9, &[63, half, half]),
            many(8, &[63, 0, 0]),
            many(9, &[32, 0, 1]),
            many(9, &[32, half, half - 1]),
            many(8, &[64, half, half]),
        ]
        .concat(),
        &[
            columns(&[u64::MAX, 320], 20) + &plan,
            columns(&[u64::MAX >> 1, 315], 20) + &plan,
            columns(&[1 << 63, 5], 20) + &plan,
            columns(&[0, 0], 20) + &plan,
            columns(&[17], 20),
            columns(&[12], 20),
        ]
        .concat(),
    );

    // Another count of numbers is no sheet, nor is a number of more than 32 bits.
    for call in [8, 9] {
        for given in [
            &[][..],
            &[0],
            &[0, 1],
            &[0, 1, 0, 0],
            &[half + 1, 1, 0],
            &[0, half + 1, 0],
            &[0, 1, half + 1],
        ] {
            check("calls", &many(call, given), &columns(&[14], 20));
        }

        // The sheet ends before its plan or its job.
        check("calls", &lines(&[&[call], &[0, 0, 0]]), &columns(&[14], 20));
        check("calls", &lines(&[&[call]]), &columns(&[14], 20));
    }
}

/// A sheet of a view (10) or a move (11) on Job A.
fn vans_sheet(call: u64, given: &[u64], plan: &[u64]) -> String {
    lines(&[&[call], given, plan]) + &job_a(1, 0, 50)
}

/// A change in 20 columns, then the plan.
fn changed(change: i64, plan: &[u64]) -> String {
    format!("{change:>20}\n") + &line(plan)
}

#[test]
fn shows_what_a_caller_holds() {
    let none = [0, UNUSED, UNUSED];

    for (vans, plan, unplaced, seen) in [
        (0, [2, 0, 1], 0, none),
        (1, [2, 0, 1], 0, [2, 0, 1]),
        (0, [1, 1, UNUSED], 1, none),
        (1, [1, 1, UNUSED], 1, [1, 1, UNUSED]),
        (1, none, 3, none),
    ] {
        check(
            "calls",
            &vans_sheet(10, &[vans], &plan),
            &(columns(&[unplaced], 20) + &line(&seen)),
        );
    }

    // Stops 3 and 1 of the second van, without those of the first and the third.
    let job = job([3, 6, 1, 1, 0, 0, 1, 1], &[[0, 0]; 3], &[0; 6], &[&[0]]);

    check(
        "calls",
        &(lines(&[&[10], &[0b010], &[1, 2, 1, 2, 3, 1, 5, UNUSED, UNUSED]]) + &job),
        &(columns(&[0b010001], 20) + &line(&[0, 2, 0, 3, 1, UNUSED, UNUSED, UNUSED, UNUSED])),
    );
}

#[test]
fn shows_the_last_stop_as_unplaced() {
    let job = job([0, 64, 1, 1, 0, 5, 1, 1], &[], &[0; 64], &[&[0]]);
    let plan = line(&[UNUSED; 64]);

    check(
        "calls",
        &(lines(&[&[10], &[0], &[UNUSED; 64]]) + &job),
        &(columns(&[u64::MAX], 20) + &plan),
    );
}

#[test]
fn moves_stops_of_job_a() {
    let one = [1, 0, UNUSED];

    for (given, plan, answer) in [
        // 20 metres become 6, and back.
        ([1, 1, 0, 0], [2, 0, 1], changed(-14, &[2, 1, 0])),
        ([1, 1, 0, 1], [2, 1, 0], changed(14, &[2, 0, 1])),
        ([1, 1, 0, 1], [2, 0, 1], changed(0, &[2, 0, 1])),
        // The place is counted without the stop: behind the other is 1, and 2 is beyond.
        ([1, 0, 0, 1], [2, 0, 1], changed(-14, &[2, 1, 0])),
        ([1, 0, 0, 2], [2, 0, 1], columns(&[15], 20)),
        // 4 metres become 6 or 20, and a stop is missed no more.
        ([1, 1, 0, 0], one, changed(-98, &[2, 1, 0])),
        ([1, 1, 0, 1], one, changed(-84, &[2, 0, 1])),
        ([1, 1, 0, 2], one, columns(&[15], 20)),
        // Nobody's van, no van of the job, no stop of the job.
        ([0, 1, 0, 0], one, columns(&[15], 20)),
        ([1, 1, 1, 0], one, columns(&[15], 20)),
        ([1, 1, 32, 0], one, columns(&[15], 20)),
        ([3, 1, 0, 0], one, columns(&[15], 20)),
        ([1, 2, 0, 0], one, columns(&[12], 20)),
        ([2, 2, 1, 3], one, columns(&[12], 20)),
        ([2, 2, 1, 3], [1, 2, UNUSED], columns(&[11], 20)),
    ] {
        check("calls", &vans_sheet(11, &given, &plan), &answer);
    }
}

#[test]
fn counts_the_callers_vans() {
    let job = job(
        [2, 2, 3, 1, 1, 9, 1, 1],
        &[[0, 0], [0, 2]],
        &[1, 2],
        &[&[0, 2, 2], &[2, 0, 4], &[2, 4, 0]],
    );
    let sheet = |given: [u64; 4]| lines(&[&[11], &given, &[2, 0, 0, 1]]) + &job;

    // The first van has 4 metres, at 20, for 8, at 72; the second 6, at 42, for 2, at 6.
    check(
        "calls",
        &sheet([3, 0, 1, 0]),
        &changed(20 - 72 + 42 - 6, &[1, 1, 1, 0]),
    );
    check("calls", &sheet([1, 0, 1, 0]), &columns(&[15], 20));
    check("calls", &sheet([2, 0, 1, 0]), &columns(&[15], 20));
    check("calls", &sheet([1, 0, 0, 1]), &changed(0, &[2, 0, 1, 0]));
}

#[test]
fn reads_as_many_numbers_as_a_caller_gives() {
    let plan = [2, 0, 1];
    let most = u32::MAX as u64;

    for given in [&[][..], &[1, 0], &[1, 0, 0, 0], &[most + 1]] {
        check("calls", &vans_sheet(10, given, &plan), &columns(&[14], 20));
    }

    for given in [
        &[][..],
        &[1],
        &[1, 1, 0],
        &[1, 1, 0, 0, 0],
        &[most + 1, 1, 0, 0],
        &[1, most + 1, 0, 0],
        &[1, 1, most + 1, 0],
        &[1, 1, 0, most + 1],
    ] {
        check("calls", &vans_sheet(11, given, &plan), &columns(&[14], 20));
    }

    // The sheet ends before its plan, or before its job.
    for sheet in [
        lines(&[&[10]]),
        lines(&[&[10], &[1]]),
        lines(&[&[11], &[1, 1, 0, 0]]),
        lines(&[&[11], &[1, 1, 0, 0], &plan]),
    ] {
        check("calls", &sheet, &columns(&[14], 20));
    }

    check(
        "calls",
        &vans_sheet(10, &[most], &plan),
        &columns(&[15], 20),
    );
}

#[test]
fn views_without_looking_at_the_table() {
    // A location, a distance and prices that every other call refuses.
    let job = job(
        [1, 1, 1, 1_000_001, 17, 10_000_000_000_001, 0, 0],
        &[[7, 8]],
        &[9],
        &[&[200_001]],
    );

    check(
        "calls",
        &[
            lines(&[&[10], &[1], &[1, 0]]) + &job,
            lines(&[&[10], &[2], &[1, 0]]) + &job,
            lines(&[&[10], &[2], &[1, 1]]) + &job,
            lines(&[&[10], &[2], &[1, 1, 0]]) + &job,
            lines(&[&[11], &[2, 9, 9, 9], &[1, 1]]) + &job,
        ]
        .concat(),
        &[
            columns(&[0], 20) + &line(&[1, 0]),
            columns(&[15], 20),
            columns(&[11], 20),
            columns(&[4], 20),
            columns(&[6], 20),
        ]
        .concat(),
    );
}

/// A sheet of roadworks (12) on Job A.
fn road_sheet(given: &[u64], plan: &[u64], linear: u64, quadratic: u64) -> String {
    lines(&[&[12], given, plan]) + &job_a(linear, quadratic, 50)
}

#[test]
fn bounds_what_a_longer_road_costs_job_a() {
    let both = [2, 1, 0];
    let none = [0, UNUSED, UNUSED];

    for (given, plan, linear, quadratic, ceiling) in [
        // Of 3, 1 and 2 metres the second leg becomes longer.
        ([2, 1, 5], both, 1, 0, 5),
        ([2, 1, 5], both, 2, 1, 5 * (2 + 2 * 6 + 5)),
        ([2, 1, 0], both, 2, 1, 0),
        ([2, 1, 199_999], both, 2, 1, 199_999 * (2 + 2 * 6 + 199_999)),
        // The first, the last, and one that is used the other way round alone.
        ([0, 2, 5], both, 2, 1, 95),
        ([1, 0, 5], both, 2, 1, 95),
        ([1, 2, 5], both, 2, 1, 0),
        // The way from start to end of a van without stops, of no metre.
        ([0, 0, 5], none, 2, 1, 5 * (2 + 5)),
        ([0, 1, 5], none, 2, 1, 0),
    ] {
        check(
            "calls",
            &road_sheet(&given, &plan, linear, quadratic),
            &columns(&[ceiling], 20),
        );
    }
}

#[test]
fn bounds_what_a_longer_road_costs_by_all_routes() {
    // Two vans of 4 metres each. The road is the first van's alone, so that the plan costs 75 more.
    let job = |road: u64| {
        job(
            [2, 2, 3, 2, 1, 100, 1, 50],
            &[[0, 0], [0, 1]],
            &[1, 2],
            &[&[0, road, 3], &[2, 0, 9], &[9, 1, 0]],
        )
    };
    let plan = [1, 1, 0, 1];

    check(
        "calls",
        &[
            lines(&[&[12], &[0, 1, 5], &plan]) + &job(2),
            lines(&[&[1], &plan]) + &job(2),
            lines(&[&[1], &plan]) + &job(2 + 5),
        ]
        .concat(),
        &[
            columns(&[115], 20),
            columns(&[48], 20),
            columns(&[48 + 75], 20),
        ]
        .concat(),
    );
}

#[test]
fn bounds_what_the_longest_road_costs() {
    // Sixteen vans and sixty-four stops at one place: eighty legs, each of 200,000 metres where it was none.
    let job = job(
        [16, 64, 1, 1_000_000, 16, 10_000_000_000_000, 1, 1],
        &[[0, 0]; 16],
        &[0; 64],
        &[&[0]],
    );
    let plan = [4; 16].into_iter().chain(0..64).collect::<Vec<_>>();

    check(
        "calls",
        &(lines(&[&[12], &[0, 0, 200_000], &plan]) + &job),
        &columns(&[4_112_000_000_000_000], 20),
    );
}

#[test]
fn refuses_roads() {
    let both = &[2, 1, 0][..];
    let twice = &[2, 0, 0][..];
    let most = u32::MAX as u64;
    let dear = 1_000_001;

    for (given, plan, linear, number) in [
        ([3, 1, 0], both, 1, 6),
        ([0, 3, 0], both, 1, 6),
        ([most, most, most], both, 1, 6),
        // From 1 to 2 are 9 metres, and none of the plan's.
        ([1, 2, 199_992], both, 1, 7),
        ([2, 1, 200_000], both, 1, 7),
        // What is left of the sum in 32 bits is 0, and 8.
        ([1, 2, most - 8], both, 1, 7),
        ([1, 2, most], both, 1, 7),
        // Several at once.
        ([3, 1, 200_000], &both[..2], dear, 4),
        ([3, 1, 200_000], twice, dear, 6),
        ([2, 1, 200_000], twice, dear, 7),
        ([2, 1, 199_999], twice, dear, 8),
        ([2, 1, 199_999], twice, 1, 11),
    ] {
        check(
            "calls",
            &road_sheet(&given, plan, linear, 0),
            &columns(&[number], 20),
        );
    }

    // There is room for just as much.
    for (given, ceiling) in [([1, 2, 199_991], 0), ([2, 1, 199_999], 199_999)] {
        check(
            "calls",
            &road_sheet(&given, both, 1, 0),
            &columns(&[ceiling], 20),
        );
    }

    // A location that is not in the table is before a distance that is too long.
    let job = job(
        [1, 1, 2, 1, 0, 0, 1, 1],
        &[[0, 0]],
        &[1],
        &[&[0, 1], &[1, 200_001]],
    );

    for (given, number) in [([0, 1, 0], 7), ([2, 0, 0], 6), ([0, 2, most], 6)] {
        check(
            "calls",
            &(lines(&[&[12], &given, &[1, 0]]) + &job),
            &columns(&[number], 20),
        );
    }
}

#[test]
fn reads_three_numbers_of_a_road() {
    let plan = [2, 1, 0];
    let most = u32::MAX as u64;

    for given in [
        &[][..],
        &[2],
        &[2, 1],
        &[2, 1, 5, 0],
        &[most + 1, 1, 5],
        &[2, most + 1, 5],
        &[2, 1, most + 1],
    ] {
        check(
            "calls",
            &road_sheet(given, &plan, 1, 0),
            &columns(&[14], 20),
        );
    }

    // The sheet ends before its road, its plan or its job.
    for sheet in [
        lines(&[&[12]]),
        lines(&[&[12], &[2, 1, 5]]),
        lines(&[&[12], &[2, 1, 5], &plan]),
    ] {
        check("calls", &sheet, &columns(&[14], 20));
    }
}

#[test]
fn records_what_the_plain_rewrite_prints() {
    let directory = env::temp_dir().join(format!("recorded-{}", process::id()));
    let table = Command::new(env!("CARGO_BIN_EXE_oracle"))
        .arg("record")
        .arg(&directory)
        .output()
        .unwrap()
        .stdout;
    let [input, output] =
        ["stdin", "stdout"].map(|name| fs::read_to_string(directory.join(name)).unwrap());

    fs::remove_dir_all(&directory).unwrap();
    assert!(table.starts_with(b"| sheets | weigh |"));
    assert!(output.ends_with(&columns(&[14], 20)));
    assert_eq!(print("plain-calls", &input), output);
}
