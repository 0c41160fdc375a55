//! The answers of call sheets by the static library, its refusals among them.

use crate::proved;
use planner::{Move, Refusal, Standing, Walk};
use sheet::{change_line, costs, numbers, run_line, Call, Sheet};

pub fn answer(sheet: &Sheet) -> String {
    let mut plan = if sheet.call.has_plan() {
        sheet.plan.clone()
    } else {
        proved::unused(&sheet.job)
    };
    let before = plan.clone();
    let answer = call(sheet, &mut plan);
    let plan_line = match sheet.call {
        Call::Weigh | Call::View | Call::Roadworks => String::new(),
        _ => numbers(&plan),
    };

    match answer {
        Ok(line) => line + &plan_line,
        Err(Refusal(number)) => {
            assert_eq!(plan, before, "a refused call's plan");
            costs([number as u64])
        }
    }
}

/// Makes the call, and answers the line of its cost, its cost and counts, its live stops and cost, its run, its change, or the rise,
/// or the lines of its view.
fn call(sheet: &Sheet, plan: &mut [u32]) -> Result<String, Refusal> {
    let job = &sheet.job;
    let line = |cost: f64| costs([cost as u64]);
    let walk = |walk: Walk| costs([walk.cost as u64, walk.begun, walk.completed]);
    let standing = |standing: Standing| costs([standing.live, standing.cost as u64]);
    let view = |(unplaced, seen): (u64, Vec<u32>)| costs([unplaced]) + &numbers(&seen);

    match sheet.call {
        Call::Weigh => proved::weigh(job, plan).map(line),
        Call::StartPlan => proved::start_plan(job, plan).map(|()| String::new()),
        Call::TwoOpt => proved::two_opt(job, plan, [sheet.given[0], sheet.given[1]]).map(line),
        Call::Rebuild => proved::rebuild(job, plan, &sheet.given).map(walk),
        Call::Exhaustive => proved::exhaustive(job, plan).map(line),
        Call::Pruned => proved::pruned(job, plan).map(line),
        Call::Solve => proved::solve(job, plan).map(run_line),
        Call::Arrive => proved::arrive(job, plan, sheet.live(), sheet.stop()).map(standing),
        Call::Cancel => proved::cancel(job, plan, sheet.live(), sheet.stop()).map(standing),
        Call::View => proved::view(job, plan, sheet.vans()).map(view),
        Call::MoveStop => {
            let to = Move {
                stop: sheet.stop(),
                van: sheet.van(),
                place: sheet.place(),
            };

            proved::move_stop(job, plan, sheet.vans(), to).map(change_line)
        }
        Call::Roadworks => proved::roadworks(job, plan, sheet.road()).map(|rise| costs([rise])),
    }
}

#[cfg(test)]
mod tests {
    use super::*;
    use sheet::{given_live, sheet_a, UNUSED};

    /// Checks the number that each of the calls refuses a changed sheet with; the others accept it.
    fn check(calls: &[Call], number: u32, change: impl Fn(&mut Sheet)) {
        for call in Call::ALL {
            let mut sheet = sheet_a(call);
            let mut plan = match call {
                Call::Arrive => sheet.plan.clone(),
                _ => vec![2, 0, 1],
            };

            change(&mut sheet);
            assert_eq!(
                super::call(&sheet, &mut plan).err(),
                calls.contains(&call).then_some(Refusal(number)),
                "{call:?}"
            );
        }
    }

    #[test]
    fn refuses_lists_that_no_sheet_holds() {
        let tabled = Call::ALL.into_iter().filter(|call| call.has_table());
        let tabled = tabled.collect::<Vec<_>>();

        check(&[], 0, |_| ());
        check(&Call::ALL, 1, |sheet| sheet.job.vehicles = vec![[0, 0]; 17]);
        check(&Call::ALL, 2, |sheet| sheet.job.stops = vec![0; 65]);
        check(&tabled, 3, |sheet| {
            sheet.job.distances = vec![vec![0; 81]; 81]
        });
        check(&tabled, 3, |sheet| {
            sheet.job.distances[1].pop();
        });
        check(&[Call::Solve], 5, |sheet| sheet.job.draws.clear());
        check(&[Call::Solve], 5, |sheet| sheet.job.draws = vec![0; 1_025]);
    }

    /// The answer of an arrival or a cancellation of stop 1 of Job A, with other live stops.
    fn live_answer(call: Call, live: u64) -> String {
        answer(&Sheet {
            given: given_live(1, live),
            ..sheet_a(call)
        })
    }

    #[test]
    fn answers_live_stops_cost_and_plan() {
        let lines = |live, cost, plan: &[u32]| costs([live, cost]) + &numbers(plan);

        assert_eq!(live_answer(Call::Arrive, 1), lines(3, 6, &[2, 1, 0]));
        assert_eq!(live_answer(Call::Cancel, 3), lines(1, 4, &[1, 0, UNUSED]));
        assert_eq!(live_answer(Call::Arrive, 3), costs([16]));
        assert_eq!(live_answer(Call::Arrive, 1 | 1 << 32), costs([11]));
        assert_eq!(live_answer(Call::Cancel, 3 | 1 << 63), costs([11]));
        assert_eq!(live_answer(Call::Cancel, 1), costs([11]));
    }

    /// The answer of a call on Job A with the plan of both stops in order, and with other given numbers.
    fn given_answer(call: Call, given: &[u32]) -> String {
        answer(&Sheet {
            given: given.to_vec(),
            ..sheet_a(call)
        })
    }

    #[test]
    fn answers_what_a_rebuild_counts() {
        let rebuild = |given: &[u32]| given_answer(Call::Rebuild, given);
        let both = costs([6, 5, 5]) + &numbers(&[2, 1, 0]);

        assert_eq!(rebuild(&[0]), both);
        assert_eq!(rebuild(&[0, 1]), both);
        assert_eq!(rebuild(&[]), costs([12]));
        assert_eq!(rebuild(&[2]), costs([12]));

        // A van for each stop.
        let mut sheet = sheet_a(Call::Rebuild);

        sheet.job.vehicles.push([0, 0]);
        sheet.plan = vec![1, 1, 0, 1];
        assert_eq!(answer(&sheet), costs([6, 5, 11]) + &numbers(&[0, 2, 1, 0]));

        // No stop is on a route.
        sheet.plan = vec![0, 0, UNUSED, UNUSED];
        assert_eq!(
            answer(&sheet),
            costs([200, 0, 0]) + &numbers(&[0, 0, UNUSED, UNUSED])
        );
    }

    /// Stops at one place, of which as many are drained as can be.
    #[test]
    fn answers_the_highest_counts() {
        let mut sheet = sheet_a(Call::Rebuild);

        sheet.job.vehicles.push([0, 0]);
        sheet.job.stops = vec![0; 8];

        for (given, lengths, begun, completed) in [
            (&[1, 5][..], [4, 4], 1_957, 11_743),
            (&[6, 2], [4, 4], 1_957, 11_743),
            (&[3, 4], [8, 0], 1_957, 1_957),
            (&[3], [8, 0], 13_700, 13_700),
        ] {
            sheet.given = given.to_vec();
            sheet.plan = lengths.into_iter().chain(0..8).collect();

            let answer = answer(&sheet);

            assert!(
                answer.starts_with(&costs([0, begun, completed])),
                "{answer}"
            );
        }
    }

    #[test]
    fn answers_what_is_seen_and_what_a_move_changes() {
        let view = |vans| given_answer(Call::View, &[vans]);
        let moved = |vans, place| given_answer(Call::MoveStop, &[vans, 1, 0, place]);

        assert_eq!(view(0), costs([0]) + &numbers(&[0, UNUSED, UNUSED]));
        assert_eq!(view(1), costs([0]) + &numbers(&[2, 0, 1]));
        assert_eq!(view(2), costs([15]));
        assert_eq!(moved(1, 0), change_line(-14) + &numbers(&[2, 1, 0]));
        assert_eq!(moved(1, 1), change_line(0) + &numbers(&[2, 0, 1]));
        assert_eq!(moved(1, 2), costs([15]));
        assert_eq!(moved(0, 0), costs([15]));
    }

    #[test]
    fn answers_the_most_by_which_a_cost_can_rise() {
        let roadworks = |from, to, more| given_answer(Call::Roadworks, &[from, to, more]);

        assert_eq!(roadworks(1, 2, 0), costs([0]));
        assert_eq!(roadworks(1, 2, 5), costs([5]));
        assert_eq!(roadworks(2, 1, 5), costs([0]));
        assert_eq!(roadworks(1, 2, 199_991), costs([199_991]));
        assert_eq!(roadworks(1, 2, 199_992), costs([7]));
        assert_eq!(roadworks(1, 2, u32::MAX - 8), costs([7]));
        assert_eq!(roadworks(1, 2, u32::MAX), costs([7]));
        assert_eq!(roadworks(1, 3, 5), costs([6]));
        assert_eq!(roadworks(3, 0, u32::MAX), costs([6]));
    }

    /// The length of all routes, 20 metres, counts where the square has a price; and a vehicle without stops uses its road too.
    #[test]
    fn answers_a_rise_by_all_routes() {
        let mut sheet = Sheet {
            given: vec![1, 2, 5],
            ..sheet_a(Call::Roadworks)
        };

        (sheet.job.linear, sheet.job.quadratic) = (2, 1);
        assert_eq!(answer(&sheet), costs([5 * (2 + 40 + 5)]));

        sheet.job.vehicles.push([1, 2]);
        sheet.plan.insert(1, 0);
        assert_eq!(answer(&sheet), costs([10 * (2 + 58 + 10)]));
    }
}
