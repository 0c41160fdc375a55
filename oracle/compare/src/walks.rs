//! Rebuilds. Each sheet is handed over with another that has its picks exchanged. Besides comparing the two programs it tests the
//! second one's counts by the number of stops that are drained, and that the order of regions changes nothing of an answer.

use crate::{
    steps::{fields, lines, play_all, routes, weigh, Counts, Game, NUMBER_WIDTH, PLAN_WIDTH},
    Options,
};
use sheet::{all_stops, refusal, Routes, Sheet};
use std::{error::Error, fmt};

/// A sheet of a rebuild, which may be one to refuse.
struct Walked {
    sheet: Sheet,
}

#[derive(Debug, Eq, PartialEq)]
enum Answer {
    Refused(u64),
    Rebuilt {
        cost: u64,
        begun: u64,
        completed: u64,
        plan: Vec<u32>,
    },
}

/// What came of a sheet, for the count of them.
#[derive(Clone, Copy, Debug, Eq, Ord, PartialEq, PartialOrd)]
enum Outcome {
    Drained { regions: usize, stops: usize },
    Refused(u64),
}

/// Whether the programs agree on all rebuilds, the counts are right, and there are two regions often enough to show it.
pub fn run(options: &Options) -> Result<bool, Box<dyn Error>> {
    let mut walks = (0..options.count)
        .map(|index| Walked {
            sheet: generate::walk(options.seed, options.from + index),
        })
        .collect::<Vec<_>>();
    let Some(outcomes) = play_all(options, &mut walks)? else {
        return Ok(false);
    };
    let accepted = count(&outcomes, |_| true);
    let two = count(&outcomes, |regions| regions == 2);

    if two < accepted.div_ceil(3) {
        println!("only {two} of {accepted} accepted ones have two regions");

        return Ok(false);
    }

    println!(
        "{} rebuilds the same, each also with its picks exchanged: {} and {}",
        options.count, options.programs[0], options.programs[1]
    );
    println!("{accepted} accepted, {two} of them with two regions");

    for (outcome, count) in outcomes {
        println!("{count} {outcome}");
    }

    Ok(true)
}

/// How many of the sheets that were accepted are such, by the number of regions.
fn count(outcomes: &Counts<Outcome>, is_such: fn(usize) -> bool) -> u64 {
    outcomes
        .iter()
        .filter(|(outcome, _)| match **outcome {
            Outcome::Drained { regions, .. } => is_such(regions),
            Outcome::Refused(_) => false,
        })
        .map(|(_, count)| count)
        .sum()
}

/// In how many ways some of so many stops are put into so many regions, by how many the first takes, in each order.
fn ways(regions: usize, stops: u64) -> u64 {
    if regions == 0 {
        return 1;
    }

    let mut orders = 1;
    let mut sum = 0;

    for left in (0..=stops).rev() {
        sum += orders * ways(regions - 1, left);
        orders *= left;
    }

    sum
}

impl Walked {
    /// The sheet with its picks exchanged.
    fn exchanged(&self) -> Sheet {
        let mut sheet = self.sheet.clone();

        sheet.given.reverse();
        sheet
    }

    /// What an accepted sheet drains of each region.
    fn drained(sheet: &Sheet) -> Result<Vec<Vec<usize>>, String> {
        Ok(generate::drained(
            &routes(&sheet.job, &sheet.plan)?,
            &sheet.given,
        ))
    }

    /// Tests the answer to a sheet with so many regions by itself.
    fn test(sheet: &Sheet, regions: &[Vec<usize>], answer: &Answer) -> Result<(), String> {
        let Answer::Rebuilt {
            cost,
            begun,
            completed,
            plan,
        } = answer
        else {
            return Err("it is to be accepted".into());
        };
        let job = &sheet.job;
        let stops = regions.concat();
        let wanted = match regions.len() {
            0 => [0; 2],
            count => [1, count].map(|regions| ways(regions, stops.len() as u64)),
        };

        if [*begun, *completed] != wanted {
            let [begun, completed] = wanted;

            return Err(format!("the counts are to be {begun} and {completed}"));
        }

        let (old, new) = (routes(job, &sheet.plan)?, routes(job, plan)?);
        let all = all_stops(job.stops.len());

        if undrained(&old, &stops) != undrained(&new, &stops) {
            return Err("a stop that is not drained has moved".into());
        }

        if *cost > weigh(job, &old, all) {
            return Err("it is dearer than before".into());
        }

        match weigh(job, &new, all) {
            afresh if afresh == *cost => Ok(()),
            afresh => Err(format!("weighed afresh it costs {afresh}")),
        }
    }
}

/// Routes without the drained stops.
fn undrained(routes: &Routes, stops: &[usize]) -> Routes {
    routes
        .iter()
        .map(|route| route.iter().copied().filter(|stop| !stops.contains(stop)))
        .map(Iterator::collect)
        .collect()
}

impl Game<2> for Walked {
    type Answer = Answer;
    type Outcome = Outcome;

    const NAME: &'static str = "rebuild";
    const SHEETS_ARE: &'static str = "the sheet and the one with its picks exchanged, which are";

    fn step_count(&self) -> usize {
        1
    }

    fn sheets(&self, _step: usize) -> [Sheet; 2] {
        [self.sheet.clone(), self.exchanged()]
    }

    fn answers(output: &[u8]) -> Option<Vec<Answer>> {
        let mut lines = lines(output)?;
        let mut answers = vec![];

        while let Some(line) = lines.next() {
            answers.push(match fields(line, NUMBER_WIDTH)?[..] {
                [number] => Answer::Refused(number),
                [cost, begun, completed] => Answer::Rebuilt {
                    cost,
                    begun,
                    completed,
                    plan: fields(lines.next()?, PLAN_WIDTH)?,
                },
                _ => return None,
            });
        }

        Some(answers)
    }

    fn take(&mut self, _step: usize, answers: [&Answer; 2]) -> Result<Outcome, String> {
        let sheets = self.sheets(0);

        if let Some(number) = refusal(&self.sheet) {
            return match answers
                .iter()
                .all(|&answer| *answer == Answer::Refused(number))
            {
                true => Ok(Outcome::Refused(number)),
                false => Err(format!("it is to be refused as {number}")),
            };
        }

        let [mut regions, mut other_regions] =
            [Self::drained(&sheets[0])?, Self::drained(&sheets[1])?];

        Self::test(&sheets[0], &regions, answers[0])?;
        Self::test(&sheets[1], &other_regions, answers[1])?;

        let outcome = Outcome::Drained {
            regions: regions.len(),
            stops: regions.concat().len(),
        };

        // Of two picks on one route only the first is kept, so that another stretch may be drained.
        regions.sort();
        other_regions.sort();

        if regions == other_regions && answers[0] != answers[1] {
            return Err("the order of the picks changes the answer".into());
        }

        Ok(outcome)
    }

    fn history(&self, _step: usize) -> String {
        format!("picks: {:?}", self.sheet.given)
    }
}

impl fmt::Display for Outcome {
    fn fmt(&self, formatter: &mut fmt::Formatter) -> fmt::Result {
        let (regions, stops) = match *self {
            Self::Refused(number) => return write!(formatter, "refused as {number}"),
            Self::Drained { regions: 0, .. } => return write!(formatter, "with no pick placed"),
            Self::Drained { regions, stops } => (regions, stops as u64),
        };

        write!(
            formatter,
            "with {stops} drained of {}: {} begun, {} completed",
            ["one route", "two routes"][regions - 1],
            ways(1, stops),
            ways(regions, stops)
        )
    }
}

#[cfg(test)]
mod tests {
    use super::*;
    use sheet::{job_a, sheet_a, Call, UNUSED};

    /// Job A with both stops in order, which cost 20.
    fn both(given: &[u32]) -> Walked {
        Walked {
            sheet: Sheet {
                given: given.to_vec(),
                ..sheet_a(Call::Rebuild)
            },
        }
    }

    /// Job A with a van for each of the stops, which cost 4 and 12, and a stop that is on none.
    fn on_two() -> Walked {
        let mut job = job_a();

        job.vehicles.push([0, 0]);
        job.stops.push(0);

        Walked {
            sheet: Sheet {
                given: vec![0, 1],
                plan: vec![1, 1, 0, 1, UNUSED],
                job,
                ..sheet_a(Call::Rebuild)
            },
        }
    }

    fn rebuilt(cost: u64, [begun, completed]: [u64; 2], plan: &[u32]) -> Answer {
        Answer::Rebuilt {
            cost,
            begun,
            completed,
            plan: plan.to_vec(),
        }
    }

    #[test]
    fn counts_ways() {
        for (regions, stops, count) in [
            (0, 6, 1),
            (1, 0, 1),
            (1, 1, 2),
            (1, 2, 5),
            (1, 6, 1_957),
            (1, 7, 13_700),
            (2, 1, 3),
            (2, 2, 11),
            (2, 6, 11_743),
            (3, 6, 42_079),
        ] {
            assert_eq!(ways(regions, stops), count);
        }
    }

    #[test]
    fn takes_right_answers() {
        let one = rebuilt(6, [5, 5], &[2, 1, 0]);
        let two = rebuilt(106, [5, 11], &[0, 2, 1, 0, UNUSED]);

        for given in [&[0][..], &[0, 1]] {
            assert_eq!(
                both(given).take(0, [&one, &one]),
                Ok(Outcome::Drained {
                    regions: 1,
                    stops: 2
                })
            );
        }

        assert_eq!(
            on_two().take(0, [&two, &two]),
            Ok(Outcome::Drained {
                regions: 2,
                stops: 2
            })
        );
        assert_eq!(
            both(&[1, 1]).take(0, [&Answer::Refused(12), &Answer::Refused(12)]),
            Ok(Outcome::Refused(12))
        );
    }

    #[test]
    fn takes_no_wrong_answer() {
        let right = rebuilt(106, [5, 11], &[0, 2, 1, 0, UNUSED]);
        let same = rebuilt(106, [5, 11], &[2, 0, 1, 0, UNUSED]);

        for wrong in [
            // Other counts, exchanged ones, and those of one region or of none.
            rebuilt(106, [5, 10], &[0, 2, 1, 0, UNUSED]),
            rebuilt(106, [4, 11], &[0, 2, 1, 0, UNUSED]),
            rebuilt(106, [11, 5], &[0, 2, 1, 0, UNUSED]),
            rebuilt(106, [5, 5], &[0, 2, 1, 0, UNUSED]),
            rebuilt(106, [0, 0], &[0, 2, 1, 0, UNUSED]),
            // Another cost, a dearer plan, no plan, and a stop that was not drained.
            rebuilt(105, [5, 11], &[0, 2, 1, 0, UNUSED]),
            rebuilt(120, [5, 11], &[2, 0, 0, 1, UNUSED]),
            rebuilt(106, [5, 11], &[0, 2, 1, 1, UNUSED]),
            rebuilt(6, [5, 11], &[0, 3, 1, 0, 2]),
            Answer::Refused(12),
        ] {
            assert!(on_two().take(0, [&wrong, &wrong]).is_err(), "{wrong:?}");
            assert!(on_two().take(0, [&right, &wrong]).is_err(), "{wrong:?}");
        }

        // As cheap and in form, but not for both orders.
        assert!(on_two().take(0, [&same, &same]).is_ok());
        assert!(on_two().take(0, [&right, &same]).is_err());
        assert!(both(&[1, 1]).take(0, [&right, &right]).is_err());
        assert!(both(&[2])
            .take(0, [&Answer::Refused(12), &Answer::Refused(11)])
            .is_err());
    }

    #[test]
    fn counts_nothing_without_a_region() {
        let mut none = both(&[0, 1]);

        none.sheet.plan = vec![0, UNUSED, UNUSED];

        let right = rebuilt(200, [0, 0], &[0, UNUSED, UNUSED]);
        let wrong = rebuilt(200, [1, 1], &[0, UNUSED, UNUSED]);

        assert!(none.take(0, [&right, &right]).is_ok());
        assert!(none.take(0, [&wrong, &wrong]).is_err());
    }

    #[test]
    fn reads_answers() {
        let rebuilt_text = "                   6                   5                   5\n             2             1             0\n";
        let refused = "                  12\n";

        assert_eq!(Walked::answers(b""), Some(vec![]));
        assert_eq!(
            Walked::answers([refused, rebuilt_text].concat().as_bytes()),
            Some(vec![Answer::Refused(12), rebuilt(6, [5, 5], &[2, 1, 0])])
        );

        for text in ["\n", "x", "12\n", &rebuilt_text[..61], &refused[..20]] {
            assert_eq!(Walked::answers(text.as_bytes()), None, "{text}");
        }
    }
}
