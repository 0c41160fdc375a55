//! Roadworks. Each sheet is handed over with two more, which weigh its plan on the job as it is and on the job with the longer
//! road. Besides comparing the two programs it tests that the second one's ceiling is not below what the plan then costs it more.

use crate::{
    steps::{fields, lines, play_all, Counts, Game, NUMBER_WIDTH},
    Options,
};
use sheet::{refusal, Call, Job, Sheet};
use std::error::Error;

/// A sheet of roadworks, which may be one to refuse.
struct Works {
    sheet: Sheet,
}

/// What came of a sheet, for the count of them.
#[derive(Clone, Copy, Debug, Eq, Ord, PartialEq, PartialOrd)]
enum Outcome {
    Ceiling { rises: bool, is_above: bool },
    Refused(u64),
}

/// Whether the programs agree on all roadworks, no ceiling is below the rise, and there is a rise often enough to show it.
pub fn run(options: &Options) -> Result<bool, Box<dyn Error>> {
    let mut works = (0..options.count)
        .map(|index| Works {
            sheet: generate::road(options.seed, options.from + index),
        })
        .collect::<Vec<_>>();
    let Some(outcomes) = play_all(options, &mut works)? else {
        return Ok(false);
    };
    let accepted = count(&outcomes, |_, _| true);
    let rising = count(&outcomes, |rises, _| rises);
    let above = count(&outcomes, |_, is_above| is_above);

    if rising < accepted.div_ceil(2) {
        println!("only {rising} of {accepted} accepted ones have a rise above 0");

        return Ok(false);
    }

    println!(
        "{} roadworks the same, no ceiling below the rise: {} and {}",
        options.count, options.programs[0], options.programs[1]
    );
    println!("{accepted} accepted, {rising} of them with a rise above 0");
    println!(
        "{above} ceilings above the rise, {} equal to it",
        accepted - above
    );

    for (outcome, count) in outcomes {
        if let Outcome::Refused(number) = outcome {
            println!("{count} refused as {number}");
        }
    }

    Ok(true)
}

/// How many of the sheets that were accepted are such, by whether the cost rises and whether the ceiling is above that.
fn count(outcomes: &Counts<Outcome>, is_such: fn(bool, bool) -> bool) -> u64 {
    outcomes
        .iter()
        .filter(|(outcome, _)| match **outcome {
            Outcome::Ceiling { rises, is_above } => is_such(rises, is_above),
            Outcome::Refused(_) => false,
        })
        .map(|(_, count)| count)
        .sum()
}

impl Works {
    /// The sheet that weighs the plan on a job.
    fn weighing(&self, job: Job) -> Sheet {
        Sheet {
            call: Call::Weigh,
            given: vec![],
            plan: self.sheet.plan.clone(),
            job,
        }
    }

    /// The job with the longer road, or as it is where there can be no such road.
    fn longer_job(&self) -> Job {
        let job = &self.sheet.job;

        match refusal(&self.sheet) {
            None => job.lengthened(self.sheet.road()),
            Some(_) => job.clone(),
        }
    }
}

impl Game<3> for Works {
    /// A ceiling, a cost or a refusal, which look the same.
    type Answer = u64;
    type Outcome = Outcome;

    const NAME: &'static str = "roadworks";
    const SHEETS_ARE: &'static str = "the sheet and the two that weigh its plan, which are";

    fn step_count(&self) -> usize {
        1
    }

    fn sheets(&self, _step: usize) -> [Sheet; 3] {
        [
            self.sheet.clone(),
            self.weighing(self.sheet.job.clone()),
            self.weighing(self.longer_job()),
        ]
    }

    fn answers(output: &[u8]) -> Option<Vec<u64>> {
        lines(output)?
            .map(|line| match fields(line, NUMBER_WIDTH)?[..] {
                [number] => Some(number),
                _ => None,
            })
            .collect()
    }

    fn take(&mut self, _step: usize, [answer, old, new]: [&u64; 3]) -> Result<Outcome, String> {
        match refusal(&self.sheet) {
            Some(number) if number == *answer => return Ok(Outcome::Refused(number)),
            Some(number) => return Err(format!("it is to be refused as {number}")),
            None => {}
        }

        let costs = format!("the plan costs {old} and then {new}");

        match new.checked_sub(*old) {
            None => Err(format!("a longer road is cheaper: {costs}")),
            Some(rise) if *answer < rise => {
                Err(format!("the ceiling {answer} is below the rise: {costs}"))
            }
            Some(rise) => Ok(Outcome::Ceiling {
                rises: rise > 0,
                is_above: *answer > rise,
            }),
        }
    }

    fn history(&self, _step: usize) -> String {
        format!("{:?}", self.sheet.road())
    }
}

#[cfg(test)]
mod tests {
    use super::*;
    use sheet::sheet_a;

    /// Job A with both stops in order, which are 20 metres, and so many more between the stops.
    fn works(more: u32) -> Works {
        let mut sheet = sheet_a(Call::Roadworks);

        sheet.given[2] = more;

        Works { sheet }
    }

    fn ceiling(rises: bool, is_above: bool) -> Result<Outcome, String> {
        Ok(Outcome::Ceiling { rises, is_above })
    }

    #[test]
    fn weighs_the_plan_on_both_jobs() {
        let [sheet, old, new] = works(5).sheets(0);

        assert_eq!(sheet, works(5).sheet);
        assert_eq!(old, sheet_a(Call::Weigh));
        assert_eq!(new.job.distances[1][2], 14);
        assert_eq!(
            Sheet {
                job: old.job.clone(),
                ..new
            },
            old
        );

        // There is no such job where the road becomes too long, or is not in the table.
        for given in [[1, 2, 200_000], [1, 2, u32::MAX], [3, 2, 5], [1, 3, 5]] {
            let mut works = works(0);

            works.sheet.given = given.to_vec();
            assert_eq!(works.sheets(0)[2], old);
        }
    }

    #[test]
    fn takes_no_ceiling_below_the_rise() {
        assert_eq!(works(5).take(0, [&5, &20, &25]), ceiling(true, false));
        assert_eq!(works(5).take(0, [&6, &20, &25]), ceiling(true, true));
        assert_eq!(works(0).take(0, [&0, &20, &20]), ceiling(false, false));
        assert_eq!(works(0).take(0, [&1, &20, &20]), ceiling(false, true));
        assert!(works(5).take(0, [&4, &20, &25]).is_err());
        assert!(works(5).take(0, [&0, &20, &25]).is_err());
        assert!(works(5).take(0, [&5, &25, &20]).is_err());
    }

    #[test]
    fn takes_the_refusal_alone() {
        let mut long = works(200_000);

        assert_eq!(long.take(0, [&7, &20, &20]), Ok(Outcome::Refused(7)));
        assert!(long.take(0, [&6, &20, &20]).is_err());
        assert!(long.take(0, [&200_000, &20, &200_020]).is_err());
    }

    #[test]
    fn counts_what_was_accepted() {
        let outcomes = Counts::from([
            (
                Outcome::Ceiling {
                    rises: false,
                    is_above: false,
                },
                1,
            ),
            (
                Outcome::Ceiling {
                    rises: true,
                    is_above: false,
                },
                2,
            ),
            (
                Outcome::Ceiling {
                    rises: true,
                    is_above: true,
                },
                4,
            ),
            (Outcome::Refused(7), 8),
        ]);

        assert_eq!(count(&outcomes, |_, _| true), 7);
        assert_eq!(count(&outcomes, |rises, _| rises), 6);
        assert_eq!(count(&outcomes, |_, is_above| is_above), 4);
    }

    #[test]
    fn reads_answers() {
        let line = "                  95\n";

        assert_eq!(Works::answers(b""), Some(vec![]));
        assert_eq!(
            Works::answers(line.repeat(2).as_bytes()),
            Some(vec![95, 95])
        );

        for text in ["\n", "x", "95\n", &line[..20], &line.replace('\n', line)] {
            assert_eq!(Works::answers(text.as_bytes()), None, "{text}");
        }
    }
}
