//! Pairs of plans that are the same to a caller: the caller's vans have the same routes and the same stops are on none, while
//! the other vans' stops lie otherwise. The caller asks of both plans for a view, for some moves one after another, and for a
//! view again. Each sheet has the plan that the second program's answer before left. Besides comparing the two programs it
//! compares the answers on the two plans with each other, and each with what the sheet says.

use crate::{
    steps::{fields, lines, play_all, routes, weigh, without, Game, NUMBER_WIDTH, PLAN_WIDTH},
    Options,
};
use generate::{Move, Pair};
use sheet::{all_stops, holds, placed_stops, Call, Routes, Sheet};
use std::{error::Error, fmt};

/// A pair with the plans of its last answers.
struct Played {
    pair: Pair,
    plans: [Vec<u32>; 2],
}

/// What the caller asks of both plans.
#[derive(Clone, Copy)]
enum Asked {
    View,
    Move(Move),
}

/// A line with a number, and a plan unless the number is a refusal's.
#[derive(Clone, Debug, Eq, PartialEq)]
struct Answer {
    number: String,
    plan: Option<Vec<u32>>,
}

/// What came of a question, for the count of them.
#[derive(Clone, Eq, Ord, PartialEq, PartialOrd)]
enum Outcome {
    Seen,
    Moved(&'static str),
    Refused(String),
}

/// Whether the programs agree on all pairs, and no caller can tell two plans of a pair apart.
pub fn run(options: &Options) -> Result<bool, Box<dyn Error>> {
    let mut pairs = (0..options.count)
        .map(|index| Played::new(generate::pair(options.seed, options.from + index)))
        .collect::<Vec<_>>();
    let differing = differing(&pairs);
    let Some(outcomes) = play_all(options, &mut pairs)? else {
        return Ok(false);
    };

    if differing < 3 * pairs.len() / 4 {
        println!("only {differing} of {} pairs differ", pairs.len());

        return Ok(false);
    }

    println!(
        "{} pairs the same to their callers, {differing} of them of different plans: {} and {}",
        options.count, options.programs[0], options.programs[1]
    );

    for (outcome, count) in outcomes {
        println!("{count} times both {outcome}");
    }

    Ok(true)
}

/// How many pairs are of plans that differ.
fn differing(pairs: &[Played]) -> usize {
    pairs
        .iter()
        .filter(|played| played.plans[0] != played.plans[1])
        .count()
}

impl Played {
    fn new(pair: Pair) -> Self {
        Self {
            plans: pair.plans.clone(),
            pair,
        }
    }

    fn asked(&self, step: usize) -> Asked {
        match step {
            0 => Asked::View,
            _ => match self.pair.moves.get(step - 1) {
                Some(&moved) => Asked::Move(moved),
                None => Asked::View,
            },
        }
    }

    fn routes(&self, plan: &[u32]) -> Result<Routes, String> {
        routes(&self.pair.job, plan)
    }

    /// What a caller sees of a plan: the stops on no route, and the routes with those of the other vans emptied.
    fn own(&self, plan: &[u32]) -> Result<(u64, Routes), String> {
        let mut routes = self.routes(plan)?;
        let unplaced = all_stops(self.pair.job.stops.len()) & !placed_stops(&routes);

        for (van, route) in routes.iter_mut().enumerate() {
            if !holds(self.pair.vans, van) {
                route.clear();
            }
        }

        Ok((unplaced, routes))
    }

    fn test_view(&self, plan: &[u32], number: &str, seen: &[u32]) -> Result<(), String> {
        let (unplaced, routes) = self.own(plan)?;

        if number.trim_start().parse() != Ok(unplaced) {
            return Err(format!("the stops on no route are {unplaced}"));
        }

        match self.routes(seen)? == routes {
            true => Ok(()),
            false => Err("the caller sees other routes".into()),
        }
    }

    fn test_move(&self, old: &[u32], moved: Move, number: &str, new: &[u32]) -> Result<(), String> {
        let (old, new) = (self.routes(old)?, self.routes(new)?);
        let stop = moved.stop as usize;
        let is_there = new
            .get(moved.van as usize)
            .is_some_and(|route| route.get(moved.place as usize) == Some(&stop));

        if !is_there {
            return Err("the stop is not at its place".into());
        }

        if without(&old, stop) != without(&new, stop) {
            return Err("another stop has moved".into());
        }

        // No other van's route changes, so that the change is that of the whole plan.
        match self.cost(&new) - self.cost(&old) {
            change if number.trim_start().parse() == Ok(change) => Ok(()),
            change => Err(format!("weighed afresh the change is {change}")),
        }
    }

    /// Where the stop of a move is before it.
    fn from(&self, moved: Move) -> Result<&'static str, String> {
        let routes = self.routes(&self.plans[0])?;
        let van = routes
            .iter()
            .position(|route| route.contains(&(moved.stop as usize)));

        Ok(match van {
            None => "from no route",
            Some(van) if van == moved.van as usize => "within a route",
            Some(_) => "from another van",
        })
    }

    /// The cost of routes on a day on which all stops are to be made.
    fn cost(&self, routes: &Routes) -> i64 {
        let job = &self.pair.job;

        weigh(job, routes, all_stops(job.stops.len())) as i64
    }
}

impl Game<2> for Played {
    type Answer = Answer;
    type Outcome = Outcome;

    const NAME: &'static str = "pair";
    const SHEETS_ARE: &'static str = "the two sheets, which are";

    /// A view, the moves, and a view.
    fn step_count(&self) -> usize {
        self.pair.moves.len() + 2
    }

    /// The sheets of both plans.
    fn sheets(&self, step: usize) -> [Sheet; 2] {
        let (call, given) = match self.asked(step) {
            Asked::View => (Call::View, vec![self.pair.vans]),
            Asked::Move(moved) => (Call::MoveStop, moved.given(self.pair.vans)),
        };

        self.plans.each_ref().map(|plan| Sheet {
            call,
            given: given.clone(),
            plan: plan.clone(),
            job: self.pair.job.clone(),
        })
    }

    fn answers(output: &[u8]) -> Option<Vec<Answer>> {
        let mut lines = lines(output)?.peekable();
        let mut answers = vec![];

        while let Some(line) = lines.next() {
            if line.len() != NUMBER_WIDTH {
                return None;
            }

            // No plan line is as long as a number's.
            let plan = match lines.next_if(|line| line.len() != NUMBER_WIDTH) {
                Some(line) => Some(fields(line, PLAN_WIDTH)?),
                None => None,
            };

            answers.push(Answer {
                number: line.into(),
                plan,
            });
        }

        Some(answers)
    }

    fn take(&mut self, step: usize, [one, other]: [&Answer; 2]) -> Result<Outcome, String> {
        let asked = self.asked(step);

        if one.number != other.number || one.plan.is_some() != other.plan.is_some() {
            return Err("the caller tells the plans apart by the number".into());
        }

        if matches!(asked, Asked::View) && one.plan != other.plan {
            return Err("the caller tells the plans apart by the view".into());
        }

        let (Some(one_plan), Some(other_plan)) = (&one.plan, &other.plan) else {
            return Ok(Outcome::Refused(one.number.trim_start().into()));
        };
        let plans = [one_plan, other_plan];

        match asked {
            Asked::View => {
                for (old, seen) in self.plans.iter().zip(plans) {
                    self.test_view(old, &one.number, seen)?;
                }

                Ok(Outcome::Seen)
            }
            Asked::Move(moved) => {
                if self.own(plans[0])? != self.own(plans[1])? {
                    return Err("the new plans are not the same to the caller".into());
                }

                for (old, new) in self.plans.iter().zip(plans) {
                    self.test_move(old, moved, &one.number, new)?;
                }

                let from = self.from(moved)?;

                self.plans = plans.map(Vec::clone);

                Ok(Outcome::Moved(from))
            }
        }
    }

    fn history(&self, step: usize) -> String {
        let moves = &self.pair.moves;

        format!(
            "vans: {:b}\nmoves: {:?}",
            self.pair.vans,
            &moves[..step.min(moves.len())]
        )
    }
}

impl fmt::Display for Outcome {
    fn fmt(&self, formatter: &mut fmt::Formatter) -> fmt::Result {
        match self {
            Self::Seen => write!(formatter, "seen"),
            Self::Moved(from) => write!(formatter, "moved {from}"),
            Self::Refused(number) => write!(formatter, "refused as {number}"),
        }
    }
}

#[cfg(test)]
mod tests {
    use super::*;
    use sheet::{job_a, Job, UNUSED};

    /// Three vans and five stops. The first is the caller's and has stop 0, stop 4 is on none; the others have the others.
    fn played(moves: Vec<Move>) -> Played {
        let plans = [
            vec![1, 2, 1, 0, 1, 2, 3, UNUSED],
            vec![1, 1, 2, 0, 3, 2, 1, UNUSED],
        ];
        let job = Job {
            vehicles: vec![[0, 0]; 3],
            stops: vec![1, 2, 0, 1, 2],
            ..job_a()
        };

        Played::new(Pair {
            job,
            vans: 0b001,
            plans,
            moves,
        })
    }

    fn answer(number: &str, plan: &[u32]) -> Answer {
        Answer {
            number: format!("{number:>20}"),
            plan: Some(plan.to_vec()),
        }
    }

    fn refused(number: &str) -> Answer {
        Answer {
            number: format!("{number:>20}"),
            plan: None,
        }
    }

    const SEEN: [u32; 8] = [1, 0, 0, 0, UNUSED, UNUSED, UNUSED, UNUSED];
    const TO_FRONT: Move = Move {
        stop: 4,
        van: 0,
        place: 0,
    };

    /// Stop 4 before stop 0: 3 + 1 + 2 metres for 4, and 100 less missed.
    fn moved() -> [Answer; 2] {
        [
            answer("-98", &[2, 2, 1, 4, 0, 1, 2, 3]),
            answer("-98", &[2, 1, 2, 4, 0, 3, 2, 1]),
        ]
    }

    #[test]
    fn takes_right_answers() {
        let seen = answer("16", &SEEN);
        let mut pair = played(vec![TO_FRONT]);
        let [one, other] = moved();

        assert!(pair.take(0, [&seen, &seen]).is_ok());
        assert!(pair.take(1, [&one, &other]).is_ok());
        assert_eq!(
            pair.plans.each_ref().map(Some),
            [&one.plan, &other.plan].map(Option::as_ref)
        );

        let after = answer("0", &[2, 0, 0, 4, 0, UNUSED, UNUSED, UNUSED]);

        assert!(pair.take(2, [&after, &after]).is_ok());

        let mut pair = played(vec![TO_FRONT]);
        let plans = pair.plans.clone();

        assert!(pair.take(1, [&refused("15"), &refused("15")]).is_ok());
        assert_eq!(pair.plans, plans);
    }

    #[test]
    fn takes_no_views_that_differ() {
        let seen = answer("16", &SEEN);

        for other in [
            answer("24", &SEEN),
            answer("16", &[1, 1, 0, 0, UNUSED, UNUSED, UNUSED, UNUSED]),
            answer("16", &[1, 0, 0, 1, UNUSED, UNUSED, UNUSED, UNUSED]),
            refused("16"),
            refused("15"),
        ] {
            for pair in [[&seen, &other], [&other, &seen]] {
                let error = played(vec![]).take(0, pair).err().expect("a difference");

                assert!(error.contains("apart"), "{error}");
            }
        }

        // Both wrong in the same way.
        for wrong in [
            answer("0", &SEEN),
            answer("16", &[1, 0, 0, 1, UNUSED, UNUSED, UNUSED, UNUSED]),
            answer("16", &[1, 2, 1, 0, 1, 2, 3, UNUSED]),
        ] {
            assert!(played(vec![]).take(0, [&wrong, &wrong]).is_err());
        }
    }

    #[test]
    fn takes_no_moves_that_differ() {
        let [one, other] = moved();
        let plan = |answer: &Answer| answer.plan.clone().expect("a plan");

        for wrong in [
            answer("-97", &plan(&other)),
            answer("98", &plan(&other)),
            refused("15"),
            refused("-98"),
            // The stop at another place, another stop moved, a stop gone, and none moved.
            answer("-98", &[2, 1, 2, 0, 4, 3, 2, 1]),
            answer("-98", &[2, 1, 2, 4, 0, 3, 1, 2]),
            answer("-98", &[2, 1, 1, 4, 0, 3, 2, UNUSED]),
            answer("-98", &[1, 1, 2, 0, 3, 2, 1, UNUSED]),
            answer("-98", &[2, 1, 2, 4, 0, 3, 2, 2]),
        ] {
            let mut pair = played(vec![TO_FRONT]);

            assert!(pair.take(1, [&one, &wrong]).is_err(), "{wrong:?}");
        }

        // Both wrong in the same way.
        let wrong = ["-99", "98"].map(|number| {
            moved().map(|answer| Answer {
                number: format!("{number:>20}"),
                ..answer
            })
        });

        for [one, other] in &wrong {
            assert!(played(vec![TO_FRONT]).take(1, [one, other]).is_err());
        }
    }

    #[test]
    fn reads_answers() {
        let moved = "                 -98\n             1             0\n";
        let refused = "                  15\n";
        let empty = "                   0\n\n";
        let numbers = |number: &str, plan: &[u32]| answer(number, plan);

        assert_eq!(Played::answers(b""), Some(vec![]));
        assert_eq!(
            Played::answers([refused, moved, empty, refused].concat().as_bytes()),
            Some(vec![
                self::refused("15"),
                numbers("-98", &[1, 0]),
                numbers("0", &[]),
                self::refused("15"),
            ])
        );

        for text in ["\n", "x", "15\n", &moved[..40], &refused[..20]] {
            assert_eq!(Played::answers(text.as_bytes()), None, "{text}");
        }
    }
}
