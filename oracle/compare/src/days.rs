//! Whole days of arrivals and cancellations, from an empty plan and no live stop on. Each sheet has the plan and the live
//! stops that the second program's answer before left. Besides comparing the answers it tests what is claimed of every day,
//! from the events alone.

use crate::{
    steps::{fields, lines, play_all, routes, weigh, without, Game, NUMBER_WIDTH, PLAN_WIDTH},
    Options,
};
use generate::{Day, Event};
use sheet::{contains, encode, given_live, placed_stops, Call, Routes, Sheet};
use std::{error::Error, fmt};

/// A day with the plan and the live stops of its last answer.
struct Played {
    day: Day,
    plan: Vec<u32>,
    live: u64,
}

#[derive(Debug, Eq, PartialEq)]
enum Answer {
    Refused(u64),
    Changed {
        live: u64,
        cost: u64,
        plan: Vec<u32>,
    },
}

/// What an event came to, for the count of them.
#[derive(Clone, Copy, Eq, Ord, PartialEq, PartialOrd)]
enum Outcome {
    Placed,
    LeftOff,
    Cancelled,
    Refused(u64),
}

/// Whether the programs agree on all days and the claims hold.
pub fn run(options: &Options) -> Result<bool, Box<dyn Error>> {
    let mut days = (0..options.count)
        .map(|index| Played::new(generate::day(options.seed, options.from + index)))
        .collect::<Vec<_>>();
    let Some(outcomes) = play_all(options, &mut days)? else {
        return Ok(false);
    };

    println!(
        "{} days of {} events the same: {} and {}",
        options.count,
        outcomes.values().sum::<u64>(),
        options.programs[0],
        options.programs[1]
    );

    for (outcome, count) in outcomes {
        println!("{count} {outcome}");
    }

    Ok(true)
}

impl Played {
    fn new(day: Day) -> Self {
        let routes = vec![vec![]; day.job.vehicles.len()];

        Self {
            plan: encode(&routes, day.job.stops.len()),
            live: 0,
            day,
        }
    }

    /// The refusal of an event, by the events before it alone.
    fn refusal(&self, step: usize) -> Option<u64> {
        let event = self.day.events[step];

        if event.stop() as usize >= self.day.job.stops.len() {
            return Some(12);
        }

        match (event, self.is_live(step, event.stop())) {
            (Event::Arrival(_), true) => Some(16),
            (Event::Cancellation(_), false) => Some(17),
            _ => None,
        }
    }

    /// Whether the last of so many events that names a stop is an arrival.
    fn is_live(&self, count: usize, stop: u32) -> bool {
        self.day.events[..count]
            .iter()
            .rfind(|event| event.stop() == stop)
            .is_some_and(|event| matches!(event, Event::Arrival(_)))
    }

    /// The routes of a new plan for which every claim holds.
    fn test(&self, step: usize, live: u64, cost: u64, plan: &[u32]) -> Result<Routes, String> {
        let job = &self.day.job;
        let stop = self.day.events[step].stop() as usize;
        let new = routes(job, plan)?;
        let is_stop = |stop: u32| (stop as usize) < job.stops.len();

        if (0..u64::BITS)
            .any(|stop| contains(live, stop) != (is_stop(stop) && self.is_live(step + 1, stop)))
        {
            return Err("the live stops are not those added and not cancelled since".into());
        }

        if placed_stops(&new) & !live != 0 {
            return Err("a stop that is not live is on a route".into());
        }

        if routes(job, &self.plan).map(|old| without(&old, stop)) != Ok(without(&new, stop)) {
            return Err("another stop has moved".into());
        }

        match weigh(job, &new, live) {
            afresh if afresh == cost => Ok(new),
            afresh => Err(format!("weighed afresh it costs {afresh}")),
        }
    }
}

impl Game<1> for Played {
    type Answer = Answer;
    type Outcome = Outcome;

    const NAME: &'static str = "day";
    const SHEETS_ARE: &'static str = "the sheet, which is";

    fn step_count(&self) -> usize {
        self.day.events.len()
    }

    fn sheets(&self, step: usize) -> [Sheet; 1] {
        let (call, stop) = match self.day.events[step] {
            Event::Arrival(stop) => (Call::Arrive, stop),
            Event::Cancellation(stop) => (Call::Cancel, stop),
        };

        [Sheet {
            call,
            given: given_live(stop, self.live),
            plan: self.plan.clone(),
            job: self.day.job.clone(),
        }]
    }

    fn answers(output: &[u8]) -> Option<Vec<Answer>> {
        let mut lines = lines(output)?;
        let mut answers = vec![];

        while let Some(line) = lines.next() {
            answers.push(match fields(line, NUMBER_WIDTH)?[..] {
                [number] => Answer::Refused(number),
                [live, cost] => Answer::Changed {
                    live,
                    cost,
                    plan: fields(lines.next()?, PLAN_WIDTH)?,
                },
                _ => return None,
            });
        }

        Some(answers)
    }

    fn take(&mut self, step: usize, [answer]: [&Answer; 1]) -> Result<Outcome, String> {
        let event = self.day.events[step];

        match (self.refusal(step), answer) {
            (None, Answer::Changed { live, cost, plan }) => {
                let routes = self.test(step, *live, *cost, plan)?;

                self.live = *live;
                self.plan = plan.clone();

                Ok(match event {
                    Event::Cancellation(_) => Outcome::Cancelled,
                    _ if contains(placed_stops(&routes), event.stop()) => Outcome::Placed,
                    _ => Outcome::LeftOff,
                })
            }
            (Some(number), Answer::Refused(other)) if number == *other => {
                Ok(Outcome::Refused(number))
            }
            (Some(number), _) => Err(format!("it is to be refused as {number}")),
            (None, _) => Err("it is to be accepted".into()),
        }
    }

    fn history(&self, step: usize) -> String {
        format!("events: {:?}", &self.day.events[..=step])
    }
}

impl fmt::Display for Outcome {
    fn fmt(&self, formatter: &mut fmt::Formatter) -> fmt::Result {
        match self {
            Self::Placed => write!(formatter, "arrivals placed"),
            Self::LeftOff => write!(formatter, "arrivals left off"),
            Self::Cancelled => write!(formatter, "cancellations"),
            Self::Refused(number) => write!(formatter, "refused as {number}"),
        }
    }
}

#[cfg(test)]
mod tests {
    use super::*;
    use sheet::{job_a, UNUSED};

    /// Job A with its first stop placed, at an event.
    fn played(event: Event) -> Played {
        let events = vec![Event::Arrival(0), event];
        let mut played = Played::new(Day {
            job: job_a(),
            events,
        });

        assert!(played.take(0, [&changed(1, 4, [1, 0, UNUSED])]).is_ok());
        played
    }

    fn changed(live: u64, cost: u64, plan: [u32; 3]) -> Answer {
        Answer::Changed {
            live,
            cost,
            plan: plan.to_vec(),
        }
    }

    #[test]
    fn takes_right_answers() {
        for (event, answer) in [
            (Event::Arrival(1), changed(3, 6, [2, 1, 0])),
            (Event::Cancellation(0), changed(0, 0, [0, UNUSED, UNUSED])),
            (Event::Arrival(0), Answer::Refused(16)),
            (Event::Cancellation(1), Answer::Refused(17)),
            (Event::Arrival(2), Answer::Refused(12)),
            (Event::Cancellation(64), Answer::Refused(12)),
        ] {
            let mut played = played(event);
            let (plan, live) = (played.plan.clone(), played.live);
            let is_refused = matches!(answer, Answer::Refused(_));

            assert!(played.take(1, [&answer]).is_ok());
            assert_eq!(
                (played.plan, played.live) == (plan, live),
                is_refused,
                "{event:?}"
            );
        }
    }

    #[test]
    fn takes_no_wrong_answer() {
        for (event, answer) in [
            // Another cost, live stops that are too few or too many, a plan out of form.
            (Event::Arrival(1), changed(3, 7, [2, 1, 0])),
            (Event::Arrival(1), changed(1, 4, [1, 0, UNUSED])),
            (Event::Arrival(1), changed(7, 6, [2, 1, 0])),
            (Event::Arrival(1), changed(3 | 1 << 63, 6, [2, 1, 0])),
            (Event::Arrival(1), changed(3, 6, [2, 1, 1])),
            (Event::Arrival(1), changed(3, 6, [1, 1, 0])),
            // A stop that was placed is so no more.
            (Event::Arrival(1), changed(3, 112, [1, 1, UNUSED])),
            // A cancelled stop is still on its route, still live or still missed.
            (Event::Cancellation(0), changed(0, 4, [1, 0, UNUSED])),
            (Event::Cancellation(0), changed(1, 100, [0, UNUSED, UNUSED])),
            (Event::Cancellation(0), changed(0, 100, [0, UNUSED, UNUSED])),
            // Refused wrongly, or not.
            (Event::Arrival(1), Answer::Refused(11)),
            (Event::Arrival(0), Answer::Refused(17)),
            (Event::Arrival(0), changed(1, 4, [1, 0, UNUSED])),
            (Event::Cancellation(1), changed(1, 4, [1, 0, UNUSED])),
            (Event::Cancellation(2), Answer::Refused(17)),
        ] {
            assert!(played(event).take(1, [&answer]).is_err(), "{answer:?}");
        }
    }

    #[test]
    fn reads_answers() {
        let changed = "                   3                   6\n             2             1             0\n";
        let refused = "                  16\n";

        assert_eq!(Played::answers(b""), Some(vec![]));
        assert_eq!(
            Played::answers([refused, changed].concat().as_bytes()),
            Some(vec![
                Answer::Refused(16),
                Answer::Changed {
                    live: 3,
                    cost: 6,
                    plan: vec![2, 1, 0],
                },
            ])
        );

        for text in ["\n", "x", "16\n", &changed[..41], &refused[..20]] {
            assert_eq!(Played::answers(text.as_bytes()), None, "{text}");
        }
    }
}
