//! The border under fire: calls through the static library with random arguments of every kind. Lists and results lie between
//! guard numbers. The number returned is compared with the table of refusals, what an accepted call leaves with the plain
//! rewrite, and what a refused one leaves with what it was lent.

mod arguments;
mod lent;
mod outcome;
mod progress;
mod random;

use self::{arguments::Arguments, lent::Lent, outcome::Outcome, progress::Progress};
use generate::Random;
use sheet::{call_table, contains, holds, Call, CALL_COUNT};

/// Makes so many calls, from the call of a number on, and answers tables of them, or the first that differs.
pub fn fire(count: u64, seed: u64, first: u64) -> Result<String, String> {
    let mut progress = Progress::new(count);
    let mut tally = Tally::new();

    for index in first..first + count {
        let random = &mut Random::new(seed, index);
        let call = random.choose(&Call::ALL);
        let arguments = random::arguments(random, call);
        let outcome = Outcome::new(&arguments);

        if let Some(difference) = difference(random, &arguments, &outcome) {
            return Err(format!(
                "call {index} of seed {seed} differs: {difference}\n{arguments:?}\nwanted: {outcome:?}"
            ));
        }

        tally.add(&arguments, outcome.number());
        progress.step();
    }

    progress.end();

    Ok(tally.tables())
}

/// Makes a call, and answers what it does otherwise than it must.
fn difference(random: &mut Random, arguments: &Arguments, outcome: &Outcome) -> Option<String> {
    let mut lent = Lent::new(random, arguments);
    let number = lent.call(arguments);

    if number != outcome.number() {
        return Some(format!("it returned {number}"));
    }

    lent.difference(outcome).map(str::to_string)
}

/// Whether arguments are at an edge.
type Edge = (&'static str, fn(&Arguments) -> bool);

const EDGES: [Edge; 71] = [
    ("no vehicles", |call| call.vehicles.is_empty()),
    ("16 vehicles", |call| call.vehicles.len() == 32),
    ("16 and a half", |call| call.vehicles.len() == 33),
    ("17 vehicles", |call| call.vehicles.len() == 34),
    ("no stops", |call| call.stops.is_empty()),
    ("64 stops", |call| call.stops.len() == 64),
    ("65 stops", |call| call.stops.len() == 65),
    ("no locations", |call| tabled(call, call.locations == 0)),
    ("80 locations", |call| tabled(call, call.locations == 80)),
    ("81 locations", |call| tabled(call, call.locations == 81)),
    ("65,536 locations", |call| {
        tabled(call, call.locations == 65_536)
    }),
    ("an empty table", |call| {
        tabled(call, call.distances.is_empty())
    }),
    ("an empty plan", |call| call.plan.is_empty()),
    ("longest distance 200,000", |call| longest(call, 200_000)),
    ("longest distance 200,001", |call| longest(call, 200_001)),
    ("w 1,000,000", |call| priced(call, call.linear == 1_000_000)),
    ("w 1,000,001", |call| priced(call, call.linear == 1_000_001)),
    ("1,024 draws", |call| run(call, call.draws.len() == 1_024)),
    ("1,025 draws", |call| run(call, call.draws.len() == 1_025)),
    ("no draws", |call| run(call, call.draws.is_empty())),
    ("limit 1,000,000", |call| run(call, call.limit == 1_000_000)),
    ("limit 1,000,001", |call| run(call, call.limit == 1_000_001)),
    ("equal given stops", equal_given),
    ("no given stops", |call| {
        call.call == Call::Rebuild && call.given.is_empty()
    }),
    ("no given stop placed", |call| {
        drained(call, |regions| regions.is_empty())
    }),
    ("two given stops and one region", |call| {
        call.given.len() == 2 && drained(call, |regions| regions.len() == 1)
    }),
    ("two regions", |call| {
        drained(call, |regions| regions.len() == 2)
    }),
    ("1 stop drained", |call| {
        drained(call, |regions| regions == [1])
    }),
    ("7 stops drained", |call| {
        drained(call, |regions| regions == [7])
    }),
    ("1 stop of each of two routes drained", |call| {
        drained(call, |regions| regions == [1, 1])
    }),
    ("3 stops of each of two routes drained", |call| {
        drained(call, |regions| regions == [3, 3])
    }),
    ("6 stops and 3 vehicles", |call| {
        let is_exhaustive = matches!(call.call, Call::Exhaustive | Call::Pruned);

        is_exhaustive && call.stops.len() == 6 && call.vehicles.len() == 6
    }),
    ("no live stops", |call| live(call, call.live == 0)),
    ("all stops live", |call| {
        live(call, call.live == call.all() && call.live != 0)
    }),
    ("all 64 bits live", |call| live(call, call.live == u64::MAX)),
    ("stop 63 live", |call| live(call, contains(call.live, 63))),
    ("a placed stop not live", |call| {
        live(call, call.placed() & !call.live != 0)
    }),
    ("a live stop not below n", |call| {
        live(call, call.live & !call.all() != 0)
    }),
    ("stop 63 given", |call| live(call, call.stop == 63)),
    ("stop n given", |call| {
        live(call, call.stop as usize == call.stops.len())
    }),
    ("a live stop given", |call| {
        live(call, contains(call.live, call.stop))
    }),
    ("a stop given that is not live", |call| {
        live(call, !contains(call.live, call.stop))
    }),
    ("a live stop given that is on no route", |call| {
        live(call, contains(call.live & !call.placed(), call.stop))
    }),
    ("no vans", |call| van(call, call.vans == 0)),
    ("all vans", |call| {
        van(call, call.vans == call.all_vans() && call.vans != 0)
    }),
    ("all 32 bits of vans", |call| {
        van(call, call.vans == u32::MAX)
    }),
    ("a van not below v", |call| {
        van(call, call.vans & !call.all_vans() != 0)
    }),
    ("a view's list of another length", |call| {
        call.call == Call::View && call.seen.len() != call.plan.len()
    }),
    ("a stop moved from no route", |call| {
        moved(call, call.routes().is_some() && call.source().is_none())
    }),
    ("a stop moved within its route", |call| {
        moved(call, call.source() == Some(call.van as usize))
    }),
    ("a stop moved to another route", |call| {
        moved(
            call,
            call.source().is_some_and(|van| van != call.van as usize),
        )
    }),
    ("a stop moved from another's van", |call| {
        moved(
            call,
            call.source().is_some_and(|van| !holds(call.vans, van)),
        )
    }),
    ("a stop moved to another's van", |call| {
        moved(call, !holds(call.vans, call.van as usize))
    }),
    ("van 32 or above", |call| moved(call, call.van >= 32)),
    ("a place at the route's end", |call| {
        moved(call, call.end() == Some(call.place as usize))
    }),
    ("a place one beyond the end", |call| {
        moved(
            call,
            call.end().is_some_and(|end| end + 1 == call.place as usize),
        )
    }),
    ("a road from location l", |call| {
        road(call, call.road.from == call.locations)
    }),
    ("a road to location l", |call| {
        road(call, call.road.to == call.locations)
    }),
    ("a road from or to one above l", |call| {
        road(call, call.road.from.max(call.road.to) > call.locations)
    }),
    ("a road to where it begins", |call| {
        road(call, call.road.from == call.road.to)
    }),
    ("a road that no route uses", |call| {
        used(call, |uses| uses.iter().sum::<usize>() == 0)
    }),
    ("a road used once", |call| {
        used(call, |uses| uses.iter().sum::<usize>() == 1)
    }),
    ("a road used twice on a route", |call| {
        used(call, |uses| uses.iter().any(|&count| count >= 2))
    }),
    ("a road used on two routes", |call| {
        used(call, |uses| {
            uses.iter().filter(|&&count| count > 0).count() >= 2
        })
    }),
    ("a road used by an empty route", |call| {
        let lengths = call.plan.iter();

        used(call, |uses| {
            lengths
                .zip(uses)
                .any(|(&length, &count)| length == 0 && count == 1)
        })
    }),
    ("a road that is all 80 legs", |call| {
        used(call, |uses| uses.iter().sum::<usize>() == 80)
    }),
    ("k 0", |call| road(call, call.road.more == 0)),
    ("a road of 200,000 with k", |call| {
        road(call, longer(call) == Some(200_000))
    }),
    ("a road of 200,001 with k", |call| {
        road(call, longer(call) == Some(200_001))
    }),
    ("a road of 4,294,967,295 with k", |call| {
        road(call, longer(call) == Some(u32::MAX as u64))
    }),
    ("a road that 32 bits would cut to 200,000 or less", |call| {
        road(
            call,
            longer(call).is_some_and(|sum| sum > u32::MAX as u64 && sum as u32 <= 200_000),
        )
    }),
];

fn tabled(call: &Arguments, condition: bool) -> bool {
    call.call.has_table() && condition
}

fn longest(call: &Arguments, distance: u32) -> bool {
    tabled(call, call.distances.iter().max() == Some(&distance))
}

fn priced(call: &Arguments, condition: bool) -> bool {
    call.call.has_prices() && condition
}

fn run(call: &Arguments, condition: bool) -> bool {
    call.call == Call::Solve && condition
}

/// Whether a rebuild drains so many stops of each region.
fn drained(call: &Arguments, condition: fn(&[usize]) -> bool) -> bool {
    call.drained().is_some_and(|regions| condition(&regions))
}

fn live(call: &Arguments, condition: bool) -> bool {
    call.call.has_live_stops() && condition
}

fn van(call: &Arguments, condition: bool) -> bool {
    call.call.has_vans() && condition
}

fn moved(call: &Arguments, condition: bool) -> bool {
    call.call == Call::MoveStop && condition
}

fn road(call: &Arguments, condition: bool) -> bool {
    call.call.has_road() && condition
}

/// Whether the routes of a plan use the road so often.
fn used(call: &Arguments, condition: impl FnOnce(&[usize]) -> bool) -> bool {
    road(call, call.routes().is_some() && condition(&call.uses()))
}

/// How long the road is with what is added, where the table has it.
fn longer(call: &Arguments) -> Option<u64> {
    Some(call.road_length()? as u64 + call.road.more as u64)
}

fn equal_given(call: &Arguments) -> bool {
    call.call.has_given_stops() && call.given.len() == 2 && call.given[0] == call.given[1]
}

/// A call returns less than this.
const NUMBER_COUNT: usize = 18;

/// How many calls there were, by call.
struct Tally {
    /// By the number that the call returned.
    numbers: [[usize; CALL_COUNT]; NUMBER_COUNT],
    /// By edge, of accepted and of refused calls.
    edges: [[usize; 2]; EDGES.len()],
}

impl Tally {
    fn new() -> Self {
        Self {
            numbers: [[0; CALL_COUNT]; NUMBER_COUNT],
            edges: [[0; 2]; EDGES.len()],
        }
    }

    fn add(&mut self, arguments: &Arguments, number: u32) {
        self.numbers[number as usize][arguments.call as usize] += 1;

        for (counts, (_, is_at)) in self.edges.iter_mut().zip(EDGES) {
            counts[(number != 0) as usize] += is_at(arguments) as usize;
        }
    }

    /// Numbers that no call returned have no row.
    fn tables(&self) -> String {
        let met = self.numbers.iter().enumerate();
        let met = met.filter(|(_, counts)| counts.iter().any(|&count| count > 0));
        let rows = met.map(|(number, counts)| {
            let name = match number {
                0 => "accepted".to_string(),
                _ => format!("refused {number}"),
            };

            (name, *counts)
        });
        let mut sums = [0; CALL_COUNT];

        for (call, sum) in sums.iter_mut().enumerate() {
            *sum = self.numbers.iter().map(|counts| counts[call]).sum();
        }

        let edges = EDGES.iter().zip(self.edges);
        let edges = edges.map(|((name, _), [accepted, refused])| {
            format!("| {name} | {accepted} | {refused} |\n")
        });

        call_table("calls", rows.chain([("all".to_string(), sums)]))
            + "\n| calls with | accepted | refused |\n|---|---|---|\n"
            + &edges.collect::<String>()
    }
}
