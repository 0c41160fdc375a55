//! What a call is lent: lists and results, each between guard numbers, and a copy of all of it from before the call.

use super::{
    arguments::Arguments,
    outcome::{Left, Outcome},
};
use generate::Random;
use planner::raw;
use sheet::Call;

/// What may differ after a call.
const READ: &str = "a list that is only read, or a number beside it";
const PLAN: &str = "the plan, or a number beside it";
const COST: &str = "a cost, or a number beside it";
const COUNT: &str = "a count of rounds, the word of settling, or a number beside it";
const WALK: &str = "a count of fillings or arrangements, or a number beside it";
const SET: &str = "the set of live stops or of those on no route, or a number beside it";
const SEEN: &str = "what is seen of the plan, or a number beside it";
const CHANGE: &str = "the change in cost, or a number beside it";
const RISE: &str = "the rise, or a number beside it";

/// Numbers with guard numbers before and after them.
struct Guarded<T> {
    memory: Vec<T>,
    before: Vec<T>,
    start: usize,
    end: usize,
}

impl<T: Copy + PartialEq> Guarded<T> {
    /// The number of guards before a list varies, and so the list's alignment.
    fn new(random: &mut Random, numbers: &[T], guard: fn(&mut Random) -> T) -> Self {
        let (start, guards) = (1 + random.below(8), 1 + random.below(8));
        let end = start + numbers.len();
        let mut memory = Vec::with_capacity(end + guards);

        memory.extend((0..start).map(|_| guard(random)));
        memory.extend_from_slice(numbers);
        memory.extend((0..guards).map(|_| guard(random)));

        Self {
            before: memory.clone(),
            memory,
            start,
            end,
        }
    }

    /// The address of the numbers. It may be written to, so that the compiler takes nothing to be unchanged.
    fn address(&mut self) -> *mut T {
        self.memory[self.start..].as_mut_ptr()
    }

    fn length(&self) -> usize {
        self.end - self.start
    }

    fn numbers(&self) -> &[T] {
        &self.memory[self.start..self.end]
    }

    fn is_unchanged(&self) -> bool {
        self.memory == self.before
    }

    /// Whether the numbers are these now, and the guards are as they were.
    fn has_become(&self, numbers: &[T]) -> bool {
        self.numbers() == numbers
            && self.memory[..self.start] == self.before[..self.start]
            && self.memory[self.end..] == self.before[self.end..]
    }
}

pub struct Lent {
    vehicles: Guarded<u32>,
    stops: Guarded<u32>,
    distances: Guarded<u32>,
    draws: Guarded<u32>,
    given: Guarded<u32>,
    plan: Guarded<u32>,
    /// A cost, or start and end cost, as the bits of f64.
    costs: [Guarded<u64>; 2],
    /// Rounds, improving rounds, settled.
    counts: [Guarded<u32>; 3],
    /// Fillings begun, arrangements completed.
    walk: [Guarded<u64>; 2],
    /// The live stops after the call, or those on no route.
    set: Guarded<u64>,
    /// What a caller sees of the plan.
    seen: Guarded<u32>,
    change: Guarded<i64>,
    /// The most by which the cost can rise.
    rise: Guarded<u64>,
}

impl Lent {
    pub fn new(random: &mut Random, arguments: &Arguments) -> Self {
        let mut list = |numbers: &[u32]| Guarded::new(random, numbers, small);
        let result = |random: &mut Random| {
            let number = random.number();

            Guarded::new(random, &[number], Random::number)
        };

        Self {
            vehicles: list(&arguments.vehicles),
            stops: list(&arguments.stops),
            distances: list(&arguments.distances),
            draws: list(&arguments.draws),
            given: list(&arguments.given),
            plan: list(&arguments.plan),
            seen: list(&arguments.seen),
            counts: [0; 3].map(|_| {
                let number = small(random);

                Guarded::new(random, &[number], small)
            }),
            costs: [0; 2].map(|_| result(random)),
            walk: [0; 2].map(|_| result(random)),
            set: result(random),
            change: {
                let number = signed(random);

                Guarded::new(random, &[number], signed)
            },
            rise: result(random),
        }
    }

    /// Makes the call, and answers the number that it returns.
    #[rustfmt::skip]
    pub fn call(&mut self, arguments: &Arguments) -> u32 {
        let Self { vehicles, stops, distances, draws, given, plan, costs: [cost, end], counts: [rounds, improving, settled], walk, set, seen, change, rise } = self;
        let &Arguments { call, locations, linear, quadratic, missed, smoothing, limit, live, stop, vans, van, place, road, .. } = arguments;
        let [vehicles, stops, distances, draws, given, plan, seen] = [vehicles, stops, distances, draws, given, plan, seen]
            .map(|list| (list.address(), list.length()));
        let [cost, end] = [cost, end].map(|cost| cost.address().cast::<f64>());
        let [rounds, improving, settled] = [rounds, improving, settled].map(Guarded::address);
        let [begun, completed] = walk.each_mut().map(Guarded::address);
        let (set, change, rise) = (set.address(), change.address(), rise.address());

        unsafe {
            match call {
                Call::Weigh => raw::planner_weigh(
                    vehicles.0, vehicles.1, stops.0, stops.1, locations, distances.0, distances.1,
                    linear, quadratic, missed, plan.0, plan.1, cost,
                ),
                Call::StartPlan => raw::planner_start_plan(
                    vehicles.0, vehicles.1, stops.0, stops.1, locations, distances.0, distances.1,
                    plan.0, plan.1,
                ),
                Call::TwoOpt => raw::planner_two_opt(
                    vehicles.0, vehicles.1, stops.0, stops.1, locations, distances.0, distances.1,
                    linear, quadratic, missed, plan.0, plan.1, arguments.given[0], arguments.given[1], cost,
                ),
                Call::Rebuild => raw::planner_rebuild(
                    vehicles.0, vehicles.1, stops.0, stops.1, locations, distances.0, distances.1,
                    linear, quadratic, missed, plan.0, plan.1, given.0, given.1, cost, begun, completed,
                ),
                Call::Exhaustive => raw::planner_exhaustive(
                    vehicles.0, vehicles.1, stops.0, stops.1, locations, distances.0, distances.1,
                    linear, quadratic, missed, plan.0, plan.1, cost,
                ),
                Call::Pruned => raw::planner_pruned(
                    vehicles.0, vehicles.1, stops.0, stops.1, locations, distances.0, distances.1,
                    linear, quadratic, missed, plan.0, plan.1, cost,
                ),
                Call::Solve => raw::planner_solve(
                    vehicles.0, vehicles.1, stops.0, stops.1, locations, distances.0, distances.1,
                    linear, quadratic, missed, smoothing, limit, draws.0, draws.1, plan.0, plan.1,
                    cost, end, rounds, improving, settled,
                ),
                Call::Arrive => raw::planner_arrive(
                    vehicles.0, vehicles.1, stops.0, stops.1, locations, distances.0, distances.1,
                    linear, quadratic, missed, plan.0, plan.1, live, stop, set, cost,
                ),
                Call::Cancel => raw::planner_cancel(
                    vehicles.0, vehicles.1, stops.0, stops.1, locations, distances.0, distances.1,
                    linear, quadratic, missed, plan.0, plan.1, live, stop, set, cost,
                ),
                Call::View => raw::planner_view(
                    vehicles.0, vehicles.1, stops.0, stops.1, plan.0, plan.1, vans, seen.0, seen.1, set,
                ),
                Call::MoveStop => raw::planner_move_stop(
                    vehicles.0, vehicles.1, stops.0, stops.1, locations, distances.0, distances.1,
                    linear, quadratic, missed, plan.0, plan.1, vans, stop, van, place, change,
                ),
                Call::Roadworks => raw::planner_roadworks(
                    vehicles.0, vehicles.1, stops.0, stops.1, locations, distances.0, distances.1,
                    linear, quadratic, missed, plan.0, plan.1, road.from, road.to, road.more, rise,
                ),
            }
        }
    }

    /// What is not as the outcome says: lists that are only read and their guards as they were, the plan and the results as
    /// the outcome has them, their guards as they were.
    pub fn difference(&self, outcome: &Outcome) -> Option<&'static str> {
        let read = [
            &self.vehicles,
            &self.stops,
            &self.distances,
            &self.draws,
            &self.given,
        ];
        let nothing = Left::default();
        let left = match outcome {
            Outcome::Refused(_) => &nothing,
            Outcome::Accepted(left) => left,
        };

        [
            (read.iter().all(|list| list.is_unchanged()), READ),
            (holds(&self.plan, left.plan.as_deref()), PLAN),
            (hold(&self.costs, &left.costs), COST),
            (hold(&self.counts, &left.counts), COUNT),
            (hold(&self.walk, &left.walk), WALK),
            (hold([&self.set], &[left.set]), SET),
            (holds(&self.seen, left.seen.as_deref()), SEEN),
            (hold([&self.change], &[left.change]), CHANGE),
            (hold([&self.rise], &[left.rise]), RISE),
        ]
        .into_iter()
        .find_map(|(is_right, name)| (!is_right).then_some(name))
    }
}

/// Whether numbers are as wanted, or as they were where nothing is wanted.
fn holds<T: Copy + PartialEq>(numbers: &Guarded<T>, wanted: Option<&[T]>) -> bool {
    match wanted {
        Some(wanted) => numbers.has_become(wanted),
        None => numbers.is_unchanged(),
    }
}

/// The same of results.
fn hold<'a, T: Copy + PartialEq + 'a>(
    results: impl IntoIterator<Item = &'a Guarded<T>>,
    wanted: &[Option<T>],
) -> bool {
    results
        .into_iter()
        .zip(wanted)
        .all(|(result, wanted)| holds(result, wanted.as_ref().map(std::slice::from_ref)))
}

fn small(random: &mut Random) -> u32 {
    random.number() as u32
}

fn signed(random: &mut Random) -> i64 {
    random.number() as i64
}

#[cfg(test)]
mod tests {
    use super::*;
    use sheet::sheet_a;

    type Fault = fn(&mut Lent);

    /// A call on Job A, refused where a vehicle has no end, after which numbers are changed as a fault of the library could.
    fn check(call: Call, is_refused: bool, fault: Fault, name: Option<&str>) {
        let random = &mut Random::new(1, 1);
        let mut arguments = Arguments::new(sheet_a(call), || 5);

        if is_refused {
            arguments.vehicles.push(0);
        }

        let outcome = Outcome::new(&arguments);
        let mut lent = Lent::new(random, &arguments);

        assert_eq!(outcome.number() != 0, is_refused);
        assert_eq!(lent.call(&arguments), outcome.number());
        fault(&mut lent);
        assert_eq!(lent.difference(&outcome), name, "{call:?}");
    }

    const FAULTS: [(Fault, &str); 24] = [
        (|lent| lent.vehicles.memory[0] ^= 1, READ),
        (|lent| *lent.stops.memory.last_mut().unwrap() ^= 1, READ),
        (
            |lent| lent.distances.memory[lent.distances.start] ^= 1,
            READ,
        ),
        (|lent| lent.plan.memory[lent.plan.start - 1] ^= 1, PLAN),
        (|lent| lent.plan.memory[lent.plan.end] ^= 1, PLAN),
        (|lent| lent.plan.memory[lent.plan.start] ^= 1, PLAN),
        (|lent| lent.costs[1].memory[lent.costs[1].start] ^= 1, COST),
        (|lent| lent.costs[0].memory[lent.costs[0].end] ^= 1, COST),
        (
            |lent| lent.counts[2].memory[lent.counts[2].start] ^= 1,
            COUNT,
        ),
        (|lent| lent.walk[0].memory[lent.walk[0].start] ^= 1, WALK),
        (|lent| lent.walk[0].memory[lent.walk[0].end] ^= 1, WALK),
        (
            |lent| lent.walk[1].memory[lent.walk[1].start - 1] ^= 1,
            WALK,
        ),
        (
            |lent| lent.walk[1].memory[lent.walk[1].start] ^= 1 << 63,
            WALK,
        ),
        (|lent| lent.set.memory[lent.set.start - 1] ^= 1, SET),
        (|lent| lent.set.memory[lent.set.start] ^= 1 << 63, SET),
        (|lent| lent.set.memory[lent.set.end] ^= 1, SET),
        (|lent| lent.seen.memory[lent.seen.start - 1] ^= 1, SEEN),
        // A number that is seen, or the guard after an empty list.
        (|lent| lent.seen.memory[lent.seen.start] ^= 1, SEEN),
        (
            |lent| lent.change.memory[lent.change.start - 1] ^= 1,
            CHANGE,
        ),
        (
            |lent| lent.change.memory[lent.change.start] ^= 1 << 62,
            CHANGE,
        ),
        (|lent| lent.change.memory[lent.change.end] ^= 1, CHANGE),
        (|lent| lent.rise.memory[lent.rise.start - 1] ^= 1, RISE),
        (|lent| lent.rise.memory[lent.rise.start] ^= 1 << 63, RISE),
        (|lent| lent.rise.memory[lent.rise.end] ^= 1, RISE),
    ];

    #[test]
    fn finds_what_was_changed() {
        for call in [
            Call::Rebuild,
            Call::Solve,
            Call::Arrive,
            Call::Cancel,
            Call::View,
            Call::MoveStop,
            Call::Roadworks,
        ] {
            for is_refused in [false, true] {
                check(call, is_refused, |_| (), None);

                for (fault, name) in FAULTS {
                    check(call, is_refused, fault, Some(name));
                }
            }
        }
    }
}
