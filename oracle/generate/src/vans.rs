//! Arguments of callers who hold some vans, and pairs of plans that such a caller cannot tell apart.

use crate::{
    job::vans_job,
    sheet::{plan, sheet},
    Random,
};
use sheet::{decode, encode, holds, refusal, Call, Job, Routes, Sheet};

const MAX_TRIES: usize = 20;

/// What a caller asks for: a stop put at a place of a van. They may be any numbers.
#[derive(Clone, Copy, Debug, Eq, PartialEq)]
pub struct Move {
    pub stop: u32,
    pub van: u32,
    pub place: u32,
}

impl Move {
    /// What a sheet of the move gives.
    pub fn given(self, vans: u32) -> Vec<u32> {
        vec![vans, self.stop, self.van, self.place]
    }

    /// The routes with the stop moved.
    fn apply(self, routes: &mut Routes) {
        take_off(routes, self.stop as usize);
        routes[self.van as usize].insert(self.place as usize, self.stop as usize);
    }
}

/// A sheet of a view, or of a move that is accepted where the job has a stop and a vehicle.
pub fn vans_sheet(random: &mut Random, call: Call, job: Job) -> Sheet {
    let (vehicle_count, stop_count) = (job.vehicles.len(), job.stops.len());
    let plan = plan(random, vehicle_count, stop_count);
    let mut routes = decode(&plan, vehicle_count, stop_count).expect("a plan");
    let mut vans = some_vans(random, vehicle_count);

    if stop_count > 0 && random.once_in(3) {
        take_off(&mut routes, random.below(stop_count));
    }

    if call == Call::View {
        return Sheet {
            call,
            given: vec![vans],
            plan: encode(&routes, stop_count),
            job,
        };
    }

    if vehicle_count > 0 && (vans == 0 || random.once_in(2)) {
        vans |= 1 << random.below(vehicle_count);
    }

    // The van that has the most stops is one of the caller's more often than not.
    if let Some(van) = (0..vehicle_count).max_by_key(|&van| routes[van].len()) {
        if !random.once_in(3) {
            vans |= 1 << van;
        }
    }

    let moved = own_move(random, &routes, vans, stop_count).unwrap_or_else(|| {
        // All stops are on other vans, or there is none: one of them joins.
        let stop = random.below(stop_count.max(1));
        let van = routes.iter().position(|route| route.contains(&stop));

        vans |= van.map_or(0, |van| 1 << van);

        Move {
            stop: stop as u32,
            van: van.unwrap_or(0) as u32,
            place: 0,
        }
    });

    Sheet {
        call,
        given: moved.given(vans),
        plan: encode(&routes, stop_count),
        job,
    }
}

fn take_off(routes: &mut Routes, stop: usize) {
    for route in routes {
        route.retain(|&other| other != stop);
    }
}

/// None, one, some, many or all of so many vans.
fn some_vans(random: &mut Random, count: usize) -> u32 {
    let number = random.number();
    let (low, high) = (number as u32, (number >> 32) as u32);

    all_vans(count)
        & match random.below(7) {
            0 => 0,
            1 => 1 << random.below(count.clamp(1, 32)),
            2 => low & high,
            3 | 4 => low,
            5 => low | high,
            _ => u32::MAX,
        }
}

fn all_vans(count: usize) -> u32 {
    u32::MAX
        .checked_shr(u32::BITS.saturating_sub(count as u32))
        .unwrap_or(0)
}

/// A move that the caller of some vans may make, where there is one: of a stop on no route, on the van itself or on another
/// of the caller's, to the front, to the end or to any place.
fn own_move(random: &mut Random, routes: &Routes, vans: u32, stop_count: usize) -> Option<Move> {
    let own = (0..routes.len())
        .filter(|&van| holds(vans, van))
        .collect::<Vec<_>>();

    if own.is_empty() {
        return None;
    }

    let van = random.choose(&own);
    let on_others = own
        .iter()
        .filter(|&&other| other != van)
        .flat_map(|&other| routes[other].iter().copied())
        .collect::<Vec<_>>();
    let unplaced = (0..stop_count)
        .filter(|stop| !routes.iter().any(|route| route.contains(stop)))
        .collect::<Vec<_>>();
    let mut sources = [routes[van].clone(), on_others, unplaced];

    random.shuffle(&mut sources);

    let source = sources.iter().find(|stops| !stops.is_empty())?;
    let stop = random.choose(source);
    let end = routes[van].len() - routes[van].contains(&stop) as usize;
    let some = random.below(end + 1);
    let mut place = random.choose(&[0, end, some, some]);

    // Few stay where they are.
    if routes[van].get(place) == Some(&stop) && !random.once_in(8) {
        place = (place + 1) % (end + 1);
    }

    Some(Move {
        stop: stop as u32,
        van: van as u32,
        place: place as u32,
    })
}

/// Two plans of one job which have the same routes on the caller's vans and the same stops on no route, and what the caller
/// asks for, one move after another.
#[derive(Clone, Debug, Eq, PartialEq)]
pub struct Pair {
    pub job: Job,
    pub vans: u32,
    pub plans: [Vec<u32>; 2],
    pub moves: Vec<Move>,
}

/// A pair of plans that differ where the other vans have stops to differ in, which is so for most, and one to eight moves,
/// one in four of them any that comes. It depends on the seed and its number alone.
pub fn pair(seed: u64, index: u64) -> Pair {
    let random = &mut Random::new(seed, index);
    let (mut sheet, routes) = shared_plan(random);
    let other = shared_otherwise(random, &routes, sheet.vans());
    let stop_count = sheet.job.stops.len();
    let plans = [&routes, &other].map(|routes| encode(routes, stop_count));

    // A van that the job has not, for the same refusals of all.
    if random.once_in(50) {
        sheet.given[0] |= 1 << random.choose(&[sheet.job.vehicles.len(), 31]);
    }

    let count = random.within(1..=8);
    let moves = moves(random, &sheet, routes, count);

    Pair {
        vans: sheet.vans(),
        job: sheet.job,
        plans,
        moves,
    }
}

/// A view of a plan of which most often the other vans have two stops at least, and the caller something to move.
fn shared_plan(random: &mut Random) -> (Sheet, Routes) {
    let is_any = random.once_in(20);
    let mut tries = 0;

    loop {
        let mut job = vans_job(random);

        job.draws.truncate(1);

        let sheet = sheet(random, Call::View, job);
        let routes = decode(&sheet.plan, sheet.job.vehicles.len(), sheet.job.stops.len());
        let routes = routes.expect("a plan");
        let others = others(&routes, sheet.vans());
        let count = others.iter().map(|&van| routes[van].len()).sum::<usize>();
        let own = own_move(random, &routes, sheet.vans(), sheet.job.stops.len());

        tries += 1;

        if is_any || (count >= 2 && own.is_some()) || tries == MAX_TRIES {
            return (sheet, routes);
        }
    }
}

fn others(routes: &Routes, vans: u32) -> Vec<usize> {
    (0..routes.len()).filter(|&van| !holds(vans, van)).collect()
}

/// The same routes on a caller's vans, and the stops of the other vans on these in another order, on other vans, or on one
/// of them.
fn shared_otherwise(random: &mut Random, routes: &Routes, vans: u32) -> Routes {
    let others = others(routes, vans);
    let mut new = routes.clone();

    if others.is_empty() {
        return new;
    }

    for _ in 0..MAX_TRIES {
        let mut stops = others
            .iter()
            .flat_map(|&van| routes[van].iter().copied())
            .collect::<Vec<_>>();

        for &van in &others {
            new[van].clear();
        }

        random.shuffle(&mut stops);

        match random.below(3) {
            // The routes stay as long as they are.
            0 => {
                let mut stops = stops.into_iter();

                for &van in &others {
                    new[van].extend(stops.by_ref().take(routes[van].len()));
                }
            }
            1 => new[random.choose(&others)] = stops,
            _ => {
                for stop in stops {
                    new[random.choose(&others)].push(stop);
                }
            }
        }

        if new != *routes {
            break;
        }
    }

    new
}

/// Moves one after another from the plan of a view on. A refused one changes nothing.
fn moves(random: &mut Random, view: &Sheet, mut routes: Routes, count: u64) -> Vec<Move> {
    let stop_count = view.job.stops.len();

    (0..count)
        .map(|_| {
            let own = own_move(random, &routes, view.vans(), stop_count);
            let moved = match own {
                Some(own) if random.once_in(4) => other_move(random, &routes, own, stop_count),
                Some(own) => own,
                None => any_move(random, routes.len(), stop_count),
            };
            let sheet = Sheet {
                call: Call::MoveStop,
                given: moved.given(view.vans()),
                plan: encode(&routes, stop_count),
                job: view.job.clone(),
            };

            if refusal(&sheet).is_none() {
                moved.apply(&mut routes);
            }

            moved
        })
        .collect()
}

/// A move of which one number is changed, most often so that it is refused.
fn other_move(random: &mut Random, routes: &Routes, own: Move, stop_count: usize) -> Move {
    let any = any_move(random, routes.len(), stop_count);
    let end = routes[own.van as usize].len() as u32;

    match random.below(5) {
        0 => Move {
            stop: any.stop,
            ..own
        },
        1 => Move {
            van: any.van,
            ..own
        },
        2 => Move {
            stop: random.choose(&[stop_count as u32, 64, 64 + own.stop, u32::MAX]),
            ..own
        },
        3 => Move {
            place: random.choose(&[end, end + 1, u32::MAX]),
            ..own
        },
        _ => any,
    }
}

fn any_move(random: &mut Random, vehicle_count: usize, stop_count: usize) -> Move {
    Move {
        stop: random.small(0..=stop_count as u32),
        van: random.small(0..=vehicle_count as u32),
        place: random.small(0..=1),
    }
}

#[cfg(test)]
mod tests {
    use super::*;

    #[test]
    fn makes_sets_of_all_vans() {
        assert_eq!(all_vans(0), 0);
        assert_eq!(all_vans(1), 1);
        assert_eq!(all_vans(16), 0xffff);
        assert_eq!(all_vans(32), u32::MAX);
        assert_eq!(all_vans(40), u32::MAX);
    }

    #[test]
    fn refuses_few_moves() {
        for index in 0..300 {
            let random = &mut Random::new(1, index);
            let job = vans_job(random);
            let is_possible = !job.stops.is_empty() && !job.vehicles.is_empty();
            let sheet = vans_sheet(random, Call::MoveStop, job);

            assert_eq!(refusal(&sheet).is_none(), is_possible, "{index}");
        }
    }

    #[test]
    fn makes_pairs_that_agree() {
        let mut differing = 0;

        for index in 0..200 {
            let pair = pair(1, index);
            let [one, other] = pair.plans.each_ref().map(|plan| {
                let routes = decode(plan, pair.job.vehicles.len(), pair.job.stops.len());
                let mut routes = routes.expect("a plan");
                let mut stops = vec![];

                for van in others(&routes, pair.vans) {
                    stops.append(&mut routes[van]);
                }

                stops.sort();
                (routes, stops)
            });

            assert_eq!(one, other);
            differing += (pair.plans[0] != pair.plans[1]) as usize;
        }

        assert!(differing > 180, "{differing}");
    }
}
