use crate::{
    day::{Day, MAX_STOPS, VEHICLE},
    plan::{Plan, Route},
};

/// One pair's two-opt. One or both unplaced: no change.
pub fn two_opt(day: &Day, plan: &mut Plan, one: usize, other: usize) {
    if !plan.is_placed(one) || !plan.is_placed(other) {
        return;
    }

    let (vehicle, i) = plan.place(one);
    let (other_vehicle, j) = plan.place(other);

    if vehicle == other_vehicle {
        intra(day, plan, vehicle, i.min(j), i.max(j));
    } else {
        inter(day, plan, [vehicle, other_vehicle], [i, j]);
    }
}

/// Both stops on one route, at positions i < j.
fn intra(day: &Day, plan: &mut Plan, vehicle: usize, i: usize, j: usize) {
    let Route {
        stops,
        forward,
        backward,
        price: old,
        ..
    } = plan.route(vehicle);
    let end = VEHICLE + vehicle;
    let last = stops.len() - 1;
    let leg = |from: usize, to: usize| day.leg(stops[from] as usize, stops[to] as usize);
    let exchanged = day.price(
        day.leg(end, stops[last] as usize)
            + (backward[last] - backward[j])
            + if i + 1 == j {
                leg(j, i)
            } else {
                leg(j, i + 1) + (forward[j - 1] - forward[i + 1]) + leg(j - 1, i)
            }
            + backward[i]
            + day.leg(stops[0] as usize, end),
    );
    let inverted = if i + 1 == j {
        old
    } else {
        day.price(
            day.leg(end, stops[0] as usize)
                + forward[i]
                + leg(i, j - 1)
                + (backward[j - 1] - backward[i + 1])
                + leg(i + 1, j)
                + (forward[last] - forward[j])
                + day.leg(stops[last] as usize, end),
        )
    };

    let mut route = [0; MAX_STOPS];
    let route = &mut route[..stops.len()];

    route.copy_from_slice(stops);

    if exchanged <= inverted && exchanged <= old {
        route.reverse();
        route[last + 1 - j..last - i].reverse();
    } else if i + 1 < j && inverted <= old {
        route[i + 1..j].reverse();
    } else {
        return;
    }

    plan.set_route(day, vehicle, route);
}

/// A head or a tail of a route, as it is on each of the two vehicles.
#[derive(Clone, Copy)]
struct Part {
    /// The legs from a vehicle's start to a head's end, or from a tail's beginning to a vehicle's end.
    lengths: [u32; 2],
    /// What a head ends with, or what a tail begins with: a stop, or the vehicle's start or end where there is none.
    joints: [usize; 2],
}

/// A candidate: the turns of the two routes, the cuts in them as turned, and whether heads and tails change vehicles.
#[derive(Clone, Copy)]
struct Exchange {
    turns: [usize; 2],
    cuts: [usize; 2],
    heads: usize,
    tails: usize,
}

/// Both or none of two, the last varying fastest.
const PAIRS: [[usize; 2]; 4] = [[0, 0], [0, 1], [1, 0], [1, 1]];

/// The pair's stops on two routes at the given positions.
fn inter(day: &Day, plan: &mut Plan, vehicles: [usize; 2], positions: [usize; 2]) {
    let routes = vehicles.map(|vehicle| plan.route(vehicle));
    let cut = |index: usize, turn: usize, offset: usize| {
        let position = positions[index];

        offset
            + if turn == 1 {
                routes[index].stops.len() - 1 - position
            } else {
                position
            }
    };
    let parts = [0, 1].map(|index| {
        PAIRS.map(|[turn, offset]| {
            parts(
                day,
                vehicles,
                routes[index],
                turn == 1,
                cut(index, turn, offset),
            )
        })
    });
    let mut least = routes[0].price + routes[1].price;
    let mut best = None;

    for turns in PAIRS {
        for offsets in PAIRS {
            let [one, other] = [0, 1].map(|index| parts[index][2 * turns[index] + offsets[index]]);

            for [heads, tails] in PAIRS {
                let [head, other_head] = [[one, other][heads][0], [other, one][heads][0]];
                let [tail, other_tail] = [[one, other][tails][1], [other, one][tails][1]];
                let price = day.price(joined(day, 0, head, tail))
                    + day.price(joined(day, 1, other_head, other_tail));

                if price < least {
                    least = price;
                    best = Some(Exchange {
                        turns,
                        cuts: [0, 1].map(|index| cut(index, turns[index], offsets[index])),
                        heads,
                        tails,
                    });
                }
            }
        }
    }

    if let Some(best) = best {
        exchange(day, plan, vehicles, best);
    }
}

/// The head and the tail of a route, which may be turned and is then cut.
#[inline(always)]
fn parts(day: &Day, vehicles: [usize; 2], route: Route, turn: bool, cut: usize) -> [Part; 2] {
    let stops = route.stops;
    let count = stops.len();
    let sums = if turn { route.backward } else { route.forward };
    // The stop at an index of the route as turned, and the legs between two of them.
    let at = |index: usize| if turn { count - 1 - index } else { index };
    let stop = |index: usize| stops[at(index)] as usize;
    let legs = |from: usize, to: usize| sums[at(from)].abs_diff(sums[at(to)]);
    let mut head = Part {
        lengths: [0; 2],
        joints: vehicles.map(|vehicle| VEHICLE + vehicle),
    };
    let mut tail = head;

    if cut > 0 {
        head.lengths =
            vehicles.map(|vehicle| day.leg(VEHICLE + vehicle, stop(0)) + legs(0, cut - 1));
        head.joints = [stop(cut - 1); 2];
    }

    if cut < count {
        tail.lengths = vehicles
            .map(|vehicle| legs(cut, count - 1) + day.leg(stop(count - 1), VEHICLE + vehicle));
        tail.joints = [stop(cut); 2];
    }

    [head, tail]
}

/// The length of the route made of a head and a tail on one of the two vehicles.
#[inline(always)]
fn joined(day: &Day, index: usize, head: Part, tail: Part) -> u32 {
    head.lengths[index] + day.leg(head.joints[index], tail.joints[index]) + tail.lengths[index]
}

fn exchange(day: &Day, plan: &mut Plan, vehicles: [usize; 2], exchange: Exchange) {
    let turned = [0, 1].map(|index| {
        let mut stops = plan.route(vehicles[index]).stops.to_vec();

        if exchange.turns[index] == 1 {
            stops.reverse();
        }

        stops
    });

    for (index, vehicle) in vehicles.into_iter().enumerate() {
        let head = index ^ exchange.heads;
        let tail = index ^ exchange.tails;
        let route = [
            &turned[head][..exchange.cuts[head]],
            &turned[tail][exchange.cuts[tail]..],
        ]
        .concat();

        plan.set_route(day, vehicle, &route);
    }
}
