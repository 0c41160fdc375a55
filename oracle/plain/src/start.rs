use crate::{
    day::{bits, Day, MAX_STOPS, VEHICLE},
    plan::Plan,
};

/// Vehicles in order, again and again: each takes the unplaced stop nearest to its last place.
pub fn start_plan(day: &Day) -> Plan {
    let mut plan = Plan::new(day);

    if day.vehicle_count == 0 {
        return plan;
    }

    let mut routes = vec![vec![]; day.vehicle_count];
    let mut left = day.stops();

    'passes: loop {
        for (vehicle, route) in routes.iter_mut().enumerate() {
            if left == 0 {
                break 'passes;
            }

            let last = route
                .last()
                .map_or(VEHICLE + vehicle, |&stop| stop as usize);
            let stop = day.nearest(last, left);

            route.push(stop as u8);
            left &= !(1 << stop);
        }
    }

    for (vehicle, route) in routes.iter().enumerate() {
        plan.set_route(day, vehicle, route);
    }

    plan
}

/// For each stop x, S(x): x, then the others by distance from x, ties by lower number.
pub fn neighbours(day: &Day) -> Vec<[u8; MAX_STOPS]> {
    (0..day.stop_count)
        .map(|stop| {
            let mut others = bits(day.stops() & !(1 << stop)).collect::<Vec<_>>();
            let mut row = [0; MAX_STOPS];

            others.sort_by_key(|&other| day.leg(stop, other));
            row[0] = stop as u8;

            for (place, other) in row[1..].iter_mut().zip(others) {
                *place = other as u8;
            }

            row
        })
        .collect()
}
