use crate::{
    arrange::{Fill, Gap, Walk, MAX_DRAINED, MAX_GAPS},
    day::{Day, MAX_STOPS, VEHICLE},
    plan::{Plan, Route},
};
use std::ops::Range;

const MAX_SUB_PROBLEM_SIZE: usize = 8;

/// A vehicle and a stretch of its route.
pub type Region = (usize, Range<usize>);

/// The rebuild of the regions around the picks.
pub fn rebuild(day: &Day, plan: &mut Plan, picks: &[usize]) {
    let mut regions = regions(plan, picks);

    regions.sort_by_key(|&(vehicle, _)| vehicle);
    arrange(day, plan, &regions, &[]);
}

/// The regions around the picks that are kept, in the order of these: of a pick that is placed, on a vehicle that no pick before
/// it is on.
pub fn regions(plan: &Plan, picks: &[usize]) -> Vec<Region> {
    let mut kept = Vec::with_capacity(2);

    for &pick in picks {
        if plan.is_placed(pick) {
            let (vehicle, position) = plan.place(pick);

            if kept.iter().all(|&(other, _)| other != vehicle) {
                kept.push((vehicle, position));
            }
        }
    }

    kept.iter()
        .map(|&(vehicle, position)| {
            let size = (MAX_SUB_PROBLEM_SIZE - picks.len()) / kept.len();
            let start = position.saturating_sub(size / 2);
            let end = (start + size).min(plan.route(vehicle).stops.len());

            (vehicle, start..end)
        })
        .collect()
}

/// Every arrangement of all stops on all vehicles of a plan with nothing placed.
pub fn exhaustive(day: &Day, plan: &mut Plan) {
    let stops = (0..day.stop_count as u8).collect::<Vec<_>>();
    let regions = (0..day.vehicle_count)
        .map(|vehicle| (vehicle, 0..0))
        .collect::<Vec<_>>();

    arrange(day, plan, &regions, &stops);
}

/// Keeps the best arrangement of the regions' stops and some unplaced ones where the regions are, which are in the
/// order of their vehicles.
fn arrange(day: &Day, plan: &mut Plan, regions: &[Region], unplaced: &[u8]) {
    let mut stops = [0; MAX_DRAINED];
    let mut count = unplaced.len();
    let mut gaps = [Gap::default(); MAX_GAPS];

    stops[..count].copy_from_slice(unplaced);

    for (gap, (vehicle, range)) in gaps.iter_mut().zip(regions) {
        let route = plan.route(*vehicle);
        let drained = &route.stops[range.clone()];

        *gap = gap_of(day, route, range.clone());
        stops[count..count + drained.len()].copy_from_slice(drained);
        count += drained.len();
    }

    let stops = &mut stops[..count];
    let drained_count = count - unplaced.len();

    stops.sort_unstable();

    let placed = plan.placed_count() - drained_count;
    let best = Walk::new(day, stops, &gaps[..regions.len()], placed).best();

    fill(day, plan, regions, stops, &best);
}

fn gap_of(day: &Day, route: Route, range: Range<usize>) -> Gap {
    let Route {
        vehicle,
        stops,
        forward,
        ..
    } = route;
    let end = VEHICLE + vehicle;
    let last = stops.len().wrapping_sub(1);
    let mut gap = Gap {
        before: end,
        after: end,
        length: 0,
    };

    if range.start > 0 {
        gap.before = stops[range.start - 1] as usize;
        gap.length += day.leg(end, stops[0] as usize) + forward[range.start - 1];
    }

    if range.end < stops.len() {
        gap.after = stops[range.end] as usize;
        gap.length += forward[last] - forward[range.end] + day.leg(stops[last] as usize, end);
    }

    gap
}

fn fill(day: &Day, plan: &mut Plan, regions: &[Region], stops: &[u8], best: &Fill) {
    plan.drain(stops);

    for (gap, (vehicle, range)) in regions.iter().enumerate() {
        let old = plan.route(*vehicle).stops;
        let filling = best.gap(gap);
        let tail = &old[range.end..];
        let mut route = [0; MAX_STOPS];
        let middle = range.start + filling.len();

        route[..range.start].copy_from_slice(&old[..range.start]);

        for (place, &index) in route[range.start..].iter_mut().zip(filling) {
            *place = stops[index as usize];
        }

        route[middle..middle + tail.len()].copy_from_slice(tail);

        let count = middle + tail.len();

        plan.set_route(day, *vehicle, &route[..count]);
    }
}
