use crate::day::{bits, Day, VEHICLE};
use sheet::Routes;
use std::cmp::Ordering;

struct Search<'a> {
    day: &'a Day,
    routes: Routes,
    /// The length of each route up to its last stop.
    lengths: Vec<u32>,
    least: u64,
    best: Routes,
}

/// From the empty plan, a stop is appended to a route only if the new plan's cost without the missed stops is below the
/// old plan's whole cost. The rebuild's choice among the plans so reached.
pub fn pruned(day: &Day) -> Routes {
    let mut search = Search {
        day,
        routes: vec![vec![]; day.vehicle_count],
        lengths: vec![0; day.vehicle_count],
        least: u64::MAX,
        best: vec![vec![]; day.vehicle_count],
    };
    let driving = (0..day.vehicle_count)
        .map(|vehicle| search.price(vehicle))
        .sum();

    search.search(driving, day.stops());
    search.best
}

impl Search<'_> {
    fn last(&self, vehicle: usize) -> usize {
        self.routes[vehicle]
            .last()
            .copied()
            .unwrap_or(VEHICLE + vehicle)
    }

    fn price(&self, vehicle: usize) -> u64 {
        let leg = self.day.leg(self.last(vehicle), VEHICLE + vehicle);

        self.day.price(self.lengths[vehicle] + leg)
    }

    fn search(&mut self, driving: u64, left: u64) {
        let placed = self.day.stop_count - left.count_ones() as usize;
        let cost = driving + self.day.missed_price(placed);

        if cost < self.least || cost == self.least && self.is_better() {
            self.least = cost;
            self.best.clone_from(&self.routes);
        }

        for stop in bits(left) {
            for vehicle in 0..self.routes.len() {
                let length = self.lengths[vehicle];
                let others = driving - self.price(vehicle);

                self.lengths[vehicle] += self.day.leg(self.last(vehicle), stop);
                self.routes[vehicle].push(stop);

                let new = others + self.price(vehicle);

                if new < cost {
                    self.search(new, left & !(1 << stop));
                }

                self.routes[vehicle].pop();
                self.lengths[vehicle] = length;
            }
        }
    }

    /// Whether the plan at hand is better than the best one of the same cost.
    fn is_better(&self) -> bool {
        let lengths = |routes: &Routes| routes.iter().map(Vec::len).collect::<Vec<_>>();
        let ours = lengths(&self.routes);
        let theirs = lengths(&self.best);

        theirs
            .iter()
            .sum::<usize>()
            .cmp(&ours.iter().sum())
            .then_with(|| ours.cmp(&theirs))
            .then_with(|| self.routes.cmp(&self.best))
            == Ordering::Less
    }
}
