use crate::day::Day;

pub const MAX_GAPS: usize = 3;
pub const MAX_DRAINED: usize = 7;

/// The rows and columns of gaps in the walk's own table of legs begin here. Those before are of the stops.
const GAP: u8 = 8;

/// A place in a route that is filled anew.
#[derive(Clone, Copy, Default)]
pub struct Gap {
    /// The stop or the vehicle's start before the gap.
    pub before: usize,
    /// The stop or the vehicle's end after the gap.
    pub after: usize,
    /// The length of the route's other parts.
    pub length: u32,
}

/// Stops by their place in the walk's list, for each gap.
#[derive(Clone, Copy, Default)]
pub struct Fill {
    counts: [u8; MAX_GAPS],
    stops: [[u8; MAX_DRAINED]; MAX_GAPS],
}

impl Fill {
    pub fn gap(&self, gap: usize) -> &[u8] {
        &self.stops[gap][..self.counts[gap] as usize]
    }
}

/// The walk over all arrangements of some stops, in rising order, in some gaps, in the order of their vehicles.
pub struct Walk<'a> {
    day: &'a Day,
    stop_count: usize,
    gaps: &'a [Gap],
    legs: [u32; 256],
    /// The price of each gap's route with the gap empty.
    empty_prices: [u64; MAX_GAPS],
    /// The price of the routes of later gaps with those gaps empty, by gap.
    later_prices: [u64; MAX_GAPS],
    /// The price of the missed stops, by the number placed.
    missed_prices: [u64; MAX_DRAINED + 1],
    fill: Fill,
    least: u64,
    best: Fill,
    best_count: usize,
}

impl<'a> Walk<'a> {
    /// `placed` counts the stops that the gaps' routes and all others have besides.
    pub fn new(day: &'a Day, stops: &'a [u8], gaps: &'a [Gap], placed: usize) -> Self {
        let mut walk = Self {
            day,
            stop_count: stops.len(),
            gaps,
            legs: [0; 256],
            empty_prices: [0; MAX_GAPS],
            later_prices: [0; MAX_GAPS],
            missed_prices: [0; MAX_DRAINED + 1],
            fill: Fill::default(),
            least: u64::MAX,
            best: Fill::default(),
            best_count: 0,
        };

        for (index, &stop) in stops.iter().enumerate() {
            for (other, &to) in stops.iter().enumerate() {
                walk.legs[index * 16 + other] = day.leg(stop as usize, to as usize);
            }

            for (gap, place) in gaps.iter().enumerate() {
                let gap = GAP as usize + gap;

                walk.legs[gap * 16 + index] = day.leg(place.before, stop as usize);
                walk.legs[index * 16 + gap] = day.leg(stop as usize, place.after);
            }
        }

        let mut later = 0;

        for (gap, place) in gaps.iter().enumerate().rev() {
            let leg = day.leg(place.before, place.after);

            walk.legs[(GAP as usize + gap) * 17] = leg;
            walk.empty_prices[gap] = day.price(place.length + leg);
            walk.later_prices[gap] = later;
            later += walk.empty_prices[gap];
        }

        for count in 0..=stops.len() {
            walk.missed_prices[count] = day.missed_price(placed + count);
        }

        walk
    }

    /// The kept arrangement: least cost, then most stops placed, then the lower number where the plans first differ.
    pub fn best(mut self) -> Fill {
        if let Some(gap) = self.gaps.first() {
            let empty = self.empty_prices[0];

            self.consider(empty + self.later_prices[0] + self.missed_prices[0], 0);
            self.walk(0, GAP, gap.length, (1 << self.stop_count) - 1, 0, empty);
        }

        self.best
    }

    #[inline(always)]
    fn leg(&self, from: u8, to: u8) -> u32 {
        self.legs[(from << 4 | to) as usize]
    }

    /// From an arrangement that has been weighed, places each of the stops that are left in this gap and in each later
    /// one. `length` is that of the gap's route up to the last stop and after the gap, `before` the price of the routes
    /// of earlier gaps, `done` that price with this gap's route closed after its last stop.
    fn walk(&mut self, gap: usize, last: u8, length: u32, left: u32, before: u64, done: u64) {
        let mut done = done;

        self.place(gap, last, length, left, before);

        for gap in gap + 1..self.gaps.len() {
            self.place(gap, GAP + gap as u8, self.gaps[gap].length, left, done);
            done += self.empty_prices[gap];
        }
    }

    #[inline(always)]
    fn place(&mut self, gap: usize, last: u8, length: u32, left: u32, before: u64) {
        let position = self.fill.counts[gap] as usize;
        let count = self.stop_count + 1 - left.count_ones() as usize;
        let fixed = self.later_prices[gap] + self.missed_prices[count];
        let mut stops = left;

        self.fill.counts[gap] += 1;

        while stops != 0 {
            let stop = stops.trailing_zeros() as u8;
            let length = length + self.leg(last, stop);
            let done = before + self.day.price(length + self.leg(stop, GAP + gap as u8));
            let rest = left & !(1 << stop);

            stops &= stops - 1;
            self.fill.stops[gap][position] = stop;

            if done + fixed <= self.least {
                self.consider(done + fixed, count);
            }

            if rest != 0 {
                self.walk(gap, stop, length, rest, before, done);
            }
        }

        self.fill.counts[gap] -= 1;
    }

    #[inline(never)]
    fn consider(&mut self, cost: u64, count: usize) {
        if cost == self.least
            && (count < self.best_count || count == self.best_count && !self.is_lower())
        {
            return;
        }

        self.least = cost;
        self.best = self.fill;
        self.best_count = count;
    }

    /// Whether the arrangement is lower than the best one in the form of plans: counts first, then stops.
    fn is_lower(&self) -> bool {
        let gaps = 0..self.gaps.len();

        self.fill.counts < self.best.counts
            || self.fill.counts == self.best.counts
                && gaps
                    .clone()
                    .map(|gap| self.fill.gap(gap))
                    .lt(gaps.map(|gap| self.best.gap(gap)))
    }
}
