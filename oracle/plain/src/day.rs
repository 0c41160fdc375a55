use sheet::Job;

pub const MAX_STOPS: usize = 64;
pub const MAX_VEHICLES: usize = 16;

/// The first vehicle's row, for its start, and column, for its end. The rows and columns before are those of stops.
pub const VEHICLE: usize = MAX_STOPS;

const STRIDE: usize = MAX_STOPS + MAX_VEHICLES;
const LEG_COUNT: usize = 8192;

/// A job as the steps use it.
pub struct Day {
    pub vehicle_count: usize,
    pub stop_count: usize,
    linear: u64,
    quadratic: u64,
    missed: u64,
    legs: Box<[u32; LEG_COUNT]>,
}

impl Day {
    pub fn new(job: &Job) -> Self {
        let mut legs = Box::new([0; LEG_COUNT]);
        let places = |end: usize| {
            let vehicles = job.vehicles.iter().map(move |vehicle| vehicle[end]);

            job.stops
                .iter()
                .copied()
                .enumerate()
                .chain(vehicles.enumerate().map(|(index, x)| (VEHICLE + index, x)))
        };

        for (from, start) in places(0) {
            for (to, end) in places(1) {
                legs[from * STRIDE + to] = job.distances[start as usize][end as usize];
            }
        }

        Self {
            vehicle_count: job.vehicles.len(),
            stop_count: job.stops.len(),
            linear: job.linear as u64,
            quadratic: job.quadratic as u64,
            missed: job.missed,
            legs,
        }
    }

    /// Metres from a stop or a vehicle's start to a stop or a vehicle's end.
    #[inline(always)]
    pub fn leg(&self, from: usize, to: usize) -> u32 {
        self.legs[(from * STRIDE + to) & (LEG_COUNT - 1)]
    }

    /// The price of a route's length.
    #[inline(always)]
    pub fn price(&self, length: u32) -> u64 {
        let length = length as u64;

        length * (self.linear + length * self.quadratic)
    }

    pub fn missed_price(&self, placed: usize) -> u64 {
        (self.stop_count - placed) as u64 * self.missed
    }

    /// The unplaced stop nearest to a place, ties by lower number.
    pub fn nearest(&self, from: usize, stops: u64) -> usize {
        bits(stops)
            .min_by_key(|&stop| self.leg(from, stop))
            .expect("a stop")
    }

    /// All stops as a set.
    pub fn stops(&self) -> u64 {
        match self.stop_count {
            MAX_STOPS => u64::MAX,
            count => (1 << count) - 1,
        }
    }
}

/// The members of a set, lowest first.
pub fn bits(mut set: u64) -> impl Iterator<Item = usize> {
    std::iter::from_fn(move || {
        if set == 0 {
            return None;
        }

        let lowest = set.trailing_zeros();

        set &= set - 1;

        Some(lowest as usize)
    })
}
