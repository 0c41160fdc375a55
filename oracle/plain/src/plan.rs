use crate::day::{Day, MAX_STOPS, MAX_VEHICLES, VEHICLE};
use sheet::Routes;

/// Routes with their lengths, prices and sums of legs, and where each stop is.
pub struct Plan {
    stops: [[u8; MAX_STOPS]; MAX_VEHICLES],
    counts: [usize; MAX_VEHICLES],
    /// The legs from the first stop to each.
    forward: [[u32; MAX_STOPS]; MAX_VEHICLES],
    /// The legs from each stop back to the first.
    backward: [[u32; MAX_STOPS]; MAX_VEHICLES],
    prices: [u64; MAX_VEHICLES],
    placed: u64,
    vehicles: [u8; MAX_STOPS],
    positions: [u8; MAX_STOPS],
}

/// A route with the legs from its first stop to each, and from each back to the first.
#[derive(Clone, Copy)]
pub struct Route<'a> {
    pub vehicle: usize,
    pub stops: &'a [u8],
    pub forward: &'a [u32],
    pub backward: &'a [u32],
    pub price: u64,
}

impl Plan {
    /// The plan with nothing placed.
    pub fn new(day: &Day) -> Self {
        let mut plan = Self {
            stops: [[0; MAX_STOPS]; MAX_VEHICLES],
            counts: [0; MAX_VEHICLES],
            forward: [[0; MAX_STOPS]; MAX_VEHICLES],
            backward: [[0; MAX_STOPS]; MAX_VEHICLES],
            prices: [0; MAX_VEHICLES],
            placed: 0,
            vehicles: [0; MAX_STOPS],
            positions: [0; MAX_STOPS],
        };

        for vehicle in 0..day.vehicle_count {
            plan.set_route(day, vehicle, &[]);
        }

        plan
    }

    pub fn from_routes(day: &Day, routes: &Routes) -> Self {
        let mut plan = Self::new(day);

        for (vehicle, route) in routes.iter().enumerate() {
            let stops = route.iter().map(|&stop| stop as u8).collect::<Vec<_>>();

            plan.set_route(day, vehicle, &stops);
        }

        plan
    }

    pub fn to_routes(&self, day: &Day) -> Routes {
        (0..day.vehicle_count)
            .map(|vehicle| {
                let stops = self.route(vehicle).stops;

                stops.iter().map(|&stop| stop as usize).collect()
            })
            .collect()
    }

    pub fn route(&self, vehicle: usize) -> Route<'_> {
        let count = self.counts[vehicle];

        Route {
            vehicle,
            stops: &self.stops[vehicle][..count],
            forward: &self.forward[vehicle][..count],
            backward: &self.backward[vehicle][..count],
            price: self.prices[vehicle],
        }
    }

    pub fn is_placed(&self, stop: usize) -> bool {
        self.placed >> stop & 1 == 1
    }

    pub fn placed_count(&self) -> usize {
        self.placed.count_ones() as usize
    }

    /// The vehicle and the position of a placed stop.
    pub fn place(&self, stop: usize) -> (usize, usize) {
        (self.vehicles[stop] as usize, self.positions[stop] as usize)
    }

    pub fn driving_cost(&self, day: &Day) -> u64 {
        self.prices[..day.vehicle_count].iter().sum()
    }

    pub fn cost(&self, day: &Day) -> u64 {
        self.driving_cost(day) + day.missed_price(self.placed_count())
    }

    /// Marks the stops of a part of a route as unplaced. The route is to be set anew.
    pub fn drain(&mut self, stops: &[u8]) {
        for &stop in stops {
            self.placed &= !(1 << stop);
        }
    }

    /// Gives a vehicle a route of stops that are on no other.
    pub fn set_route(&mut self, day: &Day, vehicle: usize, stops: &[u8]) {
        let end = VEHICLE + vehicle;
        let mut from = end;
        let mut forward = 0;
        let mut backward = 0;
        let mut length = 0;

        for (position, &stop) in stops.iter().enumerate() {
            let stop = stop as usize;
            let leg = day.leg(from, stop);

            if position > 0 {
                forward += leg;
                backward += day.leg(stop, from);
            } else {
                length = leg;
            }

            self.stops[vehicle][position] = stop as u8;
            self.forward[vehicle][position] = forward;
            self.backward[vehicle][position] = backward;
            self.vehicles[stop] = vehicle as u8;
            self.positions[stop] = position as u8;
            self.placed |= 1 << stop;
            from = stop;
        }

        self.counts[vehicle] = stops.len();
        self.prices[vehicle] = day.price(length + forward + day.leg(from, end));
    }
}
