use crate::{Stop, Vehicle};
use core::{BasicProblem, Location};

#[derive(Debug)]
pub struct Problem {
    vehicles: Vec<Vehicle>,
    stops: Vec<Stop>,
    locations: Vec<Location>,
}

impl Problem {
    pub fn new(vehicles: Vec<Vehicle>, stops: Vec<Stop>, locations: Vec<Location>) -> Self {
        Self {
            vehicles,
            stops,
            locations,
        }
    }

    pub fn vehicles(&self) -> &[Vehicle] {
        &self.vehicles
    }

    pub fn stops(&self) -> &[Stop] {
        &self.stops
    }
}

impl BasicProblem<Vehicle, Stop> for Problem {
    fn vehicle_count(&self) -> usize {
        self.vehicles.len()
    }

    fn vehicle(&self, index: usize) -> &Vehicle {
        &self.vehicles[index]
    }

    fn stop_count(&self) -> usize {
        self.stops.len()
    }

    fn stop(&self, index: usize) -> &Stop {
        &self.stops[index]
    }

    fn location_count(&self) -> usize {
        self.locations.len()
    }

    fn location(&self, index: usize) -> &Location {
        &self.locations[index]
    }
}
