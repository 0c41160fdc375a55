mod calculator;
mod distance;

pub use calculator::{CostCalculator, DeliveryCostCalculator};
pub use distance::DistanceCostCalculator;
