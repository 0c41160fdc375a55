pub mod cost;
mod hash_map;
mod problem;
pub mod route;
mod solution;
pub mod solve;
mod stop;
mod utility;
mod vehicle;

pub use problem::Problem;
pub use solution::Solution;
pub use stop::Stop;
pub use vehicle::Vehicle;
